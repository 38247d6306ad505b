//! A stand-in for what the crate calls of ndshape, written from document 01, 'Voxels and their places': voxel (x, y, z) of a
//! shape (X, Y, Z) has index x + X·y + X·Y·z, and indices and strides go modulo 2 to the 32nd. It is not ndshape.

/// The part of ndshape's trait that the crate asks for.
pub trait Shape<const N: usize> {
    type Coord;

    /// How many voxels the shape has.
    fn size(&self) -> Self::Coord;

    /// The shape's axes.
    fn as_array(&self) -> [Self::Coord; N];

    /// The index of a point; of a unit vector, the stride along it.
    fn linearize(&self, p: [Self::Coord; N]) -> Self::Coord;
}

/// A shape that is known when the program runs. Its two strides are kept, so that an index costs two products and two sums.
#[derive(Clone, Copy, Debug)]
pub struct RuntimeShape3 {
    axes: [u32; 3],
    y_stride: u32,
    z_stride: u32,
}

impl RuntimeShape3 {
    #[inline]
    pub fn new(axes: [u32; 3]) -> Self {
        Self { axes, y_stride: axes[0], z_stride: axes[0].wrapping_mul(axes[1]) }
    }
}

impl Shape<3> for RuntimeShape3 {
    type Coord = u32;

    #[inline]
    fn size(&self) -> u32 {
        self.z_stride.wrapping_mul(self.axes[2])
    }

    #[inline]
    fn as_array(&self) -> [u32; 3] {
        self.axes
    }

    #[inline]
    fn linearize(&self, p: [u32; 3]) -> u32 {
        p[0].wrapping_add(self.y_stride.wrapping_mul(p[1])).wrapping_add(self.z_stride.wrapping_mul(p[2]))
    }
}
