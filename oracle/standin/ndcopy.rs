//! A stand-in for what the crate calls of ndcopy: a box of an array is set to one value. It is not ndcopy.

use ndshape::Shape;

/// Sets the box that begins at `min` and is `size` large. A row along x is contiguous and is filled as one.
#[inline]
pub fn fill3<T, S>(size: [u32; 3], value: T, array: &mut [T], shape: &S, min: [u32; 3])
where
    T: Clone,
    S: Shape<3, Coord = u32>,
{
    let y_stride = shape.linearize([0, 1, 0]) as usize;
    let z_stride = shape.linearize([0, 0, 1]) as usize;
    let width = size[0] as usize;
    let mut slice = shape.linearize(min) as usize;
    for _ in 0..size[2] {
        let mut row = slice;
        for _ in 0..size[1] {
            array[row..row + width].fill(value.clone());
            row += y_stride;
        }
        slice += z_stride;
    }
}
