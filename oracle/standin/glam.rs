//! A stand-in for what the crate calls of glam: vectors of three numbers whose sums and products go part by part, with the
//! operators of the part's own type (so they panic or wrap on overflow as the build says). It is not glam.

use std::ops::{Add, Mul, Neg, Sub};

#[derive(Clone, Copy, Debug, Eq, PartialEq)]
pub struct UVec3 {
    pub x: u32,
    pub y: u32,
    pub z: u32,
}

#[derive(Clone, Copy, Debug, Eq, PartialEq)]
pub struct IVec3 {
    pub x: i32,
    pub y: i32,
    pub z: i32,
}

#[derive(Clone, Copy, Debug, PartialEq)]
pub struct Vec3 {
    pub x: f32,
    pub y: f32,
    pub z: f32,
}

impl UVec3 {
    pub const ZERO: Self = Self { x: 0, y: 0, z: 0 };
    pub const ONE: Self = Self { x: 1, y: 1, z: 1 };
    pub const X: Self = Self { x: 1, y: 0, z: 0 };
    pub const Y: Self = Self { x: 0, y: 1, z: 0 };
    pub const Z: Self = Self { x: 0, y: 0, z: 1 };

    #[inline]
    pub fn as_ivec3(self) -> IVec3 {
        IVec3 { x: self.x as i32, y: self.y as i32, z: self.z as i32 }
    }

    #[inline]
    pub fn as_vec3(self) -> Vec3 {
        Vec3 { x: self.x as f32, y: self.y as f32, z: self.z as f32 }
    }

    #[inline]
    pub fn to_array(self) -> [u32; 3] {
        [self.x, self.y, self.z]
    }
}

impl IVec3 {
    pub const ONE: Self = Self { x: 1, y: 1, z: 1 };
    pub const X: Self = Self { x: 1, y: 0, z: 0 };
    pub const Y: Self = Self { x: 0, y: 1, z: 0 };
    pub const Z: Self = Self { x: 0, y: 0, z: 1 };

    #[inline]
    pub fn as_uvec3(self) -> UVec3 {
        UVec3 { x: self.x as u32, y: self.y as u32, z: self.z as u32 }
    }

    #[inline]
    pub fn as_vec3(self) -> Vec3 {
        Vec3 { x: self.x as f32, y: self.y as f32, z: self.z as f32 }
    }

    #[inline]
    pub fn to_array(self) -> [i32; 3] {
        [self.x, self.y, self.z]
    }
}

impl Vec3 {
    #[inline]
    pub fn to_array(self) -> [f32; 3] {
        [self.x, self.y, self.z]
    }
}

impl From<[u32; 3]> for UVec3 {
    #[inline]
    fn from(p: [u32; 3]) -> Self {
        Self { x: p[0], y: p[1], z: p[2] }
    }
}

impl From<[i32; 3]> for IVec3 {
    #[inline]
    fn from(p: [i32; 3]) -> Self {
        Self { x: p[0], y: p[1], z: p[2] }
    }
}

/// Sum and difference of two vectors, and a vector times a number, part by part.
macro_rules! part_by_part {
    ($vector:ident, $number:ty) => {
        impl Add for $vector {
            type Output = Self;
            #[inline]
            fn add(self, o: Self) -> Self {
                Self { x: self.x + o.x, y: self.y + o.y, z: self.z + o.z }
            }
        }

        impl Sub for $vector {
            type Output = Self;
            #[inline]
            fn sub(self, o: Self) -> Self {
                Self { x: self.x - o.x, y: self.y - o.y, z: self.z - o.z }
            }
        }

        impl Mul<$number> for $vector {
            type Output = Self;
            #[inline]
            fn mul(self, k: $number) -> Self {
                Self { x: self.x * k, y: self.y * k, z: self.z * k }
            }
        }
    };
}

part_by_part!(UVec3, u32);
part_by_part!(IVec3, i32);

impl Neg for IVec3 {
    type Output = Self;
    #[inline]
    fn neg(self) -> Self {
        Self { x: -self.x, y: -self.y, z: -self.z }
    }
}

impl Mul<Vec3> for f32 {
    type Output = Vec3;
    #[inline]
    fn mul(self, v: Vec3) -> Vec3 {
        Vec3 { x: self * v.x, y: self * v.y, z: self * v.z }
    }
}
