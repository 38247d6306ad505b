//! A stand-in for what the crate calls of ilattice, written from document 01, 'Voxels and their places': the box has its
//! maximum included, the interior is one in from each side, and points are scanned x fastest, then y, then z. It is not ilattice.

pub mod glam;

pub mod prelude {
    pub use crate::Extent;
}

use crate::glam::{IVec3, UVec3};
use std::ops::{Add, Sub};

/// What an extent needs of its points.
pub trait Point: Copy + Add<Output = Self> + Sub<Output = Self> {
    const ONE: Self;
}

impl Point for UVec3 {
    const ONE: Self = UVec3::ONE;
}

impl Point for IVec3 {
    const ONE: Self = IVec3::ONE;
}

/// A box of points: its minimum, and how many points it has along each axis.
#[derive(Clone, Copy, Debug, Eq, PartialEq)]
pub struct Extent<V> {
    pub minimum: V,
    pub shape: V,
}

impl<V: Point> Extent<V> {
    #[inline]
    pub fn from_min_and_shape(minimum: V, shape: V) -> Self {
        Self { minimum, shape }
    }

    /// The box from `minimum` to `max`, both included.
    #[inline]
    pub fn from_min_and_max(minimum: V, max: V) -> Self {
        Self { minimum, shape: max - minimum + V::ONE }
    }

    /// One past the last point on each axis.
    #[inline]
    pub fn least_upper_bound(&self) -> V {
        self.minimum + self.shape
    }
}

impl Extent<IVec3> {
    /// The box grown by `by` on every side; shrunk where it is negative.
    #[inline]
    pub fn padded(&self, by: i32) -> Self {
        Self { minimum: self.minimum - IVec3::ONE * by, shape: self.shape + IVec3::ONE * (2 * by) }
    }
}

impl Extent<UVec3> {
    /// The box, if it has a point on every axis.
    #[inline]
    pub fn check_positive_shape(&self) -> Option<Self> {
        let s = self.shape;
        if s.x > 0 && s.y > 0 && s.z > 0 {
            Some(*self)
        } else {
            None
        }
    }

    /// Whether every point of this box is one of the other.
    #[inline]
    pub fn is_subset_of(&self, other: &Self) -> bool {
        let (a, b) = (self.minimum, other.minimum);
        let (c, d) = (self.least_upper_bound(), other.least_upper_bound());
        a.x >= b.x && a.y >= b.y && a.z >= b.z && c.x <= d.x && c.y <= d.y && c.z <= d.z
    }

    /// The points, x fastest, then y, then z.
    #[inline]
    pub fn iter3(&self) -> Points {
        let end = self.least_upper_bound();
        let mut next = self.minimum;
        if self.shape.x == 0 || self.shape.y == 0 {
            next.z = end.z;
        }
        Points { next, from: self.minimum, end }
    }
}

impl Add<UVec3> for Extent<UVec3> {
    type Output = Self;
    #[inline]
    fn add(self, by: UVec3) -> Self {
        Self { minimum: self.minimum + by, shape: self.shape }
    }
}

/// Three counters. All points are given when z has reached its end.
pub struct Points {
    next: UVec3,
    from: UVec3,
    end: UVec3,
}

impl Iterator for Points {
    type Item = UVec3;

    #[inline]
    fn next(&mut self) -> Option<UVec3> {
        if self.next.z == self.end.z {
            return None;
        }
        let p = self.next;
        self.next.x += 1;
        if self.next.x == self.end.x {
            self.next.x = self.from.x;
            self.next.y += 1;
            if self.next.y == self.end.y {
                self.next.y = self.from.y;
                self.next.z += 1;
            }
        }
        Some(p)
    }
}
