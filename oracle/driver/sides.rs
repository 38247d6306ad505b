//! The two sides that are called through C: the product, and the second reading of the documents (which is not the oracle).

use crate::call::{Decimal, Draw, Drawn, Mesh, Meshed, Obj, Spelled, Written, BEFORE};

type GreedyQuads = unsafe extern "C" fn(
    *const u32, *const u32, *const u32, *const i32, *const u16, usize, *mut u8, usize, *mut u32, usize, *mut u64,
);
type VisibleBlockFaces =
    unsafe extern "C" fn(*const u32, *const u32, *const u32, *const i32, *const u16, usize, *mut u32, usize, *mut u64);
type Corner = unsafe extern "C" fn(i32, u32, *const u32, u32, f32, *mut u32) -> u32;
type Corners = unsafe extern "C" fn(i32, u32, *const u32, *mut u32) -> u32;
type Normal = unsafe extern "C" fn(i32, u32, *mut u32) -> u32;
type Indices = unsafe extern "C" fn(i32, u32, u32, *mut u32) -> u32;
type TexCoords = unsafe extern "C" fn(i32, u32, u32, bool, *const u32, *mut u32) -> u32;
type WriteObj = unsafe extern "C" fn(*const i32, *const u64, *const u32, usize, *mut u8, usize, *mut u64);
type SpellDecimal = unsafe extern "C" fn(u32, *mut u8, usize) -> usize;

/// The calls of one side. Outputs of f32 numbers are handed over as words, so that their bits are seen.
pub struct Side {
    greedy_quads: GreedyQuads,
    visible_block_faces: VisibleBlockFaces,
    corner: Corner,
    corners: Corners,
    normal: Normal,
    indices: Indices,
    tex_coords: TexCoords,
    write_obj: WriteObj,
    decimal: SpellDecimal,
}

macro_rules! side {
    (
        $side:ident, $greedy:ident, $unit:ident, $corner:ident, $corners:ident, $normal:ident, $indices:ident, $tex:ident,
        $obj:ident, $decimal:ident
    ) => {
        extern "C" {
            fn $greedy(
                shape: *const u32, min: *const u32, max: *const u32, faces: *const i32, voxels: *const u16, voxels_len: usize,
                visited: *mut u8, visited_len: usize, out: *mut u32, out_len: usize, answer: *mut u64,
            );
            fn $unit(
                shape: *const u32, min: *const u32, max: *const u32, faces: *const i32, voxels: *const u16, voxels_len: usize,
                out: *mut u32, out_len: usize, answer: *mut u64,
            );
            fn $corner(sign: i32, permutation: u32, quad: *const u32, corner: u32, size: f32, out: *mut u32) -> u32;
            fn $corners(sign: i32, permutation: u32, quad: *const u32, out: *mut u32) -> u32;
            fn $normal(sign: i32, permutation: u32, out: *mut u32) -> u32;
            fn $indices(sign: i32, permutation: u32, start: u32, out: *mut u32) -> u32;
            fn $tex(sign: i32, permutation: u32, axis: u32, flip_v: bool, quad: *const u32, out: *mut u32) -> u32;
            fn $obj(
                faces: *const i32, counts: *const u64, quads: *const u32, quads_len: usize, out: *mut u8, out_len: usize,
                answer: *mut u64,
            );
            fn $decimal(n: u32, scratch: *mut u8, scratch_len: usize) -> usize;
        }
        pub static $side: Side = Side {
            greedy_quads: $greedy,
            visible_block_faces: $unit,
            corner: $corner,
            corners: $corners,
            normal: $normal,
            indices: $indices,
            tex_coords: $tex,
            write_obj: $obj,
            decimal: $decimal,
        };
    };
}

side!(
    READING, reading_greedy_quads, reading_visible_block_faces, reading_corner, reading_corners,
    reading_normal, reading_indices, reading_tex_coords, reading_write_obj, reading_decimal
);

#[cfg(product)]
side!(
    PRODUCT, spunmarrow_greedy_quads, spunmarrow_visible_block_faces, spunmarrow_corner, spunmarrow_corners,
    spunmarrow_normal, spunmarrow_indices, spunmarrow_tex_coords, spunmarrow_write_obj, spunmarrow_decimal
);

/// The product, where its archive is linked.
pub fn product() -> Option<&'static Side> {
    #[cfg(product)]
    return Some(&PRODUCT);
    #[cfg(not(product))]
    None
}

extern "C" {
    fn reading_signed_axis(sign: i32, axis: u32, out: *mut u32) -> u32;
    fn reading_signed_axis_of_vector(vector: *const i32, out: *mut u32) -> u32;
    fn reading_canonical(sign: i32, axis: u32, out: *mut u32) -> u32;
}

/// A buffer between two guards.
struct Lent<T> {
    all: Vec<T>,
    guard: T,
}

const GUARD: usize = 8;

impl<T: Copy + PartialEq> Lent<T> {
    fn new(of: &[T], guard: T) -> Self {
        let mut all = Vec::with_capacity(of.len() + 2 * GUARD);
        all.extend_from_slice(&[guard; GUARD]);
        all.extend_from_slice(of);
        all.extend_from_slice(&[guard; GUARD]);
        Lent { all, guard }
    }

    fn len(&self) -> usize {
        self.all.len() - 2 * GUARD
    }

    fn part(&mut self) -> *mut T {
        self.all[GUARD..].as_mut_ptr()
    }

    fn kept(&self) -> bool {
        let end = self.all.len() - GUARD;
        self.all[..GUARD].iter().chain(&self.all[end..]).all(|g| *g == self.guard)
    }

    fn after(&self) -> Vec<T> {
        self.all[GUARD..self.all.len() - GUARD].to_vec()
    }
}

impl Side {
    /// Runs a mesher. The guards of the voxels are bad ones, so that a mesher that reads them is likely to answer otherwise.
    pub fn mesh(&self, call: &Mesh) -> Meshed {
        let mut voxels = Lent::new(&call.voxels, 0xFFFF);
        let mut visited = Lent::new(&call.visited, 0x5A);
        let mut out = Lent::new(&call.out, 0x5A5A_5A5A);
        let mut answer = Lent::new(&[u64::MAX; 9], 0x5A5A);
        let (shape, min, max, faces) = (call.shape, call.min, call.max, call.faces);
        let (voxels_len, visited_len, out_len) = (voxels.len(), visited.len(), out.len());
        unsafe {
            if call.greedy {
                (self.greedy_quads)(
                    shape.as_ptr(), min.as_ptr(), max.as_ptr(), faces.as_ptr(), voxels.part(), voxels_len, visited.part(),
                    visited_len, out.part(), out_len, answer.part(),
                )
            } else {
                (self.visible_block_faces)(
                    shape.as_ptr(), min.as_ptr(), max.as_ptr(), faces.as_ptr(), voxels.part(), voxels_len, out.part(),
                    out_len, answer.part(),
                )
            }
        }
        let guards = voxels.kept() && visited.kept() && out.kept() && answer.kept();
        let lent = voxels.all[GUARD..GUARD + voxels_len] == call.voxels[..];
        let small = shape == call.shape && min == call.min && max == call.max && faces == call.faces;
        let mut numbers = [0; 9];
        numbers.copy_from_slice(&answer.after());
        Meshed { answer: numbers, visited: visited.after(), out: out.after(), kept: guards && lent && small }
    }

    /// Runs a call of geometry.
    pub fn draw(&self, call: &Draw) -> Drawn {
        let mut words = [BEFORE; 16];
        let out = words.as_mut_ptr();
        let refusal = unsafe {
            match *call {
                Draw::Corner { sign, permutation, quad, corner, size } => {
                    (self.corner)(sign, permutation, quad.as_ptr(), corner, size, out)
                }
                Draw::Corners { sign, permutation, quad } => (self.corners)(sign, permutation, quad.as_ptr(), out),
                Draw::Normal { sign, permutation } => (self.normal)(sign, permutation, out),
                Draw::Indices { sign, permutation, start } => (self.indices)(sign, permutation, start, out),
                Draw::TexCoords { sign, permutation, axis, flip_v, quad } => {
                    (self.tex_coords)(sign, permutation, axis, flip_v, quad.as_ptr(), out)
                }
                Draw::SignedAxis { sign, axis } => reading_signed_axis(sign, axis, out),
                Draw::OfVector { vector } => reading_signed_axis_of_vector(vector.as_ptr(), out),
                Draw::Canonical { sign, axis } => reading_canonical(sign, axis, out),
            }
        };
        Drawn { refusal, words }
    }

    /// Runs the OBJ writer. The guards of the list are bad quads, so that a writer that reads them is likely to answer otherwise.
    pub fn obj(&self, call: &Obj) -> Written {
        let mut quads = Lent::new(&call.quads, u32::MAX);
        let mut written = self.obj_of(call.faces, call.counts, quads.part(), quads.len(), &call.out);
        written.kept &= quads.kept() && quads.all[GUARD..GUARD + call.quads.len()] == call.quads[..];
        written
    }

    /// Runs the OBJ writer on a list that lies anywhere: `len` numbers from `quads` on.
    pub fn obj_of(&self, faces: [i32; 12], counts: [u64; 6], quads: *const u32, len: usize, out: &[u8]) -> Written {
        let mut out = Lent::new(out, 0x5A);
        let mut answer = Lent::new(&[u64::MAX; 3], 0x5A5A);
        let (lent_faces, lent_counts) = (faces, counts);
        let out_len = out.len();
        unsafe { (self.write_obj)(lent_faces.as_ptr(), lent_counts.as_ptr(), quads, len, out.part(), out_len, answer.part()) }
        let kept = out.kept() && answer.kept() && lent_faces == faces && lent_counts == counts;
        let mut numbers = [0; 3];
        numbers.copy_from_slice(&answer.after());
        Written { answer: numbers, out: out.after(), kept }
    }

    /// Runs the decimal formatter.
    pub fn decimal(&self, call: &Decimal) -> Spelled {
        let mut scratch = Lent::new(&call.scratch, 0x5A);
        let digits = unsafe { (self.decimal)(call.n, scratch.part(), call.scratch.len()) };
        Spelled { digits, scratch: scratch.after(), kept: scratch.kept() }
    }
}
