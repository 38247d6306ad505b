//! The oracle: the crate's own text, over the stand-ins. It has no refusals, so it is asked only what is accepted.

use crate::call::{Draw, Mesh, Obj};
use block_mesh::ilattice::glam::IVec3;
use block_mesh::ndshape::RuntimeShape3;
use block_mesh::{
    greedy_quads, visible_block_faces, Axis, AxisPermutation, GreedyQuadsBuffer, MergeVoxel, OrientedBlockFace, SignedAxis,
    UnitQuadBuffer, UnorientedQuad, Voxel, VoxelVisibility,
};
use std::cell::RefCell;
use std::fmt::Write;

/// Document 01's voxel: class and merge value of a 16-bit number. No voxel of class 3 lies in an accepted box.
#[derive(Clone, Copy)]
pub struct Cell(pub u16);

#[inline]
fn visibility(voxel: u16) -> VoxelVisibility {
    match voxel >> 14 {
        0 => VoxelVisibility::Empty,
        1 => VoxelVisibility::Translucent,
        _ => VoxelVisibility::Opaque,
    }
}

impl Voxel for Cell {
    #[inline]
    fn get_visibility(&self) -> VoxelVisibility {
        visibility(self.0)
    }
}

impl MergeVoxel for Cell {
    type MergeValue = u16;

    #[inline]
    fn merge_value(&self) -> u16 {
        self.0 & 0x3FFF
    }
}

const PERMUTATIONS: [AxisPermutation; 6] = [
    AxisPermutation::Xyz,
    AxisPermutation::Zxy,
    AxisPermutation::Yzx,
    AxisPermutation::Zyx,
    AxisPermutation::Xzy,
    AxisPermutation::Yxz,
];
const AXES: [Axis; 3] = [Axis::X, Axis::Y, Axis::Z];

fn face(sign: i32, permutation: u32) -> OrientedBlockFace {
    OrientedBlockFace::new(sign, PERMUTATIONS[permutation as usize])
}

pub fn faces(numbers: &[i32; 12]) -> [OrientedBlockFace; 6] {
    [0, 1, 2, 3, 4, 5].map(|i| face(numbers[2 * i], numbers[2 * i + 1] as u32))
}

/// The six groups, one list of numbers each, laid out as in the product's output.
pub fn mesh(call: &Mesh) -> [Vec<u32>; 6] {
    let cells: Vec<Cell> = call.voxels.iter().map(|&v| Cell(v)).collect();
    let (shape, faces) = (RuntimeShape3::new(call.shape), faces(&call.faces));
    if call.greedy {
        let mut buffer = GreedyQuadsBuffer::new(cells.len());
        greedy_quads(&cells, &shape, call.min, call.max, &faces, &mut buffer);
        buffer.quads.groups.map(|g| g.iter().flat_map(|q| [q.minimum[0], q.minimum[1], q.minimum[2], q.width, q.height]).collect())
    } else {
        let mut buffer = UnitQuadBuffer::new();
        visible_block_faces(&cells, &shape, call.min, call.max, &faces, &mut buffer);
        buffer.groups.map(|g| g.iter().flat_map(|q| q.minimum).collect())
    }
}

/// The OBJ text of an accepted list. The crate writes none: its corners and its indices are put into document 02's lines.
pub fn obj(call: &Obj) -> String {
    let mut text = String::from("o mesh\n");
    let groups = faces(&call.faces).into_iter().zip(call.counts).flat_map(|(f, count)| (0..count).map(move |_| f));
    for (number, (face, q)) in groups.zip(call.quads.chunks(5)).enumerate() {
        let quad = UnorientedQuad { minimum: [q[0], q[1], q[2]], width: q[3], height: q[4] };
        for c in face.quad_corners(&quad).map(|c| c.to_array()) {
            writeln!(text, "v {} {} {}", c[0], c[1], c[2]).expect("a line");
        }
        for i in face.quad_mesh_indices(4 * number as u32).chunks(3) {
            writeln!(text, "f {} {} {}", i[0] + 1, i[1] + 1, i[2] + 1).expect("a line");
        }
    }
    text
}

fn words(parts: &[f32]) -> Vec<u32> {
    parts.iter().map(|p| p.to_bits()).collect()
}

fn signed_axis(axis: SignedAxis) -> Vec<u32> {
    vec![axis.unsigned_axis().index() as u32, axis.signum() as u32]
}

/// What an accepted call of geometry writes, as bits.
pub fn draw(call: &Draw) -> Vec<u32> {
    let quad = |q: [u32; 5]| UnorientedQuad { minimum: [q[0], q[1], q[2]], width: q[3], height: q[4] };
    match *call {
        Draw::Corner { sign, permutation, quad: q, corner, size } => {
            words(&face(sign, permutation).quad_mesh_positions(&quad(q), size)[corner as usize])
        }
        Draw::Corners { sign, permutation, quad: q } => {
            face(sign, permutation).quad_corners(&quad(q)).iter().flat_map(|c| c.to_array()).collect()
        }
        Draw::Normal { sign, permutation } => {
            let all = face(sign, permutation).quad_mesh_normals();
            assert!(all.iter().all(|n| words(n) == words(&all[0])), "four normals that differ");
            words(&all[0])
        }
        Draw::Indices { sign, permutation, start } => face(sign, permutation).quad_mesh_indices(start).to_vec(),
        Draw::TexCoords { sign, permutation, axis, flip_v, quad: q } => {
            face(sign, permutation).tex_coords(AXES[axis as usize], flip_v, &quad(q)).iter().flat_map(|t| words(t)).collect()
        }
        Draw::SignedAxis { sign, axis } => signed_axis(SignedAxis::new(sign, AXES[axis as usize])),
        Draw::OfVector { vector } => signed_axis(SignedAxis::from_vector(IVec3::from(vector)).expect("one axis")),
        Draw::Canonical { sign, axis } => {
            let made = OrientedBlockFace::canonical(SignedAxis::new(sign, AXES[axis as usize]));
            let is = |s: i32, p: u32| made == face(s, p);
            (0..12).map(|i| (if i < 6 { 1 } else { -1 }, i % 6)).find(|&(s, p)| is(s, p)).map(|(s, p)| vec![s as u32, p]).expect("a face")
        }
    }
}

// ---- the test count, read off the Rust's own text

thread_local! {
    static ASKED: RefCell<Vec<usize>> = RefCell::new(Vec::new());
}

/// A voxel that notes each time its visibility is asked for.
#[derive(Clone, Copy)]
struct Watched(u16);

impl Voxel for Watched {
    fn get_visibility(&self) -> VoxelVisibility {
        ASKED.with(|a| a.borrow_mut().push(self as *const Watched as usize));
        visibility(self.0)
    }
}

impl MergeVoxel for Watched {
    type MergeValue = u16;

    fn merge_value(&self) -> u16 {
        self.0 & 0x3FFF
    }
}

/// How many voxels the Rust's greedy mesher tests, all six faces together. A test (`face_needs_mesh`) asks for a voxel's
/// visibility; then, unless that is empty or the voxel visited, for its neighbour's; and then, if the neighbour is
/// translucent, for the voxel's own once more. A visited voxel's test is never followed by one of its neighbour along n:
/// that would be the next slice's first voxel, with the visited one the first and last of its slice.
pub fn tests(call: &Mesh) -> u64 {
    let cells: Vec<Watched> = call.voxels.iter().map(|&v| Watched(v)).collect();
    let shape = RuntimeShape3::new(call.shape);
    let strides = [1, call.shape[0] as usize, call.shape[0] as usize * call.shape[1] as usize];
    let mut count = 0;
    for (i, one) in faces(&call.faces).iter().enumerate() {
        let (sign, permutation) = (call.faces[2 * i], PERMUTATIONS[call.faces[2 * i + 1] as usize]);
        let stride = strides[permutation.axes()[0].index()] * std::mem::size_of::<Watched>();
        let mut buffer = GreedyQuadsBuffer::new(cells.len());
        ASKED.with(|a| a.borrow_mut().clear());
        greedy_quads(&cells, &shape, call.min, call.max, &[*one; 6], &mut buffer);
        let asked = ASKED.with(|a| a.take());

        let class = |address: usize| cells[(address - cells.as_ptr() as usize) / std::mem::size_of::<Watched>()].0 >> 14;
        let (mut at, mut all) = (0, 0);
        while at < asked.len() {
            let own = asked[at];
            all += 1;
            at += 1;
            let neighbour = if sign > 0 { own.wrapping_add(stride) } else { own.wrapping_sub(stride) };
            if class(own) != 0 && at < asked.len() && asked[at] == neighbour {
                at += 1;
                if class(neighbour) == 1 {
                    assert_eq!(asked[at], own, "the test of a voxel asks in another order");
                    at += 1;
                }
            }
        }
        assert_eq!(all % 6, 0, "six equal faces give unequal tests");
        count += all / 6;
    }
    count
}
