//! The two sides. Each keeps its buffers from call to call, so that what is measured is meshing and not allocation.

use block_mesh::ndshape::RuntimeShape3;
use block_mesh::{
    greedy_quads, visible_block_faces, GreedyQuadsBuffer, MergeVoxel, UnitQuadBuffer, Voxel, VoxelVisibility, RIGHT_HANDED_Y_UP_CONFIG,
};

/// What is meshed: a whole block, by its six cube faces.
pub struct Task {
    pub greedy: bool,
    pub size: u32,
    pub voxels: Vec<u16>,
}

impl Task {
    fn shape(&self) -> [u32; 3] {
        [self.size; 3]
    }

    fn max(&self) -> [u32; 3] {
        [self.size - 1; 3]
    }
}

pub trait Side {
    /// Meshes the block once more, into the same buffers.
    fn mesh(&mut self, task: &Task);

    /// The quads of the last call, all groups end to end, and every number of them.
    fn result(&self, task: &Task) -> (u64, Vec<u32>);
}

// ---- the Rust's text

/// A voxel as the Rust takes it: its class by the top two bits, its merge value by the others.
#[derive(Clone, Copy)]
#[repr(transparent)]
struct Cell(u16);

impl Voxel for Cell {
    #[inline]
    fn get_visibility(&self) -> VoxelVisibility {
        match self.0 >> 14 {
            0 => VoxelVisibility::Empty,
            1 => VoxelVisibility::Translucent,
            _ => VoxelVisibility::Opaque,
        }
    }
}

impl MergeVoxel for Cell {
    type MergeValue = u16;

    #[inline]
    fn merge_value(&self) -> u16 {
        self.0 & 0x3FFF
    }
}

pub struct Rust {
    cells: Vec<Cell>,
    greedy: GreedyQuadsBuffer,
    unit: UnitQuadBuffer,
}

impl Rust {
    pub fn new(task: &Task) -> Self {
        Rust {
            cells: task.voxels.iter().map(|&v| Cell(v)).collect(),
            greedy: GreedyQuadsBuffer::new(if task.greedy { task.voxels.len() } else { 0 }),
            unit: UnitQuadBuffer::new(),
        }
    }
}

impl Side for Rust {
    /// The greedy mesher resets its buffer itself; before the other one that is the caller's part.
    #[inline(never)]
    fn mesh(&mut self, task: &Task) {
        let (shape, faces) = (RuntimeShape3::new(task.shape()), &RIGHT_HANDED_Y_UP_CONFIG.faces);
        if task.greedy {
            greedy_quads(&self.cells, &shape, [0; 3], task.max(), faces, &mut self.greedy);
        } else {
            self.unit.reset();
            visible_block_faces(&self.cells, &shape, [0; 3], task.max(), faces, &mut self.unit);
        }
    }

    fn result(&self, task: &Task) -> (u64, Vec<u32>) {
        let mut numbers = Vec::new();
        if task.greedy {
            for q in self.greedy.quads.groups.iter().flatten() {
                numbers.extend_from_slice(&[q.minimum[0], q.minimum[1], q.minimum[2], q.width, q.height]);
            }
            (self.greedy.quads.num_quads() as u64, numbers)
        } else {
            for q in self.unit.groups.iter().flatten() {
                numbers.extend_from_slice(&q.minimum);
            }
            (self.unit.num_quads() as u64, numbers)
        }
    }
}

// ---- the product, through its C interface

extern "C" {
    fn spunmarrow_greedy_quads(
        shape: *const u32, min: *const u32, max: *const u32, faces: *const i32, voxels: *const u16, voxels_len: usize,
        visited: *mut u8, visited_len: usize, out: *mut u32, out_len: usize, answer: *mut u64,
    );
    fn spunmarrow_visible_block_faces(
        shape: *const u32, min: *const u32, max: *const u32, faces: *const i32, voxels: *const u16, voxels_len: usize,
        out: *mut u32, out_len: usize, answer: *mut u64,
    );
}

/// The same six faces in the same order, by sign and permutation's number.
pub const FACES: [i32; 12] = [-1, 4, -1, 2, -1, 1, 1, 4, 1, 2, 1, 1];

/// How many numbers a listed quad has.
fn numbers(task: &Task) -> usize {
    if task.greedy { 5 } else { 3 }
}

pub struct Ours {
    visited: Vec<u8>,
    out: Vec<u32>,
    answer: [u64; 9],
}

impl Ours {
    /// The output has room for six quads an interior voxel, which is always enough.
    pub fn new(task: &Task) -> Self {
        let across = task.size as usize - 2;
        Ours {
            visited: vec![0; if task.greedy { task.voxels.len() } else { 0 }],
            out: vec![0; 6 * across * across * across * numbers(task)],
            answer: [0; 9],
        }
    }

    /// The six counts and the quads of a block.
    pub fn mesh_once(mut self, task: &Task) -> ([u64; 6], Vec<u32>) {
        self.mesh(task);
        let mut counts = [0; 6];
        counts.copy_from_slice(&self.answer[2..8]);
        (counts, self.result(task).1)
    }
}

impl Side for Ours {
    #[inline(never)]
    fn mesh(&mut self, task: &Task) {
        let (shape, min, max) = (task.shape(), [0u32; 3], task.max());
        let (voxels, out) = (&task.voxels, &mut self.out);
        unsafe {
            if task.greedy {
                spunmarrow_greedy_quads(
                    shape.as_ptr(), min.as_ptr(), max.as_ptr(), FACES.as_ptr(), voxels.as_ptr(), voxels.len(),
                    self.visited.as_mut_ptr(), self.visited.len(), out.as_mut_ptr(), out.len(), self.answer.as_mut_ptr(),
                )
            } else {
                spunmarrow_visible_block_faces(
                    shape.as_ptr(), min.as_ptr(), max.as_ptr(), FACES.as_ptr(), voxels.as_ptr(), voxels.len(),
                    out.as_mut_ptr(), out.len(), self.answer.as_mut_ptr(),
                )
            }
        }
        assert_eq!(self.answer[0], 0, "refused");
    }

    fn result(&self, task: &Task) -> (u64, Vec<u32>) {
        let quads: u64 = self.answer[2..8].iter().sum();
        (quads, self.out[..quads as usize * numbers(task)].to_vec())
    }
}
