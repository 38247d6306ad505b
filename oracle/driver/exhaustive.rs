//! Small shapes, every one of a kind.

use crate::call::Mesh;
use crate::compare::Tally;

pub const O: u16 = 2 << 14;
pub const T: u16 = 1 << 14;

/// Twelve faces in two calls of six: each permutation once with each sign.
pub const TWELVE: [[i32; 12]; 2] = [[1, 0, -1, 1, 1, 2, -1, 3, 1, 4, -1, 5], [-1, 0, 1, 1, -1, 2, 1, 3, -1, 4, 1, 5]];

/// A call over a whole block, with room for every quad that it could list.
pub fn whole(greedy: bool, shape: [u32; 3], faces: [i32; 12], voxels: Vec<u16>) -> Mesh {
    let room = voxels.len() * if greedy { 30 } else { 18 };
    let visited = if greedy { vec![0xA5; voxels.len()] } else { vec![] };
    Mesh { greedy, shape, min: [0; 3], max: shape.map(|a| a - 1), faces, voxels, visited, out: vec![0xA5A5_A5A5; room] }
}

fn all_faces(tally: &mut Tally, shape: [u32; 3], voxels: &[u16]) {
    for faces in TWELVE {
        for greedy in [true, false] {
            tally.mesh(&whole(greedy, shape, faces, voxels.to_vec()));
        }
    }
}

/// Calls `each` with every block whose voxels at `places` are, one by one, any of that place's choices; the others are empty.
fn every(size: usize, places: &[(usize, &[u16])], each: &mut dyn FnMut(&[u16])) {
    let mut block = vec![0; size];
    let total: usize = places.iter().map(|p| p.1.len()).product();
    for number in 0..total {
        let mut rest = number;
        for (place, choices) in places {
            block[*place] = choices[rest % choices.len()];
            rest /= choices.len();
        }
        each(&block);
    }
}

const CLASSES: [u16; 3] = [0, T + 7, O + 7];
const FILLED_OR_NOT: [u16; 2] = [0, O + 7];
/// Two merge values, both classes that show, and empty.
const TWO_VALUES: [u16; 5] = [0, O + 7, O + 8, T + 7, T + 8];

/// Every 3×3×3 whose interior voxel and its six neighbours are empty, translucent or opaque.
pub fn threes(tally: &mut Tally) {
    let places: Vec<(usize, &[u16])> = [13, 12, 14, 10, 16, 4, 22].iter().map(|&i| (i, &CLASSES[..])).collect();
    every(27, &places, &mut |block| all_faces(tally, [3, 3, 3], block));
}

/// Every 4×3×3, 3×4×3 and 3×3×4 whose two interior voxels are empty or of two merge values, each translucent or opaque, and
/// whose ten neighbours are empty or opaque; translucent too, if `deep`.
pub fn fours(tally: &mut Tally, deep: bool) {
    let border: &[u16] = if deep { &CLASSES } else { &FILLED_OR_NOT };
    for long in 0..3 {
        let mut shape = [3, 3, 3];
        shape[long] = 4;
        let strides = [1, shape[0] as usize, (shape[0] * shape[1]) as usize];
        let first = strides[0] + strides[1] + strides[2];
        let interior = [first, first + strides[long]];
        let mut places: Vec<(usize, &[u16])> = interior.iter().map(|&i| (i, &TWO_VALUES[..])).collect();
        for i in interior {
            for s in strides {
                for n in [i - s, i + s] {
                    if !interior.contains(&n) {
                        places.push((n, border));
                    }
                }
            }
        }
        every(36, &places, &mut |block| all_faces(tally, shape, block));
    }
}

/// Every block with an interior of two by two in one slice: the four voxels are empty or of two merge values, translucent or
/// opaque, and the four above them are empty, translucent or opaque; below lies the mirror image. The faces are the four of
/// that slice's axis, two of them twice.
pub fn squares(tally: &mut Tally) {
    for thin in 0..3 {
        let mut shape = [4, 4, 4];
        shape[thin] = 3;
        let strides = [1, shape[0] as usize, (shape[0] * shape[1]) as usize];
        let first = strides[0] + strides[1] + strides[2];
        let (a, b) = (strides[(thin + 1) % 3], strides[(thin + 2) % 3]);
        let interior = [first, first + a, first + b, first + a + b];
        let mut places: Vec<(usize, &[u16])> = interior.iter().map(|&i| (i, &TWO_VALUES[..])).collect();
        places.extend(interior.iter().map(|&i| (i + strides[thin], &CLASSES[..])));
        // the two permutations with this axis as n: Xyz and Xzy, Yzx and Yxz, Zxy and Zyx
        let (even, odd) = [(0, 4), (2, 5), (1, 3)][thin];
        let faces = [1, even, -1, odd, 1, odd, -1, even, 1, even, -1, odd];
        every(48, &places, &mut |block| {
            let mut block = block.to_vec();
            for i in interior {
                block[i - strides[thin]] = block[i + strides[thin]];
            }
            tally.mesh(&whole(true, shape, faces, block));
        });
    }
}
