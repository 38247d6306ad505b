//! The calls of the replay list: document 01's examples, each refusal with its places and with every other refusal, each
//! limit, every face, buffers exact and off by one, and a few random calls of each outcome.

use crate::call::{Draw, Mesh, BEFORE};
use crate::draws::SIZES;
use crate::examples::{examples, filled, CANONICAL};
use crate::exhaustive::{whole, O, T, TWELVE};
use crate::meshes;
use crate::random::Random;
use crate::replay::DIRTY;
use crate::sides::READING;

/// Sets the buffers' lengths: the output in numbers, and the visited bytes for greedy.
fn lend(mut call: Mesh, visited: usize, out: usize) -> Mesh {
    call.visited = if call.greedy { vec![DIRTY; visited] } else { vec![] };
    call.out = vec![BEFORE; out];
    call
}

/// An output with room for what the call lists and `more` numbers.
fn roomy(call: Mesh, more: usize) -> Mesh {
    let size = call.voxels.len();
    let listed = READING.mesh(&call).answer[2..8].iter().sum::<u64>() as usize * call.item();
    lend(call, size, listed + more)
}

/// E1, accepted, with an output that is exactly full.
fn e1(greedy: bool) -> Mesh {
    roomy(whole(greedy, [3; 3], CANONICAL, filled([3; 3], &[([1, 1, 1], O + 7)])), 0)
}

/// Turns an accepted 3×3×3 into one that a refusal applies to. Different refusals touch different axes, so that two apply at once.
fn spoil(call: &mut Mesh, refusal: u32) {
    match refusal {
        17 => call.faces[5] = 6,
        1 => call.shape[2] = 257,
        2 => call.voxels.truncate(26),
        3 => call.min[2] = call.max[2] + 1,
        4 => call.max[0] = 3,
        5 => call.min[1] = call.max[1],
        6 => call.faces[8] = 0,
        7 => call.visited.truncate(26),
        8 => call.voxels[13] = 3 << 14,
        _ => {
            call.out.pop();
        }
    }
}

const ORDER: [u32; 10] = [17, 1, 2, 3, 4, 5, 6, 7, 8, 9];

/// Each refusal alone, at each of its places, and every two at once.
fn refusals(greedy: bool) -> Vec<Mesh> {
    let mut all = Vec::new();
    let mut add = |change: &dyn Fn(&mut Mesh)| {
        let mut call = e1(greedy);
        change(&mut call);
        all.push(call);
    };
    for (i, one) in ORDER.iter().enumerate() {
        add(&|c| spoil(c, *one));
        for other in &ORDER[i + 1..] {
            // unit meshing's order is the same without 7; the pairs are run for greedy alone
            if greedy {
                add(&|c| {
                    spoil(c, *other);
                    spoil(c, *one)
                });
            }
        }
    }
    for axis in 0..3 {
        for a in [0, 257, u32::MAX] {
            add(&|c| c.shape[axis] = a);
        }
        add(&|c| c.min[axis] = 3);
        add(&|c| c.max[axis] = u32::MAX);
        add(&|c| c.min[axis] = 2);
        add(&|c| {
            c.min[axis] = u32::MAX;
            c.max[axis] = u32::MAX
        });
    }
    for face in 0..6 {
        add(&|c| c.faces[2 * face] = [0, 2, -2, 7, i32::MAX, i32::MIN][face]);
        add(&|c| c.faces[2 * face + 1] = [6, -1, 7, 255, i32::MAX, i32::MIN][face]);
    }
    for bad in [0, 26, 4] {
        add(&|c| {
            c.voxels[bad] = 3 << 14;
            c.voxels[26] = 3 << 14
        });
    }
    add(&|c| {
        c.voxels.clear();
        c.visited.clear();
        c.out.clear()
    });
    all
}

/// Buffers exact, one short and one long; bad voxels that are not in the box, or past the shape.
fn lengths(greedy: bool) -> Vec<Mesh> {
    let call = e1(greedy);
    let exact = call.out.len();
    let mut all: Vec<Mesh> = [0, 1, exact - call.item() - 1, exact - call.item(), exact - 1, exact, exact + 1, exact + 7].iter().map(|&n| lend(call.clone(), 27, n)).collect();
    if greedy {
        all.extend([0, 26, 27, 28, 40].iter().map(|&n| lend(call.clone(), n, exact)));
    }
    let mut empty = call.clone();
    empty.voxels = vec![0; 27];
    all.push(lend(empty, 27, 0));
    let mut longer = call.clone();
    longer.voxels.extend([3 << 14, O + 1]);
    all.push(lend(longer, 28, exact));
    all
}

/// A block of a few merge values and classes with no symmetry, the same every time.
fn mixed(shape: [u32; 3], seed: u64) -> Vec<u16> {
    let mut random = Random::new(seed);
    let mut last = 0;
    (0..shape[0] * shape[1] * shape[2])
        .map(|_| {
            if random.percent(55) {
                last = random.pick(&[0, 0, O + 7, O + 8, T + 7]);
            }
            last
        })
        .collect()
}

/// Each axis at each limit, boxes inside a shape, and spans of two.
fn shapes(greedy: bool) -> Vec<Mesh> {
    let mut all = Vec::new();
    for axis in 0..3 {
        for long in [1, 2, 4, 255, 256, 257] {
            let mut shape = [3; 3];
            shape[axis] = long;
            let mut ends = Vec::new();
            for at in [1, 2, long.max(2) - 2] {
                let mut p = [1; 3];
                p[axis] = at;
                if at > 0 && at + 1 < long {
                    ends.push((p, O + 7));
                }
            }
            all.push(roomy(whole(greedy, shape, CANONICAL, filled(shape, &ends)), 1));
        }
    }
    let shape = [5, 4, 6];
    for (min, max) in [([1, 0, 2], [4, 3, 5]), ([0, 1, 1], [4, 3, 4]), ([2, 1, 0], [4, 3, 2]), ([0, 0, 0], [1, 3, 5]), ([0, 2, 0], [4, 3, 5]), ([0, 0, 4], [4, 3, 5])] {
        let mut call = whole(greedy, shape, TWELVE[0], mixed(shape, 5));
        call.min = min;
        call.max = max;
        // outside the box a bad voxel is not looked at
        if min != [0; 3] {
            call.voxels[0] = 3 << 14;
        }
        all.push(roomy(call, 3));
    }
    all
}

/// Every face on blocks without symmetry, and one face six times.
fn every_face(greedy: bool) -> Vec<Mesh> {
    let mut all = Vec::new();
    for (seed, shape) in [(1, [4, 5, 4]), (2, [5, 4, 4]), (3, [4, 4, 5])] {
        for faces in TWELVE {
            all.push(roomy(whole(greedy, shape, faces, mixed(shape, seed)), 2));
        }
    }
    all.push(roomy(whole(greedy, [4, 4, 4], [-1, 5, -1, 5, -1, 5, -1, 5, -1, 5, -1, 5], mixed([4, 4, 4], 4)), 0));
    all
}

/// Random calls: at most so many of each outcome, and none that is long to write down.
fn random(seed: u64) -> Vec<Mesh> {
    let mut random = Random::new(seed);
    let mut left = [4; 18];
    left[0] = 60;
    let mut all = Vec::new();
    for _ in 0..20_000 {
        let call = meshes::call(&mut random);
        let out = call.out.len().min(200);
        let visited = call.visited.len();
        let call = lend(call, visited, out);
        let changes = call.voxels.windows(2).filter(|w| w[0] != w[1]).count();
        let answer = READING.mesh(&call).answer;
        let quads: u64 = answer[2..8].iter().sum();
        let dull = answer[0] == 0 && quads < 3;
        if call.voxels.len() > 2400 || visited > 2400 || changes > 40 || quads > 40 || dull || left[answer[0] as usize] == 0 {
            continue;
        }
        left[answer[0] as usize] -= 1;
        all.push(call);
    }
    all
}

pub fn meshes(seed: u64) -> Vec<Mesh> {
    let mut all = Vec::new();
    for greedy in [true, false] {
        all.extend(examples().into_iter().map(|e| roomy(whole(greedy, e.shape, e.faces, e.voxels), 0)));
        all.extend(refusals(greedy));
        all.extend(lengths(greedy));
        all.extend(shapes(greedy));
        all.extend(every_face(greedy));
    }
    all.extend(random(seed));
    all
}

pub fn draws() -> Vec<Draw> {
    let mut all = Vec::new();
    let quad = [1, 2, 3, 4, 5];
    for permutation in 0..6 {
        for sign in [1, -1] {
            all.push(Draw::Normal { sign, permutation });
            all.push(Draw::Indices { sign, permutation, start: 8 });
            all.push(Draw::Corners { sign, permutation, quad });
            for corner in 0..4 {
                all.push(Draw::Corner { sign, permutation, quad, corner, size: 0.1 });
            }
            for axis in 0..3 {
                all.push(Draw::TexCoords { sign, permutation, axis, flip_v: axis == 1, quad });
            }
            all.push(Draw::TexCoords { sign, permutation, axis: 0, flip_v: true, quad });
        }
        // the limits go by the face's own u and v
        for quad in [[255; 5], [255, 255, 255, 1, 1], [0, 0, 0, 256, 256], [0, 0, 0, 257, 1], [0, 0, 0, 1, 257], [1, 0, 0, 256, 1], [0, 1, 0, 256, 1], [0, 0, 1, 256, 1], [1, 0, 0, 1, 256], [0, 1, 0, 1, 256], [0, 0, 1, 1, 256]] {
            all.push(Draw::Corners { sign: 1, permutation, quad });
        }
    }
    for quad in [[256, 0, 0, 1, 1], [0, 256, 0, 1, 1], [0, 0, 256, 1, 1], [1, 1, 1, 0, 1], [1, 1, 1, 1, 0], [0, u32::MAX, 0, 1, 1], [0, 1, 1, u32::MAX, 1]] {
        all.push(Draw::Corners { sign: 1, permutation: 0, quad });
        all.push(Draw::Corner { sign: 1, permutation: 0, quad, corner: 0, size: f32::NAN });
        all.push(Draw::TexCoords { sign: 1, permutation: 0, axis: 0, flip_v: false, quad });
    }
    for start in [0, 4_294_967_291, 4_294_967_292, 4_294_967_293, u32::MAX] {
        all.push(Draw::Indices { sign: 1, permutation: 3, start });
    }
    for bits in SIZES {
        all.push(Draw::Corner { sign: -1, permutation: 2, quad: [0, 255, 3, 4, 250], corner: 3, size: f32::from_bits(bits) });
    }
    for (sign, permutation) in [(0, 0), (2, 0), (-2, 4), (i32::MAX, 1), (i32::MIN, 3), (0, 6), (1, 6), (-1, u32::MAX)] {
        all.push(Draw::Normal { sign, permutation });
        all.push(Draw::Indices { sign, permutation, start: u32::MAX });
        all.push(Draw::Corners { sign, permutation, quad: [0; 5] });
        all.push(Draw::Corner { sign, permutation, quad: [0; 5], corner: 3, size: f32::NAN });
        all.push(Draw::TexCoords { sign, permutation, axis: 1, flip_v: true, quad: [0; 5] });
    }
    all.push(Draw::Corner { sign: 0, permutation: 0, quad: [0; 5], corner: 4, size: f32::NAN });
    all.push(Draw::TexCoords { sign: 0, permutation: 0, axis: 3, flip_v: false, quad: [0; 5] });
    for sign in [1, -1, 7, i32::MIN, 0] {
        for axis in 0..3 {
            all.push(Draw::SignedAxis { sign, axis });
        }
    }
    for sign in [1, -1] {
        for axis in 0..3 {
            all.push(Draw::Canonical { sign, axis });
        }
    }
    for vector in [[0, 0, 0], [5, 0, 0], [0, -5, 0], [0, 0, i32::MIN], [1, 1, 0], [1, 0, -1], [0, 2, 2], [1, 1, 1]] {
        all.push(Draw::OfVector { vector });
    }
    all
}
