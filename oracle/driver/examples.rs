//! Document 01's examples E1 to E15, with its results: both the Rust's text and the second reading are held to them.

use crate::call::{Draw, Mesh};
use crate::compare::{by_rust, Tally};
use crate::exhaustive::{whole, O, T};

/// A block over which the box lies whole. Where document 01 names one face it is given six times.
pub struct Example {
    name: &'static str,
    pub shape: [u32; 3],
    pub faces: [i32; 12],
    pub voxels: Vec<u16>,
    /// What each of the six groups has.
    quads: &'static [[u32; 5]],
    /// The tests of all six faces, where document 01 says how many.
    tests: Option<u64>,
}

pub const CANONICAL: [i32; 12] = [-1, 0, -1, 2, -1, 1, 1, 0, 1, 2, 1, 1];

/// An empty block with the given voxels set.
pub fn filled(shape: [u32; 3], at: &[([u32; 3], u16)]) -> Vec<u16> {
    let mut voxels = vec![0; (shape[0] * shape[1] * shape[2]) as usize];
    for (p, v) in at {
        voxels[(p[0] + shape[0] * (p[1] + shape[1] * p[2])) as usize] = *v;
    }
    voxels
}

/// E1 to E9; E8 is two.
pub fn examples() -> Vec<Example> {
    let one = |sign: i32, permutation: i32| [sign, permutation, sign, permutation, sign, permutation, sign, permutation, sign, permutation, sign, permutation];
    let (o7, o8, t7) = (O + 7, O + 8, T + 7);
    let (flat, wide, long) = ([4, 4, 3], [4, 3, 4], [4, 3, 3]);
    let at = |x: u32, z: u32, v: u16| ([x, 1, z], v);
    let example = |name, shape, faces, set: &[([u32; 3], u16)], quads, tests: Option<u64>| Example { name, shape, faces, voxels: filled(shape, set), quads, tests };
    vec![
        example("E1", [3; 3], CANONICAL, &[([1, 1, 1], o7)], &[[1, 1, 1, 1, 1]], Some(12)),
        example("E2", flat, one(1, 1), &[([1, 1, 1], o7)], &[[1, 1, 1, 1, 1]], Some(6 * 7)),
        example("E3", flat, one(1, 1), &[([1, 1, 1], o7), ([2, 1, 1], o7), ([1, 2, 1], o7), ([2, 2, 1], o7)], &[[1, 1, 1, 2, 2]], Some(6 * 8)),
        example("E4", wide, one(1, 2), &[at(1, 1, o7), at(2, 1, o8), at(1, 2, o7), at(2, 2, o8)], &[[1, 1, 1, 2, 1], [2, 1, 1, 2, 1]], Some(6 * 9)),
        example("E5", wide, one(1, 2), &[at(1, 1, o7), at(2, 1, o7), at(1, 2, o8), at(2, 2, o8)], &[[1, 1, 1, 1, 2], [1, 1, 2, 1, 2]], None),
        example("E6", wide, one(1, 2), &[at(2, 1, o7), at(1, 2, o7), at(2, 2, o7)], &[[2, 1, 1, 2, 1], [1, 1, 2, 1, 1]], Some(6 * 8)),
        example("E7", long, one(1, 0), &[([1, 1, 1], t7), ([2, 1, 1], t7)], &[[2, 1, 1, 1, 1]], None),
        example("E8 +X", long, one(1, 0), &[([1, 1, 1], o7), ([2, 1, 1], t7)], &[[1, 1, 1, 1, 1], [2, 1, 1, 1, 1]], None),
        example("E8 -X", long, one(-1, 0), &[([1, 1, 1], o7), ([2, 1, 1], t7)], &[[1, 1, 1, 1, 1]], None),
        example("E9", long, one(1, 1), &[([1, 1, 1], o7), ([2, 1, 1], t7)], &[[1, 1, 1, 2, 1]], None),
    ]
}

/// Runs E1 to E15.
pub fn run(tally: &mut Tally) {
    for e in examples() {
        let call = whole(true, e.shape, e.faces, e.voxels.clone());
        let reading = tally.mesh(&call);
        let rust = by_rust(&call);
        let listing: Vec<u32> = (0..6).flat_map(|_| e.quads.concat()).collect();
        tally.expect(e.name, rust.written == listing && reading.out.starts_with(&listing));
        tally.expect(e.name, e.tests.map_or(true, |t| reading.answer[8] == t && rust.tests == Some(t)));
    }
    let refusal = |tally: &mut Tally, name: &str, call: &Mesh, number: u64, place: u64| {
        let answer = tally.mesh(call).answer;
        tally.expect(name, answer[0] == number && answer[1] == place);
    };
    let mut e12 = whole(true, [3; 3], CANONICAL, filled([3; 3], &[([1, 1, 1], O + 7)]));
    e12.out = vec![0; 25];
    refusal(tally, "E12, capacity 5", &e12, 9, 5);
    e12.out = vec![0; 30];
    refusal(tally, "E12, capacity 6", &e12, 0, 0);
    e12.out = vec![];
    e12.voxels = vec![0; 27];
    refusal(tally, "E12, all empty", &e12, 0, 0);
    for (name, long, number) in [("E13, span 2", 2, 0), ("E13, span 1", 1, 5), ("E13, axis 256", 256, 0), ("E13, axis 257", 257, 1)] {
        let shape = [long, 3, 3];
        refusal(tally, name, &whole(true, shape, CANONICAL, filled(shape, &[])), number, 0);
    }

    let drawn = |tally: &mut Tally, name: &str, call: Draw, number: u32, words: &[u32]| {
        let left = tally.draw(&call);
        tally.expect(name, left.refusal == number && left.words.starts_with(words));
    };
    let quad = [1, 2, 3, 4, 5];
    drawn(tally, "E10 +X", Draw::Corners { sign: 1, permutation: 0, quad }, 0, &[2, 2, 3, 2, 6, 3, 2, 2, 8, 2, 6, 8]);
    drawn(tally, "E10 -X", Draw::Corners { sign: -1, permutation: 0, quad }, 0, &[1, 2, 3, 1, 6, 3, 1, 2, 8, 1, 6, 8]);
    let pairs: [f32; 8] = [4.0, 0.0, 0.0, 0.0, 4.0, 5.0, 0.0, 5.0];
    drawn(tally, "E11", Draw::TexCoords { sign: 1, permutation: 0, axis: 0, flip_v: false, quad }, 0, &pairs.map(f32::to_bits));
    drawn(tally, "E14", Draw::Indices { sign: 1, permutation: 0, start: 4_294_967_292 }, 0, &[4_294_967_292]);
    drawn(tally, "E14, one more", Draw::Indices { sign: 1, permutation: 0, start: 4_294_967_293 }, 13, &[]);
    let e15 = Draw::Corner { sign: 1, permutation: 0, quad: [5, 1, 1, 1, 1], corner: 0, size: 0.25 };
    drawn(tally, "E15", e15, 0, &[1.5f32.to_bits()]);
}
