//! Random calls of the meshers: every shape around each limit, boxes, faces, buffers, and damaged copies of good input.

use crate::call::Mesh;
use crate::examples::CANONICAL;
use crate::exhaustive::{O, T};
use crate::random::Random;
use crate::sides::READING;

const OTHER_SIGNS: [i32; 8] = [0, 2, -2, 3, 7, -128, i32::MAX, i32::MIN];
const OTHER_PERMUTATIONS: [i32; 6] = [6, 7, -1, 255, i32::MAX, i32::MIN];
const BAD: u16 = 3 << 14;

/// A block is kept to about so many voxels.
const MOST: u64 = 9_000;

/// A random call. Its output is filled with what could be quads, its visited bytes are dirty.
pub fn call(random: &mut Random) -> Mesh {
    let shape = shape(random);
    let size = shape.iter().map(|&a| a as u64).fold(1, u64::saturating_mul).min(MOST) as usize;
    let (min, max) = limits(random, shape);
    let greedy = random.percent(60);
    let mut call = Mesh { greedy, shape, min, max, faces: faces(random), voxels: voxels(random, shape, min, max, size), visited: vec![], out: vec![] };
    if random.percent(20) {
        damage(random, &mut call);
    }
    buffers(random, &mut call);
    call
}

fn shape(random: &mut Random) -> [u32; 3] {
    let kind = random.below(100);
    let mut shape = [0; 3];
    for axis in &mut shape {
        *axis = match kind {
            0..=59 => random.between(2, 7),
            60..=79 => random.between(3, 5),
            _ => random.pick(&[0, 1, 2, 3, 3, 3, 4, 4, 5, 6]),
        };
    }
    let one = random.below(3);
    match kind {
        0..=74 => {}
        75..=79 => shape[one] = random.between(8, 40),
        80..=94 => shape[one] = random.pick(&[1, 2, 3, 254, 255, 256, 257]),
        95..=97 => shape[one] = random.pick(&[0, 257, 258, 511, 512, 65_536, 1 << 31, u32::MAX]),
        _ => shape = [0; 3].map(|_| random.next() as u32 >> random.below(32)),
    }
    shape
}

/// The box: whole, inside the shape, of two along an axis, or anything near a limit.
fn limits(random: &mut Random, shape: [u32; 3]) -> ([u32; 3], [u32; 3]) {
    let (mut min, mut max) = ([0; 3], shape.map(|a| a.wrapping_sub(1)));
    let kind = random.below(100);
    for axis in 0..3 {
        let last = max[axis];
        match kind {
            0..=49 => {}
            50..=79 if last > 0 && last < 1024 => {
                min[axis] = random.between(0, last - 1);
                max[axis] = random.between(min[axis] + 1, last);
                if random.percent(60) {
                    min[axis] = min[axis] / 2;
                    max[axis] = last - (last - max[axis]) / 2;
                }
            }
            80..=86 if random.percent(40) && last > 0 => {
                min[axis] = random.below(last as usize) as u32;
                max[axis] = min[axis] + 1;
            }
            87..=99 if random.percent(50) => {
                let near = [0, 1, 2, last.wrapping_sub(1), last, last.wrapping_add(1), u32::MAX, last / 2];
                min[axis] = random.pick(&near);
                max[axis] = random.pick(&near);
            }
            _ => {}
        }
    }
    (min, max)
}

pub fn faces(random: &mut Random) -> [i32; 12] {
    let mut faces = CANONICAL;
    let kind = random.below(100);
    let same = (random.pick(&[1, -1]), random.below(6) as i32);
    for f in faces.chunks_mut(2) {
        match kind {
            0..=19 => continue,
            20..=84 => {
                f[0] = random.pick(&[1, -1]);
                f[1] = random.below(6) as i32;
            }
            _ => {
                f[0] = same.0;
                f[1] = same.1;
            }
        }
    }
    let one = random.below(6);
    match kind {
        92..=95 => faces[2 * one] = random.pick(&OTHER_SIGNS),
        96..=97 => faces[2 * one + 1] = random.pick(&OTHER_PERMUTATIONS),
        98 => faces[2 * one] = random.next() as i32,
        99 => faces[2 * one + 1] = random.next() as i32,
        _ => {}
    }
    faces
}

/// `size` voxels and sometimes a few more or less. Outside the box anything may lie; inside it a bad voxel is rare.
fn voxels(random: &mut Random, shape: [u32; 3], min: [u32; 3], max: [u32; 3], size: usize) -> Vec<u16> {
    let palette: Vec<u16> = match random.below(6) {
        0 => vec![O + 7],
        1 => vec![O + 7, O + 8],
        2 => vec![O + 7, T + 7],
        3 => vec![O + 7, O + 8, T + 7, T + 8],
        4 => vec![O, T, O + 16383, T + 16383],
        _ => (0..6).map(|_| (random.next() as u16) % BAD).collect(),
    };
    let empties: &[u16] = if random.percent(20) { &[0, 7, 16383] } else { &[0] };
    let empty = random.pick(&[0, 5, 30, 50, 80, 98]);
    let again = random.pick(&[0, 0, 60, 90]);
    let mut last = 0;
    let mut all: Vec<u16> = (0..size)
        .map(|_| {
            if !random.percent(again) {
                last = if random.percent(empty) { random.pick(empties) } else { random.pick(&palette) };
            }
            last
        })
        .collect();

    let outside_bad = random.percent(20);
    let (wide, tall) = (shape[0] as usize, shape[1] as usize);
    if outside_bad && wide * tall > 0 {
        for (i, v) in all.iter_mut().enumerate() {
            let p = [i % wide, i / wide % tall, i / wide / tall];
            let inside = (0..3).all(|a| p[a] >= min[a] as usize && p[a] <= max[a] as usize);
            if !inside && random.percent(50) {
                *v = BAD + (random.next() as u16 % BAD);
            }
        }
    }
    if random.percent(4) && size > 0 {
        for _ in 0..random.between(1, 3) {
            let at = random.below(size);
            all[at] = BAD + random.pick(&[0, 7, 16383]);
        }
    }
    match random.below(100) {
        0..=9 => all.extend((0..random.between(1, 5)).map(|i| if i % 2 == 0 { BAD } else { O })),
        10..=12 => {
            all.pop();
        }
        13 => all.truncate(random.below(size + 1)),
        14 => all.clear(),
        _ => {}
    }
    all
}

/// Flips up to three bits, or sets a number to one near a limit, anywhere in the call.
fn damage(random: &mut Random, call: &mut Mesh) {
    for _ in 0..random.between(1, 3) {
        let bit = 1u32 << random.below(32);
        let low = 1u32 << random.below(9);
        let axis = random.below(3);
        match random.below(8) {
            0 => call.shape[axis] ^= if random.percent(80) { low } else { bit },
            1 => call.min[axis] ^= if random.percent(80) { low } else { bit },
            2 => call.max[axis] ^= if random.percent(80) { low } else { bit },
            3 => call.faces[random.below(12)] ^= bit as i32,
            4 => call.min[axis] = call.max[axis],
            5 => std::mem::swap(&mut call.min[axis], &mut call.max[axis]),
            _ if !call.voxels.is_empty() => {
                let at = random.below(call.voxels.len());
                call.voxels[at] ^= 1 << random.below(16);
            }
            _ => {}
        }
    }
}

/// Visited bytes and output: exact, one short, one long, none, or plenty.
fn buffers(random: &mut Random, call: &mut Mesh) {
    let size = call.size().min(2 * MOST) as usize;
    if call.greedy {
        let len = match random.below(100) {
            0..=59 => size,
            60..=74 => size + 1,
            75..=84 => size + random.below(40),
            85..=91 => size.saturating_sub(1),
            92..=94 => random.below(size + 1),
            95..=96 => 0,
            _ => size + 100,
        };
        let clean = random.percent(20);
        call.visited = (0..len).map(|_| if clean { 0 } else { random.next() as u8 }).collect();
    }

    let item = call.item();
    let plenty = 6 * call.voxels.len() * item;
    call.out = vec![0; plenty];
    let len = if random.percent(55) {
        plenty.min(40 + random.below(plenty + 1))
    } else {
        let quads: u64 = READING.mesh(call).answer[2..8].iter().sum();
        let exact = quads as usize * item;
        match random.below(10) {
            0..=2 => exact,
            3 => exact.saturating_sub(1),
            4 => exact.saturating_sub(item),
            5 => exact + 1,
            6 => exact + item,
            7 => random.below(exact + 1),
            8 => random.below(item),
            _ => exact + item - 1,
        }
    };
    call.out = (0..len).map(|_| random.next() as u32 >> random.pick(&[0, 24])).collect();
}
