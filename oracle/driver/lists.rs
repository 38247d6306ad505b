//! Random lists for the OBJ writer, good and bad, and the lists of greedy meshes handed on as they are.

use crate::call::{Mesh, Obj};
use crate::compare::Tally;
use crate::meshes;
use crate::random::Random;
use crate::sides::READING;

/// The axes n, u and v of each permutation.
const AXES: [[usize; 3]; 6] = [[0, 1, 2], [2, 0, 1], [1, 2, 0], [2, 1, 0], [0, 2, 1], [1, 0, 2]];

/// No quad's text is longer than this.
const MOST: usize = 138;

/// A quad within the limits, for a face of that permutation, often at one of them.
fn quad(random: &mut Random, permutation: i32) -> [u32; 5] {
    let [n, u, v] = AXES[permutation.rem_euclid(6) as usize];
    let mut quad = [0; 5];
    for (axis, side) in [(u, 3), (v, 4)] {
        quad[side] = match random.below(10) {
            0..=6 => random.between(1, 12),
            7..=8 => random.between(1, 256),
            _ => random.pick(&[1, 2, 255, 256]),
        };
        let room = 256 - quad[side];
        quad[axis] = if random.percent(30) { room.min(255) } else { random.between(0, room.min(255)) };
    }
    quad[n] = if random.percent(10) { 255 } else { random.between(0, 255) };
    quad
}

/// Makes a quad that is outside the limits, or that would be for a face of other axes.
fn spoil(random: &mut Random, quad: &mut [u32]) {
    let (axis, side) = (random.below(3), 3 + random.below(2));
    match random.below(8) {
        0 => quad[side] = 0,
        1 => quad[axis] = random.pick(&[256, 257, 511, 65_536, 1 << 31, u32::MAX]),
        2 => quad[side] = 257 - quad[axis].min(256),
        3 => quad[side] = random.pick(&[256, 257, 65_536, 1 << 31, u32::MAX]),
        // the sum of minimum and width wraps to a small number
        4 => quad[side] = 0u32.wrapping_sub(quad[axis]).wrapping_add(random.between(0, 200)),
        5 => quad.swap(3, 4),
        6 => quad.swap(axis, (axis + 1) % 3),
        _ => quad[random.below(5)] ^= 1 << random.below(32),
    }
}

/// Counts that say more, or less, than the list has; some of them wrap to what it has.
fn miscount(random: &mut Random, counts: &mut [u64; 6]) {
    let (one, other) = (random.below(6), random.below(6));
    match random.below(7) {
        0 => counts[one] += 1,
        1 => counts[one] = counts[one].saturating_sub(1),
        2 => counts.swap(one, other),
        3 => counts[one] = random.next() >> random.below(64),
        4 => {
            // the six sum to what they did, plus 2 to the 64th
            counts[one] = counts[one].wrapping_sub(1);
            counts[other] = counts[other].wrapping_add(1);
        }
        5 => {
            let half = 1 << 63;
            counts[one] = counts[one].wrapping_add(half);
            counts[other] = counts[other].wrapping_add(half);
        }
        _ => counts[one] = u64::MAX - random.below(3) as u64,
    }
}

/// A random call, mostly accepted or refused for want of room.
pub fn call(random: &mut Random) -> Obj {
    let faces = meshes::faces(random);
    let most = random.pick(&[0, 1, 1, 2, 3, 5, 9, 30]);
    let mut counts = [0; 6];
    let mut quads = Vec::new();
    for group in 0..6 {
        counts[group] = if random.percent(40) { 0 } else { random.below(most + 1) as u64 };
        for _ in 0..counts[group] {
            quads.extend(quad(random, faces[2 * group + 1]));
        }
    }
    if random.percent(12) && !quads.is_empty() {
        for _ in 0..random.between(1, 2) {
            let at = 5 * random.below(quads.len() / 5);
            spoil(random, &mut quads[at..at + 5]);
        }
    }
    // what lies past the last quad is never read
    match random.below(100) {
        0..=14 => quads.extend((0..random.between(1, 4)).map(|_| random.next() as u32)),
        15..=29 => quads.extend((0..random.between(5, 23)).map(|_| random.next() as u32 >> random.pick(&[0, 24]))),
        30..=33 => quads.truncate(quads.len().saturating_sub(random.between(1, 6) as usize)),
        34 => quads.clear(),
        _ => {}
    }
    if random.percent(8) {
        miscount(random, &mut counts);
    }
    let mut call = Obj { faces, counts, quads, out: vec![] };
    lend(random, &mut call);
    call
}

/// The output: exact, one short, one long, none, a part, or as long as any text of so many quads.
fn lend(random: &mut Random, call: &mut Obj) {
    let plenty = 7 + MOST * (call.quads.len() / 5);
    call.out = vec![0; plenty];
    let exact = READING.obj(call).answer[2] as usize;
    let length = match random.below(20) {
        0..=5 => exact,
        6..=7 => exact.saturating_sub(1),
        8..=9 => exact + 1,
        10 => 0,
        11 => random.below(9),
        12..=14 => random.below(exact + 1),
        15..=16 => exact + random.below(200),
        _ => plenty,
    };
    call.out = (0..length).map(|_| random.next() as u8).collect();
}

/// A random greedy mesh, and where it is accepted its text: the faces, the counts and the whole output of the mesher are handed
/// on, and only a short output can be refused.
pub fn mesh_and_text(tally: &mut Tally, random: &mut Random) {
    let mesh: Mesh = meshes::call(random);
    if !mesh.greedy {
        return;
    }
    let left = tally.mesh(&mesh);
    if left.answer[0] != 0 {
        return;
    }
    let mut counts = [0; 6];
    counts.copy_from_slice(&left.answer[2..8]);
    let mut call = Obj { faces: mesh.faces, counts, quads: left.out, out: vec![] };
    lend(random, &mut call);
    let written = tally.obj(&call);
    tally.promised("an accepted greedy mesh is written, or refused by 15", &call, &written, [0, 15].contains(&written.answer[0]));
}

/// A list so long that its vertex numbers have up to seven digits.
pub fn long(tally: &mut Tally, seed: u64) {
    let mut random = Random::new(seed);
    let faces = crate::exhaustive::TWELVE[0];
    let counts = [24, 226, 2_250, 22_500, 200_000, 40_000];
    let mut quads = Vec::new();
    for group in 0..6 {
        for _ in 0..counts[group] {
            quads.extend(quad(&mut random, faces[2 * group + 1]));
        }
    }
    let plenty = 7 + MOST * (quads.len() / 5);
    let mut call = Obj { faces, counts, quads, out: vec![7; plenty] };
    let exact = tally.obj(&call).answer[2] as usize;
    for length in [exact, exact - 1] {
        call.out.truncate(length);
        tally.obj(&call);
    }
}
