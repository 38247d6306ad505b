//! Calls of geometry: every face with quads at each limit, then random ones.

use crate::call::Draw;
use crate::compare::Tally;
use crate::random::Random;

const SIGNS: [i32; 8] = [1, -1, 0, 2, -2, 7, i32::MAX, i32::MIN];
const PERMUTATIONS: [u32; 8] = [0, 1, 2, 3, 4, 5, 6, u32::MAX];
pub const SIDES: [u32; 6] = [0, 1, 254, 255, 256, u32::MAX];
const STARTS: [u32; 8] = [0, 1, 4, 65_535, 1 << 31, 4_294_967_291, 4_294_967_292, 4_294_967_293];

/// Sizes with something to them: zeros, ones, halves, what is not exact, the smallest and largest, infinities, NaNs.
pub const SIZES: [u32; 20] = [
    0x0000_0000, 0x8000_0000, 0x3F80_0000, 0xBF80_0000, 0x3E80_0000, 0x3DCC_CCCD, 0x3EAA_AAAB, 0x4049_0FDB, 0x0000_0001, 0x8000_0001,
    0x007F_FFFF, 0x0080_0000, 0x7F7F_FFFF, 0xFF7F_FFFF, 0x7B80_0000, 0x7B80_0001, 0x7F80_0000, 0xFF80_0000, 0x7FC0_0000, 0x7F80_0001,
];

/// Everything that can be asked of one face about one quad.
fn of_quad(tally: &mut Tally, sign: i32, permutation: u32, quad: [u32; 5], size: f32) {
    tally.draw(&Draw::Corners { sign, permutation, quad });
    for corner in 0..4 {
        tally.draw(&Draw::Corner { sign, permutation, quad, corner, size });
    }
    for axis in 0..3 {
        for flip_v in [false, true] {
            tally.draw(&Draw::TexCoords { sign, permutation, axis, flip_v, quad });
        }
    }
}

/// Every face, the refused ones too, with quads whose five numbers are each at a limit; every size and start.
pub fn limits(tally: &mut Tally) {
    for permutation in PERMUTATIONS {
        for sign in SIGNS {
            tally.draw(&Draw::Normal { sign, permutation });
            for start in STARTS {
                tally.draw(&Draw::Indices { sign, permutation, start });
            }
            for size in SIZES {
                for corner in [0, 1, 2, 3, 4, u32::MAX] {
                    let quad = [1, 2, 3, 4, 5];
                    tally.draw(&Draw::Corner { sign, permutation, quad, corner, size: f32::from_bits(size) });
                }
            }
            for axis in [0, 1, 2, 3, u32::MAX] {
                tally.draw(&Draw::TexCoords { sign, permutation, axis, flip_v: axis % 2 == 0, quad: [1, 2, 3, 4, 5] });
            }
        }
        for sign in [1, -1] {
            for number in 0..SIDES.len().pow(5) {
                let mut rest = number;
                let mut quad = [0; 5];
                for side in &mut quad {
                    *side = SIDES[rest % SIDES.len()];
                    rest /= SIDES.len();
                }
                // the whole of what can be asked where it is accepted or wrong in one number; else the corners alone
                let wrong = quad[..3].iter().filter(|&&m| m > 255).count() + quad[3..].iter().filter(|&&s| s == 0 || s > 256).count();
                if wrong <= 1 && permutation < 6 {
                    of_quad(tally, sign, permutation, quad, 0.1);
                } else {
                    tally.draw(&Draw::Corners { sign, permutation, quad });
                }
            }
        }
    }
    for sign in SIGNS {
        for axis in 0..3 {
            tally.draw(&Draw::SignedAxis { sign, axis });
            tally.draw(&Draw::Canonical { sign, axis });
        }
    }
    for number in 0..7 * 7 * 7 {
        let part = |n: i32| [0, 1, -1, 2, -7, i32::MAX, i32::MIN][n as usize % 7];
        tally.draw(&Draw::OfVector { vector: [part(number), part(number / 7), part(number / 49)] });
    }
}

/// A random call, mostly accepted.
pub fn call(random: &mut Random) -> Draw {
    let sign = if random.percent(92) { random.pick(&[1, -1]) } else { random.pick(&SIGNS) };
    let permutation = if random.percent(96) { random.below(6) as u32 } else { random.next() as u32 };
    let mut quad = [0; 5];
    for side in &mut quad[3..] {
        *side = match random.below(10) {
            0..=5 => random.between(1, 16),
            6..=8 => random.between(1, 256),
            _ => random.pick(&[0, 1, 2, 255, 256, 257, u32::MAX]),
        };
    }
    for i in 0..3 {
        quad[i] = match random.below(10) {
            0..=4 => random.between(0, 255),
            5..=7 => 256u32.wrapping_sub(random.pick(&[quad[3], quad[4]])).min(255),
            8 => 257u32.wrapping_sub(random.pick(&[quad[3], quad[4]])),
            _ => random.pick(&[0, 1, 255, 256, u32::MAX]),
        };
    }
    let size = match random.below(10) {
        0..=5 => f32::from_bits(random.next() as u32),
        6 => random.next() as f32 / 1e18,
        _ => f32::from_bits(random.pick(&SIZES)),
    };
    match random.below(10) {
        0..=3 => Draw::Corner { sign, permutation, quad, corner: if random.percent(98) { random.below(4) as u32 } else { random.next() as u32 }, size },
        4..=5 => Draw::Corners { sign, permutation, quad },
        6 => Draw::Normal { sign, permutation },
        7 => Draw::Indices { sign, permutation, start: if random.percent(50) { random.next() as u32 } else { random.pick(&STARTS) } },
        _ => Draw::TexCoords { sign, permutation, axis: if random.percent(96) { random.below(3) as u32 } else { random.next() as u32 }, flip_v: random.percent(50), quad },
    }
}
