//! The OBJ writer and the decimal formatter: the worked examples of document 02's first request, every face with small quads and
//! with quads at each limit, every length of the output, and the refusals, each at each place and every few at once.

use crate::call::{Decimal, Obj};
use crate::compare::Tally;
use crate::draws::SIDES;
use crate::examples::filled;
use crate::exhaustive::{whole, O};
use crate::random::Random;
use crate::rust_side;

/// +X, -X, +Y, -Y, +Z, -Z.
pub const CUBE: [i32; 12] = [1, 0, -1, 0, 1, 2, -1, 2, 1, 1, -1, 1];

/// What a byte of the output, or of the scratch, holds before a call.
const BEFORE: u8 = b'z';

const ONE: [u32; 5] = [1, 1, 1, 1, 1];

/// A call with so many bytes of output.
fn call(faces: [i32; 12], counts: [u64; 6], quads: &[u32], out: usize) -> Obj {
    Obj { faces, counts, quads: quads.to_vec(), out: vec![BEFORE; out] }
}

/// One quad in one group, and an output that its text fills exactly.
fn alone(faces: [i32; 12], group: usize, quad: [u32; 5]) -> Obj {
    let mut counts = [0; 6];
    counts[group] = 1;
    exact(call(faces, counts, &quad, 0))
}

/// The same call, of which it is known that only the output can be too short, with an output that is filled exactly.
fn exact(mut call: Obj) -> Obj {
    call.out = vec![BEFORE; rust_side::obj(&call).len()];
    call
}

/// The faces of a cube with another one in place of one of them.
fn with_face(group: usize, sign: i32, permutation: i32) -> [i32; 12] {
    let mut faces = CUBE;
    faces[2 * group] = sign;
    faces[2 * group + 1] = permutation;
    faces
}

/// The worked examples, with their results.
pub fn examples(tally: &mut Tally) {
    // an accepted call whose lines from `from` on are these, and which writes so many bytes
    let text = |tally: &mut Tally, name: &str, call: &Obj, bytes: u64, from: usize, lines: &[&str]| {
        let left = tally.obj(call);
        let written = String::from_utf8_lossy(&left.out[..left.answer[2] as usize]).to_string();
        let has: Vec<&str> = written.lines().skip(from).take(lines.len()).collect();
        tally.expect(name, left.answer == [0, 0, bytes] && has == lines);
        tally.expect(name, written.starts_with("o mesh\n") && written.ends_with('\n'));
        tally.expect(name, left.out[bytes as usize..].iter().all(|&b| b == BEFORE));
    };
    let refused = |tally: &mut Tally, name: &str, call: &Obj, number: u64, place: u64| {
        let left = tally.obj(call);
        tally.expect(name, left.answer == [number, place, 0] && left.out == call.out);
    };

    let mut first = call(CUBE, [1, 0, 0, 0, 0, 0], &ONE, 55);
    let whole_file = ["o mesh", "v 2 1 1", "v 2 2 1", "v 2 1 2", "v 2 2 2", "f 1 2 3", "f 2 4 3"];
    text(tally, "OBJ 1", &first, 55, 0, &whole_file);
    first.out.push(BEFORE);
    text(tally, "OBJ 1, 56 bytes", &first, 55, 0, &whole_file);
    first.out.truncate(54);
    refused(tally, "OBJ 1, 54 bytes", &first, 15, 0);
    text(tally, "OBJ, no quads", &call(CUBE, [0; 6], &[], 7), 7, 0, &["o mesh"]);
    refused(tally, "OBJ, no quads, 6 bytes", &call(CUBE, [0; 6], &[], 6), 15, 0);

    let minus_x = call(with_face(0, -1, 0), [1, 0, 0, 0, 0, 0], &ONE, 55);
    text(tally, "OBJ 2", &minus_x, 55, 1, &["v 1 1 1", "v 1 2 1", "v 1 1 2", "v 1 2 2", "f 1 3 2", "f 2 3 4"]);

    let e1 = tally.mesh(&whole(true, [3; 3], CUBE, filled([3; 3], &[([1, 1, 1], O + 7)])));
    let mut counts = [0; 6];
    counts.copy_from_slice(&e1.answer[2..8]);
    let six = call(CUBE, counts, &e1.out, 318);
    text(tally, "OBJ 3, quad 2", &six, 318, 13, &["v 1 2 1", "v 1 2 2", "v 2 2 1", "v 2 2 2", "f 9 10 11", "f 10 12 11"]);
    text(tally, "OBJ 3, quad 5", &six, 318, 31, &["v 1 1 1", "v 2 1 1", "v 1 2 1", "v 2 2 1", "f 21 23 22", "f 22 23 24"]);

    let odd = call(with_face(0, 1, 4), [1, 0, 0, 0, 0, 0], &[1, 2, 3, 4, 5], 55);
    text(tally, "OBJ 4", &odd, 55, 1, &["v 2 2 3", "v 2 2 7", "v 2 7 3", "v 2 7 7", "f 1 3 2", "f 2 3 4"]);

    refused(tally, "OBJ 5, 9 numbers", &call(CUBE, [2, 0, 0, 0, 0, 0], &[1; 9], 99), 24, 0);
    refused(tally, "OBJ 5, a sum of 2^64", &call(CUBE, [u64::MAX, 1, 0, 0, 0, 0], &[], 99), 24, 0);

    let mut all = call(with_face(5, 0, 1), [1, 0, 0, 0, 0, 0], &[1, 1, 1, 0], 0);
    refused(tally, "OBJ 6, 4 numbers", &all, 24, 0);
    all.quads.push(1);
    refused(tally, "OBJ 6, 5 numbers", &all, 6, 5);
    all.faces = CUBE;
    refused(tally, "OBJ 6, its sign mended", &all, 12, 0);
    all.quads = ONE.to_vec();
    refused(tally, "OBJ 6, its quad mended", &all, 15, 0);

    refused(tally, "OBJ 7", &call(CUBE, [1, 1, 0, 0, 0, 0], &[1, 1, 1, 1, 1, 1, 1, 1, 0, 1], 999), 12, 1);

    for (name, n, scratch, left) in [
        ("OBJ 8, 0", 0, &b"zzz"[..], &b"0zz"[..]),
        ("OBJ 8, 9 bytes", 4_294_967_292, b"zzzzzzzzz", b"zzzzzzzzz"),
        ("OBJ 8, 10 bytes", 4_294_967_292, b"zzzzzzzzzz", b"4294967292"),
    ] {
        let spelled = tally.decimal(&Decimal { n, scratch: scratch.to_vec() });
        tally.expect(name, spelled.scratch == left && spelled.digits == left.iter().filter(|b| b.is_ascii_digit()).count());
    }
}

/// Every face in every group with every small quad; and every face with quads whose five numbers are each at a limit, in one
/// group after the other.
pub fn every_face(tally: &mut Tally) {
    for sign in [1, -1] {
        for permutation in 0..6 {
            for group in 0..6 {
                let faces = with_face(group, sign, permutation);
                for number in 0..8 * 9 {
                    let quad = [number & 1, number >> 1 & 1, number >> 2 & 1, 1 + number / 8 % 3, 1 + number / 24];
                    tally.obj(&alone(faces, group, quad));
                }
            }
            for number in 0..SIDES.len().pow(5) {
                let mut rest = number;
                let quad = [0; 5].map(|_| {
                    let side = SIDES[rest % SIDES.len()];
                    rest /= SIDES.len();
                    side
                });
                let group = number % 6;
                let mut counts = [0; 6];
                counts[group] = 1;
                tally.obj(&call(with_face(group, sign, permutation), counts, &quad, 79));
            }
        }
    }
}

/// Every length of the output from 0 to one more than the text: without quads, with one quad of each face, with one in each
/// group, and with numbers of one, two and three digits.
pub fn every_length(tally: &mut Tally) {
    let mut all = vec![exact(call(CUBE, [0; 6], &[], 0)), exact(call(CUBE, [1; 6], &[ONE; 6].concat(), 0))];
    for permutation in 0..6 {
        for sign in [1, -1] {
            all.push(alone(with_face(0, sign, permutation), 0, [9, 8, 254, 2, 1]));
        }
    }
    all.push(exact(call(CUBE, [0, 3, 0, 24, 0, 1], &[[99, 9, 199, 1, 1]; 28].concat(), 0)));
    for one in all {
        for length in 0..one.out.len() + 2 {
            tally.obj(&Obj { out: vec![BEFORE; length], ..one.clone() });
        }
    }
}

/// Turns an accepted call of two quads a group into one that a refusal applies to, at that face's or group's place.
fn spoil(call: &mut Obj, refusal: u32, place: usize) {
    match refusal {
        17 => call.faces[2 * place + 1] = [6, -1, 7, 255, i32::MAX, i32::MIN][place],
        24 => call.counts[place] += [1, 2, u64::MAX - 2, 1 << 32, 1 << 63, u64::MAX / 5][place],
        6 => call.faces[2 * place] = [0, 2, -2, 7, i32::MAX, i32::MIN][place],
        12 => call.quads[10 * place + place % 5] = if place % 5 < 3 { 256 } else { 0 },
        _ => {
            call.out.pop();
        }
    }
}

/// The refusals that apply to a list of twelve quads; 13 needs more than 1,073,741,823.
const ORDER: [u32; 5] = [17, 24, 6, 12, 15];

/// Every few refusals at once, each at each face or group; lists that are one number or one quad too short, and longer ones.
pub fn every_refusal(tally: &mut Tally) {
    let good = exact(call(CUBE, [2; 6], &[[3, 2, 1, 4, 5]; 12].concat(), 0));
    for chosen in 0..1 << ORDER.len() {
        for place in 0..6 {
            let mut call = good.clone();
            for (i, refusal) in ORDER.iter().enumerate().filter(|(i, _)| chosen >> i & 1 == 1) {
                spoil(&mut call, *refusal, (place + i) % 6);
            }
            tally.obj(&call);
        }
    }
    for length in 0..80 {
        let mut call = good.clone();
        call.quads.resize(length, u32::MAX);
        tally.obj(&call);
    }
    for quad in 0..12 {
        for (number, bad) in [(0, 256), (1, u32::MAX), (2, 256), (3, 0), (4, 0), (3, u32::MAX), (4, 257)] {
            let mut call = good.clone();
            call.quads[5 * quad + number] = bad;
            tally.obj(&call);
        }
    }
    // two at the same time: the first of them is the place
    for first in 0..6 {
        for second in 0..6 {
            for (refusal, other) in [(17, 17), (6, 6), (12, 12), (17, 6), (6, 12)] {
                let mut call = good.clone();
                spoil(&mut call, refusal, first);
                spoil(&mut call, other, second);
                tally.obj(&call);
            }
        }
    }
    // a bad face of a group without quads
    for group in 0..6 {
        for refusal in [17, 6] {
            let mut call = call(CUBE, [0; 6], &[], 7);
            spoil(&mut call, refusal, group);
            tally.obj(&call);
        }
    }
}

/// Numbers at each power of ten and of two, and one digit alone at each place, each with a scratch of 0 to 12 bytes.
pub fn decimals(tally: &mut Tally) {
    let mut numbers = vec![];
    for k in 0..10 {
        let ten = 10u32.pow(k);
        for digit in 1..=9u32 {
            numbers.extend(digit.checked_mul(ten).into_iter().flat_map(|n| [n - 1, n, n.saturating_add(1)]));
        }
    }
    for k in 0..32 {
        numbers.extend([(1u32 << k) - 1, 1 << k, (1 << k) + 1, u32::MAX - (1 << k), u32::MAX >> k]);
    }
    numbers.extend(0..2_000);
    for n in numbers {
        for length in 0..=12 {
            tally.decimal(&Decimal { n, scratch: vec![BEFORE; length] });
        }
    }
}

/// A random call of the formatter, of a number of any length.
pub fn decimal(random: &mut Random) -> Decimal {
    let n = random.next() as u32 >> random.below(32);
    let length = if random.percent(60) { random.below(13) } else { n.to_string().len() + random.below(2) };
    Decimal { n, scratch: (0..length).map(|_| random.next() as u8).collect() }
}
