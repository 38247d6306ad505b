//! The OBJ writer on 1,073,741,823 quads and on one more, where 13 begins. A list of 2 to the 30th quads is 20 GiB long; one file
//! of ones, mapped again and again, is the whole of it, so that it takes next to no memory.

use crate::compare::Tally;
use crate::obj::CUBE;
use std::ffi::c_void;
use std::ptr::null_mut;

extern "C" {
    fn memfd_create(name: *const u8, flags: u32) -> i32;
    fn write(file: i32, bytes: *const u8, length: usize) -> isize;
    fn mmap(at: *mut c_void, length: usize, protection: i32, flags: i32, file: i32, offset: i64) -> *mut c_void;
}

/// PROT_READ, PROT_WRITE; MAP_PRIVATE, MAP_FIXED, MAP_ANONYMOUS, MAP_NORESERVE, as Linux has them.
const READ: i32 = 1;
const WRITE: i32 = 2;
const PRIVATE: i32 = 2;
const FIXED: i32 = 0x10;
const ANONYMOUS: i32 = 0x20;
const NORESERVE: i32 = 0x4000;

const QUADS: u64 = 1 << 30;
const NUMBERS: usize = 5 * QUADS as usize;
const PIECE: usize = 10 << 20;
const PIECES: usize = 4 * NUMBERS / PIECE;

/// 2 to the 30th quads (1,1,1,1,1). What is written to a piece stays there, and does not reach the file.
fn ones() -> *mut u32 {
    let piece = vec![1u32; PIECE / 4];
    let mapped = |at: *mut c_void, length, protection, flags, file| {
        let at = unsafe { mmap(at, length, protection, flags, file, 0) };
        assert!(at as isize != -1, "no room for a list of 20 GiB");
        at
    };
    let list = mapped(null_mut(), PIECE * PIECES, 0, PRIVATE | ANONYMOUS | NORESERVE, -1) as *mut u8;
    unsafe {
        let file = memfd_create(b"ones\0".as_ptr(), 0);
        assert!(write(file, piece.as_ptr() as *const u8, PIECE) == PIECE as isize, "no file of ones");
        for i in 0..PIECES {
            mapped(list.add(PIECE * i) as *mut c_void, PIECE, READ | WRITE, PRIVATE | FIXED | NORESERVE, file);
        }
    }
    list as *mut u32
}

/// Each call with what has to come out.
pub fn many(tally: &mut Tally) {
    let list = ones();
    let mut refused = |what: &str, counts: [u64; 6], number: u64, place: u64| {
        let (left, _) = tally.obj_by(&what, &|side| side.obj_of(CUBE, counts, list, NUMBERS, &[b'z'; 99]));
        tally.expect(what, left.answer == [number, place, 0] && left.out == [b'z'; 99]);
    };
    let (part, last) = (QUADS / 4, QUADS - 1);
    refused("2^30 + 1 quads, of which the list has 2^30", [part, part, 0, part, part, 1], 24, 0);
    refused("2^30 quads", [0, part, part, 0, part, part], 13, 0);
    unsafe { *list.add(NUMBERS - 1) = 0 };
    refused("2^30 quads, the last of height 0", [QUADS, 0, 0, 0, 0, 0], 12, last);
    refused("2^30 - 1 quads, one of height 0 past them, a short output", [part, part, part, 0, part - 1, 0], 15, 0);
}
