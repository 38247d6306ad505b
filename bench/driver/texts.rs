//! The OBJ writers: the product's, and two plain ones in C (bench/writers.c), on the quads of one block.

use crate::sides::{Ours, Task, FACES};

extern "C" {
    fn spunmarrow_write_obj(
        faces: *const i32, counts: *const u64, quads: *const u32, quads_len: usize, out: *mut u8, out_len: usize, answer: *mut u64,
    );
    fn fprintf_to_memory(faces: *const i32, counts: *const u64, quads: *const u32, out: *mut u8, out_len: usize) -> usize;
    fn fprintf_to_nowhere(faces: *const i32, counts: *const u64, quads: *const u32);
    fn digits_to_memory(faces: *const i32, counts: *const u64, quads: *const u32, out: *mut u8) -> usize;
}

/// The first line's bytes, and the most that a quad's lines take.
const HEAD: usize = 7;
const QUAD: usize = 138;

#[derive(Clone, Copy)]
pub enum Writer {
    Fprintf,
    Digits,
    /// The product, lent as many bytes as any text of so many quads may need.
    Ours,
    /// The product, lent exactly as many bytes as this text has.
    Exact,
    /// The product, lent one byte less: it looks at the list and measures the text, and refuses by 15.
    Short,
}

pub const WRITERS: [(&str, Writer); 5] = [
    ("fprintf", Writer::Fprintf),
    ("digits", Writer::Digits),
    ("ours", Writer::Ours),
    ("exact", Writer::Exact),
    ("short", Writer::Short),
];

/// A block's greedy quads, and an output that each writer writes to.
pub struct Texts {
    pub quads: u64,
    pub bytes: usize,
    counts: [u64; 6],
    list: Vec<u32>,
    out: Vec<u8>,
}

impl Texts {
    /// Meshes the block, and writes its text once by the plain digits, for its length.
    pub fn new(task: &Task) -> Self {
        let (counts, list) = Ours::new(task).mesh_once(task);
        let quads = counts.iter().sum::<u64>();
        let mut texts = Texts { quads, bytes: 0, counts, list, out: vec![0; HEAD + QUAD * quads as usize] };
        texts.bytes = texts.text(Writer::Digits).len();
        texts
    }

    /// How many bytes of output a writer is lent.
    fn room(&self, writer: Writer) -> usize {
        match writer {
            Writer::Exact => self.bytes,
            Writer::Short => self.bytes - 1,
            _ => self.out.len(),
        }
    }

    /// Writes the text once more. The text by fprintf goes to /dev/null.
    #[inline(never)]
    pub fn write(&mut self, writer: Writer) {
        let (faces, counts, list) = (FACES.as_ptr(), self.counts.as_ptr(), self.list.as_ptr());
        let room = self.room(writer);
        let mut answer = [0; 3];
        unsafe {
            match writer {
                Writer::Fprintf => fprintf_to_nowhere(faces, counts, list),
                Writer::Digits => {
                    digits_to_memory(faces, counts, list, self.out.as_mut_ptr());
                }
                Writer::Ours | Writer::Exact | Writer::Short => {
                    spunmarrow_write_obj(faces, counts, list, self.list.len(), self.out.as_mut_ptr(), room, answer.as_mut_ptr())
                }
            }
        }
        assert_eq!(answer[0], if let Writer::Short = writer { 15 } else { 0 }, "another answer");
    }

    /// The text that a writer writes, all of it.
    fn text(&self, writer: Writer) -> Vec<u8> {
        let (faces, counts, list) = (FACES.as_ptr(), self.counts.as_ptr(), self.list.as_ptr());
        let mut out = vec![0; self.room(writer)];
        let (start, room) = (out.as_mut_ptr(), out.len());
        let mut answer = [0; 3];
        let bytes = unsafe {
            match writer {
                Writer::Fprintf => fprintf_to_memory(faces, counts, list, start, room),
                Writer::Digits => digits_to_memory(faces, counts, list, start),
                Writer::Ours | Writer::Exact | Writer::Short => {
                    spunmarrow_write_obj(faces, counts, list, self.list.len(), start, room, answer.as_mut_ptr());
                    answer[2] as usize
                }
            }
        };
        out.truncate(bytes);
        out
    }

    /// The first writer whose text is not that of fprintf, byte for byte, and the first byte where it is not. The output that is
    /// one byte short gets no text.
    pub fn other(&self) -> Option<(&'static str, usize)> {
        let first = self.text(Writer::Fprintf);
        let differs = |text: &[u8]| (0..text.len().max(first.len())).find(|&i| text.get(i) != first.get(i));
        let mut all = WRITERS.iter().filter(|(_, writer)| !matches!(writer, Writer::Short));
        all.find_map(|&(name, writer)| differs(&self.text(writer)).map(|at| (name, at)))
    }
}
