//! Asks all sides the same call and counts where they differ.

use crate::call::{Decimal, Draw, Drawn, Mesh, Meshed, Obj, Spelled, Written};
use crate::crash::named;
use crate::rust_side;
use crate::sides::{product, Side, READING};
use std::collections::BTreeMap;
use std::fmt::Debug;

#[derive(Default)]
pub struct Tally {
    pub calls: u64,
    /// Calls that the Rust's text answered too.
    pub with_rust: u64,
    pub differences: u64,
    /// Calls by their kind and refusal, 0 for accepted.
    pub by_refusal: BTreeMap<(&'static str, u64), u64>,
    /// Faces that an accepted mesher's call had, by sign and permutation.
    pub by_face: BTreeMap<(i32, i32), u64>,
    /// Quads that accepted calls of the meshers listed.
    pub quads: u64,
    /// Quads that accepted calls of the OBJ writer wrote, and bytes.
    pub texts: (u64, u64),
}

/// So many differences are shown, each line with at most so many characters; all are counted.
const SHOWN: u64 = 10;
const LINE: usize = 4_000;

fn shortened(mut line: String) -> String {
    if line.len() > LINE {
        line.truncate(LINE);
        line.push_str(" ..");
    }
    line
}

impl Tally {
    fn differs(&mut self, what: &str, call: &dyn Debug, one: &dyn Debug, other: &dyn Debug) {
        self.differences += 1;
        if self.differences <= SHOWN {
            println!("difference {}, call {}: {} (numbers are hexadecimal)", self.differences, self.calls, what);
            for (name, side) in [("call", call), ("one", one), ("other", other)] {
                println!("  {:5} {}", name, shortened(format!("{:x?}", side)));
            }
        }
    }

    /// Counts a difference from an example of the documents, unless it is as they say.
    pub fn expect(&mut self, name: &str, holds: bool) {
        if !holds {
            self.differs("an example of the documents", &name, &"its result", &"another");
        }
    }

    /// Counts a difference from what is promised of every call, unless it holds of this one.
    pub fn promised(&mut self, promise: &str, call: &dyn Debug, left: &dyn Debug, holds: bool) {
        if !holds {
            self.differs(promise, call, left, &"what is promised");
        }
    }

    /// A mesher's call: the product against the reading, byte for byte; the Rust against both, where the call is accepted or
    /// is refused for want of room alone. Answers what the reading leaves.
    pub fn mesh(&mut self, call: &Mesh) -> Meshed {
        self.calls += 1;
        let number = self.calls;
        let reading = named(number, "the second reading", call, || READING.mesh(call));
        let refusal = reading.answer[0];
        let kind = if call.greedy { "greedy_quads" } else { "visible_block_faces" };
        *self.by_refusal.entry((kind, refusal)).or_default() += 1;
        if refusal == 0 {
            self.quads += reading.answer[2..8].iter().sum::<u64>();
            for f in call.faces.chunks(2) {
                *self.by_face.entry((f[0], f[1])).or_default() += 1;
            }
        }

        let product = product().map(|p| named(number, "the product", call, || p.mesh(call)));
        if let Some(left) = product.as_ref().filter(|left| **left != reading) {
            self.differs("the product and the second reading", call, left, &reading);
        }
        if refusal == 0 || refusal == 9 {
            self.with_rust += 1;
            let rust = named(number, "the Rust's text", call, || by_rust(call));
            for (side, left) in [("the second reading", Some(&reading)), ("the product", product.as_ref())] {
                if let Some(left) = left.filter(|left| !rust.agrees(left)) {
                    let what = format!("the Rust's text and {}", side);
                    self.differs(&what, call, &rust, left);
                }
            }
        }
        reading
    }

    /// A call of geometry: the product against the reading, and the Rust against both where the call is accepted.
    pub fn draw(&mut self, call: &Draw) -> Drawn {
        self.calls += 1;
        let number = self.calls;
        let reading = named(number, "the second reading", call, || READING.draw(call));
        *self.by_refusal.entry((kind(call), reading.refusal as u64)).or_default() += 1;

        let product = product().filter(|_| call.in_c_interface()).map(|p| named(number, "the product", call, || p.draw(call)));
        if let Some(left) = product.filter(|left| *left != reading) {
            self.differs("the product and the second reading", call, &left, &reading);
        }
        if reading.refusal == 0 {
            self.with_rust += 1;
            let rust = named(number, "the Rust's text", call, || rust_side::draw(call));
            for (side, left) in [("the second reading", Some(reading)), ("the product", product)] {
                if let Some(left) = left.filter(|left| left.words[..call.words()] != rust[..]) {
                    let what = format!("the Rust's text and {}", side);
                    self.differs(&what, call, &rust, &left);
                }
            }
        }
        reading
    }

    /// A call of the OBJ writer: the product against the reading, byte for byte; and both against the text that has the Rust's
    /// corners and indices, where the call is accepted or is refused for want of room alone. Answers what the reading leaves.
    pub fn obj(&mut self, call: &Obj) -> Written {
        let (reading, product) = self.obj_by(call, &|side| side.obj(call));
        if reading.answer[0] == 0 || reading.answer[0] == 15 {
            self.with_rust += 1;
            let rust = named(self.calls, "the Rust's text", call, || rust_side::obj(call));
            for (side, left) in [("the second reading", Some(&reading)), ("the product", product.as_ref())] {
                if let Some(left) = left.filter(|left| !has_text(left, &rust)) {
                    let what = format!("the text of the Rust's corners and indices, and {}", side);
                    self.differs(&what, call, &rust, left);
                }
            }
        }
        if reading.answer[0] == 0 {
            self.texts.0 += call.counts.iter().sum::<u64>();
            self.texts.1 += reading.answer[2];
        }
        reading
    }

    /// The product against the reading alone, each asked by `ask`. Answers what both leave.
    pub fn obj_by(&mut self, call: &dyn Debug, ask: &dyn Fn(&Side) -> Written) -> (Written, Option<Written>) {
        self.calls += 1;
        let reading = named(self.calls, "the second reading", call, || ask(&READING));
        *self.by_refusal.entry(("write_obj", reading.answer[0])).or_default() += 1;
        let product = product().map(|p| named(self.calls, "the product", call, || ask(p)));
        if let Some(left) = product.as_ref().filter(|left| **left != reading) {
            self.differs("the product and the second reading", call, left, &reading);
        }
        (reading, product)
    }

    /// A call of the decimal formatter: the product against the reading. Answers what the reading leaves.
    pub fn decimal(&mut self, call: &Decimal) -> Spelled {
        self.calls += 1;
        let reading = named(self.calls, "the second reading", call, || READING.decimal(call));
        *self.by_refusal.entry(("decimal", if reading.digits == 0 { 15 } else { 0 })).or_default() += 1;
        let product = product().map(|p| named(self.calls, "the product", call, || p.decimal(call)));
        if let Some(left) = product.filter(|left| *left != reading) {
            self.differs("the product and the second reading", call, &left, &reading);
        }
        reading
    }

    /// What was run, by kind and refusal.
    pub fn print(&self) {
        let mut kinds: Vec<&str> = self.by_refusal.keys().map(|k| k.0).collect();
        kinds.dedup();
        for kind in kinds {
            let of = self.by_refusal.iter().filter(|(k, _)| k.0 == kind);
            let parts: Vec<String> = of
                .map(|((_, refusal), calls)| match refusal {
                    0 => format!("accepted {}", calls),
                    _ => format!("refused by {}: {}", refusal, calls),
                })
                .collect();
            println!("  {}: {}", kind, parts.join(", "));
        }
        let faces: Vec<String> = self.by_face.iter().map(|((s, p), n)| format!("{:+}/{}: {}", s, p, n)).collect();
        println!("  faces of accepted meshes, by sign and permutation: {}", faces.join(", "));
        println!("  quads listed by accepted meshes: {}", self.quads);
        println!("  quads written by accepted OBJ texts: {}, bytes: {}", self.texts.0, self.texts.1);
    }
}

/// What the Rust's lists come to in the lent output: refusal, place and counts, what is written, and the tests that its text
/// makes. Tests are not read off a block of more voxels than `WATCHED`, since that keeps a note of each.
#[derive(Debug)]
pub struct ByRust {
    pub answer: [u64; 8],
    pub tests: Option<u64>,
    pub written: Vec<u32>,
}

const WATCHED: usize = 250_000;

impl ByRust {
    fn agrees(&self, left: &Meshed) -> bool {
        left.answer[..8] == self.answer && self.tests.map_or(true, |t| left.answer[8] == t) && left.out.starts_with(&self.written)
    }
}

pub fn by_rust(call: &Mesh) -> ByRust {
    let groups = rust_side::mesh(call);
    let (item, capacity) = (call.item(), call.out.len() / call.item());
    let mut written = groups.concat();
    let mut answer = [0; 8];
    let mut tests = Some(0);
    if written.len() / item <= capacity {
        for (count, group) in answer[2..].iter_mut().zip(&groups) {
            *count = (group.len() / item) as u64;
        }
        if call.greedy {
            tests = if call.voxels.len() <= WATCHED { Some(rust_side::tests(call)) } else { None };
        }
    } else {
        written.truncate(capacity * item);
        answer[0] = 9;
        answer[1] = capacity as u64;
    }
    ByRust { answer, tests, written }
}

/// Whether a writer left that text: all of it where it is accepted; else it is longer than the output.
fn has_text(left: &Written, text: &str) -> bool {
    if left.answer[0] == 0 {
        left.answer[2] == text.len() as u64 && left.out.starts_with(text.as_bytes())
    } else {
        text.len() > left.out.len()
    }
}

fn kind(call: &Draw) -> &'static str {
    match call {
        Draw::Corner { .. } => "corner",
        Draw::Corners { .. } => "corners",
        Draw::Normal { .. } => "normal",
        Draw::Indices { .. } => "indices",
        Draw::TexCoords { .. } => "tex_coords",
        Draw::SignedAxis { .. } => "SignedAxis::new (not in the C interface)",
        Draw::OfVector { .. } => "SignedAxis::from_vector (not in the C interface)",
        Draw::Canonical { .. } => "canonical (not in the C interface)",
    }
}
