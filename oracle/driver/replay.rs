//! Writes the list that the program `replay` holds: calls with their answers. An accepted call's answer is the Rust's text's, a
//! refused one's is the second reading's, and each record says which. oracle/README.md has the form of a record.

use crate::call::{Draw, Mesh, BEFORE};
use crate::chosen;
use crate::compare::{by_rust, Tally};
use crate::rust_side;

/// The sources of an answer.
const RUST: u32 = 1;
const READING: u32 = 2;

/// A byte of a buffer before a call.
pub const DIRTY: u8 = 165;

/// A list holds at most so many numbers in one table of Rattle: a constant's value has at most 10,000 expressions.
const TABLE: usize = 9_000;

#[derive(Default)]
struct List {
    records: Vec<Vec<u32>>,
    voxels: usize,
    visited: usize,
    out: usize,
    by_rust: usize,
}

/// Voxels as runs: how many runs, then for each its length and its voxel.
fn runs(voxels: &[u16]) -> Vec<u32> {
    let mut runs: Vec<(u32, u16)> = Vec::new();
    for &v in voxels {
        match runs.last_mut() {
            Some(last) if last.1 == v => last.0 += 1,
            _ => runs.push((1, v)),
        }
    }
    let mut numbers = vec![runs.len() as u32];
    numbers.extend(runs.iter().flat_map(|r| [r.0, r.1 as u32]));
    numbers
}

impl List {
    fn mesh(&mut self, tally: &mut Tally, call: &Mesh) {
        let reading = tally.mesh(call);
        let mut answer = reading.answer;
        let mut source = READING;
        let item = call.item();
        let quads: u64 = if answer[0] == 9 { answer[1] } else { answer[2..8].iter().sum() };
        let mut written = reading.out[..quads as usize * item].to_vec();
        if answer[0] == 0 {
            let rust = by_rust(call);
            answer[..8].copy_from_slice(&rust.answer);
            answer[8] = rust.tests.expect("a small block");
            written = rust.written;
            source = RUST;
        }
        let cleared = if call.greedy && (answer[0] == 0 || answer[0] == 9) { call.size() as u32 } else { 0 };

        let mut numbers = vec![if call.greedy { 1 } else { 2 }, source];
        for three in [call.shape, call.min, call.max] {
            numbers.extend(three);
        }
        numbers.extend(call.faces.map(|f| f as u32));
        numbers.push(call.voxels.len() as u32);
        numbers.extend(runs(&call.voxels));
        numbers.extend([call.visited.len() as u32, call.out.len() as u32]);
        numbers.extend(answer.map(|a| a as u32));
        numbers.push(written.len() as u32);
        numbers.extend(written);
        numbers.push(cleared);
        self.voxels = self.voxels.max(call.voxels.len());
        self.visited = self.visited.max(call.visited.len());
        self.out = self.out.max(call.out.len());
        self.push(numbers);
    }

    fn draw(&mut self, tally: &mut Tally, call: &Draw) {
        let reading = tally.draw(call);
        let mut numbers = match *call {
            Draw::Corner { sign, permutation, quad: q, corner, size } => {
                vec![3, 0, sign as u32, permutation, q[0], q[1], q[2], q[3], q[4], corner, size.to_bits()]
            }
            Draw::Corners { sign, permutation, quad: q } => vec![4, 0, sign as u32, permutation, q[0], q[1], q[2], q[3], q[4]],
            Draw::Normal { sign, permutation } => vec![5, 0, sign as u32, permutation],
            Draw::Indices { sign, permutation, start } => vec![6, 0, sign as u32, permutation, start],
            Draw::TexCoords { sign, permutation, axis, flip_v, quad: q } => {
                vec![7, 0, sign as u32, permutation, axis, flip_v as u32, q[0], q[1], q[2], q[3], q[4]]
            }
            Draw::SignedAxis { sign, axis } => vec![8, 0, sign as u32, axis],
            Draw::OfVector { vector: v } => vec![9, 0, v[0] as u32, v[1] as u32, v[2] as u32],
            Draw::Canonical { sign, axis } => vec![10, 0, sign as u32, axis],
        };
        numbers.push(reading.refusal);
        if reading.refusal == 0 {
            numbers[1] = RUST;
            numbers.extend(rust_side::draw(call));
        } else {
            numbers[1] = READING;
        }
        self.push(numbers);
    }

    fn push(&mut self, numbers: Vec<u32>) {
        self.by_rust += (numbers[1] == RUST) as usize;
        let mut record = vec![numbers.len() as u32];
        record.extend(numbers);
        self.records.push(record);
    }

    /// What the list has, in lines for a comment.
    fn about(&self, seed: u64) -> Vec<String> {
        vec![
            format!("{} calls with their answers, made by: oracle/run replay --seed {}", self.records.len(), seed),
            format!("{} answers are the Rust's text's (source 1), {} are the second reading's of document 01 (source 2)", self.by_rust, self.records.len() - self.by_rust),
            format!("longest: {} voxels, {} visited bytes, {} numbers of output", self.voxels, self.visited, self.out),
            format!("before a call every byte of output and visited is {}, so every word of the output is {}", DIRTY, BEFORE),
            "the form of a record: oracle/README.md".to_string(),
        ]
    }

    fn text(&self, seed: u64) {
        for line in self.about(seed) {
            println!("# {}", line);
        }
        for record in &self.records {
            println!("{}", record.iter().map(|n| n.to_string()).collect::<Vec<_>>().join(" "));
        }
        println!("0");
    }

    /// The same numbers as constants of Rattle. No record is cut; each table ends with 0.
    fn rattle(&self, seed: u64) {
        for line in self.about(seed) {
            println!("// {}", line);
        }
        let mut tables: Vec<Vec<u32>> = vec![vec![]];
        for record in &self.records {
            if tables[tables.len() - 1].len() + record.len() >= TABLE {
                tables.push(vec![]);
            }
            let last = tables.len() - 1;
            tables[last].extend(record);
        }
        for (i, table) in tables.iter_mut().enumerate() {
            table.push(0);
            println!("\npub const CALLS_{}: [u32; {}] = [", i, table.len());
            for line in table.chunks(24) {
                println!("    {},", line.iter().map(|n| n.to_string()).collect::<Vec<_>>().join(", "));
            }
            println!("];");
        }
    }
}

/// Writes the list as text, or as constants of Rattle.
pub fn write(tally: &mut Tally, seed: u64, as_rattle: bool) {
    let mut list = List::default();
    for call in chosen::meshes(seed) {
        list.mesh(tally, &call);
    }
    for call in chosen::draws() {
        list.draw(tally, &call);
    }
    if as_rattle {
        list.rattle(seed)
    } else {
        list.text(seed)
    }
    eprintln!("oracle: {} calls listed, {} differences between the Rust's text and the second reading", tally.calls, tally.differences);
    for ((kind, refusal), calls) in &tally.by_refusal {
        eprintln!("  {}, refusal {}: {}", kind, refusal, calls);
    }
}
