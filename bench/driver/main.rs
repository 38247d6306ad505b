//! What bench/run measures: one block, meshed so many times by one side, or by both in turn; or the OBJ text of its greedy quads,
//! written so many times by one writer, or by all in turn.
//!
//!     bench greedy|unit BLOCK SIZE REPEATS rust|ours|both
//!     bench obj BLOCK SIZE REPEATS fprintf|digits|ours|exact|short|all
//!
//! It writes one line. For one side: how many quads the last call gave, and a number made of all their numbers in order, which two equal lists share.
//! For both: these for the Rust, these for ours, and the median time of a call for each, in nanoseconds. For a writer: how many
//! quads and how many bytes. For all: these, once the texts are seen to be the same, and the median time of each writer.

mod blocks;
mod sides;
mod texts;

use sides::{Ours, Rust, Side, Task};
use std::time::Instant;
use texts::{Texts, WRITERS};

fn main() {
    if run().is_none() {
        eprintln!("bench greedy|unit empty|solid|sphere|checkered|random|terrain SIZE REPEATS rust|ours|both");
        eprintln!("bench obj empty|solid|sphere|checkered|random|terrain SIZE REPEATS fprintf|digits|ours|exact|short|all");
        std::process::exit(2);
    }
}

fn run() -> Option<()> {
    let words: Vec<String> = std::env::args().skip(1).collect();
    let [mesher, block, size, repeats, side] = <&[String; 5]>::try_from(&words[..]).ok()?;
    let greedy = match mesher.as_str() {
        "greedy" | "obj" => true,
        "unit" => false,
        _ => return None,
    };
    let size = size.parse().ok().filter(|s| (3..=256).contains(s))?;
    let repeats = repeats.parse().ok().filter(|&r: &usize| r > 0)?;
    let task = Task { greedy, size, voxels: blocks::block(block, size)? };
    if mesher == "obj" {
        return written(&task, repeats, side);
    }
    match side.as_str() {
        "rust" => println!("{}", told(&task, repeated(&task, &mut Rust::new(&task), repeats))),
        "ours" => println!("{}", told(&task, repeated(&task, &mut Ours::new(&task), repeats))),
        "both" => {
            let (mut rust, mut ours) = (Rust::new(&task), Ours::new(&task));
            let mut times = [Vec::new(), Vec::new()];
            // the first call of each is not timed: the Rust's buffer grows in it, and memory is touched for the first time
            rust.mesh(&task);
            ours.mesh(&task);
            for _ in 0..repeats {
                times[0].push(timed(&task, &mut rust));
                times[1].push(timed(&task, &mut ours));
            }
            let [rust_time, ours_time] = times.map(median);
            println!("{} {} {} {}", told(&task, &rust), told(&task, &ours), rust_time, ours_time);
        }
        _ => return None,
    }
    Some(())
}

/// The OBJ text by one writer, or by all.
fn written(task: &Task, repeats: usize, by: &str) -> Option<()> {
    let mut texts = Texts::new(task);
    if by != "all" {
        let (_, writer) = WRITERS.into_iter().find(|w| w.0 == by)?;
        for _ in 0..repeats {
            texts.write(writer);
        }
        println!("{} {}", texts.quads, texts.bytes);
        return Some(());
    }
    if let Some((name, at)) = texts.other() {
        eprintln!("bench: obj: the text by {} is not the one by fprintf, from byte {} on", name, at);
        std::process::exit(1);
    }
    let mut times = WRITERS.map(|_| Vec::new());
    // the first of each is not timed
    for turn in 0..repeats + 1 {
        for (&(_, writer), times) in WRITERS.iter().zip(&mut times) {
            let start = Instant::now();
            texts.write(writer);
            if turn > 0 {
                times.push(start.elapsed().as_nanos());
            }
        }
    }
    println!("{} {} {}", texts.quads, texts.bytes, times.map(|t| median(t).to_string()).join(" "));
    Some(())
}

fn repeated<'a>(task: &Task, side: &'a mut dyn Side, repeats: usize) -> &'a dyn Side {
    for _ in 0..repeats {
        side.mesh(task);
    }
    side
}

fn timed(task: &Task, side: &mut dyn Side) -> u128 {
    let start = Instant::now();
    side.mesh(task);
    start.elapsed().as_nanos()
}

fn median(mut times: Vec<u128>) -> u128 {
    times.sort_unstable();
    times[times.len() / 2]
}

/// The quads of the last call, and the number made of them (FNV's, over words).
fn told(task: &Task, side: &dyn Side) -> String {
    let (quads, numbers) = side.result(task);
    let print = numbers.iter().fold(0xCBF2_9CE4_8422_2325u64, |h, &n| (h ^ n as u64).wrapping_mul(0x0000_0100_0000_01B3));
    format!("{} {:016x}", quads, print)
}
