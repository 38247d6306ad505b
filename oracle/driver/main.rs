//! Compares the product, the Rust's text and the second reading of the documents. `oracle/run` builds and starts it.

mod call;
mod chosen;
mod compare;
mod crash;
mod draws;
mod examples;
mod exhaustive;
mod large;
mod lists;
mod many;
mod meshes;
mod obj;
mod random;
mod replay;
mod rust_side;
mod sides;

use compare::Tally;
use random::Random;

struct Wish {
    seed: u64,
    calls: u64,
    deep: bool,
    brief: bool,
    many: bool,
    replay: bool,
    rattle: bool,
}

fn wish() -> Result<Wish, String> {
    let mut wish = Wish { seed: 1, calls: 100_000, deep: false, brief: false, many: false, replay: false, rattle: false };
    let mut words = std::env::args().skip(1);
    while let Some(word) = words.next() {
        let mut number = || words.next().and_then(|n| n.parse().ok()).ok_or(format!("{} needs a number", word));
        match word.as_str() {
            "--seed" => wish.seed = number()?,
            "--calls" => wish.calls = number()?,
            "--deep" => wish.deep = true,
            "--brief" => wish.brief = true,
            "--many" => wish.many = true,
            "--replay" => wish.replay = true,
            "--rattle" => wish.rattle = true,
            _ => return Err(format!("{} is no word of this program", word)),
        }
    }
    Ok(wish)
}

/// Runs one part and says what it did.
fn part(tally: &mut Tally, name: &str, run: &mut dyn FnMut(&mut Tally)) {
    let (calls, with_rust, differences) = (tally.calls, tally.with_rust, tally.differences);
    let start = std::time::Instant::now();
    run(tally);
    println!(
        "{}: {} calls, {} of them answered by the Rust's text too, {} differences ({} s)",
        name,
        tally.calls - calls,
        tally.with_rust - with_rust,
        tally.differences - differences,
        start.elapsed().as_secs()
    );
}

fn main() {
    let wish = wish().unwrap_or_else(|e| {
        eprintln!("{}", e);
        std::process::exit(2)
    });
    crash::watch();
    let mut tally = Tally::default();
    if wish.replay {
        replay::write(&mut tally, wish.seed, wish.rattle);
        std::process::exit(if tally.differences == 0 { 0 } else { 1 });
    }

    let sides = if sides::product().is_some() { "product, Rust and reading" } else { "Rust and reading, WITHOUT the product" };
    println!("seed {}, random calls of each kind {}, sides: {}", wish.seed, wish.calls, sides);
    part(&mut tally, "document 01's examples", &mut |t| examples::run(t));
    part(&mut tally, "the calls of the replay list", &mut |t| {
        for call in chosen::meshes(wish.seed) {
            t.mesh(&call);
        }
        for call in chosen::draws() {
            t.draw(&call);
        }
    });
    part(&mut tally, "every 3x3x3 of three classes", &mut |t| exhaustive::threes(t));
    part(&mut tally, "geometry at its limits", &mut |t| draws::limits(t));
    if !wish.brief {
        part(&mut tally, "every 4x3x3 of two merge values", &mut |t| exhaustive::fours(t, wish.deep));
        part(&mut tally, "every square of two by two", &mut |t| exhaustive::squares(t));
        part(&mut tally, "large blocks", &mut |t| large::large(t, wish.seed));
    }
    part(&mut tally, "random meshes", &mut |t| {
        let mut random = Random::new(wish.seed);
        for _ in 0..wish.calls {
            t.mesh(&meshes::call(&mut random));
        }
    });
    part(&mut tally, "random calls of geometry", &mut |t| {
        let mut random = Random::new(!wish.seed);
        for _ in 0..wish.calls {
            t.draw(&draws::call(&mut random));
        }
    });
    part(&mut tally, "OBJ: the worked examples", &mut |t| obj::examples(t));
    part(&mut tally, "OBJ: every face and limit", &mut |t| obj::every_face(t));
    part(&mut tally, "OBJ: every length of the output", &mut |t| obj::every_length(t));
    part(&mut tally, "OBJ: refusals, every few at once", &mut |t| obj::every_refusal(t));
    part(&mut tally, "OBJ: decimal numbers", &mut |t| {
        let mut random = Random::new(wish.seed);
        obj::decimals(t);
        for _ in 0..wish.calls {
            t.decimal(&obj::decimal(&mut random));
        }
    });
    part(&mut tally, "OBJ: random lists", &mut |t| {
        let mut random = Random::new(wish.seed);
        for _ in 0..wish.calls {
            t.obj(&lists::call(&mut random));
        }
    });
    part(&mut tally, "OBJ: random greedy meshes, handed on", &mut |t| {
        let mut random = Random::new(!wish.seed);
        for _ in 0..wish.calls / 5 {
            lists::mesh_and_text(t, &mut random);
        }
    });
    if !wish.brief {
        part(&mut tally, "OBJ: a long list", &mut |t| lists::long(t, wish.seed));
    }
    if wish.many {
        part(&mut tally, "OBJ: lists of 2^30 quads", &mut |t| many::many(t));
    }
    tally.print();
    println!("oracle ({}): {} calls, {} differences", sides, tally.calls, tally.differences);
    std::process::exit(if tally.differences == 0 { 0 } else { 1 });
}
