//! How long a wiring takes to answer: 4,000 calls, one after the other, each of which runs the list of those before it again.
//!
//! `cargo run --offline --release -p kanhtrev --example calls`

use std::time::{Duration, Instant};

use kanhtrev::{Error, Wiring};

const CALLS: usize = 4_000;

/// Forty blocks; then wires are drawn and cut, and blocks resized.
fn call(wiring: &mut Wiring, turn: usize) -> Result<(), Error> {
    let blocks = wiring.blocks();
    if blocks.len() < 40 {
        return wiring.add(format!("block {turn}"), 4, 4).map(drop);
    }
    let node = |place: usize| blocks[place % blocks.len()].node;
    let position = |place: usize| (place % 4) as u32;
    let (near, far) = (node(turn * 7), node(turn * 11 + 3));
    match turn % 10 {
        9 => wiring.resize(near, 4 + position(turn / 10), 4),
        5..=8 if wiring.wires().len() > 150 => wiring.cut(wiring.wires()[turn * 13 % wiring.wires().len()]),
        _ => wiring.link(near.output(position(turn)), far.input(position(turn / 3))).map(drop),
    }
}

fn main() -> Result<(), Error> {
    let mut wiring = Wiring::new();
    let mut taken = Vec::with_capacity(CALLS);
    for turn in 0..CALLS {
        let start = Instant::now();
        call(&mut wiring, turn)?;
        taken.push(start.elapsed());
    }
    let sum = |times: &[Duration]| times.iter().sum::<Duration>();
    println!("{CALLS} calls: {:.2} s", sum(&taken).as_secs_f64());
    for (name, part) in [("the first 100", &taken[..100]), ("the last 100", &taken[CALLS - 100..])] {
        println!("{name}: {:.0} us each", sum(part).as_secs_f64() * 1e6 / part.len() as f64);
    }
    let start = Instant::now();
    let answers = wiring.list().run();
    println!("the whole list run once: {:.0} us for {} calls", start.elapsed().as_secs_f64() * 1e6, answers.len());
    println!("{} blocks and {} wires at the end", wiring.blocks().len(), wiring.wires().len());
    Ok(())
}
