//! Random histories, and all short ones on a small wiring.

use driver::Random;

use crate::pair::{Outcome, Pair, Port, Say};

/// How a history draws its calls: few blocks with few ports, so that ports are shared, or many.
#[derive(Clone, Copy, Debug)]
pub struct Shape {
    pub blocks: usize,
    pub ports: u32,
    pub calls: u32,
}

pub const SHAPES: [Shape; 4] = [
    Shape { blocks: 3, ports: 2, calls: 120 },
    Shape { blocks: 6, ports: 3, calls: 200 },
    Shape { blocks: 2, ports: 1, calls: 80 },
    Shape { blocks: 20, ports: 6, calls: 300 },
];

/// A block: mostly one that is there, else a name that was given up, or never given.
fn block(random: &mut Random, pair: &Pair) -> u32 {
    if random.one_in(12) {
        return random.below(40);
    }
    random.pick(&pair.names()).unwrap_or(0)
}

/// A port: mostly one that is there, else a position that is not.
fn port(random: &mut Random, pair: &Pair) -> Port {
    let mut port = Port { block: 0, side: 0, position: 0 };
    for _ in 0..3 {
        let (block, side) = (block(random, pair), random.below(2));
        let count = pair.counts(block)[side as usize];
        let position = if random.one_in(15) { count } else { random.below(count.max(1)) };
        port = Port { block, side, position };
        if 0 < count {
            return port;
        }
    }
    port
}

fn offset(random: &mut Random) -> u32 {
    if random.one_in(30) {
        return 65_534 + random.below(3);
    }
    random.below(4)
}

/// Two ports, mostly on different sides.
fn two(random: &mut Random, pair: &Pair) -> (Port, Port) {
    let x = port(random, pair);
    for _ in 0..4 {
        let y = port(random, pair);
        if x.side != y.side || random.one_in(6) {
            return (x, y);
        }
    }
    (x, port(random, pair))
}

fn counts(random: &mut Random, shape: Shape) -> [u32; 2] {
    if random.one_in(60) {
        return [600, 425 + random.below(2)];
    }
    [random.below(shape.ports + 1), random.below(shape.ports + 1)]
}

fn draw(random: &mut Random, pair: &Pair, shape: Shape) -> Say {
    if pair.names().len() < shape.blocks && random.one_in(3) {
        return Say::Add(counts(random, shape));
    }
    match random.below(20) {
        0 => Say::Add(counts(random, shape)),
        1 if random.one_in(2) => Say::Remove(block(random, pair)),
        2 => Say::Resize(block(random, pair), counts(random, shape)),
        3..=7 => {
            let (x, y) = two(random, pair);
            Say::Link(x, y)
        }
        8 => {
            let (x, y) = two(random, pair);
            Say::LinkClean(x, y)
        }
        9 | 10 => {
            let (x, y) = two(random, pair);
            Say::LinkEnds((x, offset(random)), (y, offset(random)))
        }
        11 => {
            let length = if random.one_in(20) { 64 + random.below(2) } else { random.below(5) };
            Say::Sheet((0..length).map(|_| two(random, pair)).collect())
        }
        12 => Say::Cut(port(random, pair)),
        13 | 14 => Say::CutEnd((port(random, pair), offset(random))),
        15 => Say::Ask((port(random, pair), offset(random))),
        16 => Say::Tidy(port(random, pair)),
        17 => Say::FanOut(port(random, pair)),
        18 => Say::BlockFanOut(block(random, pair)),
        _ => Say::Counts,
    }
}

/// One random history; how many calls there were.
pub fn random(pair: &mut Pair, seed: u64) -> Result<u32, String> {
    let mut random = Random::new(seed);
    let shape = SHAPES[random.below(SHAPES.len() as u32) as usize];
    pair.begin(1 + random.below(2))?;
    for call in 0..shape.calls {
        let say = draw(&mut random, pair, shape);
        let outcome = pair.say(&say).map_err(|error| format!("seed {seed}, call {call}, {say:?}: {error}"))?;
        if outcome == Outcome::NoSpace {
            return Ok(call);
        }
        if random.one_in(40) {
            pair.compare_all().map_err(|error| format!("seed {seed}, after call {call}: {error}"))?;
        }
    }
    pair.compare_all().map_err(|error| format!("seed {seed}: {error}"))?;
    if shape.blocks < 20 {
        pair.compare_walks().map_err(|error| format!("seed {seed}: {error}"))?;
    }
    Ok(shape.calls)
}

/// The calls of the small wiring: two blocks, one with an output and one with an input and an output.
fn small_calls() -> Vec<Say> {
    let places = [(0, 1, 0), (1, 0, 0), (1, 1, 0), (2, 0, 0)];
    let ports = places.map(|(block, side, position)| Port { block, side, position });
    let mut calls = Vec::new();
    for x in ports {
        for y in ports {
            calls.push(Say::Link(x, y));
        }
        calls.push(Say::Cut(x));
        calls.push(Say::CutEnd((x, 0)));
        calls.push(Say::CutEnd((x, 1)));
        calls.push(Say::Tidy(x));
    }
    calls.push(Say::LinkClean(ports[1], ports[1]));
    calls.push(Say::LinkEnds((ports[0], 0), (ports[1], 1)));
    calls.push(Say::LinkEnds((ports[0], 1), (ports[1], 0)));
    calls.push(Say::Resize(1, [1, 0]));
    calls.push(Say::Resize(1, [2, 1]));
    calls.push(Say::Remove(0));
    calls.push(Say::Add([1, 0]));
    calls
}

/// All histories of so many calls on the small wiring; how many there are.
pub fn all_small(pair: &mut Pair, length: u32, release: u32) -> Result<u64, String> {
    let calls = small_calls();
    let total = (calls.len() as u64).pow(length);
    for number in 0..total {
        pair.begin(release)?;
        pair.say(&Say::Add([0, 1]))?;
        pair.say(&Say::Add([1, 1]))?;
        let mut rest = number;
        for _ in 0..length {
            let say = &calls[(rest % calls.len() as u64) as usize];
            rest /= calls.len() as u64;
            pair.say(say).map_err(|error| format!("history {number}, {say:?}: {error}"))?;
        }
        pair.compare_all().map_err(|error| format!("history {number}: {error}"))?;
    }
    Ok(total)
}
