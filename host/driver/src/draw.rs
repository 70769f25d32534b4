//! Random calls, drawn from what the original's graph holds at that time, in many shapes of histories.

use crate::{Call, End, Oracle, Side, Sides, NODE_SLOTS};

/// xorshift64*, so that runs repeat.
pub struct Random(u64);

impl Random {
    pub fn new(seed: u64) -> Self {
        Self(seed.wrapping_mul(0x9E37_79B9_7F4A_7C15) | 1)
    }

    fn next(&mut self) -> u64 {
        self.0 ^= self.0 >> 12;
        self.0 ^= self.0 << 25;
        self.0 ^= self.0 >> 27;
        self.0.wrapping_mul(0x2545_F491_4F6C_DD1D) >> 16
    }

    pub fn below(&mut self, bound: u32) -> u32 {
        (self.next() % u64::from(bound)) as u32
    }

    pub fn one_in(&mut self, bound: u32) -> bool {
        self.below(bound) == 0
    }

    pub fn pick<T: Copy>(&mut self, items: &[T]) -> Option<T> {
        (!items.is_empty()).then(|| items[self.below(items.len() as u32) as usize])
    }
}

/// What a history begins with.
#[derive(Clone, Copy, Debug, PartialEq, Eq)]
pub enum Start {
    Empty,
    /// Blocks that leave few port slots.
    PortsNearlyFull,
    /// Blocks that leave few node slots.
    NodesNearlyFull,
}

/// How a history draws its calls.
#[derive(Clone, Copy, Debug)]
pub struct Shape {
    pub name: &'static str,
    pub start: Start,
    /// Adds are rare from so many blocks on, removals before.
    pub blocks: usize,
    /// Adds and resizes name at most so many ports a side.
    pub ports: u32,
    /// Resizes mostly change a side by at most so many, if not 0.
    pub nudge: u32,
    /// One number in so many is drawn without a look at what is live.
    pub wild: u32,
    /// One link in so many is drawn within one block.
    pub loops: u32,
    /// How often each call is drawn, by its code from 1 to 9.
    pub weights: [u32; 9],
}

impl Shape {
    /// Calls of all kinds on few small blocks.
    pub const MIXED: Shape = Shape {
        name: "mixed",
        start: Start::Empty,
        blocks: 8,
        ports: 4,
        nudge: 0,
        wild: 9,
        loops: 8,
        weights: [10, 4, 15, 30, 8, 12, 10, 7, 2],
    };

    /// The shapes of the differential runs.
    pub const ALL: [Shape; 10] = [
        Shape::MIXED,
        Shape { name: "many blocks", blocks: 40, ports: 3, ..Shape::MIXED },
        Shape {
            name: "relinking few ports",
            blocks: 2,
            ports: 2,
            wild: 60,
            weights: [2, 1, 1, 50, 8, 16, 16, 4, 2],
            ..Shape::MIXED
        },
        Shape {
            name: "resizes",
            blocks: 4,
            ports: 9,
            nudge: 3,
            wild: 40,
            weights: [4, 2, 40, 30, 3, 6, 6, 4, 2],
            ..Shape::MIXED
        },
        Shape {
            name: "removal and reuse",
            blocks: 12,
            ports: 5,
            wild: 40,
            weights: [25, 25, 10, 30, 3, 3, 3, 2, 2],
            ..Shape::MIXED
        },
        Shape { name: "self loops", blocks: 3, ports: 3, wild: 40, loops: 1, ..Shape::MIXED },
        Shape { name: "refusals", wild: 2, ..Shape::MIXED },
        Shape { name: "large blocks", blocks: 6, ports: 200, nudge: 40, wild: 40, ..Shape::MIXED },
        Shape { name: "ports nearly full", start: Start::PortsNearlyFull, wild: 40, ..Shape::MIXED },
        Shape {
            name: "nodes nearly full",
            start: Start::NodesNearlyFull,
            blocks: NODE_SLOTS,
            ports: 2,
            ..Shape::MIXED
        },
    ];

    /// The calls that a history of this shape begins with.
    pub fn first_calls(&self, random: &mut Random) -> Vec<Call> {
        let add = |incoming, outgoing| Call::Add { incoming, outgoing };
        match self.start {
            Start::Empty => Vec::new(),
            Start::PortsNearlyFull => vec![add(512, 512), add(512, 512), add(400, 500 + random.below(125))],
            Start::NodesNearlyFull => {
                let blocks = NODE_SLOTS as u32 - random.below(20);
                (0..blocks).map(|_| add(random.below(3), random.below(2))).collect()
            }
        }
    }

    /// A node: mostly a block, else any number.
    pub fn node(&self, oracle: &Oracle, random: &mut Random) -> u32 {
        if random.one_in(self.wild) {
            return unheld(random).unwrap_or_else(|| random.below(oracle.tables().0 as u32 + 3));
        }
        random.pick(&oracle.blocks()).unwrap_or(0)
    }

    /// A port: mostly one of a block, else any number.
    pub fn port(&self, oracle: &Oracle, random: &mut Random) -> u32 {
        self.port_of(oracle, random, None, Sides::Both)
    }

    /// A port of a block, or of any, mostly of the sides named.
    fn port_of(&self, oracle: &Oracle, random: &mut Random, node: Option<u32>, sides: Sides) -> u32 {
        let any = |random: &mut Random| random.below(oracle.tables().1 as u32 + 6);
        if random.one_in(self.wild) {
            return unheld(random).unwrap_or_else(|| any(random));
        }
        // A few tries, since a block may have no port of these sides.
        for _ in 0..5 {
            let node = node.or_else(|| random.pick(&oracle.blocks())).unwrap_or(0);
            let ports = oracle.ports(node, sides).unwrap_or_default();
            // The first few ports of a block often, so that they get many wires.
            let ports = if random.one_in(2) { &ports[..ports.len().min(3)] } else { &ports[..] };
            if let Some(port) = random.pick(ports) {
                return port;
            }
        }
        any(random)
    }

    fn with_offset(&self, oracle: &Oracle, random: &mut Random, port: u32) -> End {
        let offset = match random.below(4 * self.wild) {
            0 => 65_533 + random.below(4),
            1 => 32_766 + random.below(3),
            2 => u32::MAX,
            _ => {
                let beyond = u32::from(random.one_in(self.wild));
                random.below(oracle.split(port).unwrap_or(1) + beyond)
            }
        };
        End { port, offset }
    }

    /// Two ports, mostly of opposite sides.
    pub fn two_ports(&self, oracle: &Oracle, random: &mut Random) -> [u32; 2] {
        let sides = match random.below(16) {
            0 | 1 => [Sides::Both, Sides::Both],
            even if even % 2 == 0 => [Sides::One(Side::Outgoing), Sides::One(Side::Incoming)],
            _ => [Sides::One(Side::Incoming), Sides::One(Side::Outgoing)],
        };
        let node = if random.one_in(self.loops) { random.pick(&oracle.blocks()) } else { None };
        let a = self.port_of(oracle, random, node, sides[0]);
        let b = if random.one_in(30) { a } else { self.port_of(oracle, random, node, sides[1]) };
        [a, b]
    }

    fn count(&self, random: &mut Random) -> u32 {
        match random.below(16 * self.wild) {
            0..=3 => random.below(1_030),
            4 => u32::MAX - random.below(3),
            _ => random.below(self.ports + 1),
        }
    }

    fn new_counts(&self, oracle: &Oracle, random: &mut Random, node: u32) -> [u32; 2] {
        let present = [Side::Incoming, Side::Outgoing].map(|side| oracle.ports(node, Sides::One(side)));
        match present {
            [Ok(incoming), Ok(outgoing)] if self.nudge > 0 && !random.one_in(4) => [incoming, outgoing].map(|ports| {
                let most = ports.len() as u32 + self.nudge;
                most.saturating_sub(random.below(2 * self.nudge + 1))
            }),
            _ => [self.count(random), self.count(random)],
        }
    }

    /// The next call of a history.
    pub fn call(&self, oracle: &Oracle, random: &mut Random) -> Call {
        let mut draw = random.below(self.weights.iter().sum());
        let code = self.weights.iter().position(|weight| match draw.checked_sub(*weight) {
            Some(rest) => {
                draw = rest;
                false
            }
            None => true,
        });
        let blocks = oracle.blocks().len();
        let code = match code.expect("a weight for each code") + 1 {
            1 if blocks >= self.blocks && !random.one_in(10) => 4,
            2 if blocks < self.blocks && !random.one_in(3) => 1,
            _ if blocks == 0 && !random.one_in(self.wild) => 1,
            code => code,
        };
        match code {
            1 => Call::Add { incoming: self.count(random), outgoing: self.count(random) },
            2 => Call::Remove { node: self.node(oracle, random) },
            3 => {
                let node = self.node(oracle, random);
                let [incoming, outgoing] = self.new_counts(oracle, random, node);
                Call::Resize { node, incoming, outgoing }
            }
            4 => {
                let [a, b] = self.two_ports(oracle, random);
                Call::Link { a, b }
            }
            5 => Call::Unlink { port: self.port(oracle, random) },
            6 => {
                let [a, b] = self.two_ports(oracle, random).map(|port| self.with_offset(oracle, random, port));
                Call::LinkSubports { a, b }
            }
            code @ (7 | 8) => {
                let port = self.port(oracle, random);
                let end = self.with_offset(oracle, random, port);
                if code == 7 {
                    Call::UnlinkSubport { end }
                } else {
                    Call::SubportLink { end }
                }
            }
            _ => Call::Counts,
        }
    }
}

/// At times a number at an edge of what the original's indexes or the records hold.
fn unheld(random: &mut Random) -> Option<u32> {
    match random.below(5) {
        0 => Some(u32::MAX - random.below(2)),
        1 => Some(2_147_483_646 + random.below(3)),
        _ => None,
    }
}
