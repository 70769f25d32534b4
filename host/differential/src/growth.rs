//! Graphs of growing size for the benchmark: one that fills with blocks, and a port with more and more wires. A case is the
//! calls that make the graph, and a few calls that are then given over and over, which leave the graph as they found it.

use driver::{to_bytes, Call, End};

/// Calls that make a graph, and calls to be repeated on it.
pub struct Case {
    first: Vec<Call>,
    turn: Vec<Call>,
}

impl Case {
    /// The request bytes with so many turns.
    pub fn requests(&self, turns: usize) -> Vec<u8> {
        let repeated = (0..turns).flat_map(|_| &self.turn);
        let records: Vec<_> = self.first.iter().chain(repeated).map(|call| call.to_record()).collect();
        to_bytes(&records)
    }

    /// How many calls a turn has.
    pub fn calls(&self) -> usize {
        self.turn.len()
    }
}

/// What is asked of graphs of some sizes: for each kind of turn, a case of each size.
pub struct Table {
    pub counted: &'static str,
    pub sizes: &'static [u32],
    pub rows: Vec<(&'static str, Vec<Case>)>,
}

/// The calls that make a graph of a size, and the kinds of turn on it, each under a name.
type Growing = fn(u32) -> (Vec<Call>, Vec<(&'static str, Vec<Call>)>);

fn table(counted: &'static str, sizes: &'static [u32], growing: Growing) -> Table {
    let mut rows: Vec<(&'static str, Vec<Case>)> = Vec::new();
    for size in sizes {
        let (first, turns) = growing(*size);
        rows.resize_with(turns.len(), || ("", Vec::new()));
        for (row, (name, turn)) in rows.iter_mut().zip(turns) {
            row.0 = name;
            row.1.push(Case { first: first.clone(), turn });
        }
    }
    Table { counted, sizes, rows }
}

fn add(incoming: u32, outgoing: u32) -> Call {
    Call::Add { incoming, outgoing }
}

fn end(port: u32, offset: u32) -> End {
    End { port, offset }
}

/// Blocks with an input and an output each. Every output feeds the next block's input; the last block has no wire.
fn blocks(size: u32) -> (Vec<Call>, Vec<(&'static str, Vec<Call>)>) {
    let links = (0..size - 2).map(|block| Call::Link { a: 2 * block + 1, b: 2 * block + 2 });
    let last = size - 1;
    let resize = |outgoing| Call::Resize { node: last, incoming: 1, outgoing };
    let turns = vec![
        ("add a block, remove it", vec![add(1, 1), Call::Remove { node: size }]),
        ("resize a block and back", vec![resize(0), resize(1)]),
        ("link two ports, cut", vec![Call::Link { a: 2 * last + 1, b: 0 }, Call::Unlink { port: 0 }]),
        ("what a port is linked with", vec![Call::SubportLink { end: end(size, 0) }]),
    ];
    ((0..size).map(|_| add(1, 1)).chain(links).collect(), turns)
}

/// A block with one port, and a block with the ports that its wires lead to.
fn fan(size: u32, sides: [Call; 2]) -> (Vec<Call>, Vec<(&'static str, Vec<Call>)>) {
    let links = (1..=size).map(|port| Call::Link { a: 0, b: port });
    let (middle, far) = (end(0, size / 2), end(size / 2 + 1, 0));
    let turns = vec![
        ("cut a wire, link its ports", vec![Call::UnlinkSubport { end: middle }, Call::Link { a: 0, b: far.port }]),
        (
            "cut a wire, link its subports",
            vec![Call::UnlinkSubport { end: middle }, Call::LinkSubports { a: middle, b: far }],
        ),
        ("what a subport is linked with", vec![Call::SubportLink { end: middle }]),
        ("the same from its far end", vec![Call::SubportLink { end: far }]),
    ];
    (sides.into_iter().chain(links).collect(), turns)
}

/// The tables of the benchmark.
pub fn tables() -> Vec<Table> {
    const FANS: &[u32] = &[2, 20, 200, 500];
    vec![
        table("blocks", &[10, 100, 500, 1_000], blocks),
        table("wires at one output", FANS, |size| fan(size, [add(0, 1), add(size, 0)])),
        table("wires at one input", FANS, |size| fan(size, [add(1, 0), add(0, size)])),
    ]
}
