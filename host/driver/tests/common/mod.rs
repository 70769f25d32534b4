//! Shared by the tests: the wire book.

use std::collections::{BTreeMap, BTreeSet};

use driver::{Answer, Call, Oracle, Place, Side, Sides};

/// The wire book: blocks, their ports by side and position, and wires, the outgoing place first.
#[derive(Clone, Default, Debug)]
pub struct Book {
    blocks: BTreeMap<u32, [Vec<u32>; 2]>,
    wires: BTreeSet<(Place, Place)>,
}

fn slot(side: Side) -> usize {
    match side {
        Side::Incoming => 0,
        Side::Outgoing => 1,
    }
}

impl Book {
    /// Where a port stands, with an offset.
    fn place(&self, port: u32, offset: u32) -> Place {
        for (node, sides) in &self.blocks {
            for side in [Side::Incoming, Side::Outgoing] {
                if let Some(position) = sides[slot(side)].iter().position(|listed| *listed == port) {
                    return Place { node: *node, side, position: position as u32, offset };
                }
            }
        }
        panic!("port {port} is in no block of the book")
    }

    fn at(place: Place, other: Place) -> bool {
        (place.node, place.side, place.position) == (other.node, other.side, other.position)
    }

    fn lowest_unwired(&self, port: u32) -> u32 {
        let mut place = self.place(port, 0);
        while self.wires.iter().any(|(from, to)| *from == place || *to == place) {
            place.offset += 1;
        }
        place.offset
    }

    fn wire(&mut self, answer: Answer) {
        let one = self.place(answer[1], answer[2]);
        let other = self.place(answer[3], answer[4]);
        let wire = if one.side == Side::Outgoing { (one, other) } else { (other, one) };
        assert_eq!((wire.0.side, wire.1.side), (Side::Outgoing, Side::Incoming));
        assert!(self.wires.insert(wire), "a wire twice");
    }

    fn cut(&mut self, goes: impl Fn(Place) -> bool) {
        self.wires.retain(|(from, to)| !goes(*from) && !goes(*to));
    }

    /// Feeds a call with its answer; `split` says whether a named port was split before it, `after` is walked after a
    /// resize.
    pub fn feed(&mut self, call: Call, answer: Answer, split: impl Fn(u32) -> bool, after: &Oracle) {
        if answer[0] != 0 {
            return;
        }
        match call {
            Call::Add { incoming, outgoing } => {
                let first = answer[2];
                let ports = [first..first + incoming, first + incoming..first + incoming + outgoing];
                self.blocks.insert(answer[1], ports.map(|range| range.collect()));
            }
            Call::Remove { node } => {
                self.blocks.remove(&node);
                self.cut(|place| place.node == node);
            }
            Call::Resize { node, incoming, outgoing } => {
                let walked = |side| {
                    let mut ports: Vec<u32> =
                        after.subports(node, Sides::One(side)).unwrap().into_iter().map(|(port, _)| port).collect();
                    ports.dedup();
                    ports
                };
                let ports = [walked(Side::Incoming), walked(Side::Outgoing)];
                let counts = [incoming, outgoing];
                assert_eq!([0, 1].map(|side| ports[side].len() as u32), counts);
                self.blocks.insert(node, ports);
                self.cut(|place| place.node == node && place.position >= counts[slot(place.side)]);
            }
            Call::Link { a, b } => {
                assert_eq!((answer[1], answer[3]), (a, b));
                assert_eq!(answer[2], self.lowest_unwired(a));
                assert_eq!(answer[4], self.lowest_unwired(b));
                self.wire(answer);
            }
            Call::LinkSubports { a, b } => {
                let read = |end: driver::End| if split(end.port) { end.offset } else { 0 };
                assert_eq!(answer, [0, a.port, read(a), b.port, read(b)]);
                self.wire(answer);
            }
            Call::Unlink { port } => {
                let place = self.place(port, 0);
                self.cut(|other| Self::at(place, other));
            }
            Call::UnlinkSubport { end } => {
                let place = self.place(end.port, if split(end.port) { end.offset } else { 0 });
                self.cut(|other| place == other);
            }
            Call::SubportLink { .. } | Call::Counts => {}
        }
    }

    /// The wires, ascending.
    pub fn wires(&self) -> Vec<(Place, Place)> {
        self.wires.iter().copied().collect()
    }

    pub fn counts(&self) -> Answer {
        let ports: usize = self.blocks.values().flatten().map(Vec::len).sum();
        [0, self.blocks.len() as u32, ports as u32, self.wires.len() as u32, 0]
    }
}
