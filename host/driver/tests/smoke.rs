//! Random calls of all kinds on the original: no panic outside the cases set apart, the wire book agrees with the list of
//! all wires, and the listings agree with each other.

mod common;

use std::collections::{BTreeMap, BTreeSet};
use std::panic::{catch_unwind, AssertUnwindSafe};

use common::Book;
use driver::{Asked, Call, Graph, Oracle, Random, Reason, Shape, Side, Sides};
use portgraph::{LinkView, NodeIndex, PortMut, PortView};

/// All but the last, on whose many blocks the listings of each pair take long.
const SHAPES: &[Shape] = Shape::ALL.split_at(Shape::ALL.len() - 1).0;

const BOTH: [Side; 2] = [Side::Incoming, Side::Outgoing];

fn panics(calls: &[Call]) -> bool {
    catch_unwind(AssertUnwindSafe(|| {
        let mut oracle = Oracle::new();
        for call in calls {
            oracle.ask(*call);
        }
    }))
    .is_err()
}

/// Leaves out calls while the rest still panics.
fn smallest(mut calls: Vec<Call>) -> Vec<Call> {
    loop {
        let shorter = (0..calls.len()).rev().find_map(|index| {
            let mut fewer = calls.clone();
            fewer.remove(index);
            panics(&fewer).then_some(fewer)
        });
        match shorter {
            Some(fewer) => calls = fewer,
            None => return calls,
        }
    }
}

/// The multiport marks that a graph holds, read from its debug form, where our stand-in for bit vectors lists the ones.
fn marks(graph: &Graph) -> BTreeSet<usize> {
    let text = format!("{graph:?}");
    let (_, rest) = text.split_once("multiport: {").expect("marks in the debug form");
    let (list, _) = rest.split_once('}').expect("end of the marks");
    list.split(", ").filter(|item| !item.is_empty()).map(|item| item.parse().expect("a port")).collect()
}

/// The marks that a graph should hold, by its shape: each port that leads to a hidden node's lone port, and that port.
fn marks_by_shape(graph: &Graph) -> BTreeSet<usize> {
    let inner = graph.as_portgraph();
    let lone = inner.nodes_iter().filter(|node| !graph.contains_node(*node)).map(|node| {
        let (incoming, outgoing) = (inner.num_inputs(node), inner.num_outputs(node));
        assert!(incoming.min(outgoing) == 1 && incoming.max(outgoing) >= 2, "a hidden node of another shape");
        let port = if incoming == 1 { inner.input(node, 0) } else { inner.output(node, 0) }.unwrap();
        [port.index(), inner.port_link(port).expect("a hidden node without its port").index()]
    });
    lone.flatten().collect()
}

fn check_listings(oracle: &Oracle) {
    assert_eq!(marks(oracle.graph()), marks_by_shape(oracle.graph()));

    // The lengths of the tables, read a second way.
    let mut inner = oracle.graph().as_portgraph().clone();
    inner.shrink_to_fit();
    assert_eq!(oracle.tables(), (inner.node_capacity(), inner.port_capacity()));

    let wires = oracle.all_wires();
    assert!(wires.windows(2).all(|pair| oracle.place(pair[0].0) < oracle.place(pair[1].0)));
    let blocks = oracle.blocks();
    assert!(blocks.windows(2).all(|pair| pair[0] < pair[1]));
    let mut connections = 0;
    for from in &blocks {
        for to in &blocks {
            let listed = oracle.connections(*from, *to).unwrap();
            connections += listed.len();
            assert!(listed.iter().all(|wire| wires.contains(wire)));
        }
    }
    assert_eq!(connections, wires.len());
    for node in blocks {
        let mut fan_out = 0;
        for side in BOTH {
            let subports = oracle.subports(node, Sides::One(side)).unwrap();
            let mut links = Vec::new();
            for port in oracle.ports(node, Sides::One(side)).unwrap() {
                let own = subports.iter().filter(|end| end.0 == port).count() as u32;
                assert_eq!(oracle.split(port), (own > 1).then_some(own));
                let forward = oracle.port_links(port).unwrap();
                assert_eq!(oracle.port_fan_out(port).unwrap() as usize, forward.len());
                assert!(forward.len() <= own as usize);
                if side == Side::Outgoing {
                    fan_out += forward.len() as u32;
                }
                let steps = forward.len() + 1;
                let mut back = oracle.port_links_by_steps(port, &vec![true; steps]).unwrap();
                assert_eq!(back.pop(), Some(None));
                back.reverse();
                assert_eq!(back, forward.iter().copied().map(Some).collect::<Vec<_>>());
                // One cursor for both ends: no item twice.
                let turns: Vec<bool> = (0..steps).map(|step| step % 2 == 1).collect();
                let mut mixed: Vec<_> =
                    oracle.port_links_by_steps(port, &turns).unwrap().into_iter().flatten().collect();
                mixed.sort();
                assert_eq!(mixed, forward);
                links.extend(forward);
            }
            assert_eq!(links, oracle.node_links(node, Sides::One(side), 0..0).unwrap());
            let far = |wire: &driver::Wire| oracle.place(wire.1).unwrap().node;
            let neighbours: Vec<u32> = links.iter().map(far).collect();
            assert_eq!(neighbours, oracle.neighbours(node, Sides::One(side), false).unwrap());
            for (near, end) in links {
                assert!(subports.contains(&near));
                let wire = if side == Side::Outgoing { (near, end) } else { (end, near) };
                assert!(wires.contains(&wire));
            }
        }
        assert_eq!(oracle.fan_out(node).unwrap(), fan_out);
        // Both sides, self-loops once: the original's own listings against the two sides.
        let outgoing = oracle.ports(node, Sides::One(Side::Outgoing)).unwrap();
        let range = outgoing.first().map_or(0..0, |first| *first..first + outgoing.len() as u32);
        let mut once = oracle.node_links(node, Sides::One(Side::Incoming), range.clone()).unwrap();
        once.extend(oracle.node_links(node, Sides::One(Side::Outgoing), range.clone()).unwrap());
        assert_eq!(once, oracle.node_links(node, Sides::Both, range).unwrap());
        let far: Vec<u32> = once.iter().map(|wire| oracle.place(wire.1).unwrap().node).collect();
        assert_eq!(far, oracle.neighbours(node, Sides::Both, true).unwrap());
        let mut all = oracle.subports(node, Sides::One(Side::Incoming)).unwrap();
        all.extend(oracle.subports(node, Sides::One(Side::Outgoing)).unwrap());
        assert_eq!(all, oracle.subports(node, Sides::Both).unwrap());
    }
}

/// What came up: answers by call code and refusal, and reasons.
type Tally = BTreeMap<String, u32>;

fn history(seed: u64, shape: Shape, steps: usize, tally: &mut Tally) {
    let mut random = Random::new(seed);
    let mut oracle = Oracle::new();
    let mut book = Book::default();
    let mut calls = Vec::new();
    let mut first = shape.first_calls(&mut random);
    for step in 0..steps {
        let call = first.pop().unwrap_or_else(|| shape.call(&oracle, &mut random));
        assert_eq!(Call::from_record(call.to_record()), Some(call));
        calls.push(call);
        let before = oracle.clone();
        let Ok(asked) = catch_unwind(AssertUnwindSafe(|| oracle.ask(call))) else {
            panic!("the original panics (seed {seed}, step {step}); smallest input: {:?}", smallest(calls));
        };
        let name = match asked {
            Asked::Answer(answer) => format!("given, code {}, {}", call.to_record()[0], answer[0]),
            Asked::NotGiven(Reason::Added(answer)) => format!("added {}", answer[0]),
            Asked::NotGiven(Reason::DeadPortRead(_)) => "R2".into(),
            Asked::NotGiven(Reason::DeadFirstEnd(_)) => "R3".into(),
            Asked::NotGiven(Reason::Unheld(_)) => "R4".into(),
            Asked::NotGiven(Reason::SetApart) => "R9".into(),
        };
        *tally.entry(name).or_default() += 1;
        if let (Asked::NotGiven(Reason::SetApart), Call::Resize { node, incoming, outgoing }) = (asked, call) {
            // The original's marks do go wrong in the case set apart, each time.
            let mut graph = oracle.graph().clone();
            graph.set_num_ports(NodeIndex::new(node as usize), incoming as usize, outgoing as usize, |_, _| {});
            assert_ne!(marks(&graph), marks_by_shape(&graph), "seed {seed}, step {step}");
        }
        if let Asked::Answer(answer) = asked {
            book.feed(call, answer, |port| before.split(port).is_some(), &oracle);
        }
        let place = |end| oracle.place(end).expect("an end of a wire is live");
        let walked: Vec<_> = oracle.all_wires().into_iter().map(|(from, to)| (place(from), place(to))).collect();
        if walked != book.wires() {
            panic!("the wire book differs (seed {seed}, step {step}): {calls:?}");
        }
        assert_eq!(oracle.ask(Call::Counts), Asked::Answer(book.counts()), "seed {seed}, step {step}");
        if step % 25 == 0 || (matches!(call, Call::Resize { .. }) && step % 5 == 0) {
            check_listings(&oracle);
        }
    }
}

#[test]
fn random_calls() {
    let mut tally = Tally::new();
    for seed in 1..=40 {
        history(seed, SHAPES[seed as usize % SHAPES.len()], 500, &mut tally);
    }
    for (name, count) in &tally {
        println!("{count:6} {name}");
    }
    assert_eq!(tally.values().sum::<u32>(), 20_000);
    // Each kind of answer came up.
    for name in [
        "given, code 1, 0",
        "given, code 2, 0",
        "given, code 2, 4",
        "given, code 3, 0",
        "given, code 3, 4",
        "given, code 4, 0",
        "given, code 4, 7",
        "given, code 4, 11",
        "given, code 4, 12",
        "given, code 5, 0",
        "given, code 5, 7",
        "given, code 6, 0",
        "given, code 6, 7",
        "given, code 6, 11",
        "given, code 6, 12",
        "given, code 6, 13",
        "given, code 7, 0",
        "given, code 7, 7",
        "given, code 8, 0",
        "given, code 9, 0",
        "added 2",
        "added 3",
        "added 5",
        "added 8",
        "added 9",
        "added 10",
        "R2",
        "R3",
        "R4",
        "R9",
    ] {
        assert!(tally.contains_key(name), "{name} never came up");
    }
}

/// Longer runs: `cargo test --offline --release -- --ignored --nocapture`.
#[test]
#[ignore]
fn many_random_calls() {
    let mut tally = Tally::new();
    for seed in 1_000..3_000 {
        history(seed, SHAPES[seed as usize % SHAPES.len()], 500, &mut tally);
    }
    for (name, count) in &tally {
        println!("{count:8} {name}");
    }
}
