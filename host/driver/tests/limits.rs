//! Wirings at the limits of the tables.

use std::collections::VecDeque;

use driver::{Call, Oracle, Release, PORT_SLOTS};

fn answer(oracle: &mut Oracle, call: Call) -> [u32; 5] {
    oracle.ask(call).expected().expect("no resize that is set apart")
}

/// The first number of the answer: 0, or the refusal.
fn code(oracle: &mut Oracle, call: Call) -> u32 {
    answer(oracle, call)[0]
}

fn add(incoming: u32, outgoing: u32) -> Call {
    Call::Add { incoming, outgoing }
}

#[test]
fn slots_given_back_are_used_again_by_their_length_only() {
    for (wires, refusal) in [(255, 0), (256, 10)] {
        let mut oracle = Oracle::new();
        assert_eq!(code(&mut oracle, add(0, 1)), 0);
        assert_eq!(code(&mut oracle, add(1_000, 0)), 0);
        for input in 1..=wires {
            assert_eq!(code(&mut oracle, Call::Link { a: 0, b: input }), 0);
        }
        assert_eq!(code(&mut oracle, Call::Unlink { port: 0 }), 0);
        assert_eq!(answer(&mut oracle, Call::Counts), [0, 2, 1_001, 0, 0]);
        assert_eq!(code(&mut oracle, add(0, 600)), refusal);
    }
}

#[test]
fn the_most_wires_of_one_output() {
    let mut oracle = Oracle::new();
    let first = |oracle: &mut Oracle, call| match answer(oracle, call) {
        [0, _, port, ..] => port,
        other => panic!("{call:?}: {other:?}"),
    };
    let output = first(&mut oracle, add(0, 1));
    // The hidden node's slots, and the blocks that it gave back: these are taken by blocks with as many inputs, so that nothing
    // of the table is lost.
    let (mut slots, mut back) = (0, VecDeque::from([2, 1]));
    let (mut inputs, mut blocks) = (VecDeque::new(), vec![[0, 1]]);
    let mut wires = 0;
    loop {
        if inputs.is_empty() {
            let size = back.pop_front().expect("a block that was given back");
            let port = first(&mut oracle, add(size, 0));
            inputs.extend(port..port + size);
            blocks.push([size as u16, 0]);
        }
        let link = Call::Link { a: output, b: inputs.pop_front().expect("an input") };
        match code(&mut oracle, link) {
            0 => wires += 1,
            refusal => {
                assert_eq!(refusal, 10);
                break;
            }
        }
        let ports: u32 = if wires == 1 { 0 } else { wires + 1 };
        if wires == 2 {
            slots = 3;
        } else if ports >= slots && ports > 0 {
            back.push_back(slots);
            slots = ports.next_power_of_two();
        }
    }
    assert_eq!(wires, 1_022);
    assert!(oracle.tables().1 <= PORT_SLOTS);
    // It can be saved; built from its file, blocks first, it has no room.
    let mut left = wires as usize;
    let mut ends = Vec::new();
    for (rank, [size, _]) in blocks.iter().enumerate() {
        let used = left.min(usize::from(*size));
        ends.extend((0..used).map(|input| [0, 0, rank as u16, input as u16]));
        left -= used;
    }
    assert_eq!((ends.len(), Oracle::build(Release::One, &blocks, &ends).err()), (1_022, Some(10)));
}
