//! The points where the original and the rules of the port differ or were settled by a reading (R1 to R16), each with
//! its smallest input: what the driver gives, and what the original itself does with it.

use std::panic::{catch_unwind, AssertUnwindSafe};

use driver::{Answer, Asked, Graph, Oracle, Reason, Sides, NODE_SLOTS, NONE};
use portgraph::multiportgraph::SubportIndex;
use portgraph::{LinkError, LinkMut, LinkView, MultiMut, MultiView, NodeIndex, PortIndex, PortMut, PortView};

type Record = [u32; 5];

/// Runs records; each must be given to the original.
fn after(records: &[Record]) -> Oracle {
    let mut oracle = Oracle::new();
    for record in records {
        let asked = oracle.ask_record(*record);
        assert!(matches!(asked, Asked::Answer(_)), "{record:?}: {asked:?}");
    }
    oracle
}

const START: [Record; 2] = [[1, 0, 1, 0, 0], [1, 2, 0, 0, 0]];

fn a() -> Oracle {
    after(&[START[0], START[1], [4, 0, 1, 0, 0]])
}

fn b() -> Oracle {
    after(&[START[0], START[1], [4, 0, 1, 0, 0], [4, 0, 2, 0, 0]])
}

fn given(oracle: &mut Oracle, record: Record) -> Answer {
    match oracle.ask_record(record) {
        Asked::Answer(answer) => answer,
        asked => panic!("{record:?}: {asked:?}"),
    }
}

fn not_given(oracle: &mut Oracle, record: Record) -> Reason {
    let before = oracle.graph().clone();
    match oracle.ask_record(record) {
        Asked::NotGiven(reason) => {
            assert!(before == *oracle.graph());
            reason
        }
        asked => panic!("{record:?}: {asked:?}"),
    }
}

fn added(oracle: &mut Oracle, record: Record) -> Answer {
    match not_given(oracle, record) {
        Reason::Added(answer) => answer,
        reason => panic!("{record:?}: {reason:?}"),
    }
}

fn port(number: usize) -> PortIndex<u32> {
    PortIndex::new(number)
}

fn panics(run: impl FnOnce(&mut Graph), oracle: &Oracle) -> bool {
    let mut graph = oracle.graph().clone();
    catch_unwind(AssertUnwindSafe(|| run(&mut graph))).is_err()
}

#[test]
fn r1_second_port_that_comes_to_life() {
    // The original itself.
    let mut graph = a().graph().clone();
    let ends = graph.link_ports(port(0), port(3)).unwrap();
    assert_eq!(ends, (SubportIndex::new_multi(port(0), 1), SubportIndex::new_unique(port(3))));
    for (second, inner) in [(4, 8), (5, 5)] {
        let mut graph = a().graph().clone();
        let error = graph.link_ports(port(0), port(second)).unwrap_err();
        assert!(matches!(error, LinkError::IncompatibleDirections { port_a, port_b, .. }
            if (port_a.index(), port_b.index()) == (5, inner)));
    }
    // The driver: 11, and the preparation stays.
    for second in [3, 4, 5] {
        let mut oracle = a();
        assert_eq!(given(&mut oracle, [4, 0, second, 0, 0]), [11, second, 0, 0, 0]);
        assert_eq!(oracle.split(0), Some(2));
        assert_eq!(oracle.all_wires(), [((0, 0), (1, 0))]);
    }
    let mut oracle =
        after(&[[1, 0, 1, 0, 0], [1, 4, 0, 0, 0], [4, 0, 1, 0, 0], [4, 0, 2, 0, 0], [4, 0, 3, 0, 0], [4, 0, 4, 0, 0]]);
    assert_eq!(given(&mut oracle, [4, 0, 17, 0, 0]), [11, 17, 0, 0, 0]);
    assert_eq!(oracle.split(0), Some(5));
}

#[test]
fn r2_reading_a_dead_port() {
    assert_eq!(not_given(&mut Oracle::new(), [8, 0, 0, 0, 0]), Reason::DeadPortRead([7, 0, 0, 0, 0]));
    assert_eq!(Oracle::new().port_links(0), Err([7, 0, 0, 0, 0]));
    assert!(panics(|graph| _ = graph.subport_link(SubportIndex::new_unique(port(0))), &Oracle::new()));
    assert!(panics(|graph| _ = graph.port_links(port(0)).next(), &Oracle::new()));
}

#[test]
fn r3_dead_first_end() {
    assert_eq!(not_given(&mut b(), [6, 9, 0, 0, 2]), Reason::DeadFirstEnd([7, 9, 0, 0, 0]));
    assert_eq!(not_given(&mut b(), [6, 9, 0, 3, 2]), Reason::DeadFirstEnd([7, 9, 0, 0, 0]));
    assert!(panics(
        |graph| _ = graph.link_subports(SubportIndex::new_unique(port(9)), SubportIndex::new_multi(port(0), 2)),
        &b()
    ));
    // A hidden second end: its copy port (3) panics there; its subport (4) doesn't, and the first port is named.
    assert!(panics(
        |graph| _ = graph.link_subports(SubportIndex::new_unique(port(9)), SubportIndex::new_unique(port(3))),
        &b()
    ));
    let mut graph = b().graph().clone();
    let error = graph.link_subports(SubportIndex::new_unique(port(9)), SubportIndex::new_unique(port(4))).unwrap_err();
    assert_eq!(error, LinkError::UnknownPort { port: port(9) });
    assert_eq!(given(&mut b(), [6, 9, 0, 0, 1]), [7, 9, 0, 0, 0]);
    assert_eq!(given(&mut b(), [6, 9, 5, 10, 3]), [7, 9, 0, 0, 0]);
}

#[test]
fn r4_numbers_that_the_indexes_cannot_hold() {
    let unheld = 2_147_483_647;
    assert!(panics(|_| _ = NodeIndex::<u32>::new(unheld as usize), &Oracle::new()));
    assert_eq!(not_given(&mut b(), [2, unheld, 0, 0, 0]), Reason::Unheld([4, 0, 0, 0, 0]));
    assert_eq!(not_given(&mut b(), [4, unheld, 0, 0, 0]), Reason::Unheld([7, unheld, 0, 0, 0]));
    assert_eq!(not_given(&mut b(), [5, u32::MAX, 0, 0, 0]), Reason::Unheld([7, u32::MAX, 0, 0, 0]));
    assert_eq!(given(&mut b(), [4, 0, u32::MAX, 0, 0]), [11, u32::MAX, 0, 0, 0]);
    assert_eq!(given(&mut b(), [2, unheld - 1, 0, 0, 0]), [4, 0, 0, 0, 0]);
    assert_eq!(given(&mut b(), [4, unheld - 1, 0, 0, 0]), [7, unheld - 1, 0, 0, 0]);
    assert_eq!(added(&mut b(), [8, 0, 32_767, 0, 0]), [9, 0, 0, 0, 0]);
    assert_eq!(added(&mut b(), [8, 0, 65_534, 0, 0]), [9, 0, 0, 0, 0]);
    assert_eq!(added(&mut b(), [8, 0, 65_535, 0, 0]), [2, 0, 0, 0, 0]);
    assert_eq!(given(&mut a(), [8, 1, 65_534, 0, 0]), [0, 1, 0, 0, 0]);
    assert_eq!(added(&mut b(), [1, u32::MAX, 2, 0, 0]), [3, 0, 0, 0, 0]);
}

#[test]
fn r5_order_of_the_checks() {
    assert_eq!(added(&mut b(), [3, 9, 2000, 0, 0]), [3, 0, 0, 0, 0]);
    assert_eq!(given(&mut b(), [4, 9, 3, 0, 0]), [7, 9, 0, 0, 0]);
    assert_eq!(added(&mut b(), [4, 3, 9, 0, 0]), [8, 3, 0, 0, 0]);
    assert_eq!(added(&mut b(), [4, 0, 3, 0, 0]), [8, 3, 0, 0, 0]);
    assert_eq!(added(&mut b(), [6, 0, 2, 9, 0]), [9, 0, 0, 0, 0]);
    assert_eq!(added(&mut b(), [6, 0, 2, 3, 0]), [8, 3, 0, 0, 0]);
    // Same side and linked.
    assert_eq!(given(&mut a(), [6, 1, 0, 2, 0]), [12, 1, 2, 0, 0]);
    assert_eq!(given(&mut b(), [6, 0, 0, 0, 1]), [12, 4, 5, 1, 0]);
    assert_eq!(b().connections(2, 9), Err([4, 0, 0, 0, 0]));
    assert_eq!(b().connections(2, 0), Err([5, 0, 0, 0, 0]));
    let mut oracle = a();
    assert_eq!(given(&mut oracle, [1, 0, 0, 0, 0]), [0, 2, 0, 0, 0]);
    assert_eq!(given(&mut oracle, [2, 2, 0, 0, 0]), [0, 0, 0, 0, 0]);
    assert_eq!(given(&mut oracle, [4, 0, 2, 0, 0]), [0, 0, 1, 2, 0]);
    assert_eq!(added(&mut oracle, [2, 2, 0, 0, 0]), [5, 0, 0, 0, 0]);
    // Unknown codes, unused words.
    for record in [[0, 0, 0, 0, 0], [10, 0, 0, 0, 0], [1, 1, 1, 1, 0], [2, 0, 1, 0, 0], [9, 0, 0, 0, 1]] {
        assert_eq!(added(&mut b(), record), [2, 0, 0, 0, 0]);
    }
    // The move list.
    let resize = driver::Call::Resize { node: 1, incoming: 2, outgoing: 0 };
    assert_eq!(b().ask_with_list(resize, Some(5)), Asked::NotGiven(Reason::Added([6, 0, 0, 0, 0])));
    assert_eq!(b().ask_with_list(resize, Some(6)), Asked::Answer([0, 0, 0, 0, 0]));
}

/// Port 0 split with 2 wires, ports 3 and 4 wired.
const CROWD: [Record; 7] = [
    [1, 0, 1, 0, 0],
    [1, 2, 0, 0, 0],
    [1, 0, 1, 0, 0],
    [1, 1, 0, 0, 0],
    [4, 0, 1, 0, 0],
    [4, 0, 2, 0, 0],
    [4, 3, 4, 0, 0],
];

/// A block with the most ports.
const WIDE: Record = [1, 512, 512, 0, 0];

#[test]
fn r6_space() {
    let full = |more: &[Record]| after(&[&CROWD, more].concat());
    let mut oracle = full(&[WIDE, WIDE, [1, 500, 500, 0, 0], [1, 12, 0, 0, 0]]);
    assert_eq!(oracle.tables().1, 3_068);
    assert_eq!(given(&mut oracle.clone(), [4, 0, 4, 0, 0]), [0, 0, 2, 4, 1]);
    assert_eq!(added(&mut oracle, [4, 4, 0, 0, 0]), [10, 0, 0, 0, 0]);

    let mut oracle = full(&[[1, 1, 1, 0, 0], WIDE, WIDE, [1, 500, 500, 0, 0], [1, 10, 0, 0, 0]]);
    let mut other = oracle.clone();
    assert_eq!(given(&mut oracle, [4, 0, 8, 0, 0]), [0, 0, 2, 8, 0]);
    assert_eq!(given(&mut oracle, [4, 9, 4, 0, 0]), [0, 9, 0, 4, 1]);
    assert_eq!(given(&mut other, [4, 9, 4, 0, 0]), [0, 9, 0, 4, 1]);
    assert_eq!(added(&mut other, [4, 0, 8, 0, 0]), [10, 0, 0, 0, 0]);

    // 11 needs the room of the first preparation, 12 that of both.
    let mut oracle = full(&[WIDE, WIDE, [1, 500, 500, 0, 0], [1, 13, 0, 0, 0]]);
    assert_eq!(oracle.tables().1, 3_069);
    assert_eq!(given(&mut oracle.clone(), [4, 3, 4_000, 0, 0]), [11, 4_000, 0, 0, 0]);
    assert_eq!(added(&mut oracle, [4, 1, 4, 0, 0]), [10, 0, 0, 0, 0]);
    assert_eq!(given(&mut oracle, [4, 1, 4_000, 0, 0]), [11, 4_000, 0, 0, 0]);
    assert_eq!(added(&mut oracle, [4, 3, 4_000, 0, 0]), [10, 0, 0, 0, 0]);

    // Shrinking.
    let mut oracle = after(&[[1, 0, 1, 0, 0], [1, 511, 512, 0, 0], WIDE, WIDE]);
    assert_eq!(added(&mut oracle, [3, 0, 0, 0, 0]), [10, 0, 0, 0, 0]);
    let mut oracle = after(&[
        [1, 0, 1, 0, 0],
        [1, 3, 0, 0, 0],
        [4, 0, 1, 0, 0],
        [4, 0, 2, 0, 0],
        [4, 0, 3, 0, 0],
        [1, 0, 3, 0, 0],
        WIDE,
        WIDE,
        [1, 512, 500, 0, 0],
        [1, 1, 0, 0, 0],
    ]);
    assert_eq!(oracle.tables().1, 3_072);
    assert_eq!(added(&mut oracle, [3, 0, 3, 0, 0]), [10, 0, 0, 0, 0]);
    // The node table.
    let mut oracle = after(&[[1, 0, 0, 0, 0]; NODE_SLOTS]);
    assert_eq!(added(&mut oracle, [1, 0, 0, 0, 0]), [10, 0, 0, 0, 0]);
    assert_eq!(given(&mut oracle, [2, 7, 0, 0, 0]), [0, 0, 0, 0, 0]);
    assert_eq!(given(&mut oracle, [1, 0, 0, 0, 0]), [0, 7, 0, 0, 0]);
}

#[test]
fn r7_sizes_of_blocks() {
    let mut oracle = after(&[[1, 2, 1, 0, 0], [3, 0, 1, 2, 0]]);
    assert_eq!(oracle.tables().1, 7);
    assert_eq!(oracle.ports(0, Sides::Both).unwrap(), [3, 4, 5]);
    given(&mut oracle, [3, 0, 2, 2, 0]);
    assert_eq!(oracle.tables().1, 11);
    given(&mut oracle, [3, 0, 1, 3, 0]);
    assert_eq!(oracle.tables().1, 11);
    assert_eq!(oracle.ports(0, Sides::Both).unwrap(), [3, 4, 5, 6]);
    // The seventh subport of a hidden node.
    let mut oracle = after(&[[1, 0, 1, 0, 0], [1, 7, 0, 0, 0]]);
    for port in 1..=6 {
        given(&mut oracle, [4, 0, port, 0, 0]);
    }
    assert_eq!(oracle.tables().1, 8 + 3 + 4 + 8);
    given(&mut oracle, [4, 0, 7, 0, 0]);
    assert_eq!(oracle.tables().1, 8 + 3 + 4 + 8 + 8);
    // A block of 1 without a port: only the table's length tells.
    let oracle = after(&[[1, 0, 0, 0, 0], [1, 0, 1, 0, 0], [3, 1, 0, 0, 0]]);
    assert_eq!(oracle.tables().1, 2);
}

#[test]
fn r8_events_of_a_resize() {
    let mut oracle = after(&[[1, 0, 3, 0, 0]]);
    assert_eq!(given(&mut oracle, [3, 0, 0, 2, 0]), [0, 3, 0, 0, 0]);
    assert_eq!(oracle.moves(), [[2, 1, NONE], [1, 0, 1], [0, 0, 0]]);
    let mut list = [77; 10];
    oracle.write_moves(&mut list);
    assert_eq!(list, [2, 1, NONE, 1, 0, 1, 0, 0, 0, 77]);
    let mut oracle = after(&[[1, 1, 1, 0, 0], [4, 1, 0, 0, 0]]);
    assert_eq!(given(&mut oracle, [3, 0, 0, 0, 0]), [0, 2, 0, 0, 0]);
    assert_eq!(oracle.moves(), [[0, 1, 1], [1, 1, NONE]]);
    let mut oracle = after(&[[1, 1, 2, 0, 0], [1, 1, 0, 0, 0]]);
    assert_eq!(given(&mut oracle, [3, 0, 2, 2, 0]), [0, 3, 0, 0, 0]);
    assert_eq!(oracle.moves(), [[0, 0, 4], [1, 0, 6], [2, 0, 7]]);
}

#[test]
fn r9_set_apart() {
    // A kept split port loses its mark.
    let records =
        [[1, 1, 1, 0, 0], [1, 2, 2, 0, 0], [4, 4, 0, 0, 0], [4, 5, 0, 0, 0], [4, 1, 2, 0, 0], [4, 1, 3, 0, 0]];
    let mut oracle = after(&records);
    assert_eq!(not_given(&mut oracle, [3, 0, 0, 1, 0]), Reason::SetApart);
    let mut graph = oracle.graph().clone();
    graph.set_num_ports(NodeIndex::new(0), 0, 1, |_, _| {});
    let link = graph.subport_link(SubportIndex::new_multi(port(0), 1)).unwrap();
    assert_eq!((link.port().index(), link.offset()), (0, 0));
    // A stale mark.
    let mut oracle = after(&[[1, 1, 1, 0, 0], [1, 0, 2, 0, 0], [4, 2, 0, 0, 0], [4, 3, 0, 0, 0]]);
    assert_eq!(not_given(&mut oracle, [3, 0, 0, 1, 0]), Reason::SetApart);
    assert!(panics(
        |graph| {
            graph.set_num_ports(NodeIndex::new(0), 0, 1, |_, _| {});
            graph.remove_node(NodeIndex::new(0));
            graph.add_node(1, 1);
            _ = graph.link_ports(port(2), port(1));
        },
        &oracle
    ));
    // A shift to the right: (1,4) to (3,1) within a block of 8, the third outgoing port split.
    let records = [[1, 1, 5, 0, 0], [1, 2, 0, 0, 0], [3, 0, 1, 6, 0], [3, 0, 1, 4, 0]];
    let mut oracle = after(&records);
    let outgoing = oracle.ports(0, Sides::Both).unwrap();
    assert_eq!(outgoing.len(), 5);
    given(&mut oracle, [4, outgoing[3], 6, 0, 0]);
    given(&mut oracle, [4, outgoing[3], 7, 0, 0]);
    assert_eq!(not_given(&mut oracle, [3, 0, 3, 1, 0]), Reason::SetApart);
    assert_eq!(given(&mut oracle, [3, 0, 2, 1, 0])[0], 0);
}

#[test]
fn r10_a_port_with_itself() {
    let mut oracle = a();
    assert_eq!(given(&mut oracle, [4, 0, 0, 0, 0]), [12, 5, 5, 1, 0]);
    assert_eq!(oracle.split(0), Some(2));
    let before = oracle.graph().clone();
    assert_eq!(given(&mut oracle, [4, 0, 0, 0, 0]), [12, 5, 5, 1, 0]);
    assert!(before == *oracle.graph());
}

#[test]
fn r11_a_split_port_without_wires() {
    let mut oracle = a();
    assert_eq!(given(&mut oracle, [4, 1, 2, 0, 0])[0], 12);
    assert_eq!(given(&mut oracle, [7, 1, 0, 0, 0]), [0, 1, 0, 0, 0]);
    assert_eq!(given(&mut oracle, [5, 1, 0, 0, 0]), [0, 1, 1, 0, 0]);
}

#[test]
fn r12_two_answers_to_one_cut() {
    assert_eq!(given(&mut b(), [5, 2, 0, 0, 0]), [0, 1, 5, 0, 0]);
    assert_eq!(given(&mut b(), [7, 2, 0, 0, 0]), [0, 1, 0, 1, 0]);
}

#[test]
fn r13_order_of_freeing() {
    let mut oracle = b();
    assert_eq!(given(&mut oracle, [2, 0, 0, 0, 0]), [0, 0, 0, 0, 0]);
    assert_eq!(given(&mut oracle, [1, 0, 0, 0, 0]), [0, 0, 0, 0, 0]);
    assert_eq!(given(&mut oracle, [1, 3, 0, 0, 0]), [0, 2, 3, 0, 0]);
}

#[test]
fn r16_the_dead_second_end() {
    let mut graph = a().graph().clone();
    let error = graph.link_subports(SubportIndex::new_unique(port(2)), SubportIndex::new_unique(port(9))).unwrap_err();
    assert_eq!(error, LinkError::UnknownPort { port: port(2) });
    assert_eq!(given(&mut a(), [6, 2, 0, 9, 0]), [11, 9, 0, 0, 0]);
    // 13, first end first.
    assert_eq!(given(&mut b(), [6, 0, 1, 1, 0]), [13, 5, 0, 0, 0]);
    assert_eq!(given(&mut a(), [6, 2, 0, 0, 0]), [13, 0, 0, 0, 0]);
    // The list of all wires always ascends by outgoing place.
    let wires = b().all_wires();
    assert!(wires.windows(2).all(|pair| pair[0] < pair[1]));
    assert_eq!(b().graph().node_count(), 2);
}
