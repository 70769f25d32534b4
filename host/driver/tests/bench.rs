//! The bench wiring, cases A to K, on the original. Refusals that the port adds (F's 9, H's 5, J's 10 and 3) are not
//! given to it: they are expectations that follow from its inner graph.

use driver::{run_list, to_bytes, Asked, Oracle, Reason, Side, Sides};

/// Runs a record and gives the original's own answer.
fn answer(oracle: &mut Oracle, record: [u32; 5]) -> [u32; 5] {
    match oracle.ask_record(record) {
        Asked::Answer(answer) => answer,
        Asked::NotGiven(reason) => panic!("{record:?} is not given: {reason:?}"),
    }
}

/// Runs a record that is a refusal added by the port.
fn added(oracle: &mut Oracle, record: [u32; 5]) -> [u32; 5] {
    match oracle.ask_record(record) {
        Asked::NotGiven(Reason::Added(answer)) => answer,
        asked => panic!("{record:?}: {asked:?}"),
    }
}

fn start() -> Oracle {
    let mut oracle = Oracle::new();
    assert_eq!(answer(&mut oracle, [1, 0, 1, 0, 0]), [0, 0, 0, 0, 0]);
    assert_eq!(answer(&mut oracle, [1, 2, 0, 0, 0]), [0, 1, 1, 0, 0]);
    oracle
}

fn after_a() -> Oracle {
    let mut oracle = start();
    assert_eq!(answer(&mut oracle, [4, 0, 1, 0, 0]), [0, 0, 0, 1, 0]);
    oracle
}

fn after_b() -> Oracle {
    let mut oracle = after_a();
    assert_eq!(answer(&mut oracle, [4, 0, 2, 0, 0]), [0, 0, 1, 2, 0]);
    oracle
}

#[test]
fn a() {
    let mut oracle = after_a();
    assert_eq!(answer(&mut oracle, [9, 0, 0, 0, 0]), [0, 2, 3, 1, 0]);
    assert_eq!(oracle.all_wires(), [((0, 0), (1, 0))]);
}

#[test]
fn b() {
    let mut oracle = after_b();
    assert_eq!(answer(&mut oracle, [9, 0, 0, 0, 0]), [0, 2, 3, 2, 0]);
    assert_eq!(oracle.all_wires(), [((0, 0), (1, 0)), ((0, 1), (2, 0))]);
}

#[test]
fn c() {
    let mut oracle = after_b();
    assert_eq!(answer(&mut oracle, [4, 0, 2, 0, 0]), [0, 0, 2, 2, 1]);
    assert_eq!(answer(&mut oracle, [9, 0, 0, 0, 0]), [0, 2, 3, 3, 0]);
    assert_eq!(answer(&mut oracle, [8, 0, 1, 0, 0]), [0, 1, 2, 0, 0]);
}

#[test]
fn d() {
    let mut oracle = after_a();
    assert_eq!(answer(&mut oracle, [4, 1, 2, 0, 0]), [12, 4, 2, 0, 0]);
    assert_eq!(oracle.subports(1, Sides::Both).unwrap(), [(1, 0), (1, 1), (2, 0)]);
    assert_eq!(oracle.all_wires().len(), 1);
    assert_eq!(answer(&mut oracle, [9, 0, 0, 0, 0]), [0, 2, 3, 1, 0]);
}

#[test]
fn e() {
    let mut oracle = after_b();
    assert_eq!(answer(&mut oracle, [5, 0, 0, 0, 0]), [0, 1, 0, 0, 0]);
    assert_eq!(oracle.all_wires(), []);
    assert_eq!(answer(&mut oracle, [9, 0, 0, 0, 0]), [0, 2, 3, 0, 0]);
    let mut oracle = after_b();
    assert_eq!(answer(&mut oracle, [5, 2, 0, 0, 0]), [0, 1, 5, 0, 0]);
    assert_eq!(oracle.all_wires(), [((0, 0), (1, 0))]);
}

#[test]
fn f() {
    assert_eq!(answer(&mut after_a(), [8, 1, 5, 0, 0]), [0, 1, 0, 0, 0]);
    assert_eq!(added(&mut after_b(), [8, 0, 2, 0, 0]), [9, 0, 0, 0, 0]);
    assert_eq!(added(&mut after_b(), [7, 0, 2, 0, 0]), [9, 0, 0, 0, 0]);
    assert_eq!(added(&mut after_b(), [6, 2, 0, 0, 2]), [9, 0, 0, 0, 0]);
}

#[test]
fn g() {
    let mut oracle = start();
    assert_eq!(answer(&mut oracle, [4, 0, 0, 0, 0]), [12, 0, 0, 1, 0]);
    assert_eq!(answer(&mut oracle, [4, 0, 9, 0, 0]), [11, 9, 0, 0, 0]);
    assert_eq!(answer(&mut oracle, [4, 9, 0, 0, 0]), [7, 9, 0, 0, 0]);
}

#[test]
fn h() {
    let mut oracle = after_b();
    assert_eq!(added(&mut oracle, [2, 2, 0, 0, 0]), [5, 0, 0, 0, 0]);
    assert_eq!(answer(&mut oracle, [2, 7, 0, 0, 0]), [4, 0, 0, 0, 0]);
    assert_eq!(oracle.all_wires().len(), 2);
}

#[test]
fn i() {
    let mut oracle = start();
    assert_eq!(answer(&mut oracle, [3, 0, 0, 0, 0]), [0, 1, 0, 0, 0]);
    assert_eq!(answer(&mut oracle, [1, 0, 1, 0, 0]), [0, 2, 0, 0, 0]);
}

#[test]
fn j() {
    let mut oracle = Oracle::new();
    assert_eq!(answer(&mut oracle, [1, 512, 512, 0, 0]), [0, 0, 0, 0, 0]);
    assert_eq!(answer(&mut oracle, [1, 512, 512, 0, 0]), [0, 1, 1024, 0, 0]);
    assert_eq!(answer(&mut oracle, [1, 0, 1, 0, 0]), [0, 2, 2048, 0, 0]);
    assert_eq!(oracle.tables(), (3, 2049));
    assert_eq!(added(&mut oracle, [1, 512, 512, 0, 0]), [10, 0, 0, 0, 0]);
    assert_eq!(answer(&mut oracle, [1, 0, 0, 0, 0]), [0, 3, 0, 0, 0]);
    assert_eq!(added(&mut oracle, [1, 512, 513, 0, 0]), [3, 0, 0, 0, 0]);
}

#[test]
fn k() {
    let mut oracle = Oracle::new();
    assert_eq!(answer(&mut oracle, [1, 1, 1, 0, 0]), [0, 0, 0, 0, 0]);
    assert_eq!(answer(&mut oracle, [1, 0, 2, 0, 0]), [0, 1, 2, 0, 0]);
    assert_eq!(answer(&mut oracle, [4, 2, 0, 0, 0]), [0, 2, 0, 0, 0]);
    assert_eq!(answer(&mut oracle, [4, 3, 0, 0, 0]), [0, 3, 0, 0, 1]);
    // The resize is the case set apart, so the history ends here. Its events and what the case asks of the graph are
    // right in the original nevertheless; the mark that it leaves set shows only later.
    assert_eq!(oracle.ask_record([3, 0, 0, 1, 0]), Asked::NotGiven(Reason::SetApart));
    assert_eq!(oracle.resize_events(0, 0, 1).concat(), [0, 1, 6, 1, 0, 0]);
    let mut graph = oracle.graph().clone();
    {
        use portgraph::{LinkView, MultiView, NodeIndex, PortMut};
        let node = NodeIndex::new(0);
        graph.set_num_ports(node, 0, 1, |_, _| {});
        assert_eq!(graph.link_count(), 0);
        let listed: Vec<_> = graph.all_subports(node).map(|end| (end.port().index(), end.offset())).collect();
        assert_eq!(listed, [(0, 0)]);
    }
    assert_eq!(oracle.ports(0, Sides::One(Side::Outgoing)).unwrap(), [1]);
}

#[test]
fn record_lists() {
    let requests = to_bytes(&[[1, 0, 1, 0, 0], [1, 2, 0, 0, 0], [4, 0, 1, 0, 0], [10, 0, 0, 0, 0], [9, 0, 0, 0, 0]]);
    let answers = [[0, 0, 0, 0, 0], [0, 1, 1, 0, 0], [0, 0, 0, 1, 0], [2, 0, 0, 0, 0], [0, 2, 3, 1, 0]];
    let run = run_list(&requests, 100).unwrap();
    assert_eq!(run.into_iter().map(|asked| asked.expected().unwrap()).collect::<Vec<_>>(), answers);
    assert_eq!(run_list(&requests, 80), Err(1));
    assert_eq!(run_list(&requests[..99], 99), Err(1));
    assert_eq!(run_list(&[], 0), Ok(vec![]));
    // K: the list ends with the case set apart.
    let k = [[1, 1, 1, 0, 0], [1, 0, 2, 0, 0], [4, 2, 0, 0, 0], [4, 3, 0, 0, 0], [3, 0, 0, 1, 0], [9, 0, 0, 0, 0]];
    let run = run_list(&to_bytes(&k), 120).unwrap();
    assert_eq!(run.len(), 5);
    assert_eq!(run[4], Asked::NotGiven(Reason::SetApart));
}
