//! One wire into an input, under release 2 (document 02, request 09): what 18 comes before and after, and what is left.

use driver::{Answer, Asked, Call, Oracle, Reason, Release, Sides};

type Record = [u32; 5];

/// Block 0 has output 0, block 1 has inputs 1 and 2.
const START: [Record; 2] = [[1, 0, 1, 0, 0], [1, 2, 0, 0, 0]];

fn link(a: u32, b: u32) -> Record {
    [4, a, b, 0, 0]
}

fn after(release: Release, records: &[Record]) -> Oracle {
    let mut oracle = Oracle::made_for(release);
    for record in START.iter().chain(records) {
        assert_eq!(oracle.ask_record(*record).expected().map(|answer| answer[0]), Some(0), "{record:?}");
    }
    oracle
}

/// What a call answers on these states under each release; where it is 18 the original is not given the call.
fn answers(records: &[Record], call: Record) -> [Answer; 2] {
    [Release::One, Release::Two].map(|release| {
        let mut oracle = after(release, records);
        let before = oracle.clone();
        let asked = oracle.ask_record(call);
        let answer = asked.expected().expect("no resize");
        if answer[0] == 18 {
            assert_eq!(asked, Asked::NotGiven(Reason::Added([18, 0, 0, 0, 0])));
            assert!(before.graph() == oracle.graph() && before.tables() == oracle.tables());
        }
        answer
    })
}

fn numbers(records: &[Record], call: Record) -> [u32; 2] {
    answers(records, call).map(|answer| answer[0])
}

#[test]
fn eighteen_among_the_refusals() {
    let a = [link(0, 1)];
    assert_eq!(numbers(&a, link(0, 1)), [0, 18]);
    assert_eq!(numbers(&a, link(1, 0)), [0, 18]);
    assert_eq!(numbers(&a, link(0, 2)), [0, 0]);
    assert_eq!(numbers(&a, link(1, 2)), [12, 18]);
    assert_eq!(numbers(&a, link(2, 1)), [12, 18]);
    assert_eq!(numbers(&a, link(1, 1)), [12, 18]);
    assert_eq!(numbers(&a, link(2, 2)), [12, 12]);
    assert_eq!(numbers(&a, link(1, 9)), [11, 18]);
    assert_eq!(numbers(&a, link(9, 1)), [7, 7]);
    assert_eq!(numbers(&a, [6, 1, 7, 9, 0]), [11, 18]);
    let b = [link(0, 1), link(0, 2)];
    assert_eq!(numbers(&b, link(1, 3)), [8, 8]);
    assert_eq!(numbers(&b, [6, 1, 0, 0, 2]), [9, 9]);
    assert_eq!(numbers(&b, [6, 0, 0, 1, 0]), [13, 18]);
    assert_eq!(numbers(&b, [6, 0, 0, 1, 65_535]), [2, 2]);
    // A full table: 18 comes before 10.
    let full = [link(0, 1), [1, 1_024, 0, 0, 0], [1, 1_024, 0, 0, 0], [1, 1_021, 0, 0, 0]];
    assert_eq!(numbers(&full, link(0, 1)), [10, 18]);
    assert_eq!(numbers(&full, link(0, 2)), [10, 10]);
}

#[test]
fn the_link_that_leaves_no_stub() {
    for (a, b, one, two) in
        [(1, 9, 11, 18), (1, 2, 12, 18), (2, 1, 12, 18), (2, 2, 12, 12), (9, 1, 7, 7), (0, 1, 0, 18)]
    {
        for (release, number) in [(Release::One, one), (Release::Two, two)] {
            let mut oracle = after(release, &[link(0, 1)]);
            let before = oracle.graph().clone();
            let answer = oracle.link_clean(a, b).expected().expect("no resize");
            assert_eq!(answer[0], number, "{a} {b} {release:?}");
            assert!(number == 0 || before == *oracle.graph());
        }
    }
}

/// An input is free again once its wire is cut, and may be the second end.
#[test]
fn a_cut_input_is_free() {
    let mut oracle = after(Release::Two, &[link(0, 1)]);
    for (record, number) in
        [(link(1, 0), 18), ([5, 1, 0, 0, 0], 0), (link(1, 0), 0), ([7, 0, 0, 0, 0], 0), (link(0, 1), 0)]
    {
        assert_eq!(oracle.ask_record(record).expected().map(|answer| answer[0]), Some(number), "{record:?}");
    }
    assert_eq!(oracle.subports(1, Sides::Both).map(|listed| listed.len()), Ok(2));
}

/// P22: two links may be refused differently in the two orders.
#[test]
fn in_both_orders() {
    for (calls, expected) in [([link(0, 1), link(1, 2)], [0, 18]), ([link(1, 2), link(0, 1)], [12, 0])] {
        let mut oracle = after(Release::Two, &[]);
        let given = calls.map(|call| oracle.ask_record(call).expected().expect("no resize")[0]);
        assert_eq!(given, expected);
    }
}

/// What the calls without those that gave 18 leave on a graph of release 1 is what all of them leave on one of release 2.
#[test]
fn without_the_calls_that_gave_18() {
    let calls: Vec<Call> = [[0, 1], [1, 2], [0, 2], [2, 0], [1, 1], [0, 1]].map(|[a, b]| Call::Link { a, b }).to_vec();
    let mut two = after(Release::Two, &[]);
    let mut one = after(Release::One, &[]);
    for call in calls {
        let asked = two.ask(call);
        match asked.expected() {
            Some([18, ..]) => {}
            _ => assert_eq!(one.ask(call), asked),
        }
    }
    assert!(one.graph() == two.graph() && one.tables() == two.tables());
}
