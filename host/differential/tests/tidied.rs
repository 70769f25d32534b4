//! Tidies, through the program `wiring`. The original has none: up to the first tidy it says what must be written, and from there on what
//! follows from document 02's words and the wires before it.

use std::io::Write;
use std::process::{Command, Stdio};

use differential::console::{program, without_reason};
use driver::{Call, End, Oracle, Side, Sides};

/// The answers to lines, items and last lines, without their reasons.
fn answers(lines: &[String]) -> Vec<Vec<String>> {
    let mut child = Command::new(program().unwrap()).stdin(Stdio::piped()).stdout(Stdio::piped()).spawn().unwrap();
    let mut keys = child.stdin.take().unwrap();
    let input = lines.join("\n") + "\n";
    let typing = std::thread::spawn(move || _ = keys.write_all(input.as_bytes()));
    let text = String::from_utf8(child.wait_with_output().unwrap().stdout).unwrap();
    typing.join().unwrap();
    let mut blocks = vec![Vec::new()];
    for line in text.lines().map(without_reason) {
        blocks.last_mut().unwrap().push(line.to_string());
        if !line.starts_with("  ") {
            blocks.push(Vec::new());
        }
    }
    blocks.pop();
    blocks
}

fn texts(lines: &[&str]) -> Vec<String> {
    lines.iter().map(|line| line.to_string()).collect()
}

/// What the last lines answer, as many as are given.
fn last(lines: &[&str], count: usize) -> Vec<String> {
    let told = answers(&texts(lines));
    told[told.len() - count..].concat()
}

/// One port with so many subports, of which those of the set are wired: port 0 of block 0, on this side. Its hidden node is node 2.
struct Shared {
    side: Side,
    subports: u32,
    wired: u32,
}

impl Shared {
    fn is_wired(&self, offset: u32) -> bool {
        self.wired >> offset & 1 == 1
    }

    /// How many subports are left: those up to the highest wired one.
    fn left(&self) -> u32 {
        32 - self.wired.leading_zeros()
    }

    /// The calls that make it.
    fn calls(&self) -> Vec<Call> {
        let one_port = |side, ports| match side {
            Side::Incoming => Call::Add { incoming: ports, outgoing: 0 },
            Side::Outgoing => Call::Add { incoming: 0, outgoing: ports },
        };
        let far = if self.side == Side::Incoming { Side::Outgoing } else { Side::Incoming };
        let links = (0..self.subports).map(|offset| Call::Link { a: 0, b: 1 + offset });
        let cuts = (0..self.subports)
            .filter(|offset| !self.is_wired(*offset))
            .map(|offset| Call::UnlinkSubport { end: End { port: 0, offset } });
        [one_port(self.side, 1), one_port(far, self.subports)].into_iter().chain(links).chain(cuts).collect()
    }

    /// The first slot and the size of the hidden node's block: 3 slots at first, then 4, then 8, each taken at the end.
    fn block(&self) -> (u32, u32) {
        let first = 1 + self.subports;
        match self.subports {
            2 => (first, 3),
            3 => (first + 3, 4),
            _ => (first + 7, 8),
        }
    }
}

fn line(call: Call) -> String {
    match call {
        Call::Add { incoming, outgoing } => format!("add {incoming} {outgoing}"),
        Call::Link { a, b } => format!("link {a} {b}"),
        Call::UnlinkSubport { end } => format!("unlinksub {} {}", end.port, end.offset),
        _ => unreachable!("no other call is made"),
    }
}

/// Every subset of wired offsets of up to six subports, on both sides: the wires stay where they were, what is left is what they need, a second
/// tidy changes nothing, an add of the size of the hidden node's block takes its slots exactly if it went, and so do links.
#[test]
fn every_set_of_wired_offsets() {
    for side in [Side::Outgoing, Side::Incoming] {
        for subports in 2..=6 {
            for wired in 0..1 << subports {
                check(&Shared { side, subports, wired });
            }
        }
    }
}

fn check(shared: &Shared) {
    let mut oracle = Oracle::new();
    let calls = shared.calls();
    calls.iter().for_each(|call| assert_eq!(oracle.ask(*call).expected().unwrap()[0], 0));
    let number = match shared.side {
        Side::Incoming => 0,
        Side::Outgoing => 1,
    };
    let (first, size) = shared.block();
    let end = oracle.tables().1 as u32;
    let ask = format!("subports 0 {number}");
    let mut lines: Vec<String> = calls.iter().map(|call| line(*call)).collect();
    let made = lines.len();
    let looks = ["places", "wires", "counts", "fanout 0", &ask];
    lines.extend(texts(&looks));
    lines.push("tidy 0".into());
    lines.extend(texts(&looks));
    lines.push("tidy 0".into());
    lines.extend(texts(&looks));
    lines.push(format!("add 0 {size}"));
    let told = answers(&lines);
    let [before, once, twice] = [made, made + 6, made + 12].map(|from| &told[from..from + 5]);
    // Before the tidy the original says what there is.
    let listed: Vec<String> = oracle
        .subports(0, Sides::One(shared.side))
        .unwrap()
        .iter()
        .map(|(port, offset)| format!("  {port} {offset}"))
        .chain([format!("ok {}", shared.subports)])
        .collect();
    assert_eq!(before[4], listed);
    assert_eq!(before[0].len() as u32, shared.wired.count_ones() + 1);
    assert_eq!([&told[made + 5], &told[made + 11]], [&["ok".to_string()], &["ok".to_string()]]);
    assert_eq!(
        before[..4],
        once[..4],
        "{side:?} {subports} {wired:b}",
        side = shared.side,
        subports = shared.subports,
        wired = shared.wired
    );
    let left = shared.left().max(1);
    let kept: Vec<String> = (0..left).map(|offset| format!("  0 {offset}")).chain([format!("ok {left}")]).collect();
    assert_eq!(once[4], kept);
    assert_eq!(once, twice);
    let added = if shared.left() < 2 { format!("ok 2 {first}") } else { format!("ok 3 {end}") };
    assert_eq!(told.last().unwrap(), &[added]);
    if shared.left() < 2 {
        links_take_what_was_given_back(shared, end);
    }
}

/// A hidden node that went is made anew by the links that were cut, in slots that were free: what is added next is at the end of the used slots as they were.
fn links_take_what_was_given_back(shared: &Shared, end: u32) {
    let mut lines: Vec<String> = shared.calls().iter().map(|call| line(*call)).collect();
    lines.push("tidy 0".into());
    lines.extend(
        (0..shared.subports).filter(|offset| !shared.is_wired(*offset)).map(|offset| format!("link 0 {}", 1 + offset)),
    );
    lines.extend(texts(&["fanout 0", "add 0 1"]));
    let told = answers(&lines);
    assert_eq!(told[told.len() - 2..], [[format!("ok {}", shared.subports)], [format!("ok 3 {end}")]]);
}

const B: [&str; 4] = ["add 0 1", "add 2 0", "link 0 1", "link 0 2"];

#[test]
fn a_link_takes_what_a_tidy_gave_back() {
    // The hidden node of port 0 had slots 3 to 5; made anew, the far end of port 2 is at slot 5 again.
    let lines = [&B[..], &["unlinksub 0 1", "tidy 0", "link 0 2", "unlink 2"]].concat();
    assert_eq!(last(&lines, 2), ["ok 0 1 2 0", "ok 1 5 0 0 1 0"]);
    // A hidden node that needs eight slots takes the eight that a tidied one gave back.
    let start = [
        "add 0 1", "add 4 0", "link 0 1", "link 0 2", "link 0 3", "link 0 4", "unlink 1", "unlink 2", "unlink 3",
        "unlink 4", "tidy 0",
    ];
    let again = ["link 0 1", "link 0 2", "link 0 3", "link 0 4", "unlink 4"];
    let lines = [&start[..], &again].concat();
    assert_eq!(last(&lines, 2), ["ok 0 3 4 0", "ok 1 16 0 0 1 0"]);
}

#[test]
fn an_old_subport_may_mean_another_wire_after_a_tidy() {
    assert_eq!(last(&[&B[..], &["unlinksub 0 1", "unlinksub 0 1"]].concat(), 1), ["ok 0 0 0"]);
    assert_eq!(last(&[&B[..], &["unlinksub 0 1", "tidy 0", "unlinksub 0 1"]].concat(), 1), ["ok 1 1 0 1 0 0"]);
}

#[test]
fn later_cuts_answer_otherwise() {
    assert_eq!(last(&[&B[..], &["unlinksub 0 1", "unlink 0"]].concat(), 1), ["ok 1 0 0 0 1 0"]);
    assert_eq!(last(&[&B[..], &["unlinksub 0 1", "tidy 0", "unlink 0"]].concat(), 1), ["ok 1 1 0 1 0 0"]);
    assert_eq!(last(&[&B[..], &["unlinksub 0 1", "unlink 1"]].concat(), 1), ["ok 1 4 0 0 1 0"]);
    assert_eq!(last(&[&B[..], &["unlinksub 0 1", "tidy 0", "unlink 1"]].concat(), 1), ["ok 1 0 0 0 1 0"]);
}

#[test]
fn the_hidden_node_stays_while_an_offset_above_0_is_wired() {
    let lines = [&B[..], &["unlinksub 0 0", "tidy 0", "subports 0 1", "sublink 0 1"]].concat();
    assert_eq!(last(&lines, 3), ["ok", "  0 0", "  0 1", "ok 2", "ok 1 2 0 1 0 1"]);
}

#[test]
fn refusals_as_for_unlinking() {
    let lines =
        [&B[..], &["tidy 9", "tidy 3", "tidy 4", "tidy 5", "tidy 4294967295", "tidy", "tidy 0 1", "tidy x", "counts"]]
            .concat();
    let told = [
        "refused 7 9",
        "refused 8 3",
        "refused 8 4",
        "refused 8 5",
        "refused 7 4294967295",
        "bad line 10",
        "bad line 11",
        "bad line 12",
        "ok 2 3 2",
    ];
    assert_eq!(last(&lines, 9), told);
}

/// In a full table too.
#[test]
fn a_tidy_needs_no_room() {
    let full = ["add 512 512", "add 512 512", "add 512 506", "add 0 1"];
    let lines = [&B[..], &full, &["unlinksub 0 1", "tidy 0", "tidy 1", "counts"]].concat();
    assert_eq!(last(&lines, 5), ["refused 10", "ok 1 2 0 1 0 1", "ok", "ok", "ok 5 3069 1"]);
}
