//! Every slot accounted for, through the program `wiring`: after every call the listing `slots` covers the used length once, its blocks are
//! cut where they were before the call, and its nodes hold the blocks that the original's nodes hold. From the first tidy on the original can
//! only be left behind.

use std::collections::HashSet;
use std::io::Write;
use std::process::{Command, Stdio};

use differential::console::{program, without_reason};
use driver::{Call, Oracle, Random, Shape, NODE_SLOTS, PORT_SLOTS};

/// A block of slots as it is listed: first slot, size, and the node that holds it.
type Block = (u32, u32, Option<u32>);

/// The answers to lines, items and last lines, without their reasons.
fn answers(lines: &[String]) -> Vec<Vec<String>> {
    let mut child = Command::new(program().unwrap()).stdin(Stdio::piped()).stdout(Stdio::piped()).spawn().unwrap();
    let mut keys = child.stdin.take().unwrap();
    let input = lines.join("\n") + "\n";
    let typing = std::thread::spawn(move || _ = keys.write_all(input.as_bytes()));
    let text = String::from_utf8(child.wait_with_output().unwrap().stdout).unwrap();
    typing.join().unwrap();
    let mut blocks = vec![Vec::new()];
    for line in text.lines().map(without_reason) {
        blocks.last_mut().unwrap().push(line.to_string());
        if !line.starts_with("  ") {
            blocks.push(Vec::new());
        }
    }
    blocks.pop();
    blocks
}

fn line(call: Call) -> String {
    let name = ["", "add", "remove", "resize", "link", "unlink", "linksub", "unlinksub", "sublink", "counts"];
    let words = [0, 2, 1, 3, 2, 1, 4, 2, 2, 0];
    let record = call.to_record();
    let code = record[0] as usize;
    let numbers: String = record[1..1 + words[code]].iter().map(|number| format!(" {number}")).collect();
    format!("{}{numbers}", name[code])
}

/// Reads a listing, and sees that its blocks lie end to end from slot 0, that each has a slot, that no node holds two, and that the last line
/// counts them.
fn read(told: &[String]) -> Vec<Block> {
    let (last, items) = told.split_last().unwrap();
    let blocks: Vec<Block> = items
        .iter()
        .map(|item| {
            let words: Vec<&str> = item.trim_start().split(' ').collect();
            let [first, size, holder] = words[..] else { panic!("{item}") };
            (first.parse().unwrap(), size.parse().unwrap(), (holder != "free").then(|| holder.parse().unwrap()))
        })
        .collect();
    assert_eq!(last, &format!("ok {}", blocks.len()));
    let mut end = 0;
    let mut nodes = HashSet::new();
    for (first, size, holder) in &blocks {
        assert_eq!(*first, end, "{told:?}");
        assert!(*size > 0);
        end += size;
        assert!(holder.is_none_or(|node| nodes.insert(node)), "{told:?}");
    }
    assert!(end as usize <= PORT_SLOTS);
    blocks
}

fn end(blocks: &[Block]) -> u32 {
    blocks.last().map_or(0, |(first, size, _)| first + size)
}

/// No block is split or joined: the earlier cuts are the first of the later ones.
fn goes_on(before: &[Block], after: &[Block]) {
    let cut = |block: &Block| (block.0, block.1);
    assert!(before.iter().map(cut).eq(after.iter().take(before.len()).map(cut)), "{before:?} {after:?}");
}

/// The nodes of a listing hold what the original's hold, and the used length is the original's.
fn as_original(blocks: &[Block], oracle: &Oracle) {
    assert_eq!(end(blocks) as usize, oracle.tables().1);
    let mut held: Vec<Block> =
        blocks.iter().filter_map(|(first, size, node)| node.map(|node| (node, *size, Some(*first)))).collect();
    held.sort();
    let expected = oracle.held_blocks();
    assert_eq!(held.len(), expected.len(), "{blocks:?} {expected:?}");
    for ((node, size, first), (same, port, capacity)) in held.into_iter().zip(expected) {
        assert_eq!((node, size), (same, capacity));
        assert!(port.is_none() || port == first);
    }
}

/// Calls that the original is given or that the port adds a refusal to, each followed by the listing; then the same with tidies.
struct Histories {
    calls: usize,
    blocks: usize,
    tidies: usize,
    found: usize,
}

impl Histories {
    fn run(&mut self, shape: &Shape, seed: u64, calls: usize) {
        let mut random = Random::new(seed);
        let mut oracle = Oracle::new();
        let mut lines = Vec::new();
        let mut graphs = Vec::new();
        for call in shape.first_calls(&mut random) {
            oracle.ask(call);
            lines.push(line(call));
        }
        let first = lines.len();
        while graphs.len() < calls {
            let call = shape.call(&oracle, &mut random);
            let apart =
                matches!(call, Call::Resize { node, incoming, outgoing } if oracle.set_apart(node, incoming, outgoing));
            if apart || oracle.clone().ask(call).expected().is_none_or(|answer| answer[0] == 2) {
                continue;
            }
            oracle.ask(call);
            lines.extend([line(call), "slots".into()]);
            graphs.push(oracle.clone());
        }
        let mut after = oracle.clone();
        let told = answers(&lines);
        let mut before = Vec::new();
        for (asked, graph) in told[first..].chunks(2).zip(&graphs) {
            let blocks = read(&asked[1]);
            goes_on(&before, &blocks);
            as_original(&blocks, graph);
            self.calls += 1;
            self.blocks += blocks.len();
            before = blocks;
        }
        self.tidy(shape, &mut random, lines, &mut after);
    }

    /// Goes on with tidies in the list; then a block of the size of a free one is added, and it is that one or another free one of the size.
    fn tidy(&mut self, shape: &Shape, random: &mut Random, mut lines: Vec<String>, oracle: &mut Oracle) {
        let made = lines.len();
        for _ in 0..40 {
            let port = shape.port(oracle, random);
            lines.extend([format!("tidy {port}"), "slots".into()]);
            let call = shape.call(oracle, random);
            if call.to_record()[0] != 8 {
                lines.extend([line(call), "slots".into()]);
            }
        }
        let told = answers(&lines);
        let mut before = Vec::new();
        for asked in told[made..].chunks(2) {
            let blocks = read(&asked[1]);
            goes_on(&before, &blocks);
            before = blocks;
            self.tidies += 1;
        }
        let free: Vec<&Block> = before.iter().filter(|(_, _, node)| node.is_none()).collect();
        for (_, size, _) in free {
            let mut again = lines.clone();
            again.extend([format!("add 0 {size}"), "slots".into(), "add 0 0".into()]);
            let told = answers(&again);
            let [added, listed, portless] = &told[told.len() - 3..] else { panic!("three lines") };
            let blocks = read(listed);
            goes_on(&before, &blocks);
            assert_eq!(end(&blocks), end(&before));
            match added[0].strip_prefix("ok ") {
                Some(numbers) => {
                    let port: u32 = numbers.split(' ').nth(1).unwrap().parse().unwrap();
                    assert!(before.contains(&(port, *size, None)), "{added:?} {before:?}");
                }
                // There is no node slot either: a node without ports finds none.
                None => assert_eq!([&added[0], &portless[0]], ["refused 10", "refused 10"]),
            }
            self.found += 1;
            if self.found % 4 == 0 {
                break;
            }
        }
    }
}

#[test]
fn every_slot_lies_in_one_block_after_every_call() {
    let mut histories = Histories { calls: 0, blocks: 0, tidies: 0, found: 0 };
    for shape in Shape::ALL {
        for seed in 0..12 {
            histories.run(&shape, 1_000 + seed, 120);
        }
    }
    println!(
        "slots: {} calls beside the original, {} blocks listed; {} lines with tidies; {} free blocks found",
        histories.calls, histories.blocks, histories.tidies, histories.found
    );
}

fn listed(lines: &[&str]) -> Vec<String> {
    let lines: Vec<String> = lines.iter().map(|line| line.to_string()).collect();
    answers(&lines).pop().unwrap()
}

#[test]
fn smallest_listings() {
    assert_eq!(listed(&["slots"]), ["ok 0"]);
    // A node with no port holds no block; one resized to none holds a block of one slot.
    assert_eq!(listed(&["add 0 0", "slots"]), ["ok 0"]);
    assert_eq!(listed(&["add 0 1", "resize 0 0 0", "slots"]), ["  0 1 free", "  1 1 0", "ok 2"]);
    // A hidden node's block is listed as any.
    let b = ["add 0 1", "add 2 0", "link 0 1", "link 0 2"];
    assert_eq!(listed(&[&b[..], &["slots"]].concat()), ["  0 1 0", "  1 2 1", "  3 3 2", "ok 3"]);
    assert_eq!(listed(&[&b[..], &["remove 0", "slots"]].concat()), ["  0 1 free", "  1 2 1", "  3 3 free", "ok 3"]);
}

/// A block that was freed is found in a full table; what 10 then says is that no node slot is left.
#[test]
fn a_freed_block_is_found_in_a_full_table() {
    let full = ["add 0 3", "add 512 512", "add 512 512", "add 512 509", "remove 0", "add 0 2", "add 0 3"];
    let told: Vec<String> = answers(&full.map(String::from)).concat();
    assert_eq!(told[4..], ["ok", "refused 10", "ok 0 0"]);
    let mut lines = vec!["add 0 3".to_string(), "remove 0".into()];
    lines.extend((0..NODE_SLOTS).map(|_| "add 0 0".to_string()));
    lines.extend(["add 0 3".into(), "slots".into()]);
    let told = answers(&lines);
    assert_eq!(told[told.len() - 2..].concat(), ["refused 10", "  0 3 free", "ok 1"]);
}
