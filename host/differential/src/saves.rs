//! Saved files: the entry `save_records` beside the second writer over the original's graph, byte for byte.

use driver::{to_bytes, Call, End, Oracle, Random, Shape, Side, Sides, NODE_SLOTS, PORT_SLOTS};

use crate::compare::{fewest, write, Writes};
use crate::files::{read, View};
use crate::history::{History, Record};
use crate::tally::Tally;

/// The entry that is linked: request bytes, the buffer, and the file's length or the number of the refusal.
pub fn save_records(requests: &[u8], file: &mut [u8]) -> Result<usize, u32> {
    kanhtrev::save_bytes(requests, file).map_err(|refusal| refusal.number())
}

/// Counts of records about the ends of the first two units of a kind, and their names.
const SIZES: [(usize, &str, &str); 5] = [
    (62, "62 blocks", "62 wires"),
    (63, "63 blocks", "63 wires"),
    (64, "64 blocks", "64 wires"),
    (126, "126 blocks", "126 wires"),
    (127, "127 blocks", "127 wires"),
];

const EMPTY: &str = "no bytes";
const PORTLESS: &str = "a block without ports";
const RANKS: &str = "a rank that is not the node's number";
const REPEATS: &str = "two wires between the same ports";
const UNSORTED: &str = "wires in another order than they are listed";
const FULL: &str = "every port slot wired";
const LONGEST: &str = "the longest file";
const EXACT: &str = "a buffer as long as the file";
const LONGER: &str = "a longer buffer";
const ONE_SHORT: &str = "a buffer one byte short";
const SHORT: &str = "a buffer shorter than that";
const NONE: &str = "a buffer of no bytes";
const LENGTH: &str = "a list of wrong length";

/// The kinds of saved files, buffers and lists that a whole run must bring up.
const KINDS: [&str; 13] =
    [EMPTY, PORTLESS, RANKS, REPEATS, UNSORTED, FULL, LONGEST, EXACT, LONGER, ONE_SHORT, SHORT, NONE, LENGTH];

/// Those and the counts of records.
pub fn kinds() -> impl Iterator<Item = &'static str> {
    KINDS.into_iter().chain(SIZES.into_iter().flat_map(|(_, blocks, wires)| [blocks, wires]))
}

/// What kinds of file a graph's is, by what it says and how the original lists the wires.
fn kinds_of(view: &View, listed: &View, oracle: &Oracle) -> impl Iterator<Item = &'static str> {
    let (blocks, wires) = (view.blocks.len(), view.wires.len());
    let table = [
        (EMPTY, blocks == 0),
        (PORTLESS, view.blocks.contains(&[0, 0])),
        (RANKS, oracle.blocks().iter().enumerate().any(|(rank, node)| *node as usize != rank)),
        (REPEATS, view.wires.windows(2).any(|two| two[0] == two[1])),
        (UNSORTED, view != listed),
        (FULL, 2 * wires == PORT_SLOTS),
        (LONGEST, blocks == NODE_SLOTS && 2 * wires == PORT_SLOTS),
    ];
    let sizes = SIZES
        .into_iter()
        .flat_map(move |(size, of_blocks, of_wires)| [(of_blocks, blocks == size), (of_wires, wires == size)]);
    table.into_iter().chain(sizes).filter_map(|(kind, applies)| applies.then_some(kind))
}

/// What kind of buffer it is for a file.
fn room_kind(room: usize, length: usize) -> &'static str {
    match length.checked_sub(room) {
        None => LONGER,
        Some(0) => EXACT,
        Some(1) => ONE_SHORT,
        Some(_) if room == 0 => NONE,
        Some(_) => SHORT,
    }
}

/// Saves a list to a buffer of so many bytes, where `file` is the file of the wiring that it leaves.
fn check(save: &Writes, requests: &[u8], room: usize, file: &[u8]) -> Result<(), String> {
    write(save, requests, room, if requests.len() % 20 == 0 { Ok(file) } else { Err(1) })
}

/// The file of what a history leaves.
fn file_of(history: &History) -> Vec<u8> {
    View::of(&history.oracle).file()
}

/// A difference with the fewest calls that show it.
fn shown(save: &Writes, history: &History, text: String) -> String {
    let difference = |records: &[Record]| {
        let history = History::of(records);
        let (requests, file) = (to_bytes(&history.records(history.steps.len())), file_of(&history));
        let rooms = [0, file.len().saturating_sub(1), file.len(), file.len() + 1, file.len() + 600];
        rooms.into_iter().find_map(|room| check(save, &requests, room, &file).err())
    };
    let records = history.records(history.steps.len());
    if difference(&records).is_none() {
        return text;
    }
    let fewest = fewest(records, |records| difference(records).is_some());
    let calls: String = fewest.iter().map(|record| format!("  {record:?}\n")).collect();
    let text = difference(&fewest).unwrap_or(text);
    format!("{text}\nthe fewest calls that show it:\n{calls}")
}

/// Compares the file of what a history leaves, in a buffer that holds it and at times in one that does not.
fn compare(save: &Writes, history: &History, random: &mut Random, tally: &mut Tally) -> Result<(), String> {
    let requests = to_bytes(&history.records(history.steps.len()));
    let listed = View::listed(&history.oracle);
    let view = listed.clone().sorted();
    let file = view.file();
    if read(&file).as_ref() != Ok(&view) {
        return Err("the reader doesn't read what the writer wrote".into());
    }
    let length = file.len();
    let room = match random.below(4) {
        0 | 1 => length,
        2 => length + 1 + random.below(700) as usize,
        _ => kanhtrev::LONGEST_FILE,
    };
    let short = match random.below(12) {
        _ if length == 0 => None,
        0 => Some(length - 1),
        1 => Some(random.below(length as u32) as usize),
        2 => Some(0),
        _ => None,
    };
    for room in [room].into_iter().chain(short) {
        check(save, &requests, room, &file).map_err(|text| shown(save, history, text))?;
        tally.save(room_kind(room, length), room >= length);
    }
    kinds_of(&view, &listed, &history.oracle).for_each(|kind| tally.file(kind));
    Ok(())
}

/// Random lists of up to 400 calls, of each shape in turn, saved after each call, until so many files were compared.
pub fn random(save: &Writes, seed: u64, files: u64, tally: &mut Tally) -> Result<String, String> {
    let before = tally.saved;
    let mut next = seed;
    while tally.saved - before < files {
        let shape = &Shape::ALL[next as usize % Shape::ALL.len()];
        let mut random = Random::new(next);
        let mut history = History::default();
        let first = shape.first_calls(&mut random);
        let drawn = 40 + random.below(361) as usize;
        for call in 0..first.len() + drawn {
            match first.get(call) {
                Some(call) => history.give(call.to_record()),
                None => history.give_drawn(shape, &mut random),
            }
            compare(save, &history, &mut random, tally)
                .map_err(|text| format!("saved, {}, seed {next}: {text}", shape.name))?;
            if history.ended {
                break;
            }
        }
        next += 1;
    }
    let lists = next - seed;
    Ok(format!("saved: {} files, after each call of {lists} lists, seeds {seed} to {}", tally.saved - before, next - 1))
}

fn add(history: &mut History, incoming: u32, outgoing: u32) {
    history.give(Call::Add { incoming, outgoing }.to_record());
}

fn link(history: &mut History, ends: [u32; 2], random: &mut Random) {
    let [a, b] = if random.one_in(2) { ends } else { [ends[1], ends[0]] };
    history.give(Call::Link { a, b }.to_record());
}

fn remove_any(history: &mut History, random: &mut Random) {
    if let Some(node) = random.pick(&history.oracle.blocks()) {
        history.give(Call::Remove { node }.to_record());
    }
}

/// All ports of a side, block after block.
fn ports(history: &History, side: Side) -> Vec<u32> {
    let of_block = |node| history.oracle.ports(node, Sides::One(side)).expect("a block");
    history.oracle.blocks().into_iter().flat_map(of_block).collect()
}

/// A history that leaves so many blocks and so many wires. Blocks come and go before, so that numbers are used again; wires
/// are cut at times, and repeat.
pub(crate) fn sized(blocks: usize, wires: usize, random: &mut Random) -> History {
    let mut history = History::default();
    let spare = random.below(5) as usize;
    for _ in 0..blocks + spare {
        add(&mut history, random.below(4), random.below(3));
    }
    (0..spare).for_each(|_| remove_any(&mut history, random));
    for _ in 0..random.below(5).min(blocks as u32) {
        remove_any(&mut history, random);
        add(&mut history, random.below(3), random.below(4));
    }
    if let (true, Some(node)) = (wires > 0, random.pick(&history.oracle.blocks())) {
        history.give(Call::Resize { node, incoming: 2, outgoing: 2 }.to_record());
    }
    let (outputs, inputs) = (ports(&history, Side::Outgoing), ports(&history, Side::Incoming));
    while history.oracle.all_wires().len() < wires {
        let listed = history.oracle.all_wires();
        match random.below(12) {
            0 => {
                if let Some(((port, offset), _)) = random.pick(&listed) {
                    history.give(Call::UnlinkSubport { end: End { port, offset } }.to_record());
                }
            }
            1 => {
                if let Some(((output, _), (input, _))) = random.pick(&listed) {
                    link(&mut history, [output, input], random);
                }
            }
            _ => {
                let ends = [&outputs, &inputs].map(|ports| random.pick(ports).expect("a port"));
                link(&mut history, ends, random);
            }
        }
    }
    history
}

/// Files of every number of blocks with every number of wires, about the ends of units, so many times; an empty graph has no
/// wires.
pub fn sizes(save: &Writes, seeds: std::ops::Range<u64>, tally: &mut Tally) -> Result<String, String> {
    let before = tally.saved;
    let counts = || [0, 1].into_iter().chain(SIZES.into_iter().map(|(size, _, _)| size));
    for seed in seeds.clone() {
        for (blocks, wires) in counts().flat_map(|blocks| counts().map(move |wires| (blocks, wires))) {
            let mut random = Random::new(seed);
            let history = sized(blocks, if blocks == 0 { 0 } else { wires }, &mut random);
            compare(save, &history, &mut random, tally)
                .map_err(|text| format!("saved, {blocks} blocks, {wires} wires, seed {seed}: {text}"))?;
        }
    }
    let files = tally.saved - before;
    Ok(format!(
        "saved: {files} files of 0, 1, 62, 63, 64, 126 or 127 blocks and wires, seeds {} to {}",
        seeds.start,
        seeds.end - 1
    ))
}

/// A history in which every port slot is wired: by many blocks, by two, or by some of random sizes.
pub(crate) fn full(random: &mut Random) -> History {
    let mut history = History::default();
    match random.below(3) {
        // Two blocks that are each other's mirror, as many ports each as all slots allow.
        0 => {
            let ports = (PORT_SLOTS / NODE_SLOTS) as u32;
            for _ in 0..NODE_SLOTS / 2 {
                let incoming = random.below(ports + 1);
                add(&mut history, incoming, ports - incoming);
                add(&mut history, ports - incoming, incoming);
            }
        }
        1 => (0..PORT_SLOTS / 1_024).for_each(|_| add(&mut history, 512, 512)),
        _ => {
            let mut left = PORT_SLOTS as u32 / 2;
            while left > 0 {
                let width = (1 + random.below(90)).min(left);
                let incoming = random.below(width + 1);
                add(&mut history, incoming, width - incoming);
                add(&mut history, width - incoming, incoming);
                left -= width;
            }
        }
    }
    wire_all(&mut history, random);
    history
}

/// Wires every output that has no wire to an input that has none.
fn wire_all(history: &mut History, random: &mut Random) {
    let unwired = |port: &u32| history.oracle.port_links(*port).expect("a port").is_empty();
    let mut outputs: Vec<u32> = ports(history, Side::Outgoing).into_iter().filter(unwired).collect();
    let inputs: Vec<u32> = ports(history, Side::Incoming).into_iter().filter(unwired).collect();
    for input in inputs {
        let output = outputs.swap_remove(random.below(outputs.len() as u32) as usize);
        link(history, [output, input], random);
    }
}

/// Full wirings; then blocks of each go and come again, and are wired otherwise.
pub fn full_wirings(save: &Writes, seeds: std::ops::Range<u64>, tally: &mut Tally) -> Result<String, String> {
    let before = tally.saved;
    for seed in seeds.clone() {
        let mut random = Random::new(seed);
        let mut history = full(&mut random);
        let mut compared = |history: &History, random: &mut Random| {
            compare(save, history, random, tally).map_err(|text| format!("saved, full wirings, seed {seed}: {text}"))
        };
        compared(&history, &mut random)?;
        for _ in 0..4 {
            // Two of one size, so that the later one takes the earlier one's number.
            for _ in 0..2 {
                let Some(node) = random.pick(&history.oracle.blocks()) else { break };
                let count = |side| history.oracle.ports(node, Sides::One(side)).expect("a block").len() as u32;
                let (incoming, outgoing) = (count(Side::Incoming), count(Side::Outgoing));
                history.give(Call::Remove { node }.to_record());
                compared(&history, &mut random)?;
                add(&mut history, incoming, outgoing);
            }
            compared(&history, &mut random)?;
            wire_all(&mut history, &mut random);
            compared(&history, &mut random)?;
        }
    }
    let files = tally.saved - before;
    Ok(format!("saved: {files} files of full wirings, seeds {} to {}", seeds.start, seeds.end - 1))
}

/// Buffers of every length up to the longest that matters, for a few lists; and lists cut to every length up to so many bytes.
pub fn lengths(save: &Writes, most: usize, tally: &mut Tally) -> Result<String, String> {
    for (blocks, wires) in [(0, 0), (2, 1), (63, 64)] {
        let history = sized(blocks, wires, &mut Random::new(1));
        let (requests, file) = (to_bytes(&history.records(history.steps.len())), file_of(&history));
        for room in 0..file.len() + 20 {
            check(save, &requests, room, &file).map_err(|text| shown(save, &history, text))?;
            tally.save(room_kind(room, file.len()), room >= file.len());
        }
    }
    let requests = to_bytes(&sized(2, 1, &mut Random::new(2)).records(most.div_ceil(20).min(5)));
    for bytes in (0..=requests.len().min(most)).filter(|bytes| bytes % 20 != 0) {
        for room in [0, 1, 511, 512, 1_024, kanhtrev::LONGEST_FILE] {
            check(save, &requests[..bytes], room, &[]).map_err(|text| format!("a list of {bytes} bytes: {text}"))?;
            tally.save(LENGTH, false);
        }
    }
    Ok(format!(
        "saved: buffers of every length for files of up to 4 units, lists of every wrong length up to {} bytes",
        requests.len()
    ))
}
