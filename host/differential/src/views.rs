//! Views: the entry `view_of_records` beside what the original lists, byte for byte: blocks with their counts and first port, and all
//! wires by port and place.

use driver::{to_bytes, Oracle, Random, Shape, Side, Sides, NODE_SLOTS, PORT_SLOTS};

use crate::compare::{fewest, write, Writes};
use crate::history::{History, Record};
use crate::saves::{full, sized};
use crate::tally::Tally;

/// The entry that is linked: request bytes, the buffer, and the view's length or the number of the refusal.
pub fn view_of_records(requests: &[u8], view: &mut [u8]) -> Result<usize, u32> {
    kanhtrev::view_bytes(requests, view).map_err(|refusal| refusal.number())
}

const EMPTY: &str = "a view of no block";
const PORTLESS: &str = "a view with a block without ports";
const SHARED: &str = "a view with a wire at an offset";
const REUSED: &str = "a view with a number that was used before";
const RESIZED: &str = "a view after a resize that moved ports";
const FULL: &str = "a view of a full wiring";
const LONGEST: &str = "the longest view";
const EXACT: &str = "a buffer as long as the view";
const LONGER: &str = "a buffer longer than the view";
const ONE_SHORT: &str = "a buffer one byte shorter than the view";
const SHORT: &str = "a buffer much shorter than the view";
const LENGTH: &str = "a list of wrong length, viewed";
const ALTERED: &str = "a list with altered bytes, viewed";

const KINDS: [&str; 13] =
    [EMPTY, PORTLESS, SHARED, REUSED, RESIZED, FULL, LONGEST, EXACT, LONGER, ONE_SHORT, SHORT, LENGTH, ALTERED];

/// The kinds of views, buffers and lists that a whole run must bring up.
pub fn kinds() -> impl Iterator<Item = &'static str> {
    KINDS.into_iter().filter(|_| !cfg!(feature = "former"))
}

/// The view of the original's graph, from its listings.
pub fn view_of(oracle: &Oracle) -> Vec<u8> {
    let (blocks, wires) = (oracle.blocks(), oracle.all_wires());
    let mut words = vec![blocks.len() as u32, wires.len() as u32];
    for node in blocks {
        let count = |side| oracle.ports(node, Sides::One(side)).expect("a block").len() as u32;
        let first = oracle.ports(node, Sides::Both).expect("a block").first().copied().unwrap_or(0);
        words.extend([node, count(Side::Incoming), count(Side::Outgoing), first]);
    }
    for (from, to) in wires {
        for ((port, offset), side) in [(from, Side::Outgoing), (to, Side::Incoming)] {
            let place = oracle.place((port, offset)).expect("an end");
            assert_eq!(place.side, side, "the original lists a wire from an output to an input");
            words.extend([port, offset, place.node, place.position]);
        }
    }
    words.into_iter().flat_map(u32::to_le_bytes).collect()
}

/// Views a list with a buffer of so many bytes, where `view` is that of the wiring that it leaves.
fn check(entry: &Writes, requests: &[u8], room: usize, view: &[u8]) -> Result<(), String> {
    write(entry, requests, room, if requests.len() % 20 == 0 { Ok(view) } else { Err(1) })
}

/// A difference with the fewest calls that show it.
fn shown(entry: &Writes, history: &History, text: String) -> String {
    let difference = |records: &[Record]| {
        let history = History::of(records);
        let (requests, view) = (to_bytes(&history.records(history.steps.len())), view_of(&history.oracle));
        let rooms = [0, view.len() - 1, view.len(), view.len() + 1, view.len() + 600];
        rooms.into_iter().find_map(|room| check(entry, &requests, room, &view).err())
    };
    let records = history.records(history.steps.len());
    if difference(&records).is_none() {
        return text;
    }
    let fewest = fewest(records, |records| difference(records).is_some());
    let calls: String = fewest.iter().map(|record| format!("  {record:?}\n")).collect();
    let text = difference(&fewest).unwrap_or(text);
    format!("{text}\nthe fewest calls that show it:\n{calls}")
}

fn kinds_of(history: &History) -> impl Iterator<Item = &'static str> {
    let oracle = &history.oracle;
    let (blocks, wires) = (oracle.blocks(), oracle.all_wires());
    let added = history.steps.iter().filter(|step| step.record[0] == 1 && step.expected[0] == 0).count();
    let portless = |node: &u32| oracle.ports(*node, Sides::Both).is_ok_and(|ports| ports.is_empty());
    let resized = history.steps.last().is_some_and(|step| step.record[0] == 3 && step.expected[..2] > [0, 0][..]);
    let table = [
        (EMPTY, blocks.is_empty()),
        (PORTLESS, blocks.iter().any(portless)),
        (SHARED, wires.iter().any(|((_, near), (_, far))| *near > 0 || *far > 0)),
        (REUSED, blocks.last().is_some_and(|last| added > *last as usize + 1)),
        (RESIZED, resized && history.steps.last().is_some_and(|step| step.expected[0] == 0)),
        (FULL, 2 * wires.len() == PORT_SLOTS),
        (LONGEST, blocks.len() == NODE_SLOTS && 2 * wires.len() == PORT_SLOTS),
    ];
    table.into_iter().filter_map(|(kind, applies)| applies.then_some(kind))
}

/// Compares the view of what a history leaves, in a buffer that holds it and at times in one that does not.
fn compare(entry: &Writes, history: &History, random: &mut Random, tally: &mut Tally) -> Result<(), String> {
    let requests = to_bytes(&history.records(history.steps.len()));
    let view = view_of(&history.oracle);
    let (room, kind) = match random.below(4) {
        0 | 1 => (view.len(), EXACT),
        2 => (view.len() + 1 + random.below(700) as usize, LONGER),
        _ => (kanhtrev::LONGEST_VIEW.max(view.len() + 1), LONGER),
    };
    let short = match random.below(12) {
        0 => Some((view.len() - 1, ONE_SHORT)),
        1 => Some((random.below(view.len() as u32 - 1) as usize, SHORT)),
        _ => None,
    };
    for (room, kind) in [(room, kind)].into_iter().chain(short) {
        check(entry, &requests, room, &view).map_err(|text| shown(entry, history, text))?;
        tally.view(kind, room >= view.len());
    }
    kinds_of(history).for_each(|kind| tally.file(kind));
    Ok(())
}

/// Random lists of up to 400 calls, of each shape in turn, viewed after each call, until so many views were compared.
pub fn random(entry: &Writes, seed: u64, views: u64, tally: &mut Tally) -> Result<String, String> {
    let before = tally.viewed;
    let mut next = seed;
    while tally.viewed - before < views {
        let shape = &Shape::ALL[next as usize % Shape::ALL.len()];
        let mut random = Random::new(next);
        let mut history = History::default();
        let first = shape.first_calls(&mut random);
        let drawn = 40 + random.below(361) as usize;
        for call in 0..first.len() + drawn {
            match first.get(call) {
                Some(call) => history.give(call.to_record()),
                None => history.give_drawn(shape, &mut random),
            }
            compare(entry, &history, &mut random, tally)
                .map_err(|text| format!("viewed, {}, seed {next}: {text}", shape.name))?;
            if history.ended {
                break;
            }
        }
        next += 1;
    }
    let lists = next - seed;
    Ok(format!(
        "viewed: {} views, after each call of {lists} lists, seeds {seed} to {}",
        tally.viewed - before,
        next - 1
    ))
}

/// Wirings of many sizes, and full ones.
pub fn sizes(entry: &Writes, seeds: std::ops::Range<u64>, tally: &mut Tally) -> Result<String, String> {
    let before = tally.viewed;
    for seed in seeds.clone() {
        let mut random = Random::new(seed);
        let counts = [(0, 0), (1, 0), (1, 1), (63, 64), (127, 126), (600, 300)];
        let histories = counts.map(|(blocks, wires)| sized(blocks, wires, &mut random));
        for history in histories.into_iter().chain([full(&mut random)]) {
            compare(entry, &history, &mut random, tally)
                .map_err(|text| format!("viewed, sizes, seed {seed}: {text}"))?;
        }
    }
    Ok(format!(
        "viewed: {} views of up to full wirings, seeds {} to {}",
        tally.viewed - before,
        seeds.start,
        seeds.end - 1
    ))
}

/// Lists with altered bytes.
pub fn altered(entry: &Writes, seeds: std::ops::Range<u64>, tally: &mut Tally) -> Result<String, String> {
    for seed in seeds.clone() {
        let mut random = Random::new(seed);
        let shape = Shape::ALL[random.below(Shape::ALL.len() as u32) as usize];
        let mut records: Vec<Record> = History::draw(&shape, seed, 200).steps.iter().map(|step| step.record).collect();
        for _ in 0..1 + random.below(40) {
            let record = random.below(records.len() as u32) as usize;
            let bit = if random.one_in(3) { random.below(32) } else { random.below(5) };
            records[record][random.below(5) as usize] ^= 1 << bit;
        }
        compare(entry, &History::of(&records), &mut random, tally)
            .map_err(|text| format!("viewed, altered bytes, seed {seed}: {text}"))?;
        tally.file(ALTERED);
    }
    Ok(format!(
        "viewed: {} lists with altered bytes, seeds {} to {}",
        seeds.end - seeds.start,
        seeds.start,
        seeds.end - 1
    ))
}

/// Buffers of every length up to the longest that matters, for a few lists; and lists cut to every length up to so many bytes.
pub fn lengths(entry: &Writes, most: usize, tally: &mut Tally) -> Result<String, String> {
    for (blocks, wires) in [(0, 0), (2, 1), (63, 64)] {
        let history = sized(blocks, wires, &mut Random::new(1));
        let (requests, view) = (to_bytes(&history.records(history.steps.len())), view_of(&history.oracle));
        for room in 0..view.len() + 20 {
            check(entry, &requests, room, &view).map_err(|text| shown(entry, &history, text))?;
            let kind = if room < view.len() { SHORT } else { LONGER };
            tally.view(kind, room >= view.len());
        }
    }
    let requests = to_bytes(&sized(2, 1, &mut Random::new(2)).records(most.div_ceil(20).min(5)));
    for bytes in (0..=requests.len().min(most)).filter(|bytes| bytes % 20 != 0) {
        for room in [0, 1, 7, 8, 512, kanhtrev::LONGEST_VIEW] {
            check(entry, &requests[..bytes], room, &[]).map_err(|text| format!("a list of {bytes} bytes: {text}"))?;
            tally.view(LENGTH, false);
        }
    }
    Ok(format!(
        "viewed: buffers of every length for views of up to 63 blocks, lists of every wrong length up to {} bytes",
        requests.len()
    ))
}

/// A wrong view, put in by hand.
pub struct WrongView {
    pub name: &'static str,
    /// Changes what the entry returned and the buffer holds; whether it applies.
    alter: fn(&mut Result<usize, u32>, &mut [u8]) -> bool,
}

/// The words of a view that was written.
fn words(returned: &Result<usize, u32>, view: &[u8]) -> Vec<u32> {
    let length = returned.unwrap_or(0);
    view[..length].chunks_exact(4).map(|word| u32::from_le_bytes(word.try_into().expect("four bytes"))).collect()
}

/// Exchanges two words of the view.
fn exchange(view: &mut [u8], a: usize, b: usize) -> bool {
    let differ = view[4 * a..4 * a + 4] != view[4 * b..4 * b + 4];
    (0..4).for_each(|byte| view.swap(4 * a + byte, 4 * b + byte));
    differ
}

/// Where the first wire's words begin, if there is one.
fn first_wire(words: &[u32]) -> Option<usize> {
    words.get(1).filter(|wires| **wires > 0).map(|_| 2 + 4 * words[0] as usize)
}

pub const WRONG_VIEWS: [WrongView; 9] = [
    WrongView {
        name: "a block's counts are exchanged",
        alter: |returned, view| words(returned, view).len() > 5 && exchange(view, 3, 4),
    },
    WrongView {
        name: "a block's first port is that of another",
        alter: |returned, view| words(returned, view).first().is_some_and(|blocks| *blocks > 1) && exchange(view, 5, 9),
    },
    WrongView {
        name: "a wire's ends are exchanged",
        alter: |returned, view| {
            let first = first_wire(&words(returned, view));
            first.is_some_and(|first| {
                (0..4).fold(false, |any, word| exchange(view, first + word, first + 4 + word) || any)
            })
        },
    },
    WrongView {
        name: "an end's node is its port",
        alter: |returned, view| {
            first_wire(&words(returned, view)).is_some_and(|first| exchange(view, first, first + 2))
        },
    },
    WrongView {
        name: "an end's position is its offset",
        alter: |returned, view| {
            first_wire(&words(returned, view)).is_some_and(|first| exchange(view, first + 1, first + 3))
        },
    },
    WrongView {
        name: "the last wire is left out",
        alter: |returned, view| {
            let words = words(returned, view);
            let applies = words.get(1).is_some_and(|wires| *wires > 0);
            if applies {
                view[4..8].copy_from_slice(&(words[1] - 1).to_le_bytes());
                *returned = returned.map(|length| length - 32);
            }
            applies
        },
    },
    WrongView {
        name: "a byte past the view is cleared",
        alter: |returned, view| {
            returned.is_ok_and(|length| length < view.len() && std::mem::take(&mut view[length]) != 0)
        },
    },
    WrongView {
        name: "a short buffer is written in part",
        alter: |returned, view| *returned == Err(15) && !view.is_empty() && std::mem::take(&mut view[0]) != 0,
    },
    WrongView {
        name: "a list that is not whole is viewed up to its last whole record",
        alter: |returned, _| {
            let applies = *returned == Err(1);
            if applies {
                *returned = Ok(8);
            }
            applies
        },
    },
];

/// The entry with a wrong view of a kind put in, wherever it applies.
pub fn spoiled_view(kind: usize, requests: &[u8], view: &mut [u8]) -> Result<usize, u32> {
    let mut returned = view_of_records(requests, view);
    (WRONG_VIEWS[kind].alter)(&mut returned, view);
    returned
}
