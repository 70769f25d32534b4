//! All lists of a few calls on small graphs.

use driver::Random;

use crate::compare::{compare, Entry};
use crate::history::{History, Record};
use crate::tally::Tally;

/// A small graph, and the calls of which all lists of one length are run after it.
struct Small {
    name: &'static str,
    start: &'static [Record],
    calls: &'static [Record],
    length: usize,
}

const SMALL: [Small; 3] = [
    Small {
        name: "one outgoing port, two incoming",
        start: &[[1, 0, 1, 0, 0], [1, 2, 0, 0, 0]],
        calls: &[
            [4, 0, 1, 0, 0],
            [4, 2, 0, 0, 0],
            [4, 1, 2, 0, 0],
            [4, 0, 9, 0, 0],
            [5, 0, 0, 0, 0],
            [5, 1, 0, 0, 0],
            [6, 0, 1, 2, 0],
            [6, 1, 1, 0, 0],
            [7, 0, 0, 0, 0],
            [7, 0, 1, 0, 0],
            [2, 1, 0, 0, 0],
            [1, 2, 0, 0, 0],
        ],
        length: 5,
    },
    Small {
        name: "two blocks of (1,1) and (1,2), resized",
        start: &[[1, 1, 1, 0, 0], [1, 1, 2, 0, 0]],
        calls: &[
            [4, 1, 0, 0, 0],
            [4, 3, 0, 0, 0],
            [4, 1, 2, 0, 0],
            [4, 4, 2, 0, 0],
            [5, 0, 0, 0, 0],
            [3, 0, 0, 1, 0],
            [3, 0, 2, 1, 0],
            [3, 0, 0, 0, 0],
            [3, 1, 0, 2, 0],
            [3, 1, 1, 1, 0],
            [3, 1, 2, 0, 0],
        ],
        length: 5,
    },
    Small {
        name: "ten port slots left",
        start: &[[1, 512, 512, 0, 0], [1, 512, 512, 0, 0], [1, 500, 511, 0, 0], [1, 0, 1, 0, 0], [1, 2, 0, 0, 0]],
        calls: &[
            [4, 3_059, 3_060, 0, 0],
            [4, 3_061, 3_059, 0, 0],
            [4, 3_060, 3_061, 0, 0],
            [4, 3_059, 4_000, 0, 0],
            [5, 3_059, 0, 0, 0],
            [7, 3_059, 1, 0, 0],
            [1, 0, 1, 0, 0],
            [1, 3, 0, 0, 0],
            [3, 4, 3, 0, 0],
            [3, 3, 0, 0, 0],
            [2, 4, 0, 0, 0],
        ],
        length: 4,
    },
];

/// Runs the lists, each `shorter` by so many calls. Gives a line for each small graph.
pub fn run(entry: &Entry, shorter: usize, tally: &mut Tally) -> Result<Vec<String>, String> {
    SMALL.iter().map(|small| run_small(entry, small, small.length - shorter, tally)).collect()
}

fn run_small(entry: &Entry, small: &Small, length: usize, tally: &mut Tally) -> Result<String, String> {
    let start = History::of(small.start);
    tally.count(&start.steps);
    let mut lists = 0;
    extend(entry, small, &start, length, tally, &mut lists).map_err(|text| format!("{}: {text}", small.name))?;
    Ok(format!("{}: {lists} lists, {} calls in every order, up to {length} of them", small.name, small.calls.len()))
}

/// Counts each call once for the calls before it, though many lists share it.
fn extend(
    entry: &Entry,
    small: &Small,
    history: &History,
    length: usize,
    tally: &mut Tally,
    lists: &mut u64,
) -> Result<(), String> {
    let shared = history.steps.len();
    let mut history = history.clone();
    if length == 0 || history.ended {
        history.read_wires(12, &mut Random::new(*lists));
        tally.count(&history.steps[shared..]);
        *lists += 1;
        return compare(entry, &history);
    }
    for call in small.calls {
        let mut longer = history.clone();
        longer.give(*call);
        tally.count(&longer.steps[shared..]);
        extend(entry, small, &longer, length - 1, tally, lists)?;
    }
    Ok(())
}
