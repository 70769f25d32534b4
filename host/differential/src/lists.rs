//! Lists of calls that the original answers itself, as it stands: for the benchmark and for the recorded sample.

use driver::{to_bytes, Call, Random, Shape};

use crate::history::{By, History, Step};
use crate::plain;

/// A named list: request bytes, and the original's answers.
pub struct List {
    pub name: &'static str,
    pub requests: Vec<u8>,
    pub answers: Vec<u8>,
}

/// Whether the original, given the record itself, answers it so: no number put in for another (R1, R4), and the offsets
/// named are those that are answered.
fn plain(step: &Step) -> bool {
    let [code, _, offset, _, far_offset] = step.record;
    let read = code != 6 || step.expected[0] != 0 || (offset, far_offset) == (step.expected[2], step.expected[4]);
    let held = step.record.iter().all(|word| *word < 2_147_483_647);
    step.by == By::Rust && step.note.is_none_or(|note| !note.starts_with("R1")) && held && read
}

/// Draws so many calls that are plain and wanted.
fn draw(shape: &Shape, seed: u64, calls: usize, mut history: History, wanted: impl Fn(&Step) -> bool) -> List {
    let mut random = Random::new(seed);
    for call in shape.first_calls(&mut random) {
        history.give(call.to_record());
    }
    while history.steps.len() < calls {
        let mut next = History { oracle: history.oracle.clone(), ..History::default() };
        next.give(shape.call(&history.oracle, &mut random).to_record());
        if next.steps.iter().all(|step| plain(step) && wanted(step)) {
            history.oracle = next.oracle;
            history.steps.extend(next.steps);
        }
    }
    let answers: Vec<_> = history.steps.iter().map(|step| step.expected).collect();
    List { name: shape.name, requests: to_bytes(&history.records(calls)), answers: to_bytes(&answers) }
}

/// The calls of a day's work: few refusals, mostly links.
const TYPICAL: Shape = Shape { name: "typical", blocks: 40, wild: 200, ..Shape::MIXED };

/// How many lists the benchmark has.
pub const LISTS: usize = 4;

/// A list of the benchmark, of so many calls.
pub fn benchmark(list: usize, calls: usize) -> List {
    let empty = History::default();
    match list {
        0 => draw(&TYPICAL, 1, calls, empty, |_| true),
        1 => draw(&Shape { name: "relinking", wild: 200, ..Shape::ALL[2] }, 2, calls, empty, |_| true),
        2 => draw(&Shape { name: "nearly full", wild: 200, ..Shape::ALL[8] }, 3, calls, empty, |_| true),
        _ => {
            let shape = Shape { name: "refusals only", blocks: 8, wild: 3, ..Shape::MIXED };
            // Refusals 11 and 12 of a link would change the graph.
            let refused = |step: &Step| step.expected[0] == 7 || step.record[0] != 4 && step.expected[0] != 0;
            draw(&shape, 4, calls, wired(), refused)
        }
    }
}

/// A small wired graph.
fn wired() -> History {
    let mut history = History::default();
    for _ in 0..6 {
        history.give(Call::Add { incoming: 3, outgoing: 3 }.to_record());
    }
    for (a, b) in [(3, 0), (3, 1), (4, 6), (9, 12), (9, 13), (10, 13), (22, 24), (28, 0)] {
        history.give(Call::Link { a, b }.to_record());
    }
    history
}

/// How many lists are saved in the benchmark.
pub const SAVED: usize = 7;

/// A list that is saved in the benchmark: two of the lists above, and wirings of kinds of their own.
pub fn to_save(list: usize) -> List {
    let mut random = Random::new(5);
    let mut shuffled = |count: u32| {
        let mut left: Vec<u32> = (0..count).collect();
        (0..count).map(|_| left.swap_remove(random.below(left.len() as u32) as usize)).collect::<Vec<u32>>()
    };
    let fan = |inputs: &mut dyn Iterator<Item = u32>| {
        [add(0, 1), add(500, 0)].into_iter().chain(inputs.map(|input| link(0, 1 + input))).collect()
    };
    match list {
        0 => benchmark(0, 2_000),
        1 => benchmark(2, 2_000),
        2 => {
            let blocks = (0..500).map(|_| add(1, 1));
            given("many small blocks", blocks.chain((0..499).map(|block| link(2 * block + 1, 2 * block + 2))).collect())
        }
        3 => given("500 wires at one output", fan(&mut (0..500))),
        4 => given("the same, linked in random order", fan(&mut shuffled(500).into_iter())),
        5 => given("the same, linked in reverse", fan(&mut (0..500).rev())),
        _ => {
            // Of a pair's six ports, 0, 3 and 4 are inputs and 1, 2 and 5 outputs.
            let links = shuffled(1_536).into_iter().zip(0..).map(|(output, input): (u32, u32)| {
                link(6 * (output / 3) + [1, 2, 5][output as usize % 3], 6 * (input / 3) + [0, 3, 4][input as usize % 3])
            });
            given("every slot taken", (0..512).flat_map(|_| [add(1, 2), add(2, 1)]).chain(links).collect())
        }
    }
}

fn add(incoming: u32, outgoing: u32) -> Call {
    Call::Add { incoming, outgoing }
}

fn link(a: u32, b: u32) -> Call {
    Call::Link { a, b }
}

/// A list of these calls, all of which must be accepted.
fn given(name: &'static str, calls: Vec<Call>) -> List {
    let records: Vec<_> = calls.into_iter().map(Call::to_record).collect();
    let requests = to_bytes(&records);
    let mut answers = vec![0; requests.len()];
    plain::run(&requests, &mut answers);
    assert!(answers.chunks_exact(20).all(|answer| answer[0] == 0), "{name}: a refusal");
    List { name, requests, answers }
}

/// The recorded sample: 2,000 calls of all kinds.
pub fn sample() -> List {
    let shape = Shape { name: "sample", blocks: 25, wild: 20, ..Shape::MIXED };
    draw(&shape, 7, 2_000, History::default(), |_| true)
}
