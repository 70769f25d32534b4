//! Times along wires: scripts of `time`, `longest`, `path` and `runorder` for the program `wiring`, and what it must write, by document
//! 02's words over the original's blocks and wires. The same scripts go to the entries `longest_of_records` and `path_of_records`.

use std::collections::{BTreeMap, BTreeSet};
use std::ops::Range;
use std::path::Path;

use driver::{to_bytes, Asked, Call, Oracle, Random, Shape, Sides, NODE_SLOTS};
use kanhtrev::{longest_of, path_of, Node, Refusal, SLOTS};

use crate::console::{typed, Block};
use crate::history::Record;
use crate::tally::Tally;

/// What is asked of times; the tally counts by these names.
pub const TIMED: [&str; 8] = [
    "longest",
    "longest of no block",
    "longest beyond a cycle",
    "longest beside a cycle",
    "path",
    "path refused",
    "runorder, yes",
    "runorder, no",
];

/// Blocks and which feeds which, a pair for each wire, and a time for each slot.
#[derive(Clone, Debug)]
pub struct Wiring {
    blocks: Vec<u32>,
    feeds: Vec<(u32, u32)>,
    times: Vec<u16>,
    /// The largest sum that ends at each block; `None` if a cycle can reach it.
    sums: BTreeMap<u32, Option<u64>>,
}

/// How a console can be wrong about times.
#[derive(Clone, Copy, Debug, PartialEq, Eq)]
pub enum Wrong {
    /// The block's own time is left out.
    OwnTime,
    /// Sums are raised until nothing changes: a cycle of zero times is not seen.
    ZeroCycle,
    /// A cycle anywhere counts.
    CycleElsewhere,
    /// Two wires between two blocks count twice.
    Repeats,
    /// A path begins one block late.
    ShortPath,
    /// An order is held against the wires alone.
    NotAllNamed,
    /// An order is held against the blocks alone.
    WiresIgnored,
}

impl Wrong {
    pub const ALL: [Wrong; 7] = [
        Wrong::OwnTime,
        Wrong::ZeroCycle,
        Wrong::CycleElsewhere,
        Wrong::Repeats,
        Wrong::ShortPath,
        Wrong::NotAllNamed,
        Wrong::WiresIgnored,
    ];
}

impl Wiring {
    fn of(oracle: &Oracle, times: Vec<u16>) -> Self {
        let node = |end| oracle.place(end).expect("an end of a wire is live").node;
        let feeds = oracle.all_wires().into_iter().map(|(from, to)| (node(from), node(to))).collect();
        let mut wiring = Self { blocks: oracle.blocks(), feeds, times, sums: BTreeMap::new() };
        let mut sums = BTreeMap::new();
        wiring.blocks.iter().for_each(|block| _ = wiring.search(*block, &mut sums));
        if wiring.feeds.len() <= 12 {
            let by_walks = |block: u32| wiring.by_walks(&mut vec![block], wiring.time(block));
            assert!(sums.iter().all(|(block, sum)| *sum == by_walks(*block)), "the two references differ");
        }
        wiring.sums = sums;
        wiring
    }

    fn time(&self, block: u32) -> u64 {
        u64::from(self.times[block as usize])
    }

    fn feeders(&self, block: u32) -> impl Iterator<Item = u32> + '_ {
        self.feeds.iter().filter(move |(_, to)| *to == block).map(|(from, _)| *from)
    }

    /// All walks that end at a block, each extended backwards until a block comes again; `None` if one does. For small wirings.
    fn by_walks(&self, walk: &mut Vec<u32>, sum: u64) -> Option<u64> {
        let first = *walk.last().expect("never empty");
        let mut most = sum;
        for feeder in self.feeders(first) {
            if walk.contains(&feeder) {
                return None;
            }
            walk.push(feeder);
            let longer = self.by_walks(walk, sum + self.time(feeder));
            walk.pop();
            most = most.max(longer?);
        }
        Some(most)
    }

    /// The same by depth-first search, each block once. `None` stands for a cycle; a block that is being searched is one.
    fn search(&self, block: u32, found: &mut BTreeMap<u32, Option<u64>>) -> Option<u64> {
        if let Some(known) = found.get(&block) {
            return *known;
        }
        found.insert(block, None);
        let mut most = 0;
        for feeder in self.feeders(block) {
            most = most.max(self.search(feeder, found)?);
        }
        let sum = most + self.time(block);
        found.insert(block, Some(sum));
        Some(sum)
    }

    fn longest(&self, block: u32) -> Option<u64> {
        self.sums[&block]
    }

    fn has_cycle(&self) -> bool {
        self.sums.values().any(Option::is_none)
    }

    /// A path that has the largest sum, from its first block on.
    fn path(&self, block: u32) -> Vec<u32> {
        let mut back = vec![block];
        while let Some(feeder) = self.feeders(back[back.len() - 1]).max_by_key(|feeder| self.longest(*feeder)) {
            back.push(feeder);
        }
        back.reverse();
        back
    }

    /// Whether an order names each block once and nothing else, and every wire goes from an earlier to a later one.
    fn runs_in(&self, order: &[u32]) -> bool {
        let places: BTreeMap<u32, usize> = order.iter().copied().zip(0..).collect();
        places.len() == order.len()
            && places.keys().copied().eq(self.blocks.iter().copied())
            && self.feeds.iter().all(|(from, to)| places[from] < places[to])
    }

    /// Blocks in an order in which those that feed come first, as far as there is one.
    fn sorted(&self) -> Vec<u32> {
        let mut order = Vec::new();
        let mut placed = BTreeSet::new();
        loop {
            let before = order.len();
            for block in &self.blocks {
                if !placed.contains(block) && self.feeders(*block).all(|feeder| placed.contains(&feeder)) {
                    order.push(*block);
                    placed.insert(*block);
                }
            }
            if order.len() == before {
                return order;
            }
        }
    }
}

/// A question.
#[derive(Clone, Debug)]
enum Question {
    Longest(u32),
    Path(u32),
    RunOrder(Vec<u32>),
}

impl Question {
    fn line(&self) -> String {
        match self {
            Question::Longest(block) => format!("longest {block}"),
            Question::Path(block) => format!("path {block}"),
            Question::RunOrder(order) => {
                format!("runorder{}", order.iter().map(|block| format!(" {block}")).collect::<String>())
            }
        }
    }
}

/// Lines that make a wiring, and questions of it. How many answers come before those is known: one a line.
pub struct Script {
    lines: Vec<String>,
    records: Vec<Record>,
    oracle: Oracle,
    wiring: Wiring,
    questions: Vec<Question>,
}

/// What answers a script: a block of lines for each line.
pub type Answers<'a> = dyn Fn(&Script) -> Result<Vec<Block>, String> + 'a;

/// The program as answers.
pub fn written(program: &Path, script: &Script) -> Result<Vec<Block>, String> {
    let mut lines = script.lines.clone();
    lines.extend(script.questions.iter().map(Question::line));
    typed(program, None, lines.join("\n") + "\n")
}

/// The entries as answers, written as the program writes them. A list for the path is as long as the path, longer and one short, and what is
/// no part of the path must keep its contents.
pub fn by_entries(script: &Script) -> Result<Vec<Block>, String> {
    const UNTOUCHED: u32 = 0xA5A5_A5A5;
    let (requests, times) = (to_bytes(&script.records), &script.wiring.times);
    let sum = |block: u32| longest_of(&requests, times, Node(block));
    let path = |block: u32, room: usize| {
        let mut list = vec![UNTOUCHED; room];
        let blocks = path_of(&requests, times, Node(block), &mut list);
        let kept = list.split_off(*blocks.as_ref().unwrap_or(&0));
        let clean = kept.iter().all(|number| *number == UNTOUCHED);
        clean.then_some(blocks.map(|_| list)).ok_or(format!("the path to {block} is not all that was written"))
    };
    let last = |block: u32| {
        sum(block).map_or_else(|refusal| format!("refused {}", refusal.number()), |sum| format!("ok {sum}"))
    };
    let mut blocks: Vec<Block> = script.lines.iter().map(|_| vec!["ok".into()]).collect();
    for question in &script.questions {
        blocks.push(match question {
            Question::Longest(block) => vec![last(*block)],
            Question::Path(block) => {
                let found = path(*block, SLOTS)?;
                let length = found.as_ref().map_or(0, Vec::len);
                if path(*block, length)? != found {
                    return Err(format!("another path to {block} in a list as long as it"));
                }
                if length > 0 && path(*block, length - 1)? != Err(Refusal::BufferShort) {
                    return Err(format!("a path to {block} in a list that is too short"));
                }
                let mut lines: Block =
                    found.iter().flatten().map(|node| format!("  {node} {}", script.wiring.time(*node))).collect();
                lines.push(match (&found, sum(*block)) {
                    (Ok(_), Ok(_)) | (Err(_), Err(_)) => last(*block),
                    _ => return Err(format!("a path to {block} without a sum, or a sum without a path")),
                });
                lines
            }
            Question::RunOrder(_) => return Err("there is no entry for run orders".into()),
        });
    }
    let odd = requests.get(1..).unwrap_or(&[0]);
    match (longest_of(odd, times, Node(0)), sum(0), longest_of(&requests, &times[1..], Node(0))) {
        (Err(Refusal::Length), Ok(_) | Err(Refusal::Cycle), Err(Refusal::TimesLength)) => Ok(blocks),
        (Err(Refusal::Length), Err(refused), Err(same)) if refused == same => Ok(blocks),
        other => Err(format!("a list that is not whole, or of 1,023 times: {other:?}")),
    }
}

fn sum_line(script: &Script, block: u32) -> Result<u64, String> {
    if let Err(answer) = script.oracle.ports(block, Sides::Both) {
        return Err(format!("refused {}", answer[0]));
    }
    script.wiring.longest(block).ok_or("refused 20".into())
}

/// A console that is right, or wrong in one way.
pub fn imagined(script: &Script, wrong: Option<Wrong>) -> Vec<Block> {
    let wiring = &script.wiring;
    let sum = |block: u32| -> Result<u64, String> {
        let right = sum_line(script, block);
        match wrong {
            Some(Wrong::OwnTime) => right.map(|sum| sum - wiring.time(block)),
            Some(Wrong::ZeroCycle) if right == Err("refused 20".into()) => {
                match wiring.times.iter().all(|time| *time == 0) {
                    true => Ok(0),
                    false => right,
                }
            }
            Some(Wrong::CycleElsewhere) if right.is_ok() && wiring.has_cycle() => Err("refused 20".into()),
            Some(Wrong::Repeats) => right.map(|sum| {
                let path = wiring.path(block);
                let times = |from, to| wiring.feeds.iter().filter(|feed| **feed == (from, to)).count() as u64;
                sum + path.windows(2).map(|pair| (times(pair[0], pair[1]) - 1) * wiring.time(pair[0])).sum::<u64>()
            }),
            _ => right,
        }
    };
    let last = |answer: Result<u64, String>| answer.map_or_else(|refused| refused, |sum| format!("ok {sum}"));
    let mut blocks: Vec<Block> = script.lines.iter().map(|_| vec!["ok".into()]).collect();
    for question in &script.questions {
        blocks.push(match question {
            Question::Longest(block) => vec![last(sum(*block))],
            Question::Path(block) => {
                let answer = sum(*block);
                let mut path = if answer.is_ok() { wiring.path(*block) } else { Vec::new() };
                if wrong == Some(Wrong::ShortPath) && path.len() > 1 {
                    path.remove(0);
                }
                let mut lines: Block = path.iter().map(|block| format!("  {block} {}", wiring.time(*block))).collect();
                lines.push(last(answer));
                lines
            }
            Question::RunOrder(order) => {
                let yes = match wrong {
                    Some(Wrong::NotAllNamed) => {
                        let place = |block| order.iter().position(|other| *other == block);
                        wiring.feeds.iter().all(|(from, to)| place(*from) < place(*to))
                    }
                    Some(Wrong::WiresIgnored) => Wiring { feeds: Vec::new(), ..wiring.clone() }.runs_in(order),
                    _ => wiring.runs_in(order),
                };
                vec![format!("ok {}", u32::from(yes))]
            }
        });
    }
    blocks
}

/// What is wrong with the answer to a question, if anything.
fn fault(script: &Script, question: &Question, block: &Block, tally: &mut Tally) -> Option<String> {
    let wiring = &script.wiring;
    let (last, items) = block.split_last()?;
    match question {
        Question::Longest(number) | Question::Path(number) => {
            let expected = sum_line(script, *number);
            let path = matches!(question, Question::Path(_));
            tally.list(match (&expected, path) {
                (Ok(_), true) => "path",
                (Err(_), true) => "path refused",
                (Ok(_), false) if wiring.has_cycle() => "longest beside a cycle",
                (Ok(_), false) => "longest",
                (Err(refused), false) if refused == "refused 20" => "longest beyond a cycle",
                (Err(_), false) => "longest of no block",
            });
            let line = expected.clone().map_or_else(|refused| refused, |sum| format!("ok {sum}"));
            if *last != line {
                return Some(format!("{line} was expected"));
            }
            if !path || expected.is_err() {
                return (!items.is_empty()).then(|| "no items were expected".into());
            }
            let numbers =
                |line: &String| line.split_whitespace().map(|word| word.parse().ok()).collect::<Option<Vec<u64>>>();
            let items: Option<Vec<_>> = items.iter().map(numbers).collect();
            let Some(items) = items.filter(|items| !items.is_empty() && items.iter().all(|item| item.len() == 2))
            else {
                return Some("a path of NODE TIME each was expected".into());
            };
            tally.items += items.len() as u64;
            let walked = items.windows(2).all(|pair| wiring.feeds.contains(&(pair[0][0] as u32, pair[1][0] as u32)));
            let timed = items.iter().all(|item| item[1] == wiring.time(item[0] as u32));
            let sum: u64 = items.iter().map(|item| item[1]).sum();
            let ends = items.last().map(|item| item[0]) == Some(u64::from(*number));
            (!walked || !timed || !ends || Ok(sum) != expected).then(|| "this is no path that has the sum".into())
        }
        Question::RunOrder(order) => {
            let yes = wiring.runs_in(order);
            tally.list(if yes { "runorder, yes" } else { "runorder, no" });
            let line = format!("ok {}", u32::from(yes));
            (*last != line || !items.is_empty()).then(|| format!("{line} was expected"))
        }
    }
}

/// Compares the answers to a script's questions, and to those for run orders if they are asked.
fn compare(answers: &Answers, mut script: Script, orders: bool, tally: &mut Tally) -> Result<(), String> {
    script.questions.retain(|question| orders || !matches!(question, Question::RunOrder(_)));
    let script = &script;
    let blocks = answers(script)?;
    for (number, question) in script.questions.iter().enumerate() {
        let block = blocks.get(script.lines.len() + number).ok_or("the console wrote fewer answers than lines")?;
        if let Some(fault) = fault(script, question, block, tally) {
            return Err(format!("{}\n> {}\n{}\n{fault}", script.lines.join("\n"), question.line(), block.join("\n")));
        }
    }
    Ok(())
}

/// What a wiring is made like.
#[derive(Clone, Copy, Debug, PartialEq, Eq)]
enum Make {
    /// Any wires.
    Any,
    /// Wires from lower to higher blocks only.
    Forward,
    /// A chain of blocks.
    Chain,
    /// One block feeds many, and many feed one.
    Fan,
    /// The calls of a random history.
    History,
}

struct Maker {
    lines: Vec<String>,
    records: Vec<Record>,
    oracle: Oracle,
}

impl Maker {
    fn new() -> Self {
        Self { lines: Vec::new(), records: Vec::new(), oracle: Oracle::new() }
    }

    /// A call that the original takes, and its answer.
    fn ask(&mut self, call: Call) -> Option<[u32; 5]> {
        let Asked::Answer(answer) = self.oracle.ask(call) else { return None };
        let line = match call {
            Call::Add { incoming, outgoing } => format!("add {incoming} {outgoing}"),
            Call::Remove { node } => format!("remove {node}"),
            Call::Link { a, b } => format!("link {a} {b}"),
            Call::Unlink { port } => format!("unlink {port}"),
            _ => return Some(answer),
        };
        self.lines.push(line);
        self.records.push(call.to_record());
        Some(answer)
    }

    fn add(&mut self, incoming: u32, outgoing: u32) -> Option<(u32, u32)> {
        let answer = self.ask(Call::Add { incoming, outgoing })?;
        (answer[0] == 0).then_some((answer[1], answer[2]))
    }

    fn link(&mut self, a: u32, b: u32) {
        _ = self.ask(Call::Link { a, b });
    }

    /// Blocks with so many ports a side, and wires between them; `None` as the target stands for any block.
    fn wired(&mut self, make: Make, blocks: u32, wires: u32, random: &mut Random) {
        let width = 1 + random.below(3);
        let firsts: Vec<u32> = (0..blocks).filter_map(|_| self.add(width, width)).map(|(_, first)| first).collect();
        let count = firsts.len() as u32;
        for wire in 0..wires {
            let (from, to) = match make {
                Make::Chain => (wire % count, (wire + 1) % count),
                Make::Fan if wire % 2 == 0 => (0, 1 + random.below(count - 1)),
                Make::Fan => (random.below(count - 1), count - 1),
                Make::Forward => {
                    let to = 1 + random.below(count - 1);
                    (random.below(to), to)
                }
                _ => (random.below(count), random.below(count)),
            };
            if make != Make::Chain || to != 0 {
                self.link(
                    firsts[from as usize] + width + random.below(width),
                    firsts[to as usize] + random.below(width),
                );
            }
        }
    }

    /// Some blocks go, and some ports are cut.
    fn spoil(&mut self, random: &mut Random) {
        for _ in 0..random.below(4) {
            let blocks = self.oracle.blocks();
            if let Some(node) = random.pick(&blocks) {
                if random.one_in(3) {
                    _ = self.ask(Call::Remove { node });
                } else if let Ok(ports) = self.oracle.ports(node, Sides::Both) {
                    if let Some(port) = random.pick(&ports) {
                        _ = self.ask(Call::Unlink { port });
                    }
                }
            }
        }
    }

    fn history(&mut self, random: &mut Random) {
        let shape = Shape::ALL[random.below(Shape::ALL.len() as u32) as usize];
        for _ in 0..60 {
            let call = shape.call(&self.oracle, random);
            if matches!(call, Call::Add { .. } | Call::Remove { .. } | Call::Link { .. } | Call::Unlink { .. }) {
                _ = self.ask(call);
            }
        }
    }

    /// The script with times and questions.
    fn ask_all(mut self, zero: bool, random: &mut Random) -> Script {
        let mut times = vec![0; NODE_SLOTS as usize];
        let end = self.oracle.blocks().last().map_or(0, |block| block + 1);
        for slot in 0..(end + 2).min(NODE_SLOTS as u32) {
            let time = match random.below(4) {
                _ if zero => 0,
                0 => 0,
                1 => 65_535,
                _ => random.below(2_000) as u16,
            };
            times[slot as usize] = time;
            self.lines.push(format!("time {slot} {time}"));
        }
        let wiring = Wiring::of(&self.oracle, times);
        let mut questions: Vec<Question> = Vec::new();
        let few: Vec<u32> = match end {
            0..=40 => (0..end + 2).collect(),
            _ => (0..20).map(|_| random.below(end + 2)).chain([end - 1]).collect(),
        };
        for block in few.iter().copied().chain([NODE_SLOTS as u32, u32::MAX]) {
            questions.push(Question::Longest(block));
            if random.one_in(2) {
                questions.push(Question::Path(block));
            }
        }
        let sorted = wiring.sorted();
        for turn in 0..8 {
            let mut order = if turn < 5 { sorted.clone() } else { wiring.blocks.clone() };
            let at = random.below(order.len() as u32 + 1) as usize;
            match turn {
                1 if at < order.len() => _ = order.remove(at),
                2 => order.insert(at, random.below(end + 2)),
                3 => order.insert(at, end),
                4 if order.len() > 1 => order.swap(at % sorted.len(), (at + 1) % sorted.len()),
                6 => order.reverse(),
                7 => order.clear(),
                _ => (),
            }
            questions.push(Question::RunOrder(order));
        }
        Script { lines: self.lines, records: self.records, oracle: self.oracle, wiring, questions }
    }
}

/// All wirings of three blocks with an input and an output each, by which wires there are: none, one or two between two blocks.
pub fn run_small(answers: &Answers, orders: bool, tally: &mut Tally) -> Result<u64, String> {
    let mut count = 0;
    for wires in 0..3u32.pow(6) {
        let mut maker = Maker::new();
        let mut random = Random::new(u64::from(wires) + 1);
        let firsts: Vec<u32> = (0..3).filter_map(|_| maker.add(1, 1)).map(|(_, first)| first).collect();
        let pairs = [(0, 1), (1, 0), (1, 2), (2, 1), (0, 2), (2, 2)];
        for (place, (from, to)) in pairs.into_iter().enumerate() {
            for _ in 0..wires / 3u32.pow(place as u32) % 3 {
                maker.link(firsts[from] + 1, firsts[to]);
            }
        }
        compare(answers, maker.ask_all(wires % 5 == 0, &mut random), orders, tally)?;
        count += 1;
    }
    Ok(count)
}

/// Random wirings with and without cycles, chains, fans, and what random histories leave.
pub fn run(answers: &Answers, orders: bool, seeds: Range<u64>, tally: &mut Tally) -> Result<(), String> {
    for seed in seeds {
        let mut random = Random::new(seed);
        let mut maker = Maker::new();
        let make = [Make::Any, Make::Forward, Make::Chain, Make::Fan, Make::History][seed as usize % 5];
        let blocks = if random.one_in(8) { 1_024 } else { 2 + random.below(30) };
        match make {
            Make::History => maker.history(&mut random),
            Make::Chain => maker.wired(make, blocks, blocks, &mut random),
            _ => {
                let wires = random.below(2 * blocks.min(200) + 1);
                maker.wired(make, blocks, wires, &mut random);
            }
        }
        maker.spoil(&mut random);
        let script = maker.ask_all(random.one_in(6), &mut random);
        compare(answers, script, orders, tally).map_err(|message| format!("seed {seed}: {message}"))?;
    }
    Ok(())
}
