//! Listings, move lists, saved and loaded files: scripts for the program `wiring`, and what it must write, from the original.

use std::collections::HashMap;
use std::env;
use std::io::{Read, Write};
use std::ops::Range;
use std::path::{Path, PathBuf};
use std::process::{Command as Process, Stdio};
use std::thread;

use driver::{Answer, Call, End, Listing, Oracle, Random, Release, Shape, Side, Sides, Subport, Wire};

use crate::compare::fewest;
use crate::files::{self, Folder, View};
use crate::history::History;
use crate::loads::{built, given};
use crate::tally::Tally;

/// A sheet may have so many entries.
const SHEET_ENTRIES: usize = 64;

/// The entries of a sheet: pairs of ports, of which the first `count` are meant.
#[derive(Clone, Copy, Debug)]
pub struct Sheet {
    count: usize,
    pairs: [[u32; 2]; 2 * SHEET_ENTRIES],
}

/// What a script loads.
#[derive(Clone, Copy, Debug)]
pub enum Source {
    /// What it saved under this number; there is no such file if it didn't.
    Saved(u32),
    /// A file that is there before it.
    Given(u32),
}

impl Source {
    fn name(self) -> String {
        match self {
            Source::Saved(number) => files::name(number),
            Source::Given(number) => files::given_name(number),
        }
    }
}

/// A line for the console.
#[derive(Clone, Copy, Debug)]
pub enum Command {
    Call(Call),
    /// The link that leaves no stub.
    LinkClean(u32, u32),
    Sheet(Sheet),
    FanOut(u32),
    BlockFanOut(u32),
    Blocks,
    Subports(u32, Sides),
    Links(u32),
    Back(u32),
    NodeLinks(u32, Sides, u32, u32),
    Neighbours(u32, Sides, bool),
    Connections(u32, u32),
    Wires,
    Places,
    /// Saves the wiring, under a name of this number; what is compared is the file, unit by unit.
    Save(u32),
    /// Loads a wiring, for the release in hand.
    Load(Source),
    /// An empty wiring of a release.
    New(Release),
    /// A line that is no command.
    Nonsense(&'static str),
}

/// What a script left so far: its history and what it saved.
#[derive(Default)]
struct Hand {
    history: History,
    saved: HashMap<u32, Vec<u8>>,
    careless: Option<Careless>,
}

/// How a console can be wrong about loading.
#[derive(Clone, Copy, Debug)]
pub enum Careless {
    /// A refused load leaves an empty wiring.
    RefusedEmpties,
    /// An accepted load leaves the wiring in hand.
    AcceptedKeeps,
    /// A load links its wires from the last to the first.
    LinksBackwards,
    /// A load builds for release 1, whatever the release in hand.
    LoadsForOne,
}

/// What the console writes for a command: items, then the last line.
pub type Block = Vec<String>;

/// A console: what it writes for a script.
pub type Console<'a> = dyn Fn(&[Command]) -> Result<Vec<Block>, String> + 'a;

/// Where the program is: `KANHTREV_WIRING`, or where `host/programs.sh` puts it.
pub fn program() -> Result<PathBuf, String> {
    let made = || Path::new(env!("CARGO_MANIFEST_DIR")).join("../../target/bin/wiring");
    let path = env::var_os("KANHTREV_WIRING").map_or_else(made, PathBuf::from);
    match path.is_file() {
        true => Ok(path),
        false => Err(format!(
            "there is no program {}: run `bash host/programs.sh` at the root of the repository, or give --records-only",
            path.display()
        )),
    }
}

fn side_number(sides: Sides) -> u32 {
    match sides {
        Sides::One(Side::Incoming) => 0,
        Sides::One(Side::Outgoing) => 1,
        Sides::Both => 2,
    }
}

fn words(numbers: &[u32]) -> String {
    numbers.iter().map(|number| format!(" {number}")).collect()
}

fn item(numbers: &[u32]) -> String {
    format!(" {}", words(numbers))
}

fn refused(answer: Answer) -> Block {
    let carried = match answer[0] {
        7 | 8 | 9 | 11 | 13 => 1,
        12 => 3,
        _ => 0,
    };
    vec![format!("refused{}", words(&answer[..1 + carried]))]
}

fn listing<T>(listing: Listing<T>, line: impl Fn(&T) -> String) -> Block {
    match listing {
        Ok(items) => items.iter().map(line).chain([format!("ok {}", items.len())]).collect(),
        Err(answer) => refused(answer),
    }
}

fn one(number: &u32) -> String {
    item(&[*number])
}

/// Node, side and position of a live end, by the original's own lookups.
fn place(oracle: &Oracle, end: Subport) -> [u32; 3] {
    let place = oracle.place(end).expect("an end of a wire is live");
    [place.node, side_number(Sides::One(place.side)), place.position]
}

/// Both ends of a wire, and the place of the second.
fn ends(oracle: &Oracle, ((port, offset), far): &Wire) -> String {
    item(&[vec![*port, *offset, far.0, far.1], place(oracle, *far).to_vec()].concat())
}

impl Command {
    /// The name of the command.
    fn name(self) -> &'static str {
        match self {
            Command::Call(call) => match call {
                Call::Add { .. } => "add",
                Call::Remove { .. } => "remove",
                Call::Resize { .. } => "resize",
                Call::Link { .. } => "link",
                Call::Unlink { .. } => "unlink",
                Call::LinkSubports { .. } => "linksub",
                Call::UnlinkSubport { .. } => "unlinksub",
                Call::SubportLink { .. } => "sublink",
                Call::Counts => "counts",
            },
            Command::LinkClean(..) => "linkclean",
            Command::Sheet(_) => "sheet",
            Command::FanOut(_) => "fanout",
            Command::BlockFanOut(_) => "blockfanout",
            Command::Blocks => "blocks",
            Command::Subports(..) => "subports",
            Command::Links(_) => "links",
            Command::Back(_) => "back",
            Command::NodeLinks(..) => "nodelinks",
            Command::Neighbours(..) => "neighbours",
            Command::Connections(..) => "connections",
            Command::Wires => "wires",
            Command::Places => "places",
            Command::Save(_) => "save",
            Command::Load(_) => "load",
            Command::New(_) => "new",
            Command::Nonsense(_) => "no command",
        }
    }

    /// The line to type.
    fn line(self) -> String {
        let arguments = match self {
            Command::Call(call) => {
                let used = match call {
                    Call::Add { .. } | Call::Link { .. } | Call::UnlinkSubport { .. } | Call::SubportLink { .. } => 2,
                    Call::Remove { .. } | Call::Unlink { .. } => 1,
                    Call::Resize { .. } => 3,
                    Call::LinkSubports { .. } => 4,
                    Call::Counts => 0,
                };
                call.to_record()[1..1 + used].to_vec()
            }
            Command::LinkClean(a, b) => vec![a, b],
            Command::Sheet(sheet) => sheet.entries().concat(),
            Command::FanOut(port) | Command::Links(port) | Command::Back(port) => vec![port],
            Command::BlockFanOut(node) => vec![node],
            Command::Subports(node, sides) => vec![node, side_number(sides)],
            Command::NodeLinks(node, sides, low, high) => vec![node, side_number(sides), low, high],
            Command::Neighbours(node, sides, flag) => vec![node, side_number(sides), u32::from(flag)],
            Command::Connections(from, to) => vec![from, to],
            Command::Blocks | Command::Wires | Command::Places => Vec::new(),
            Command::Save(number) => return format!("save {}", files::name(number)),
            Command::Load(source) => return format!("load {}", source.name()),
            Command::New(Release::One) => vec![1],
            Command::New(Release::Two) => vec![2],
            Command::Nonsense(text) => return text.into(),
        };
        format!("{}{}", self.name(), words(&arguments))
    }

    /// What the console must write, as the line of that number; a call is made in the history.
    fn block(self, hand: &mut Hand, line: usize) -> Block {
        // Only a spoiled script comes to this.
        if hand.history.ended && !self.reads() {
            return vec!["nothing may follow the resize set apart".into()];
        }
        match self {
            Command::Call(call) => return call_block(call, &mut hand.history),
            Command::LinkClean(a, b) => return link_clean_block(a, b, &mut hand.history),
            Command::Sheet(sheet) => return sheet.block(&mut hand.history),
            Command::Load(source) => return hand.load(source),
            Command::Save(number) => return hand.save(number),
            Command::New(release) => {
                hand.history.load(Oracle::made_for(release));
                return vec!["ok".into()];
            }
            _ => {}
        }
        let oracle = &hand.history.oracle;
        match self {
            Command::Call(_)
            | Command::LinkClean(..)
            | Command::Sheet(_)
            | Command::Load(_)
            | Command::Save(_)
            | Command::New(_) => unreachable!("answered above"),
            Command::FanOut(port) => number(oracle.port_fan_out(port)),
            Command::BlockFanOut(node) => number(oracle.fan_out(node)),
            Command::Blocks => listing(Ok(oracle.blocks()), one),
            Command::Subports(node, sides) => {
                listing(oracle.subports(node, sides), |(port, offset)| item(&[*port, *offset]))
            }
            Command::Links(port) => listing(oracle.port_links(port), |wire| ends(oracle, wire)),
            Command::Back(port) => {
                let steps = oracle.port_links(port).map_or(0, |links| links.len());
                let links = oracle.port_links_by_steps(port, &vec![true; steps]);
                listing(links.map(|links| links.into_iter().flatten().collect()), |wire| ends(oracle, wire))
            }
            Command::NodeLinks(node, sides, low, high) => {
                listing(oracle.node_links(node, sides, low..high), |wire| ends(oracle, wire))
            }
            Command::Neighbours(node, sides, flag) => listing(oracle.neighbours(node, sides, flag), one),
            Command::Connections(from, to) => listing(oracle.connections(from, to), |wire| ends(oracle, wire)),
            Command::Wires => listing(Ok(oracle.all_wires()), |wire| ends(oracle, wire)),
            Command::Places => listing(Ok(oracle.all_wires()), |(from, to)| {
                let place = |end: Subport| {
                    let place = oracle.place(end).expect("an end of a wire is live");
                    [place.node, place.position, place.offset]
                };
                item(&[place(*from), place(*to)].concat())
            }),
            Command::Nonsense(_) => vec![format!("bad line {line}")],
        }
    }

    /// Whether it leaves the graph as it is, or doesn't depend on it, so that it may follow the resize set apart.
    fn reads(self) -> bool {
        match self {
            Command::Call(call) => matches!(call, Call::SubportLink { .. } | Call::Counts),
            Command::LinkClean(..) => false,
            Command::Sheet(_) => false,
            _ => true,
        }
    }
}

impl Hand {
    fn save(&mut self, number: u32) -> Block {
        let bytes = View::of(&self.history.oracle).file();
        let block = files::items(&bytes).into_iter().chain([format!("ok {}", bytes.len())]).collect();
        self.saved.insert(number, bytes);
        block
    }

    fn load(&mut self, source: Source) -> Block {
        let file = match source {
            Source::Saved(number) => self.saved.get(&number).cloned(),
            Source::Given(number) => Some(given(number)),
        };
        let Some(file) = file else { return vec![format!("cannot read {}", source.name())] };
        let release = self.history.oracle.release();
        let built_for = match self.careless {
            Some(Careless::LoadsForOne) => Release::One,
            _ => release,
        };
        match (built(built_for, &file), self.careless) {
            (Ok(_), Some(Careless::AcceptedKeeps)) => {}
            (Ok(_), Some(Careless::LinksBackwards)) => {
                let view = files::read(&file).expect("it was built");
                let backwards: Vec<_> = view.wires.into_iter().rev().collect();
                let built = Oracle::build(release, &view.blocks, &backwards);
                self.history.load(built.map_or_else(|_| Oracle::made_for(release), |built| built.1));
            }
            (Ok(built), _) => self.history.load(built.oracle),
            (Err(refusal), careless) => {
                if let Some(Careless::RefusedEmpties) = careless {
                    self.history.load(Oracle::made_for(release));
                }
                return refused([refusal, 0, 0, 0, 0]);
            }
        }
        vec!["ok".into()]
    }
}

impl Sheet {
    fn of(pairs: &[[u32; 2]]) -> Sheet {
        let mut sheet = Sheet { count: pairs.len(), pairs: [[0; 2]; 2 * SHEET_ENTRIES] };
        sheet.pairs[..pairs.len()].copy_from_slice(pairs);
        sheet
    }

    fn entries(&self) -> &[[u32; 2]] {
        &self.pairs[..self.count]
    }

    /// Its links, made one at a time in the history; none of them if there are too many.
    fn block(&self, history: &mut History) -> Block {
        if self.count > SHEET_ENTRIES {
            return refused([14, 0, 0, 0, 0]);
        }
        let links = self.entries().iter().map(|[a, b]| call_block(Call::Link { a: *a, b: *b }, history).concat());
        let answers: Vec<String> = links.map(|answer| format!("  {answer}")).collect();
        answers.into_iter().chain([format!("ok {}", self.count)]).collect()
    }

    /// What kind of sheet it is, by what the console must write for it.
    fn kind(&self, block: &Block) -> &'static str {
        let refused = block.iter().filter(|line| line.starts_with("  refused")).count();
        match self.count {
            0 => "sheet, empty",
            65.. => "sheet, too long",
            64 => "sheet, as long as may be",
            count if refused == count => "sheet, every entry refused",
            _ if refused > 0 => "sheet, some entries refused",
            _ => "sheet, all accepted",
        }
    }
}

/// The kinds of sheets.
pub const SHEETS: [&str; 6] = [
    "sheet, empty",
    "sheet, too long",
    "sheet, as long as may be",
    "sheet, every entry refused",
    "sheet, some entries refused",
    "sheet, all accepted",
];

fn number(number: Result<u32, Answer>) -> Block {
    number.map_or_else(refused, |number| vec![format!("ok {number}")])
}

/// The end of which an answer gives the place: that answered, or for an unsplit port that is cut, which may answer a hidden node's port, the far
/// end of its one link as it was. A split port answers itself.
fn placed(call: Call, answer: Answer, links: &[Wire]) -> Option<Subport> {
    let [0, 1, port, offset, _] = answer else { return None };
    match call {
        Call::Unlink { port: named } if named != port => Some(links[0].1),
        Call::Unlink { .. } | Call::UnlinkSubport { .. } | Call::SubportLink { .. } => Some((port, offset)),
        _ => None,
    }
}

fn call_block(call: Call, history: &mut History) -> Block {
    let links = match call {
        Call::Unlink { port } => history.oracle.port_links(port).unwrap_or_default(),
        _ => Vec::new(),
    };
    history.give(call.to_record());
    let answer = history.steps.last().expect("the call was given").expected;
    if answer[0] != 0 {
        return refused(answer);
    }
    let values = match call {
        Call::Remove { .. } => 0,
        Call::Resize { .. } => 1,
        Call::Add { .. } => 2,
        Call::Link { .. } | Call::LinkSubports { .. } => 4,
        _ => 3,
    };
    let events = match call {
        Call::Resize { .. } => history.oracle.moves(),
        _ => &[],
    };
    let place = placed(call, answer, &links).map_or(Vec::new(), |end| place(&history.oracle, end).to_vec());
    let last = format!("ok{}{}", words(&answer[1..1 + values]), words(&place));
    events.iter().map(|event| item(event)).chain([last]).collect()
}

fn link_clean_block(a: u32, b: u32, history: &mut History) -> Block {
    history.link_clean(a, b);
    let answer = history.steps.last().expect("the call was given").expected;
    match answer[0] {
        0 => vec![format!("ok{}", words(&answer[1..]))],
        _ => refused(answer),
    }
}

/// The kinds of loads.
pub const LOADS: [&str; 7] = [
    "load, accepted",
    "load, no file",
    "load, refused 16",
    "load, refused 17",
    "load, refused 3",
    "load, refused 10",
    "load, refused 18",
];

/// What kind of load it is, by what the console must write for it.
fn load_kind(block: &Block) -> &'static str {
    match block[0].as_str() {
        "ok" => LOADS[0],
        "refused 16" => LOADS[2],
        "refused 17" => LOADS[3],
        "refused 3" => LOADS[4],
        "refused 10" => LOADS[5],
        "refused 18" => LOADS[6],
        _ => LOADS[1],
    }
}

/// What the console writes for each line of a script.
fn blocks(hand: &mut Hand, script: &[Command]) -> Vec<Block> {
    script.iter().enumerate().map(|(line, command)| command.block(hand, line + 1)).collect()
}

/// The history of a script, and what the console must write for each line.
fn expected(script: &[Command]) -> (History, Vec<Block>) {
    let mut hand = Hand::default();
    let blocks = blocks(&mut hand, script);
    (hand.history, blocks)
}

/// A console that writes what it must.
pub fn faultless(script: &[Command]) -> Result<Vec<Block>, String> {
    Ok(expected(script).1)
}

/// A console that is wrong about loading.
pub fn careless(how: Careless, script: &[Command]) -> Result<Vec<Block>, String> {
    Ok(blocks(&mut Hand { careless: Some(how), ..Hand::default() }, script))
}

/// A line without the reason in words, which is for people.
pub fn without_reason(line: &str) -> &str {
    line.split_once("  #").map_or(line, |(answer, _)| answer)
}

/// What the program writes for an input, typed in a folder: a block for each answer.
pub fn typed(program: &Path, folder: Option<&Path>, input: String) -> Result<Vec<Block>, String> {
    let failed = |error: std::io::Error| format!("{}: {error}", program.display());
    let mut process = Process::new(program);
    folder.into_iter().for_each(|folder| _ = process.current_dir(folder));
    let mut child = process.stdin(Stdio::piped()).stdout(Stdio::piped()).spawn().map_err(failed)?;
    let mut stdin = child.stdin.take().expect("piped");
    // A program that ends early shows as missing lines.
    let typing = thread::spawn(move || _ = stdin.write_all(input.as_bytes()));
    let mut text = String::new();
    child.stdout.take().expect("piped").read_to_string(&mut text).map_err(failed)?;
    typing.join().expect("typing doesn't panic");
    child.wait().map_err(failed)?;
    let mut blocks = vec![Block::new()];
    for line in text.lines() {
        let block = blocks.last_mut().expect("never empty");
        block.push(without_reason(line).to_string());
        if !line.starts_with("  ") {
            blocks.push(Block::new());
        }
    }
    Ok(blocks)
}

/// The program as console.
pub fn written(program: &Path, script: &[Command]) -> Result<Vec<Block>, String> {
    let failed = |error: std::io::Error| format!("{}: {error}", program.display());
    let folder = Folder::new().map_err(failed)?;
    for command in script {
        if let Command::Load(source @ Source::Given(number)) = command {
            folder.put(&source.name(), &given(*number)).map_err(failed)?;
        }
    }
    let input: String = script.iter().map(|command| command.line() + "\n").collect();
    let mut blocks = typed(program, Some(folder.path()), input)?;
    for (command, block) in script.iter().zip(&mut blocks) {
        if let Command::Save(number) = command {
            block.splice(0..0, folder.items(&files::name(*number)));
        }
    }
    Ok(blocks)
}

/// The first line answered otherwise, with both answers.
fn first_difference(console: &Console, script: &[Command]) -> Result<Option<(usize, Block, Block)>, String> {
    let (_, expected) = expected(script);
    let mut written = console(script)?;
    written.resize(written.len().max(expected.len()), Block::new());
    Ok(expected
        .into_iter()
        .zip(written)
        .enumerate()
        .find_map(|(line, (expected, written))| (expected != written).then_some((line, expected, written))))
}

/// A script without what may not follow the resize set apart.
fn tidy(script: &[Command]) -> Vec<Command> {
    let mut hand = Hand::default();
    let mut kept = Vec::new();
    for command in script {
        if !hand.history.ended || command.reads() {
            command.block(&mut hand, 0);
            kept.push(*command);
        }
    }
    kept
}

fn compare(console: &Console, script: &[Command], tally: &mut Tally) -> Result<(), String> {
    let Some((line, _, _)) = first_difference(console, script)? else {
        let (history, blocks) = expected(script);
        tally.count(&history.steps);
        for (command, block) in script.iter().zip(blocks) {
            tally.items += block.len() as u64 - 1;
            match command {
                Command::Call(_) | Command::LinkClean(..) => {}
                Command::Sheet(sheet) => tally.list(sheet.kind(&block)),
                Command::Load(_) => tally.list(load_kind(&block)),
                _ => tally.list(command.name()),
            }
        }
        return Ok(());
    };
    let differs = |script: &[Command]| !matches!(first_difference(console, &tidy(script)), Ok(None));
    let fewest = tidy(&fewest(script[..=line].to_vec(), differs));
    let lines: String = fewest.iter().map(|command| format!("  {}\n", command.line())).collect();
    let (_, expected, written) = first_difference(console, &fewest)?.ok_or("a difference that comes and goes")?;
    Err(format!(
        "after {} lines of the script; the fewest that show it:\n{lines}must be {expected:?}\nand is  {written:?}",
        line + 1
    ))
}

/// A random listing, mostly of what there is.
fn draw_listing(shape: &Shape, history: &History, random: &mut Random) -> Command {
    let oracle = &history.oracle;
    let sides = [Sides::One(Side::Incoming), Sides::One(Side::Outgoing), Sides::Both][random.below(3) as usize];
    let node = shape.node(oracle, random);
    let port = shape.port(oracle, random);
    match random.below(12) {
        0 => Command::FanOut(port),
        1 => Command::BlockFanOut(node),
        2 => Command::Blocks,
        3 => Command::Subports(node, sides),
        4 => Command::Links(port),
        5 => Command::Back(port),
        6 => {
            let low = random.below(oracle.tables().1 as u32 + 1);
            Command::NodeLinks(node, sides, low, low + random.below(6))
        }
        7 => {
            let own = oracle.ports(node, Sides::One(Side::Outgoing)).unwrap_or_default();
            let low = own.first().copied().unwrap_or(0);
            Command::NodeLinks(node, sides, low, low + own.len() as u32)
        }
        8 => Command::Neighbours(node, sides, random.one_in(2)),
        9 => Command::Connections(node, shape.node(oracle, random)),
        10 => Command::Wires,
        _ => Command::Places,
    }
}

/// A random sheet on what there is before it; its later entries may name ports that its earlier ones make.
fn draw_sheet(shape: &Shape, history: &History, random: &mut Random) -> Sheet {
    let count = match random.below(12) {
        0 => 0,
        1 => SHEET_ENTRIES as u32,
        2 => SHEET_ENTRIES as u32 + 1 + random.below(4),
        3 => random.below(SHEET_ENTRIES as u32),
        _ => 1 + random.below(6),
    };
    let pairs: Vec<[u32; 2]> = (0..count).map(|_| shape.two_ports(&history.oracle, random)).collect();
    Sheet::of(&pairs)
}

const NONSENSE: [&str; 11] = [
    "hello",
    "link 1",
    "link 1 2 3",
    "add x 1",
    "remove",
    "sheet 1",
    "sheet 0 1 2",
    "sheet 0 1 2 4294967296",
    "new",
    "new 0",
    "new 3",
];

/// Every listing that shows a subport, a wire or a count.
fn whole(history: &History) -> Vec<Command> {
    let subports = |node| Command::Subports(node, Sides::Both);
    let lists = [Command::Call(Call::Counts), Command::Blocks, Command::Wires, Command::Places];
    lists.into_iter().chain(history.oracle.blocks().into_iter().map(subports)).collect()
}

/// A script as it is drawn.
struct Drawing {
    script: Vec<Command>,
    hand: Hand,
    random: Random,
}

impl Drawing {
    fn push(&mut self, command: Command) -> Block {
        let block = command.block(&mut self.hand, 0);
        self.script.push(command);
        block
    }

    /// So many calls, each followed by a listing as often as not. As many links leave no stub as leave one; after a refused one
    /// of these everything is listed. Calls of refusal 2 are for records only.
    fn calls(&mut self, shape: &Shape, lines: usize) {
        let mut drawn = 0;
        while drawn < lines && !self.hand.history.ended {
            let (history, random) = (&self.hand.history, &mut self.random);
            let call = shape.call(&history.oracle, random);
            let apart = history.set_apart(call.to_record());
            let malformed = history.oracle.clone().ask(call).expected().is_some_and(|answer| answer[0] == 2);
            let command = match random.below(100) {
                0 => Command::Nonsense(random.pick(&NONSENSE).expect("some")),
                1..=4 => Command::Save(self.script.len() as u32),
                5..=49 => draw_listing(shape, history, random),
                50..=55 => Command::Sheet(draw_sheet(shape, history, random)),
                _ if malformed || (apart && !random.one_in(12)) => Command::Places,
                _ => match call {
                    Call::Link { a, b } if random.one_in(2) => Command::LinkClean(a, b),
                    _ => Command::Call(call),
                },
            };
            let answered = self.push(command);
            drawn += 1;
            if matches!(command, Command::LinkClean(..)) && answered[0].starts_with("refused") {
                self.script.extend(whole(&self.hand.history));
            }
        }
    }

    /// Saves the wiring; gives the number under which it did.
    fn save(&mut self) -> u32 {
        let number = self.script.len() as u32;
        self.push(Command::Save(number));
        number
    }

    /// Loads, and lists everything.
    fn load(&mut self, source: Source) {
        self.push(Command::Load(source));
        self.script.extend(whole(&self.hand.history));
    }
}

fn other(release: Release) -> Release {
    match release {
        Release::One => Release::Two,
        Release::Two => Release::One,
    }
}

/// A random script: calls and listings; then what it saved is loaded, something else is, it goes on from there, and what it saved
/// before is loaded again, for its release and for the other. As many are of release 2 as are of release 1; of these every other
/// one says so.
fn draw(shape: &Shape, seed: u64, lines: usize) -> Vec<Command> {
    let mut drawing = Drawing { script: Vec::new(), hand: Hand::default(), random: Random::new(seed) };
    let release = if drawing.random.one_in(2) { Release::One } else { Release::Two };
    if release == Release::Two || drawing.random.one_in(2) {
        drawing.push(Command::New(release));
    }
    for call in shape.first_calls(&mut drawing.random) {
        drawing.push(Command::Call(call));
    }
    drawing.calls(shape, lines);
    for command in [Command::Wires, Command::Places, Command::Blocks, Command::Call(Call::Counts)] {
        drawing.push(command);
    }
    let saved = drawing.save();
    for node in drawing.hand.history.oracle.blocks().into_iter().take(8) {
        drawing.push(Command::Subports(node, Sides::Both));
        drawing.push(Command::NodeLinks(node, Sides::Both, 0, 0));
    }
    if seed % 2 == 0 {
        drawing.load(Source::Saved(saved));
        drawing.calls(shape, 10);
    }
    for _ in 0..2 {
        let other = Source::Given(drawing.random.below(1_000_000));
        drawing.load(other);
        drawing.calls(shape, 10);
    }
    // The first is a file that is there if no line was left out; the other never is.
    drawing.load(Source::Saved(saved));
    drawing.load(Source::Saved(saved + 1));
    let again = drawing.save();
    for release in [other(release), release] {
        drawing.push(Command::New(release));
        drawing.load(Source::Saved(again));
        drawing.calls(shape, 10);
    }
    drawing.script
}

/// All sheets of up to so many entries of a few ports (live, hidden after the first split, and dead), on the bench wiring's states start,
/// A, B and D, of both releases; after each the wires, and the subports of both blocks. Gives how many there were.
pub fn all_sheets(console: &Console, most: u32, tally: &mut Tally) -> Result<u64, String> {
    const PORTS: [u32; 5] = [0, 1, 2, 4, 9];
    let link = |a, b| Command::Call(Call::Link { a, b });
    let states = [vec![], vec![link(0, 1)], vec![link(0, 1), link(0, 2)], vec![link(0, 1), link(1, 2)]];
    let pairs: Vec<[u32; 2]> = PORTS.iter().flat_map(|a| PORTS.map(|b| [*a, b])).collect();
    let mut sheets = 0;
    let all =
        [Release::One, Release::Two].into_iter().flat_map(|release| states.iter().map(move |state| (release, state)));
    for (release, state) in all {
        for count in 0..=most {
            for number in 0..pairs.len().pow(count) {
                let place = |entry: u32| number / pairs.len().pow(entry) % pairs.len();
                let entries: Vec<[u32; 2]> = (0..count).map(|entry| pairs[place(entry)]).collect();
                let mut script = vec![
                    Command::New(release),
                    Command::Call(Call::Add { incoming: 0, outgoing: 1 }),
                    Command::Call(Call::Add { incoming: 2, outgoing: 0 }),
                ];
                script.extend(state);
                script.extend([Command::Sheet(Sheet::of(&entries)), Command::Places]);
                script.extend([Command::Subports(0, Sides::Both), Command::Subports(1, Sides::Both)]);
                compare(console, &script, tally).map_err(|text| format!("all sheets: {text}"))?;
                sheets += 1;
            }
        }
    }
    Ok(sheets)
}

/// Runs random scripts.
pub fn run(console: &Console, seeds: Range<u64>, tally: &mut Tally) -> Result<(), String> {
    for seed in seeds {
        let shape = &Shape::ALL[seed as usize % Shape::ALL.len()];
        let script = draw(shape, seed, 150);
        compare(console, &script, tally).map_err(|text| format!("console, {}, seed {seed}: {text}", shape.name))?;
    }
    Ok(())
}

/// A small graph, and the commands of which all scripts of one length are run after it.
struct Small {
    name: &'static str,
    release: Release,
    start: &'static [Call],
    commands: &'static [Command],
}

const fn add(incoming: u32, outgoing: u32) -> Call {
    Call::Add { incoming, outgoing }
}

const fn link(a: u32, b: u32) -> Command {
    Command::Call(Call::Link { a, b })
}

const fn unlink(port: u32) -> Command {
    Command::Call(Call::Unlink { port })
}

const fn linksub(a: [u32; 2], b: [u32; 2]) -> Command {
    let [a, b] = [End { port: a[0], offset: a[1] }, End { port: b[0], offset: b[1] }];
    Command::Call(Call::LinkSubports { a, b })
}

const SMALL: [Small; 6] = [
    Small {
        name: "one outgoing port, two incoming",
        release: Release::One,
        start: &[add(0, 1), add(2, 0)],
        commands: &[
            link(0, 1),
            link(1, 2),
            Command::LinkClean(0, 1),
            Command::LinkClean(2, 0),
            Command::LinkClean(1, 2),
            Command::LinkClean(0, 0),
            Command::LinkClean(0, 3),
            Command::LinkClean(3, 0),
            Command::LinkClean(1, 9),
            unlink(0),
            Command::Call(Call::Remove { node: 1 }),
            Command::Call(add(2, 0)),
        ],
    },
    Small {
        // To save, and to load what was saved last; the numbers are given when the script is put together.
        name: "saved and loaded",
        release: Release::One,
        start: &[add(0, 1), add(2, 0), Call::Link { a: 0, b: 2 }, Call::Link { a: 0, b: 1 }],
        commands: &[
            link(0, 1),
            link(1, 2),
            unlink(0),
            Command::Call(Call::Remove { node: 0 }),
            Command::Call(add(0, 2)),
            Command::Save(0),
            Command::Load(Source::Saved(0)),
            Command::Load(Source::Given(0)),
            Command::Load(Source::Given(1)),
            Command::Load(Source::Given(2)),
            Command::Load(Source::Given(3)),
            Command::Load(Source::Given(4)),
        ],
    },
    Small {
        name: "six port slots left",
        release: Release::One,
        start: &[add(512, 512), add(512, 512), add(500, 515), add(0, 1), add(2, 0)],
        commands: &[
            link(3_063, 3_064),
            Command::LinkClean(3_063, 3_064),
            Command::LinkClean(3_065, 3_063),
            Command::LinkClean(3_064, 3_065),
            Command::LinkClean(3_063, 4_000),
            unlink(3_063),
            Command::Call(add(0, 3)),
            Command::Call(add(3, 0)),
        ],
    },
    Small {
        name: "one outgoing port, two incoming, release 2",
        release: Release::Two,
        start: &[add(0, 1), add(2, 0)],
        commands: &[
            link(0, 1),
            link(2, 0),
            link(1, 2),
            link(1, 1),
            link(1, 9),
            link(9, 1),
            Command::LinkClean(1, 9),
            Command::LinkClean(1, 2),
            linksub([0, 0], [1, 0]),
            linksub([1, 7], [9, 0]),
            linksub([1, 0], [0, 2]),
            unlink(1),
            Command::Call(Call::Remove { node: 1 }),
            Command::Call(Call::Resize { node: 1, incoming: 3, outgoing: 0 }),
        ],
    },
    Small {
        // As above, with files that give an input a second wire, and either release named.
        name: "saved and loaded, release 2",
        release: Release::Two,
        start: &[add(0, 2), add(2, 0), Call::Link { a: 0, b: 3 }, Call::Link { a: 0, b: 2 }],
        commands: &[
            link(1, 2),
            link(0, 3),
            unlink(2),
            Command::New(Release::One),
            Command::New(Release::Two),
            Command::Save(0),
            Command::Load(Source::Saved(0)),
            Command::Load(Source::Given(0)),
            Command::Load(Source::Given(5)),
            Command::Load(Source::Given(6)),
            Command::Load(Source::Given(7)),
        ],
    },
    Small {
        name: "six port slots left, release 2",
        release: Release::Two,
        start: &[add(512, 512), add(512, 512), add(500, 515), add(0, 1), add(2, 0)],
        commands: &[
            link(3_063, 3_064),
            link(3_065, 3_063),
            link(3_064, 3_065),
            link(3_064, 4_000),
            Command::LinkClean(3_063, 3_064),
            Command::LinkClean(3_064, 3_065),
            unlink(3_063),
            Command::Call(add(0, 3)),
            Command::Call(add(3, 0)),
        ],
    },
];

/// Runs all scripts of so many commands on small graphs, and lists everything after each command. Gives a line for
/// each graph.
pub fn run_small(console: &Console, most: usize, tally: &mut Tally) -> Result<Vec<String>, String> {
    SMALL.iter().map(|small| run_all(console, small, most, tally)).collect()
}

fn run_all(console: &Console, small: &Small, most: usize, tally: &mut Tally) -> Result<String, String> {
    let mut scripts = vec![Vec::new()];
    for _ in 0..most {
        scripts = scripts
            .iter()
            .flat_map(|script: &Vec<Command>| small.commands.iter().map(|command| [&script[..], &[*command]].concat()))
            .collect();
    }
    for commands in &scripts {
        let mut hand = Hand::default();
        let mut script = Vec::new();
        let mut last = 0;
        let start =
            [Command::New(small.release)].into_iter().chain(small.start.iter().map(|call| Command::Call(*call)));
        for command in start.chain(commands.iter().copied()) {
            let command = match command {
                Command::Save(_) => {
                    last = script.len() as u32;
                    Command::Save(last)
                }
                Command::Load(Source::Saved(_)) => Command::Load(Source::Saved(last)),
                other => other,
            };
            command.block(&mut hand, 0);
            script.push(command);
            if script.len() > 1 + small.start.len() {
                script.extend(whole(&hand.history));
            }
        }
        compare(console, &script, tally).map_err(|text| format!("console, {}: {text}", small.name))?;
    }
    let count = small.commands.len();
    Ok(format!("console, {}: {} scripts, {count} commands in every order, {most} of them", small.name, scripts.len()))
}
