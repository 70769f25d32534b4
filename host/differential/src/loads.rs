//! Loaded files: the entry `records_of_file` beside the reader of [`crate::files`] and the original, which builds what it read.

use driver::{to_bytes, Call, Oracle, Random, Release, Shape, PORT_SLOTS};

use crate::broken::{damage, mend_all, DAMAGES};
use crate::compare::{compare as compare_run, write, Entry, Writes};
use crate::files::{read, View, UNIT};
use crate::history::{History, Record};
use crate::saves::{full, sized};
use crate::tally::Tally;

/// The entry that is linked: a file's bytes, the buffer for requests, and their length or the number of the refusal.
pub fn records_of_file(file: &[u8], requests: &mut [u8]) -> Result<usize, u32> {
    kanhtrev::load_bytes(file, requests).map_err(|refusal| refusal.number())
}

/// The port's entries: what is loaded is saved again, and run.
#[derive(Clone, Copy)]
pub struct Entries<'a> {
    pub load: &'a Writes<'a>,
    pub save: &'a Writes<'a>,
    pub run: &'a Entry<'a>,
}

const LOADED: &str = "loaded";
const SHORT: &str = "loaded, the buffer too short for the requests";
const REFUSED: [(u32, &str); 4] = [
    (16, "refused, 16: length or sum"),
    (17, "refused, 17: layout"),
    (3, "refused, 3: a block too wide"),
    (10, "refused, 10: no space"),
];
const ITS_OWN: &str = "saved and loaded";
const NOT_ITS_OWN: &str = "saved, and no space to load it";
const STILL_A_FILE: &str = "damaged and still a file";

/// The kinds of loads that a whole run must bring up.
pub fn kinds() -> impl Iterator<Item = &'static str> {
    let results = [LOADED, SHORT, ITS_OWN, NOT_ITS_OWN, STILL_A_FILE];
    results.into_iter().chain(REFUSED.map(|(_, name)| name)).chain(DAMAGES.iter().map(|damage| damage.name))
}

/// What a file's wiring is built by, on the original.
pub(crate) struct Built {
    view: View,
    records: Vec<Record>,
    pub(crate) oracle: Oracle,
}

/// What loading for a release must give: 16 or 17 from the reader, then 3, 10 or 18 from the build.
pub(crate) fn built(release: Release, file: &[u8]) -> Result<Built, u32> {
    let view = read(file)?;
    let (calls, oracle) = Oracle::build(release, &view.blocks, &view.wires)?;
    Ok(Built { view, records: calls.into_iter().map(Call::to_record).collect(), oracle })
}

/// A file in a few words: kind, count and first records of each unit.
fn described(file: &[u8]) -> String {
    let unit = |unit: &[u8]| {
        let fields: Vec<u16> = unit.chunks_exact(2).map(|field| u16::from_le_bytes([field[0], field[1]])).collect();
        let records: Vec<&[u16]> = fields.get(2..).unwrap_or_default().chunks(4).take(6).collect();
        format!("  {} bytes, head {:?}, records {records:?} ..\n", unit.len(), fields.get(..2).unwrap_or_default())
    };
    let units: String = file.chunks(UNIT).take(12).map(unit).collect();
    format!("a file of {} bytes:\n{units}", file.len())
}

/// Loads a file. `closely`: what is accepted is also made call by call on the original, run, and all its ends read.
fn compare(
    entries: Entries,
    file: &[u8],
    closely: bool,
    random: &mut Random,
    tally: &mut Tally,
) -> Result<bool, String> {
    let shown = |text: String| format!("{text}\n{}", described(file));
    let built = built(Release::One, file);
    let requests = built.as_ref().map(|built| to_bytes(&built.records)).map_err(|refusal| *refusal);
    let length = requests.as_ref().map_or(0, Vec::len);
    let room = match random.below(8) {
        0 => kanhtrev::LONGEST_LOAD,
        1 => length + random.below(100) as usize,
        2 => random.below(60) as usize,
        3 if length > 0 => length - 1,
        _ => length,
    };
    write(entries.load, file, room, requests.as_deref().map_err(|refusal| *refusal)).map_err(shown)?;
    let Built { view, records, oracle } = match built {
        Ok(built) => built,
        Err(refusal) => {
            let (_, kind) = REFUSED.into_iter().find(|(number, _)| *number == refusal).expect("16, 17, 3 or 10");
            tally.load(kind, false);
            return Ok(false);
        }
    };
    let requests = requests.expect("built");
    match room < length {
        true => tally.load(SHORT, false),
        false => tally.load(LOADED, true),
    }
    if view.file() != file {
        return Err(shown("accepted, and not what the writer would give".into()));
    }
    write(entries.save, &requests, file.len(), Ok(file)).map_err(|text| shown(format!("saved again: {text}")))?;
    if closely {
        let mut history = History::of(&records);
        if history.oracle.graph() != oracle.graph() || View::of(&history.oracle) != view {
            return Err(shown("another graph when built call by call".into()));
        }
        history.read_wires(usize::MAX, random);
        compare_run(entries.run, &history).map_err(shown)?;
        tally.count(&history.steps);
    }
    Ok(true)
}

/// A history that fills the port table by blocks that were freed under a port of many wires, so that there may be no space to
/// load its file.
fn tight(random: &mut Random) -> History {
    let mut history = History::default();
    let fan = 3 + random.below(60);
    let mut give = |call: Call| {
        history.give(call.to_record());
        history.oracle.tables().1
    };
    give(Call::Add { incoming: 0, outgoing: 1 });
    give(Call::Add { incoming: fan, outgoing: 0 });
    (0..fan).for_each(|input| _ = give(Call::Link { a: 0, b: 1 + input }));
    for width in [3, 4, 5, 6, 8, 9, 16, 17, 32, 33] {
        if !random.one_in(3) {
            give(Call::Add { incoming: random.below(2) * width, outgoing: width });
        }
    }
    let mut used = give(Call::Counts);
    while used < PORT_SLOTS {
        used = give(Call::Add { incoming: (PORT_SLOTS - used).min(1_024) as u32, outgoing: 0 });
    }
    history
}

/// Files of random histories, of full and of tight ones, loaded; every so-manieth closely.
pub fn saved(entries: Entries, seed: u64, files: u64, tally: &mut Tally) -> Result<String, String> {
    for number in seed..seed + files {
        let mut random = Random::new(number);
        let history = match number % 200 {
            0 => full(&mut random),
            1..=8 => tight(&mut random),
            9..=30 => sized(random.below(130) as usize + 1, random.below(130) as usize, &mut random),
            _ => {
                let shape = &Shape::ALL[number as usize % Shape::ALL.len()];
                let mut history = History::default();
                shape.first_calls(&mut random).into_iter().for_each(|call| history.give(call.to_record()));
                (0..random.below(150)).for_each(|_| history.give_drawn(shape, &mut random));
                history
            }
        };
        let file = View::of(&history.oracle).file();
        let closely = number % 20 == 0;
        let loaded = compare(entries, &file, closely, &mut random, tally)
            .map_err(|text| format!("loaded, seed {number}: {text}"))?;
        tally.file(if loaded { ITS_OWN } else { NOT_ITS_OWN });
    }
    Ok(format!("loaded: {files} saved files, seeds {seed} to {}", seed + files - 1))
}

/// A wiring as a file may have it, whether or not there is space for it.
pub(crate) fn drawn(random: &mut Random) -> View {
    // How many blocks and wires at most, and how many ports a side.
    let (blocks, wires, ports) = match random.below(40) {
        0 => (20, 30, 200),
        1 => (4, 20, 800),
        2 => (3, 600, 2),
        3 => (90, 140, 4),
        4 => (30, 30, 60),
        _ => (7, 14, 4),
    };
    let count = |bound: u32, random: &mut Random| random.below(bound) as u16;
    let mut view = View::default();
    for _ in 0..if random.one_in(20) { 0 } else { 1 + random.below(blocks) } {
        view.blocks.push([count(ports, random), count(ports, random)]);
    }
    match random.below(60) {
        // About as many blocks as there may be, and at times more.
        0 => view.blocks.resize(505 + random.below(12) as usize, [1, 1]),
        // A block about as wide as may be.
        1 => view.blocks.push([1_000 + count(20, random), count(20, random)]),
        _ => {}
    }
    let [outputs, inputs] = [1, 0].map(|side| {
        let places = view
            .blocks
            .iter()
            .enumerate()
            .flat_map(|(rank, block)| (0..block[side]).map(move |port| [rank as u16, port]));
        places.collect::<Vec<_>>()
    });
    for _ in 0..random.below(wires) {
        let last = view.wires.last().copied();
        let (Some([source, output]), Some([target, input])) = (random.pick(&outputs), random.pick(&inputs)) else {
            break;
        };
        view.wires.push(match last {
            Some(last) if random.one_in(6) => last,
            Some([source, output, ..]) if random.one_in(4) => [source, output, target, input],
            _ => [source, output, target, input],
        });
    }
    view.sorted()
}

/// A file for a script to load, by its number. The first five are a small wiring, and what is refused by 16, 17, 3 and 10; the
/// next three give an input a second wire, with space for all, with none left for that wire, and with none for one before it. The
/// others are of any wirings, as often as not damaged, at times too wide or too large.
pub fn given(number: u32) -> Vec<u8> {
    let mut random = Random::new(number.into());
    let mut view = match number {
        0..=2 => View { blocks: vec![[0, 1], [2, 0]], wires: vec![[0, 0, 1, 0], [0, 0, 1, 1]] },
        3 | 4 => View::default(),
        // Of these the third wire ends where the first does.
        5..=7 => {
            let mut blocks = vec![[0, 2], [2, 0]];
            if number > 5 {
                blocks.extend([[1_024, 0], [1_024, 0], [if number == 6 { 1_017 } else { 1_020 }, 0]]);
            }
            View { blocks, wires: vec![[0, 0, 1, 0], [0, 0, 1, 1], [0, 1, 1, 0]] }
        }
        _ => drawn(&mut random),
    };
    match (number, number % 8) {
        (2, _) => view.wires.reverse(),
        (3 | 8.., 3) => view.blocks.push([1_025, 0]),
        (4 | 8.., 4) => view.blocks.extend([[1_024, 0], [0, 1_024], [512, 512], [1, 1]]),
        _ => {}
    }
    let mut file = view.file();
    match (number, number % 8) {
        (1, _) => file[508] ^= 1,
        (8.., 5..) => _ = damage(&mut file, &drawn(&mut random).file(), &mut random),
        _ => {}
    }
    file
}

/// Files of any wirings, loaded closely.
pub fn any(entries: Entries, seed: u64, files: u64, tally: &mut Tally) -> Result<String, String> {
    for number in seed..seed + files {
        let mut random = Random::new(number);
        let file = drawn(&mut random).file();
        compare(entries, &file, number % 8 == 0, &mut random, tally)
            .map_err(|text| format!("loaded, any wiring, seed {number}: {text}"))?;
    }
    Ok(format!("loaded: {files} files of any wirings, seeds {seed} to {}", seed + files - 1))
}

/// Long files: more records than fields can count, and than there is space for; whole, cut, and with their last unit damaged.
pub fn long(entries: Entries, tally: &mut Tally) -> Result<String, String> {
    let mut random = Random::new(1);
    let mut views = Vec::new();
    for blocks in [512, 513, 1_000, 1_024, 1_025, 65_535, 65_536, 65_537, 70_000] {
        for counts in [[0, 0], [1, 1], [1_024, 0], [1_025, 0], [65_535, 65_535]] {
            let last = (blocks - 1).min(65_535) as u16;
            let wires = [[0, 0, 0, 0], [0, 0, last, 0], [last, 0, 0, 0], [last, 0, last, 0]];
            let wires = if counts[1] == 0 { Vec::new() } else { wires.to_vec() };
            views.push(View { blocks: vec![counts; blocks], wires });
        }
    }
    for wires in [1_024, 1_025, 1_536, 1_537, 2_000, 65_535, 65_536, 70_000] {
        views.push(View { blocks: vec![[1, 1]], wires: vec![[0; 4]; wires] });
        let spread = |wire: usize| [0, (wire / 500 % 500) as u16, 1, (wire % 500) as u16];
        views.push(View { blocks: vec![[0, 500], [500, 0]], wires: (0..wires).map(spread).collect() }.sorted());
    }
    let mut tried = 0;
    for view in views {
        let file = view.file();
        let mut files = vec![file.clone(), file[..file.len() - UNIT].to_vec(), file[..file.len() - 1].to_vec()];
        // The last record one higher in a field, the last unit's sum as it was and mended.
        for field in 0..4 {
            let mut damaged = file.clone();
            let last = file.len() - UNIT;
            let record = last + 4 + 8 * (usize::from(file[last + 2]) - 1);
            damaged[record + 2 * field] ^= 1;
            files.push(damaged.clone());
            mend_all(&mut damaged);
            files.push(damaged);
        }
        tried += files.len();
        for file in files {
            let (blocks, wires) = (view.blocks.len(), view.wires.len());
            compare(entries, &file, false, &mut random, tally)
                .map_err(|text| format!("a file of {blocks} blocks and {wires} wires: {text}"))?;
        }
    }
    Ok(format!("loaded: {tried} long files, of up to 70,000 blocks or wires, whole, cut and damaged"))
}

/// Small files with every byte changed in several ways, with the sums as they were and mended. Gives how many there were.
pub fn every_byte(entries: Entries, files: u64, tally: &mut Tally) -> Result<String, String> {
    let mut random = Random::new(1);
    let mut tried = 0;
    for _ in 0..files {
        let file = loop {
            let view = drawn(&mut random);
            if !view.wires.is_empty() && view.blocks.len() + view.wires.len() < 20 {
                break view.file();
            }
        };
        for byte in 0..file.len() {
            let old = file[byte];
            for new in [0, 1, 2, 63, 64, 255, old.wrapping_add(1), old.wrapping_sub(1), old ^ 128] {
                for mended in [false, true] {
                    let mut damaged = file.clone();
                    damaged[byte] = new;
                    if mended {
                        mend_all(&mut damaged);
                    }
                    compare(entries, &damaged, false, &mut random, tally)
                        .map_err(|text| format!("byte {byte} from {old} to {new}, mended {mended}: {text}"))?;
                    tried += 1;
                }
            }
        }
    }
    Ok(format!("loaded: {tried} files, every byte of {files} small ones changed in nine ways, sums kept and mended"))
}

/// So many damaged files: of any wirings, small ones mostly.
pub fn damaged(entries: Entries, seed: u64, files: u64, tally: &mut Tally) -> Result<String, String> {
    let mut random = Random::new(seed);
    let mut whole: Vec<Vec<u8>> = (0..400).map(|_| drawn(&mut random).file()).collect();
    whole.sort_by_key(Vec::len);
    let (mut number, mut tried, mut still) = (seed, 0, 0);
    while tried < files {
        let mut random = Random::new(number);
        // Short files are damaged more often than long ones.
        let mut any = || {
            let most = if random.one_in(20) { whole.len() } else { whole.len() * 9 / 10 };
            &whole[random.below(most as u32) as usize]
        };
        let (before, other) = (any(), any());
        let mut file = before.clone();
        let kind = damage(&mut file, other, &mut random).filter(|_| file != *before);
        if let Some(kind) = kind {
            let loaded = compare(entries, &file, number % 256 == 0, &mut random, tally)
                .map_err(|text| format!("damaged ({kind}), number {number}: {text}"))?;
            tally.file(kind);
            tried += 1;
            if loaded {
                tally.file(STILL_A_FILE);
                still += 1;
            }
        }
        number += 1;
    }
    Ok(format!("loaded: {files} damaged files, numbers {seed} to {}; {still} are files of other wirings", number - 1))
}
