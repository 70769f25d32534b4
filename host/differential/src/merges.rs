//! Two files as one: the entry `merge_files` beside a merge from document 02's words, over the reader and the second writer of
//! [`crate::files`] and the original, which builds the first file, the second and the result.

use driver::{Oracle, Random, Release, NODE_SLOTS, PORT_SLOTS};

use crate::broken::damage;
use crate::compare::write;
use crate::files::{read, View};
use crate::loads::{drawn, given};
use crate::tally::Tally;

/// An entry that merges: the bytes of two files, the buffer, and the result's length or the number of the refusal.
pub type Merges<'a> = dyn Fn(&[u8], &[u8], &mut [u8]) -> Result<usize, u32> + 'a;

/// The entry that is linked.
pub fn merge_files(first: &[u8], second: &[u8], file: &mut [u8]) -> Result<usize, u32> {
    kanhtrev::merge_bytes(first, second, file).map_err(|refusal| refusal.number())
}

const MERGED: &str = "merged";
const SHORT: &str = "merged, the buffer too short for the result";
const NOTHING: &str = "merged with a file of no bytes";
const GROUPED: &str = "three files, merged in both groupings";
const UNGROUPED: &str = "three files, refused in both groupings";
const TWO_REFUSED: &str = "both files refused, by different numbers";
/// Which file a merge is refused for, by which number.
const REFUSED: [(usize, u32, &str); 9] = [
    (0, 16, "merge refused, 16: the first file"),
    (0, 17, "merge refused, 17: the first file"),
    (1, 16, "merge refused, 16: the second file"),
    (1, 17, "merge refused, 17: the second file"),
    (0, 3, "merge refused, 3: the first file"),
    (0, 10, "merge refused, 10: the first file"),
    (1, 3, "merge refused, 3: the second file"),
    (1, 10, "merge refused, 10: the second file"),
    (2, 10, "merge refused, 10: the result"),
];

/// The kinds of merges that a whole run must bring up.
pub fn kinds() -> impl Iterator<Item = &'static str> {
    let results = [MERGED, SHORT, NOTHING, GROUPED, UNGROUPED, TWO_REFUSED];
    results.into_iter().chain(REFUSED.map(|(_, _, name)| name)).filter(|_| !cfg!(feature = "former"))
}

/// The number by which loading a wiring for release 1 is refused.
fn loads(view: &View) -> Result<(), u32> {
    Oracle::build(Release::One, &view.blocks, &view.wires).map(|_| ())
}

/// The second behind the first: its ranks raised by the first's block count, its wires sorted in.
fn both(first: &View, second: &View) -> View {
    let raise = first.blocks.len() as u16;
    let raised =
        second.wires.iter().map(|[source, output, target, input]| [source + raise, *output, target + raise, *input]);
    View {
        blocks: [&first.blocks[..], &second.blocks[..]].concat(),
        wires: first.wires.iter().copied().chain(raised).collect(),
    }
    .sorted()
}

/// What merging must give: the wiring of the result, or the number of the refusal and the file that it is for, 0, 1, or 2 for the
/// result.
fn merged(first: &[u8], second: &[u8]) -> Result<View, (usize, u32)> {
    let at = |file: usize| move |number: u32| (file, number);
    let one = read(first).map_err(at(0))?;
    let two = read(second).map_err(at(1))?;
    loads(&one).map_err(at(0))?;
    loads(&two).map_err(at(1))?;
    let result = both(&one, &two);
    loads(&result).map_err(at(2))?;
    Ok(result)
}

/// Merges two files to a buffer of so many bytes.
fn merge(entry: &Merges, first: &[u8], second: &[u8], room: usize, expected: Result<&[u8], u32>) -> Result<(), String> {
    let lent = first.to_vec();
    write(&|second: &[u8], file: &mut [u8]| entry(&lent, second, file), second, room, expected)?;
    match lent == first {
        true => Ok(()),
        false => Err("the first file was changed".into()),
    }
}

/// Merges two files, at times to a buffer that is too short; the result, where it is accepted.
fn compare(
    entry: &Merges,
    first: &[u8],
    second: &[u8],
    random: &mut Random,
    tally: &mut Tally,
) -> Result<Option<Vec<u8>>, String> {
    let result = merged(first, second);
    let file = result.as_ref().map(View::file);
    let length = file.as_ref().map_or(0, Vec::len);
    let room = match random.below(8) {
        0 => kanhtrev::LONGEST_FILE,
        1 => length + random.below(700) as usize,
        2 => random.below(1_200) as usize,
        3 if length > 0 => length - 1,
        _ => length,
    };
    let expected = file.as_deref().map_err(|(_, number)| *number);
    merge(entry, first, second, room, expected)
        .map_err(|text| format!("{text}\nfiles of {} and {} bytes", first.len(), second.len()))?;
    let (Ok(view), Ok(file)) = (&result, &file) else {
        let (file, number) = result.err().expect("refused");
        let kind = REFUSED.into_iter().find(|(at, by, _)| (*at, *by) == (file, number));
        tally.merge(kind.ok_or(format!("refused by {number} for file {file}"))?.2, false);
        return Ok(None);
    };
    match room < length {
        true => tally.merge(SHORT, false),
        false => tally.merge(MERGED, true),
    }
    if read(file).as_ref() != Ok(view) {
        return Err("the reader doesn't read what the writer wrote".into());
    }
    if first.is_empty() || second.is_empty() {
        if file != if first.is_empty() { second } else { first } {
            return Err("a file of no bytes changes the other".into());
        }
        tally.file(NOTHING);
    }
    Ok(Some(file.clone()))
}

/// Files that are fine, and files that are refused by each number, each beside each; where both are refused, the order shows.
pub fn orders(entry: &Merges, tally: &mut Tally) -> Result<String, String> {
    let mut random = Random::new(1);
    let mut files: Vec<Vec<u8>> = (0..8).map(given).collect();
    files.push(Vec::new());
    // Wires and no blocks; a whole unit of zeros; a file that is cut within a unit, and one whose first unit has a wrong layout and
    // whose second a wrong sum.
    files.push(given(0)[512..].to_vec());
    files.push(vec![0; 512]);
    files.push(given(0)[..700].to_vec());
    files.push([vec![0; 512], vec![1; 512]].concat());
    for (one, first) in files.iter().enumerate() {
        for (two, second) in files.iter().enumerate() {
            for _ in 0..8 {
                compare(entry, first, second, &mut random, tally)
                    .map_err(|text| format!("merged, files {one} and {two}: {text}"))?;
            }
            let number = |file: &[u8]| read(file).and_then(|view| loads(&view)).err();
            if let (Some(one), Some(two)) = (number(first), number(second)) {
                if one != two {
                    tally.file(TWO_REFUSED);
                }
            }
        }
    }
    Ok(format!("merged: {} kinds of files, each beside each, with buffers of several lengths", files.len()))
}

/// All wirings of up to two blocks, with up to one port a side, and up to two wires.
fn all_small() -> Vec<View> {
    let counts = [[0, 0], [0, 1], [1, 0], [1, 1]];
    let mut lists: Vec<Vec<[u16; 2]>> = vec![Vec::new()];
    lists.extend(counts.map(|block| vec![block]));
    lists.extend(counts.iter().flat_map(|one| counts.map(|two| vec![*one, two])));
    let mut views = Vec::new();
    for blocks in lists {
        let with = |side: usize| {
            (0..blocks.len()).filter(|rank| blocks[*rank][side] == 1).map(|rank| rank as u16).collect::<Vec<_>>()
        };
        let (sources, targets) = (with(1), with(0));
        let wires: Vec<[u16; 4]> =
            sources.iter().flat_map(|source| targets.iter().map(|target| [*source, 0, *target, 0])).collect();
        views.push(View { blocks: blocks.clone(), wires: vec![] });
        for (at, one) in wires.iter().enumerate() {
            views.push(View { blocks: blocks.clone(), wires: vec![*one] });
            views.extend(wires[at..].iter().map(|two| View { blocks: blocks.clone(), wires: vec![*one, *two] }));
        }
    }
    views
}

/// Each of these wirings beside each.
pub fn small(entry: &Merges, tally: &mut Tally) -> Result<String, String> {
    let mut random = Random::new(1);
    let files: Vec<Vec<u8>> = all_small().iter().map(View::file).collect();
    for (one, first) in files.iter().enumerate() {
        for (two, second) in files.iter().enumerate() {
            compare(entry, first, second, &mut random, tally)
                .map_err(|text| format!("merged, small files {one} and {two}: {text}"))?;
        }
    }
    Ok(format!("merged: all pairs of the {} wirings of up to two blocks, a port a side and two wires", files.len()))
}

/// A fan: one output with so many wires, each to an input of its own.
fn fan(wires: u16) -> View {
    View { blocks: vec![[0, 1], [wires, 0]], wires: (0..wires).map(|input| [0, 0, 1, input]).collect() }
}

/// So many blocks of an input and an output, each wired to the next.
fn chain(blocks: u16) -> View {
    View { blocks: vec![[1, 1]; blocks.into()], wires: (1..blocks).map(|block| [block - 1, 0, block, 0]).collect() }
}

/// So many pairs of blocks of three ports, every port wired.
fn full(pairs: u16) -> View {
    let wires = (0..pairs).flat_map(|pair| {
        [[0, 0, 0, 0], [0, 1, 1, 0], [1, 0, 1, 1]].map(|[a, b, c, d]| [2 * pair + a, b, 2 * pair + c, d])
    });
    View { blocks: vec![[[1, 2], [2, 1]]; pairs.into()].concat(), wires: wires.collect() }
}

/// Files about the limits of blocks, ports and wires, each beside each.
pub fn limits(entry: &Merges, tally: &mut Tally) -> Result<String, String> {
    let mut random = Random::new(1);
    let slots = NODE_SLOTS as u16;
    let mut views = vec![View::default(), full(1), full(256), full(255), full(512), full(511)];
    views.extend([1, 2, 511, 512, 513, slots - 1, slots].map(chain));
    views.extend([1, 2, 3, 15, 16, 100, 254, 255, 256, 300, 500, 511].map(fan));
    views.extend(
        [0, 1, 512, slots - 1, slots].map(|blocks| View { blocks: vec![[0, 0]; blocks.into()], wires: vec![] }),
    );
    for widths in [&[1_024][..], &[1_024, 1_024], &[1_024, 1_024, 1_023], &[1_024, 1_024, 1_024], &[1_024, 1_025]] {
        views.push(View { blocks: widths.iter().map(|width| [*width, 0]).collect(), wires: vec![] });
    }
    let files: Vec<Vec<u8>> = views.iter().map(View::file).collect();
    for (one, first) in files.iter().enumerate() {
        for (two, second) in files.iter().enumerate() {
            compare(entry, first, second, &mut random, tally)
                .map_err(|text| format!("merged, files {one} and {two} about the limits: {text}"))?;
        }
    }
    Ok(format!(
        "merged: {} files about the limits of {NODE_SLOTS} blocks, {PORT_SLOTS} ports and {} wires, each beside each",
        files.len(),
        PORT_SLOTS / 2
    ))
}

/// A file of any wiring, at times damaged, at times none.
fn any(random: &mut Random) -> Vec<u8> {
    let mut file = if random.one_in(12) { Vec::new() } else { drawn(random).file() };
    if random.one_in(6) {
        _ = damage(&mut file, &drawn(random).file(), random);
    }
    file
}

/// Pairs of files of any wirings, some damaged.
pub fn pairs(entry: &Merges, seed: u64, pairs: u64, tally: &mut Tally) -> Result<String, String> {
    for number in seed..seed + pairs {
        let mut random = Random::new(number);
        let (first, second) = (any(&mut random), any(&mut random));
        compare(entry, &first, &second, &mut random, tally).map_err(|text| format!("merged, seed {number}: {text}"))?;
    }
    Ok(format!("merged: {pairs} pairs of files of any wirings, seeds {seed} to {}", seed + pairs - 1))
}

/// Three files, the first two merged first, and the last two: the bytes are equal, and one grouping is accepted where the other is.
pub fn triples(entry: &Merges, seed: u64, triples: u64, tally: &mut Tally) -> Result<String, String> {
    for number in seed..seed + triples {
        let mut random = Random::new(number);
        let file = |random: &mut Random| match random.below(12) {
            0 => fan(random.below(400) as u16).file(),
            1 => chain(random.below(500) as u16).file(),
            _ => drawn(random).file(),
        };
        let [one, two, three] = [(); 3].map(|()| file(&mut random));
        let mut step = |first: Option<Vec<u8>>, second: Option<Vec<u8>>| match (first, second) {
            (Some(first), Some(second)) => compare(entry, &first, &second, &mut random, tally),
            _ => Ok(None),
        };
        let shown = |text: String| format!("merged, three files, seed {number}: {text}");
        let left = step(Some(one.clone()), Some(two.clone())).map_err(shown)?;
        let left = step(left, Some(three.clone())).map_err(shown)?;
        let right = step(Some(two), Some(three)).map_err(shown)?;
        let right = step(Some(one), right).map_err(shown)?;
        if left != right {
            return Err(shown("the grouping makes a difference".into()));
        }
        tally.file(if left.is_some() { GROUPED } else { UNGROUPED });
    }
    Ok(format!("merged: {triples} times three files in both groupings, seeds {seed} to {}", seed + triples - 1))
}
