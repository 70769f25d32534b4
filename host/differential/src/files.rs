//! A second writer and a reader of saved files, both from document 02's words, and files as lines to compare.
//!
//! A unit has 512 bytes: kind (1 blocks, 2 wires) and record count, up to 63 records of four fields, zeros, and the sum of the
//! 127 words before. It is written field by field here, and by positions in tables of its own in the port. The reader goes
//! through 02's rules one by one; it knows nothing of the writer.

use std::collections::HashMap;
use std::env;
use std::fs;
use std::path::{Path, PathBuf};
use std::process;
use std::sync::atomic::{AtomicU64, Ordering};

use driver::{Oracle, Side, Sides};

/// Bytes of a unit.
pub const UNIT: usize = 512;
/// The most records of a unit.
pub const MOST_RECORDS: usize = 63;
/// Where a unit's sum stands, after its records.
const SUM: usize = 508;

type Record = [u16; 4];

/// What a file says of a wiring.
#[derive(Clone, Debug, Default, PartialEq, Eq)]
pub struct View {
    /// Incoming and outgoing ports of each block, by ascending number; its rank is its position here.
    pub blocks: Vec<[u16; 2]>,
    /// Source rank, output position, target rank and input position of each wire, sorted.
    pub wires: Vec<Record>,
}

/// The sum, modulo 4,294,967,296, of the 127 words before a unit's own sum.
fn sum(unit: &[u8]) -> u32 {
    let words = unit[..SUM].chunks_exact(4).map(|word| u32::from_le_bytes(word.try_into().expect("four bytes")));
    words.fold(0, u32::wrapping_add)
}

/// Gives a unit the sum that it must have.
pub fn mend(unit: &mut [u8]) {
    let sum = sum(unit);
    unit[SUM..].copy_from_slice(&sum.to_le_bytes());
}

fn unit(kind: u16, records: &[Record]) -> Vec<u8> {
    let mut bytes = Vec::with_capacity(UNIT);
    bytes.extend(kind.to_le_bytes());
    bytes.extend((records.len() as u16).to_le_bytes());
    bytes.extend(records.iter().flatten().flat_map(|field| field.to_le_bytes()));
    bytes.resize(UNIT, 0);
    mend(&mut bytes);
    bytes
}

fn field(number: u32) -> u16 {
    u16::try_from(number).expect("no field passes 16 bits")
}

impl View {
    /// What the file of the original's graph must say.
    pub fn of(oracle: &Oracle) -> View {
        View::listed(oracle).sorted()
    }

    /// The same with the wires sorted.
    pub fn sorted(mut self) -> View {
        self.wires.sort();
        self
    }

    /// The blocks of the original's graph, and its wires as it lists them.
    pub fn listed(oracle: &Oracle) -> View {
        let blocks = oracle.blocks();
        let ranks: HashMap<u32, u16> =
            blocks.iter().enumerate().map(|(rank, node)| (*node, field(rank as u32))).collect();
        let ports = |node: u32, side: Side| field(oracle.ports(node, Sides::One(side)).expect("a block").len() as u32);
        let place = |end| oracle.place(end).expect("an end of a wire is live");
        let wires = (oracle.all_wires().into_iter())
            .map(|(from, to)| (place(from), place(to)))
            .map(|(from, to)| [ranks[&from.node], field(from.position), ranks[&to.node], field(to.position)]);
        let records = blocks.iter().map(|node| [ports(*node, Side::Incoming), ports(*node, Side::Outgoing)]);
        View { blocks: records.collect(), wires: wires.collect() }
    }

    /// The file.
    pub fn file(&self) -> Vec<u8> {
        let blocks: Vec<Record> = self.blocks.iter().map(|[incoming, outgoing]| [*incoming, *outgoing, 0, 0]).collect();
        let units = |kind, records: &[Record]| {
            records.chunks(MOST_RECORDS).flat_map(|part| unit(kind, part)).collect::<Vec<u8>>()
        };
        [units(1, &blocks), units(2, &self.wires)].concat()
    }
}

/// Reads a file. 16: the length is not a multiple of 512 or a unit's sum is wrong, over all units before anything else; 17:
/// kinds, counts, zeros, order, ranks or positions break the layout.
pub fn read(bytes: &[u8]) -> Result<View, u32> {
    let units = bytes.chunks_exact(UNIT);
    if !units.remainder().is_empty() || units.clone().any(|unit| unit[SUM..] != sum(unit).to_le_bytes()) {
        return Err(16);
    }
    let mut view = View::default();
    let mut before = None;
    for unit in units {
        let fields = unit[..SUM].chunks_exact(2).map(|field| u16::from_le_bytes([field[0], field[1]]));
        let fields: Vec<u16> = fields.collect();
        let (kind, count, records) = (fields[0], usize::from(fields[1]), &fields[2..]);
        // Blocks first; and only the last unit of a kind may hold fewer records than it can.
        let follows = match before {
            Some((kind_before, count_before)) => {
                kind_before < kind || kind_before == kind && count_before == MOST_RECORDS
            }
            None => true,
        };
        if !(1..=2).contains(&kind) || !(1..=MOST_RECORDS).contains(&count) || !follows {
            return Err(17);
        }
        let (used, unused) = records.split_at(4 * count);
        if unused.iter().any(|field| *field != 0) {
            return Err(17);
        }
        for record in used.chunks_exact(4) {
            match (kind, record) {
                (1, [incoming, outgoing, 0, 0]) => view.blocks.push([*incoming, *outgoing]),
                (2, [source, output, target, input]) => view.wires.push([*source, *output, *target, *input]),
                _ => return Err(17),
            }
        }
        before = Some((kind, count));
    }
    let ports = |rank: u16, side: usize| view.blocks.get(usize::from(rank)).map_or(0, |block| block[side]);
    let between = |[source, output, target, input]: &Record| *output < ports(*source, 1) && *input < ports(*target, 0);
    match view.wires.is_sorted() && view.wires.iter().all(between) {
        true => Ok(view),
        false => Err(17),
    }
}

/// A file as items to compare, one a unit; what is past the last whole unit is an item too.
pub fn items(bytes: &[u8]) -> Vec<String> {
    let digits = |unit: &[u8]| unit.iter().map(|byte| format!("{byte:02x}")).collect::<String>();
    bytes.chunks(512).map(|unit| format!("  {}", digits(unit))).collect()
}

/// The name under which a script saves for the so-manieth time.
pub fn name(number: u32) -> String {
    format!("saved-{number}")
}

/// The name of a file that is there before a script.
pub fn given_name(number: u32) -> String {
    format!("given-{number}")
}

/// An empty folder of its own, which goes in the end.
pub struct Folder(PathBuf);

impl Folder {
    pub fn new() -> std::io::Result<Folder> {
        static MADE: AtomicU64 = AtomicU64::new(0);
        let number = MADE.fetch_add(1, Ordering::Relaxed);
        let path = env::temp_dir().join(format!("wiring-{}-{number}", process::id()));
        fs::create_dir(&path)?;
        Ok(Folder(path))
    }

    pub fn path(&self) -> &Path {
        &self.0
    }

    /// The items of a file in it; none where there is no such file.
    pub fn items(&self, name: &str) -> Vec<String> {
        fs::read(self.0.join(name)).map_or_else(|_| vec!["  no file".into()], |bytes| items(&bytes))
    }

    /// Puts a file in it.
    pub fn put(&self, name: &str, bytes: &[u8]) -> std::io::Result<()> {
        fs::write(self.0.join(name), bytes)
    }

    /// The names of the files in it.
    pub fn names(&self) -> Vec<String> {
        let entries = fs::read_dir(&self.0).into_iter().flatten().flatten();
        let mut names: Vec<String> = entries.map(|entry| entry.file_name().to_string_lossy().into_owned()).collect();
        names.sort();
        names
    }
}

impl Drop for Folder {
    fn drop(&mut self) {
        // What cannot be removed is left to the system.
        _ = fs::remove_dir_all(&self.0);
    }
}
