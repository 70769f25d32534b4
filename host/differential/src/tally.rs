//! What was compared, by call, by refusal and by reason.

use std::collections::BTreeMap;
use std::fmt;

use driver::Release;

use crate::console::{LOADS, SHEETS};
use crate::history::{By, Step, LINK_CLEAN};
use crate::{loads, merges, saves, views};

/// The calls by code; 0 stands for unknown codes.
pub const CALLS: [&str; LINK_CLEAN + 1] = [
    "unknown code",
    "add",
    "remove",
    "resize",
    "link",
    "unlink",
    "link_subports",
    "unlink_subport",
    "subport_link",
    "counts",
    "link, no stub",
];

/// Counts of what was compared.
#[derive(Clone, Default)]
pub struct Tally {
    calls: BTreeMap<(By, usize, u32), u64>,
    notes: BTreeMap<&'static str, u64>,
    listings: BTreeMap<&'static str, u64>,
    files: BTreeMap<&'static str, u64>,
    /// Files saved by records.
    pub saved: u64,
    /// Saves refused, for lack of room or by the list's length, with the buffer untouched.
    pub saves_refused: u64,
    /// Files loaded, and loads refused, with the buffer untouched.
    pub loaded: u64,
    pub loads_refused: u64,
    /// Pairs of files merged, and merges refused, with the buffer untouched.
    pub merged: u64,
    pub merges_refused: u64,
    /// Views written by records, and views refused, with the buffer untouched.
    pub viewed: u64,
    pub views_refused: u64,
    /// Lists refused as a whole (refusal 1).
    pub lists_refused: u64,
    /// Items of listings and move lists, in the console's answers.
    pub items: u64,
    /// Calls on graphs of release 2: answered by the Rust, and refused with 18.
    pub two_by_rust: u64,
    pub two_refused: u64,
}

impl Tally {
    pub fn count(&mut self, steps: &[Step]) {
        for step in steps {
            *self.calls.entry((step.by, step.call, step.expected[0])).or_default() += 1;
            if step.release == Release::Two {
                self.two_by_rust += u64::from(step.by == By::Rust);
                self.two_refused += u64::from(step.expected[0] == 18);
            }
            if let Some(note) = step.note {
                *self.notes.entry(note).or_default() += 1;
            }
        }
    }

    /// Counts a listing of the console, by its command.
    pub fn list(&mut self, command: &'static str) {
        *self.listings.entry(command).or_default() += 1;
    }

    /// Whether a listing was counted under this name.
    pub fn lists(&self, command: &'static str) -> bool {
        self.listings.contains_key(command)
    }

    /// Counts a saved file, or a refused save, by its kind.
    pub fn save(&mut self, kind: &'static str, saved: bool) {
        self.file(kind);
        match saved {
            true => self.saved += 1,
            false => self.saves_refused += 1,
        }
    }

    /// Counts a loaded file, or a refused one, by its kind.
    pub fn load(&mut self, kind: &'static str, loaded: bool) {
        self.file(kind);
        match loaded {
            true => self.loaded += 1,
            false => self.loads_refused += 1,
        }
    }

    /// Counts two files merged, or a refused merge, by its kind.
    pub fn merge(&mut self, kind: &'static str, merged: bool) {
        self.file(kind);
        match merged {
            true => self.merged += 1,
            false => self.merges_refused += 1,
        }
    }

    /// Counts a view, or a refused one, by its kind.
    pub fn view(&mut self, kind: &'static str, viewed: bool) {
        self.file(kind);
        match viewed {
            true => self.viewed += 1,
            false => self.views_refused += 1,
        }
    }

    /// Counts a kind that a file or a view has besides.
    pub fn file(&mut self, kind: &'static str) {
        *self.files.entry(kind).or_default() += 1;
    }

    pub fn add(&mut self, other: &Tally) {
        other.calls.iter().for_each(|(key, count)| *self.calls.entry(*key).or_default() += count);
        other.notes.iter().for_each(|(key, count)| *self.notes.entry(key).or_default() += count);
        other.listings.iter().for_each(|(key, count)| *self.listings.entry(key).or_default() += count);
        other.files.iter().for_each(|(key, count)| *self.files.entry(key).or_default() += count);
        self.saved += other.saved;
        self.saves_refused += other.saves_refused;
        self.loaded += other.loaded;
        self.loads_refused += other.loads_refused;
        self.merged += other.merged;
        self.merges_refused += other.merges_refused;
        self.viewed += other.viewed;
        self.views_refused += other.views_refused;
        self.lists_refused += other.lists_refused;
        self.items += other.items;
        self.two_by_rust += other.two_by_rust;
        self.two_refused += other.two_refused;
    }

    /// Calls whose answer the Rust gave.
    pub fn compared(&self) -> u64 {
        self.by(|by| by == By::Rust)
    }

    /// Calls whose answer follows from 01 and the Rust's graph, and lists refused as a whole.
    pub fn expected(&self) -> u64 {
        self.by(|by| by != By::Rust) + self.lists_refused
    }

    /// Listings of the console, and its lines that are no commands.
    pub fn listings(&self) -> u64 {
        self.listings.values().sum()
    }

    /// Views by records, the refused ones included.
    pub fn views(&self) -> u64 {
        self.viewed + self.views_refused
    }

    /// Files saved by records, loaded as records and merged, the refused ones included.
    pub fn files(&self) -> u64 {
        self.saved + self.saves_refused + self.loaded + self.loads_refused + self.merged + self.merges_refused
    }

    fn by(&self, who: impl Fn(By) -> bool) -> u64 {
        self.calls.iter().filter(|((by, _, _), _)| who(*by)).map(|(_, count)| count).sum()
    }

    /// Cases that a whole run must bring up and this one didn't; those of the console only where it was run.
    pub fn missing(&self, console: bool) -> Vec<String> {
        let given = [
            (1, 0),
            (2, 0),
            (2, 4),
            (3, 0),
            (3, 4),
            (4, 0),
            (4, 7),
            (4, 11),
            (4, 12),
            (5, 0),
            (5, 7),
            (6, 0),
            (6, 7),
            (6, 11),
            (6, 12),
            (6, 13),
            (7, 0),
            (7, 7),
            (8, 0),
            (9, 0),
        ];
        let added = [
            (0, 2),
            (1, 2),
            (2, 2),
            (3, 2),
            (4, 2),
            (5, 2),
            (6, 2),
            (7, 2),
            (8, 2),
            (9, 2),
            (1, 3),
            (3, 3),
            (2, 5),
            (3, 5),
            (4, 8),
            (5, 8),
            (6, 8),
            (7, 8),
            (8, 8),
            (6, 9),
            (7, 9),
            (8, 9),
            (1, 10),
            (3, 10),
            (4, 10),
        ];
        let reasons =
            [(By::DeadRead, 8, 7), (By::DeadFirst, 6, 7), (By::Unheld, 2, 4), (By::Unheld, 4, 7), (By::SetApart, 3, 0)];
        let notes = [
            "resize to equal counts",
            "resize by a new block",
            "resize within the block, up",
            "resize within the block, down",
            "resize within the block, mixed",
            "R1, second port given as a surely dead number",
        ];
        let clean = [(By::Rust, 0), (By::Rust, 7), (By::Added, 8), (By::Added, 10), (By::Added, 11), (By::Added, 12)];
        let clean = clean.into_iter().map(|(by, refusal)| (by, LINK_CLEAN, refusal));
        let taken = [4, 6, LINK_CLEAN].into_iter().map(|call| (By::Added, call, 18));
        let clean = clean.chain(taken).filter(|_| console);
        let kinds = SHEETS.into_iter().chain(LOADS).filter(|_| console);
        let sheets = kinds.filter(|kind| !self.listings.contains_key(kind)).map(str::to_string);
        let all = given.into_iter().map(|(code, refusal)| (By::Rust, code, refusal));
        let all = all.chain(added.into_iter().map(|(code, refusal)| (By::Added, code, refusal)));
        let all = all.chain(reasons).chain(clean);
        let calls = all.filter(|key| !self.calls.contains_key(key)).map(|key| format!("{key:?}"));
        let notes = notes.into_iter().filter(|note| !self.notes.contains_key(note)).map(str::to_string);
        let files = saves::kinds().chain(loads::kinds()).chain(merges::kinds()).chain(views::kinds());
        let files = files.filter(|kind| !self.files.contains_key(kind)).map(str::to_string);
        calls.chain(notes).chain(sheets).chain(files).collect()
    }
}

impl fmt::Display for Tally {
    fn fmt(&self, f: &mut fmt::Formatter) -> fmt::Result {
        let mut last = None;
        for ((by, code, refusal), count) in &self.calls {
            if last != Some(by) {
                let title = match by {
                    By::Rust => "compared with the Rust",
                    By::Added => "expected by 01 and 02, refusals that the Rust lacks",
                    By::DeadRead => "expected by 01, R2: the Rust panics reading a dead port",
                    By::DeadFirst => "expected by 01, R3: the Rust panics at a dead first port",
                    By::Unheld => "expected by 01, R4: numbers that the Rust can't hold",
                    By::SetApart => "expected by 01, R9: the resize set apart and reads after it",
                };
                writeln!(f, "{title}: {}", self.by(|other| other == *by))?;
                last = Some(by);
            }
            let answer = if *refusal == 0 { "accepted".into() } else { format!("refusal {refusal}") };
            writeln!(f, "  {:15} {answer:11} {count:9}", CALLS[*code])?;
        }
        if self.lists_refused > 0 {
            writeln!(f, "expected by 01, refusal 1 with the answer buffer untouched: {}", self.lists_refused)?;
        }
        if !self.notes.is_empty() {
            writeln!(f, "of these:")?;
        }
        for (note, count) in &self.notes {
            writeln!(f, "  {note:45} {count:9}")?;
        }
        if self.two_by_rust + self.two_refused > 0 {
            let (by_rust, refused) = (self.two_by_rust, self.two_refused);
            writeln!(f, "on graphs of release 2: {by_rust} calls compared with the Rust, {refused} refused with 18")?;
        }
        if self.listings() > 0 {
            writeln!(f, "listings: {}, with move lists {} items", self.listings(), self.items)?;
        }
        for (command, count) in &self.listings {
            writeln!(f, "  {command:28} {count:8}")?;
        }
        if self.saved > 0 {
            writeln!(f, "files saved: {}, and {} saves refused", self.saved, self.saves_refused)?;
        }
        if self.loaded > 0 {
            writeln!(f, "files loaded: {}, and {} loads refused", self.loaded, self.loads_refused)?;
        }
        if self.merged > 0 {
            writeln!(f, "files merged: {} pairs, and {} merges refused", self.merged, self.merges_refused)?;
        }
        if self.viewed > 0 {
            writeln!(f, "views: {}, and {} refused", self.viewed, self.views_refused)?;
        }
        for (kind, count) in &self.files {
            writeln!(f, "  {kind:45} {count:9}")?;
        }
        Ok(())
    }
}
