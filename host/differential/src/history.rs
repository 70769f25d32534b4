//! A list of calls with what each must answer, asked of the original call by call.

use driver::{Answer, Asked, Call, End, Oracle, Random, Reason, Release, Shape, Side, Sides, PORT_SLOTS};

/// A request record.
pub type Record = [u32; 5];

/// The link that leaves no stub, among the calls by code.
pub const LINK_CLEAN: usize = 10;

/// Who says what a call must answer.
#[derive(Clone, Copy, Debug, PartialEq, Eq, PartialOrd, Ord)]
pub enum By {
    /// The original answered the call.
    Rust,
    /// A refusal that the port adds, from the original's inner graph.
    Added,
    /// R2: reading the link of a dead port, where the original panics.
    DeadRead,
    /// R3: `link_subports` from a dead port to an end that the original panics on.
    DeadFirst,
    /// R4: numbers that the original's indexes can't hold.
    Unheld,
    /// R9: the resize set apart, and what is read after it.
    SetApart,
}

/// A call of a history.
#[derive(Clone, Copy, Debug)]
pub struct Step {
    /// The call's code; 0 for unknown codes, [`LINK_CLEAN`] for the link that leaves no stub.
    pub call: usize,
    /// The request, all 0 for the link that leaves no stub: it has none.
    pub record: Record,
    pub expected: Answer,
    pub by: By,
    /// The release of the graph that it was given to.
    pub release: Release,
    /// What kind of case it is, where the call and the answer don't tell.
    pub note: Option<&'static str>,
}

/// Calls from the empty graph on. Calls that the original is not given leave its graph as it is; after the resize set
/// apart a history only reads.
#[derive(Clone, Default)]
pub struct History {
    pub oracle: Oracle,
    pub steps: Vec<Step>,
    pub ended: bool,
}

impl History {
    /// A history of these records, up to a resize that is set apart and what is read after it.
    pub fn of(records: &[Record]) -> History {
        let mut history = History::default();
        records.iter().for_each(|record| history.give(*record));
        history
    }

    /// A random history of some length, with reads at its end.
    pub fn draw(shape: &Shape, seed: u64, calls: usize) -> History {
        let mut random = Random::new(seed);
        let mut history = History::default();
        for call in shape.first_calls(&mut random) {
            history.give(call.to_record());
        }
        while history.steps.len() < calls && !history.ended {
            history.give_drawn(shape, &mut random);
        }
        history.read_wires(60, &mut random);
        history
    }

    /// Goes on from a loaded or a new graph, also after the resize set apart.
    pub fn load(&mut self, oracle: Oracle) {
        self.oracle = oracle;
        self.ended = false;
    }

    /// Draws one more call, and asks the original for its answer.
    pub fn give_drawn(&mut self, shape: &Shape, random: &mut Random) {
        let record = self.draw_record(shape, random);
        self.give(record);
    }

    fn draw_record(&self, shape: &Shape, random: &mut Random) -> Record {
        loop {
            let mut record = shape.call(&self.oracle, random).to_record();
            if random.one_in(50 * shape.wild) {
                record[random.below(5) as usize] ^= 1 << random.below(32);
            }
            if !self.set_apart(record) || random.one_in(30) {
                return record;
            }
        }
    }

    /// Whether a record is a resize that is set apart (R9).
    pub fn set_apart(&self, record: Record) -> bool {
        match Call::from_record(record) {
            Some(Call::Resize { node, incoming, outgoing }) => self.oracle.set_apart(node, incoming, outgoing),
            _ => false,
        }
    }

    /// Asks the original for the answer to one more call.
    pub fn give(&mut self, record: Record) {
        if self.ended && !matches!(record[0], 8 | 9) {
            return;
        }
        let mut note = self.note(record);
        let asked = self.oracle.ask_record(record);
        let (expected, by) = self.told(asked).unwrap_or_else(|| {
            let [_, node, incoming, outgoing, _] = record;
            self.oracle = self.oracle.after_set_apart(node, incoming, outgoing);
            self.ended = true;
            ([0, self.oracle.moves().len() as u32, 0, 0, 0], By::SetApart)
        });
        let accepted_resize = record[0] == 3 && expected[0] == 0;
        let second_dead = record[0] == 4 && expected[0] == 11;
        if !accepted_resize && !second_dead {
            note = None;
        }
        let call = if record[0] < 10 { record[0] as usize } else { 0 };
        self.steps.push(Step { call, record, expected, by, release: self.oracle.release(), note });
    }

    /// Asks for the link that leaves no stub.
    pub fn link_clean(&mut self, a: u32, b: u32) {
        let asked = self.oracle.link_clean(a, b);
        let (expected, by) = self.told(asked).expect("no resize");
        let release = self.oracle.release();
        self.steps.push(Step { call: LINK_CLEAN, record: [0; 5], expected, by, release, note: None });
    }

    /// What must be answered, and who says so; `None` for the resize set apart.
    fn told(&self, asked: Asked) -> Option<(Answer, By)> {
        Some(match asked {
            Asked::Answer(answer) if self.ended => (answer, By::SetApart),
            Asked::Answer(answer) => (answer, By::Rust),
            Asked::NotGiven(Reason::Added(answer)) => (answer, By::Added),
            Asked::NotGiven(Reason::DeadPortRead(answer)) => (answer, By::DeadRead),
            Asked::NotGiven(Reason::DeadFirstEnd(answer)) => (answer, By::DeadFirst),
            Asked::NotGiven(Reason::Unheld(answer)) => (answer, By::Unheld),
            Asked::NotGiven(Reason::SetApart) => return None,
        })
    }

    /// The kind of a resize, or that the second port of a link is dead and within the table (R1).
    fn note(&self, record: Record) -> Option<&'static str> {
        match Call::from_record(record)? {
            Call::Resize { node, incoming, outgoing } => {
                let present = |side| Some(self.oracle.ports(node, Sides::One(side)).ok()?.len() as u32);
                let old = (present(Side::Incoming)?, present(Side::Outgoing)?);
                let within =
                    (1..self.oracle.capacity(node)? as u64).contains(&(u64::from(incoming) + u64::from(outgoing)));
                Some(match (incoming.cmp(&old.0).is_ge(), outgoing.cmp(&old.1).is_ge()) {
                    _ if old == (incoming, outgoing) => "resize to equal counts",
                    _ if !within => "resize by a new block",
                    (true, true) => "resize within the block, up",
                    _ if incoming <= old.0 && outgoing <= old.1 => "resize within the block, down",
                    _ => "resize within the block, mixed",
                })
            }
            Call::Link { b, .. } if b < PORT_SLOTS as u32 => Some("R1, second port given as a surely dead number"),
            _ => None,
        }
    }

    /// Reads the counts and the links of the ends that there are, at most so many.
    pub fn read_wires(&mut self, most: usize, random: &mut Random) {
        let blocks = self.oracle.blocks();
        let listed = |node: &u32| self.oracle.subports(*node, Sides::Both).expect("a block");
        let mut ends: Vec<_> = blocks.iter().flat_map(listed).collect();
        while ends.len() > most {
            ends.swap_remove(random.below(ends.len() as u32) as usize);
        }
        self.give(Call::Counts.to_record());
        for (port, offset) in ends {
            self.give(Call::SubportLink { end: End { port, offset } }.to_record());
        }
    }

    /// The records of the first so many calls.
    pub fn records(&self, calls: usize) -> Vec<Record> {
        self.steps[..calls].iter().map(|step| step.record).collect()
    }
}
