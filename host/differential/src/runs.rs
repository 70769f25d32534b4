//! The parts of a run, and how much of each.

use std::ops::Range;

use driver::{Random, Shape};

use crate::compare::{compare, Entry, Writes};
use crate::history::History;
use crate::loads::Entries;
use crate::merges::Merges;
use crate::tally::Tally;
use crate::{damage, exhaustive, loads, merges, saves, views};

/// How much is run.
#[derive(Clone, Copy, Debug)]
pub struct Plan {
    /// The first seed.
    pub seed: u64,
    /// So many calls of random lists are compared with the Rust, or more.
    pub calls: u64,
    /// By how many calls the exhaustive lists are shorter than they could be.
    pub shorter: usize,
    /// Wrong lengths are tried up to so many bytes.
    pub lengths: usize,
    /// Lists with altered bytes.
    pub altered: u64,
    /// Scripts for the console, and the length of those that are tried in every order.
    pub scripts: u64,
    pub length: usize,
    /// All sheets of up to so many entries.
    pub entries: u32,
    /// Random wirings of which times along wires are asked.
    pub timed: u64,
    /// So many files of random lists are compared, or more.
    pub files: u64,
    /// How often files of each size are compared, and full wirings.
    pub sized: u64,
    pub full: u64,
    /// Loaded files: saved ones and others; small ones of which every byte is changed; damaged ones.
    pub loads: u64,
    pub small: u64,
    pub damaged: u64,
    /// Pairs of files that are merged, and three files in both groupings.
    pub pairs: u64,
    pub triples: u64,
    /// So many views of random lists are compared, or more.
    pub views: u64,
}

impl Plan {
    /// A whole run.
    pub const WHOLE: Plan = Plan {
        seed: 1,
        calls: 3_000_000,
        shorter: 0,
        lengths: 130,
        altered: 2_000,
        scripts: 600,
        length: 3,
        entries: 2,
        timed: 3_000,
        files: 300_000,
        sized: 20,
        full: 30,
        loads: 20_000,
        small: 8,
        damaged: 1_000_000,
        pairs: 60_000,
        triples: 15_000,
        views: 200_000,
    };
    /// A run of seconds.
    pub const SHORT: Plan = Plan {
        seed: 1,
        calls: 20_000,
        shorter: 3,
        lengths: 45,
        altered: 20,
        scripts: 30,
        length: 2,
        entries: 1,
        timed: 100,
        files: 2_000,
        sized: 1,
        full: 3,
        loads: 400,
        small: 1,
        damaged: 20_000,
        pairs: 2_000,
        triples: 400,
        views: 2_000,
    };

    /// The seeds of the altered lists, and of the scripts.
    pub fn altered_seeds(&self) -> Range<u64> {
        self.seed..self.seed + self.altered
    }

    pub fn script_seeds(&self) -> Range<u64> {
        self.seed..self.seed + self.scripts
    }

    pub fn timed_seeds(&self) -> Range<u64> {
        self.seed..self.seed + self.timed
    }
}

/// Random lists of 200 to 3,000 calls, of each shape in turn. Gives the seeds and the number of lists by shape.
pub fn random(entry: &Entry, plan: &Plan, tally: &mut Tally) -> Result<String, String> {
    let mut seed = plan.seed;
    while tally.compared() < plan.calls {
        let shape = &Shape::ALL[seed as usize % Shape::ALL.len()];
        let calls = 200 + Random::new(seed).below(2_801) as usize;
        let history = History::draw(shape, seed, calls);
        compare(entry, &history).map_err(|text| format!("{}, seed {seed}: {text}", shape.name))?;
        tally.count(&history.steps);
        seed += 1;
    }
    let names: Vec<&str> = Shape::ALL.iter().map(|shape| shape.name).collect();
    let lists = seed - plan.seed;
    Ok(format!("random: {lists} lists, seeds {} to {}, shapes in turn: {}", plan.seed, seed - 1, names.join(", ")))
}

/// All that goes through records: random lists, all short lists, lists of wrong lengths, altered lists. Gives what was
/// run and, apart, the tally of the random lists.
pub fn records(entry: &Entry, plan: &Plan) -> Result<(Vec<String>, Tally, Tally), String> {
    let mut random_tally = Tally::default();
    let mut lines = vec![random(entry, plan, &mut random_tally)?];
    let mut other = Tally::default();
    lines.extend(exhaustive::run(entry, plan.shorter, &mut other)?);
    damage::lengths(entry, plan.lengths, &mut other)?;
    lines.push(format!("wrong lengths: every pair up to {} bytes", plan.lengths));
    let seeds = plan.altered_seeds();
    damage::bytes(entry, seeds.clone(), &mut other)?;
    lines.push(format!("altered bytes: {} lists, seeds {} to {}", plan.altered, seeds.start, seeds.end - 1));
    Ok((lines, random_tally, other))
}

/// Files saved by records: of random lists, of sizes about the ends of units, of full wirings, and by buffers and lists of
/// every length. Gives what was run, and the tally.
pub fn saves(save: &Writes, plan: &Plan) -> Result<(Vec<String>, Tally), String> {
    let mut tally = Tally::default();
    let lines = vec![
        saves::lengths(save, plan.lengths, &mut tally)?,
        saves::sizes(save, plan.seed..plan.seed + plan.sized, &mut tally)?,
        saves::full_wirings(save, plan.seed..plan.seed + plan.full, &mut tally)?,
        saves::random(save, plan.seed, plan.files, &mut tally)?,
    ];
    Ok((lines, tally))
}

/// Files loaded as records: saved ones, those of any wirings, and damaged ones. Gives what was run, and the tally.
pub fn loads(entries: Entries, plan: &Plan) -> Result<(Vec<String>, Tally), String> {
    let mut tally = Tally::default();
    let lines = vec![
        loads::saved(entries, plan.seed, plan.loads, &mut tally)?,
        loads::any(entries, plan.seed, plan.loads, &mut tally)?,
        loads::long(entries, &mut tally)?,
        loads::every_byte(entries, plan.small, &mut tally)?,
        loads::damaged(entries, plan.seed, plan.damaged, &mut tally)?,
    ];
    Ok((lines, tally))
}

/// Files merged: of each kind beside each, all small ones, those about the limits, any, and three in both groupings. Gives what was run, and
/// the tally.
pub fn merges(merge: &Merges, plan: &Plan) -> Result<(Vec<String>, Tally), String> {
    let mut tally = Tally::default();
    let lines = vec![
        merges::orders(merge, &mut tally)?,
        merges::small(merge, &mut tally)?,
        merges::limits(merge, &mut tally)?,
        merges::pairs(merge, plan.seed, plan.pairs, &mut tally)?,
        merges::triples(merge, plan.seed, plan.triples, &mut tally)?,
    ];
    Ok((lines, tally))
}

/// Views by records: of random lists, of sizes up to full wirings, of lists with altered bytes, and by buffers and lists of every
/// length. Gives what was run, and the tally.
pub fn views(view: &Writes, plan: &Plan) -> Result<(Vec<String>, Tally), String> {
    let mut tally = Tally::default();
    let lines = vec![
        views::lengths(view, plan.lengths, &mut tally)?,
        views::sizes(view, plan.seed..plan.seed + plan.full, &mut tally)?,
        views::altered(view, plan.altered_seeds(), &mut tally)?,
        views::random(view, plan.seed, plan.views, &mut tally)?,
    ];
    Ok((lines, tally))
}
