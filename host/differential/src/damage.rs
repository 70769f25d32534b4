//! Lists of wrong lengths (refusal 1), and lists with altered bytes.

use driver::{to_bytes, Random, Shape};

use crate::compare::{compare, run, untouched, Entry};
use crate::history::{History, Record};
use crate::tally::Tally;

/// Runs a list cut to every length, beside answer buffers of every length, up to so many bytes.
pub fn lengths(entry: &Entry, most: usize, tally: &mut Tally) -> Result<(), String> {
    let history = History::draw(&Shape::MIXED, 1, most.div_ceil(20));
    let bytes = to_bytes(&history.records(most.div_ceil(20)));
    for request_bytes in 0..=most {
        for answer_bytes in 0..=most {
            let fits = request_bytes % 20 == 0 && request_bytes == answer_bytes;
            let at = format!("{request_bytes} request bytes, {answer_bytes} answer bytes");
            let (returned, answers) =
                run(entry, &bytes[..request_bytes], answer_bytes).map_err(|text| format!("{at}: {text}"))?;
            if returned != u32::from(!fits) {
                return Err(format!("{at}: {returned} is returned"));
            }
            if !fits && !untouched(&answers) {
                return Err(format!("{at}: refused, and the answer buffer was changed"));
            }
            tally.lists_refused += u64::from(!fits);
        }
    }
    Ok(())
}

/// Runs random lists in which some bytes are altered.
pub fn bytes(entry: &Entry, seeds: std::ops::Range<u64>, tally: &mut Tally) -> Result<(), String> {
    for seed in seeds {
        let mut random = Random::new(seed);
        let shape = Shape::ALL[random.below(Shape::ALL.len() as u32) as usize];
        let mut records: Vec<Record> = History::draw(&shape, seed, 300).steps.iter().map(|step| step.record).collect();
        for _ in 0..1 + random.below(60) {
            let record = random.below(records.len() as u32) as usize;
            // The low bytes of a word often, so that the number stays a likely one.
            let bit = if random.one_in(3) { random.below(32) } else { random.below(5) };
            records[record][random.below(5) as usize] ^= 1 << bit;
        }
        let history = History::of(&records);
        tally.count(&history.steps);
        compare(entry, &history).map_err(|text| format!("altered bytes, seed {seed}: {text}"))?;
    }
    Ok(())
}
