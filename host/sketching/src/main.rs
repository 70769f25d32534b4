//! The run of the sketch beside the kit. `--histories N` and `--seed N` choose the random histories, `--length N` how long all histories of
//! the small wiring are; `--time` gives the table of times instead.

use std::env;
use std::process::ExitCode;

use sketching::{histories, timing, Pair, Program};

struct Options {
    histories: u64,
    seed: u64,
    length: u32,
    time: bool,
}

fn options() -> Result<Options, String> {
    let mut options = Options { histories: 2_000, seed: 1, length: 2, time: false };
    let mut words = env::args().skip(1);
    while let Some(word) = words.next() {
        let mut number = || words.next().and_then(|n| n.parse::<u64>().ok()).ok_or(format!("{word} takes a number"));
        match word.as_str() {
            "--histories" => options.histories = number()?,
            "--seed" => options.seed = number()?,
            "--length" => options.length = number()? as u32,
            "--time" => options.time = true,
            _ => return Err(format!("unknown word {word}")),
        }
    }
    Ok(options)
}

fn run(options: &Options, pair: &mut Pair) -> Result<(), String> {
    let end = options.seed + options.histories;
    for seed in options.seed..end {
        histories::random(pair, seed)?;
    }
    println!("{} random histories, seeds {} to {}: {} calls", options.histories, options.seed, end - 1, pair.calls);
    for release in 1..=2 {
        let number = histories::all_small(pair, options.length, release)?;
        println!("all {number} histories of {} calls on two blocks, release {release}", options.length);
    }
    println!("refusals by number: {:?}", pair.refusals);
    let missing: Vec<u32> =
        [2, 3, 4, 7, 9, 11, 12, 13, 14, 18].into_iter().filter(|number| !pair.refusals.contains_key(number)).collect();
    if !missing.is_empty() {
        return Err(format!("refusals that never came up: {missing:?}"));
    }
    Ok(())
}

fn whole(options: &Options) -> Result<(u64, u64, Option<String>), String> {
    let sketch = Program::path("sketch")?;
    if options.time {
        timing::table(&sketch, 4_000)?.iter().for_each(|line| println!("{line}"));
        return Ok((0, 0, None));
    }
    let wiring = Program::path("wiring")?;
    let mut pair = Pair::new(Program::start(&sketch)?, Program::start(&wiring)?);
    let failed = run(options, &mut pair).err();
    Ok((pair.calls, pair.listings, failed))
}

fn main() -> ExitCode {
    let result = options().and_then(|options| whole(&options));
    let (calls, listings, failed) = match result {
        Ok(counts) => counts,
        Err(message) => (0, 0, Some(message)),
    };
    if let Some(message) = &failed {
        println!("FAILED: {message}");
    }
    println!("{calls} calls of the sketch compared with the kit and with plain lists, {listings} listings");
    println!("{} passed, {} failed", calls + listings, u32::from(failed.is_some()));
    ExitCode::from(u8::from(failed.is_some()))
}
