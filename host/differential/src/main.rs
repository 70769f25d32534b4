//! The differential run. `--records-only` leaves out the program `wiring`; `--seed N` chooses where the seeds begin; `--calls N`
//! and `--files N` how many calls and how many saved files of random lists are compared at least, `--damaged N` how many damaged
//! files are loaded; `--spoil K` puts in the wrong answers of kind K (from 0), which must be caught.

use std::env;
use std::process::ExitCode;

use differential::compare::{run_records, Entry, Writes};
use differential::console::{Command, Console};
use differential::loads::{records_of_file, Entries};
use differential::runs::Plan;
use differential::saves::save_records;
use differential::spoil::{spoiled, spoiled_console, spoiled_load, spoiled_save, KINDS};
use differential::tally::Tally;
use differential::{console, runs, timing};

/// A run that compares fewer calls of random lists, or fewer saved files, fails.
const LEAST: u64 = 1_000_000;
const LEAST_FILES: u64 = 200_000;

struct Options {
    plan: Plan,
    records_only: bool,
    spoil: Option<usize>,
}

fn options() -> Result<Options, String> {
    let mut options = Options { plan: Plan::WHOLE, records_only: false, spoil: None };
    let mut words = env::args().skip(1);
    while let Some(word) = words.next() {
        let mut number = || {
            let given = words.next().and_then(|number| number.parse::<u64>().ok());
            given.ok_or(format!("{word} takes a number"))
        };
        match word.as_str() {
            "--records-only" => options.records_only = true,
            "--seed" => options.plan.seed = number()?,
            "--calls" => options.plan.calls = number()?,
            "--files" => options.plan.files = number()?,
            "--damaged" => options.plan.damaged = number()?,
            "--spoil" => options.spoil = Some(number()? as usize % KINDS),
            _ => return Err(format!("unknown word {word}")),
        }
    }
    Ok(options)
}

/// Runs all parts; what was told and compared so far stays in `total`.
fn run(options: &Options, total: &mut Tally) -> Result<(), String> {
    let wiring = if options.records_only { None } else { Some(console::program()?) };
    let spoil = options.spoil;
    let entry: &Entry = &|requests, answers| match spoil {
        Some(kind) => spoiled(kind, requests, answers),
        None => run_records(requests, answers),
    };
    let (lines, random, other) = runs::records(entry, &options.plan)?;
    total.add(&random);
    total.add(&other);
    lines.iter().for_each(|line| println!("{line}"));
    println!("\nrandom lists\n{random}\nother lists\n{other}");
    let save: &Writes = &|requests, file| match spoil {
        Some(kind) => spoiled_save(kind, requests, file),
        None => save_records(requests, file),
    };
    let (lines, files) = runs::saves(save, &options.plan)?;
    total.add(&files);
    lines.iter().for_each(|line| println!("{line}"));
    println!("{files}");
    let load: &Writes = &|file, requests| match spoil {
        Some(kind) => spoiled_load(kind, file, requests),
        None => records_of_file(file, requests),
    };
    let entries = Entries { load, save, run: entry };
    let (lines, loaded) = runs::loads(entries, &options.plan)?;
    total.add(&loaded);
    lines.iter().for_each(|line| println!("{line}"));
    println!("{loaded}");
    #[cfg(not(feature = "former"))]
    {
        let (lines, merged) = runs::merges(&differential::merges::merge_files, &options.plan)?;
        total.add(&merged);
        lines.iter().for_each(|line| println!("{line}"));
        println!("{merged}");
        let (lines, views) = runs::views(&differential::views::view_of_records, &options.plan)?;
        total.add(&views);
        lines.iter().for_each(|line| println!("{line}"));
        println!("{views}");
        let mut timed = Tally::default();
        timing::run(&timing::by_entries, false, options.plan.timed_seeds(), &mut timed)?;
        let small = timing::run_small(&timing::by_entries, false, &mut timed)?;
        println!(
            "times along wires, by records: {} random wirings and all {small} of three blocks",
            options.plan.timed
        );
        println!("{timed}");
        total.add(&timed);
    }
    if let Some(program) = wiring {
        let mut scripts = Tally::default();
        let seeds = options.plan.script_seeds();
        println!("console: {} scripts, seeds {} to {}", options.plan.scripts, seeds.start, seeds.end - 1);
        let written = |script: &[Command]| console::written(&program, script);
        let console: &Console = &|script| match spoil {
            Some(kind) => spoiled_console(kind, &written, script),
            None => written(script),
        };
        console::run(console, seeds, &mut scripts)?;
        console::run_small(console, options.plan.length, &mut scripts)?.iter().for_each(|line| println!("{line}"));
        let sheets = console::all_sheets(console, options.plan.entries, &mut scripts)?;
        println!(
            "console: {sheets} sheets, all of up to {} entries of five ports on four wirings",
            options.plan.entries
        );
        let timed: &timing::Answers = &|script| timing::written(&program, script);
        timing::run(timed, true, options.plan.timed_seeds(), &mut scripts)?;
        let small = timing::run_small(timed, true, &mut scripts)?;
        if let Some(kind) = timing::TIMED.into_iter().find(|kind| !scripts.lists(kind)) {
            return Err(format!("no question came up: {kind}"));
        }
        println!("console: times along wires, {} random wirings and all {small} of three blocks", options.plan.timed);
        println!("{scripts}");
        total.add(&scripts);
    }
    if random.compared() < LEAST {
        return Err(format!("fewer than {LEAST} calls of random lists were compared with the Rust"));
    }
    if files.saved < LEAST_FILES {
        return Err(format!("fewer than {LEAST_FILES} saved files were compared"));
    }
    let missing = total.missing(!options.records_only);
    if !missing.is_empty() {
        return Err(format!("cases that never came up: {}", missing.join("; ")));
    }
    Ok(())
}

fn main() -> ExitCode {
    let options = match options() {
        Ok(options) => options,
        Err(message) => {
            println!("{message}");
            return ExitCode::from(2);
        }
    };
    let mut total = Tally::default();
    let result = run(&options, &mut total);
    let failed = u32::from(result.is_err());
    if let Err(message) = result {
        println!("FAILED: {message}");
    }
    let (compared, expected, listings, files) = (total.compared(), total.expected(), total.listings(), total.files());
    println!("{compared} calls compared with the Rust, {expected} expected by 01");
    let views = total.views();
    println!("{listings} listings compared, {files} files saved, loaded or merged, {views} views");
    println!("{} passed, {failed} failed", compared + expected + listings + files + views);
    ExitCode::from(u8::from(failed > 0))
}
