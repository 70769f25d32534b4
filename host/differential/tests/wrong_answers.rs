//! Wrong answers put in by hand are caught, each kind alone; without them a short run finds nothing.

use differential::compare::run_records;
use differential::console::{self, careless, faultless, Careless};
use differential::loads::{records_of_file, Entries};
use differential::runs::{loads, records, saves, Plan};
use differential::saves::save_records;
use differential::spoil::{
    spoiled, spoiled_console, spoiled_load, spoiled_save, KINDS, WRONG, WRONG_COMMANDS, WRONG_LISTINGS, WRONG_LOADS,
    WRONG_SAVES,
};
use differential::tally::Tally;

#[test]
fn nothing_wrong() {
    let (_, random, other) = records(&run_records, &Plan::SHORT).unwrap();
    assert!(random.compared() >= Plan::SHORT.calls && other.expected() > 0);
    console::run(&faultless, Plan::SHORT.script_seeds(), &mut Tally::default()).unwrap();
    console::run_small(&faultless, Plan::SHORT.length, &mut Tally::default()).unwrap();
    let (_, files) = saves(&save_records, &Plan::SHORT).unwrap();
    assert!(files.saved >= Plan::SHORT.files && files.saves_refused > 0);
    let (_, files) =
        loads(Entries { load: &records_of_file, save: &save_records, run: &run_records }, &Plan::SHORT).unwrap();
    assert!(files.loaded >= Plan::SHORT.loads && files.loads_refused > 0);
}

#[test]
fn wrong_answers_are_caught() {
    for (kind, wrong) in WRONG.iter().enumerate() {
        let entry = |requests: &[u8], answers: &mut [u8]| spoiled(kind, requests, answers);
        let Err(difference) = records(&entry, &Plan::SHORT) else { panic!("not caught: {}", wrong.name) };
        println!("{}: {difference}", wrong.name);
    }
}

#[test]
fn wrong_listings_are_caught() {
    for (kind, wrong) in WRONG_LISTINGS.iter().enumerate() {
        let console = |script: &[_]| spoiled_console(WRONG.len() + kind, &faultless, script);
        let run = console::run(&console, Plan::SHORT.script_seeds(), &mut Tally::default());
        let Err(difference) = run else { panic!("not caught: {}", wrong.name) };
        println!("{}: {difference}", wrong.name);
    }
}

#[test]
fn wrong_commands_are_caught() {
    for (kind, wrong) in WRONG_COMMANDS.iter().enumerate() {
        let console = |script: &[_]| spoiled_console(WRONG.len() + WRONG_LISTINGS.len() + kind, &faultless, script);
        for run in [
            console::run(&console, Plan::SHORT.script_seeds(), &mut Tally::default()),
            console::run_small(&console, Plan::SHORT.length, &mut Tally::default()).map(|_| ()),
        ] {
            let Err(difference) = run else { panic!("not caught: {}", wrong.name) };
            println!("{}: {difference}", wrong.name);
        }
    }
}

#[test]
fn wrong_saves_are_caught() {
    for (kind, wrong) in WRONG_SAVES.iter().enumerate() {
        let kind = WRONG.len() + WRONG_LISTINGS.len() + WRONG_COMMANDS.len() + kind;
        let save = |requests: &[u8], file: &mut [u8]| spoiled_save(kind, requests, file);
        let Err(difference) = saves(&save, &Plan::SHORT) else { panic!("not caught: {}", wrong.name) };
        println!("{}: {difference}", wrong.name);
    }
}

#[test]
fn wrong_loads_are_caught() {
    for (kind, wrong) in WRONG_LOADS.iter().enumerate() {
        let load = |file: &[u8], requests: &mut [u8]| spoiled_load(KINDS - WRONG_LOADS.len() + kind, file, requests);
        let entries = Entries { load: &load, save: &save_records, run: &run_records };
        let Err(difference) = loads(entries, &Plan::SHORT) else { panic!("not caught: {}", wrong.name) };
        println!("{}: {difference}", wrong.name);
    }
}

#[test]
fn careless_loads_are_caught() {
    for how in [Careless::RefusedEmpties, Careless::AcceptedKeeps, Careless::LinksBackwards, Careless::LoadsForOne] {
        let console = |script: &[_]| careless(how, script);
        for run in [
            console::run(&console, Plan::SHORT.script_seeds(), &mut Tally::default()),
            console::run_small(&console, Plan::SHORT.length, &mut Tally::default()).map(|_| ()),
        ] {
            let Err(difference) = run else { panic!("not caught: {how:?}") };
            println!("{how:?}: {difference}");
        }
    }
}
