//! Questions of times along wires: a console that is right passes, and each way to be wrong is caught.

use differential::tally::Tally;
use differential::timing::{by_entries, imagined, run, run_small, Wrong, TIMED};

fn asked(wrong: Option<Wrong>) -> Result<Tally, String> {
    let mut tally = Tally::default();
    let answers = |script: &_| Ok(imagined(script, wrong));
    run(&answers, true, 1..150, &mut tally)?;
    run_small(&answers, true, &mut tally)?;
    Ok(tally)
}

#[test]
fn right_answers_pass() {
    let tally = asked(None).unwrap();
    let missing: Vec<_> = TIMED.into_iter().filter(|kind| !tally.lists(kind)).collect();
    assert!(missing.is_empty(), "never asked: {missing:?}");
}

#[test]
fn the_entries_pass() {
    let mut tally = Tally::default();
    run(&by_entries, false, 1..150, &mut tally).unwrap();
    run_small(&by_entries, false, &mut tally).unwrap();
    assert!(tally.lists("path") && tally.lists("longest beyond a cycle") && !tally.lists("runorder, yes"));
}

#[test]
fn wrong_answers_are_caught() {
    for wrong in Wrong::ALL {
        assert!(asked(Some(wrong)).is_err(), "{wrong:?} was not caught");
    }
}
