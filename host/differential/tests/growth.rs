//! The benchmark's graphs of growing size: the port answers as the original does, nothing is refused, and a turn leaves the
//! graph as it found it, so that every turn after the first gets the same answers.

use differential::compare::run_records;
use differential::growth::tables;
use differential::plain;

#[test]
fn every_turn_is_answered_alike() {
    for (name, case) in tables()
        .into_iter()
        .flat_map(|table| table.rows)
        .flat_map(|(name, cases)| cases.into_iter().map(move |case| (name, case)))
    {
        let requests = case.requests(3);
        let (mut ours, mut theirs) = (vec![0; requests.len()], vec![0; requests.len()]);
        assert_eq!(run_records(&requests, &mut ours), 0);
        plain::run(&requests, &mut theirs);
        assert!(ours == theirs, "{name}: other answers than the original's");
        assert!(ours.chunks_exact(20).all(|answer| answer[0] == 0), "{name}: a refusal");
        let turns: Vec<_> = ours.rchunks_exact(20 * case.calls()).take(2).collect();
        assert_eq!(turns[0], turns[1], "{name}: another answer in the next turn");
    }
}
