//! Views: a short run finds nothing, and wrong views put in by hand are caught, each kind alone.

use differential::runs::{views, Plan};
use differential::views::{spoiled_view, view_of, view_of_records, WRONG_VIEWS};
use driver::{to_bytes, Call, Oracle};

#[test]
fn nothing_wrong() {
    let (_, tally) = views(&view_of_records, &Plan::SHORT).unwrap();
    assert!(tally.viewed >= Plan::SHORT.views && tally.views_refused > 0);
}

#[test]
fn wrong_views_are_caught() {
    for (kind, wrong) in WRONG_VIEWS.iter().enumerate() {
        let entry = |requests: &[u8], view: &mut [u8]| spoiled_view(kind, requests, view);
        let Err(difference) = views(&entry, &Plan::SHORT) else { panic!("not caught: {}", wrong.name) };
        println!("{}: {difference}", wrong.name);
    }
}

/// The view of a small wiring, by hand: two blocks, the second with new port numbers after a resize.
#[test]
fn by_hand() {
    let calls = [
        Call::Add { incoming: 0, outgoing: 1 },
        Call::Add { incoming: 2, outgoing: 0 },
        Call::Link { a: 0, b: 2 },
        Call::Link { a: 0, b: 2 },
        Call::Resize { node: 1, incoming: 3, outgoing: 0 },
    ];
    let records: Vec<_> = calls.iter().map(|call| call.to_record()).collect();
    let mut oracle = Oracle::new();
    for call in calls {
        oracle.ask(call);
    }
    let mut view = vec![0; kanhtrev::LONGEST_VIEW];
    let length = view_of_records(&to_bytes(&records), &mut view).unwrap();
    assert_eq!(view[..length], view_of(&oracle));
    let word = |bytes: &[u8]| u32::from_le_bytes(bytes.try_into().unwrap());
    let words: Vec<u32> = view[..length].chunks_exact(4).map(word).collect();
    // the two hidden nodes took port slots 3 to 8 before the resize
    assert_eq!(words[..10], [2, 2, 0, 0, 1, 0, 1, 3, 0, 9]);
    assert_eq!(words[10..18], [0, 0, 0, 0, 10, 0, 1, 1]);
    assert_eq!(words[18..], [0, 1, 0, 0, 10, 1, 1, 1]);
}
