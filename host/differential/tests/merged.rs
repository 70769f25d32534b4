//! Merged files: wrong merges put in by hand are caught, each kind alone; and the program `wiring`, by hand.

use std::fs;
use std::io::Write;
use std::process::{Command as Process, Stdio};

use differential::console::{program, without_reason};
use differential::files::{mend, Folder, View};
use differential::loads::{given, records_of_file};
use differential::merges::merge_files;
use differential::runs::{merges, Plan};

type Merged = Result<usize, u32>;

/// A kind of wrong merge, and how it alters the answer and the buffer: `None` where it doesn't apply.
struct Wrong {
    name: &'static str,
    alter: fn(&[u8], &[u8], Merged, &mut [u8]) -> Option<Merged>,
}

/// The number by which a file is refused.
fn refused(file: &[u8]) -> Option<u32> {
    records_of_file(file, &mut vec![0; kanhtrev::LONGEST_LOAD]).err()
}

/// Alters the last wire of a result that has one.
fn last_wire(merged: Merged, buffer: &mut [u8], alter: fn(&mut [u8])) -> Option<Merged> {
    let unit = buffer[..merged.ok()?].chunks_exact_mut(512).last().filter(|unit| unit[0] == 2)?;
    let at = 4 + 8 * (usize::from(unit[2]) - 1);
    let before = unit.to_vec();
    alter(&mut unit[at..at + 8]);
    mend(unit);
    (unit != before).then_some(merged)
}

const WRONG: [Wrong; 10] = [
    Wrong {
        name: "the second file's refusal is told before the first's",
        alter: |first, second, merged, _| {
            let (one, two) = (refused(first)?, refused(second)?);
            (one != two && merged.is_err()).then_some(Err(if merged == Err(one) { two } else { one }))
        },
    },
    Wrong {
        name: "15 is told before 3 and 10",
        alter: |_, _, merged, buffer| (matches!(merged, Err(3 | 10)) && buffer.len() < 512).then_some(Err(15)),
    },
    Wrong {
        name: "ranks are raised at the source only",
        alter: |first, _, merged, buffer| {
            (!first.is_empty()).then_some(())?;
            last_wire(merged, buffer, |wire| wire[4..6].fill(0))
        },
    },
    Wrong {
        name: "positions are raised too",
        alter: |_, _, merged, buffer| last_wire(merged, buffer, |wire| wire[2] ^= 1),
    },
    Wrong {
        name: "the first is put behind the second",
        alter: |first, second, merged, buffer| {
            let before = buffer.to_vec();
            merged.ok()?;
            let swapped = merge_files(second, first, buffer);
            (before != buffer).then_some(swapped)
        },
    },
    Wrong {
        name: "the result is not loaded",
        alter: |first, second, merged, _| {
            (merged == Err(10) && refused(first).is_none() && refused(second).is_none()).then_some(Ok(0))
        },
    },
    Wrong {
        name: "a refused merge clears the buffer",
        alter: |_, _, merged, buffer| {
            (merged.is_err() && !buffer.is_empty()).then(|| buffer.fill(0))?;
            Some(merged)
        },
    },
    Wrong {
        name: "what stands past the result is cleared",
        alter: |_, _, merged, buffer| {
            let rest = &mut buffer[merged.ok()?..];
            (!rest.is_empty()).then(|| rest.fill(0))?;
            Some(merged)
        },
    },
    Wrong {
        name: "a file of no bytes is refused",
        alter: |first, second, merged, _| {
            ((first.is_empty() || second.is_empty()) && merged.is_ok()).then_some(Err(17))
        },
    },
    Wrong {
        name: "a short buffer is filled as far as it goes",
        alter: |_, _, merged, buffer| {
            (merged == Err(15)).then_some(())?;
            *buffer.first_mut()? = 1;
            Some(merged)
        },
    },
];

#[test]
fn nothing_wrong() {
    let (_, files) = merges(&merge_files, &Plan::SHORT).unwrap();
    assert!(files.merged >= Plan::SHORT.pairs && files.merges_refused > 0);
}

#[test]
fn wrong_merges_are_caught() {
    for wrong in WRONG {
        let entry = |first: &[u8], second: &[u8], buffer: &mut [u8]| {
            let merged = merge_files(first, second, buffer);
            (wrong.alter)(first, second, merged, buffer).unwrap_or(merged)
        };
        let Err(difference) = merges(&entry, &Plan::SHORT) else { panic!("not caught: {}", wrong.name) };
        println!("{}: {difference}", wrong.name);
    }
}

/// What the program writes in a folder for these lines, without the reasons.
fn typed(folder: &Folder, lines: &str) -> Vec<String> {
    let mut process = Process::new(program().unwrap());
    let mut child = process.current_dir(folder.path()).stdin(Stdio::piped()).stdout(Stdio::piped()).spawn().unwrap();
    child.stdin.take().unwrap().write_all(lines.as_bytes()).unwrap();
    let output = child.wait_with_output().unwrap();
    String::from_utf8(output.stdout).unwrap().lines().map(|line| without_reason(line).to_string()).collect()
}

#[test]
fn by_hand() {
    let folder = Folder::new().unwrap();
    let read = |name| fs::read(folder.path().join(name)).unwrap();
    // The wiring in hand stays, and so do the two files.
    let lines = typed(
        &folder,
        "add 0 1\nadd 1 0\nlink 0 1\nsave steering\nnew 2\nadd 1 1\nlink 1 0\nsave sprayer\nmerge steering sprayer both\ncounts\nload both\nplaces\n",
    );
    assert_eq!(
        lines[3..],
        [
            "ok 1024",
            "ok",
            "ok 0 0",
            "ok 1 0 0 0",
            "ok 1024",
            "ok 1024",
            "ok 1 2 1",
            "ok",
            "  0 0 0 1 0 0",
            "  2 0 0 2 0 0",
            "ok 2"
        ]
    );
    let both = View { blocks: vec![[0, 1], [1, 0], [1, 1]], wires: vec![[0, 0, 1, 0], [2, 0, 2, 0]] };
    assert_eq!(read("both"), both.file());
    // Into one of the two, and with a file of no bytes.
    folder.put("none", &[]).unwrap();
    let lines = typed(&folder, "merge none both same\n merge\tboth none none\r\nmerge steering steering steering\n");
    assert_eq!(lines, ["ok 1024", "ok 1024", "ok 1024"]);
    assert!([read("same"), read("none")].iter().all(|file| *file == both.file()));
    assert_eq!(read("steering").len(), 1_024);
    assert_eq!(folder.names(), ["both", "none", "same", "sprayer", "steering"]);
}

#[test]
fn refused_by_hand() {
    let folder = Folder::new().unwrap();
    for (number, name) in ["fine", "sum", "layout", "wide", "large"].iter().enumerate() {
        folder.put(name, &given(number as u32)).unwrap();
    }
    folder.put("kept", &[7; 9]).unwrap();
    let refusals = [
        ("sum layout", 16),
        ("layout sum", 17),
        ("fine sum", 16),
        ("wide sum", 16),
        ("large layout", 17),
        ("wide large", 3),
        ("large wide", 10),
        ("fine wide", 3),
        ("fine large", 10),
    ];
    for (names, refusal) in refusals {
        assert_eq!(typed(&folder, &format!("merge {names} kept\n")), [format!("refused {refusal}")], "{names}");
    }
    // Each loads, and both have no room together.
    folder.put("half", &View { blocks: vec![[1_024, 0], [1_023, 0]], wires: vec![] }.file()).unwrap();
    assert_eq!(typed(&folder, "merge half half kept\n"), ["refused 10"]);
    let lines = typed(&folder, "merge gone fine kept\nmerge fine gone kept\nmerge fine fine shelf/kept\nmerge fine fine\nmerge fine fine a b\n");
    let cannot = ["cannot read gone", "cannot read gone", "cannot write shelf/kept", "bad line 4", "bad line 5"];
    assert_eq!(lines, cannot);
    assert_eq!(fs::read(folder.path().join("kept")).unwrap(), [7; 9]);
}
