//! Loaded files in the program `wiring`: by hand, refused, and what cannot be read.

use std::fs;
use std::io::Write;
use std::process::{Command as Process, Stdio};

use differential::console::{program, without_reason};
use differential::files::{Folder, View};
use differential::loads::given;

/// What the program writes in a folder for these lines, without the reasons, which must be there where one is due.
fn typed(folder: &Folder, lines: &str) -> Vec<String> {
    let mut process = Process::new(program().unwrap());
    let mut child = process.current_dir(folder.path()).stdin(Stdio::piped()).stdout(Stdio::piped()).spawn().unwrap();
    child.stdin.take().unwrap().write_all(lines.as_bytes()).unwrap();
    let output = child.wait_with_output().unwrap();
    let said = |line: &str| {
        let answer = without_reason(line);
        let due = ["refused", "bad line", "cannot"].iter().any(|word| answer.starts_with(word));
        assert_eq!(due, line.len() > answer.len() + 4, "a reason: {line}");
        answer.to_string()
    };
    String::from_utf8(output.stdout).unwrap().lines().map(said).collect()
}

/// A wire in hand, then this line, then what is in hand.
fn after_a_wire(folder: &Folder, line: &str) -> Vec<String> {
    let lines = typed(folder, &format!("add 0 1\nadd 1 0\nlink 0 1\n{line}\nwires\ncounts\n"));
    assert_eq!(lines[..3], ["ok 0 0", "ok 1 1", "ok 0 0 1 0"]);
    lines[3..].to_vec()
}

const STAYS: [&str; 3] = ["  0 0 1 0 1 0 0", "ok 1", "ok 2 2 1"];

#[test]
fn by_hand() {
    let folder = Folder::new().unwrap();
    // Numbers and offsets are those of the file's order, whatever they were when it was saved.
    let before = typed(&folder, "add 0 0\nadd 0 1\nadd 2 0\nremove 0\nlink 0 2\nlink 0 1\nplaces\nsave kit\n");
    assert_eq!(before[6..], ["  1 0 0 2 1 0", "  1 0 1 2 0 0", "ok 2", "ok 1024"]);
    let after = typed(&folder, "load kit\nplaces\nblocks\nwires\ncounts\nsave again\n");
    assert_eq!(after[..7], ["ok", "  0 0 0 1 0 0", "  0 0 1 1 1 0", "ok 2", "  0", "  1", "ok 2"]);
    assert_eq!(after[7..], ["  0 0 1 0 1 0 0", "  0 1 2 0 1 0 1", "ok 2", "ok 2 3 2", "ok 1024"]);
    let read = |name| fs::read(folder.path().join(name)).unwrap();
    assert_eq!(read("kit"), read("again"));
    // More calls may follow, and another load. Node 2 and ports 3 to 5 are hidden.
    let more = typed(&folder, "add 5 5\nload kit\nadd 1 1\nlink 7 1\ncounts\n load\t./kit\r\ncounts\n");
    assert_eq!(more, ["ok 0 0", "ok", "ok 3 6", "ok 7 0 1 1", "ok 3 5 3", "ok", "ok 2 3 2"]);
    assert_eq!(folder.names(), ["again", "kit"]);
}

#[test]
fn refused() {
    let folder = Folder::new().unwrap();
    for (number, refusal) in [(1, 16), (2, 17), (3, 3), (4, 10)] {
        folder.put("kit", &given(number)).unwrap();
        assert_eq!(after_a_wire(&folder, "load kit"), [&[format!("refused {refusal}").as_str()][..], &STAYS].concat());
    }
    // Cut within a unit, cut between units, and nothing at all.
    let kit = given(0);
    folder.put("kit", &kit[..1_000]).unwrap();
    assert_eq!(after_a_wire(&folder, "load kit"), [&["refused 16"][..], &STAYS].concat());
    folder.put("kit", &kit[..512]).unwrap();
    assert_eq!(after_a_wire(&folder, "load kit"), ["ok", "ok 0", "ok 2 3 0"]);
    folder.put("kit", &[]).unwrap();
    assert_eq!(after_a_wire(&folder, "load kit"), ["ok", "ok 0", "ok 0 0 0"]);
    // What is refused was not changed.
    folder.put("kit", &given(1)).unwrap();
    typed(&folder, "load kit\n");
    assert_eq!(fs::read(folder.path().join("kit")).unwrap(), given(1));
}

#[test]
fn cannot_be_read() {
    let folder = Folder::new().unwrap();
    fs::create_dir(folder.path().join("shelf")).unwrap();
    // As long as may be, and longer.
    folder.put("zeros", &[0; 65_536]).unwrap();
    folder.put("blocks", &View { blocks: vec![[0, 0]; 128 * 63], wires: vec![] }.file()).unwrap();
    folder.put("byte-more", &[0; 65_537]).unwrap();
    folder.put("unit-more", &[0; 65_536 + 512]).unwrap();
    folder.put("much-more", &[0; 1_000_000]).unwrap();
    assert_eq!(after_a_wire(&folder, "load zeros"), [&["refused 17"][..], &STAYS].concat());
    assert_eq!(after_a_wire(&folder, "load blocks"), [&["refused 10"][..], &STAYS].concat());
    for name in ["nothing", "nowhere/kit", "shelf", "byte-more", "unit-more", "much-more"] {
        let said = after_a_wire(&folder, &format!("load {name}"));
        assert_eq!(said, [&[format!("cannot read {name}").as_str()][..], &STAYS].concat());
    }
}

#[test]
fn names() {
    let folder = Folder::new().unwrap();
    let long = "n".repeat(255);
    let deep = "./".repeat(1_998) + "kit1";
    assert_eq!(deep.len(), 4_000);
    folder.put(&long, &given(0)).unwrap();
    folder.put("kit1", &given(0)).unwrap();
    let lines = typed(&folder, &format!("load {long}\nload {deep}\nload x{deep}\nload\nload kit1 kit1\ncounts\n"));
    assert_eq!(lines, ["ok", "ok", "bad line 3", "bad line 4", "bad line 5", "ok 2 3 2"]);
}
