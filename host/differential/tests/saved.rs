//! Saved files: by hand, at the limits, and over a file that is there.

use std::fs;
use std::process::{Command as Process, Stdio};

use differential::console::{faultless, program, written, Command};
use differential::files::Folder;
use driver::{Call, Random};

/// The same file from the program and from the second writer.
fn compared(script: &[Command]) -> usize {
    let expected = faultless(script).unwrap();
    let mut got = written(&program().unwrap(), script).unwrap();
    got.truncate(expected.len());
    assert_eq!(got, expected);
    expected.last().unwrap().len() - 1
}

fn add(incoming: u32, outgoing: u32) -> Command {
    Command::Call(Call::Add { incoming, outgoing })
}

fn link(a: u32, b: u32) -> Command {
    Command::Call(Call::Link { a, b })
}

/// What the program writes in a folder for these lines.
fn typed(folder: &Folder, lines: &str) -> Vec<String> {
    let mut process = Process::new(program().unwrap());
    let mut child = process.current_dir(folder.path()).stdin(Stdio::piped()).stdout(Stdio::piped()).spawn().unwrap();
    std::io::Write::write_all(&mut child.stdin.take().unwrap(), lines.as_bytes()).unwrap();
    let output = child.wait_with_output().unwrap();
    String::from_utf8(output.stdout).unwrap().lines().map(str::to_string).collect()
}

#[test]
fn by_hand() {
    let folder = Folder::new().unwrap();
    let lines = typed(&folder, "add 0 0\nadd 0 1\nadd 2 0\nremove 0\nlink 0 2\nlink 0 1\nlink 0 2\nsave kit\n");
    assert_eq!(lines.last().unwrap(), "ok 1024");
    let mut bytes = vec![1, 0, 2, 0, 0, 0, 1, 0, 0, 0, 0, 0, 2, 0, 0, 0, 0, 0, 0, 0];
    bytes.resize(508, 0);
    bytes.extend([3, 0, 3, 0]);
    bytes.extend([2, 0, 3, 0, 0, 0, 0, 0, 1, 0, 0, 0, 0, 0, 0, 0, 1, 0, 1, 0, 0, 0, 0, 0, 1, 0, 1, 0]);
    bytes.resize(1020, 0);
    bytes.extend([5, 0, 5, 0]);
    assert_eq!(fs::read(folder.path().join("kit")).unwrap(), bytes);
}

#[test]
fn at_the_limits() {
    assert_eq!(compared(&[Command::Save(0)]), 0);
    for (blocks, units) in [(1, 1), (63, 1), (64, 2), (126, 2), (127, 3), (512, 9), (1_024, 17)] {
        let mut script = vec![add(0, 0); blocks];
        script.push(Command::Save(0));
        assert_eq!(compared(&script), units);
    }
    let mut random = Random::new(1);
    for (wires, units) in [(63, 1), (64, 2), (1_024, 17)] {
        let mut outputs: Vec<u32> = (0..wires).collect();
        let mut script = vec![add(0, wires), add(wires, 0)];
        for input in 0..wires {
            let output = outputs.swap_remove(random.below(outputs.len() as u32) as usize);
            script.push(link(output, wires + input));
        }
        script.push(Command::Save(0));
        assert_eq!(compared(&script), 1 + units);
    }
    // The longest file: every node slot a block, every port slot wired. Pairs of blocks have 6 ports: an input and two outputs,
    // two inputs and an output.
    let mut script = [add(1, 2), add(2, 1)].repeat(512);
    for pair in 0..512 {
        let next = 6 * ((pair * 5 + 1) % 512);
        script.extend([link(6 * pair + 1, next + 4), link(6 * pair + 2, next + 3), link(6 * pair + 5, next)]);
    }
    script.push(Command::Save(0));
    assert_eq!(compared(&script), 42);
}

#[test]
fn one_output_many_inputs() {
    // The wires of one output come by offset and leave by input; two between the same ports stay two.
    let mut script = vec![add(0, 1), add(200, 0)];
    script.extend((0..200).rev().map(|input| link(0, 1 + input)));
    script.extend([link(0, 100), link(0, 100), Command::Save(0)]);
    assert_eq!(compared(&script), 1 + 4);
}

#[test]
fn over_a_file() {
    let folder = Folder::new().unwrap();
    fs::write(folder.path().join("kit"), vec![7; 5_000]).unwrap();
    assert_eq!(typed(&folder, "add 1 1\nsave kit\n"), ["ok 0 0", "ok 512"]);
    assert_eq!(fs::read(folder.path().join("kit")).unwrap().len(), 512);
    // An empty graph is no bytes.
    assert_eq!(typed(&folder, "save kit\nsave ./kit\r\n"), ["ok 0", "ok 0"]);
    assert_eq!(fs::read(folder.path().join("kit")).unwrap().len(), 0);
    assert_eq!(folder.names(), ["kit"]);
}

#[test]
fn not_written() {
    let folder = Folder::new().unwrap();
    fs::create_dir(folder.path().join("shelf")).unwrap();
    let lines = typed(&folder, "add 1 1\nsave nowhere/kit\nsave shelf\nsave shelf/kit\n");
    assert!(lines[1].starts_with("cannot write nowhere/kit  # "), "{lines:?}");
    assert!(lines[2].starts_with("cannot write shelf  # "), "{lines:?}");
    assert_eq!(lines[3], "ok 512");
    assert_eq!(folder.names(), ["shelf"]);
    assert_eq!(fs::read_dir(folder.path().join("shelf")).unwrap().count(), 1);
}

#[test]
fn names() {
    let folder = Folder::new().unwrap();
    let long = "n".repeat(255);
    let deep = "./".repeat(1_998) + "kit1";
    assert_eq!(deep.len(), 4_000);
    let lines = typed(&folder, &format!("save {long}\nsave {deep}\nsave x{deep}\nsave\nsave a b\n"));
    assert_eq!(lines[..2], ["ok 0", "ok 0"]);
    for (line, number) in lines[2..].iter().zip(3..) {
        assert!(line.starts_with(&format!("bad line {number}  # ")), "{line}");
    }
    assert_eq!(folder.names(), ["kit1".to_string(), long]);
}
