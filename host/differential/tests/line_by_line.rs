//! The program `wiring`, driven through pipes as a person drives it: each answer is read before the next line is written.

use std::fs::File;
use std::io::{BufRead, BufReader, Read, Write};
use std::process::{Child, ChildStdin, ChildStdout, Command, Stdio};

use differential::console::{program, without_reason};

/// A console with both its pipes.
struct Typed {
    child: Child,
    keys: ChildStdin,
    screen: BufReader<ChildStdout>,
}

impl Typed {
    fn start(arguments: &[&str]) -> Typed {
        let mut child = Command::new(program().unwrap())
            .args(arguments)
            .stdin(Stdio::piped())
            .stdout(Stdio::piped())
            .spawn()
            .unwrap();
        let keys = child.stdin.take().unwrap();
        let screen = BufReader::new(child.stdout.take().unwrap());
        Typed { child, keys, screen }
    }

    fn line(&mut self) -> String {
        let mut line = String::new();
        self.screen.read_line(&mut line).unwrap();
        without_reason(line.trim_end_matches('\n')).to_string()
    }

    /// Types bytes, and reads so many lines before anything else is typed.
    fn asks(&mut self, typed: &[u8], lines: usize) -> Vec<String> {
        self.keys.write_all(typed).unwrap();
        (0..lines).map(|_| self.line()).collect()
    }

    /// Closes the input and reads what is left.
    fn rest(mut self) -> String {
        drop(self.keys);
        let mut rest = String::new();
        self.screen.read_to_string(&mut rest).unwrap();
        self.child.wait().unwrap();
        rest
    }
}

/// What the program writes for a whole input.
fn run(arguments: &[&str], input: &[u8]) -> String {
    let mut typed = Typed::start(arguments);
    let mut screen = typed.screen;
    let input = input.to_vec();
    let typing = std::thread::spawn(move || _ = typed.keys.write_all(&input));
    let mut text = String::new();
    screen.read_to_string(&mut text).unwrap();
    typing.join().unwrap();
    typed.child.wait().unwrap();
    text
}

#[test]
fn each_line_is_answered_before_the_next_is_typed() {
    let mut typed = Typed::start(&[]);
    assert_eq!(typed.asks(b"add 0 1\n", 1), ["ok 0 0"]);
    assert_eq!(typed.asks(b"add 2 0\n", 1), ["ok 1 1"]);
    assert_eq!(typed.asks(b"link 0 1\n", 1), ["ok 0 0 1 0"]);
    assert_eq!(typed.asks(b"link 0 2\n", 1), ["ok 0 1 2 0"]);
    assert_eq!(typed.asks(b"wires\n", 3), ["  0 0 1 0 1 0 0", "  0 1 2 0 1 0 1", "ok 2"]);
    assert_eq!(typed.asks(b"unlinksub 0 1\n", 1), ["ok 1 2 0 1 0 1"]);
    assert_eq!(typed.asks(b"link 1 2\n", 1)[0].split(' ').next(), Some("refused"));
    assert_eq!(typed.asks(b"wires\n", 2), ["  0 0 1 0 1 0 0", "ok 1"]);
    assert_eq!(typed.rest(), "");
}

#[test]
fn a_line_may_come_in_pieces_and_lines_together() {
    let mut typed = Typed::start(&[]);
    assert!(typed.asks(b"ad", 0).is_empty());
    assert!(typed.asks(b"d 0 ", 0).is_empty());
    assert_eq!(typed.asks(b"1\nadd 1 0\nbl", 2), ["ok 0 0", "ok 1 1"]);
    assert_eq!(typed.asks(b"ocks\n", 3), ["  0", "  1", "ok 2"]);
    assert_eq!(typed.rest(), "");
}

#[test]
fn every_refusal_and_bad_line_says_why() {
    let text = run(&[], b"add 512 513\nremove 7\nlink 9 0\nfoo\nadd 1\nadd x 1\nsubports 0 3\nneighbours 0 1 2\nsublink 0 65535\n");
    for line in text.lines() {
        let (answer, reason) = line.split_once("  # ").unwrap();
        assert!(answer.starts_with("refused ") || answer.starts_with("bad line "), "{line}");
        assert!(!reason.is_empty());
    }
    assert_eq!(text.lines().map(without_reason).collect::<Vec<_>>(), [
        "refused 3", "refused 4", "refused 7 9", "bad line 4", "bad line 5", "bad line 6", "bad line 7", "bad line 8", "refused 2",
    ]);
}

#[test]
fn a_sheet_is_one_line() {
    let start = "add 0 1\nadd 2 0\n";
    let lines = |text: &str| run(&[], format!("{start}{text}").as_bytes()).lines().skip(2).map(without_reason).map(str::to_string).collect::<Vec<_>>();
    assert_eq!(lines("sheet 0 1 1 2 9 0 0 2\ncounts\n"), [
        "  ok 0 0 1 0", "  refused 12 4 2 0", "  refused 7 9", "  ok 0 1 2 0", "ok 4", "ok 2 3 2",
    ]);
    assert_eq!(lines("sheet\n  sheet \t\r\nsheet 0 1 2\nsheet 0 x\ncounts\n"), ["ok 0", "ok 0", "bad line 5", "bad line 6", "ok 2 3 0"]);
    let long = lines(&format!("sheet{}\ncounts\n", " 0 1".repeat(64)));
    assert_eq!((long.len(), long[63].as_str(), long[64].as_str(), long[65].as_str()), (66, "  ok 0 63 1 63", "ok 64", "ok 2 3 64"));
    // As many as a line can hold: 65,536 bytes.
    for pairs in [65, 66, 1_000, 16_382] {
        assert_eq!(lines(&format!("sheet{}\ncounts\n", " 0 1".repeat(pairs))), ["refused 14", "ok 2 3 0"]);
    }
    assert_eq!(lines(&format!("sheet{}\ncounts\n", " 0".repeat(32_765))), ["bad line 3", "ok 2 3 0"]);
    let said = run(&[], format!("sheet{}\n", " 0 1".repeat(65)).as_bytes());
    assert!(said.starts_with("refused 14  # "));
}

#[test]
fn tabs_returns_comments_and_a_last_line_without_newline() {
    assert_eq!(run(&[], b"\tadd\t0  1 \r\n\r\n  # add 1 1\n \t\nblocks\t\r\nadd 00 01"), "ok 0 0\n  0\nok 1\nok 1 1\n");
    assert_eq!(run(&[], b""), "");
    assert_eq!(run(&[], b"\n\n# nothing\n"), "");
}

#[test]
fn quit_ends_and_what_follows_is_not_run() {
    assert_eq!(run(&[], b"add 0 1\nquit\nadd 0 1\nblocks\n"), "ok 0 0\n");
    let bad = run(&[], b"quit 1\nblocks\n");
    assert_eq!(bad.lines().map(without_reason).collect::<Vec<_>>(), ["bad line 1", "ok 0"]);
}

#[test]
fn a_line_has_at_most_65536_bytes() {
    let filled = |length: usize| [b"counts".to_vec(), vec![b' '; length - 6], b"\n".to_vec()].concat();
    let text = run(&[], &[filled(65536), filled(65537), filled(200_000), b"counts\n".to_vec()].concat());
    let lines: Vec<_> = text.lines().map(without_reason).collect();
    assert_eq!(lines, ["ok 0 0 0", "bad line 2", "bad line 3", "ok 0 0 0"]);
}

#[test]
fn an_input_has_no_limit() {
    let lines = 300_000;
    let text = run(&[], "counts 1\ncounts\n".repeat(lines / 2).as_bytes());
    assert_eq!(text.lines().count(), lines);
    assert_eq!(text.lines().map(without_reason).nth(lines - 2), Some("bad line 299999"));
}

#[test]
fn arguments() {
    assert_eq!(run(&["--echo"], b"add 0 1\n\n# no\n  blocks\n"), "> add 0 1\nok 0 0\n>   blocks\n  0\nok 1\n");
    let usage = run(&["--help"], b"add 0 1\n");
    assert!(usage.contains("--echo") && !usage.contains("ok"));
    assert_eq!(run(&["--nonsense"], b"add 0 1\n"), usage);
    assert_eq!(run(&["--echo", "--nonsense"], b"add 0 1\n"), usage);
}

#[test]
fn an_input_that_cannot_be_read_is_said() {
    let directory = File::open(env!("CARGO_MANIFEST_DIR")).unwrap();
    let output = Command::new(program().unwrap()).stdin(directory).output().unwrap();
    assert_eq!(String::from_utf8(output.stdout).unwrap(), "cannot read the input\n");
}

/// The answers to lines, without their reasons.
fn answers(lines: &[&str]) -> Vec<String> {
    let text = run(&[], (lines.join("\n") + "\n").as_bytes());
    text.lines().map(|line| without_reason(line).to_string()).collect()
}

#[test]
fn a_refused_clean_link_leaves_nothing() {
    // Two inputs, of which one is wired: the ports as named, and no subport.
    let a = ["add 0 1", "add 2 0", "link 0 1"];
    let inputs = [&a[..], &["linkclean 1 2", "subports 1 2", "counts"]].concat();
    assert_eq!(answers(&inputs)[3..], ["refused 12 1 2 0", "  1 0", "  2 0", "ok 2", "ok 2 3 1"]);
    // The hidden node of port 0 would come to stand where port 3 is dead.
    let dead = [&a[..], &["linkclean 0 3", "subports 0 2", "linkclean 0 2"]].concat();
    assert_eq!(answers(&dead)[3..], ["refused 11 3", "  0 0", "ok 1", "ok 0 1 2 0"]);
    assert_eq!(answers(&["add 0 1", "add 2 0", "linkclean 0 0"])[2..], ["refused 12 0 0 1"]);
    // A port of the hidden node, first and second.
    let hidden = [&a[..], &["link 0 2", "linkclean 4 1", "linkclean 1 4", "linkclean 9 4"]].concat();
    assert_eq!(answers(&hidden)[4..], ["refused 8 4", "refused 8 4", "refused 7 9"]);
}

#[test]
fn a_clean_link_tells_no_room_last() {
    let full = ["add 0 1", "add 2 0", "link 0 1", "add 512 512", "add 512 512", "add 512 509"];
    let told = ["link 1 2", "linkclean 1 2", "link 0 9999", "linkclean 0 9999", "link 0 2", "linkclean 0 2", "counts"];
    let lines = [&full[..], &told].concat();
    assert_eq!(
        answers(&lines)[6..],
        ["refused 10", "refused 12 1 2 0", "refused 10", "refused 11 9999", "refused 10", "refused 10", "ok 5 3072 1"]
    );
    // Port 0 has two wires, ports 3 and 4 one each, and four slots are left: the block of 3 that the first end frees serves
    // the second.
    let small = ["add 0 1", "add 2 0", "add 0 1", "add 1 0", "link 0 1", "link 0 2", "link 3 4"];
    let start = [&small[..], &["add 512 512", "add 512 512", "add 512 500"]].concat();
    let one = [&start[..], &["counts", "linkclean 0 4"]].concat();
    let other = [&start[..], &["counts", "linkclean 4 0"]].concat();
    assert_eq!(answers(&one)[10..], ["ok 7 3065 3", "ok 0 2 4 1"]);
    assert_eq!(answers(&other)[10..], ["ok 7 3065 3", "refused 10"]);
}
