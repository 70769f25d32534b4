//! What a call takes on a sketch of 1,000 blocks and 3,000 wires, by the program and in plain Rust.

use std::hint::black_box;
use std::path::Path;
use std::thread;
use std::time::{Duration, Instant};

use crate::pair::Port;
use crate::plain::Plain;
use crate::program::Program;

const BLOCKS: u32 = 1_000;

/// The wires: from each block to three others.
fn wires() -> impl Iterator<Item = (Port, Port)> {
    (0..BLOCKS).flat_map(|block| {
        [(0, 1), (1, 7), (0, 13)].map(|(output, further)| {
            let into = (block + further) % BLOCKS;
            (Port { block, side: 1, position: output }, Port { block: into, side: 0, position: 0 })
        })
    })
}

fn text(port: Port) -> String {
    format!("{} {} {}", port.block, port.side, port.position)
}

/// Gives lines to the program, and the time until the last is answered.
fn run(program: &mut Program, lines: &[String]) -> Result<Duration, String> {
    let start = Instant::now();
    // a few lines at a time, so that neither pipe fills up
    for part in lines.chunks(64) {
        for line in part {
            program.tell(line)?;
        }
        program.flush()?;
        for line in part {
            program.hear().map_err(|error| format!("{line}: {error}"))?;
        }
    }
    Ok(start.elapsed())
}

fn built(path: &Path) -> Result<Program, String> {
    let mut program = Program::start(path)?;
    let adds: Vec<String> = (0..BLOCKS).map(|_| "add 1 2".to_string()).collect();
    let links: Vec<String> = wires().map(|(x, y)| format!("link {} {}", text(x), text(y))).collect();
    run(&mut program, &adds)?;
    run(&mut program, &links)?;
    Ok(program)
}

fn plain_built() -> Plain {
    let mut plain = Plain::new(false);
    for _ in 0..BLOCKS {
        let _ = plain.add([1, 2]);
    }
    for (x, y) in wires() {
        let _ = plain.link(x, y, false);
    }
    plain
}

/// One kind of call: its lines for the program, which leave the sketch as it was, and the same in plain Rust.
struct Kind {
    name: &'static str,
    line: fn(u32) -> Vec<String>,
    plain: fn(&mut Plain, u32),
}

fn place(n: u32) -> (Port, Port) {
    let block = n % BLOCKS;
    (Port { block, side: 1, position: 1 }, Port { block: (block + 500) % BLOCKS, side: 0, position: 0 })
}

/// A value that must be computed, and is of no use.
fn seen<T>(value: T) {
    black_box(value);
}

const KINDS: [Kind; 8] = [
    Kind {
        name: "link, unlinksub",
        line: |n| {
            let (x, y) = place(n);
            vec![format!("link {} {}", text(x), text(y)), format!("unlinksub {} 1", text(x))]
        },
        plain: |plain, n| {
            let (x, y) = place(n);
            let _ = plain.link(x, y, false);
            let _ = plain.cut_end((x, 1));
        },
    },
    Kind {
        name: "linksub (refused 13)",
        line: |n| {
            let (x, y) = place(n);
            vec![format!("linksub {} 0 {} 0", text(x), text(y))]
        },
        plain: |plain, n| {
            let (x, y) = place(n);
            seen(plain.link_ends((x, 0), (y, 0)));
        },
    },
    Kind {
        name: "sublink",
        line: |n| vec![format!("sublink {} 0", text(place(n).0))],
        plain: |plain, n| seen(plain.end_link((place(n).0, 0))),
    },
    Kind {
        name: "tidy",
        line: |n| vec![format!("tidy {}", text(place(n).1))],
        plain: |plain, n| seen(plain.tidy(place(n).1)),
    },
    Kind {
        name: "add, remove",
        line: |n| vec!["add 0 1".to_string(), format!("remove {}", BLOCKS + n)],
        plain: |plain, _| {
            let name = plain.add([0, 1]).unwrap_or(0);
            let _ = plain.remove(name);
        },
    },
    Kind {
        name: "resize",
        line: |n| vec![format!("resize {} 1 2", n % BLOCKS)],
        plain: |plain, n| seen(plain.resize(n % BLOCKS, [1, 2])),
    },
    Kind {
        name: "fanout",
        line: |n| vec![format!("fanout {}", text(place(n).0))],
        plain: |plain, n| seen(plain.fan_out(place(n).0)),
    },
    Kind { name: "counts", line: |_| vec!["counts".to_string()], plain: |plain, _| seen(plain.counts()) },
];

/// A table: for each kind the microseconds of a call, by the program with its line and in plain Rust, and the longest of both.
pub fn table(path: &Path, calls: u32) -> Result<Vec<String>, String> {
    let mut program = built(path)?;
    let mut plain = thread::spawn(plain_built).join().map_err(|_| "the plain sketch could not be built")?;
    let mut lines = vec!["| call | program, with its line | plain Rust |".to_string(), "|---|---|---|".to_string()];
    for kind in KINDS {
        let asked: Vec<String> = (0..calls).flat_map(kind.line).collect();
        let by_program = run(&mut program, &asked)?.as_secs_f64() / asked.len() as f64;
        let start = Instant::now();
        (0..calls).for_each(|n| (kind.plain)(&mut plain, n));
        let by_plain = start.elapsed().as_secs_f64() / asked.len() as f64;
        lines.push(format!("| {} | {:.1} µs | {:.1} µs |", kind.name, by_program * 1e6, by_plain * 1e6));
    }
    Ok(lines)
}
