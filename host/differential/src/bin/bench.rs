//! The port beside the Rust original, in one process, by turns: the tables of `docs/SPEED.md`.
//!
//! `bench SIDE LIST TIMES` only runs a list so often: the benchmark runs itself so under valgrind, which counts.

use std::env;
use std::hint::black_box;
use std::process::Command;
use std::time::Instant;

use differential::compare::run_records;
use differential::growth::{tables, Case, Table};
use differential::lists::{benchmark, to_save, List, LISTS, SAVED};
use differential::loads::records_of_file;
use differential::saves::save_records;
use differential::{plain, plain_files};
use driver::{Call, Graph};
use portgraph::{Direction, LinkView, PortView};

const CALLS: usize = 2_000;
const ROUNDS: usize = 40;

type Run = fn(&[u8], &mut [u8]);

fn port(requests: &[u8], answers: &mut [u8]) {
    assert_eq!(run_records(black_box(requests), answers), 0);
}

fn rust(requests: &[u8], answers: &mut [u8]) {
    black_box(plain::run(black_box(requests), answers));
}

/// The least time of each of some runs, in nanoseconds, given by turns.
fn least<const RUNS: usize>(mut runs: [&mut dyn FnMut(); RUNS]) -> [f64; RUNS] {
    let mut best = [f64::MAX; RUNS];
    for _ in 0..ROUNDS {
        for (run, best) in runs.iter_mut().zip(&mut best) {
            let start = Instant::now();
            run();
            *best = best.min(start.elapsed().as_nanos() as f64);
        }
    }
    best
}

/// The least time a call of two ways to run a list, by turns; both must give the recorded answers.
fn a_call(list: &List, one: Run, other: Run) -> [f64; 2] {
    let (mut ours, mut theirs) = (list.answers.clone(), list.answers.clone());
    let times = least([&mut || one(&list.requests, &mut ours), &mut || other(&list.requests, &mut theirs)]);
    assert!(ours == list.answers && theirs == list.answers, "{}: other answers than recorded", list.name);
    times.map(|time| time / CALLS as f64)
}

/// Instructions of this program with these words, by valgrind's callgrind; none where valgrind isn't there.
fn instructions(words: [&str; 3]) -> Option<u64> {
    let program = env::current_exe().expect("the program's own path");
    let run = Command::new("valgrind")
        .args(["--tool=callgrind", "--callgrind-out-file=/dev/null"])
        .arg(program)
        .args(words)
        .output()
        .ok()?;
    let said = String::from_utf8_lossy(&run.stderr);
    said.split("Collected : ").nth(1)?.split_whitespace().next()?.parse().ok()
}

/// Instructions of a run: a list is run once and three times, and the difference counted, so that drawing it doesn't count.
fn instructions_a_run(side: &str, list: usize) -> Option<f64> {
    let number = list.to_string();
    let [once, thrice] = ["1", "3"].map(|times| instructions([side, &number, times]));
    Some((thrice? as f64 - once? as f64) / 2.0)
}

/// Instructions a call.
fn instructions_a_call(side: &str, list: usize) -> Option<f64> {
    Some(instructions_a_run(side, list)? / CALLS as f64)
}

fn the_entry() {
    println!(
        "| List | ns a call | Rust, ns | ratio | instructions a call | Rust | ratio |\n|---|---|---|---|---|---|---|"
    );
    for number in 0..LISTS {
        let list = benchmark(number, CALLS);
        let [ours, theirs] = a_call(&list, port, rust);
        print!("| {} | {ours:.1} | {theirs:.1} | {:.2} |", list.name, ours / theirs);
        match (instructions_a_call("port", number), instructions_a_call("rust", number)) {
            (Some(ours), Some(theirs)) => println!(" {ours:.0} | {theirs:.0} | {:.2} |", ours / theirs),
            _ => println!(" no valgrind | | |"),
        }
    }
}

/// The requests that build a graph anew: its blocks, then its wires as they are listed. They leave the same file.
fn rebuilt(graph: &Graph) -> Vec<u8> {
    let mut calls = Vec::new();
    let (mut first, mut ports) = (Vec::new(), 0);
    for node in graph.nodes_iter() {
        let (incoming, outgoing) = (graph.num_inputs(node) as u32, graph.num_outputs(node) as u32);
        calls.push(Call::Add { incoming, outgoing });
        first.resize(node.index() + 1, 0);
        first[node.index()] = ports;
        ports += incoming + outgoing;
    }
    let anew = |port| {
        let node = graph.port_node(port).expect("a wire's end is live");
        let place = graph.port_offset(port).expect("a wire's end is live");
        let before = if place.direction() == Direction::Incoming { 0 } else { graph.num_inputs(node) };
        first[node.index()] + (before + place.index()) as u32
    };
    for port in graph.nodes_iter().flat_map(|node| graph.outputs(node)) {
        calls.extend(graph.port_links(port).map(|(_, far)| Call::Link { a: anew(port), b: anew(far.port()) }));
    }
    driver::to_bytes(&calls.into_iter().map(Call::to_record).collect::<Vec<_>>())
}

/// A list that is saved, the graph that it leaves, and the requests that build this anew.
struct ToSave {
    list: List,
    graph: Graph,
    built: Vec<u8>,
}

fn saved(number: usize) -> ToSave {
    let list = to_save(number);
    let graph = plain::graph(&list.requests);
    let built = rebuilt(&graph);
    ToSave { list, graph, built }
}

/// The sides of saving, by what they do: the graph built with no room for its file, which is refused before anything is
/// written; built and saved; saved by the plain writer; then the list run and saved, by the port and by the original with this
/// writer.
const SAVING: [&str; 5] = ["build", "save", "write", "list", "rust-list"];

/// Runs a side of saving, so often; gives the file's length.
fn saving(side: &str, ToSave { list, graph, built }: &ToSave, buffer: &mut [u8], times: usize) -> usize {
    let mut run: Box<dyn FnMut() -> usize> = match side {
        "build" => Box::new(|| {
            assert_eq!(save_records(black_box(built), &mut []), Err(15));
            0
        }),
        "save" => Box::new(|| save_records(black_box(built), buffer).expect("there is room")),
        "write" => Box::new(|| plain_files::save(black_box(graph), buffer).expect("there is room")),
        "list" => Box::new(|| save_records(black_box(&list.requests), buffer).expect("there is room")),
        _ => Box::new(|| plain_files::save(&plain::graph(black_box(&list.requests)), buffer).expect("there is room")),
    };
    (0..times).map(|_| run()).last().unwrap_or(0)
}

/// Saving: the file alone, ours as a graph built and saved less the same without its file; then a list with its file. Each side
/// is run before it is timed, so that none finds the processor better prepared, and shortly, so that it is seldom interrupted.
fn files() {
    const TIMES: usize = 4;
    let cells = |ours: f64, theirs: f64| format!(" {ours:.2} | {theirs:.2} | {:.2} |", ours / theirs);
    let mut rows = [Vec::new(), Vec::new()];
    for number in 0..SAVED {
        let given = saved(number);
        let mut buffers = SAVING.map(|_| vec![0; kanhtrev::LONGEST_FILE]);
        let (mut lengths, mut times) = ([0; 5], [f64::MAX; 5]);
        for side in (0..10 * ROUNDS).flat_map(|_| 0..5) {
            saving(SAVING[side], &given, &mut buffers[side], TIMES);
            let start = Instant::now();
            lengths[side] = saving(SAVING[side], &given, &mut buffers[side], TIMES);
            times[side] = times[side].min(start.elapsed().as_nanos() as f64);
        }
        let ToSave { list, graph, .. } = &given;
        let file = |side: usize| &buffers[side][..lengths[side]];
        assert!((2..5).all(|side| file(side) == file(1)), "{}: another file than the plain writer's", list.name);
        let [build, save, write, whole, rust_whole] = times.map(|time| time / (1_000 * TIMES) as f64);
        let name = format!("| {} | {}, {} |", list.name, graph.node_count(), graph.link_count());
        let counted = SAVING.map(|side| instructions_a_run(side, number).map(|count| count / 1_000.0));
        let [alone, both] = match counted {
            [Some(build), Some(save), Some(write), Some(whole), Some(rust_whole)] => {
                [cells(save - build, write), cells(whole, rust_whole)]
            }
            _ => [(); 2].map(|()| " no valgrind | | |".into()),
        };
        rows[0].push(format!("{name}{}{alone}", cells(save - build, write)));
        rows[1].push(format!("{name}{}{both}", cells(whole, rust_whole)));
    }
    for (what, rows) in ["The file alone", "The list and its file"].iter().zip(rows) {
        println!("\n| {what} | blocks, wires | us | Rust, us | ratio | thousand instructions | Rust | ratio |");
        println!("|---|---|---|---|---|---|---|---|\n{}", rows.join("\n"));
    }
}

/// The sides of loading a file: the requests of its wiring, and the plain reader with the original's calls.
const LOADING: [&str; 2] = ["load", "rust-load"];

/// Loads a file by a side, so often; gives how many calls or wires it had.
fn loading(side: &str, file: &[u8], requests: &mut [u8], times: usize) -> usize {
    let mut run: Box<dyn FnMut() -> usize> = match side {
        "load" => Box::new(|| records_of_file(black_box(file), requests).expect("a file that loads") / 20),
        _ => Box::new(|| plain_files::load(black_box(file)).expect("a file that loads").link_count()),
    };
    (0..times).map(|_| run()).last().unwrap_or(0)
}

/// The file of a list that is saved in the benchmark.
fn file_of(list: &List) -> Vec<u8> {
    let mut file = vec![0; kanhtrev::LONGEST_FILE];
    let length = plain_files::save(&plain::graph(&list.requests), &mut file).expect("there is room");
    file.truncate(length);
    file
}

/// Loading: read, built and told as requests, beside the plain reader and the original's calls.
fn loads() {
    const TIMES: usize = 20;
    let cells = |ours: f64, theirs: f64| format!(" {ours:.1} | {theirs:.1} | {:.2} |", ours / theirs);
    println!("\n| A file loaded | blocks, wires | us | Rust, us | ratio | thousand instructions | Rust | ratio |");
    println!("|---|---|---|---|---|---|---|---|");
    for number in 0..SAVED {
        let list = to_save(number);
        let file = file_of(&list);
        let mut requests = vec![0; kanhtrev::LONGEST_LOAD];
        let (mut calls, mut wires) = (0, 0);
        let [ours, theirs] = least([&mut || calls = loading("load", &file, &mut requests, TIMES), &mut || {
            wires = loading("rust-load", &file, &mut [], TIMES)
        }]);
        let graph = plain::graph(&requests[..20 * calls]);
        let mut again = vec![0; file.len()];
        assert!(
            plain_files::save(&graph, &mut again) == Some(file.len()) && again == file,
            "{}: another wiring",
            list.name
        );
        print!("| {} | {}, {wires} |", list.name, graph.node_count());
        print!("{}", cells(ours / (1_000 * TIMES) as f64, theirs / (1_000 * TIMES) as f64));
        match LOADING.map(|side| instructions_a_run(side, number).map(|count| count / 1_000.0)) {
            [Some(ours), Some(theirs)] => println!("{}", cells(ours, theirs)),
            _ => println!(" no valgrind | | |"),
        }
    }
}

/// The time of a call of a case: that of many turns, less that of making the graph.
fn a_turn(case: &Case) -> [f64; 2] {
    const TURNS: usize = 20_000;
    let (first, all) = (case.requests(0), case.requests(TURNS));
    let mut answers = [first.len(), all.len(), first.len(), all.len()].map(|bytes| vec![0; bytes]);
    let [a, b, c, d] = &mut answers;
    let [ours, ours_all, theirs, theirs_all] =
        least([&mut || port(&first, a), &mut || port(&all, b), &mut || rust(&first, c), &mut || rust(&all, d)]);
    assert!(answers[1] == answers[3], "other answers than the original's");
    let calls = (TURNS * case.calls()) as f64;
    [(ours_all - ours) / calls, (theirs_all - theirs) / calls]
}

fn growth(table: &Table) {
    let sizes: Vec<_> = table.sizes.iter().map(|size| format!(" {size} {} |", table.counted)).collect();
    println!("\n| ns a call, ours / Rust's |{}\n|---|{}", sizes.concat(), "---|".repeat(sizes.len()));
    for (name, cases) in &table.rows {
        let cells: Vec<_> =
            cases.iter().map(a_turn).map(|[ours, theirs]| format!(" {ours:.1} / {theirs:.1} |")).collect();
        println!("| {name} |{}", cells.concat());
    }
}

#[cfg(walks)]
fn by_walks() {
    use differential::walks::{forward, list_original, list_port, longest_original, longest_port, wired};

    println!("\n| 400 wires listed | ns a wire | Rust, ns | ratio |\n|---|---|---|---|");
    for (name, outputs) in [("each at an output of its own", 20), ("four at each output", 5)] {
        const LISTINGS: usize = 300;
        let records = wired(outputs);
        let requests = driver::to_bytes(&records);
        let graph = plain::run(&requests, &mut vec![0; requests.len()]);
        let (mut wires, mut original) = (vec![0; 8 * 400], Vec::with_capacity(4 * 400));
        let [none, all, theirs] = least([
            &mut || assert_eq!(list_port(black_box(&records), 0, &mut []), 0),
            &mut || assert_eq!(list_port(black_box(&records), LISTINGS, black_box(&mut wires)), 400),
            &mut || {
                (0..LISTINGS).for_each(|_| assert_eq!(list_original(black_box(&graph), black_box(&mut original)), 400))
            },
        ]);
        let ends: Vec<_> = wires.chunks_exact(4).flat_map(|end| [end[0], end[1]]).collect();
        assert!(ends == original, "{name}: other wires than the original's");
        let [ours, theirs] = [all - none, theirs].map(|time| time / (LISTINGS * 400) as f64);
        println!("| {name} | {ours:.1} | {theirs:.1} | {:.2} |", ours / theirs);
    }
    {
        const ROUNDS: usize = 200;
        let records = forward();
        let requests = driver::to_bytes(&records);
        let graph = plain::run(&requests, &mut vec![0; requests.len()]);
        let times: Vec<u16> = (0..1024u32).map(|slot| (slot * 7919 % 2_000) as u16).collect();
        let sum = longest_original(&graph, &times, 1023).expect("no wire goes back");
        let [none, all, theirs] = least([
            &mut || assert_eq!(longest_port(black_box(&records), &times, 1023, 0), 0),
            &mut || assert_eq!(longest_port(black_box(&records), black_box(&times), 1023, ROUNDS), sum),
            &mut || {
                (0..ROUNDS).for_each(|_| assert_eq!(longest_original(black_box(&graph), black_box(&times), 1023), Some(sum)))
            },
        ]);
        let [ours, theirs] = [all - none, theirs].map(|time| time / (1_000 * ROUNDS) as f64);
        println!("\n| The largest sum | blocks, wires | us | Rust, us | ratio |\n|---|---|---|---|---|");
        println!("| every slot taken | 1024, {} | {ours:.1} | {theirs:.1} | {:.2} |", graph.link_count(), ours / theirs);
    }
}

#[cfg(not(walks))]
fn by_walks() {
    println!(
        "\nWithout libwalks.a: `bash host/bench.sh` has it built, and then the listing of all wires is measured too."
    );
}

/// Runs a list by a side, so often, for valgrind to count.
fn counted(side: &str, number: usize, times: usize) {
    if SAVING.contains(&side) {
        saving(side, &saved(number), &mut vec![0; kanhtrev::LONGEST_FILE], times);
        return;
    }
    if LOADING.contains(&side) {
        loading(side, &file_of(&to_save(number)), &mut vec![0; kanhtrev::LONGEST_LOAD], times);
        return;
    }
    let list = benchmark(number, CALLS);
    let mut answers = vec![0; list.requests.len()];
    match side {
        "port" => (0..times).for_each(|_| port(&list.requests, &mut answers)),
        "rust" => (0..times).for_each(|_| rust(&list.requests, &mut answers)),
        _ => panic!("no side {side}"),
    }
}

fn main() {
    let words: Vec<String> = env::args().skip(1).collect();
    match words.iter().map(String::as_str).collect::<Vec<_>>()[..] {
        [] => {
            the_entry();
            files();
            loads();
            by_walks();
            tables().iter().for_each(growth);
        }
        [side, list, times] => {
            let list = list.parse().expect("the number of a list");
            let times = times.parse().expect("how often");
            counted(side, list, times);
        }
        _ => panic!("bench, or bench SIDE LIST TIMES"),
    }
}
