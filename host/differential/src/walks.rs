//! All wires of a graph for the benchmark: the original's iterators, and `list_wires` of the port, where `libwalks.a` is
//! linked (`host/bench.sh`).

use driver::{Call, Graph};
use portgraph::{Direction, LinkView, PortView};

/// A graph of 400 wires, as records: twenty blocks, each with twenty inputs and so many outputs, every output with as many
/// wires as there are to go round, to inputs of other blocks.
pub fn wired(outputs: u32) -> Vec<[u32; 5]> {
    let width = 20 + outputs;
    let adds = (0..20).map(|_| Call::Add { incoming: 20, outgoing: outputs });
    let links = (0..400).map(|wire| {
        let (block, place) = (wire / 20, wire % 20);
        Call::Link { a: width * block + 20 + place % outputs, b: width * ((block + 1 + place) % 20) + place }
    });
    adds.chain(links).map(Call::to_record).collect()
}

/// Lists all wires with the original's iterators, four numbers each, and gives how many there are.
pub fn list_original(graph: &Graph, list: &mut Vec<u32>) -> usize {
    list.clear();
    for (from, to) in graph.nodes_iter().flat_map(|node| graph.links(node, Direction::Outgoing)) {
        list.extend([from, to].iter().flat_map(|end| [end.port().index() as u32, end.offset() as u32]));
    }
    list.len() / 4
}

/// A wiring of every slot, as records: 1,024 blocks of three ports and 1,536 wires, each from a block to a later one.
pub fn forward() -> Vec<[u32; 5]> {
    let sides = |block: u32| match block {
        0 => (0, 3),
        1023 => (3, 0),
        _ if block % 2 == 1 => (1, 2),
        _ => (2, 1),
    };
    let adds = (0..1024).map(|block| Call::Add { incoming: sides(block).0, outgoing: sides(block).1 });
    let ports = |outgoing: bool| {
        (0..1024).flat_map(move |block| {
            let (incoming, all) = (sides(block).0, 3);
            (3 * block..3 * block + all).filter(move |port| (port % 3 >= incoming) == outgoing)
        })
    };
    let links = ports(true).zip(ports(false)).map(|(a, b)| Call::Link { a, b });
    adds.chain(links).map(Call::to_record).collect()
}

/// The largest sum of times that ends at a block, by a plain depth-first search over the original's wires, which are listed first; `None`
/// if a cycle can reach it.
pub fn longest_original(graph: &Graph, times: &[u16], block: usize) -> Option<u64> {
    let mut feeders = vec![Vec::new(); times.len()];
    for node in graph.nodes_iter() {
        for (_, to) in graph.links(node, Direction::Outgoing) {
            let target = graph.port_node(to.port()).expect("an end of a wire is live");
            feeders[target.index()].push(node.index());
        }
    }
    const NEW: u64 = u64::MAX;
    const OPEN: u64 = u64::MAX - 1;
    let mut sums = vec![NEW; times.len()];
    let mut stack = vec![(block, 0)];
    sums[block] = OPEN;
    while let Some((at, next)) = stack.last_mut() {
        if let Some(feeder) = feeders[*at].get(*next) {
            *next += 1;
            match sums[*feeder] {
                NEW => {
                    sums[*feeder] = OPEN;
                    stack.push((*feeder, 0));
                }
                OPEN => return None,
                _ => (),
            }
        } else {
            let most = feeders[*at].iter().map(|feeder| sums[*feeder]).max().unwrap_or(0);
            sums[*at] = most + u64::from(times[*at]);
            stack.pop();
        }
    }
    Some(sums[block])
}

#[cfg(walks)]
mod linked {
    extern "C" {
        fn list_again(
            requests: *const u32,
            len: usize,
            count: usize,
            rounds: usize,
            list: *mut u32,
            room: usize,
        ) -> usize;
        fn longest_again(
            requests: *const u32,
            len: usize,
            count: usize,
            times: *const u16,
            slots: usize,
            block: u32,
            rounds: usize,
        ) -> u64;
    }

    /// Runs records and then lists all wires so often, eight numbers each; gives how many there are.
    pub fn list_port(records: &[[u32; 5]], rounds: usize, list: &mut [u32]) -> usize {
        let words = records.as_flattened();
        // SAFETY: slices cross as pointer and length; only the list is written.
        unsafe { list_again(words.as_ptr(), words.len(), records.len(), rounds, list.as_mut_ptr(), list.len()) }
    }

    /// Runs records and then asks for the largest sum of times that ends at a block so often.
    pub fn longest_port(records: &[[u32; 5]], times: &[u16], block: u32, rounds: usize) -> u64 {
        let words = records.as_flattened();
        // SAFETY: slices cross as pointer and length; nothing is written.
        unsafe { longest_again(words.as_ptr(), words.len(), records.len(), times.as_ptr(), times.len(), block, rounds) }
    }
}

#[cfg(walks)]
pub use linked::{list_port, longest_port};
