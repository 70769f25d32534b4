//! A plain writer and a plain reader of saved files over the original's graph, as one would write them in Rust. For the
//! benchmark.

use driver::{Graph, MOST_PORTS};
use portgraph::{LinkMut, LinkView, PortMut, PortView};

type Record = [u16; 4];

/// The sum of the 127 words before a unit's own.
fn sum(unit: &[u8]) -> u32 {
    let words = unit[..508].chunks_exact(4).map(|word| u32::from_le_bytes(word.try_into().expect("four bytes")));
    words.fold(0, u32::wrapping_add)
}

/// Lays the units of a kind.
fn lay(kind: u16, records: &[Record], units: &mut [u8]) {
    for (unit, records) in units.chunks_exact_mut(512).zip(records.chunks(63)) {
        unit[..2].copy_from_slice(&kind.to_le_bytes());
        unit[2..4].copy_from_slice(&(records.len() as u16).to_le_bytes());
        let (used, unused) = unit[4..508].split_at_mut(8 * records.len());
        for (bytes, field) in used.chunks_exact_mut(2).zip(records.as_flattened()) {
            bytes.copy_from_slice(&field.to_le_bytes());
        }
        unused.fill(0);
        let sum = sum(unit);
        unit[508..].copy_from_slice(&sum.to_le_bytes());
    }
}

/// Writes a graph's file to a buffer and gives its length; none, and nothing is written, if the buffer is short.
pub fn save(graph: &Graph, buffer: &mut [u8]) -> Option<usize> {
    let (block_count, wire_count) = (graph.node_count(), graph.link_count());
    let block_bytes = 512 * block_count.div_ceil(63);
    let length = block_bytes + 512 * wire_count.div_ceil(63);
    let (for_blocks, for_wires) = buffer.get_mut(..length)?.split_at_mut(block_bytes);
    let mut ranks = Vec::new();
    let mut blocks: Vec<Record> = Vec::with_capacity(block_count);
    for node in graph.nodes_iter() {
        ranks.resize(node.index() + 1, 0);
        ranks[node.index()] = blocks.len() as u16;
        blocks.push([graph.num_inputs(node) as u16, graph.num_outputs(node) as u16, 0, 0]);
    }
    let mut wires: Vec<Record> = Vec::with_capacity(wire_count);
    for node in graph.nodes_iter() {
        for (output, port) in graph.outputs(node).enumerate() {
            for (_, far) in graph.port_links(port) {
                let target = graph.port_node(far.port()).expect("a wire's end is live");
                let input = graph.port_offset(far.port()).expect("a wire's end is live").index();
                wires.push([ranks[node.index()], output as u16, ranks[target.index()], input as u16]);
            }
        }
    }
    wires.sort_unstable();
    lay(1, &blocks, for_blocks);
    lay(2, &wires, for_wires);
    Some(length)
}

/// Reads a file and builds its wiring; 16, 17 or 3 where it is refused. The original's tables have no end, so there is no 10.
pub fn load(file: &[u8]) -> Result<Graph, u32> {
    let units = file.chunks_exact(512);
    if !units.remainder().is_empty() || units.clone().any(|unit| unit[508..] != sum(unit).to_le_bytes()) {
        return Err(16);
    }
    let mut records = [Vec::with_capacity(file.len() / 8), Vec::with_capacity(file.len() / 8)];
    let (mut kind_before, mut count_before) = (1, 63);
    for unit in units {
        let field = |at: usize| u16::from_le_bytes([unit[at], unit[at + 1]]);
        let (kind, count) = (field(0), usize::from(field(2)));
        if !(kind_before..=2).contains(&kind) || !(1..=63).contains(&count) || kind == kind_before && count_before < 63
        {
            return Err(17);
        }
        let (used, unused) = unit[4..508].split_at(8 * count);
        if unused.iter().any(|byte| *byte != 0) {
            return Err(17);
        }
        let record = |bytes: &[u8]| -> Record {
            std::array::from_fn(|at| u16::from_le_bytes([bytes[2 * at], bytes[2 * at + 1]]))
        };
        records[usize::from(kind) - 1].extend(used.chunks_exact(8).map(record));
        (kind_before, count_before) = (kind, count);
    }
    let [blocks, wires] = records;
    let between = |[source, output, target, input]: &Record| {
        let count = |rank: &u16, side: usize| blocks.get(usize::from(*rank)).map_or(0, |block| block[side]);
        *output < count(source, 1) && *input < count(target, 0)
    };
    if blocks.iter().any(|block| block[2..] != [0, 0]) || !wires.is_sorted() || !wires.iter().all(between) {
        return Err(17);
    }
    let mut graph = Graph::new();
    let mut nodes = Vec::with_capacity(blocks.len());
    for [incoming, outgoing, ..] in &blocks {
        if u64::from(*incoming) + u64::from(*outgoing) > MOST_PORTS {
            return Err(3);
        }
        nodes.push(graph.add_node((*incoming).into(), (*outgoing).into()));
    }
    for [source, output, target, input] in &wires {
        let from = graph.output(nodes[usize::from(*source)], (*output).into()).expect("a position that is there");
        let to = graph.input(nodes[usize::from(*target)], (*input).into()).expect("a position that is there");
        graph.link_ports(from, to).expect("an output and an input");
    }
    Ok(graph)
}
