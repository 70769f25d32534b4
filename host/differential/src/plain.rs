//! The original alone: a list of records on its graph, without the driver's checks. For the benchmark, and only for
//! lists of calls that the original answers itself ([`crate::lists`]).

use driver::Graph;
use portgraph::multiportgraph::SubportIndex;
use portgraph::{
    Direction, LinkError, LinkMut, LinkView, MultiMut, MultiView, NodeIndex, PortIndex, PortMut, PortView,
};

type Words = [u32; 5];

fn node(number: u32) -> NodeIndex<u32> {
    NodeIndex::new(number as usize)
}

fn port(number: u32) -> PortIndex<u32> {
    PortIndex::new(number as usize)
}

fn end(port_number: u32, offset: u32) -> SubportIndex<u32> {
    SubportIndex::new_multi(port(port_number), offset as usize)
}

fn found(far: Option<SubportIndex<u32>>) -> Words {
    far.map_or([0; 5], |far| [0, 1, far.port().index() as u32, far.offset() as u32, 0])
}

fn refused(graph: &Graph, error: LinkError<u32, u32, u16>, first: u32, second: u32) -> Words {
    match error {
        LinkError::IncompatibleDirections { port_a, port_b, dir } => {
            [12, port_a.index() as u32, port_b.index() as u32, u32::from(dir == Direction::Outgoing), 0]
        }
        LinkError::AlreadyLinked { port } => [13, port.index() as u32, 0, 0, 0],
        _ if graph.contains_port(port(first)) => [11, second, 0, 0, 0],
        _ => [7, first, 0, 0, 0],
    }
}

#[inline(always)]
fn answer(graph: &mut Graph, [code, a, b, c, d]: Words) -> Words {
    match code {
        1 => {
            let node = graph.add_node(a as usize, b as usize);
            let first = graph.all_ports(node).next().map_or(0, |port| port.index());
            [0, node.index() as u32, first as u32, 0, 0]
        }
        2 | 3 if !graph.contains_node(node(a)) => [4, 0, 0, 0, 0],
        2 => {
            graph.remove_node(node(a));
            [0; 5]
        }
        3 => {
            let mut events = 0;
            graph.set_num_ports(node(a), b as usize, c as usize, |_, _| events += 1);
            [0, events, 0, 0, 0]
        }
        4 => match graph.link_ports(port(a), port(b)) {
            Ok((one, other)) => {
                [0, one.port().index() as u32, one.offset() as u32, other.port().index() as u32, other.offset() as u32]
            }
            Err(error) => refused(graph, error, a, b),
        },
        5 | 7 if !graph.contains_port(port(a)) => [7, a, 0, 0, 0],
        5 => found(graph.unlink_port(port(a))),
        6 => match graph.link_subports(end(a, b), end(c, d)) {
            // The lists name the offsets as they are answered: 0 on an unsplit port.
            Ok(()) => [0, a, b, c, d],
            Err(error) => refused(graph, error, a, c),
        },
        7 => found(graph.unlink_subport(end(a, b))),
        8 => found(graph.subport_link(end(a, b))),
        _ => [0, graph.node_count() as u32, graph.port_count() as u32, graph.link_count() as u32, 0],
    }
}

#[inline(always)]
fn words(request: &[u8]) -> Words {
    std::array::from_fn(|at| u32::from_le_bytes(request[4 * at..4 * at + 4].try_into().expect("four bytes a word")))
}

/// Runs a list from an empty graph, and gives the graph that it leaves; the answers are not kept.
pub fn graph(requests: &[u8]) -> Graph {
    let mut graph = Graph::new();
    for request in requests.chunks_exact(20) {
        answer(&mut graph, words(request));
    }
    graph
}

/// Runs a list from an empty graph, and gives the graph that it leaves.
pub fn run(requests: &[u8], answers: &mut [u8]) -> Graph {
    let mut graph = Graph::new();
    for (request, place) in requests.chunks_exact(20).zip(answers.chunks_exact_mut(20)) {
        let answer = answer(&mut graph, words(request));
        for (bytes, word) in place.chunks_exact_mut(4).zip(answer) {
            bytes.copy_from_slice(&word.to_le_bytes());
        }
    }
    graph
}
