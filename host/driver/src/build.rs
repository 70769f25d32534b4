//! A wiring built on the original as a file has it: its blocks, then its wires.

use portgraph::{LinkMut, LinkView, PortMut, PortView};

use crate::oracle::{highest_node, number, port_table};
use crate::{Call, Graph, Oracle, Release, MOST_PORTS, NODE_SLOTS, PORT_SLOTS};

/// The tables are looked at after so many links.
const LOOK: usize = 64;

impl Oracle {
    /// Adds blocks of these incoming and outgoing counts to an empty graph of a release, then links these wires, the output named first. A
    /// wire has the place of its source among the blocks, the output's position, the place of its target, and the input's
    /// position. Gives the calls, with the numbers that the original gave, and the graph after them; or the number of the
    /// first refusal, 3, 10 or 18.
    ///
    /// It is what [`Oracle::ask`] gives call by call. No call is tried on a clone here: the tables never get shorter, and a
    /// link between ports of blocks is refused for nothing but space, so it is enough to look at them now and then, and where
    /// 18 would be given.
    ///
    /// # Panics
    ///
    /// If a wire names a block or a position that is not there.
    pub fn build(release: Release, blocks: &[[u16; 2]], wires: &[[u16; 4]]) -> Result<(Vec<Call>, Oracle), u32> {
        let mut graph = Graph::new();
        let mut calls = Vec::new();
        let (mut nodes, mut ports) = (Vec::new(), 0);
        for [incoming, outgoing] in blocks.iter().map(|counts| counts.map(u32::from)) {
            if u64::from(incoming + outgoing) > MOST_PORTS {
                return Err(3);
            }
            let node = graph.add_node(incoming as usize, outgoing as usize);
            // Nothing was freed yet, so the block stands at the table's end.
            ports = graph.all_ports(node).last().map_or(ports, |port| port.index() + 1);
            if node.index() >= NODE_SLOTS || ports > PORT_SLOTS {
                return Err(10);
            }
            nodes.push(node);
            calls.push(Call::Add { incoming, outgoing });
        }
        let mut oracle = Oracle::of(release, graph);
        for (done, wire) in wires.iter().enumerate() {
            let [source, output, target, input] = wire.map(usize::from);
            let from = oracle.graph.output(nodes[source], output).expect("an output that is there");
            let to = oracle.graph.input(nodes[target], input).expect("an input that is there");
            let taken = release == Release::Two && oracle.graph.port_links(to).next().is_some();
            if !taken {
                oracle.graph.link_ports(from, to).expect("an output and an input of blocks");
            }
            calls.push(Call::Link { a: number(from.index()), b: number(to.index()) });
            if taken || done + 1 == wires.len() || done % LOOK == LOOK - 1 {
                oracle = Oracle::of(release, oracle.graph);
                let (nodes, ports) = oracle.tables();
                if nodes > NODE_SLOTS || ports > PORT_SLOTS {
                    return Err(10);
                }
            }
            if taken {
                return Err(18);
            }
        }
        Ok((calls, oracle))
    }

    /// A graph that never freed a node, so that the highest live one tells the length of the node table.
    fn of(release: Release, graph: Graph) -> Oracle {
        let (node_table, port_table) = (highest_node(graph.as_portgraph()), port_table(graph.as_portgraph()));
        Oracle { graph, node_table, port_table, moves: Vec::new(), release }
    }
}
