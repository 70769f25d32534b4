//! The walks, listed from the original's iterators.

use std::ops::Range;

use portgraph::multiportgraph::SubportIndex;
use portgraph::view::port_links_from_both_ends;
use portgraph::{Direction, LinkView, MultiView, NodeIndex, PortIndex, PortView};

use crate::oracle::{number, Standing};
use crate::{Answer, Oracle};

/// A subport in a listing: port and offset.
pub type Subport = (u32, u32);
/// A link in a listing: the near end, then the far end. In the list of all wires the near end is the outgoing one.
pub type Wire = (Subport, Subport);
/// A listing, or the refusal of the call that starts the walk (4, 5, 7 or 8).
pub type Listing<T> = Result<Vec<T>, Answer>;

/// A side of a node.
#[derive(Clone, Copy, Debug, PartialEq, Eq, PartialOrd, Ord, Hash)]
pub enum Side {
    Incoming,
    Outgoing,
}

/// What a node's walk is over.
#[derive(Clone, Copy, Debug, PartialEq, Eq)]
pub enum Sides {
    One(Side),
    /// Both, incoming first.
    Both,
}

/// An end's place: node, side, port position on that side, subport offset.
#[derive(Clone, Copy, Debug, PartialEq, Eq, PartialOrd, Ord, Hash)]
pub struct Place {
    pub node: u32,
    pub side: Side,
    pub position: u32,
    pub offset: u32,
}

fn direction(side: Side) -> Direction {
    match side {
        Side::Incoming => Direction::Incoming,
        Side::Outgoing => Direction::Outgoing,
    }
}

fn end(subport: SubportIndex<u32>) -> Subport {
    (number(subport.port().index()), number(subport.offset()))
}

fn wire((near, far): (SubportIndex<u32>, SubportIndex<u32>)) -> Wire {
    (end(near), end(far))
}

fn index(node: u32) -> NodeIndex<u32> {
    NodeIndex::new(node as usize)
}

impl Oracle {
    /// The refusal of a walk over nodes: 4 for the first that is not live, then 5.
    fn start_at_nodes(&self, nodes: &[u32]) -> Result<(), Answer> {
        let standings = || nodes.iter().map(|node| self.node_standing(*node));
        if standings().any(|standing| matches!(standing, Standing::Unheld | Standing::Dead)) {
            Err([4, 0, 0, 0, 0])
        } else if standings().any(|standing| standing == Standing::Hidden) {
            Err([5, 0, 0, 0, 0])
        } else {
            Ok(())
        }
    }

    /// The refusal of a walk over a port: 7 or 8.
    fn start_at_port(&self, port: u32) -> Result<(), Answer> {
        match self.port_standing(port) {
            Standing::Unheld | Standing::Dead => Err([7, port, 0, 0, 0]),
            Standing::Hidden => Err([8, port, 0, 0, 0]),
            Standing::Visible => Ok(()),
        }
    }

    /// Blocks by ascending number.
    pub fn blocks(&self) -> Vec<u32> {
        self.graph.nodes_iter().map(|node| number(node.index())).collect()
    }

    /// Ports of a node.
    pub fn ports(&self, node: u32, sides: Sides) -> Listing<u32> {
        self.start_at_nodes(&[node])?;
        let list = |ports: &mut dyn Iterator<Item = PortIndex<u32>>| ports.map(|port| number(port.index())).collect();
        Ok(match sides {
            Sides::One(side) => list(&mut self.graph.ports(index(node), direction(side))),
            Sides::Both => list(&mut self.graph.all_ports(index(node))),
        })
    }

    /// Subports of a node, by port, then offset, unlinked ones included.
    pub fn subports(&self, node: u32, sides: Sides) -> Listing<Subport> {
        self.start_at_nodes(&[node])?;
        Ok(match sides {
            Sides::One(side) => self.graph.subports(index(node), direction(side)).map(end).collect(),
            Sides::Both => self.graph.all_subports(index(node)).map(end).collect(),
        })
    }

    /// Links of a port, from the front.
    pub fn port_links(&self, port: u32) -> Listing<Wire> {
        self.start_at_port(port)?;
        Ok(self.graph.port_links(PortIndex::new(port as usize)).map(wire).collect())
    }

    /// Links of a port by one iterator, a step from the back for each `true` and from the front for each `false`.
    pub fn port_links_by_steps(&self, port: u32, from_back: &[bool]) -> Listing<Option<Wire>> {
        self.start_at_port(port)?;
        let mut links = port_links_from_both_ends(&self.graph, PortIndex::new(port as usize));
        let step = |back: &bool| if *back { links.next_back() } else { links.next() }.map(wire);
        Ok(from_back.iter().map(step).collect())
    }

    /// Links of a node, skipping targets in a range of ports. The original has the empty range on one side, and the
    /// node's outgoing ports on both sides; any other range is left out of its listing here.
    pub fn node_links(&self, node: u32, sides: Sides, skip: Range<u32>) -> Listing<Wire> {
        self.start_at_nodes(&[node])?;
        let outgoing = self.graph.ports(index(node), Direction::Outgoing).map(|port| number(port.index()));
        let own = outgoing.clone().min().map_or(0..0, |first| first..first + number(outgoing.count()));
        let one = |side| self.graph.links(index(node), direction(side)).map(wire);
        let kept = |wire: &Wire| !skip.contains(&wire.1 .0);
        Ok(match sides {
            Sides::Both if skip == own => self.graph.all_links(index(node)).map(wire).collect(),
            Sides::Both => one(Side::Incoming).chain(one(Side::Outgoing)).filter(kept).collect(),
            Sides::One(side) => one(side).filter(kept).collect(),
        })
    }

    /// Neighbours of a node, one per wire; with the flag, targets that are outgoing ports of the node are skipped. The
    /// original has one side without the flag, and both sides with it; the others are read from its links.
    pub fn neighbours(&self, node: u32, sides: Sides, skip_self_loops: bool) -> Listing<u32> {
        self.start_at_nodes(&[node])?;
        let list = |nodes: &mut dyn Iterator<Item = NodeIndex<u32>>| nodes.map(|node| number(node.index())).collect();
        match (sides, skip_self_loops) {
            (Sides::One(side), false) => Ok(list(&mut self.graph.neighbours(index(node), direction(side)))),
            (Sides::Both, true) => Ok(list(&mut self.graph.all_neighbours(index(node)))),
            (sides, flag) => {
                let own = if flag { self.ports(node, Sides::One(Side::Outgoing))? } else { Vec::new() };
                let links = self.node_links(node, sides, 0..0)?;
                let far = links.into_iter().map(|(_, (port, _))| port).filter(|port| !own.contains(port));
                Ok(list(
                    &mut far
                        .map(|port| self.graph.port_node(PortIndex::new(port as usize)).expect("a link's end is live")),
                ))
            }
        }
    }

    /// Connections from one block's outgoing side to another, repeated per wire.
    pub fn connections(&self, from: u32, to: u32) -> Listing<Wire> {
        self.start_at_nodes(&[from, to])?;
        Ok(self.graph.get_connections(index(from), index(to)).map(wire).collect())
    }

    /// The list of all wires: block after block, the links of its outgoing side.
    pub fn all_wires(&self) -> Vec<Wire> {
        self.graph
            .nodes_iter()
            .flat_map(|node| self.graph.links(node, Direction::Outgoing).map(wire).collect::<Vec<_>>())
            .collect()
    }

    /// The place of an end in a listing.
    pub fn place(&self, (port, offset): Subport) -> Option<Place> {
        self.start_at_port(port).ok()?;
        let port = PortIndex::<u32>::new(port as usize);
        let node = number(self.graph.port_node(port)?.index());
        let position = self.graph.port_offset(port)?;
        let side = match position.direction() {
            Direction::Incoming => Side::Incoming,
            Direction::Outgoing => Side::Outgoing,
        };
        Some(Place { node, side, position: number(position.index()), offset })
    }

    /// A port's fan-out: how many links its walk gives. The Rust has no such number.
    pub fn port_fan_out(&self, port: u32) -> Result<u32, Answer> {
        Ok(number(self.port_links(port)?.len()))
    }

    /// A block's fan-out: the sum over its outgoing ports.
    pub fn fan_out(&self, node: u32) -> Result<u32, Answer> {
        self.ports(node, Sides::One(Side::Outgoing))?.into_iter().map(|port| self.port_fan_out(port)).sum()
    }
}
