//! STAND-IN, written by us and not from the original: the traits that the eight files implement, taken from their
//! `impl` blocks, with the default methods that they call. A line whose behaviour is a guess is marked `guess:`.

#![allow(clippy::type_complexity)]

use crate::index::IndexBase;
use crate::multiportgraph::{PortLinks, SubportIndex};
use crate::portgraph::PortOperation;
use crate::{Direction, LinkError, MultiPortGraph, NodeIndex, PortIndex, PortOffset};

/// Reading nodes and ports.
#[allow(missing_docs)]
pub trait PortView {
    type NodeIndexBase: IndexBase;
    type PortIndexBase: IndexBase;
    type PortOffsetBase: IndexBase;

    fn port_direction(&self, port: impl Into<PortIndex<Self::PortIndexBase>>) -> Option<Direction>;
    fn port_node(
        &self,
        port: impl Into<PortIndex<Self::PortIndexBase>>,
    ) -> Option<NodeIndex<Self::NodeIndexBase>>;
    fn port_offset(
        &self,
        port: impl Into<PortIndex<Self::PortIndexBase>>,
    ) -> Option<PortOffset<Self::PortOffsetBase>>;
    fn port_index(
        &self,
        node: NodeIndex<Self::NodeIndexBase>,
        offset: PortOffset<Self::PortOffsetBase>,
    ) -> Option<PortIndex<Self::PortIndexBase>>;
    fn ports(
        &self,
        node: NodeIndex<Self::NodeIndexBase>,
        direction: Direction,
    ) -> impl Iterator<Item = PortIndex<Self::PortIndexBase>> + Clone;
    fn all_ports(
        &self,
        node: NodeIndex<Self::NodeIndexBase>,
    ) -> impl Iterator<Item = PortIndex<Self::PortIndexBase>> + Clone;
    fn input(
        &self,
        node: NodeIndex<Self::NodeIndexBase>,
        offset: usize,
    ) -> Option<PortIndex<Self::PortIndexBase>>;
    fn output(
        &self,
        node: NodeIndex<Self::NodeIndexBase>,
        offset: usize,
    ) -> Option<PortIndex<Self::PortIndexBase>>;
    fn num_ports(&self, node: NodeIndex<Self::NodeIndexBase>, direction: Direction) -> usize;
    fn port_offsets(
        &self,
        node: NodeIndex<Self::NodeIndexBase>,
        direction: Direction,
    ) -> impl Iterator<Item = PortOffset<Self::PortOffsetBase>> + Clone;
    fn all_port_offsets(
        &self,
        node: NodeIndex<Self::NodeIndexBase>,
    ) -> impl Iterator<Item = PortOffset<Self::PortOffsetBase>> + Clone;
    fn contains_node(&self, node: NodeIndex<Self::NodeIndexBase>) -> bool;
    fn contains_port(&self, port: PortIndex<Self::PortIndexBase>) -> bool;
    fn is_empty(&self) -> bool;
    fn node_count(&self) -> usize;
    fn port_count(&self) -> usize;
    fn nodes_iter(&self) -> impl Iterator<Item = NodeIndex<Self::NodeIndexBase>> + Clone;
    fn ports_iter(&self) -> impl Iterator<Item = PortIndex<Self::PortIndexBase>> + Clone;
    fn node_capacity(&self) -> usize;
    fn port_capacity(&self) -> usize;
    fn node_port_capacity(&self, node: NodeIndex<Self::NodeIndexBase>) -> usize;

    /// The number of incoming ports of a node.
    fn num_inputs(&self, node: NodeIndex<Self::NodeIndexBase>) -> usize {
        self.num_ports(node, Direction::Incoming) // guess: the default that the name says
    }

    /// The number of outgoing ports of a node.
    fn num_outputs(&self, node: NodeIndex<Self::NodeIndexBase>) -> usize {
        self.num_ports(node, Direction::Outgoing) // guess: the default that the name says
    }

    /// The incoming ports of a node.
    fn inputs(
        &self,
        node: NodeIndex<Self::NodeIndexBase>,
    ) -> impl Iterator<Item = PortIndex<Self::PortIndexBase>> + Clone {
        self.ports(node, Direction::Incoming) // guess: the default that the name says
    }

    /// The outgoing ports of a node.
    fn outputs(
        &self,
        node: NodeIndex<Self::NodeIndexBase>,
    ) -> impl Iterator<Item = PortIndex<Self::PortIndexBase>> + Clone {
        self.ports(node, Direction::Outgoing) // guess: the default that the name says
    }
}

/// Changing nodes and ports.
#[allow(missing_docs)]
pub trait PortMut: PortView {
    fn add_node(&mut self, incoming: usize, outgoing: usize) -> NodeIndex<Self::NodeIndexBase>;
    fn remove_node(&mut self, node: NodeIndex<Self::NodeIndexBase>);
    fn clear(&mut self);
    fn reserve(&mut self, nodes: usize, ports: usize);
    fn set_num_ports<F>(
        &mut self,
        node: NodeIndex<Self::NodeIndexBase>,
        incoming: usize,
        outgoing: usize,
        rekey: F,
    ) where
        F: FnMut(PortIndex<Self::PortIndexBase>, PortOperation<Self::PortIndexBase>);
    fn swap_nodes(&mut self, a: NodeIndex<Self::NodeIndexBase>, b: NodeIndex<Self::NodeIndexBase>);
    fn compact_nodes<F>(&mut self, rekey: F)
    where
        F: FnMut(NodeIndex<Self::NodeIndexBase>, NodeIndex<Self::NodeIndexBase>);
    fn compact_ports<F>(&mut self, rekey: F)
    where
        F: FnMut(PortIndex<Self::PortIndexBase>, PortIndex<Self::PortIndexBase>);
    fn shrink_to_fit(&mut self);
}

/// Reading links.
#[allow(missing_docs)]
pub trait LinkView: PortView {
    type LinkEndpoint: Into<PortIndex<Self::PortIndexBase>> + Copy;

    fn get_connections(
        &self,
        from: NodeIndex<Self::NodeIndexBase>,
        to: NodeIndex<Self::NodeIndexBase>,
    ) -> impl Iterator<Item = (Self::LinkEndpoint, Self::LinkEndpoint)> + Clone;
    fn port_links(
        &self,
        port: PortIndex<Self::PortIndexBase>,
    ) -> impl Iterator<Item = (Self::LinkEndpoint, Self::LinkEndpoint)> + Clone;
    fn links(
        &self,
        node: NodeIndex<Self::NodeIndexBase>,
        direction: Direction,
    ) -> impl Iterator<Item = (Self::LinkEndpoint, Self::LinkEndpoint)> + Clone;
    fn all_links(
        &self,
        node: NodeIndex<Self::NodeIndexBase>,
    ) -> impl Iterator<Item = (Self::LinkEndpoint, Self::LinkEndpoint)> + Clone;
    fn neighbours(
        &self,
        node: NodeIndex<Self::NodeIndexBase>,
        direction: Direction,
    ) -> impl Iterator<Item = NodeIndex<Self::NodeIndexBase>> + Clone;
    fn all_neighbours(
        &self,
        node: NodeIndex<Self::NodeIndexBase>,
    ) -> impl Iterator<Item = NodeIndex<Self::NodeIndexBase>> + Clone;
    fn link_count(&self) -> usize;

    /// The far end of a port's first link.
    fn port_link(&self, port: PortIndex<Self::PortIndexBase>) -> Option<Self::LinkEndpoint> {
        self.port_links(port).next().map(|(_, far)| far) // guess: the first of port_links; panics on a dead inner port
    }
}

/// Changing links.
#[allow(missing_docs)]
pub trait LinkMut: LinkView + PortMut {
    fn link_ports(
        &mut self,
        port_a: PortIndex<Self::PortIndexBase>,
        port_b: PortIndex<Self::PortIndexBase>,
    ) -> Result<
        (Self::LinkEndpoint, Self::LinkEndpoint),
        LinkError<Self::NodeIndexBase, Self::PortIndexBase, Self::PortOffsetBase>,
    >;
    fn unlink_port(&mut self, port: PortIndex<Self::PortIndexBase>) -> Option<Self::LinkEndpoint>;
}

/// Reading subports.
#[allow(missing_docs)]
pub trait MultiView: LinkView {
    fn subport_link(
        &self,
        subport: SubportIndex<Self::PortIndexBase>,
    ) -> Option<SubportIndex<Self::PortIndexBase>>;
    fn subports(
        &self,
        node: NodeIndex<Self::NodeIndexBase>,
        direction: Direction,
    ) -> impl Iterator<Item = SubportIndex<Self::PortIndexBase>> + Clone;
    fn all_subports(
        &self,
        node: NodeIndex<Self::NodeIndexBase>,
    ) -> impl Iterator<Item = SubportIndex<Self::PortIndexBase>> + Clone;
}

/// Changing links between subports.
#[allow(missing_docs)]
pub trait MultiMut: MultiView + LinkMut {
    fn link_subports(
        &mut self,
        subport_from: SubportIndex<Self::PortIndexBase>,
        subport_to: SubportIndex<Self::PortIndexBase>,
    ) -> Result<(), LinkError<Self::NodeIndexBase, Self::PortIndexBase, Self::PortOffsetBase>>;
    fn unlink_subport(
        &mut self,
        subport: SubportIndex<Self::PortIndexBase>,
    ) -> Option<SubportIndex<Self::PortIndexBase>>;
}

/// Added for the driver: the original's iterator over the links of a port, which can be stepped from both ends. Its
/// own trait method hides that behind `impl Iterator`.
pub fn port_links_from_both_ends<N: IndexBase, P: IndexBase, PO: IndexBase>(
    graph: &MultiPortGraph<N, P, PO>,
    port: PortIndex<P>,
) -> PortLinks<'_, N, P, PO> {
    graph._port_links(port)
}
