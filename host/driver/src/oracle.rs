//! The original as oracle: which calls it is given, and its answers as records.

use portgraph::multiportgraph::SubportIndex;
use portgraph::portgraph::PortOperation;
use portgraph::{
    Direction, LinkError, LinkMut, LinkView, MultiMut, MultiPortGraph, MultiView, NodeIndex, PortGraph, PortIndex,
    PortMut, PortView,
};

use crate::{Answer, Call, End, LAST_OFFSET, MOST_PORTS, NODE_SLOTS, NONE, PORT_SLOTS};

/// The original's graph, at the port's widths.
pub type Graph = MultiPortGraph<u32, u32, u16>;
/// Its inner graph.
pub(crate) type Inner = PortGraph<u32, u32, u16>;

/// An event of a resize: port, kind (0 moved, 1 removed), and the new port or the old inner link ([`NONE`] for none).
pub type Event = [u32; 3];

/// A number that is no live port of any graph within the tables (R1).
const SURELY_DEAD: usize = 4_000_000;
/// The first number that the original's indexes can't hold (R4).
const FIRST_UNHELD: u32 = 2_147_483_647;
/// More ports than any block of a run has: such a node always takes its block at the end of the port table.
const LARGER_THAN_ANY_BLOCK: usize = 3_000;

/// The kit's release that a graph is made for (document 02, request 09).
#[derive(Clone, Copy, Debug, Default, PartialEq, Eq, PartialOrd, Ord, Hash)]
pub enum Release {
    /// Every port takes many wires.
    #[default]
    One,
    /// An input takes one wire.
    Two,
}

/// Why a call is not given to the original.
#[derive(Clone, Copy, Debug, PartialEq, Eq)]
pub enum Reason {
    /// A refusal that the port adds (2, 3, 5, 6, 8, 9, 10 or 18), with the whole answer that follows from the inner graph.
    Added(Answer),
    /// R2: the original panics where a dead port is read. The answer is 7.
    DeadPortRead(Answer),
    /// R3: `link_subports` with a dead first port and a second end that the original panics on. The answer is 7.
    DeadFirstEnd(Answer),
    /// R4: a number that the original's indexes can't hold. The answer is 4 or 7.
    Unheld(Answer),
    /// R9: within a block, a kept outgoing port moves into the slot of a dropped split port. No answer from here: a
    /// history is compared up to this call.
    SetApart,
}

impl Reason {
    /// The answer that follows from the inner graph, if one does.
    pub fn expected(self) -> Option<Answer> {
        match self {
            Reason::Added(answer)
            | Reason::DeadPortRead(answer)
            | Reason::DeadFirstEnd(answer)
            | Reason::Unheld(answer) => Some(answer),
            Reason::SetApart => None,
        }
    }
}

/// What became of a call.
#[derive(Clone, Copy, Debug, PartialEq, Eq)]
pub enum Asked {
    /// The original ran the call; its answer as a record.
    Answer(Answer),
    /// The original was not given the call, and its graph is as before.
    NotGiven(Reason),
}

impl Asked {
    /// The original's answer, or the one that follows from its inner graph; `None` where a history ends (R9).
    pub fn expected(self) -> Option<Answer> {
        match self {
            Asked::Answer(answer) => Some(answer),
            Asked::NotGiven(reason) => reason.expected(),
        }
    }
}

/// What a number stands for.
#[derive(Clone, Copy, Debug, PartialEq, Eq)]
pub(crate) enum Standing {
    /// The original's indexes can't hold it.
    Unheld,
    /// Not live.
    Dead,
    /// A hidden node, or a port of one.
    Hidden,
    /// A block, or a port of one.
    Visible,
}

/// One graph of the original with what the driver keeps of its history.
#[derive(Clone)]
pub struct Oracle {
    pub(crate) graph: Graph,
    /// Length of the original's node table: one more than the highest node number ever live.
    pub(crate) node_table: usize,
    /// Length of the original's port table.
    pub(crate) port_table: usize,
    /// Events of the last accepted resize.
    pub(crate) moves: Vec<Event>,
    /// The release that the graph is made for.
    pub(crate) release: Release,
}

impl Default for Oracle {
    fn default() -> Self {
        Self::new()
    }
}

pub(crate) fn number(index: usize) -> u32 {
    u32::try_from(index).expect("the original's numbers fit u32")
}

fn refusal(number: u32, carried: u32) -> Answer {
    [number, carried, 0, 0, 0]
}

fn found(end: Option<SubportIndex<u32>>) -> Answer {
    match end {
        Some(end) => [0, 1, number(end.port().index()), number(end.offset()), 0],
        None => [0; 5],
    }
}

fn subport(end: End) -> SubportIndex<u32> {
    SubportIndex::new_multi(PortIndex::new(end.port as usize), end.offset as usize)
}

fn event(port: PortIndex<u32>, operation: PortOperation<u32>) -> Event {
    let port = number(port.index());
    match operation {
        PortOperation::Moved { new_index } => [port, 0, number(new_index.index())],
        PortOperation::Removed { old_link } => [port, 1, old_link.map_or(NONE, |link| number(link.index()))],
    }
}

/// Length of the port table: the next block at its end starts there. The original hides its vectors, and a portless
/// node with a block of 1 hides that block's slot, so the highest live port doesn't tell.
pub(crate) fn port_table(inner: &Inner) -> usize {
    let mut probe = inner.clone();
    let node = probe.add_node(0, LARGER_THAN_ANY_BLOCK);
    let first = probe.all_ports(node).next().expect("the probe has ports");
    first.index()
}

/// One more than the highest live node number.
pub(crate) fn highest_node(inner: &Inner) -> usize {
    inner.nodes_iter().last().map_or(0, |node| node.index() + 1)
}

impl Oracle {
    /// An empty graph of release 1.
    pub fn new() -> Self {
        Self::made_for(Release::One)
    }

    /// An empty graph.
    pub fn made_for(release: Release) -> Self {
        Self { graph: Graph::new(), node_table: 0, port_table: 0, moves: Vec::new(), release }
    }

    /// The release that the graph is made for.
    pub fn release(&self) -> Release {
        self.release
    }

    /// The original's graph.
    pub fn graph(&self) -> &Graph {
        &self.graph
    }

    pub(crate) fn inner(&self) -> &Inner {
        self.graph.as_portgraph()
    }

    /// Lengths of the original's node and port table.
    pub fn tables(&self) -> (usize, usize) {
        (self.node_table, self.port_table)
    }

    /// Events of the last accepted resize, in the original's order.
    pub fn moves(&self) -> &[Event] {
        &self.moves
    }

    /// Writes the events of the last accepted resize into a move list; numbers past the last event keep their old
    /// contents. The list must hold them (refusal 6 sees to that).
    pub fn write_moves(&self, list: &mut [u32]) {
        for (place, number) in list[..3 * self.moves.len()].iter_mut().zip(self.moves.iter().flatten()) {
            *place = *number;
        }
    }

    /// Gives a call to the original, or says why it is not given.
    ///
    /// # Panics
    ///
    /// If the original panics, or answers otherwise than any reading allows. The graph is then as before the call.
    pub fn ask(&mut self, call: Call) -> Asked {
        self.ask_with_list(call, None)
    }

    /// As [`Oracle::ask`], with the length of the move list that comes with a resize (refusal 6).
    pub fn ask_with_list(&mut self, call: Call, list: Option<usize>) -> Asked {
        if let Some(reason) = self.not_given(call, list) {
            return Asked::NotGiven(reason);
        }
        let mut after = self.graph.clone();
        let mut moves = Vec::new();
        let answer = self.run(&mut after, call, &mut moves);
        let node_table = self.node_table.max(highest_node(after.as_portgraph()));
        let port_table = match call {
            Call::Add { .. } | Call::Resize { .. } | Call::Link { .. } => port_table(after.as_portgraph()),
            _ => self.port_table,
        };
        if node_table > NODE_SLOTS || port_table > PORT_SLOTS {
            return Asked::NotGiven(Reason::Added(refusal(10, 0)));
        }
        self.graph = after;
        self.node_table = node_table;
        self.port_table = port_table;
        if matches!((call, answer[0]), (Call::Resize { .. }, 0)) {
            self.moves = moves;
        }
        Asked::Answer(answer)
    }

    /// The link that leaves no stub, which the original lacks. 18, 11 and 12 are decided on its inner graph, 12 with the ports
    /// as named, and it is not given such a call; every other one is its link.
    pub fn link_clean(&mut self, a: u32, b: u32) -> Asked {
        let added = |answer| Asked::NotGiven(Reason::Added(answer));
        match (self.port_standing(a), self.port_standing(b)) {
            (Standing::Visible, Standing::Unheld | Standing::Dead | Standing::Visible) if self.taken(a, b) => {
                return added(refusal(18, 0));
            }
            (Standing::Visible, Standing::Unheld | Standing::Dead) => return added(refusal(11, b)),
            (Standing::Visible, Standing::Visible) => {}
            _ => return self.ask(Call::Link { a, b }),
        }
        let [side, other] =
            [a, b].map(|port| self.inner().port_direction(PortIndex::new(port as usize)).expect("live"));
        match side == other {
            true => added([12, a, b, direction_number(side), 0]),
            false => self.ask(Call::Link { a, b }),
        }
    }

    /// Runs a request record: refusal 2 for an unknown code or an unused word that is not 0, else the call.
    pub fn ask_record(&mut self, record: [u32; 5]) -> Asked {
        match Call::from_record(record) {
            Some(call) => self.ask(call),
            None => Asked::NotGiven(Reason::Added(refusal(2, 0))),
        }
    }

    /// The events that a resize would have, by running it on a clone: also in the case set apart (R9), whose move list
    /// is right in the original. Empty for a node that is not live.
    pub fn resize_events(&self, node: u32, incoming: u32, outgoing: u32) -> Vec<Event> {
        let mut moves = Vec::new();
        if self.node_standing(node) != Standing::Unheld {
            resize(&mut self.graph.clone(), node, incoming, outgoing, &mut moves);
        }
        moves
    }

    pub(crate) fn node_standing(&self, node: u32) -> Standing {
        if node >= FIRST_UNHELD {
            return Standing::Unheld;
        }
        let node = NodeIndex::new(node as usize);
        match (self.inner().contains_node(node), self.graph.contains_node(node)) {
            (false, _) => Standing::Dead,
            (true, false) => Standing::Hidden,
            (true, true) => Standing::Visible,
        }
    }

    pub(crate) fn port_standing(&self, port: u32) -> Standing {
        if port >= FIRST_UNHELD {
            return Standing::Unheld;
        }
        let port = PortIndex::new(port as usize);
        match (self.inner().contains_port(port), self.graph.contains_port(port)) {
            (false, _) => Standing::Dead,
            (true, false) => Standing::Hidden,
            (true, true) => Standing::Visible,
        }
    }

    /// The number of subports of a port outside hidden nodes, if it is split. Read from the inner graph: the port's
    /// link leads to the copy port of a hidden node, which is alone on its side (a hidden node has 2 subports or more).
    pub fn split(&self, port: u32) -> Option<u32> {
        if self.port_standing(port) != Standing::Visible {
            return None;
        }
        let inner = self.inner();
        let port = PortIndex::new(port as usize);
        let far = inner.port_link(port)?;
        let node = inner.port_node(far)?;
        let hidden = !self.graph.contains_node(node);
        let direction = inner.port_direction(far)?;
        if hidden && inner.num_ports(node, direction) == 1 {
            Some(number(inner.num_ports(node, direction.reverse())))
        } else {
            None
        }
    }

    /// Whether a port is a live input that has a wire.
    fn wired_input(&self, port: u32) -> bool {
        self.port_standing(port) == Standing::Visible
            && self.inner().port_direction(PortIndex::new(port as usize)) == Some(Direction::Incoming)
            && self.graph.port_links(PortIndex::new(port as usize)).next().is_some()
    }

    /// Whether 18 keeps two ports from being linked, where nothing that is tested before it does.
    fn taken(&self, a: u32, b: u32) -> bool {
        self.release == Release::Two && (self.wired_input(a) || self.wired_input(b))
    }

    /// Whether a live end is split and has no such offset.
    fn lacks_offset(&self, end: End) -> bool {
        self.split(end.port).is_some_and(|subports| end.offset >= subports)
    }

    /// The offset of an end as read: 0 on an unsplit port.
    fn offset_as_read(&self, end: End) -> u32 {
        if self.split(end.port).is_some() {
            end.offset
        } else {
            0
        }
    }

    /// How many slots the block of a node has: up to one less, a resize is done within it.
    pub fn capacity(&self, node: u32) -> Option<usize> {
        (self.node_standing(node) == Standing::Visible)
            .then(|| self.inner().node_port_capacity(NodeIndex::new(node as usize)))
    }

    /// The blocks of slots that the original's nodes hold, hidden ones too: node, first port if it has one, and how many slots.
    pub fn held_blocks(&self) -> Vec<(u32, Option<u32>, u32)> {
        let inner = self.inner();
        let block = |node: NodeIndex<u32>| {
            let first = inner.all_ports(node).next().map(|port| number(port.index()));
            (number(node.index()), first, number(inner.node_port_capacity(node)))
        };
        inner.nodes_iter().map(block).filter(|(_, _, size)| *size > 0).collect()
    }

    /// The graph after a resize that is set apart (R9), as the port's rules have it: the dropped split ports are cut in
    /// the order in which they are reported, which takes their hidden nodes, and then nothing is set apart any more.
    pub fn after_set_apart(&self, node: u32, incoming: u32, outgoing: u32) -> Oracle {
        let mut after = self.clone();
        let moves = self.resize_events(node, incoming, outgoing);
        for [port, _, _] in moves.iter().filter(|[port, kind, _]| *kind == 1 && self.split(*port).is_some()) {
            after.ask(Call::Unlink { port: *port });
        }
        after.ask(Call::Resize { node, incoming, outgoing });
        after.moves = moves;
        after
    }

    /// Whether a resize is the case set apart (R9).
    pub fn set_apart(&self, node: u32, incoming: u32, outgoing: u32) -> bool {
        if self.node_standing(node) != Standing::Visible {
            return false;
        }
        let inner = self.inner();
        let node = NodeIndex::new(node as usize);
        let slots: Vec<usize> = inner.all_ports(node).map(|port| port.index()).collect();
        let (old_in, old_out) = (inner.num_inputs(node), inner.num_outputs(node));
        let (new_in, new_out) = (incoming as usize, outgoing as usize);
        let within = (1..inner.node_port_capacity(node)).contains(&(new_in + new_out));
        if !within || (old_in, old_out) == (new_in, new_out) {
            return false;
        }
        let Some(first) = slots.first() else { return false };
        let dropped = slots[..old_in].iter().skip(new_in).chain(slots[old_in..].iter().skip(new_out));
        let filled = first + new_in..first + new_in + old_out.min(new_out);
        dropped.into_iter().any(|slot| filled.contains(slot) && self.split(number(*slot)).is_some())
    }

    /// What is decided before the call, in checking order; refusal 10 is decided on a clone.
    fn not_given(&self, call: Call, list: Option<usize>) -> Option<Reason> {
        let added = |number, carried| Some(Reason::Added(refusal(number, carried)));
        let too_many = |incoming: u32, outgoing: u32| u64::from(incoming) + u64::from(outgoing) > MOST_PORTS;
        match call {
            Call::Add { incoming, outgoing } => {
                if too_many(incoming, outgoing) {
                    return added(3, 0);
                }
                None
            }
            Call::Remove { node } => self.node_not_given(node),
            Call::Resize { node, incoming, outgoing } => {
                if too_many(incoming, outgoing) {
                    return added(3, 0);
                }
                if let Some(reason) = self.node_not_given(node) {
                    return Some(reason);
                }
                if let (Some(list), Some(need)) = (list, self.list_needed(node)) {
                    if list < need {
                        return added(6, 0);
                    }
                }
                self.set_apart(node, incoming, outgoing).then_some(Reason::SetApart)
            }
            Call::Link { a, b } => match self.port_standing(a) {
                Standing::Unheld => Some(Reason::Unheld(refusal(7, a))),
                Standing::Dead => None,
                Standing::Hidden => added(8, a),
                Standing::Visible if self.port_standing(b) == Standing::Hidden => added(8, b),
                Standing::Visible if self.taken(a, b) => added(18, 0),
                Standing::Visible => None,
            },
            Call::Unlink { port } => match self.port_standing(port) {
                Standing::Unheld => Some(Reason::Unheld(refusal(7, port))),
                Standing::Hidden => added(8, port),
                Standing::Dead | Standing::Visible => None,
            },
            Call::LinkSubports { a, b } => {
                if a.offset > LAST_OFFSET || b.offset > LAST_OFFSET {
                    return added(2, 0);
                }
                let second_hidden = self.port_standing(b.port) == Standing::Hidden;
                match self.port_standing(a.port) {
                    Standing::Unheld => Some(Reason::Unheld(refusal(7, a.port))),
                    Standing::Dead if second_hidden || self.lacks_offset(b) => {
                        Some(Reason::DeadFirstEnd(refusal(7, a.port)))
                    }
                    Standing::Dead => None,
                    Standing::Hidden => added(8, a.port),
                    Standing::Visible if second_hidden => added(8, b.port),
                    Standing::Visible if self.lacks_offset(a) => added(9, a.port),
                    Standing::Visible if self.lacks_offset(b) => added(9, b.port),
                    Standing::Visible if self.taken(a.port, b.port) => added(18, 0),
                    Standing::Visible => None,
                }
            }
            Call::UnlinkSubport { end } | Call::SubportLink { end } => {
                if end.offset > LAST_OFFSET {
                    return added(2, 0);
                }
                match self.port_standing(end.port) {
                    Standing::Unheld => Some(Reason::Unheld(refusal(7, end.port))),
                    Standing::Dead if matches!(call, Call::SubportLink { .. }) => {
                        Some(Reason::DeadPortRead(refusal(7, end.port)))
                    }
                    Standing::Dead => None,
                    Standing::Hidden => added(8, end.port),
                    Standing::Visible if self.lacks_offset(end) => added(9, end.port),
                    Standing::Visible => None,
                }
            }
            Call::Counts => None,
        }
    }

    fn node_not_given(&self, node: u32) -> Option<Reason> {
        match self.node_standing(node) {
            Standing::Unheld => Some(Reason::Unheld(refusal(4, 0))),
            Standing::Hidden => Some(Reason::Added(refusal(5, 0))),
            Standing::Dead | Standing::Visible => None,
        }
    }

    /// How many numbers the move list of a resize must hold: 3 times the node's present port count.
    pub fn list_needed(&self, node: u32) -> Option<usize> {
        (self.node_standing(node) == Standing::Visible)
            .then(|| 3 * self.inner().all_ports(NodeIndex::new(node as usize)).count())
    }

    /// Runs a call on a clone; `self` is the graph before it.
    fn run(&self, graph: &mut Graph, call: Call, moves: &mut Vec<Event>) -> Answer {
        // The second port of a link, or a surely dead number for one that is not live before the call (R1).
        let second = |port: u32| match self.port_standing(port) {
            Standing::Unheld | Standing::Dead => PortIndex::new(SURELY_DEAD),
            Standing::Hidden | Standing::Visible => PortIndex::new(port as usize),
        };
        let first_dead = |port: u32| self.port_standing(port) == Standing::Dead;
        let answer = match call {
            Call::Add { incoming, outgoing } => {
                let node = graph.add_node(incoming as usize, outgoing as usize);
                let first = graph.all_ports(node).next().map_or(0, |port| port.index());
                [0, number(node.index()), number(first), 0, 0]
            }
            Call::Remove { node } => {
                graph.remove_node(NodeIndex::new(node as usize));
                if self.node_standing(node) == Standing::Dead {
                    refusal(4, 0)
                } else {
                    [0; 5]
                }
            }
            Call::Resize { node, incoming, outgoing } => {
                resize(graph, node, incoming, outgoing, moves);
                if self.node_standing(node) == Standing::Dead {
                    assert!(moves.is_empty(), "events for a dead node");
                    refusal(4, 0)
                } else {
                    [0, number(moves.len()), 0, 0, 0]
                }
            }
            Call::Link { a, b } => match graph.link_ports(PortIndex::new(a as usize), second(b)) {
                Ok((one, other)) => [
                    0,
                    number(one.port().index()),
                    number(one.offset()),
                    number(other.port().index()),
                    number(other.offset()),
                ],
                Err(LinkError::UnknownPort { port }) if first_dead(a) => {
                    assert_eq!(port.index(), a as usize, "the dead port is named");
                    refusal(7, a)
                }
                Err(LinkError::UnknownPort { port }) => {
                    assert_eq!(port.index(), SURELY_DEAD, "the dead port is named");
                    refusal(11, b)
                }
                Err(error) => link_error(error),
            },
            Call::Unlink { port } => {
                let end = graph.unlink_port(PortIndex::new(port as usize));
                if first_dead(port) {
                    assert!(end.is_none(), "a dead port has no link");
                    refusal(7, port)
                } else {
                    found(end)
                }
            }
            Call::LinkSubports { a, b } => {
                let to = SubportIndex::new_multi(second(b.port), b.offset as usize);
                match graph.link_subports(subport(a), to) {
                    Ok(()) => [0, a.port, self.offset_as_read(a), b.port, self.offset_as_read(b)],
                    Err(LinkError::UnknownPort { .. }) if first_dead(a.port) => refusal(7, a.port),
                    // R16: the original names the first end here.
                    Err(LinkError::UnknownPort { .. }) => {
                        assert_eq!(second(b.port).index(), SURELY_DEAD, "the second port is dead");
                        refusal(11, b.port)
                    }
                    Err(error) => link_error(error),
                }
            }
            Call::UnlinkSubport { end } => {
                let far = graph.unlink_subport(subport(end));
                if first_dead(end.port) {
                    assert!(far.is_none(), "a dead port has no link");
                    refusal(7, end.port)
                } else {
                    found(far)
                }
            }
            Call::SubportLink { end } => found(graph.subport_link(subport(end))),
            Call::Counts => [0, number(graph.node_count()), number(graph.port_count()), number(graph.link_count()), 0],
        };
        let prepares = matches!(call, Call::Link { .. }) && answer[0] != 7;
        if answer[0] != 0 && !prepares {
            assert!(*graph == self.graph, "the original changed its graph at {answer:?}");
        }
        answer
    }
}

fn resize(graph: &mut Graph, node: u32, incoming: u32, outgoing: u32, moves: &mut Vec<Event>) {
    let node = NodeIndex::new(node as usize);
    graph.set_num_ports(node, incoming as usize, outgoing as usize, |port, operation| {
        moves.push(event(port, operation));
    });
}

fn direction_number(direction: Direction) -> u32 {
    match direction {
        Direction::Incoming => 0,
        Direction::Outgoing => 1,
    }
}

fn link_error(error: LinkError<u32, u32, u16>) -> Answer {
    match error {
        LinkError::IncompatibleDirections { port_a, port_b, dir } => {
            [12, number(port_a.index()), number(port_b.index()), direction_number(dir), 0]
        }
        LinkError::AlreadyLinked { port } => refusal(13, number(port.index())),
        error => panic!("no refusal for {error:?}"),
    }
}
