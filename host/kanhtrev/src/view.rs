//! What a page is drawn from: the blocks and the wires of a wiring, with the port numbers of the moment.

use std::fmt;

use crate::{Direction, Node, Port, Subport};

/// A port by where it stands: its block, its side and its position there, counted from 0. It means the same port after a resize,
/// which may give ports new numbers.
#[derive(Clone, Copy, Debug, PartialEq, Eq, PartialOrd, Ord, Hash)]
pub struct Place {
    /// The block.
    pub node: Node,
    /// The side of the block.
    pub side: Direction,
    /// The position on that side, from 0.
    pub position: u32,
}

impl fmt::Display for Place {
    fn fmt(&self, f: &mut fmt::Formatter) -> fmt::Result {
        let side = match self.side {
            Direction::Incoming => "input",
            Direction::Outgoing => "output",
        };
        write!(f, "{side} {} of block {}", self.position, self.node.0)
    }
}

impl Node {
    /// The place of an input of this block.
    pub fn input(self, position: u32) -> Place {
        Place { node: self, side: Direction::Incoming, position }
    }

    /// The place of an output of this block.
    pub fn output(self, position: u32) -> Place {
        Place { node: self, side: Direction::Outgoing, position }
    }
}

/// A block with its ports. Their numbers are those of the moment: a resize may move them.
#[derive(Clone, Copy, Debug, PartialEq, Eq, Hash)]
pub struct Block {
    /// The block's number.
    pub node: Node,
    /// How many inputs it has.
    pub incoming: u32,
    /// How many outputs it has.
    pub outgoing: u32,
    /// Its first port; the others follow in one row, inputs first. `None` for a block without ports.
    pub first_port: Option<Port>,
}

impl Block {
    fn port(&self, place: u32) -> Option<Port> {
        self.first_port.and_then(|first| first.0.checked_add(place)).map(Port)
    }

    /// The port number of an input, if the block has one at that position.
    pub fn input(&self, position: u32) -> Option<Port> {
        (position < self.incoming).then(|| self.port(position)).flatten()
    }

    /// The port number of an output, if the block has one at that position.
    pub fn output(&self, position: u32) -> Option<Port> {
        (position < self.outgoing).then(|| self.port(self.incoming.checked_add(position)?)).flatten()
    }
}

/// An end of a wire: where it stands, and the port number of the moment.
#[derive(Clone, Copy, Debug, PartialEq, Eq, Hash)]
pub struct End {
    /// Where it stands.
    pub place: Place,
    /// The port's number.
    pub port: Port,
    /// Which of the port's wires it is.
    pub offset: u16,
}

impl End {
    /// The end as calls of a [`List`](crate::List) name it.
    pub fn subport(&self) -> Subport {
        self.port.at(self.offset)
    }

    /// The same end of the same port, whatever the port's number is by now.
    fn is(&self, other: &End) -> bool {
        (self.place, self.offset) == (other.place, other.offset)
    }
}

impl fmt::Display for End {
    fn fmt(&self, f: &mut fmt::Formatter) -> fmt::Result {
        write!(f, "{}", self.place)
    }
}

/// A wire.
#[derive(Clone, Copy, Debug, PartialEq, Eq, Hash)]
pub struct Wire {
    /// Its end at an output.
    pub from: End,
    /// Its end at an input.
    pub to: End,
}

impl Wire {
    /// The same wire, whatever the numbers of its ports are by now.
    pub fn is(&self, other: &Wire) -> bool {
        self.from.is(&other.from) && self.to.is(&other.to)
    }
}

impl fmt::Display for Wire {
    fn fmt(&self, f: &mut fmt::Formatter) -> fmt::Result {
        write!(f, "{} to {}", self.from, self.to)
    }
}

/// The blocks and the wires of a wiring.
#[derive(Clone, Debug, Default, PartialEq, Eq, Hash)]
pub struct View {
    /// The blocks, by ascending number.
    pub blocks: Vec<Block>,
    /// The wires: block after block, by output position and offset.
    pub wires: Vec<Wire>,
}

impl View {
    /// The block of a number.
    pub fn block(&self, node: Node) -> Option<&Block> {
        self.blocks.binary_search_by_key(&node, |block| block.node).ok().and_then(|place| self.blocks.get(place))
    }

    /// The port number of a place, if it is there.
    pub fn port(&self, place: Place) -> Option<Port> {
        let block = self.block(place.node)?;
        match place.side {
            Direction::Incoming => block.input(place.position),
            Direction::Outgoing => block.output(place.position),
        }
    }

    /// The wires that end at a place.
    pub fn wires_at(&self, place: Place) -> impl Iterator<Item = &Wire> {
        self.wires.iter().filter(move |wire| wire.from.place == place || wire.to.place == place)
    }

    /// What the bytes of a view say; `None` if they are none.
    pub(crate) fn read(bytes: &[u8]) -> Option<View> {
        let mut words = bytes.chunks_exact(4).map(|word| word.try_into().map_or(0, u32::from_le_bytes));
        let (blocks, wires) = (words.next()? as usize, words.next()? as usize);
        if bytes.len() != blocks.checked_mul(16)?.checked_add(wires.checked_mul(32)?)?.checked_add(8)? {
            return None;
        }
        let mut next = || words.next();
        let mut view = View { blocks: Vec::with_capacity(blocks), wires: Vec::with_capacity(wires) };
        for _ in 0..blocks {
            let (node, incoming, outgoing, first) = (Node(next()?), next()?, next()?, Port(next()?));
            let first_port = (incoming > 0 || outgoing > 0).then_some(first);
            view.blocks.push(Block { node, incoming, outgoing, first_port });
        }
        let mut end = |side| {
            let (port, offset, node, position) = (Port(next()?), next()?, Node(next()?), next()?);
            Some(End { place: Place { node, side, position }, port, offset: offset.try_into().ok()? })
        };
        for _ in 0..wires {
            view.wires.push(Wire { from: end(Direction::Outgoing)?, to: end(Direction::Incoming)? });
        }
        Some(view)
    }
}
