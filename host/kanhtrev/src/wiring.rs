//! A wiring that answers each call at once.

use std::collections::BTreeMap;
use std::error::Error as StdError;
use std::fmt;

use crate::{merge, Answer, Block, Direction, End, List, Node, Place, Port, Refusal, Subport, View, Wire, SLOTS};

/// Why a call of a [`Wiring`] is not done.
#[derive(Clone, Debug, PartialEq, Eq, Hash)]
pub enum Error {
    /// The graph refuses it.
    Refused(Refusal),
    /// There is no such port.
    NoPort(Place),
    /// There is no such wire.
    NoWire(Wire),
    /// Another block has this name.
    NameTaken(String),
}

impl fmt::Display for Error {
    fn fmt(&self, f: &mut fmt::Formatter) -> fmt::Result {
        match self {
            Error::Refused(refusal) => refusal.fmt(f),
            Error::NoPort(place) => write!(f, "there is no {place}"),
            Error::NoWire(wire) => write!(f, "there is no wire from {wire}"),
            Error::NameTaken(name) => write!(f, "another block is called {name:?}"),
        }
    }
}

impl StdError for Error {
    fn source(&self) -> Option<&(dyn StdError + 'static)> {
        match self {
            Error::Refused(refusal) => Some(refusal),
            _ => None,
        }
    }
}

impl From<Refusal> for Error {
    fn from(refusal: Refusal) -> Self {
        Error::Refused(refusal)
    }
}

/// What an undo puts back beside the list.
#[derive(Clone, Debug)]
enum Change {
    Added(Node),
    Removed(Node, Option<String>, Option<u16>),
    Other,
}

/// A wiring with named blocks, drawn call by call. Ports are named by where they stand, so no port number has to be known.
///
/// It holds the list of the calls that were done, and runs it from the empty graph with each call, once for the answer and
/// once for the blocks and wires of [`Wiring::view`]. A call that is refused is taken off the list again, so it leaves
/// nothing at all: not even the empty subport that a refused [`List::link`] leaves.
///
/// ```
/// use kanhtrev::{Error, Wiring};
///
/// # fn main() -> Result<(), Error> {
/// let mut wiring = Wiring::new();
/// let receiver = wiring.add("receiver", 0, 1)?;
/// let fusion = wiring.add("fusion", 2, 1)?;
/// let valve = wiring.add("valve", 1, 0)?;
/// wiring.link(receiver.output(0), fusion.input(0))?;
/// let wrong = wiring.link(receiver.output(0), valve.input(0))?;
/// wiring.link(fusion.output(0), valve.input(0))?;
/// assert_eq!(wiring.wires_at(valve.input(0)).count(), 2);
///
/// wiring.cut(wrong)?; // that wire alone
/// assert_eq!(wiring.wires().len(), 2);
/// assert!(wiring.link(fusion.input(0), fusion.input(1)).is_err()); // both ends are inputs: nothing changes
///
/// wiring.resize(fusion, 3, 1)?; // ports have new numbers; places are as before
/// wiring.link(receiver.output(0), fusion.input(2))?;
/// wiring.undo()?;
/// assert_eq!(wiring.wires().len(), 2);
/// assert_eq!(wiring.find("valve"), Some(valve));
/// # Ok(())
/// # }
/// ```
#[derive(Clone, Debug, Default)]
pub struct Wiring {
    list: List,
    changes: Vec<Change>,
    names: BTreeMap<Node, String>,
    times: BTreeMap<Node, u16>,
    view: View,
}

impl Wiring {
    /// An empty wiring.
    #[must_use]
    pub fn new() -> Self {
        Self::default()
    }

    /// The wiring of a file. Its blocks are numbered from 0 in file order and have neither names nor times; [`Wiring::name_block`] and
    /// [`Wiring::set_time`] give some.
    ///
    /// # Errors
    ///
    /// As [`List::load`]: [`Refusal::WrongSum`], [`Refusal::WrongLayout`], or the refusal of the first add or link that finds no
    /// space.
    pub fn load(file: &[u8]) -> Result<Self, Error> {
        let list = List::load(file)?;
        let view = list.view()?;
        Ok(Self { list, view, ..Self::default() })
    }

    /// The file of this wiring. It holds neither names nor times nor numbers: the same blocks and wires give the same bytes.
    ///
    /// # Errors
    ///
    /// None is given: the list is whole, and there is room for the longest file.
    pub fn save(&self) -> Result<Vec<u8>, Error> {
        Ok(self.list.save()?)
    }

    /// This wiring and another behind it, as of their files: the blocks of both are numbered from 0, this one's first, with the names and
    /// times that they have. Neither of the two changes.
    ///
    /// ```
    /// use kanhtrev::{Error, Wiring};
    ///
    /// # fn main() -> Result<(), Error> {
    /// let mut steering = Wiring::new();
    /// let fusion = steering.add("fusion", 0, 1)?;
    /// let valve = steering.add("valve", 1, 0)?;
    /// steering.link(fusion.output(0), valve.input(0))?;
    /// let mut sprayer = Wiring::new();
    /// sprayer.add("nozzle", 1, 0)?;
    ///
    /// let mut both = steering.merge(&sprayer)?;
    /// let (fusion, nozzle) = (both.find("fusion").unwrap(), both.find("nozzle").unwrap());
    /// both.link(fusion.output(0), nozzle.input(0))?;
    /// assert_eq!((both.blocks().len(), both.wires().len()), (3, 2));
    /// # Ok(())
    /// # }
    /// ```
    ///
    /// # Errors
    ///
    /// [`Error::NameTaken`] if a block of the other has a name of this one's; [`Refusal::NoSpace`] if one of the two, or both together, cannot be
    /// loaded here.
    pub fn merge(&self, other: &Wiring) -> Result<Wiring, Error> {
        if let Some(name) = other.names.values().find(|name| self.find(name).is_some()) {
            return Err(Error::NameTaken(name.clone()));
        }
        let mut both = Wiring::load(&merge(&self.save()?, &other.save()?)?)?;
        let known = [self, other].into_iter().flat_map(|wiring| {
            wiring.blocks().iter().map(|block| (wiring.names.get(&block.node), wiring.times.get(&block.node)))
        });
        for (block, (name, time)) in both.view.blocks.iter().zip(known) {
            both.names.extend(name.map(|name| (block.node, name.clone())));
            both.times.extend(time.map(|time| (block.node, *time)));
        }
        Ok(both)
    }

    /// The calls that were done.
    pub fn list(&self) -> &List {
        &self.list
    }

    /// The blocks and the wires.
    pub fn view(&self) -> &View {
        &self.view
    }

    /// The blocks, by ascending number, with the port numbers of the moment.
    pub fn blocks(&self) -> &[Block] {
        &self.view.blocks
    }

    /// The wires: block after block, by output position and offset.
    pub fn wires(&self) -> &[Wire] {
        &self.view.wires
    }

    /// The wires that end at a port.
    pub fn wires_at(&self, place: Place) -> impl Iterator<Item = &Wire> {
        self.view.wires_at(place)
    }

    /// The block of a name.
    pub fn find(&self, name: &str) -> Option<Node> {
        self.names.iter().find(|(_, own)| *own == name).map(|(node, _)| *node)
    }

    /// The name of a block; `None` if it has none or isn't there.
    pub fn name(&self, node: Node) -> Option<&str> {
        self.names.get(&node).map(String::as_str)
    }

    /// Gives a block a name, in place of the one that it has.
    ///
    /// # Errors
    ///
    /// [`Refusal::NodeNotLive`] if there is no such block, [`Error::NameTaken`] if another has the name.
    pub fn name_block(&mut self, node: Node, name: impl Into<String>) -> Result<(), Error> {
        if self.view.block(node).is_none() {
            return Err(Refusal::NodeNotLive.into());
        }
        let name = self.free_name(name.into(), Some(node))?;
        self.names.insert(node, name);
        Ok(())
    }

    /// The time of a block in microseconds; 0 if none was given.
    pub fn time(&self, node: Node) -> u16 {
        self.times.get(&node).copied().unwrap_or(0)
    }

    /// Gives a block a time in microseconds, in place of the one that it has.
    ///
    /// # Errors
    ///
    /// [`Refusal::NodeNotLive`] if there is no such block.
    pub fn set_time(&mut self, node: Node, microseconds: u16) -> Result<(), Error> {
        if self.view.block(node).is_none() {
            return Err(Refusal::NodeNotLive.into());
        }
        self.times.insert(node, microseconds);
        Ok(())
    }

    /// The largest sum of times along wires that end at a block, its own time included, in microseconds.
    ///
    /// # Errors
    ///
    /// [`Refusal::NodeNotLive`] or [`Refusal::NodeHidden`] if there is no such block, [`Refusal::Cycle`] if a cycle can reach it.
    pub fn longest(&self, node: Node) -> Result<u32, Error> {
        Ok(self.list.longest(&self.slot_times(), node)?)
    }

    /// A path along wires that has this sum, from its first block to the one named. Where there are several it is one of them.
    ///
    /// # Errors
    ///
    /// As [`Wiring::longest`].
    pub fn path(&self, node: Node) -> Result<Vec<Node>, Error> {
        Ok(self.list.path(&self.slot_times(), node)?)
    }

    /// The times by slot, as the entries take them.
    fn slot_times(&self) -> Vec<u16> {
        let mut times = vec![0; SLOTS];
        for (node, time) in &self.times {
            if let Some(slot) = times.get_mut(node.0 as usize) {
                *slot = *time;
            }
        }
        times
    }

    /// Adds a block.
    ///
    /// # Errors
    ///
    /// [`Error::NameTaken`] if a block has the name, [`Refusal::TooManyPorts`] if it has more than 1,024 ports,
    /// [`Refusal::NoSpace`] if there is no room.
    pub fn add(&mut self, name: impl Into<String>, incoming: u32, outgoing: u32) -> Result<Node, Error> {
        let name = self.free_name(name.into(), None)?;
        self.list.add(incoming, outgoing);
        let node = self.done(|answer| match answer {
            Answer::Added { node, .. } => Some(node),
            _ => None,
        })?;
        self.names.insert(node, name);
        self.changes.push(Change::Added(node));
        Ok(node)
    }

    /// Removes a block with its wires.
    ///
    /// # Errors
    ///
    /// [`Refusal::NodeNotLive`] or [`Refusal::NodeHidden`] if there is no such block.
    pub fn remove(&mut self, node: Node) -> Result<(), Error> {
        self.list.remove(node);
        self.done(Some)?;
        let (name, time) = (self.names.remove(&node), self.times.remove(&node));
        self.changes.push(Change::Removed(node, name, time));
        Ok(())
    }

    /// Changes the port counts of a block. The highest positions of a side are dropped, with their wires; other wires stay
    /// where they are. Ports may have new numbers afterwards, also those of [`Wiring::wires`].
    ///
    /// # Errors
    ///
    /// [`Refusal::TooManyPorts`], [`Refusal::NodeNotLive`], [`Refusal::NodeHidden`], [`Refusal::NoSpace`].
    pub fn resize(&mut self, node: Node, incoming: u32, outgoing: u32) -> Result<(), Error> {
        self.list.resize(node, incoming, outgoing);
        self.done(Some)?;
        self.changes.push(Change::Other);
        Ok(())
    }

    /// Adds a wire between an output and an input, in either order.
    ///
    /// # Errors
    ///
    /// [`Error::NoPort`] if there is no such port, [`Refusal::SameDirection`] if both are inputs or both outputs,
    /// [`Refusal::NoSpace`] if there is no room.
    pub fn link(&mut self, a: Place, b: Place) -> Result<Wire, Error> {
        let (first, second) = (self.port(a)?, self.port(b)?);
        self.list.link(first, second);
        let end = |place: Place, end: Subport| End { place, port: end.port, offset: end.offset };
        let (a, b) = self.done(|answer| match answer {
            Answer::Linked { a: near, b: far } => Some((end(a, near), end(b, far))),
            _ => None,
        })?;
        self.changes.push(Change::Other);
        Ok(if a.place.side == Direction::Outgoing { Wire { from: a, to: b } } else { Wire { from: b, to: a } })
    }

    /// Cuts one wire. It is known by its places and offsets, so one that [`Wiring::wires`] or [`Wiring::link`] gave before a
    /// resize is found.
    ///
    /// # Errors
    ///
    /// [`Error::NoWire`] if it isn't there.
    pub fn cut(&mut self, wire: Wire) -> Result<(), Error> {
        let Some(now) = self.view.wires.iter().find(|now| now.is(&wire)) else { return Err(Error::NoWire(wire)) };
        self.list.unlink_subport(now.from.subport());
        self.done(Some)?;
        self.changes.push(Change::Other);
        Ok(())
    }

    /// Cuts every wire of a port, and tells how many there were.
    ///
    /// # Errors
    ///
    /// [`Error::NoPort`] if there is no such port.
    pub fn unlink(&mut self, place: Place) -> Result<usize, Error> {
        let port = self.port(place)?;
        let before = self.view.wires.len();
        self.list.unlink(port);
        self.done(Some)?;
        self.changes.push(Change::Other);
        Ok(before.saturating_sub(self.view.wires.len()))
    }

    /// Takes back the last call that was done; `false` if there is none since [`Wiring::new`] or [`Wiring::load`]. A block that
    /// comes back has its time again, and its name, unless another was given that name by [`Wiring::name_block`] meanwhile. Names and
    /// times that were given are no calls, and stay.
    ///
    /// # Errors
    ///
    /// None is given: the calls before it were done already.
    pub fn undo(&mut self) -> Result<bool, Error> {
        let Some(change) = self.changes.last().cloned() else { return Ok(false) };
        let mut list = self.list.clone();
        list.pop();
        self.view = list.view()?;
        self.list = list;
        self.changes.pop();
        match change {
            Change::Added(node) => {
                self.names.remove(&node);
                self.times.remove(&node);
            }
            Change::Removed(node, name, time) => {
                self.names.extend(name.filter(|name| self.find(name).is_none()).map(|name| (node, name)));
                self.times.extend(time.map(|time| (node, time)));
            }
            Change::Other => {}
        }
        Ok(true)
    }

    /// Runs the list with the call that was put at its end, and reads its answer. A refused one is taken off again.
    fn done<T>(&mut self, read: impl FnOnce(Answer) -> Option<T>) -> Result<T, Error> {
        let answered = self.list.last_answer().and_then(|answer| {
            let told = read(answer).ok_or(Refusal::Unknown(0))?;
            Ok((told, self.list.view()?))
        });
        match answered {
            Ok((told, view)) => {
                self.view = view;
                Ok(told)
            }
            Err(refusal) => {
                self.list.pop();
                Err(refusal.into())
            }
        }
    }

    fn port(&self, place: Place) -> Result<Port, Error> {
        self.view.port(place).ok_or(Error::NoPort(place))
    }

    /// The name, unless a block other than this one has it.
    fn free_name(&self, name: String, own: Option<Node>) -> Result<String, Error> {
        match self.find(&name) {
            Some(node) if Some(node) != own => Err(Error::NameTaken(name)),
            _ => Ok(name),
        }
    }
}
