//! The wiring graph of a steering kit, for the programmer of a tablet: calls that are run by proved software.
//!
//! [`Wiring`] is the place to begin: it answers each call at once, knows its blocks by name and its ports by where they stand,
//! saves, loads, merges, takes back, and tells how long the way to a block takes.
//!
//! ```
//! use kanhtrev::{Error, Wiring};
//!
//! # fn main() -> Result<(), Error> {
//! let mut wiring = Wiring::new();
//! let receiver = wiring.add("receiver", 0, 1)?;
//! let valve = wiring.add("valve", 1, 0)?;
//! wiring.link(receiver.output(0), valve.input(0))?;
//! wiring.set_time(receiver, 2_500)?;
//! wiring.set_time(valve, 600)?;
//! assert_eq!(wiring.longest(valve)?, 3_100); // microseconds
//! let file = wiring.save()?;
//!
//! let next_tractor = Wiring::load(&file)?;
//! assert_eq!(next_tractor.wires()[0].to_string(), "output 0 of block 0 to input 0 of block 1");
//! # Ok(())
//! # }
//! ```
//!
//! # Lists
//!
//! A [`List`] collects calls and runs them all from an empty graph; it holds no graph itself. The entry is `run_records` of the crate
//! `records`; views, files and times come from those of the crate `exports`. A refused call changes nothing but what refusals 11 and 12 of a link leave prepared, and the run goes on past it.
//!
//! ```
//! use kanhtrev::{Answer, Counts, Direction, List, Node, Port, Refusal, Subport};
//!
//! let mut list = List::new();
//! list.add(0, 1); // node 0 with port 0
//! let sink = list.add(2, 0); // node 1 with ports 1 and 2
//! list.link(Port(0), Port(1));
//! let second = list.link(Port(0), Port(2));
//! let far = list.subport_link(Port(2).at(0));
//! let same_side = list.link(Port(1), Port(1));
//! let counts = list.counts();
//!
//! let answers = list.run();
//! assert_eq!(answers[sink], Ok(Answer::Added { node: Node(1), first_port: Some(Port(1)) }));
//! assert_eq!(answers[second], Ok(Answer::Linked { a: Port(0).at(1), b: Port(2).at(0) }));
//! assert_eq!(answers[far], Ok(Answer::End(Some(Subport { port: Port(0), offset: 1 }))));
//! let Err(Refusal::SameDirection { direction, .. }) = answers[same_side] else { panic!("accepted") };
//! assert_eq!(direction, Direction::Incoming);
//! assert_eq!(answers[counts], Ok(Answer::Counts(Counts { nodes: 2, ports: 3, links: 2 })));
//! ```
//!
//! After a resize ports may have new numbers; its answer says only how many. [`List::view`] gives the blocks with their ports, and
//! the wires.
//!
//! ```
//! use kanhtrev::{List, Node, Port, Refusal};
//!
//! # fn main() -> Result<(), Refusal> {
//! let mut list = List::new();
//! list.add(0, 1);
//! list.add(2, 0);
//! list.link(Port(0), Port(2));
//! list.resize(Node(1), 3, 0); // no room where it stands: its ports move
//! let view = list.view()?;
//! let sink = view.block(Node(1)).unwrap();
//! assert_eq!([0, 1, 2, 3].map(|position| sink.input(position)), [Some(Port(3)), Some(Port(4)), Some(Port(5)), None]);
//! assert_eq!(view.wires[0].to.port, Port(4));
//! assert_eq!(view.wires[0].to.place, Node(1).input(1));
//! # Ok(())
//! # }
//! ```
//!
//! The wiring that a list leaves can be saved: a file of 512-byte units, those of its blocks first, then those of its wires.
//! The file doesn't tell subports, hidden nodes or numbers: the same blocks and wires give the same bytes.
//!
//! ```
//! use kanhtrev::{List, Node, Port, Refusal};
//!
//! # fn main() -> Result<(), Refusal> {
//! let mut list = List::new();
//! list.add(0, 1);
//! list.add(2, 0);
//! list.link(Port(0), Port(1));
//! let file = list.save()?;
//! assert_eq!(file.len(), 1_024);
//! assert_eq!(file[..12], [1, 0, 2, 0, 0, 0, 1, 0, 0, 0, 0, 0]); // two blocks, the first with one output
//! assert_eq!(file[512..524], [2, 0, 1, 0, 0, 0, 0, 0, 1, 0, 0, 0]); // one wire, to the second block's first input
//!
//! list.add(0, 0);
//! list.remove(Node(2));
//! assert_eq!(list.save()?, file);
//! assert_eq!(List::new().save()?, []);
//! # Ok(())
//! # }
//! ```
//!
//! A file is loaded as the list that builds its wiring: adds and links in file order. More calls may follow.
//!
//! ```
//! use kanhtrev::{Answer, Counts, List, Port, Refusal};
//!
//! # fn main() -> Result<(), Refusal> {
//! let mut list = List::new();
//! list.add(0, 1);
//! list.add(2, 0);
//! list.link(Port(0), Port(1));
//! let mut file = list.save()?;
//!
//! let mut loaded = List::load(&file)?;
//! assert_eq!(loaded.bytes(), list.bytes());
//! loaded.link(Port(0), Port(2));
//! let counts = loaded.counts();
//! assert_eq!(loaded.run()[counts], Ok(Answer::Counts(Counts { nodes: 2, ports: 3, links: 2 })));
//!
//! file[6] = 0; // the first block's output, without which the sum is wrong
//! assert_eq!(List::load(&file).unwrap_err(), Refusal::WrongSum);
//! # Ok(())
//! # }
//! ```
//!
//! Two files are merged to one: the second's blocks behind the first's, with its wires.
//!
//! ```
//! use kanhtrev::{merge, Answer, Counts, List, Port, Refusal};
//!
//! # fn main() -> Result<(), Refusal> {
//! let mut steering = List::new();
//! steering.add(0, 1);
//! steering.add(1, 0);
//! steering.link(Port(0), Port(1));
//! let mut sprayer = List::new();
//! sprayer.add(1, 1);
//! sprayer.link(Port(1), Port(0));
//!
//! let file = merge(&steering.save()?, &sprayer.save()?)?;
//! assert_eq!(file[512..532], [2, 0, 2, 0, 0, 0, 0, 0, 1, 0, 0, 0, 2, 0, 0, 0, 2, 0, 0, 0]); // the second wire is the third block's
//! let mut both = List::load(&file)?;
//! let counts = both.counts();
//! assert_eq!(both.run()[counts], Ok(Answer::Counts(Counts { nodes: 3, ports: 4, links: 2 })));
//! assert_eq!(merge(&[], &file), Ok(file.clone()));
//! # Ok(())
//! # }
//! ```
//!
//! # What is proved
//!
//! The entries are proved to give what their definitions say, for all bytes; this crate, which turns typed calls into bytes and
//! back, is plain Rust. No input makes it panic.

#![deny(missing_docs)]

mod view;
mod wiring;

pub use view::{Block, End, Place, View, Wire};
pub use wiring::{Error, Wiring};

/// README.md's example is a test.
#[cfg(doctest)]
#[doc = include_str!("../../../README.md")]
struct Readme;

use std::error::Error as StdError;
use std::fmt;

/// Bytes of a request, and of an answer: five little-endian `u32`.
pub const RECORD: usize = 20;

/// Bytes of the longest file: 17 units of blocks, for 1,024 of them, and 25 of wires, for 1,536.
pub const LONGEST_FILE: usize = 512 * (17 + 25);

/// Bytes of the longest list that a file is loaded as: 1,024 adds and 1,536 links.
pub const LONGEST_LOAD: usize = RECORD * (1_024 + 1_536);

/// Node slots: a list of times has so many, and no path has more blocks.
pub const SLOTS: usize = 1_024;

/// Bytes of the longest view: two counts, 1,024 blocks and 1,536 wires.
pub const LONGEST_VIEW: usize = 8 + 16 * 1_024 + 32 * 1_536;

/// A node's number.
#[derive(Clone, Copy, Debug, PartialEq, Eq, PartialOrd, Ord, Hash)]
pub struct Node(pub u32);

/// A port's number.
#[derive(Clone, Copy, Debug, PartialEq, Eq, PartialOrd, Ord, Hash)]
pub struct Port(pub u32);

/// A port with an offset. On an unsplit port every offset means the port itself.
#[derive(Clone, Copy, Debug, PartialEq, Eq, PartialOrd, Ord, Hash)]
pub struct Subport {
    /// The port.
    pub port: Port,
    /// At most 65,534; 65,535 is refused as [`Refusal::Malformed`].
    pub offset: u16,
}

impl Port {
    /// The subport of this port at an offset.
    pub fn at(self, offset: u16) -> Subport {
        Subport { port: self, offset }
    }
}

/// The side of a node that a port is on.
#[derive(Clone, Copy, Debug, PartialEq, Eq, PartialOrd, Ord, Hash)]
pub enum Direction {
    /// The side of the inputs.
    Incoming,
    /// The side of the outputs.
    Outgoing,
}

/// Visible nodes, ports and links.
#[derive(Clone, Copy, Debug, PartialEq, Eq, Hash)]
pub struct Counts {
    /// Blocks.
    pub nodes: u32,
    /// Their ports.
    pub ports: u32,
    /// Wires.
    pub links: u32,
}

/// What an accepted call answers.
#[derive(Clone, Copy, Debug, PartialEq, Eq, Hash)]
pub enum Answer {
    /// [`List::add`]. The ports are numbered on from the first, incoming ones first; `None` for a node without ports.
    Added {
        /// The new node.
        node: Node,
        /// Its first port.
        first_port: Option<Port>,
    },
    /// [`List::remove`].
    Removed,
    /// [`List::resize`]. Where the ports are now, [`List::view`] tells.
    Resized {
        /// How many ports were moved or removed.
        events: u32,
    },
    /// [`List::link`] and [`List::link_subports`]: the two ends, in the order of the call.
    Linked {
        /// The end at the port that was named first.
        a: Subport,
        /// The end at the other port.
        b: Subport,
    },
    /// [`List::unlink`], [`List::unlink_subport`] and [`List::subport_link`]: the end that was found, if any.
    End(Option<Subport>),
    /// [`List::counts`].
    Counts(Counts),
}

/// Why a list or a call is refused, with what the refusal carries.
#[derive(Clone, Copy, Debug, PartialEq, Eq, Hash)]
#[non_exhaustive]
pub enum Refusal {
    /// 1: the length of a record list is not a multiple of 20, or differs from the answer buffer's. Only [`run_bytes`],
    /// [`view_bytes`] and [`save_bytes`].
    Length,
    /// 2: unknown code, an unused word that is not 0, or an offset above 65,534.
    Malformed,
    /// 3: more than 1,024 ports.
    TooManyPorts,
    /// 4: the node is not live.
    NodeNotLive,
    /// 5: the node is hidden.
    NodeHidden,
    /// 6: the move list of a resize is too short. Never given in a run, which has its own.
    MoveListShort,
    /// 7: the only or first port is not live.
    PortNotLive(Port),
    /// 8: the port belongs to a hidden node.
    PortHidden(Port),
    /// 9: the port is split and has no such offset.
    NoSuchOffset(Port),
    /// 10: lack of space.
    NoSpace,
    /// 11: the second port is not live.
    SecondPortNotLive(Port),
    /// 12: both ends have one direction. The ports are inner ones.
    SameDirection {
        /// The first end.
        a: Port,
        /// The second end.
        b: Port,
        /// The side of both.
        direction: Direction,
    },
    /// 13: an end is linked. The port is an inner one.
    AlreadyLinked(Port),
    /// 15: the lent buffer is too short. Only [`view_bytes`], [`save_bytes`], [`load_bytes`] and [`merge_bytes`].
    BufferShort,
    /// 16: the length of a file is not a multiple of 512, or a unit's sum is wrong. Only [`load_bytes`] and
    /// [`merge_bytes`].
    WrongSum,
    /// 17: kinds, counts, zeros, order, ranks or positions break a file's layout. Only [`load_bytes`] and
    /// [`merge_bytes`].
    WrongLayout,
    /// 19: a list of times does not have 1,024. Only [`longest_of`] and [`path_of`], and a [`List`]'s.
    TimesLength,
    /// 20: a cycle can reach the block, so it has no longest way. Only questions of times.
    Cycle,
    /// A number that this crate doesn't know: the library is of another version.
    Unknown(u32),
}

impl Refusal {
    /// The number of the refusal.
    pub fn number(&self) -> u32 {
        match self {
            Refusal::Length => 1,
            Refusal::Malformed => 2,
            Refusal::TooManyPorts => 3,
            Refusal::NodeNotLive => 4,
            Refusal::NodeHidden => 5,
            Refusal::MoveListShort => 6,
            Refusal::PortNotLive(_) => 7,
            Refusal::PortHidden(_) => 8,
            Refusal::NoSuchOffset(_) => 9,
            Refusal::NoSpace => 10,
            Refusal::SecondPortNotLive(_) => 11,
            Refusal::SameDirection { .. } => 12,
            Refusal::AlreadyLinked(_) => 13,
            Refusal::BufferShort => 15,
            Refusal::WrongSum => 16,
            Refusal::WrongLayout => 17,
            Refusal::TimesLength => 19,
            Refusal::Cycle => 20,
            Refusal::Unknown(number) => *number,
        }
    }

    /// The refusal of a call, from its answer.
    fn read([number, a, b, direction, _]: [u32; 5]) -> Refusal {
        match number {
            2 => Refusal::Malformed,
            3 => Refusal::TooManyPorts,
            4 => Refusal::NodeNotLive,
            5 => Refusal::NodeHidden,
            6 => Refusal::MoveListShort,
            7 => Refusal::PortNotLive(Port(a)),
            8 => Refusal::PortHidden(Port(a)),
            9 => Refusal::NoSuchOffset(Port(a)),
            10 => Refusal::NoSpace,
            11 => Refusal::SecondPortNotLive(Port(a)),
            12 => {
                let direction = if direction == 0 { Direction::Incoming } else { Direction::Outgoing };
                Refusal::SameDirection { a: Port(a), b: Port(b), direction }
            }
            13 => Refusal::AlreadyLinked(Port(a)),
            other => Refusal::Unknown(other),
        }
    }
}

impl fmt::Display for Refusal {
    fn fmt(&self, f: &mut fmt::Formatter) -> fmt::Result {
        match self {
            Refusal::Length => f.write_str("the list is not whole records, or as long as the answers"),
            Refusal::Malformed => {
                f.write_str("a record has an unknown code, a number in an unused word, or too large an offset")
            }
            Refusal::TooManyPorts => f.write_str("a block has at most 1,024 ports"),
            Refusal::NodeNotLive => f.write_str("there is no such block"),
            Refusal::NodeHidden => f.write_str("this number is not a block's"),
            Refusal::MoveListShort => f.write_str("the list of moves is too short"),
            Refusal::PortNotLive(port) => write!(f, "there is no port {}", port.0),
            Refusal::PortHidden(port) => write!(f, "port {} is not a block's", port.0),
            Refusal::NoSuchOffset(port) => write!(f, "port {} has no such offset", port.0),
            Refusal::NoSpace => f.write_str("there is no room left"),
            Refusal::SecondPortNotLive(port) => write!(f, "there is no port {} to link to", port.0),
            Refusal::SameDirection { direction: Direction::Incoming, .. } => f.write_str("both ends are inputs"),
            Refusal::SameDirection { direction: Direction::Outgoing, .. } => f.write_str("both ends are outputs"),
            Refusal::AlreadyLinked(_) => f.write_str("an end has a wire already"),
            Refusal::BufferShort => f.write_str("the buffer is too short"),
            Refusal::WrongSum => f.write_str("the file is damaged: its length or the sum of a unit is wrong"),
            Refusal::WrongLayout => f.write_str("the file is no saved wiring"),
            Refusal::TimesLength => f.write_str("there is not one time for each of the 1,024 slots"),
            Refusal::Cycle => f.write_str("a cycle can reach this block"),
            Refusal::Unknown(_) => f.write_str("the library gave an answer that this crate does not know"),
        }?;
        write!(f, " (refusal {})", self.number())
    }
}

impl StdError for Refusal {}

/// A list of calls. Each method adds one and gives its place, which is that of its answer.
#[derive(Clone, Debug, Default, PartialEq, Eq, Hash)]
pub struct List {
    requests: Vec<u8>,
}

impl List {
    /// An empty list.
    #[must_use]
    pub fn new() -> Self {
        Self::default()
    }

    /// The number of calls.
    pub fn len(&self) -> usize {
        self.requests.len() / RECORD
    }

    /// Whether there is no call.
    pub fn is_empty(&self) -> bool {
        self.requests.is_empty()
    }

    /// The request bytes.
    pub fn bytes(&self) -> &[u8] {
        &self.requests
    }

    fn push(&mut self, request: [u32; 5]) -> usize {
        let place = self.len();
        self.requests.extend(request.iter().flat_map(|word| word.to_le_bytes()));
        place
    }

    /// Adds a node.
    pub fn add(&mut self, incoming: u32, outgoing: u32) -> usize {
        self.push([1, incoming, outgoing, 0, 0])
    }

    /// Removes a node with its wires.
    pub fn remove(&mut self, node: Node) -> usize {
        self.push([2, node.0, 0, 0, 0])
    }

    /// Changes the port counts of a node. The highest positions of a side are dropped.
    pub fn resize(&mut self, node: Node, incoming: u32, outgoing: u32) -> usize {
        self.push([3, node.0, incoming, outgoing, 0])
    }

    /// Adds a wire between two ports, each at its lowest unwired offset.
    pub fn link(&mut self, a: Port, b: Port) -> usize {
        self.push([4, a.0, b.0, 0, 0])
    }

    /// Cuts every wire of a port.
    pub fn unlink(&mut self, port: Port) -> usize {
        self.push([5, port.0, 0, 0, 0])
    }

    /// Adds a wire between two subports.
    pub fn link_subports(&mut self, a: Subport, b: Subport) -> usize {
        self.push([6, a.port.0, a.offset.into(), b.port.0, b.offset.into()])
    }

    /// Cuts the wire of a subport.
    pub fn unlink_subport(&mut self, end: Subport) -> usize {
        self.push([7, end.port.0, end.offset.into(), 0, 0])
    }

    /// Asks for the far end of a subport's wire.
    pub fn subport_link(&mut self, end: Subport) -> usize {
        self.push([8, end.port.0, end.offset.into(), 0, 0])
    }

    /// Asks for the counts.
    pub fn counts(&mut self) -> usize {
        self.push([9, 0, 0, 0, 0])
    }

    /// Takes the last call off; `false` if there is none.
    pub fn pop(&mut self) -> bool {
        let length = self.requests.len().checked_sub(RECORD);
        self.requests.truncate(length.unwrap_or(0));
        length.is_some()
    }

    /// Runs the calls from an empty graph: an answer for each call, in their order.
    #[must_use = "a run changes nothing: what it gives is its answers"]
    pub fn run(&self) -> Vec<Result<Answer, Refusal>> {
        let mut answers = vec![0; self.requests.len()];
        match run_bytes(&self.requests, &mut answers) {
            Ok(()) => {
                words(&self.requests).zip(words(&answers)).map(|(request, answer)| read(request, answer)).collect()
            }
            Err(refusal) => vec![Err(refusal); self.len()],
        }
    }

    /// The answer to the last call, after the others were run.
    pub(crate) fn last_answer(&self) -> Result<Answer, Refusal> {
        let mut answers = vec![0; self.requests.len()];
        run_bytes(&self.requests, &mut answers)?;
        let last = |bytes| words(bytes).next_back();
        match (last(&self.requests), last(&answers)) {
            (Some(request), Some(answer)) => read(request, answer),
            _ => Err(Refusal::Length),
        }
    }

    /// Runs the calls from an empty graph, and gives the blocks and wires that they leave, with their port numbers.
    ///
    /// # Errors
    ///
    /// None is given: the list is whole, and there is room for the longest view.
    pub fn view(&self) -> Result<View, Refusal> {
        let mut bytes = vec![0; LONGEST_VIEW];
        let length = view_bytes(&self.requests, &mut bytes)?;
        bytes.get(..length).and_then(View::read).ok_or(Refusal::Unknown(0))
    }

    /// The adds and links that build a file's wiring from an empty graph, in file order.
    ///
    /// # Errors
    ///
    /// [`Refusal::WrongSum`], then [`Refusal::WrongLayout`], then the refusal of the first of these calls that is refused:
    /// [`Refusal::TooManyPorts`] or [`Refusal::NoSpace`].
    pub fn load(file: &[u8]) -> Result<Self, Refusal> {
        let mut requests = vec![0; LONGEST_LOAD];
        let length = load_bytes(file, &mut requests)?;
        requests.truncate(length);
        Ok(Self { requests })
    }

    /// Runs the calls from an empty graph, and gives the file of the wiring that they leave.
    ///
    /// # Errors
    ///
    /// None is given: the list is whole, and there is room for the longest file.
    pub fn save(&self) -> Result<Vec<u8>, Refusal> {
        let mut file = vec![0; LONGEST_FILE];
        let length = save_bytes(&self.requests, &mut file)?;
        file.truncate(length);
        Ok(file)
    }

    /// Runs the calls from an empty graph, and gives the largest sum of times along wires that end at a block, its own included. There is
    /// a time in microseconds for each of the [`SLOTS`].
    ///
    /// # Errors
    ///
    /// [`Refusal::NodeNotLive`] or [`Refusal::NodeHidden`] if there is no such block, [`Refusal::TimesLength`], and [`Refusal::Cycle`] if
    /// a cycle can reach it.
    pub fn longest(&self, times: &[u16], node: Node) -> Result<u32, Refusal> {
        longest_of(&self.requests, times, node)
    }

    /// The same by its blocks: a path along wires that has this sum, from its first block to the one named.
    ///
    /// # Errors
    ///
    /// As [`List::longest`].
    pub fn path(&self, times: &[u16], node: Node) -> Result<Vec<Node>, Refusal> {
        let mut list = vec![0; SLOTS];
        let blocks = path_of(&self.requests, times, node, &mut list)?;
        list.truncate(blocks);
        Ok(list.into_iter().map(Node).collect())
    }
}

/// Runs a list of request bytes from an empty graph and writes the answer bytes.
///
/// # Errors
///
/// [`Refusal::Length`] if the lengths don't fit; the answer buffer is then as before.
pub fn run_bytes(requests: &[u8], answers: &mut [u8]) -> Result<(), Refusal> {
    extern "C" {
        // A slice crosses as its pointer and its length.
        fn run_records(requests: *const u8, request_bytes: usize, answers: *mut u8, answer_bytes: usize) -> u32;
    }
    // SAFETY: both are whole slices, the answers lent to this call alone. The callee is proved to read and write within
    // them, to end for every content, and to keep neither.
    match unsafe { run_records(requests.as_ptr(), requests.len(), answers.as_mut_ptr(), answers.len()) } {
        0 => Ok(()),
        1 => Err(Refusal::Length),
        other => Err(Refusal::Unknown(other)),
    }
}

/// Runs a list of request bytes from an empty graph, writes the view of the wiring that it leaves, and gives its length;
/// bytes past it are as before. A view is little-endian `u32`: the numbers of blocks and of wires; for each block, by ascending
/// number, node, incoming, outgoing and first port; for each wire port, offset, node and position of its outgoing end, then of its
/// incoming end.
///
/// # Errors
///
/// [`Refusal::Length`] if the requests are no whole records, else [`Refusal::BufferShort`] if the view is longer than the
/// buffer; the buffer is then as before.
pub fn view_bytes(requests: &[u8], view: &mut [u8]) -> Result<usize, Refusal> {
    extern "C" {
        fn view_of_records(requests: *const u8, request_bytes: usize, view: *mut u8, view_bytes: usize) -> u64;
    }
    // SAFETY: as in `run_bytes`.
    length(unsafe { view_of_records(requests.as_ptr(), requests.len(), view.as_mut_ptr(), view.len()) })
}

/// Runs a list of request bytes from an empty graph, writes the file of the wiring that it leaves, and gives its length;
/// bytes past it are as before.
///
/// # Errors
///
/// [`Refusal::Length`] if the requests are no whole records, else [`Refusal::BufferShort`] if the file is longer than the
/// buffer; the buffer is then as before.
pub fn save_bytes(requests: &[u8], file: &mut [u8]) -> Result<usize, Refusal> {
    extern "C" {
        fn save_records(requests: *const u8, request_bytes: usize, file: *mut u8, file_bytes: usize) -> u64;
    }
    // SAFETY: as in `run_bytes`.
    length(unsafe { save_records(requests.as_ptr(), requests.len(), file.as_mut_ptr(), file.len()) })
}

/// Reads a file, writes the request bytes of the adds and links that build its wiring, and gives their length; bytes past
/// them are as before.
///
/// # Errors
///
/// As [`List::load`], else [`Refusal::BufferShort`] if the requests are longer than the buffer; the buffer is then as before.
pub fn load_bytes(file: &[u8], requests: &mut [u8]) -> Result<usize, Refusal> {
    extern "C" {
        fn records_of_file(file: *const u8, file_bytes: usize, requests: *mut u8, request_bytes: usize) -> u64;
    }
    // SAFETY: as in `run_bytes`.
    length(unsafe { records_of_file(file.as_ptr(), file.len(), requests.as_mut_ptr(), requests.len()) })
}

/// Writes two files as one, the second behind the first, and gives the result's length; bytes past it are as before.
///
/// # Errors
///
/// [`Refusal::WrongSum`] or [`Refusal::WrongLayout`] for the first file, then for the second; then [`Refusal::TooManyPorts`] or
/// [`Refusal::NoSpace`], as loading the first, the second or the result is refused; else [`Refusal::BufferShort`] if the result is longer
/// than the buffer. The buffer is then as before.
pub fn merge_bytes(first: &[u8], second: &[u8], file: &mut [u8]) -> Result<usize, Refusal> {
    extern "C" {
        fn merge_files(
            first: *const u8,
            first_bytes: usize,
            second: *const u8,
            second_bytes: usize,
            file: *mut u8,
            file_bytes: usize,
        ) -> u64;
    }
    // SAFETY: as in `run_bytes`.
    length(unsafe {
        merge_files(first.as_ptr(), first.len(), second.as_ptr(), second.len(), file.as_mut_ptr(), file.len())
    })
}

/// Two files as one, the second behind the first.
///
/// # Errors
///
/// As [`merge_bytes`], but never for the buffer.
pub fn merge(first: &[u8], second: &[u8]) -> Result<Vec<u8>, Refusal> {
    let mut file = vec![0; LONGEST_FILE];
    let length = merge_bytes(first, second, &mut file)?;
    file.truncate(length);
    Ok(file)
}

/// Runs a list of request bytes from an empty graph, and gives the largest sum of times along wires that end at a block.
///
/// # Errors
///
/// [`Refusal::Length`] if the requests are no whole records, else as [`List::longest`].
pub fn longest_of(requests: &[u8], times: &[u16], node: Node) -> Result<u32, Refusal> {
    extern "C" {
        fn longest_of_records(
            requests: *const u8,
            request_bytes: usize,
            times: *const u16,
            times_count: usize,
            block: u32,
        ) -> u64;
    }
    // SAFETY: as in `run_bytes`.
    told(unsafe { longest_of_records(requests.as_ptr(), requests.len(), times.as_ptr(), times.len(), node.0) })
}

/// Runs a list of request bytes from an empty graph, writes the blocks of a path that has that sum, and gives how many they are; numbers
/// past them are as before.
///
/// # Errors
///
/// As [`longest_of`], else [`Refusal::BufferShort`] if the path has more blocks than the list; the list is then as before.
pub fn path_of(requests: &[u8], times: &[u16], node: Node, list: &mut [u32]) -> Result<usize, Refusal> {
    extern "C" {
        fn path_of_records(
            requests: *const u8,
            request_bytes: usize,
            times: *const u16,
            times_count: usize,
            block: u32,
            list: *mut u32,
            list_count: usize,
        ) -> u64;
    }
    // SAFETY: as in `run_bytes`.
    length(unsafe {
        path_of_records(
            requests.as_ptr(),
            requests.len(),
            times.as_ptr(),
            times.len(),
            node.0,
            list.as_mut_ptr(),
            list.len(),
        )
    })
}

fn length(returned: u64) -> Result<usize, Refusal> {
    told(returned).map(|length| length as usize)
}

/// What an entry that answers a number returned: from 4,294,967,296 on, what is above it is the number of a refusal.
fn told(returned: u64) -> Result<u32, Refusal> {
    let Some(refusal) = returned.checked_sub(1 << 32) else { return Ok(returned as u32) };
    Err(match refusal {
        1 => Refusal::Length,
        3 => Refusal::TooManyPorts,
        4 => Refusal::NodeNotLive,
        5 => Refusal::NodeHidden,
        10 => Refusal::NoSpace,
        15 => Refusal::BufferShort,
        16 => Refusal::WrongSum,
        17 => Refusal::WrongLayout,
        19 => Refusal::TimesLength,
        20 => Refusal::Cycle,
        other => Refusal::Unknown(u32::try_from(other).unwrap_or(u32::MAX)),
    })
}

fn words(bytes: &[u8]) -> impl DoubleEndedIterator<Item = [u32; 5]> + '_ {
    bytes.chunks_exact(RECORD).map(|record| {
        let mut words = record.chunks_exact(4).map(|word| word.try_into().map_or(0, u32::from_le_bytes));
        std::array::from_fn(|_| words.next().unwrap_or(0))
    })
}

fn subport(port: u32, offset: u32) -> Result<Subport, Refusal> {
    offset.try_into().map(|offset| Port(port).at(offset)).map_err(|_| Refusal::Unknown(0))
}

fn read(request: [u32; 5], answer: [u32; 5]) -> Result<Answer, Refusal> {
    let [refused, a, b, c, d] = answer;
    if refused != 0 {
        return Err(Refusal::read(answer));
    }
    Ok(match request[0] {
        1 => Answer::Added { node: Node(a), first_port: (request[1] > 0 || request[2] > 0).then_some(Port(b)) },
        2 => Answer::Removed,
        3 => Answer::Resized { events: a },
        4 | 6 => Answer::Linked { a: subport(a, b)?, b: subport(c, d)? },
        5 | 7 | 8 => Answer::End(if a == 1 { Some(subport(b, c)?) } else { None }),
        _ => Answer::Counts(Counts { nodes: a, ports: b, links: c }),
    })
}
