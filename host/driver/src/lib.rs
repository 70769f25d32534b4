//! Runs calls on the Rust original (`MultiPortGraph`) and gives its answers as records of five numbers.
//!
//! - [`Call`]: the nine calls, and their records.
//! - [`Oracle`]: one graph of the original; [`Oracle::ask`] gives a call to it, or says why it is not given.
//! - [`Release`]: the kit's release that a graph is made for. Under release 2 the calls that give 18 are left out of the
//!   original's history; it is asked for all others.
//! - [`Oracle::build`]: a wiring built as a file has it, its blocks and then its wires.
//! - [`run_list`]: a list of request records, run from an empty graph.
//! - [`Shape`]: random calls for histories of many shapes.
//! - The listings of [`Oracle`] (module `walk`): each walk, from the original's iterators.
//!
//! Everything here is decided from the original alone: from its inner graph before a call, or from the call on a clone.

mod build;
mod call;
mod draw;
mod list;
mod oracle;
mod walk;

pub use call::{Answer, Call, End};
pub use draw::{Random, Shape, Start};
pub use list::{run_list, to_bytes};
pub use oracle::{Asked, Event, Graph, Oracle, Reason, Release};
pub use walk::{Listing, Place, Side, Sides, Subport, Wire};

/// Node slots of the port's table. With the feature `former` they are those of the kits before document 02's request 08.
pub const NODE_SLOTS: usize = if cfg!(feature = "former") { 512 } else { 1_024 };
/// Port slots of the port's table.
pub const PORT_SLOTS: usize = if cfg!(feature = "former") { 2_048 } else { 3_072 };
/// The most ports that an add or a resize may name.
pub const MOST_PORTS: u64 = 1_024;
/// The last offset that a record may hold.
pub const LAST_OFFSET: u32 = 65_534;
/// 'None' in a move list.
pub const NONE: u32 = u32::MAX;
