//! The programs `sketch` and `wiring` on the same histories, and a plain sketch in Rust beside them.
//!
//! - [`Program`]: one of the programs, asked line by line.
//! - [`Pair`]: both programs, with the names and ports of the blocks that live; a call by places is given to both, and what they say is
//!   compared.
//! - [`Plain`]: the calls of a sketch over plain lists, from the words of document 02.
//! - [`histories`]: random histories, and all short ones on a small wiring.
//! - [`timing`]: what a call takes on a large sketch.

pub mod histories;
mod pair;
mod plain;
mod program;
pub mod timing;

pub use pair::{Pair, Port, Say};
pub use plain::Plain;
pub use program::{Program, Reply};
