//! STAND-IN, written by us and not from the original: the module `hierarchy`, only with the name that `lib.rs` passes on.

/// A name without contents; nothing of the eight files calls it.
pub struct Hierarchy; // guess: the original's type holds the forest of nodes
