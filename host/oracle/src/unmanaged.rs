//! STAND-IN, written by us and not from the original: the module `unmanaged`, only with the name that `lib.rs` passes on.

/// A name without contents; nothing of the eight files calls it.
pub struct UnmanagedDenseMap; // guess: the original's type is a dense map from indices to values
