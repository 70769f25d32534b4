//! Runs the port beside the Rust original and compares every answer.
//!
//! - [`history`]: a list of calls with what each must answer, from the original.
//! - [`compare`]: runs a list through the port; a difference comes with the fewest calls that show it.
//! - [`exhaustive`], [`damage`]: all short lists over a few calls; lists of wrong lengths and altered bytes.
//! - [`console`]: listings, move lists and saved files, through the program `wiring`.
//! - [`files`]: a second writer and a reader of saved files, from document 02's words.
//! - [`saves`]: files that lists are saved as, beside that writer.
//! - [`views`]: what a page is drawn from, beside the original's listings.
//! - [`loads`], [`broken`]: files that are loaded, whole and damaged, beside that reader and the original.
//! - [`merges`]: two files as one, beside a merge from document 02's words over that reader, that writer and the original.
//! - [`timing`]: times along wires, through the program `wiring` and by records.
//! - [`spoil`]: wrong answers put in by hand, to show that they are caught.
//! - [`lists`], [`plain`], [`plain_files`]: lists that the original answers itself, the original without the driver, and a plain
//!   writer and reader of files over it, for the benchmark.
//!
//! What a call must answer, and whether it is compared at all, is decided by the driver on the original's side.

pub mod broken;
pub mod compare;
pub mod console;
pub mod damage;
pub mod exhaustive;
pub mod files;
pub mod growth;
pub mod history;
pub mod lists;
pub mod loads;
pub mod merges;
pub mod plain;
pub mod plain_files;
pub mod runs;
pub mod saves;
pub mod spoil;
pub mod tally;
pub mod timing;
pub mod views;
pub mod walks;
