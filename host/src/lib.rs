//! Git index files, read by code that is proved to read them correctly.
//!
//! An [`Index`] owns the bytes of an index file and what was read from them: its [entries](Index::entries), which can
//! be [found](Index::find) by path and stage, and its [tree](Index::tree). It sizes its memory by itself.
//!
//! ```
//! use sparrowpivot::{Index, Stage};
//!
//! # fn main() -> Result<(), sparrowpivot::Error> {
//! let index = Index::open("tests/data/quarrel.index")?;
//! for entry in index.entries() {
//!     println!("{:06o} {} {}\t{}", entry.mode, entry.id, entry.stage, String::from_utf8_lossy(entry.path));
//! }
//! let ours = index.find("exhibit/transcript", Stage::Ours)?.expect("both sides changed it");
//! let theirs = index.find("exhibit/transcript", Stage::Theirs)?.expect("both sides changed it");
//! assert_ne!(ours.id, theirs.id);
//! # Ok(())
//! # }
//! ```
//!
//! What is proved is the static library beneath: reading, lookup, order check and writing. This crate hands bytes to it
//! and asks for what it found; `unsafe` stands in one module, `ffi`, with a reason at each call. No input makes it
//! panic. If there is too little memory for a large index, reading ends with [`Error::OutOfMemory`].
#![deny(missing_docs, unsafe_code)]
#![cfg_attr(
    not(test),
    deny(
        clippy::unwrap_used,
        clippy::expect_used,
        clippy::panic,
        clippy::indexing_slicing,
        clippy::arithmetic_side_effects
    )
)]

mod by_name;
mod declarations;
mod entry;
mod error;
mod extension;
#[allow(unsafe_code)]
mod ffi;
mod id;
mod index;
mod stores;
mod tree;
mod write;

pub use entry::{Entries, Entry, Flags, Stage, Stat, Time};
pub use error::{Error, Refusal};
pub use extension::{Extension, Extensions};
pub use id::Id;
pub use index::{Index, Trailer};
pub use tree::{Folders, Node, Nodes, Tree, TreeFault};
pub use write::WriteOptions;
