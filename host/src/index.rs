//! An index: a file, and what was read from it.
use std::path::Path;
use std::sync::OnceLock;

use crate::entry::{Entries, Entry, Stage};
use crate::error::{Error, Refusal};
use crate::extension::Extensions;
use crate::ffi;
use crate::stores::{self, Stores, TRAILER_SIZE};
use crate::tree::{Tree, TreeFault};

/// An index file that was read. It owns the file's bytes and its stores, and can be shared between threads.
pub struct Index {
    file: Vec<u8>,
    stores: Stores,
    version: u32,
    sparse: bool,
    tree: bool,
    order: OnceLock<Result<(), Refusal>>,
}

/// What the last 20 bytes of a file are.
#[derive(Clone, Copy, Debug, PartialEq, Eq)]
pub enum Trailer {
    /// The SHA-1 of the rest.
    Hash,
    /// Zeros: nothing was hashed (git's `index.skipHash`), so damage in the file may go unnoticed.
    Zeros,
}

impl Index {
    /// Reads an index file.
    ///
    /// ```
    /// # fn main() -> Result<(), sparrowpivot::Error> {
    /// let index = sparrowpivot::Index::open("tests/data/quarrel.index")?;
    /// assert_eq!((index.version(), index.len()), (2, 4));
    /// # Ok(())
    /// # }
    /// ```
    pub fn open(path: impl AsRef<Path>) -> Result<Index, Error> {
        Index::from_bytes(std::fs::read(path)?)
    }

    /// Reads the bytes of an index file.
    ///
    /// ```
    /// use sparrowpivot::{Error, Index, Refusal};
    ///
    /// let refused = Index::from_bytes(b"DIRC, and no more".to_vec());
    /// assert!(matches!(refused, Err(Error::Refused(Refusal::ShortFile))));
    /// ```
    pub fn from_bytes(file: Vec<u8>) -> Result<Index, Error> {
        Index::from_bytes_limited(file, usize::MAX)
    }

    /// Reads the bytes of an index file, with at most so many bytes for paths; where that is not enough, the answer
    /// is [`Error::OutOfMemory`].
    ///
    /// Records and nodes take memory in proportion to the file. Paths do not in version 4, where each may repeat the
    /// one before: a file of one million bytes can spell out some four thousand million. Set a limit when reading
    /// files from strangers.
    pub fn from_bytes_limited(file: Vec<u8>, most_path_bytes: usize) -> Result<Index, Error> {
        let (values, stores) = stores::read(&file, most_path_bytes)?;
        let [version, sparse, tree, ..] = values;
        let (sparse, tree) = (sparse == 1, tree == 1);
        Ok(Index { file, stores, version: version as u32, sparse, tree, order: OnceLock::new() })
    }

    /// The bytes of the file.
    pub fn as_bytes(&self) -> &[u8] {
        &self.file
    }

    /// The version of the file: 2, 3 or 4.
    pub fn version(&self) -> u32 {
        self.version
    }

    /// Whether an entry may stand for a whole folder.
    pub fn is_sparse(&self) -> bool {
        self.sparse
    }

    /// How many entries there are.
    pub fn len(&self) -> usize {
        self.entries().len()
    }

    /// Whether there are no entries.
    pub fn is_empty(&self) -> bool {
        self.len() == 0
    }

    /// The entries, in the order of the file.
    ///
    /// ```
    /// # use sparrowpivot::{Index, Stage};
    /// # fn main() -> Result<(), sparrowpivot::Error> {
    /// # let index = Index::open("tests/data/quarrel.index")?;
    /// let quarrels = index.entries().filter(|entry| entry.stage != Stage::Merged);
    /// assert_eq!(quarrels.count(), 3);
    /// # Ok(())
    /// # }
    /// ```
    pub fn entries(&self) -> Entries<'_> {
        Entries::of(&self.stores.records, &self.stores.paths)
    }

    /// Entry i, counted from 0.
    pub fn entry(&self, i: usize) -> Option<Entry<'_>> {
        Entry::of(&self.stores.records, &self.stores.paths, i)
    }

    /// The entry of this path at this stage. `None` means that there is none: in an index that is out of order, where a
    /// search could miss it, the answer is the refusal of [`check`](Index::check) instead.
    ///
    /// ```
    /// # use sparrowpivot::{Index, Stage};
    /// # fn main() -> Result<(), sparrowpivot::Error> {
    /// # let index = Index::open("tests/data/quarrel.index")?;
    /// assert!(index.find("exhibit/transcript", Stage::Ours)?.is_some());
    /// assert!(index.find("exhibit/transcript", Stage::Merged)?.is_none());
    /// assert!(index.find(b"exhibit", Stage::Merged)?.is_none());
    /// # Ok(())
    /// # }
    /// ```
    pub fn find(&self, path: impl AsRef<[u8]>, stage: Stage) -> Result<Option<Entry<'_>>, Refusal> {
        self.check()?;
        let found = ffi::lookup(&self.stores.records, &self.stores.paths, path.as_ref(), stage.number())?;
        Ok(found.and_then(|i| self.entry(i)))
    }

    /// Whether each entry is strictly after the one before, by the bytes of its path and then by stage. The refusal
    /// names the first that is not. The answer is kept.
    pub fn check(&self) -> Result<(), Refusal> {
        *self.order.get_or_init(|| ffi::check_order(&self.stores.records, &self.stores.paths))
    }

    /// The tree, if there is one that is well-formed.
    pub fn tree(&self) -> Option<Tree<'_>> {
        self.tree.then(|| Tree::of(&self.stores.nodes, &self.file))
    }

    /// Whether there is a TREE that is malformed. It counts as none, as it does for git.
    pub fn has_malformed_tree(&self) -> bool {
        self.stores.malformed_tree
    }

    /// Whether the tree is well-formed and agrees with the entries: as many lie below each folder that is not out of
    /// date as it says. Entries that are out of order are not counted; where there is no tree, all is well.
    pub fn check_tree(&self) -> Result<(), TreeFault> {
        match self.tree() {
            None if self.has_malformed_tree() => Err(TreeFault::Malformed),
            Some(tree) if self.check().is_ok() => tree.check(&self.entries()),
            _ => Ok(()),
        }
    }

    /// What the last 20 bytes are. The third kind is refused when the file is read.
    pub fn trailer(&self) -> Trailer {
        match self.file.iter().rev().take(TRAILER_SIZE).all(|byte| *byte == 0) {
            true => Trailer::Zeros,
            false => Trailer::Hash,
        }
    }

    /// The place in the file at which extensions begin, if there is an EOIE and it is right.
    pub fn end_of_entries(&self) -> Option<u64> {
        ffi::eoie(&self.file)
    }

    /// The extensions of the file. To find where they begin, its entries are read once more.
    ///
    /// ```
    /// # fn main() -> Result<(), sparrowpivot::Error> {
    /// let index = sparrowpivot::Index::open("tests/data/settled.index")?;
    /// let signatures: Vec<_> = index.extensions()?.map(|extension| extension.signature).collect();
    /// assert_eq!(signatures, [*b"TREE", *b"REUC"]);
    /// # Ok(())
    /// # }
    /// ```
    pub fn extensions(&self) -> Result<Extensions<'_>, Error> {
        let mut records = stores::store(self.stores.records.len(), 0)?;
        let mut paths = stores::store(self.stores.paths.len(), 0)?;
        let [begin, ..] = ffi::entries(&self.file, self.version, self.len(), &mut records, &mut paths)?;
        let end = self.file.len().saturating_sub(TRAILER_SIZE);
        Ok(Extensions::of(self.file.get(begin as usize..end).unwrap_or_default()))
    }
}

impl Index {
    /// Records, paths and nodes as the library stored them.
    pub(crate) fn tables(&self) -> (&[u8], &[u8], &[u8]) {
        (&self.stores.records, &self.stores.paths, &self.stores.nodes)
    }
}

impl std::fmt::Debug for Index {
    fn fmt(&self, f: &mut std::fmt::Formatter<'_>) -> std::fmt::Result {
        let mut shown = f.debug_struct("Index");
        shown.field("version", &self.version).field("entries", &self.len()).field("sparse", &self.sparse);
        shown.field("nodes", &self.tree().map(|tree| tree.len())).finish()
    }
}
