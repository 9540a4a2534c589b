//! An index written anew.
use std::borrow::Cow;

use crate::by_name::by_name;
use crate::declarations::{WRITE_EOIE, WRITE_SPARSE, WRITE_TREE, WRITE_TREE_GIVEN, WRITE_UNHASHED};
use crate::error::{Error, Refusal};
use crate::ffi::{self, Values};
use crate::index::Index;
use crate::stores;

/// What [`Index::write`] writes beside the entries.
#[derive(Clone, Copy, Debug, PartialEq, Eq)]
pub struct WriteOptions {
    /// The tree, if the index has one.
    pub tree: bool,
    /// EOIE, by which a reader finds extensions at once; it is left out where there is nothing to find.
    pub eoie: bool,
    /// Twenty zeros in place of the hash.
    pub zero_trailer: bool,
}

impl Default for WriteOptions {
    /// The tree, no EOIE, and the hash.
    fn default() -> WriteOptions {
        WriteOptions { tree: true, eoie: false, zero_trailer: false }
    }
}

impl Index {
    /// The bytes of an index file with the same entries, in the same order, with the same mark of being sparse: of
    /// version 3 if an entry has extended flags, else 2. Extensions other than TREE and `sdir` are not written again.
    ///
    /// ```
    /// # use sparrowpivot::{Index, WriteOptions};
    /// # fn main() -> Result<(), sparrowpivot::Error> {
    /// let index = Index::open("tests/data/quarrel.index")?;
    /// let written = Index::from_bytes(index.write(WriteOptions::default())?)?;
    /// assert!(written.entries().eq(index.entries()));
    /// # Ok(())
    /// # }
    /// ```
    pub fn write(&self, options: WriteOptions) -> Result<Vec<u8>, Error> {
        let nodes = match options.tree && self.tree().is_some() {
            true => by_name(self.tables().2, self.as_bytes())?,
            false => Cow::Borrowed([].as_slice()),
        };
        // what was read from version 2 or 3 is not longer when it is written
        let mut out = stores::store(self.as_bytes().len(), 0)?;
        let values = match self.write_into(options, &nodes, &mut out) {
            Err(Refusal::ShortOutput { size }) => {
                out = stores::store(usize::try_from(size).unwrap_or(usize::MAX), 0)?;
                self.write_into(options, &nodes, &mut out)?
            }
            answer => answer?,
        };
        let [_, size, ..] = values;
        out.truncate(size as usize);
        Ok(out)
    }

    fn write_into(&self, options: WriteOptions, nodes: &[u8], out: &mut [u8]) -> Result<Values, Refusal> {
        let asked = [
            (self.tree().is_some(), WRITE_TREE_GIVEN),
            (options.tree, WRITE_TREE),
            (options.eoie, WRITE_EOIE),
            (self.is_sparse(), WRITE_SPARSE),
            (options.zero_trailer, WRITE_UNHASHED),
        ];
        let bits = asked.iter().fold(0, |bits, (yes, bit)| if *yes { bits | bit } else { bits });
        let (records, paths, _) = self.tables();
        ffi::write(records, paths, nodes, self.as_bytes(), bits, out)
    }
}
