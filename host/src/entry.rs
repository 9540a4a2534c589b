//! Entries: what an index says of one path at one stage.
use std::fmt;
use std::ops::Range;

use crate::declarations::RECORD_SIZE;
use crate::error::Refusal;
use crate::ffi;
use crate::id::Id;

/// One entry of an index. Its path is borrowed from the [`Index`](crate::Index).
#[derive(Clone, Copy, Debug, PartialEq, Eq)]
pub struct Entry<'a> {
    /// The path from the top of the work tree, with slashes: bytes, most often UTF-8.
    pub path: &'a [u8],
    /// Which side of a merge it is.
    pub stage: Stage,
    /// Kind and permissions, such as octal 100644.
    pub mode: u32,
    /// The object that holds the content.
    pub id: Id,
    /// What the file system said of the file.
    pub stat: Stat,
    /// The marks that git keeps.
    pub flags: Flags,
}

impl<'a> Entry<'a> {
    /// Entry i of a table.
    pub(crate) fn of(records: &[u8], paths: &'a [u8], i: usize) -> Option<Entry<'a>> {
        let [mode, flags, stage, start, end, _, _, size] = ffi::record(records, paths, i)?;
        Some(Entry {
            path: paths.get(start as usize..end as usize).unwrap_or_default(),
            stage: Stage::of_bits(stage),
            mode: mode as u32,
            id: Id(ffi::record_id(records, i)),
            stat: Stat::of(ffi::record_stat(records, i), size),
            flags: Flags(flags as u32),
        })
    }
}

/// The stage of an entry. A path has either one entry, which is merged, or one for each side that has it.
///
/// ```
/// use sparrowpivot::{Refusal, Stage};
///
/// assert_eq!(Stage::try_from(2), Ok(Stage::Ours));
/// assert_eq!(Stage::try_from(4), Err(Refusal::NoStage));
/// assert_eq!(Stage::Theirs.to_string(), "3");
/// ```
#[derive(Clone, Copy, Debug, PartialEq, Eq, PartialOrd, Ord, Hash)]
pub enum Stage {
    /// 0: there is no quarrel about the path.
    Merged,
    /// 1: as both sides once had it.
    Base,
    /// 2: as the branch that is merged into has it.
    Ours,
    /// 3: as the branch that is being merged has it.
    Theirs,
}

impl Stage {
    /// All four, in the order of their numbers.
    pub const ALL: [Stage; 4] = [Stage::Merged, Stage::Base, Stage::Ours, Stage::Theirs];

    /// Its number, 0 to 3.
    pub fn number(self) -> u32 {
        self as u32
    }

    /// The stage that the low two bits name.
    fn of_bits(bits: u64) -> Stage {
        match bits & 3 {
            0 => Stage::Merged,
            1 => Stage::Base,
            2 => Stage::Ours,
            _ => Stage::Theirs,
        }
    }
}

impl TryFrom<u32> for Stage {
    type Error = Refusal;

    fn try_from(number: u32) -> Result<Stage, Refusal> {
        match number {
            0..=3 => Ok(Stage::of_bits(number.into())),
            _ => Err(Refusal::NoStage),
        }
    }
}

impl fmt::Display for Stage {
    fn fmt(&self, f: &mut fmt::Formatter<'_>) -> fmt::Result {
        self.number().fmt(f)
    }
}

/// What the file system said of a file when git last looked: the low 32 bits of each.
#[derive(Clone, Copy, Debug, Default, PartialEq, Eq)]
pub struct Stat {
    /// When its metadata last changed.
    pub ctime: Time,
    /// When its content last changed.
    pub mtime: Time,
    /// The device.
    pub dev: u32,
    /// The inode.
    pub ino: u32,
    /// The owner.
    pub uid: u32,
    /// The group.
    pub gid: u32,
    /// The bytes of the file.
    pub size: u32,
}

impl Stat {
    fn of(values: ffi::Values, size: u64) -> Stat {
        // each is a field of 32 bits in the file
        let [cs, cn, ms, mn, dev, ino, uid, gid] = values.map(|v| v as u32);
        let (ctime, mtime) = (Time { seconds: cs, nanoseconds: cn }, Time { seconds: ms, nanoseconds: mn });
        Stat { ctime, mtime, dev, ino, uid, gid, size: size as u32 }
    }
}

/// A time since 1970.
#[derive(Clone, Copy, Debug, Default, PartialEq, Eq, PartialOrd, Ord)]
pub struct Time {
    /// Whole seconds.
    pub seconds: u32,
    /// Nanoseconds beyond them.
    pub nanoseconds: u32,
}

/// The marks of an entry, with the bits at which the library keeps them.
#[derive(Clone, Copy, Debug, PartialEq, Eq)]
pub struct Flags(
    /// All bits: 12 and 13 the stage, 14 extended, 15 assume-valid, 29 intent-to-add, 30 skip-worktree.
    pub u32,
);

impl Flags {
    /// Bit 15: git does not check whether the file changed.
    pub fn assume_valid(self) -> bool {
        self.has(15)
    }

    /// Bit 14: the entry has a second set of flags, those of version 3.
    pub fn extended(self) -> bool {
        self.has(14)
    }

    /// Bit 29: the path is to be added later, and has no content yet.
    pub fn intent_to_add(self) -> bool {
        self.has(29)
    }

    /// Bit 30: the file is left out of the work tree.
    pub fn skip_worktree(self) -> bool {
        self.has(30)
    }

    fn has(self, bit: u32) -> bool {
        self.0.checked_shr(bit).is_some_and(|rest| rest & 1 == 1)
    }
}

/// The entries of an index, in the order of the file. See [`Index::entries`](crate::Index::entries).
#[derive(Clone, Debug)]
pub struct Entries<'a> {
    records: &'a [u8],
    paths: &'a [u8],
    left: Range<usize>,
}

impl<'a> Entries<'a> {
    pub(crate) fn of(records: &'a [u8], paths: &'a [u8]) -> Entries<'a> {
        Entries { records, paths, left: 0..records.len() / RECORD_SIZE }
    }

    /// Those at some of the places that are left.
    pub(crate) fn part(&self, places: Range<usize>) -> Entries<'a> {
        Entries { left: places, ..self.clone() }
    }

    /// The place behind the entries whose path passes a test, if those that do all come first.
    pub(crate) fn split(&self, passes: impl Fn(&[u8]) -> bool) -> usize {
        let Range { start: mut low, end: mut high } = self.left;
        while low < high {
            let middle = low.saturating_add(high.saturating_sub(low) / 2);
            match Entry::of(self.records, self.paths, middle) {
                Some(entry) if passes(entry.path) => low = middle.saturating_add(1),
                _ => high = middle,
            }
        }
        low
    }
}

impl<'a> Iterator for Entries<'a> {
    type Item = Entry<'a>;

    fn next(&mut self) -> Option<Entry<'a>> {
        Entry::of(self.records, self.paths, self.left.next()?)
    }

    fn nth(&mut self, n: usize) -> Option<Entry<'a>> {
        Entry::of(self.records, self.paths, self.left.nth(n)?)
    }

    fn size_hint(&self) -> (usize, Option<usize>) {
        self.left.size_hint()
    }
}

impl DoubleEndedIterator for Entries<'_> {
    fn next_back(&mut self) -> Option<Self::Item> {
        Entry::of(self.records, self.paths, self.left.next_back()?)
    }
}

impl ExactSizeIterator for Entries<'_> {}

impl std::iter::FusedIterator for Entries<'_> {}
