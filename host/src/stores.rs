//! The stores into which a file is read, and how large they must be.
use crate::declarations::{ID_SIZE, NODE_SIZE, RECORD_SIZE};
use crate::error::{Error, Refusal};
use crate::ffi::{self, Values};

const HEADER_SIZE: usize = 12;
/// The hash, or zeros.
pub(crate) const TRAILER_SIZE: usize = ID_SIZE;
/// An entry without its path.
const FIXED_SIZE: usize = 62;
/// The shortest node: an empty name, `-1 0` and a newline.
const SHORTEST_NODE: usize = 6;
/// What is first guessed for a path of version 4, whose length cannot be told from the file's size.
const GUESSED_PATH: usize = 128;

/// What the node store holds before reading. A TREE that is malformed makes it zeros, so the two can be told apart.
const UNTOUCHED: u8 = 0xff;

/// The three stores, each as long as what was read into it.
pub(crate) struct Stores {
    pub(crate) records: Vec<u8>,
    pub(crate) paths: Vec<u8>,
    pub(crate) nodes: Vec<u8>,
    /// There was a TREE, and it was malformed.
    pub(crate) malformed_tree: bool,
}

/// How much is lent.
#[derive(Clone, Copy)]
struct Rooms {
    records: usize,
    path_bytes: usize,
    nodes: usize,
}

/// Reads a file into stores of its own size. Room that turns out to be missing is doubled, and the file read again; a
/// path store of more than `most_path_bytes` is not made.
pub(crate) fn read(file: &[u8], most_path_bytes: usize) -> Result<(Values, Stores), Error> {
    let mut rooms = Rooms::guessed(file, most_path_bytes);
    loop {
        match read_into(file, rooms)? {
            Ok(done) => return Ok(done),
            Err(Refusal::NoEntryRoom { .. }) => rooms.path_bytes = more(rooms.path_bytes, most_path_bytes)?,
            Err(Refusal::NoNodeRoom) => rooms.nodes = more(rooms.nodes, usize::MAX)?,
            Err(refusal) => return Err(refusal.into()),
        }
    }
}

/// One reading, into new stores. The outer error is missing memory.
fn read_into(file: &[u8], rooms: Rooms) -> Result<Result<(Values, Stores), Refusal>, Error> {
    let mut records = store(rooms.records.saturating_mul(RECORD_SIZE), 0)?;
    let mut paths = store(rooms.path_bytes, 0)?;
    let mut nodes = store(rooms.nodes.saturating_mul(NODE_SIZE), UNTOUCHED)?;
    Ok(ffi::read(file, &mut records, &mut paths, &mut nodes).map(|values| {
        let [_, _, tree, entries, path_bytes, nodes_used, ..] = values;
        let malformed_tree = tree == 0 && nodes.first() == Some(&0);
        cut(&mut records, (entries as usize).saturating_mul(RECORD_SIZE));
        cut(&mut paths, path_bytes as usize);
        cut(&mut nodes, (nodes_used as usize).saturating_mul(NODE_SIZE));
        (values, Stores { records, paths, nodes, malformed_tree })
    }))
}

/// A store of so many items, bytes or others, or the error that there is no memory for it.
pub(crate) fn store<T: Clone>(count: usize, fill: T) -> Result<Vec<T>, Error> {
    let mut store = Vec::new();
    let bytes = count.saturating_mul(std::mem::size_of::<T>());
    store.try_reserve_exact(count).map_err(|_| Error::OutOfMemory { bytes })?;
    store.resize(count, fill);
    Ok(store)
}

/// Keeps the part in use, and gives back the memory after it.
fn cut(store: &mut Vec<u8>, used: usize) {
    store.truncate(used);
    store.shrink_to_fit();
}

/// Twice the room, up to a limit.
fn more(room: usize, most: usize) -> Result<usize, Error> {
    let doubled = room.saturating_mul(2).saturating_add(64);
    if room >= most || doubled == usize::MAX {
        return Err(Error::OutOfMemory { bytes: doubled });
    }
    Ok(doubled.min(most))
}

impl Rooms {
    /// What the file's size and header promise. Records always suffice, since an entry has 64 bytes at least; paths do
    /// in versions 2 and 3, where each stands in the file, unless entries are missing.
    fn guessed(file: &[u8], most_path_bytes: usize) -> Rooms {
        let most = usize::try_from(ffi::max_entries(file.len())).unwrap_or(usize::MAX);
        let records = (be32(file, 8) as usize).min(most);
        let behind_header = file.len().saturating_sub(HEADER_SIZE.saturating_add(TRAILER_SIZE));
        let in_file = behind_header.saturating_sub(records.saturating_mul(FIXED_SIZE));
        let path_bytes = match be32(file, 4) {
            4 => in_file.max(records.saturating_mul(GUESSED_PATH)),
            _ => in_file,
        };
        // folders of few files are common, empty ones are not
        let nodes = (records / 2).saturating_add(64).min((in_file / SHORTEST_NODE).saturating_add(1));
        Rooms { records, path_bytes: path_bytes.min(most_path_bytes), nodes }
    }
}

/// The big-endian number of 32 bits at a place, 0 where the file is shorter.
pub(crate) fn be32(file: &[u8], at: usize) -> u32 {
    let bytes = file.get(at..).and_then(|rest| rest.first_chunk::<4>());
    bytes.map_or(0, |four| u32::from_be_bytes(*four))
}
