//! The functions of the static library as safe ones. All unsafe code stands here.
//!
//! What holds at every call: a pointer and a count come from one slice, so they name bytes that are there and may be
//! read; a store that is written comes from a `&mut`, so it may be written and nothing else overlaps it; no pointer is
//! null, since slices and arrays never are; and every byte lent is initialised. The library is proved to read and write
//! nothing but what it is lent, for all bytes, to keep no pointer, and to end.
use crate::declarations::*;
use crate::error::Refusal;

/// The eight numbers of an answer.
pub(crate) type Values = [u64; VALUES];

/// The eight numbers of a call, or its refusal.
fn answer(call: impl FnOnce(*mut Values) -> u32) -> Result<Values, Refusal> {
    let mut values = [0; VALUES];
    match call(&mut values) {
        0 => Ok(values),
        number => Err(Refusal::new(number, values[0])),
    }
}

/// A slice that is read, as it is passed.
fn shown(slice: &[u8]) -> (*const u8, usize) {
    (slice.as_ptr(), slice.len())
}

/// A slice that is written, as it is passed.
fn lent(slice: &mut [u8]) -> (*mut u8, usize) {
    let len = slice.len();
    (slice.as_mut_ptr(), len)
}

/// Reads a file into three stores. Version; sparse; there is a tree; records; path bytes; nodes.
pub(crate) fn read(file: &[u8], records: &mut [u8], paths: &mut [u8], nodes: &mut [u8]) -> Result<Values, Refusal> {
    let ((f, fs), (r, rs), (p, ps), (n, ns)) = (shown(file), lent(records), lent(paths), lent(nodes));
    // Sound: the stores are lent mutably, so they overlap neither each other nor the file; `v` points to eight numbers.
    answer(|v| unsafe { sparrowpivot_read(f, fs, r, rs, p, ps, n, ns, v) })
}

/// Reads `count` entries into two stores; any version but 4 is read as 2 and 3 are. The place after them, which is 12
/// where `count` is 0; path bytes; whether one is a directory.
pub(crate) fn entries(
    file: &[u8],
    version: u32,
    count: usize,
    records: &mut [u8],
    paths: &mut [u8],
) -> Result<Values, Refusal> {
    let ((f, fs), (r, rs), (p, ps)) = (shown(file), lent(records), lent(paths));
    // Sound: the stores are lent mutably, so they overlap neither each other nor the file; `v` points to eight numbers.
    answer(|v| unsafe { sparrowpivot_entries(f, fs, version, count, r, rs, p, ps, v) })
}

/// The most entries that a file of so many bytes can have.
pub(crate) fn max_entries(file_size: usize) -> u64 {
    // Sound: it is passed nothing but numbers.
    unsafe { sparrowpivot_max_entries(file_size, 0, 0, 0) }
}

/// Where extensions begin, if there is an EOIE and it is right.
pub(crate) fn eoie(file: &[u8]) -> Option<u64> {
    let (f, fs) = shown(file);
    // Sound: the file is only read; `v` points to eight numbers.
    let values = answer(|v| unsafe { sparrowpivot_eoie(f, fs, v) }).ok()?;
    (values[0] == 1).then_some(values[1])
}

/// The record that has this path and stage: its index.
pub(crate) fn lookup(records: &[u8], paths: &[u8], key: &[u8], stage: u32) -> Result<Option<usize>, Refusal> {
    let ((r, rs), (p, ps), (k, ks)) = (shown(records), shown(paths), shown(key));
    // Sound: all slices are only read, so that they may overlap; `v` points to eight numbers.
    let values = answer(|v| unsafe { sparrowpivot_lookup(r, rs, p, ps, k, ks, stage, v) })?;
    Ok((values[0] == 1).then_some(values[1] as usize))
}

/// Whether each record is strictly after the one before.
pub(crate) fn check_order(records: &[u8], paths: &[u8]) -> Result<(), Refusal> {
    let ((r, rs), (p, ps)) = (shown(records), shown(paths));
    // Sound: both slices are only read; `v` points to eight numbers.
    answer(|v| unsafe { sparrowpivot_check_order(r, rs, p, ps, v) }).map(|_| ())
}

/// Record i: mode; flags; stage; start and end of its path; the path is there; the record is there; size of its file.
pub(crate) fn record(records: &[u8], paths: &[u8], i: usize) -> Option<Values> {
    let ((r, rs), (p, ps)) = (shown(records), shown(paths));
    // Sound: both slices are only read, and any `i` may be asked for; `v` points to eight numbers.
    let values = answer(|v| unsafe { sparrowpivot_record(r, rs, p, ps, i, v) }).ok()?;
    (values[6] == 1).then_some(values)
}

/// More of record i: ctime and mtime, in seconds and nanoseconds; dev; ino; uid; gid. Zeros where there is none.
pub(crate) fn record_stat(records: &[u8], i: usize) -> Values {
    let (r, rs) = shown(records);
    // Sound: the slice is only read, and any `i` may be asked for; `v` points to eight numbers.
    answer(|v| unsafe { sparrowpivot_record_stat(r, rs, i, v) }).unwrap_or_default()
}

/// The id of record i; zeros where there is none.
pub(crate) fn record_id(records: &[u8], i: usize) -> [u8; ID_SIZE] {
    let ((r, rs), mut id) = (shown(records), [0; ID_SIZE]);
    // Sound: the slice is only read, any `i` may be asked for, and just the 20 bytes of an id are written.
    unsafe { sparrowpivot_record_id(r, rs, i, &mut id) };
    id
}

/// Node i: start and end of its name; entry count; subtree count; parent.
pub(crate) fn node(nodes: &[u8], i: usize) -> Option<Values> {
    let (n, ns) = shown(nodes);
    // Sound: the slice is only read, and any `i` may be asked for; `v` points to eight numbers.
    let values = answer(|v| unsafe { sparrowpivot_node(n, ns, i, v) }).ok()?;
    (values[5] == 1).then_some(values)
}

/// The id of node i as the store has it: zeros for a node that was read and has none, or that is not there.
pub(crate) fn node_id(nodes: &[u8], i: usize) -> [u8; ID_SIZE] {
    let ((n, ns), mut id) = (shown(nodes), [0; ID_SIZE]);
    // Sound: the slice is only read, any `i` may be asked for, and just the 20 bytes of an id are written.
    unsafe { sparrowpivot_node_id(n, ns, i, &mut id) };
    id
}

/// Writes an index file. Version; size.
pub(crate) fn write(
    records: &[u8],
    paths: &[u8],
    nodes: &[u8],
    names: &[u8],
    options: u32,
    out: &mut [u8],
) -> Result<Values, Refusal> {
    let ((r, rs), (p, ps), (n, ns), (m, ms)) = (shown(records), shown(paths), shown(nodes), shown(names));
    let (o, os) = lent(out);
    // Sound: only `out` is written, which is lent mutably and so overlaps no other; `v` points to eight numbers.
    answer(|v| unsafe { sparrowpivot_write(r, rs, p, ps, n, ns, m, ms, options, o, os, v) })
}
