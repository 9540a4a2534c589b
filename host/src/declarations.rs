//! The functions of the static library as `include/sparrowpivot.h` declares them, with the header's sizes and options:
//! the one place where Rust declares them, for the crate, for `compare/` and for `bench/`. `tests/c_library` holds it
//! against the header, the archive and the sources that the archive is made of.
#![allow(dead_code)] // no program calls them all

/// The bytes of a record in its store.
pub const RECORD_SIZE: usize = 96;
/// The bytes of a node in its store.
pub const NODE_SIZE: usize = 72;
/// The bytes of an id.
pub const ID_SIZE: usize = 20;
/// How many numbers an answer has.
pub const VALUES: usize = 8;

/// Of the options of a write: nodes and names hold a tree.
pub const WRITE_TREE_GIVEN: u32 = 1;
/// TREE is asked for.
pub const WRITE_TREE: u32 = 2;
/// EOIE is asked for.
pub const WRITE_EOIE: u32 = 4;
/// The index is sparse.
pub const WRITE_SPARSE: u32 = 8;
/// Zeros are written in place of the hash.
pub const WRITE_UNHASHED: u32 = 16;

#[link(name = "sparrowpivot", kind = "static")]
extern "C" {
    pub fn sparrowpivot_read(
        file: *const u8,
        file_len: usize,
        records: *mut u8,
        records_len: usize,
        paths: *mut u8,
        paths_len: usize,
        nodes: *mut u8,
        nodes_len: usize,
        values: *mut [u64; VALUES],
    ) -> u32;
    pub fn sparrowpivot_entries(
        file: *const u8,
        file_len: usize,
        version: u32,
        count: usize,
        records: *mut u8,
        records_len: usize,
        paths: *mut u8,
        paths_len: usize,
        values: *mut [u64; VALUES],
    ) -> u32;
    pub fn sparrowpivot_max_entries(size: usize, told: u32, offset: usize, version: u32) -> u64;
    pub fn sparrowpivot_sha1(bytes: *const u8, bytes_len: usize, out: *mut [u8; ID_SIZE]);
    pub fn sparrowpivot_write(
        records: *const u8,
        records_len: usize,
        paths: *const u8,
        paths_len: usize,
        nodes: *const u8,
        nodes_len: usize,
        names: *const u8,
        names_len: usize,
        options: u32,
        out: *mut u8,
        out_len: usize,
        values: *mut [u64; VALUES],
    ) -> u32;
    pub fn sparrowpivot_eoie(file: *const u8, file_len: usize, values: *mut [u64; VALUES]) -> u32;
    pub fn sparrowpivot_ieot_count(file: *const u8, file_len: usize, offset: usize, values: *mut [u64; VALUES]) -> u32;
    pub fn sparrowpivot_ieot_pair(
        file: *const u8,
        file_len: usize,
        offset: usize,
        k: usize,
        values: *mut [u64; VALUES],
    ) -> u32;
    pub fn sparrowpivot_lookup(
        records: *const u8,
        records_len: usize,
        paths: *const u8,
        paths_len: usize,
        key: *const u8,
        key_len: usize,
        stage: u32,
        values: *mut [u64; VALUES],
    ) -> u32;
    pub fn sparrowpivot_check_order(
        records: *const u8,
        records_len: usize,
        paths: *const u8,
        paths_len: usize,
        values: *mut [u64; VALUES],
    ) -> u32;
    pub fn sparrowpivot_record(
        records: *const u8,
        records_len: usize,
        paths: *const u8,
        paths_len: usize,
        i: usize,
        values: *mut [u64; VALUES],
    ) -> u32;
    pub fn sparrowpivot_record_stat(
        records: *const u8,
        records_len: usize,
        i: usize,
        values: *mut [u64; VALUES],
    ) -> u32;
    pub fn sparrowpivot_record_id(records: *const u8, records_len: usize, i: usize, out: *mut [u8; ID_SIZE]);
    pub fn sparrowpivot_node(nodes: *const u8, nodes_len: usize, i: usize, values: *mut [u64; VALUES]) -> u32;
    pub fn sparrowpivot_node_id(nodes: *const u8, nodes_len: usize, i: usize, out: *mut [u8; ID_SIZE]);
}
