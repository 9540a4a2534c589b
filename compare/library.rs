//! The static library, called as C calls it, over stores whose every byte is known before the call.
use crate::declarations::*;
use crate::model::{Entry, Node, Nodes, Reading, Rooms, NODE, RECORD};
use crate::writing::Lent;

/// What every lent byte holds before a call, and what stands around every store.
pub const SENTINEL: u8 = 0xa7;
const FENCE: usize = 64;
const UNSET: u64 = 0x5a5a_5a5a_5a5a_5a5a;

/// A store of exactly so many bytes, with a fence on both sides.
pub struct Store {
    all: Vec<u8>,
}

impl Store {
    pub fn new(n: usize) -> Store {
        Store { all: vec![SENTINEL; n + 2 * FENCE] }
    }
    pub fn lent(&self) -> &[u8] {
        &self.all[FENCE..self.all.len() - FENCE]
    }
    pub fn lent_mut(&mut self) -> &mut [u8] {
        let n = self.all.len();
        &mut self.all[FENCE..n - FENCE]
    }
    /// Nothing around the store was written, and the store is `used` followed by sentinels.
    pub fn is(&self, used: &[u8]) -> bool {
        let n = self.all.len();
        let lent = self.lent();
        let same = |s: &[u8]| s.iter().all(|b| *b == SENTINEL);
        same(&self.all[..FENCE])
            && same(&self.all[n - FENCE..])
            && lent.len() >= used.len()
            && &lent[..used.len()] == used
            && same(&lent[used.len()..])
    }
}

/// Eight numbers, with one more on both sides that must stay.
struct Values([u64; 10]);

impl Values {
    fn new() -> Values {
        Values([UNSET; 10])
    }
    fn lend(&mut self) -> *mut [u64; VALUES] {
        self.0[1..].as_mut_ptr().cast()
    }
    fn told(&self) -> [u64; 8] {
        assert!(self.0[0] == UNSET && self.0[9] == UNSET, "a number beside the eight lent ones was written");
        self.0[1..9].try_into().unwrap()
    }
}

/// What the library read, and its stores as they are afterwards.
pub struct Ours {
    pub reading: Reading,
    pub records: Store,
    pub paths: Store,
    pub nodes: Store,
}

/// Reads a file into stores of these sizes, and asks the accessors for what the stores hold then. `entries` is the number of entries to ask for.
pub fn read(file: &[u8], rooms: Rooms, entries: usize) -> Ours {
    let (mut records, mut paths, mut nodes) =
        (Store::new(rooms.records), Store::new(rooms.paths), Store::new(rooms.nodes));
    let mut values = Values::new();
    let (r, p, n) = (records.lent_mut(), paths.lent_mut(), nodes.lent_mut());
    let number = unsafe {
        sparrowpivot_read(
            file.as_ptr(),
            file.len(),
            r.as_mut_ptr(),
            r.len(),
            p.as_mut_ptr(),
            p.len(),
            n.as_mut_ptr(),
            n.len(),
            values.lend(),
        )
    };
    let v = values.told();
    let mut reading = Reading::default();
    if number != 0 {
        reading.refused = Some((number, v[0]));
        assert!(v[1..].iter().all(|x| *x == 0), "a refusal carries one value");
    } else {
        (reading.version, reading.sparse, reading.tree) = (v[0] as u32, v[1] == 1, v[2] == 1);
        assert!(v[6] == 0 && v[7] == 0 && v[1] < 2 && v[2] < 2, "unused values are 0");
        reading.path_bytes = v[4] as usize;
    }
    let entries = if number == 0 { v[3] as usize } else { entries };
    reading.entries = (0..entries).filter_map(|i| record(&records, &paths, i)).collect();
    if number != 0 {
        reading.path_bytes = reading.entries.iter().map(|e| e.path.len()).sum();
    } else {
        reading.nodes = (0..v[5] as usize).filter_map(|i| node(&nodes, i, file)).collect();
        reading.node_store = if v[2] == 1 { Nodes::Filled } else { Nodes::Untouched };
    }
    Ours { reading, records, paths, nodes }
}

/// The entries alone: the number returned, the eight values, and the two stores.
pub fn entries(file: &[u8], version: u32, count: usize, rooms: Rooms) -> (u32, [u64; 8], Store, Store) {
    let (mut records, mut paths, mut v) = (Store::new(rooms.records), Store::new(rooms.paths), Values::new());
    let (r, p) = (records.lent_mut(), paths.lent_mut());
    let n = unsafe {
        sparrowpivot_entries(
            file.as_ptr(),
            file.len(),
            version,
            count,
            r.as_mut_ptr(),
            r.len(),
            p.as_mut_ptr(),
            p.len(),
            v.lend(),
        )
    };
    (n, v.told(), records, paths)
}

/// A table written into an output of so many bytes: the number returned, the eight values, and the output.
pub fn write(l: &Lent, options: u32, room: usize) -> (u32, [u64; 8], Store) {
    let (mut out, mut v) = (Store::new(room), Values::new());
    let (r, p, n, m, o) = (&l.records, &l.paths, &l.nodes, &l.names, out.lent_mut());
    let number = unsafe {
        sparrowpivot_write(
            r.as_ptr(),
            r.len(),
            p.as_ptr(),
            p.len(),
            n.as_ptr(),
            n.len(),
            m.as_ptr(),
            m.len(),
            options,
            o.as_mut_ptr(),
            o.len(),
            v.lend(),
        )
    };
    (number, v.told(), out)
}

fn record(records: &Store, paths: &Store, i: usize) -> Option<Entry> {
    let (r, p) = (records.lent(), paths.lent());
    let (mut a, mut b, mut id) = (Values::new(), Values::new(), [0u8; 20]);
    unsafe {
        assert_eq!(sparrowpivot_record(r.as_ptr(), r.len(), p.as_ptr(), p.len(), i, a.lend()), 0);
        assert_eq!(sparrowpivot_record_stat(r.as_ptr(), r.len(), i, b.lend()), 0);
        sparrowpivot_record_id(r.as_ptr(), r.len(), i, &mut id);
    }
    let (a, b) = (a.told(), b.told());
    if a[5] != 1 || a[6] != 1 || a[2] != a[1] >> 12 & 3 {
        return None;
    }
    let path = p[a[3] as usize..a[4] as usize].to_vec();
    let w = |x: u64| x as u32;
    let fields = [w(b[0]), w(b[1]), w(b[2]), w(b[3]), w(b[4]), w(b[5]), w(a[0]), w(b[6]), w(b[7]), w(a[7])];
    Some(Entry { fields, id, flags: w(a[1]), path })
}

fn node(nodes: &Store, i: usize, file: &[u8]) -> Option<Node> {
    let n = nodes.lent();
    let (mut v, mut id) = (Values::new(), [0u8; 20]);
    unsafe {
        assert_eq!(sparrowpivot_node(n.as_ptr(), n.len(), i, v.lend()), 0);
        sparrowpivot_node_id(n.as_ptr(), n.len(), i, &mut id);
    }
    let v = v.told();
    let (start, end) = (v[0] as usize, v[1] as usize);
    if v[5] != 1 || start > end || end > file.len() || v[6] != 0 || v[7] != 0 {
        return None;
    }
    Some(Node { start, end, count: v[2] as i64, subtrees: v[3], id, parent: v[4] })
}

/// For a record and a node that are not there, every value is 0.
pub fn absent_is_zero() -> bool {
    let (r, n) = (vec![SENTINEL; RECORD * 2 - 1], vec![SENTINEL; NODE * 2 - 1]);
    let (mut a, mut b, mut c, mut ids) = (Values::new(), Values::new(), Values::new(), [[SENTINEL; 20]; 2]);
    unsafe {
        sparrowpivot_record(r.as_ptr(), r.len(), r.as_ptr(), r.len(), 1, a.lend());
        sparrowpivot_record_stat(r.as_ptr(), r.len(), 1, b.lend());
        sparrowpivot_node(n.as_ptr(), n.len(), 1, c.lend());
        sparrowpivot_record_id(r.as_ptr(), r.len(), 1, &mut ids[0]);
        sparrowpivot_node_id(n.as_ptr(), n.len(), 1, &mut ids[1]);
    }
    a.told() == [0; 8] && b.told() == [0; 8] && c.told() == [0; 8] && ids == [[0; 20]; 2]
}

/// The number returned and the eight values.
pub fn lookup(records: &[u8], paths: &[u8], key: &[u8], stage: u32) -> (u32, [u64; 8]) {
    let mut v = Values::new();
    let n = unsafe {
        sparrowpivot_lookup(
            records.as_ptr(),
            records.len(),
            paths.as_ptr(),
            paths.len(),
            key.as_ptr(),
            key.len(),
            stage,
            v.lend(),
        )
    };
    (n, v.told())
}

pub fn check_order(records: &[u8], paths: &[u8]) -> (u32, [u64; 8]) {
    let mut v = Values::new();
    let n = unsafe { sparrowpivot_check_order(records.as_ptr(), records.len(), paths.as_ptr(), paths.len(), v.lend()) };
    (n, v.told())
}

pub fn eoie(file: &[u8]) -> Option<u64> {
    let mut v = Values::new();
    assert_eq!(unsafe { sparrowpivot_eoie(file.as_ptr(), file.len(), v.lend()) }, 0);
    let v = v.told();
    assert!(v[0] == 1 || v == [0; 8]);
    (v[0] == 1).then_some(v[1])
}

/// All pairs, asked for one by one, and two beyond the last, which must be none.
pub fn ieot(file: &[u8], offset: usize) -> Option<Vec<(u64, u64)>> {
    let mut v = Values::new();
    assert_eq!(unsafe { sparrowpivot_ieot_count(file.as_ptr(), file.len(), offset, v.lend()) }, 0);
    let v = v.told();
    let pair = |k: usize| {
        let mut v = Values::new();
        assert_eq!(unsafe { sparrowpivot_ieot_pair(file.as_ptr(), file.len(), offset, k, v.lend()) }, 0);
        let v = v.told();
        (v[0] == 1).then_some((v[1], v[2]))
    };
    let n = v[1] as usize;
    assert!(pair(n).is_none() && pair(n + 1).is_none() && pair(usize::MAX).is_none());
    (v[0] == 1).then(|| (0..n).map(|k| pair(k).expect("a pair within the count")).collect())
}

pub fn max_entries(size: usize, offset: Option<usize>, version: u32) -> u64 {
    unsafe { sparrowpivot_max_entries(size, offset.is_some() as u32, offset.unwrap_or(0), version) }
}

pub fn sha1(bytes: &[u8]) -> [u8; 20] {
    let mut out = [0; 20];
    unsafe { sparrowpivot_sha1(bytes.as_ptr(), bytes.len(), &mut out) };
    out
}
