//! Document 01's reader once more, as A4 of 02 amends it, plainly, with the rows of docs/DIFFERENCES.md as switches: without them it says what the library must
//! answer and leave in its stores, with them what the Rust answers. So a difference is known only if a rule gives both sides of it.

pub use crate::declarations::{NODE_SIZE as NODE, RECORD_SIZE as RECORD};

const TRAILER: usize = 20;
const HEADER: usize = 12;
pub const DEPTH: usize = 512;
const MODE_BITS: u32 = 0o160755;

#[derive(Clone, Copy, PartialEq, Eq, Debug, PartialOrd, Ord)]
pub enum Row {
    D1,
    D2,
    D3,
    D4,
    D4Padded,
    D5,
    D6,
    D7,
    D8,
    D9,
    D11,
    D12,
    D15,
    D18,
}

pub const ROWS: [(Row, &str); 14] = [
    (Row::D1, "D1   more entries than the bytes, or EOIE's offset, leave room for"),
    (Row::D2, "D2   a V4 number above 2^64 - 1"),
    (Row::D3, "D3   field 4095: padding behind the NUL"),
    (Row::D4, "D4   a V4 entry that reaches into the last 20 bytes"),
    (Row::D4Padded, "D4b  the same in V2 and V3"),
    (Row::D5, "D5   an extension's header right before the trailer, swallowed"),
    (Row::D6, "D6   a trailer that is not the hash"),
    (Row::D7, "D7   stray bytes, or an extension cut short"),
    (Row::D8, "D8   depth 513"),
    (Row::D9, "D9   order of the nodes"),
    (Row::D11, "D11  a node table that is not proper, by its depth"),
    (Row::D12, "D12  a written file with a path of 4095 bytes or more, read back"),
    (Row::D15, "D15  lookup in a table that is not sorted"),
    (Row::D18, "D18  a stray signature: its first byte is no letter"),
];

#[derive(Clone, PartialEq, Debug)]
pub struct Entry {
    /// ctime seconds and nanoseconds, mtime, dev, ino, mode, uid, gid, size, as in the file
    pub fields: [u32; 10],
    pub id: [u8; 20],
    pub flags: u32,
    pub path: Vec<u8>,
}

#[derive(Clone, PartialEq, Debug)]
pub struct Node {
    pub start: usize,
    pub end: usize,
    pub count: i64,
    pub subtrees: u64,
    pub id: [u8; 20],
    pub parent: u64,
}

#[derive(Clone, Copy, PartialEq, Debug, Default)]
pub enum Nodes {
    #[default]
    Untouched,
    Zeroed,
    Filled,
}

#[derive(Clone, Copy, Debug)]
pub struct Rooms {
    pub records: usize,
    pub paths: usize,
    pub nodes: usize,
}

pub const ALL: Rooms = Rooms { records: usize::MAX, paths: usize::MAX, nodes: usize::MAX };

/// An answer with all that the stores hold then.
#[derive(Clone, PartialEq, Debug, Default)]
pub struct Reading {
    pub refused: Option<(u32, u64)>,
    pub version: u32,
    pub sparse: bool,
    pub tree: bool,
    pub entries: Vec<Entry>,
    pub path_bytes: usize,
    pub nodes: Vec<Node>,
    pub node_store: Nodes,
}

/// What the Rust tells besides, or its error.
#[derive(Default)]
pub struct Run {
    pub reading: Reading,
    pub error: Option<String>,
    pub eoie: bool,
    pub ieot: bool,
    /// How many nodes were begun, read or not: the room that the walk asks for.
    pub begun: usize,
    /// The first row that made a difference, in the order of 01's checks.
    pub row: Option<Row>,
}

struct Walk<'a> {
    file: &'a [u8],
    rust: bool,
    rooms: Rooms,
    run: Run,
}

pub fn word(s: &[u8], at: usize) -> u32 {
    u32::from_be_bytes(s[at..at + 4].try_into().unwrap())
}

/// What the library must answer, with stores of these sizes.
pub fn ours(file: &[u8], rooms: Rooms) -> Run {
    run(file, false, rooms)
}

/// What the Rust answers.
pub fn rust(file: &[u8]) -> Run {
    run(file, true, ALL)
}

/// What `sparrowpivot_entries` must answer for a file's entries alone: the run, and where the entries end.
pub fn entries(file: &[u8], version: u32, count: usize, rooms: Rooms) -> (Run, usize) {
    let mut w = Walk { file, rust: false, rooms, run: Run::default() };
    let next = w.entries(version, count).unwrap_or(0);
    (w.run, next)
}

/// The nodes of a TREE's body as the Rust reads it, of any depth, in file order; their names stand in the body.
pub fn nodes(body: &[u8]) -> Option<Vec<Node>> {
    let mut w = Walk { file: body, rust: true, rooms: ALL, run: Run::default() };
    (w.node(0, body.len(), 1, u64::MAX) == Ok(body.len())).then_some(w.run.reading.nodes)
}

fn run(file: &[u8], rust: bool, rooms: Rooms) -> Run {
    let mut w = Walk { file, rust, rooms, run: Run::default() };
    let _ = w.whole();
    let mut r = w.run;
    if r.reading.refused.is_some() || r.error.is_some() {
        (r.reading.version, r.reading.sparse, r.reading.tree) = (0, false, false);
        r.reading.nodes.clear();
    }
    r
}

type Step<T> = Result<T, ()>;

impl Walk<'_> {
    fn hit(&mut self, row: Row) {
        self.run.row.get_or_insert(row);
    }
    fn refuse<T>(&mut self, number: u32, value: u64, text: String) -> Step<T> {
        if self.rust {
            self.run.error = Some(text);
        } else {
            self.run.reading.refused = Some((number, value));
        }
        Err(())
    }
    fn whole(&mut self) -> Step<()> {
        let (s, n) = (self.file, self.file.len());
        if n < HEADER + TRAILER {
            return self.refuse(1, 0, "err header short".into());
        }
        if &s[..4] != b"DIRC" {
            return self.refuse(2, 0, "err header signature".into());
        }
        let version = word(s, 4);
        if !(2..=4).contains(&version) {
            return self.refuse(3, version as u64, format!("err version {version}"));
        }
        let trailer = &s[n - TRAILER..];
        if trailer != [0; TRAILER] && trailer != sha1(&s[..n - TRAILER]) {
            self.hit(Row::D6);
            if !self.rust {
                return self.refuse(4, 0, String::new());
            }
        }
        let count = word(s, 8) as usize;
        if self.rust && count as u64 > max_entries(n, eoie(s), version) {
            self.hit(Row::D1);
            return self.refuse(0, 0, "err header count".into());
        }
        self.run.reading.version = version;
        let at = self.entries(version, count)?;
        let tree = self.extensions(at)?;
        self.tree(tree)
    }
    fn entries(&mut self, version: u32, count: usize) -> Step<usize> {
        let (mut at, mut used) = (HEADER, 0);
        for k in 0..count {
            let Some((e, next)) = self.entry(version, at) else {
                return self.refuse(5, k as u64, format!("err entry {k}"));
            };
            used += e.path.len();
            if (k + 1).saturating_mul(RECORD) > self.rooms.records || used > self.rooms.paths {
                return self.refuse(6, k as u64, String::new());
            }
            self.run.reading.sparse |= e.fields[6] == 0o40000;
            self.run.reading.path_bytes = used;
            self.run.reading.entries.push(e);
            at = next;
        }
        Ok(at)
    }
    /// The entry at `at` and where the next one begins. The Rust's may reach to the end of the file.
    fn entry(&mut self, version: u32, at: usize) -> Option<(Entry, usize)> {
        let s = self.file;
        let limit = s.len().saturating_sub(TRAILER);
        let end = if self.rust { s.len() } else { limit };
        let has = |at: usize, n: usize| n <= end.saturating_sub(at);
        if !has(at, 62) {
            return None;
        }
        let fields: [u32; 10] =
            std::array::from_fn(|i| word(s, at + 4 * i) & if i == 6 { MODE_BITS } else { u32::MAX });
        let bits = u16::from_be_bytes([s[at + 60], s[at + 61]]) as u32;
        let (mut flags, mut here) = (bits & 0xf000, at + 62);
        if bits & 0x4000 != 0 {
            if !has(here, 2) {
                return None;
            }
            let more = u16::from_be_bytes([s[here], s[here + 1]]) as u32;
            if more & !0x6000 != 0 {
                return None;
            }
            flags |= more << 16;
            here += 2;
        }
        let nul = |from: usize, rust: bool| {
            if rust && end - from < 2 {
                None
            } else {
                s[from..end].iter().position(|b| *b == 0).map(|i| from + i)
            }
        };
        let (path, next) = if version == 4 {
            let (strip, from) = self.number(here, end)?;
            let mut path = match self.run.reading.entries.last() {
                None => vec![],
                Some(e) if strip <= e.path.len() as u64 => e.path[..e.path.len() - strip as usize].to_vec(),
                _ => return None,
            };
            let stop = nul(from, self.rust)?;
            path.extend(&s[from..stop]);
            (path, stop + 1)
        } else {
            let field = (bits & 0xfff) as usize;
            let stop = if field == 0xfff { nul(here, self.rust)? } else { here + field };
            let padded = at + (stop - at + 8) / 8 * 8;
            let mut next = padded;
            if field == 0xfff && padded != stop + 1 {
                self.hit(Row::D3);
                if self.rust {
                    next = stop + 1;
                }
            }
            if next > end {
                return None;
            }
            (s[here..stop].to_vec(), next)
        };
        if next > limit {
            self.hit(if version == 4 { Row::D4 } else { Row::D4Padded });
        }
        let id = s[at + 40..at + 60].try_into().unwrap();
        Some((Entry { fields, id, flags, path }, next))
    }
    fn number(&mut self, mut at: usize, end: usize) -> Option<(u64, usize)> {
        let byte = |at: &mut usize| (*at < end).then(|| (self.file[*at], *at += 1).0);
        let mut c = byte(&mut at)?;
        let (mut v, mut over) = ((c & 127) as u64, false);
        while c & 128 != 0 {
            c = byte(&mut at)?;
            let wide = (v as u128 + 1) * 128 + (c & 127) as u128;
            if v == u64::MAX {
                return None;
            }
            over |= wide > u64::MAX as u128;
            v = wide as u64;
        }
        if over {
            self.hit(Row::D2);
            if !self.rust {
                return None;
            }
        }
        Some((v, at))
    }
    /// Walks the extensions and tells where the body of the last TREE lies.
    fn extensions(&mut self, mut at: usize) -> Step<Option<(usize, usize)>> {
        let (s, n) = (self.file, self.file.len());
        let end = n - TRAILER;
        let mut tree = None;
        if at > end {
            return self.refuse(0, 0, format!("err trailer {}", n - at));
        }
        while at < end {
            if end - at < 8 {
                self.hit(Row::D7);
                return self.refuse(7, at as u64, format!("err trailer {}", n - at));
            }
            let (size, body) = (word(s, at + 4) as usize, at + 8);
            if end - body < size {
                self.hit(if body == end { Row::D5 } else { Row::D7 });
                if self.rust && body == end {
                    break;
                }
                return self.refuse(7, at as u64, format!("err trailer {}", n - body));
            }
            let signature = &s[at..at + 4];
            match signature {
                b"TREE" => tree = Some((body, body + size)),
                b"EOIE" => self.run.eoie = true,
                b"IEOT" => self.run.ieot = true,
                b"sdir" if size == 0 => self.run.reading.sparse = true,
                _ if signature[0].is_ascii_uppercase() => {}
                _ => {
                    let stray = !signature[0].is_ascii_lowercase();
                    if stray {
                        self.hit(Row::D18);
                    }
                    if !(self.rust && stray) {
                        return self.refuse(8, word(s, at) as u64, mandatory(word(s, at)));
                    }
                }
            }
            at = body + size;
        }
        Ok(tree)
    }
    fn tree(&mut self, body: Option<(usize, usize)>) -> Step<()> {
        let Some((start, end)) = body else { return Ok(()) };
        let walked = self.node(start, end, 1, u64::MAX);
        match walked {
            Ok(at) if at == end => {
                self.run.reading.tree = true;
                self.run.reading.node_store = Nodes::Filled;
                if sorted(&self.run.reading.nodes, self.file) != (0..self.run.reading.nodes.len()).collect::<Vec<_>>() {
                    self.hit(Row::D9);
                }
                return Ok(());
            }
            Err(Some(number)) => {
                self.run.reading.node_store = Nodes::Zeroed;
                return self.refuse(number, 0, String::new());
            }
            _ => {}
        }
        self.run.reading.nodes.clear();
        self.run.reading.node_store = Nodes::Zeroed;
        Ok(())
    }
    /// Reads a node and its subtrees; the error is a refusal's number, or none where the bytes are malformed.
    fn node(&mut self, at: usize, end: usize, depth: usize, parent: u64) -> Result<usize, Option<u32>> {
        let s = self.file;
        if depth > DEPTH {
            self.hit(Row::D8);
            if !self.rust {
                return Err(Some(9));
            }
        }
        let number = self.run.reading.nodes.len();
        if (number + 1).saturating_mul(NODE) > self.rooms.nodes {
            return Err(Some(10));
        }
        self.run.begun = number + 1;
        let until = |from: usize, b: u8| s[from..end].iter().position(|x| *x == b).map(|i| from + i).ok_or(None);
        let name = until(at, 0)?;
        let space = until(name + 1, b' ')?;
        let newline = until(space + 1, b'\n')?;
        let count = signed(&s[name + 1..space]).ok_or(None)?;
        let subtrees = unsigned(&s[space + 1..newline], u64::MAX as i128).ok_or(None)? as u64;
        let (mut here, mut id) = (newline + 1, [0; 20]);
        if count >= 0 {
            if end - here < TRAILER {
                return Err(None);
            }
            id.copy_from_slice(&s[here..here + TRAILER]);
            here += TRAILER;
        }
        self.run.reading.nodes.push(Node { start: at, end: name, count: count.max(-1), subtrees, id, parent });
        let mut names = std::collections::BTreeSet::new();
        let mut twice = false;
        for _ in 0..subtrees {
            let child = self.run.reading.nodes.len();
            here = self.node(here, end, depth + 1, number as u64)?;
            let c = &self.run.reading.nodes[child];
            twice |= !names.insert(s[c.start..c.end].to_vec());
        }
        if twice {
            Err(None)
        } else {
            Ok(here)
        }
    }
}

fn unsigned(s: &[u8], most: i128) -> Option<i128> {
    if s.is_empty() {
        return None;
    }
    s.iter().try_fold(0i128, |v, d| {
        if d.is_ascii_digit() {
            Some(v * 10 + (d - b'0') as i128).filter(|v| *v <= most)
        } else {
            None
        }
    })
}

fn signed(s: &[u8]) -> Option<i64> {
    match s.first() {
        Some(b'+') => unsigned(&s[1..], i32::MAX as i128).map(|v| v as i64),
        Some(b'-') => unsigned(&s[1..], 1 << 31).map(|v| -v as i64),
        _ => unsigned(s, i32::MAX as i128).map(|v| v as i64),
    }
}

fn mandatory(signature: u32) -> String {
    if &signature.to_be_bytes() == b"link" {
        "err link".into()
    } else {
        format!("err mandatory {signature:08x}")
    }
}

/// The nodes in the order in which the Rust prints them: siblings by name.
pub fn sorted(nodes: &[Node], file: &[u8]) -> Vec<usize> {
    let mut children = vec![vec![]; nodes.len()];
    for (i, n) in nodes.iter().enumerate().skip(1) {
        children[n.parent as usize].push(i);
    }
    let mut out = vec![];
    let mut open = if nodes.is_empty() { vec![] } else { vec![0] };
    while let Some(i) = open.pop() {
        out.push(i);
        children[i].sort_by(|a, b| file[nodes[*b].start..nodes[*b].end].cmp(&file[nodes[*a].start..nodes[*a].end]));
        open.append(&mut children[i]);
    }
    out
}

pub fn max_entries(size: usize, offset: Option<usize>, _version: u32) -> u64 {
    (offset.unwrap_or(size.saturating_sub(TRAILER)).saturating_sub(HEADER) / 64) as u64
}

/// The offset that EOIE tells.
pub fn eoie(s: &[u8]) -> Option<usize> {
    let start = s.len().checked_sub(32 + TRAILER)?;
    let offset = word(s, start + 8) as usize;
    if &s[start..start + 4] != b"EOIE" || word(s, start + 4) != 24 || offset < HEADER || offset > start {
        return None;
    }
    let (mut at, mut heads) = (offset, vec![]);
    while start - at >= 8 && word(s, at + 4) as usize <= start - at - 8 {
        heads.extend(&s[at..at + 8]);
        at += 8 + word(s, at + 4) as usize;
    }
    (at == start && !heads.is_empty() && sha1(&heads) == s[start + 12..start + 32]).then_some(offset)
}

/// The pairs of the first IEOT among the extensions that fill `s` but for the trailer.
pub fn ieot(s: &[u8]) -> Option<Vec<(u64, u64)>> {
    let (end, mut at) = (s.len().checked_sub(TRAILER)?, 0);
    while end - at >= 8 && word(s, at + 4) as usize <= end - at - 8 {
        let body = &s[at + 8..at + 8 + word(s, at + 4) as usize];
        if &s[at..at + 4] == b"IEOT" {
            let pairs = body.get(4..).filter(|p| word(body, 0) == 1 && !p.is_empty() && p.len() % 8 == 0)?;
            return Some(pairs.chunks(8).map(|p| (word(p, 0) as u64, word(p, 4) as u64)).collect());
        }
        at += 8 + body.len();
    }
    None
}

/// SHA-1 after FIPS 180-4, plainly.
pub fn sha1(s: &[u8]) -> [u8; 20] {
    let mut h = [0x67452301u32, 0xefcdab89, 0x98badcfe, 0x10325476, 0xc3d2e1f0];
    let mut m = s.to_vec();
    m.push(0x80);
    m.resize((m.len() + 8).next_multiple_of(64) - 8, 0);
    m.extend((s.len() as u64 * 8).to_be_bytes());
    for block in m.chunks(64) {
        let mut w = [0u32; 80];
        (0..16).for_each(|i| w[i] = word(block, 4 * i));
        (16..80).for_each(|i| w[i] = (w[i - 3] ^ w[i - 8] ^ w[i - 14] ^ w[i - 16]).rotate_left(1));
        let [mut a, mut b, mut c, mut d, mut e] = h;
        for (i, x) in w.iter().enumerate() {
            let (f, k) = match i / 20 {
                0 => (b & c | !b & d, 0x5a827999),
                1 => (b ^ c ^ d, 0x6ed9eba1),
                2 => (b & c | b & d | c & d, 0x8f1bbcdc),
                _ => (b ^ c ^ d, 0xca62c1d6u32),
            };
            let t = a.rotate_left(5).wrapping_add(f).wrapping_add(e).wrapping_add(k).wrapping_add(*x);
            (e, d, c, b, a) = (d, c, b.rotate_left(30), a, t);
        }
        h.iter_mut().zip([a, b, c, d, e]).for_each(|(x, y)| *x = x.wrapping_add(y));
    }
    let mut out = [0; 20];
    h.iter().enumerate().for_each(|(i, x)| out[4 * i..4 * i + 4].copy_from_slice(&x.to_be_bytes()));
    out
}

/// An answer as the oracle writes it. Refusals that the Rust does not have are written with their numbers.
pub fn line(r: &Reading, file: &[u8], order: &[usize]) -> String {
    use std::fmt::Write;
    match r.refused {
        Some((1, _)) => return "err header short".into(),
        Some((2, _)) => return "err header signature".into(),
        Some((3, v)) => return format!("err version {v}"),
        Some((5, k)) => return format!("err entry {k}"),
        Some((8, s)) => return mandatory(s as u32),
        Some((n, v)) => return format!("refused {n} {v}"),
        None => {}
    }
    let mut o = format!("ok {} sparse={} entries={} paths={}", r.version, r.sparse, r.entries.len(), r.path_bytes);
    for e in &r.entries {
        let f = &e.fields;
        write!(
            o,
            "|E {} {} {} {} {} {} {:o} {} {} {} {} {:x} {}",
            f[0],
            f[1],
            f[2],
            f[3],
            f[4],
            f[5],
            f[6],
            f[7],
            f[8],
            f[9],
            hex(&e.id),
            e.flags,
            hex(&e.path)
        )
        .unwrap();
    }
    let mut depth = vec![1; r.nodes.len()];
    for &i in order {
        let n = &r.nodes[i];
        if i > 0 {
            depth[i] = depth[n.parent as usize] + 1;
        }
        write!(o, "|T {} {} {} {} {}", depth[i], hex(&file[n.start..n.end]), n.count, n.subtrees, hex(&n.id)).unwrap();
    }
    if !r.tree {
        o.push_str("|no-tree");
    }
    o
}

pub fn hex(s: &[u8]) -> String {
    const D: &[u8; 16] = b"0123456789abcdef";
    s.iter().flat_map(|b| [D[(b >> 4) as usize] as char, D[(b & 15) as usize] as char]).collect()
}

/// The bytes of the three stores that an answer leaves, as far as they are used.
pub fn stores(r: &Reading, rooms: Rooms) -> [Vec<u8>; 3] {
    let (mut records, mut paths, mut nodes) = (vec![], vec![], vec![]);
    for e in &r.entries {
        let start = paths.len();
        paths.extend(&e.path);
        records.extend(record(e, start, paths.len()));
    }
    match r.node_store {
        Nodes::Untouched => {}
        Nodes::Zeroed => nodes = vec![0; rooms.nodes],
        Nodes::Filled => {
            for n in &r.nodes {
                [n.start as u64, n.end as u64, n.count as u64, n.subtrees, n.parent]
                    .iter()
                    .for_each(|v| nodes.extend(v.to_be_bytes()));
                nodes.extend(n.id);
                nodes.extend([0; 12]);
            }
        }
    }
    [records, paths, nodes]
}

pub fn record(e: &Entry, start: usize, end: usize) -> [u8; RECORD] {
    let mut r = [0; RECORD];
    e.fields.iter().enumerate().for_each(|(i, f)| r[4 * i..4 * i + 4].copy_from_slice(&f.to_be_bytes()));
    r[40..60].copy_from_slice(&e.id);
    r[72..76].copy_from_slice(&e.flags.to_be_bytes());
    r[76..84].copy_from_slice(&(start as u64).to_be_bytes());
    r[84..92].copy_from_slice(&(end as u64).to_be_bytes());
    r
}
