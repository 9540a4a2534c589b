//! Document 01's writer once more, plainly: what the library must answer and leave in its output.
use crate::model::{self, hex, sha1, word, Node, Nodes, Reading, Rooms, NODE, RECORD};

/// What is asked for: the five bits of the options.
#[derive(Clone, Copy, Debug, PartialEq)]
pub struct Asked {
    pub given: bool,
    pub tree: bool,
    pub eoie: bool,
    pub sparse: bool,
    pub unhashed: bool,
}

impl Asked {
    pub fn number(self) -> u32 {
        [self.given, self.tree, self.eoie, self.sparse, self.unhashed]
            .iter()
            .enumerate()
            .map(|(i, b)| (*b as u32) << i)
            .sum()
    }
    pub fn of(n: u32) -> Asked {
        let bit = |i: u32| n >> i & 1 == 1;
        Asked { given: bit(0), tree: bit(1), eoie: bit(2), sparse: bit(3), unhashed: bit(4) }
    }
}

/// The oracle's words for which optional extensions are asked for.
pub const WORDS: [&str; 5] = ["all", "none", "tree", "eoie", "both"];

/// The four slices that a writer reads.
#[derive(Clone, Default)]
pub struct Lent {
    pub records: Vec<u8>,
    pub paths: Vec<u8>,
    pub nodes: Vec<u8>,
    pub names: Vec<u8>,
}

impl Lent {
    pub fn text(&self) -> String {
        format!(
            "records {} paths {} nodes {} names {}",
            hex(&self.records),
            hex(&self.paths),
            hex(&self.nodes),
            hex(&self.names)
        )
    }
}

/// Version and file, or a refusal's number and what it carries; 14 is not among them.
pub type Written = Result<(u32, Vec<u8>), (u32, u64)>;

const REMOVE: u32 = 1 << 17;
const EXTENDED: u32 = 1 << 14;

fn wide(s: &[u8], at: usize) -> u64 {
    u64::from_be_bytes(s[at..at + 8].try_into().unwrap())
}

/// One entry, its padding included.
fn entry(r: &[u8], path: &[u8]) -> Vec<u8> {
    let flags = word(r, 72);
    let mut out = r[..60].to_vec();
    out.extend(((flags & 0xf000) as u16 | path.len().min(4095) as u16).to_be_bytes());
    if flags & EXTENDED != 0 {
        out.extend(((flags >> 16) as u16 & 0x6000).to_be_bytes());
    }
    out.extend(path);
    out.resize((out.len() + 8) / 8 * 8, 0);
    out
}

/// The table's nodes, if it is proper: each with its children in byte order of name.
fn proper(l: &Lent, deepest: usize) -> Option<Vec<(Node, Vec<usize>)>> {
    let mut all: Vec<(Node, Vec<usize>)> = vec![];
    let mut depths = vec![];
    for (i, n) in l.nodes.chunks_exact(NODE).enumerate() {
        let [start, end, count, subtrees, parent] = std::array::from_fn(|k| wide(n, 8 * k));
        let named = start <= end && end <= l.names.len() as u64 && !l.names[start as usize..end as usize].contains(&0);
        let parented = if i == 0 { parent == u64::MAX } else { parent < i as u64 };
        if !named || !parented || (count != u64::MAX && count >= 1 << 31) {
            return None;
        }
        let depth = if i == 0 { 1 } else { depths[parent as usize] + 1 };
        if depth > deepest {
            return None;
        }
        depths.push(depth);
        if i > 0 {
            all[parent as usize].1.push(i);
        }
        all.push((
            Node {
                start: start as usize,
                end: end as usize,
                count: count as i64,
                subtrees,
                id: n[40..60].try_into().unwrap(),
                parent,
            },
            vec![],
        ));
    }
    let name = |all: &[(Node, Vec<usize>)], i: usize| l.names[all[i].0.start..all[i].0.end].to_vec();
    for i in 0..all.len() {
        let mut kids = all[i].1.clone();
        kids.sort_by_key(|k| name(&all, *k));
        if kids.len() as u64 != all[i].0.subtrees || kids.windows(2).any(|w| name(&all, w[0]) == name(&all, w[1])) {
            return None;
        }
        all[i].1 = kids;
    }
    (!all.is_empty()).then_some(all)
}

fn tree(l: &Lent, all: &[(Node, Vec<usize>)], i: usize, out: &mut Vec<u8>) {
    let (n, kids) = &all[i];
    out.extend(&l.names[n.start..n.end]);
    out.extend(format!("\0{} {}\n", n.count, n.subtrees).as_bytes());
    if n.count >= 0 {
        out.extend(n.id);
    }
    kids.iter().for_each(|k| tree(l, all, *k, out));
}

/// Where the path of record k stands; none where that is not in the path store.
fn path_of(l: &Lent, k: usize) -> Option<&[u8]> {
    let (start, end) = (wide(&l.records, k * RECORD + 76), wide(&l.records, k * RECORD + 84));
    (start <= end && end <= l.paths.len() as u64).then(|| &l.paths[start as usize..end as usize])
}

/// What the library must answer.
pub fn ours(l: &Lent, a: Asked) -> Written {
    write(l, a, model::DEPTH)
}

/// What the Rust answers: it knows no limit of depth (D11).
pub fn rust(l: &Lent, a: Asked) -> Written {
    write(l, a, usize::MAX)
}

fn write(l: &Lent, a: Asked, deepest: usize) -> Written {
    let records: Vec<&[u8]> = l.records.chunks_exact(RECORD).collect();
    let kept: Vec<usize> = (0..records.len()).filter(|k| word(records[*k], 72) & REMOVE == 0).collect();
    if let Some(k) = kept.iter().find(|k| path_of(l, **k).is_none()) {
        return Err((12, *k as u64));
    }
    let version: u32 = if records.iter().any(|r| word(r, 72) & EXTENDED != 0) { 3 } else { 2 };
    let mut out = [b"DIRC".as_slice(), &version.to_be_bytes(), &(kept.len() as u32).to_be_bytes()].concat();
    let mut body = None;
    if a.given && a.tree {
        let all = proper(l, deepest).ok_or((16, 0))?;
        let mut b = vec![];
        tree(l, &all, 0, &mut b);
        body = Some(b);
    }
    let heads = body.iter().map(|b| 8 + b.len()).sum::<usize>() + 8 * a.sparse as usize;
    let size: usize = kept
        .iter()
        .map(|k| {
            (62 + 2 * (word(records[*k], 72) & EXTENDED != 0) as usize + path_of(l, *k).unwrap().len() + 8) / 8 * 8
        })
        .sum();
    if 12 + size + heads > u32::MAX as usize {
        return Err((15, 0));
    }
    kept.iter().for_each(|k| out.extend(entry(records[*k], path_of(l, *k).unwrap())));
    let (offset, mut toc) = (out.len() as u32, vec![]);
    let named = body.into_iter().map(|b| (b"TREE", b)).chain(a.sparse.then_some((b"sdir", vec![])));
    for (signature, b) in named {
        let head = [signature.as_slice(), &(b.len() as u32).to_be_bytes()].concat();
        toc.extend(&head);
        out.extend(head);
        out.extend(b);
    }
    if a.eoie && !records.is_empty() && !toc.is_empty() {
        out.extend([b"EOIE\0\0\0\x18".as_slice(), &offset.to_be_bytes(), &sha1(&toc)].concat());
    }
    let trailer = if a.unhashed { [0; 20] } else { sha1(&out) };
    out.extend(trailer);
    Ok((version, out))
}

/// Whether a file is one that the writer writes: written again from what was read of it, it is the same.
pub fn is_written(file: &[u8]) -> bool {
    let r = model::ours(file, model::ALL).reading;
    let [records, paths, nodes] = model::stores(&r, Rooms { records: 0, paths: 0, nodes: 0 });
    let l = Lent { records, paths, nodes, names: file.to_vec() };
    r.refused.is_none() && (0..32).any(|n| ours(&l, Asked::of(n)).is_ok_and(|w| w.1 == file))
}

/// A node table of these nodes.
pub fn node_table(nodes: &[Node]) -> Vec<u8> {
    let [_, _, table] =
        model::stores(&Reading { nodes: nodes.to_vec(), node_store: Nodes::Filled, ..Reading::default() }, model::ALL);
    table
}

/// The same nodes level by level instead of in file order: every parent still stands before its children.
pub fn by_level(nodes: &[Node]) -> Vec<Node> {
    let mut depth = vec![0; nodes.len()];
    (1..nodes.len()).for_each(|i| depth[i] = depth[nodes[i].parent as usize] + 1);
    let mut order: Vec<usize> = (0..nodes.len()).collect();
    // backwards within a level, so that siblings change places too
    order.sort_by_key(|i| (depth[*i], std::cmp::Reverse(*i)));
    let mut place = vec![0; nodes.len()];
    order.iter().enumerate().for_each(|(k, i)| place[*i] = k as u64);
    let moved = |i: &usize| Node {
        parent: if *i == 0 { u64::MAX } else { place[nodes[*i].parent as usize] },
        ..nodes[*i].clone()
    };
    order.iter().map(moved).collect()
}
