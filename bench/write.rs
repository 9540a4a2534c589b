// Measures the proved writer, as the static library exports it, against the Rust's `State::write_to`: 50,000 records, without TREE and with one of 4,041 nodes, with
// twenty zeros for a trailer and with the hash. `bench/write` builds and runs this.
// Both write into memory that was lent once. They take turns, and the least time of each counts. The published `write_to` writes no trailer: beside it the bytes are
// hashed by the oracle's SHA-1, plain scalar code that uses no SHA instructions (nor does ours), or twenty zeros are put behind them. What was written is compared, byte
// by byte.
//   write FILE ROUNDS     FILE: an index of version 2 without TREE
mod clock;
#[path = "../host/src/declarations.rs"]
mod declarations;
use clock::seconds;
use declarations::*;
use gix_index::{decode, init, write, State};

fn node(name: &str, subtrees: &[Vec<u8>]) -> Vec<u8> {
    let head = format!("{name}\0{} {}\n", 3 + subtrees.len(), subtrees.len());
    [head.as_bytes(), &[7; 20], &subtrees.concat()].concat()
}

/// A tree of 40 folders with 100 each, in byte order.
fn tree() -> Vec<u8> {
    let level = |k: usize, name: &str, below: &[Vec<u8>]| {
        (0..k).map(|i| node(&format!("{name}-{i:03}"), below)).collect::<Vec<_>>()
    };
    node("", &level(40, "module", &level(100, "component", &[])))
}

/// The same index with a TREE, and zeros for a trailer.
fn with_tree(index: &[u8]) -> Vec<u8> {
    let body = tree();
    [&index[..index.len() - 20], b"TREE", &(body.len() as u32).to_be_bytes(), &body, &[0; 20]].concat()
}

struct Table {
    records: Vec<u8>,
    paths: Vec<u8>,
    nodes: Vec<u8>,
    file: Vec<u8>,
}

fn table(file: Vec<u8>) -> Table {
    let (mut records, mut paths, mut nodes, mut values) =
        (vec![0; file.len() * 2], vec![0; file.len()], vec![0; 5000 * NODE_SIZE], [0; VALUES]);
    let no = unsafe {
        sparrowpivot_read(
            file.as_ptr(),
            file.len(),
            records.as_mut_ptr(),
            records.len(),
            paths.as_mut_ptr(),
            paths.len(),
            nodes.as_mut_ptr(),
            nodes.len(),
            &mut values,
        )
    };
    assert_eq!(no, 0);
    records.truncate(values[3] as usize * RECORD_SIZE);
    paths.truncate(values[4] as usize);
    nodes.truncate(values[5] as usize * NODE_SIZE);
    Table { records, paths, nodes, file }
}

impl Table {
    fn write(&self, options: u32, out: &mut [u8]) -> usize {
        let mut values = [0; VALUES];
        let (r, p, n, f) = (&self.records, &self.paths, &self.nodes, &self.file);
        let no = unsafe {
            sparrowpivot_write(
                r.as_ptr(),
                r.len(),
                p.as_ptr(),
                p.len(),
                n.as_ptr(),
                n.len(),
                f.as_ptr(),
                f.len(),
                options,
                out.as_mut_ptr(),
                out.len(),
                &mut values,
            )
        };
        assert_eq!(no, 0);
        values[1] as usize
    }
}

fn hash(bytes: &[u8]) -> Vec<u8> {
    let mut h = gix_hash::hasher(gix_hash::Kind::Sha1);
    h.update(bytes);
    h.try_finalize().unwrap().as_bytes().to_vec()
}

fn rust_write(state: &State, hashed: bool, out: &mut Vec<u8>) {
    out.clear();
    let extensions = write::Extensions::Given { tree_cache: true, end_of_index_entry: false };
    state.write_to(&mut *out, write::Options { extensions, skip_hash: !hashed }).unwrap();
    let trailer = if hashed { hash(out) } else { vec![0; 20] };
    out.extend(trailer);
}

fn main() {
    let a: Vec<String> = std::env::args().collect();
    let (index, rounds): (Vec<u8>, usize) = (std::fs::read(&a[1]).unwrap(), a[2].parse().unwrap());
    let zero = filetime::FileTime::from_unix_time(0, 0);
    for (with, file) in [("no TREE", index.clone()), ("a TREE of 4,041 nodes", with_tree(&index))] {
        let options = decode::Options { thread_limit: Some(1), ..Default::default() };
        let state = State::from_bytes(&file, zero, gix_hash::Kind::Sha1, options).unwrap().0;
        assert_eq!(
            state.tree().is_some(),
            init::tree_decode(&tree(), gix_hash::Kind::Sha1).is_some() && with != "no TREE"
        );
        let table = table(file);
        let records = table.records.len() / RECORD_SIZE;
        for (trailer, hashed) in [("no hash", false), ("hash", true)] {
            let bits = if state.tree().is_some() { WRITE_TREE_GIVEN + WRITE_TREE } else { 0 }
                + if hashed { 0 } else { WRITE_UNHASHED };
            let (mut ours, mut rust, mut size) = (f64::MAX, f64::MAX, 0);
            let (mut out, mut theirs) = (vec![1; table.file.len() + 100], Vec::with_capacity(table.file.len() + 100));
            for _ in 0..rounds {
                ours = ours.min(seconds(|| size = table.write(bits, &mut out)));
                rust = rust.min(seconds(|| rust_write(&state, hashed, &mut theirs)));
            }
            assert!(out[..size] == theirs[..], "other bytes than the Rust's");
            let each = |t: f64| t * 1e9 / records as f64;
            println!(
                "{},{:03} records, {with}, {trailer}: {:.1} ns a record, the Rust {:.1}; {:.2} of the Rust",
                records / 1000,
                records % 1000,
                each(ours),
                each(rust),
                ours / rust
            );
        }
    }
}
