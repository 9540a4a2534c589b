// What the Rust's writer makes of the tables of crates/write_pages (D10 to D13 of docs/DIFFERENCES.md), and whether its reader reads that; then what it does where we refuse a table (D14, 14, 15).
// tests/make/write_pages builds and runs this over the oracle's build of gix-index 0.55.0. Each line: the page, the bytes (for long ones their number and SHA-1), and what the reader says of the
// tree, or of the file; of a refused table what was answered, and how many bytes it had written.
use gix_hash::{Kind::Sha1, ObjectId};
use gix_index::{decode, entry, extension::Tree, write, State};
use std::io::Write;
use std::panic::{catch_unwind, AssertUnwindSafe};

fn hex(b: &[u8]) -> String {
    b.iter().map(|x| format!("{x:02x}")).collect()
}

fn hash(b: &[u8]) -> ObjectId {
    let mut h = gix_hash::hasher(Sha1);
    h.update(b);
    h.try_finalize().unwrap()
}

/// A node, with the id of the pages.
fn node(name: &[u8], count: Option<u32>, children: Vec<Tree>) -> Tree {
    Tree { name: name.into(), id: ObjectId::from_bytes_or_panic(b"abcdefghijklmnopqrst"), num_entries: count, children }
}

/// The file with TREE only and the hash, which `write_to` leaves to others.
fn written(state: &State) -> Vec<u8> {
    let mut out = vec![];
    let extensions = write::Extensions::Given { tree_cache: true, end_of_index_entry: false };
    state.write_to(&mut out, write::Options { extensions, skip_hash: false }).unwrap();
    let trailer = hash(&out);
    out.extend_from_slice(trailer.as_bytes());
    out
}

fn read(file: &[u8]) -> Result<State, decode::Error> {
    State::from_bytes(file, filetime::FileTime::from_unix_time(0, 0), Sha1, decode::Options::default()).map(|x| x.0)
}

fn tree_page(page: &str, root: Tree) {
    let mut state = State::new(Sha1);
    state.set_tree(Some(root));
    let file = written(&state);
    let back = if read(&file).unwrap().tree().is_some() { "a tree is read back" } else { "no tree is read back" };
    println!("{page}: {} {back}", hex(&file));
}

/// A folder in each folder, so many in all.
fn deep_page(levels: usize) {
    let chain = (1..levels).fold(node(b"a", None, vec![]), |below, _| node(b"a", None, vec![below]));
    let mut state = State::new(Sha1);
    state.set_tree(Some(Tree { name: b""[..].into(), ..chain }));
    let file = written(&state);
    let back = if read(&file).unwrap().tree().is_some() { "a tree is read back" } else { "no tree is read back" };
    println!("D11, levels {levels}: {} bytes, {back}", file.len());
}

fn push(state: &mut State, mode: u32, path: &[u8]) {
    state.dangerously_push_entry(
        entry::Stat::default(),
        ObjectId::null(Sha1),
        entry::Flags::empty(),
        entry::Mode::from_bits_retain(mode),
        path.into(),
    );
}

/// Counts what is written.
struct Sink(u64);

impl Write for Sink {
    fn write(&mut self, bytes: &[u8]) -> std::io::Result<usize> {
        self.0 += bytes.len() as u64;
        Ok(bytes.len())
    }
    fn flush(&mut self) -> std::io::Result<()> {
        Ok(())
    }
}

/// What a call answers, or that it panics.
fn answer<T: std::fmt::Debug, E: std::fmt::Display>(call: impl FnOnce() -> Result<T, E>) -> String {
    match catch_unwind(AssertUnwindSafe(call)) {
        Ok(Ok(good)) => format!("{good:?}"),
        Ok(Err(bad)) => format!("error: {bad}"),
        Err(_) => "panics".into(),
    }
}

/// D14: the path store is taken away, so that every path lies outside.
fn outside_page(records: usize) {
    let mut state = State::new(Sha1);
    (0..records).for_each(|i| push(&mut state, 0o100644, &[b'a' + i as u8]));
    state.take_path_backing();
    let mut out = Sink(0);
    let order = answer(|| state.verify_entries());
    let lookup =
        answer(|| Ok::<_, String>(state.entry_index_by_path_and_stage(b"a"[..].into(), entry::Stage::Unconflicted)));
    let written = answer(|| state.write_to(&mut out, write::Options::default()));
    println!("D14, records {records}: order {order}; lookup {lookup}; write {written}, {} bytes written", out.0);
}

/// 14: one record into a slice that is too short.
fn short_page(room: usize) {
    let mut state = State::new(Sha1);
    push(&mut state, 0o100644, b"a");
    let mut out = vec![0xff; room];
    let mut rest = out.as_mut_slice();
    let written = answer(|| state.write_to(&mut rest, write::Options::default()));
    let left = room - rest.len();
    println!("14, an output of {room} bytes: {written}, {left} bytes written: {}", hex(&out));
}

/// 15: records that share one path of 2^20 bytes.
fn large_page(records: usize) {
    let mut state = State::new(Sha1);
    push(&mut state, 0o100644, &vec![b'a'; 1 << 20]);
    (1..records).for_each(|_| push(&mut state, 0o100644, b""));
    let first = state.entries()[0].clone();
    state.entries_mut().iter_mut().for_each(|e| *e = first.clone());
    let mut out = Sink(0);
    let written = answer(|| state.write_to(&mut out, write::Options::default()));
    println!("15, {records} paths of 2^20 bytes: {written}, {} bytes written", out.0);
}

fn main() {
    let leaf = |name: &[u8]| node(name, None, vec![]);
    tree_page("D10, children b, a", node(b"", None, vec![leaf(b"b"), node(b"a", Some(3), vec![])]));
    tree_page("D11, count 2^32 - 1", node(b"", Some(u32::MAX), vec![leaf(b"a"), leaf(b"b")]));
    tree_page("D11, two children a", node(b"", Some(4), vec![leaf(b"a"), leaf(b"a")]));
    tree_page("D11, NUL in a name", node(b"", Some(4), vec![leaf(b"a"), leaf(b"t\0x")]));

    (511..=513).for_each(deep_page);

    let mut state = State::new(Sha1);
    for (len, mode) in [(4095, 0o100644), (4096, u32::MAX)] {
        push(&mut state, mode, &vec![b'a'; len]);
    }
    let file = written(&state);
    let back = if read(&file).is_ok() { "it is read back" } else { "it is not read back" };
    println!(
        "D12, D13: {} bytes, sha1 {}; the second entry's head {}; {back}",
        file.len(),
        hash(&file),
        hex(&file[4172..4234])
    );

    std::panic::set_hook(Box::new(|_| ()));
    outside_page(1);
    outside_page(2);
    short_page(40);
    large_page(4095);
    large_page(4096);
}
