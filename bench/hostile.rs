// Measures how the time of every exported function, and of the crate of host/, grows with input made to be slow. `bench/hostile` builds and runs this.
//   hostile [WORD...]     prints the rows that have one of these words, all where none is given: time at n, time at 2n, and the ratio
// A ratio above its limit is measured again, and the least times count, as the machine may be busy. Exits 1 if one stays above, but for rows that are known to.
mod clock;
#[path = "../host/src/declarations.rs"]
mod declarations;
#[allow(dead_code)]
#[path = "../host/src/error.rs"]
mod error;
#[path = "../host/src/ffi.rs"]
mod ffi;
mod inputs;
use clock::seconds;
use declarations::*;
use inputs::*;
use sparrowpivot::{Index, WriteOptions};

/// What is twice as large may take so many times as long, and a tree of the deepest level so many times as one of depth 2.
const MOST_GROWTH: f64 = 2.3;
const MOST_DEEPER: f64 = 3.0;

/// The sizes n: of a folder whose siblings stand in no order, and of one that is known to cost the square; the same of names of 4,000 bytes; of paths that have as many
/// bytes in common; of all else.
const NO_ORDER: usize = 1_000_000;
const SQUARE: usize = 2_000;
const LONG_NAMES: usize = 8_000;
const LONG_SQUARE: usize = 100;
const LONG_PATHS: usize = 50_000;
const MANY: usize = 1_000_000;

/// How often a call is timed, at least (the first makes the machine find its memory) and at most; how long all the calls of a row may take before it is not timed once
/// more; and how often a ratio above its limit is taken.
const FEWEST_RUNS: usize = 2;
const RUNS: usize = 25;
const ENOUGH: f64 = 1.0;
const TURNS: usize = 3;

/// How many lookups are timed.
const LOOKUPS: usize = 10_000;

/// Why a row may be above its limit.
const A_FOLDER: &str = "known: the square of a folder";
const EACH_CALL: &str = "known: each call walks to the IEOT";
const BY_FORMAT: &str = "known: the bytes of the paths grow so";

/// What is timed.
type Run = Box<dyn FnMut()>;

struct Row {
    what: &'static str,
    input: String,
    /// The two that are compared.
    make: [Box<dyn Fn() -> Run>; 2],
    n: usize,
    limit: f64,
    known: &'static str,
}

/// A row that compares n with 2n. `known` is empty where the ratio must stay below the limit.
fn grown(
    what: &'static str,
    input: &str,
    n: usize,
    known: &'static str,
    make: impl Fn(usize) -> Run + Copy + 'static,
) -> Row {
    Row {
        what,
        input: input.into(),
        make: [Box::new(move || make(n)), Box::new(move || make(2 * n))],
        n,
        limit: MOST_GROWTH,
        known,
    }
}

/// What makes a file for a number of folders.
type Tree = fn(usize) -> Vec<u8>;

/// A row that compares the deepest of a kind of tree with as many folders in one.
fn deeper(what: &'static str, input: &str, [flat, tree]: [Tree; 2], make: fn(Vec<u8>) -> Run) -> Row {
    let make: [Box<dyn Fn() -> Run>; 2] = [Box::new(move || make(flat(MANY))), Box::new(move || make(tree(MANY)))];
    Row { what, input: format!("{input}, to depth 2"), make, n: MANY, limit: MOST_DEEPER, known: "" }
}

// ---- The library

/// A file and stores for it. Memory that is not used costs nothing.
struct Table {
    file: Vec<u8>,
    records: Vec<u8>,
    paths: Vec<u8>,
    nodes: Vec<u8>,
}

impl Table {
    fn empty(file: Vec<u8>) -> Table {
        let size = file.len();
        Table {
            file,
            records: vec![0; 2 * size],
            paths: vec![0; size.max(1 << 30)],
            nodes: vec![0; size / 6 * NODE_SIZE],
        }
    }

    fn of(file: Vec<u8>) -> Table {
        let mut all = Table::empty(file);
        let [_, _, _, records, path_bytes, nodes, ..] = all.read();
        all.records.truncate(records as usize * RECORD_SIZE);
        all.paths.truncate(path_bytes as usize);
        all.nodes.truncate(nodes as usize * NODE_SIZE);
        all
    }

    fn read(&mut self) -> ffi::Values {
        ffi::read(&self.file, &mut self.records, &mut self.paths, &mut self.nodes).unwrap()
    }
}

fn read(file: Vec<u8>) -> Run {
    let mut table = Table::empty(file);
    Box::new(move || {
        table.read();
    })
}

fn entries(file: Vec<u8>) -> Run {
    let mut table = Table::empty(file);
    let [version, count] = [4, 8].map(|at| u32::from_be_bytes(table.file[at..at + 4].try_into().unwrap()));
    Box::new(move || {
        ffi::entries(&table.file, version, count as usize, &mut table.records, &mut table.paths).unwrap();
    })
}

fn write(file: Vec<u8>) -> Run {
    let table = Table::of(file);
    let mut out = vec![0; table.file.len() + table.records.len() + table.paths.len()];
    let options = if table.nodes.is_empty() { 0 } else { WRITE_TREE_GIVEN + WRITE_TREE } + WRITE_UNHASHED;
    Box::new(move || {
        ffi::write(&table.records, &table.paths, &table.nodes, &table.file, options, &mut out).unwrap();
    })
}

fn sha1(n: usize) -> Run {
    let (bytes, mut id) = (vec![7; 100 * n], [0; ID_SIZE]);
    Box::new(move || unsafe { sparrowpivot_sha1(bytes.as_ptr(), bytes.len(), &mut id) })
}

fn eoie(file: Vec<u8>) -> Run {
    Box::new(move || assert_eq!(ffi::eoie(&file), Some(12)))
}

/// The IEOT's number of pairs, and each of the first `asked` pairs.
fn ieot_of(file: Vec<u8>, asked: usize) -> Run {
    let mut values = [0; VALUES];
    Box::new(move || {
        unsafe { sparrowpivot_ieot_count(file.as_ptr(), file.len(), 12, &mut values) };
        assert!(values[0] == 1 && values[1] as usize >= asked);
        for k in 0..asked {
            unsafe { sparrowpivot_ieot_pair(file.as_ptr(), file.len(), 12, k, &mut values) };
            assert!(values[..3] == [1, 12, 1]);
        }
    })
}

fn check_order(file: Vec<u8>) -> Run {
    let table = Table::of(file);
    Box::new(move || ffi::check_order(&table.records, &table.paths).unwrap())
}

fn lookup(file: Vec<u8>) -> Run {
    let table = Table::of(file);
    let count = table.records.len() / RECORD_SIZE;
    let path = |i: usize| {
        let [_, _, _, start, end, ..] = ffi::record(&table.records, &table.paths, i).unwrap();
        table.paths[start as usize..end as usize].to_vec()
    };
    let keys: Vec<(usize, Vec<u8>)> = (0..LOOKUPS).map(|i| i * 7919 % count).map(|i| (i, path(i))).collect();
    Box::new(move || {
        keys.iter().for_each(|(i, key)| assert_eq!(ffi::lookup(&table.records, &table.paths, key, 0), Ok(Some(*i))))
    })
}

/// Everything that is told of each record and of each node.
fn each(file: Vec<u8>) -> Run {
    let table = Table::of(file);
    let (records, nodes) = (table.records.len() / RECORD_SIZE, table.nodes.len() / NODE_SIZE);
    Box::new(move || {
        for i in 0..records {
            let told = (
                ffi::record(&table.records, &table.paths, i),
                ffi::record_stat(&table.records, i),
                ffi::record_id(&table.records, i),
            );
            assert!(told.0.is_some() && told.1[0] == 0 && told.2[0] == 0);
        }
        for i in 0..nodes {
            assert!(ffi::node(&table.nodes, i).is_some() && ffi::node_id(&table.nodes, i)[0] == 0);
        }
    })
}

fn max_entries(n: usize) -> Run {
    Box::new(move || assert!((0..n).all(|size| ffi::max_entries(size) as usize <= size)))
}

// ---- The crate

fn from_bytes(file: Vec<u8>) -> Run {
    Box::new(move || drop(Index::from_bytes(file.clone()).unwrap()))
}

fn rewrite(file: Vec<u8>) -> Run {
    let index = Index::from_bytes(file).unwrap();
    Box::new(move || drop(index.write(WriteOptions { tree: true, eoie: false, zero_trailer: true }).unwrap()))
}

fn check_tree(file: Vec<u8>) -> Run {
    let index = Index::from_bytes(file).unwrap();
    Box::new(move || index.check_tree().unwrap())
}

fn folders(file: Vec<u8>) -> Run {
    let index = Index::from_bytes(file).unwrap();
    Box::new(move || {
        let mut folders = index.tree().unwrap().folders();
        while folders.step().is_some() {}
    })
}

fn all_extensions(file: Vec<u8>) -> Run {
    let index = Index::from_bytes(file).unwrap();
    Box::new(move || assert!(index.extensions().unwrap().count() > 0))
}

// ---- The rows

/// A kind of tree: its words, how it is made, n, and n for the writer as it is called from C where that costs more.
type Kind = (&'static str, Tree, usize, Option<usize>);

const TREES: [Kind; 14] = [
    ("siblings by bytes", by_bytes, MANY, None),
    ("siblings in git's order", by_git, MANY, None),
    ("siblings in git's order, of 200 lengths", by_git_in_runs, MANY / 10, Some(SQUARE)),
    ("siblings shuffled", shuffled, NO_ORDER, Some(SQUARE)),
    ("siblings of one length, shuffled", shuffled_of_one_length, NO_ORDER, Some(SQUARE)),
    ("siblings reversed", reversed, NO_ORDER, Some(SQUARE)),
    ("siblings, each a run of its own", runs_of_one, NO_ORDER, Some(SQUARE)),
    ("siblings, two exchanged at each end", exchanged, NO_ORDER, Some(SQUARE)),
    ("siblings of 4,000 bytes, shuffled", long_names, LONG_NAMES, Some(LONG_SQUARE)),
    ("folders down to the deepest level", deepest, MANY, None),
    ("siblings at the deepest level", lowest, MANY, None),
    ("a comb", comb, MANY, None),
    ("folders down to the deepest level, by git", deepest_by_git, MANY, None),
    ("a comb, by git", comb_by_git, MANY, None),
];

/// Two of depth 2 and the deepest level that are compared.
const DEEPEST: [(&str, [Tree; 2]); 4] = [
    ("folders down to the deepest level", [by_bytes, deepest]),
    ("a comb", [by_bytes, comb]),
    ("folders down to the deepest level, by git", [by_git, deepest_by_git]),
    ("a comb, by git", [by_git, comb_by_git]),
];

fn trees() -> Vec<Row> {
    let mut rows = Vec::new();
    for (input, tree, n, square) in TREES {
        rows.push(grown("read", input, n, "", move |n| read(tree(n))));
        let known = if square.is_some() { A_FOLDER } else { "" };
        rows.push(grown("write", input, square.unwrap_or(n), known, move |n| write(tree(n))));
        rows.push(grown("the crate's write", input, n, "", move |n| rewrite(tree(n))));
    }
    for (input, pair) in DEEPEST {
        rows.push(deeper("read", input, pair, read));
        rows.push(deeper("write", input, pair, write));
        rows.push(deeper("the crate's write", input, pair, rewrite));
    }
    rows.push(grown("the crate's reading", "siblings shuffled", NO_ORDER, "", |n| from_bytes(shuffled(n))));
    rows.push(grown("the crate's check_tree", "a long name above many", MANY, "", |n| {
        check_tree(long_name_above_many(n))
    }));
    rows.push(grown("the crate's folders", "a long name above many", MANY, "", |n| folders(long_name_above_many(n))));
    rows.push(grown("node, node_id", "each of n", MANY, "", |n| each(by_bytes(n))));
    rows
}

fn entry_rows() -> Vec<Row> {
    let shared = "paths of version 4, 4,000 bytes in common";
    vec![
        grown("read", shared, LONG_PATHS, "", |n| read(shared_paths(n))),
        grown("entries", shared, LONG_PATHS, "", |n| entries(shared_paths(n))),
        grown("entries", "paths of 4,100 bytes", LONG_PATHS, "", |n| entries(long_paths(n))),
        grown("entries", "paths of version 4, each longer by one", LONG_PATHS / 5, BY_FORMAT, |n| {
            entries(growing_paths(n))
        }),
        grown("check_order", shared, LONG_PATHS, "", |n| check_order(shared_paths(n))),
        grown("lookup", shared, LONG_PATHS, "", |n| lookup(shared_paths(n))),
        grown("write", shared, LONG_PATHS, "", |n| write(shared_paths(n))),
        grown("the crate's reading", shared, LONG_PATHS, "", |n| from_bytes(shared_paths(n))),
        grown("record, record_stat, record_id", "each of n", LONG_PATHS, "", |n| each(shared_paths(n))),
        grown("max_entries", "n sizes", MANY, "", max_entries),
        grown("sha1", "100 n bytes", MANY, "", sha1),
    ]
}

fn extension_rows() -> Vec<Row> {
    let pairs = |n: usize| file(2, 0, &[&ieot(n)]);
    let behind = |n: usize, k: usize| file(2, 0, &[&extensions(n), &ieot(k)]);
    vec![
        grown("read", "n small extensions", MANY, "", |n| read(file(2, 0, &[&extensions(n)]))),
        grown("eoie", "n small extensions", MANY, "", |n| eoie(under_eoie(&extensions(n), &extensions(n)))),
        grown("eoie", "an IEOT of n pairs", MANY, "", |n| eoie(under_eoie(&ieot(n), &ieot(n)[..8]))),
        grown("ieot_count", "behind n small extensions", MANY, "", move |n| ieot_of(behind(n, 1), 0)),
        grown("ieot_pair", "each of n pairs", MANY, "", move |n| ieot_of(pairs(n), n)),
        grown("ieot_pair", "each of n, behind n small extensions", SQUARE, EACH_CALL, move |n| {
            ieot_of(behind(n, n), n)
        }),
        grown("the crate's extensions", "n small extensions", MANY, "", |n| {
            all_extensions(file(2, 0, &[&extensions(n)]))
        }),
    ]
}

// ---- Measuring

/// The least time that a run takes.
fn best(mut run: Run) -> f64 {
    let (mut least, mut spent) = (f64::MAX, 0.0);
    for turn in 1..=RUNS {
        let time = seconds(&mut run);
        (least, spent) = (least.min(time), spent + time);
        if spent > ENOUGH && turn >= FEWEST_RUNS {
            break;
        }
    }
    least
}

impl Row {
    /// Measures and prints. Whether the ratio is above the limit, rounded as it is.
    fn is_above(&self) -> bool {
        let mut least = [f64::MAX; 2];
        for _ in 0..if self.known.is_empty() { TURNS } else { 1 } {
            least = [0, 1].map(|side| least[side].min(best(self.make[side]())));
            if !above(least[1] / least[0], self.limit) {
                break;
            }
        }
        let [first, second] = least;
        let ratio = second / first;
        let note = if above(ratio, self.limit) && self.known.is_empty() { "ABOVE" } else { self.known };
        println!(
            "{:30}  {:50}  {:>9}  {:>9.2}  {:>9.2}  {ratio:>5.2}  {note}",
            self.what,
            self.input,
            self.n,
            first * 1e3,
            second * 1e3
        );
        note == "ABOVE"
    }
}

fn above(ratio: f64, limit: f64) -> bool {
    (ratio * 10.0).round() > limit * 10.0
}

fn main() {
    let words: Vec<String> = std::env::args().skip(1).collect();
    let asked =
        |row: &Row| words.is_empty() || words.iter().any(|word| format!("{} {}", row.what, row.input).contains(word));
    println!("{:30}  {:50}  {:>9}  {:>9}  {:>9}  ratio", "function", "input", "n", "ms", "ms at 2n");
    let rows: Vec<Row> = [trees(), entry_rows(), extension_rows()].into_iter().flatten().filter(asked).collect();
    let slow: Vec<&Row> = rows.iter().filter(|row| row.is_above()).collect();
    let known = rows.iter().filter(|row| !row.known.is_empty()).count();
    println!("{} rows, {known} of them known to cost more; {} of the others above their limit", rows.len(), slow.len());
    slow.iter().for_each(|row| println!("above {:.1}: {}, {}", row.limit, row.what, row.input));
    std::process::exit(i32::from(!slow.is_empty()));
}
