//! Hostile input over the C boundary. Every lent slice, the eight values and the twenty bytes of an id too, ends right before a page that may not be touched; in a
//! second turn it begins right after one. So a byte read or written outside ends the process, which is a child of its own. What is lent to be read must stay as it
//! was, and so must the bytes on the open side.
use crate::declarations::*;
use crate::generate::{self, Rng};
use crate::model::{NODE, RECORD};
use crate::write_cases::Table;
use std::io::Write;
use std::os::unix::process::ExitStatusExt;
use std::process::{Command, ExitStatus};

extern "C" {
    fn mmap(at: *mut u8, n: usize, protection: i32, flags: i32, file: i32, offset: i64) -> *mut u8;
    fn mprotect(at: *mut u8, n: usize, protection: i32) -> i32;
}

/// How much may not be touched on each side: a multiple of the page size of any machine.
const PAGE: usize = 1 << 16;
const NO_ACCESS: i32 = 0;
const READ_WRITE: i32 = 3;
const PRIVATE_ANONYMOUS: i32 = 0x22;
const SENTINEL: u8 = 0xa7;
/// How many bytes on the open side are looked at.
const NEAR: usize = 64;
/// The most bytes of a slice.
const MOST: usize = 1 << 20;

#[derive(Clone, Copy, PartialEq, Debug)]
pub enum Turn {
    /// the page that may not be touched follows the slice
    Behind,
    Before,
}

/// A fault planted for the self-test, in the harness alone.
#[derive(Clone, Copy, PartialEq, Debug)]
pub enum Fault {
    Nothing,
    /// the harness reads one byte after a slice, or one before it
    Touch,
    /// the library is told that a slice has one byte more, or begins one byte sooner
    Told,
    /// a byte that was lent to be read is changed
    Changed,
}

/// Memory between two pages that may not be touched, and the slice that is lent of it.
struct Fenced {
    base: *mut u8,
    turn: Turn,
    at: *mut u8,
    n: usize,
    was: Vec<u8>,
}

impl Fenced {
    fn new(turn: Turn) -> Fenced {
        let base = unsafe {
            let all = mmap(std::ptr::null_mut(), MOST + 2 * PAGE, READ_WRITE, PRIVATE_ANONYMOUS, -1, 0);
            assert!(all as isize != -1, "no memory");
            assert!(
                mprotect(all, PAGE, NO_ACCESS) == 0 && mprotect(all.add(PAGE + MOST), PAGE, NO_ACCESS) == 0,
                "no protection"
            );
            all.add(PAGE)
        };
        Fenced { base, turn, at: base, n: 0, was: vec![] }
    }
    fn near(&self) -> &[u8] {
        let n = NEAR.min(MOST - self.n);
        unsafe {
            std::slice::from_raw_parts(if self.turn == Turn::Behind { self.at.sub(n) } else { self.at.add(self.n) }, n)
        }
    }
    /// Lends these bytes.
    fn read(&mut self, s: &[u8]) -> (*const u8, usize) {
        self.fill(s);
        (self.at, self.n)
    }
    /// Lends so many bytes to be written.
    fn room(&mut self, n: usize) -> (*mut u8, usize) {
        self.fill(&vec![SENTINEL; n]);
        (self.at, self.n)
    }
    fn fill(&mut self, s: &[u8]) {
        self.n = s.len().min(MOST);
        self.was = s[..self.n].to_vec();
        unsafe {
            self.at = if self.turn == Turn::Behind { self.base.add(MOST - self.n) } else { self.base };
            std::ptr::copy_nonoverlapping(s.as_ptr(), self.at, self.n);
            let near = NEAR.min(MOST - self.n);
            std::ptr::write_bytes(
                if self.turn == Turn::Behind { self.at.sub(near) } else { self.at.add(self.n) },
                SENTINEL,
                near,
            );
        }
    }
    fn now(&self) -> &[u8] {
        unsafe { std::slice::from_raw_parts(self.at, self.n) }
    }
    /// The slice was lent to be read, and nothing was written.
    fn stayed(&self) {
        assert!(self.now() == self.was, "a slice lent to be read was written");
        self.kept();
    }
    /// Nothing was written outside.
    fn kept(&self) {
        assert!(self.near().iter().all(|b| *b == SENTINEL), "a byte outside a slice was written");
    }
}

pub const FUNCTIONS: [&str; 15] = [
    "read",
    "entries",
    "write",
    "max_entries",
    "sha1",
    "eoie",
    "ieot_count",
    "ieot_pair",
    "lookup",
    "check_order",
    "record",
    "record_stat",
    "record_id",
    "node",
    "node_id",
];

struct Harness {
    calls: [usize; 15],
    /// how many reads and writes were not refused
    done: [usize; 2],
    file: Fenced,
    records: Fenced,
    paths: Fenced,
    nodes: Fenced,
    key: Fenced,
    out: Fenced,
    values: Fenced,
    id: Fenced,
    fault: Fault,
}

/// A number near zero, near a length, or anything.
fn number(r: &mut Rng, n: usize) -> usize {
    match r.below(6) {
        0 => r.below(3),
        1 => n.wrapping_add(r.below(3)).wrapping_sub(1),
        2 => usize::MAX - r.below(2),
        3 => (r.next() << 16) as usize,
        _ => r.below(n + 1),
    }
}

/// A size for a store that needs so many bytes.
fn size(r: &mut Rng, needed: usize) -> usize {
    match r.below(6) {
        0 => 0,
        1 => needed.saturating_sub(1),
        2 => needed + 1 + r.below(200),
        3 => r.below(needed + 1),
        _ => needed,
    }
}

/// Any bytes that may be taken for a file.
fn file(r: &mut Rng) -> Vec<u8> {
    match r.below(8) {
        0 => {
            let n = r.below(300);
            r.bytes(n)
        }
        1 => [generate::header(r.pick(&[2, 3, 4]), r.pick(&[0, 1, 2, 9, u32::MAX])), r.clone().bytes(r.below(300))]
            .concat(),
        _ => generate::file(r),
    }
}

/// A table of so many bytes becomes a hostile one: some bytes changed, some numbers extreme, some cut off.
fn spoiled(r: &mut Rng, mut s: Vec<u8>) -> Vec<u8> {
    for _ in 0..r.below(4) {
        if s.len() < 8 {
            break;
        }
        // half of them where a field may begin
        let at = r.below(s.len() - 7) & if r.one_in(2) { !3 } else { !0 };
        match r.below(3) {
            0 => s[at] ^= 1 << r.below(8),
            1 => s[at] = r.next() as u8,
            _ => s[at..at + 8].copy_from_slice(&r.pick(&[0, 1, u64::MAX, 1 << 63, 1 << 32, 96, 72]).to_be_bytes()),
        }
    }
    if r.one_in(6) {
        s.truncate(r.below(s.len() + 1));
    }
    s
}

impl Harness {
    fn new(turn: Turn, fault: Fault) -> Harness {
        let f = || Fenced::new(turn);
        Harness {
            calls: [0; 15],
            done: [0; 2],
            file: f(),
            records: f(),
            paths: f(),
            nodes: f(),
            key: f(),
            out: f(),
            values: f(),
            id: f(),
            fault,
        }
    }
    fn call(&mut self, name: &str) {
        self.calls[FUNCTIONS.iter().position(|f| *f == name).unwrap()] += 1;
    }
    fn values(&mut self) -> *mut [u64; VALUES] {
        self.values.room(8 * VALUES).0.cast()
    }
    fn told(&self) -> [u64; VALUES] {
        self.values.kept();
        std::array::from_fn(|i| u64::from_ne_bytes(self.values.now()[8 * i..8 * i + 8].try_into().unwrap()))
    }
    fn id(&mut self) -> *mut [u8; ID_SIZE] {
        self.id.room(ID_SIZE).0.cast()
    }
    /// Reads a file into stores of some size and answers what they hold.
    fn read_file(&mut self, r: &mut Rng, s: &[u8]) -> [Vec<u8>; 3] {
        let (f, n) = self.file.read(s);
        let need = crate::cases::needed(&crate::model::ours(s, crate::model::ALL));
        let (rs, nr) = self.records.room(size(r, need.records));
        let (ps, np) = self.paths.room(size(r, need.paths));
        let (ns, nn) = self.nodes.room(size(r, need.nodes));
        let v = self.values();
        self.call("read");
        let number = unsafe { sparrowpivot_read(f, n, rs, nr, ps, np, ns, nn, v) };
        let v = self.told();
        self.done[0] += (number == 0) as usize;
        self.file.stayed();
        [&self.records, &self.paths, &self.nodes].iter().for_each(|x| x.kept());
        let used =
            if number == 0 { [v[3] as usize * RECORD, v[4] as usize, v[5] as usize * NODE] } else { [nr, np, nn] };
        [
            self.records.now()[..used[0]].to_vec(),
            self.paths.now()[..used[1]].to_vec(),
            self.nodes.now()[..used[2]].to_vec(),
        ]
    }
    fn read_parts(&mut self, r: &mut Rng, s: &[u8]) {
        let (f, n) = self.file.read(s);
        let (version, count) =
            (r.pick(&[2, 3, 4, 4, 0, 77]), number(r, 5).min(if r.one_in(4) { usize::MAX } else { 9 }));
        let ((rs, nr), (ps, np)) = (self.records.room(r.below(500)), self.paths.room(r.below(100)));
        let v = self.values();
        self.call("entries");
        unsafe { sparrowpivot_entries(f, n, version, count, rs, nr, ps, np, v) };
        [&self.records, &self.paths].iter().for_each(|x| x.kept());
        self.told();
        let (v, offset, k) = (self.values(), number(r, n), number(r, 4));
        self.call("eoie");
        unsafe { sparrowpivot_eoie(f, n, v) };
        self.told();
        self.call("ieot_count");
        unsafe { sparrowpivot_ieot_count(f, n, offset, v) };
        self.told();
        self.call("ieot_pair");
        unsafe { sparrowpivot_ieot_pair(f, n, offset, k, v) };
        self.told();
        self.call("max_entries");
        unsafe { sparrowpivot_max_entries(number(r, n), r.below(3) as u32, offset, version) };
        let id = self.id();
        let (f, n) = match (self.fault, self.file.turn) {
            (Fault::Told, Turn::Behind) => (f, n + 1),
            (Fault::Told, Turn::Before) => (unsafe { f.sub(1) }, n),
            _ => (f, n),
        };
        self.call("sha1");
        unsafe { sparrowpivot_sha1(f, n, id) };
        self.id.kept();
        if self.fault == Fault::Changed && n > 0 {
            unsafe { *self.file.at ^= 1 };
        }
        self.file.stayed();
    }
    fn ask_tables(&mut self, r: &mut Rng, t: &[Vec<u8>; 3]) {
        let ((rs, nr), (ps, np), (ns, nn)) = (self.records.read(&t[0]), self.paths.read(&t[1]), self.nodes.read(&t[2]));
        let key = if r.one_in(3) {
            generate::table_path(r)
        } else {
            let start = r.below(t[1].len() + 1);
            t[1][start..start + r.below(t[1].len() - start + 1)].to_vec()
        };
        let (ks, nk) = self.key.read(&key);
        let (v, id, i, j) = (self.values(), self.id(), number(r, nr / RECORD), number(r, nn / NODE));
        let stage = r.pick(&[0, 1, 2, 3, 4, u32::MAX]);
        unsafe {
            sparrowpivot_lookup(rs, nr, ps, np, ks, nk, stage, v);
            sparrowpivot_check_order(rs, nr, ps, np, v);
            sparrowpivot_record(rs, nr, ps, np, i, v);
            sparrowpivot_record_stat(rs, nr, i, v);
            sparrowpivot_record_id(rs, nr, i, id);
            sparrowpivot_node(ns, nn, j, v);
            sparrowpivot_node_id(ns, nn, j, id);
        }
        ["lookup", "check_order", "record", "record_stat", "record_id", "node", "node_id"]
            .iter()
            .for_each(|f| self.call(f));
        self.told();
        self.id.kept();
        [&self.records, &self.paths, &self.nodes, &self.key].iter().for_each(|x| x.stayed());
    }
    /// Writes a table: once for the size, and then into an output of that size or another.
    fn write_tables(&mut self, r: &mut Rng, t: &[Vec<u8>; 3], names: &[u8]) {
        let ((rs, nr), (ps, np), (ns, nn), (ms, nm)) =
            (self.records.read(&t[0]), self.paths.read(&t[1]), self.nodes.read(&t[2]), self.file.read(names));
        let options = r.next() as u32 | if r.one_in(2) { 3 } else { 0 };
        let (v, (os, no)) = (self.values(), self.out.room(0));
        self.call("write");
        let number = unsafe { sparrowpivot_write(rs, nr, ps, np, ns, nn, ms, nm, options, os, no, v) };
        let told = self.told();
        assert!(number == 14 || number == 12 || number == 15 || number == 16, "an output of no bytes is refused");
        let (v, (os, no)) = (
            self.values(),
            self.out.room(size(r, if number == 14 { told[0].min(MOST as u64) as usize } else { r.clone().below(300) })),
        );
        self.call("write");
        let number = unsafe { sparrowpivot_write(rs, nr, ps, np, ns, nn, ms, nm, options, os, no, v) };
        self.done[1] += (number == 0) as usize;
        self.told();
        self.out.kept();
        [&self.records, &self.paths, &self.nodes, &self.file].iter().for_each(|x| x.stayed());
    }
    fn round(&mut self, r: &mut Rng) {
        let s = file(r);
        let t = self.read_file(r, &s);
        self.read_parts(r, &s);
        self.ask_tables(r, &t);
        self.write_tables(r, &t, &s);
        let u = [0, 1, 2].map(|i| spoiled(r, t[i].clone()));
        self.ask_tables(r, &u);
        self.write_tables(r, &u, &s);
        let made = Table::generated(r).lent();
        let m = [made.records, made.paths, made.nodes];
        self.write_tables(r, &m, &made.names);
        let m = m.map(|x| spoiled(r, x));
        self.ask_tables(r, &m);
        self.write_tables(r, &m, &spoiled(&mut r.clone(), made.names));
        if self.fault == Fault::Touch {
            let outside = if self.key.turn == Turn::Behind {
                self.key.at.wrapping_add(self.key.n)
            } else {
                self.key.at.wrapping_sub(1)
            };
            std::hint::black_box(unsafe { std::ptr::read_volatile(outside) });
        }
    }
}

/// The words by which this program starts itself.
pub fn turn_of(turn: &str, fault: &str) -> (Turn, Fault) {
    let turns = [Turn::Behind, Turn::Before];
    let faults = [Fault::Nothing, Fault::Touch, Fault::Told, Fault::Changed];
    let named = |x: &dyn std::fmt::Debug, w: &str| format!("{x:?}") == w;
    (
        *turns.iter().find(|t| named(t, turn)).expect("a turn"),
        *faults.iter().find(|f| named(f, fault)).expect("a fault"),
    )
}

/// One turn, in this process: prints how many calls of each function were made.
pub fn turn(turn: Turn, fault: Fault, seed: u64, rounds: u64) {
    let mut h = Harness::new(turn, fault);
    for k in 0..rounds {
        if k % 1000 == 0 {
            println!("from round {k}");
            std::io::stdout().flush().unwrap();
        }
        h.round(&mut Rng::new(seed.wrapping_mul(1_000_003).wrapping_add(k)));
    }
    let calls: Vec<String> = FUNCTIONS.iter().zip(h.calls).map(|(f, n)| format!("{f} {n}")).collect();
    println!("calls: {}; {} reads and {} writes not refused", calls.join(", "), h.done[0], h.done[1]);
}

/// One turn in a child: its last line, how it ended, and what it said of that.
fn child(turn: Turn, fault: Fault, seed: u64, rounds: u64) -> (String, ExitStatus, String) {
    let words = [
        "--hostile-turn".into(),
        format!("{turn:?}"),
        format!("{fault:?}"),
        "--seed".into(),
        seed.to_string(),
        "--rounds".into(),
        rounds.to_string(),
    ];
    let out = Command::new(std::env::current_exe().unwrap()).args(words).output().expect("this program runs again");
    (
        String::from_utf8_lossy(&out.stdout).lines().last().unwrap_or("").to_string(),
        out.status,
        String::from_utf8_lossy(&out.stderr).into_owned(),
    )
}

/// Whether every function that the header declares is called here.
fn calls_all() -> bool {
    let header = include_str!("../include/sparrowpivot.h");
    let declared = header
        .lines()
        .filter(|l| l.starts_with(|c: char| c.is_ascii_lowercase()))
        .filter_map(|l| l.split_once(" sparrowpivot_")?.1.split_once('('))
        .map(|d| d.0);
    let mut names: Vec<&str> = declared.collect();
    names.retain(|n| !FUNCTIONS.contains(n));
    names.iter().for_each(|n| println!("FAILED hostile input does not call sparrowpivot_{n}"));
    names.is_empty()
}

/// Both turns; the number of those that did not end well.
pub fn run(seed: u64, rounds: u64) -> usize {
    let mut failures = !calls_all() as usize;
    for turn in [Turn::Behind, Turn::Before] {
        let (last, ended, said) = child(turn, Fault::Nothing, seed, rounds);
        let verdict = if ended.success() { "no byte outside".into() } else { format!("FAILED, {ended}: {said}") };
        println!("hostile input, {rounds} rounds, seed {seed}, the page {turn:?} every slice: {verdict}\n    {last}");
        failures += !ended.success() as usize;
    }
    failures
}

/// Each planted fault must end its child: by the page (signal 11, a segmentation fault) where a byte outside is touched.
pub fn self_test(seed: u64) -> bool {
    let mut good = true;
    for turn in [Turn::Behind, Turn::Before] {
        for (fault, wanted) in
            [(Fault::Nothing, None), (Fault::Touch, Some(11)), (Fault::Told, Some(11)), (Fault::Changed, None)]
        {
            let (_, ended, _) = child(turn, fault, seed, 50);
            let right = ended.signal() == wanted && (fault == Fault::Nothing) == ended.success();
            println!(
                "{}: hostile input, {turn:?}, {fault:?} planted: {ended}",
                if right { "as it should be" } else { "NOT AS IT SHOULD BE" }
            );
            good &= right;
        }
    }
    good
}
