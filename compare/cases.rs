//! What is asked of both sides, and how the answers are judged.
use crate::generate::{key, stage};
use crate::library::{self, Store};
use crate::model::{self, hex, Entry, Reading, Rooms, Row, Run, NODE, RECORD, ROWS};
use crate::write_cases::Table;
use crate::writing;
use std::collections::BTreeMap;

/// A question that the oracle understands as one line.
#[derive(Clone)]
pub enum Case {
    File(Vec<u8>),
    Eoie(Vec<u8>),
    /// the bytes from the first extension to the end of the file
    Ieot(Vec<u8>),
    Max(usize, Option<usize>, u32),
    Order(Vec<Entry>),
    Lookup(Vec<Entry>, Vec<u8>, u32),
    Write(Table),
    /// a file that the library wrote
    Own(Vec<u8>),
}

/// A fault planted for the self-test.
#[derive(Clone, Copy, PartialEq, Debug)]
pub enum Plant {
    Nothing,
    /// the library gets another byte than the Rust
    Input,
    /// the Rust's answer is changed
    Answer,
    /// a byte of a record is changed after the call
    Record,
    /// a byte beyond what is used is changed after the call
    Beyond,
    /// the library's number (an index, a count, an offset) is one more
    Number,
    /// a byte of a written file is changed after the call
    Written,
    /// a rule is forgotten: the row counts as unknown
    Forgotten(Row),
}

pub struct Judge {
    pub plant: Plant,
    pub rows: BTreeMap<Row, usize>,
    pub alike: usize,
    pub failures: usize,
    pub classes: BTreeMap<&'static str, usize>,
    quiet: bool,
}

pub fn unhex(s: &str) -> Vec<u8> {
    (0..s.len() / 2).map(|i| u8::from_str_radix(&s[2 * i..2 * i + 2], 16).unwrap()).collect()
}

pub fn table_text(t: &[Entry]) -> String {
    let one = |e: &Entry| {
        let fields: Vec<String> = e.fields.iter().map(u32::to_string).collect();
        format!("{},{},{},{}", fields.join(","), hex(&e.id), e.flags, hex(&e.path))
    };
    if t.is_empty() {
        "-".into()
    } else {
        t.iter().map(one).collect::<Vec<_>>().join(";")
    }
}

pub fn table_of(s: &str) -> Vec<Entry> {
    let one = |r: &str| {
        let w: Vec<&str> = r.split(',').collect();
        let n = |i: usize| w[i].parse::<u32>().unwrap();
        Entry { fields: std::array::from_fn(n), id: unhex(w[10]).try_into().unwrap(), flags: n(11), path: unhex(w[12]) }
    };
    s.split(';').filter(|r| *r != "-").map(one).collect()
}

impl Case {
    pub fn line(&self) -> String {
        match self {
            Case::File(s) | Case::Own(s) => hex(s),
            Case::Eoie(s) => format!("eoie {}", hex(s)),
            Case::Ieot(s) => format!("ieotfind {}", hex(s)),
            Case::Max(size, from, version) => {
                format!("max {size} {} {version}", from.map_or("-".into(), |o| o.to_string()))
            }
            Case::Order(t) => format!("tverify {}", table_text(t)),
            Case::Lookup(t, path, stage) => {
                format!("tlookup {} {stage} {}", if path.is_empty() { "-".into() } else { hex(path) }, table_text(t))
            }
            Case::Write(t) => t.line(),
        }
    }
    pub fn of_line(l: &str) -> Case {
        let w: Vec<&str> = l.split(' ').collect();
        let s = || unhex(w.get(1).unwrap_or(&""));
        match w[0] {
            "eoie" => Case::Eoie(s()),
            "ieotfind" => Case::Ieot(s()),
            "max" => Case::Max(w[1].parse().unwrap(), w[2].parse().ok(), w[3].parse().unwrap()),
            "tverify" => Case::Order(table_of(w[1])),
            "tlookup" => Case::Lookup(table_of(w[3]), if w[1] == "-" { vec![] } else { s() }, w[2].parse().unwrap()),
            "twrite" => Case::Write(Table::of_words(&w)),
            h => Case::File(unhex(h)),
        }
    }
}

/// A table in two stores. Where a path's bytes stand in the path store already, they are used again.
pub fn stores_of(t: &[Entry]) -> (Vec<u8>, Vec<u8>) {
    let (mut records, mut paths) = (vec![], Vec::<u8>::new());
    for e in t {
        let n = e.path.len();
        let start = match paths.windows(n.max(1)).position(|w| n > 0 && w == e.path) {
            Some(i) if n > 1 => i,
            _ => {
                paths.extend(&e.path);
                paths.len() - n
            }
        };
        records.extend(model::record(e, start, start + n));
    }
    (records, paths)
}

/// 01's halving: what is found, and how many records were compared.
fn halving(t: &[Entry], wanted: (&[u8], u32)) -> (Option<usize>, u64) {
    let (mut low, mut high, mut compared) = (0, t.len(), 0);
    while low < high {
        let middle = (low + high) / 2;
        compared += 1;
        match key(&t[middle]).cmp(&wanted) {
            std::cmp::Ordering::Equal => return (Some(middle), compared),
            std::cmp::Ordering::Less => low = middle + 1,
            std::cmp::Ordering::Greater => high = middle,
        }
    }
    (None, compared)
}

fn is_sorted(t: &[Entry]) -> bool {
    t.windows(2).all(|w| key(&w[0]) < key(&w[1]))
}

impl Judge {
    pub fn new(plant: Plant) -> Judge {
        Judge {
            plant,
            rows: BTreeMap::new(),
            alike: 0,
            failures: 0,
            classes: BTreeMap::new(),
            quiet: plant != Plant::Nothing,
        }
    }
    pub fn fail(&mut self, what: &str, input: &str, ours: &str, other: &str) {
        self.failures += 1;
        if !self.quiet && self.failures <= 10 {
            println!("FAILED {what}\n  input  {input}\n  ours   {ours}\n  wanted {other}");
        }
    }
    /// Takes over what another one counted.
    pub fn add(&mut self, other: Judge) {
        other.rows.iter().for_each(|(r, n)| *self.rows.entry(*r).or_default() += n);
        other.classes.iter().for_each(|(c, n)| *self.classes.entry(c).or_default() += n);
        self.alike += other.alike;
        self.failures += other.failures;
    }
    pub fn class(&mut self, name: &'static str) {
        *self.classes.entry(name).or_default() += 1;
    }
    pub fn parts(&mut self, row: Option<Row>) -> bool {
        match row {
            Some(r) if self.plant != Plant::Forgotten(r) => {
                *self.rows.entry(r).or_default() += 1;
                true
            }
            _ => false,
        }
    }
    /// Compares the library with 01's rules and, where there is an answer of the Rust, with that.
    pub fn judge(&mut self, case: &Case, said: Option<&str>) {
        self.guarded(|j| j.compare(case, said), || case.line());
    }
    /// An assertion on the way (a value beside those lent was written, an unused one is not 0) is a failure of this input too.
    pub fn guarded(&mut self, run: impl FnOnce(&mut Judge), input: impl Fn() -> String) {
        let ended = std::panic::catch_unwind(std::panic::AssertUnwindSafe(|| run(self)));
        if ended.is_err() {
            self.fail("an assertion, see above", &input(), "", "");
        }
    }
    fn compare(&mut self, case: &Case, said: Option<&str>) {
        let changed = said.map(|s| if self.plant == Plant::Answer { format!("{s} ") } else { s.to_string() });
        let said = changed.as_deref();
        match case {
            Case::File(s) => self.file(s, said, false),
            Case::Own(s) => self.file(s, said, true),
            Case::Eoie(s) => {
                let ours = library::eoie(s).map(|o| o + (self.plant == Plant::Number) as u64);
                let rule = model::eoie(s).map(|o| o as u64);
                self.class(if rule.is_some() { "EOIE told" } else { "no EOIE" });
                self.same(case, &format!("{ours:?}"), &format!("{rule:?}"), said);
            }
            Case::Ieot(s) => {
                let mut ours = library::ieot(s, 0);
                // the same bytes after others
                let shifted = [vec![b'x'; 37], s.clone()].concat();
                if library::ieot(&shifted, 37) != ours {
                    self.fail("IEOT at an offset", &case.line(), "", "");
                }
                if let (Plant::Number, Some(v)) = (self.plant, &mut ours) {
                    v[0].0 += 1;
                }
                self.class(if ours.is_some() { "IEOT told" } else { "no IEOT" });
                self.same(case, &format!("{ours:?}"), &format!("{:?}", model::ieot(s)), said);
            }
            Case::Max(size, from, version) => {
                let ours = library::max_entries(*size, *from, *version) + (self.plant == Plant::Number) as u64;
                self.same(case, &ours.to_string(), &model::max_entries(*size, *from, *version).to_string(), said);
            }
            Case::Order(t) => self.order(case, t, said),
            Case::Lookup(t, path, stage) => self.lookup(case, t, path, *stage, said),
            Case::Write(t) => self.write(t, said),
        }
    }
    fn same(&mut self, case: &Case, ours: &str, rule: &str, said: Option<&str>) {
        if ours != rule {
            self.fail("against the rule", &case.line(), ours, rule);
        } else if said.is_some_and(|s| s != ours) {
            self.fail("against the Rust", &case.line(), ours, said.unwrap());
        } else {
            self.alike += 1;
        }
    }
    fn order(&mut self, case: &Case, t: &[Entry], said: Option<&str>) {
        let (records, paths) = stores_of(t);
        let (number, mut v) = library::check_order(&records, &paths);
        v[0] += (self.plant == Plant::Number) as u64;
        let ours = match number {
            0 if v == [0; 8] => "sorted".into(),
            13 if v[1..] == [0; 7] => format!("out of order {}", v[0]),
            n => format!("refused {n} {v:?}"),
        };
        let rule = (1..t.len())
            .find(|i| key(&t[i - 1]) >= key(&t[*i]))
            .map_or("sorted".into(), |i| format!("out of order {i}"));
        self.class(if rule == "sorted" { "tables in order" } else { "tables not in order" });
        self.same(case, &ours, &rule, said);
    }
    fn lookup(&mut self, case: &Case, t: &[Entry], path: &[u8], stage: u32, said: Option<&str>) {
        let (records, paths) = stores_of(t);
        let (number, mut v) = library::lookup(&records, &paths, path, stage);
        v[1] += (self.plant == Plant::Number) as u64;
        let (found, compared) = halving(t, (path, stage));
        let wanted = [found.is_some() as u64, found.unwrap_or(0) as u64, compared, 0, 0, 0, 0, 0];
        if (number, v) != (0, wanted) || (!t.is_empty() && compared > 1 + t.len().ilog2() as u64) {
            return self.fail(
                "lookup against the halving rule",
                &case.line(),
                &format!("{number} {v:?}"),
                &format!("0 {wanted:?}"),
            );
        }
        self.class(if found.is_some() { "lookups that find" } else { "lookups that do not find" });
        let text = format!("{found:?}");
        if said.is_none_or(|s| s == text) {
            self.alike += 1;
        } else {
            // D15: only in a table that is not sorted, and what the Rust finds has that path and stage too
            let theirs = said
                .unwrap()
                .strip_prefix("Some(")
                .and_then(|s| s.strip_suffix(')'))
                .and_then(|s| s.parse::<usize>().ok());
            let right = theirs.is_none_or(|i| i < t.len() && key(&t[i]) == (path, stage));
            let known = !is_sorted(t) && right && (theirs.is_some() || said == Some("None"));
            if !self.parts(known.then_some(Row::D15)) {
                self.fail("lookup against the Rust", &case.line(), &text, said.unwrap());
            }
        }
    }
    fn file(&mut self, s: &[u8], said: Option<&str>, own: bool) {
        let rule = model::ours(s, model::ALL);
        let need = needed(&rule);
        let rooms =
            Rooms { records: need.records + 2 * RECORD + 5, paths: need.paths + 77, nodes: need.nodes + NODE + 3 };
        let Some(ours) = self.read(s, rooms, &rule.reading) else { return };
        if !self.entries(s, rooms) {
            return;
        }
        let Some(said) = said else {
            self.alike += 1;
            return;
        };
        let flags = |eoie: bool, ieot: bool| format!(" eoie={eoie} ieot={ieot}");
        let plain = [(false, false), (false, true), (true, false), (true, true)]
            .iter()
            .fold(said.to_string(), |t, (e, i)| t.replacen(&flags(*e, *i), "", 1));
        let text = model::line(&ours, s, &(0..ours.nodes.len()).collect::<Vec<_>>());
        let rust = model::rust(s);
        let theirs =
            rust.error.clone().unwrap_or_else(|| model::line(&rust.reading, s, &model::sorted(&rust.reading.nodes, s)));
        if plain != theirs || (rust.error.is_none() && !said.contains(&flags(rust.eoie, rust.ieot))) {
            return self.fail("the Rust against the rules of DIFFERENCES", &hex(s), &theirs, said);
        }
        let row = if rust.row == Some(Row::D3) && (own || writing::is_written(s)) { Some(Row::D12) } else { rust.row };
        if plain == text {
            self.alike += 1;
        } else if !self.parts(row) {
            self.fail("against the Rust", &hex(s), &text, said);
        }
    }
    /// The entries alone, whatever the trailer is, by 01's rules: the Rust's `chunk` is asked within whole files only.
    fn entries(&mut self, s: &[u8], rooms: Rooms) -> bool {
        if s.len() < 12 || !(2..=4).contains(&model::word(s, 4)) {
            return true;
        }
        let (version, count) = (model::word(s, 4), model::word(s, 8) as usize);
        let (rule, next) = model::entries(s, version, count, rooms);
        let r = &rule.reading;
        let wanted = match r.refused {
            Some((n, k)) => (n, [k, 0, 0, 0, 0, 0, 0, 0]),
            None => (0, [next as u64, r.path_bytes as u64, r.sparse as u64, 0, 0, 0, 0, 0]),
        };
        let (n, v, records, paths) = library::entries(s, version, count, rooms);
        let bytes = model::stores(r, rooms);
        let good = (n, v) == wanted && records.is(&bytes[0]) && paths.is(&bytes[1]);
        if !good {
            self.fail(
                &format!("the entries alone, {rooms:?}"),
                &hex(s),
                &format!("{:?}", (n, v)),
                &format!("{wanted:?}"),
            );
        }
        good
    }
    /// Reads a file into stores of these sizes and compares answer, values, and every byte lent.
    fn read(&mut self, s: &[u8], rooms: Rooms, rule: &Reading) -> Option<Reading> {
        let mut given = s.to_vec();
        if self.plant == Plant::Input && !given.is_empty() {
            let i = given.len() / 2;
            given[i] ^= 0x10;
        }
        let mut ours = library::read(&given, rooms, rule.entries.len());
        if self.plant == Plant::Record {
            ours.records.lent_mut().iter_mut().take(RECORD).skip(7).take(1).for_each(|b| *b ^= 1);
        }
        if self.plant == Plant::Beyond {
            ours.paths.lent_mut().iter_mut().last().into_iter().for_each(|b| *b ^= 1);
        }
        if self.plant == Plant::Number {
            ours.reading.refused.iter_mut().for_each(|r| r.1 += 1);
            ours.reading.path_bytes += 1;
        }
        ours.reading.node_store = rule.node_store;
        match rule.refused {
            Some((n, _)) => self.class(
                [
                    "read",
                    "refused 1",
                    "refused 2",
                    "refused 3",
                    "refused 4",
                    "refused 5",
                    "refused 6",
                    "refused 7",
                    "refused 8",
                    "refused 9",
                    "refused 10",
                ][n as usize],
            ),
            None => self.class(if rule.tree { "read, with a tree" } else { "read, no tree" }),
        }
        if ours.reading != *rule {
            let text =
                |r: &Reading| format!("{:?} {}", r.refused, model::line(r, s, &(0..r.nodes.len()).collect::<Vec<_>>()));
            self.fail(&format!("against the rules of 01, {rooms:?}"), &hex(s), &text(&ours.reading), &text(rule));
            return None;
        }
        let wanted = model::stores(rule, rooms);
        let stores: [(&str, &Store, &Vec<u8>); 3] = [
            ("records", &ours.records, &wanted[0]),
            ("paths", &ours.paths, &wanted[1]),
            ("nodes", &ours.nodes, &wanted[2]),
        ];
        for (name, store, wanted) in stores {
            if !store.is(wanted) {
                self.fail(
                    &format!("the bytes of the store of {name}, {rooms:?}"),
                    &hex(s),
                    &hex(store.lent()),
                    &hex(wanted),
                );
                return None;
            }
        }
        Some(ours.reading)
    }
    /// Every store at exactly the size needed, one less, none, and much larger.
    pub fn sizes(&mut self, s: &[u8]) -> usize {
        let need = needed(&model::ours(s, model::ALL));
        let large = Rooms { records: need.records + 5000, paths: need.paths + 5000, nodes: need.nodes + 5000 };
        let of = |n: usize| [n, n.saturating_sub(1), 0, n + 3000];
        let mut all = vec![need, large, Rooms { records: 0, paths: 0, nodes: 0 }];
        for i in 0..4 {
            all.push(Rooms { records: of(need.records)[i], ..large });
            all.push(Rooms { paths: of(need.paths)[i], ..large });
            all.push(Rooms { nodes: of(need.nodes)[i], ..large });
        }
        for rooms in &all {
            let rule = model::ours(s, *rooms).reading;
            let compare =
                |j: &mut Judge| j.alike += (j.read(s, *rooms, &rule).is_some() && j.entries(s, *rooms)) as usize;
            self.guarded(compare, || hex(s));
        }
        all.len()
    }
    /// D14, 11 and 12: a path outside the store, and a stage above 3. The Rust panics on the one and cannot be asked the other.
    pub fn outside(&mut self, t: &[Entry], bad: usize, path: &[u8], asked: u32, far: u64) {
        self.guarded(|j| j.compare_outside(t, bad, path, asked, far), || table_text(t));
    }
    fn compare_outside(&mut self, t: &[Entry], bad: usize, path: &[u8], asked: u32, far: u64) {
        let (mut records, paths) = stores_of(t);
        let at = bad * RECORD;
        let past = (paths.len() as u64).saturating_add(far.saturating_add(1));
        records[at + 84..at + 92].copy_from_slice(&past.to_be_bytes());
        if far == 1 {
            // an end before the start, both within the store's length or right after it
            records[at + 76..at + 92].copy_from_slice(&[1u64.to_be_bytes(), 0u64.to_be_bytes()].concat());
        }
        self.class(if asked > 3 { "D14: a path outside; stage above 3" } else { "D14: a path outside" });
        let before = (1..t.len()).find(|i| *i == bad || key(&t[i - 1]) >= key(&t[*i]));
        let rule = if bad == 0 { (12, 0) } else { before.map_or((0, 0), |i| if i == bad { (12, i) } else { (13, i) }) };
        let (n, v) = library::check_order(&records, &paths);
        if (n, v) != (rule.0, [rule.1 as u64, 0, 0, 0, 0, 0, 0, 0]) {
            self.fail("order check, a path outside", &table_text(t), &format!("{n} {v:?}"), &format!("{rule:?}"));
        }
        let (mut low, mut high, mut compared) = (0, t.len(), 0);
        let mut wanted = (0, [0; 8]);
        while low < high && asked < 4 {
            let m = (low + high) / 2;
            compared += 1;
            wanted.1[2] = compared;
            if m == bad {
                wanted = (12, [m as u64, 0, 0, 0, 0, 0, 0, 0]);
                break;
            }
            match (t[m].path.as_slice(), stage(&t[m])).cmp(&(path, asked)) {
                std::cmp::Ordering::Equal => {
                    wanted.1 = [1, m as u64, compared, 0, 0, 0, 0, 0];
                    break;
                }
                std::cmp::Ordering::Less => low = m + 1,
                std::cmp::Ordering::Greater => high = m,
            }
        }
        if asked > 3 {
            wanted = (11, [0; 8]);
        }
        let ours = library::lookup(&records, &paths, path, asked);
        if ours != wanted {
            self.fail(
                "lookup, a path outside or no stage",
                &table_text(t),
                &format!("{ours:?}"),
                &format!("{wanted:?}"),
            );
        } else {
            self.alike += 1;
        }
    }
    pub fn report(&self, what: &str) {
        println!(
            "{what}: {} alike, {} known differences, {} failures",
            self.alike,
            self.rows.values().sum::<usize>(),
            self.failures
        );
        for (name, n) in &self.classes {
            println!("    {n:>8}  {name}");
        }
        for (row, name) in ROWS {
            if let Some(n) = self.rows.get(&row) {
                println!("    {n:>8}  known difference {name}");
            }
        }
    }
}

pub fn needed(r: &Run) -> Rooms {
    Rooms { records: r.reading.entries.len() * RECORD, paths: r.reading.path_bytes, nodes: r.begun * NODE }
}
