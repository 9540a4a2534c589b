//! What is asked of the writer, and how its answers are judged.
use crate::cases::{stores_of, table_of, table_text, unhex, Judge, Plant};
use crate::generate::{self, Rng};
use crate::library;
use crate::model::{self, hex, Entry, Node, Row, RECORD};
use crate::writing::{self, Asked, Lent, Written, WORDS};

/// A table to be written, as the oracle understands it.
#[derive(Clone)]
pub struct Table {
    pub entries: Vec<Entry>,
    /// which optional extensions are asked for, in the oracle's word
    pub word: &'static str,
    pub sparse: bool,
    /// the body of a TREE; where it is malformed, no tree is given
    pub tree: Option<Vec<u8>>,
}

impl Table {
    pub fn generated(r: &mut Rng) -> Table {
        let odd = r.one_in(3);
        Table {
            entries: generate::written_table(r),
            word: r.pick(&WORDS),
            sparse: r.one_in(3),
            tree: r.one_in(2).then(|| generate::tree(r, odd)),
        }
    }
    pub fn line(&self) -> String {
        format!(
            "twrite {} {} {} {}",
            self.word,
            self.sparse as u8,
            self.tree.as_ref().map_or("-".into(), |b| hex(b)),
            table_text(&self.entries)
        )
    }
    pub fn of_words(w: &[&str]) -> Table {
        let word = WORDS.into_iter().find(|x| *x == w[1]).expect("one of the oracle's words");
        Table { entries: table_of(w[4]), word, sparse: w[2] == "1", tree: (w[3] != "-").then(|| unhex(w[3])) }
    }
    fn nodes(&self) -> Option<Vec<Node>> {
        model::nodes(self.tree.as_ref()?)
    }
    pub fn lent(&self) -> Lent {
        let (records, paths) = stores_of(&self.entries);
        let nodes = writing::node_table(&self.nodes().unwrap_or_default());
        Lent { records, paths, nodes, names: self.tree.clone().unwrap_or_default() }
    }
    pub fn asked(&self) -> Asked {
        let is = |words: &[&str]| words.contains(&self.word);
        Asked {
            given: self.nodes().is_some(),
            tree: is(&["all", "tree", "both"]),
            eoie: is(&["all", "eoie", "both"]),
            sparse: self.sparse,
            unhashed: false,
        }
    }
    /// What reading the written file must show: the records that stay, with the bits that are kept.
    fn kept(&self) -> Vec<Entry> {
        let mut all: Vec<Entry> = self.entries.iter().filter(|e| e.flags >> 17 & 1 == 0).cloned().collect();
        for e in &mut all {
            e.fields[6] &= 0o160755;
            e.flags &= if e.flags >> 14 & 1 == 1 { 0x6000_f000 } else { 0xf000 };
        }
        all
    }
}

fn text(w: &Written) -> String {
    match w {
        // the oracle writes no trailer
        Ok((version, file)) => format!("{version} {}", hex(&file[..file.len() - 20])),
        Err((number, value)) => format!("refused {number} {value}"),
    }
}

impl Judge {
    /// A table written as asked for, without the hash, and from a node table in another order, by 01's rules; what was written read back; and the Rust's answer.
    pub fn write(&mut self, t: &Table, said: Option<&str>) {
        let (lent, asked) = (t.lent(), t.asked());
        let rule = writing::ours(&lent, asked);
        self.write_classes(t, &rule);
        let size = rule.as_ref().map_or(0, |w| w.1.len());
        let mut other = lent.clone();
        other.nodes = writing::node_table(&writing::by_level(&t.nodes().unwrap_or_default()));
        let zeros = Asked { unhashed: true, ..asked };
        let good = self.write_into(&lent, asked, 0, &rule, size + 29)
            && self.write_into(&lent, zeros, 0xffff_ffe0, &writing::ours(&lent, zeros), size)
            && self.write_into(&other, asked, 1 << 5, &rule, size)
            && self.reads_back(t, &rule);
        let ours = text(&rule);
        if !good {
            return;
        }
        match said {
            Some(s) if s != ours => {
                let row = (rule == Err((16, 0)) && s == text(&writing::rust(&lent, asked))).then_some(Row::D11);
                if !self.parts(row) {
                    self.fail("the writer against the Rust", &t.line(), &ours, s);
                }
            }
            _ => self.alike += 1,
        }
    }
    fn write_classes(&mut self, t: &Table, rule: &Written) {
        match rule {
            Ok((version, _)) => self.class(if *version == 3 { "written in version 3" } else { "written in version 2" }),
            Err(_) => self.class("refused 16: a tree deeper than 512"),
        }
        let nodes = t.nodes().unwrap_or_default();
        if t.asked().tree && rule.is_ok() && !nodes.is_empty() {
            self.class("written with TREE");
            if model::sorted(&nodes, t.tree.as_ref().unwrap()) != (0..nodes.len()).collect::<Vec<_>>() {
                self.class("written with TREE, siblings given out of order (D10)");
            }
        }
        if t.entries.iter().any(|e| e.fields[6] & !0o160755 != 0) {
            self.class("written with a mode of unknown bits (D13)");
        }
        if t.entries.iter().any(|e| e.path.len() >= 4095) {
            self.class("written with a path of 4095 bytes or more");
        }
        if t.entries.iter().any(|e| e.flags >> 17 & 1 == 1) {
            self.class("written without the records marked REMOVE");
        }
    }
    /// Writes into an output of so many bytes and compares number, values, and every byte lent.
    pub fn write_into(&mut self, l: &Lent, a: Asked, high: u32, rule: &Written, room: usize) -> bool {
        let none = vec![];
        let (wanted, bytes) = match rule {
            Err((number, value)) => ((*number, [*value, 0, 0, 0, 0, 0, 0, 0]), &none),
            Ok((version, file)) if file.len() <= room => {
                ((0, [*version as u64, file.len() as u64, 0, 0, 0, 0, 0, 0]), file)
            }
            Ok((_, file)) => ((14, [file.len() as u64, 0, 0, 0, 0, 0, 0, 0]), &none),
        };
        let (number, mut v, mut out) = library::write(l, a.number() | high, room);
        v[0] += (self.plant == Plant::Number) as u64;
        if self.plant == Plant::Written && number == 0 {
            out.lent_mut()[bytes.len() / 2] ^= 1;
        }
        if self.plant == Plant::Beyond {
            out.lent_mut().iter_mut().last().into_iter().for_each(|b| *b ^= 1);
        }
        let good = (number, v) == wanted && out.is(bytes);
        if !good {
            let wanted = format!("{wanted:?} {}", hex(bytes));
            self.fail(
                &format!("the writer against the rules of 01, {a:?}, {room} bytes lent"),
                &l.text(),
                &format!("{:?} {}", (number, v), hex(out.lent())),
                &wanted,
            );
        }
        good
    }
    fn reads_back(&mut self, t: &Table, rule: &Written) -> bool {
        let Ok((version, file)) = rule else { return true };
        let need = crate::cases::needed(&model::ours(file, model::ALL));
        let back = library::read(file, need, 0).reading;
        let wanted = t.kept();
        let sparse = t.sparse || wanted.iter().any(|e| e.fields[6] == 0o40000);
        let good = back.refused.is_none()
            && back.version == *version
            && back.entries == wanted
            && back.tree == (t.asked().given && t.asked().tree)
            && back.sparse == sparse;
        if !good {
            self.fail(
                "a written file read back",
                &t.line(),
                &format!("{:?} {:?}", back.refused, back.entries),
                &format!("{wanted:?}"),
            );
        }
        good
    }
    /// Tables with faults, with any options: 12, 15 and 16, which the Rust panics on, cannot be given, or writes (D11, D14).
    pub fn write_faults(&mut self, r: &mut Rng, t: &Table) {
        let mut l = t.lent();
        if r.one_in(2) && !t.entries.is_empty() {
            let at = RECORD * r.below(t.entries.len());
            let far = r.pick(&[l.paths.len() as u64 + 1, 0, 1, u64::MAX, 1 << 32]);
            let field = r.pick(&[76, 84]);
            l.records[at + field..at + field + 8].copy_from_slice(&far.to_be_bytes());
        }
        for _ in 0..r.below(3) {
            generate::spoil(r, &mut l.nodes, &mut l.names);
        }
        if r.one_in(8) {
            l.records.truncate(r.below(l.records.len() + 1));
        }
        if r.one_in(8) {
            l.paths.truncate(r.below(l.paths.len() + 1));
        }
        let asked = Asked::of(r.below(32) as u32 | if r.one_in(2) { 3 } else { 0 });
        let rule = writing::ours(&l, asked);
        self.class(match rule {
            Ok(_) => "spoiled tables, written",
            Err((12, _)) => "refused 12: a path outside the store",
            Err((15, _)) => "refused 15: too large",
            Err(_) => "refused 16: a node table that is not proper",
        });
        let size = rule.as_ref().map_or(100, |w| w.1.len());
        let room = r.pick(&[size, size + 1, size - 1, 0, 12]);
        self.guarded(|j| j.alike += j.write_into(&l, asked, r.next() as u32 & !31, &rule, room) as usize, || l.text());
    }
    /// More than 2^32 - 1 bytes before EOIE's place, and a little less: records that share one long path.
    pub fn too_large(&mut self, more: usize) {
        let path = 1 << 20;
        let entry = Entry { fields: [0; 10], id: [0; 20], flags: 0, path: vec![] };
        let record = model::record(&entry, 0, path);
        let l = Lent { records: record.repeat(4095 + more), paths: vec![b'a'; path], nodes: vec![], names: vec![] };
        let size = 12 + (4095 + more) as u64 * (path as u64 + 64) + 20;
        let wanted = if more == 0 { (14, size) } else { (15, 0) };
        let (n, v, out) = library::write(&l, 0, 100);
        if (n, v) != (wanted.0, [wanted.1, 0, 0, 0, 0, 0, 0, 0]) || !out.is(&[]) {
            self.fail("a table that is too large, or nearly so", "", &format!("{n} {v:?}"), &format!("{wanted:?}"));
        } else {
            self.alike += 1;
        }
    }
    /// The output at exactly the size needed, one less, none, and much larger.
    pub fn write_sizes(&mut self, t: &Table) -> usize {
        let (lent, asked) = (t.lent(), t.asked());
        let rule = writing::ours(&lent, asked);
        let size = rule.as_ref().map_or(100, |w| w.1.len());
        let rooms = [size, size - 1, 0, size + 1, size + 3000, size / 2];
        for room in rooms {
            self.guarded(|j| j.alike += j.write_into(&lent, asked, 0, &rule, room) as usize, || t.line());
        }
        rooms.len()
    }
}
