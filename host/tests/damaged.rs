//! Damaged copies of files: whatever is in them, there is an answer and no panic.
mod common;
use common::{committed, file, folder, over, quarrel, sparrowpivot};
use sparrowpivot::{Error, Index, Stage, WriteOptions};
use std::collections::BTreeSet;
use std::sync::OnceLock;

/// A generator of numbers that look random (xorshift).
struct Dice(u64);

impl Dice {
    fn below(&mut self, n: usize) -> usize {
        self.0 ^= self.0 << 13;
        self.0 ^= self.0 >> 7;
        self.0 ^= self.0 << 17;
        (self.0 % n as u64) as usize
    }
}

/// Files to damage, made once.
fn files() -> &'static [Vec<u8>] {
    static FILES: OnceLock<Vec<Vec<u8>>> = OnceLock::new();
    FILES.get_or_init(made)
}

/// They have a trailer of zeros, so that damage is not seen by the hash.
fn made() -> Vec<Vec<u8>> {
    let repo = committed("damaged");
    let mut files = vec![repo.bytes()];
    repo.git(&["update-index", "--index-version", "4"]);
    files.push(repo.bytes());
    repo.git(&["sparse-checkout", "init", "--cone", "--sparse-index"]);
    repo.git(&["sparse-checkout", "set", "day2"]);
    files.push(repo.bytes());
    let quarrel = quarrel("damaged-quarrel");
    quarrel.git(&["add", "day1/noon"]);
    files.push(quarrel.bytes());
    files.push(std::fs::read("tests/data/settled.index").unwrap());
    for file in &mut files {
        let n = file.len();
        file[n - 20..].fill(0);
    }
    files
}

/// One to three faults: a random byte, a bit turned, bytes taken out, the end cut off, the count changed.
fn damage(file: &[u8], dice: &mut Dice) -> Vec<u8> {
    let mut bad = file.to_vec();
    for _ in 0..1 + dice.below(3) {
        let at = dice.below(bad.len().max(1)).min(bad.len().saturating_sub(1));
        match dice.below(6) {
            0 | 1 if !bad.is_empty() => bad[at] = dice.below(256) as u8,
            2 if !bad.is_empty() => bad[at] ^= 1 << dice.below(8),
            3 => drop(bad.drain(at..(at + dice.below(9)).min(bad.len()))),
            4 if dice.below(4) == 0 => bad.truncate(at),
            5 if bad.len() > 12 => bad[8 + dice.below(4)] = dice.below(8) as u8,
            _ => (),
        }
    }
    bad
}

/// Asks for everything that an index can be asked for. The number of the refusal, 0 if it was read.
fn asked(bytes: Vec<u8>) -> u32 {
    let index = match Index::from_bytes_limited(bytes, 1 << 26) {
        Ok(index) => index,
        Err(Error::Refused(refusal)) => return refusal.number(),
        Err(other) => panic!("{other}"),
    };
    assert_eq!(index.entries().count(), index.entries().len());
    assert_eq!(index.entries().rev().count(), index.len());
    let sound = index.check().is_ok();
    for entry in index.entries() {
        let found = index.find(entry.path, entry.stage);
        assert_eq!(found.ok().flatten(), sound.then_some(entry), "{index:?}");
    }
    assert!(index.find("\0no such path", Stage::Ours).map_or(true, |found| found.is_none()));
    let _ = (index.check_tree(), index.trailer(), index.end_of_entries(), format!("{index:?}"));
    if let Some(tree) = index.tree() {
        for (i, node) in tree.nodes().enumerate() {
            let above = node.parent.map_or(Vec::new(), |parent| tree.path(parent));
            assert!(tree.path(i).starts_with(&above) && tree.path(i).ends_with(node.name));
        }
    }
    assert!(
        index.extensions().unwrap().map(|extension| extension.body.len() + 8).sum::<usize>() < index.as_bytes().len()
    );
    written(&index);
    0
}

/// What is written is read back alike.
fn written(index: &Index) {
    for (tree, eoie, zero_trailer) in [(true, true, false), (false, false, true)] {
        let bytes = index.write(WriteOptions { tree, eoie, zero_trailer }).unwrap();
        let again = Index::from_bytes(bytes).unwrap();
        assert!(again.entries().eq(index.entries()) && again.is_sparse() == index.is_sparse());
    }
}

#[test]
fn the_crate_answers() {
    let mut dice = Dice(20_261_115);
    let files = files();
    let mut met = BTreeSet::new();
    for turn in 0..20_000 {
        met.insert(asked(damage(&files[turn % files.len()], &mut dice)));
    }
    // all that reading can refuse for damage was met, and files that could be read
    assert!([0, 1, 2, 3, 4, 5, 7, 8].iter().all(|number| met.contains(number)), "{met:?}");
    assert!(!met.contains(&6) && !met.contains(&10), "room is made: {met:?}");
}

/// Every file that is cut short, and every file of one kind of byte.
#[test]
fn the_crate_answers_at_every_length() {
    for file in files() {
        let read = (0..file.len()).filter(|n| asked(file[..*n].to_vec()) == 0).count();
        assert!(read < file.len() / 2);
        assert_eq!(asked(file.clone()), 0);
    }
    for n in 0..100 {
        assert!((0..=255u8).all(|byte| asked(vec![byte; n]) == if n < 32 { 1 } else { 2 }));
    }
}

#[test]
fn the_command_answers() {
    let (mut dice, files) = (Dice(7), files());
    let here = folder("damaged-command");
    let mut met = BTreeSet::new();
    for turn in 0..300 {
        let path = here.join("index");
        std::fs::write(&path, damage(&files[turn % files.len()], &mut dice)).unwrap();
        let words = [
            &["list"][..],
            &["list", "--json"],
            &["tree"],
            &["check"],
            &["find", "README"],
            &["rewrite", "--drop", "-"],
        ];
        let mut command = sparrowpivot(&here);
        let output = common::run(
            {
                command.args(words[turn % words.len()]).arg(&path);
                command
            },
            b"",
        );
        let said = String::from_utf8(output.stderr).unwrap();
        let status = output.status.code().expect("no signal ends it");
        assert!(status < 2 && (said.is_empty() || said.starts_with("sparrowpivot: ")), "{said}");
        met.insert(status);
    }
    assert_eq!(met, BTreeSet::from([0, 1]));
}

/// Bytes of a path that no encoding has, control characters and quotes come out as JSON and as lines.
#[test]
fn paths_of_any_bytes_are_json() {
    let mut dice = Dice(11);
    for _ in 0..50 {
        let path: Vec<u8> = (0..1 + dice.below(40)).map(|_| dice.below(256) as u8).collect();
        let bytes = file(2, 1, &[&common::entry(&path)]);
        let listed = common::json::parse(&over(&["list", "--json", "-"], &bytes, 0).stdout);
        assert_eq!(listed.items()[0].bytes("path"), path);
        let lines = over(&["list", "-"], &bytes, 0).stdout;
        assert_eq!(lines.iter().filter(|byte| **byte == b'\n').count(), 1);
    }
}

/// A file of 200,000 bytes that spells out 150 million, where there is memory for fewer: an answer, and no abort.
#[test]
fn missing_memory_is_told() {
    let more = (0..1500).map(|i| common::entry4(u8::from(i > 0), &[1 + (i % 250) as u8]));
    let entries: Vec<u8> = std::iter::once(common::entry4(0, &[b'p'; 100_000])).chain(more).flatten().collect();
    let here = folder("memory");
    std::fs::write(here.join("index"), file(4, 1501, &[&entries])).unwrap();
    let mut shell = common::clean("sh", &here);
    shell.args(["-c", "ulimit -v 150000; exec \"$0\" list index", env!("CARGO_BIN_EXE_sparrowpivot")]);
    let output = common::run(shell, b"");
    let said = String::from_utf8(output.stderr).unwrap();
    assert_eq!(output.status.code(), Some(1), "{said}");
    assert!(said.starts_with("sparrowpivot: index: there is no memory for ") && output.stdout.is_empty(), "{said}");
}
