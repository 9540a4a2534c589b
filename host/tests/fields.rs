//! Each field of an entry and of a node, from files put together by hand in which no two are alike.
mod common;
use common::{extension, file, json, over};
use sparrowpivot::{Entry, Flags, Id, Index, Node, Stage, Stat, Time};

/// An entry of version 3 whose ten fields are 0x01010101, 0x02020202 and so on, but for a mode that keeps its bits.
fn all_fields() -> Vec<u8> {
    let mut bytes: Vec<u8> = (1..=10u8).flat_map(|n| [n; 4]).collect();
    bytes[24..28].copy_from_slice(&0o100755u32.to_be_bytes());
    bytes.extend([0xcd; 20]);
    // assume-valid, extended, stage 3, one byte of path; then intent-to-add
    bytes.extend([0xf0, 0x01, 0x20, 0x00]);
    bytes.extend(b"p\0\0\0\0\0\0\0");
    bytes
}

#[test]
fn of_an_entry() {
    let index = Index::from_bytes(file(3, 1, &[&all_fields()])).unwrap();
    let stat = Stat {
        ctime: Time { seconds: 0x01010101, nanoseconds: 0x02020202 },
        mtime: Time { seconds: 0x03030303, nanoseconds: 0x04040404 },
        dev: 0x05050505,
        ino: 0x06060606,
        uid: 0x08080808,
        gid: 0x09090909,
        size: 0x0a0a0a0a,
    };
    let flags = Flags(1 << 15 | 1 << 14 | 3 << 12 | 1 << 29);
    let entry = Entry { path: b"p", stage: Stage::Theirs, mode: 0o100755, id: Id([0xcd; 20]), stat, flags };
    assert_eq!(index.entry(0), Some(entry));
    assert_eq!(index.entry(1), None);
    assert!(flags.assume_valid() && flags.extended() && flags.intent_to_add() && !flags.skip_worktree());
    assert_eq!(index.find("p", Stage::Theirs), Ok(Some(entry)));
}

#[test]
fn of_an_entry_as_json() {
    let listed = json::parse(&over(&["list", "--json", "-"], &file(3, 1, &[&all_fields()]), 0).stdout);
    let entry = &listed.items()[0];
    for (name, field) in [("dev", 5), ("ino", 6), ("uid", 8), ("gid", 9), ("size", 10)] {
        assert_eq!(entry.at(name).number(), 0x01010101 * field, "{name}");
    }
    let time = |name| entry.at(name).items().iter().map(|part| part.number() / 0x01010101).collect::<Vec<u64>>();
    assert_eq!((time("ctime"), time("mtime")), (vec![1, 2], vec![3, 4]));
}

#[test]
fn of_a_node() {
    let (root, a) = ([b"\x007 1\n".as_slice(), &[0xab; 20]].concat(), b"a\0-1 0\n".to_vec());
    let index = Index::from_bytes(file(2, 0, &[&extension(b"TREE", &[root, a].concat())])).unwrap();
    let tree = index.tree().unwrap();
    let root = Node { name: b"", entries: Some(7), subtrees: 1, id: Some(Id([0xab; 20])), parent: None };
    let below = Node { name: b"a", entries: None, subtrees: 0, id: None, parent: Some(0) };
    assert_eq!(tree.nodes().collect::<Vec<Node>>(), [root, below]);
    assert_eq!((tree.node(2), tree.path(0), tree.path(1)), (None, b"".to_vec(), b"a".to_vec()));
}

/// Entries come from both ends, and the iterator knows how many are left.
#[test]
fn entries_from_both_ends() {
    let entries: Vec<u8> = (b'a'..=b'e').flat_map(|byte| common::entry(&[byte])).collect();
    let index = Index::from_bytes(file(2, 5, &[&entries])).unwrap();
    let mut left = index.entries();
    assert_eq!(left.next().unwrap().path, b"a");
    assert_eq!(left.next_back().unwrap().path, b"e");
    assert_eq!((left.len(), left.size_hint()), (3, (3, Some(3))));
    assert_eq!(left.nth(1).unwrap().path, b"c");
    assert_eq!(left.next_back().unwrap().path, b"d");
    assert!(left.next().is_none() && left.next_back().is_none());
}
