//! The smallest inputs of docs/DIFFERENCES.md, each with the row under which the Rust differs from us, or none where both answer alike.
use crate::cases::{unhex, Case};
use crate::generate::{extension, header};
use crate::model::{Entry, Row};
use crate::write_cases::Table;
use crate::writing;

/// An entry of version 2, mode 100644, all else zero.
fn entry(path: &[u8]) -> Vec<u8> {
    let mut e = vec![0; 62];
    e[24..28].copy_from_slice(&0o100644u32.to_be_bytes());
    e[60..62].copy_from_slice(&(path.len() as u16).to_be_bytes());
    e.extend(path);
    e.resize((e.len() + 8) / 8 * 8, 0);
    e
}

fn changed(mut e: Vec<u8>, at: usize, bytes: &[u8]) -> Vec<u8> {
    e[at..at + bytes.len()].copy_from_slice(bytes);
    e
}

pub fn all() -> Vec<(&'static str, Case, Option<Row>)> {
    let zeros = |n: usize| vec![0u8; n];
    let z = zeros(20);
    let file = |parts: &[&[u8]]| Case::File([parts.concat(), z.clone()].concat());
    let hex = unhex;
    let deep = [b"\0-1 1\n".repeat(512), b"\0-1 0\n".to_vec()].concat();
    let record =
        |mode: u32, path: Vec<u8>| Entry { fields: [0, 0, 0, 0, 0, 0, mode, 0, 0, 0], id: [0; 20], flags: 0, path };
    let table = |entries: Vec<Entry>, tree: Option<Vec<u8>>| Table { entries, word: "all", sparse: false, tree };
    let long = table(vec![record(0o100644, vec![b'a'; 4095]), record(0o100644, b"b".to_vec())], None);
    let twice = Entry { fields: [0; 10], id: [0; 20], flags: 0, path: b"a".to_vec() };
    let v4 = |number: &str, suffix: &[u8]| [zeros(62), hex(number), suffix.to_vec()].concat();
    let id = [7u8; 20];
    vec![
        ("D1a", file(&[&header(2, 1)]), Some(Row::D1)),
        ("count-of-ones", file(&[&header(2, u32::MAX)]), Some(Row::D1)),
        (
            "D1b",
            file(&[
                &header(2, 1),
                &hex("4141414100000038"),
                &zeros(52),
                &hex("00016100"),
                &hex("454f4945000000180000000cf9129b9a47d3eeba2b049a248dc652e766b92f6f"),
            ]),
            Some(Row::D1),
        ),
        ("D2", file(&[&header(4, 1), &v4("80fefefefefefefeff00", b"\0")]), Some(Row::D2)),
        ("D3a", file(&[&header(2, 1), &zeros(60), &hex("0fff"), &hex("0000")]), Some(Row::D3)),
        ("D3b", file(&[&header(2, 1), &zeros(60), &hex("0fff"), &hex("00"), &hex("4142434400000000")]), Some(Row::D3)),
        ("D4", file(&[&header(4, 1), &v4("00", b"a")]), Some(Row::D4)),
        ("D4, version 2", file(&[&header(2, 1), &zeros(60), &hex("0002"), b"ab"]), Some(Row::D4Padded)),
        ("D5", file(&[&header(2, 0), b"ABCD", &hex("00000001")]), Some(Row::D5)),
        ("D5-link", file(&[&header(2, 0), b"link", &hex("00000001")]), Some(Row::D5)),
        ("D5-tree", file(&[&header(2, 0), b"TREE", &hex("00000001")]), Some(Row::D5)),
        ("D6", Case::File([header(2, 0), vec![1; 20]].concat()), Some(Row::D6)),
        ("D7", file(&[&header(2, 0), b"x"]), Some(Row::D7)),
        ("D7-cut", file(&[&header(2, 0), b"ABCD", &hex("00000002"), b"x"]), Some(Row::D7)),
        ("D8", file(&[&header(2, 0), &extension(b"TREE", &deep)]), Some(Row::D8)),
        ("D9", file(&[&header(2, 0), &extension(b"TREE", b"\0-1 2\nb\0-1 0\na\0-1 0\n")]), Some(Row::D9)),
        // the Rust's decoder sorts siblings, so its writer cannot be given them in another order
        ("D10", Case::Write(table(vec![], Some(b"\0-1 2\nb\0-1 0\na\0-1 0\n".to_vec()))), None),
        ("D11, depth 513", Case::Write(table(vec![], Some(deep))), Some(Row::D11)),
        ("D12", Case::Write(long.clone()), None),
        ("D12, read back", Case::File(writing::ours(&long.lent(), long.asked()).unwrap().1), Some(Row::D12)),
        ("D13", Case::Write(table(vec![record(u32::MAX, b"a".to_vec())], None)), None),
        (
            "not-in-order, written",
            Case::Write(table(vec![record(0o100644, b"b".to_vec()), record(0o100644, b"a".to_vec())], None)),
            None,
        ),
        ("nul-in-path, written", Case::Write(table(vec![record(0o100644, b"a\0b".to_vec())], None)), None),
        ("directory-without-sdir", Case::Write(table(vec![record(0o40000, b"a/".to_vec())], None)), None),
        ("D15", Case::Lookup(vec![twice.clone(), twice.clone(), twice], b"a".to_vec(), 0), Some(Row::D15)),
        ("extended-in-v2", file(&[&header(2, 1), &changed(entry(b"\x20\0a"), 60, &hex("4001"))]), None),
        ("link", file(&[&header(2, 0), &extension(b"link", b"")]), None),
        (
            "unread",
            file(&[
                &header(2, 0),
                &extension(b"UNTR", b"\xff"),
                &extension(b"REUC", b"\xff"),
                &extension(b"FSMN", b"\xff"),
            ]),
            None,
        ),
        ("optional-A", file(&[&header(2, 0), &extension(b"Aabc", b"")]), None),
        ("optional-Z", file(&[&header(2, 0), &extension(b"Zabc", b"")]), None),
        ("r8-small-a", file(&[&header(2, 0), &extension(b"aBCD", b"")]), None),
        ("r8-small-z", file(&[&header(2, 0), &extension(b"zBCD", b"")]), None),
        ("D18-digit", file(&[&header(2, 0), &extension(b"0abc", b"")]), Some(Row::D18)),
        ("D18-at-sign", file(&[&header(2, 0), &extension(b"@abc", b"")]), Some(Row::D18)),
        ("D18-bracket", file(&[&header(2, 0), &extension(b"[abc", b"")]), Some(Row::D18)),
        ("D18-underscore", file(&[&header(2, 0), &extension(b"_abc", b"")]), Some(Row::D18)),
        ("D18-zeros", file(&[&header(2, 0), &extension(b"\0\0\0\0", b"")]), Some(Row::D18)),
        ("D18-ones", file(&[&header(2, 0), &extension(b"\xff\xff\xff\xff", b"")]), Some(Row::D18)),
        ("first-number", file(&[&header(4, 1), &v4("05", b"a\0")]), None),
        ("padding-of-ones", file(&[&header(2, 1), &changed(entry(b"a"), 63, b"\xff")]), None),
        ("nul-in-path", file(&[&header(2, 1), &entry(b"a\0b")]), None),
        ("empty-path", file(&[&header(2, 1), &entry(b"")]), None),
        ("not-in-order", file(&[&header(2, 2), &entry(b"b"), &entry(b"a")]), None),
        ("path-rules", file(&[&header(2, 3), &entry(b"/a/"), &entry(b".git"), &entry(b"a//../b")]), None),
        ("zero trailer", file(&[&header(2, 0)]), None),
        (
            "tree-signs",
            file(&[
                &header(2, 0),
                &extension(b"TREE", &[b"\0+001 0002\n".as_slice(), &id, b"a\0-0 0\n", &id, b"b\0-7 00\n"].concat()),
            ]),
            None,
        ),
        (
            "tree-sign-of-subtrees",
            file(&[&header(2, 0), &extension(b"TREE", &[b"\x001 +0\n".as_slice(), &id].concat())]),
            None,
        ),
        ("mode-of-ones", file(&[&header(2, 1), &changed(entry(b"a"), 24, b"\xff\xff\xff\xff")]), None),
    ]
}
