//! The tree against the entries: paths and counts held against a plain way to find them.
mod common;
use common::{entry, extension, file, over};
use sparrowpivot::{Index, Tree, TreeFault};

/// The names of folders and files: some are the beginning of others, and some stand before a slash and some behind.
const NAMES: [&str; 5] = ["a", "a-", "a0", "b", ""];

/// An index of entries at some of the paths of one to three names, with the folders of two levels and their true
/// counts, but for one that is `off` by one.
fn made(turn: usize, off: Option<usize>) -> Index {
    let two = NAMES.iter().flat_map(|a| NAMES.map(|b| format!("{a}/{b}")));
    let three = two.clone().flat_map(|ab| NAMES.map(|c| format!("{ab}/{c}")));
    let all = NAMES.map(String::from).into_iter().chain(two).chain(three).filter(|path| !path.is_empty());
    let mut paths: Vec<String> =
        all.enumerate().filter(|(i, _)| i * 7 % 11 != turn % 11).map(|(_, path)| path).collect();
    paths.sort();
    let mut node = 0;
    let mut head = |name: &str, folder: &str, subtrees: usize| {
        let there = paths.iter().filter(|path| path.starts_with(folder)).count() + usize::from(off == Some(node));
        node += 1;
        [format!("{name}\0{there} {subtrees}\n").as_bytes(), &[7; 20]].concat()
    };
    let mut body = head("", "", 5);
    for a in NAMES {
        body.extend(head(a, &format!("{a}/"), 5));
        body.extend(NAMES.iter().flat_map(|b| head(b, &format!("{a}/{b}/"), 0)));
    }
    let entries: Vec<u8> = paths.iter().flat_map(|path| entry(path.as_bytes())).collect();
    Index::from_bytes(file(2, paths.len() as u32, &[&entries, &extension(b"TREE", &body)])).unwrap()
}

/// The path of a node with a slash after it; empty for the root.
fn folder(tree: &Tree<'_>, i: usize) -> Vec<u8> {
    if i == 0 {
        Vec::new()
    } else {
        [tree.path(i).as_slice(), b"/"].concat()
    }
}

#[test]
fn counts_are_those_of_the_entries() {
    for turn in 0..11 {
        assert_eq!(made(turn, None).check_tree(), Ok(()));
        for off in 0..31 {
            let index = made(turn, Some(off));
            let Err(TreeFault::Count { folder: wrong, says, there }) = index.check_tree() else { panic!("{off}") };
            assert_eq!((wrong, says as usize), (folder(&index.tree().unwrap(), off), there + 1));
        }
    }
}

#[test]
fn paths_are_made_one_from_the_other() {
    let index = made(0, None);
    let tree = index.tree().unwrap();
    let mut folders = tree.folders();
    for i in 0..31 {
        assert_eq!(folders.step().unwrap(), folder(&tree, i));
    }
    assert_eq!((tree.len(), folders.step()), (31, None));
}

/// One name of a million bytes above two thousand others: what would be printed is two thousand times as long as the
/// file, and is not. The check puts no path together.
#[test]
fn a_long_name_above_many() {
    let below: Vec<u8> =
        (0..2000).flat_map(|i| format!("{i}\x000 0\n").into_bytes().into_iter().chain([7; 20])).collect();
    let long = [b"x".repeat(1_000_000).as_slice(), b"\x000 2000\n", &[7; 20], &below].concat();
    let body = [b"\x000 1\n".as_slice(), &[7; 20], &long].concat();
    let bytes = file(2, 0, &[&extension(b"TREE", &body)]);
    let said = String::from_utf8(over(&["tree", "-"], &bytes, 1).stderr).unwrap();
    assert!(said.ends_with("the paths of its folders have 2001010891 bytes, over 1073741824\n"), "{said}");
    over(&["check", "-"], &bytes, 0);
    over(&["rewrite", "-", "-"], &bytes, 0);
}
