//! A node table put into the order in which the library writes it quickest: what is below a folder stands right behind
//! it, and the folders in it stand by name. What is written depends on names alone, so that it stays the same; but a
//! folder whose subfolders stand in no order costs the library the square of their number.
use std::borrow::Cow;

use crate::declarations::NODE_SIZE;
use crate::error::Error;
use crate::ffi;
use crate::stores::store;

/// Where the bytes of a node hold its parent, as a big-endian number of eight bytes.
const PARENT: usize = 32;

/// A node, by what its place depends on.
#[derive(Clone, Copy)]
struct Folder<'a> {
    parent: usize,
    name: &'a [u8],
    /// How many nodes it is with all that is below it.
    nodes: usize,
    /// Its place in that order.
    place: usize,
    /// The place of the next folder in it.
    next: usize,
}

/// The same tree in that order. A table that stands so already is handed back, and so is one in which a parent is not
/// an earlier node. Whatever else the library asks of a table holds of the one if it holds of the other.
pub(crate) fn by_name<'a>(nodes: &'a [u8], names: &[u8]) -> Result<Cow<'a, [u8]>, Error> {
    let Some(mut folders) = folders(nodes, names)? else { return Ok(Cow::Borrowed(nodes)) };
    place(&mut folders)?;
    if folders.iter().zip(0..).all(|(folder, i)| folder.place == i) {
        return Ok(Cow::Borrowed(nodes));
    }
    let mut placed = store(nodes.len(), 0)?;
    for (node, folder) in nodes.chunks_exact(NODE_SIZE).zip(&folders) {
        let Some(slot) = placed.chunks_exact_mut(NODE_SIZE).nth(folder.place) else { continue };
        slot.copy_from_slice(node);
        if let (Some(above), true) = (folders.get(folder.parent), folder.place > 0) {
            let parent = (above.place as u64).to_be_bytes();
            slot.iter_mut().skip(PARENT).zip(parent).for_each(|(old, new)| *old = new);
        }
    }
    Ok(Cow::Owned(placed))
}

/// The nodes of a table; `None` where the first has a parent, or another has none that stands before it.
fn folders<'a>(nodes: &[u8], names: &'a [u8]) -> Result<Option<Vec<Folder<'a>>>, Error> {
    let root = Folder { parent: 0, name: &[], nodes: 1, place: 0, next: 1 };
    let mut folders = store(nodes.len() / NODE_SIZE, root)?;
    for (i, folder) in folders.iter_mut().enumerate() {
        match ffi::node(nodes, i) {
            Some([_, _, _, _, u64::MAX, ..]) if i == 0 => (),
            Some([start, end, _, _, parent, ..]) if parent < i as u64 => {
                folder.parent = parent as usize;
                folder.name = names.get(start as usize..end as usize).unwrap_or_default();
            }
            _ => return Ok(None),
        }
    }
    Ok(Some(folders))
}

/// Finds the place of each node but the first: behind its parent, and behind all that is below the siblings before it.
fn place(folders: &mut [Folder<'_>]) -> Result<(), Error> {
    let mut order = store(folders.len().saturating_sub(1), 0)?;
    order.iter_mut().zip(1..).for_each(|(slot, i)| *slot = i);
    for i in order.iter().rev() {
        let Some(Folder { parent, nodes, .. }) = folders.get(*i).copied() else { continue };
        if let Some(above) = folders.get_mut(parent) {
            above.nodes = above.nodes.saturating_add(nodes);
        }
    }
    // a parent stands before its children in the table, and so in this order too: its place is found before theirs
    order.sort_by_key(|i: &usize| folders.get(*i).map(|folder| (folder.parent, folder.name)));
    for i in order {
        let Some(Folder { parent, nodes, .. }) = folders.get(i).copied() else { continue };
        let Some(above) = folders.get_mut(parent) else { continue };
        let place = above.next;
        above.next = place.saturating_add(nodes);
        if let Some(folder) = folders.get_mut(i) {
            (folder.place, folder.next) = (place, place.saturating_add(1));
        }
    }
    Ok(())
}

#[cfg(test)]
mod tests {
    use super::*;
    use crate::declarations::{WRITE_TREE, WRITE_TREE_GIVEN};
    use crate::{Index, Refusal, WriteOptions};

    const NONE: u64 = u64::MAX;

    /// A table of nodes by name and parent, and its names. No two ids are alike.
    fn table(rows: &[(String, u64)]) -> (Vec<u8>, Vec<u8>) {
        let (mut nodes, mut names) = (Vec::new(), Vec::new());
        for (i, (name, parent)) in rows.iter().enumerate() {
            let subtrees = rows.iter().filter(|row| row.1 == i as u64).count();
            let start = names.len();
            names.extend(name.bytes());
            let numbers = [start as u64, names.len() as u64, 7, subtrees as u64, *parent];
            nodes.extend(numbers.iter().flat_map(|number| number.to_be_bytes()));
            nodes.extend([i as u8; 32]);
        }
        (nodes, names)
    }

    /// What the library's own function writes of a table as it stands.
    fn written(nodes: &[u8], names: &[u8]) -> Result<Vec<u8>, Refusal> {
        let mut out = vec![0; 100 + 2 * nodes.len() + names.len()];
        let [_, size, ..] = ffi::write(&[], &[], nodes, names, WRITE_TREE_GIVEN + WRITE_TREE, &mut out)?;
        out.truncate(size as usize);
        Ok(out)
    }

    /// Trees in no order at all, in which names often begin with others.
    #[test]
    fn the_same_bytes_are_written() {
        let mut dice = 20_261_116_u64;
        for turn in 0..1000 {
            let mut rows = vec![(String::new(), NONE)];
            for i in 1..2 + turn % 60 {
                dice = dice.wrapping_mul(6_364_136_223_846_793_005).wrapping_add(1_442_695_040_888_963_407);
                rows.push((format!("{:b}", i * 37 % 61), (dice >> 33) % i));
            }
            let (nodes, names) = table(&rows);
            let sorted = by_name(&nodes, &names).unwrap();
            assert_eq!(written(&sorted, &names).unwrap(), written(&nodes, &names).unwrap(), "{rows:?}");
            assert!(matches!(by_name(&sorted, &names).unwrap(), Cow::Borrowed(same) if same == &*sorted), "{rows:?}");
            for i in 1..rows.len() {
                let [.., parent, _, _, _] = ffi::node(&sorted, i).unwrap();
                assert!(parent < i as u64);
            }
        }
    }

    /// A file whose folders stand in no order: the crate writes what the library writes of the table as it was read.
    #[test]
    fn the_crate_writes_what_the_library_does() {
        let below = |i: usize| format!("{}\0-1 2\nb\0-1 0\na\0-1 0\n", i * 7919 % 300);
        let body = [b"\0-1 300\n".to_vec(), (0..300).flat_map(|i| below(i).into_bytes()).collect()].concat();
        let head = [b"DIRC\0\0\0\x02\0\0\0\0TREE".as_slice(), &(body.len() as u32).to_be_bytes()].concat();
        let index = Index::from_bytes([head, body, vec![0; 20]].concat()).unwrap();
        let (_, _, nodes) = index.tables();
        assert!(matches!(by_name(nodes, index.as_bytes()).unwrap(), Cow::Owned(_)));
        let ours = index.write(WriteOptions::default()).unwrap();
        assert!(ours == written(nodes, index.as_bytes()).unwrap());
        let again = Index::from_bytes(ours.clone()).unwrap();
        assert!(matches!(by_name(again.tables().2, again.as_bytes()).unwrap(), Cow::Borrowed(_)));
        assert!(again.write(WriteOptions::default()).unwrap() == ours);
    }

    #[test]
    fn what_is_no_tree_is_still_refused() {
        let handed_back: [&[(&str, u64)]; 7] = [
            &[],
            &[("", 0)],
            &[("", NONE), ("b", 2), ("a", 0)],
            &[("", NONE), ("b", 2), ("a", 1)],
            &[("", NONE), ("b", 1), ("a", 0)],
            &[("", NONE), ("b", NONE), ("a", 0)],
            &[("", NONE), ("b", 9), ("a", 0)],
        ];
        let twins: &[(&str, u64)] = &[("", NONE), ("b", 0), ("a", 0), ("b", 0)];
        for rows in handed_back.into_iter().chain([twins]) {
            let rows: Vec<(String, u64)> = rows.iter().map(|(name, parent)| (name.to_string(), *parent)).collect();
            let (nodes, names) = table(&rows);
            let sorted = by_name(&nodes, &names).unwrap();
            assert!(rows.len() == twins.len() || matches!(sorted, Cow::Borrowed(_)), "{rows:?}");
            assert_eq!(written(&sorted, &names), Err(Refusal::NotProper), "{rows:?}");
        }
    }
}
