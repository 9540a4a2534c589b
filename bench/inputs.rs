// Files made to be slow to read, check or write. Each is made for a number n, and grows in proportion to it.
use crate::declarations::*;

/// The deepest level of a tree that is read; the root's is 1.
pub const LEVELS: usize = 512;

/// The bytes of a long name, and of what the paths of version 4 have in common.
const LONG: usize = 4000;

/// A file: version, count of entries, what follows, and a trailer of zeros, so that nothing is hashed.
pub fn file(version: u32, count: usize, parts: &[&[u8]]) -> Vec<u8> {
    let head = [b"DIRC".as_slice(), &version.to_be_bytes(), &(count as u32).to_be_bytes()].concat();
    [&head, &parts.concat(), [0; ID_SIZE].as_slice()].concat()
}

pub fn extension(signature: &[u8; 4], body: &[u8]) -> Vec<u8> {
    [signature.as_slice(), &(body.len() as u32).to_be_bytes(), body].concat()
}

// ---- Entries

fn fixed(length: usize) -> Vec<u8> {
    [[0; 24].as_slice(), &0o100644u32.to_be_bytes(), &[0; 32], &(length.min(4095) as u16).to_be_bytes()].concat()
}

/// An entry of version 2.
pub fn entry(path: &[u8]) -> Vec<u8> {
    let mut bytes = [&fixed(path.len()), path].concat();
    bytes.resize(bytes.len() / 8 * 8 + 8, 0);
    bytes
}

/// An entry of version 4, of which less than 128 bytes of the path before are dropped.
fn entry4(drop: u8, more: &[u8]) -> Vec<u8> {
    [&fixed(0), &[drop][..], more, b"\0"].concat()
}

/// Entries whose paths have no length field that tells, so that their ends are looked for.
pub fn long_paths(n: usize) -> Vec<u8> {
    let paths = (0..n).map(|i| format!("{}{i:07}", "p".repeat(LONG + 95)));
    file(2, n, &[&paths.flat_map(|path| entry(path.as_bytes())).collect::<Vec<u8>>()])
}

/// Entries of version 4 whose paths are long and differ in the last bytes.
pub fn shared_paths(n: usize) -> Vec<u8> {
    let more = (0..n).map(|i| entry4(if i == 0 { 0 } else { 7 }, format!("{i:07}").as_bytes()));
    let first = entry4(0, &[b'p'; LONG]);
    file(4, n + 1, &[&first, &more.flatten().collect::<Vec<u8>>()])
}

/// Entries of version 4 each of which has a byte more than the one before.
pub fn growing_paths(n: usize) -> Vec<u8> {
    file(4, n, &[&entry4(0, b"p").repeat(n)])
}

// ---- Extensions

/// So many extensions that hold nothing.
pub fn extensions(n: usize) -> Vec<u8> {
    extension(b"NONE", b"").repeat(n)
}

/// An IEOT of so many pairs.
pub fn ieot(n: usize) -> Vec<u8> {
    extension(b"IEOT", &[1u32.to_be_bytes().as_slice(), &[0, 0, 0, 12, 0, 0, 0, 1].repeat(n)].concat())
}

/// A file without entries that ends with an EOIE over these extensions, whose headers it is right about.
pub fn under_eoie(extensions: &[u8], headers: &[u8]) -> Vec<u8> {
    let mut hash = [0; ID_SIZE];
    unsafe { sparrowpivot_sha1(headers.as_ptr(), headers.len(), &mut hash) };
    file(2, 0, &[extensions, &extension(b"EOIE", &[12u32.to_be_bytes().as_slice(), &hash].concat())])
}

// ---- Trees

/// The head of a node, out of date, so that it has no id.
fn node(name: &[u8], subtrees: usize) -> Vec<u8> {
    [name, format!("\0-1 {subtrees}\n").as_bytes()].concat()
}

/// A file with a tree and no entries.
fn tree(body: &[u8]) -> Vec<u8> {
    file(2, 0, &[&extension(b"TREE", body)])
}

/// A tree of a root and folders with nothing in them.
fn siblings(names: &[String]) -> Vec<u8> {
    let mut body = node(b"", names.len());
    names.iter().for_each(|name| body.extend(node(name.as_bytes(), 0)));
    tree(&body)
}

/// A number that looks random (xorshift).
fn random(seed: &mut u64) -> usize {
    *seed ^= *seed << 13;
    *seed ^= *seed >> 7;
    *seed ^= *seed << 17;
    *seed as usize
}

fn shuffle(mut names: Vec<String>) -> Vec<String> {
    let mut seed = 20_261_116;
    (1..names.len()).rev().for_each(|i| names.swap(i, random(&mut seed) % (i + 1)));
    names
}

fn of_one_length(n: usize) -> Vec<String> {
    (0..n).map(|i| format!("{i:07}")).collect()
}

/// Names in git's own order: shorter ones first.
fn of_all_lengths(n: usize) -> Vec<String> {
    (0..n).map(|i| i.to_string()).collect()
}

pub fn by_bytes(n: usize) -> Vec<u8> {
    siblings(&of_one_length(n))
}

pub fn by_git(n: usize) -> Vec<u8> {
    siblings(&of_all_lengths(n))
}

/// Names in git's own order, of 200 lengths: each length is a run of its own.
pub fn by_git_in_runs(n: usize) -> Vec<u8> {
    let of_length = |more: usize| (0..n / 200).map(move |i| format!("{i:07}{}", "0".repeat(more)));
    siblings(&(0..200).flat_map(of_length).collect::<Vec<String>>())
}

pub fn shuffled(n: usize) -> Vec<u8> {
    siblings(&shuffle(of_all_lengths(n)))
}

pub fn shuffled_of_one_length(n: usize) -> Vec<u8> {
    siblings(&shuffle(of_one_length(n)))
}

pub fn reversed(n: usize) -> Vec<u8> {
    siblings(&of_all_lengths(n).into_iter().rev().collect::<Vec<String>>())
}

pub fn runs_of_one(n: usize) -> Vec<u8> {
    siblings(&of_one_length(n).into_iter().rev().collect::<Vec<String>>())
}

pub fn exchanged(n: usize) -> Vec<u8> {
    let mut names = of_one_length(n);
    names.swap(0, 1);
    names.swap(n - 2, n - 1);
    siblings(&names)
}

pub fn long_names(n: usize) -> Vec<u8> {
    siblings(&shuffle((0..n).map(|i| format!("{}{i:07}", "p".repeat(LONG - 7))).collect()))
}

/// Folders below the root each of which has one in it, and so on down to the deepest level.
fn chains(n: usize, top: impl Fn(usize) -> String) -> Vec<u8> {
    let (chains, below) = (n / (LEVELS - 1), LEVELS - 2);
    let rest = [node(b"0000000", 1).repeat(below - 1), node(b"0000000", 0)].concat();
    let mut body = node(b"", chains);
    for i in 0..chains {
        body.extend(node(top(i).as_bytes(), 1));
        body.extend(&rest);
    }
    tree(&body)
}

pub fn deepest(n: usize) -> Vec<u8> {
    chains(n, |i| format!("{i:07}"))
}

/// The same in git's own order.
pub fn deepest_by_git(n: usize) -> Vec<u8> {
    chains(n, |i| i.to_string())
}

/// One folder in another down to the last level but one, in which all others stand.
pub fn lowest(n: usize) -> Vec<u8> {
    let mut body = [node(b"", 1), node(b"0000000", 1).repeat(LEVELS - 3), node(b"0000000", n)].concat();
    of_one_length(n).iter().for_each(|name| body.extend(node(name.as_bytes(), 0)));
    tree(&body)
}

/// On each level folders with nothing in them before the one that has the next level in it, and as many behind it: a hundred, where n is 200 times the levels.
fn comb_of(n: usize, before: fn(usize) -> String, middle: &[u8], behind: fn(usize) -> String) -> Vec<u8> {
    let leaves = n / LEVELS / 2;
    let side = |name: fn(usize) -> String| (0..leaves).flat_map(|i| node(name(i).as_bytes(), 0)).collect::<Vec<u8>>();
    let mut body = node(b"", 2 * leaves + 1);
    for level in 2..=LEVELS {
        body.extend(side(before));
        body.extend(node(middle, if level < LEVELS { 2 * leaves + 1 } else { 0 }));
    }
    body.extend(side(behind).repeat(LEVELS - 1));
    tree(&body)
}

pub fn comb(n: usize) -> Vec<u8> {
    comb_of(n, |i| format!("a{i:06}"), b"m", |i| format!("z{i:06}"))
}

/// The same in git's own order: what stands behind is longer, and comes first by bytes.
pub fn comb_by_git(n: usize) -> Vec<u8> {
    comb_of(n, |i| format!("z{i:05}"), b"mmmmmmm", |i| format!("a{i:07}"))
}

/// A folder whose name has five times n bytes above n others, and eight entries in the first of them.
pub fn long_name_above_many(n: usize) -> Vec<u8> {
    let long = "p".repeat(5 * n);
    let entries: Vec<u8> = (0..8).flat_map(|i| entry(format!("{long}/0000000/{i}").as_bytes())).collect();
    let counted = |name: &str, entries: usize, subtrees: usize| {
        [name.as_bytes(), format!("\0{entries} {subtrees}\n").as_bytes(), &[7; ID_SIZE]].concat()
    };
    let mut body = [counted("", 8, 1), counted(&long, 8, n)].concat();
    of_one_length(n).iter().enumerate().for_each(|(i, name)| body.extend(counted(name, if i == 0 { 8 } else { 0 }, 0)));
    file(2, 8, &[&entries, &extension(b"TREE", &body)])
}
