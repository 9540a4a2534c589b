// Measures the proved reader of TREE against the Rust's `tree::decode`: 20,000 folders in three levels, and one folder with 20,000 subfolders, in byte order and in
// git's own. Both are run alternately, each in short runs of which the best counts. The last lines have two of the subfolders exchanged, and 2,000,000 in no order, so
// that no order settles the names and they are sorted. `bench/tree` builds and runs this.
mod clock;
use clock::seconds;

#[link(name = "tree_bench", kind = "static")]
extern "C" {
    fn tree_bench(file: *const u8, size: usize, start: usize, end: usize, nodes: *mut u8, room: usize) -> u64;
}

fn node(name: &str, subtrees: &[Vec<u8>]) -> Vec<u8> {
    let mut v = name.as_bytes().to_vec();
    v.push(0);
    v.extend(format!("3 {}\n", subtrees.len()).bytes());
    v.extend([7u8; 20]);
    subtrees.iter().for_each(|s| v.extend(s));
    v
}

fn leaves(names: &[String]) -> Vec<u8> {
    node("", &names.iter().map(|n| node(n, &[])).collect::<Vec<_>>())
}

fn main() {
    let level = |k: usize, name: &str, below: &[Vec<u8>]| {
        (0..k).map(|i| node(&format!("{name}{i:02}"), below)).collect::<Vec<_>>()
    };
    let spread = node("", &level(20, "a", &level(20, "b", &level(49, "c", &[]))));
    let rising: Vec<String> = (0..20000).map(|i| format!("folder{i:05}")).collect();
    let mut shorter: Vec<String> = (0..20000).map(|i| format!("d{i}")).collect();
    shorter.sort_by(|a, b| (a.len(), a).cmp(&(b.len(), b)));
    let mut exchanged = shorter.clone();
    exchanged.swap(0, 19999);
    // each number below 2,000,000 once: 1,234,567 has no factor in common with that
    let mixed: Vec<String> = (0..2000000usize).map(|i| format!("d{}", i * 1234567 % 2000000)).collect();
    for (what, body, rounds) in [
        ("20,000 folders", spread, 50),
        ("20,000 subfolders, byte order", leaves(&rising), 50),
        ("20,000 subfolders, git's order", leaves(&shorter), 50),
        ("20,000 subfolders, two exchanged", leaves(&exchanged), 20),
        ("2,000,000 subfolders, no order", leaves(&mixed), 1),
    ] {
        let mut nodes = vec![0u8; 72 * if rounds == 1 { 2000001 } else { 21000 }];
        let (mut ours, mut rust, mut used) = (f64::MAX, f64::MAX, 0);
        for _ in 0..rounds {
            ours = ours.min(seconds(|| {
                used = unsafe { tree_bench(body.as_ptr(), body.len(), 0, body.len(), nodes.as_mut_ptr(), nodes.len()) }
            }));
            rust = rust.min(seconds(|| assert!(gix_index::init::tree_decode(&body, gix_hash::Kind::Sha1).is_some())));
        }
        assert!(used > 20000);
        println!("{what}: {:.2} ms, {:.2} of the Rust", ours * 1e3, ours / rust);
    }
}
