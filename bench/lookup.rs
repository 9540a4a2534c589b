// Measures lookup, as the static library exports it, beside a straightforward halving in Rust over a table of its own. `bench/lookup` builds and runs this.
//   lookup make N OUT         writes an index of version 2 with N entries, for where the oracle cannot make one
//   lookup time FILE ROUNDS   the best time of as many lookups as the index has entries, scattered and in order, in ns a lookup
use std::cmp::Ordering;
mod clock;
#[path = "../host/src/declarations.rs"]
mod declarations;
use clock::seconds;
use declarations::*;

/// As large as the Rust's own entry: 80 bytes, where a record of ours has 96.
struct Entry {
    _stat: [u32; 9],
    _id: [u8; 20],
    flags: u32,
    _mode: u32,
    path: std::ops::Range<usize>,
}

/// The rule as one would write it: entries and paths by checked index, paths by `cmp` of slices (memcmp), then stages.
fn halving(table: &[Entry], paths: &[u8], key: &[u8], stage: u32) -> (bool, usize, usize) {
    let (mut low, mut high, mut compared) = (0, table.len(), 0);
    while low < high {
        let middle = (low + high) / 2;
        let e = &table[middle];
        compared += 1;
        match paths[e.path.clone()].cmp(key).then((e.flags >> 12 & 3).cmp(&stage)) {
            Ordering::Equal => return (true, middle, compared),
            Ordering::Less => low = middle + 1,
            Ordering::Greater => high = middle,
        }
    }
    (false, 0, compared)
}

fn make(n: usize) -> Vec<u8> {
    let mut out = [b"DIRC".as_slice(), &2u32.to_be_bytes(), &(n as u32).to_be_bytes()].concat();
    for i in 0..n {
        let path = format!("src/module-{:03}/component-{:02}/file-{i:05}.rs", i / 500, i / 50 % 10);
        let mut e = vec![0; 60];
        e.extend((path.len() as u16).to_be_bytes());
        e.extend(path.as_bytes());
        e.resize((e.len() + 8) / 8 * 8, 0);
        out.extend(e);
    }
    out.extend([0; 20]);
    out
}

fn main() {
    let a: Vec<String> = std::env::args().collect();
    if a[1] == "make" {
        std::fs::write(&a[3], make(a[2].parse().unwrap())).unwrap();
        return;
    }
    let file = std::fs::read(&a[2]).unwrap();
    let n = u32::from_be_bytes(file[8..12].try_into().unwrap()) as usize;
    let (mut records, mut paths, mut nodes, mut v) =
        (vec![0u8; n * RECORD_SIZE], vec![0u8; file.len()], vec![0u8; 2000 * NODE_SIZE], [0; VALUES]);
    let r = unsafe {
        sparrowpivot_read(
            file.as_ptr(),
            file.len(),
            records.as_mut_ptr(),
            records.len(),
            paths.as_mut_ptr(),
            paths.len(),
            nodes.as_mut_ptr(),
            nodes.len(),
            &mut v,
        )
    };
    assert_eq!((r, v[3] as usize), (0, n));
    paths.truncate(v[4] as usize);
    let table: Vec<Entry> = (0..n)
        .map(|i| {
            unsafe { sparrowpivot_record(records.as_ptr(), records.len(), paths.as_ptr(), paths.len(), i, &mut v) };
            Entry {
                _stat: [0; 9],
                _id: [0; 20],
                flags: v[1] as u32,
                _mode: v[0] as u32,
                path: v[3] as usize..v[4] as usize,
            }
        })
        .collect();
    // the same records at a multiple of 64 bytes: a record's start and end of its path then lie in one cache line
    let mut room = vec![0u8; records.len() + 64];
    let first = room.as_ptr().align_offset(64);
    let aligned = &mut room[first..first + records.len()];
    aligned.copy_from_slice(&records);
    // the keys are copies, as the oracle's are
    let keys: Vec<Vec<u8>> = table.iter().map(|e| paths[e.path.clone()].to_vec()).collect();
    let orders: [(&str, Vec<usize>); 2] =
        [("scattered", (0..n).map(|i| i * 7919 % n).collect()), ("in order", (0..n).collect())];
    for (what, order) in &orders {
        let (mut ours, mut ours_aligned, mut rust) = (f64::MAX, f64::MAX, f64::MAX);
        for _ in 0..a[3].parse::<usize>().unwrap() {
            for (best, records) in [(&mut ours, &records[..]), (&mut ours_aligned, &*aligned)] {
                let t = seconds(|| {
                    for &i in order {
                        let k = &keys[i];
                        let r = unsafe {
                            sparrowpivot_lookup(
                                records.as_ptr(),
                                records.len(),
                                paths.as_ptr(),
                                paths.len(),
                                k.as_ptr(),
                                k.len(),
                                0,
                                &mut v,
                            )
                        };
                        assert!(r == 0 && v[0] == 1 && v[1] == i as u64);
                    }
                });
                *best = best.min(t * 1e9 / n as f64);
            }
            let t = seconds(|| {
                for &i in order {
                    let (found, at, _) = halving(&table, &paths, &keys[i], 0);
                    assert!(found && at == i);
                }
            });
            rust = rust.min(t * 1e9 / n as f64);
        }
        println!("{what}: this lookup {ours:.1} ns, records at a multiple of 64 {ours_aligned:.1} ns, straightforward Rust {rust:.1} ns a lookup");
    }
}
