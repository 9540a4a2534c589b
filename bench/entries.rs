// Measures the proved reader of entries, as the static library exports it. `bench/entries` builds and runs this beside the oracle.
//   entries v4 IN OUT         the entries of an index of version 2 again as version 4, without extensions
//   entries read FILE ROUNDS  the best and the median time of a read, in ns an entry
#[path = "../host/src/declarations.rs"]
mod declarations;
use declarations::*;
use std::time::Instant;

fn word(s: &[u8], at: usize) -> usize {
    u32::from_be_bytes(s[at..at + 4].try_into().unwrap()) as usize
}

fn groups(mut v: usize) -> Vec<u8> {
    let mut out = vec![(v % 128) as u8];
    while v > 127 {
        v = v / 128 - 1;
        out.insert(0, (128 | v % 128) as u8);
    }
    out
}

fn as_v4(s: &[u8]) -> Vec<u8> {
    let (n, mut at, mut prev) = (word(s, 8), 12, Vec::new());
    let mut out = [&s[..4], &[0, 0, 0, 4], &s[8..12]].concat();
    for _ in 0..n {
        let len = (word(s, at + 58) & 0xfff) as usize;
        let path = s[at + 62..at + 62 + len].to_vec();
        let same = prev.iter().zip(&path).take_while(|(a, b)| a == b).count();
        out.extend(&s[at..at + 62]);
        out.extend(groups(prev.len() - same));
        out.extend(&path[same..]);
        out.push(0);
        at += (62 + len + 8) / 8 * 8;
        prev = path;
    }
    let mut trailer = [0; ID_SIZE];
    unsafe { sparrowpivot_sha1(out.as_ptr(), out.len(), &mut trailer) };
    out.extend(trailer);
    out
}

fn main() {
    let a: Vec<String> = std::env::args().collect();
    let s = std::fs::read(&a[2]).unwrap();
    if a[1] == "v4" {
        std::fs::write(&a[3], as_v4(&s)).unwrap();
        return;
    }
    let (version, n) = (word(&s, 4) as u32, word(&s, 8));
    let (mut records, mut paths, mut values) = (vec![1u8; n * RECORD_SIZE], vec![1u8; n * 64], [0; VALUES]);
    let mut times = Vec::new();
    for _ in 0..a[3].parse::<usize>().unwrap() {
        let t = Instant::now();
        let r = unsafe {
            sparrowpivot_entries(
                s.as_ptr(),
                s.len(),
                version,
                n,
                records.as_mut_ptr(),
                records.len(),
                paths.as_mut_ptr(),
                paths.len(),
                &mut values,
            )
        };
        times.push(t.elapsed().as_nanos() as f64 / n as f64);
        assert_eq!((r, values[0] <= s.len() as u64 - 20), (0, true));
    }
    times.sort_by(f64::total_cmp);
    println!(
        "{:44} median {:.2} ns/entry   best {:.2} ns/entry",
        "this reader (stores lent, not cleared)",
        times[times.len() / 2],
        times[0]
    );
}
