// Measures the proved digest, as the static library exports it, against plain scalar Rust: SHA-1 with all eighty words in an array, with the rounds in one
// loop and in four. All three are checked against each other first, at every length below 400, and run alternately, each in short runs of which the best
// counts, so that other work of the machine disturbs little. `bench/sha1` builds and runs this.
mod clock;
#[path = "../host/src/declarations.rs"]
mod declarations;
use clock::seconds;
use declarations::*;

fn words(m: &[u8]) -> [u32; 80] {
    let mut w = [0u32; 80];
    for i in 0..16 {
        w[i] = u32::from_be_bytes([m[4 * i], m[4 * i + 1], m[4 * i + 2], m[4 * i + 3]]);
    }
    for i in 16..80 {
        w[i] = (w[i - 3] ^ w[i - 8] ^ w[i - 14] ^ w[i - 16]).rotate_left(1);
    }
    w
}

fn add(h: &mut [u32; 5], v: [u32; 5]) {
    for i in 0..5 {
        h[i] = h[i].wrapping_add(v[i]);
    }
}

fn one_loop(h: &mut [u32; 5], m: &[u8]) {
    let w = words(m);
    let [mut a, mut b, mut c, mut d, mut e] = *h;
    for i in 0..80 {
        let (f, k) = if i < 20 {
            ((b & c) | (!b & d), 0x5a827999u32)
        } else if i < 40 {
            (b ^ c ^ d, 0x6ed9eba1)
        } else if i < 60 {
            ((b & c) | (b & d) | (c & d), 0x8f1bbcdc)
        } else {
            (b ^ c ^ d, 0xca62c1d6)
        };
        let t = a.rotate_left(5).wrapping_add(f).wrapping_add(e).wrapping_add(k).wrapping_add(w[i]);
        (e, d, c, b, a) = (d, c, b.rotate_left(30), a, t);
    }
    add(h, [a, b, c, d, e]);
}

fn four_loops(h: &mut [u32; 5], m: &[u8]) {
    let w = words(m);
    let [mut a, mut b, mut c, mut d, mut e] = *h;
    macro_rules! run {
        ($from:expr, $f:expr, $k:expr) => {
            for i in $from..$from + 20 {
                let t = a.rotate_left(5).wrapping_add($f(b, c, d)).wrapping_add(e).wrapping_add($k).wrapping_add(w[i]);
                (e, d, c, b, a) = (d, c, b.rotate_left(30), a, t);
            }
        };
    }
    run!(0, |b: u32, c: u32, d: u32| d ^ (b & (c ^ d)), 0x5a827999u32);
    run!(20, |b: u32, c: u32, d: u32| b ^ c ^ d, 0x6ed9eba1u32);
    run!(40, |b: u32, c: u32, d: u32| (b & c) | (d & (b | c)), 0x8f1bbcdcu32);
    run!(60, |b: u32, c: u32, d: u32| b ^ c ^ d, 0xca62c1d6u32);
    add(h, [a, b, c, d, e]);
}

fn rust(s: &[u8], block: fn(&mut [u32; 5], &[u8])) -> [u8; 20] {
    let mut h = [0x67452301u32, 0xefcdab89, 0x98badcfe, 0x10325476, 0xc3d2e1f0];
    let full = s.len() / 64 * 64;
    for m in s[..full].chunks_exact(64) {
        block(&mut h, m);
    }
    let mut tail = s[full..].to_vec();
    tail.push(0x80);
    while tail.len() % 64 != 56 {
        tail.push(0);
    }
    tail.extend(((s.len() as u64) * 8).to_be_bytes());
    for m in tail.chunks_exact(64) {
        block(&mut h, m);
    }
    let mut out = [0u8; 20];
    for i in 0..5 {
        out[4 * i..4 * i + 4].copy_from_slice(&h[i].to_be_bytes());
    }
    out
}

fn proved(s: &[u8]) -> [u8; 20] {
    let mut out = [0u8; 20];
    unsafe { sparrowpivot_sha1(s.as_ptr(), s.len(), &mut out) };
    out
}

fn main() {
    let mut x = 12345u64;
    let data: Vec<u8> = (0..1 << 20)
        .map(|_| {
            x = x.wrapping_mul(6364136223846793005).wrapping_add(1442695040888963407);
            (x >> 56) as u8
        })
        .collect();
    for n in 0..400 {
        assert_eq!(proved(&data[..n]), rust(&data[..n], one_loop));
        assert_eq!(proved(&data[..n]), rust(&data[..n], four_loops));
    }
    let all: [(&str, fn(&[u8]) -> [u8; 20]); 3] =
        [("proved", proved), ("rust, one loop", |s| rust(s, one_loop)), ("rust, four loops", |s| rust(s, four_loops))];
    let mut best = [[f64::MAX; 2]; 3];
    for _ in 0..200 {
        for (i, (_, f)) in all.iter().enumerate() {
            best[i][0] = best[i][0].min(seconds(|| {
                std::hint::black_box(f(&data));
            }));
            best[i][1] = best[i][1].min(seconds(|| {
                for k in 0..10000 {
                    std::hint::black_box(f(&data[k..k + 40]));
                }
            }));
        }
    }
    for (i, (name, _)) in all.iter().enumerate() {
        println!(
            "{name}: {:.0} MB/s; a message of 40 bytes: {:.0} ns",
            data.len() as f64 / best[i][0] / 1e6,
            best[i][1] * 1e5
        );
    }
    for i in 1..3 {
        println!(
            "speed of the proved digest to {}: {:.2}; at 40 bytes: {:.2}",
            all[i].0,
            best[i][0] / best[0][0],
            best[i][1] / best[0][1]
        );
    }
}
