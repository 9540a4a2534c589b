//! Generated files and tables: the same for the same seed.
use crate::model::{sha1, Entry};

#[derive(Clone)]
pub struct Rng(u64);

impl Rng {
    pub fn new(seed: u64) -> Rng {
        Rng(seed.wrapping_mul(0x9e37_79b9_7f4a_7c15) | 1)
    }
    pub fn next(&mut self) -> u64 {
        self.0 ^= self.0 << 13;
        self.0 ^= self.0 >> 7;
        self.0 ^= self.0 << 17;
        self.0.wrapping_mul(0x2545_f491_4f6c_dd1d) >> 16
    }
    pub fn below(&mut self, n: usize) -> usize {
        self.next() as usize % n
    }
    pub fn one_in(&mut self, n: usize) -> bool {
        self.below(n) == 0
    }
    pub fn pick<T: Copy>(&mut self, of: &[T]) -> T {
        of[self.below(of.len())]
    }
    pub fn bytes(&mut self, n: usize) -> Vec<u8> {
        (0..n).map(|_| self.next() as u8).collect()
    }
}

/// A number in groups of seven bits.
pub fn groups(mut v: u64) -> Vec<u8> {
    let mut out = vec![(v % 128) as u8];
    while v > 127 {
        v = v / 128 - 1;
        out.insert(0, 128 | (v % 128) as u8);
    }
    out
}

pub fn extension(signature: &[u8], body: &[u8]) -> Vec<u8> {
    [signature, &(body.len() as u32).to_be_bytes(), body].concat()
}

pub fn header(version: u32, count: u32) -> Vec<u8> {
    [b"DIRC".as_slice(), &version.to_be_bytes(), &count.to_be_bytes()].concat()
}

fn number(r: &mut Rng) -> u32 {
    match r.below(4) {
        0 => 0,
        1 => r.next() as u32,
        2 => u32::MAX,
        _ => r.below(300) as u32,
    }
}

fn path(r: &mut Rng, long: bool) -> Vec<u8> {
    let n = match r.below(40) {
        0 => 0,
        1 if long => 4085 + r.below(20),
        2 if long => 1 + r.below(9000),
        3 => 100 + r.below(200),
        _ => 1 + r.below(24),
    };
    match r.below(6) {
        0 => (0..n).map(|_| 1 + r.below(255) as u8).collect(),
        1 => [b"exhibit/p".as_slice(), &vec![b'e'; n]].concat(),
        _ => (0..n).map(|_| r.pick(b"ab./-c")).collect(),
    }
}

/// One entry as the file spells it, mostly correctly.
fn spell(r: &mut Rng, version: u32, previous: &mut Vec<u8>, path: Vec<u8>, odd: bool) -> Vec<u8> {
    let mut out = vec![];
    for i in 0..10 {
        let v = if i == 6 {
            r.pick(&[0o100644, 0o100644, 0o100755, 0o120000, 0o160000, 0o40000, 0, 0xffff_ffff, 0o100600])
        } else {
            number(r)
        };
        out.extend(v.to_be_bytes());
    }
    out.extend(if r.one_in(4) { vec![0; 20] } else { r.bytes(20) });
    let extended = if version == 3 { r.one_in(3) } else { r.one_in(30) };
    let mut flags = (r.pick(&[0, 0, 0, 1, 2, 3]) << 12) as u16 | if r.one_in(6) { 0x8000 } else { 0 };
    let mut field = path.len().min(0xfff) as u16;
    if odd && r.one_in(6) {
        field = r.pick(&[0xfff, 0xfff, 0xffe, 0, field + 1 & 0xfff, field.wrapping_sub(1) & 0xfff]);
    }
    flags |= field | if extended { 0x4000 } else { 0 };
    out.extend(flags.to_be_bytes());
    if extended {
        let more: u16 = if odd && r.one_in(4) {
            r.pick(&[0x8000, 1, 0x1000, 0x6001, 0xffff])
        } else {
            r.pick(&[0, 0x2000, 0x4000, 0x6000])
        };
        out.extend(more.to_be_bytes());
    }
    if version == 4 {
        let same = previous.iter().zip(&path).take_while(|(a, b)| a == b).count();
        let kept = if r.one_in(8) { r.below(same + 1) } else { same };
        let mut strip = groups((previous.len() - kept) as u64);
        if odd && r.one_in(4) {
            strip = match r.below(6) {
                0 => groups(r.next() << 16 | r.next()),
                1 => groups(previous.len() as u64 + r.below(3) as u64),
                2 => [vec![0x80], vec![0xfe; 7], vec![0xff, r.below(128) as u8]].concat(),
                3 => [vec![128 | r.below(128) as u8; 1 + r.below(11)], vec![r.below(128) as u8]].concat(),
                4 => [
                    vec![0x80, 0xfe, 0xfe, 0xfe, 0xfe, 0xfe, 0xfe, 0xfe],
                    vec![r.pick(&[0xfe, 0xff, 0x80]), r.pick(&[0x7f, 0, 0xff]), r.below(128) as u8],
                ]
                .concat(),
                _ => r.bytes(1),
            };
        }
        out.extend(strip);
        out.extend(&path[kept..]);
        out.push(0);
    } else {
        out.extend(&path);
        let n = (out.len() + 8) / 8 * 8 - out.len();
        out.extend(if r.one_in(12) { r.bytes(n) } else { vec![0; n] });
    }
    *previous = path;
    out
}

fn node(r: &mut Rng, out: &mut Vec<u8>, name: &[u8], depth: usize, odd: bool) {
    out.extend(name);
    out.push(0);
    let children = if depth >= 6 { 0 } else { r.pick(&[0, 0, 0, 1, 2, 3]) };
    let count = r.below(6) as i32 - 1;
    let text = if odd && r.one_in(6) {
        r.pick(&[
            "+1",
            "007",
            "-0",
            "+",
            "-",
            "",
            "+-1",
            "2147483647",
            "2147483648",
            "-2147483648",
            "-2147483649",
            "-7",
            "x",
            "1x",
            "--1",
            "+0",
        ])
        .to_string()
    } else {
        count.to_string()
    };
    let subtrees = if odd && r.one_in(6) {
        r.pick(&["+0", "-0", "00", "", "1", "2", "0000002", "18446744073709551615", "18446744073709551616", "x"])
            .to_string()
    } else {
        children.to_string()
    };
    out.extend(text.as_bytes());
    out.push(if odd && r.one_in(40) { b'\n' } else { b' ' });
    out.extend(subtrees.as_bytes());
    out.push(b'\n');
    let bare = text.starts_with('-') && text != "-0";
    if !bare || (odd && r.one_in(20)) {
        let n = if odd && r.one_in(20) { 19 } else { 20 };
        out.extend(r.bytes(n));
    }
    let mut names: Vec<Vec<u8>> = (0..children)
        .map(|i| [vec![b'a' + i as u8; 1 + r.below(2)], r.pick(&[&b""[..], b"x", b"\xff", b"/"]).to_vec()].concat())
        .collect();
    if odd && children > 1 && r.one_in(6) {
        names[0] = names[children - 1].clone();
    }
    if r.one_in(3) {
        names.reverse();
    }
    for n in names {
        node(r, out, &n, depth + 1, odd);
    }
}

/// The body of a TREE.
pub fn tree(r: &mut Rng, odd: bool) -> Vec<u8> {
    let mut out = vec![];
    if r.one_in(25) {
        let depth = r.pick(&[2, 64, 65, 500, 511, 512, 513, 514, 700]);
        for i in 0..depth {
            out.extend(if i + 1 < depth { b"\0-1 1\n" } else { b"\0-1 0\n" });
        }
    } else {
        node(r, &mut out, b"", 1, odd);
    }
    if odd && r.one_in(6) {
        damage(r, &mut out);
    }
    out
}

/// The body of an IEOT.
pub fn ieot(r: &mut Rng) -> Vec<u8> {
    let version: u32 = if r.one_in(8) { r.pick(&[0, 2, 0x0100_0000]) } else { 1 };
    let pairs = r.pick(&[0, 1, 1, 2, 3, 7]);
    let mut out = version.to_be_bytes().to_vec();
    out.extend(r.bytes(8 * pairs));
    if r.one_in(6) {
        let n = r.below(10);
        out.extend(r.bytes(n));
    }
    if r.one_in(10) {
        out.truncate(r.below(5));
    }
    out
}

/// The extension EOIE that tells an offset for the extensions in `all[from..]`.
pub fn eoie(all: &[u8], from: usize) -> Vec<u8> {
    let (mut heads, mut at) = (vec![], from);
    while at + 8 <= all.len() {
        let size = u32::from_be_bytes(all[at + 4..at + 8].try_into().unwrap()) as usize;
        heads.extend(&all[at..at + 8]);
        at = at.saturating_add(8).saturating_add(size);
    }
    extension(b"EOIE", &[(from as u32).to_be_bytes().as_slice(), &sha1(&heads)].concat())
}

/// A first byte of a signature: mostly a capital letter.
fn letter(r: &mut Rng) -> u8 {
    let any = r.next() as u8;
    if any.is_ascii_lowercase() {
        any
    } else {
        b'A' + any % 26
    }
}

/// A first byte of a signature that is no letter, next to the letters or anywhere.
fn stray(r: &mut Rng) -> u8 {
    let any = r.next() as u8;
    r.pick(&[b'@', b'[', b'`', b'{', b'0', b'9', b'_', 0, 0xff, if any.is_ascii_alphabetic() { !any } else { any }])
}

/// The extensions of a file; with `strays` one in three has a stray signature.
fn extensions(r: &mut Rng, out: &mut Vec<u8>, odd: bool, strays: bool) {
    let start = out.len();
    for _ in 0..r.pick(&[0, 0, 1, 1, 2, 3, 4]) {
        let n = r.below(12);
        let body = r.bytes(n);
        let mut e = match r.below(12) {
            0..=3 => extension(b"TREE", &tree(r, odd)),
            4 => extension(b"sdir", if odd && r.one_in(4) { b"x" } else { b"" }),
            5 | 6 => extension(b"IEOT", &ieot(r)),
            7 => extension(r.pick(&[b"REUC", b"UNTR", b"FSMN", b"EOIE"]), &body),
            8 if odd => extension(r.pick(&[b"link", b"abcd", b"zzzz", b"sdix", b"Babc", b"Yabc", b"tree"]), &body),
            9 if odd => extension(&[letter(r), b'b', b'c', b'd'], &body),
            _ => extension(r.pick(&[b"ABCD", b"ZZZZ", b"A\0\xff ", b"Aabc", b"Zabc", b"Mabc"]), &body),
        };
        if strays && r.one_in(3) {
            e[0] = stray(r);
        }
        out.extend(e);
    }
    if r.one_in(3) {
        let mut from = start;
        if odd && r.one_in(5) {
            from = r.pick(&[12, start + 8, 0, 13]).min(out.len());
        }
        let mut e = eoie(out, from);
        if odd && r.one_in(5) {
            let i = r.below(e.len());
            e[i] ^= 1 << r.below(8);
        }
        out.extend(e);
    }
}

/// Changes some bytes.
fn damage(r: &mut Rng, s: &mut Vec<u8>) {
    if s.is_empty() {
        return;
    }
    match r.below(6) {
        0 => s.truncate(r.below(s.len())),
        1 => {
            let i = r.below(s.len());
            s.remove(i);
        }
        2 => {
            let (i, b) = (r.below(s.len() + 1), r.pick(&[0, 1, 0xff, b'a']));
            s.insert(i, b);
        }
        3 => {
            let i = r.below(s.len());
            s[i] = r.pick(&[0, 0xff, 0x80, 0x7f, b'0', b'\n']);
        }
        _ => {
            for _ in 0..1 + r.below(3) {
                let i = r.below(s.len());
                s[i] ^= 1 << r.below(8);
            }
        }
    }
}

/// A file: everything before the trailer, perhaps damaged, then a trailer.
pub fn file(r: &mut Rng) -> Vec<u8> {
    file_with(r, false)
}

/// A file in which stray signatures are common.
pub fn stray_file(r: &mut Rng) -> Vec<u8> {
    file_with(r, true)
}

fn file_with(r: &mut Rng, strays: bool) -> Vec<u8> {
    let odd = !r.one_in(3);
    let long = r.one_in(12);
    let version = if odd && r.one_in(60) { r.pick(&[0, 1, 5, 0x0200_0000]) } else { r.pick(&[2, 3, 4, 4]) };
    let n = if r.one_in(150) { 100 + r.below(500) } else { r.pick(&[0, 1, 1, 2, 3, 5, 9]) };
    let mut paths: Vec<Vec<u8>> = (0..n).map(|_| path(r, long && n < 10)).collect();
    if !r.one_in(4) {
        paths.sort();
    }
    let count = if odd && r.one_in(12) {
        r.pick(&[n as u32 + 1, (n as u32).wrapping_sub(1), 0, u32::MAX, 1 << 20])
    } else {
        n as u32
    };
    let mut out = header(version, count);
    let mut previous = vec![];
    for p in paths {
        out.extend(spell(r, version, &mut previous, p, odd));
    }
    extensions(r, &mut out, odd, strays);
    if odd && r.one_in(12) {
        let n = 1 + r.below(9);
        out.extend(r.bytes(n));
    }
    if odd && r.one_in(25) {
        out.extend(r.pick(&[b"ABCD", b"link", b"TREE", b"sdir"]));
        out.extend((1 + r.below(22) as u32).to_be_bytes());
        let n = r.below(3);
        out.extend(r.bytes(n));
    }
    if odd && r.one_in(3) {
        damage(r, &mut out);
    }
    seal(r, &mut out);
    if odd && r.one_in(12) {
        damage(r, &mut out);
    }
    if r.one_in(200) {
        out.truncate(r.below(40));
    }
    out
}

fn seal(r: &mut Rng, out: &mut Vec<u8>) {
    match r.below(16) {
        0 => out.extend([1; 20]),
        1 => {
            let mut h = sha1(out);
            h[r.below(20)] ^= 1 << r.below(8);
            out.extend(h);
        }
        2..=8 => out.extend([0; 20]),
        _ => out.extend(sha1(out)),
    }
}

/// A table of records: sorted strictly, or in any order; any flags and modes; paths that share beginnings, or are the same, or empty.
pub fn table(r: &mut Rng) -> Vec<Entry> {
    let n = if r.one_in(40) { 30 + r.below(200) } else { r.pick(&[0, 1, 2, 3, 4, 5, 8, 13]) };
    let mut t: Vec<Entry> = (0..n)
        .map(|_| {
            let fields = std::array::from_fn(|_| number(r));
            let flags =
                r.pick(&[0, 0x1000, 0x2000, 0x3000]) | if r.one_in(2) { r.next() as u32 & 0xffff_cfff } else { 0 };
            Entry { fields, id: r.bytes(20).try_into().unwrap(), flags, path: table_path(r) }
        })
        .collect();
    if !r.one_in(3) {
        t.sort_by(|a, b| key(a).cmp(&key(b)));
        t.dedup_by(|a, b| key(a) == key(b));
    }
    t
}

/// A table to be written: as above, with more of the modes that git knows, and some paths near and above the longest length that an entry can state.
pub fn written_table(r: &mut Rng) -> Vec<Entry> {
    let mut t = table(r);
    if r.one_in(2) {
        t.iter_mut().for_each(|e| e.fields[6] = r.pick(&[0o100644, 0o100644, 0o100755, 0o120000, 0o160000, 0o40000]));
    }
    if t.len() < 14 && r.one_in(12) {
        for e in &mut t {
            if r.one_in(2) {
                e.path = vec![
                    r.pick(b"ab/\xff");
                    r.pick(&[4094, 4095, 4096, 4097, 4103, 5000, 4094 + r.clone().below(906)])
                ];
            }
        }
    }
    t
}

/// Changes a few bytes of a node table so that it may no longer be proper: numbers that are just right or just wrong, at any place.
pub fn spoil(r: &mut Rng, nodes: &mut Vec<u8>, names: &mut Vec<u8>) {
    match r.below(8) {
        0 => nodes.truncate(r.below(nodes.len() + 1)),
        1 => names.truncate(r.below(names.len() + 1)),
        2 if !names.is_empty() => {
            let i = r.below(names.len());
            names[i] = r.pick(&[0, b'a']);
        }
        3 if nodes.len() > 144 => {
            // two nodes change places, or one stands twice
            let (a, b) = (72 * r.below(nodes.len() / 72), 72 * r.below(nodes.len() / 72));
            let one = nodes[a..a + 72].to_vec();
            nodes.copy_within(b..b + 72, a);
            if r.one_in(2) {
                nodes[b..b + 72].copy_from_slice(&one);
            }
        }
        _ if nodes.len() >= 72 => {
            let at = 72 * r.below(nodes.len() / 72) + 8 * r.below(5);
            let v = r.pick(&[
                0,
                1,
                2,
                3,
                1 << 31,
                (1 << 31) - 1,
                u32::MAX as u64,
                u64::MAX,
                u64::MAX - 1,
                names.len() as u64,
                names.len() as u64 + 1,
                1 << 63,
            ]);
            nodes[at..at + 8].copy_from_slice(&v.to_be_bytes());
        }
        _ => {}
    }
}

pub fn table_path(r: &mut Rng) -> Vec<u8> {
    let n = r.below(6);
    match r.below(6) {
        0 => vec![],
        1 => [b"src/".to_vec(), (0..n).map(|_| r.pick(b"ab./")).collect()].concat(),
        2 => (0..n).map(|_| r.pick(&[0, 1, 97, 127, 128, 255])).collect(),
        _ => (0..n).map(|_| r.pick(b"abc")).collect(),
    }
}

pub fn stage(e: &Entry) -> u32 {
    e.flags >> 12 & 3
}

pub fn key(e: &Entry) -> (&[u8], u32) {
    (&e.path, stage(e))
}
