//! Compares the library with the Rust by running; `compare/run` builds and starts it.
//!     compare [--oracle PROGRAM] [--answers FILE] [--differences FILE] [--git FOLDER] [--seed N] [--long] [--hostile [--rounds N]] [--self-test] [--make-answers]
//! Every answer is compared twice: with document 01's rules, written once more in model.rs, answer, values and every byte lent; and with the Rust. Where the two
//! differ, a row of docs/DIFFERENCES.md has to say so, and what the Rust then answers; all else is a failure, printed with its input.
mod cases;
#[path = "../host/src/declarations.rs"]
mod declarations;
mod documented;
mod generate;
mod hostile;
mod library;
mod model;
mod oracle;
mod write_cases;
mod writing;

use cases::{Case, Judge, Plant};
use generate::{extension, groups, header, Rng};
use oracle::Oracle;
use std::process::Command;
use std::time::Instant;
use write_cases::Table;
use writing::{Asked, Lent};

struct Options {
    oracle: Oracle,
    answers: Option<String>,
    differences: Option<String>,
    git: Option<String>,
    seed: u64,
    times: usize,
    self_test: bool,
    make_answers: bool,
    hostile: bool,
    /// one turn of hostile input, as this program starts itself
    turn: Option<(hostile::Turn, hostile::Fault)>,
    rounds: u64,
}

fn options() -> Options {
    let mut o = Options {
        oracle: Oracle(None),
        answers: None,
        differences: None,
        git: None,
        seed: 1,
        times: 1,
        self_test: false,
        make_answers: false,
        hostile: false,
        turn: None,
        rounds: 500_000,
    };
    let mut a = std::env::args().skip(1);
    let mut next = |w: &str| a.next().map(|x| if x.is_empty() { panic!("{w} wants a value") } else { x });
    while let Some(w) = next("") {
        match w.as_str() {
            "--oracle" => o.oracle = Oracle(next(&w)),
            "--answers" => o.answers = next(&w),
            "--differences" => o.differences = next(&w),
            "--git" => o.git = next(&w),
            "--seed" => o.seed = next(&w).unwrap().parse().expect("a number"),
            "--long" => (o.times, o.hostile) = (20, true),
            "--hostile" => (o.times, o.hostile) = (0, true),
            "--rounds" => o.rounds = next(&w).unwrap().parse().expect("a number"),
            "--hostile-turn" => o.turn = Some(hostile::turn_of(&next(&w).unwrap(), &next(&w).unwrap())),
            "--self-test" => o.self_test = true,
            "--make-answers" => o.make_answers = true,
            _ => panic!("see the head of compare/main.rs"),
        }
    }
    o
}

/// Asks the oracle, where it is, and judges.
fn run(j: &mut Judge, oracle: &Oracle, cases: &[Case]) {
    for some in cases.chunks(5000) {
        let said = oracle.is_there().then(|| oracle.ask(&some.iter().map(Case::line).collect::<Vec<_>>()));
        for (i, c) in some.iter().enumerate() {
            j.judge(c, said.as_ref().map(|s| s[i].as_str()));
        }
    }
}

/// The inputs of docs/DIFFERENCES.md: each must fall under its own row.
fn documented(j: &mut Judge, oracle: &Oracle) -> usize {
    let all = documented::all();
    let said = oracle.ask(&all.iter().map(|c| c.1.line()).collect::<Vec<_>>());
    for ((name, case, row), said) in all.iter().zip(&said) {
        let mut one = Judge::new(Plant::Nothing);
        one.judge(case, Some(said));
        if one.rows.keys().copied().collect::<Vec<_>>() != row.iter().copied().collect::<Vec<_>>() {
            j.fail(
                &format!("{name} of docs/DIFFERENCES.md"),
                &case.line(),
                &format!("{:?}", one.rows),
                &format!("{row:?}"),
            );
        }
        j.add(one);
    }
    all.len()
}

/// a. Generated files, each also asked for EOIE, and for IEOT after the header.
fn files(j: &mut Judge, parts: &mut Judge, oracle: &Oracle, file: fn(&mut Rng) -> Vec<u8>, seed: u64, n: usize) {
    let mut r = Rng::new(seed);
    for some in (0..n).collect::<Vec<_>>().chunks(4000) {
        let files: Vec<Vec<u8>> = some.iter().map(|_| file(&mut r)).collect();
        run(j, oracle, &files.iter().cloned().map(Case::File).collect::<Vec<_>>());
        // the oracle wants at least a byte
        let few = files.iter().filter(|s| !s.is_empty() && s.len() < 2000);
        run(
            parts,
            oracle,
            &few.flat_map(|s| {
                [Case::Eoie(s.clone()), Case::Ieot(s[model::eoie(s).unwrap_or(12).min(s.len())..].to_vec())]
            })
            .collect::<Vec<_>>(),
        );
    }
}

fn lookups(r: &mut Rng, t: &[model::Entry], n: usize) -> Vec<Case> {
    let one = |r: &mut Rng| {
        if t.is_empty() || r.one_in(3) {
            Case::Lookup(t.to_vec(), generate::table_path(r), r.below(4) as u32)
        } else {
            let e = &t[r.below(t.len())];
            Case::Lookup(t.to_vec(), e.path.clone(), if r.one_in(4) { r.below(4) as u32 } else { generate::stage(e) })
        }
    };
    (0..n).map(|_| one(r)).collect()
}

/// b. Generated tables: order check and lookup.
fn tables(j: &mut Judge, oracle: &Oracle, seed: u64, n: usize) {
    let mut r = Rng::new(seed);
    for some in (0..n).collect::<Vec<_>>().chunks(2000) {
        let mut cases = vec![];
        for _ in some {
            let t = generate::table(&mut r);
            cases.push(Case::Order(t.clone()));
            cases.extend(lookups(&mut r, &t, 3));
            if !t.is_empty() && r.one_in(4) {
                let (path, bad) = (generate::table_path(&mut r), r.below(t.len()));
                let (stage, far) = (r.pick(&[0, 1, 2, 3, 4, 255, u32::MAX]), r.pick(&[0, 1, 1 << 40, u64::MAX]));
                j.outside(&t, bad, &path, stage, far);
            }
        }
        run(j, oracle, &cases);
    }
}

/// b. Generated tables, written: every table against the Rust, one in eight and those with long paths also read back by it; and as many with faults, by 01's rules.
fn written(j: &mut Judge, oracle: &Oracle, seed: u64, n: usize) {
    let mut r = Rng::new(seed ^ 0x3217e);
    for some in (0..n).collect::<Vec<_>>().chunks(2000) {
        let all: Vec<Table> = some.iter().map(|_| Table::generated(&mut r)).collect();
        all.iter().for_each(|t| j.write_faults(&mut r, t));
        let again = |t: &&Table| t.entries.len() % 8 == 3 || t.entries.iter().any(|e| e.path.len() >= 4095);
        let files: Vec<Case> = all
            .iter()
            .filter(again)
            .filter_map(|t| Some(Case::Own(writing::ours(&t.lent(), t.asked()).ok()?.1)))
            .collect();
        run(j, oracle, &all.into_iter().map(Case::Write).collect::<Vec<_>>());
        run(j, oracle, &files);
    }
    (0..2).for_each(|more| j.too_large(more));
}

/// c. Parts, exhaustively where short.
fn parts(j: &mut Judge, oracle: &Oracle, seed: u64, times: usize) {
    let mut cases = vec![];
    for version in 2..=4 {
        for size in (0..700).chain([1 << 20, u32::MAX as usize, 1 << 40]) {
            cases.push(Case::Max(size, None, version));
        }
        for from in (0..400).chain([1 << 20, u32::MAX as usize]) {
            cases.push(Case::Max(500, Some(from), version));
        }
    }
    run(j, oracle, &cases);
    offset_tables(j, oracle);
    end_of_entries(j, oracle, seed);
    tree_bodies(j, oracle, seed, times);
    numbers(j, oracle, seed);
}

fn offset_tables(j: &mut Judge, oracle: &Oracle) {
    let mut cases = vec![];
    let trailer = [0u8; 20];
    for version in [0u32, 1, 2, 256, 1 << 24] {
        for n in 0..50usize {
            let body = [version.to_be_bytes().as_slice(), &(0..n as u8).collect::<Vec<_>>()].concat();
            for e in [
                extension(b"IEOT", &body),
                [extension(b"IEOT", &[]), extension(b"IEOT", &body)].concat(),
                [extension(b"link", b"x"), extension(b"IEOT", &body)].concat(),
                [extension(b"0abc", b"x"), extension(b"IEOT", &body)].concat(),
                [extension(b"IEOU", b""), extension(b"IEOT", &body), extension(b"IEOT", &[0, 0, 0, 1])].concat(),
            ] {
                cases.push(Case::Ieot([e.as_slice(), &trailer].concat()));
                // one byte too few and too many
                cases.push(Case::Ieot([&e[..e.len() - 1], &trailer].concat()));
                cases.push(Case::Ieot([e.as_slice(), &[7], &trailer].concat()));
            }
        }
    }
    for n in 0..60 {
        cases.push(Case::Ieot(vec![0; n]));
        cases.push(Case::Ieot([b"IEOT\0\0\0\x0c\0\0\0\x01abcdefgh".as_slice(), &vec![0; n]].concat()));
    }
    run(j, oracle, &cases);
}

fn end_of_entries(j: &mut Judge, oracle: &Oracle, seed: u64) {
    let mut r = Rng::new(seed ^ 0xe01e);
    let mut cases = vec![];
    for round in 0..12 {
        let mut s = header(2, 0);
        for _ in 0..round % 5 {
            let n = r.below(10);
            let body = r.bytes(n);
            s.extend(extension(r.pick(&[b"TREE", b"sdir", b"link", b"0abc", b"ABCD", b"EOIE"]), &body));
        }
        // every offset, with the hash that belongs to it and with that of the right one
        let right = generate::eoie(&s, 12);
        for from in 0..s.len() + 40 {
            let e = if from <= s.len() { generate::eoie(&s, from) } else { right.clone() };
            cases.push(Case::Eoie([s.as_slice(), &e, &[0; 20]].concat()));
            let mut e = right.clone();
            e[8..12].copy_from_slice(&(from as u32).to_be_bytes());
            cases.push(Case::Eoie([s.as_slice(), &e, &[0; 20]].concat()));
        }
        // every bit flipped, every length
        let whole = [s.as_slice(), &right, &[0; 20]].concat();
        for bit in 0..whole.len() * 8 {
            let mut t = whole.clone();
            t[bit / 8] ^= 1 << (bit % 8);
            cases.push(Case::Eoie(t));
        }
        (1..whole.len()).for_each(|n| cases.push(Case::Eoie(whole[..n].to_vec())));
    }
    run(j, oracle, &cases);
}

fn with_tree(body: &[u8]) -> Case {
    Case::File([header(2, 0), extension(b"TREE", body), vec![0; 20]].concat())
}

/// Every body of up to five of these words, every body of six of these bytes that begins with a NUL, and generated ones.
fn tree_bodies(j: &mut Judge, oracle: &Oracle, seed: u64, times: usize) {
    let words: [&[u8]; 10] =
        [b"\0", b" ", b"\n", b"-1", b"0", b"1", b"a", b"+", b"\0-1 0\n", b"\x010123456789012345678"];
    let mut bodies: Vec<Vec<u8>> = vec![vec![]];
    let mut all = bodies.clone();
    for _ in 0..5 {
        bodies = bodies.iter().flat_map(|b| words.iter().map(move |w| [b.as_slice(), w].concat())).collect();
        all.extend(bodies.iter().cloned());
    }
    let bytes = b"\0 \n-01+a";
    for i in 0..8usize.pow(5) {
        let tail: Vec<u8> = (0..5).map(|k| bytes[i / 8usize.pow(k) % 8]).collect();
        all.push([b"\0".as_slice(), &tail].concat());
    }
    let mut r = Rng::new(seed ^ 0x7ee);
    all.extend((0..20_000 * times).map(|_| generate::tree(&mut r, true)));
    for some in all.chunks(20_000) {
        run(j, oracle, &some.iter().map(|b| with_tree(b)).collect::<Vec<_>>());
    }
}

/// Seven-bit numbers, seen as what is taken off a path: every one of one group, many of two and more.
fn numbers(j: &mut Judge, oracle: &Oracle, seed: u64) {
    let file = |length: usize, number: &[u8]| {
        let first = [&[0u8; 62], [0].as_slice(), &vec![b'p'; length], &[0]].concat();
        Case::File([header(4, 2), first, vec![0; 62], number.to_vec(), b"q\0".to_vec(), vec![0; 20]].concat())
    };
    let mut cases: Vec<Case> = (0..=255).flat_map(|n| [file(130, &[n]), file(60, &[n]), file(130, &[n, 0])]).collect();
    for v in (0..16600).step_by(113).chain([127, 128, 129, 255, 256, 16510, 16511, 16512, 16513]) {
        cases.push(file(16600, &groups(v)));
        cases.push(file(v as usize, &groups(v)));
        cases.push(file(v as usize, &groups(v + 1)));
    }
    let mut r = Rng::new(seed ^ 0x7b17);
    for n in 1..13 {
        for _ in 0..300 {
            let mut g: Vec<u8> = (0..n).map(|_| 128 | r.pick(&[0, 0, 1, 126, 127, r.clone().next() as u8])).collect();
            g.push(r.pick(&[0, 1, 126, 127]));
            cases.push(file(r.pick(&[0, 1, 5, 200]), &g));
        }
    }
    for high in [0xfeu8, 0xff, 0x80] {
        for low in 0..=255 {
            cases.push(file(3, &[0x80, 0xfe, 0xfe, 0xfe, 0xfe, 0xfe, 0xfe, 0xfe, high, low]));
        }
    }
    run(j, oracle, &cases);
}

/// d. Indexes of the installed git: FOLDER/data/NAME is the index, FOLDER/list/NAME what `git ls-files --sparse --stage -z` prints.
fn installed_git(j: &mut Judge, oracle: &Oracle, folder: &str) -> usize {
    let mut names: Vec<String> = std::fs::read_dir(format!("{folder}/data"))
        .unwrap()
        .map(|e| e.unwrap().file_name().into_string().unwrap())
        .collect();
    names.sort();
    for name in &names {
        let file = std::fs::read(format!("{folder}/data/{name}")).unwrap();
        let listed = std::fs::read(format!("{folder}/list/{name}")).unwrap();
        let need = cases::needed(&model::ours(&file, model::ALL));
        let ours = library::read(&file, need, 0).reading;
        let mut text = vec![];
        for e in &ours.entries {
            text.extend(format!("{:06o} {} {}\t", e.fields[6], model::hex(&e.id), generate::stage(e)).bytes());
            text.extend(&e.path);
            text.push(0);
        }
        if ours.refused.is_some() || text != listed {
            j.fail(
                &format!("git's listing of {name}"),
                "see the folder's data",
                &format!("{:?} {}", ours.refused, String::from_utf8_lossy(&text[..text.len().min(300)])),
                &String::from_utf8_lossy(&listed[..listed.len().min(300)]),
            );
        } else {
            j.alike += 1;
        }
        let from = library::eoie(&file);
        let pairs = from.and_then(|o| library::ieot(&file, o as usize)).map_or(0, |p| p.len());
        println!(
            "    {name}: version {}, {} entries, {} nodes, {}{}{pairs} pairs of IEOT",
            ours.version,
            ours.entries.len(),
            ours.nodes.len(),
            if ours.sparse { "sparse, " } else { "" },
            if from.is_some() { "EOIE, " } else { "" }
        );
        written_again(j, folder, name, &file, &listed);
        run(j, oracle, &[Case::File(file.clone()), Case::Eoie(file)]);
    }
    names.len()
}

/// What git lists of an index file: every entry, and with `--debug` its stat data and flags. The folder has a repository for it, and one with a sparse checkout.
fn git_lists(folder: &str, index: &str, sparse: bool, more: &[&str]) -> Vec<u8> {
    let mut git = Command::new("git");
    for (name, _) in std::env::vars().filter(|v| v.0.starts_with("GIT_")) {
        git.env_remove(name);
    }
    git.env("GIT_CONFIG_GLOBAL", "/dev/null").env("GIT_CONFIG_NOSYSTEM", "1").env("LC_ALL", "C");
    git.env("GIT_INDEX_FILE", std::fs::canonicalize(index).unwrap());
    // with more than one thread git looks at EOIE
    git.args([
        "-C",
        &format!("{folder}/{}", if sparse { "sparse" } else { "plain" }),
        "-c",
        "index.threads=4",
        "ls-files",
        "--sparse",
        "--stage",
        "-z",
    ])
    .args(more);
    let out = git.output().expect("git runs");
    if !out.status.success() {
        return [b"git refuses: ".as_slice(), &out.stderr].concat();
    }
    out.stdout
}

/// An index of git written again, with and without TREE and EOIE: git lists it as before, with the same stat data and flags.
fn written_again(j: &mut Judge, folder: &str, name: &str, file: &[u8], listed: &[u8]) {
    let need = cases::needed(&model::ours(file, model::ALL));
    let read = library::read(file, need, 0);
    let lent = Lent {
        records: read.records.lent().to_vec(),
        paths: read.paths.lent().to_vec(),
        nodes: read.nodes.lent().to_vec(),
        names: file.to_vec(),
    };
    let sparse = read.reading.sparse;
    let before = git_lists(folder, &format!("{folder}/data/{name}"), sparse, &["--debug"]);
    for (tree, eoie) in [(false, false), (false, true), (true, false), (true, true)] {
        let asked = Asked { given: read.reading.tree, tree, eoie, sparse, unhashed: false };
        let rule = writing::ours(&lent, asked);
        let size = rule.as_ref().map_or(0, |w| w.1.len());
        let (_, _, out) = library::write(&lent, asked.number(), size);
        let place = format!("{folder}/written");
        std::fs::write(&place, out.lent()).unwrap();
        let (now, debug) = (git_lists(folder, &place, sparse, &[]), git_lists(folder, &place, sparse, &["--debug"]));
        if !j.write_into(&lent, asked, 0, &rule, size + 100) {
            continue;
        }
        if now != listed || debug != before {
            let (ours, wanted) = if now != listed { (&now, listed) } else { (&debug, &before[..]) };
            let short = |s: &[u8]| String::from_utf8_lossy(&s[..s.len().min(300)]).into_owned();
            j.fail(
                &format!("git's listing of {name}, written with {asked:?}"),
                "see the folder's data",
                &short(ours),
                &short(wanted),
            );
            continue;
        }
        j.alike += 1;
        j.class("indexes of git, written again and listed alike by git");
        if out.lent() == file {
            j.class("indexes of git, written again byte for byte");
        }
    }
}

/// e. Lent sizes.
fn sizes(j: &mut Judge, seed: u64, n: usize) -> usize {
    let mut r = Rng::new(seed ^ 0x512e);
    if !library::absent_is_zero() {
        j.fail("a record or a node that is not there", "", "", "all 0");
    }
    for n in 0..300 {
        let s = r.bytes(n);
        if library::sha1(&s) != model::sha1(&s) {
            j.fail("SHA-1", &model::hex(&s), "", "");
        }
    }
    let reads: usize = (0..n).map(|_| j.sizes(&generate::file(&mut r))).sum();
    reads + (0..n).map(|_| j.write_sizes(&Table::generated(&mut r))).sum::<usize>()
}

/// f. The kept answers: one question a line, `=`, and what the oracle answered.
fn replay(j: &mut Judge, oracle: &Oracle, list: &str) -> usize {
    let lines: Vec<(&str, &str)> = list
        .lines()
        .filter(|l| !l.starts_with('#'))
        .map(|l| l.split_once(" = ").expect("a question and its answer"))
        .collect();
    for (question, answer) in &lines {
        j.judge(&Case::of_line(question), Some(answer));
    }
    if oracle.is_there() {
        let said = oracle.ask(&lines.iter().map(|l| l.0.to_string()).collect::<Vec<_>>());
        for ((question, answer), now) in lines.iter().zip(said) {
            if *answer != now {
                j.fail("the kept answers are not the oracle's any more", question, answer, &now);
            }
        }
    }
    lines.len()
}

/// Prints the list of answers: short questions, as many of each class and each row as the number below says.
fn make_answers(oracle: &Oracle, seed: u64) {
    let mut r = Rng::new(seed);
    let files: Vec<Case> =
        (0..8000).map(|_| Case::File(generate::file(&mut r))).filter(|c| c.line().len() < 440).collect();
    let mut strays = Rng::new(seed ^ 0x57a1);
    let strays = (0..800).map(|_| Case::File(generate::stray_file(&mut strays))).filter(|c| c.line().len() < 440);
    let mut cases: Vec<Case> = documented::all().into_iter().map(|c| c.1).collect();
    cases.extend(files.iter().cloned().chain(strays));
    cases.extend(files.into_iter().take(400).filter_map(|c| {
        if let Case::File(s) = c {
            Some(Case::Eoie(s))
        } else {
            None
        }
    }));
    for _ in 0..60 {
        cases.push(Case::Ieot([extension(b"IEOT", &generate::ieot(&mut r)), vec![0; 20]].concat()));
        let t = generate::table(&mut r);
        if t.len() < 6 {
            cases.push(Case::Order(t.clone()));
            cases.extend(lookups(&mut r, &t, 1));
        }
    }
    let tables: Vec<Table> = (0..2000).map(|_| Table::generated(&mut r)).collect();
    cases.extend(tables.into_iter().map(Case::Write).filter(|c| c.line().len() < 600));
    (0..20).for_each(|i| cases.push(Case::Max(100 + 61 * i, (i % 3 == 0).then_some(17 * i), 2 + i as u32 % 3)));
    let said = oracle.ask(&cases.iter().map(Case::line).collect::<Vec<_>>());
    println!("# What the Rust answers, for where it cannot be run: one question to a line as `oracle batch` takes it, then what it answers.");
    println!("# Made by `compare/run --make-answers > compare/answers` (seed {seed}): the inputs of docs/DIFFERENCES.md, and of the generated");
    println!("# questions the first few of each class and of each known difference.");
    let mut kept = std::collections::BTreeMap::<String, usize>::new();
    let first = documented::all().len();
    for (i, (c, s)) in cases.iter().zip(&said).enumerate() {
        let mut j = Judge::new(Plant::Nothing);
        j.judge(c, Some(s));
        let row = format!("{:?} {:?} {}", j.rows, j.classes, s.split(['|', ' ']).next().unwrap());
        let n = kept.entry(row).or_default();
        *n += 1;
        if *n <= 8 || i < first {
            println!("{} = {s}", c.line());
        }
    }
}

/// Every planted fault must be caught, and nothing where none is planted.
fn self_test(o: &Options, list: &str) -> bool {
    let mut plants =
        vec![Plant::Nothing, Plant::Input, Plant::Answer, Plant::Record, Plant::Beyond, Plant::Number, Plant::Written];
    plants.extend(model::ROWS.iter().map(|r| Plant::Forgotten(r.0)));
    let mut good = true;
    for plant in plants {
        let mut j = Judge::new(plant);
        let n = replay(&mut j, &Oracle(None), list);
        if o.oracle.is_there() {
            let mut other = Judge::new(plant);
            files(&mut j, &mut other, &o.oracle, generate::file, o.seed, 1000);
            tables(&mut other, &o.oracle, o.seed, 500);
            written(&mut other, &o.oracle, o.seed, 500);
            let both = plant == Plant::Nothing
                || matches!(plant, Plant::Input | Plant::Record | Plant::Beyond | Plant::Forgotten(_))
                || other.failures > 0;
            good &= both;
            j.failures += other.failures;
        }
        let right = (j.failures > 0) == (plant != Plant::Nothing);
        println!(
            "{}: {plant:?} planted, {} failures over {n} kept answers{}",
            if right { "as it should be" } else { "NOT AS IT SHOULD BE" },
            j.failures,
            if o.oracle.is_there() { " and 1000 files" } else { "" }
        );
        good &= right;
    }
    good
}

/// A difference is known only if docs/DIFFERENCES.md has its row: all that were counted under another are failures.
fn not_listed(j: &Judge, list: &str) -> usize {
    let mut n = 0;
    for (row, name) in model::ROWS {
        let label = name.split(' ').next().unwrap();
        if j.rows.contains_key(&row) && !list.lines().any(|l| l.starts_with(&format!("| {label}"))) {
            println!(
                "FAILED {} differences under {label}, which docs/DIFFERENCES.md does not list: {name}",
                j.rows[&row]
            );
            documented::all().iter().filter(|c| c.2 == Some(row)).for_each(|c| println!("  input  {}", c.1.line()));
            n += j.rows[&row];
        }
    }
    n
}

fn main() {
    let o = options();
    if let Some((turn, fault)) = o.turn {
        return hostile::turn(turn, fault, o.seed, o.rounds);
    }
    if o.make_answers {
        return make_answers(&o.oracle, o.seed);
    }
    let list = o.answers.as_ref().map_or(String::new(), |f| std::fs::read_to_string(f).expect("the kept answers"));
    if o.hostile && o.times == 0 {
        std::process::exit((hostile::run(o.seed, o.rounds) > 0) as i32);
    }
    if o.self_test {
        let good = self_test(&o, &list) & hostile::self_test(o.seed);
        println!("{}", if good { "self-test: every planted fault was caught" } else { "self-test FAILED" });
        std::process::exit(!good as i32);
    }
    let (start, mut failures, mut all) = (Instant::now(), 0, Judge::new(Plant::Nothing));
    let mut done = |what: &str, j: Judge| {
        j.report(&format!("[{:6.1} s] {what}", start.elapsed().as_secs_f64()));
        failures += j.failures;
        all.add(j);
    };
    println!("seed {}", o.seed);
    if o.oracle.is_there() {
        let mut j = Judge::new(Plant::Nothing);
        let n = documented(&mut j, &o.oracle);
        done(&format!("the {n} inputs of docs/DIFFERENCES.md"), j);
        let (mut j, mut other) = (Judge::new(Plant::Nothing), Judge::new(Plant::Nothing));
        files(&mut j, &mut other, &o.oracle, generate::file, o.seed, 40_000 * o.times);
        done(&format!("a. {} generated files", 40_000 * o.times), j);
        let mut j = Judge::new(Plant::Nothing);
        files(&mut j, &mut other, &o.oracle, generate::stray_file, o.seed ^ 0x57a1, 10_000 * o.times);
        done(&format!("   {} generated files with stray signatures", 10_000 * o.times), j);
        done("   EOIE and IEOT of these files", other);
        let mut j = Judge::new(Plant::Nothing);
        tables(&mut j, &o.oracle, o.seed, 25_000 * o.times);
        done(&format!("b. {} generated tables: order check and lookup", 25_000 * o.times), j);
        let mut j = Judge::new(Plant::Nothing);
        written(&mut j, &o.oracle, o.seed, 25_000 * o.times);
        done(&format!("   {} generated tables, written; as many with faults", 25_000 * o.times), j);
        let mut j = Judge::new(Plant::Nothing);
        parts(&mut j, &o.oracle, o.seed, o.times);
        done("c. parts: entry bound, IEOT, EOIE, TREE bodies, seven-bit numbers", j);
    }
    if let Some(folder) = &o.git {
        let mut j = Judge::new(Plant::Nothing);
        let n = installed_git(&mut j, &o.oracle, folder);
        done(&format!("d. {n} indexes of the installed git"), j);
    }
    let mut j = Judge::new(Plant::Nothing);
    let n = sizes(&mut j, o.seed, 1500 * o.times);
    done(&format!("e. {n} reads and writes with stores of chosen sizes, and SHA-1"), j);
    let mut j = Judge::new(Plant::Nothing);
    let n = replay(&mut j, &o.oracle, &list);
    done(&format!("f. {n} kept answers"), j);
    all.report("together");
    if let Some(f) = &o.differences {
        failures += not_listed(&all, &std::fs::read_to_string(f).expect("the list of differences"));
    }
    if o.hostile {
        failures += hostile::run(o.seed, o.rounds);
    }
    println!(
        "{}",
        if failures == 0 {
            "comparison by running: no unknown difference".to_string()
        } else {
            format!("comparison by running FAILED: {failures} failures")
        }
    );
    std::process::exit((failures > 0) as i32);
}
