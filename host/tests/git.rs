//! What the command says of repositories, held against what git says.
mod common;
use common::{committed, json, quarrel, run, sparrowpivot as command, thirty_thousand, Repo};
use sparrowpivot::Index;

/// Lists, finds and rewrites the index of a repository, and compares each with git.
fn same_as_git(repo: &Repo) {
    let plain = repo.git(&["ls-files", "--sparse", "--stage"]);
    let nul = repo.git(&["ls-files", "--sparse", "--stage", "-z"]);
    assert!(repo.ours(&["list"]) == plain, "list of {:?}", repo.top);
    assert!(repo.ours(&["list", "-z"]) == nul, "list -z of {:?}", repo.top);
    assert!(listed(&repo.ours(&["list", "--json"])) == nul, "list --json of {:?}", repo.top);
    assert_eq!(stat_of(repo), git_stat_of(repo));
    repo.ours(&["check"]);
    found(repo, &nul);
    rewritten(repo, &nul);
}

/// The lines of `list -z`, from those of `list --json`.
fn listed(text: &[u8]) -> Vec<u8> {
    let line = |entry: &json::Json| {
        let (mode, id, stage) = (entry.at("mode").text(), entry.at("id").text(), entry.at("stage").number());
        [format!("{mode} {id} {stage}\t").as_bytes(), &entry.bytes("path"), b"\0"].concat()
    };
    json::parse(text).items().iter().flat_map(line).collect()
}

/// The stat data and flags of each entry, as the command gives them.
fn stat_of(repo: &Repo) -> Vec<Vec<u64>> {
    let number = |entry: &json::Json, name: &str| entry.at(name).number();
    let row = |entry: &json::Json| {
        let times = ["ctime", "mtime"].iter().flat_map(|time| entry.at(time).items().iter().map(json::Json::number));
        let rest = ["dev", "ino", "uid", "gid", "size"].iter().map(|name| number(entry, name));
        times.chain(rest).collect()
    };
    json::parse(&repo.ours(&["list", "--json"])).items().iter().map(row).collect()
}

/// The same by `git ls-files --debug`, which prints `name: number` for each.
fn git_stat_of(repo: &Repo) -> Vec<Vec<u64>> {
    let text = repo.git(&["ls-files", "--sparse", "--debug"]);
    let text = String::from_utf8_lossy(&text);
    let mut rows: Vec<Vec<u64>> = Vec::new();
    for line in text.lines().filter(|line| line.starts_with("  ")) {
        if line.starts_with("  ctime") {
            rows.push(Vec::new());
        }
        let words = line.split(['\t', ' ', ':']).filter_map(|word| word.parse::<u64>().ok());
        let last = rows.last_mut().unwrap();
        // flags are hexadecimal, and compared through what they do
        last.extend(words.take(if line.starts_with("  size") { 1 } else { 2 }));
    }
    rows
}

/// Finds each of some entries by path and stage.
fn found(repo: &Repo, nul: &[u8]) {
    let lines: Vec<&[u8]> = nul.split_inclusive(|byte| *byte == 0).collect();
    for line in lines.iter().step_by(1 + lines.len() / 20) {
        let tab = line.iter().position(|byte| *byte == b'\t').unwrap();
        let (stage, path) = (char::from(line[tab - 1]).to_string(), &line[tab + 1..line.len() - 1]);
        let mut command = command(&repo.top);
        command.args(["find", "-z", "--stage", &stage, "--"]);
        command.arg(<std::ffi::OsStr as std::os::unix::ffi::OsStrExt>::from_bytes(path));
        let output = run(command, b"");
        assert!(output.status.success() && output.stdout == *line, "{output:?}");
    }
}

/// Rewrites the index, and lets git list what was written.
fn rewritten(repo: &Repo, nul: &[u8]) {
    repo.ours(&["rewrite", "--drop", "anew"]);
    let mut git = repo.command(&["ls-files", "--sparse", "--stage", "-z"]);
    git.env("GIT_INDEX_FILE", repo.top.join("anew"));
    let output = run(git, b"");
    assert!(output.status.success() && output.stdout == nul, "rewrite of {:?}: {:?}", repo.top, output.stderr);
    let (old, new) = (repo.ours(&["list", "--json"]), repo.ours(&["list", "--json", "anew"]));
    assert!(old == new, "stat data and flags of {:?}", repo.top);
    assert_eq!(sorted(&repo.ours(&["tree"])), sorted(&repo.ours(&["tree", "anew"])));
    repo.ours(&["check", "anew"]);
    let (old, new) = (Index::open(repo.index()).unwrap(), Index::open(repo.top.join("anew")).unwrap());
    assert_eq!(old.end_of_entries().is_some(), new.end_of_entries().is_some(), "EOIE of {:?}", repo.top);
}

/// The lines of a text in order: the tree is written in another order of folders than git's.
fn sorted(text: &[u8]) -> Vec<&[u8]> {
    let mut lines: Vec<&[u8]> = text.split(|byte| *byte == b'\n').collect();
    lines.sort();
    lines
}

#[test]
fn an_empty_index() {
    let repo = Repo::new("empty");
    repo.git(&["read-tree", "--empty"]);
    same_as_git(&repo);
    assert_eq!(repo.ours(&["list", "--json"]), b"[]\n");
}

#[test]
fn a_commit_in_each_version() {
    let repo = committed("versions");
    for version in ["2", "4"] {
        repo.git(&["update-index", "--index-version", version]);
        same_as_git(&repo);
        assert_eq!(repo.bytes()[7].to_string(), version);
    }
}

#[test]
fn flags_of_version_three() {
    let repo = committed("flags");
    repo.file("new", "new\n");
    repo.git(&["add", "-N", "new"]);
    repo.git(&["update-index", "--skip-worktree", "day1/noon"]);
    repo.git(&["update-index", "--assume-unchanged", "README"]);
    assert_eq!(repo.bytes()[7], 3);
    same_as_git(&repo);
    for (path, flag) in [("new", "intent_to_add"), ("day1/noon", "skip_worktree"), ("README", "assume_valid")] {
        let set = |entry: &json::Json| entry.at(flag) == &json::Json::Bool(true);
        let all = json::parse(&repo.ours(&["list", "--json"]));
        let marked: Vec<Vec<u8>> =
            all.items().iter().filter(|entry| set(entry)).map(|entry| entry.bytes("path")).collect();
        assert_eq!(marked, [path.as_bytes()], "{flag}");
    }
}

#[test]
fn a_quarrel() {
    for (name, version) in [("quarrel-2", "2"), ("quarrel-4", "4")] {
        let repo = quarrel(name);
        repo.git(&["update-index", "--index-version", version]);
        same_as_git(&repo);
        let lines = repo.git(&["ls-files", "--stage", "day1/noon"]);
        assert_eq!(lines.iter().filter(|byte| **byte == b'\n').count(), 3);
        assert_eq!(repo.ours(&["find", "day1/noon"]), lines);
        let ours = repo.ours(&["find", "--stage=2", "day1/noon"]);
        assert!(String::from_utf8(ours).unwrap().contains(&repo.blob("ours\n")));
    }
}

#[test]
fn renames_on_both_sides() {
    let repo = committed("renames");
    repo.git(&["checkout", "-q", "-b", "other"]);
    repo.git(&["mv", "day1/noon", "day1/evening"]);
    repo.commit("other");
    repo.git(&["checkout", "-q", "main"]);
    repo.git(&["mv", "day1/noon", "day1/night"]);
    repo.commit("main");
    assert!(!run(repo.command(&["merge", "-q", "other"]), b"").status.success());
    same_as_git(&repo);
    let stages = |path| {
        String::from_utf8(repo.ours(&["find", path])).unwrap().split(' ').nth(2).map(|rest| rest[..1].to_string())
    };
    assert_eq!(
        ["day1/noon", "day1/night", "day1/evening"].map(stages),
        ["1", "2", "3"].map(|stage| Some(stage.into()))
    );
}

#[test]
fn paths_of_all_bytes() {
    let mut paths: Vec<Vec<u8>> = (1..=255u8).filter(|byte| *byte != b'/').map(|byte| vec![b'x', byte, b'y']).collect();
    paths.extend(
        ["caf\u{e9}/\u{540d}", "- a dash", "\"quoted\"\\back", "...", "a ", "%s", " "]
            .map(|path| path.as_bytes().to_vec()),
    );
    paths.push(b"\x80\xfe\xff".to_vec());
    for (name, version) in [("odd-2", "2"), ("odd-4", "4")] {
        let repo = Repo::new(name);
        repo.entries(paths.iter().map(Vec::as_slice));
        repo.git(&["update-index", "--index-version", version]);
        same_as_git(&repo);
        assert!(String::from_utf8(repo.ours(&["list"])).unwrap().contains("\t\"caf\\303\\251/\\345\\220\\215\"\n"));
    }
}

#[test]
fn long_paths() {
    for (name, version) in [("long-2", "2"), ("long-4", "4")] {
        let repo = Repo::new(name);
        let paths: Vec<Vec<u8>> =
            [4094, 4095, 4096, 5000].iter().map(|n| [vec![b'a'; *n], b"/b".to_vec()].concat()).collect();
        repo.entries(paths.iter().map(Vec::as_slice));
        repo.entries([b"b".as_slice()].into_iter());
        repo.git(&["update-index", "--index-version", version]);
        same_as_git(&repo);
    }
}

#[test]
fn a_sparse_index() {
    let repo = committed("sparse");
    repo.git(&["sparse-checkout", "init", "--cone", "--sparse-index"]);
    repo.git(&["sparse-checkout", "set", "day2"]);
    same_as_git(&repo);
    let lines = String::from_utf8(repo.ours(&["list"])).unwrap();
    assert!(lines.contains("040000 ") && lines.contains("\tday1/\n"), "{lines}");
    assert!(String::from_utf8(repo.ours(&["check"])).unwrap().contains("entries, sparse\n"));
}

#[test]
fn thirty_thousand_entries() {
    for version in ["2", "4"] {
        let repo = thirty_thousand(&format!("large-{version}"), version);
        same_as_git(&repo);
        let index = Index::open(repo.index()).unwrap();
        let signatures: Vec<[u8; 4]> = index.extensions().unwrap().map(|extension| extension.signature).collect();
        assert_eq!(signatures, [*b"IEOT", *b"TREE", *b"EOIE"]);
        assert_eq!(repo.ours(&["list"]).iter().filter(|byte| **byte == b'\n').count(), 30_000);
        let timed = || {
            let started = std::time::Instant::now();
            repo.ours(&["list"]);
            started.elapsed().as_millis()
        };
        // the best of three, as the machine may be busy
        assert!((0..3).map(|_| timed()).min() < Some(1000));
        assert_eq!(repo.bytes()[7].to_string(), version);
    }
}

/// Each folder of the tree has the id that git gives it, and those that were touched have none.
#[test]
fn the_tree() {
    let repo = committed("tree");
    let lines = String::from_utf8(repo.ours(&["tree"])).unwrap();
    let mut ours: Vec<String> =
        lines.lines().map(|line| format!("{} {}", &line[..40], line.split('\t').nth(1).unwrap())).collect();
    let listed =
        String::from_utf8(repo.git(&["ls-tree", "-r", "-d", "-t", "HEAD", "--format=%(objectname) %(path)/"])).unwrap();
    let mut git: Vec<String> = listed.lines().map(str::to_string).collect();
    git.push(format!("{} /", repo.word(&["rev-parse", "HEAD^{tree}"], b"")));
    ours.sort();
    git.sort();
    assert_eq!(ours, git);
    assert!(lines.contains(" 6 2\t/\n") && lines.contains(" 3 1\tday2/\n"), "{lines}");
    assert_eq!(tree_by_json(&repo), lines);

    repo.file("day2/exhibit/pair", "changed\n");
    repo.git(&["add", "day2/exhibit/pair"]);
    let lines = String::from_utf8(repo.ours(&["tree"])).unwrap();
    assert!(
        lines.contains("- - 2\t/\n") && lines.contains("- - 0\tday2/exhibit/\n") && lines.contains(" 2 0\tday1/\n"),
        "{lines}"
    );
    assert!(String::from_utf8(repo.ours(&["check"])).unwrap().contains("tree: 4 folders, 3 out of date\n"));
    assert_eq!(tree_by_json(&repo), lines);
}

/// The lines of `tree`, from those of `tree --json`.
fn tree_by_json(repo: &Repo) -> String {
    let all = json::parse(&repo.ours(&["tree", "--json"]));
    let line = |node: &json::Json| {
        let path = String::from_utf8(node.bytes("path")).unwrap();
        let (entries, id) = match node.at("id") {
            json::Json::Null => ("-".into(), "-"),
            id => (node.at("entries").number().to_string(), id.text()),
        };
        let above = match node.at("parent") {
            json::Json::Null => String::new(),
            parent => String::from_utf8(all.items()[parent.number() as usize].bytes("path")).unwrap(),
        };
        assert!(path.starts_with(&above));
        format!("{id} {entries} {}\t{path}/\n", node.at("subtrees").number())
    };
    all.items().iter().map(line).collect()
}

/// The files over which the examples of the crate are run are those that git makes.
#[test]
fn the_examples() {
    let repo = Repo::new("examples");
    let ids = ["pair\n", "the pair of exhibits\n", "pare\n", "pear\n"].map(|content| repo.blob(content));
    let path = "exhibit/transcript";
    let lines = format!(
        "100644 {} 0\tREADME\n100644 {} 1\t{path}\n100644 {} 2\t{path}\n100644 {} 3\t{path}\n",
        ids[1], ids[0], ids[2], ids[3]
    );
    repo.git_with(&["update-index", "--index-info"], lines.as_bytes());
    kept("quarrel.index", &repo.bytes());
    repo.git(&["update-index", "--cacheinfo", &format!("100644,{},{path}", ids[2])]);
    repo.git(&["write-tree"]);
    kept("settled.index", &repo.bytes());
}

/// Compares with the file that is kept. Where it is not there, it is made.
fn kept(name: &str, bytes: &[u8]) {
    let path = std::path::Path::new("tests/data").join(name);
    if !path.exists() {
        std::fs::write(&path, bytes).unwrap();
        panic!("{path:?} was not there and is made");
    }
    assert!(std::fs::read(&path).unwrap() == bytes, "{path:?}");
}
