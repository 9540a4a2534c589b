//! The command line: exit statuses, where the index is found, and how output and files are written.
mod common;
use common::{committed, entry, extension, file, folder, json, over, quarrel, run, sparrowpivot, Repo};
use std::fs;
use std::os::unix::fs::PermissionsExt;
use std::path::Path;
use std::process::{Output, Stdio};

const QUARREL: &str = concat!(env!("CARGO_MANIFEST_DIR"), "/tests/data/quarrel.index");
const SETTLED: &str = concat!(env!("CARGO_MANIFEST_DIR"), "/tests/data/settled.index");

/// Runs the command in a folder, and asks for an exit status.
fn ends(folder: &Path, words: &[&str], status: i32) -> Output {
    let mut command = sparrowpivot(folder);
    command.args(words);
    let output = run(command, b"");
    assert_eq!(output.status.code(), Some(status), "{words:?}: {output:?}");
    output
}

/// A fault is told on standard error, in words that begin with the program's name, and nothing is written.
fn tells(folder: &Path, words: &[&str], status: i32, told: &str) {
    let output = ends(folder, words, status);
    let said = String::from_utf8(output.stderr).unwrap();
    assert!(said.starts_with("sparrowpivot: ") && said.contains(told), "{words:?}: {said}");
    assert!(output.stdout.is_empty(), "{words:?}");
}

#[test]
fn wrong_usage_is_status_2() {
    let here = folder("usage");
    for (words, told) in [
        (vec![], "a command is missing"),
        (vec!["lst"], "there is no command lst"),
        (vec!["list", "--stage", "1"], "list has no option --stage"),
        (vec!["check", "-z"], "check has no option -z"),
        (vec!["rewrite", "--json", "out"], "rewrite has no option --json"),
        (vec!["list", "-z", "--json"], "exclude each other"),
        (vec!["list", "-z=1"], "-z takes no value"),
        (vec!["list", QUARREL, QUARREL], "is one word too many"),
        (vec!["find"], "find asks for PATH"),
        (vec!["find", "a", QUARREL, "b"], "b is one word too many"),
        (vec!["find", "a", "--stage"], "--stage asks for a number"),
        (vec!["find", "a", "--stage", "two"], "--stage asks for a number, not two"),
        (vec!["find", "a", "--stage", "-1"], "--stage asks for a number, not -1"),
        (vec!["rewrite"], "rewrite asks for OUT"),
    ] {
        tells(&here, &words, 2, told);
    }
}

#[test]
fn refused_and_not_found_are_status_1() {
    let here = folder("refused");
    fs::write(here.join("short"), b"DIRC").unwrap();
    for (words, told) in [
        (vec!["list", "absent"], "absent: No such file"),
        (vec!["list", "."], ".: "),
        (vec!["list", "short"], "short: refused 1: the file has under 32 bytes"),
        (vec!["find", "exhibit", QUARREL], "there is no exhibit\n"),
        (vec!["find", "README", "--stage", "1", QUARREL], "there is no README at stage 1\n"),
        (vec!["find", "README", "--stage", "4", QUARREL], "refused 11: there is no stage above 3"),
        (vec!["list"], "there is no Git repository here or above"),
    ] {
        tells(&here, &words, 1, told);
    }
}

#[test]
fn done_is_status_0() {
    let here = folder("done");
    for words in [vec!["list", QUARREL], vec!["find", "README", QUARREL], vec!["tree", SETTLED], vec!["check", SETTLED]]
    {
        let output = ends(&here, &words, 0);
        assert!(!output.stdout.is_empty() && output.stderr.is_empty(), "{words:?}");
    }
    assert!(ends(&here, &["tree", QUARREL], 0).stdout.is_empty());
    assert_eq!(ends(&here, &["tree", "--json", QUARREL], 0).stdout, b"[]\n");
}

#[test]
fn help_and_version() {
    let here = folder("help");
    let help = String::from_utf8(ends(&here, &["--help"], 0).stdout).unwrap();
    assert_eq!(ends(&here, &["-h"], 0).stdout, help.as_bytes());
    assert_eq!(ends(&here, &["list", "--help"], 0).stdout, help.as_bytes());
    let version = format!("sparrowpivot {}\n", env!("CARGO_PKG_VERSION"));
    assert_eq!(ends(&here, &["--version"], 0).stdout, version.as_bytes());
    let page = fs::read_to_string("sparrowpivot.1").unwrap().replace("\\-", "-").replace("\\(ga", "`");
    for word in
        ["list", "find", "tree", "check", "rewrite", "-z", "--json", "--stage", "--no-tree", "--zero-trailer", "--drop"]
    {
        assert!(help.contains(&format!(" {word}")) && page.contains(word), "{word}");
    }
    assert!(help.lines().all(|line| line.len() < 80));
}

/// A path that begins with a dash follows `--`, and one called `-` is not standard input.
#[test]
fn operands_that_look_like_options() {
    let bytes = file(2, 2, &[&entry(b"-"), &entry(b"-z")]);
    assert!(over(&["find", "-", "-"], &bytes, 0).stdout.ends_with(b"\t-\n"));
    assert!(over(&["find", "--", "-z", "-"], &bytes, 0).stdout.ends_with(b"\t-z\n"));
    over(&["find", "-z", "-"], &bytes, 1);
}

#[test]
fn standard_input_and_files_are_alike() {
    let bytes = fs::read(QUARREL).unwrap();
    let named = ends(Path::new("."), &["list", QUARREL], 0).stdout;
    assert_eq!(over(&["list", "-"], &bytes, 0).stdout, named);
    let said = over(&["list", "-"], b"", 1).stderr;
    assert_eq!(said, b"sparrowpivot: standard input: refused 1: the file has under 32 bytes\n");
}

#[test]
fn the_nearest_index_is_found() {
    let repo = committed("nearest");
    let all = repo.git(&["ls-files", "--stage"]);
    for below in ["", "day2", "day2/exhibit", ".git"] {
        assert_eq!(ends(&repo.top.join(below), &["list"], 0).stdout, all, "{below}");
    }
    // a folder .git that is no repository is passed over, as git does
    fs::create_dir_all(repo.top.join("day1/.git")).unwrap();
    assert_eq!(ends(&repo.top.join("day1"), &["list"], 0).stdout, all);
    // a file .git that points nowhere is not
    fs::write(repo.top.join("day2/.git"), "nowhere\n").unwrap();
    tells(&repo.top.join("day2"), &["list"], 1, "no line `gitdir: FOLDER`");
}

#[test]
fn work_trees_and_submodules_have_their_own() {
    let repo = committed("worktrees");
    repo.git(&["worktree", "add", "-q", "--detach", "further"]);
    repo.git(&["-C", "further", "rm", "-q", "README"]);
    let listed = repo.git(&["-C", "further", "ls-files", "--stage"]);
    assert!(listed != repo.git(&["ls-files", "--stage"]));
    assert_eq!(ends(&repo.top.join("further/day1"), &["list"], 0).stdout, listed);

    let from = repo.top.to_str().unwrap();
    let above = Repo::new("above");
    above.git(&["-c", "protocol.file.allow=always", "submodule", "--quiet", "add", from, "module"]);
    let module = above.top.join("module");
    assert!(module.join(".git").is_file());
    assert_eq!(ends(&module.join("day2"), &["list"], 0).stdout, repo.git(&["ls-files", "--stage"]));
    assert_eq!(ends(&above.top, &["list"], 0).stdout, above.git(&["ls-files", "--stage"]));
    let mut command = sparrowpivot(&above.top);
    command.arg("list").env("GIT_DIR", "module/.git");
    assert_eq!(run(command, b"").stdout, repo.git(&["ls-files", "--stage"]));
}

/// GIT_INDEX_FILE and GIT_DIR do what they do for git, even from below the top.
#[test]
fn variables_name_the_index() {
    let repo = committed("variables");
    fs::copy(QUARREL, repo.top.join("other.index")).unwrap();
    let absolute = repo.top.join("other.index");
    let git_dir = repo.index().parent().unwrap().to_path_buf();
    let below = repo.top.join("day2");
    for (variable, value) in [
        ("GIT_INDEX_FILE", Path::new("other.index")),
        ("GIT_INDEX_FILE", &absolute),
        ("GIT_DIR", &git_dir),
        ("GIT_DIR", Path::new("../.git")),
    ] {
        let mut git = repo.command(&["ls-files", "--stage", "--full-name", ":/"]);
        let mut ours = sparrowpivot(&below);
        ours.arg("list").env(variable, value);
        git.current_dir(&below).env(variable, value);
        if variable == "GIT_DIR" {
            git.env("GIT_WORK_TREE", &repo.top);
        }
        let (git, ours) = (run(git, b""), run(ours, b""));
        assert!(git.status.success() && !git.stdout.is_empty(), "{git:?}");
        assert_eq!(ours.stdout, git.stdout, "{variable}={value:?}");
    }
}

/// The reader of the output may stop early: that is no fault, and nothing is said about it.
#[test]
fn a_broken_pipe_is_quiet() {
    let entries: Vec<u8> = (0..5000).flat_map(|i| entry(format!("{i:04}").as_bytes())).collect();
    let path = folder("pipe").join("index");
    fs::write(&path, file(2, 5000, &[&entries])).unwrap();
    let mut command = sparrowpivot(Path::new("."));
    command.arg("list").arg(&path).stdout(Stdio::piped()).stderr(Stdio::piped());
    let mut child = command.spawn().unwrap();
    drop(child.stdout.take());
    let output = child.wait_with_output().unwrap();
    assert!(output.status.success() && output.stderr.is_empty(), "{output:?}");
}

#[test]
fn an_output_that_cannot_be_written_is_told() {
    let mut command = sparrowpivot(Path::new("."));
    command.args(["list", QUARREL]).stdout(fs::OpenOptions::new().write(true).open("/dev/full").unwrap());
    let output = command.stderr(Stdio::piped()).spawn().unwrap().wait_with_output().unwrap();
    assert_eq!(output.status.code(), Some(1));
    assert!(output.stderr.starts_with(b"sparrowpivot: standard output: "), "{output:?}");
}

#[test]
fn what_check_says() {
    let said = |bytes: &[u8], status| String::from_utf8(over(&["check", "-"], bytes, status).stdout).unwrap();
    let tree = |body: &[u8]| extension(b"TREE", body);
    let counted = [b"\x002 0\n".as_slice(), &[7; 20]].concat();
    assert_eq!(
        said(&fs::read(SETTLED).unwrap(), 0),
        "file: version 2, 2 entries\ntrailer: the SHA-1 of the rest\norder: each entry is after the one before\ntree: 2 folders, 0 out of date\n"
    );
    assert_eq!(
        said(&file(2, 2, &[&entry(b"b"), &entry(b"a\n"), &tree(b"\0-1 0\n")]), 1),
        "file: version 2, 2 entries\ntrailer: zeros, nothing was hashed\norder: refused 13: entry 1 (counted from 0) is not after the one before: \"a\\n\"\ntree: 1 folder, 1 out of date\n"
    );
    assert!(said(&file(2, 0, &[]), 0).ends_with("tree: none\n"));
    assert!(said(&file(2, 0, &[&tree(b"x")]), 1).ends_with("tree: malformed, and read as none\n"));
    assert!(said(&file(2, 1, &[&entry(b"a"), &tree(&counted)]), 1)
        .ends_with("tree: the count of entries below \"\" is 2 in the tree, and 1 in the index\n"));
    assert!(said(&file(2, 2, &[&entry(b"a"), &entry(b"b"), &tree(&counted)]), 0)
        .ends_with("tree: 1 folder, 0 out of date\n"));
}

#[test]
fn what_check_says_to_programs() {
    let object = |bytes: &[u8], status| json::parse(&over(&["check", "--json", "-"], bytes, status).stdout);
    let sound = object(&fs::read(QUARREL).unwrap(), 0);
    assert_eq!((sound.at("sound"), sound.at("entries").number()), (&json::Json::Bool(true), 4));
    assert_eq!((sound.at("trailer").text(), sound.at("order_fault")), ("sha1", &json::Json::Null));
    let twice = object(&file(2, 2, &[&entry(b"a"), &entry(b"a")]), 1);
    assert_eq!((twice.at("sound"), twice.at("trailer").text()), (&json::Json::Bool(false), "zeros"));
    assert!(twice.at("order_fault").text().starts_with("refused 13: entry 1 "));
    let malformed = object(&file(2, 0, &[&extension(b"TREE", b"x")]), 1);
    assert_eq!(malformed.at("tree_fault").text(), "malformed, and read as none");
}

/// In a table that is out of order a search could miss an entry, so none is made.
#[test]
fn nothing_is_found_out_of_order() {
    let bytes = file(2, 3, &[&entry(b"c"), &entry(b"b"), &entry(b"a")]);
    let output = over(&["find", "b", "-"], &bytes, 1);
    assert!(String::from_utf8(output.stderr).unwrap().contains("refused 13: entry 1 "));
}

#[test]
fn rewriting_replaces_the_file_whole() {
    let repo = quarrel("rewrite");
    let (index, lock) = (repo.index(), repo.top.join(".git/index.lock"));
    let before = repo.git(&["ls-files", "--stage"]);
    let old = repo.bytes();
    fs::set_permissions(&index, fs::Permissions::from_mode(0o600)).unwrap();
    fs::write(&lock, "").unwrap();
    tells(&repo.top, &["rewrite", ".git/index"], 1, "index.lock is there: another program is at work on it");
    assert!(repo.bytes() == old && lock.exists());
    fs::remove_file(&lock).unwrap();
    repo.ours(&["rewrite", "--zero-trailer", ".git/index"]);
    assert!(repo.bytes().ends_with(&[0; 20]) && !lock.exists());
    assert_eq!(fs::metadata(&index).unwrap().permissions().mode() & 0o777, 0o600);
    assert_eq!(repo.git(&["ls-files", "--stage"]), before);
    tells(&repo.top, &["rewrite", "absent/out"], 1, "absent/out.lock: ");
}

#[test]
fn rewriting_follows_a_link_and_writes_to_standard_output() {
    let here = folder("link");
    fs::copy(QUARREL, here.join("real")).unwrap();
    std::os::unix::fs::symlink("real", here.join("link")).unwrap();
    ends(&here, &["rewrite", "link", QUARREL], 0);
    assert!(fs::symlink_metadata(here.join("link")).unwrap().is_symlink());
    let written = ends(&here, &["rewrite", "-", QUARREL], 0).stdout;
    assert!(written == fs::read(here.join("real")).unwrap() && !here.join("-").exists());
    // git wrote it, and there was nothing but entries in it
    assert!(written == fs::read(QUARREL).unwrap());
}

#[test]
fn rewriting_loses_nothing_unasked() {
    let here = folder("lost");
    tells(&here, &["rewrite", "out", SETTLED], 1, "REUC would be lost: say --drop to rewrite without");
    assert!(!here.join("out").exists() && !here.join("out.lock").exists());
    ends(&here, &["rewrite", "--drop", "out", SETTLED], 0);
    assert_eq!(ends(&here, &["tree", "out"], 0).stdout, ends(&here, &["tree", SETTLED], 0).stdout);
    ends(&here, &["rewrite", "--no-tree", "bare", "out"], 0);
    assert!(ends(&here, &["tree", "bare"], 0).stdout.is_empty());
    assert_eq!(ends(&here, &["list", "bare"], 0).stdout, ends(&here, &["list", SETTLED], 0).stdout);
}
