//! Repositories built by the installed git, files put together by hand, and the command run over them.
#![allow(dead_code)]
use std::io::Write;
use std::path::{Path, PathBuf};
use std::process::{Command, Output, Stdio};

pub mod json;

/// A repository of its own, which reads no configuration of the user or the machine.
pub struct Repo {
    pub top: PathBuf,
}

/// A new, empty folder for a test.
pub fn folder(name: &str) -> PathBuf {
    let folder = Path::new(env!("CARGO_TARGET_TMPDIR")).join(name);
    let _ = std::fs::remove_dir_all(&folder);
    std::fs::create_dir_all(&folder).unwrap();
    folder
}

/// A command in a folder, with nothing of the caller's environment but the way to find programs.
pub fn clean(program: impl AsRef<std::ffi::OsStr>, folder: &Path) -> Command {
    let mut command = Command::new(program);
    command.current_dir(folder).env_clear();
    command.env("PATH", std::env::var_os("PATH").unwrap()).env("HOME", folder).env("LC_ALL", "C");
    command.env("GIT_CONFIG_GLOBAL", "/dev/null").env("GIT_CONFIG_NOSYSTEM", "1");
    command.env("GIT_CEILING_DIRECTORIES", env!("CARGO_TARGET_TMPDIR"));
    for who in ["AUTHOR", "COMMITTER"] {
        command.env(format!("GIT_{who}_NAME"), "reporter").env(format!("GIT_{who}_EMAIL"), "reporter@example.org");
        command.env(format!("GIT_{who}_DATE"), "1700000000 +0000");
    }
    command
}

/// Runs a command with this input.
pub fn run(mut command: Command, input: &[u8]) -> Output {
    let mut child = command.stdin(Stdio::piped()).stdout(Stdio::piped()).stderr(Stdio::piped()).spawn().unwrap();
    let (mut stdin, input) = (child.stdin.take().unwrap(), input.to_vec());
    let writer = std::thread::spawn(move || drop(stdin.write_all(&input)));
    let output = child.wait_with_output().unwrap();
    writer.join().unwrap();
    output
}

/// The command under test, in a folder.
pub fn sparrowpivot(folder: &Path) -> Command {
    clean(env!("CARGO_BIN_EXE_sparrowpivot"), folder)
}

/// What it writes over these bytes, as its standard input, with the exit status that is asked for.
pub fn over(words: &[&str], file: &[u8], status: i32) -> Output {
    let mut command = sparrowpivot(Path::new("."));
    command.args(words);
    let output = run(command, file);
    assert_eq!(output.status.code(), Some(status), "{words:?}: {output:?}");
    output
}

impl Repo {
    pub fn new(name: &str) -> Repo {
        let repo = Repo { top: folder(name) };
        repo.git(&["-c", "init.defaultBranch=main", "init", "-q"]);
        repo.git(&["config", "index.threads", "1"]);
        repo
    }

    /// What git writes; it must succeed.
    pub fn git(&self, words: &[&str]) -> Vec<u8> {
        self.git_with(words, b"")
    }

    pub fn git_with(&self, words: &[&str], input: &[u8]) -> Vec<u8> {
        let output = run(self.command(words), input);
        assert!(output.status.success(), "git {words:?}: {output:?}");
        output.stdout
    }

    pub fn command(&self, words: &[&str]) -> Command {
        let mut git = clean("git", &self.top);
        git.args(words);
        git
    }

    /// One line of what git writes.
    pub fn word(&self, words: &[&str], input: &[u8]) -> String {
        String::from_utf8(self.git_with(words, input)).unwrap().trim_end().into()
    }

    pub fn blob(&self, content: &str) -> String {
        self.word(&["hash-object", "-w", "--stdin"], content.as_bytes())
    }

    pub fn file(&self, path: &str, content: &str) {
        let path = self.top.join(path);
        std::fs::create_dir_all(path.parent().unwrap()).unwrap();
        std::fs::write(path, content).unwrap();
    }

    /// Adds entries of one object, without files.
    pub fn entries<'a>(&self, paths: impl Iterator<Item = &'a [u8]>) {
        let head = format!("100644 {} 0\t", self.blob("pear\n"));
        let lines: Vec<u8> = paths.flat_map(|path| [head.as_bytes(), path, b"\0"].concat()).collect();
        self.git_with(&["update-index", "--add", "-z", "--index-info"], &lines);
    }

    pub fn commit(&self, message: &str) {
        self.git(&["add", "."]);
        self.git(&["commit", "-q", "-m", message]);
    }

    pub fn index(&self) -> PathBuf {
        self.top.join(".git/index")
    }

    pub fn bytes(&self) -> Vec<u8> {
        std::fs::read(self.index()).unwrap()
    }

    /// What the command writes in this repository; it must succeed.
    pub fn ours(&self, words: &[&str]) -> Vec<u8> {
        let mut command = sparrowpivot(&self.top);
        command.args(words);
        let output = run(command, b"");
        assert!(output.status.success() && output.stderr.is_empty(), "{words:?}: {output:?}");
        output.stdout
    }
}

/// A small work tree with a commit.
pub fn committed(name: &str) -> Repo {
    let repo = Repo::new(name);
    for path in ["README", "day1/morning", "day1/noon", "day2/exhibit/pair", "day2/morning"] {
        repo.file(path, &format!("{path}\n").repeat(20));
    }
    std::os::unix::fs::symlink("exhibit/pair", repo.top.join("day2/link")).unwrap();
    repo.commit("first");
    repo
}

/// Two branches that quarrel: a line changed on both sides, a file changed here and gone there, a file made on both.
pub fn quarrel(name: &str) -> Repo {
    let repo = committed(name);
    repo.git(&["checkout", "-q", "-b", "other"]);
    repo.file("day1/noon", "theirs\n");
    repo.file("both", "theirs\n");
    repo.git(&["rm", "-q", "day2/morning"]);
    repo.commit("other");
    repo.git(&["checkout", "-q", "main"]);
    repo.file("day1/noon", "ours\n");
    repo.file("both", "ours\n");
    repo.file("day2/morning", "ours\n");
    repo.commit("main");
    assert!(!run(repo.command(&["merge", "-q", "other"]), b"").status.success());
    repo
}

/// A repository of 30,000 entries with TREE, EOIE and IEOT.
pub fn thirty_thousand(name: &str, version: &str) -> Repo {
    let repo = Repo::new(name);
    let path = |i: usize| format!("src/module-{:03}/component-{:02}/file-{i:05}.rs", i / 500, i / 50 % 10).into_bytes();
    let paths: Vec<Vec<u8>> = (0..30_000).map(path).collect();
    repo.entries(paths.iter().map(Vec::as_slice));
    repo.git(&["config", "index.threads", "4"]);
    repo.git(&["config", "index.version", version]);
    let tree = repo.word(&["write-tree"], b"");
    repo.git(&["read-tree", &tree]);
    repo
}

/// A file put together by hand: header, what follows it, and a trailer of zeros.
pub fn file(version: u32, count: u32, parts: &[&[u8]]) -> Vec<u8> {
    let head = [b"DIRC".as_slice(), &version.to_be_bytes(), &count.to_be_bytes()].concat();
    [head.as_slice(), &parts.concat(), &[0; 20]].concat()
}

/// An entry of version 2 or 3, of mode 100644.
pub fn entry(path: &[u8]) -> Vec<u8> {
    let mut bytes = fixed(path.len() as u16);
    bytes.extend(path);
    bytes.resize((bytes.len() / 8 + 1) * 8, 0);
    bytes
}

/// An entry of version 4: how much of the previous path is dropped, below 128, and what follows the rest.
pub fn entry4(strip: u8, suffix: &[u8]) -> Vec<u8> {
    [fixed(0).as_slice(), &[strip], suffix, b"\0"].concat()
}

fn fixed(flags: u16) -> Vec<u8> {
    [[0; 24].as_slice(), &0o100644u32.to_be_bytes(), &[0; 32], &flags.to_be_bytes()].concat()
}

pub fn extension(signature: &[u8; 4], body: &[u8]) -> Vec<u8> {
    [signature.as_slice(), &(body.len() as u32).to_be_bytes(), body].concat()
}
