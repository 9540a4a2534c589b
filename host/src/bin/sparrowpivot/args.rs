//! What the command line asks for.
use std::ffi::{OsStr, OsString};
use std::os::unix::ffi::{OsStrExt, OsStringExt};

/// What is to be done.
#[derive(Debug, PartialEq)]
pub enum Request {
    Help,
    Version,
    /// A command over an index: the file that is named, or the one that is found.
    Run(Action, Form, Option<OsString>),
}

/// A command with its own operands.
#[derive(Debug, PartialEq)]
pub enum Action {
    List,
    Find { path: Vec<u8>, stage: Option<u32> },
    Tree,
    Check,
    Rewrite { out: OsString, tree: bool, zero_trailer: bool, drop: bool },
}

/// In which form entries and nodes are given.
#[derive(Clone, Copy, Debug, PartialEq)]
pub enum Form {
    Lines,
    Nul,
    Json,
}

/// Why the command line cannot be followed.
#[derive(Debug, PartialEq)]
pub struct Usage(pub String);

/// A command's name, the operand it asks for, and its options.
struct Command {
    name: &'static str,
    operand: Option<&'static str>,
    options: &'static [&'static str],
}

const COMMANDS: [Command; 5] = [
    Command { name: "list", operand: None, options: &["-z", "--json"] },
    Command { name: "find", operand: Some("PATH"), options: &["-z", "--json", "--stage"] },
    Command { name: "tree", operand: None, options: &["-z", "--json"] },
    Command { name: "check", operand: None, options: &["--json"] },
    Command { name: "rewrite", operand: Some("OUT"), options: &["--no-tree", "--zero-trailer", "--drop"] },
];

/// The words after a command's name, sorted out.
#[derive(Default)]
struct Words {
    options: Vec<&'static str>,
    stage: Option<u32>,
    operands: std::collections::VecDeque<OsString>,
    help: bool,
}

/// Reads the command line, without the program's name.
pub fn parse(mut words: impl Iterator<Item = OsString>) -> Result<Request, Usage> {
    let first = words.next().ok_or_else(|| Usage("a command is missing".into()))?;
    match first.as_bytes() {
        b"-h" | b"--help" => return Ok(Request::Help),
        b"--version" => return Ok(Request::Version),
        _ => (),
    }
    let known = COMMANDS.iter().find(|command| first == command.name);
    let command = known.ok_or_else(|| Usage(format!("there is no command {}", first.to_string_lossy())))?;
    let sorted = sort(command, words)?;
    if sorted.help {
        return Ok(Request::Help);
    }
    request(command, sorted)
}

/// Tells options and operands apart.
fn sort(command: &Command, mut words: impl Iterator<Item = OsString>) -> Result<Words, Usage> {
    let mut sorted = Words::default();
    while let Some(word) = words.next() {
        match word.as_bytes() {
            b"--" => sorted.operands.extend(words.by_ref()),
            b"-h" | b"--help" => sorted.help = true,
            [b'-', _, ..] => option(command, &word, &mut words, &mut sorted)?,
            _ => sorted.operands.push_back(word),
        }
    }
    Ok(sorted)
}

/// Takes one option, and the word after it if that is its value.
fn option(
    command: &Command,
    word: &OsStr,
    words: &mut impl Iterator<Item = OsString>,
    sorted: &mut Words,
) -> Result<(), Usage> {
    let text = word.to_string_lossy();
    let (name, value) = match text.split_once('=') {
        Some((name, value)) => (name, Some(value.to_owned())),
        None => (text.as_ref(), None),
    };
    let known = command.options.iter().find(|option| **option == name);
    let option = known.ok_or_else(|| Usage(format!("{} has no option {name}", command.name)))?;
    if *option == "--stage" {
        let value = value.or_else(|| words.next().map(|next| next.to_string_lossy().into_owned()));
        let number = value.ok_or_else(|| Usage("--stage asks for a number".into()))?;
        sorted.stage = Some(number.parse().map_err(|_| Usage(format!("--stage asks for a number, not {number}")))?);
    } else if value.is_some() {
        return Err(Usage(format!("{option} takes no value")));
    }
    sorted.options.push(option);
    Ok(())
}

/// The request that a command's words make. FILE is the last operand of every command.
fn request(command: &Command, mut sorted: Words) -> Result<Request, Usage> {
    let has = |option| sorted.options.contains(&option);
    let form = match (has("-z"), has("--json")) {
        (true, true) => return Err(Usage("-z and --json exclude each other".into())),
        (true, false) => Form::Nul,
        (false, true) => Form::Json,
        (false, false) => Form::Lines,
    };
    let (tree, zero_trailer, drop) = (!has("--no-tree"), has("--zero-trailer"), has("--drop"));
    let operand = match command.operand {
        None => OsString::new(),
        Some(name) => {
            let given = sorted.operands.pop_front();
            given.ok_or_else(|| Usage(format!("{} asks for {name}", command.name)))?
        }
    };
    let action = match command.name {
        "list" => Action::List,
        "find" => Action::Find { path: operand.into_vec(), stage: sorted.stage },
        "tree" => Action::Tree,
        "check" => Action::Check,
        _ => Action::Rewrite { out: operand, tree, zero_trailer, drop },
    };
    let file = sorted.operands.pop_front();
    if let Some(over) = sorted.operands.pop_front() {
        return Err(Usage(format!("{} is one word too many", over.to_string_lossy())));
    }
    Ok(Request::Run(action, form, file))
}
