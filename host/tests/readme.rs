//! The commands that the readme files show are run, and must print what is shown.
mod common;
use common::{clean, folder, run};
use std::path::Path;

/// The commands of the blocks marked `console`, each with what it prints.
fn shown(text: &str) -> Vec<(String, String)> {
    let blocks = text.split("```console\n").skip(1).filter_map(|rest| rest.split("```").next());
    let mut commands: Vec<(String, String)> = Vec::new();
    for line in blocks.flat_map(str::lines) {
        match line.strip_prefix("$ ") {
            Some(command) => commands.push((command.into(), String::new())),
            None => commands.last_mut().unwrap().1.push_str(&format!("{line}\n")),
        }
    }
    commands
}

/// Runs them one after the other in one shell, in a new folder.
fn printed(name: &str, commands: &[(String, String)]) -> Vec<String> {
    let here = folder(name);
    let program = Path::new(env!("CARGO_BIN_EXE_sparrowpivot")).parent().unwrap();
    let path = std::env::join_paths(
        [program.into()].into_iter().chain(std::env::split_paths(&std::env::var_os("PATH").unwrap())),
    );
    let mut shell = clean("sh", &here);
    shell.env("PATH", path.unwrap());
    let script: String = commands.iter().map(|(command, _)| format!("{command}\nprintf '\\001'\n")).collect();
    let output = run(shell, format!("exec 2>&1\n{script}").as_bytes());
    let text = String::from_utf8(output.stdout).unwrap();
    text.split_terminator('\u{1}').map(str::to_string).collect()
}

#[test]
fn what_is_shown_is_printed() {
    let mut count = 0;
    for (name, file) in [("readme-host", "README.md"), ("readme-top", "../README.md")] {
        let commands = shown(&std::fs::read_to_string(file).unwrap());
        let printed = printed(name, &commands);
        assert_eq!(printed.len(), commands.len(), "{printed:?}");
        for ((command, expected), found) in commands.iter().zip(&printed) {
            assert_eq!(found, expected, "$ {command}");
        }
        count += commands.len();
    }
    assert!(count > 9);
}
