//! The Rust, run line by line.
use std::io::{BufRead, BufReader, BufWriter, Write};
use std::process::{Child, Command, Stdio};

pub struct Oracle(pub Option<String>);

impl Oracle {
    pub fn is_there(&self) -> bool {
        self.0.is_some()
    }
    /// One answer for every line.
    pub fn ask(&self, lines: &[String]) -> Vec<String> {
        let mut child: Child = Command::new(self.0.as_ref().unwrap())
            .arg("batch")
            .stdin(Stdio::piped())
            .stdout(Stdio::piped())
            .spawn()
            .expect("the oracle runs");
        let mut into = BufWriter::with_capacity(1 << 20, child.stdin.take().unwrap());
        let from = BufReader::with_capacity(1 << 20, child.stdout.take().unwrap());
        let answers: Vec<String> = std::thread::scope(|s| {
            s.spawn(move || {
                for l in lines {
                    writeln!(into, "{l}").unwrap();
                }
            });
            from.lines().map(|l| l.unwrap()).collect()
        });
        assert!(child.wait().unwrap().success(), "the oracle ended badly");
        assert_eq!(answers.len(), lines.len(), "the oracle answers every line");
        answers
    }
}
