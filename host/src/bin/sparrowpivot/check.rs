//! The report of `check`.
use std::io::{self, Write};

use sparrowpivot::{Index, Refusal, Trailer, TreeFault};

use crate::args::Form;
use crate::json;
use crate::quote::quoted;

/// What was found. The trailer held, or the file would not have been read.
struct Report<'a> {
    index: &'a Index,
    order: Result<(), Refusal>,
    tree: Result<(), TreeFault>,
}

/// Writes the report, and says whether the index is sound.
pub fn check(out: &mut impl Write, form: Form, index: &Index) -> io::Result<bool> {
    let report = Report { index, order: index.check(), tree: index.check_tree() };
    match form {
        Form::Json => report.object(out)?,
        _ => report.lines(out)?,
    }
    Ok(report.is_sound())
}

impl Report<'_> {
    fn is_sound(&self) -> bool {
        self.order.is_ok() && self.tree.is_ok()
    }

    fn lines(&self, out: &mut impl Write) -> io::Result<()> {
        let sparse = if self.index.is_sparse() { ", sparse" } else { "" };
        let entries = counted(self.index.len(), "entry", "entries");
        writeln!(out, "file: version {}, {entries}{sparse}", self.index.version())?;
        match self.index.trailer() {
            Trailer::Hash => writeln!(out, "trailer: the SHA-1 of the rest")?,
            Trailer::Zeros => writeln!(out, "trailer: zeros, nothing was hashed")?,
        }
        match self.order {
            Ok(()) => writeln!(out, "order: each entry is after the one before")?,
            Err(refusal) => self.out_of_order(out, refusal)?,
        }
        match (&self.tree, self.index.tree()) {
            (Err(fault), _) => writeln!(out, "tree: {fault}"),
            (Ok(()), None) => writeln!(out, "tree: none"),
            (Ok(()), Some(tree)) => {
                let folders = counted(tree.len(), "folder", "folders");
                writeln!(out, "tree: {folders}, {} out of date", self.out_of_date())
            }
        }
    }

    /// The refusal, and the path of the entry that it names.
    fn out_of_order(&self, out: &mut impl Write, refusal: Refusal) -> io::Result<()> {
        write!(out, "order: {refusal}")?;
        if let Some(entry) = refusal.value().and_then(|i| self.index.entry(i as usize)) {
            out.write_all(b": ")?;
            quoted(out, entry.path)?;
        }
        out.write_all(b"\n")
    }

    fn out_of_date(&self) -> usize {
        self.index.tree().map_or(0, |tree| tree.nodes().filter(|node| node.entries.is_none()).count())
    }

    fn object(&self, out: &mut impl Write) -> io::Result<()> {
        let trailer = match self.index.trailer() {
            Trailer::Hash => "sha1",
            Trailer::Zeros => "zeros",
        };
        write!(out, "{{\"sound\":{},\"version\":{}", self.is_sound(), self.index.version())?;
        write!(out, ",\"entries\":{},\"sparse\":{}", self.index.len(), self.index.is_sparse())?;
        write!(out, ",\"trailer\":\"{trailer}\",\"order_fault\":")?;
        fault(out, self.order.err())?;
        out.write_all(b",\"tree_fault\":")?;
        fault(out, self.tree.as_ref().err())?;
        let folders = self.index.tree().map_or(0, |tree| tree.len());
        writeln!(out, ",\"folders\":{folders},\"out_of_date\":{}}}", self.out_of_date())
    }
}

fn counted(n: usize, one: &str, more: &str) -> String {
    format!("{n} {}", if n == 1 { one } else { more })
}

/// The words of a fault as a string, or null.
fn fault(out: &mut impl Write, fault: Option<impl ToString>) -> io::Result<()> {
    match fault {
        Some(fault) => json::string(out, &fault.to_string()),
        None => out.write_all(b"null"),
    }
}
