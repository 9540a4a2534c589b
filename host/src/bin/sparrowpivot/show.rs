//! Entries and nodes, in the form that was asked for.
use std::io::{self, Write};

use sparrowpivot::{Entry, Node, Tree};

use crate::args::Form;
use crate::json;
use crate::quote::quoted;
use crate::Stop;

/// Writes entries, each as a line of `git ls-files --stage` or as an object.
pub fn entries<'a>(out: &mut impl Write, form: Form, all: impl Iterator<Item = Entry<'a>>) -> io::Result<()> {
    if form == Form::Json {
        return json::array(out, all, |out, entry| entry_object(out, &entry));
    }
    for entry in all {
        write!(out, "{:06o} ", entry.mode)?;
        out.write_all(&entry.id.hex())?;
        write!(out, " {}\t", entry.stage)?;
        path(out, form, entry.path)?;
    }
    Ok(())
}

/// The most bytes that the paths of a tree's folders may have together. Each is printed whole, so that one long name
/// above many others makes a small file print without end.
const MOST_PATH_BYTES: u64 = 1 << 30;

/// Writes the nodes of a tree, each as a line or as an object; where there is no tree, nothing or no object.
pub fn nodes(out: &mut impl Write, form: Form, tree: Option<Tree<'_>>) -> Result<(), Stop> {
    let Some(tree) = tree else {
        let none: &[u8] = if form == Form::Json { b"[]\n" } else { b"" };
        return Ok(out.write_all(none)?);
    };
    let bytes = path_bytes(tree);
    if bytes > MOST_PATH_BYTES {
        return Err(Stop::Refused(format!("the paths of its folders have {bytes} bytes, over {MOST_PATH_BYTES}")));
    }
    let mut folders = tree.folders();
    if form == Form::Json {
        let one = |out: &mut _, node| node_object(out, folders.step().unwrap_or_default(), &node);
        return Ok(json::array(out, tree.nodes(), one)?);
    }
    for node in tree.nodes() {
        match (node.id, node.entries) {
            (Some(id), Some(entries)) => write!(out, "{id} {entries} {}\t", node.subtrees)?,
            _ => write!(out, "- - {}\t", node.subtrees)?,
        }
        // the root's is a slash alone
        let folder = folders.step().filter(|folder| !folder.is_empty());
        path(out, form, folder.unwrap_or(b"/"))?;
    }
    Ok(())
}

/// How many bytes the paths of all folders have together.
fn path_bytes(tree: Tree<'_>) -> u64 {
    let (mut folders, mut bytes) = (tree.folders(), 0_u64);
    while let Some(folder) = folders.step() {
        bytes = bytes.saturating_add(folder.len() as u64);
    }
    bytes
}

/// A path and the end of its line.
fn path(out: &mut impl Write, form: Form, path: &[u8]) -> io::Result<()> {
    if form == Form::Nul {
        out.write_all(path)?;
        return out.write_all(b"\0");
    }
    quoted(out, path)?;
    out.write_all(b"\n")
}

fn entry_object(out: &mut impl Write, entry: &Entry<'_>) -> io::Result<()> {
    let (stat, flags) = (&entry.stat, entry.flags);
    out.write_all(b"{")?;
    json::bytes(out, "path", entry.path)?;
    write!(out, ",\"stage\":{},\"mode\":\"{:06o}\",\"id\":\"{}\"", entry.stage, entry.mode, entry.id)?;
    write!(out, ",\"assume_valid\":{}", flags.assume_valid())?;
    write!(out, ",\"intent_to_add\":{}", flags.intent_to_add())?;
    write!(out, ",\"skip_worktree\":{}", flags.skip_worktree())?;
    write!(out, ",\"size\":{},\"dev\":{},\"ino\":{}", stat.size, stat.dev, stat.ino)?;
    write!(out, ",\"uid\":{},\"gid\":{}", stat.uid, stat.gid)?;
    write!(out, ",\"ctime\":[{},{}]", stat.ctime.seconds, stat.ctime.nanoseconds)?;
    write!(out, ",\"mtime\":[{},{}]}}", stat.mtime.seconds, stat.mtime.nanoseconds)
}

/// An object, of a path with a slash after it.
fn node_object(out: &mut impl Write, folder: &[u8], node: &Node<'_>) -> io::Result<()> {
    out.write_all(b"{")?;
    json::bytes(out, "path", folder.strip_suffix(b"/").unwrap_or_default())?;
    match (node.id, node.entries) {
        (Some(id), Some(entries)) => write!(out, ",\"id\":\"{id}\",\"entries\":{entries}")?,
        _ => out.write_all(b",\"id\":null,\"entries\":null")?,
    }
    write!(out, ",\"subtrees\":{},\"parent\":", node.subtrees)?;
    match node.parent {
        Some(parent) => write!(out, "{parent}}}"),
        None => out.write_all(b"null}"),
    }
}
