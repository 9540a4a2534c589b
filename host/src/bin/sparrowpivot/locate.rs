//! The index of the repository of the current folder, found as git finds it.
use std::ffi::{OsStr, OsString};
use std::os::unix::ffi::OsStrExt;
use std::path::{Path, PathBuf};

/// Where the index should be. The error says that there is no repository, or what is wrong with its `.git`.
pub fn locate() -> Result<PathBuf, String> {
    let here = std::env::current_dir().map_err(|why| format!("the current folder: {why}"))?;
    match (set("GIT_INDEX_FILE"), set("GIT_DIR")) {
        // what is not absolute begins at the top of the work tree
        (Some(index), None) => Ok(nearest(&here)?.map_or(here, |found| found.top).join(index)),
        (Some(index), Some(_)) => Ok(set("GIT_WORK_TREE").map_or(here, PathBuf::from).join(index)),
        (None, Some(folder)) => Ok(pointed_to(Path::new(&folder))?.join("index")),
        (None, None) => match nearest(&here)? {
            // the name is short if the repository is that of this folder
            Some(found) => Ok(found.folder.strip_prefix(&here).unwrap_or(&found.folder).join("index")),
            None => Err("there is no Git repository here or above: name an index file".into()),
        },
    }
}

/// A variable that is there and not empty.
fn set(name: &str) -> Option<OsString> {
    std::env::var_os(name).filter(|value| !value.is_empty())
}

/// A work tree: the folder at its top, and the one in which git keeps its index.
struct Found {
    top: PathBuf,
    folder: PathBuf,
}

/// The nearest repository, from a folder upwards, except in folders that GIT_CEILING_DIRECTORIES names.
fn nearest(here: &Path) -> Result<Option<Found>, String> {
    let named = std::env::var_os("GIT_CEILING_DIRECTORIES").unwrap_or_default();
    let ceilings: Vec<PathBuf> = std::env::split_paths(&named).collect();
    for top in here.ancestors().take_while(|top| *top == here || !ceilings.iter().any(|ceiling| ceiling == top)) {
        let git = top.join(".git");
        // a folder of that name that is not git's is passed over
        if git.join("HEAD").symlink_metadata().is_ok() || git.is_file() {
            return Ok(Some(Found { top: top.into(), folder: pointed_to(&git)? }));
        }
    }
    Ok(None)
}

/// The folder that a `.git` is, or points to where it is a file, as in further work trees and in submodules: by a line
/// `gitdir: FOLDER`.
fn pointed_to(git: &Path) -> Result<PathBuf, String> {
    if !git.is_file() {
        return Ok(git.into());
    }
    let text = std::fs::read(git).map_err(|why| format!("{}: {why}", git.display()))?;
    let line = text.strip_prefix(b"gitdir: ").ok_or_else(|| format!("{}: no line `gitdir: FOLDER`", git.display()))?;
    let folder = Path::new(OsStr::from_bytes(line.trim_ascii_end()));
    Ok(git.parent().map_or(folder.into(), |beside| beside.join(folder)))
}
