//! An index written anew, in one step.
use std::ffi::{OsStr, OsString};
use std::fs::{self, File, OpenOptions};
use std::io::{self, Write};
use std::path::PathBuf;

use sparrowpivot::{Index, WriteOptions};

/// The extensions that are written again, and IEOT, which is a table of places in the old file.
const NOT_LOST: [&[u8; 4]; 4] = [b"TREE", b"sdir", b"EOIE", b"IEOT"];

/// The bytes of the index written anew. If an extension would be lost, it is refused unless `drop` is set.
pub fn rewritten(index: &Index, tree: bool, zero_trailer: bool, drop: bool) -> Result<Vec<u8>, String> {
    let lost = lost(index)?;
    if !drop && !lost.is_empty() {
        return Err(format!("{} would be lost: say --drop to rewrite without", lost.join(", ")));
    }
    let options = WriteOptions { tree, eoie: index.end_of_entries().is_some(), zero_trailer };
    index.write(options).map_err(|why| why.to_string())
}

/// The signatures of the extensions that cannot be written.
fn lost(index: &Index) -> Result<Vec<String>, String> {
    let all = index.extensions().map_err(|why| why.to_string())?;
    let lost = all.filter(|extension| !NOT_LOST.contains(&&extension.signature));
    Ok(lost.map(|extension| extension.signature.escape_ascii().to_string()).collect())
}

/// The lock that git holds on a file while it rewrites it, so that git keeps away. It is released when this is dropped.
pub struct Lock {
    out: PathBuf,
    name: PathBuf,
    file: File,
    held: bool,
}

impl Lock {
    /// Takes the lock on a file, which need not exist. If what is read is to be written back, take it before reading.
    pub fn take(out: &OsStr) -> Result<Lock, String> {
        // the file itself, where its name is a link to it
        let out = fs::canonicalize(out).unwrap_or_else(|_| PathBuf::from(out));
        let mut name = OsString::from(&out);
        name.push(".lock");
        let name = PathBuf::from(name);
        match OpenOptions::new().write(true).create_new(true).open(&name) {
            Ok(file) => Ok(Lock { out, name, file, held: true }),
            Err(why) if why.kind() == io::ErrorKind::AlreadyExists => {
                Err(format!("{} is there: another program is at work on it", name.display()))
            }
            Err(why) => Err(format!("{}: {why}", name.display())),
        }
    }

    /// Puts bytes in the place of the file, whole or not at all.
    pub fn replace(mut self, bytes: &[u8]) -> Result<(), String> {
        self.fill(bytes).map_err(|why| format!("{}: {why}", self.name.display()))
    }

    /// Writes the bytes, with the permissions of the file that they replace.
    fn fill(&mut self, bytes: &[u8]) -> io::Result<()> {
        self.file.write_all(bytes)?;
        if let Ok(old) = fs::metadata(&self.out) {
            self.file.set_permissions(old.permissions())?;
        }
        self.file.sync_all()?;
        fs::rename(&self.name, &self.out)?;
        // from now on a lock of this name is someone else's
        self.held = false;
        Ok(())
    }
}

impl Drop for Lock {
    fn drop(&mut self) {
        if self.held {
            let _ = fs::remove_file(&self.name);
        }
    }
}
