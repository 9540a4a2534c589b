//! Finds the static library, or has it built: `SPARROWPIVOT_LIB_DIR` names the folder of an archive that is there
//! already; without it the script `library` beside this file has `rt`, Rattle's command, prove and build it from the
//! crates of this repository.
use std::path::{Path, PathBuf};
use std::process::{exit, Command};

const ARCHIVE: &str = "libsparrowpivot.a";

fn main() {
    println!("cargo:rerun-if-changed=build.rs");
    println!("cargo:rerun-if-env-changed=SPARROWPIVOT_LIB_DIR");
    let folder = match std::env::var_os("SPARROWPIVOT_LIB_DIR") {
        Some(given) => given_folder(PathBuf::from(given)),
        None => built_folder(),
    };
    println!("cargo:rerun-if-changed={}", folder.join(ARCHIVE).display());
    println!("cargo:rustc-link-search=native={}", folder.display());
}

fn target_is(what: &str, value: &str) -> bool {
    std::env::var(format!("CARGO_CFG_TARGET_{what}")).is_ok_and(|v| v == value)
}

/// The folder that the caller names. It must hold the archive.
fn given_folder(folder: PathBuf) -> PathBuf {
    if !folder.is_absolute() {
        fail("SPARROWPIVOT_LIB_DIR must be an absolute path");
    }
    if !folder.join(ARCHIVE).is_file() {
        fail(&format!("SPARROWPIVOT_LIB_DIR is {}, which holds no {ARCHIVE}", folder.display()));
    }
    folder
}

/// The folder in which the script puts the archive. One that was built of the present sources is taken as it is.
fn built_folder() -> PathBuf {
    if !target_is("ARCH", std::env::consts::ARCH) || !target_is("OS", "linux") {
        fail(
            "the static library is built for the machine at hand, and for Linux; SPARROWPIVOT_LIB_DIR may name the \
             folder of one for another machine (`rt lib` in crates/sparrowpivot_c makes one for x86-64 Linux)",
        );
    }
    let host = Path::new(env!("CARGO_MANIFEST_DIR"));
    for part in ["library", "../crates", "../crates.txt"] {
        println!("cargo:rerun-if-changed={}", host.join(part).display());
    }
    let said = Command::new("sh").arg(host.join("library")).output();
    let said = said.unwrap_or_else(|why| fail(&format!("host/library cannot be run: {why}")));
    if !said.status.success() {
        fail(&format!(
            "the static library could not be built:\n{}\
             SPARROWPIVOT_LIB_DIR may name the folder of a {ARCHIVE} that is there already",
            String::from_utf8_lossy(&said.stderr)
        ));
    }
    let folder = String::from_utf8(said.stdout).unwrap_or_else(|_| fail("the folder's name is not UTF-8"));
    PathBuf::from(folder.trim_end())
}

fn fail(why: &str) -> ! {
    eprintln!("sparrowpivot: {why}");
    exit(1)
}
