//! Links libplanner_c.a: from the folder that PLANNER_LIB_DIR names, or else as `scripts/build`
//! builds it in the repository that this package is part of.

use std::ffi::OsStr;
use std::path::{Path, PathBuf};
use std::process::{exit, Command, Stdio};
use std::{env, fs};

const VARIABLE: &str = "PLANNER_LIB_DIR";
const ARCHIVE: &str = "libplanner_c.a";

fn main() {
    println!("cargo:rerun-if-env-changed={VARIABLE}");
    let folder = match env::var_os(VARIABLE) {
        Some(folder) => given(&folder).map_err(|fault| format!("{VARIABLE}: {fault}")),
        None => built().map_err(|fault| {
            format!(
                "{VARIABLE} is not set, and {fault}.\n\
                 Set it to the absolute path of the folder with {ARCHIVE}."
            )
        }),
    };
    match folder {
        Ok(folder) => {
            println!("cargo:rustc-link-search=native={}", folder.display());
            println!("cargo:rustc-link-lib=static=planner_c");
        }
        Err(fault) => {
            eprintln!("{fault}");
            exit(1);
        }
    }
}

/// The folder that the variable names, if the archive is in it.
fn given(folder: &OsStr) -> Result<PathBuf, String> {
    let folder = PathBuf::from(folder);
    if !folder.is_absolute() {
        return Err(format!("{} is not an absolute path", folder.display()));
    }
    let archive = folder.join(ARCHIVE);
    println!("cargo:rerun-if-changed={}", archive.display());
    match fs::metadata(&archive) {
        Ok(found) if found.is_file() => Ok(folder),
        Ok(_) => Err(format!("{} is not a file", archive.display())),
        Err(error) => Err(format!("{}: {error}", archive.display())),
    }
}

/// The folder in which the repository's build leaves the archive, which is built anew if a source
/// changed.
fn built() -> Result<PathBuf, String> {
    let package = env::var_os("CARGO_MANIFEST_DIR").ok_or("cargo does not name the package")?;
    let top = Path::new(&package).join("../..");
    let script = top.join("scripts/build");
    if !script.is_file() || !top.join("crates/planner_c").is_dir() {
        return Err("this package is not in the planner's repository".to_owned());
    }
    for source in [
        "crates",
        "crates.txt",
        "scripts/build",
        "target/staticlib/libplanner_c.a",
    ] {
        println!("cargo:rerun-if-changed={}", top.join(source).display());
    }
    let run = Command::new(&script)
        .arg("library")
        .stdout(Stdio::null())
        .status()
        .map_err(|error| format!("scripts/build cannot be run: {error}"))?;
    if !run.success() {
        return Err("the repository could not build it".to_owned());
    }
    Ok(top.join("target/staticlib"))
}
