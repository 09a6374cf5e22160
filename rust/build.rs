//! Finds the proved archive, `libkneukelboom_c.a`, and has it linked.
//!
//! It stands in `../target/staticlib`. Where it is missing, or not newer than every source that it is made of,
//! `rt lib` is run in `crates/kneukelboom_c`, which proves the library and writes the archive anew. Where that cannot
//! be, the build ends: an old archive is never linked. With KNEUKELBOOM_LIB_DIR the archive of that folder is taken as it is;
//! the version in its symbols keeps one of another interface from linking.

use std::path::{Path, PathBuf};
use std::process::{exit, Command};
use std::time::SystemTime;
use std::{env, fs, io};

const ARCHIVE: &str = "libkneukelboom_c.a";
/// The crate whose archive it is, and the word for `rt` there, which leaves what it makes in a folder `out`.
const EXPORTS: &str = "crates/kneukelboom_c";
const PROVE: &str = "lib";

fn main() {
    println!("cargo:rerun-if-env-changed=KNEUKELBOOM_LIB_DIR");
    let found = match env::var_os("KNEUKELBOOM_LIB_DIR") {
        Some(folder) => named(Path::new(&folder)),
        None => made(&root(), "rt"),
    };
    let archive = found.unwrap_or_else(|why| {
        eprintln!("{why}");
        exit(1)
    });
    let folder = archive.parent().expect("an archive stands in a folder");
    println!("cargo:rerun-if-changed={}", archive.display());
    println!("cargo:rustc-link-search=native={}", folder.display());
    println!("cargo:rustc-link-lib=static=kneukelboom_c");
    println!("cargo:rustc-env=KNEUKELBOOM_ARCHIVE={}", archive.display());
}

/// The repository.
fn root() -> PathBuf {
    let manifest = env::var_os("CARGO_MANIFEST_DIR").expect("cargo sets CARGO_MANIFEST_DIR");
    let root = Path::new(&manifest).join("..");
    let root = root.canonicalize().unwrap_or(root);
    for source in ["crates", "crates.txt"] {
        println!("cargo:rerun-if-changed={}", root.join(source).display());
    }
    root
}

/// The archive of a folder, as it is.
pub fn named(folder: &Path) -> Result<PathBuf, String> {
    let archive = folder.join(ARCHIVE);
    if archive.exists() {
        Ok(archive)
    } else {
        Err(format!(
            "{} is missing, and KNEUKELBOOM_LIB_DIR names its folder.",
            archive.display()
        ))
    }
}

/// The archive of a repository, made again by `rt` if it has to be.
pub fn made(root: &Path, rt: &str) -> Result<PathBuf, String> {
    let archive = root.join("target").join("staticlib").join(ARCHIVE);
    let Some(why) = stale(root, &archive)? else {
        return Ok(archive);
    };
    let exports = root.join(EXPORTS);
    let command = format!("`{rt} {PROVE}` in {}", exports.display());
    match Command::new(rt).arg(PROVE).current_dir(&exports).status() {
        Ok(status) if status.success() && kept(&exports.join("out").join(ARCHIVE), &archive) => {
            Ok(archive)
        }
        Ok(_) => Err(format!("{why}. {command} did not make it.")),
        Err(error) => Err(format!("{why}. {command} could not be run: {error}.")),
    }
}

/// Keeps what was made beside what else is built.
fn kept(made: &Path, archive: &Path) -> bool {
    let folder = archive.parent().expect("an archive stands in a folder");
    fs::create_dir_all(folder).is_ok() && fs::copy(made, archive).is_ok()
}

/// Why the archive has to be made, if it has to be.
fn stale(root: &Path, archive: &Path) -> Result<Option<String>, String> {
    let Ok(made) = fs::metadata(archive).and_then(|about| about.modified()) else {
        return Ok(Some(format!("{} is missing", archive.display())));
    };
    let (changed, source) = newest_source(root).map_err(|error| {
        let crates = root.join("crates");
        format!(
            "The sources in {} cannot be looked at: {error}. \
             KNEUKELBOOM_LIB_DIR names a folder whose archive is taken as it is.",
            crates.display()
        )
    })?;
    let older = format!("{} is older than {}", archive.display(), source.display());
    Ok((made <= changed).then_some(older))
}

/// When the last change of a source was, and of which. What `rt` makes stands in folders `out`.
fn newest_source(root: &Path) -> io::Result<(SystemTime, PathBuf)> {
    let list = root.join("crates.txt");
    let mut newest = (fs::metadata(&list)?.modified()?, list);
    let mut folders = vec![root.join("crates")];
    while let Some(folder) = folders.pop() {
        for entry in fs::read_dir(folder)? {
            let (entry, path) = entry.map(|entry| (entry.file_type(), entry.path()))?;
            if entry?.is_dir() {
                if !path.ends_with("out") {
                    folders.push(path);
                }
            } else if path
                .extension()
                .is_some_and(|of| of == "rt" || of == "antt")
            {
                newest = newest.max((fs::metadata(&path)?.modified()?, path));
            }
        }
    }
    Ok(newest)
}
