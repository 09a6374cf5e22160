//! Has the archive before linked beside ours, where KNEUKELBOOM_BEFORE_DIR names its folder. Both show the same calls
//! by the same names, so that it is a copy that is linked, in which objcopy has given the calls other names, and
//! changed nothing else. OBJCOPY names another program for it.

use std::env;
use std::path::{Path, PathBuf};
use std::process::Command;

/// All that an archive shows: what kept its name would be there twice. An archive may lack the newest.
const CALLS: [&str; 7] = ["build", "widen", "check", "near", "inside", "meet", "agree"];

fn main() {
    println!("cargo:rerun-if-changed=build.rs");
    println!("cargo:rerun-if-env-changed=KNEUKELBOOM_BEFORE_DIR");
    println!("cargo:rerun-if-env-changed=OBJCOPY");
    println!("cargo:rustc-check-cfg=cfg(before)");
    let Some(folder) = env::var_os("KNEUKELBOOM_BEFORE_DIR") else {
        return;
    };
    let archive = Path::new(&folder).join("libkneukelboom_c.a");
    let archive = archive
        .canonicalize()
        .unwrap_or_else(|error| panic!("{}: {error}", archive.display()));
    println!("cargo:rerun-if-changed={}", archive.display());
    println!("cargo:rustc-link-arg-bins={}", renamed(&archive).display());
    println!("cargo:rustc-env=KNEUKELBOOM_BEFORE={}", archive.display());
    println!("cargo:rustc-cfg=before");
}

/// A copy of the archive whose calls begin with before_, of version 2: those of another version do not link.
fn renamed(archive: &Path) -> PathBuf {
    let folder = env::var_os("OUT_DIR").expect("cargo sets OUT_DIR");
    let copy = Path::new(&folder).join("libkneukelboom_before.a");
    let program = env::var("OBJCOPY").unwrap_or("objcopy".to_string());
    let names = CALLS.map(|call| format!("--redefine-sym=kneukelboom_{call}_v2=before_{call}"));
    let mut command = Command::new(&program);
    command.args(names).args([archive, &copy]);
    match command.status() {
        Ok(status) if status.success() => copy,
        Ok(status) => panic!("{program} of {}: {status}", archive.display()),
        Err(error) => panic!("{program}: {error}"),
    }
}
