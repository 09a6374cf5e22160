//! An archive that is older than a source is never linked: what `build.rs` does, in a repository of its own, where
//! `sh` stands in for `rt`: `sh lib` in `crates/kneukelboom_c` does as the file `lib` there says.

#[allow(dead_code)]
#[path = "../build.rs"]
mod build;

use std::fs::{self, File};
use std::path::PathBuf;
use std::time::{Duration, SystemTime};

const SOURCES: [&str; 3] = [
    "crates.txt",
    "crates/rules/specs/Sheet.antt",
    "crates/near/src/lib.rt",
];
const EDIT: &str = "crates/near/must-fail/wrong.edit";
const ARCHIVE: &str = "target/staticlib/libkneukelboom_c.a";

/// A repository whose files were changed an hour ago; gone when it is dropped.
struct Repository {
    root: PathBuf,
    now: SystemTime,
}

impl Repository {
    fn new(test: &str) -> Repository {
        let name = format!("kneukelboom-{test}-{}", std::process::id());
        let repository = Repository {
            root: std::env::temp_dir().join(name),
            now: SystemTime::now(),
        };
        for file in SOURCES.iter().chain([&EDIT]) {
            repository.write(file, "");
            repository.changed(file, 60);
        }
        repository
    }

    fn path(&self, file: &str) -> PathBuf {
        self.root.join(file)
    }

    fn write(&self, file: &str, text: &str) {
        let path = self.path(file);
        fs::create_dir_all(path.parent().unwrap()).unwrap();
        fs::write(path, text).unwrap();
    }

    fn changed(&self, file: &str, minutes_ago: u64) {
        let when = self.now - Duration::from_secs(60 * minutes_ago);
        let file = File::options().write(true).open(self.path(file)).unwrap();
        file.set_modified(when).unwrap();
    }

    /// What is made where `rt` does as the script says, and where it is not there.
    fn made(&self, script: Option<&str>) -> Result<PathBuf, String> {
        self.write("crates/kneukelboom_c/lib", script.unwrap_or(""));
        build::made(&self.root, script.map_or("no-such-program", |_| "sh"))
    }
}

impl Drop for Repository {
    fn drop(&mut self) {
        let _ = fs::remove_dir_all(&self.root);
    }
}

/// Writes the archive, and its words to the file `said`.
const PROVES: Option<&str> =
    Some("echo $0 $@ >../../said && mkdir -p out && : >out/libkneukelboom_c.a");
const REFUSES: Option<&str> = Some("exit 1");
const IS_NOT_THERE: Option<&str> = None;

#[test]
fn a_missing_archive_is_made() {
    let repository = Repository::new("missing");
    assert!(repository.made(IS_NOT_THERE).is_err());
    assert!(repository.made(REFUSES).is_err());
    assert!(repository.made(Some("exit 0")).is_err());
    assert_eq!(repository.made(PROVES), Ok(repository.path(ARCHIVE)));
    let said = fs::read_to_string(repository.path("said")).unwrap();
    assert_eq!(said, "lib\n");
}

#[test]
fn an_archive_newer_than_every_source_is_taken() {
    let repository = Repository::new("newer");
    repository.write(ARCHIVE, "");
    repository.changed(ARCHIVE, 30);
    repository.changed(EDIT, 0);
    assert!(repository.made(IS_NOT_THERE).is_ok());
}

#[test]
fn an_archive_not_newer_than_a_source_is_made_again_or_not_linked() {
    for (source, minutes_ago) in SOURCES.into_iter().zip([30, 29, 0]) {
        let repository = Repository::new("older");
        repository.write(ARCHIVE, "");
        repository.changed(ARCHIVE, 30);
        repository.changed(source, minutes_ago);
        let named = format!("is older than {}", repository.path(source).display());
        for rt in [IS_NOT_THERE, REFUSES] {
            let why = repository.made(rt).unwrap_err();
            assert!(why.contains(&named), "{why}");
            assert!(why.contains(" lib` in "), "{why}");
            assert!(why.contains("crates/kneukelboom_c"), "{why}");
        }
        assert!(repository.made(PROVES).is_ok());
        assert!(repository.path("said").exists());
        repository.changed(source, 1);
        assert!(repository.made(IS_NOT_THERE).is_ok(), "it is new now");
    }
}

#[test]
fn without_sources_nothing_is_linked_but_from_a_folder_that_is_named() {
    let repository = Repository::new("without");
    repository.write(ARCHIVE, "");
    fs::remove_file(repository.path("crates.txt")).unwrap();
    let why = repository.made(PROVES).unwrap_err();
    assert!(why.contains("KNEUKELBOOM_LIB_DIR"), "{why}");
    let folder = repository.path("target/staticlib");
    assert_eq!(build::named(&folder), Ok(repository.path(ARCHIVE)));
    assert!(build::named(&repository.path("crates")).is_err());
}
