//! Finds the archive of the proved calls and has it linked.

use std::env;
use std::path::{Path, PathBuf};

/// Names an archive other than the repository's own.
const ELSEWHERE: &str = "BENZOKAMURI_ARCHIVE";

fn main() {
    println!("cargo::rerun-if-env-changed={ELSEWHERE}");
    let archive = archive();
    println!("cargo::rerun-if-changed={}", archive.display());
    match (archive.parent(), archive.file_name()) {
        (Some(folder), Some(file)) if archive.is_file() => {
            println!("cargo::rustc-link-search=native={}", folder.display());
            println!(
                "cargo::rustc-link-lib=static:+verbatim={}",
                Path::new(file).display()
            );
            // The tests link C programs with it too.
            println!("cargo::rustc-env=ARCHIVE={}", archive.display());
        }
        _ => {
            println!(
                "cargo::error=the archive of the proved calls is missing: {}",
                archive.display()
            );
            println!("cargo::error=make it with `make lib`, or name one in {ELSEWHERE}");
        }
    }
}

/// Where the archive is: named by the environment, or the newer of the one
/// that `make lib` wrote and the one that `rt lib` wrote in the crate's folder.
fn archive() -> PathBuf {
    if let Some(path) = env::var_os(ELSEWHERE) {
        return PathBuf::from(path);
    }
    let here = env::var_os("CARGO_MANIFEST_DIR").expect("cargo names the crate's folder");
    let repository = Path::new(&here).join("../..");
    let repository = repository.canonicalize().unwrap_or(repository);
    let [proved, made] = [
        "crates/benzokamuri_c/out/libbenzokamuri_c.a",
        "build/lib/libbenzokamuri.a",
    ]
    .map(|archive| repository.join(archive));
    let written = |path: &Path| path.metadata().and_then(|file| file.modified()).ok();
    // One that is not there counts as the oldest, and build/lib is named where
    // neither is.
    match written(&proved) > written(&made) {
        true => proved,
        false => made,
    }
}
