//! Links the engine's archive. Where it is missing, or older than the engine's sources, the toolchain proves the engine
//! and writes it.

use std::fs;
use std::path::{Path, PathBuf};
use std::process::Command;
use std::time::SystemTime;

fn main() {
    let root = Path::new(env!("CARGO_MANIFEST_DIR")).join("../..");
    let engine = root.join("crates/trigger_engine");
    let folder = engine.join("out");
    let archive = folder.join("libtrigger_engine.a");
    let sources = sources(&root);
    let changed = sources.iter().map(|path| newest(path)).max();
    if written(&archive).is_none_or(|time| changed.is_some_and(|last| last > time)) {
        prove(&engine);
    }
    println!("cargo::rerun-if-changed=build.rs");
    for path in sources.iter().chain([&archive]) {
        println!("cargo::rerun-if-changed={}", path.display());
    }
    println!("cargo::rustc-link-search=native={}", folder.display());
    println!("cargo::rustc-link-lib=static=trigger_engine");
}

/// What the archive is made from: the list of crates, and each crate's folders but the toolchain's own.
fn sources(root: &Path) -> Vec<PathBuf> {
    let crates = fs::read_dir(root.join("crates")).into_iter().flatten().flatten();
    let folders = crates.flat_map(|it| ["src", "specs", "proofs"].map(|part| it.path().join(part)));
    let there = folders.filter(|path| path.is_dir());
    there.chain([root.join("crates.txt")]).collect()
}

/// When a file was written.
fn written(path: &Path) -> Option<SystemTime> {
    fs::metadata(path).and_then(|data| data.modified()).ok()
}

/// When the newest file under a folder was written.
fn newest(path: &Path) -> SystemTime {
    let inside = fs::read_dir(path).into_iter().flatten().flatten();
    let files = inside.map(|entry| newest(&entry.path()));
    let own = if path.is_dir() { None } else { written(path) };
    files.chain(own).max().unwrap_or(SystemTime::UNIX_EPOCH)
}

fn prove(engine: &Path) {
    let done = Command::new("rt").arg("lib").current_dir(engine).status();
    match done {
        Ok(status) if status.success() => {}
        Ok(status) => panic!("rt lib in crates/trigger_engine: {status}"),
        Err(error) => panic!("rt, the toolchain of the engine, does not run: {error}"),
    }
}
