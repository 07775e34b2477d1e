//! Finds what the comparison and the speed table may link: the proved store's library, LMDB, SQLite. Each that is there
//! sets a cfg of its name; without any of them everything else builds as before. Compiles the speed table's caller in C
//! for the store and LMDB, and sets `caller`.

use std::path::{Path, PathBuf};
use std::process::{Command, Stdio};
use std::{env, fs};

/// What the store's library must have in it; an older one is passed over.
const NAMES: &[&str] = &[
    "kh_format",
    "kh_open",
    "kh_insert",
    "kh_withdraw",
    "kh_batch",
    "kh_read_file",
    "kh_lookup",
    "kh_newest",
    "kh_has_any",
    "kh_list",
    "kh_write_file",
    "kh_sync",
    "kh_lean_lookup",
    "kh_lean_newest",
    "kh_lean_has_any",
    "kh_lean_list",
    "kh_lean_write_file",
];

fn main() {
    println!("cargo::rustc-check-cfg=cfg(store, lmdb, sqlite, caller)");
    println!("cargo::rerun-if-changed=build.rs");
    println!("cargo::rerun-if-env-changed=KHIRPANDO_LIB");
    let store = store();
    let lmdb = other("lmdb", "lmdb");
    other("sqlite", "sqlite3");
    if store && lmdb {
        caller();
    }
}

/// `./build` makes the library; KHIRPANDO_LIB names another folder for it.
fn store() -> bool {
    let here = env::var("CARGO_MANIFEST_DIR").expect("cargo sets it");
    let folder = env::var("KHIRPANDO_LIB").map_or_else(
        |_| Path::new(&here).join("../crates/exports/out"),
        PathBuf::from,
    );
    let library = folder.join("libexports.a");
    println!("cargo::rerun-if-changed={}", library.display());
    let Ok(bytes) = fs::read(&library) else {
        return false;
    };
    let has = |name: &str| {
        bytes
            .windows(name.len())
            .any(|part| part == name.as_bytes())
    };
    let whole = NAMES.iter().copied().all(has);
    if whole {
        println!("cargo::rustc-cfg=store");
        println!("cargo::rustc-link-search=native={}", folder.display());
        println!("cargo::rustc-link-lib=static=exports");
    }
    whole
}

/// A library is there if the C compiler can link it.
fn other(cfg: &str, library: &str) -> bool {
    let out = Path::new(&env::var("OUT_DIR").expect("cargo sets it")).join(library);
    let source = out.with_extension("c");
    if fs::write(&source, "int main(void) { return 0; }\n").is_err() {
        return false;
    }
    let linked = Command::new("cc")
        .arg(&source)
        .arg(format!("-l{library}"))
        .arg("-o")
        .arg(&out)
        .stdout(Stdio::null())
        .stderr(Stdio::null())
        .status();
    let there = linked.is_ok_and(|status| status.success());
    if there {
        println!("cargo::rustc-cfg={cfg}");
        println!("cargo::rustc-link-arg-bin=speed=-l{library}");
    }
    there
}

/// By gcc -O2, as a program in C is mostly built.
fn caller() {
    let sources = ["src/bin/speed/caller.c", "../host/khstore.c"];
    for file in ["../include/khirpando.h", "../host/khstore.h"] {
        println!("cargo::rerun-if-changed={file}");
    }
    let objects: Option<Vec<PathBuf>> = sources.into_iter().map(compiled).collect();
    let Some(objects) = objects else {
        println!("cargo::warning=gcc does not compile {sources:?}: no table for C");
        return;
    };
    for object in objects {
        println!("cargo::rustc-link-arg-bin=speed={}", object.display());
    }
    println!("cargo::rustc-cfg=caller");
}

/// The object of a file in C, if it compiles.
fn compiled(source: &str) -> Option<PathBuf> {
    println!("cargo::rerun-if-changed={source}");
    let name = Path::new(source).with_extension("o");
    let name = name.file_name().expect("a file's name");
    let object = Path::new(&env::var("OUT_DIR").expect("cargo sets it")).join(name);
    let status = Command::new("gcc")
        .args(["-std=c11", "-O2", "-Wall", "-Wextra", "-Werror"])
        .args(["-I../include", "-I../host", "-c", source, "-o"])
        .arg(&object)
        .status();
    status
        .is_ok_and(|status| status.success())
        .then_some(object)
}
