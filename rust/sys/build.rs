//! Finds the port's archive: RONTHUYAL_PORT names it, or it is the repository's own.

use std::path::{Path, PathBuf};
use std::{env, fs};

#[path = "src/exports.rs"]
#[allow(dead_code)]
#[rustfmt::skip]
mod exports;

fn main() {
    let here = PathBuf::from(env::var("CARGO_MANIFEST_DIR").expect("cargo says where the package is"));
    println!("cargo::rerun-if-env-changed=RONTHUYAL_PORT");
    let own = || here.join("../../target/staticlib/libronthuyal.a");
    let archive = env::var("RONTHUYAL_PORT").map_or_else(|_| own(), PathBuf::from);
    println!("cargo::rerun-if-changed={}", archive.display());
    let Ok(bytes) = fs::read(&archive) else {
        stop(&format!(
            "there is no archive of the port at {}; `tools/archive` in the repository proves it and writes it \
             (rt lib in crates/ronthuyal_c), or RONTHUYAL_PORT names another one",
            archive.display()
        ));
        return;
    };
    // An archive's index has the names of its symbols, each ended by a zero.
    let exported = |name: &str| {
        let symbol = format!("{name}\0");
        bytes.windows(symbol.len()).any(|window| window == symbol.as_bytes())
    };
    if let Some(missing) = exports::EXPORTS.iter().find(|name| !exported(name)) {
        stop(&format!(
            "{} does not export {missing}; it is older than this package, and `tools/archive` in the repository \
             writes it anew",
            archive.display()
        ));
    }
    link(&archive);
}

fn link(archive: &Path) {
    let out = PathBuf::from(env::var("OUT_DIR").expect("cargo says where to write"));
    let shared = archive.extension().is_some_and(|extension| extension == "so");
    // By the name that the linker looks for, whatever the file is called.
    let (name, kind) = match shared {
        true => ("libronthuyal.so", "dylib"),
        false => ("libronthuyal.a", "static"),
    };
    if fs::copy(archive, out.join(name)).is_err() {
        stop(&format!("{} cannot be copied to {}", archive.display(), out.display()));
    }
    println!("cargo::rustc-link-search=native={}", out.display());
    println!("cargo::rustc-link-lib={kind}=ronthuyal");
}

fn stop(says: &str) {
    println!("cargo::error={says}");
}
