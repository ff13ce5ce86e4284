//! Finds the port's two archives, which become the `cfg`s `port` and `cue_board`. RONTHUYAL_PORT
//! names another archive than the repository's own; that of the cue board stands beside it.

use std::{env, fs, path::PathBuf};

/// An archive's index holds the names of its global symbols, ended by zeros.
const EXPORTS: &[&str] = &[
    "ronthuyal_call\0",
    "ronthuyal_switch\0",
    "ronthuyal_unblock_group\0",
    "ronthuyal_total_weight\0",
    "ronthuyal_ask\0",
    "ronthuyal_commit\0",
    "ronthuyal_rival\0",
    "ronthuyal_humblest\0",
    "ronthuyal_call_in_window\0",
    "ronthuyal_share\0",
    "ronthuyal_share_of_all\0",
    "ronthuyal_apart\0",
    "ronthuyal_run\0",
    "ronthuyal_plain_call\0",
];
const CUE_BOARD_EXPORTS: [&str; 2] = ["cue_board_add\0", "cue_board_next\0"];

fn main() {
    let here = PathBuf::from(env::var("CARGO_MANIFEST_DIR").unwrap());
    let archive = env::var("RONTHUYAL_PORT")
        .map(PathBuf::from)
        .unwrap_or_else(|_| here.join("../../target/staticlib/libronthuyal.a"));
    let board = archive.with_file_name("libcue_board.a");
    println!("cargo::rerun-if-env-changed=RONTHUYAL_PORT");
    println!("cargo::rustc-check-cfg=cfg(port, cue_board)");
    for archive in [&archive, &board] {
        println!("cargo::rerun-if-changed={}", archive.display());
    }
    let Ok(bytes) = fs::read(&archive) else {
        return;
    };
    // Without it nothing would be compared, and nothing would be found to differ.
    for export in EXPORTS {
        assert!(
            holds(&bytes, export),
            "{} does not export {}",
            archive.display(),
            export.trim_end_matches('\0')
        );
    }
    println!("cargo::rustc-cfg=port");
    println!("cargo::rustc-link-arg={}", archive.display());
    // A stand-in has the calls of both.
    let has_board = |bytes: &[u8]| CUE_BOARD_EXPORTS.iter().all(|export| holds(bytes, export));
    if has_board(&bytes) {
        println!("cargo::rustc-cfg=cue_board");
    } else if let Ok(bytes) = fs::read(&board) {
        assert!(has_board(&bytes), "{} lacks a call", board.display());
        println!("cargo::rustc-cfg=cue_board");
        println!("cargo::rustc-link-arg={}", board.display());
    }
}

fn holds(bytes: &[u8], export: &str) -> bool {
    bytes
        .windows(export.len())
        .any(|window| window == export.as_bytes())
}
