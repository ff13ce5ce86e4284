//! Copies the kernel's six files into the build folder, beside shims for their
//! neighbours, and appends one line to three of them that opens their private
//! fields to a child module. The text itself is not changed, but for the three
//! uses that ask for it: the package `changed`, counters of branches, and the
//! edits of the power table.

mod branches;
mod edits;
mod text;

use std::{
    env, fs,
    path::{Path, PathBuf},
};
use text::Edits;

const FILES: [&str; 6] = [
    "context/switch.rs",
    "context/mod.rs",
    "context/context.rs",
    "cpu_set.rs",
    "cpu_stats.rs",
    "percpu.rs",
];
const OPENED: [&str; 3] = ["context/switch.rs", "context/mod.rs", "cpu_stats.rs"];
const BESIDE: [&str; 5] = ["arch/x86_64", "file", "memory", "signal", "timeout"];

fn main() {
    // The package is `kernel` or `changed`; all that is read is in the folder of the first.
    let package = PathBuf::from(env::var("CARGO_MANIFEST_DIR").unwrap());
    let harness = package.parent().unwrap();
    let here = harness.join("kernel");
    let tree = PathBuf::from(env::var("OUT_DIR").unwrap()).join("tree");
    println!("cargo::rerun-if-env-changed=RONTHUYAL_KERNEL_SRC");
    println!("cargo::rerun-if-env-changed=RONTHUYAL_EDIT");
    for read in [
        &here,
        &harness.join("power.txt"),
        &harness.join("changes.txt"),
    ] {
        println!("cargo::rerun-if-changed={}", read.display());
    }

    let source = env::var("RONTHUYAL_KERNEL_SRC")
        .map(PathBuf::from)
        .unwrap_or_else(|_| harness.join("../../shared/docs/src/src"));
    let edits = Edits::new(harness, package.ends_with("changed"));

    fs::create_dir_all(tree.join("context/arch")).unwrap();
    let (mut blocks, mut edited) = (String::new(), String::new());
    for file in FILES {
        let from = source.join(file);
        println!("cargo::rerun-if-changed={}", from.display());
        let text = fs::read_to_string(&from)
            .unwrap_or_else(|error| panic!("no kernel source {}: {error}", from.display()));
        let mut text = edits.of(file, text, &mut edited);
        if env::var_os("CARGO_FEATURE_BRANCHES").is_some() && file == "context/switch.rs" {
            text = branches::counted(&text, &mut blocks);
        }
        if OPENED.contains(&file) {
            let opened = here.join("opened").join(file.replace('/', "_"));
            text += &format!("#[path = {opened:?}]\npub mod opened;\n");
        }
        fs::write(tree.join(file), text).unwrap();
    }
    for name in BESIDE {
        let shim = here.join("context").join(name).with_extension("rs");
        fs::copy(shim, tree.join("context").join(name).with_extension("rs")).unwrap();
    }
    fs::write(tree.join("root.rs"), root(&tree)).unwrap();
    fs::write(tree.join("edited.txt"), edited).unwrap();
    fs::write(tree.join("blocks.rs"), branches::table(&blocks)).unwrap();
}

/// The crate's root names the copies by their full paths.
fn root(tree: &Path) -> String {
    ["context/mod.rs", "cpu_set.rs", "cpu_stats.rs", "percpu.rs"]
        .map(|file| {
            let name = file.split(['/', '.']).next().unwrap();
            format!("#[path = {:?}]\npub mod {name};\n", tree.join(file))
        })
        .concat()
}
