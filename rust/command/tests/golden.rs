//! What the command prints, case by case: tests/golden has a file for each. RONTHUYAL_WRITE=1 writes what it prints
//! now; what is then committed has been read.

use std::fs;
use std::path::{Path, PathBuf};
use std::process::Command;

/// A case: files, arguments, and what is printed.
struct Case {
    head: String,
    arguments: Vec<String>,
    printed: String,
}

fn here() -> PathBuf {
    PathBuf::from(env!("CARGO_MANIFEST_DIR"))
}

/// Lines `#` say what it is, `edit NAME: OLD => NEW` takes an example and changes it, `words NAME: 1 2 3` makes an
/// image, `bytes NAME: 1 2` a file, `file NAME` and what is indented a text; `$ ARGUMENTS` is run. Behind it stands what is printed.
fn read(text: &str, folder: &Path) -> Case {
    let (head, rest) = text.split_once("\n$ ").expect("a line that begins with $");
    let (arguments, printed) = rest.split_once('\n').expect("what is printed");
    let mut lines = head.lines().peekable();
    while let Some(line) = lines.next() {
        if let Some(rest) = line.strip_prefix("edit ") {
            let (name, change) = rest.split_once(": ").expect("a name");
            edit(&folder.join(name), name, change);
        } else if let Some(rest) = line.strip_prefix("words ") {
            let (name, words) = rest.split_once(':').expect("a name");
            let words = words
                .split_whitespace()
                .map(|word| word.parse::<u64>().expect("a number"));
            let bytes: Vec<u8> = words.flat_map(u64::to_le_bytes).collect();
            fs::write(folder.join(name), bytes).unwrap();
        } else if let Some(rest) = line.strip_prefix("bytes ") {
            let (name, bytes) = rest.split_once(':').expect("a name");
            let bytes = bytes.split_whitespace().map(|byte| byte.parse().expect("a byte"));
            fs::write(folder.join(name), bytes.collect::<Vec<u8>>()).unwrap();
        } else if let Some(name) = line.strip_prefix("file ") {
            let mut text = String::new();
            while let Some(line) = lines.next_if(|line| line.starts_with("    ")) {
                text += line[4..].trim_end();
                text.push('\n');
            }
            fs::write(folder.join(name), text).unwrap();
        } else {
            assert!(line.starts_with('#') || line.is_empty(), "{line}");
        }
    }
    Case {
        head: head.to_string(),
        arguments: arguments_of(arguments),
        printed: printed.to_string(),
    }
}

/// Words, with those between two ' taken as one.
fn arguments_of(text: &str) -> Vec<String> {
    let parts = text.split('\'').enumerate();
    let words = |(at, part): (usize, &str)| -> Vec<String> {
        match at % 2 {
            0 => part.split_whitespace().map(str::to_string).collect(),
            _ => vec![part.to_string()],
        }
    };
    parts.flat_map(words).collect()
}

/// The example, or what an edit before this one has made of it; OLD must be there.
fn edit(path: &Path, name: &str, change: &str) {
    let example = here().join("../../examples").join(name);
    let text = fs::read_to_string(path)
        .or_else(|_| fs::read_to_string(example))
        .unwrap();
    let (old, new) = change.split_once(" => ").unwrap_or((change, ""));
    assert!(text.contains(old), "{name} has no \"{old}\"");
    let new = new.replace("\\n", "\n");
    fs::write(path, text.replacen(old, &new, 1)).unwrap();
}

fn run(case: &Case, folder: &Path) -> String {
    let done = Command::new(env!("CARGO_BIN_EXE_ronthuyal"))
        .args(&case.arguments)
        .current_dir(folder)
        .output()
        .unwrap();
    let said = String::from_utf8(done.stderr).unwrap();
    let mut printed = String::from_utf8(done.stdout).unwrap();
    if !said.is_empty() {
        printed += "--- to standard error\n";
        printed += &said;
    }
    printed + &format!("--- ends with {}\n", done.status.code().unwrap())
}

#[test]
fn golden() {
    let write = std::env::var("RONTHUYAL_WRITE").is_ok();
    let mut cases: Vec<PathBuf> = fs::read_dir(here().join("tests/golden"))
        .unwrap()
        .map(|entry| entry.unwrap().path())
        .filter(|path| path.extension().is_some_and(|extension| extension == "case"))
        .collect();
    cases.sort();
    assert!(cases.len() > 30, "{} cases are too few", cases.len());
    let mut wrong = Vec::new();
    for path in cases {
        let name = path.file_stem().unwrap().to_string_lossy().into_owned();
        let folder = Path::new(env!("CARGO_TARGET_TMPDIR")).join("golden").join(&name);
        let _ = fs::remove_dir_all(&folder);
        fs::create_dir_all(&folder).unwrap();
        let text = fs::read_to_string(&path).unwrap();
        let case = read(&text, &folder);
        let printed = run(&case, &folder);
        if printed == case.printed {
            continue;
        }
        if write {
            let line = text.lines().find(|line| line.starts_with("$ ")).unwrap();
            fs::write(&path, format!("{}\n{line}\n{printed}", case.head)).unwrap();
        }
        wrong.push(format!("{name}: expected\n{}printed\n{printed}", case.printed));
    }
    assert!(wrong.is_empty() || write, "{}", wrong.join("\n"));
}
