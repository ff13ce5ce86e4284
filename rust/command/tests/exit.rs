//! Exit codes of wrong arguments, which clap words itself, and of a reader that goes away.

use std::io::Read;
use std::process::{Command, Stdio};

fn ronthuyal() -> Command {
    Command::new(env!("CARGO_BIN_EXE_ronthuyal"))
}

#[test]
fn wrong_arguments_end_with_2() {
    for arguments in [
        &["chek"][..],
        &[],
        &["pack"],
        &["replay", "--svg"],
        &["check"],
        &["diff", "one"],
        &["show", "--loud"],
    ] {
        let done = ronthuyal().args(arguments).output().unwrap();
        assert_eq!(done.status.code(), Some(2), "{arguments:?}");
        assert!(!done.stderr.is_empty(), "{arguments:?}");
    }
}

#[test]
fn help_and_version_end_with_0() {
    for argument in ["--help", "--version", "-V", "-h"] {
        let done = ronthuyal().arg(argument).output().unwrap();
        assert_eq!(done.status.code(), Some(0), "{argument}");
    }
    let done = ronthuyal().arg("--version").output().unwrap();
    let version = std::fs::read_to_string(concat!(env!("CARGO_MANIFEST_DIR"), "/../../VERSION")).unwrap();
    assert_eq!(String::from_utf8(done.stdout).unwrap(), format!("ronthuyal {version}"));
}

#[test]
fn a_reader_that_goes_away_ends_it_quietly() {
    let mut child = ronthuyal()
        .arg("priorities")
        .stdout(Stdio::piped())
        .stderr(Stdio::piped())
        .spawn()
        .unwrap();
    drop(child.stdout.take());
    let mut said = String::new();
    child.stderr.take().unwrap().read_to_string(&mut said).unwrap();
    assert_eq!((child.wait().unwrap().code(), &said[..]), (Some(0), ""));
}

/// A file of 2^k random-looking bytes, text or not, is shown.
#[test]
fn show_takes_any_words() {
    let path = std::path::Path::new(env!("CARGO_TARGET_TMPDIR")).join("any.bin");
    for seed in 1..40_u64 {
        let mut state = seed;
        let mut word = || {
            state = state.wrapping_mul(6_364_136_223_846_793_005).wrapping_add(1);
            [state, state >> 60, state >> 32, 1, 2, 0][(state >> 33) as usize % 6]
        };
        let count = [0, 1, 2, 3, 694, 720, 4330, 5000][seed as usize % 8];
        let mut words: Vec<u64> = (0..count).map(|_| word()).collect();
        if count == 694 {
            words[..2].copy_from_slice(&[1, 1]);
        } else if count == 4330 {
            words[..2].copy_from_slice(&[4, 64]);
        }
        let bytes: Vec<u8> = words.iter().flat_map(|word| word.to_le_bytes()).collect();
        std::fs::write(&path, &bytes).unwrap();
        let shown = ronthuyal().arg("show").arg(&path).output().unwrap();
        assert_eq!(
            shown.status.code(),
            Some(0),
            "{}",
            String::from_utf8_lossy(&shown.stderr)
        );
        let text = path.with_extension("txt");
        std::fs::write(&text, shown.stdout).unwrap();
        let back = path.with_extension("back");
        let packed = ronthuyal()
            .arg("pack")
            .arg(&text)
            .arg("-o")
            .arg(&back)
            .output()
            .unwrap();
        assert_eq!(
            packed.status.code(),
            Some(0),
            "{}",
            String::from_utf8_lossy(&packed.stderr)
        );
        assert_eq!(std::fs::read(back).unwrap(), bytes);
        // Accepted or refused, and the explanation's number is the archive's.
        let checked = ronthuyal()
            .args(["check", "--call", "switch 0 1s"])
            .arg(&path)
            .output()
            .unwrap();
        assert!(
            matches!(checked.status.code(), Some(0 | 3)),
            "{}",
            String::from_utf8_lossy(&checked.stdout)
        );
        let called = ronthuyal()
            .arg("call")
            .arg(&path)
            .args(["tick", "0", "1s"])
            .output()
            .unwrap();
        assert!(
            matches!(called.status.code(), Some(0 | 3)),
            "{}",
            String::from_utf8_lossy(&called.stderr)
        );
    }
}

/// A trace with letters changed ends with one of the four codes; what is not understood has its line.
#[test]
fn wrong_traces_are_told() {
    let example = std::path::Path::new(env!("CARGO_MANIFEST_DIR")).join("../../examples/evening.txt");
    let evening = std::fs::read_to_string(example).unwrap();
    let path = std::path::Path::new(env!("CARGO_TARGET_TMPDIR")).join("wrong.txt");
    let mut state = 5_u64;
    let mut next = |bound: usize| {
        state = state
            .wrapping_mul(6_364_136_223_846_793_005)
            .wrapping_add(1_442_695_040_888_963_407);
        (state >> 33) as usize % bound
    };
    let mut codes = [0; 4];
    for _ in 0..150 {
        let mut text: Vec<u8> = evening.bytes().collect();
        for _ in 0..1 + next(3) {
            // Behind the description, where calls stand.
            let from = evening.find("timer").unwrap();
            let at = from + next(text.len() - from);
            match next(3) {
                0 => drop(text.remove(at)),
                1 => text.insert(at, b" =.+0123456789abcs"[next(18)]),
                _ => text[at] = b" =.+0123456789abcs\n"[next(19)],
            }
        }
        std::fs::write(&path, &text).unwrap();
        let done = ronthuyal().arg("replay").arg(&path).output().unwrap();
        let (code, said) = (
            done.status.code().unwrap() as usize,
            String::from_utf8_lossy(&done.stderr).into_owned(),
        );
        codes[code] += 1;
        if code == 2 {
            let rest = said
                .strip_prefix(&format!("{}:", path.display()))
                .unwrap_or_else(|| panic!("{said}"));
            let (line, says) = rest.split_once(": ").unwrap();
            assert!(
                line.parse::<usize>().is_ok_and(|line| line <= 60) && says.contains("; "),
                "{said}"
            );
        }
    }
    assert!(codes[0] > 4 && codes[2] > 50, "{codes:?}");
}
