use super::{Asked, Cue, add, ask, length, name, put, refusal};

fn board(capacity: u64) -> Vec<u8> {
    let mut bytes = vec![0xee; length(capacity as usize)];
    bytes[..24].fill(0);
    put(&mut bytes, 0, capacity);
    bytes
}

fn cue(start: u64, writer: u64, first: &str, second: &str) -> Cue {
    Cue {
        start,
        writer,
        rows: [first.into(), second.into()],
    }
}

/// A board of two cues, byte by byte: 24 of sizes, 16 of starts, 16 of writers, 4 lengths and four
/// rows of 40 are 220.
#[test]
fn every_byte() {
    let mut bytes = board(2);
    assert_eq!(bytes.len(), 220);
    assert_eq!(add(&mut bytes, &cue(0x0102, 3, "one", "")), 0);
    let mut want = vec![0xee; 220];
    want[..24].fill(0);
    (want[0], want[8]) = (2, 1);
    want[24..32].copy_from_slice(&[2, 1, 0, 0, 0, 0, 0, 0]);
    want[40..48].copy_from_slice(&[3, 0, 0, 0, 0, 0, 0, 0]);
    want[56..58].copy_from_slice(&[3, 0]);
    want[60..140].fill(0);
    want[60..63].copy_from_slice(b"one");
    assert_eq!(bytes, want);
    assert_eq!(add(&mut bytes, &cue(0x0103, u64::MAX, "", "of two")), 0);
    want[8] = 2;
    want[32..40].copy_from_slice(&[3, 1, 0, 0, 0, 0, 0, 0]);
    want[48..56].fill(0xff);
    want[58..60].copy_from_slice(&[0, 6]);
    want[140..220].fill(0);
    want[180..186].copy_from_slice(b"of two");
    assert_eq!(bytes, want);
}

/// The earliest that is not handed out, at its start and not before.
#[test]
fn due() {
    let mut bytes = board(3);
    assert_eq!(ask(&bytes, u64::MAX), Asked::NoneDue);
    assert_eq!(add(&mut bytes, &cue(5, 0, "", "")), 0);
    assert_eq!(add(&mut bytes, &cue(7, 0, "", "")), 0);
    assert_eq!(ask(&bytes, 4), Asked::NoneDue);
    assert_eq!(ask(&bytes, 5), Asked::Due(0));
    assert_eq!(ask(&bytes, 100), Asked::Due(0));
    put(&mut bytes, super::HANDED_OUT, 1);
    assert_eq!(ask(&bytes, 6), Asked::NoneDue);
    assert_eq!(ask(&bytes, 7), Asked::Due(1));
    put(&mut bytes, super::HANDED_OUT, 2);
    assert_eq!(ask(&bytes, 7), Asked::NoneDue);
}

/// 24 + 98 · (K + 2^63) is 24 + 98 · K once the carry is lost.
#[test]
fn sizes() {
    for (at, number) in [
        (0, 0),
        (0, 3),
        (0, 2 + (1 << 63)),
        (0, u64::MAX),
        (8, 3),
        (16, 1),
    ] {
        let mut bytes = board(2);
        put(&mut bytes, at, number);
        assert_eq!(refusal(&bytes, None), 1, "{number} at {at}");
    }
    assert_eq!(refusal(&board(512), None), 0);
    assert_eq!(refusal(&board(513), None), 1);
    assert_eq!(refusal(&[0; 23], None), 1);
}

#[test]
fn names() {
    for (at, want) in [
        (0, "byte 0 of K"),
        (17, "byte 1 of handed out"),
        (39, "cue 1: byte 7 of start"),
        (40, "cue 0: byte 0 of writer"),
        (59, "cue 1: length of row 1"),
        (60, "cue 0: byte 0 of row 0"),
        (219, "cue 1: byte 39 of row 1"),
        (220, "byte 220, past the end"),
    ] {
        assert_eq!(name(2, at), want);
    }
}
