//! How long calls on a cue board of 512 cues take, beside a plain loop over the same bytes.

use super::images::{self, Size};
use crate::{
    boards::{self, Case},
    generate::Turn,
    port,
};
use image::{
    Call,
    board::{self, CAPACITY_MAX, Cue, Handed, ROW},
    context as c,
};
use std::{hint::black_box, time::Instant};

/// How many calls are timed together, and how often.
const BATCH: usize = 32;
const BATCHES: usize = 200;

const K: usize = CAPACITY_MAX as usize;
const WRITER: usize = 60;

/// A board, an image and a call on them.
type Way = fn(&mut [u8], &mut [u64], &Turn);

fn by_port(board: &mut [u8], image: &mut [u64], turn: &Turn) {
    match turn {
        Turn::Add(cue) => drop(black_box(port::add(board, cue))),
        Turn::Ask { cpu, time } => drop(black_box(port::next(board, image, *cpu, *time))),
    }
}

/// The call as one would write it, for a board of K cues whose sizes are right; the writer is
/// woken by the port.
fn by_loop(board: &mut [u8], image: &mut [u64], turn: &Turn) {
    match turn {
        Turn::Add(cue) => drop(black_box(plain_add(board, cue))),
        Turn::Ask { cpu, time } => drop(black_box(plain_next(board, image, *cpu, *time))),
    }
}

/// The pass alone.
fn pass_only(board: &mut [u8], _: &mut [u64], _: &Turn) {
    let stored = board::number(board, board::STORED) as usize;
    black_box(plain_pass(board, stored));
}

/// Refusals 10 and 11 of the stored cues, and the last start.
fn plain_pass(board: &[u8], stored: usize) -> (u64, Option<u64>) {
    let lengths = &board[board::length_at(K, 0, 0)..][..2 * stored];
    if lengths.iter().any(|length| usize::from(*length) > ROW) {
        return (10, None);
    }
    let mut last = None;
    for start in board[board::start_at(0)..][..8 * stored].chunks_exact(8) {
        let start = u64::from_le_bytes(start.try_into().unwrap());
        if last.is_some_and(|last| start <= last) {
            return (11, None);
        }
        last = Some(start);
    }
    (0, last)
}

fn plain_add(board: &mut [u8], cue: &Cue) -> u64 {
    if cue.rows.iter().any(|row| row.len() > ROW) {
        return 10;
    }
    let stored = board::number(board, board::STORED) as usize;
    match plain_pass(board, stored) {
        (0, Some(last)) if cue.start <= last => return 11,
        (0, _) => {}
        (refusal, _) => return refusal,
    }
    if stored == K {
        return 12;
    }
    board::put(board, board::start_at(stored), cue.start);
    board::put(board, board::writer_at(K, stored), cue.writer);
    for (number, row) in cue.rows.iter().enumerate() {
        board[board::length_at(K, stored, number)] = row.len() as u8;
        let place = &mut board[board::row_at(K, stored, number)..][..ROW];
        place[..row.len()].copy_from_slice(row);
        place[row.len()..].fill(0);
    }
    board::put(board, board::STORED, stored as u64 + 1);
    0
}

fn plain_next(board: &mut [u8], image: &mut [u64], cpu: u64, time: u64) -> Handed {
    let stored = board::number(board, board::STORED) as usize;
    let (refusal, _) = plain_pass(board, stored);
    if refusal != 0 {
        return Handed::refused(refusal);
    }
    let slot = board::number(board, board::HANDED_OUT) as usize;
    if slot == stored || board::number(board, board::start_at(slot)) > time {
        return Handed::default();
    }
    let call = board::wake_up(board, slot, cpu, time);
    let woken = port::call(image, &call).unwrap_or_default();
    board::hand_out(board, slot, &woken)
}

/// Operation 4 alone.
fn wake_up_only(_: &mut [u8], image: &mut [u64], turn: &Turn) {
    if let Turn::Ask { cpu, time } = turn {
        let call = Call {
            operation: 4,
            cpu: *cpu,
            time: *time,
            context: WRITER as u64,
        };
        black_box(port::call(image, &call));
    }
}

/// The least mean of a batch of each way, in ns a call; the ways take turns.
fn least<const WAYS: usize>(case: &Case, ways: [Way; WAYS]) -> [f64; WAYS] {
    let mut least = [f64::MAX; WAYS];
    let mut places = vec![(case.board.clone(), case.image.clone()); BATCH];
    for _ in 0..BATCHES {
        for (least, way) in least.iter_mut().zip(ways) {
            for (board, image) in &mut places {
                board.copy_from_slice(black_box(&case.board));
                image.copy_from_slice(black_box(&case.image));
            }
            let clock = Instant::now();
            for (board, image) in &mut places {
                way(black_box(board), black_box(image), black_box(&case.turn));
            }
            *least = least.min(clock.elapsed().as_nanos() as f64 / BATCH as f64);
        }
    }
    least
}

fn cue(start: u64) -> Cue {
    Cue {
        start,
        writer: WRITER as u64,
        rows: [b"Good evening.".to_vec(), b"Here is the news.".to_vec()],
    }
}

fn stored(count: usize, handed_out: usize) -> Vec<u8> {
    let mut bytes = vec![0; board::length(K)];
    board::put(&mut bytes, board::CAPACITY, CAPACITY_MAX);
    for start in 0..count {
        assert_eq!(board::add(&mut bytes, &cue(start as u64)), 0);
    }
    board::put(&mut bytes, board::HANDED_OUT, handed_out as u64);
    bytes
}

/// Prints the table of docs/BENCHMARKS.md on the cue board.
pub fn times() -> bool {
    if !port::CUE_BOARD {
        println!("There is no archive of the cue board: there is nothing to time.");
        return false;
    }
    let size = Size {
        cpus: 4,
        contexts: 64,
        entries: 32,
    };
    let mut image = images::last_wins(&size).image();
    image[image::record(WRITER) + c::STATUS] = c::BLOCKED;
    let ask = |time| Turn::Ask { cpu: 0, time };
    let calls = [
        ("add, 511 stored", stored(K - 1, 0), Turn::Add(cue(511))),
        ("add, 512 stored: 12", stored(K, 0), Turn::Add(cue(512))),
        ("ask, 512 stored: none due", stored(K, K - 1), ask(510)),
        (
            "ask, 512 stored: the last is handed out",
            stored(K, K - 1),
            ask(511),
        ),
    ];
    println!("| K = 512 | port | loop | pass | wake-up | port/loop |\n|---|---|---|---|---|---|");
    calls.into_iter().all(|(name, board, turn)| {
        let image = image.clone();
        let case = Case { board, image, turn };
        row(name, &case)
    })
}

fn row(name: &str, case: &Case) -> bool {
    let Some(after) = boards::one(case) else {
        return false;
    };
    let (mut board, mut image) = (case.board.clone(), case.image.clone());
    by_loop(&mut board, &mut image, &case.turn);
    assert!(board == after.board && image == after.image);
    let [port, plain, pass, woken] = least(case, [by_port, by_loop, pass_only, wake_up_only]);
    let woken = match after.handed.due {
        1 => format!("{woken:.0}"),
        _ => "".into(),
    };
    let ratio = port / plain;
    println!("| {name} | {port:.0} | {plain:.0} | {pass:.0} | {woken} | {ratio:.2} |");
    true
}
