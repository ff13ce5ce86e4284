//! Single calls on boards, each with what document 02 makes of it, worked out by hand. The own
//! reading, the kernel and the port must all give it.

use super::{After, Case, one};
use crate::generate::Turn;
use image::{
    NUMBER_MAX, ROOM, View, block as b,
    board::{Cue, Handed, length, length_at, put, row_at, start_at, writer_at},
    context as c, length as image_length,
};

/// Idle of CPU 0 and of CPU 1, then writers: blocked, blocked and last on CPU 1, runnable,
/// locked, gone.
const CONTEXTS: usize = 7;
const WRITER: u64 = 2;
const REMOTE: u64 = 3;
const RUNNABLE: u64 = 4;
const LOCKED: u64 = 5;
const GONE: u64 = 6;

/// Three CPUs, of which the last is absent.
fn machine() -> Vec<u64> {
    let mut image = vec![0; image_length(3, CONTEXTS)];
    (image[0], image[1]) = (3, CONTEXTS as u64);
    let record = |number: u64| image::record(number as usize);
    for number in 0..CONTEXTS as u64 {
        image[record(number) + c::DEBUG_ID] = number;
    }
    for blocked in [WRITER, REMOTE, LOCKED] {
        image[record(blocked) + c::STATUS] = c::BLOCKED;
    }
    image[record(REMOTE) + c::CPU_ID] = 2;
    image[record(LOCKED) + c::LOCK] = 2;
    image[record(GONE) + c::GONE] = 1;
    for cpu in 0..2 {
        let block = View(&image).block_at(cpu);
        image[block + b::PRESENT] = 1;
        for word in [b::CURRENT_CTXT, b::SCHED_CTXT, b::IDLE_CTXT] {
            image[block + word] = cpu as u64;
        }
    }
    image
}

fn cue(start: u64, writer: u64, first: &[u8], second: &[u8]) -> Cue {
    Cue {
        start,
        writer,
        rows: [first.to_vec(), second.to_vec()],
    }
}

/// An empty board whose free slots have any bytes.
fn empty(capacity: usize) -> Vec<u8> {
    let mut board = vec![0xee; length(capacity)];
    board[..24].fill(0);
    put(&mut board, 0, capacity as u64);
    board
}

/// Cues of these starts, each with that writer and the rows `one` and nothing.
fn board(capacity: usize, starts: &[u64], writer: u64) -> Vec<u8> {
    let mut board = empty(capacity);
    for start in starts {
        let (refusal, after) = add(&board, cue(*start, writer, b"one", b""));
        assert_eq!(refusal, 0);
        board = after;
    }
    board
}

fn call(board: &[u8], image: &[u64], turn: Turn) -> After {
    let case = Case {
        board: board.to_vec(),
        image: image.to_vec(),
        turn,
    };
    let after = one(&case).expect("no difference");
    if after.handed.due == 0 {
        // Asking without a cue, or a refusal, changes no word.
        assert_eq!(after.image, case.image);
    }
    if after.handed.refusal != 0 {
        assert_eq!(after.handed, Handed::refused(after.handed.refusal));
        assert_eq!(after.board, case.board);
    }
    after
}

fn add(board: &[u8], cue: Cue) -> (u64, Vec<u8>) {
    let after = call(board, &[], Turn::Add(cue));
    (after.handed.refusal, after.board)
}

fn refused(board: &[u8], cue: Cue) -> u64 {
    add(board, cue).0
}

fn ask(board: &[u8], image: &[u64], cpu: u64, time: u64) -> After {
    call(board, image, Turn::Ask { cpu, time })
}

fn asked(board: &[u8], time: u64) -> u64 {
    ask(board, &machine(), 0, time).handed.refusal
}

#[test]
fn rows_of_40_and_41() {
    let free = empty(2);
    let (refusal, after) = add(&free, cue(7, WRITER, &[b'a'; 40], &[b'b'; 40]));
    assert_eq!(refusal, 0);
    assert_eq!(after[length_at(2, 0, 0)..][..2], [40, 40]);
    assert_eq!(after[row_at(2, 0, 0)..][..40], [b'a'; 40]);
    assert_eq!(after[row_at(2, 0, 1)..][..40], [b'b'; 40]);
    // The next slot is kept.
    assert_eq!(after[row_at(2, 1, 0)..], [0xee; 80]);
    assert_eq!(refused(&free, cue(7, WRITER, &[0; 41], b"")), 10);
    assert_eq!(refused(&free, cue(7, WRITER, b"", &[0; 41])), 10);
    // Their lowest byte alone would be 0 and 40.
    assert_eq!(refused(&free, cue(7, WRITER, &[0; 256], b"")), 10);
    assert_eq!(refused(&free, cue(7, WRITER, b"", &[0; 296])), 10);
}

#[test]
fn the_rest_of_a_row_is_zero() {
    let (_, after) = add(&empty(1), cue(7, WRITER, b"one", b""));
    assert_eq!(&after[row_at(1, 0, 0)..][..3], b"one");
    assert_eq!(after[row_at(1, 0, 0) + 3..], [0; 77]);
}

/// Of a cue that is handed out too; not of a slot that holds none.
#[test]
fn a_stored_row_of_41() {
    for slot in 0..2 {
        for row in 0..2 {
            let mut board = board(3, &[5, 6], WRITER);
            board[length_at(3, slot, row)] = 41;
            assert_eq!(refused(&board, cue(7, WRITER, b"", b"")), 10);
            assert_eq!(asked(&board, 0), 10);
            put(&mut board, 16, 2);
            assert_eq!(asked(&board, 0), 10);
            // 10 comes before 11, wherever the start is.
            put(&mut board, start_at(1), 5);
            assert_eq!(asked(&board, 0), 10);
            assert_eq!(refused(&board, cue(7, WRITER, b"", b"")), 10);
        }
    }
    let mut board = board(3, &[5, 6], WRITER);
    board[length_at(3, 2, 0)] = 41;
    assert_eq!(asked(&board, 0), 0);
    assert_eq!(refused(&board, cue(7, WRITER, b"", b"")), 0);
}

#[test]
fn an_offered_start_that_is_not_later() {
    assert_eq!(refused(&empty(1), cue(0, WRITER, b"", b"")), 0);
    let board = board(2, &[5], WRITER);
    for (start, refusal) in [(0, 11), (4, 11), (5, 11), (6, 0), (u64::MAX, 0)] {
        assert_eq!(refused(&board, cue(start, WRITER, b"", b"")), refusal);
    }
    assert_eq!(refused(&board, cue(5, WRITER, b"", &[0; 41])), 10);
}

#[test]
fn stored_starts_that_do_not_rise() {
    for (slot, start) in [(1, 5), (1, 0), (2, 6), (0, 9)] {
        let mut board = board(4, &[5, 6, 7], WRITER);
        put(&mut board, start_at(slot), start);
        assert_eq!(asked(&board, 0), 11);
        assert_eq!(refused(&board, cue(10, WRITER, b"", b"")), 11);
        put(&mut board, 16, 3);
        assert_eq!(asked(&board, 10), 11);
    }
    // The slot behind those stored may have any start.
    let mut board = board(4, &[5, 6, 7], WRITER);
    put(&mut board, start_at(3), 0);
    assert_eq!(asked(&board, 0), 0);
}

#[test]
fn full() {
    let board = board(2, &[5, 6], WRITER);
    assert_eq!(refused(&board, cue(7, WRITER, b"", b"")), 12);
    assert_eq!(refused(&board, cue(6, WRITER, b"", b"")), 11);
    assert_eq!(refused(&board, cue(7, WRITER, &[0; 41], b"")), 10);
    assert_eq!(refused(&board, cue(6, WRITER, b"", &[0; 41])), 10);
    // Handing out makes no room: a board takes K cues in its life.
    let after = ask(&board, &machine(), 0, 6);
    assert_eq!(after.handed.due, 1);
    assert_eq!(refused(&after.board, cue(7, WRITER, b"", b"")), 12);
}

#[test]
fn capacities() {
    let starts: Vec<u64> = (0..511).collect();
    let (refusal, after) = add(&board(512, &starts, WRITER), cue(511, WRITER, b"", b"last"));
    assert_eq!((refusal, after.len()), (0, 50_200));
    assert_eq!(&after[50_160..50_164], b"last");
    assert_eq!(refused(&after, cue(512, WRITER, b"", b"")), 12);
    assert_eq!(ask(&after, &machine(), 0, 0).handed.due, 1);
    let mut sizes = vec![empty(513), vec![0; 24], vec![0; 23], vec![]];
    // The second has the right length once the carry out of 64 bits is lost.
    for capacity in [2, 1 + (1 << 63), u64::MAX, 1 << 32] {
        let mut board = empty(1);
        put(&mut board, 0, capacity);
        sizes.push(board);
    }
    for (at, number) in [(8, 2), (8, u64::MAX), (16, 1)] {
        let mut board = empty(1);
        put(&mut board, at, number);
        sizes.push(board);
    }
    let mut long = empty(1);
    long.push(0);
    sizes.push(long);
    for board in sizes {
        assert_eq!(asked(&board, 0), 1);
        // 1 comes before 10.
        assert_eq!(refused(&board, cue(0, 0, &[0; 41], b"")), 1);
    }
}

#[test]
fn handed_out() {
    let board = board(2, &[5, 7], WRITER);
    let after = ask(&board, &machine(), 1, 5);
    let want = Handed {
        refusal: 0,
        due: 1,
        cue: 0,
        start: 5,
        writer: 2,
        first_length: 3,
        second_length: 0,
        result: 1,
        interrupt: 0,
    };
    assert_eq!(after.handed, want);
    let mut bytes = board.clone();
    bytes[16] = 1;
    assert_eq!(after.board, bytes);
    // The writer is runnable, and named on the local list of the CPU of the call.
    let mut words = machine();
    words[image::record(2) + c::STATUS] = c::RUNNABLE;
    let block = View(&words).block_at(1);
    words[block + b::LOCAL_COUNT] = 1;
    words[block + b::LOCAL_WAKEUP_LIST] = WRITER;
    assert_eq!(after.image, words);
    // A time that goes back: the next cue is not due before its own start.
    assert_eq!(ask(&after.board, &words, 0, 4).handed, Handed::default());
    assert_eq!(ask(&after.board, &words, 0, 6).handed, Handed::default());
    let second = ask(&after.board, &words, 0, 7);
    // It is runnable now: handed out all the same.
    assert_eq!((second.handed.cue, second.handed.start), (1, 7));
    assert_eq!((second.handed.due, second.handed.result), (1, 0));
    // Nothing is left.
    let last = ask(&second.board, &words, 0, u64::MAX);
    assert_eq!(last.handed, Handed::default());
}

#[test]
fn other_writers() {
    let remote = ask(&board(1, &[5], REMOTE), &machine(), 0, 5);
    assert_eq!((remote.handed.result, remote.handed.interrupt), (1, 1));
    let block = View(&remote.image).block_at(1);
    assert_eq!(remote.image[block + b::IPI_CONTEXT_WAKEUP_LIST], REMOTE);
    let runnable = ask(&board(1, &[5], RUNNABLE), &machine(), 0, 5);
    assert_eq!((runnable.handed.due, runnable.handed.result), (1, 0));
}

/// The cue stays, and is handed out once its writer can be woken.
#[test]
fn a_wake_up_that_is_refused() {
    let mut broken = machine();
    broken[image::record(1) + c::DEBUG_ID] = 0;
    let mut full = machine();
    let block = View(&full).block_at(0);
    full[block + b::LOCAL_COUNT] = ROOM as u64;
    // The gone mark of context 0.
    let out_of_range = [&machine()[..2], &[2], &machine()[3..]].concat();
    let calls = [
        (WRITER, vec![], 0, 5, 1),
        (WRITER, machine()[1..].to_vec(), 0, 5, 1),
        (WRITER, [machine(), vec![0]].concat(), 0, 5, 2),
        (WRITER, out_of_range, 0, 5, 3),
        (WRITER, machine(), 0, NUMBER_MAX + 1, 3),
        (WRITER, broken, 0, 5, 4),
        (WRITER, machine(), 2, 5, 5),
        (WRITER, machine(), 3, 5, 5),
        (WRITER, machine(), 1 << 32, 5, 5),
        (GONE, machine(), 0, 5, 5),
        (7, machine(), 0, 5, 5),
        (u64::MAX, machine(), 0, 5, 5),
        (WRITER + (1 << 32), machine(), 0, 5, 5),
        (LOCKED, machine(), 0, 5, 6),
        (WRITER, full, 0, 5, 9),
    ];
    for (writer, image, cpu, time, refusal) in calls {
        let mut board = board(2, &[5], writer);
        let after = ask(&board, &image, cpu, time);
        assert_eq!(after.handed.refusal, refusal, "{writer} on {cpu} at {time}");
        put(&mut board, writer_at(2, 0), WRITER);
        let later = ask(&board, &machine(), 0, 5);
        assert_eq!((later.handed.due, later.handed.cue), (1, 0));
    }
}

/// No cue is due: the image is not looked at.
#[test]
fn none_due_with_a_damaged_image() {
    let waiting = board(1, &[5], GONE);
    let mut over = waiting.clone();
    over[16] = 1;
    for image in [vec![], vec![u64::MAX; 3], vec![0; 700]] {
        assert_eq!(ask(&waiting, &image, 9, 4).handed, Handed::default());
        assert_eq!(ask(&over, &image, 9, u64::MAX).handed, Handed::default());
        assert_eq!(ask(&empty(1), &image, 9, 5).handed, Handed::default());
        // The board's own numbers come first.
        let mut long = waiting.clone();
        long[length_at(1, 0, 1)] = 41;
        assert_eq!(ask(&long, &image, 9, 5).handed.refusal, 10);
    }
}
