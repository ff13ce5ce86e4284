//! Plays an episode: caption cues on a cue board, their writers on a machine of one CPU. Every 6.75 ms the board is asked
//! until no cue is due, then the CPU switches. A writer in charge has its rows on air for that turn, then it blocks.
//!
//!     rustc --edition 2024 -O examples/episode.rs -L target/staticlib -l static=cue_board -l static=ronthuyal \
//!         -o target/episode && target/episode examples/episode.txt

#[path = "episode/board.rs"]
mod board;
#[path = "episode/machine.rs"]
mod machine;
#[path = "episode/script.rs"]
mod script;

use board::{Board, Handed};
use machine::{Machine, NS_PER_MS};
use script::Script;
use std::process::ExitCode;

/// A turn is three timer ticks.
const TURN: u64 = 6_750_000;

fn main() -> ExitCode {
    let Some(path) = std::env::args().nth(1) else {
        eprintln!("episode FILE: the file lists cues, as examples/episode.txt does");
        return ExitCode::from(2);
    };
    match Script::read(&path) {
        Ok(script) => {
            play(script);
            ExitCode::SUCCESS
        }
        Err(line) => {
            eprintln!("{line}");
            ExitCode::FAILURE
        }
    }
}

fn play(script: Script) {
    let Script {
        mut board,
        writers,
        locks,
    } = script;
    let mut machine = Machine::new(writers.len());
    let mut shown = vec![Vec::new(); writers.len()];
    let mut time = 0;
    while board.waiting()
        || machine.writer_in_charge().is_some()
        || shown.iter().any(|cues| !cues.is_empty())
    {
        for (number, _) in writers.iter().enumerate() {
            let locked = locks
                .iter()
                .any(|lock| lock.writer == number && lock.holds(time));
            machine.lock(number, locked);
        }
        machine.end_turn(time);
        hand_out(&mut board, &mut machine, time, &writers, &mut shown);
        if let Some(writer) = machine.switch(time) {
            for cue in shown[writer].drain(..) {
                println!(
                    "{}  {} has cue {cue} on air: {}",
                    ms(time),
                    writers[writer],
                    board.text(cue)
                );
            }
        }
        time += TURN;
    }
}

/// Asks until no cue is due, or one has to stay.
fn hand_out(
    board: &mut Board,
    machine: &mut Machine,
    time: u64,
    writers: &[String],
    shown: &mut [Vec<usize>],
) {
    loop {
        let Handed {
            refusal,
            due,
            cue,
            start,
            writer,
            result,
            ..
        } = board.next(machine, time);
        if refusal != 0 {
            println!(
                "{}  cue {} stays on the board: refusal {refusal}",
                ms(time),
                board.handed_out()
            );
        }
        if due == 0 {
            return;
        }
        let (cue, number) = (cue as usize, machine::number(writer));
        let woken = if result == 1 { "woken" } else { "awake" };
        println!(
            "{}  cue {cue} of {}: {} is {woken}",
            ms(time),
            ms(start).trim_start(),
            writers[number]
        );
        shown[number].push(cue);
    }
}

fn ms(time: u64) -> String {
    format!("{:4}.{:02} ms", time / NS_PER_MS, time % NS_PER_MS / 10_000)
}
