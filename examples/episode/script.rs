//! An episode as a text: `cue MS WRITER FIRST | SECOND`, or `lock FROM TO WRITER` for the time in which another CPU has
//! the writer's record locked; `#` begins a comment. What is wrong is said in a line.

use crate::{
    board::{Board, CAPACITY, ROW},
    machine::{self, NS_PER_MS},
};

/// As many writers as there may be, and the last millisecond of an episode.
const WRITERS: usize = 8;
const LAST: u64 = 600_000;

pub struct Script {
    pub board: Board,
    pub writers: Vec<String>,
    pub locks: Vec<Lock>,
}

pub struct Lock {
    pub writer: usize,
    from: u64,
    to: u64,
}

impl Lock {
    pub fn holds(&self, time: u64) -> bool {
        (self.from..self.to).contains(&time)
    }
}

impl Script {
    pub fn read(path: &str) -> Result<Self, String> {
        let text = std::fs::read_to_string(path).map_err(|error| format!("{path}: {error}"))?;
        let mut script = Self {
            board: Board::empty(),
            writers: Vec::new(),
            locks: Vec::new(),
        };
        for (number, line) in text.lines().enumerate() {
            script
                .line(line)
                .map_err(|wrong| format!("{path}:{}: {wrong}", number + 1))?;
        }
        Ok(script)
    }

    fn line(&mut self, line: &str) -> Result<(), String> {
        if line.is_empty() || line.starts_with('#') {
            return Ok(());
        }
        let (kind, rest) = line.split_once(' ').unwrap_or((line, ""));
        match kind {
            "cue" => self.cue(rest),
            "lock" => self.lock(rest),
            _ => Err(format!(
                "a line that begins with {kind:?}; cue, lock and # are known"
            )),
        }
    }

    fn cue(&mut self, rest: &str) -> Result<(), String> {
        let mut parts = rest.splitn(3, ' ');
        let start = time(parts.next().unwrap_or(""))?;
        let writer = self.writer(parts.next().unwrap_or(""))?;
        let rows = parts.next().unwrap_or("").split_once('|');
        let (first, second) =
            rows.ok_or("a cue with one row; two rows stand at the sides of a bar")?;
        let (first, second) = (first.trim(), second.trim());
        match self
            .board
            .add(start, machine::context(writer), [first, second])
        {
            0 => Ok(()),
            10 => {
                let longest = first.len().max(second.len());
                Err(format!("a row of {longest} bytes; a row has at most {ROW}"))
            }
            11 => Err("a start not later than the one before; starts rise".into()),
            12 => Err(format!(
                "one cue more than the board takes; it takes {CAPACITY}"
            )),
            other => Err(format!("refusal {other} of the board")),
        }
    }

    fn lock(&mut self, rest: &str) -> Result<(), String> {
        let parts: Vec<&str> = rest.split(' ').collect();
        let [from, to, name] = parts[..] else {
            return Err("a lock without all of its parts; these are FROM TO WRITER".into());
        };
        let lock = Lock {
            from: time(from)?,
            to: time(to)?,
            writer: self.writer(name)?,
        };
        self.locks.push(lock);
        Ok(())
    }

    /// A writer by its name; one that is not known yet is a new one.
    fn writer(&mut self, name: &str) -> Result<usize, String> {
        if let Some(known) = self.writers.iter().position(|writer| writer == name) {
            return Ok(known);
        }
        if name.is_empty() {
            return Err("no writer; a cue names one behind its start".into());
        }
        if self.writers.len() == WRITERS {
            return Err(format!(
                "one writer more than there may be; at most {WRITERS}"
            ));
        }
        self.writers.push(name.into());
        Ok(self.writers.len() - 1)
    }
}

fn time(text: &str) -> Result<u64, String> {
    match text.parse::<u64>() {
        Ok(ms) if ms <= LAST => Ok(ms * NS_PER_MS),
        _ => Err(format!(
            "{text:?} is no time; it is a number of milliseconds, at most {LAST}"
        )),
    }
}
