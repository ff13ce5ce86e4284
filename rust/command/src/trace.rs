//! A trace, line by line: an image, then `call`, `set` and `expect`.

mod expect;
mod until;

pub use until::Until;

use crate::calls::{self, Last};
use crate::happened::Happened;
use crate::load;
use crate::refused::not_the_reply;
use crate::stop::Stop;
use ronthuyal::words::text::{Builder, Packed, first, without_comment};
use ronthuyal::words::{Call, Labels};
use ronthuyal::{Done, Refusal};
use std::io::BufRead;
use std::path::Path;

const NO_TEXT: &str = "no text; a trace is lines, and image FILE takes words";

/// What a line came to.
pub enum Step {
    /// Nothing to tell.
    Quiet,
    /// The image is complete, and nothing was done with it yet.
    Begun,
    /// A call was made.
    Called(Call, Result<Done, Refusal>),
    /// An expectation was met, or not and why.
    Expected(Result<(), String>),
    /// The trace is at its end.
    End,
}

/// Reads a trace and makes its calls on one image; what is read is forgotten, so it may be of any length.
pub struct Player<'a, R> {
    path: &'a Path,
    reader: R,
    line: String,
    next: String,
    ended: bool,
    /// The line is to be taken once more: its image was completed first.
    again: bool,
    pub number: u32,
    pub bytes: u64,
    builder: Builder,
    packed: Option<Packed>,
    last: Last,
    answer: Option<Result<Done, Refusal>>,
    before: Vec<u64>,
    pub happened: Happened,
    /// A call was refused and nobody has said that it may be: its line, and what is to be said.
    unexpected: Option<String>,
    pub refused: u64,
    pub surprises: Vec<String>,
    pub surprised: u64,
}

impl<'a, R: BufRead> Player<'a, R> {
    pub fn new(path: &'a Path, reader: R) -> Result<Self, Stop> {
        let mut player = Self {
            path,
            reader,
            line: String::new(),
            next: String::new(),
            ended: false,
            again: false,
            number: 0,
            bytes: 0,
            builder: Builder::default(),
            packed: None,
            last: Last::default(),
            answer: None,
            before: Vec::new(),
            happened: Happened::default(),
            unexpected: None,
            refused: 0,
            surprises: Vec::new(),
            surprised: 0,
        };
        player.advance()?;
        Ok(player)
    }

    /// The image as it is now; nothing before the first call.
    pub fn image(&self) -> Option<&Packed> {
        self.packed.as_ref()
    }

    /// Reads the line after next: the one to come says whether the image before a call is asked for.
    fn advance(&mut self) -> Result<(), Stop> {
        std::mem::swap(&mut self.line, &mut self.next);
        self.next.clear();
        let read = self.reader.read_line(&mut self.next);
        let read = read.map_err(|error| match error.kind() {
            std::io::ErrorKind::InvalidData => Stop::at(self.path, self.number + 1, NO_TEXT),
            _ => Stop::file(self.path, &error),
        })?;
        self.bytes += read as u64;
        self.ended = read == 0;
        match self.next.contains('\0') {
            true => Err(Stop::at(self.path, self.number + 1, NO_TEXT)),
            false => Ok(()),
        }
    }

    fn wrong<T>(&self, says: Result<T, String>) -> Result<T, Stop> {
        says.map_err(|says| Stop::at(self.path, self.number, &says))
    }

    /// Takes the next line. `until` may end the trace before a call.
    pub fn step(&mut self, until: Until, made: u64) -> Result<Step, Stop> {
        if !std::mem::take(&mut self.again) {
            if self.ended {
                self.settle()?;
                return Ok(Step::End);
            }
            self.advance()?;
            self.number += 1;
        }
        let line = std::mem::take(&mut self.line);
        let step = self.take(without_comment(&line), until, made);
        self.line = line;
        step
    }

    fn take(&mut self, line: &str, until: Until, made: u64) -> Result<Step, Stop> {
        let head = first(line);
        if matches!(head, "call" | "set" | "expect") && self.packed.is_none() {
            self.settle()?;
            self.again = true;
            return Ok(Step::Begun);
        }
        match head {
            "" => Ok(Step::Quiet),
            "call" => self.call(line, until, made),
            "set" => {
                let number = self.number;
                let set = self.packed.as_mut().map_or(Ok(()), |packed| packed.set(number, line));
                self.wrong(set).map(|()| Step::Quiet)
            }
            "expect" => {
                let expected = self.expect(line["expect".len()..].trim());
                self.wrong(expected).map(Step::Expected)
            }
            "image" => self.begin(line["image".len()..].trim()),
            other if self.packed.is_some() => {
                let known = "call, set, expect and image stand there";
                let says = format!("\"{other}\" behind a line that begins with set, call or expect; {known}");
                self.wrong(Err(says))
            }
            _ => {
                let taken = self.builder.line(self.number, line);
                self.wrong(taken).map(|()| Step::Quiet)
            }
        }
    }

    /// Another image: from a file, or by the lines that follow.
    fn begin(&mut self, name: &str) -> Result<Step, Stop> {
        self.surprise();
        self.packed = None;
        self.builder = Builder::default();
        self.answer = None;
        self.last = Last::default();
        if !name.is_empty() {
            let beside = self.path.parent().unwrap_or(Path::new("")).join(name);
            let loaded = load::load(&beside).and_then(load::Loaded::whole);
            let loaded = loaded.map_err(|stop| {
                let mut lines = stop.lines;
                lines.push(format!(
                    "{}:{}: the image of this line",
                    self.path.display(),
                    self.number
                ));
                Stop { lines, ..stop }
            })?;
            self.packed = Some(Packed::of(loaded.packed.words, loaded.packed.names));
            return Ok(Step::Begun);
        }
        Ok(Step::Quiet)
    }

    /// The image is complete as soon as something is done with it.
    fn settle(&mut self) -> Result<(), Stop> {
        if self.packed.is_none() {
            let builder = std::mem::take(&mut self.builder);
            if !builder.begun() {
                let says = "no image before this line; lines that describe one, or image FILE, come first";
                return Err(Stop::at(self.path, self.number.max(1), says));
            }
            let packed = builder.finish().map_err(|problems| load::told(self.path, &problems))?;
            self.packed = Some(packed);
        }
        Ok(())
    }

    fn surprise(&mut self) {
        // The first few are told.
        if let Some(says) = self.unexpected.take() {
            self.surprised += 1;
            if self.surprises.len() < 10 {
                self.surprises.push(says);
            }
        }
    }

    fn call(&mut self, line: &str, until: Until, made: u64) -> Result<Step, Stop> {
        if until == Until::Calls(made) {
            return Ok(self.end());
        }
        self.surprise();
        let Some(packed) = &mut self.packed else {
            return Ok(Step::Quiet);
        };
        let call = match calls::parse(line.split_whitespace().skip(1), &packed.names, self.last) {
            Ok(call) => call,
            Err(says) => return self.wrong(Err(says)),
        };
        if let Until::Time(last) = until
            && call.time().is_some_and(|time| time > last)
        {
            return Ok(self.end());
        }
        self.before.clear();
        if self.next.trim_start().starts_with("expect") {
            self.before.extend_from_slice(&packed.words);
        }
        let labels = Labels {
            names: &packed.names,
            lines: &packed.lines,
        };
        let made = self.happened.make(&mut packed.words, &call, &labels);
        let answer = made.map_err(|disagreement| Stop::at(self.path, self.number, &disagreement.0))?;
        self.last.time = call.time().or(self.last.time);
        self.last.reply = self.happened.reply.or(self.last.reply);
        self.answer = Some(answer);
        if let Err(refusal) = answer {
            self.refused += 1;
            self.unexpected = Some(self.told(&call, refusal));
        }
        Ok(Step::Called(call, answer))
    }

    /// A refused call, for whoever did not expect it.
    fn told(&self, call: &Call, refusal: Refusal) -> String {
        let called = self
            .packed
            .as_ref()
            .map_or_else(String::new, |packed| calls::told(call, &packed.names));
        let why = self.why(call);
        format!(
            "{}:{}: {called} is refused with {}: {why}",
            self.path.display(),
            self.number,
            refusal.number()
        )
    }

    fn end(&mut self) -> Step {
        self.ended = true;
        Step::End
    }

    /// Behind the last line.
    pub fn finish(&mut self) {
        self.surprise();
    }

    /// Why the last call was refused, in words, with the line that gave the word.
    pub fn why(&self, call: &Call) -> String {
        let Some(packed) = &self.packed else {
            return String::new();
        };
        let Some(why) = &self.happened.why else {
            return not_the_reply(&packed.words, call, &packed.names);
        };
        let line = why
            .word
            .and_then(|word| packed.lines.get(word))
            .filter(|line| **line > 0);
        match line {
            Some(line) => format!("{}:{line}: {why}", self.path.display()),
            None => why.to_string(),
        }
    }
}
