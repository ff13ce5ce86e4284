//! `replay`: the calls of a trace, and what happened.

use crate::json;
use crate::output;
use crate::progress::Progress;
use crate::stop::{DIFFERS, DONE, Ended, REFUSED, Stop};
use crate::svg::Recorder;
use crate::table::{Row, Table};
use crate::trace::{Player, Step, Until};
use clap::Args;
use ronthuyal::words::Call;
use ronthuyal::{Done, Refusal};
use std::fs::File;
use std::io::{self, BufRead, BufReader, BufWriter, IsTerminal, Write};
use std::path::{Path, PathBuf};

/// Arguments of `replay`.
#[derive(Args)]
pub struct Options {
    /// The trace: an image, then lines call, set and expect (docs/TEXT.md)
    trace: PathBuf,
    /// Stop before the first call later than this time, or behind so many calls: 20ms, 4calls
    #[arg(long, value_name = "TIME")]
    until: Option<String>,
    /// A line of JSON for each call instead of the table
    #[arg(long)]
    json: bool,
    /// No table: only what is not as expected, and the last line
    #[arg(short, long)]
    quiet: bool,
    /// Where a picture goes: a lane for each CPU, and for each context
    #[arg(long, value_name = "FILE")]
    svg: Option<PathBuf>,
    /// The contexts that have a lane: writer,rival; else those that are not idle, at most 16
    #[arg(long, value_name = "NAMES", value_delimiter = ',', requires = "svg")]
    lanes: Option<Vec<String>>,
    /// Where the image at the end goes: text if the name ends in .txt, else words
    #[arg(short, long, value_name = "IMAGE")]
    output: Option<PathBuf>,
}

/// A replay on its way.
struct Run<'a, W> {
    options: &'a Options,
    out: W,
    table: Option<Table>,
    recorder: Option<Recorder>,
    line: String,
    calls: u64,
    met: u64,
    failed: u64,
}

pub fn replay(options: &Options) -> Ended {
    let until = match &options.until {
        Some(text) => Until::parse(text).map_err(Stop::not_understood)?,
        None => Until::End,
    };
    let path = &options.trace;
    // Rows on a terminal say themselves how far it is.
    let wanted = options.quiet || !io::stdout().is_terminal();
    if path == Path::new("-") {
        return run(options, until, io::stdin().lock(), &Progress::none());
    }
    let file = File::open(path).map_err(|error| Stop::file(path, &error))?;
    let total = file.metadata().map_or(0, |data| data.len());
    let reader = BufReader::with_capacity(1 << 16, file);
    run(options, until, reader, &Progress::bytes(total, wanted))
}

fn run(options: &Options, until: Until, reader: impl BufRead, progress: &Progress) -> Ended {
    let mut player = Player::new(&options.trace, reader)?;
    let mut run = Run {
        options,
        out: BufWriter::with_capacity(1 << 16, io::stdout().lock()),
        table: None,
        recorder: options.svg.as_ref().map(|_| Recorder::new(options.lanes.clone())),
        line: String::new(),
        calls: 0,
        met: 0,
        failed: 0,
    };
    let ended = run.all(&mut player, until, progress);
    // What was printed before something was not understood stays printed.
    run.out.flush()?;
    ended?;
    run.end(&mut player)
}

impl<W: Write> Run<'_, W> {
    fn all<R: BufRead>(&mut self, player: &mut Player<R>, until: Until, progress: &Progress) -> Result<(), Stop> {
        loop {
            match player.step(until, self.calls)? {
                Step::End => return Ok(()),
                Step::Quiet => {}
                Step::Begun => self.begin(player)?,
                Step::Expected(Ok(())) => self.met += 1,
                Step::Expected(Err(says)) => {
                    self.failed += 1;
                    self.out.flush()?;
                    eprintln!("{}:{}: {says}", self.options.trace.display(), player.number);
                }
                Step::Called(call, answer) => {
                    self.calls += 1;
                    if self.calls.is_multiple_of(1024) {
                        progress.tell(player.bytes);
                    }
                    self.called(player, &call, &answer)?;
                }
            }
        }
    }

    /// The state before the first call is part of the picture.
    fn begin<R: BufRead>(&mut self, player: &Player<R>) -> Result<(), Stop> {
        let Some(packed) = player.image() else {
            return Ok(());
        };
        if let Some(recorder) = self.recorder.as_mut().filter(|recorder| !recorder.begun()) {
            let begun = recorder.begin(&packed.words, &packed.names);
            begun.map_err(Stop::not_understood)?;
        }
        Ok(())
    }

    fn called<R: BufRead>(
        &mut self,
        player: &Player<R>,
        call: &Call,
        answer: &Result<Done, Refusal>,
    ) -> Result<(), Stop> {
        let Some(packed) = player.image() else {
            return Ok(());
        };
        let row = Row {
            number: self.calls,
            line: player.number,
            call,
            answer,
            happened: &player.happened,
            words: &packed.words,
            names: &packed.names,
        };
        if let Some(recorder) = &mut self.recorder {
            recorder.called(&row).map_err(Stop::not_understood)?;
        }
        if self.options.json {
            self.line.clear();
            json::line(&mut self.line, &row);
            self.out.write_all(self.line.as_bytes())?;
        } else if !self.options.quiet {
            self.row(&row)?;
            if answer.is_err() {
                writeln!(self.out, "       {}", player.why(call))?;
            }
        }
        Ok(())
    }

    fn row(&mut self, row: &Row) -> io::Result<()> {
        if self.table.is_none() {
            Table::new(row.names).head(&mut self.out)?;
        }
        let table = self.table.get_or_insert_with(|| Table::new(row.names));
        table.row(&mut self.out, row)
    }

    fn end<R: BufRead>(mut self, player: &mut Player<R>) -> Ended {
        player.finish();
        if let Some(table) = &self.table {
            table.legend(&mut self.out)?;
        }
        if !self.options.json {
            let summary = self.summary(player.refused);
            writeln!(self.out, "{summary}")?;
        }
        self.out.flush()?;
        player.surprises.iter().for_each(|says| eprintln!("{says}"));
        if let (Some(recorder), Some(path)) = (&self.recorder, &self.options.svg) {
            let name = self.options.trace.file_name();
            let title = name.map_or_else(String::new, |name| name.to_string_lossy().into_owned());
            output::file(path, recorder.picture(&title).as_bytes())?;
        }
        if let (Some(path), Some(packed)) = (&self.options.output, player.image()) {
            output::image(path, &packed.words, &packed.names)?;
        }
        Ok(match (self.failed, player.surprised) {
            (1.., _) => DIFFERS,
            (_, 1..) => REFUSED,
            _ => DONE,
        })
    }

    fn summary(&self, refused: u64) -> String {
        let many = |count: u64, what: &str| format!("{count} {what}{}", if count == 1 { "" } else { "s" });
        let refused = match refused {
            0 => "none refused".to_string(),
            _ => format!("{refused} refused"),
        };
        let expected = match (self.met, self.failed) {
            (0, 0) => String::new(),
            (met, 0) => format!("; {} met", many(met, "expectation")),
            (met, failed) => format!("; {} met, {failed} not", many(met, "expectation")),
        };
        format!("{}, {refused}{expected}", many(self.calls, "call"))
    }
}
