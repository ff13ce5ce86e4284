//! The command `ronthuyal`: images as text, calls, replays, differences, and refusals that name their word.

mod call;
mod calls;
mod check;
mod diff;
mod explore;
mod happened;
mod json;
mod load;
mod output;
mod pack;
mod priorities;
mod progress;
mod refused;
mod replay;
mod stop;
mod svg;
mod table;
mod trace;

use clap::{Parser, Subcommand};
use std::path::PathBuf;
use std::process::ExitCode;

/// The scheduling decisions of the Redox kernel on a machine image.
///
/// A FILE is an image in words (64 bits each, lowest byte first) or in text (docs/TEXT.md), whichever it looks like; of
/// a trace the image before its first call is taken; - is standard input.
#[derive(Parser)]
#[command(name = "ronthuyal", version = ronthuyal::words::tables::VERSION, max_term_width = 100, subcommand_required = true)]
#[command(
    after_help = "Ends with 0 if done, 1 if something differs or an expectation is not met, 2 if the arguments \
                        or a text are not understood, 3 if a call or an image is refused."
)]
struct Arguments {
    #[command(subcommand)]
    command: Command,
}

#[derive(Subcommand)]
enum Command {
    /// Makes words of a text
    Pack {
        /// The text
        file: PathBuf,
        /// Where the words go; else to standard output
        #[arg(short, long, value_name = "IMAGE")]
        output: Option<PathBuf>,
    },
    /// Makes a text of words, whatever their damage
    Show {
        /// The words
        image: PathBuf,
        /// A text whose names its contexts get
        #[arg(long, value_name = "FILE")]
        names: Option<PathBuf>,
        /// Where the text goes; else to standard output
        #[arg(short, long, value_name = "TEXT")]
        output: Option<PathBuf>,
    },
    /// Says whether images are accepted: if not, which word is wrong, and what is allowed; if so, what is odd
    Check {
        /// The images
        #[arg(required = true)]
        file: Vec<PathBuf>,
        /// A call to check too, as in a trace: 'switch 0 1s'
        #[arg(long, value_name = "CALL")]
        call: Option<String>,
        /// One line of JSON for each file
        #[arg(long)]
        json: bool,
    },
    /// Makes one call and says what came of it
    Call {
        /// The image
        file: PathBuf,
        /// The operation and what it takes: switch 0 1s, unblock_context 0 1s writer
        #[arg(required = true, value_name = "OPERATION")]
        call: Vec<String>,
        /// Where the next image goes: text if the name ends in .txt, else words
        #[arg(short, long, value_name = "NEXT")]
        output: Option<PathBuf>,
        /// A line of JSON
        #[arg(long)]
        json: bool,
    },
    /// Makes the calls of a trace and prints what happened
    Replay(replay::Options),
    /// Runs every lock state of one moment: who is in charge after each, and which locks decide it
    Explore(explore::Options),
    /// Says which words of two images differ, by name
    Diff {
        /// The one image
        one: PathBuf,
        /// The other
        other: PathBuf,
        /// A line of JSON for each word
        #[arg(long)]
        json: bool,
    },
    /// Prints weight and slice of each priority
    Priorities {
        /// A line of JSON for each
        #[arg(long)]
        json: bool,
    },
}

fn main() -> ExitCode {
    let arguments = Arguments::parse();
    let done = match arguments.command {
        Command::Pack { file, output } => pack::pack(&file, output.as_deref()),
        Command::Show { image, names, output } => pack::show(&image, names.as_deref(), output.as_deref()),
        Command::Check { file, call, json } => check::check(&file, call.as_deref(), json),
        Command::Call {
            file,
            call,
            output,
            json,
        } => call::call(&file, &call, output.as_deref(), json),
        Command::Replay(options) => replay::replay(&options),
        Command::Explore(options) => explore::explore(&options),
        Command::Diff { one, other, json } => diff::diff(&one, &other, json),
        Command::Priorities { json } => priorities::priorities(json),
    };
    match done {
        Ok(code) => ExitCode::from(code),
        Err(stop) => {
            for line in stop.lines {
                eprintln!("{line}");
            }
            ExitCode::from(stop.code)
        }
    }
}
