//! Arguments of `explore`.

use clap::Args;
use std::path::PathBuf;

/// Arguments of `explore`.
#[derive(Args)]
pub struct Options {
    /// The image, or a trace
    #[arg(required_unless_present = "merge")]
    pub file: Option<PathBuf>,
    /// The call: switch 0 1s; else the first one of the trace
    #[arg(value_name = "CALL")]
    pub call: Vec<String>,
    /// Words that are varied besides: writer, rival.addr_space, cpu.1.queue_locked, all; with values: writer.prio=10+20
    #[arg(long, value_name = "WORDS", value_delimiter = ',')]
    pub vary: Vec<String>,
    /// Words that are not varied: writer, writer.lock, or with the value that they get: writer.lock=free
    #[arg(long, value_name = "WORDS", value_delimiter = ',')]
    pub fix: Vec<String>,
    /// Ask about one context
    #[arg(long = "for", value_name = "NAME")]
    pub asked: Option<String>,
    /// Go on for so many more calls of the trace, and say how late the context is in charge
    #[arg(long, value_name = "N")]
    pub calls: Option<usize>,
    /// With --calls: locks stay held behind the moment's call until the trace sets them; else they are as the image has them
    #[arg(long, requires = "calls")]
    pub hold: bool,
    /// Run so many states at random instead of all; the answer is incomplete
    #[arg(long, value_name = "N", conflicts_with_all = ["shard", "merge", "pick", "svg", "html"])]
    pub sample: Option<u64>,
    /// Which states come in a sample
    #[arg(long, value_name = "NUMBER", default_value_t = 1)]
    pub seed: u64,
    /// Run a part of the states, 1/4 to 4/4; --merge joins the parts
    #[arg(long, value_name = "I/N", requires = "json", conflicts_with_all = ["merge", "pick", "svg", "html"])]
    pub shard: Option<String>,
    /// Join the parts that --shard I/N --json has written
    #[arg(long, value_name = "PART", num_args = 1.., conflicts_with_all = ["file", "vary", "fix", "asked", "calls"])]
    pub merge: Vec<PathBuf>,
    /// The whole answer as JSON
    #[arg(long)]
    pub json: bool,
    /// Where a picture goes: a tree of the locks that decide, and a grid of two of them
    #[arg(long, value_name = "FILE")]
    pub svg: Option<PathBuf>,
    /// The two locks of the grid: writer.lock,rival.lock; else the first two that decide
    #[arg(long, value_name = "LOCKS", value_delimiter = ',')]
    pub grid: Vec<String>,
    /// Where a page goes: the machine, a switch for each lock, and what each state comes to
    #[arg(long, value_name = "FILE")]
    pub html: Option<PathBuf>,
    /// Write the image of this state, with the call, to -o or to standard output
    #[arg(long, value_name = "STATE")]
    pub pick: Option<u64>,
    /// Where that image goes: a trace in text if the name ends in .txt, else words
    #[arg(short, long, value_name = "FILE", requires = "pick")]
    pub output: Option<PathBuf>,
}
