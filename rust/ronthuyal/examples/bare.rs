//! The switches of bench/replay's trace without the command: what the calls themselves take.

use ronthuyal::{Cpu, Image, Time};
use std::time::Instant;

fn main() -> Result<(), Box<dyn std::error::Error>> {
    let mut arguments = std::env::args().skip(1);
    let (Some(path), Some(calls)) = (arguments.next(), arguments.next()) else {
        return Err("bare TRACE CALLS".into());
    };
    let calls: u64 = calls.parse()?;
    let text = std::fs::read_to_string(path)?;
    let lines = text.lines().take_while(|line| !line.starts_with("call"));
    let description = lines.collect::<Vec<_>>().join("\n");
    let mut image = Image::from_text(&description).map_err(|problems| format!("{problems:?}"))?;
    let (mut refused, begun) = (0, Instant::now());
    for call in 0..calls {
        let time = Time::from_nanos(call * 1_687_500);
        refused += u64::from(image.switch(Cpu(call % 4), time).is_err());
    }
    let nanos = begun.elapsed().as_nanos() / u128::from(calls.max(1));
    println!("bare calls: {nanos} ns each, {refused} of {calls} refused");
    Ok(())
}
