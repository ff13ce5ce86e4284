//! A status page: what each CPU of an image does, as HTML.
//!
//!     cargo run --example status_page -- ../examples/evening.txt > status.html

use ronthuyal::words::{View, block, explain, text};
use ronthuyal::{Cpu, Image, Time};

fn main() -> Result<(), Box<dyn std::error::Error>> {
    let path = std::env::args().nth(1).ok_or("status_page TEXT")?;
    let text = std::fs::read_to_string(&path)?;
    let lines = text.lines().take_while(|line| !line.starts_with("call"));
    let packed = text::pack(&lines.collect::<Vec<_>>().join("\n")).map_err(|problems| {
        let told: Vec<String> = problems
            .iter()
            .map(|p| format!("{path}:{}: {}", p.line, p.says))
            .collect();
        told.join("\n")
    })?;
    let labels = ronthuyal::words::Labels {
        names: &packed.names,
        lines: &packed.lines,
    };
    if let Some(why) = explain::image(&packed.words, &labels) {
        return Err(why.to_string().into());
    }
    let image = Image::new(&packed.words[..]);
    let name = |number: u64| packed.names.of(number);
    let view = View::new(image.words()).ok_or("no image")?;
    println!("<!doctype html>\n<title>CPUs</title>\n<table>");
    println!("<tr><th>CPU<th>in charge<th>current<th>queued<th>weight<th>next");
    for cpu in view.present_cpus() {
        let word = |word| view.block(cpu, word);
        let queued: Vec<String> = view.queue(cpu).map(name).collect();
        let here = Cpu(cpu as u64);
        let next = match image.ask(here, Time::from_nanos(word(block::SCHEDULE_TIME))) {
            Ok(reply) => name(reply.in_charge.0),
            Err(refusal) => refusal.to_string(),
        };
        println!(
            "<tr><td>{cpu}<td>{}<td>{}<td>{}<td>{}<td>{next}",
            name(word(block::SCHED_CTXT)),
            name(word(block::CURRENT_CTXT)),
            queued.join(" "),
            image.total_weight(here)?
        );
    }
    println!("</table>");
    Ok(())
}
