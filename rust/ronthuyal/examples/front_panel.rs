//! A front panel: shows who is about to run, and commits what was shown when the button is pressed. Another CPU lets go
//! of a lock between the two, so the first press finds that the reply is no longer true, and the panel asks again.
//!
//!     cargo run --example front_panel

use ronthuyal::words::{context, record_at, text};
use ronthuyal::{ContextId, Cpu, Image, Refusal, Time};

const MOMENT: &str = "
    context idle
    context rival
    context writer wake=1s lock=written
    cpu 0 idle_ctxt=idle sched_ctxt=rival schedule_time=993.25ms steal_counter=1
    timer 0 writer";

fn main() -> Result<(), Refusal> {
    let packed = text::pack(MOMENT).expect("a text of our own");
    let name = |context: ContextId| packed.names.of(context.0);
    let mut image = Image::new(packed.words.clone());
    let (cpu, cue) = (Cpu(0), Time::from_millis(1000));

    let shown = image.ask(cpu, cue)?;
    println!("panel: {} would be in charge", name(shown.in_charge));
    // What another CPU does meanwhile: it lets go of the writer's record.
    image.words_mut()[record_at(2) + context::LOCK] = 0;
    match image.commit(cpu, cue, &shown) {
        Err(Refusal::NotTheReply) => println!("button: that is no longer so"),
        other => println!("button: {other:?}"),
    }
    let shown = image.ask(cpu, cue)?;
    println!("panel: {} would be in charge", name(shown.in_charge));
    let done = image.commit(cpu, cue, &shown)?;
    println!(
        "button: {}, by rule {}",
        done.outcome,
        done.rule.map_or(0, |rule| rule as u64)
    );
    Ok(())
}
