//! Document 02, No. 7: where a decision must keep the stored total of every present CPU equal to
//! the weight added up from the contexts. Both builds of the kernel are held to it.

use crate::{expected::Contradiction, generate::weight};
use image::{Answer, Call, View, check, decision, served, total_weight};

/// Whether the ticket's conditions for one decision hold, the equality before it among them.
pub fn applies(image: &[u64], call: &Call) -> bool {
    decision::is_made(View(image), call) && served::serves_own(View(image), call) && weighed(image)
}

/// The conditions on the machine.
pub fn weighed(image: &[u64]) -> bool {
    let image = View(image);
    total_weight::agrees(image, weight) && total_weight::weighed(image, weight)
}

/// The equality after an accepted call, where it applies.
pub fn kept(applies: bool, answer: &Answer, after: &[u64]) -> Result<(), Contradiction> {
    match applies && answer.refusal == 0 && !total_weight::agrees(View(after), weight) {
        true => Err(Contradiction(
            "a decision leaves a stored total weight that is not the one added up".into(),
        )),
        false => Ok(()),
    }
}

/// Whether the call, if it decides, serves no wake-up of a context queued on another CPU.
pub fn inside(image: &[u64], call: &Call) -> bool {
    check::refusal(image, call) != 0
        || !decision::is_made(View(image), call)
        || served::serves_own(View(image), call)
}

/// Tidy, every condition with the stronger word, and the equality: what runs of any length keep.
pub fn steady(image: &[u64]) -> bool {
    let image = View(image);
    total_weight::agrees(image, weight) && total_weight::weighed_always(image, weight)
}
