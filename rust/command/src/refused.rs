//! Why a call was refused, in words.

use ronthuyal::words::{Call, Explanation, Labels, Names, explain};
use ronthuyal::{Call as Typed, Image, Refusal};

/// The explanation and the port do not agree: a fault of ours, to be told and not to be hidden.
pub struct Disagreement(pub String);

/// Why a call was refused; an explanation of another number is a disagreement.
pub fn explained(
    words: &[u64],
    call: &Call,
    refusal: Refusal,
    labels: &Labels,
) -> Result<Option<Explanation>, Disagreement> {
    let typed = Typed::from_words(*call);
    if refusal == Refusal::NotTheReply {
        // The switch itself would be made.
        return match explain::call(words, call, labels) {
            None => Ok(None),
            Some(why) => Err(disagreement(call, 13, why.refusal, labels.names)),
        };
    }
    let why = Image::new(words).explain_with(&typed, labels);
    match why {
        Some(why) if why.refusal == refusal.number() => Ok(Some(why)),
        other => {
            let number = other.map_or(0, |why| why.refusal);
            Err(disagreement(call, refusal.number(), number, labels.names))
        }
    }
}

fn disagreement(call: &Call, port: u64, ours: u64, names: &Names) -> Disagreement {
    Disagreement(format!(
        "{}: the archive's refusal is {port}, the explanation's {ours}: this is a fault of the command, please report it \
         with the image",
        crate::calls::told(call, names)
    ))
}

/// Why a commit is refused with 13: which words of the reply are no longer those that asking gives.
pub fn not_the_reply(words: &[u64], call: &Call, names: &Names) -> String {
    let Call::Commit { cpu, time, reply } = *call else {
        return String::new();
    };
    let now = Image::new(words).ask(ronthuyal::Cpu(cpu), ronthuyal::Time::from_nanos(time));
    let Ok(now) = now else {
        return "the switch would be refused".to_string();
    };
    let fields = ["refusal", "result", "in charge", "current", "V"];
    let shown = |at: usize, value: u64| match at {
        2 | 3 => names.of(value),
        _ => value.to_string(),
    };
    let differ = (0..5).filter(|at| reply[*at] != now.words[*at]);
    let told: Vec<String> = differ
        .map(|at| {
            format!(
                "{} is {} now and {} in the reply",
                fields[at],
                shown(at, now.words[at]),
                shown(at, reply[at])
            )
        })
        .collect();
    format!("{}; ask again and commit what is given then", told.join(", "))
}

#[cfg(test)]
mod tests {
    use super::explained;
    use ronthuyal::words::{Call, Labels, text};
    use ronthuyal::{Call as Typed, Image, Refusal};

    /// The archive's own number is explained, and no other one is.
    #[test]
    fn another_number_is_a_disagreement() {
        let packed = text::pack("context idle\ncpu 0 idle_ctxt=idle queue_locked").unwrap();
        let labels = Labels {
            names: &packed.names,
            lines: &packed.lines,
        };
        let call = Call::Operation {
            operation: 2,
            cpu: 0,
            time: 0,
            context: 0,
        };
        let refusal = Image::new(packed.words.clone())
            .call(&Typed::from_words(call))
            .unwrap_err();
        assert_eq!(refusal, Refusal::Locked);
        let why = explained(&packed.words, &call, refusal, &labels);
        assert!(why.is_ok_and(|why| why.is_some_and(|why| why.refusal == 6)));
        for other in [Refusal::Range, Refusal::Unknown, Refusal::NoRoom, Refusal::NotTheReply] {
            let why = explained(&packed.words, &call, other, &labels);
            assert!(
                why.is_err_and(|disagreement| disagreement.0.contains("the explanation's 6")),
                "{other:?}"
            );
        }
    }
}
