//! Holds the recorded lists to the kernel and to the port.

use crate::{
    expected::{Expected, expected},
    generate::{Case, Kind},
    port,
    recorded::{self, Recorded},
    report,
};

/// A list, of text or of words.
pub fn replay(path: &str) -> bool {
    all(path, recorded::read(path))
}

/// Writes the list anew, with the answers as they are now.
pub fn renew(path: &str) -> bool {
    let mut cases = recorded::read(path);
    let mut other = 0;
    for case in &mut cases {
        let Ok(Expected::Known(answer, after)) = expected(&case.image, &case.call) else {
            panic!("the kernel is not there, or table and kernel disagree: use run");
        };
        other += u64::from((case.answer, &case.after) != (answer, &after));
        (case.answer, case.after) = (answer, after);
    }
    println!("{path}: {other} of {} answers are other ones", cases.len());
    recorded::write(path, &cases)
}

fn all(path: &str, cases: Vec<Recorded>) -> bool {
    let mut ported = 0;
    #[cfg(feature = "branches")]
    let mut reached = crate::branches::Union::default();
    for (number, recorded) in cases.iter().enumerate() {
        let case = Case {
            kind: Kind::Recorded,
            image: recorded.image.clone(),
            call: recorded.call,
            chained: false,
        };
        let want = (&recorded.answer, &recorded.after[..]);
        let kernel = match expected(&case.image, &case.call) {
            Ok(Expected::Known(answer, after)) => {
                report::differences(&case, want, (&answer, &after))
            }
            Ok(Expected::Passes) => false,
            Err(_) => panic!("table and kernel disagree: use run"),
        };
        #[cfg(feature = "branches")]
        reached.add(kernel::branches::take());
        let mut got_image = case.image.clone();
        let port = port::call(&mut got_image, &case.call).is_some_and(|got| {
            ported += 1;
            report::differences(&case, want, (&got, &got_image))
        });
        if kernel || port {
            println!("case {number} of {path}");
            return false;
        }
    }
    #[cfg(feature = "branches")]
    reached.print_missing();
    let by = match cfg!(feature = "oracle") {
        true => "as the kernel answers",
        false => "read, their refusals as the table has them",
    };
    println!(
        "{path}: {} cases {by}; {ported} compared with the port",
        cases.len()
    );
    true
}
