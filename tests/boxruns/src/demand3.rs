//! Demand 3, on printed runs: the guarded script and the stripped one, on the same turns.

use second::numbers;

use crate::printed::{Answer, Printed};

pub fn by_guard(answer: &Answer) -> bool {
    match answer {
        Answer::Stopped { number, .. } => numbers::by_guard(*number),
        _ => false,
    }
}

/// A guarded run that no guard stopped: "tables are equal, capabilities aside, and so are the moves; both are finished or neither is, and if
/// the guarded run is stuck, so is the stripped one"; a stop has "the same number, thread, block and line".
pub fn matches(guarded: &Printed, stripped: &Printed) -> Result<(), String> {
    same_state(guarded, stripped)?;
    let allowed = match (&guarded.answer, &stripped.answer) {
        (Answer::End { word, .. }, Answer::End { word: other, .. }) => {
            word == other || (word == "open" && other == "stuck")
        }
        (guarded, stripped) => guarded == stripped,
    };
    if allowed {
        Ok(())
    } else {
        Err(told(guarded, stripped))
    }
}

/// A guarded run that a guard stopped: the stripped run on the turns before that one has not stopped and is in the same state, and on all of
/// them it does not stop for permission or cast.
pub fn stopped_alone(
    guarded: &Printed,
    before: &Printed,
    stripped: &Printed,
) -> Result<(), String> {
    same_state(guarded, before)?;
    if !matches!(before.answer, Answer::End { .. }) {
        return Err(told(guarded, before));
    }
    if by_guard(&stripped.answer) {
        return Err(told(guarded, stripped));
    }
    Ok(())
}

fn same_state(guarded: &Printed, stripped: &Printed) -> Result<(), String> {
    if guarded.answer.moves() != stripped.answer.moves() || guarded.erased != stripped.erased {
        return Err(told(guarded, stripped));
    }
    Ok(())
}

fn told(guarded: &Printed, stripped: &Printed) -> String {
    format!(
        "demand 3: guarded {:?}, stripped {:?}",
        guarded.answer, stripped.answer
    )
}

#[cfg(test)]
mod tests {
    use super::*;
    use crate::printed::taken_apart;

    fn printed(output: &str) -> Printed {
        taken_apart(output.as_bytes()).unwrap()
    }

    const GUARDED: &str = "(end open 2)\n(object 0 iso 0 0)\n(thread 0 ready 0 2 absent (obj 0))\n";

    #[test]
    fn capabilities_aside_the_state_is_compared() {
        let guarded = printed(GUARDED);
        let same = GUARDED.replace("iso", "unsafe");
        assert!(matches(&guarded, &printed(&same)).is_ok());
        for (from, to) in [("open 2", "open 3"), ("0 0)", "0 1)"), ("0 2 ", "0 1 ")] {
            let other = printed(&same.replace(from, to));
            assert!(matches(&guarded, &other).is_err(), "{}", to);
            assert!(stopped_alone(&guarded, &other, &other).is_err(), "{}", to);
        }
    }

    #[test]
    fn only_the_stripped_run_may_be_stuck_alone() {
        let (open, stuck) = (printed("(end open 1)\n"), printed("(end stuck 1)\n"));
        let finished = printed("(end finished 1)\n");
        assert!(matches(&open, &stuck).is_ok());
        for (guarded, stripped) in [(&stuck, &open), (&open, &finished), (&finished, &stuck)] {
            assert!(matches(guarded, stripped).is_err());
        }
    }

    #[test]
    fn a_stop_is_the_same_stop() {
        let stop = printed("(stopped 10 1 2 3 4)\n");
        assert!(matches(&stop, &stop).is_ok());
        for other in [
            "(stopped 11 1 2 3 4)\n",
            "(stopped 10 0 2 3 4)\n",
            "(stopped 10 1 2 4 4)\n",
            "(end open 4)\n",
        ] {
            assert!(matches(&stop, &printed(other)).is_err(), "{}", other);
        }
    }

    #[test]
    fn a_guard_stops_the_guarded_run_alone() {
        let stop = printed("(stopped 19 0 0 1 1)\n");
        let (before, whole) = (printed("(end open 1)\n"), printed("(end finished 2)\n"));
        assert!(stopped_alone(&stop, &before, &whole).is_ok());
        assert!(stopped_alone(&stop, &printed("(stopped 10 0 0 1 1)\n"), &whole).is_err());
        for number in [14, 15, 19, 20] {
            let guard = printed(&format!("(stopped {} 0 0 1 2)\n", number));
            assert!(by_guard(&guard.answer), "{}", number);
            assert!(stopped_alone(&stop, &before, &guard).is_err(), "{}", number);
        }
        for number in [10, 11, 12, 13, 16, 17, 18, 21] {
            let other = printed(&format!("(stopped {} 0 0 1 2)\n", number));
            assert!(!by_guard(&other.answer), "{}", number);
        }
    }
}
