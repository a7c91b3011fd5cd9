//! Demand 3, checked turn by turn: a guarded run and the stripped run of the same script, on the
//! same turns, from the same fresh start.

use crate::generate;
use crate::input::accepted;
use crate::machine::{end, End, Machine, Outcome, Stop};
use crate::numbers::{by_guard, ALIAS, CAST, FOREIGN, PERMISSION};
use crate::script::Program;
use crate::stripped::{erase, strip};

/// A stop and the place in the list of the turn that made it.
#[derive(Clone, Copy, Debug, PartialEq, Eq)]
pub struct Stopped {
    pub place: usize,
    pub stop: Stop,
}

/// How the two runs went, where demand 3 holds.
#[derive(Clone, Copy, Debug, PartialEq, Eq)]
pub struct Facts {
    pub compared: usize,
    pub guarded: Option<Stopped>,
    pub stripped: Option<Stopped>,
    pub guarded_end: End,
    pub stripped_end: End,
}

/// Checks demand 3 on a script and a list of turns; a violation is told in words.
pub fn check(program: &Program, turns: &[u8]) -> Result<Facts, String> {
    check_pair(program, &strip(program), turns)
}

/// The same for any second program in the stripped one's stead, so that tests can see it fail.
pub fn check_pair(guarded: &Program, stripped: &Program, turns: &[u8]) -> Result<Facts, String> {
    let mut pair = Pair::fresh(guarded, stripped);
    pair.compare()
        .map_err(|fault| format!("at the start: {}", fault))?;
    for (place, thread) in turns.iter().enumerate() {
        pair.turn(place, *thread);
        if pair.guarded_stop.is_none() {
            pair.compare()
                .map_err(|fault| format!("after turn {}: {}", place, fault))?;
        }
    }
    check_stops(pair.guarded_stop, pair.stripped_stop)?;
    Ok(pair.facts())
}

struct Pair<'a> {
    guarded: Machine<'a>,
    stripped: Machine<'a>,
    guarded_stop: Option<Stopped>,
    stripped_stop: Option<Stopped>,
    compared: usize,
}

impl<'a> Pair<'a> {
    fn fresh(guarded: &'a Program, stripped: &'a Program) -> Self {
        Pair {
            guarded: Machine::fresh(guarded),
            stripped: Machine::fresh(stripped),
            guarded_stop: None,
            stripped_stop: None,
            compared: 0,
        }
    }

    fn turn(&mut self, place: usize, thread: u8) {
        if let Outcome::Stopped(stop) = self.guarded.turn(thread) {
            self.guarded_stop = Some(Stopped { place, stop });
        }
        if let Outcome::Stopped(stop) = self.stripped.turn(thread) {
            self.stripped_stop = Some(Stopped { place, stop });
        }
    }

    /// "Tables are equal, capabilities aside, and so are the moves; both are finished or neither
    /// is, and if the guarded run is stuck, so is the stripped one."
    fn compare(&mut self) -> Result<(), String> {
        self.compared += 1;
        if erase(&self.guarded.state) != self.stripped.state {
            return Err("states differ, capabilities aside".to_string());
        }
        if self.guarded.moves != self.stripped.moves {
            return Err("moves differ".to_string());
        }
        let guarded = end(self.guarded.program, &self.guarded.state);
        let stripped = end(self.stripped.program, &self.stripped.state);
        if (guarded == End::Finished) != (stripped == End::Finished) {
            return Err("one is finished and the other is not".to_string());
        }
        if guarded == End::Stuck && stripped != End::Stuck {
            return Err("the guarded run is stuck and the stripped one is not".to_string());
        }
        Ok(())
    }

    fn facts(&self) -> Facts {
        Facts {
            compared: self.compared,
            guarded: self.guarded_stop,
            stripped: self.stripped_stop,
            guarded_end: self.guarded.end(),
            stripped_end: self.stripped.end(),
        }
    }
}

/// The two last sentences of demand 3, which are about the stops of the whole list.
fn check_stops(guarded: Option<Stopped>, stripped: Option<Stopped>) -> Result<(), String> {
    if let Some(first) = guarded {
        if !by_guard(first.stop.number) && stripped != Some(first) {
            return Err(format!(
                "{:?} of the guarded run, {:?} of the other",
                first, stripped
            ));
        }
    }
    let second = match stripped {
        Some(second) => second,
        None => return Ok(()),
    };
    if by_guard(second.stop.number) {
        return Err(format!(
            "the stripped run stopped for permission or cast: {:?}",
            second
        ));
    }
    let allowed = match guarded {
        Some(first) => {
            let same = first.place == second.place && first.stop.number == second.stop.number;
            same || (first.place <= second.place && by_guard(first.stop.number))
        }
        None => false,
    };
    if allowed {
        Ok(())
    } else {
        Err(format!(
            "{:?} of the stripped run, {:?} of the other",
            second, guarded
        ))
    }
}

/// Counts over many runs in which demand 3 held.
#[derive(Clone, Copy, Debug, Default, PartialEq, Eq)]
pub struct Counts {
    pub runs: usize,
    pub compared: usize,
    pub guarded_by_foreign: usize,
    pub guarded_by_alias: usize,
    pub guarded_by_permission: usize,
    pub guarded_by_cast: usize,
    pub guarded_by_others: usize,
    pub stripped_stopped: usize,
    pub stripped_stopped_later: usize,
    pub both_finished: usize,
    pub both_stuck: usize,
    pub only_stripped_stuck: usize,
}

impl Counts {
    pub fn add(&mut self, facts: &Facts) {
        self.runs += 1;
        self.compared += facts.compared;
        if let Some(first) = facts.guarded {
            match first.stop.number {
                FOREIGN => self.guarded_by_foreign += 1,
                ALIAS => self.guarded_by_alias += 1,
                PERMISSION => self.guarded_by_permission += 1,
                CAST => self.guarded_by_cast += 1,
                _ => self.guarded_by_others += 1,
            }
        }
        if facts.stripped.is_some() {
            self.stripped_stopped += 1;
        }
        if facts.stripped.is_some() && facts.stripped != facts.guarded {
            self.stripped_stopped_later += 1;
        }
        match (facts.guarded_end, facts.stripped_end) {
            (End::Finished, End::Finished) => self.both_finished += 1,
            (End::Stuck, End::Stuck) => self.both_stuck += 1,
            (End::Open, End::Stuck) => self.only_stripped_stuck += 1,
            _ => {}
        }
    }

    pub fn rows(&self) -> Vec<(&'static str, usize)> {
        vec![
            ("runs", self.runs),
            ("states compared", self.compared),
            ("guarded stopped by foreign", self.guarded_by_foreign),
            ("guarded stopped by alias", self.guarded_by_alias),
            ("guarded stopped by permission", self.guarded_by_permission),
            ("guarded stopped by cast", self.guarded_by_cast),
            ("guarded stopped by others", self.guarded_by_others),
            ("stripped stopped", self.stripped_stopped),
            (
                "stripped stopped otherwise than guarded",
                self.stripped_stopped_later,
            ),
            ("both finished", self.both_finished),
            ("both stuck", self.both_stuck),
            ("stripped stuck, guarded open", self.only_stripped_stuck),
        ]
    }
}

/// A run on which demand 3 does not hold, or too few runs.
#[derive(Clone, Debug, PartialEq, Eq)]
pub struct Violation {
    pub input: Vec<u8>,
    pub fault: String,
}

/// How many inputs are looked at for each run asked for; most inputs are accepted.
const INPUTS_A_RUN: u64 = 10;

/// Checks demand 3 on the first `count` accepted inputs of a seed.
pub fn check_many(seed: u64, count: u64) -> Result<Counts, Violation> {
    let mut counts = Counts::default();
    for place in 0..count.saturating_mul(INPUTS_A_RUN) {
        if counts.runs as u64 == count {
            break;
        }
        let input = generate::input(seed, place);
        match check_input(&input) {
            Ok(Some(facts)) => counts.add(&facts),
            Ok(None) => {}
            Err(fault) => {
                return Err(Violation {
                    input,
                    fault: format!("input {}: {}", place, fault),
                })
            }
        }
    }
    if counts.runs as u64 == count {
        return Ok(counts);
    }
    let fault = format!("only {} inputs are accepted", counts.runs);
    Err(Violation {
        input: Vec::new(),
        fault,
    })
}

/// Nothing for an input that is refused.
fn check_input(input: &[u8]) -> Result<Option<Facts>, String> {
    match accepted(input) {
        Ok((program, turns)) => check(&program, &turns).map(Some),
        Err(_) => Ok(None),
    }
}
