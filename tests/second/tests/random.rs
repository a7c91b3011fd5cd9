//! Random inputs of fixed seeds: they reach everything, only moves change a state, a message in
//! flight is its sender's, an iso object has one holder beside its self slots, and demand 3 holds; and
//! the check of demand 3 itself can fail.

mod common;

use common::*;
use second::checks::{decide, Decision};
use second::demand3::{check, check_many, check_pair};
use second::drawing::drawing;
use second::generate;
use second::graphs::{crowded, deep, woven};
use second::histogram::Histogram;
use second::holders::{holder_count, holders, holders_but_self, holders_of};
use second::input::{accepted, boxrun, boxrun_stripped, parts};
use second::layout;
use second::machine::{run, End, Machine, Outcome};
use second::random::Random;
use second::reach::reach;
use second::reading::read_lines;
use second::script::{Cap, Expr, Program};
use second::shapes::Shape;
use second::state::{State, Value};
use second::stripped::{erase, strip, strip_text};

const SEED: u64 = 20_260_117;

#[test]
fn the_inputs_reach_every_row() {
    let histogram = Histogram::of(SEED, 6_000);
    assert_eq!(histogram.missing(), Vec::<&str>::new());
}

/// One case known by hand, so that the rows are not filled by chance.
#[test]
fn the_histogram_counts_case_a() {
    let script = case_a();
    let mut histogram = Histogram::empty();
    histogram.add(input(&script, "0 0 0 0 9 1 0").as_bytes());
    let ones = [
        "edition 1",
        "read spawn",
        "read new",
        "read send",
        "read recv",
        "moved spawn",
        "moved new",
        "moved send put",
        "moved send moved on",
        "moved recv",
        "waited send put",
        "idle",
        "end open",
    ];
    for (name, count) in histogram.rows() {
        let expected = if name == "read give" {
            2
        } else {
            u64::from(ones.contains(&name))
        };
        assert_eq!(count, expected, "{}", name);
    }
}

#[test]
fn an_input_is_the_same_each_time() {
    let first: Vec<_> = (0..50).map(|n| generate::input(SEED, n)).collect();
    let again: Vec<_> = (0..50).map(|n| generate::input(SEED, n)).collect();
    let other: Vec<_> = (0..50).map(|n| generate::input(SEED + 1, n)).collect();
    assert_eq!(first, again);
    assert_ne!(first, other);
    assert_ne!(first[0], first[1]);
}

#[test]
fn demand_3_holds() {
    let counts = check_many(SEED, 4_000).unwrap_or_else(|violation| {
        let input = String::from_utf8_lossy(&violation.input).into_owned();
        panic!("{}\n{}", violation.fault, input)
    });
    assert_eq!(counts.runs, 4_000);
    for (name, count) in counts.rows() {
        assert!(count > 0, "{}", name);
    }
}

/// Waits, idle turns and stops leave the state; a move changes it and counts one.
#[test]
fn only_moves_change_the_state() {
    let mut turns_seen = 0;
    for n in 0..600 {
        if let Ok((program, turns)) = accepted(&generate::input(SEED, n)) {
            let mut machine = Machine::fresh(&program);
            for thread in turns.iter().take(400) {
                let (before, moves) = (machine.state.clone(), machine.moves);
                let moved = machine.turn(*thread) == Outcome::Moved;
                assert_eq!(before != machine.state, moved);
                assert_eq!(machine.moves - moves, u32::from(moved));
                turns_seen += 1;
            }
        }
    }
    assert!(turns_seen > 10_000);
}

/// A run on the whole list is the run on its first part, gone on with.
#[test]
fn a_run_is_its_turns_one_by_one() {
    for n in 0..600 {
        if let Ok((program, turns)) = accepted(&generate::input(SEED, n)) {
            let mut machine = Machine::fresh(&program);
            let moved = turns
                .iter()
                .filter(|thread| machine.turn(**thread) == Outcome::Moved)
                .count();
            let whole = run(&program, &turns);
            assert_eq!((whole.end, whole.moves as usize), (machine.end(), moved));
            assert_eq!(whole.state, machine.state);
        }
    }
}

/// Threads reach objects by rising number, every thread of a finished run reaches nothing, and the
/// number after the last thread is that of a thread never started.
#[test]
fn reach_of_random_runs() {
    let mut reached_any = 0;
    for n in 0..600 {
        if let Ok((program, turns)) = accepted(&generate::input(SEED, n)) {
            let run = run(&program, &turns);
            for thread in 0..run.state.threads.len() {
                let objects = reach(&run.state, thread).unwrap();
                assert!(objects.windows(2).all(|pair| pair[0] < pair[1]));
                assert!(run.end != End::Finished || objects.is_empty());
                reached_any += objects.len();
            }
            assert!(reach(&run.state, run.state.threads.len()).is_err());
        }
    }
    assert!(reached_any > 500);
}

/// A line for each object, then one for each of their fields, which are never absent, between the
/// first two lines and the last; and no more bytes than the longest has.
#[test]
fn drawings_of_random_runs() {
    let (mut nodes, mut edges) = (0, 0);
    for n in 0..600 {
        if let Ok((program, turns)) = accepted(&generate::input(SEED, n)) {
            let state = run(&program, &turns).state;
            let text = drawing(&state);
            let fields: usize = state.objects.iter().map(|made| made.fields.len()).sum();
            let lines: Vec<&str> = text.lines().collect();
            assert_eq!(lines.len(), 3 + state.objects.len() + fields);
            let (first, last) = lines[2..lines.len() - 1].split_at(state.objects.len());
            assert!(first.iter().all(|line| line.contains(" [label=\"")));
            assert!(last.iter().all(|line| line.contains(" -> ")));
            assert!(text.len() <= 41_527);
            nodes += first.len();
            edges += last.len();
        }
    }
    assert!(nodes > 500 && edges > 500);
}

/// Looks at the states that the first turns of many runs leave.
fn each_state(mut look: impl FnMut(&Program, &State)) {
    for n in 0..2_000 {
        if let Ok((program, turns)) = accepted(&generate::input(SEED, n)) {
            let mut machine = Machine::fresh(&program);
            for thread in turns.iter().take(100) {
                if machine.turn(*thread) == Outcome::Moved {
                    look(&program, &machine.state);
                }
            }
        }
    }
}

/// Every message in a channel is reached by a thread that waits as a sender.
#[test]
fn every_message_is_a_waiting_senders() {
    let mut messages = 0;
    each_state(|_, state| {
        let is_sender = |thread: &usize| state.threads[*thread].sending.is_some();
        let senders = (0..state.threads.len()).filter(is_sender);
        let reports: Vec<_> = senders
            .map(|thread| reach(state, thread).unwrap())
            .collect();
        for channel in &state.channels {
            if let Value::Obj(number) = channel.message {
                assert!(reports.iter().any(|objects| objects.contains(&number)));
                messages += 1;
            }
        }
    });
    assert!(messages > 500);
}

/// The message for which a thread would still wait at its turn. The thread stands on the line of its
/// send, whose target slot holds the channel.
fn awaited(program: &Program, state: &State, thread: usize) -> Option<Value> {
    state.threads[thread].sending?;
    if decide(program, state, thread as u8) != Decision::Wait {
        return None;
    }
    let frame = state.threads[thread].frames.last()?;
    let line = &program.blocks[usize::from(frame.block)].lets[usize::from(frame.line)];
    match frame.slots[usize::from(line.target()?)] {
        Value::Chan(channel) => Some(state.channel(channel).message),
        Value::Absent | Value::Obj(_) => None,
    }
}

/// A report is the one on the same state without messages, with the awaited one back in a slot.
#[test]
fn a_message_in_flight_counts_as_if_it_were_in_a_slot() {
    let (mut in_flight, mut gone, mut replaced) = (0, 0, 0);
    each_state(|program, state| {
        for thread in 0..state.threads.len() {
            let mut other = state.clone();
            for channel in &mut other.channels {
                channel.message = Value::Absent;
            }
            let message = awaited(program, state, thread);
            if let Some(frame) = other.threads[thread].frames.last_mut() {
                frame.slots.extend(message);
            }
            let objects = |state: &State| {
                let mut objects = reach(state, thread).unwrap();
                objects.sort_unstable();
                objects
            };
            assert_eq!(objects(state), objects(&other));
            match (message, state.threads[thread].sending) {
                (Some(_), _) => in_flight += 1,
                (None, Some(sending)) => {
                    gone += 1;
                    let message = state.channel(sending.channel).message;
                    replaced += u64::from(message != Value::Absent);
                }
                (None, None) => {}
            }
        }
    });
    assert!(in_flight > 500 && gone > 100 && replaced > 20);
}

/// "An iso object never has more than one holder when self slots are left out." With them it has.
#[test]
fn an_iso_has_at_most_one_holder_beside_its_self_slots() {
    let (mut held, mut loose, mut by_selves) = (0, 0, 0);
    each_state(|program, state| {
        for (number, object) in state.objects.iter().enumerate() {
            if object.cap == Cap::Iso {
                let others = holders_but_self(program, state, number as u16);
                assert!(others <= 1, "object {} of {:?}", number, state);
                held += others;
                loose += 1 - others;
                by_selves += holders(state, number as u16) - others;
            }
        }
    });
    assert!(held > 5_000 && loose > 500 && by_selves > 500);
}

/// The words of a state table in which a value stands: fields, slots and messages.
fn places(words: &[u16]) -> impl Iterator<Item = u16> + '_ {
    let fields = words[8..2056].chunks(8).flat_map(|object| &object[4..]);
    let slots = words[2056..6952].chunks(306).flat_map(|thread| {
        let frames = thread[2..].chunks(19);
        frames.flat_map(|frame| &frame[3..])
    });
    let messages = words[6952..6984].iter().step_by(2);
    fields.chain(slots).chain(messages).copied()
}

/// Each object's count is how often its number stands as a value in the table around it; all counts
/// together are the values that are objects.
#[test]
fn the_counts_of_a_table_are_those_of_its_other_words() {
    let mut most = 0;
    each_state(|_, state| {
        let words = layout::state(state);
        let mut fresh = [0; 256];
        for value in places(&words).filter(|value| (1..=256).contains(value)) {
            fresh[usize::from(value) - 1] += 1;
        }
        let stored: Vec<u16> = words[8..2056].chunks(8).map(|object| object[3]).collect();
        assert_eq!(stored, fresh);
        most = most.max(*stored.iter().max().unwrap());
    });
    assert!(most > 60, "at most {}", most);
}

/// One object has more holders than a byte could count.
#[test]
fn crowded_shapes_hold_one_object_in_many_places() {
    let most = (0..200).map(|n| {
        let (script, turns) = crowded(&mut Random::of(SEED, n));
        holders(&run_of(&script, &turns).state, 0)
    });
    assert!(most.max().unwrap() > 600);
}

/// The entry on every prefix of the short lists: the count of the state that these turns leave, and
/// 21 for the first object that is not there.
#[test]
fn counts_after_every_prefix_of_short_lists() {
    let mut counted = 0;
    for n in 0..2_000 {
        let input = generate::input(SEED, n);
        let (program, turns) = match accepted(&input) {
            Ok((program, turns)) if turns.len() <= 24 => (program, turns),
            _ => continue,
        };
        let script = parts(&input).unwrap().script;
        let mut machine = Machine::fresh(&program);
        for made in 0..=turns.len() {
            for object in 0..=machine.state.objects.len() {
                let count = holder_count(script, &turns[..made], 8_192, 8_192, object).unwrap();
                assert_eq!(count.run.state, machine.state);
                assert_eq!(count.holders, holders_of(&machine.state, object));
                counted += usize::from(count.holders.is_ok());
            }
            if let Some(thread) = turns.get(made) {
                machine.turn(*thread);
            }
        }
    }
    assert!(counted > 500);
}

/// The slot that a copy's line names, if the thread stands on one.
fn slot_to_copy(program: &Program, state: &State, thread: u8) -> Option<usize> {
    let frame = state.threads.get(usize::from(thread))?.frames.last()?;
    let lets = &program.blocks[usize::from(frame.block)].lets;
    match lets.get(usize::from(frame.line))? {
        Expr::Copy { target, .. } => Some(usize::from(*target)),
        _ => None,
    }
}

/// The objects below one, as a stack of those still to be met gives them.
fn depth_first(state: &State, from: Value) -> Vec<Value> {
    let (mut left, mut met) = (vec![from], Vec::new());
    while let Some(value) = left.pop() {
        if let (Value::Obj(number), false) = (value, met.contains(&value)) {
            met.push(value);
            left.extend(state.object(number).fields.iter().rev());
        }
    }
    met
}

/// Nothing that was there has changed, and place by place the new objects are those below the slot,
/// each field the copy of what its original holds.
fn is_copied(before: &State, after: &State, original: Value) {
    let made = before.objects.len();
    assert_eq!(before.objects, after.objects[..made]);
    let met = depth_first(before, original);
    let copy_of = |value: &Value| {
        let place = met.iter().position(|other| other == value).unwrap();
        Value::Obj((made + place) as u16)
    };
    assert_eq!(after.objects.len(), made + met.len());
    for (copy, original) in after.objects[made..].iter().zip(&met) {
        let number = match original {
            Value::Obj(number) => *number,
            _ => panic!("{:?} is met", original),
        };
        let original = before.object(number);
        let fields: Vec<Value> = original.fields.iter().map(copy_of).collect();
        assert_eq!((copy.kind, &copy.fields), (original.kind, &fields));
    }
}

#[test]
fn copies_of_random_runs_are_like_their_originals() {
    let mut copies = 0;
    for n in 0..3_000 {
        if let Ok((program, turns)) = accepted(&generate::input(SEED, n)) {
            let mut machine = Machine::fresh(&program);
            for thread in turns.iter().take(200) {
                let (before, slot) = (
                    machine.state.clone(),
                    slot_to_copy(&program, &machine.state, *thread),
                );
                if let (Some(slot), Outcome::Moved) = (slot, machine.turn(*thread)) {
                    let slots = |state: &State| {
                        let frame = state.threads[usize::from(*thread)].frames.last();
                        frame.unwrap().slots.clone()
                    };
                    let copy = Value::Obj(before.objects.len() as u16);
                    let filled = [slots(&before), vec![copy]].concat();
                    assert_eq!(slots(&machine.state), filled);
                    is_copied(&before, &machine.state, slots(&before)[slot]);
                    copies += 1;
                }
            }
        }
    }
    assert!(copies > 500);
}

/// The shapes of many objects reach all that there can be, and fill all frames.
#[test]
fn woven_and_deep_shapes_reach_far() {
    let farthest = |shape: fn(&mut Random) -> Shape| {
        let runs = (0..200).map(|n| {
            let (script, turns) = shape(&mut Random::of(SEED, n));
            let state = run_of(&script, &turns).state;
            let reached = reach(&state, 0).unwrap().len();
            (reached, state.threads[0].frames.len())
        });
        runs.fold((0, 0), |far, one| (far.0.max(one.0), far.1.max(one.1)))
    };
    assert_eq!(farthest(woven).0, 256);
    let (reached, frames) = farthest(deep);
    assert!(reached > 150);
    assert_eq!(frames, 16);
}

/// Whatever the input, one answer comes first and every line ends in LF.
#[test]
fn boxrun_answers_every_input() {
    for n in 0..3_000 {
        let input = generate::input(SEED + 2, n);
        let output = String::from_utf8(boxrun(&input)).unwrap();
        let head = output.split(' ').next().unwrap();
        assert!(
            ["(end", "(stopped", "(refused"].contains(&head),
            "{}",
            output
        );
        assert!(output.ends_with(")\n"));
        assert_eq!(accepted(&input).is_err(), head == "(refused");
        if head == "(refused" {
            assert_eq!(boxrun_stripped(&input), output.as_bytes());
        }
    }
}

/// No K but unsafe is left by stripping, and nothing else is changed.
#[test]
fn stripping_changes_only_capabilities() {
    let guarded = program(&text(&[
        "(kind (fields 0) (does))",
        "(thread)",
        "(let (new iso 0))",
        "(let (cast imm (take 1)))",
        "(let (spawn 0))",
        "(give (read 2))",
    ]));
    let stripped = program(&text(&[
        "(kind (fields 0) (does))",
        "(thread)",
        "(let (new unsafe 0))",
        "(let (cast unsafe (take 1)))",
        "(let (spawn 0))",
        "(give (read 2))",
    ]));
    assert_eq!(strip(&guarded), stripped);
    assert!(matches!(
        guarded.blocks[0].lets[0],
        Expr::New { cap: Cap::Iso, .. }
    ));
    let state = run(&guarded, &[0]).state;
    assert_eq!(state.objects[0].cap, Cap::Iso);
    assert_eq!(erase(&state), run(&stripped, &[0]).state);
    assert_ne!(state, run(&stripped, &[0]).state);
}

/// A text that grew past the most is read all the same: the lengths are not looked at here.
#[test]
fn a_stripped_text_reads_as_the_stripped_program() {
    let mut read = 0;
    for n in 0..400 {
        let input = generate::input(SEED, n);
        if let Ok((program, _)) = accepted(&input) {
            let script = parts(&input).unwrap().script.to_vec();
            assert_eq!(read_lines(&strip_text(&script)), Ok(strip(&program)));
            read += 1;
        }
    }
    assert!(read > 200);
}

fn two_lines(first: &str, second: &str) -> second::script::Program {
    program(&text(&[
        "(kind (fields 0) (does))",
        "(kind (fields 1) (does))",
        "(thread)",
        &format!("(let {})", first),
        &format!("(let {})", second),
        "(give (take 1))",
    ]))
}

/// Pairs that are no script and its stripped one: each sentence of demand 3 is seen to fail.
#[test]
fn the_check_of_demand_3_can_fail() {
    let fault = |guarded: (&str, &str), other: (&str, &str), turns: &[u8]| {
        let (guarded, other) = (two_lines(guarded.0, guarded.1), two_lines(other.0, other.1));
        check_pair(&guarded, &other, turns).unwrap_err()
    };
    let plain = ("(new unsafe 0)", "(read 1)");
    let states = fault(plain, ("(new unsafe 0)", "(new unsafe 0)"), &[0, 0]);
    assert!(states.contains("states differ"), "{}", states);
    let others = fault(("(new unsafe 0)", "(field 1 0)"), plain, &[0, 0]);
    assert!(others.contains("of the guarded run"), "{}", others);
    let line = fault(
        ("(read 0)", "(read 0)"),
        ("(new unsafe 0)", "(read 0)"),
        &[0, 0],
    );
    assert!(line.contains("of the guarded run"), "{}", line);
    let guard = fault(
        ("(new unsafe 0)", "(cast iso (read 1))"),
        ("(new unsafe 0)", "(cast iso (read 1))"),
        &[0, 0],
    );
    assert!(guard.contains("for permission or cast"), "{}", guard);
    let early = fault(plain, ("(new unsafe 0)", "(read 0)"), &[0, 0]);
    assert!(early.contains("states differ"), "{}", early);
    let stuck = check_pair(&waits("(recv 1)"), &waits("(read 1)"), &[0, 1]).unwrap_err();
    assert!(stuck.contains("stuck"), "{}", stuck);
    let alone = check_pair(&waits("(recv 1)"), &waits("(field 1 0)"), &[0, 0]).unwrap_err();
    assert!(alone.contains("of the stripped run"), "{}", alone);
}

fn waits(line: &str) -> second::script::Program {
    program(&text(&[
        "(thread)",
        "(let (spawn 1))",
        &format!("(let {})", line),
        "(give (read 1))",
        "(thread)",
        "(give (read 0))",
    ]))
}

/// The stripped run may stop later, once the guarded one has stopped for permission or cast.
#[test]
fn a_stripped_run_may_stop_later() {
    let script = text(&[
        "(kind (fields 0) (does))",
        "(thread)",
        "(let (new iso 0))",
        "(let (read 1))",
        "(let (field 1 0))",
        "(give (read 1))",
    ]);
    let facts = check(&program(&script), &[0; 5]).unwrap();
    let place =
        |stopped: Option<second::demand3::Stopped>| stopped.map(|s| (s.place, s.stop.number));
    assert_eq!(place(facts.guarded), Some((1, 19)));
    assert_eq!(place(facts.stripped), Some((2, 11)));
}
