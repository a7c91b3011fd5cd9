//! One turn of each line form: the order of its checks (each pair of neighbours where both hold),
//! what it writes, what waits; frames, threads and objects used up; ends and idle turns.

mod common;

use common::*;
use second::machine::{run, End, Machine, Outcome, Stop};
use second::script::Cap;
use second::state::{Frame, Sending, Value};

/// Kind 0 is plain, kind 1 has one field and method block 1, kind 2 two fields. Block 2 only gives.
const KINDS: &str =
    "(kind (fields 0) (does))\n(kind (fields 1) (does 1))\n(kind (fields 2) (does))\n";
const METHOD: &str = "(method)\n(give (read 1))\n";

/// Thread 0 does the lets; block 2 is a thread that it may spawn.
fn alone(lets: &[&str]) -> String {
    let first = format!("(thread)\n{}(give (read 0))\n", let_lines(lets));
    format!("{}{}{}(thread)\n(give (read 0))\n", KINDS, first, METHOD)
}

/// Thread 1 does the lets, with thread 0's box in slot 1 and what the box holds, thread 0's local
/// of kind 1, in slot 2. The local holds an imm object.
fn beside_a_foreign_local(lets: &[&str]) -> String {
    let first = "(thread)\n(let (spawn 2))\n(let (new imm 0))\n(let (new local 1 (read 2)))\n\
                 (let (new unsafe 1 (read 3)))\n(let (send 1 (read 4)))\n(give (read 1))\n";
    let second = format!(
        "(thread)\n(let (recv 0))\n(let (field 1 0))\n{}(give (read 0))\n",
        let_lines(lets)
    );
    format!("{}{}{}{}", KINDS, first, METHOD, second)
}

/// The same, but the local holds an iso object.
fn beside_a_foreign_iso(lets: &[&str]) -> String {
    beside_a_foreign_local(lets)
        .replacen("(new imm 0)", "(new iso 0)", 1)
        .replacen("(new local 1 (read 2))", "(new local 1 (take 2))", 1)
}

/// Thread 1 does the lets, with its channel full of thread 0's message.
fn beside_a_full_channel(lets: &[&str]) -> String {
    let first =
        "(thread)\n(let (spawn 2))\n(let (new imm 0))\n(let (send 1 (read 2)))\n(give (read 1))\n";
    format!(
        "{}{}{}(thread)\n{}(give (read 0))\n",
        KINDS,
        first,
        METHOD,
        let_lines(lets)
    )
}

fn let_lines(lets: &[&str]) -> String {
    lets.iter()
        .map(|expr| format!("(let {})\n", expr))
        .collect()
}

/// The thread's last let stops the run with the number; all lets before it move.
fn last_let_stops(script: &str, turns: &[u8], line: usize) -> u8 {
    let run = run_of(script, turns);
    match run.end {
        End::Stopped(stop) if usize::from(stop.line) == line => stop.number,
        end => panic!("{:?} after {} moves of\n{}", end, run.moves, script),
    }
}

fn stops(lets: &[&str]) -> u8 {
    last_let_stops(&alone(lets), &vec![0; lets.len()], lets.len() - 1)
}

fn moves(lets: &[&str]) -> bool {
    let run = run_of(&alone(lets), &vec![0; lets.len()]);
    run.moves as usize == lets.len()
}

const FIVE_THEN_TWO: [u8; 7] = [0, 0, 0, 0, 0, 1, 1];

fn foreign_turns(lets: usize) -> Vec<u8> {
    let mut turns = FIVE_THEN_TWO.to_vec();
    turns.extend(vec![1; lets]);
    turns
}

fn foreign_stops(lets: &[&str]) -> u8 {
    let script = beside_a_foreign_local(lets);
    last_let_stops(&script, &foreign_turns(lets.len()), lets.len() + 1)
}

fn foreign_iso_stops(lets: &[&str]) -> u8 {
    let script = beside_a_foreign_iso(lets);
    last_let_stops(&script, &foreign_turns(lets.len()), lets.len() + 1)
}

fn foreign_moves(lets: &[&str]) -> bool {
    let run = run_of(&beside_a_foreign_local(lets), &foreign_turns(lets.len()));
    run.moves as usize == FIVE_THEN_TWO.len() + lets.len()
}

fn full_turns(lets: usize) -> Vec<u8> {
    let mut turns = vec![0; 3];
    turns.extend(vec![1; lets]);
    turns
}

fn full_stops(lets: &[&str]) -> u8 {
    last_let_stops(
        &beside_a_full_channel(lets),
        &full_turns(lets.len()),
        lets.len() - 1,
    )
}

#[test]
fn operand_checks() {
    assert_eq!(stops(&["(read 0)"]), 10);
    assert_eq!(stops(&["(take 0)"]), 10);
    assert_eq!(stops(&["(new imm 0)", "(take 1)", "(read 1)"]), 10);
    assert_eq!(stops(&["(new iso 0)", "(read 1)"]), 19);
    assert!(moves(&["(new iso 0)", "(take 1)"]));
    for cap in ["imm", "local", "unsafe"] {
        let new = format!("(new {} 0)", cap);
        assert!(moves(&[&new, "(read 1)", "(take 1)"]), "{}", cap);
    }
    assert!(moves(&["(spawn 2)", "(read 1)", "(take 2)"]));
    assert!(foreign_moves(&["(read 2)"]));
}

#[test]
fn operand_checks_of_every_form() {
    for form in [
        "{}",
        "(swap 2 0 {})",
        "(call 2 0 {})",
        "(new unsafe 1 {})",
        "(cast iso {})",
    ] {
        let with = |value: &str| form.replace("{}", value);
        let before = ["(new iso 0)", "(new unsafe 1 (take 1))", "(new iso 0)"];
        let lets = |last: &str| [before[0], before[1], before[2], last].map(String::from);
        let number = |last: &str| stops(&lets(last).iter().map(String::as_str).collect::<Vec<_>>());
        assert_eq!(number(&with("(read 0)")), 10, "{}", form);
        assert_eq!(number(&with("(take 1)")), 10, "{}", form);
        assert_eq!(number(&with("(read 3)")), 19, "{}", form);
    }
    assert_eq!(
        stops(&["(spawn 2)", "(new iso 0)", "(send 1 (read 2))"]),
        19
    );
    assert_eq!(stops(&["(spawn 2)", "(send 1 (read 0))"]), 10);
    let give = |value: &str| {
        alone(&["(new iso 0)"]).replacen("(give (read 0))", &format!("(give {})", value), 1)
    };
    assert_eq!(answer(&give("(read 0)"), "0 0"), "(stopped 10 0 0 1 1)");
    assert_eq!(answer(&give("(read 1)"), "0 0"), "(stopped 19 0 0 1 1)");
    assert_eq!(answer(&give("(take 1)"), "0 0"), "(end finished 2)");
}

#[test]
fn each_operand_sees_what_the_earlier_ones_took() {
    assert_eq!(stops(&["(new imm 0)", "(new imm 2 (take 1) (take 1))"]), 10);
    assert_eq!(stops(&["(new imm 0)", "(new imm 2 (take 1) (read 1))"]), 10);
    assert!(moves(&["(new imm 0)", "(new imm 2 (read 1) (take 1))"]));
    let run = run_of(
        &alone(&["(new imm 0)", "(new imm 2 (read 1) (take 1))"]),
        &[0, 0],
    );
    assert_eq!(
        run.state.objects[1].fields,
        vec![Value::Obj(0), Value::Obj(0)]
    );
    assert_eq!(
        run.state.threads[0].frames[0].slots,
        vec![Value::Absent, Value::Absent, Value::Obj(1)]
    );
}

/// Each operand passes both of its checks before the next one is looked at.
#[test]
fn operands_go_left_to_right() {
    assert_eq!(
        stops(&["(new iso 0)", "(new unsafe 2 (read 1) (read 0))"]),
        19
    );
    assert_eq!(
        stops(&["(new iso 0)", "(new unsafe 2 (read 0) (read 1))"]),
        10
    );
}

#[test]
fn operands_come_before_the_target() {
    for form in [
        "(swap 0 0 (read 1))",
        "(call 0 0 (read 1))",
        "(send 0 (read 1))",
    ] {
        assert_eq!(stops(&["(new iso 0)", form]), 19, "{}", form);
    }
    for form in ["(swap 1 0 (read 0))", "(call 1 0 (read 0))"] {
        assert_eq!(stops(&["(spawn 2)", form]), 10, "{}", form);
    }
    assert_eq!(stops(&["(new imm 0)", "(send 1 (read 0))"]), 10);
    for form in ["(swap 2 0 (take 2))", "(call 2 0 (take 2))"] {
        assert_eq!(
            stops(&["(new imm 0)", "(new unsafe 1 (read 1))", form]),
            10,
            "{}",
            form
        );
    }
    assert_eq!(stops(&["(spawn 2)", "(send 1 (take 1))"]), 10);
    assert_eq!(stops(&["(spawn 2)", "(send 1 (read 1))"]), 13);
}

#[test]
fn field_checks_in_order() {
    assert_eq!(stops(&["(field 0 255)"]), 10);
    assert_eq!(stops(&["(spawn 2)", "(field 1 0)"]), 13);
    assert_eq!(stops(&["(spawn 2)", "(field 1 255)"]), 13);
    assert_eq!(stops(&["(new imm 0)", "(field 1 0)"]), 11);
    assert_eq!(
        stops(&["(new imm 0)", "(new imm 1 (read 1))", "(field 2 1)"]),
        11
    );
    assert_eq!(foreign_stops(&["(field 2 1)"]), 11);
    assert_eq!(foreign_stops(&["(field 2 0)"]), 20);
    for holder in ["iso", "local", "unsafe"] {
        let new = format!("(new {} 1 (take 1))", holder);
        assert_eq!(
            stops(&["(new iso 0)", &new, "(field 2 0)"]),
            19,
            "{}",
            holder
        );
    }
}

/// Document 02, L5: "20 goes before 19 and 19 before 14 within one line's permission check".
#[test]
fn a_foreign_field_that_holds_an_iso_is_20() {
    assert_eq!(foreign_iso_stops(&["(field 2 0)"]), 20);
}

#[test]
fn a_swap_into_a_foreign_local_of_what_is_above_it_is_20() {
    assert_eq!(foreign_stops(&["(swap 2 0 (read 1))"]), 20);
    assert_eq!(
        foreign_stops(&["(new unsafe 0)", "(swap 2 0 (take 3))"]),
        20
    );
}

/// One value is both, and one of two is either, in both orders.
#[test]
fn a_new_with_a_foreign_value_and_one_above_is_20() {
    assert_eq!(foreign_stops(&["(new imm 1 (read 2))"]), 20);
    assert_eq!(foreign_stops(&["(new iso 1 (read 2))"]), 20);
    assert_eq!(foreign_stops(&["(new local 2 (read 1) (read 2))"]), 20);
    assert_eq!(foreign_stops(&["(new local 2 (read 2) (read 1))"]), 20);
    assert_eq!(foreign_stops(&["(new local 1 (read 1))"]), 14);
}

/// "Operands still go first": a read of an iso is 19 where the target or another value is foreign,
/// and where the iso is above K.
#[test]
fn operands_come_before_the_permission_check() {
    let reads = |form: &str| foreign_stops(&["(new iso 0)", form]);
    assert_eq!(reads("(swap 2 0 (read 3))"), 19);
    assert_eq!(reads("(call 2 0 (read 3))"), 19);
    assert_eq!(reads("(new local 2 (read 2) (read 3))"), 19);
    assert_eq!(reads("(new imm 1 (read 3))"), 19);
    assert_eq!(reads("(new imm 1 (take 3))"), 14);
}

#[test]
fn field_gives_and_keeps_the_value() {
    for holder in ["imm", "iso", "local", "unsafe"] {
        let new = format!("(new {} 1 (read 1))", holder);
        let lets = ["(new imm 0)", &new, "(field 2 0)", "(field 2 0)"];
        let run = run_of(&alone(&lets), &[0; 4]);
        let frame = &run.state.threads[0].frames[0];
        assert_eq!(
            frame.slots[3..],
            [Value::Obj(0), Value::Obj(0)],
            "{}",
            holder
        );
        assert_eq!(run.state.objects[1].fields, vec![Value::Obj(0)]);
    }
}

#[test]
fn swap_checks_in_order() {
    assert_eq!(stops(&["(spawn 2)", "(swap 0 0 (read 1))"]), 10);
    assert_eq!(stops(&["(new unsafe 0)", "(swap 0 0 (read 1))"]), 10);
    assert_eq!(
        stops(&["(spawn 2)", "(new imm 0)", "(swap 1 255 (read 2))"]),
        13
    );
    assert_eq!(
        stops(&["(spawn 2)", "(new unsafe 0)", "(swap 2 255 (read 1))"]),
        13
    );
    assert_eq!(
        stops(&[
            "(spawn 2)",
            "(new imm 0)",
            "(new imm 1 (read 2))",
            "(swap 3 0 (read 1))"
        ]),
        13
    );
    assert_eq!(stops(&["(new imm 0)", "(swap 1 0 (read 1))"]), 11);
    assert_eq!(
        stops(&["(new unsafe 0)", "(new imm 0)", "(swap 2 0 (read 1))"]),
        11
    );
    assert_eq!(foreign_stops(&["(new imm 0)", "(swap 2 1 (read 3))"]), 11);
    assert_eq!(foreign_stops(&["(new imm 0)", "(swap 2 0 (read 3))"]), 20);
}

/// "Target imm, or value above the target."
#[test]
fn swap_holds_its_own_or_a_lesser_capability() {
    for holder in Cap::ALL {
        for value in Cap::ALL {
            let lets = [
                format!("(new {} 0)", value.word()),
                "(new imm 0)".to_string(),
                format!("(new {} 1 (read 2))", holder.word()),
                "(swap 3 0 (take 1))".to_string(),
            ];
            let lets: Vec<&str> = lets.iter().map(String::as_str).collect();
            if holder != Cap::Imm && rank(value) <= rank(holder) {
                assert!(moves(&lets), "{:?} {:?}", holder, value);
            } else {
                assert_eq!(stops(&lets), 14, "{:?} {:?}", holder, value);
            }
        }
    }
}

/// The order imm < iso < local < unsafe, written out once more.
fn rank(cap: Cap) -> usize {
    match cap {
        Cap::Imm => 0,
        Cap::Iso => 1,
        Cap::Local => 2,
        Cap::Unsafe => 3,
    }
}

#[test]
fn swap_of_locals_with_other_creators() {
    let own_local = [
        "(new imm 0)",
        "(new local 1 (read 3))",
        "(swap 4 0 (read 2))",
    ];
    assert_eq!(foreign_stops(&own_local), 20);
    let own_unsafe = [
        "(new imm 0)",
        "(new unsafe 1 (read 3))",
        "(swap 4 0 (read 2))",
    ];
    assert!(foreign_moves(&own_unsafe));
    assert!(foreign_moves(&["(swap 1 0 (read 2))"]));
    assert!(moves(&[
        "(new imm 0)",
        "(new local 1 (read 1))",
        "(swap 2 0 (read 2))"
    ]));
}

#[test]
fn swap_stores_the_value_and_gives_the_old_one() {
    let lets = [
        "(new iso 0)",
        "(new unsafe 1 (take 1))",
        "(new iso 0)",
        "(swap 2 0 (take 3))",
    ];
    let run = run_of(&alone(&lets), &[0; 4]);
    assert_eq!(run.state.objects[1].fields, vec![Value::Obj(2)]);
    let slots = &run.state.threads[0].frames[0].slots;
    assert_eq!(
        *slots,
        vec![
            Value::Absent,
            Value::Absent,
            Value::Obj(1),
            Value::Absent,
            Value::Obj(0)
        ]
    );
}

#[test]
fn call_checks_in_order() {
    assert_eq!(stops(&["(new imm 0)", "(call 0 255 (read 1))"]), 10);
    assert_eq!(stops(&["(spawn 2)", "(call 1 255 (read 1))"]), 13);
    assert_eq!(stops(&["(spawn 2)", "(call 1 0 (read 1))"]), 13);
    assert_eq!(stops(&["(new imm 0)", "(call 1 0 (read 1))"]), 12);
    assert_eq!(
        stops(&["(new imm 0)", "(new imm 1 (read 1))", "(call 2 1 (read 1))"]),
        12
    );
    assert_eq!(foreign_stops(&["(call 2 1 (read 1))"]), 12);
    assert_eq!(foreign_stops(&["(call 2 0 (read 1))"]), 20);
    assert!(moves(&[
        "(new imm 0)",
        "(new local 1 (read 1))",
        "(call 2 0 (read 1))"
    ]));
    assert!(foreign_moves(&["(call 1 0 (read 2))"]));
}

#[test]
fn call_and_give() {
    let lets = [
        "(new iso 0)",
        "(new iso 1 (take 1))",
        "(new iso 0)",
        "(call 2 0 (take 3))",
        "(read 4)",
    ];
    let script = alone(&lets).replacen("(method)\n(give (read 1))", "(method)\n(give (take 1))", 1);
    let program = program(&script);
    let mut machine = Machine::fresh(&program);
    assert_eq!(outcome(&mut machine, &[0; 4]), Outcome::Moved);
    let caller = Frame {
        block: 0,
        line: 3,
        slots: vec![Value::Absent, Value::Absent, Value::Obj(1), Value::Absent],
    };
    let called = Frame {
        block: 1,
        line: 0,
        slots: vec![Value::Obj(1), Value::Obj(2)],
    };
    assert_eq!(
        machine.state.threads[0].frames,
        vec![caller.clone(), called]
    );
    assert_eq!(machine.turn(0), Outcome::Moved);
    let mut filled = caller;
    filled.line = 4;
    filled.slots.push(Value::Obj(2));
    assert_eq!(machine.state.threads[0].frames, vec![filled]);
    assert_eq!(machine.moves, 5);
}

#[test]
fn a_channel_may_be_target_argument_and_given() {
    let lets = [
        "(spawn 2)",
        "(new imm 0)",
        "(new imm 1 (read 2))",
        "(call 3 0 (take 1))",
    ];
    let run = run_of(&alone(&lets), &[0; 5]);
    assert_eq!(run.state.threads[0].frames[0].slots[1], Value::Absent);
    assert_eq!(run.state.threads[0].frames[0].slots[4], Value::Chan(1));
}

/// Nodes 15 to 8 by thread 0 around the innermost object, 7 to 1 by thread 1. Each method frame
/// calls the next node; in the sixteenth frame the target is the innermost object.
fn sixteen_frames(innermost: &str) -> String {
    let nodes = |first: usize, count: usize| -> String {
        (first..first + count)
            .map(|slot| format!("(let (new unsafe 1 (read {})))\n", slot))
            .collect()
    };
    format!(
        "{}(kind (fields 1) (does 2))\n(thread)\n(let (spawn 1))\n(let (new imm 0))\n(let (new {} 1 (read 2)))\n\
         {}(let (send 1 (read 11)))\n(give (read 0))\n(thread)\n(let (recv 0))\n{}(let (call 8 0 (read 1)))\n\
         (give (read 0))\n(method)\n(let (field 0 0))\n(let (call 2 0 (read 1)))\n(give (read 1))\n",
        PLAIN_KIND,
        innermost,
        nodes(3, 8),
        nodes(1, 7)
    )
}

#[test]
fn call_permission_comes_before_frames_used_up() {
    let mut turns = vec![0; 12];
    turns.extend([1; 60]);
    let stop = |number: u8| Stop {
        number,
        thread: 1,
        block: 2,
        line: 1,
    };
    let foreign = run_of(&sixteen_frames("local"), &turns);
    assert_eq!(foreign.end, End::Stopped(stop(20)));
    assert_eq!(foreign.state.threads[1].frames.len(), 16);
    let free = run_of(&sixteen_frames("unsafe"), &turns);
    assert_eq!(free.end, End::Stopped(stop(16)));
}

#[test]
fn fifteen_nested_calls_stand_and_the_sixteenth_stops() {
    let lets = ["(new imm 0)", "(new imm 1 (read 1))", "(call 2 0 (read 1))"];
    let script = alone(&lets).replacen("(method)\n", "(method)\n(let (call 0 0 (read 1)))\n", 1);
    let stand = run_of(&script, &[0; 17]);
    assert_eq!((stand.end, stand.moves), (End::Open, 17));
    assert_eq!(stand.state.threads[0].frames.len(), 16);
    let stop = run_of(&script, &[0; 18]);
    assert_eq!(
        stop.end,
        End::Stopped(Stop {
            number: 16,
            thread: 0,
            block: 1,
            line: 0
        })
    );
    assert_eq!(stop.state, stand.state);
}

#[test]
fn new_holds_its_own_or_a_lesser_capability() {
    for cap in Cap::ALL {
        for value in Cap::ALL {
            let first = format!("(new {} 0)", value.word());
            let second = format!("(new {} 1 (take 1))", cap.word());
            if rank(value) <= rank(cap) {
                assert!(moves(&[&first, &second]), "{:?} {:?}", cap, value);
            } else {
                assert_eq!(stops(&[&first, &second]), 14, "{:?} {:?}", cap, value);
            }
        }
    }
}

#[test]
fn new_checks_in_order() {
    assert_eq!(stops(&["(spawn 2)", "(new imm 2 (read 1) (read 0))"]), 10);
    assert_eq!(stops(&["(spawn 2)", "(new imm 1 (read 1))"]), 13);
    assert_eq!(
        stops(&[
            "(spawn 2)",
            "(new unsafe 0)",
            "(new imm 2 (read 2) (read 1))"
        ]),
        13
    );
    assert_eq!(
        stops(&[
            "(spawn 2)",
            "(new unsafe 0)",
            "(new imm 2 (read 1) (read 2))"
        ]),
        13
    );
    assert_eq!(
        stops(&[
            "(new imm 0)",
            "(new iso 0)",
            "(new imm 2 (read 1) (take 2))"
        ]),
        14
    );
    assert_eq!(foreign_stops(&["(new unsafe 1 (read 2))"]), 20);
    assert_eq!(foreign_stops(&["(new local 1 (read 2))"]), 20);
    assert!(moves(&[
        "(new local 0)",
        "(new local 1 (read 1))",
        "(new unsafe 1 (read 2))"
    ]));
}

/// 256 objects: 1, then 196 by method 0, then 56 by method 1, then 3 more, then the line.
fn with_all_objects(line: &str) -> String {
    let calls = "(let (call 0 1 (read 1)))\n".repeat(14);
    let news = "(let (new imm 0))\n".repeat(14);
    let own = "(let (call 1 1 (read 1)))\n".repeat(4);
    let last = "(let (new unsafe 0))\n".repeat(3);
    format!(
        "(kind (fields 0) (does 1 2))\n(kind (fields 1) (does))\n(thread)\n(let (new imm 0))\n\
         (let (call 1 0 (read 1)))\n{}{}(let {})\n(give (read 1))\n\
         (method)\n{}(give (read 1))\n(method)\n{}(give (read 1))\n",
        own, last, line, calls, news
    )
}

#[test]
fn new_permission_comes_before_objects_used_up() {
    let turns = [0; 400];
    assert_eq!(
        last_let_stops(&with_all_objects("(new imm 0)"), &turns, 9),
        16
    );
    assert_eq!(
        last_let_stops(&with_all_objects("(new unsafe 1 (read 9))"), &turns, 9),
        16
    );
    assert_eq!(
        last_let_stops(&with_all_objects("(new imm 1 (read 9))"), &turns, 9),
        14
    );
    assert_eq!(
        run_of(&with_all_objects("(read 9)"), &turns).end,
        End::Finished
    );
}

#[test]
fn new_makes_the_next_object_of_this_thread() {
    let run = run_of(
        &beside_a_foreign_local(&["(new imm 0)", "(new iso 1 (read 3))"]),
        &foreign_turns(2),
    );
    let object = &run.state.objects[4];
    assert_eq!((object.cap, object.kind, object.creator), (Cap::Iso, 1, 1));
    assert_eq!(object.fields, vec![Value::Obj(3)]);
    assert_eq!(
        run.state.threads[1].frames[0].slots[3..],
        [Value::Obj(3), Value::Obj(4)]
    );
}

#[test]
fn cast_checks() {
    for cap in Cap::ALL {
        for value in Cap::ALL {
            let new = format!("(new {} 0)", value.word());
            let cast = format!("(cast {} (take 1))", cap.word());
            if cap == value {
                let run = run_of(&alone(&[&new, &cast]), &[0, 0]);
                let slots = vec![Value::Absent, Value::Absent, Value::Obj(0)];
                assert_eq!(run.state.threads[0].frames[0].slots, slots);
            } else {
                assert_eq!(stops(&[&new, &cast]), 15, "{:?} {:?}", cap, value);
            }
        }
    }
    assert_eq!(stops(&["(new iso 0)", "(cast imm (read 1))"]), 19);
    assert_eq!(stops(&["(new iso 0)", "(cast iso (read 1))"]), 19);
    for cap in Cap::ALL {
        assert_eq!(
            stops(&["(spawn 2)", &format!("(cast {} (read 1))", cap.word())]),
            13
        );
    }
    assert!(foreign_moves(&["(cast local (read 2))"]));
}

#[test]
fn spawn_makes_threads_1_to_15() {
    let lets = vec!["(spawn 2)"; 15];
    let run = run_of(&alone(&lets), &[0; 15]);
    assert_eq!(
        (run.moves, run.state.threads.len(), run.state.channels.len()),
        (15, 16, 15)
    );
    let last = &run.state.threads[15].frames[0];
    assert_eq!(
        (last.block, last.line, last.slots.clone()),
        (2, 0, vec![Value::Chan(15)])
    );
    assert_eq!(run.state.threads[0].frames[0].slots[15], Value::Chan(15));
    assert_eq!(
        (
            run.state.channels[14].message,
            run.state.channels[14].number
        ),
        (Value::Absent, 0)
    );
}

/// Finished threads count on: their numbers are never used again.
#[test]
fn the_sixteenth_spawn_stops() {
    let script = text(&["(thread)", "(let (spawn 0))", "(give (read 1))"]);
    let turns: Vec<u8> = (0..16).flat_map(|thread| vec![thread; 2]).collect();
    let run = run_of(&script, &turns);
    assert_eq!(
        run.end,
        End::Stopped(Stop {
            number: 16,
            thread: 15,
            block: 0,
            line: 0
        })
    );
    assert_eq!(run.moves, 30);
    assert!(run.state.threads[..15]
        .iter()
        .all(|thread| thread.finished()));
}

/// A block spawned anew starts with its channel in slot 0, block 0 too.
#[test]
fn spawn_of_block_0() {
    let script = text(&["(thread)", "(let (spawn 0))", "(give (read 0))"]);
    let run = run_of(&script, &[0, 1, 1]);
    assert_eq!(run.moves, 3);
    assert!(run.state.threads[1].finished());
}

#[test]
fn send_checks_in_order() {
    assert_eq!(stops(&["(spawn 2)", "(send 0 (read 1))"]), 10);
    assert_eq!(stops(&["(new local 0)", "(send 0 (read 1))"]), 10);
    assert_eq!(stops(&["(new imm 0)", "(send 1 (read 1))"]), 13);
    assert_eq!(
        stops(&["(new local 0)", "(new imm 0)", "(send 2 (read 1))"]),
        13
    );
    assert_eq!(
        stops(&["(spawn 2)", "(new imm 0)", "(send 2 (read 1))"]),
        13
    );
    assert_eq!(stops(&["(spawn 2)", "(spawn 2)", "(send 1 (read 2))"]), 13);
    assert_eq!(
        stops(&["(spawn 2)", "(new local 0)", "(send 1 (read 2))"]),
        14
    );
    assert_eq!(full_stops(&["(send 0 (read 0))"]), 13);
    assert_eq!(full_stops(&["(new local 0)", "(send 0 (read 1))"]), 14);
    assert_eq!(full_stops(&["(new iso 0)", "(send 0 (read 1))"]), 19);
    assert_eq!(foreign_stops(&["(send 0 (read 2))"]), 14);
    for cap in ["imm", "iso", "unsafe"] {
        assert!(
            moves(&[
                "(spawn 2)",
                &format!("(new {} 0)", cap),
                "(send 1 (take 2))"
            ]),
            "{}",
            cap
        );
    }
}

#[test]
fn a_send_that_finds_its_channel_full_waits() {
    let program = program(&beside_a_full_channel(&[
        "(new iso 0)",
        "(send 0 (take 1))",
    ]));
    let mut machine = Machine::fresh(&program);
    assert_eq!(outcome(&mut machine, &[0, 0, 0, 1]), Outcome::Moved);
    let before = machine.state.clone();
    assert_eq!(machine.turn(1), Outcome::Waited);
    assert_eq!((machine.moves, &machine.state), (4, &before));
    assert_eq!(machine.state.threads[1].sending, None);
}

/// Thread 0 sends twice and thread 1 receives twice.
fn two_messages() -> String {
    text(&[
        "(kind (fields 0) (does))",
        "(thread)",
        "(let (spawn 1))",
        "(let (new iso 0))",
        "(let (new imm 0))",
        "(let (send 1 (take 2)))",
        "(let (send 4 (read 3)))",
        "(give (read 5))",
        "(thread)",
        "(let (recv 0))",
        "(let (recv 0))",
        "(give (take 1))",
    ])
}

#[test]
fn send_puts_waits_and_moves_on() {
    let program = program(&two_messages());
    let mut machine = Machine::fresh(&program);
    assert_eq!(outcome(&mut machine, &[0, 0, 0, 0]), Outcome::Moved);
    let channel = machine.state.channels[0];
    assert_eq!((channel.message, channel.number), (Value::Obj(0), 1));
    let thread = &machine.state.threads[0];
    assert_eq!(
        thread.sending,
        Some(Sending {
            channel: 1,
            number: 1
        })
    );
    assert_eq!(
        (thread.frames[0].line, thread.frames[0].slots.len()),
        (3, 4)
    );
    assert_eq!(thread.frames[0].slots[2], Value::Absent);
    let put = machine.state.clone();
    assert_eq!(machine.turn(0), Outcome::Waited);
    assert_eq!((machine.moves, &machine.state), (4, &put));
    assert_eq!(machine.turn(1), Outcome::Moved);
    let channel = machine.state.channels[0];
    assert_eq!((channel.message, channel.number), (Value::Absent, 1));
    assert_eq!(machine.state.threads[0], put.threads[0]);
    assert_eq!(machine.turn(0), Outcome::Moved);
    let thread = &machine.state.threads[0];
    assert_eq!((thread.sending, thread.frames[0].line), (None, 4));
    assert_eq!(thread.frames[0].slots[4], Value::Chan(1));
    assert_eq!(machine.turn(0), Outcome::Moved);
    assert_eq!(machine.state.channels[0].number, 2);
    assert_eq!(
        machine.state.threads[0].sending,
        Some(Sending {
            channel: 1,
            number: 2
        })
    );
    assert_eq!(outcome(&mut machine, &[1, 0, 0, 1]), Outcome::Moved);
    assert_eq!((machine.moves, machine.end()), (11, End::Finished));
}

#[test]
fn recv_checks_and_gives() {
    assert_eq!(stops(&["(recv 0)"]), 10);
    assert_eq!(stops(&["(new imm 0)", "(recv 1)"]), 13);
    let program = program(&two_messages());
    let mut machine = Machine::fresh(&program);
    assert_eq!(machine.turn(0), Outcome::Moved);
    let before = machine.state.clone();
    assert_eq!(machine.turn(1), Outcome::Waited);
    assert_eq!((machine.moves, &machine.state), (1, &before));
    outcome(&mut machine, &[0, 0, 0, 1]);
    assert_eq!(
        machine.state.threads[1].frames[0].slots,
        vec![Value::Chan(1), Value::Obj(0)]
    );
    assert_eq!(machine.turn(1), Outcome::Waited);
}

/// A thread may send on its own channel; its spawner receives.
#[test]
fn own_channel() {
    let script = text(&[
        "(kind (fields 0) (does))",
        "(thread)",
        "(let (spawn 1))",
        "(let (recv 1))",
        "(give (take 2))",
        "(thread)",
        "(let (new iso 0))",
        "(let (send 0 (take 1)))",
        "(give (take 0))",
    ]);
    assert_eq!(answer(&script, "0 0 1 1 1 0 1 1 0"), "(end finished 7)");
}

/// Only the value itself must not be local.
#[test]
fn an_unsafe_object_that_holds_a_local_may_be_sent() {
    assert!(foreign_moves(&[]));
}

#[test]
fn idle_turns_change_nothing() {
    let program = program(&text(&[
        "(thread)",
        "(let (spawn 1))",
        "(give (read 1))",
        "(thread)",
        "(give (read 0))",
    ]));
    let mut machine = Machine::fresh(&program);
    let fresh = machine.state.clone();
    for thread in [1, 2, 15, 16, 17, 255] {
        assert_eq!(machine.turn(thread), Outcome::Idle);
    }
    assert_eq!((machine.moves, &machine.state), (0, &fresh));
    outcome(&mut machine, &[0, 1]);
    let before = machine.state.clone();
    assert_eq!(machine.turn(1), Outcome::Idle);
    assert_eq!((machine.moves, &machine.state), (2, &before));
}

#[test]
fn a_stop_ends_the_whole_run() {
    let script = text(&[
        "(thread)",
        "(let (spawn 1))",
        "(let (read 0))",
        "(give (read 1))",
        "(thread)",
        "(let (read 0))",
        "(give (read 0))",
    ]);
    assert_eq!(answer(&script, "0 0 1 1 1"), "(stopped 10 0 0 1 1)");
    assert_eq!(answer(&script, "0 1 0 1"), "(stopped 10 0 0 1 2)");
    let program = program(&script);
    let mut machine = Machine::fresh(&program);
    outcome(&mut machine, &[0, 0]);
    let stopped = machine.state.clone();
    assert_eq!(machine.turn(1), Outcome::Idle);
    assert_eq!((machine.moves, &machine.state), (1, &stopped));
}

/// What operands took before the check that stopped is back.
#[test]
fn a_stop_leaves_the_state_before_its_turn() {
    let lets = ["(spawn 2)", "(new imm 0)", "(new imm 2 (take 2) (take 1))"];
    let program = program(&alone(&lets));
    let before = run(&program, &[0, 0]);
    let stopped = run(&program, &[0, 0, 0]);
    assert_eq!(
        stopped.end,
        End::Stopped(Stop {
            number: 13,
            thread: 0,
            block: 0,
            line: 2
        })
    );
    assert_eq!((stopped.moves, stopped.state), (2, before.state));
}

#[test]
fn ends_are_about_the_last_state() {
    let script = text(&[
        "(thread)",
        "(let (spawn 1))",
        "(let (recv 1))",
        "(give (read 1))",
        "(thread)",
        "(let (recv 0))",
        "(give (read 0))",
    ]);
    assert_eq!(answer(&script, ""), "(end open 0)");
    assert_eq!(answer(&script, "0"), "(end stuck 1)");
    assert_eq!(answer(&script, "0 1 0 7"), "(end stuck 1)");
}

/// A thread that would stop does not wait, so the run is open.
#[test]
fn a_thread_that_would_stop_is_not_stuck() {
    let script = sending(
        "iso",
        &[],
        "(give (read 1))",
        &[
            "(let (new local 0))",
            "(let (send 0 (read 1)))",
            "(give (read 0))",
        ],
    );
    assert_eq!(answer(&script, "0 0 0 1"), "(end open 4)");
    assert_eq!(answer(&script, "0 0 0 1 1"), "(stopped 14 1 1 1 4)");
    assert_eq!(answer_stripped(&script, "0 0 0 1"), "(end stuck 4)");
    assert_eq!(answer_stripped(&script, "0 0 0 1 1"), "(end stuck 4)");
}

/// A message for a finished thread stays, and its sender waits for ever.
#[test]
fn a_message_for_a_finished_thread() {
    let lets = ["(spawn 2)", "(new imm 0)", "(send 1 (take 2))"];
    assert_eq!(answer(&alone(&lets), "0 1 0 0 0 0"), "(end stuck 4)");
    assert_eq!(
        listed(&alone(&lets), "0 1 0 0 0 0", "(channel 1"),
        "(channel 1 (obj 0))"
    );
}

#[test]
fn turns_after_an_end_are_idle() {
    let first = ["(thread)", "(let (spawn 1))", "(give (read 1))"];
    let script = format!("{}(thread)\n(give (take 0))\n", text(&first));
    assert_eq!(answer(&script, "0 0"), "(end open 2)");
    assert_eq!(answer(&script, "0 0 1"), "(end finished 3)");
    assert_eq!(
        printed(&script, "0 0 1 0 1 2 255"),
        printed(&script, "0 0 1")
    );
}

/// A waiting sender and a waiting receiver on two channels.
#[test]
fn stuck_needs_every_unfinished_thread_to_wait() {
    let script = text(&[
        "(kind (fields 0) (does))",
        "(thread)",
        "(let (spawn 1))",
        "(let (new imm 0))",
        "(let (send 1 (read 2)))",
        "(give (read 1))",
        "(thread)",
        "(let (spawn 2))",
        "(let (recv 1))",
        "(give (read 0))",
        "(thread)",
        "(give (read 0))",
    ]);
    assert_eq!(answer(&script, "0 0 0 1"), "(end open 4)");
    assert_eq!(answer(&script, "0 0 0 1 2"), "(end stuck 5)");
    assert_eq!(answer(&script, "0 0 1 2"), "(end open 4)");
}
