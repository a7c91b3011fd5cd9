//! Document 02, L6, as it runs: what a copy checks, and in which order; what it makes, under which
//! numbers; what it leaves as it was; and its stripped form.

mod common;

use common::*;
use second::demand3::check;
use second::histogram::Histogram;
use second::machine::{run, End, Machine, Outcome, Run, Stop};
use second::numbers::*;
use second::script::Cap;
use second::state::Value;
use second::stripped::strip;

/// Kinds 0 and 3 have no field, kinds 1, 2 and 4 as many as their numbers say. Kind 0 does the
/// method of block 1.
const KINDS: &str = "(kind (fields 0) (does 1))\n(kind (fields 1) (does))\n\
                     (kind (fields 2) (does))\n(kind (fields 0) (does))\n(kind (fields 4) (does))\n";
const METHOD: &str = "(method)\n(give (read 1))\n";
const LAST: &str = "(thread)\n(give (read 0))\n";

fn block(opener: &str, lets: &[&str], give: &str) -> String {
    let lets: String = lets
        .iter()
        .map(|expr| format!("(let {})\n", expr))
        .collect();
    format!("{}\n{}(give {})\n", opener, lets, give)
}

/// Thread 0 does the lets; block 2 is a thread that it may spawn.
fn alone(lets: &[&str]) -> String {
    let first = block("(thread)", lets, "(read 0)");
    edition_2(&[KINDS, &first, METHOD, LAST].concat())
}

/// The objects of thread 0's lets, as they are listed.
fn objects(lets: &[&str]) -> Vec<String> {
    let turns = vec!["0"; lets.len()].join(" ");
    let printed = printed(&alone(lets), &turns);
    assert!(
        printed.starts_with(&format!("(end open {})\n", lets.len())),
        "{}",
        printed
    );
    let lines = printed.lines().filter(|line| line.starts_with("(object"));
    lines.map(String::from).collect()
}

/// How thread 0's lets end.
fn ends(lets: &[&str]) -> Run {
    run_of(&alone(lets), &vec![0; lets.len()])
}

fn stops_at(run: &Run, number: u8, (thread, block, line): (u8, u8, u8)) {
    let stop = Stop {
        number,
        thread,
        block,
        line,
    };
    assert_eq!(run.end, End::Stopped(stop), "after {} moves", run.moves);
}

/// The last let stops with the number; all lets before it move.
fn stops(lets: &[&str], number: u8) {
    let last = lets.len() - 1;
    let run = ends(lets);
    stops_at(&run, number, (0, 0, last as u8));
    assert_eq!(run.state, ends(&lets[..last]).state);
}

#[test]
fn a_copy_as_it_is_printed() {
    let script = edition_2(&text(&[
        "(kind (fields 0) (does))",
        "(kind (fields 2) (does))",
        "(thread)",
        "(let (new local 0))",
        "(let (new unsafe 1 (read 1) (read 1)))",
        "(let (copy imm 2))",
        "(give (read 3))",
    ]));
    let output = "\
(end open 3)
(object 0 local 0 0)
(object 1 unsafe 1 0 (obj 0) (obj 0))
(object 2 imm 1 0 (obj 3) (obj 3))
(object 3 imm 0 0)
(thread 0 ready 0 3 absent (obj 0) (obj 1) (obj 2))
";
    assert_eq!(printed(&script, "0 0 0"), output);
}

/// "The next numbers as first met, depth first, fields in order": object 3 holds 2 and then 1, and 2
/// holds 0. By breadth it would be 3, 2, 1, 0; from the last field 3, 1, 2, 0.
#[test]
fn numbers_go_depth_first_and_by_fields() {
    let lets = [
        "(new unsafe 3)",
        "(new unsafe 0)",
        "(new unsafe 1 (read 1))",
        "(new unsafe 2 (read 3) (read 2))",
        "(copy unsafe 4)",
    ];
    assert_eq!(
        objects(&lets)[4..],
        [
            "(object 4 unsafe 2 0 (obj 5) (obj 7))",
            "(object 5 unsafe 1 0 (obj 6))",
            "(object 6 unsafe 3 0)",
            "(object 7 unsafe 0 0)",
        ]
    );
}

/// An object that is met on two ways has its number from the first: below field 0, or as field 0.
#[test]
fn numbers_are_given_when_first_met() {
    let below = [
        "(new unsafe 0)",
        "(new unsafe 1 (read 1))",
        "(new unsafe 2 (read 2) (read 1))",
        "(copy imm 3)",
    ];
    assert_eq!(
        objects(&below)[3..],
        [
            "(object 3 imm 2 0 (obj 4) (obj 5))",
            "(object 4 imm 1 0 (obj 5))",
            "(object 5 imm 0 0)",
        ]
    );
    let first = [
        "(new unsafe 0)",
        "(new unsafe 1 (read 1))",
        "(new unsafe 2 (read 1) (read 2))",
        "(copy imm 3)",
    ];
    assert_eq!(
        objects(&first)[3..],
        [
            "(object 3 imm 2 0 (obj 4) (obj 5))",
            "(object 4 imm 0 0)",
            "(object 5 imm 1 0 (obj 4))",
        ]
    );
}

/// All four fields, in order, and one object in three of them.
#[test]
fn shared_objects_are_copied_once() {
    let lets = [
        "(new imm 0)",
        "(new imm 3)",
        "(new unsafe 4 (read 2) (read 1) (read 2) (read 2))",
        "(copy local 3)",
    ];
    assert_eq!(
        objects(&lets)[3..],
        [
            "(object 3 local 4 0 (obj 4) (obj 5) (obj 4) (obj 4))",
            "(object 4 local 3 0)",
            "(object 5 local 0 0)",
        ]
    );
}

/// Object 1 holds itself; object 0, which it held before, is not reached.
#[test]
fn a_ring_of_one_is_kept() {
    let lets = [
        "(new unsafe 0)",
        "(new unsafe 1 (read 1))",
        "(swap 2 0 (read 2))",
        "(copy unsafe 2)",
    ];
    assert_eq!(
        objects(&lets)[1..],
        [
            "(object 1 unsafe 1 0 (obj 1))",
            "(object 2 unsafe 1 0 (obj 2))"
        ]
    );
}

/// Object 1 holds 2, and 2 holds 1 and 0: copied from either.
#[test]
fn a_ring_of_two_is_kept() {
    let ring = [
        "(new unsafe 0)",
        "(new unsafe 1 (read 1))",
        "(new unsafe 2 (read 2) (read 1))",
        "(swap 2 0 (read 3))",
    ];
    let copied = |slot: &str| objects(&[&ring[..], &[slot]].concat())[3..].to_vec();
    assert_eq!(
        copied("(copy imm 2)"),
        [
            "(object 3 imm 1 0 (obj 4))",
            "(object 4 imm 2 0 (obj 3) (obj 5))",
            "(object 5 imm 0 0)",
        ]
    );
    assert_eq!(
        copied("(copy imm 3)"),
        [
            "(object 3 imm 2 0 (obj 4) (obj 5))",
            "(object 4 imm 1 0 (obj 3))",
            "(object 5 imm 0 0)",
        ]
    );
}

/// "All copies have capability K", whatever the objects have; an iso is met in a field as any other.
#[test]
fn all_copies_have_the_capability() {
    let lets = |copy| {
        [
            "(new imm 0)",
            "(new iso 0)",
            "(new local 0)",
            "(new unsafe 0)",
            "(new unsafe 4 (read 1) (take 2) (read 3) (read 4))",
            copy,
        ]
    };
    for (copy, cap) in [
        ("(copy imm 5)", Cap::Imm),
        ("(copy local 5)", Cap::Local),
        ("(copy unsafe 5)", Cap::Unsafe),
    ] {
        let run = ends(&lets(copy));
        assert_eq!((run.moves, run.state.objects.len()), (6, 10), "{}", copy);
        assert!(run.state.objects[5..]
            .iter()
            .all(|object| object.cap == cap));
        let before = [Cap::Imm, Cap::Iso, Cap::Local, Cap::Unsafe, Cap::Unsafe];
        let caps: Vec<Cap> = run.state.objects[..5]
            .iter()
            .map(|object| object.cap)
            .collect();
        assert_eq!(caps, before);
    }
}

/// An object of each capability in the slot, to each K.
#[test]
fn every_capability_is_copied_to_every_other() {
    for from in Cap::ALL {
        for to in [Cap::Imm, Cap::Local, Cap::Unsafe] {
            let (new, copy) = (
                format!("(new {} 0)", from.word()),
                format!("(copy {} 1)", to.word()),
            );
            let run = ends(&[&new, &copy]);
            let slots = &run.state.threads[0].frames[0].slots;
            assert_eq!(*slots, [Value::Absent, Value::Obj(0), Value::Obj(1)]);
            let caps: Vec<Cap> = run.state.objects.iter().map(|object| object.cap).collect();
            assert_eq!(caps, [from, to]);
        }
    }
}

/// "The slot keeps its value, even an iso": it can still be taken, and not read.
#[test]
fn the_slot_keeps_its_value() {
    let run = ends(&["(new iso 0)", "(copy unsafe 1)", "(copy imm 1)", "(take 1)"]);
    let slots = &run.state.threads[0].frames[0].slots;
    let kept = [Value::Absent, Value::Obj(1), Value::Obj(2), Value::Obj(0)];
    assert_eq!((slots[1], &slots[1..]), (Value::Absent, &kept[..]));
    stops(&["(new iso 0)", "(copy unsafe 1)", "(read 1)"], ALIAS);
}

/// What is then stored in the one is not in the other.
#[test]
fn a_copy_shares_nothing_with_its_original() {
    let lets = [
        "(new unsafe 0)",
        "(new unsafe 1 (read 1))",
        "(copy unsafe 2)",
        "(new imm 3)",
        "(swap 3 0 (read 4))",
    ];
    assert_eq!(
        objects(&lets),
        [
            "(object 0 unsafe 0 0)",
            "(object 1 unsafe 1 0 (obj 0))",
            "(object 2 unsafe 1 0 (obj 4))",
            "(object 3 unsafe 0 0)",
            "(object 4 imm 3 0)",
        ]
    );
}

#[test]
fn a_copy_is_copied() {
    let lets = [
        "(new unsafe 0)",
        "(new unsafe 1 (read 1))",
        "(copy imm 2)",
        "(copy local 3)",
    ];
    assert_eq!(
        objects(&lets)[2..],
        [
            "(object 2 imm 1 0 (obj 3))",
            "(object 3 imm 0 0)",
            "(object 4 local 1 0 (obj 5))",
            "(object 5 local 0 0)",
        ]
    );
}

/// Self is in slot 0 of a method, and stays there.
#[test]
fn self_is_copied_in_a_method() {
    let script = edition_2(&text(&[
        "(kind (fields 0) (does 1))",
        "(thread)",
        "(let (new iso 0))",
        "(let (new imm 0))",
        "(let (call 1 0 (read 2)))",
        "(give (read 3))",
        "(method)",
        "(let (copy local 0))",
        "(give (read 2))",
    ]));
    assert_eq!(
        listed(&script, "0 0 0 0", "(thread 0"),
        "(thread 0 ready 1 1 (obj 0) (obj 1) (obj 2))"
    );
    assert_eq!(
        listed(&script, "0 0 0 0 0", "(thread 0"),
        "(thread 0 ready 0 3 absent (obj 0) (obj 1) (obj 2))"
    );
    assert_eq!(
        listed(&script, "0 0 0 0", "(object 2"),
        "(object 2 local 0 0)"
    );
}

#[test]
fn an_absent_slot_is_10() {
    stops(&["(copy imm 0)"], ABSENT);
    stops(&["(new imm 0)", "(take 1)", "(copy unsafe 1)"], ABSENT);
}

#[test]
fn a_channel_is_13() {
    stops(&["(spawn 2)", "(copy imm 1)"], WRONG_THING);
    let own = "(thread)\n(let (copy local 0))\n(give (read 0))\n";
    let script = alone(&["(spawn 2)"]).replace(LAST, own);
    stops_at(&run_of(&script, &[0, 1]), WRONG_THING, (1, 2, 0));
}

/// Thread 0's lets, with its channel in slot 1, make what it sends, in the slot named; thread 1 has
/// it in slot 1 and does the other lets.
fn sent(lets: &[&str], slot: usize, others: &[&str]) -> (String, Vec<u8>) {
    let send = format!("(send 1 (take {}))", slot);
    let first = block(
        "(thread)",
        &[&["(spawn 2)"], lets, &[&send]].concat(),
        "(read 0)",
    );
    let second = block("(thread)", &[&["(recv 0)"], others].concat(), "(read 0)");
    let turns = [vec![0; lets.len() + 2], vec![1; others.len() + 1]].concat();
    (edition_2(&[KINDS, &first, METHOD, &second].concat()), turns)
}

/// Thread 1's last let stops with 20, guarded, and moves, stripped.
fn foreign(lets: &[&str], slot: usize, others: &[&str]) {
    let (script, turns) = sent(lets, slot, others);
    let guarded = run_of(&script, &turns);
    stops_at(&guarded, FOREIGN, (1, 2, others.len() as u8));
    assert_eq!(guarded.moves as usize, turns.len() - 1);
    let stripped = run(&strip(&program(&script)), &turns);
    assert_eq!(stripped.moves as usize, turns.len());
    check(&program(&script), &turns).unwrap();
}

fn moves(lets: &[&str], slot: usize, others: &[&str]) -> Run {
    let (script, turns) = sent(lets, slot, others);
    let run = run_of(&script, &turns);
    assert_eq!(
        run.moves as usize,
        turns.len(),
        "{:?} of\n{}",
        run.end,
        script
    );
    run
}

#[test]
fn a_slot_with_another_threads_local_is_20() {
    let boxed = ["(new local 0)", "(new unsafe 1 (read 2))"];
    for cap in ["imm", "local", "unsafe"] {
        foreign(&boxed, 3, &["(field 1 0)", &format!("(copy {} 2)", cap)]);
    }
}

/// The local stands below the slot's own object: at once, two fields down, behind others, in a ring.
#[test]
fn any_object_met_that_is_another_threads_local_is_20() {
    foreign(
        &["(new local 0)", "(new unsafe 1 (read 2))"],
        3,
        &["(copy imm 1)"],
    );
    let deep = [
        "(new local 0)",
        "(new unsafe 1 (read 2))",
        "(new unsafe 1 (read 3))",
        "(new imm 0)",
        "(new unsafe 4 (read 5) (read 5) (read 5) (read 4))",
    ];
    for cap in ["imm", "local", "unsafe"] {
        foreign(&deep, 6, &[&format!("(copy {} 1)", cap)]);
    }
    let ring = [
        "(new imm 0)",
        "(new local 1 (read 2))",
        "(new unsafe 2 (read 3) (read 2))",
        "(swap 4 1 (read 4))",
    ];
    foreign(&ring, 4, &["(copy local 1)"]);
}

/// Only what is met counts, and only a local; a thread's own locals are copied.
#[test]
fn what_is_not_met_or_not_local_to_another_is_copied() {
    let boxed = ["(new local 0)", "(new unsafe 1 (read 2))"];
    moves(&boxed, 3, &["(new unsafe 0)", "(copy imm 2)"]);
    moves(
        &boxed,
        3,
        &[
            "(field 1 0)",
            "(new imm 0)",
            "(swap 1 0 (read 3))",
            "(copy imm 1)",
        ],
    );
    let others = [
        "(new imm 0)",
        "(new iso 0)",
        "(new unsafe 2 (read 2) (take 3))",
    ];
    moves(&others, 4, &["(copy local 1)"]);
    moves(&["(new iso 0)"], 2, &["(copy imm 1)"]);
    moves(
        &["(new imm 0)"],
        2,
        &["(new local 0)", "(new unsafe 1 (read 2))", "(copy imm 3)"],
    );
}

/// "This thread as creator": thread 1's own local, which it may work on.
#[test]
fn copies_are_of_this_thread() {
    let lets = ["(new imm 0)", "(new unsafe 1 (read 2))"];
    let run = moves(&lets, 3, &["(copy local 1)", "(field 2 0)", "(copy imm 2)"]);
    let creators: Vec<u8> = run
        .state
        .objects
        .iter()
        .map(|object| object.creator)
        .collect();
    assert_eq!(creators, [0, 0, 1, 1, 1, 1]);
}

/// Six times over, the argument is copied and a node made that holds both: 127 objects, in 13 turns.
const DOUBLING: &str = "(method)\n(let (copy unsafe 1))\n(let (new unsafe 2 (read 1) (read 2)))\n\
    (let (copy unsafe 3))\n(let (new unsafe 2 (read 3) (read 4)))\n\
    (let (copy unsafe 5))\n(let (new unsafe 2 (read 5) (read 6)))\n\
    (let (copy unsafe 7))\n(let (new unsafe 2 (read 7) (read 8)))\n\
    (let (copy unsafe 9))\n(let (new unsafe 2 (read 9) (read 10)))\n\
    (let (copy unsafe 11))\n(let (new unsafe 2 (read 11) (read 12)))\n(give (read 13))\n";

/// 127 objects below slot 2, then the lets.
fn beside_127(lets: &[&str]) -> Run {
    let all = [&["(new unsafe 0)", "(call 1 0 (read 1))"], lets].concat();
    let script = alone(&all).replace(METHOD, DOUBLING);
    run_of(&script, &vec![0; 15 + lets.len()])
}

#[test]
fn a_copy_may_take_all_objects_that_are_left() {
    let run = beside_127(&["(new imm 0)", "(new imm 0)", "(copy imm 2)"]);
    assert_eq!((run.moves, run.state.objects.len()), (18, 256));
    let slots = &run.state.threads[0].frames[0].slots;
    assert_eq!(slots[2..], [126, 127, 128, 129].map(Value::Obj));
    assert!(run.state.objects[129..]
        .iter()
        .all(|object| object.cap == Cap::Imm));
}

/// 130 objects are there, and 126 are left for 127.
#[test]
fn one_object_too_few_is_16_and_none_is_made() {
    let news = ["(new imm 0)", "(new imm 0)", "(new imm 0)"];
    let run = beside_127(&[&news[..], &["(copy imm 2)"]].concat());
    stops_at(&run, USED_UP, (0, 0, 5));
    assert_eq!((run.moves, run.state.objects.len()), (18, 130));
    assert_eq!(run.state, beside_127(&news).state);
}

#[test]
fn no_object_left_is_16() {
    let full = ["(new imm 0)", "(new imm 0)", "(copy imm 2)"];
    for copy in ["(copy imm 1)", "(copy local 2)", "(copy unsafe 5)"] {
        stops_at(
            &beside_127(&[&full[..], &[copy]].concat()),
            USED_UP,
            (0, 0, 5),
        );
    }
}

/// "Slot absent 10, a channel 13" go before "too few objects left".
#[test]
fn the_slot_is_checked_before_the_objects_left() {
    let absent = ["(new imm 0)", "(new imm 0)", "(copy imm 2)", "(copy imm 0)"];
    stops_at(&beside_127(&absent), ABSENT, (0, 0, 5));
    let channel = ["(spawn 2)", "(copy imm 2)", "(copy imm 3)"];
    stops_at(&beside_127(&channel), WRONG_THING, (0, 0, 4));
}

/// Thread 1 copies 129 objects, all there are, and thread 0's local is the last that is met: 20 goes
/// before 16, which the stripped run says.
#[test]
fn a_foreign_local_goes_before_too_few_objects() {
    let lets = [
        "(new local 0)",
        "(new unsafe 0)",
        "(call 3 0 (read 3))",
        "(new unsafe 2 (read 4) (read 2))",
    ];
    let (script, turns) = sent(&lets, 5, &["(copy imm 1)"]);
    let script = script.replace(METHOD, DOUBLING);
    let turns = [vec![0; 13], turns].concat();
    let guarded = run_of(&script, &turns);
    assert_eq!(guarded.state.objects.len(), 129);
    stops_at(&guarded, FOREIGN, (1, 2, 1));
    let stripped = run(&strip(&program(&script)), &turns);
    stops_at(&stripped, USED_UP, (1, 2, 1));
    check(&program(&script), &turns).unwrap();
    let imm = script.replace("(new local 0)", "(new imm 0)");
    stops_at(&run_of(&imm, &turns), USED_UP, (1, 2, 1));
}

/// One turn and one move, however many objects it makes; it never waits.
#[test]
fn a_copy_is_one_move() {
    let lets = ["(new unsafe 0)", "(call 1 0 (read 1))", "(copy imm 2)"];
    let read = program(&alone(&lets).replace(METHOD, DOUBLING));
    let mut machine = Machine::fresh(&read);
    assert_eq!(outcome(&mut machine, &[0; 15]), Outcome::Moved);
    assert_eq!((machine.moves, machine.state.objects.len()), (15, 127));
    assert_eq!(machine.turn(0), Outcome::Moved);
    assert_eq!((machine.moves, machine.state.objects.len()), (16, 254));
}

/// A thread that stands on a copy that would stop is not stuck.
#[test]
fn a_copy_that_would_stop_leaves_the_run_open() {
    assert_eq!(answer(&alone(&["(copy imm 0)"]), ""), "(end open 0)");
    assert_eq!(
        answer(&alone(&["(copy imm 0)"]), "0"),
        "(stopped 10 0 0 0 0)"
    );
}

/// "The stripped-script rule covers copies as unsafe copies."
#[test]
fn stripping_makes_copies_unsafe() {
    let lets = |cap: &str| {
        let copy = format!("(copy {} 1)", cap);
        program(&alone(&["(new unsafe 0)", &copy]))
    };
    for cap in ["imm", "local", "unsafe"] {
        assert_eq!(strip(&lets(cap)), lets("unsafe"), "{}", cap);
    }
    let script = alone(&["(new iso 0)", "(copy local 1)", "(copy imm 2)"]);
    assert_eq!(
        printed_stripped(&script, "0 0 0"),
        printed(&script, "0 0 0")
            .replace("imm", "unsafe")
            .replace("iso", "unsafe")
            .replace("local", "unsafe")
    );
}

/// A copy of an iso that holds an iso, which moves, and one of a channel, which stops.
#[test]
fn the_histogram_counts_copies() {
    let lets = [
        "(spawn 2)",
        "(new iso 0)",
        "(new iso 1 (take 2))",
        "(copy imm 3)",
        "(copy local 1)",
    ];
    let mut histogram = Histogram::empty();
    histogram.add(input(&alone(&lets), "0 0 0 0 0").as_bytes());
    let counts = [
        ("edition 2", 1),
        ("read spawn", 1),
        ("read new", 2),
        ("read copy", 2),
        ("read give", 3),
        ("moved spawn", 1),
        ("moved new", 2),
        ("moved copy", 1),
        ("copied iso", 1),
        ("copied to imm", 1),
        ("copied 2 to 9", 1),
        ("copied an iso in a field", 1),
        ("stopped 13", 1),
        ("copy stopped 13", 1),
    ];
    for (name, count) in histogram.rows() {
        let expected = counts.iter().find(|(row, _)| *row == name);
        assert_eq!(count, expected.map_or(0, |(_, count)| *count), "{}", name);
    }
}
