//! The holder count: slots of all frames, fields and messages, each place once; self slots, which
//! count and are left out of the promise about iso objects; and its refusals.

mod common;

use common::*;
use second::holders::{holder_count, holders, holders_but_self, Counted};
use second::layout;
use second::machine::{run, End};
use second::numbers::Refusal;

fn counted(script: &str, turns: &[u8], object: usize) -> Result<Counted, Refusal> {
    holder_count(script.as_bytes(), turns, 8_192, 8_192, object)
}

/// The holders of each object after the turns, as the entry tells them.
fn counts(script: &str, turns: &[u8]) -> Vec<usize> {
    let made = run_of(script, turns).state.objects.len();
    let count = |object| counted(script, turns, object).unwrap().holders.unwrap();
    (0..made).map(count).collect()
}

/// The same with self slots left out.
fn counts_but_self(script: &str, turns: &[u8]) -> Vec<usize> {
    let (program, state) = (program(script), run_of(script, turns).state);
    let count = |object| holders_but_self(&program, &state, object as u16);
    (0..state.objects.len()).map(count).collect()
}

/// The counts of the objects after each number of turns, from the first on.
fn by_turns(script: &str, turns: &[u8], expected: &[&[usize]]) {
    assert_eq!(turns.len() + 1, expected.len());
    for (made, expected) in expected.iter().enumerate() {
        assert_eq!(counts(script, &turns[..made]), *expected, "{} turns", made);
    }
}

/// The object is in slot 2, in the channel, in thread 1's slot 1 and then nowhere: thread 1 has
/// finished.
#[test]
fn case_a_by_hand() {
    let expected: [&[usize]; 8] = [&[], &[], &[1], &[1], &[1], &[1], &[0], &[0]];
    by_turns(&case_a(), &[0, 0, 0, 1, 0, 1, 0], &expected);
}

/// Object 0 is slot 1 and the target of a call, object 1 is slot 2 and the argument; the method
/// calls object 1, with itself as the argument.
fn called_twice() -> String {
    text(&[
        "(kind (fields 0) (does 1))",
        "(kind (fields 0) (does 2))",
        "(thread)",
        "(let (new iso 0))",
        "(let (new imm 1))",
        "(let (call 1 0 (read 2)))",
        "(give (take 1))",
        "(method)",
        "(let (call 1 0 (read 1)))",
        "(give (read 1))",
        "(method)",
        "(give (read 0))",
    ])
}

/// Of the iso object every holder but one is a self slot; the imm object is once a self slot too.
#[test]
fn a_self_slot_counts() {
    let script = called_twice();
    let expected: [&[usize]; 8] = [
        &[],
        &[1],
        &[1, 1],
        &[2, 2],
        &[2, 4],
        &[2, 3],
        &[1, 2],
        &[0, 0],
    ];
    by_turns(&script, &[0; 7], &expected);
    assert_eq!(counts_but_self(&script, &[0; 3]), [1, 2]);
    assert_eq!(counts_but_self(&script, &[0; 4]), [1, 3]);
    assert_eq!(counts_but_self(&script, &[0; 6]), [1, 2]);
}

/// A method that calls itself on the same object, until its thread has no frame left: fifteen self
/// slots, and the promise holds of the one slot beside them.
#[test]
fn an_iso_target_in_every_frame() {
    let script = text(&[
        "(kind (fields 0) (does 1))",
        "(thread)",
        "(let (new iso 0))",
        "(let (new imm 0))",
        "(let (call 1 0 (read 2)))",
        "(give (take 1))",
        "(method)",
        "(let (call 0 0 (read 1)))",
        "(give (read 1))",
    ]);
    for calls in 1..=15 {
        let turns = vec![0; 2 + calls];
        assert_eq!(counts(&script, &turns), [1 + calls, 1 + calls]);
        assert_eq!(counts_but_self(&script, &turns), [1, 1 + calls]);
    }
    let stopped = run_of(&script, &[0; 18]);
    assert!(matches!(stopped.end, End::Stopped(stop) if stop.number == 16));
    assert_eq!(counts(&script, &[0; 18]), [16, 16]);
}

/// Object 0 is read into the channel and object 1 taken: while a message is in flight the channel
/// holds it, and its sender's slot only where it was read.
#[test]
fn a_send_in_flight() {
    let script = text(&[
        "(kind (fields 0) (does))",
        "(thread)",
        "(let (spawn 1))",
        "(let (new imm 0))",
        "(let (new iso 0))",
        "(let (send 1 (read 2)))",
        "(let (send 1 (take 3)))",
        "(give (read 2))",
        "(thread)",
        "(let (recv 0))",
        "(let (recv 0))",
        "(give (take 2))",
    ]);
    let turns = [0, 0, 0, 0, 0, 1, 0, 0, 1, 0, 0, 1];
    let expected: [&[usize]; 13] = [
        &[],
        &[],
        &[1],
        &[1, 1],
        &[2, 1],
        &[2, 1],
        &[2, 1],
        &[2, 1],
        &[2, 1],
        &[2, 1],
        &[2, 1],
        &[1, 1],
        &[0, 0],
    ];
    by_turns(&script, &turns, &expected);
}

/// Thread 1 has finished and its channel keeps the message, read from the slot of thread 0.
#[test]
fn a_message_that_nobody_receives() {
    let script = sending("imm", &[], "(give (read 1))", &["(give (read 0))"])
        .replace("(send 1 (take 2))", "(send 1 (read 2))");
    assert_eq!(counts(&script, &[0, 1, 0]), [1]);
    assert_eq!(counts(&script, &[0, 1, 0, 0]), [2]);
    assert_eq!(counts(&script, &[0, 1, 0, 0, 0, 0]), [2]);
}

/// Objects 1 and 2 hold each other once the swap is made; when the thread has finished nothing else
/// holds them.
#[test]
fn a_cycle() {
    let script = text(&[
        "(kind (fields 0) (does))",
        "(kind (fields 1) (does))",
        "(thread)",
        "(let (new unsafe 0))",
        "(let (new unsafe 1 (take 1)))",
        "(let (new unsafe 1 (read 2)))",
        "(let (swap 2 0 (read 3)))",
        "(give (take 4))",
    ]);
    let expected: [&[usize]; 6] = [&[], &[1], &[1, 1], &[1, 2, 1], &[1, 2, 2], &[0, 1, 1]];
    by_turns(&script, &[0; 5], &expected);
}

/// The swap puts object 1 into its own field: slot 2 and that field hold it.
#[test]
fn an_object_that_holds_itself() {
    let script = text(&[
        "(kind (fields 0) (does))",
        "(kind (fields 1) (does))",
        "(thread)",
        "(let (new unsafe 0))",
        "(let (new unsafe 1 (take 1)))",
        "(let (swap 2 0 (read 2)))",
        "(give (take 3))",
    ]);
    let expected: [&[usize]; 5] = [&[], &[1], &[1, 1], &[1, 2], &[0, 1]];
    by_turns(&script, &[0; 4], &expected);
}

/// One object in four fields of another, and in two slots, one of them emptied again.
#[test]
fn each_place_counts_once() {
    let script = text(&[
        "(kind (fields 0) (does))",
        "(kind (fields 4) (does))",
        "(thread)",
        "(let (new unsafe 0))",
        "(let (read 1))",
        "(let (new unsafe 1 (read 1) (take 2) (read 1) (take 1)))",
        "(let (field 3 2))",
        "(let (new unsafe 0))",
        "(let (swap 3 0 (take 5)))",
        "(let (cast unsafe (take 6)))",
        "(give (read 3))",
    ]);
    let expected: [&[usize]; 9] = [
        &[],
        &[1],
        &[2],
        &[4, 1],
        &[5, 1],
        &[5, 1, 1],
        &[5, 1, 1],
        &[5, 1, 1],
        &[3, 0, 1],
    ];
    by_turns(&script, &[0; 8], &expected);
}

/// The copies 2 and 3 have the fields of objects 1 and 0, and a slot holds the first; the slots of
/// the originals stay with the originals.
#[test]
fn a_copy() {
    let script = edition_2(&text(&[
        "(kind (fields 0) (does))",
        "(kind (fields 2) (does))",
        "(thread)",
        "(let (new local 0))",
        "(let (new unsafe 1 (read 1) (read 1)))",
        "(let (copy imm 2))",
        "(give (take 3))",
    ]));
    let expected: [&[usize]; 5] = [&[], &[1], &[3, 1], &[3, 1, 1, 2], &[2, 0, 0, 2]];
    by_turns(&script, &[0; 4], &expected);
}

/// A copy of a ring: each of the copies is held by the other, and the first by a slot.
#[test]
fn a_copy_of_a_cycle() {
    let script = edition_2(&text(&[
        "(kind (fields 0) (does))",
        "(kind (fields 1) (does))",
        "(thread)",
        "(let (new unsafe 0))",
        "(let (new unsafe 1 (take 1)))",
        "(let (new unsafe 1 (read 2)))",
        "(let (swap 2 0 (read 3)))",
        "(let (copy local 3))",
        "(give (take 4))",
    ]));
    assert_eq!(counts(&script, &[0; 5]), [1, 2, 2, 2, 1]);
    assert_eq!(counts(&script, &[0; 6]), [0, 1, 1, 1, 1]);
}

/// The take is not made: the slot of the turn that stopped keeps its object, and object 1 is not
/// there.
#[test]
fn a_stop_counts_as_it_stands() {
    let script = text(&[
        "(kind (fields 0) (does))",
        "(kind (fields 1) (does))",
        "(thread)",
        "(let (new iso 0))",
        "(let (new imm 1 (take 1)))",
        "(give (read 2))",
    ]);
    for turns in [2, 3, 9] {
        let turns = vec![0; turns];
        assert!(matches!(run_of(&script, &turns).end, End::Stopped(stop) if stop.number == 14));
        assert_eq!(counts(&script, &turns), [1]);
        let none = counted(&script, &turns, 1).unwrap();
        assert_eq!(
            none.holders,
            Err(Refusal {
                number: 21,
                line: 0
            })
        );
        assert_eq!(none.run, run_of(&script, &turns));
    }
}

/// Two threads fill fifteen frames each with one object, in fifteen slots of each frame: more than a
/// byte has room for.
fn in_many_slots() -> (String, Vec<u8>) {
    let method = format!(
        "(method)\n{}(let (call 0 0 (read 1)))\n(give (read 1))\n",
        "(let (read 1))\n".repeat(13)
    );
    let threads = "(kind (fields 0) (does 2))\n\
                   (thread)\n(let (new imm 0))\n(let (spawn 1))\n(let (send 2 (read 1)))\n\
                   (let (call 1 0 (read 1)))\n(give (read 1))\n\
                   (thread)\n(let (recv 0))\n(let (call 1 0 (read 1)))\n(give (read 1))\n";
    let mut turns = vec![0, 0, 0, 1, 0];
    for thread in [0, 1] {
        turns.extend(vec![thread; 15 * 14]);
    }
    ([threads, &method].concat(), turns)
}

#[test]
fn a_count_over_255() {
    let (script, turns) = in_many_slots();
    let run = run_of(&script, &turns);
    assert_eq!((run.end, run.moves), (End::Open, turns.len() as u32));
    assert_eq!(run.state.threads[0].frames.len(), 16);
    assert_eq!(run.state.threads[1].frames.len(), 16);
    assert_eq!(counts(&script, &turns), [2 * (1 + 15 * 15)]);
    assert_eq!(layout::state(&run.state)[8 + 3], 452);
}

/// Word 3 of an object's eight; that of an object never made is 0.
#[test]
fn the_count_stands_in_the_objects_record() {
    let (script, turns) = (called_twice(), [0; 4]);
    let state = run_of(&script, &turns).state;
    let words = layout::state(&state);
    assert_eq!(
        words[8..24],
        [1, 0, 0, 2, 0, 0, 0, 0, 0, 1, 0, 4, 0, 0, 0, 0]
    );
    assert!(words[24..2056].iter().all(|word| *word == 0));
    for object in 0..2 {
        let count = holders(&state, object as u16);
        assert_eq!(usize::from(words[8 + 8 * object + 3]), count);
    }
}

/// 21 comes last: the run is there. No number is taken for a smaller one.
#[test]
fn number_21_for_an_object_never_made() {
    let turns = [0, 0, 0, 1, 0];
    for object in [1, 2, 255, 256, 257, 65_535, 65_536, 1 << 32, usize::MAX] {
        let counted = counted(&case_a(), &turns, object).unwrap();
        assert_eq!(
            counted.holders,
            Err(Refusal {
                number: 21,
                line: 0
            })
        );
        assert_eq!(counted.run, run(&program(&case_a()), &turns));
    }
    assert_eq!(counted(&case_a(), &turns, 0).unwrap().holders, Ok(1));
    let fresh = counted(&case_a(), &[], 0).unwrap();
    assert_eq!(
        fresh.holders,
        Err(Refusal {
            number: 21,
            line: 0
        })
    );
}

/// Before 21, whatever the number of the object.
#[test]
fn the_refusals_of_the_run_come_first() {
    let refused = |text: &str, turns: usize, tables: (usize, usize)| {
        let refused = [0, 9, usize::MAX].map(|object| {
            let turns = vec![0; turns];
            let counted = holder_count(text.as_bytes(), &turns, tables.0, tables.1, object);
            counted
                .map(|_| ())
                .map_err(|refusal| (refusal.number, refusal.line))
        });
        assert_eq!((refused[0], refused[1]), (refused[1], refused[2]));
        refused[0]
    };
    let full = (8_192, 8_192);
    assert_eq!(refused(&"?".repeat(16_385), 0, (0, 0)), Err((1, 0)));
    assert_eq!(refused("?", 32_769, full), Err((1, 0)));
    assert_eq!(refused("?", 0, (8_191, 8_192)), Err((9, 0)));
    assert_eq!(refused("?", 0, (8_192, 8_191)), Err((9, 0)));
    assert_eq!(refused(&case_a(), 0, (0, 0)), Err((9, 0)));
    assert_eq!(refused("?", 0, full), Err((2, 0)));
    assert_eq!(refused("(thread)\n(let (read 0))\n", 0, full), Err((7, 2)));
    assert_eq!(
        refused("(thread)\n(let (spawn 1))\n(give (read 0))\n", 0, full),
        Err((8, 1))
    );
    assert_eq!(refused(&case_a(), 32_768, full), Ok(()));
}
