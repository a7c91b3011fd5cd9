//! Races: document 02, L9, each clause on scripts that are written out; the refusals of the entry and
//! what box race prints.

mod common;

use common::*;
use second::generate;
use second::input::raced;
use second::machine::{End, Machine, Outcome};
use second::race_shapes;
use second::races::*;
use second::random::Random;
use second::reading::read;

/// The race that is named of a script and its turns.
fn named(script: &str, turns: &[u8]) -> Option<Race> {
    let judged = judge(script.as_bytes(), turns, 8_192, 8_192);
    judged
        .unwrap_or_else(|refusal| panic!("{:?} of\n{}", refusal, script))
        .race
}

fn race(first: usize, second: usize, object: u16, field: u8) -> Option<Race> {
    Some(Race {
        first,
        second,
        object,
        field,
    })
}

/// Every turn moves.
fn all_move(script: &str, turns: &[u8]) {
    let program = program(script);
    let mut machine = Machine::fresh(&program);
    for (place, thread) in turns.iter().enumerate() {
        assert_eq!(machine.turn(*thread), Outcome::Moved, "turn {}", place);
    }
}

/// The same of turns that all move.
fn moved(script: &str, turns: &[u8]) -> Option<Race> {
    all_move(script, turns);
    named(script, turns)
}

fn lets(exprs: &[&str]) -> Vec<String> {
    exprs.iter().map(|expr| format!("(let {})", expr)).collect()
}

/// Blocks of threads, by their lets; each gives its slot 1.
fn threads(blocks: &[&[&str]]) -> String {
    let mut lines = vec![
        "(script 2)".to_string(),
        "(kind (fields 0) (does))".to_string(),
        "(kind (fields 2) (does))".to_string(),
    ];
    for block in blocks {
        lines.push("(thread)".to_string());
        lines.extend(lets(block));
        lines.push("(give (read 1))".to_string());
    }
    lines.iter().map(|line| format!("{}\n", line)).collect()
}

/// Thread 0 makes object 0, a leaf, in slot 1, and object 1, an unsafe node of two fields, in slot 2,
/// and sends the node to thread 1, which has it in slot 1 and its leaf, object 2, in slot 2. Then each
/// has lines of its own: those of thread 0 fill its slots from 5 on, those of thread 1 from 3 on.
fn two(first: &[&str], second: &[&str]) -> String {
    let start = [
        "(new imm 0)",
        "(new unsafe 1 (read 1) (read 1))",
        "(spawn 1)",
        "(send 3 (read 2))",
    ];
    let first = [&start, first].concat();
    let second = [&["(recv 0)", "(new imm 0)"], second].concat();
    threads(&[&first, &second])
}

/// The turns up to these lines, seven of them: the last lets thread 0 move on.
const START: [u8; 7] = [0, 0, 0, 0, 1, 1, 0];

fn then(turns: &[u8]) -> Vec<u8> {
    [&START, turns].concat()
}

const FIRST_SWAPS: &str = "(swap 2 0 (read 1))";
const FIRST_READS: &str = "(field 2 0)";
const SECOND_SWAPS: &str = "(swap 1 0 (read 2))";
const SECOND_READS: &str = "(field 1 0)";

/// "each reads or swaps the same field of the same object, and at least one swaps"
#[test]
fn at_least_one_swaps() {
    for (first, second, races) in [
        (FIRST_SWAPS, SECOND_SWAPS, true),
        (FIRST_SWAPS, SECOND_READS, true),
        (FIRST_READS, SECOND_SWAPS, true),
        (FIRST_READS, SECOND_READS, false),
    ] {
        let script = two(&[first], &[second]);
        let wanted = if races { race(7, 8, 1, 0) } else { None };
        assert_eq!(moved(&script, &then(&[0, 1])), wanted);
        assert_eq!(moved(&script, &then(&[1, 0])), wanted);
        assert_eq!(moved(&script, &then(&[0])), None);
        assert_eq!(moved(&script, &then(&[1])), None);
    }
}

#[test]
fn of_the_same_field() {
    let script = two(&["(swap 2 1 (read 1))"], &[SECOND_SWAPS, "(field 1 1)"]);
    assert_eq!(moved(&script, &then(&[0, 1])), None);
    assert_eq!(moved(&script, &then(&[0, 1, 1])), race(7, 9, 1, 1));
}

/// Thread 1 makes a node of its own, object 3, and swaps its fields.
#[test]
fn of_the_same_object() {
    let own = ["(new unsafe 1 (read 2) (read 2))", "(swap 3 0 (read 2))"];
    let script = two(&[FIRST_SWAPS], &own);
    assert_eq!(moved(&script, &then(&[0, 1, 1])), None);
}

/// "different threads made them"
#[test]
fn turns_of_one_thread_do_not_race() {
    let script = two(&[FIRST_SWAPS, FIRST_READS, FIRST_SWAPS], &[]);
    assert_eq!(moved(&script, &then(&[0, 0, 0])), None);
}

/// "between them, the first thread put a message from which the object was reached and the second
/// afterwards received one": the swap of place 3 was handed over, and that of place 9 was not.
#[test]
fn handed_over() {
    let script = threads(&[
        &[
            "(new imm 0)",
            "(new unsafe 1 (read 1) (read 1))",
            "(spawn 1)",
            FIRST_SWAPS,
            "(send 3 (read 2))",
            FIRST_SWAPS,
        ],
        &["(recv 0)", "(new imm 0)", SECOND_SWAPS, SECOND_READS],
    ]);
    let turns = [0, 0, 0, 0, 0, 1, 1, 1];
    assert_eq!(moved(&script, &turns), None);
    let more = [&turns[..], &[0, 0, 1]].concat();
    assert_eq!(moved(&script, &more), race(7, 9, 1, 0));
    let pairs: Vec<(usize, usize)> = races(&deeds(&program(&script), &more))
        .map(|race| (race.first, race.second))
        .collect();
    assert_eq!(pairs, [(7, 9), (9, 10)]);
}

/// It was put before the first of them: START has the message, and both turns come after it.
#[test]
fn put_before_the_first() {
    let script = two(&[FIRST_SWAPS], &[SECOND_SWAPS]);
    let deeds = deeds(&program(&script), &then(&[0, 1]));
    assert!(deeds[3].put.contains(&1) && deeds[4].received.contains(&1));
    assert_eq!(named(&script, &then(&[0, 1])), race(7, 8, 1, 0));
}

/// Thread 0 puts the node once more, at place 8: whether thread 1 has received it again decides.
#[test]
fn received_before_it_was_put() {
    let again = [FIRST_SWAPS, "(send 3 (read 2))"];
    let script = two(&again, &[SECOND_SWAPS]);
    assert_eq!(moved(&script, &then(&[0, 0, 1])), race(7, 9, 1, 0));
    let script = two(&again, &["(recv 0)", SECOND_SWAPS]);
    assert_eq!(moved(&script, &then(&[0, 0, 1, 1])), None);
}

/// Put and received, but after both, or after the second alone.
#[test]
fn handed_over_too_late() {
    let script = two(
        &[FIRST_SWAPS, "(send 3 (read 2))"],
        &[SECOND_SWAPS, "(recv 0)", SECOND_READS],
    );
    assert_eq!(moved(&script, &then(&[0, 1, 0, 1])), race(7, 8, 1, 0));
    assert_eq!(moved(&script, &then(&[0, 0, 1, 1, 1])), race(7, 9, 1, 0));
    let pairs: Vec<Race> = races(&deeds(&program(&script), &then(&[0, 0, 1, 1, 1]))).collect();
    assert_eq!(pairs, race(7, 9, 1, 0).into_iter().collect::<Vec<Race>>());
}

/// The second thread itself sends, and the first receives.
#[test]
fn put_by_the_second_thread() {
    let script = two(
        &[FIRST_SWAPS, "(recv 3)"],
        &["(send 0 (read 1))", SECOND_SWAPS],
    );
    assert_eq!(moved(&script, &then(&[0, 1, 0, 1, 1])), race(7, 11, 1, 0));
}

/// Thread 0 sends the node to thread 1, which starts thread 2 and sends it the node too; thread 2 sends it
/// back, over a channel that thread 0 does not know. Ten turns; thread 2 has not put it yet.
const NESTED: [u8; 10] = [0, 0, 0, 0, 1, 0, 1, 1, 2, 1];

fn nested() -> String {
    threads(&[
        &[
            "(new imm 0)",
            "(new unsafe 1 (read 1) (read 1))",
            "(spawn 1)",
            "(send 3 (read 2))",
            FIRST_SWAPS,
            "(send 3 (read 2))",
        ],
        &[
            "(recv 0)",
            "(spawn 2)",
            "(send 2 (read 1))",
            "(recv 2)",
            "(swap 1 0 (read 1))",
        ],
        &["(recv 0)", "(send 0 (read 1))"],
    ])
}

/// Thread 1 receives the node between the two swaps, and it was put between them; but not by thread 0.
#[test]
fn put_by_another_thread() {
    let turns = [&NESTED[..], &[0, 2, 1, 1]].concat();
    assert_eq!(moved(&nested(), &turns), race(10, 13, 1, 0));
}

/// Thread 1 receives the node between the two swaps, and thread 0 puts it between them, but afterwards.
#[test]
fn put_after_it_was_received() {
    let turns = [&NESTED[..], &[2, 0, 1, 0, 1]].concat();
    assert_eq!(moved(&nested(), &turns), race(11, 14, 1, 0));
}

/// With the receive after the put it is handed over, though the message received is thread 2's: any two
/// messages that reach the node will do.
#[test]
fn any_two_messages_hand_over() {
    let turns = [&NESTED[..], &[2, 0, 0, 1, 1]].concat();
    assert_eq!(moved(&nested(), &turns), None);
}

/// Thread 0 makes a node and starts two threads that get it; each has lines of its own, thread 0 from
/// slot 7 on, the others from slot 2 on.
fn three(first: &[&str], second: &[&str], third: &[&str]) -> String {
    let start = [
        "(new imm 0)",
        "(new unsafe 1 (read 1) (read 1))",
        "(spawn 1)",
        "(spawn 2)",
        "(send 3 (read 2))",
        "(send 4 (read 2))",
    ];
    let first = [&start, first].concat();
    let second = [&["(recv 0)"], second].concat();
    let third = [&["(recv 0)"], third].concat();
    threads(&[&first, &second, &third])
}

/// The turns up to these lines, ten of them.
const START_OF_THREE: [u8; 10] = [0, 0, 0, 0, 0, 1, 0, 0, 2, 0];

fn then_three(turns: &[u8]) -> Vec<u8> {
    [&START_OF_THREE, turns].concat()
}

/// Thread 1 receives what thread 0 put, and thread 2 swaps.
#[test]
fn received_by_another_thread() {
    let script = three(
        &[FIRST_SWAPS, "(send 3 (read 2))"],
        &["(recv 0)", "(field 1 0)"],
        &["(swap 1 0 (read 1))"],
    );
    assert_eq!(
        moved(&script, &then_three(&[0, 0, 1, 2])),
        race(10, 13, 1, 0)
    );
    assert_eq!(
        moved(&script, &then_three(&[0, 0, 1, 1, 2])),
        race(13, 14, 1, 0)
    );
}

/// Thread 1 gives back what thread 0 sent it, and thread 0 sends it to thread 2: so the swap of thread 0
/// is handed over to both, and that of thread 1 to thread 2, but not what thread 1 does after its put.
#[test]
fn handed_over_by_way_of_another() {
    let script = three(
        &[
            FIRST_SWAPS,
            "(send 3 (read 2))",
            "(recv 3)",
            "(send 4 (read 9))",
        ],
        &[
            "(recv 0)",
            "(swap 1 0 (read 1))",
            "(send 0 (read 1))",
            "(field 1 0)",
        ],
        &["(recv 0)", "(swap 1 0 (read 1))"],
    );
    let turns = [0, 0, 1, 1, 0, 1, 0, 0, 2];
    assert_eq!(
        moved(&script, &then_three(&[&turns[..], &[2]].concat())),
        None
    );
    assert_eq!(
        moved(&script, &then_three(&[&turns[..], &[1, 1, 2]].concat())),
        race(20, 21, 1, 0)
    );
}

/// Thread 0 hands its swap over to thread 2, and not to thread 1, which has had the node since before.
#[test]
fn handed_over_to_one_thread_alone() {
    let script = three(
        &[
            "(send 3 (read 2))",
            FIRST_SWAPS,
            "(send 4 (read 2))",
            "(recv 3)",
        ],
        &["(recv 0)", "(swap 1 0 (read 1))", "(send 0 (read 1))"],
        &["(recv 0)", "(swap 1 1 (read 1))", "(field 1 0)"],
    );
    let before = [0, 1, 0, 0, 0, 2];
    let turns = then_three(&[&before[..], &[2, 2]].concat());
    assert_eq!(moved(&script, &turns), None);
    let turns = then_three(&[&before[..], &[1]].concat());
    assert_eq!(moved(&script, &turns), race(13, 16, 1, 0));
}

/// Thread 0 puts a top, object 2, that holds the node in its field 0; thread 1 takes the node out of it.
fn through_fields(before_send: &[&str], second: &[&str]) -> String {
    let start = [
        "(new imm 0)",
        "(new unsafe 1 (read 1) (read 1))",
        "(new unsafe 1 (read 2) (read 1))",
        "(spawn 1)",
        "(swap 2 1 (read 1))",
    ];
    let send = ["(send 4 (read 3))"];
    let first = [&start, before_send, &send].concat();
    threads(&[&first, second])
}

/// "a message from which the object was reached"
#[test]
fn reached_through_fields() {
    let script = through_fields(&[], &["(recv 0)", "(field 1 0)", "(swap 2 1 (read 2))"]);
    assert_eq!(moved(&script, &[0, 0, 0, 0, 0, 0, 1, 1, 1]), None);
}

/// Objects: 1 the node, 2 the top. Thread 2 reads the node out of the top; then thread 0 takes it out,
/// swaps a field of the node and puts the top, which does not reach the node. While the top stands in the
/// channel thread 2 puts the node into it again, and thread 1 receives a message that reaches it. Nor does
/// thread 0 put it when it waits once more as the sender.
#[test]
fn not_reached_when_put() {
    let script = threads(&[
        &[
            "(new imm 0)",
            "(new unsafe 1 (read 1) (read 1))",
            "(new unsafe 1 (read 1) (read 2))",
            "(spawn 1)",
            "(spawn 2)",
            "(send 5 (read 3))",
            "(swap 3 1 (read 1))",
            "(swap 2 1 (read 1))",
            "(send 4 (read 3))",
        ],
        &["(recv 0)", "(field 1 0)", "(swap 2 1 (read 1))"],
        &["(recv 0)", "(field 1 1)", "(swap 1 0 (read 2))"],
    ]);
    let before = [0, 0, 0, 0, 0, 0, 2, 2, 0, 0, 0, 0, 2];
    all_move(&script, &before);
    for waits in [0, 1, 3] {
        let turns = [&before[..], &vec![0; waits], &[1, 1, 1]].concat();
        assert_eq!(run_of(&script, &turns).moves, 16);
        let made = deeds(&program(&script), &turns);
        let received = before.len() + waits;
        assert!(made[11].put.contains(&2) && !made[11].put.contains(&1));
        assert!(made[received].received.contains(&1));
        assert!(made[12..received].iter().all(|deed| deed.put.is_empty()));
        let on_the_node: Vec<Race> = races(&made).filter(|race| race.object == 1).collect();
        assert_eq!(
            on_the_node,
            race(10, received + 2, 1, 1)
                .into_iter()
                .collect::<Vec<Race>>()
        );
    }
}

/// Thread 0 hands the node over inside the top; or thread 2 takes it out of the top while that stands in the
/// channel, so that what thread 1 receives does not reach the node, which it has had since before.
#[test]
fn not_reached_when_received() {
    let script = threads(&[
        &[
            "(new imm 0)",
            "(new unsafe 1 (read 1) (read 1))",
            "(new unsafe 1 (read 1) (read 2))",
            "(spawn 1)",
            "(spawn 2)",
            "(send 5 (read 3))",
            "(send 4 (read 2))",
            "(swap 2 0 (read 1))",
            "(send 4 (read 3))",
        ],
        &["(recv 0)", "(recv 0)", "(field 1 0)"],
        &["(recv 0)", "(swap 1 1 (read 1))"],
    ]);
    let before = [0, 0, 0, 0, 0, 0, 2, 0, 0, 1, 0, 0, 0];
    let handed = [&before[..], &[1, 1]].concat();
    assert_eq!(moved(&script, &handed), None);
    let emptied = [&before[..], &[2, 1, 1]].concat();
    assert_eq!(moved(&script, &emptied), race(11, 15, 1, 0));
}

/// "A copy reads every field of every object it meets."
#[test]
fn a_copy_reads_all_that_it_meets() {
    let script = threads(&[
        &[
            "(new imm 0)",
            "(new unsafe 1 (read 1) (read 1))",
            "(new unsafe 1 (read 1) (read 2))",
            "(spawn 1)",
            "(send 4 (read 3))",
            "(swap 2 0 (read 1))",
            "(swap 2 1 (read 1))",
            "(swap 3 0 (read 1))",
        ],
        &["(recv 0)", "(copy imm 1)", "(copy imm 1)"],
    ]);
    let start = [0, 0, 0, 0, 0, 1, 0];
    for (swaps, object, field) in [(1, 1, 0), (2, 1, 1), (3, 2, 0)] {
        let turns = [&start[..], &vec![0; swaps], &[1]].concat();
        let last = turns.len() - 1;
        assert_eq!(moved(&script, &turns), race(last - 1, last, object, field));
    }
    // the copy first, and then each of the swaps
    let turns = [&start[..], &[1, 0, 0, 0]].concat();
    let deeds = deeds(&program(&script), &turns);
    let pairs: Vec<Race> = races(&deeds).collect();
    let wanted = [race(7, 8, 1, 0), race(7, 9, 1, 1), race(7, 10, 2, 0)];
    assert_eq!(pairs, wanted.into_iter().flatten().collect::<Vec<Race>>());
    let both = [&start[..], &[1, 1]].concat();
    assert_eq!(moved(&script, &both), None);
}

/// What it does not meet, it does not read: thread 1 copies a node that holds the other one no more.
#[test]
fn a_copy_reads_nothing_else() {
    let script = two(
        &["(new unsafe 1 (read 1) (read 1))", "(swap 5 0 (read 1))"],
        &["(copy imm 1)", "(copy local 3)"],
    );
    assert_eq!(moved(&script, &then(&[0, 0, 1, 1])), None);
    let made = deeds(&program(&script), &then(&[0, 0, 1, 1]));
    let reads: Vec<Place> = made[9].reads.iter().copied().collect();
    assert_eq!(reads, [(1, 0), (1, 1)]);
    let of_copies: Vec<Place> = made[10].reads.iter().copied().collect();
    assert_eq!(of_copies, [(4, 0), (4, 1)]);
}

/// A copy that would race, and a copy that was handed over.
#[test]
fn a_copy_is_handed_over_as_a_read_is() {
    let again = [FIRST_SWAPS, "(send 3 (read 2))"];
    let script = two(&again, &["(copy imm 1)"]);
    assert_eq!(moved(&script, &then(&[0, 0, 1])), race(7, 9, 1, 0));
    let script = two(&again, &["(recv 0)", "(copy imm 1)"]);
    assert_eq!(moved(&script, &then(&[0, 0, 1, 1])), None);
}

/// "Two turns that move": the swap of a field that is not there stops, and nothing after it counts.
#[test]
fn a_turn_that_stops_does_not_race() {
    let script = two(&[FIRST_SWAPS], &["(swap 1 2 (read 2))", SECOND_SWAPS]);
    let turns = then(&[0, 1, 1, 1, 0]);
    assert!(matches!(run_of(&script, &turns).end, End::Stopped(stop) if stop.number == 11));
    assert_eq!(named(&script, &turns), None);
    let script = two(&[FIRST_SWAPS, FIRST_SWAPS], &[SECOND_SWAPS, "(field 1 2)"]);
    let turns = then(&[0, 1, 1, 0]);
    assert!(matches!(run_of(&script, &turns).end, End::Stopped(_)));
    assert_eq!(named(&script, &turns), race(7, 8, 1, 0));
    let deeds = deeds(&program(&script), &turns);
    assert_eq!(races(&deeds).count(), 1);
}

/// Thread 1 waits for a message at a receive, and threads 2 and 255 idle: they do nothing.
#[test]
fn turns_that_wait_or_idle_do_nothing() {
    let script = two(&[FIRST_SWAPS], &["(recv 0)", SECOND_SWAPS]);
    let turns = then(&[0, 1, 1, 2, 255, 1]);
    assert_eq!(run_of(&script, &turns).moves, 8);
    assert_eq!(named(&script, &turns), None);
    let made = deeds(&program(&script), &turns);
    assert!(made[8..].iter().all(|deed| deed.received.is_empty()));
}

/// Threads that are finished idle: thread 1's give is its last turn.
#[test]
fn a_finished_thread_does_nothing() {
    let script = two(&[FIRST_SWAPS], &[]);
    let turns = then(&[1, 0, 1]);
    assert_eq!(run_of(&script, &turns).moves, 9);
    assert_eq!(named(&script, &turns), None);
}

/// A full channel makes the second sender wait: its put comes when it moves.
#[test]
fn a_put_that_waits_is_no_put() {
    let script = three(
        &[FIRST_SWAPS, "(send 3 (read 2))"],
        &["(send 0 (read 1))", "(recv 0)", "(recv 0)", "(field 1 0)"],
        &[],
    );
    // thread 1 fills its channel; thread 0 waits at its send; thread 1 gets its own message and goes on
    let turns = then_three(&[1, 0, 0]);
    let made = deeds(&program(&script), &turns);
    assert_eq!(run_of(&script, &turns).moves, 12);
    assert!(made[10].put.contains(&1) && made[12].put.is_empty());
}

/// A method swaps a field of its self: the line of the innermost frame counts.
#[test]
fn turns_inside_methods() {
    let script = text(&[
        "(kind (fields 0) (does))",
        "(kind (fields 2) (does 2))",
        "(thread)",
        "(let (new imm 0))",
        "(let (new unsafe 1 (read 1) (read 1)))",
        "(let (spawn 1))",
        "(let (send 3 (read 2)))",
        "(let (call 2 0 (read 1)))",
        "(give (read 1))",
        "(thread)",
        "(let (recv 0))",
        "(let (field 1 1))",
        "(give (read 1))",
        "(method)",
        "(let (read 1))",
        "(let (swap 0 1 (read 2)))",
        "(give (read 1))",
    ]);
    let turns = [0, 0, 0, 0, 1, 0, 0, 0, 0];
    assert_eq!(
        moved(&script, &[&turns[..], &[1]].concat()),
        race(8, 9, 1, 1)
    );
    assert_eq!(moved(&script, &[&turns[..8], &[1]].concat()), None);
}

/// Other lines do nothing: a value, a cast, a call, a new object, a spawn, a give.
#[test]
fn other_lines_touch_nothing() {
    let others = [
        "(read 2)",
        "(cast unsafe (read 2))",
        "(new unsafe 1 (read 2) (read 2))",
        "(spawn 1)",
        "(take 2)",
    ];
    let script = two(&others, &[SECOND_SWAPS]);
    let turns = then(&[0, 0, 0, 0, 0, 0, 1]);
    assert_eq!(moved(&script, &turns), None);
    let made = deeds(&program(&script), &turns);
    assert!(made[7..13].iter().all(|deed| *deed == deed_of(0)));
}

fn deed_of(thread: u8) -> Deed {
    Deed {
        thread,
        ..Deed::default()
    }
}

/// "the earliest turn that races with one before it, the last turn before it that it races with"
#[test]
fn the_race_that_is_named() {
    let script = two(
        &[FIRST_SWAPS, FIRST_READS, "(swap 2 1 (read 1))", FIRST_READS],
        &[SECOND_READS, SECOND_SWAPS, "(swap 1 1 (read 2))"],
    );
    // the read of place 11 races with the swap of 7 alone, though 8 and 10 come after that
    let turns = then(&[0, 0, 0, 0, 1, 1, 1]);
    assert_eq!(moved(&script, &turns), race(7, 11, 1, 0));
    // the swap of place 12 races with 10, 8 and 7, that of 13 with 9
    let made = deeds(&program(&script), &turns);
    let pairs: Vec<(usize, usize, u8)> = races(&made)
        .map(|race| (race.first, race.second, race.field))
        .collect();
    let wanted = [(7, 11, 0), (10, 12, 0), (8, 12, 0), (7, 12, 0), (9, 13, 1)];
    assert_eq!(pairs, wanted);
    let script = two(
        &[FIRST_SWAPS, FIRST_SWAPS],
        &["(swap 1 1 (read 2))", SECOND_SWAPS],
    );
    assert_eq!(moved(&script, &then(&[0, 0, 1, 1])), race(8, 10, 1, 0));
}

/// What is iso is handed on, and no line without the word unsafe makes a race of it.
#[test]
fn an_iso_object_is_handed_on() {
    let script = threads(&[
        &[
            "(new imm 0)",
            "(new iso 1 (read 1) (read 1))",
            "(spawn 1)",
            "(swap 2 0 (read 1))",
            "(send 3 (take 2))",
            "(recv 3)",
            "(swap 6 0 (read 1))",
        ],
        &["(recv 0)", "(new imm 0)", SECOND_SWAPS, "(send 0 (take 1))"],
    ]);
    assert!(!has_the_word(script.as_bytes()));
    let turns = [0, 0, 0, 0, 0, 1, 1, 1, 0, 1, 0, 0];
    assert_eq!(moved(&script, &turns), None);
    // stripped it is the same run, and each pair of swaps was handed over
    let bare = script.replace("iso", "unsafe").replace("imm", "unsafe");
    assert!(has_the_word(bare.as_bytes()));
    assert_eq!(moved(&bare, &turns), None);
    let made = deeds(&program(&bare), &turns);
    assert_eq!(
        made.iter()
            .filter(|deed| deed.swaps == Some((1, 0)))
            .count(),
        3
    );
}

#[test]
fn the_word_anywhere_in_the_text() {
    for (text, has) in [
        ("", false),
        ("unsafe", true),
        ("(let (new unsafe 0))\n", true),
        ("(let (cast unsafe (read 1)))\n", true),
        ("unsaf", false),
        ("unsa\nfe", false),
        ("(let (new imm 0))\n(give (take 1))\nunsafe", true),
    ] {
        assert_eq!(has_the_word(text.as_bytes()), has, "{}", text);
    }
}

/// "at most 1,024 turns .. More turns are 1 there": before a short table and before all of the script.
#[test]
fn the_refusals() {
    let refused = |text: &str, turns: usize, tables: [usize; 2]| {
        let judged = judge(text.as_bytes(), &vec![0; turns], tables[0], tables[1]);
        judged
            .map(|_| ())
            .map_err(|refusal| (refusal.number, refusal.line))
    };
    let full = [8_192, 8_192];
    assert_eq!(refused(&case_a(), 1_024, full), Ok(()));
    assert_eq!(refused(&case_a(), 1_025, full), Err((1, 0)));
    assert_eq!(refused(&case_a(), 32_768, full), Err((1, 0)));
    assert_eq!(refused("?", 1_025, [0; 2]), Err((1, 0)));
    assert_eq!(refused(&"?".repeat(16_385), 0, [0; 2]), Err((1, 0)));
    assert_eq!(refused("?", 1_024, [8_191, 8_192]), Err((9, 0)));
    assert_eq!(refused("?", 1_024, [8_192, 8_191]), Err((9, 0)));
    assert_eq!(refused("?", 1_024, full), Err((2, 0)));
    assert_eq!(refused("(thread)\n(let (read 0))\n", 0, full), Err((7, 2)));
    assert_eq!(
        refused("(thread)\n(let (spawn 1))\n(give (read 0))\n", 0, full),
        Err((8, 1))
    );
}

/// The last turn of 1,024 can race, and so can the first.
#[test]
fn all_turns_are_looked_at() {
    let script = two(&[FIRST_SWAPS], &[SECOND_SWAPS]);
    let mut turns = then(&[0]);
    turns.resize(1_023, 2);
    turns.push(1);
    assert_eq!(named(&script, &turns), race(7, 1_023, 1, 0));
}

/// As box race prints it; more turns than it takes come after a fault of their line and before those of the script.
#[test]
fn what_is_printed() {
    let printed = |input: &str| String::from_utf8(raced(input.as_bytes())).unwrap();
    let script = two(&[FIRST_SWAPS], &[SECOND_SWAPS]);
    assert_eq!(
        printed(&input(&script, "0 0 0 0 1 1 0 0 1")),
        "(race 7 8 1 0)\n"
    );
    assert_eq!(printed(&input(&script, "0 0 0 0 1 1 0 0")), "(norace)\n");
    assert_eq!(printed(&input(&script, "")), "(norace)\n");
    assert_eq!(printed(""), "(refused 3 0)\n");
    assert_eq!(printed("(turns)\n"), "(refused 7 0)\n");
    let many = |count: usize| vec!["0"; count].join(" ");
    assert_eq!(printed(&input("?\n", &many(1_024))), "(refused 2 0)\n");
    assert_eq!(printed(&input("?\n", &many(1_025))), "(refused 1 0)\n");
    let long = format!("{} 256", many(1_025));
    assert_eq!(printed(&input(&script, &long)), "(refused 4 15)\n");
    assert_eq!(printed(&"(".repeat(65_537)), "(refused 1 0)\n");
}

/// Each example that the page names has below it what is printed of it.
#[test]
fn the_page_shows_races() {
    let page = include_str!("../../../docs/RACES.md");
    let examples = concat!(env!("CARGO_MANIFEST_DIR"), "/../../");
    let lines: Vec<&str> = page.lines().collect();
    let mut shown = Vec::new();
    for pair in lines.windows(2) {
        if let Some(file) = pair[0].strip_prefix("    of ") {
            let input = std::fs::read([examples, file].concat()).unwrap();
            let line = format!("{}\n", pair[1].trim_start());
            assert_eq!(String::from_utf8(raced(&input)).unwrap(), line);
            shown.push(line);
        }
    }
    assert_eq!(shown, ["(race 11 15 2 0)\n", "(norace)\n", "(norace)\n"]);
}

/// Both answers are frequent, of runs that move and hand objects over; without the word unsafe there
/// is one answer.
#[test]
fn random_shapes_have_both_answers() {
    let (mut asked, mut raced, mut guarded, mut handed) = (0, 0, 0, 0);
    for n in 0..2_000 {
        let (script, turns) = race_shapes::shape(&mut Random::of(1, n));
        let program = read(script.as_bytes()).unwrap_or_else(|_| panic!("refused:\n{}", script));
        if turns.len() > 1_024 {
            continue;
        }
        let made = deeds(&program, &turns);
        let race = races(&made).next();
        asked += 1;
        raced += u32::from(race.is_some());
        handed += u32::from(race.is_none() && touched_by_two(&made));
        if !has_the_word(script.as_bytes()) {
            guarded += u32::from(touched_by_two(&made));
            assert_eq!(race, None, "{}", script);
        }
    }
    assert!(
        raced * 5 > asked && (asked - raced) * 5 > asked,
        "{} of {}",
        raced,
        asked
    );
    assert!(handed > 100 && guarded > 50, "{} and {}", handed, guarded);
}

/// Two threads touch one field, and one of them swaps it: nothing but a message keeps them from a race.
fn touched_by_two(deeds: &[Deed]) -> bool {
    let swapped = |deed: &Deed| deed.swaps.map(|place| (deed.thread, place));
    let swaps: Vec<(u8, Place)> = deeds.iter().filter_map(swapped).collect();
    swaps.iter().any(|(thread, place)| {
        deeds
            .iter()
            .any(|deed| deed.thread != *thread && deed.touches(*place))
    })
}

/// An input of a shape that shares objects and hands them on.
fn shared_input(random: &mut Random) -> Vec<u8> {
    let (script, turns) = race_shapes::shape(random);
    let turns: String = turns.iter().map(|t| format!(" {}", t)).collect();
    format!("{}(turns{})\n", script, turns).into_bytes()
}

/// Scripts of every shape, and of those that share objects and hand them on: without the word unsafe none has a race.
#[test]
fn no_random_script_without_the_word_races() {
    let (mut without, mut raced) = (0, 0);
    for n in 0..4_000 {
        let input = match n % 8 {
            0 => shared_input(&mut Random::of(7, n)),
            _ => generate::input(7, n),
        };
        let (program, turns) = match second::input::accepted(&input) {
            Ok(accepted) => accepted,
            Err(_) => continue,
        };
        if turns.len() > 1_024 {
            continue;
        }
        let race = races(&deeds(&program, &turns)).next();
        raced += u32::from(race.is_some());
        if !has_the_word(&input) {
            without += 1;
            assert_eq!(race, None, "{}", String::from_utf8_lossy(&input));
        }
    }
    assert!(without > 300 && raced > 5, "{} and {}", without, raced);
}
