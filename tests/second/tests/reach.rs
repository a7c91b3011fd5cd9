//! The reach report: what a thread reaches, in all frames, by a message in flight and on through
//! fields, and its refusals.

mod common;

use common::*;
use second::machine::{run, End};
use second::numbers::Refusal;
use second::reach::{reach, reach_report, Report};

fn report(script: &str, turns: &[u8], thread: usize, list: &mut [u16]) -> Result<Report, Refusal> {
    reach_report(script.as_bytes(), turns, 8_192, 8_192, thread, list)
}

/// The objects reached, as the list has them.
fn reached(script: &str, turns: &[u8], thread: usize) -> Vec<u16> {
    let mut list = [999; 256];
    let report = report(script, turns, thread, &mut list).unwrap();
    let count = report.reached.unwrap();
    assert!(list[count..].iter().all(|word| *word == 0));
    list[..count].to_vec()
}

/// What threads 0 and 1 reach.
fn both(script: &str, turns: &[u8]) -> (Vec<u16>, Vec<u16>) {
    (reached(script, turns, 0), reached(script, turns, 1))
}

fn is_waiting_sender(script: &str, turns: &[u8], thread: usize) -> bool {
    run_of(script, turns).state.threads[thread]
        .sending
        .is_some()
}

fn sharing() -> String {
    text(&[
        "(kind (fields 0) (does))",
        "(kind (fields 2) (does 2))",
        "(thread)",
        "(let (spawn 1))",
        "(let (new imm 0))",
        "(let (new unsafe 1 (read 2) (read 2)))",
        "(let (new unsafe 1 (read 3) (take 2)))",
        "(let (swap 3 0 (read 4)))",
        "(let (take 5))",
        "(let (new iso 0))",
        "(let (send 1 (take 7)))",
        "(give (read 1))",
        "(thread)",
        "(let (recv 0))",
        "(give (take 1))",
        "(method)",
        "(give (read 1))",
    ])
}

#[test]
fn a_fresh_thread_reaches_nothing() {
    assert_eq!(reached(&sharing(), &[], 0), vec![]);
    assert_eq!(reached(&sharing(), &[0], 1), vec![]);
}

/// Objects 1 and 2 hold each other, and 2 is reached from several places: each counts once.
#[test]
fn through_fields_each_once() {
    assert_eq!(reached(&sharing(), &[0; 2], 0), vec![0]);
    assert_eq!(reached(&sharing(), &[0; 4], 0), vec![0, 1, 2]);
    assert_eq!(reached(&sharing(), &[0; 6], 0), vec![0, 1, 2]);
    assert_eq!(reached(&sharing(), &[0; 7], 0), vec![0, 1, 2, 3]);
}

/// "Object numbers now come in rising order." Slot 2 holds object 1, which holds object 0; slot 7
/// holds object 6, which holds object 5, whose fields hold objects 4, 2 and 3: a walk of slots and
/// fields meets them in another order.
#[test]
fn by_rising_number() {
    let script = text(&[
        "(kind (fields 0) (does))",
        "(kind (fields 1) (does))",
        "(kind (fields 3) (does))",
        "(thread)",
        "(let (new imm 0))",
        "(let (new imm 1 (take 1)))",
        "(let (new imm 0))",
        "(let (new imm 0))",
        "(let (new imm 0))",
        "(let (new imm 2 (take 5) (take 3) (take 4)))",
        "(let (new imm 1 (take 6)))",
        "(let (new imm 0))",
        "(give (take 2))",
    ]);
    assert_eq!(reached(&script, &[0; 2], 0), vec![0, 1]);
    assert_eq!(reached(&script, &[0; 6], 0), vec![0, 1, 2, 3, 4, 5]);
    assert_eq!(reached(&script, &[0; 8], 0), vec![0, 1, 2, 3, 4, 5, 6, 7]);
}

/// Thread 0 makes objects 0, 1 and 2 and sends one of them; the others are in its slots.
#[test]
fn a_message_in_flight_has_its_place() {
    for (slot, left) in [(2, vec![1, 2]), (3, vec![0, 2]), (4, vec![0, 1])] {
        let script = text(&[
            "(kind (fields 0) (does))",
            "(thread)",
            "(let (spawn 1))",
            "(let (new iso 0))",
            "(let (new iso 0))",
            "(let (new iso 0))",
            &format!("(let (send 1 (take {})))", slot),
            "(give (read 1))",
            "(thread)",
            "(let (recv 0))",
            "(give (take 1))",
        ]);
        assert_eq!(reached(&script, &[0; 5], 0), vec![0, 1, 2]);
        assert_eq!(reached(&script, &[0, 0, 0, 0, 0, 1], 0), left);
    }
}

/// Thread 0 keeps object 0 and sends object 3, which holds object 2, which holds object 1; thread 1
/// makes object 4 before it receives.
fn chain_sent() -> String {
    text(&[
        "(kind (fields 0) (does))",
        "(kind (fields 1) (does))",
        "(thread)",
        "(let (spawn 1))",
        "(let (new imm 0))",
        "(let (new iso 0))",
        "(let (new iso 1 (take 3)))",
        "(let (new iso 1 (take 4)))",
        "(let (send 1 (take 5)))",
        "(give (read 2))",
        "(thread)",
        "(let (new imm 0))",
        "(let (recv 0))",
        "(give (take 2))",
    ])
}

/// The sixth turn is the put; until thread 1 receives, every turn leaves the message with thread 0.
#[test]
fn a_message_in_flight_is_its_senders() {
    let turns = [0, 0, 0, 0, 0, 0, 0, 1, 9, 0];
    for made in 6..=turns.len() {
        let others = if made < 8 { vec![] } else { vec![4] };
        let reports = both(&chain_sent(), &turns[..made]);
        assert_eq!(reports, (vec![0, 1, 2, 3], others), "{} turns", made);
    }
}

/// Thread 0 is still on its send, first while thread 1 holds the message and then when nobody does.
#[test]
fn a_received_message_is_no_longer_its_senders() {
    let turns = [0, 0, 0, 0, 0, 0, 1, 1, 1];
    for (made, others) in [(8, vec![1, 2, 3, 4]), (9, vec![])] {
        assert!(is_waiting_sender(&chain_sent(), &turns[..made], 0));
        assert_eq!(both(&chain_sent(), &turns[..made]), (vec![0], others));
    }
    let moved_on = [0, 0, 0, 0, 0, 0, 1, 1, 0];
    assert!(!is_waiting_sender(&chain_sent(), &moved_on, 0));
    assert_eq!(both(&chain_sent(), &moved_on), (vec![0], vec![1, 2, 3, 4]));
}

/// Thread 1 makes object 1, receives object 0 and answers on the same channel before thread 0 has
/// moved on: with its own object, or with the very object that it received.
#[test]
fn an_answer_is_not_the_first_senders() {
    for (answer, got, kept) in [("1", 1, 0), ("2", 0, 1)] {
        let answers = format!("(let (send 0 (take {})))", answer);
        let script = sending(
            "iso",
            &["(let (recv 1))"],
            "(give (take 4))",
            &[
                "(let (new iso 0))",
                "(let (recv 0))",
                &answers,
                "(give (read 0))",
            ],
        );
        let turns = [0, 0, 0, 1, 1, 1, 0, 0];
        assert!(is_waiting_sender(&script, &turns[..6], 0));
        assert_eq!(both(&script, &turns[..6]), (vec![], vec![0, 1]));
        assert!(!is_waiting_sender(&script, &turns[..7], 0));
        assert_eq!(both(&script, &turns[..7]), (vec![], vec![0, 1]));
        assert!(is_waiting_sender(&script, &turns, 1));
        assert_eq!(both(&script, &turns), (vec![got], vec![kept]));
    }
}

/// The same with the parts changed: thread 1 puts object 0 on its own channel, and thread 0, which
/// spawned it, receives and answers.
#[test]
fn an_answer_of_the_spawner_is_not_the_first_senders() {
    for answer in ["2", "3"] {
        let script = text(&[
            "(kind (fields 0) (does))",
            "(thread)",
            "(let (spawn 1))",
            "(let (recv 1))",
            "(let (new iso 0))",
            &format!("(let (send 1 (take {})))", answer),
            "(give (read 1))",
            "(thread)",
            "(let (new iso 0))",
            "(let (send 0 (take 1)))",
            "(give (read 0))",
        ]);
        let turns = [0, 1, 1, 0, 0, 0];
        assert_eq!(both(&script, &turns[..3]), (vec![], vec![0]));
        assert!(is_waiting_sender(&script, &turns, 1));
        assert_eq!(both(&script, &turns), (vec![0, 1], vec![]));
    }
}

/// Thread 0 holds two channels, each with its first message: its own, object 1, is in the one that
/// it sent on; object 0, of the other channel's thread, has the same number.
#[test]
fn numbers_count_in_each_channel() {
    for (sent, other) in [(1, 2), (2, 1)] {
        let script = text(&[
            "(kind (fields 0) (does))",
            "(thread)",
            "(let (spawn 1))",
            "(let (spawn 1))",
            "(let (new iso 0))",
            &format!("(let (send {} (take 3)))", sent),
            "(give (read 1))",
            "(thread)",
            "(let (new iso 0))",
            "(let (send 0 (take 1)))",
            "(give (read 0))",
        ]);
        let turns = [0, 0, other, other, 0, 0];
        assert_eq!(reached(&script, &turns, 0), vec![1]);
        assert_eq!(reached(&script, &turns, usize::from(other)), vec![0]);
        assert_eq!(reached(&script, &turns, sent), vec![]);
    }
}

/// Thread 1 fills its own channel, which thread 0 holds in a slot: first before a new, then before a
/// send on it, and then after a turn that found it full.
#[test]
fn a_thread_that_has_put_nothing_starts_from_no_message() {
    let script = sending(
        "iso",
        &[],
        "(give (read 1))",
        &[
            "(let (new iso 0))",
            "(let (send 0 (take 1)))",
            "(give (read 0))",
        ],
    );
    assert_eq!(both(&script, &[0, 1, 1]), (vec![], vec![0]));
    assert_eq!(both(&script, &[0, 1, 1, 0]), (vec![1], vec![0]));
    assert_eq!(both(&script, &[0, 1, 1, 0, 0]), (vec![1], vec![0]));
    assert!(!is_waiting_sender(&script, &[0, 1, 1, 0, 0], 0));
}

/// Thread 1 finishes after the put, or before it; its channel keeps the message.
#[test]
fn a_message_in_the_channel_of_a_finished_thread() {
    let script = sending("iso", &[], "(give (read 1))", &["(give (read 0))"]);
    for turns in [[0, 0, 0, 1, 0], [0, 1, 0, 0, 0]] {
        let run = run_of(&script, &turns);
        assert!(run.state.threads[1].finished());
        assert_eq!((run.end, run.moves), (End::Stuck, 4));
        assert_eq!(both(&script, &turns), (vec![0], vec![]));
    }
}

/// The method's slot 1 is channel 2, the caller's is channel 1, and both channels hold their first
/// message: object 0 is thread 1's, object 2 was put by the method on object 1.
#[test]
fn a_message_put_by_a_method() {
    let script = text(&[
        "(kind (fields 0) (does 3))",
        "(thread)",
        "(let (spawn 1))",
        "(let (spawn 2))",
        "(let (new imm 0))",
        "(let (call 3 0 (read 2)))",
        "(give (read 3))",
        "(thread)",
        "(let (new iso 0))",
        "(let (send 0 (take 1)))",
        "(give (read 0))",
        "(thread)",
        "(let (recv 0))",
        "(give (take 1))",
        "(method)",
        "(let (new iso 0))",
        "(let (send 1 (take 2)))",
        "(give (read 1))",
    ]);
    let turns = [0, 0, 1, 1, 0, 0, 0, 0, 2];
    let by_thread = |turns: &[u8]| [0, 1, 2].map(|thread| reached(&script, turns, thread));
    assert_eq!(by_thread(&turns[..8]), [vec![1, 2], vec![0], vec![]]);
    assert!(is_waiting_sender(&script, &turns, 0));
    assert_eq!(by_thread(&turns), [vec![1], vec![0], vec![2]]);
}

#[test]
fn a_finished_thread_reaches_nothing() {
    assert_eq!(
        reached(&sharing(), &[0, 0, 0, 0, 0, 0, 0, 0, 1, 1], 1),
        vec![]
    );
}

/// Slot 2 of the outermost frame holds object 1, which the method's frame does not.
fn in_a_call() -> String {
    text(&[
        "(kind (fields 0) (does 1))",
        "(thread)",
        "(let (new imm 0))",
        "(let (new iso 0))",
        "(let (new iso 0))",
        "(let (call 1 0 (take 3)))",
        "(give (read 1))",
        "(method)",
        "(let (new local 0))",
        "(give (read 2))",
    ])
}

#[test]
fn all_frames_count() {
    assert_eq!(reached(&in_a_call(), &[0; 5], 0), vec![0, 1, 2, 3]);
    assert_eq!(reached(&in_a_call(), &[0; 6], 0), vec![0, 1, 3]);
}

/// Object 1 is in a slot of the outermost frame alone, and object 0 in object 1 alone; the method's
/// frame has objects 2 and 3.
#[test]
fn on_through_fields_from_an_outer_frame() {
    let script = text(&[
        "(kind (fields 0) (does 1))",
        "(kind (fields 1) (does))",
        "(thread)",
        "(let (new imm 0))",
        "(let (new imm 1 (take 1)))",
        "(let (new imm 0))",
        "(let (call 3 0 (read 3)))",
        "(give (read 3))",
        "(method)",
        "(let (new imm 0))",
        "(give (read 2))",
    ]);
    assert_eq!(reached(&script, &[0; 4], 0), vec![0, 1, 2]);
    assert_eq!(reached(&script, &[0; 5], 0), vec![0, 1, 2, 3]);
}

/// Object 1 holds itself once the first swap is made; the second puts it into object 2, and no slot
/// has it any more.
#[test]
fn an_object_that_holds_itself() {
    let script = text(&[
        "(kind (fields 0) (does))",
        "(kind (fields 1) (does))",
        "(thread)",
        "(let (new unsafe 0))",
        "(let (new unsafe 1 (take 1)))",
        "(let (swap 2 0 (read 2)))",
        "(let (cast unsafe (take 3)))",
        "(let (new unsafe 1 (take 4)))",
        "(let (swap 5 0 (take 2)))",
        "(give (read 6))",
    ]);
    assert_eq!(reached(&script, &[0; 3], 0), vec![0, 1]);
    assert_eq!(reached(&script, &[0; 5], 0), vec![0, 1, 2]);
    assert_eq!(reached(&script, &[0; 6], 0), vec![0, 1, 2]);
    assert_eq!(reached(&script, &[0; 7], 0), vec![]);
}

/// The sender still reads what it has sent; thread 1 reaches it when it has received it, and then
/// both do.
#[test]
fn threads_may_reach_the_same_object() {
    let script = text(&[
        "(kind (fields 0) (does))",
        "(kind (fields 1) (does))",
        "(thread)",
        "(let (spawn 1))",
        "(let (new imm 0))",
        "(let (new imm 1 (take 2)))",
        "(let (send 1 (read 3)))",
        "(give (read 3))",
        "(thread)",
        "(let (recv 0))",
        "(give (read 1))",
    ]);
    assert_eq!(both(&script, &[0, 0, 0, 0]), (vec![0, 1], vec![]));
    assert_eq!(both(&script, &[0, 0, 0, 0, 1]), (vec![0, 1], vec![0, 1]));
    assert_eq!(both(&script, &[0, 0, 0, 0, 1, 0, 0]), (vec![], vec![0, 1]));
}

/// A chain of objects from one slot, and what is no longer held by any.
#[test]
fn a_stopped_run_is_reported_on_as_it_stands() {
    let script = text(&[
        "(kind (fields 0) (does))",
        "(kind (fields 1) (does))",
        "(thread)",
        "(let (new iso 0))",
        "(let (new iso 1 (take 1)))",
        "(let (new iso 1 (take 2)))",
        "(let (cast imm (take 3)))",
        "(give (take 4))",
    ]);
    let mut list = [7; 256];
    let report = report(&script, &[0; 5], 0, &mut list).unwrap();
    assert!(matches!(report.run.end, End::Stopped(stop) if stop.number == 15));
    assert_eq!((report.run.moves, report.reached), (3, Ok(3)));
    assert_eq!(reached(&script, &[0; 5], 0), vec![0, 1, 2]);
}

/// Thread 1's cast of its channel stops the run while thread 0's message is in flight.
#[test]
fn a_message_in_flight_when_the_run_stops() {
    let script = sending(
        "iso",
        &[],
        "(give (read 1))",
        &["(let (cast iso (read 0)))", "(give (read 0))"],
    );
    let turns = [0, 0, 0, 1];
    let run = run_of(&script, &turns);
    assert!(matches!(run.end, End::Stopped(stop) if (stop.number, stop.thread) == (13, 1)));
    assert_eq!(both(&script, &turns), (vec![0], vec![]));
}

/// Method 1 wraps its argument 14 times, method 0 does so 14 times over: one slot holds the whole
/// chain.
#[test]
fn a_long_chain() {
    let wraps: String = (1..15)
        .map(|slot| format!("(let (new unsafe 1 (read {})))\n", slot))
        .collect();
    let chained: String = (1..15)
        .map(|slot| format!("(let (call 0 1 (read {})))\n", slot))
        .collect();
    let script = format!(
        "(kind (fields 0) (does 1 2))\n(kind (fields 1) (does))\n(thread)\n(let (new imm 0))\n\
         (let (call 1 0 (read 1)))\n(let (call 1 1 (read 2)))\n(give (read 3))\n\
         (method)\n{}(give (read 15))\n(method)\n{}(give (read 15))\n",
        chained, wraps
    );
    let objects = 1 + 14 * 14 + 14;
    let moves = 1 + (1 + 14 * 16 + 1) + 16;
    assert_eq!(
        reached(&script, &vec![0; moves], 0),
        (0..objects).collect::<Vec<u16>>()
    );
    let state = run(&common::program(&script), &vec![0; moves]).state;
    assert_eq!(reach(&state, 0).unwrap().len(), usize::from(objects));
}

/// 17 comes last: the run is there, and the list keeps its words.
#[test]
fn number_17_for_a_thread_never_started() {
    for thread in [1, 2, 15, 16, 255, 65_536] {
        let mut list = [7; 256];
        let report = report(&sharing(), &[], thread, &mut list).unwrap();
        assert_eq!(
            report.reached,
            Err(Refusal {
                number: 17,
                line: 0
            })
        );
        assert_eq!(report.run, run(&program(&sharing()), &[]));
        assert!(list.iter().all(|word| *word == 7));
    }
    let mut list = [7; 256];
    let stopped = report("(thread)\n(give (read 0))\n", &[0], 1, &mut list).unwrap();
    assert!(matches!(stopped.run.end, End::Stopped(_)));
    assert_eq!(
        stopped.reached,
        Err(Refusal {
            number: 17,
            line: 0
        })
    );
}

#[test]
fn refusals_keep_the_list() {
    let refused = |text: &str, turns: usize, tables: (usize, usize), words: usize| {
        let mut list = vec![7; words];
        let turns = vec![0; turns];
        let report = reach_report(text.as_bytes(), &turns, tables.0, tables.1, 9, &mut list);
        assert!(list.iter().all(|word| *word == 7));
        report
            .map(|_| ())
            .map_err(|refusal| (refusal.number, refusal.line))
    };
    let full = (8_192, 8_192);
    assert_eq!(refused(&"?".repeat(16_385), 0, (0, 0), 0), Err((1, 0)));
    assert_eq!(refused("?", 32_769, full, 256), Err((1, 0)));
    assert_eq!(refused("?", 0, full, 255), Err((9, 0)));
    assert_eq!(refused("?", 0, (8_191, 8_192), 256), Err((9, 0)));
    assert_eq!(refused("?", 0, (8_192, 8_191), 256), Err((9, 0)));
    assert_eq!(refused("?", 0, full, 256), Err((2, 0)));
    assert_eq!(refused("(thread)\n", 0, full, 256), Err((7, 1)));
    assert_eq!(refused(&sharing(), 32_768, full, 256), Ok(()));
}

#[test]
fn words_past_the_list_keep_their_value() {
    let mut list = [7; 300];
    let report = report(&sharing(), &[0; 2], 0, &mut list).unwrap();
    assert_eq!(report.reached, Ok(1));
    assert!(list[..256].iter().all(|word| *word == 0));
    assert!(list[256..].iter().all(|word| *word == 7));
}
