//! "Readings that sound reasonable": for each, a script on which the wrong reading would differ.

mod common;

use common::*;

/// With the target checked first, slot 2 would still be there and the swap would move.
#[test]
fn the_operand_comes_before_the_target() {
    let script = case_g();
    assert_eq!(answer(&script, "0 0 0"), "(stopped 10 0 0 2 2)");
    let other = script.replace("(swap 2 0 (take 2))", "(swap 2 0 (read 2))");
    assert_eq!(answer(&other, "0 0 0"), "(end open 3)");
}

/// Thread 1 finds its channel full of thread 0's message, again and again.
#[test]
fn a_send_that_finds_its_channel_full_keeps_its_record() {
    let script = sending(
        "iso",
        &[],
        "(give (read 1))",
        &[
            "(let (new iso 0))",
            "(let (send 0 (take 1)))",
            "(give (read 0))",
        ],
    );
    let before = printed(&script, "0 0 0 1");
    assert_eq!(printed(&script, "0 0 0 1 1 1"), before);
    let thread = listed(&script, "0 0 0 1 1 1", "(thread 1");
    assert_eq!(thread, "(thread 1 ready 1 1 (chan 1) (obj 1))");
    assert_eq!(
        listed(&script, "0 0 0 1 1 1", "(channel 1"),
        "(channel 1 (obj 0))"
    );
}

/// Thread 1 takes the message and answers on the same channel before thread 0's next turn: the
/// channel is full, but not of thread 0's message.
#[test]
fn a_sender_is_free_when_the_other_end_has_answered() {
    let script = sending(
        "iso",
        &["(let (recv 1))"],
        "(give (take 4))",
        &[
            "(let (recv 0))",
            "(let (send 0 (take 1)))",
            "(give (read 0))",
        ],
    );
    assert_eq!(
        listed(&script, "0 0 0 1 1", "(channel 1"),
        "(channel 1 (obj 0))"
    );
    let moved_on = listed(&script, "0 0 0 1 1 0", "(thread 0");
    assert_eq!(
        moved_on,
        "(thread 0 ready 0 3 absent (chan 1) absent (chan 1))"
    );
    assert_eq!(answer(&script, "0 0 0 1 1 0 0 0 1 1"), "(end finished 10)");
}

/// Thread 1 gets thread 0's local out of an unsafe object that was sent to it.
#[test]
fn a_swap_stores_a_foreign_local_and_a_new_stops() {
    let script = |last: &str| {
        text(&[
            "(kind (fields 0) (does))",
            "(kind (fields 1) (does))",
            "(thread)",
            "(let (spawn 1))",
            "(let (new local 0))",
            "(let (new unsafe 1 (read 2)))",
            "(let (send 1 (read 3)))",
            "(give (read 1))",
            "(thread)",
            "(let (recv 0))",
            "(let (field 1 0))",
            "(let (new imm 0))",
            "(let (new unsafe 1 (read 3)))",
            last,
            "(give (read 0))",
        ])
    };
    let turns = "0 0 0 0 1 1 1 1 1";
    let swap = script("(let (swap 4 0 (read 2)))");
    assert_eq!(answer(&swap, turns), "(end open 9)");
    assert_eq!(
        listed(&swap, turns, "(object 3"),
        "(object 3 unsafe 1 1 (obj 0))"
    );
    assert_eq!(
        answer(&script("(let (new unsafe 1 (read 2)))"), turns),
        "(stopped 20 1 1 4 8)"
    );
}
