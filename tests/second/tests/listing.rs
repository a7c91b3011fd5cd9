//! The printed run: objects, channels and threads in every shape they have.

mod common;

use common::*;

fn sender_and_receiver() -> String {
    sending(
        "iso",
        &[],
        "(give (read 1))",
        &[
            "(let (recv 0))",
            "(let (send 0 (take 1)))",
            "(give (read 0))",
        ],
    )
}

#[test]
fn a_fresh_start() {
    let output = "(end open 0)\n(thread 0 ready 0 0 absent)\n";
    assert_eq!(printed(&sender_and_receiver(), ""), output);
}

#[test]
fn a_message_and_a_waiting_sender() {
    let output = "\
(end open 3)
(object 0 iso 0 0)
(channel 1 (obj 0))
(thread 0 waiting 0 2 absent (chan 1) absent)
(thread 1 ready 1 0 (chan 1))
";
    assert_eq!(printed(&sender_and_receiver(), "0 0 0 0"), output);
}

/// A sender is waiting until it moves on, even when its message is gone or another stands there.
#[test]
fn a_sender_is_waiting_until_it_moves_on() {
    let waiting = "(thread 0 waiting 0 2 absent (chan 1) absent)";
    assert_eq!(
        listed(&sender_and_receiver(), "0 0 0 1", "(thread 0"),
        waiting
    );
    assert_eq!(
        listed(&sender_and_receiver(), "0 0 0 1", "(channel 1"),
        "(channel 1 empty)"
    );
    let output = "\
(end open 5)
(object 0 iso 0 0)
(channel 1 (obj 0))
(thread 0 waiting 0 2 absent (chan 1) absent)
(thread 1 waiting 1 1 (chan 1) absent)
";
    assert_eq!(printed(&sender_and_receiver(), "0 0 0 1 1"), output);
    let moved_on = "(thread 0 ready 0 3 absent (chan 1) absent (chan 1))";
    assert_eq!(
        listed(&sender_and_receiver(), "0 0 0 1 1 0", "(thread 0"),
        moved_on
    );
}

/// Waiting is said of senders that have put, not of a thread that finds its channel empty or full.
#[test]
fn other_waits_print_as_ready() {
    let receiver = listed(&sender_and_receiver(), "0 1", "(thread 1");
    assert_eq!(receiver, "(thread 1 ready 1 0 (chan 1))");
    let full = sender_and_receiver().replacen("(let (recv 0))", "(let (new imm 0))", 1);
    let finds_full = listed(&full, "0 0 0 1 1", "(thread 1");
    assert_eq!(finds_full, "(thread 1 ready 1 1 (chan 1) (obj 1))");
}

#[test]
fn finished_threads() {
    let output = "\
(end stuck 7)
(object 0 iso 0 0)
(channel 1 (obj 0))
(thread 0 finished)
(thread 1 waiting 1 1 (chan 1) absent)
";
    assert_eq!(printed(&sender_and_receiver(), "0 0 0 1 1 0 0"), output);
    let all = "(end finished 3)\n(channel 1 empty)\n(thread 0 finished)\n(thread 1 finished)\n";
    let script = text(&[
        "(thread)",
        "(let (spawn 1))",
        "(give (read 1))",
        "(thread)",
        "(give (read 0))",
    ]);
    assert_eq!(printed(&script, "0 1 0"), all);
}

#[test]
fn objects_with_every_capability_kind_creator_and_fields() {
    let script = text(&[
        "(kind (fields 0) (does))",
        "(kind (fields 2) (does))",
        "(kind (fields 4) (does))",
        "(thread)",
        "(let (spawn 1))",
        "(let (new imm 0))",
        "(let (new unsafe 1 (read 2) (take 2)))",
        "(give (read 1))",
        "(thread)",
        "(let (new local 0))",
        "(let (new iso 0))",
        "(let (new unsafe 2 (read 1) (take 2) (read 1) (read 1)))",
        "(give (read 3))",
    ]);
    let output = "\
(end open 5)
(object 0 imm 0 0)
(object 1 local 0 1)
(object 2 unsafe 1 0 (obj 0) (obj 0))
(object 3 iso 0 1)
(channel 1 empty)
(thread 0 ready 0 3 absent (chan 1) absent (obj 2))
(thread 1 ready 1 2 (chan 1) (obj 1) (obj 3))
";
    assert_eq!(printed(&script, "0 0 1 0 1"), output);
    let last = listed(&script, "0 0 1 0 1 1", "(object 4");
    assert_eq!(
        last,
        "(object 4 unsafe 2 1 (obj 1) (obj 3) (obj 1) (obj 1))"
    );
}

/// Only the innermost frame of a thread inside calls is printed.
#[test]
fn nested_frames() {
    let script = text(&[
        "(kind (fields 0) (does 1 2))",
        "(thread)",
        "(let (new imm 0))",
        "(let (new iso 0))",
        "(let (call 1 0 (take 2)))",
        "(give (read 1))",
        "(method)",
        "(let (read 0))",
        "(let (call 0 1 (take 1)))",
        "(give (take 3))",
        "(method)",
        "(give (take 1))",
    ]);
    let thread = |turns: &str| listed(&script, turns, "(thread 0");
    assert_eq!(thread("0 0"), "(thread 0 ready 0 2 absent (obj 0) (obj 1))");
    assert_eq!(thread("0 0 0"), "(thread 0 ready 1 0 (obj 0) (obj 1))");
    assert_eq!(
        thread("0 0 0 0"),
        "(thread 0 ready 1 1 (obj 0) (obj 1) (obj 0))"
    );
    assert_eq!(thread("0 0 0 0 0"), "(thread 0 ready 2 0 (obj 0) (obj 1))");
    assert_eq!(
        thread("0 0 0 0 0 0"),
        "(thread 0 ready 1 2 (obj 0) absent (obj 0) (obj 1))"
    );
    assert_eq!(
        thread("0 0 0 0 0 0 0"),
        "(thread 0 ready 0 3 absent (obj 0) absent (obj 1))"
    );
    assert_eq!(thread("0 0 0 0 0 0 0 0"), "(thread 0 finished)");
}

/// A thread in a method, as a waiting sender.
#[test]
fn a_waiting_sender_in_a_method() {
    let script = text(&[
        "(kind (fields 0) (does 2))",
        "(thread)",
        "(let (spawn 1))",
        "(let (new imm 0))",
        "(let (call 2 0 (read 1)))",
        "(give (read 1))",
        "(thread)",
        "(give (read 0))",
        "(method)",
        "(let (send 1 (read 0)))",
        "(give (read 2))",
    ]);
    assert_eq!(
        listed(&script, "0 0 0 0", "(thread 0"),
        "(thread 0 waiting 2 0 (obj 0) (chan 1))"
    );
}

#[test]
fn a_stopped_run_prints_the_state_before_the_stop() {
    let script = sending("local", &[], "(give (read 1))", &["(give (read 0))"]);
    let output = "\
(stopped 14 0 0 2 2)
(object 0 local 0 0)
(channel 1 empty)
(thread 0 ready 0 2 absent (chan 1) (obj 0))
(thread 1 ready 1 0 (chan 1))
";
    assert_eq!(printed(&script, "0 0 0 1"), output);
}

/// Ten and more of a sort go by rising number, not by their digits.
#[test]
fn lines_go_by_rising_number() {
    let script = format!(
        "(thread)\n{}(give (read 1))\n(thread)\n(give (read 0))\n",
        "(let (spawn 1))\n".repeat(12)
    );
    let output = printed(&script, &["0"; 12].join(" "));
    let heads: Vec<String> = output
        .lines()
        .map(|line| line.split(' ').take(2).collect::<Vec<_>>().join(" "))
        .collect();
    let mut expected = vec!["(end open".to_string()];
    expected.extend((1..=12).map(|channel| format!("(channel {}", channel)));
    expected.extend((0..=12).map(|thread| format!("(thread {}", thread)));
    assert_eq!(heads, expected);
}

#[test]
fn a_stripped_run_prints_unsafe_objects() {
    let output = "\
(end open 3)
(object 0 unsafe 0 0)
(channel 1 (obj 0))
(thread 0 waiting 0 2 absent (chan 1) absent)
(thread 1 ready 1 0 (chan 1))
";
    assert_eq!(printed_stripped(&sender_and_receiver(), "0 0 0"), output);
    assert_eq!(printed_stripped("(thread)\n", "0"), "(refused 7 1)\n");
}
