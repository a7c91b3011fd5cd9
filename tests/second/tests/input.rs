//! boxrun's own input: the last line, its faults before the script's, and long input; and the same
//! saved, stripped and reported on.

mod common;

use common::*;
use second::input::{boxrun, reached, saved, stripped};

fn prints(input: &str) -> String {
    String::from_utf8(boxrun(input.as_bytes())).unwrap()
}

const SMALL: &str = "(thread)\n(give (read 0))\n";

#[test]
fn empty_input_and_bare_lines() {
    assert_eq!(prints(""), "(refused 3 0)\n");
    assert_eq!(prints("\n"), "(refused 3 0)\n");
    assert_eq!(prints("\n\n"), "(refused 3 1)\n");
    assert_eq!(prints("\n\n\n"), "(refused 3 2)\n");
    assert_eq!(prints("("), "(refused 3 0)\n");
}

#[test]
fn turns_alone_are_an_empty_script() {
    assert_eq!(prints("(turns)\n"), "(refused 7 0)\n");
    assert_eq!(prints("(turns 0 255)\n"), "(refused 7 0)\n");
}

#[test]
fn no_number_is_a_list_of_no_turns() {
    assert_eq!(
        prints(&format!("{}(turns)\n", SMALL)),
        "(end open 0)\n(thread 0 ready 0 0 absent)\n"
    );
}

#[test]
fn malformed_last_lines() {
    let lines = [
        "(turns )",
        "(turns  0)",
        "(turns 0 )",
        "(turns 0",
        "(turns 0))",
        "(turns 00)",
        "(turns 007)",
        "(turns 1000)",
        "(turns a)",
        "(turn 0)",
        "turns 0",
        "(turns0)",
        "(turns (0))",
        "(turns 0) ",
        " (turns 0)",
        "(Turns 0)",
        "(turns 0;)",
        "(turns 0\t1)",
        "(turns -1)",
        "(give (read 0))",
        "",
    ];
    for line in lines {
        assert_eq!(
            prints(&format!("{}{}\n", SMALL, line)),
            "(refused 3 2)\n",
            "{}",
            line
        );
    }
}

#[test]
fn without_its_lf() {
    assert_eq!(prints("(turns 0)"), "(refused 3 0)\n");
    assert_eq!(prints(&format!("{}(turns 0)", SMALL)), "(refused 3 2)\n");
    assert_eq!(prints(&format!("{}(turns 256)", SMALL)), "(refused 3 2)\n");
}

#[test]
fn over_255_is_4_after_any_3() {
    assert_eq!(
        prints(&format!("{}(turns 255)\n", SMALL)),
        prints(&format!("{}(turns)\n", SMALL))
    );
    assert_eq!(
        prints(&format!("{}(turns 256)\n", SMALL)),
        "(refused 4 2)\n"
    );
    assert_eq!(
        prints(&format!("{}(turns 0 999 0)\n", SMALL)),
        "(refused 4 2)\n"
    );
    assert_eq!(
        prints(&format!("{}(turns 256 007)\n", SMALL)),
        "(refused 3 2)\n"
    );
    assert_eq!(
        prints(&format!("{}(turns 256 ?)\n", SMALL)),
        "(refused 3 2)\n"
    );
}

/// The line of the fault counts the LFs before it, whatever the script is.
#[test]
fn a_fault_of_the_last_line_comes_before_the_scripts() {
    assert_eq!(prints("?\n\n(thread\n(turns 256)\n"), "(refused 4 3)\n");
    assert_eq!(prints("?\n(turns 00)\n"), "(refused 3 1)\n");
    assert_eq!(prints("?\n(turns 0)\n"), "(refused 2 0)\n");
    let long = "?".repeat(16_385);
    assert_eq!(
        prints(&format!("{}\n(turns 256)\n", long)),
        "(refused 4 1)\n"
    );
    assert_eq!(prints(&format!("{}\n(turns 0)\n", long)), "(refused 1 0)\n");
}

/// A final empty line makes the line before it part of the script.
#[test]
fn an_empty_last_line() {
    assert_eq!(
        prints(&format!("{}(turns 0)\n\n", SMALL)),
        "(refused 3 3)\n"
    );
}

#[test]
fn a_turns_line_in_the_script_is_malformed() {
    assert_eq!(
        prints(&format!("{}(turns 0)\n(turns 0)\n", SMALL)),
        "(refused 3 2)\n"
    );
}

/// An input of as many bytes as asked, by turns of threads that never start.
fn input_of_length(length: usize) -> String {
    let empty = format!("{}(turns)\n", SMALL).len();
    let (mut numbers, mut left) = (String::new(), length - empty);
    while left > 0 {
        let number = if left % 2 == 1 { " 77" } else { " 7" };
        numbers.push_str(number);
        left -= number.len();
    }
    format!("{}(turns{})\n", SMALL, numbers)
}

#[test]
fn long_input_is_1_at_line_0() {
    let most = input_of_length(65_536);
    assert_eq!(most.len(), 65_536);
    assert_eq!(prints(&most), "(end open 0)\n(thread 0 ready 0 0 absent)\n");
    assert_eq!(prints(&input_of_length(65_537)), "(refused 1 0)\n");
    assert_eq!(prints(&format!("{}\n", most)), "(refused 1 0)\n");
    assert_eq!(prints(&"?".repeat(65_537)), "(refused 1 0)\n");
    assert_eq!(prints(&"?".repeat(65_536)), "(refused 3 0)\n");
}

#[test]
fn threads_out_of_range_are_idle() {
    let script = text(&["(thread)", "(let (spawn 0))", "(give (read 1))"]);
    assert_eq!(printed(&script, "0 16 255 1"), printed(&script, "0 1"));
}

#[test]
fn an_input_is_saved_as_it_is_or_refused() {
    let printed = |text: &str| String::from_utf8(saved(text.as_bytes())).unwrap();
    for script in [SMALL.to_string(), case_a(), case_g()] {
        let input = input(&script, "0 1 255");
        assert_eq!(printed(&input), input);
    }
    assert_eq!(printed(""), "(refused 3 0)\n");
    assert_eq!(printed("(turns)\n"), "(refused 7 0)\n");
    assert_eq!(printed(SMALL), "(refused 3 1)\n");
    assert_eq!(printed(&input(&input(SMALL, "0"), "0")), "(refused 3 2)\n");
    assert_eq!(printed(&input(SMALL, "256")), "(refused 4 2)\n");
    let long = |bytes: usize| input(&format!("{}\n", "(".repeat(bytes - 1)), "0");
    assert_eq!(printed(&long(16_384)), "(refused 3 0)\n");
    assert_eq!(printed(&long(16_385)), "(refused 1 0)\n");
}

#[test]
fn an_input_is_stripped() {
    let printed = |text: &str| String::from_utf8(stripped(text.as_bytes())).unwrap();
    let script = input(&case_a(), "0 0 0 1 0");
    assert_eq!(printed(&script), script.replace("new iso", "new unsafe"));
    assert_eq!(printed(&input(SMALL, "0")), input(SMALL, "0"));
    assert_eq!(printed(SMALL), "(refused 3 1)\n");
    let longest = second::shapes::longest_script(second::script::Edition::One);
    let grows = longest.replacen("(swap 0 255 (read 0))", "(cast imm (read 0))", 1);
    assert_eq!(grows.len(), 16_382);
    assert_eq!(printed(&input(&grows, "0")), "(refused 18 0)\n");
    let most = grows.replacen("(swap 0 255 (read 0))", "(swap 0 25 (read 0))", 1);
    let bare = most.replace("cast imm", "cast unsafe");
    assert_eq!(bare.len(), 16_384);
    assert_eq!(printed(&input(&most, "0")), input(&bare, "0"));
    let mut turns = "1".to_string();
    while input(&case_a(), &turns).len() < 65_535 {
        turns.push_str(" 1");
    }
    assert_eq!(input(&case_a(), &turns).len(), 65_536);
    assert_eq!(printed(&input(&case_a(), &turns)), "(refused 1 0)\n");
    turns.truncate(turns.len() - 4);
    let longer = turns.replacen('1', "10", 1);
    let bare = case_a().replace("iso", "unsafe");
    assert_eq!(input(&bare, &longer).len(), 65_536);
    assert_eq!(printed(&input(&case_a(), &longer)), input(&bare, &longer));
    let longer = longer.replacen("10", "100", 1);
    assert_eq!(printed(&input(&case_a(), &longer)), "(refused 1 0)\n");
}

#[test]
fn what_a_thread_reaches_is_printed() {
    let printed = |turns: &str, thread| {
        let text = reached(input(&case_a(), turns).as_bytes(), thread);
        String::from_utf8(text).unwrap()
    };
    assert_eq!(printed("0 0", 0), "(reached 0)\n");
    assert_eq!(printed("0 0 0 1 0", 0), "(reached)\n");
    assert_eq!(printed("0 0 0 1 0", 1), "(reached 0)\n");
    assert_eq!(printed("0", 1), "(reached)\n");
    assert_eq!(printed("", 1), "(refused 17 0)\n");
    assert_eq!(printed("0", 255), "(refused 17 0)\n");
    assert_eq!(printed("256", 0), "(refused 4 9)\n");
}
