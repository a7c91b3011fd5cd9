//! "Turning away": every number with its place, and the order of the refusals.

mod common;

use common::*;
use second::input::boxrun;
use second::numbers::Refusal;
use second::reading::{read, read_lent};

const SMALL: &str = "(thread)\n(give (read 0))\n";

fn lent(text: &str, turns: usize, program: usize, state: usize) -> Option<(u8, usize)> {
    read_lent(text.as_bytes(), turns, program, state)
        .err()
        .map(|refusal| (refusal.number, refusal.line))
}

/// An accepted text of as many bytes as asked, near the most.
fn text_of_length(length: usize) -> String {
    let line = |cap: &str| {
        format!(
            "(let (new {} 0 (read 0) (read 0) (read 0) (read 0)))\n",
            cap
        )
    };
    let blocks = 19;
    let mut short = length - "(kind (fields 4) (does))\n".len() - blocks * SMALL.len();
    short -= blocks * 15 * line("imm").len();
    let mut text = String::from("(kind (fields 4) (does))\n");
    for _ in 0..blocks {
        text.push_str("(thread)\n");
        for _ in 0..15 {
            let cap = if short == 2 || short == 4 {
                "local"
            } else if short >= 3 {
                "unsafe"
            } else {
                "imm"
            };
            short -= cap.len() - "imm".len();
            text.push_str(&line(cap));
        }
        text.push_str("(give (read 0))\n");
    }
    assert_eq!((short, text.len()), (0, length));
    text
}

#[test]
fn number_1_text_or_turns_too_long() {
    assert!(reads(&text_of_length(16_383)));
    assert!(reads(&text_of_length(16_384)));
    assert_eq!(refusal(&text_of_length(16_385)), (1, 0));
    assert_eq!(lent(SMALL, 32_768, 8_192, 8_192), None);
    assert_eq!(lent(SMALL, 32_769, 8_192, 8_192), Some((1, 0)));
}

#[test]
fn number_1_of_the_script_shows_in_boxrun() {
    let printed = |length: usize| printed(&text_of_length(length), "");
    assert!(printed(16_384).starts_with("(end open 0)\n"));
    assert_eq!(printed(16_385), "(refused 1 0)\n");
}

#[test]
fn number_2_stray_byte() {
    let listed = b"abcdefghijklmnopqrstuvwxyz0123456789() \n";
    for byte in 0..=255u8 {
        let mut text = b"(thread)\n".to_vec();
        text.extend([b'(', byte, b'\n']);
        let number = if listed.contains(&byte) { 3 } else { 2 };
        assert_eq!(
            read(&text),
            Err(Refusal { number, line: 1 }),
            "byte {}",
            byte
        );
    }
}

/// A line after which a fitting rest makes an accepted script, if the line is well formed.
fn with_kind_line(line: &str) -> String {
    format!(
        "{}\n(thread)\n(give (read 0))\n(method)\n(give (read 0))\n",
        line
    )
}

fn with_let_line(line: &str) -> String {
    format!(
        "(kind (fields 0) (does))\n(kind (fields 1) (does))\n(thread)\n{}\n(give (read 0))\n",
        line
    )
}

#[test]
fn well_formed_lines_read() {
    let kinds = [
        "(kind (fields 0) (does))",
        "(kind (fields 4) (does 1 1 1 1))",
        "(kind (fields 2) (does 1))",
    ];
    for line in kinds {
        assert!(reads(&with_kind_line(line)), "{}", line);
    }
    let lets = [
        "(let (read 0))",
        "(let (take 0))",
        "(let (field 0 0))",
        "(let (swap 0 0 (read 0)))",
        "(let (call 0 0 (take 0)))",
        "(let (new imm 0))",
        "(let (new unsafe 1 (read 0)))",
        "(let (cast local (read 0)))",
        "(let (cast iso (take 0)))",
        "(let (spawn 0))",
        "(let (send 0 (read 0)))",
        "(let (recv 0))",
        "(give (take 0))\n(thread)",
        "(give (read 0))\n(method)",
    ];
    for line in lets {
        assert!(reads(&with_let_line(line)), "{}", line);
    }
}

#[test]
fn number_3_malformed_kind_lines() {
    let lines = [
        "",
        "kind",
        "()",
        "(kind)",
        "(kind (fields 0))",
        "(kind (does))",
        "(kind (does) (fields 0))",
        "(kind (fields) (does))",
        "(kind (fields 0 0) (does))",
        "(kind (fields 0)(does))",
        "(kind (fields 0)  (does))",
        "(kind (fields 0) (does ))",
        "(kind (fields 0) (does  1))",
        "(kind (fields 0) (does 1 ))",
        "(kind (fields 0) (does 1)",
        "(kind (fields 0) (does 1))) ",
        "(kind (fields 0) (does 1)))",
        "(kind (fields 0) (does 01))",
        "(kind (fields 00) (does))",
        "(kind (fields 0000) (does))",
        "(kind (fields 0) (does a))",
        "(kind (fields a) (does))",
        "(kind (fields (0)) (does))",
        "(kinds (fields 0) (does))",
        " (kind (fields 0) (does))",
        "(kind (fields 0) (does)) ",
        "((kind (fields 0) (does)))",
        "(kind (fields 0) (does))(kind (fields 0) (does))",
        "(turns 0)",
        "(thread )",
        "(thread 0)",
        "(method)(method)",
    ];
    for line in lines {
        assert_eq!(refusal(&with_kind_line(line)), (3, 0), "{}", line);
    }
}

#[test]
fn number_3_malformed_lines_in_a_block() {
    let lines = [
        "",
        " ",
        "(let)",
        "(let )",
        "(let ())",
        "(let read 0)",
        "(let (read))",
        "(let (read ))",
        "(let (read  0))",
        "(let (read 0 ))",
        "(let (read 0) )",
        "(let  (read 0))",
        "(let(read 0))",
        " (let (read 0))",
        "(let (read 0)) ",
        "(let (read 0)",
        "(let (read 0)))",
        "(let (read 0) (read 0))",
        "(let (read 0 0))",
        "(let (read 00))",
        "(let (read 01))",
        "(let (read 0000))",
        "(let (read 1000))",
        "(let (read 0256))",
        "(let (read x))",
        "(let (read 0x))",
        "(let (read (read 0)))",
        "(let (give 0))",
        "(let (give (read 0)))",
        "(let (field 0))",
        "(let (field 0 0 0))",
        "(let (field 0 (read 0)))",
        "(let (swap 0 0))",
        "(let (swap 0 (read 0)))",
        "(let (swap 0 0 0))",
        "(let (swap 0 0 (read 0) (read 0)))",
        "(let (swap 0 0 (field 0 0)))",
        "(let (call 0 (read 0)))",
        "(let (call 0 0))",
        "(let (call 0 0(read 0)))",
        "(let (new 0))",
        "(let (new imm))",
        "(let (new imm0))",
        "(let (new imm (read 0)))",
        "(let (new mut 0))",
        "(let (new isolated 0))",
        "(let (new imm 0 ))",
        "(let (new imm 0 0))",
        "(let (new imm 1 (read 0)(read 0)))",
        "(let (cast imm))",
        "(let (cast (read 0)))",
        "(let (cast imm (read 0) (read 0)))",
        "(let (cast imm 0))",
        "(let (spawn))",
        "(let (spawn (read 0)))",
        "(let (spawn 0 0))",
        "(let (send 0))",
        "(let (send (read 0)))",
        "(let (send 0 0))",
        "(let (recv))",
        "(let (recv (read 0)))",
        "(let (recv 0 0))",
        "(let (copy 0))",
        "(give)",
        "(give 0)",
        "(give (spawn 0))",
        "(give (read 0) (read 0))",
        "(give (read 0))(thread)",
        "(turns 0)",
    ];
    for line in lines {
        assert_eq!(refusal(&with_let_line(line)), (3, 3), "{}", line);
    }
}

#[test]
fn number_3_out_of_place() {
    let kind = "(kind (fields 0) (does))";
    assert_eq!(refusal(&text(&["(thread)", kind])), (3, 1));
    assert_eq!(
        refusal(&text(&["(thread)", "(give (read 0))", kind])),
        (3, 2)
    );
    assert_eq!(refusal(&text(&["(let (read 0))"])), (3, 0));
    assert_eq!(refusal(&text(&[kind, "(give (read 0))"])), (3, 1));
    assert_eq!(
        refusal(&text(&["(thread)", "(give (read 0))", "(let (read 0))"])),
        (3, 2)
    );
    assert_eq!(
        refusal(&text(&["(thread)", "(give (read 0))", "(give (read 0))"])),
        (3, 2)
    );
    assert_eq!(refusal(&text(&["(thread)", "(thread)"])), (3, 1));
    assert_eq!(
        refusal(&text(&["(thread)", "(let (spawn 0))", "(method)"])),
        (3, 2)
    );
}

#[test]
fn number_3_without_its_lf() {
    assert_eq!(refusal("(thread)"), (3, 0));
    assert_eq!(refusal("(thread)\n(give (read 0))"), (3, 1));
    assert_eq!(refusal("(thread)\n(give (read 0)) "), (3, 1));
    assert_eq!(refusal("(thread)\n(give (read 0)]"), (2, 1));
    assert_eq!(refusal("(thread)\n(give (read 9))"), (3, 1));
}

#[test]
fn number_4_over_255_in_every_place() {
    for line in [
        "(kind (fields 256) (does))",
        "(kind (fields 0) (does 256))",
        "(kind (fields 0) (does 1 999))",
    ] {
        assert_eq!(refusal(&with_kind_line(line)), (4, 0), "{}", line);
    }
    let lines = [
        "(let (read 256))",
        "(let (take 999))",
        "(let (field 256 0))",
        "(let (field 0 256))",
        "(let (swap 256 0 (read 0)))",
        "(let (swap 0 256 (read 0)))",
        "(let (swap 0 0 (read 256)))",
        "(let (call 256 0 (read 0)))",
        "(let (call 0 256 (read 0)))",
        "(let (call 0 0 (read 256)))",
        "(let (new imm 256))",
        "(let (new imm 1 (read 256)))",
        "(let (cast imm (read 256)))",
        "(let (spawn 256))",
        "(let (send 256 (read 0)))",
        "(let (send 0 (read 256)))",
        "(let (recv 256))",
        "(give (read 256))",
    ];
    for line in lines {
        assert_eq!(refusal(&with_let_line(line)), (4, 3), "{}", line);
    }
}

#[test]
fn number_4_fields_methods_and_operands() {
    assert_eq!(refusal(&with_kind_line("(kind (fields 5) (does))")), (4, 0));
    assert_eq!(
        refusal(&with_kind_line("(kind (fields 255) (does))")),
        (4, 0)
    );
    assert_eq!(
        refusal(&with_kind_line("(kind (fields 0) (does 1 1 1 1 1))")),
        (4, 0)
    );
    let four = text(&[
        "(kind (fields 4) (does))",
        "(thread)",
        "(let (new imm 0 (read 0) (read 0) (read 0) (read 0)))",
        "(give (read 0))",
    ]);
    assert!(reads(&four));
    assert_eq!(
        refusal(&four.replace("(new imm 0", "(new imm 0 (read 0)")),
        (4, 2)
    );
}

#[test]
fn number_4_kinds_and_blocks() {
    let script = |kinds: usize, blocks: usize| {
        format!("{}{}", PLAIN_KIND.repeat(kinds), SMALL.repeat(blocks))
    };
    assert!(reads(&script(32, 1)));
    assert_eq!(refusal(&script(33, 1)), (4, 32));
    assert_eq!(refusal(&script(40, 1)), (4, 32));
    assert!(reads(&script(0, 64)));
    assert_eq!(refusal(&script(0, 65)), (4, 128));
    assert_eq!(refusal(&script(2, 70)), (4, 130));
}

/// Blocks of ten lets each, and one block with the rest.
fn with_lets(count: usize) -> String {
    let block = |lets: usize| {
        format!(
            "(thread)\n{}(give (read 0))\n",
            "(let (read 0))\n".repeat(lets)
        )
    };
    format!("{}{}", block(10).repeat(count / 10), block(count % 10))
}

#[test]
fn number_4_lets_in_a_script() {
    assert!(reads(&with_lets(512)));
    assert_eq!(refusal(&with_lets(513)), (4, 51 * 12 + 1 + 2));
    assert_eq!(refusal(&with_lets(519)), (4, 51 * 12 + 1 + 2));
}

#[test]
fn number_4_slots_in_a_block() {
    let block = |opener: &str, lets: usize| {
        format!(
            "{}{}\n{}(give (read 0))\n",
            SMALL,
            opener,
            "(let (read 0))\n".repeat(lets)
        )
    };
    assert!(reads(&block("(thread)", 15)));
    assert_eq!(refusal(&block("(thread)", 17)), (4, 2 + 1 + 15));
    assert!(reads(&block("(method)", 14)));
    assert_eq!(refusal(&block("(method)", 16)), (4, 2 + 1 + 14));
}

#[test]
fn number_5_unbound_in_every_place() {
    let lines = [
        "(let (read 1))",
        "(let (take 1))",
        "(let (field 1 0))",
        "(let (swap 1 0 (read 0)))",
        "(let (swap 0 0 (read 1)))",
        "(let (call 1 0 (read 0)))",
        "(let (call 0 0 (take 1)))",
        "(let (new imm 1 (read 1)))",
        "(let (cast imm (read 1)))",
        "(let (send 1 (read 0)))",
        "(let (send 0 (read 1)))",
        "(let (recv 1))",
        "(give (read 1))",
        "(let (read 15))",
        "(let (read 16))",
        "(let (recv 255))",
    ];
    for line in lines {
        assert_eq!(refusal(&with_let_line(line)), (5, 3), "{}", line);
    }
}

#[test]
fn number_5_is_about_the_writing() {
    let taken = text(&[
        "(thread)",
        "(let (take 0))",
        "(let (read 0))",
        "(give (read 2))",
    ]);
    assert!(reads(&taken));
    assert_eq!(
        refusal(&text(&["(thread)", "(let (spawn 0))", "(give (read 2))"])),
        (5, 2)
    );
    assert!(reads(&format!(
        "{}(method)\n(let (read 1))\n(give (read 2))\n",
        SMALL
    )));
    assert_eq!(
        refusal(&format!(
            "{}(method)\n(let (read 2))\n(give (read 1))\n",
            SMALL
        )),
        (5, 3)
    );
    let next_block = text(&[
        "(thread)",
        "(let (spawn 0))",
        "(give (read 1))",
        "(thread)",
        "(give (read 1))",
    ]);
    assert_eq!(refusal(&next_block), (5, 4));
}

#[test]
fn number_6_self_taken_in_every_place() {
    let lines = [
        "(let (take 0))",
        "(let (swap 0 0 (take 0)))",
        "(let (call 1 0 (take 0)))",
        "(let (new imm 1 (read 1) (take 0)))",
        "(let (cast imm (take 0)))",
        "(let (send 1 (take 0)))",
        "(give (take 0))",
    ];
    for line in lines {
        let script = format!("{}(method)\n{}\n(give (read 0))\n", SMALL, line);
        assert_eq!(refusal(&script), (6, 3), "{}", line);
        let in_a_thread = format!("(thread)\n(let (spawn 0))\n{}\n", line);
        assert_ne!(
            read(in_a_thread.as_bytes()),
            Err(Refusal { number: 6, line: 2 }),
            "{}",
            line
        );
    }
    assert!(reads(&text(&["(thread)", "(give (take 0))"])));
    assert!(reads(&format!("{}(method)\n(give (take 1))\n", SMALL)));
}

#[test]
fn number_7_unfinished() {
    assert_eq!(refusal(""), (7, 0));
    assert_eq!(refusal(PLAIN_KIND), (7, 1));
    assert_eq!(refusal("(thread)\n"), (7, 1));
    assert_eq!(refusal("(thread)\n(let (spawn 0))\n"), (7, 2));
    assert_eq!(
        refusal(&format!("{}(method)\n(let (read 1))\n", SMALL)),
        (7, 4)
    );
}

#[test]
fn number_8_dangling() {
    let method = "(method)\n(give (read 0))\n";
    let kind = |does: &str| {
        format!(
            "{}(kind (fields 0) (does {}))\n{}{}",
            PLAIN_KIND, does, SMALL, method
        )
    };
    assert!(reads(&kind("1")));
    assert_eq!(refusal(&kind("2")), (8, 1));
    assert_eq!(refusal(&kind("64")), (8, 1));
    assert_eq!(refusal(&kind("255")), (8, 1));
    assert_eq!(refusal(&kind("0")), (8, 1));
    assert_eq!(refusal(&kind("1 1 0")), (8, 1));
    let line = |expr: &str| {
        format!(
            "{}(kind (fields 1) (does))\n{}{}(thread)\n(let {})\n(give (read 0))\n",
            PLAIN_KIND, SMALL, method, expr
        )
    };
    assert!(reads(&line("(spawn 2)")));
    assert_eq!(refusal(&line("(spawn 1)")), (8, 7));
    assert_eq!(refusal(&line("(spawn 3)")), (8, 7));
    assert_eq!(refusal(&line("(spawn 64)")), (8, 7));
    assert!(reads(&line("(new imm 1 (read 0))")));
    assert_eq!(refusal(&line("(new imm 1)")), (8, 7));
    assert_eq!(refusal(&line("(new imm 1 (read 0) (read 0))")), (8, 7));
    assert_eq!(refusal(&line("(new imm 0 (read 0))")), (8, 7));
    assert_eq!(refusal(&line("(new imm 2)")), (8, 7));
    assert_eq!(refusal(&line("(new imm 32)")), (8, 7));
    assert_eq!(refusal(&line("(new imm 255)")), (8, 7));
    assert_eq!(refusal(method), (8, 0));
    assert_eq!(refusal(&format!("{}{}", PLAIN_KIND, method)), (8, 1));
}

#[test]
fn allowed_spawns_and_methods() {
    let script = text(&[
        "(kind (fields 0) (does 1 1))",
        "(kind (fields 0) (does 1))",
        "(thread)",
        "(let (spawn 0))",
        "(give (read 1))",
        "(method)",
        "(let (spawn 0))",
        "(give (read 1))",
        "(method)",
        "(give (read 0))",
    ]);
    assert!(reads(&script));
}

#[test]
fn number_9_short_table() {
    assert_eq!(lent(SMALL, 0, 8_192, 8_192), None);
    assert_eq!(lent(SMALL, 0, 9_000, 9_000), None);
    assert_eq!(lent(SMALL, 0, 8_191, 8_192), Some((9, 0)));
    assert_eq!(lent(SMALL, 0, 8_192, 8_191), Some((9, 0)));
    assert_eq!(lent(SMALL, 0, 0, 0), Some((9, 0)));
}

#[test]
fn order_1_then_9_then_the_lines() {
    assert_eq!(lent(&"?".repeat(16_385), 0, 0, 0), Some((1, 0)));
    assert_eq!(lent("?\n", 32_769, 0, 0), Some((1, 0)));
    assert_eq!(lent("?\n", 0, 8_191, 8_192), Some((9, 0)));
    assert_eq!(lent("", 0, 8_192, 8_191), Some((9, 0)));
    assert_eq!(lent("?\n", 0, 8_192, 8_192), Some((2, 0)));
    assert_eq!(refusal(&"?".repeat(16_384)), (2, 0));
}

#[test]
fn order_within_a_line_is_by_number() {
    let in_method = |line: &str| {
        format!(
            "(kind (fields 1) (does))\n{}(method)\n{}\n(give (read 0))\n",
            SMALL, line
        )
    };
    assert_eq!(refusal(&in_method("(let (swap 256 007 (read 9)]")), (2, 4));
    assert_eq!(refusal(&in_method("(let (swap 256 007 (read 9)))")), (3, 4));
    assert_eq!(refusal(&in_method("(let (swap 256 0 (take 0)")), (3, 4));
    assert_eq!(refusal(&in_method("(let (swap 9 256 (take 0)))")), (4, 4));
    assert_eq!(
        refusal(&in_method(
            "(let (new imm 0 (take 0) (read 9) (read 9) (read 9) (read 9)))"
        )),
        (4, 4)
    );
    assert_eq!(refusal(&in_method("(let (swap 9 0 (take 0)))")), (5, 4));
    assert_eq!(
        refusal(&in_method("(let (new imm 0 (take 0) (read 9)))")),
        (5, 4)
    );
    assert_eq!(refusal(&in_method("(let (swap 1 0 (take 0)))")), (6, 4));
    assert_eq!(
        refusal(&format!("{}(kind (fields 256) (does))\n", SMALL)),
        (3, 2)
    );
    assert_eq!(
        refusal(&format!("{}(kind (fields 5) (does))\n", SMALL)),
        (3, 2)
    );
    let many_blocks = format!("{}(thread)\n(thread)\n", SMALL.repeat(63));
    assert_eq!(refusal(&many_blocks), (3, 127));
    let full = format!("(thread)\n{}", "(let (read 0))\n".repeat(15));
    assert_eq!(refusal(&format!("{}(let (read 16))\n", full)), (4, 16));
    assert_eq!(refusal(&format!("{}(give (read 16))\n", full)), (5, 16));
}

#[test]
fn order_of_lines_is_before_that_of_numbers() {
    let script = |first: &str, second: &str| format!("{}(method)\n{}\n{}\n", SMALL, first, second);
    assert_eq!(refusal(&script("(let (take 0))", "?")), (6, 3));
    assert_eq!(refusal(&script("(let (read 2))", "(let (take 0)")), (5, 3));
    assert_eq!(refusal(&script("(let (read 256))", "?")), (4, 3));
    assert_eq!(refusal(&script("(let (read 1))", "?")), (2, 4));
}

#[test]
fn order_2_to_6_then_7_then_8() {
    let dangling = "(kind (fields 0) (does 9))\n";
    assert_eq!(
        refusal(&format!("{}(thread)\n(give (read 1))\n", dangling)),
        (5, 2)
    );
    assert_eq!(
        refusal(&format!("{}(method)\n(give (take 0))\n", dangling)),
        (6, 2)
    );
    assert_eq!(refusal(dangling), (7, 1));
    assert_eq!(refusal(&format!("{}(thread)\n", dangling)), (7, 2));
    assert_eq!(refusal("(method)\n(let (spawn 7))\n"), (7, 2));
    assert_eq!(refusal(&format!("{}{}", dangling, SMALL)), (8, 0));
}

#[test]
fn order_of_8_is_by_line() {
    let method_first = "(method)\n(let (spawn 9))\n(give (read 0))\n";
    assert_eq!(
        refusal(&format!(
            "{}(kind (fields 0) (does 9))\n{}",
            PLAIN_KIND, method_first
        )),
        (8, 1)
    );
    assert_eq!(refusal(&format!("{}{}", PLAIN_KIND, method_first)), (8, 1));
    let two = text(&[
        "(thread)",
        "(let (spawn 1))",
        "(let (new imm 0))",
        "(let (spawn 9))",
        "(give (read 0))",
        "(thread)",
        "(let (spawn 9))",
        "(give (read 0))",
    ]);
    assert_eq!(refusal(&two), (8, 2));
    assert_eq!(refusal(&two.replace("(new imm 0)", "(read 0)")), (8, 3));
    assert_eq!(
        refusal(
            &two.replace("(new imm 0)", "(read 0)")
                .replacen("(spawn 9)", "(spawn 1)", 1)
        ),
        (8, 6)
    );
}

/// Thread 1, in the method's block 2, stops at line 1.
fn stopping(line: &str, method_0: &str) -> String {
    text(&[
        "(kind (fields 0) (does 2))",
        "(kind (fields 1) (does))",
        "(thread)",
        "(let (spawn 1))",
        "(give (read 1))",
        "(thread)",
        "(let (new imm 0))",
        "(let (call 1 0 (read 0)))",
        "(give (read 0))",
        "(method)",
        method_0,
        line,
        "(give (read 0))",
    ])
}

#[test]
fn stops_with_thread_block_and_line() {
    let turns = "0 1 1 1 1";
    let cases = [
        (10, "(let (read 1))", "(let (take 1))"),
        (11, "(let (field 0 0))", "(let (read 1))"),
        (12, "(let (call 0 1 (read 1)))", "(let (read 1))"),
        (13, "(let (field 1 0))", "(let (read 1))"),
        (14, "(let (send 1 (read 2)))", "(let (new local 0))"),
        (15, "(let (cast local (read 2)))", "(let (new imm 0))"),
        (19, "(let (read 2))", "(let (new iso 0))"),
    ];
    for (number, line, before) in cases {
        let expected = format!("(stopped {} 1 2 1 4)", number);
        assert_eq!(answer(&stopping(line, before), turns), expected);
    }
    let frames = stopping("(let (call 0 0 (read 1)))", "(let (read 1))");
    let long = format!("0 1 1{}", " 1".repeat(40));
    assert_eq!(answer(&frames, &long), "(stopped 16 1 2 1 32)");
}

#[test]
fn a_refusal_is_printed_alone() {
    assert_eq!(boxrun(b"(thread)\n(turns 0)\n"), b"(refused 7 1)\n");
}
