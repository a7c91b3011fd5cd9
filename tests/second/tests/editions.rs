//! Document 02, L6, as it is read: `(script 2)`, the copies that a text may then have, and every
//! refusal with its line.

mod common;

use common::*;
use second::script::{Cap, Edition, Expr};
use second::shapes::longest_script;

const SMALL: &str = "(thread)\n(give (read 0))\n";

/// The line stands at line 4, where slots 0 and 1 are filled.
fn with_line(line: &str) -> String {
    edition_2(&without_edition(line))
}

/// The same in the first edition, where the line stands at line 3.
fn without_edition(line: &str) -> String {
    text(&[
        "(kind (fields 0) (does))",
        "(thread)",
        "(let (new imm 0))",
        line,
        "(give (read 0))",
    ])
}

#[test]
fn the_first_line_is_the_edition() {
    let (one, two) = (program(SMALL), program(&edition_2(SMALL)));
    assert_eq!((one.edition, two.edition), (Edition::One, Edition::Two));
    assert_eq!((one.kinds, one.blocks), (two.kinds, two.blocks));
}

#[test]
fn a_copy_reads_in_the_second_edition() {
    for (line, cap, target) in [
        ("(let (copy imm 0))", Cap::Imm, 0),
        ("(let (copy local 1))", Cap::Local, 1),
        ("(let (copy unsafe 1))", Cap::Unsafe, 1),
    ] {
        let read = program(&with_line(line));
        assert_eq!(read.blocks[0].lets[1], Expr::Copy { cap, target });
    }
}

/// "A text without that line reads as today, so `copy` in it is 3."
#[test]
fn a_copy_in_the_first_edition_is_3() {
    for line in [
        "(let (copy imm 1))",
        "(let (copy iso 1))",
        "(let (copy local 1))",
        "(let (copy unsafe 1))",
        "(let (copy imm 256))",
        "(let (copy imm 9))",
        "(let (copy 0))",
    ] {
        assert_eq!(refusal(&without_edition(line)), (3, 3), "{}", line);
    }
}

/// "A copy to iso is 3", whatever its slot is.
#[test]
fn a_copy_to_iso_is_3() {
    for slot in ["0", "1", "9", "255", "256", "999"] {
        let line = format!("(let (copy iso {}))", slot);
        assert_eq!(refusal(&with_line(&line)), (3, 4), "{}", line);
    }
}

#[test]
fn malformed_copies_are_3() {
    for line in [
        "(copy imm 0)",
        "(give (copy imm 0))",
        "(let copy imm 0)",
        "(let (copy))",
        "(let (copy ))",
        "(let (copy 0))",
        "(let (copy imm))",
        "(let (copy imm ))",
        "(let (copy imm0))",
        "(let (copyimm 0))",
        "(let (copy  imm 0))",
        "(let (copy imm  0))",
        "(let (copy imm 0 ))",
        "(let (copy imm 0) )",
        "(let (copy imm 0)",
        "(let (copy imm 0)))",
        "(let (copy imm 00))",
        "(let (copy imm 01))",
        "(let (copy imm 1000))",
        "(let (copy imm x))",
        "(let (copy imm 0 0))",
        "(let (copy imm (read 0)))",
        "(let (copy imm 0 (read 0)))",
        "(let (copy mut 0))",
        "(let (copy 0 imm))",
        "(let (copies imm 0))",
        "(let (new imm 0 (copy imm 0)))",
    ] {
        assert_eq!(refusal(&with_line(line)), (3, 4), "{}", line);
    }
}

/// A slot that is named is checked as another target's is: 4 over 255, 5 where it is not yet filled.
#[test]
fn the_slot_of_a_copy() {
    for slot in ["256", "300", "999"] {
        let line = format!("(let (copy imm {}))", slot);
        assert_eq!(refusal(&with_line(&line)), (4, 4), "{}", line);
    }
    for slot in ["2", "3", "15", "16", "255"] {
        let line = format!("(let (copy imm {}))", slot);
        assert_eq!(refusal(&with_line(&line)), (5, 4), "{}", line);
    }
}

/// A copy is no take: self may be copied in a method.
#[test]
fn a_copy_of_self_reads() {
    let script = format!("{}(method)\n(let (copy local 0))\n(give (read 2))\n", SMALL);
    assert!(reads(&edition_2(&script)));
}

#[test]
fn copies_count_among_the_lets() {
    let block = |copies: usize| {
        let lines = "(let (copy imm 0))\n".repeat(copies);
        format!("(thread)\n{}(give (read 0))\n", lines)
    };
    assert!(reads(&edition_2(&block(15))));
    assert_eq!(refusal(&edition_2(&block(16))), (4, 1 + 1 + 15));
    let many = format!("{}{}", block(10).repeat(51), block(2));
    assert!(reads(&edition_2(&many)));
    let more = format!("{}{}", block(10).repeat(51), block(3));
    assert_eq!(refusal(&edition_2(&more)), (4, 1 + 51 * 12 + 1 + 2));
}

/// "`(script 2)` anywhere else is 3": its line is the first place of it that is not the first line.
#[test]
fn the_edition_elsewhere_is_3() {
    let lines = [
        "(kind (fields 0) (does))",
        "(thread)",
        "(let (spawn 0))",
        "(give (read 0))",
        "(thread)",
        "(give (read 0))",
    ];
    for place in 1..=lines.len() {
        let mut other = lines.to_vec();
        other.insert(place, "(script 2)");
        assert_eq!(refusal(&text(&other)), (3, place));
    }
    for place in 0..=lines.len() {
        let mut other = lines.to_vec();
        other.insert(place, "(script 2)");
        assert_eq!(refusal(&edition_2(&text(&other))), (3, place + 1));
    }
}

#[test]
fn another_first_line_is_3() {
    for line in [
        "(script 0)",
        "(script 1)",
        "(script 3)",
        "(script 22)",
        "(script 02)",
        "(script 256)",
        "(script 1000)",
        "(script two)",
        "(script 2 2)",
        "(script 2 )",
        "(script  2)",
        "(script)",
        "(script2)",
        "(script (2))",
        " (script 2)",
        "(script 2) ",
        "((script 2))",
        "script 2",
        "(script 2",
        "script 2)",
        "(scripts 2)",
        "(edition 2)",
        "(script 2)(script 2)",
        "",
    ] {
        let script = format!("{}\n{}", line, SMALL);
        assert_eq!(refusal(&script), (3, 0), "{}", line);
    }
    assert_eq!(refusal(&format!("\n{}", edition_2(SMALL))), (3, 0));
}

#[test]
fn a_stray_byte_in_the_first_line_is_2() {
    for line in [
        "(script 2]",
        "(Script 2)",
        "(script 2)\r",
        "(script\t2)",
        "\u{feff}(script 2)",
        "(script -2)",
    ] {
        let script = format!("{}\n{}", line, SMALL);
        assert_eq!(refusal(&script), (2, 0), "{}", line);
    }
}

#[test]
fn the_first_line_without_its_lf_is_3() {
    assert_eq!(refusal("(script 2)"), (3, 0));
    assert_eq!(refusal("(script 2)(thread)\n(give (read 0))\n"), (3, 0));
    assert_eq!(refusal("(script 2]"), (2, 0));
}

/// The number of lines with the first one.
#[test]
fn the_first_line_counts_in_a_7() {
    assert_eq!(refusal("(script 2)\n"), (7, 1));
    assert_eq!(refusal(&edition_2(PLAIN_KIND)), (7, 2));
    assert_eq!(refusal(&edition_2("(thread)\n")), (7, 2));
    assert_eq!(
        refusal(&edition_2("(thread)\n(let (copy imm 0))\n")),
        (7, 3)
    );
}

/// Faults that stand at these lines in the first edition stand one later.
#[test]
fn the_first_line_counts_in_every_refusal() {
    let spawn = "(thread)\n(let (spawn 1))\n(give (read 0))\n";
    let method = "(method)\n(give (read 0))\n";
    for (script, number, line) in [
        ("?\n".to_string(), 2, 0),
        ("(thread)\n(give (Read 0))\n".to_string(), 2, 1),
        ("(give (read 0))\n".to_string(), 3, 0),
        ("(thread)\n(give (read 0))".to_string(), 3, 1),
        (format!("{}{}", SMALL, PLAIN_KIND), 3, 2),
        ("(kind (fields 5) (does))\n".to_string(), 4, 0),
        (PLAIN_KIND.repeat(33), 4, 32),
        (SMALL.repeat(65), 4, 128),
        ("(thread)\n(give (read 1))\n".to_string(), 5, 1),
        (format!("{}(method)\n(give (take 0))\n", SMALL), 6, 3),
        (String::new(), 7, 0),
        (format!("(kind (fields 0) (does 0))\n{}", SMALL), 8, 0),
        (method.to_string(), 8, 0),
        (format!("{}{}", PLAIN_KIND, method), 8, 1),
        (spawn.to_string(), 8, 1),
        (format!("{}{}", SMALL, spawn.replace('1', "9")), 8, 3),
    ] {
        assert_eq!(refusal(&script), (number, line), "{}", script);
        assert_eq!(
            refusal(&edition_2(&script)),
            (number, line + 1),
            "{}",
            script
        );
    }
}

#[test]
fn the_first_line_counts_in_the_length() {
    for edition in [Edition::One, Edition::Two] {
        let longest = longest_script(edition);
        assert_eq!(
            (longest.len(), program(&longest).edition),
            (16_384, edition)
        );
        assert_eq!(refusal(&format!("{}\n", longest)), (1, 0));
    }
    assert_eq!(refusal(&edition_2(&longest_script(Edition::One))), (1, 0));
    let shorter = longest_script(Edition::Two).replacen(" 25 ", " 5 ", 1);
    assert_eq!(shorter.len(), 16_383);
    assert!(reads(&shorter));
}

/// No most counts the first line: 32 kinds, 64 blocks and 512 lets stand behind it.
#[test]
fn no_most_counts_the_first_line() {
    let block = format!(
        "(thread)\n{}(give (read 0))\n",
        "(let (read 0))\n".repeat(8)
    );
    let script = format!("{}{}", PLAIN_KIND.repeat(32), block.repeat(64));
    assert!(reads(&edition_2(&script)));
}

#[test]
fn boxrun_takes_the_first_line_with_the_script() {
    assert_eq!(printed(&edition_2(""), "0"), "(refused 7 1)\n");
    assert_eq!(answer(&edition_2(SMALL), "0"), "(stopped 10 0 0 0 0)");
    assert_eq!(printed(&edition_2(SMALL), "x"), "(refused 3 3)\n");
    assert_eq!(printed(&edition_2(SMALL), "256"), "(refused 4 3)\n");
    let alone = second::input::boxrun(b"(script 2)\n");
    assert_eq!(alone, b"(refused 3 0)\n");
    assert_eq!(
        answer(&with_line("(let (copy unsafe 1))"), "0 0"),
        "(end open 2)"
    );
    assert_eq!(
        answer(&without_edition("(let (copy unsafe 1))"), "0 0"),
        "(refused 3 3)"
    );
}
