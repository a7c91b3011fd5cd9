//! Bench cases A to J of document 01, every number of their text.

mod common;

use common::*;

const A: &str = "\
(kind (fields 0) (does))
(thread)
(let (spawn 1))
(let (new iso 0))
(let (send 1 (take 2)))
(give (read 1))
(thread)
(let (recv 0))
(give (take 1))
";

#[test]
fn case_a_prints_as_written() {
    let output = "\
(end open 5)
(object 0 iso 0 0)
(channel 1 empty)
(thread 0 ready 0 3 absent (chan 1) absent (chan 1))
(thread 1 ready 1 1 (chan 1) (obj 0))
";
    assert_eq!(printed(A, "0 0 0 1 0"), output);
}

#[test]
fn case_b_empty_text_is_7_at_line_0() {
    assert_eq!(refusal(""), (7, 0));
    assert_eq!(printed("", "0"), "(refused 7 0)\n");
}

#[test]
fn case_c_first_slot_is_absent() {
    let script = text(&["(thread)", "(give (read 0))"]);
    assert_eq!(answer(&script, "0"), "(stopped 10 0 0 0 0)");
    assert_eq!(answer(&script, ""), "(end open 0)");
}

fn case_d(give: &str) -> String {
    text(&[
        "(kind (fields 0) (does))",
        "(thread)",
        "(let (new iso 0))",
        give,
    ])
}

#[test]
fn case_d_read_of_an_iso_stops() {
    let script = case_d("(give (read 1))");
    assert_eq!(answer(&script, "0 0"), "(stopped 19 0 0 1 1)");
    assert_eq!(answer_stripped(&script, "0 0"), "(end finished 2)");
}

#[test]
fn case_e_take_of_an_iso_finishes() {
    assert_eq!(
        answer(&case_d("(give (take 1))"), "0 0"),
        "(end finished 2)"
    );
}

#[test]
fn case_f_cast() {
    let cast = |cap: &str| {
        let line = format!("(let (cast {} (read 1)))", cap);
        text(&[
            "(kind (fields 0) (does))",
            "(thread)",
            "(let (new imm 0))",
            &line,
            "(give (read 1))",
        ])
    };
    assert_eq!(answer(&cast("iso"), "0 0"), "(stopped 15 0 0 1 1)");
    assert_eq!(answer(&cast("imm"), "0 0"), "(end open 2)");
}

#[test]
fn case_g_operand_before_target() {
    let script = case_g();
    assert_eq!(answer(&script, "0 0 0"), "(stopped 10 0 0 2 2)");
}

#[test]
fn case_h_what_an_imm_may_hold() {
    let script = |cap: &str, value: &str| {
        let first = format!("(let (new {} 0))", cap);
        let second = format!("(let (new imm 1 {}))", value);
        text(&[
            "(kind (fields 0) (does))",
            "(kind (fields 1) (does))",
            "(thread)",
            &first,
            &second,
            "(give (take 2))",
        ])
    };
    assert_eq!(
        answer(&script("iso", "(take 1)"), "0 0"),
        "(stopped 14 0 0 1 1)"
    );
    assert_eq!(answer(&script("imm", "(read 1)"), "0 0"), "(end open 2)");
}

#[test]
fn case_i_stuck() {
    let script = text(&[
        "(thread)",
        "(let (spawn 1))",
        "(let (recv 1))",
        "(give (read 1))",
        "(thread)",
        "(give (read 0))",
    ]);
    assert_eq!(answer(&script, "0 1 0"), "(end stuck 2)");
}

fn lets(opener: &str, count: usize) -> String {
    let kind = "(kind (fields 0) (does))\n(thread)\n(give (read 0))\n";
    format!(
        "{}{}\n{}(give (read 0))\n",
        kind,
        opener,
        "(let (new imm 0))\n".repeat(count)
    )
}

#[test]
fn case_j_lets_in_a_block() {
    assert!(reads(&lets("(thread)", 15)));
    assert_eq!(refusal(&lets("(thread)", 16)), (4, 3 + 1 + 15));
    assert!(reads(&lets("(method)", 14)));
    assert_eq!(refusal(&lets("(method)", 15)), (4, 3 + 1 + 14));
}

#[test]
fn case_j_numbers_as_a_field() {
    let field = |number: &str| format!("(thread)\n(let (field 0 {}))\n(give (read 0))\n", number);
    assert!(reads(&field("255")));
    assert_eq!(refusal(&field("256")), (4, 1));
    assert_eq!(refusal(&field("007")), (3, 1));
}

/// 1 object, then 196 by method 0, then 56 by four calls of method 1, then 3, then the 257th.
fn many_objects() -> String {
    let calls = "(let (call 0 1 (read 1)))\n".repeat(14);
    let news = "(let (new imm 0))\n".repeat(14);
    let own = "(let (call 1 1 (read 1)))\n".repeat(4);
    format!(
        "(kind (fields 0) (does 1 2))\n(thread)\n(let (new imm 0))\n(let (call 1 0 (read 1)))\n\
         {}(let (new imm 0))\n(let (new imm 0))\n(let (new imm 0))\n(let (new imm 0))\n(give (read 1))\n\
         (method)\n{}(give (read 1))\n(method)\n{}(give (read 1))\n",
        own, calls, news
    )
}

#[test]
fn case_j_the_257th_object() {
    let moves = 1 + (1 + 14 * 16 + 1) + 4 * 16 + 3;
    let run = run_of(&many_objects(), &vec![0; moves]);
    assert_eq!((run.state.objects.len(), run.moves), (256, moves as u32));
    let zeros = vec!["0"; moves + 1].join(" ");
    assert_eq!(
        answer(&many_objects(), &zeros),
        format!("(stopped 16 0 0 9 {})", moves)
    );
    let stopped = run_of(&many_objects(), &vec![0; moves + 1]);
    assert_eq!(stopped.state, run.state);
}
