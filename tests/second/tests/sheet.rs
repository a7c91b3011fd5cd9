//! The check sheet, line by line as docs/SHEET.md has it.

mod common;

use common::*;
use second::generate;
use second::input::{accepted, boxrun, boxrun_stripped};
use second::script::Edition;
use second::shapes::longest_script;
use second::sheet::{checked, compared, Sheet};

const SMALL: &str = "(thread)\n(give (read 0))\n";

const CR: &str = "hint: the line ends in CR LF; save the file with LF alone";
const NO_LF: &str = "hint: the last line has no LF at its end; was the file cut off?";
const TURNS: &str = "hint: the last line is to be (turns T ..), each T a number up to 255";
const STRAY: &str = "hint: only a to z, 0 to 9, brackets, space and LF may stand in a script";
const FORM: &str = "hint: no form of a script, or not in its place";
const OVER: &str =
    "hint: a number over 255, or more kinds, blocks, slots or lets than there is room for";
const SLOT: &str = "hint: a slot is used that no line has filled yet";
const TAKEN: &str = "hint: a method may read its own object, slot 0, and not take it";
const UNFINISHED: &str =
    "hint: the last block has no give, or there is no block; was the file cut off?";
const DANGLING: &str =
    "hint: no such kind or block, a block of the wrong sort, or other operands than the kind's fields";
const LONG: &str = "hint: a script has at most 16384 bytes, an input 65536";

fn printed_sheet(input: &[u8]) -> String {
    String::from_utf8(checked(input)).unwrap()
}

/// Which ticks stand, as the sheet has them.
fn ticks(input: &[u8]) -> String {
    let sheet = printed_sheet(input);
    let ticks = sheet.lines().filter(|line| line.starts_with('['));
    ticks.map(|line| &line[1..2]).collect()
}

/// The lines under a tick, without their seven spaces.
fn under(input: &[u8], condition: usize) -> Vec<String> {
    let sheet = printed_sheet(input);
    let tick = format!(" {}. ", condition);
    let after = sheet
        .lines()
        .skip_while(|line| line.get(3..7) != Some(&tick));
    let lines = after.skip(1).map_while(|line| line.strip_prefix("       "));
    lines.map(str::to_string).collect()
}

fn script_under(script: &str, condition: usize) -> Vec<String> {
    under(input(script, "0").as_bytes(), condition)
}

fn example(name: &str) -> Vec<u8> {
    let folder = concat!(env!("CARGO_MANIFEST_DIR"), "/../../examples");
    std::fs::read(format!("{}/{}.box", folder, name)).unwrap()
}

#[test]
fn the_sheet_of_case_a() {
    let sheet = "\
Check sheet of the freezer box

[x] 1. The script reads clean
       9 lines
[x] 2. Every record carries a capability
       lines that make records: imm 0, iso 1, local 0, unsafe 0
       lines that name unsafe: none
[x] 3. The list of turns is filed
       5 turns
       thread 0: 4 moved, 0 waited, 0 idle, 0 stopped, 0 not played
       thread 1: 1 moved, 0 waited, 0 idle, 0 stopped, 0 not played
[x] 4. Guards change no result
       with guards: (end open 5)
       without:     (end open 5)
       the same words, capabilities aside, after 5 turns

Verdict: all four conditions hold
";
    assert_eq!(printed_sheet(&example("case-a")), sheet);
    assert!(Sheet::of(&example("case-a")).all_hold());
}

fn page() -> String {
    let path = concat!(env!("CARGO_MANIFEST_DIR"), "/../../docs/SHEET.md");
    std::fs::read_to_string(path).unwrap()
}

/// Lines as a page shows them.
fn shown<'a>(lines: impl Iterator<Item = &'a str>) -> String {
    lines
        .map(|line| match line {
            "" => "\n".to_string(),
            _ => format!("    {}\n", line),
        })
        .collect()
}

#[test]
fn the_page_shows_the_sheet_of_case_a() {
    let sheet = printed_sheet(&example("case-a"));
    assert!(page().contains(&shown(sheet.lines())));
}

/// What the page shows under a tick is what such an input has there.
#[test]
fn the_page_shows_lines_under_each_tick() {
    let malformed = text(&["(thread)", "(let (read 0))", "(let (send 1 (take 2))"]);
    let none = under(input(SMALL, "16 255").as_bytes(), 3);
    for lines in [
        script_under(&malformed, 1),
        under(&example("stale-write-back-unguarded"), 2),
        none[1..].to_vec(),
        under(&example("stale-write-back"), 4),
    ] {
        let under = lines.iter().map(|line| format!("       {}", line));
        let under: Vec<String> = under.collect();
        let wanted = shown(under.iter().map(String::as_str));
        assert!(page().contains(&wanted), "{}", wanted);
    }
}

#[test]
fn the_page_has_every_hint() {
    let hints = [
        LONG, STRAY, CR, FORM, NO_LF, OVER, SLOT, TAKEN, UNFINISHED, DANGLING, TURNS,
    ];
    for hint in hints {
        let words = format!("`{}`", &hint["hint: ".len()..]);
        assert!(page().contains(&words), "{}", words);
    }
}

#[test]
fn a_guards_stop_is_no_failed_condition() {
    let sheet = "\
Check sheet of the freezer box

[x] 1. The script reads clean
       22 lines
[x] 2. Every record carries a capability
       lines that make records: imm 2, iso 0, local 1, unsafe 1
       lines that name unsafe: 9
[x] 3. The list of turns is filed
       18 turns
       thread 0: 11 moved, 0 waited, 0 idle, 0 stopped, 0 not played
       thread 1: 3 moved, 0 waited, 0 idle, 1 stopped, 3 not played
[x] 4. Guards change no result
       with guards: (stopped 20 1 1 3 14)
       without:     (end finished 18)
       the same words, capabilities aside, after 14 turns

Verdict: all four conditions hold
";
    assert_eq!(printed_sheet(&example("stale-write-back")), sheet);
}

#[test]
fn a_refused_script() {
    let script = case_a().replace("(let (send 1 (take 2)))", "(let (send 1 (take 2))");
    let sheet = "\
Check sheet of the freezer box

[ ] 1. The script reads clean
       refused: 3 malformed at line 4, in an editor line 5
       (let (send 1 (take 2))
       ^^^^^^^^^^^^^^^^^^^^^^
       hint: no form of a script, or not in its place
[ ] 2. Every record carries a capability
       not examined
[x] 3. The list of turns is filed
       5 turns
[ ] 4. Guards change no result
       not examined

Verdict: not all four conditions hold
";
    let input = input(&script, "0 0 0 1 0");
    assert_eq!(printed_sheet(input.as_bytes()), sheet);
    assert!(!Sheet::of(input.as_bytes()).all_hold());
}

#[test]
fn number_1_shows_no_line() {
    let script = format!("{}\n", longest_script(Edition::One));
    let refused = ["refused: 1 overlong at line 0, in an editor line 1", LONG];
    assert_eq!(script_under(&script, 1), refused);
    let whole = input(&script, "0 0");
    assert_eq!(ticks(whole.as_bytes()), "  x ");
    assert_eq!(under(whole.as_bytes(), 3), ["2 turns"]);
    assert_eq!(
        ticks(input(&longest_script(Edition::One), "").as_bytes()),
        "xxxx"
    );
}

#[test]
fn of_a_long_input_nothing_else_is_examined() {
    let sheet = "\
Check sheet of the freezer box

[ ] 1. The script reads clean
       refused: 1 overlong at line 0, in an editor line 1
       hint: a script has at most 16384 bytes, an input 65536
[ ] 2. Every record carries a capability
       not examined
[ ] 3. The list of turns is filed
       not examined
[ ] 4. Guards change no result
       not examined

Verdict: not all four conditions hold
";
    let turns = |last: &str| input(SMALL, &format!("{}{}", "0 ".repeat(32_750), last));
    assert_eq!(turns("10").len(), 65_536);
    assert_eq!(ticks(turns("10").as_bytes()), "xxxx");
    assert_eq!(printed_sheet(turns("100").as_bytes()), sheet);
    assert_eq!(printed_sheet(&vec![b'\n'; 65_537]), sheet);
    assert_eq!(ticks(&vec![b'\n'; 65_536]), "    ");
}

/// A mark stands under each stray byte and no other; what cannot be shown is a question mark.
#[test]
fn number_2_marks_the_stray_bytes() {
    let lines = script_under("(thread)\n(Let (read\t0));\n(give (read 0))\n", 1);
    let refused = "refused: 2 stray byte at line 1, in an editor line 2";
    assert_eq!(
        lines,
        [refused, "(Let (read?0));", " ^        ^   ^", STRAY]
    );
    let bytes: Vec<u8> = (0..=255).filter(|byte| *byte != b'\n').collect();
    for byte in bytes {
        let lines = under(&[b"A", &[byte][..], b"A\n(turns)\n"].concat(), 1);
        let shown = if (32..127).contains(&byte) {
            byte
        } else {
            b'?'
        };
        let listed = matches!(byte, b'a'..=b'z' | b'0'..=b'9' | b'(' | b')' | b' ');
        let mark = if listed { "^ ^" } else { "^^^" };
        assert_eq!(lines[1].as_bytes(), [b'A', shown, b'A'], "{}", byte);
        assert_eq!(lines[2], mark, "{}", byte);
    }
}

#[test]
fn a_cr_at_a_lines_end_is_named() {
    let script = SMALL.replace('\n', "\r\n");
    let first = [
        "refused: 2 stray byte at line 0, in an editor line 1",
        "(thread)?",
        "        ^",
        CR,
    ];
    assert_eq!(script_under(&script, 1), first);
    let inside = script_under("(thr\read)\n(give (read 0))\n", 1);
    assert_eq!(inside[1..], ["(thr?ead)", "    ^    ", STRAY]);
    let alone = script_under("(thread)\n\r\n(give (read 0))\n", 1);
    assert_eq!(
        alone,
        [
            "refused: 2 stray byte at line 1, in an editor line 2",
            "?",
            "^",
            CR
        ]
    );
    let both = script_under("(Thread)\r\n(give (read 0))\n", 1);
    assert_eq!(both[1..], ["(Thread)?", " ^      ^", CR]);
}

#[test]
fn number_3_marks_the_whole_line() {
    let lines = script_under("(thread)\n(let (read 0)))\n(give (read 0))\n", 1);
    let refused = "refused: 3 malformed at line 1, in an editor line 2";
    assert_eq!(lines, [refused, "(let (read 0)))", "^^^^^^^^^^^^^^^", FORM]);
}

#[test]
fn an_empty_line_is_not_shown() {
    let lines = script_under("(thread)\n\n(give (read 0))\n", 1);
    assert_eq!(
        lines,
        ["refused: 3 malformed at line 1, in an editor line 2", FORM]
    );
}

#[test]
fn a_line_is_shown_up_to_100_bytes() {
    for length in [99, 100, 101, 5_000] {
        let line = "x".repeat(length);
        let shown = line[..length.min(100)].to_string();
        let lines = script_under(&format!("{}\n", line), 1);
        assert_eq!(
            lines[1..],
            [shown.clone(), shown.replace('x', "^"), FORM.to_string()]
        );
        let stray = script_under(&format!("{}Z\n", line), 1);
        let marks = " ".repeat(length);
        assert_eq!(stray[2], format!("{}^", marks)[..(length + 1).min(100)]);
        assert_eq!(stray[3], STRAY);
        let cr = script_under(&format!("{}\r\n", line), 1);
        assert_eq!(cr[3], CR);
    }
}

#[test]
fn number_4_to_6_and_8() {
    let method = "(method)\n(let (take 0))\n(give (read 1))\n";
    let self_taken = format!("(kind (fields 0) (does 1))\n{}{}", SMALL, method);
    for (script, lines) in [
        (
            "(thread)\n(let (read 256))\n(give (read 0))\n".to_string(),
            [
                "refused: 4 over count at line 1, in an editor line 2",
                "(let (read 256))",
                "^^^^^^^^^^^^^^^^",
                OVER,
            ],
        ),
        (
            "(thread)\n(give (read 1))\n".to_string(),
            [
                "refused: 5 unbound at line 1, in an editor line 2",
                "(give (read 1))",
                "^^^^^^^^^^^^^^^",
                SLOT,
            ],
        ),
        (
            self_taken,
            [
                "refused: 6 self taken at line 4, in an editor line 5",
                "(let (take 0))",
                "^^^^^^^^^^^^^^",
                TAKEN,
            ],
        ),
        (
            "(thread)\n(let (spawn 7))\n(give (read 0))\n".to_string(),
            [
                "refused: 8 dangling at line 1, in an editor line 2",
                "(let (spawn 7))",
                "^^^^^^^^^^^^^^^",
                DANGLING,
            ],
        ),
    ] {
        assert_eq!(script_under(&script, 1), lines);
        assert_eq!(ticks(input(&script, "0").as_bytes()), "  x ");
    }
}

#[test]
fn number_7_has_no_line_to_show() {
    let cut = "(thread)\n(let (read 0))\n";
    let refused = [
        "refused: 7 unfinished at line 2, in an editor line 3",
        UNFINISHED,
    ];
    assert_eq!(script_under(cut, 1), refused);
    assert_eq!(
        script_under("", 1)[0],
        "refused: 7 unfinished at line 0, in an editor line 1"
    );
}

/// A script without a line of turns: its own last line is taken for one.
#[test]
fn a_script_alone() {
    let input = case_a().into_bytes();
    assert_eq!(ticks(&input), "    ");
    let unfinished = [
        "refused: 7 unfinished at line 8, in an editor line 9",
        UNFINISHED,
    ];
    assert_eq!(under(&input, 1), unfinished);
    let fault = [
        "refused: 3 malformed at line 8, in an editor line 9",
        "(give (take 1))",
        "^^^^^^^^^^^^^^^",
        TURNS,
    ];
    assert_eq!(under(&input, 3), fault);
}

#[test]
fn an_empty_input() {
    let sheet = "\
Check sheet of the freezer box

[ ] 1. The script reads clean
       refused: 7 unfinished at line 0, in an editor line 1
       hint: the last block has no give, or there is no block; was the file cut off?
[ ] 2. Every record carries a capability
       not examined
[ ] 3. The list of turns is filed
       refused: 3 malformed at line 0, in an editor line 1
       hint: the last line is to be (turns T ..), each T a number up to 255
[ ] 4. Guards change no result
       not examined

Verdict: not all four conditions hold
";
    assert_eq!(printed_sheet(b""), sheet);
    assert_eq!(
        under(b"\n", 3),
        ["refused: 3 malformed at line 0, in an editor line 1", TURNS]
    );
}

/// The script's two conditions stand all the same.
#[test]
fn a_faulty_line_of_turns() {
    let line = |last: &str| format!("{}{}", SMALL, last);
    for (last, refusal, hint) in [
        ("(turns 0 007)\n", "3 malformed", TURNS),
        ("(turns 0 256)\n", "4 over count", TURNS),
        ("(turns 0 255) \n", "3 malformed", TURNS),
        ("(turns 0)", "3 malformed", NO_LF),
        ("(turns 256)", "3 malformed", NO_LF),
        ("(turns 0)\r\n", "3 malformed", CR),
        ("(turns 0)\r", "3 malformed", CR),
    ] {
        let text = last.trim_end_matches('\n').replace('\r', "?");
        let marks = "^".repeat(text.len());
        let refused = format!("refused: {} at line 2, in an editor line 3", refusal);
        let input = line(last);
        assert_eq!(
            under(input.as_bytes(), 3),
            [&refused, &text, &marks, hint],
            "{:?}",
            last
        );
        assert_eq!(ticks(input.as_bytes()), "xx  ");
        assert_eq!(under(input.as_bytes(), 1), ["2 lines"]);
        assert_eq!(under(input.as_bytes(), 4), ["not examined"]);
    }
}

/// A line of turns is refused as a line of the input, also where the script is refused before it.
#[test]
fn both_are_refused() {
    let input = b"(thread)\n(give (Read 0))\n(turns 300)\n";
    assert_eq!(
        under(input, 1)[0],
        "refused: 2 stray byte at line 1, in an editor line 2"
    );
    assert_eq!(
        under(input, 3)[0],
        "refused: 4 over count at line 2, in an editor line 3"
    );
    assert_eq!(ticks(input), "    ");
}

#[test]
fn threads_that_have_no_turn_are_not_listed() {
    let script = text(&["(thread)", "(let (spawn 0))", "(give (read 1))"]);
    let lines = under(input(&script, "0 16 255 15 2 0 0").as_bytes(), 3);
    let expected = [
        "7 turns",
        "thread 0: 2 moved, 0 waited, 1 idle, 0 stopped, 0 not played",
        "thread 2: 0 moved, 0 waited, 1 idle, 0 stopped, 0 not played",
        "thread 15: 0 moved, 0 waited, 1 idle, 0 stopped, 0 not played",
        "no thread: 0 moved, 0 waited, 2 idle, 0 stopped, 0 not played",
    ];
    assert_eq!(lines, expected);
    assert_eq!(under(input(&script, "").as_bytes(), 3), ["0 turns"]);
    assert_eq!(under(input(&script, "16").as_bytes(), 3)[0], "1 turns");
}

/// Turns of 16 and more after a stop are not played either.
#[test]
fn turns_that_wait_and_turns_after_a_stop() {
    let script = sending(
        "local",
        &[],
        "(give (read 1))",
        &["(let (recv 0))", "(give (take 1))"],
    );
    let input = input(&script, "0 1 1 0 9 0 0 1 16 9");
    let expected = [
        "10 turns",
        "thread 0: 2 moved, 0 waited, 0 idle, 1 stopped, 1 not played",
        "thread 1: 0 moved, 2 waited, 0 idle, 0 stopped, 1 not played",
        "thread 9: 0 moved, 0 waited, 1 idle, 0 stopped, 1 not played",
        "no thread: 0 moved, 0 waited, 0 idle, 0 stopped, 1 not played",
    ];
    assert_eq!(under(input.as_bytes(), 3), expected);
    let guards = [
        "with guards: (stopped 14 0 0 2 2)",
        "without:     (end open 4)",
        "the same words, capabilities aside, after 5 turns",
    ];
    assert_eq!(under(input.as_bytes(), 4), guards);
}

/// Lines count as the box does, so that the line of the edition is one of them. A copy makes records; a cast names a capability and makes none.
#[test]
fn unsafe_by_new_copy_and_cast() {
    let script = text(&[
        "(script 2)",
        "(kind (fields 0) (does))",
        "(thread)",
        "(let (new unsafe 0))",
        "(let (cast unsafe (read 1)))",
        "(let (copy unsafe 1))",
        "(let (copy local 1))",
        "(let (copy imm 1))",
        "(let (cast imm (read 5)))",
        "(let (new iso 0))",
        "(give (read 1))",
    ]);
    assert_eq!(
        script_under(&script, 2),
        [
            "lines that make records: imm 1, iso 1, local 1, unsafe 2",
            "lines that name unsafe: 3 4 5",
        ]
    );
    assert_eq!(script_under(&script, 1), ["11 lines"]);
    let cast = text(&[
        "(thread)",
        "(let (cast unsafe (read 0)))",
        "(give (read 0))",
    ]);
    assert_eq!(
        script_under(&cast, 2),
        [
            "lines that make records: imm 0, iso 0, local 0, unsafe 0",
            "lines that name unsafe: 1",
        ]
    );
    let dangling = edition_2("(thread)\n(let (spawn 7))\n(give (read 0))\n");
    assert_eq!(
        script_under(&dangling, 1)[0],
        "refused: 8 dangling at line 2, in an editor line 3"
    );
    let first = [
        "refused: 3 malformed at line 1, in an editor line 2",
        "(script 2)",
        "^^^^^^^^^^",
        FORM,
    ];
    assert_eq!(script_under(&edition_2(&edition_2(SMALL)), 1), first);
}

/// Another program in the stripped one's stead: the fourth tick can fail.
#[test]
fn other_words_are_no_tick() {
    let (guarded, other) = (case_a(), case_a().replace("(new iso 0)", "(read 1)"));
    let condition = compared(&program(&guarded), &program(&other), &[0, 0]);
    assert!(!condition.holds);
    assert!(compared(&program(&guarded), &program(&other), &[0]).holds);
    let guarded = guarded.replace("iso", "local");
    let other = guarded.replace("local", "unsafe");
    assert!(compared(&program(&guarded), &program(&other), &[0, 0, 0]).holds);
}

/// Of random inputs: a tick where its condition holds, by the runs themselves, and both answers as they are printed.
#[test]
fn random_inputs_are_ticked_by_their_refusals() {
    let first_line = |text: Vec<u8>| {
        let text = String::from_utf8(text).unwrap();
        text.lines().next().unwrap().to_string()
    };
    let mut seen = std::collections::BTreeSet::new();
    for n in 0..4_000 {
        let input = generate::input(25, n);
        let found = ticks(&input);
        assert_eq!(found == "xxxx", accepted(&input).is_ok(), "{}", n);
        assert_eq!(found[..1], found[1..2]);
        assert_eq!(found[3..] == *"x", found[..3] == *"xxx");
        assert_eq!(found == "xxxx", Sheet::of(&input).all_hold());
        if found == "xxxx" {
            let lines = under(&input, 4);
            assert_eq!(
                lines[0],
                format!("with guards: {}", first_line(boxrun(&input)))
            );
            let without = first_line(boxrun_stripped(&input));
            assert_eq!(lines[1], format!("without:     {}", without));
        }
        seen.insert(found);
    }
    assert_eq!(
        seen.into_iter().collect::<Vec<_>>(),
        ["    ", "  x ", "xx  ", "xxxx"]
    );
}
