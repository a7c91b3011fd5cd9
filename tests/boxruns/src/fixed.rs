//! Inputs that are written out: the bench cases, every number that boxrun can show, turns lines with faults, editions and copies, drawings, races,
//! and long inputs. Each has the first line that documents 01 and 02 settle for it.

use second::generate::turns_text;
use second::graphs::longest_drawing;
use second::numbers::{MOST_INPUT, MOST_TEXT};
use second::script::Edition;
use second::shapes::longest_script;

pub struct Fixed {
    pub name: String,
    pub input: Vec<u8>,
    pub first_line: String,
}

const KIND: &str = "(kind (fields 0) (does))\n";
const ONE_FIELD: &str = "(kind (fields 1) (does))\n";
const SMALL: &str = "(thread)\n(give (read 0))\n";
const A: &str = "(kind (fields 0) (does))\n(thread)\n(let (spawn 1))\n(let (new iso 0))\n(let (send 1 (take 2)))\n(give (read 1))\n\
                 (thread)\n(let (recv 0))\n(give (take 1))\n";

fn fixed(name: &str, script: &str, turns: &str, first_line: &str) -> Fixed {
    Fixed {
        name: name.to_string(),
        input: format!("{}(turns{})\n", script, turns).into_bytes(),
        first_line: first_line.to_string(),
    }
}

/// Two kinds, the second with one field, and one thread of these lets.
fn lets(all: &[&str], give: &str) -> String {
    let lets: String = all.iter().map(|expr| format!("(let {})\n", expr)).collect();
    [KIND, ONE_FIELD, "(thread)\n", &lets, "(give ", give, ")\n"].concat()
}

/// The same script in the second edition.
fn edition_2(script: &str) -> String {
    format!("(script 2)\n{}", script)
}

/// Cases A to I of document 01, with the numbers of their text.
fn cases_a_to_i() -> Vec<Fixed> {
    let d = |cap: &str| lets(&[&format!("(new {} 0)", cap)], "(read 1)");
    let f = |cap: &str| {
        lets(
            &["(new imm 0)", &format!("(cast {} (read 1))", cap)],
            "(read 1)",
        )
    };
    let h = |cap: &str, value: &str| {
        lets(
            &[
                &format!("(new {} 0)", cap),
                &format!("(new imm 1 ({} 1))", value),
            ],
            "(take 2)",
        )
    };
    let g = [
        "(new unsafe 0)",
        "(new unsafe 1 (read 1))",
        "(swap 2 0 (take 2))",
    ];
    let i =
        "(thread)\n(let (spawn 1))\n(let (recv 1))\n(give (read 1))\n(thread)\n(give (read 0))\n";
    vec![
        fixed("A", A, " 0 0 0 1 0", "(end open 5)"),
        fixed("B", "", "", "(refused 7 0)"),
        fixed("C", SMALL, " 0", "(stopped 10 0 0 0 0)"),
        fixed("C, no turns", SMALL, "", "(end open 0)"),
        fixed("D", &d("iso"), " 0 0", "(stopped 19 0 0 1 1)"),
        fixed("D, stripped", &d("unsafe"), " 0 0", "(end finished 2)"),
        fixed(
            "E",
            &lets(&["(new iso 0)"], "(take 1)"),
            " 0 0",
            "(end finished 2)",
        ),
        fixed("F, iso", &f("iso"), " 0 0", "(stopped 15 0 0 1 1)"),
        fixed("F, imm", &f("imm"), " 0 0", "(end open 2)"),
        fixed("G", &lets(&g, "(read 1)"), " 0 0 0", "(stopped 10 0 0 2 2)"),
        fixed("H, iso", &h("iso", "take"), " 0 0", "(stopped 14 0 0 1 1)"),
        fixed("H, imm", &h("imm", "read"), " 0 0", "(end open 2)"),
        fixed("I", i, " 0 1 0", "(end stuck 2)"),
    ]
}

/// 1 object, then 196 by the first method, 56 by four calls of the second, 3 more, and the 257th.
fn many_objects() -> String {
    let calls = "(let (call 0 1 (read 1)))\n".repeat(14);
    let news = "(let (new imm 0))\n".repeat(14);
    format!(
        "(kind (fields 0) (does 1 2))\n(thread)\n(let (new imm 0))\n(let (call 1 0 (read 1)))\n{}{}(give (read 1))\n\
         (method)\n{}(give (read 1))\n(method)\n{}(give (read 1))\n",
        "(let (call 1 1 (read 1)))\n".repeat(4),
        "(let (new imm 0))\n".repeat(4),
        calls,
        news
    )
}

fn case_j() -> Vec<Fixed> {
    let many = |count: usize| lets(&vec!["(new imm 0)"; count], "(read 1)");
    let field = |number: &str| lets(&[&format!("(field 0 {})", number)], "(read 0)");
    let moves = 1 + (1 + 14 * 16 + 1) + 4 * 16 + 3;
    let turns = |count: usize| " 0".repeat(count);
    vec![
        fixed("J, 15 lets", &many(15), "", "(end open 0)"),
        fixed("J, 16 lets", &many(16), "", "(refused 4 18)"),
        fixed("J, field 255", &field("255"), "", "(end open 0)"),
        fixed("J, field 256", &field("256"), "", "(refused 4 3)"),
        fixed("J, field 007", &field("007"), "", "(refused 3 3)"),
        fixed(
            "J, 256 objects",
            &many_objects(),
            &turns(moves),
            &format!("(end open {})", moves),
        ),
        fixed(
            "J, 257 objects",
            &many_objects(),
            &turns(moves + 1),
            &format!("(stopped 16 0 0 9 {})", moves),
        ),
    ]
}

/// Every number that boxrun can show and that the cases do not; 16 for frames and threads, as case J has it for objects.
fn numbers() -> Vec<Fixed> {
    let imm = |expr: &str| lets(&["(new imm 0)", expr], "(read 1)");
    let down = "(kind (fields 0) (does 1))\n(thread)\n(let (new imm 0))\n(let (call 1 0 (read 1)))\n(give (read 1))\n\
                (method)\n(let (call 0 0 (read 1)))\n(give (read 1))\n";
    let spawns = format!(
        "(thread)\n{}(give (read 1))\n",
        "(let (spawn 0))\n".repeat(15)
    );
    vec![
        fixed("2", "(thread)\n(give (Read 0))\n", "", "(refused 2 1)"),
        fixed("3", "(thread)\n(give  (read 0))\n", "", "(refused 3 1)"),
        fixed(
            "4",
            "(thread)\n(let (spawn 256))\n(give (read 0))\n",
            "",
            "(refused 4 1)",
        ),
        fixed("5", "(thread)\n(give (read 1))\n", "", "(refused 5 1)"),
        fixed(
            "6",
            &format!("{}(method)\n(give (take 0))\n", SMALL),
            "",
            "(refused 6 3)",
        ),
        fixed("7", "(thread)\n(let (read 0))\n", "", "(refused 7 2)"),
        fixed(
            "8",
            "(thread)\n(let (spawn 1))\n(give (read 0))\n",
            "",
            "(refused 8 1)",
        ),
        fixed("11", &imm("(field 1 0)"), " 0 0", "(stopped 11 0 0 1 1)"),
        fixed(
            "12",
            &imm("(call 1 0 (read 1))"),
            " 0 0",
            "(stopped 12 0 0 1 1)",
        ),
        fixed("13", &imm("(recv 1)"), " 0 0", "(stopped 13 0 0 1 1)"),
        fixed(
            "16, frames",
            down,
            &" 0".repeat(17),
            "(stopped 16 0 1 0 16)",
        ),
        fixed(
            "16, threads",
            &spawns,
            &format!("{} 1", " 0".repeat(15)),
            "(stopped 16 1 0 0 15)",
        ),
    ]
}

/// Thread 1 does the let, with an unsafe object in slot 1, thread 0's local, whose field holds an iso, in slot 2, and an iso object of its own
/// in slot 3.
fn beside_a_local(expr: &str) -> String {
    format!(
        "{}(kind (fields 1) (does 2))\n(thread)\n(let (spawn 1))\n(let (new iso 0))\n(let (new local 1 (take 2)))\n\
         (let (new unsafe 1 (read 3)))\n(let (send 1 (read 4)))\n(give (read 1))\n(thread)\n(let (recv 0))\n(let (field 1 0))\n\
         (let (new iso 0))\n(let {})\n(give (read 0))\n(method)\n(give (read 1))\n",
        KIND, expr
    )
}

/// Its turns, the let's last; eight move before it.
const BESIDE_A_LOCAL: &str = " 0 0 0 0 0 1 1 1 1";

/// Document 02, L5: lines whose permission check has one ground or two.
fn grounds() -> Vec<Fixed> {
    [
        (20, "(field 2 0)"),
        (20, "(swap 2 0 (read 1))"),
        (20, "(new iso 1 (read 2))"),
        (20, "(call 2 0 (read 1))"),
        (19, "(swap 2 0 (read 3))"),
        (19, "(call 2 0 (read 3))"),
        (14, "(new imm 1 (take 3))"),
        (14, "(send 0 (read 2))"),
    ]
    .into_iter()
    .map(|(number, expr)| {
        let first_line = format!("(stopped {} 1 1 3 8)", number);
        let name = format!("{} {}", number, expr);
        fixed(&name, &beside_a_local(expr), BESIDE_A_LOCAL, &first_line)
    })
    .collect()
}

/// Document 02, L6: the first line, and what is refused with it and without. The let stands at line 4, or at line 5 behind `(script 2)`.
fn editions() -> Vec<Fixed> {
    let copy = |line: &str| lets(&["(new imm 0)", line], "(read 1)");
    let first = |line: &str| format!("{}\n{}", line, SMALL);
    let mut all = vec![
        fixed("edition 2: A", &edition_2(A), " 0 0 0 1 0", "(end open 5)"),
        fixed("edition 2: B", &edition_2(""), "", "(refused 7 1)"),
        fixed(
            "edition 2: C",
            &edition_2(SMALL),
            " 0",
            "(stopped 10 0 0 0 0)",
        ),
        fixed(
            "edition 2: turns",
            &edition_2(SMALL),
            " 00",
            "(refused 3 3)",
        ),
        fixed(
            "edition 2: open",
            &edition_2("(thread)\n"),
            "",
            "(refused 7 2)",
        ),
        fixed(
            "edition 2: dangling",
            &edition_2("(thread)\n(let (spawn 1))\n(give (read 0))\n"),
            "",
            "(refused 8 2)",
        ),
        fixed(
            "copy in edition 1",
            &copy("(copy imm 1)"),
            "",
            "(refused 3 4)",
        ),
        fixed(
            "copy in edition 2",
            &edition_2(&copy("(copy imm 1)")),
            " 0 0",
            "(end open 2)",
        ),
        fixed(
            "script 2 at the end",
            &format!("{}(script 2)\n", SMALL),
            "",
            "(refused 3 2)",
        ),
        fixed(
            "script 2 twice",
            &edition_2(&first("(script 2)")),
            "",
            "(refused 3 1)",
        ),
    ];
    for (number, line) in [
        (3, "(copy iso 1)"),
        (3, "(copy iso 256)"),
        (3, "(copy imm (read 1))"),
        (4, "(copy imm 256)"),
        (5, "(copy imm 2)"),
        (5, "(copy imm 255)"),
    ] {
        let first_line = format!("(refused {} 5)", number);
        all.push(fixed(line, &edition_2(&copy(line)), "", &first_line));
    }
    for (number, line) in [
        (3, "(script 1)"),
        (3, "(script 02)"),
        (3, "(script 256)"),
        (3, "(script 2) "),
        (3, "(script)"),
        (2, "(script 2]"),
        (2, "(script 2)\r"),
    ] {
        let first_line = format!("(refused {} 0)", number);
        all.push(fixed(line, &first(line), "", &first_line));
    }
    all
}

/// The argument, copied and held beside its copy six times over: 127 objects, in 13 turns. Then the lets of the thread, with the 127 objects
/// below its slot 2.
fn beside_127(all: &[&str]) -> String {
    let mut method = String::from("(method)\n");
    for slot in [1, 3, 5, 7, 9, 11] {
        let lines = format!(
            "(let (copy unsafe {0}))\n(let (new unsafe 1 (read {0}) (read {1})))\n",
            slot,
            slot + 1
        );
        method.push_str(&lines);
    }
    let lets: String = all.iter().map(|expr| format!("(let {})\n", expr)).collect();
    edition_2(&format!(
        "(kind (fields 0) (does 1))\n(kind (fields 2) (does))\n(thread)\n(let (new unsafe 0))\n(let (call 1 0 (read 1)))\n{}\
         (give (read 2))\n{}(give (read 13))\n",
        lets, method
    ))
}

/// Document 02, L6: what a copy checks.
fn copies() -> Vec<Fixed> {
    let alone = |name: &str, all: &[&str], give: &str, first_line: &str| {
        let turns = " 0".repeat(all.len() + 1);
        fixed(
            &format!("copy: {}", name),
            &edition_2(&lets(all, give)),
            &turns,
            first_line,
        )
    };
    let foreign = |expr: &str, first_line: &str| {
        fixed(
            expr,
            &edition_2(&beside_a_local(expr)),
            BESIDE_A_LOCAL,
            first_line,
        )
    };
    let many = |name: &str, all: &[&str], first_line: &str| {
        let turns = " 0".repeat(15 + all.len());
        fixed(
            &format!("copy: {}", name),
            &beside_127(all),
            &turns,
            first_line,
        )
    };
    let ring = [
        "(new unsafe 0)",
        "(new unsafe 1 (read 1))",
        "(swap 2 0 (read 2))",
    ];
    vec![
        alone(
            "absent",
            &["(copy imm 0)"],
            "(read 1)",
            "(stopped 10 0 0 0 0)",
        ),
        alone(
            "a channel",
            &["(spawn 0)", "(copy imm 1)"],
            "(read 1)",
            "(stopped 13 0 0 1 1)",
        ),
        alone(
            "an iso",
            &["(new iso 0)", "(copy imm 1)"],
            "(take 1)",
            "(end finished 3)",
        ),
        alone(
            "an iso, read",
            &["(new iso 0)", "(copy imm 1)"],
            "(read 1)",
            "(stopped 19 0 0 2 2)",
        ),
        alone(
            "a ring",
            &[&ring[..], &["(copy imm 2)"]].concat(),
            "(read 4)",
            "(end finished 5)",
        ),
        alone(
            "a copy",
            &[&ring[..], &["(copy local 2)", "(copy imm 4)"]].concat(),
            "(read 5)",
            "(end finished 6)",
        ),
        foreign("(copy imm 1)", "(stopped 20 1 1 3 8)"),
        foreign("(copy unsafe 2)", "(stopped 20 1 1 3 8)"),
        foreign("(copy local 3)", "(end open 9)"),
        many(
            "256 objects",
            &["(new imm 0)", "(new imm 0)", "(copy imm 2)"],
            "(end open 18)",
        ),
        many(
            "257 objects",
            &["(new imm 0)", "(new imm 0)", "(new imm 0)", "(copy imm 2)"],
            "(stopped 16 0 0 5 18)",
        ),
        many(
            "twice",
            &["(copy local 2)", "(copy local 2)"],
            "(stopped 16 0 0 3 16)",
        ),
        many(
            "absent, few left",
            &["(copy imm 2)", "(copy imm 0)"],
            "(stopped 10 0 0 3 16)",
        ),
    ]
}

#[rustfmt::skip]
const BAD_TURNS: &[&str] = &[
    "", "(", ")", "()", "(turns", "(turns ", "(turns )", "(turns  0)", "(turns 0 )", "(turns 0", "(turns 0))", "(turns 00)", "(turns 01)",
    "(turns 007)", "(turns 1000)", "(turns 0256)", "(turns a)", "(turn 0)", "(turnss 0)", "turns 0", "(turns0)", "(turns (0))", "(turns 0) ",
    " (turns 0)", "(Turns 0)", "(turns 0;)", "(turns 0\t1)", "(turns 0\r)", "(turns -1)", "(turns 256 007)", "(turns 256 ?)", "(give (read 0))",
];

/// Faults of the turns line come before the script's, with their line in the input.
fn turns_lines() -> Vec<Fixed> {
    let bad_script = "(thread)\n(give (Read 0))\n";
    let named = |name: String, input: String, first_line: &str| Fixed {
        name,
        input: input.into_bytes(),
        first_line: first_line.to_string(),
    };
    let mut all = Vec::new();
    for line in BAD_TURNS {
        for script in [SMALL, bad_script] {
            all.push(named(
                format!("{:?}", line),
                format!("{}{}\n", script, line),
                "(refused 3 2)",
            ));
        }
        all.push(named(
            format!("{:?} alone", line),
            format!("{}\n", line),
            "(refused 3 0)",
        ));
    }
    for line in ["(turns 256)", "(turns 0 999 0)"] {
        all.push(named(
            line.to_string(),
            format!("{}{}\n", bad_script, line),
            "(refused 4 2)",
        ));
        all.push(named(
            format!("{} without LF", line),
            format!("{}{}", SMALL, line),
            "(refused 3 2)",
        ));
    }
    all.push(named(
        "without LF".to_string(),
        format!("{}(turns 0)", SMALL),
        "(refused 3 2)",
    ));
    all.push(named(
        "two LFs".to_string(),
        format!("{}(turns 0)\n\n", SMALL),
        "(refused 3 3)",
    ));
    all.push(named(
        "empty input".to_string(),
        String::new(),
        "(refused 3 0)",
    ));
    all.push(fixed("idle turns", SMALL, " 1 15 16 255", "(end open 0)"));
    all
}

fn long_inputs() -> Vec<Fixed> {
    let bytes = |byte: u8, length: usize, first_line: &str| Fixed {
        name: format!("{} bytes {}", length, byte),
        input: vec![byte; length],
        first_line: first_line.to_string(),
    };
    let turns = |last: &str| format!("{}{}", " 0".repeat(32_750), last);
    let mut all = vec![
        fixed("65,536 bytes", SMALL, &turns(" 10"), "(stopped 10 0 0 0 0)"),
        fixed("65,537 bytes", SMALL, &turns(" 100"), "(refused 1 0)"),
        fixed(
            "65,536 bytes, all idle",
            SMALL,
            &turns(" 10").replace(" 0", " 1"),
            "(end open 0)",
        ),
        fixed(
            "16,384 bytes of script",
            &longest_script(Edition::One),
            "",
            "(end open 0)",
        ),
        fixed(
            "16,385 bytes of script",
            &format!("{}\n", longest_script(Edition::One)),
            "",
            "(refused 1 0)",
        ),
        fixed(
            "16,384 bytes of edition 2",
            &longest_script(Edition::Two),
            "",
            "(end open 0)",
        ),
        fixed(
            "16,385 bytes of edition 2",
            &format!("{}\n", longest_script(Edition::Two)),
            "",
            "(refused 1 0)",
        ),
        fixed(
            "16,395 bytes of edition 2",
            &edition_2(&longest_script(Edition::One)),
            "",
            "(refused 1 0)",
        ),
        fixed(
            "a long script, bad turns",
            &format!("{}\n", longest_script(Edition::One)),
            " 007",
            "(refused 3 659)",
        ),
    ];
    for length in [MOST_INPUT + 1, MOST_INPUT + 2, 1_000_000] {
        all.push(bytes(b'\n', length, "(refused 1 0)"));
        all.push(bytes(0, length, "(refused 1 0)"));
    }
    all.push(bytes(b'\n', MOST_INPUT, "(refused 3 65535)"));
    all.push(bytes(0, MOST_INPUT, "(refused 3 0)"));
    all.push(bytes(b'(', MOST_TEXT + 1, "(refused 3 0)"));
    all
}

/// Files as people bring them: saved with CR LF, cut, without their line of turns, with lines too long to be shown and bytes of every sort.
fn worn() -> Vec<Fixed> {
    let worn = |name: &str, input: Vec<u8>, first_line: &str| Fixed {
        name: format!("worn: {}", name),
        input,
        first_line: first_line.to_string(),
    };
    let small = |last: &str| [SMALL, last].concat().into_bytes();
    let line = |bytes: &[u8]| [b"(thread)\n", bytes, b"\n(give (read 0))\n(turns 0)\n"].concat();
    let all_bytes: Vec<u8> = (0..=255).filter(|byte| *byte != b'\n').collect();
    let mut all = vec![
        worn(
            "all CR LF",
            [SMALL, "(turns)\n"]
                .concat()
                .replace('\n', "\r\n")
                .into_bytes(),
            "(refused 3 2)",
        ),
        worn(
            "the script CR LF",
            [&SMALL.replace('\n', "\r\n"), "(turns)\n"]
                .concat()
                .into_bytes(),
            "(refused 2 0)",
        ),
        worn("the turns CR LF", small("(turns 0)\r\n"), "(refused 3 2)"),
        worn("the turns CR", small("(turns 0)\r"), "(refused 3 2)"),
        worn("CR alone", b"\r".to_vec(), "(refused 3 0)"),
        worn("CR LF alone", b"\r\n".to_vec(), "(refused 3 0)"),
        worn("a line of CR", line(b"\r"), "(refused 2 1)"),
        worn("an empty line", line(b""), "(refused 3 1)"),
        worn("CR inside", line(b"(let\r(read 0))"), "(refused 2 1)"),
        worn("a script alone", A.as_bytes().to_vec(), "(refused 3 8)"),
        worn(
            "a script cut",
            small("(turns)\n")[..SMALL.len() - 1].to_vec(),
            "(refused 3 1)",
        ),
        worn("bytes of every sort", line(&all_bytes), "(refused 2 1)"),
        worn(
            "turns of every sort",
            small(&String::from_utf8_lossy(&all_bytes)),
            "(refused 3 2)",
        ),
    ];
    for length in [99, 100, 101, 102] {
        let long = vec![b'x'; length];
        let stray = [&long[..], b"\xff"].concat();
        let turns = [small("(turns "), long.clone(), b")\n".to_vec()].concat();
        all.push(worn(
            &format!("a line of {}", length),
            line(&long),
            "(refused 3 1)",
        ));
        all.push(worn(
            &format!("a stray byte at {}", length),
            line(&stray),
            "(refused 2 1)",
        ));
        all.push(worn(
            &format!("turns of {}", length),
            turns,
            "(refused 3 2)",
        ));
    }
    all
}

/// Inputs at their most or one past it once they are stripped, by their turns.
fn grown() -> Vec<Fixed> {
    let script = lets(&["(new imm 0)"], "(take 1)");
    let grows = "unsafe".len() - "imm".len();
    let of_length = |length: usize| {
        let room = length - script.len() - "(turns)\n".len();
        let turns = format!("{}{}", " 0".repeat(room / 2 - 1), &" 10"[..2 + room % 2]);
        fixed("save: grows", &script, &turns, "")
    };
    vec![
        of_length(MOST_INPUT - grows),
        of_length(MOST_INPUT + 1 - grows),
    ]
}

/// Texts to be saved, with a line of turns after them, and the refusal that is settled for each; with none, the input comes back.
pub fn saves() -> Vec<Fixed> {
    let text = |name: &str, text: String, first_line: &str| Fixed {
        name: format!("save: {}", name),
        input: format!("{}(turns 0 1 16 255)\n", text).into_bytes(),
        first_line: first_line.to_string(),
    };
    let longest = longest_script(Edition::One);
    let longest_2 = longest_script(Edition::Two);
    let copies =
        "(thread)\n(let (copy imm 0))\n(let (copy local 0))\n(let (copy unsafe 2))\n(give (read 3))\n";
    let every = "(kind (fields 4) (does 2 2 2 2))\n(thread)\n(let (read 0))\n(let (take 1))\n(let (field 2 0))\n(let (swap 3 10 (take 2)))\n\
                 (let (call 1 255 (read 4)))\n(let (new local 0 (read 1) (take 2) (read 3) (take 4)))\n(let (cast unsafe (take 5)))\n\
                 (let (spawn 1))\n(let (send 8 (take 6)))\n(let (recv 8))\n(give (take 10))\n(thread)\n(give (read 0))\n(method)\n(give (take 1))\n";
    let grows = longest.replacen("(swap 0 255 (read 0))", "(cast imm (read 0))", 1);
    let to_the_most = grows.replacen("(swap 0 255 (read 0))", "(swap 0 25 (read 0))", 1);
    let mut all = grown();
    all.extend([
        text("grows when stripped", grows, ""),
        text("grows to the most when stripped", to_the_most, ""),
        text("the shortest", SMALL.to_string(), ""),
        text("case A", A.to_string(), ""),
        text("every form", every.to_string(), ""),
        text("16,384 bytes", longest.clone(), ""),
        text("16,385 bytes", format!("{}\n", longest), "(refused 1 0)"),
        text("edition 2, the shortest", edition_2(SMALL), ""),
        text("edition 2, every form", edition_2(every), ""),
        text("edition 2, copies", edition_2(copies), ""),
        text("copies in edition 1", copies.to_string(), "(refused 3 1)"),
        text("edition 2, 16,384 bytes", longest_2.clone(), ""),
        text(
            "edition 2, 16,385 bytes",
            format!("{}\n", longest_2),
            "(refused 1 0)",
        ),
        text("edition 2, nothing else", edition_2(""), "(refused 7 1)"),
        text(
            "edition 2, without LF",
            "(script 2)".to_string(),
            "(refused 3 0)",
        ),
        text("a million bytes", "(".repeat(1_000_000), "(refused 1 0)"),
        text("nothing", String::new(), "(refused 7 0)"),
        text("one LF", "\n".to_string(), "(refused 3 0)"),
        text("16,384 LFs", "\n".repeat(MOST_TEXT), "(refused 3 0)"),
        text("without LF", SMALL.trim_end().to_string(), "(refused 3 1)"),
        text(
            "a line of turns",
            format!("{}(turns 0)\n", SMALL),
            "(refused 3 2)",
        ),
        text(
            "a stray byte",
            format!("{}(Thread)\n", SMALL),
            "(refused 2 2)",
        ),
        text("cut", A.replace("(give (take 1))\n", ""), "(refused 7 8)"),
    ]);
    all
}

/// All objects, each with all fields that it can have; and one of each capability.
fn drawings() -> Vec<Fixed> {
    let (script, turns) = longest_drawing();
    let each = [
        "(new imm 0)",
        "(new iso 0)",
        "(new local 0)",
        "(new unsafe 0)",
    ];
    vec![
        Fixed {
            name: "the longest drawing".to_string(),
            input: [script.into_bytes(), turns_text(&turns)].concat(),
            first_line: "(end finished 1499)".to_string(),
        },
        fixed(
            "each capability",
            &lets(&each, "(read 1)"),
            " 0 0 0 0",
            "(end open 4)",
        ),
    ]
}

/// Thread 0 makes a node and sends it to thread 1; then both swap this field of it, or hand it over once more in between.
fn sharing(field: usize, between: [&str; 2]) -> String {
    format!(
        "{}(kind (fields 4) (does))\n(thread)\n(let (new imm 0))\n(let (new unsafe 1{}))\n(let (spawn 1))\n(let (send 3 (read 2)))\n\
         (let (swap 2 {} (read 1)))\n{}(give (read 1))\n(thread)\n(let (recv 0))\n{}(let (swap 1 {} (read 1)))\n(give (read 1))\n",
        KIND,
        " (read 1)".repeat(4),
        field,
        between[0],
        between[1],
        field
    )
}

/// Runs with a race on each field, on the last object that there can be, and of the last turn that can be asked for; and runs without.
fn races() -> Vec<Fixed> {
    let start = " 0 0 0 0 1 0";
    let mut all: Vec<Fixed> = (0..4)
        .map(|field| {
            let name = format!("a race on field {}", field);
            let turns = format!("{} 0 1", start);
            fixed(&name, &sharing(field, ["", ""]), &turns, "(end open 8)")
        })
        .collect();
    let again = ["(let (send 3 (read 2)))\n", "(let (recv 0))\n"];
    let handed_over = format!("{} 0 0 1 1", start);
    all.push(fixed(
        "handed over",
        &sharing(0, again),
        &handed_over,
        "(end open 10)",
    ));
    for count in [1_024, 1_025] {
        let idle = " 2".repeat(count - 8);
        let turns = format!("{} 0{} 1", start, idle);
        let name = format!("{} turns, the last of which races", count);
        all.push(fixed(&name, &sharing(0, ["", ""]), &turns, "(end open 8)"));
    }
    let doubled: String = (1..15)
        .map(|slot| match slot % 2 {
            1 => format!("(let (copy unsafe {}))\n", slot),
            _ => format!("(let (new unsafe 1 (read {}) (read {})))\n", slot - 1, slot),
        })
        .collect();
    let last = format!(
        "(kind (fields 0) (does 2))\n(kind (fields 2) (does))\n(thread)\n(let (new unsafe 0))\n(let (call 1 0 (read 1)))\n\
         (let (new unsafe 1 (read 1) (read 2)))\n(let (spawn 1))\n(let (send 4 (read 3)))\n(let (swap 3 1 (read 1)))\n(give (read 1))\n\
         (thread)\n(let (recv 0))\n(let (swap 1 1 (read 1)))\n(give (read 1))\n(method)\n{}(give (read 15))\n",
        doubled
    );
    let turns = [&" 0".repeat(20), " 1 0 0 1"].concat();
    all.push(fixed(
        "a race on object 255",
        &edition_2(&last),
        &turns,
        "(end open 24)",
    ));
    all
}

pub fn all() -> Vec<Fixed> {
    let mut all = cases_a_to_i();
    all.extend(case_j());
    all.extend(numbers());
    all.extend(grounds());
    all.extend(editions());
    all.extend(copies());
    all.extend(turns_lines());
    all.extend(drawings());
    all.extend(races());
    all.extend(long_inputs());
    all.extend(worn());
    all
}
