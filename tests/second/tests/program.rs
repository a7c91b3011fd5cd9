//! The program `second` itself: standard input to standard output, and its other commands.

mod common;

use std::io::Write;
use std::process::{Command, Output, Stdio};

use common::*;
use second::generate;
use second::input::boxrun;
use second::sheet::checked;

fn second(arguments: &[&str], input: &[u8]) -> Output {
    let mut child = Command::new(env!("CARGO_BIN_EXE_second"))
        .args(arguments)
        .stdin(Stdio::piped())
        .stdout(Stdio::piped())
        .stderr(Stdio::piped())
        .spawn()
        .unwrap();
    let mut stdin = child.stdin.take().unwrap();
    let _ = stdin.write_all(input);
    drop(stdin);
    child.wait_with_output().unwrap()
}

const D: &str = "(kind (fields 0) (does))\n(thread)\n(let (new iso 0))\n(give (read 1))\n";

#[test]
fn standard_input_is_run() {
    let input = input(D, "0 0");
    let guarded = second(&[], input.as_bytes());
    assert!(guarded.status.success());
    assert_eq!(guarded.stdout, printed(D, "0 0").into_bytes());
    let stripped = second(&["--strip"], input.as_bytes());
    assert!(stripped.stdout.starts_with(b"(end finished 2)\n"));
}

#[test]
fn standard_input_is_checked_saved_stripped_reported_on_and_drawn() {
    let input = input(D, "0 0");
    let printed = |arguments: &[&str]| second(arguments, input.as_bytes()).stdout;
    assert_eq!(printed(&["check"]), checked(input.as_bytes()));
    assert_eq!(printed(&["save"]), input.as_bytes());
    assert_eq!(
        printed(&["strip"]),
        input.replace("iso", "unsafe").into_bytes()
    );
    assert_eq!(printed(&["reach", "0"]), b"(reached 0)\n");
    assert_eq!(printed(&["reach", "1"]), b"(refused 17 0)\n");
    let node = "  0 [label=\"0 iso\", shape=ellipse, fillcolor=palegreen];\n";
    let drawn = String::from_utf8(printed(&["draw"])).unwrap();
    assert_eq!(drawn.lines().nth(2), node.strip_suffix('\n'));
}

#[test]
fn long_standard_input_is_refused() {
    let mut input = input(D, "0 0").into_bytes();
    input.resize(65_537, b' ');
    assert_eq!(second(&[], &input).stdout, b"(refused 1 0)\n");
    input.resize(200_000, b' ');
    assert_eq!(second(&[], &input).stdout, b"(refused 1 0)\n");
}

#[test]
fn one_prints_the_generated_input() {
    for n in 0..20u64 {
        let one = second(&["one", "5", &n.to_string()], b"").stdout;
        assert_eq!(one, generate::input(5, n));
        assert_eq!(second(&[], &one).stdout, boxrun(&one));
    }
}

#[test]
fn generate_names_what_is_missing() {
    let poor = second(&["generate", "5", "1"], b"");
    assert!(!poor.status.success());
    assert!(String::from_utf8(poor.stderr)
        .unwrap()
        .starts_with("missing: "));
    let rich = second(&["generate", "5", "6000"], b"");
    assert!(rich.status.success());
    assert!(rich.stderr.is_empty());
}

#[test]
fn demand_3_is_counted() {
    let output = second(&["demand3", "5", "200"], b"");
    assert!(output.status.success());
    let text = String::from_utf8(output.stdout).unwrap();
    let words: Vec<&str> = text.lines().next().unwrap().split_whitespace().collect();
    assert_eq!(words, ["runs", "200"]);
}

#[test]
fn other_arguments_are_refused() {
    for arguments in [
        vec!["stripped"],
        vec!["reach"],
        vec!["reach", "x"],
        vec!["generate", "5"],
        vec!["one", "x", "1"],
        vec!["two", "1", "1"],
    ] {
        assert_eq!(
            second(&arguments, b"").status.code(),
            Some(2),
            "{:?}",
            arguments
        );
    }
}
