//! The drawing: a node for each object and an edge for each field that holds one, to the byte; what
//! is not drawn; its length; and its refusals.

mod common;

use common::*;
use second::drawing::{draw, drawing, Drawn};
use second::graphs::longest_drawing;
use second::input::drawn as printed_drawing;
use second::machine::End;
use second::numbers::Refusal;

/// The most bytes that docs/DRAWING.md says a drawing has.
const MOST: usize = 42_283;

fn drawn(script: &str, turns: &[u8]) -> Result<Drawn, Refusal> {
    draw(script.as_bytes(), turns, 8_192, 8_192, 65_536)
}

/// The text of a drawing between its first two lines and its last.
fn lines(script: &str, turns: &[u8]) -> Vec<String> {
    let text = drawn(script, turns).unwrap().text;
    let inside = text.strip_prefix("digraph objects {\n  node [style=filled];\n");
    let inside = inside.and_then(|rest| rest.strip_suffix("}\n"));
    let inside = inside.unwrap_or_else(|| panic!("no graph: {}", text));
    assert!(inside.is_empty() || inside.ends_with('\n'));
    inside.lines().map(str::to_string).collect()
}

/// The nodes' lines begin with a number and a bracket, the edges' with two numbers and an arrow.
fn edges(script: &str, turns: &[u8]) -> Vec<String> {
    let lines = lines(script, turns);
    let place = lines.iter().position(|line| line.contains("->"));
    lines[place.unwrap_or(lines.len())..].to_vec()
}

/// Objects 0 and 1 without fields, then `news`, each a let; the last line gives slot 1.
fn made(cap: &str, news: &[&str]) -> String {
    let object = format!("(let (new {} 0))", cap);
    let kinds = [
        "(kind (fields 0) (does))",
        "(kind (fields 1) (does))",
        "(kind (fields 4) (does))",
    ];
    let news: Vec<String> = news.iter().map(|new| format!("(let {})", new)).collect();
    let mut all = kinds.to_vec();
    all.extend(["(thread)", &object, &object]);
    all.extend(news.iter().map(String::as_str));
    all.push("(give (take 1))");
    text(&all)
}

/// The graph that the page shows is that of the example which it names.
#[test]
fn the_page_shows_a_drawing() {
    let page = include_str!("../../../docs/DRAWING.md");
    let example = include_bytes!("../../../examples/stale-write-back.box");
    let shown: String = page
        .lines()
        .skip_while(|line| !line.starts_with("    "))
        .take_while(|line| line.starts_with("    "))
        .map(|line| format!("{}\n", &line[4..]))
        .collect();
    let text = printed_drawing(example);
    assert_eq!(String::from_utf8(text).unwrap(), shown);
}

#[test]
fn without_an_object_the_graph_is_empty() {
    let empty = "digraph objects {\n  node [style=filled];\n}\n";
    assert_eq!(drawn(&case_a(), &[]).unwrap().text, empty);
    assert_eq!(drawn(&case_a(), &[0]).unwrap().text, empty);
    let threads = "(thread)\n(let (spawn 0))\n(give (read 1))\n";
    assert_eq!(drawn(threads, &[0, 1, 0]).unwrap().text, empty);
}

#[test]
fn a_node_tells_number_and_capability() {
    let script = text(&[
        "(kind (fields 0) (does))",
        "(thread)",
        "(let (new imm 0))",
        "(let (new iso 0))",
        "(let (new local 0))",
        "(let (new unsafe 0))",
        "(give (read 1))",
    ]);
    let nodes = [
        "  0 [label=\"0 imm\", shape=box, fillcolor=lightblue];",
        "  1 [label=\"1 iso\", shape=ellipse, fillcolor=palegreen];",
        "  2 [label=\"2 local\", shape=house, fillcolor=khaki];",
        "  3 [label=\"3 unsafe\", shape=octagon, fillcolor=salmon];",
    ];
    for count in 0..=4 {
        assert_eq!(lines(&script, &vec![0; count]), nodes[..count]);
    }
}

/// The kind and the creator are not told: both objects look alike.
#[test]
fn a_node_tells_nothing_else() {
    let script = text(&[
        "(kind (fields 0) (does))",
        "(kind (fields 0) (does))",
        "(thread)",
        "(let (spawn 1))",
        "(let (new imm 0))",
        "(give (read 1))",
        "(thread)",
        "(let (new imm 1))",
        "(give (read 1))",
    ]);
    let nodes = lines(&script, &[0, 0, 1]);
    assert_eq!(nodes.len(), 2);
    assert_eq!(nodes[0].replace('0', "1"), nodes[1]);
}

#[test]
fn an_edge_tells_the_number_of_its_field() {
    let script = made("imm", &["(new imm 2 (read 1) (read 2) (read 2) (read 1))"]);
    let expected = [
        "  2 -> 0 [label=\"0\"];",
        "  2 -> 1 [label=\"1\"];",
        "  2 -> 1 [label=\"2\"];",
        "  2 -> 0 [label=\"3\"];",
    ];
    assert_eq!(edges(&script, &[0; 3]), expected);
    assert_eq!(edges(&script, &[0; 2]), [""; 0]);
}

/// Object 0 is held by a field of each other; every holder has its edge.
#[test]
fn a_shared_target_has_an_edge_for_each_field() {
    let script = made(
        "imm",
        &[
            "(new imm 1 (read 1))",
            "(new local 1 (read 1))",
            "(new unsafe 1 (read 1))",
        ],
    );
    let expected = [
        "  2 -> 0 [label=\"0\"];",
        "  3 -> 0 [label=\"0\"];",
        "  4 -> 0 [label=\"0\"];",
    ];
    assert_eq!(edges(&script, &[0; 5]), expected);
}

/// All nodes come before all edges, by rising number; the edges by rising object, then field, not by
/// what they lead to.
#[test]
fn nodes_rise_and_edges_rise() {
    let script = made(
        "unsafe",
        &[
            "(new unsafe 2 (read 2) (read 1) (read 2) (read 1))",
            "(new unsafe 1 (read 3))",
            "(swap 3 2 (read 4))",
            "(new unsafe 0)",
            "(swap 3 0 (take 6))",
        ],
    );
    let starts: Vec<String> = lines(&script, &[0; 7])
        .iter()
        .map(|line| line.split(" [").next().unwrap_or("").trim().to_string())
        .collect();
    let expected = [
        "0", "1", "2", "3", "4", "2 -> 4", "2 -> 0", "2 -> 3", "2 -> 0", "3 -> 2",
    ];
    assert_eq!(starts, expected);
}

/// An object in its own field, and two that hold each other.
#[test]
fn rings_are_drawn() {
    let script = made(
        "unsafe",
        &[
            "(new unsafe 1 (read 1))",
            "(swap 3 0 (read 3))",
            "(new unsafe 1 (read 1))",
            "(new unsafe 1 (read 5))",
            "(swap 5 0 (read 6))",
        ],
    );
    let expected = [
        "  2 -> 2 [label=\"0\"];",
        "  3 -> 4 [label=\"0\"];",
        "  4 -> 3 [label=\"0\"];",
    ];
    assert_eq!(edges(&script, &[0; 7]), expected);
}

/// Nothing holds the two objects once the thread has finished.
#[test]
fn what_nothing_holds_is_drawn() {
    let script = made("imm", &[]);
    let before = lines(&script, &[0; 2]);
    assert_eq!(run_of(&script, &[0; 3]).end, End::Finished);
    assert_eq!(lines(&script, &[0; 3]), before);
    assert_eq!(before.len(), 2);
}

/// An object in a channel is drawn as it was in its slot; no edge leads to it, nor a node to it from a
/// thread or a channel.
#[test]
fn slots_and_messages_are_not_drawn() {
    let script = case_a();
    let node = ["  0 [label=\"0 iso\", shape=ellipse, fillcolor=palegreen];"];
    for turns in 2..=7 {
        assert_eq!(lines(&script, &[0, 0, 0, 1, 0, 1, 0][..turns]), node);
    }
}

/// The turn that stopped has made nothing and changed no field, nor have those after it.
#[test]
fn a_stopped_run_is_drawn_as_it_stands() {
    let script = made(
        "imm",
        &["(new imm 1 (read 1))", "(swap 3 0 (read 2))", "(new imm 0)"],
    );
    let before = drawn(&script, &[0; 3]).unwrap();
    assert_eq!(before.run.end, End::Open);
    for turns in 4..=9 {
        let stopped = drawn(&script, &vec![0; turns]).unwrap();
        assert!(matches!(stopped.run.end, End::Stopped(stop) if stop.number == 14));
        assert_eq!(stopped.text, before.text);
    }
    assert!(before.text.contains("  2 -> 0 [label=\"0\"];\n"));
}

/// Copies are objects like any other, and hold each other as their originals do.
#[test]
fn copies_are_drawn() {
    let script = made("local", &["(new unsafe 1 (read 2))", "(copy imm 3)"]);
    let lines = lines(&edition_2(&script), &[0; 4]);
    let expected = [
        "  0 [label=\"0 local\", shape=house, fillcolor=khaki];",
        "  1 [label=\"1 local\", shape=house, fillcolor=khaki];",
        "  2 [label=\"2 unsafe\", shape=octagon, fillcolor=salmon];",
        "  3 [label=\"3 imm\", shape=box, fillcolor=lightblue];",
        "  4 [label=\"4 imm\", shape=box, fillcolor=lightblue];",
        "  2 -> 1 [label=\"0\"];",
        "  3 -> 4 [label=\"0\"];",
    ];
    assert_eq!(lines, expected);
}

/// How many bytes the page says a drawing has at most, of which lines.
#[test]
fn the_page_has_the_most() {
    let page = include_str!("../../../docs/DRAWING.md").replace('\n', " ");
    for sentence in [
        "A line of an object has at most 61 bytes, a line of a field at most 26.",
        "a drawing has at most 42,283 bytes",
    ] {
        assert!(page.contains(sentence), "{}", sentence);
    }
    let frame = drawing(&run_of(&case_a(), &[]).state).len();
    assert_eq!(frame + 256 * 61 + 1_024 * 26, MOST);
}

/// All objects that there can be, and all fields but those of object 0, which has none. By digits: 10
/// numbers have one, 90 two and 156 three, and every edge leads to one of three.
#[test]
fn the_longest_drawing() {
    let (script, turns) = longest_drawing();
    let drawn = drawn(&script, &turns).unwrap();
    let moves = turns.len() as u32;
    assert_eq!((drawn.run.end, drawn.run.moves), (End::Finished, moves));
    let objects = &drawn.run.state.objects;
    assert_eq!(objects.len(), 256);
    assert!(objects[1..].iter().all(|object| object.fields.len() == 4));
    let of_digits = |digits: usize, count: usize| count * (55 + 2 * digits + 4 * (23 + digits));
    let longest = 43 + of_digits(1, 10) + of_digits(2, 90) + of_digits(3, 156) - 4 * 24;
    assert_eq!((drawn.text.len(), longest), (41_527, 41_527));
    assert!(drawn.text.len() <= MOST);
    let longest = |start: &str| {
        let lines = drawn.text.lines().filter(|line| line.starts_with(start));
        lines.map(|line| line.len() + 1).max()
    };
    assert_eq!(longest("  255 ["), Some(61));
    assert_eq!(longest("  255 ->"), Some(26));
}

#[test]
fn a_short_buffer_is_9_and_a_longer_one_is_well() {
    let script = case_a();
    let answer = |buffer| {
        let drawn = draw(script.as_bytes(), &[0, 0], 8_192, 8_192, buffer);
        drawn
            .map(|drawn| drawn.text.len())
            .map_err(|refusal| (refusal.number, refusal.line))
    };
    for short in [0, 1, 100, 42_283, 65_535] {
        assert_eq!(answer(short), Err((9, 0)));
    }
    for enough in [65_536, 65_537, 1 << 20, usize::MAX] {
        assert_eq!(answer(enough), Ok(100));
    }
}

/// 1, then 9 for tables and buffer alike, then those of the script.
#[test]
fn the_refusals_of_the_run() {
    let refused = |text: &str, turns: usize, lent: [usize; 3]| {
        let drawn = draw(text.as_bytes(), &vec![0; turns], lent[0], lent[1], lent[2]);
        drawn
            .map(|_| ())
            .map_err(|refusal| (refusal.number, refusal.line))
    };
    let full = [8_192, 8_192, 65_536];
    assert_eq!(refused(&"?".repeat(16_385), 0, [0; 3]), Err((1, 0)));
    assert_eq!(refused("?", 32_769, [0; 3]), Err((1, 0)));
    assert_eq!(refused("?", 0, [8_191, 8_192, 65_536]), Err((9, 0)));
    assert_eq!(refused("?", 0, [8_192, 8_191, 65_536]), Err((9, 0)));
    assert_eq!(refused("?", 0, [8_192, 8_192, 65_535]), Err((9, 0)));
    assert_eq!(refused("?", 0, full), Err((2, 0)));
    assert_eq!(refused("(thread)\n(let (read 0))\n", 0, full), Err((7, 2)));
    assert_eq!(
        refused("(thread)\n(let (spawn 1))\n(give (read 0))\n", 0, full),
        Err((8, 1))
    );
    assert_eq!(refused(&case_a(), 32_768, full), Ok(()));
}

/// As box draw prints them: the refusal's line in place of the graph, those of the line of turns too.
#[test]
fn an_input_that_is_refused_draws_nothing() {
    let printed = |input: &str| String::from_utf8(printed_drawing(input.as_bytes())).unwrap();
    assert_eq!(printed(""), "(refused 3 0)\n");
    assert_eq!(printed("(turns 256)\n"), "(refused 4 0)\n");
    assert_eq!(printed("(turns)\n"), "(refused 7 0)\n");
    assert_eq!(printed(&"(".repeat(65_537)), "(refused 1 0)\n");
    assert!(printed(&input(&case_a(), "0 0")).starts_with("digraph objects {\n"));
}
