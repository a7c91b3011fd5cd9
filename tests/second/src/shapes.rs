//! Special shapes that plain scripts seldom have: mosts reached and exceeded, frames, threads and
//! objects used up, answers on one channel, locals met by another thread, and long inputs.

use crate::copy_shapes;
use crate::graphs;
use crate::numbers::*;
use crate::random::Random;
use crate::reading::edition;
use crate::script::Edition;
use crate::turns::{list, rounds};

/// A script's text and its turns.
pub type Shape = (String, Vec<u8>);

pub fn shape(random: &mut Random) -> Shape {
    match random.weighted(&[5, 5, 6, 3, 6, 4, 4, 8, 14, 16, 5, 8, 8, 10, 12, 8, 9, 36]) {
        0 => many_kinds(random),
        1 => many_blocks(random),
        2 => many_slots(random),
        3 => many_lets(random),
        4 => many_operands(random),
        5 => many_fields(random),
        6 => many_methods(random),
        7 => dangling(random),
        8 => answers(random),
        9 => foreign_local(random),
        10 => objects_used_up(random),
        11 => threads_used_up(random),
        12 => frames_used_up(random),
        13 => local_to_a_full_channel(random),
        14 => graphs::woven(random),
        15 => graphs::deep(random),
        16 => graphs::crowded(random),
        _ => copy_shapes::shape(random),
    }
}

/// The same, now and then in the second edition if it is in the first.
pub fn in_some_edition(random: &mut Random, (text, turns): Shape) -> Shape {
    if edition(text.as_bytes()) == Edition::One && random.chance(25) {
        return ([Edition::Two.first_line(), &text].concat(), turns);
    }
    (text, turns)
}

const THREAD: &str = "(thread)\n(give (read 0))\n";
const METHOD: &str = "(method)\n(give (read 1))\n";

/// Lines, each with its LF.
fn lines(all: &[&str]) -> String {
    all.iter().map(|line| format!("{}\n", line)).collect()
}

/// Around a most: often just reached, often just exceeded.
fn around(random: &mut Random, most: usize) -> usize {
    random.between(most - 1, most + 2)
}

fn many_kinds(random: &mut Random) -> Shape {
    let kinds = "(kind (fields 0) (does))\n".repeat(around(random, MOST_KINDS));
    (
        format!("{}(thread)\n(let (new imm 31))\n(give (take 1))\n", kinds),
        list(random),
    )
}

fn many_blocks(random: &mut Random) -> Shape {
    let count = around(random, MOST_BLOCKS);
    let first = "(thread)\n(let (spawn 63))\n(let (spawn 1))\n(give (read 2))\n";
    (
        format!("{}{}", first, THREAD.repeat(count - 1)),
        list(random),
    )
}

fn many_slots(random: &mut Random) -> Shape {
    let kind = "(kind (fields 0) (does 1))\n";
    let thread = "(let (new imm 0))\n".repeat(random.between(12, 17));
    let method = "(let (read 1))\n".repeat(random.between(12, 16));
    let text = format!(
        "{}(thread)\n{}(give (read 1))\n(method)\n{}(give (read 0))\n",
        kind, thread, method
    );
    (text, list(random))
}

fn many_lets(random: &mut Random) -> Shape {
    let lets = around(random, MOST_LETS);
    let mut text = String::from("(kind (fields 0) (does))\n");
    for place in 0..lets {
        if place % 15 == 0 {
            text.push_str(if place == 0 {
                "(thread)\n"
            } else {
                "(give (read 0))\n(thread)\n"
            });
        }
        text.push_str("(let (new imm 0))\n");
    }
    text.push_str("(give (read 1))\n");
    (text, list(random))
}

fn many_operands(random: &mut Random) -> Shape {
    let count = random.between(3, 6);
    let values = " (read 1)".repeat(count);
    let kinds = format!(
        "(kind (fields 0) (does))\n(kind (fields {}) (does))\n",
        count.min(MOST_FIELDS)
    );
    let lines = format!(
        "(let (new imm 0))\n(let (new imm 1{}))\n(give (take 2))\n",
        values
    );
    (format!("{}(thread)\n{}", kinds, lines), list(random))
}

fn many_fields(random: &mut Random) -> Shape {
    let fields = random.between(3, 7);
    let number = if random.chance(20) {
        fields + 250
    } else {
        fields
    };
    (
        format!("(kind (fields {}) (does))\n{}", number, THREAD),
        list(random),
    )
}

fn many_methods(random: &mut Random) -> Shape {
    let does = " 1".repeat(random.between(3, 6));
    (
        format!("(kind (fields 0) (does{}))\n{}{}", does, THREAD, METHOD),
        list(random),
    )
}

/// Kinds and blocks named that are not there or not of the sort.
fn dangling(random: &mut Random) -> Shape {
    let does = random.below(4);
    let (first, second) = if random.chance(80) {
        (THREAD, METHOD)
    } else {
        (METHOD, THREAD)
    };
    let kind = random.below(3);
    let values = " (read 0)".repeat(random.below(3));
    let lets = format!(
        "(let (spawn {}))\n(let (new imm {}{}))\n",
        random.below(4),
        kind,
        values
    );
    let kinds = format!(
        "(kind (fields 0) (does {}))\n(kind (fields 1) (does))\n",
        does
    );
    let last = format!("(thread)\n{}(give (read 0))\n", lets);
    (
        format!("{}{}{}{}", kinds, first, second, last),
        list(random),
    )
}

/// Two threads that send and receive on one channel, so that an answer may come before the sender
/// has moved on; a short list ends there now and then.
fn answers(random: &mut Random) -> Shape {
    let mut client = String::from("(thread)\n(let (spawn 1))\n(let (new iso 0))\n");
    let mut server = String::from("(thread)\n");
    let (mut held, mut got) = (2, 0);
    let rounds = random.between(1, 5);
    for round in 0..rounds {
        client.push_str(&format!("(let (send 1 (take {})))\n(let (recv 1))\n", held));
        held = 4 + 2 * round;
        got = 1 + 2 * round;
        server.push_str(&format!("(let (recv 0))\n(let (send 0 (take {})))\n", got));
    }
    client.push_str(&format!("(give (take {}))\n", held));
    server.push_str(&format!("(give (read {}))\n", got + 1));
    let turns = if random.chance(80) {
        scattered(random, 2, (5, 60))
    } else {
        list(random)
    };
    (
        format!("(kind (fields 0) (does))\n{}{}", client, server),
        turns,
    )
}

fn scattered(random: &mut Random, threads: usize, (least, most): (usize, usize)) -> Vec<u8> {
    let length = random.between(least, most);
    (0..length).map(|_| random.below(threads) as u8).collect()
}

/// A local inside an unsafe object is sent to another thread, which then works on it.
fn foreign_local(random: &mut Random) -> Shape {
    let kinds = "(kind (fields 0) (does))\n(kind (fields 1) (does 2))\n";
    let own = lines(&[
        "(thread)",
        "(let (spawn 1))",
        "(let (new imm 0))",
        "(let (new local 1 (read 2)))",
        "(let (new unsafe 1 (read 3)))",
        "(let (send 1 (take 4)))",
        "(give (read 1))",
    ]);
    let works = [
        "(let (field 2 0))\n",
        "(let (swap 2 0 (read 4)))\n",
        "(let (call 2 0 (read 1)))\n",
        "(let (swap 1 0 (read 2)))\n",
        "(let (swap 3 0 (read 2)))\n",
        "(let (new unsafe 1 (read 2)))\n",
        "(let (new local 1 (read 2)))\n",
        "(let (send 0 (read 2)))\n",
        "(let (cast local (read 2)))\n",
        "(let (read 2))\n",
    ];
    let mut other = String::from("(thread)\n(let (recv 0))\n(let (field 1 0))\n");
    other.push_str("(let (new imm 0))\n(let (new local 1 (read 3)))\n");
    for _ in 0..random.between(1, 4) {
        other.push_str(works[random.below(works.len())]);
    }
    other.push_str("(give (read 2))\n(method)\n(give (read 1))\n");
    (
        format!("{}{}{}", kinds, own, other),
        scattered(random, 2, (20, 120)),
    )
}

/// The second thread holds a local for the channel that the first one has filled: guarded it would
/// stop, stripped it waits.
fn local_to_a_full_channel(random: &mut Random) -> Shape {
    let first =
        "(thread)\n(let (spawn 1))\n(let (new iso 0))\n(let (send 1 (take 2)))\n(give (read 1))\n";
    let second = "(thread)\n(let (new local 0))\n(let (send 0 (read 1)))\n(give (read 0))\n";
    let length = random.between(3, 8);
    let turns = (0..length)
        .map(|_| random.weighted(&[70, 30]) as u8)
        .collect();
    (
        format!("(kind (fields 0) (does))\n{}{}", first, second),
        turns,
    )
}

/// A chain of methods, each calling the next twice, the last making objects or only reading.
fn objects_used_up(random: &mut Random) -> Shape {
    let depth = random.between(4, 6);
    let made = if random.chance(80) {
        "(let (new imm 0))\n"
    } else {
        "(let (read 1))\n"
    };
    let cap = ["imm", "local", "unsafe"][random.below(3)];
    let mut does = String::new();
    let mut methods = String::new();
    for method in 0..MOST_METHODS {
        does.push_str(&format!(" {}", method + 1));
        let body = if method + 1 < MOST_METHODS {
            format!("(let (call 0 {} (read 1)))\n", method + 1).repeat(depth - 2)
        } else {
            made.repeat(depth)
        };
        methods.push_str(&format!("(method)\n{}(give (read 1))\n", body));
    }
    let kind = format!("(kind (fields 0) (does{}))\n", does);
    let first = lines(&[
        "(thread)",
        &format!("(let (new {} 0))", cap),
        "(let (call 1 0 (read 1)))",
        "(let (call 1 0 (read 1)))",
        "(give (read 1))",
    ]);
    (
        format!("{}{}{}", kind, first, methods),
        rounds(random.between(1, 2), 6000),
    )
}

/// Every thread spawns the first block again.
fn threads_used_up(random: &mut Random) -> Shape {
    let spawns = "(let (spawn 0))\n".repeat(random.between(1, 6));
    let turns = if random.chance(50) {
        rounds(MOST_THREADS, 200)
    } else {
        list(random)
    };
    (format!("(thread)\n{}(give (read 1))\n", spawns), turns)
}

/// A method that calls itself.
fn frames_used_up(random: &mut Random) -> Shape {
    let cap = ["imm", "iso", "local", "unsafe"][random.below(4)];
    let first = lines(&[
        "(thread)",
        &format!("(let (new {} 0))", cap),
        "(let (new imm 0))",
        "(let (call 1 0 (read 2)))",
        "(give (read 2))",
    ]);
    let method = "(method)\n(let (call 0 0 (read 1)))\n(give (read 2))\n";
    let turns = if random.chance(70) {
        rounds(1, 40)
    } else {
        list(random)
    };
    (
        format!("(kind (fields 0) (does 1))\n{}{}", first, method),
        turns,
    )
}

/// A script at or just past its most, by further blocks of long lines, some of which grow when they are stripped.
pub fn long_script(random: &mut Random) -> Shape {
    let mut text = String::from("(kind (fields 4) (does))\n(thread)\n(give (read 0))\n");
    let long = |cap: &str| {
        format!(
            "(let (new {} 0 (read 0) (read 0) (read 0) (read 0)))\n",
            cap
        )
    };
    while text.len() < MOST_TEXT - 700 {
        let cap = ["unsafe", "unsafe", "unsafe", "imm", "local"][random.below(5)];
        let lets = [long(cap), long("unsafe").repeat(8)].concat();
        text.push_str(&format!("(thread)\n{}(give (read 0))\n", lets));
    }
    while text.len() + THREAD.len() <= MOST_TEXT + random.below(40) {
        text.push_str(THREAD);
    }
    (text, rounds(2, 20))
}

/// A script of exactly 16,384 bytes: 18 kinds, 64 threads and 512 lets, the first of which have a
/// digit less to make room for the edition's line.
pub fn longest_script(edition: Edition) -> String {
    let shorter = 2 + edition.first_line().len();
    let mut text = edition.first_line().to_string();
    text.push_str(&"(kind (fields 0) (does))\n".repeat(18));
    for place in 0..MOST_LETS {
        if place % 8 == 0 {
            text.push_str("(thread)\n");
        }
        let field = if place < shorter { "25" } else { "255" };
        text.push_str(&format!("(let (swap 0 {} (read 0)))\n", field));
        if place % 8 == 7 {
            text.push_str("(give (read 0))\n");
        }
    }
    text
}

/// An input at or just past its most, by its turns.
pub fn long_turns(random: &mut Random) -> Shape {
    let text =
        "(kind (fields 0) (does))\n(thread)\n(let (new imm 0))\n(give (read 1))\n".to_string();
    let room = MOST_INPUT - text.len() - "(turns)\n".len();
    (text, rounds(2, room / 2 + random.below(2)))
}
