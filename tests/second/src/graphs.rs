//! Shapes of many objects: methods make nodes that hold each other, in chains, webs and rings, so
//! that a thread reaches far and through many frames. In the second edition they copy some too. And
//! one object that hundreds of places hold, and the longest drawing that there is.

use crate::numbers::{MOST_FIELDS, MOST_FRAMES};
use crate::random::Random;
use crate::script::Edition;
use crate::shapes::Shape;
use crate::turns::rounds;

/// All objects of a script have one capability, but for copies: which, how many fields a node has,
/// and how often a line is a swap or a copy.
struct Nodes {
    edition: Edition,
    cap: &'static str,
    fields: usize,
    swaps: usize,
    copies: usize,
}

fn nodes(random: &mut Random) -> Nodes {
    let cap = ["unsafe", "local", "imm"][random.weighted(&[70, 15, 15])];
    let swaps = [0, 10, 40][random.below(3)];
    let (edition, copies) = if random.chance(35) {
        (Edition::Two, [2, 10, 30][random.below(3)])
    } else {
        (Edition::One, 0)
    };
    Nodes {
        edition,
        cap,
        fields: random.between(1, MOST_FIELDS),
        swaps: if cap == "imm" { 0 } else { swaps },
        copies,
    }
}

impl Nodes {
    /// Lines of a method, and the slot of the last node: each node holds the one before it, the
    /// first the argument, and whatever else there is; swaps close rings. A copy, also of self, is
    /// imm or as the nodes are, so that a node may hold it.
    fn knots(&self, random: &mut Random, lines: usize) -> (String, usize) {
        let (mut text, mut last, mut made) = (String::new(), 1, Vec::new());
        for slot in 2..2 + lines {
            let any = |random: &mut Random| format!(" (read {})", random.between(1, slot - 1));
            match random.pick(&made) {
                Some(node) if random.chance(self.swaps) => {
                    let field = random.below(self.fields);
                    text.push_str(&format!("(let (swap {} {}{}))\n", node, field, any(random)));
                }
                _ if random.chance(self.copies) => {
                    let cap = ["imm", self.cap][random.below(2)];
                    text.push_str(&format!("(let (copy {} {}))\n", cap, random.below(slot)));
                }
                _ => {
                    let others: String = (1..self.fields).map(|_| any(random)).collect();
                    let new = format!("(let (new {} 1 (read {}){}))\n", self.cap, last, others);
                    text.push_str(&new);
                    last = slot;
                    made.push(slot);
                }
            }
        }
        (text, last)
    }

    /// The edition's line and both kinds: the first does the methods, and the second is the nodes'.
    fn head(&self, does: &str) -> String {
        format!(
            "{}(kind (fields 0) (does {}))\n(kind (fields {}) (does))\n",
            self.edition.first_line(),
            does,
            self.fields
        )
    }
}

/// Chains of nodes by two layers of calls, up to all objects that there can be; a second thread may
/// get a node and build on it.
pub fn woven(random: &mut Random) -> Shape {
    let nodes = nodes(random);
    let cap = nodes.cap;
    let (passed, threads) = if cap != "local" && random.chance(50) {
        ("(send 2 (read 3))", 2)
    } else {
        ("(read 3)", 1)
    };
    let first = format!(
        "(thread)\n(let (new {} 0))\n(let (spawn 1))\n(let (call 1 0 (read 1)))\n(let {})\n\
         (let (call 1 0 (read 3)))\n(let (call 1 0 (read 5)))\n(give (read 6))\n",
        cap, passed
    );
    let second = format!(
        "(thread)\n(let (recv 0))\n(let (new {} 0))\n(let (call 2 0 (read 1)))\n(give (read 3))\n",
        cap
    );
    let most = random.chance(40);
    let calls = if most { 14 } else { random.between(1, 14) };
    let chained: String = (1..=calls)
        .map(|slot| format!("(let (call 0 1 (read {})))\n", slot))
        .collect();
    let lines = if most { 14 } else { random.between(3, 14) };
    let (knots, last) = nodes.knots(random, lines);
    let methods = format!(
        "(method)\n{}(give (read {}))\n(method)\n{}(give (read {}))\n",
        chained,
        calls + 1,
        knots,
        last
    );
    let length = if most { 700 } else { random.between(20, 500) };
    let text = [nodes.head("2 3"), first, second, methods].concat();
    (text, rounds(threads, length))
}

/// A method that makes nodes and calls itself, so that each frame holds its own.
pub fn deep(random: &mut Random) -> Shape {
    let nodes = nodes(random);
    let first = format!(
        "(thread)\n(let (new {0} 0))\n(let (new {0} 0))\n(let (call 1 0 (take 2)))\n(give (read 1))\n",
        nodes.cap
    );
    let lines = random.between(1, 13);
    let (knots, last) = nodes.knots(random, lines);
    let word = ["read", "take"][random.below(2)];
    let method = format!(
        "(method)\n{}(let (call 0 0 ({} {})))\n(give (read 1))\n",
        knots, word, last
    );
    let turns = rounds(1, random.between(3, (lines + 1) * MOST_FRAMES + 6));
    ([nodes.head("1"), first, method].concat(), turns)
}

/// Two threads hold one object in slots of methods and in fields of nodes, hundreds of them; a swap
/// puts another object in its place, and back.
pub fn crowded(random: &mut Random) -> Shape {
    let cap = ["unsafe", "imm"][random.weighted(&[70, 30])];
    let fields = random.between(1, MOST_FIELDS);
    let held = " (read 1)".repeat(fields);
    let (mut lines, mut made) = (String::new(), Vec::new());
    for slot in 2..2 + random.between(3, 14) {
        let node = random.pick(&made).filter(|_| cap == "unsafe");
        let line = match (random.weighted(&[60, 20, 20]), node) {
            (1, _) => "(read 1)".to_string(),
            (2, Some(node)) => {
                let value = random.between(0, slot - 1);
                format!("(swap {} {} (read {}))", node, random.below(fields), value)
            }
            _ => {
                made.push(slot);
                format!("(new {} 1{})", cap, held)
            }
        };
        lines.push_str(&format!("(let {})\n", line));
    }
    let calls = "(let (call 0 1 (read 1)))\n".repeat(random.between(1, 14));
    let text = format!(
        "(kind (fields 0) (does 2 3))\n(kind (fields {}) (does))\n\
         (thread)\n(let (new {} 0))\n(let (spawn 1))\n(let (send 2 (read 1)))\n\
         (let (call 1 0 (read 1)))\n(give (take 4))\n\
         (thread)\n(let (recv 0))\n(let (call 1 0 (read 1)))\n(give (read 0))\n\
         (method)\n{}(give (read 1))\n(method)\n{}(give (read 1))\n",
        fields, cap, calls, lines
    );
    (text, rounds(2, random.between(40, 600)))
}

/// The calls of a method on self, each with what the one before it gave, the first with the argument.
fn calls_in_turn(method: usize, first: usize, count: usize) -> String {
    (first..first + count)
        .map(|slot| format!("(let (call 0 {} (read {})))\n", method, slot))
        .collect()
}

/// All objects that there can be, every one unsafe and, but for object 0, with four fields; at first
/// each holds the one before it. Then the objects are walked from the last to the first, and each
/// field is swapped to hold the last. No drawing is longer: a number of three digits stands wherever
/// one can, and object 0 has no fields in any run, since there is nothing yet to hold.
pub fn longest_drawing() -> Shape {
    let new = |held: usize| {
        format!(
            "(let (new unsafe 1{}))\n",
            format!(" (read {})", held).repeat(4)
        )
    };
    let method =
        |lets: String, given: usize| format!("(method)\n{}(give (read {}))\n", lets, given);
    // kind 0: 14 objects, and 14 times 14; kind 1: the fields of 3 objects, of 42, of all
    let made = method((1..15).map(new).collect(), 15);
    let many_made = method(calls_in_turn(0, 1, 14), 15);
    let swaps = |held: usize| -> String {
        let swap = |field| format!("(let (swap {} {} (read 0)))\n", held, field);
        (0..MOST_FIELDS).map(swap).collect()
    };
    let swapped = method([1, 2, 6].map(swaps).concat(), 10);
    let many_swapped = method(calls_in_turn(0, 1, 14), 15);
    let all_swapped = method([calls_in_turn(1, 1, 6), calls_in_turn(0, 7, 1)].concat(), 8);
    let thread = [
        "(thread)\n(let (new unsafe 0))\n(let (call 1 1 (read 1)))\n".to_string(),
        (2..6)
            .map(|slot| format!("(let (call 1 0 (read {})))\n", slot))
            .collect(),
        (6..9).map(new).collect(),
        "(let (call 9 2 (read 9)))\n(give (read 10))\n".to_string(),
    ];
    let text = [
        "(kind (fields 0) (does 1 2))\n(kind (fields 4) (does 3 4 5))\n",
        &thread.concat(),
        &made,
        &many_made,
        &swapped,
        &many_swapped,
        &all_swapped,
    ];
    (text.concat(), rounds(1, 1_499))
}
