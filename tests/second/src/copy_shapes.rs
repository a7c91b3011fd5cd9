//! Shapes of copies, all in the second edition: graphs that grow by copies, with rings and shared
//! objects, up to all objects that there can be; graphs with a local of another thread in them; and
//! slots that hold no object.

use crate::random::Random;
use crate::script::Edition;
use crate::shapes::Shape;
use crate::turns::{list, rounds};

pub fn shape(random: &mut Random) -> Shape {
    let (text, turns) = match random.weighted(&[25, 20, 40, 15]) {
        0 => grown(random),
        1 => filled(random),
        2 => foreign(random),
        _ => wrong_slots(random),
    };
    ([Edition::Two.first_line(), &text].concat(), turns)
}

/// Objects without fields do both methods, blocks 2 and 3; nodes have one field or two.
const KINDS: &str =
    "(kind (fields 0) (does 2 3))\n(kind (fields 1) (does))\n(kind (fields 2) (does))\n";
const IDLE_THREAD: &str = "(thread)\n(give (read 0))\n";
const IDLE_METHOD: &str = "(method)\n(give (read 1))\n";

/// A method that builds a graph on its argument and gives its top. All its nodes have one
/// capability.
struct Builder {
    cap: &'static str,
    lines: Vec<String>,
    top: usize,
    fields: usize,
}

impl Builder {
    fn new(cap: &'static str) -> Self {
        Builder {
            cap,
            lines: Vec::new(),
            top: 1,
            fields: 0,
        }
    }

    /// Adds a line; the slot that it fills.
    fn line(&mut self, expr: String) -> usize {
        self.lines.push(format!("(let {})\n", expr));
        self.lines.len() + 1
    }

    /// What a node may hold.
    fn copy_cap(&self, random: &mut Random) -> &'static str {
        match self.cap {
            "unsafe" => ["imm", "local", "unsafe"][random.below(3)],
            cap => ["imm", cap][random.below(2)],
        }
    }

    /// A node that holds the top once or twice.
    fn wrap(&mut self, fields: usize) {
        let values = format!(" (read {})", self.top).repeat(fields);
        self.top = self.line(format!("(new {} {}{})", self.cap, fields, values));
        self.fields = fields;
    }

    /// The top, copied, and a node that holds both: n objects become 2 n + 1.
    fn double(&mut self, random: &mut Random) {
        let cap = self.copy_cap(random);
        let copy = self.line(format!("(copy {} {})", cap, self.top));
        let (first, second) = if random.chance(50) {
            (self.top, copy)
        } else {
            (copy, self.top)
        };
        self.top = self.line(format!(
            "(new {} 2 (read {}) (read {}))",
            self.cap, first, second
        ));
        self.fields = 2;
    }

    /// The top holds itself.
    fn close_ring(&mut self, random: &mut Random) {
        let field = random.below(self.fields);
        self.line(format!("(swap {0} {1} (read {0}))", self.top, field));
    }

    fn any_line(&mut self, random: &mut Random) {
        match random.weighted(&[45, 15, 15, 15, 10]) {
            0 => self.double(random),
            1 => self.wrap(1),
            2 => self.wrap(2),
            3 if self.fields > 0 && self.cap != "imm" => self.close_ring(random),
            _ => {
                let cap = self.copy_cap(random);
                self.line(format!("(copy {} {})", cap, random.below(self.top + 1)));
            }
        }
    }

    fn text(&self) -> String {
        format!(
            "(method)\n{}(give (read {}))\n",
            self.lines.concat(),
            self.top
        )
    }
}

/// A method of any lines, up to so many.
fn any_method(random: &mut Random, cap: &'static str, most: usize) -> String {
    let mut builder = Builder::new(cap);
    let lines = random.between(1, most);
    while builder.lines.len() < lines {
        builder.any_line(random);
    }
    builder.text()
}

/// A method that doubles its argument so many times: 3 objects, 7, 15, 31, 63, 127.
fn doubling_method(random: &mut Random, cap: &'static str, times: usize) -> String {
    let mut builder = Builder::new(cap);
    for _ in 0..times {
        builder.double(random);
    }
    builder.text()
}

/// Copies of the slots so far, among objects made anew.
fn copies_of_slots(random: &mut Random, mut slots: usize, lets: usize) -> String {
    let mut text = String::new();
    for _ in 0..lets {
        let cap = ["imm", "local", "unsafe"][random.below(3)];
        if random.chance(75) {
            text.push_str(&format!(
                "(let (copy {} {}))\n",
                cap,
                random.between(1, slots)
            ));
        } else {
            text.push_str(&format!("(let (new {} 0))\n", cap));
        }
        slots += 1;
    }
    text
}

/// A graph of any lines, then copied.
fn grown(random: &mut Random) -> Shape {
    let cap = ["imm", "local", "unsafe"][random.weighted(&[15, 25, 60])];
    let most = random.between(4, 13);
    let method = any_method(random, cap, most);
    let lets = random.between(1, 12);
    let copies = copies_of_slots(random, 2, lets);
    let first = format!(
        "(thread)\n(let (new {} 0))\n(let (call 1 0 (read 1)))\n{}(give (read 2))\n",
        cap, copies
    );
    let turns = if random.chance(80) {
        rounds(1, 40)
    } else {
        list(random)
    };
    let text = [KINDS, &first, IDLE_THREAD, &method, IDLE_METHOD].concat();
    (text, turns)
}

/// Doubled five or six times, a graph has 63 or 127 objects, and with some beside it the last copy
/// just fits, or lacks one.
fn filled(random: &mut Random) -> Shape {
    let (doublings, copies, beside) = [(5, 3, 4), (6, 1, 2)][random.below(2)];
    let cap = ["imm", "local", "unsafe"][random.below(3)];
    let method = doubling_method(random, cap, doublings);
    let copy_cap = ["imm", "local", "unsafe"][random.below(3)];
    let beside = random.between(beside - 1, beside + 1);
    let first = format!(
        "(thread)\n(let (new {0} 0))\n(let (call 1 0 (read 1)))\n{1}{2}(give (read 2))\n",
        cap,
        "(let (new imm 0))\n".repeat(beside),
        format!("(let (copy {} 2))\n", copy_cap).repeat(copies)
    );
    let text = [KINDS, &first, IDLE_THREAD, &method, IDLE_METHOD].concat();
    (text, rounds(1, 40))
}

/// The second thread copies a graph of the first, with a local in it or none, once it has built one
/// of its own, so that few objects may be left.
fn foreign(random: &mut Random) -> Shape {
    let seed = ["local", "imm"][random.weighted(&[80, 20])];
    let cap = ["local", "unsafe"][random.below(2)];
    let own = if random.chance(30) {
        doubling_method(random, cap, 6)
    } else {
        any_method(random, cap, 13)
    };
    let theirs = any_method(random, "unsafe", 13);
    let first = format!(
        "(thread)\n(let (spawn 1))\n(let (new {} 0))\n(let (call 2 0 (read 2)))\n\
         (let (new unsafe 1 (read 3)))\n(let (send 1 (read 4)))\n(give (read 1))\n",
        seed
    );
    let copy_cap = ["imm", "local", "unsafe"][random.below(3)];
    let copied = ["(field 3 0)", "(copy unsafe 1)"][random.below(2)];
    let second = format!(
        "(thread)\n(let (new unsafe 0))\n(let (call 1 1 (read 1)))\n(let (recv 0))\n(let {0})\n\
         (let (copy {1} {2}))\n(let (copy {1} 3))\n(give (read 3))\n",
        copied,
        copy_cap,
        2 + random.weighted(&[15, 30, 55])
    );
    let length = random.between(60, 140);
    (
        [KINDS, &first, &second, &own, &theirs].concat(),
        rounds(2, length),
    )
}

/// A channel, a taken slot, an iso object and the first thread's own absent slot.
fn wrong_slots(random: &mut Random) -> Shape {
    let mut text = String::from(
        "(kind (fields 0) (does))\n(thread)\n(let (spawn 0))\n(let (new iso 0))\n(let (take 2))\n",
    );
    for _ in 0..random.between(1, 4) {
        let cap = ["imm", "local", "unsafe"][random.below(3)];
        let slot = random.weighted(&[10, 15, 15, 60]);
        text.push_str(&format!("(let (copy {} {}))\n", cap, slot));
    }
    text.push_str("(give (take 3))\n");
    (text, list(random))
}
