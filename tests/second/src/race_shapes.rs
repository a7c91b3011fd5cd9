//! Runs to ask for races: threads that share objects, send them on, read, swap and copy them without
//! any care; and threads that hand one object on with care, or nearly so. Most objects are unsafe.

use crate::numbers::*;
use crate::random::Random;
use crate::script::Edition;
use crate::shapes::Shape;
use crate::turns::rounds;

pub fn shape(random: &mut Random) -> Shape {
    let children = random.between(1, 3);
    let script = match random.weighted(&[60, 40]) {
        0 => shared(random, children),
        _ => handed_on(random, children),
    };
    (script, turns(random, children + 1))
}

/// Mostly so many turns that the threads get far; now and then as many as can be asked, one fewer or one more.
fn turns(random: &mut Random, threads: usize) -> Vec<u8> {
    let length = match random.weighted(&[92, 3, 3, 2]) {
        0 => random.between(8, 240),
        place => [MOST_RACE_TURNS - 1, MOST_RACE_TURNS, MOST_RACE_TURNS + 1][place - 1],
    };
    match random.weighted(&[30, 45, 20, 5]) {
        0 => rounds(threads, length),
        1 => (0..length).map(|_| random.below(threads) as u8).collect(),
        2 => {
            let mut turns = Vec::new();
            while turns.len() < length {
                let thread = random.below(threads) as u8;
                let times = random.between(1, 12);
                turns.extend(std::iter::repeat(thread).take(times));
            }
            turns.truncate(length);
            turns
        }
        _ => (0..length)
            .map(|_| random.below(threads + 2) as u8)
            .collect(),
    }
}

/// How many fields a node has, of which capability it is, and how often a line reads, swaps, copies, calls, sends or receives.
struct Habits {
    cap: &'static str,
    fields: usize,
    weights: [usize; 6],
}

fn habits(random: &mut Random, cap: &'static str) -> Habits {
    let swaps = [0, 6, 20, 40][random.weighted(&[10, 30, 30, 30])];
    let copies = [0, 4, 12][random.below(3)];
    let calls = [0, 8][random.below(2)];
    Habits {
        cap,
        fields: 1 + random.weighted(&[45, 30, 10, 15]),
        weights: [30, swaps, copies, calls, 5, 4],
    }
}

impl Habits {
    /// The kind of the leaves, and that of the nodes, which do the method of the last block.
    fn kinds(&self, blocks: usize) -> String {
        format!(
            "{}(kind (fields 0) (does))\n(kind (fields {}) (does {}))\n",
            Edition::Two.first_line(),
            self.fields,
            blocks
        )
    }

    /// It swaps a field of self for its argument, or reads one.
    fn method(&self, random: &mut Random) -> String {
        let field = random.below(self.fields);
        let line = if self.weights[1] > 0 {
            format!("(swap 0 {} (read 1))", field)
        } else {
            format!("(field 0 {})", field)
        };
        format!("(method)\n(let {})\n(give (read 1))\n", line)
    }

    fn node(&self, first: &str) -> String {
        let others = " (read 1)".repeat(self.fields - 1);
        format!("(new {} 1 {}{})", self.cap, first, others)
    }
}

/// The lines of a block so far, and the slots that should hold a channel, a node, or an object of any kind.
struct Block {
    lines: Vec<String>,
    channels: Vec<usize>,
    nodes: Vec<usize>,
    objects: Vec<usize>,
}

impl Block {
    fn new() -> Self {
        Block {
            lines: Vec::new(),
            channels: Vec::new(),
            nodes: Vec::new(),
            objects: Vec::new(),
        }
    }

    fn child() -> Self {
        let mut block = Block::new();
        block.channels.push(0);
        block
    }

    fn full(&self) -> bool {
        self.lines.len() + 1 >= MOST_SLOTS
    }

    /// Adds a line, if there is room; the slot that it fills.
    fn line(&mut self, expr: String) -> usize {
        if !self.full() {
            self.lines.push(format!("(let {})\n", expr));
        }
        self.lines.len()
    }

    fn node(&mut self, expr: String) -> usize {
        let slot = self.line(expr);
        self.nodes.push(slot);
        self.objects.push(slot);
        slot
    }

    fn object(&mut self, expr: String) -> usize {
        let slot = self.line(expr);
        self.objects.push(slot);
        slot
    }

    fn spawn(&mut self, block: usize) -> usize {
        let slot = self.line(format!("(spawn {})", block));
        self.channels.push(slot);
        slot
    }

    /// A read, a swap, a copy or a call on one of these nodes; what is put in is the leaf or another object.
    fn touch(&mut self, random: &mut Random, habits: &Habits, node: usize, value: &str) {
        let field = random.below(habits.fields);
        match random.weighted(&habits.weights[..4]) {
            0 => self.object(format!("(field {} {})", node, field)),
            1 => self.object(format!("(swap {} {} {})", node, field, value)),
            2 => self.line(format!("(copy imm {})", node)),
            _ => self.line(format!("(call {} 0 {})", node, value)),
        };
    }

    fn text(&self) -> String {
        format!("(thread)\n{}(give (read 0))\n", self.lines.concat())
    }
}

/// The first thread's block: it gives a slot that is never absent.
fn first_text(block: &Block) -> String {
    format!("(thread)\n{}(give (read 1))\n", block.lines.concat())
}

/// The first thread makes a leaf, a node that holds it and perhaps one that holds this; others are started, and all of them do whatever
/// they like with what they have.
fn shared(random: &mut Random, children: usize) -> String {
    let cap = ["unsafe", "imm", "local"][random.weighted(&[92, 5, 3])];
    let habits = habits(random, cap);
    let mut first = Block::new();
    first.object("(new imm 0)".to_string());
    let node = first.node(habits.node("(read 1)"));
    if random.chance(50) {
        first.node(habits.node(&format!("(read {})", node)));
    }
    // each of the others is started by the first thread, or by the one before it
    let by_first: Vec<bool> = (0..children)
        .map(|place| place == 0 || random.chance(65))
        .collect();
    for child in (1..=children).filter(|child| by_first[child - 1]) {
        start(random, &mut first, child);
    }
    let lines = random.between(0, 10);
    any_lines(random, &habits, &mut first, lines);
    let mut text = [habits.kinds(children + 1), first_text(&first)].concat();
    for number in 1..=children {
        let mut child = Block::child();
        child.node("(recv 0)".to_string());
        if by_first.get(number) == Some(&false) {
            start(random, &mut child, number + 1);
        }
        let lines = random.between(1, 12);
        any_lines(random, &habits, &mut child, lines);
        text.push_str(&child.text());
    }
    text.push_str(&habits.method(random));
    text
}

/// Starts a thread, and mostly sends it a node.
fn start(random: &mut Random, block: &mut Block, child: usize) {
    let channel = block.spawn(child);
    if random.chance(75) {
        if let Some(node) = random.pick(&block.nodes) {
            block.line(format!("(send {} (read {}))", channel, node));
        }
    }
}

fn any_lines(random: &mut Random, habits: &Habits, block: &mut Block, lines: usize) {
    for _ in 0..lines {
        let (node, channel) = match (random.pick(&block.nodes), random.pick(&block.channels)) {
            (Some(node), Some(channel)) => (node, channel),
            _ => return,
        };
        let any = random.pick(&block.objects).unwrap_or(node);
        match random.weighted(&habits.weights) {
            4 => {
                let mode = ["read", "take"][random.weighted(&[85, 15])];
                block.line(format!("(send {} ({} {}))", channel, mode, node));
            }
            5 => {
                block.node(format!("(recv {})", channel));
            }
            _ => block.touch(random, habits, node, &format!("(read {})", any)),
        }
    }
}

/// One node goes from the first thread to each child and back, taken by each send; now and then it is kept by a read, and touched after it
/// was sent. It may stand in a field of what is sent, and is then read out of it, or swapped out and in where it is iso.
fn handed_on(random: &mut Random, children: usize) -> String {
    let cap = ["unsafe", "iso"][random.weighted(&[70, 30])];
    let slips = if cap == "unsafe" {
        [0, 20, 70][random.weighted(&[30, 20, 50])]
    } else {
        0
    };
    let habits = habits(random, cap);
    let inside = random.chance(40);
    let mut first = Block::new();
    first.object("(new imm 0)".to_string());
    let node = first.node(habits.node("(read 1)"));
    let mut held = node;
    if inside {
        let mode = if cap == "iso" { "take" } else { "read" };
        held = first.node(habits.node(&format!("({} {})", mode, node)));
    }
    let channels: Vec<usize> = (1..=children).map(|child| first.spawn(child)).collect();
    for (place, channel) in channels.iter().enumerate() {
        for _ in 0..random.below(3) {
            first.touch(random, &habits, held, "(read 1)");
        }
        let kept = held;
        let mode = if random.chance(slips) { "read" } else { "take" };
        first.line(format!("(send {} ({} {}))", channel, mode, kept));
        if mode == "read" {
            for _ in 0..random.below(3) {
                first.touch(random, &habits, kept, "(read 1)");
            }
        }
        if place + 1 < children || random.chance(60) {
            held = first.node(format!("(recv {})", channel));
        }
    }
    let mut text = [habits.kinds(children + 1), first_text(&first)].concat();
    for _ in 0..children {
        text.push_str(&handed_child(random, &habits, inside, slips).text());
    }
    text.push_str(&habits.method(random));
    text
}

/// It receives, touches, and sends back what it got.
fn handed_child(random: &mut Random, habits: &Habits, inside: bool, slips: usize) -> Block {
    let mut child = Block::child();
    let got = child.node("(recv 0)".to_string());
    let leaf = child.object("(new imm 0)".to_string());
    let value = format!("(read {})", leaf);
    let mut touched = got;
    if inside && habits.cap == "iso" {
        touched = child.node(format!("(swap {} 0 {})", got, value));
    } else if inside {
        touched = child.node(format!("(field {} 0)", got));
    }
    for _ in 0..random.between(1, 4) {
        child.touch(random, habits, touched, &value);
    }
    if touched != got && habits.cap == "iso" {
        child.line(format!("(swap {} 0 (take {}))", got, touched));
    }
    let mode = if random.chance(slips) { "read" } else { "take" };
    child.line(format!("(send 0 ({} {}))", mode, got));
    if random.chance(slips) && (mode == "read" || touched != got) {
        child.touch(random, habits, touched, &value);
    }
    child
}
