//! Plausible scripts: kinds, threads and methods whose lines mostly name slots that should hold
//! what the line needs, so that runs go far; a few slips keep every stop within reach.

use crate::numbers::{MOST_FIELDS, MOST_METHODS, MOST_SLOTS};
use crate::random::Random;
use crate::script::{Cap, Edition, Sort};

/// What a slot should hold at its line.
#[derive(Clone, Copy, Debug, PartialEq, Eq)]
enum Guess {
    Absent,
    Channel,
    Object {
        cap: Option<Cap>,
        kind: Option<usize>,
    },
    Unknown,
}

/// The places of `new` and of `copy` among the forms.
const NEW: usize = 4;
const COPY: usize = 9;
const FORMS: usize = 10;

const ANY_OBJECT: Guess = Guess::Object {
    cap: None,
    kind: None,
};

struct PlannedKind {
    fields: usize,
    does: Vec<usize>,
}

/// The edition, the kinds and the sorts of the blocks, settled before any line is written.
struct Plan {
    edition: Edition,
    kinds: Vec<PlannedKind>,
    sorts: Vec<Sort>,
    slips: usize,
}

pub fn script(random: &mut Random) -> String {
    let plan = plan(random);
    let mut text = plan.edition.first_line().to_string();
    for kind in &plan.kinds {
        let does: String = kind
            .does
            .iter()
            .map(|block| format!(" {}", block))
            .collect();
        text.push_str(&format!("(kind (fields {}) (does{}))\n", kind.fields, does));
    }
    for block in 0..plan.sorts.len() {
        text.push_str(&block_text(random, &plan, block));
    }
    text
}

fn plan(random: &mut Random) -> Plan {
    let blocks = random.between(1, 7);
    let mut sorts = Vec::new();
    for block in 0..blocks {
        let thread = (block == 0 && !random.chance(1)) || random.chance(55);
        sorts.push(if thread { Sort::Thread } else { Sort::Method });
    }
    let kinds = 1 + random.below(4);
    let kinds = (0..kinds)
        .map(|place| planned_kind(random, &sorts, place))
        .collect();
    let slips = [0, 0, 1, 3, 10][random.below(5)];
    let edition = [Edition::One, Edition::Two][random.weighted(&[65, 35])];
    Plan {
        edition,
        kinds,
        sorts,
        slips,
    }
}

/// The first kind has no field, so that an object can be made from nothing.
fn planned_kind(random: &mut Random, sorts: &[Sort], place: usize) -> PlannedKind {
    let fields = if place == 0 {
        0
    } else {
        random.weighted(&[15, 45, 25, 10, 5])
    };
    let methods: Vec<usize> = (0..sorts.len())
        .filter(|block| sorts[*block] == Sort::Method)
        .collect();
    let mut does = Vec::new();
    let count = random.between(0, MOST_METHODS);
    for _ in 0..count.min(methods.len() * 2) {
        does.extend(random.pick(&methods));
    }
    PlannedKind {
        fields: fields.min(MOST_FIELDS),
        does,
    }
}

fn block_text(random: &mut Random, plan: &Plan, block: usize) -> String {
    let sort = plan.sorts[block];
    let guesses = match sort {
        Sort::Thread if block == 0 => vec![Guess::Absent],
        Sort::Thread => vec![Guess::Channel],
        Sort::Method => vec![
            Guess::Object {
                cap: None,
                kind: doer(plan, block),
            },
            Guess::Unknown,
        ],
    };
    let first = guesses.len();
    let mut writer = Writer {
        random,
        plan,
        block,
        sort,
        guesses,
        text: String::new(),
    };
    writer.text.push_str(if sort == Sort::Thread {
        "(thread)\n"
    } else {
        "(method)\n"
    });
    let least = if block == 0 { 2 } else { 0 };
    let lets = writer.random.between(least, MOST_SLOTS - first);
    for place in 0..lets {
        writer.let_line(place);
    }
    writer.give_line();
    writer.text
}

/// A kind that has the block as a method.
fn doer(plan: &Plan, block: usize) -> Option<usize> {
    plan.kinds
        .iter()
        .position(|kind| kind.does.contains(&block))
}

fn kind_in(guess: Guess) -> Option<usize> {
    match guess {
        Guess::Object { kind, .. } => kind,
        _ => None,
    }
}

struct Writer<'a> {
    random: &'a mut Random,
    plan: &'a Plan,
    block: usize,
    sort: Sort,
    guesses: Vec<Guess>,
    text: String,
}

impl<'a> Writer<'a> {
    fn let_line(&mut self, place: usize) {
        let weights = self.weights(place);
        let form = self.random.weighted(&weights);
        let line = self.attempt(form).or_else(|| self.attempt(NEW));
        let (expr, guess) = match line {
            Some(line) => line,
            None => self.fieldless(),
        };
        self.text.push_str(&format!("(let {})\n", expr));
        self.guesses.push(guess);
    }

    /// How often each form is tried. A thread opens with a spawn or a recv more often than not.
    fn weights(&self, place: usize) -> [usize; FORMS] {
        let mut weights = match (self.sort, place) {
            (Sort::Thread, 0) if self.block == 0 => [0, 0, 0, 0, 40, 0, 60, 0, 0, 0],
            (Sort::Thread, 0) => [5, 0, 0, 0, 35, 0, 10, 0, 50, 1],
            (Sort::Thread, _) => [6, 9, 11, 14, 22, 8, 6, 14, 10, 14],
            (Sort::Method, _) => [10, 14, 14, 6, 24, 8, 2, 12, 10, 14],
        };
        if self.plan.edition == Edition::One {
            weights[COPY] = 0;
        }
        weights
    }

    /// A line of the form, if there is a slot for each of its parts; else all guesses stand.
    fn attempt(&mut self, form: usize) -> Option<(String, Guess)> {
        let before = self.guesses.clone();
        let line = match form {
            0 => self.value(),
            1 => self.field(),
            2 => self.swap(),
            3 => self.call(),
            NEW => self.new_object(),
            5 => self.cast(),
            6 => self.spawn(),
            7 => self.send(),
            COPY => self.copy(),
            _ => self.recv(),
        };
        if line.is_none() {
            self.guesses = before;
        }
        line
    }

    fn give_line(&mut self) {
        let slot = self.slot(|guess| guess != Guess::Absent).unwrap_or(0);
        let (value, _) = self.operand(slot);
        self.text.push_str(&format!("(give {})\n", value));
    }

    fn slips(&mut self) -> bool {
        self.random.chance(self.plan.slips)
    }

    /// A slot whose guess is fit, or by a slip any slot, seldom one that is not filled.
    fn slot(&mut self, fit: impl Fn(Guess) -> bool) -> Option<usize> {
        if self.slips() {
            let filled = self.guesses.len();
            let unfilled = usize::from(self.random.chance(10));
            return Some(self.random.below(filled + unfilled));
        }
        let fits: Vec<usize> = (0..self.guesses.len())
            .filter(|slot| fit(self.guesses[*slot]))
            .collect();
        self.random.pick(&fits)
    }

    fn object_slot(&mut self) -> Option<usize> {
        self.slot(|guess| matches!(guess, Guess::Object { .. }))
    }

    fn channel_slot(&mut self) -> Option<usize> {
        self.slot(|guess| guess == Guess::Channel)
    }

    fn guess(&self, slot: usize) -> Guess {
        self.guesses.get(slot).copied().unwrap_or(Guess::Unknown)
    }

    /// A slot's value, taken when it may be an iso, and what is guessed of it.
    fn operand(&mut self, slot: usize) -> (String, Guess) {
        let guess = self.guess(slot);
        let may_take = self.sort == Sort::Thread || slot != 0 || self.slips();
        let percent = match guess {
            Guess::Object {
                cap: Some(Cap::Iso),
                ..
            } => 97,
            Guess::Object { cap: None, .. } | Guess::Unknown => 75,
            Guess::Object { .. } => 35,
            Guess::Absent | Guess::Channel => 15,
        };
        if may_take && self.random.chance(percent) {
            if let Some(place) = self.guesses.get_mut(slot) {
                *place = Guess::Absent;
            }
            return (format!("(take {})", slot), guess);
        }
        (format!("(read {})", slot), guess)
    }

    /// The same beside a target: the target's own slot is mostly read, since a take would empty it.
    fn operand_beside(&mut self, slot: usize, target: usize) -> (String, Guess) {
        if slot == target && !self.slips() {
            return (format!("(read {})", slot), self.guess(slot));
        }
        self.operand(slot)
    }

    fn cap(&mut self) -> Cap {
        Cap::ALL[self.random.weighted(&[22, 26, 20, 32])]
    }

    fn fieldless(&mut self) -> (String, Guess) {
        let cap = self.cap();
        let guess = Guess::Object {
            cap: Some(cap),
            kind: Some(0),
        };
        (format!("(new {} 0)", cap.word()), guess)
    }

    fn value(&mut self) -> Option<(String, Guess)> {
        let slot = self.slot(|guess| guess != Guess::Absent)?;
        Some(self.operand(slot))
    }

    /// A slot with an object of a kind that the test lets through.
    fn slot_of_kind(&mut self, fit: impl Fn(&PlannedKind) -> bool) -> Option<usize> {
        let plan = self.plan;
        self.slot(|guess| match guess {
            Guess::Object {
                kind: Some(kind), ..
            } => fit(&plan.kinds[kind]),
            _ => false,
        })
    }

    fn kind_of(&self, slot: usize) -> Option<&'a PlannedKind> {
        kind_in(self.guess(slot)).and_then(|kind| self.plan.kinds.get(kind))
    }

    /// A number under the count, or by a slip one that is not.
    fn place_of(&mut self, count: usize) -> usize {
        if count == 0 || self.slips() {
            return self.random.between(count, 255);
        }
        self.random.below(count)
    }

    fn field(&mut self) -> Option<(String, Guess)> {
        let target = self.slot_of_kind(|kind| kind.fields > 0)?;
        let fields = self.kind_of(target).map_or(1, |kind| kind.fields);
        let field = self.place_of(fields);
        Some((format!("(field {} {})", target, field), ANY_OBJECT))
    }

    fn swap(&mut self) -> Option<(String, Guess)> {
        let target = self.slot_of_kind(|kind| kind.fields > 0)?;
        let fields = self.kind_of(target).map_or(1, |kind| kind.fields);
        let field = self.place_of(fields);
        let most = match self.guess(target) {
            Guess::Object { cap: Some(cap), .. } => cap,
            _ => Cap::Unsafe,
        };
        let value = self.held_slot(most)?;
        let (value, _) = self.operand_beside(value, target);
        Some((format!("(swap {} {} {})", target, field, value), ANY_OBJECT))
    }

    /// A slot with an object that a holder of the capability may hold.
    fn held_slot(&mut self, most: Cap) -> Option<usize> {
        self.slot(|guess| match guess {
            Guess::Object { cap: Some(cap), .. } => !cap.above(most),
            Guess::Object { cap: None, .. } => most == Cap::Unsafe,
            _ => false,
        })
    }

    fn call(&mut self) -> Option<(String, Guess)> {
        let target = self.slot_of_kind(|kind| !kind.does.is_empty())?;
        let methods = self.kind_of(target).map_or(1, |kind| kind.does.len());
        let method = self.place_of(methods);
        let value = self.slot(|guess| guess != Guess::Absent)?;
        let (value, _) = self.operand_beside(value, target);
        Some((
            format!("(call {} {} {})", target, method, value),
            Guess::Unknown,
        ))
    }

    fn new_object(&mut self) -> Option<(String, Guess)> {
        let cap = self.cap();
        let kind = self.random.below(self.plan.kinds.len());
        let mut text = format!("(new {} {}", cap.word(), kind);
        for _ in 0..self.plan.kinds[kind].fields {
            let slot = self.held_slot(cap)?;
            let (value, _) = self.operand(slot);
            text.push_str(&format!(" {}", value));
        }
        text.push(')');
        Some((
            text,
            Guess::Object {
                cap: Some(cap),
                kind: Some(kind),
            },
        ))
    }

    fn cast(&mut self) -> Option<(String, Guess)> {
        let slot = self.object_slot()?;
        let cap = match self.guess(slot) {
            Guess::Object { cap: Some(cap), .. } if !self.random.chance(8) => cap,
            _ => self.cap(),
        };
        let (value, guess) = self.operand(slot);
        Some((
            format!("(cast {} {})", cap.word(), value),
            Guess::Object {
                cap: Some(cap),
                kind: kind_in(guess),
            },
        ))
    }

    /// Mostly of a later block, so that spawns seldom go round.
    fn spawn(&mut self) -> Option<(String, Guess)> {
        let later = if self.random.chance(90) {
            self.block + 1
        } else {
            0
        };
        let sorts = &self.plan.sorts;
        let threads: Vec<usize> = (later..sorts.len())
            .filter(|block| sorts[*block] == Sort::Thread)
            .collect();
        let block = self.random.pick(&threads)?;
        let block = if self.random.chance(1) {
            self.random.below(70)
        } else {
            block
        };
        Some((format!("(spawn {})", block), Guess::Channel))
    }

    fn send(&mut self) -> Option<(String, Guess)> {
        let target = self.channel_slot()?;
        let value = self.slot(|guess| match guess {
            Guess::Object { cap, .. } => cap != Some(Cap::Local),
            _ => false,
        })?;
        let (value, _) = self.operand(value);
        Some((format!("(send {} {})", target, value), Guess::Channel))
    }

    fn recv(&mut self) -> Option<(String, Guess)> {
        let target = self.channel_slot()?;
        Some((format!("(recv {})", target), ANY_OBJECT))
    }

    /// The slot keeps what it holds, and its copy is of the same kind. A copy to iso is malformed.
    fn copy(&mut self) -> Option<(String, Guess)> {
        let target = self.object_slot()?;
        let cap = Cap::ALL[self.random.weighted(&[30, 1, 24, 45])];
        Some((
            format!("(copy {} {})", cap.word(), target),
            Guess::Object {
                cap: Some(cap),
                kind: kind_in(self.guess(target)),
            },
        ))
    }
}
