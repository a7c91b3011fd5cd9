//! Races: what `box_race` answers, both tables, and every other byte that is lent. The second interpreter tries every pair of turns. A script
//! without the word unsafe must say no, whatever else there is to compare.

use second::machine::End;
use second::numbers::*;
use second::race_shapes;
use second::races::{deeds, has_the_word, judge, Deed, Judged, Race};
use second::random::Random;
use second::reading::read;

use crate::host::{self, same, Lent, Tables};
use crate::lent::Part;
use crate::library::bytes;
use crate::runs;

/// What was asked, and what came of it.
#[derive(Clone, Debug, Default)]
pub struct Counts {
    pub races: u64,
    pub none: u64,
    pub without_the_word: u64,
    pub stopped: u64,
    pub overlong: [u64; OVERLONG_LISTS.len()],
    pub refused: [u64; SHORT_TABLE as usize + 1],
}

/// Lists that are too long, by the tables that are lent with them.
const OVERLONG_LISTS: [&str; 2] = ["with full tables", "with a short table"];

impl Counts {
    pub fn rows(&self) -> Vec<(String, u64)> {
        let telling = [
            ("a race", self.races),
            ("no race", self.none),
            ("without the word unsafe", self.without_the_word),
            ("a stopped run", self.stopped),
        ];
        let mut rows: Vec<(String, u64)> = telling
            .iter()
            .map(|(name, count)| (name.to_string(), *count))
            .collect();
        for (name, count) in OVERLONG_LISTS.iter().zip(self.overlong) {
            rows.push((format!("over 1,024 turns, {}", name), count));
        }
        for number in OVERLONG..=SHORT_TABLE {
            rows.push((
                format!("refused {}", number),
                self.refused[usize::from(number)],
            ));
        }
        rows
    }

    fn add(&mut self, lent: &Lent, answer: &Result<Judged, Refusal>) {
        let (program, state) = lent.tables.words();
        let short = program.min(state) < TABLE_WORDS;
        match answer {
            Ok(judged) => {
                self.races += u64::from(judged.race.is_some());
                self.none += u64::from(judged.race.is_none());
                self.without_the_word += u64::from(!has_the_word(&lent.text));
                self.stopped += u64::from(matches!(judged.run.end, End::Stopped(_)));
            }
            Err(refusal) => self.refused[usize::from(refusal.number)] += 1,
        }
        if lent.turns.len() > MOST_RACE_TURNS {
            self.overlong[usize::from(short)] += 1;
        }
    }
}

/// One question, and every byte that was lent for it. `after` are the tables as box_run leaves them.
fn one(lent: &Lent, after: &Tables) -> Result<Result<Judged, Refusal>, String> {
    let (program, state) = lent.tables.words();
    let theirs = judge(&lent.text, &lent.turns, program, state);
    let mut tables = lent.tables.clone();
    let (program, state) = (tables.program.lend(), tables.state.lend());
    let ours = bytes::race(&lent.text, &lent.turns, program, state);
    let race = theirs.as_ref().map(|judged| judged.race);
    same(&ours, &race.map_err(|refusal| *refusal))?;
    tables.same(if theirs.is_ok() { after } else { &lent.tables })?;
    if matches!(ours, Ok(Some(_))) && !has_the_word(&lent.text) {
        return Err("a race without the word unsafe".to_string());
    }
    Ok(theirs)
}

/// Of any run.
pub fn of_run(lent: &Lent, after: &Tables, counts: &mut Counts) -> Result<(), String> {
    let answer = one(lent, after).map_err(|fault| format!("box_race: {}", fault))?;
    counts.add(lent, &answer);
    Ok(())
}

/// What came of runs that often have a race.
#[derive(Clone, Debug, Default)]
pub struct Shared {
    pub all: Counts,
    pub pairs: [u64; PAIRS.len()],
    pub fields: [u64; MOST_FIELDS],
    pub handed_over: u64,
    pub handed_over_without_the_word: u64,
    pub lists: [u64; LENGTHS.len()],
}

/// Whether each of the turns that race swaps, reads one field, or copies.
const PAIRS: [(&str, &str); 5] = [
    ("swap", "swap"),
    ("swap", "field"),
    ("swap", "copy"),
    ("field", "swap"),
    ("copy", "swap"),
];

const LENGTHS: [usize; 3] = [MOST_RACE_TURNS - 1, MOST_RACE_TURNS, MOST_RACE_TURNS + 1];

/// The refusals that such runs can have: their scripts are all read.
const REFUSALS: [u8; 2] = [OVERLONG, SHORT_TABLE];

impl Shared {
    pub fn rows(&self) -> Vec<(String, u64)> {
        let refused = |name: &str| name.strip_prefix("refused ").map(str::to_string);
        let can_be = |name: &str| match refused(name) {
            Some(number) => REFUSALS.iter().any(|other| other.to_string() == number),
            None => true,
        };
        let mut rows = self.all.rows();
        rows.retain(|(name, _)| can_be(name));
        let pairs = PAIRS.iter().zip(self.pairs);
        rows.extend(
            pairs.map(|((first, second), count)| (format!("{}, then {}", first, second), count)),
        );
        let fields = self.fields.iter().enumerate();
        rows.extend(fields.map(|(field, count)| (format!("a race on field {}", field), *count)));
        rows.push((
            "no race, but for a message one".to_string(),
            self.handed_over,
        ));
        rows.push((
            "the same, without the word".to_string(),
            self.handed_over_without_the_word,
        ));
        for (length, count) in LENGTHS.iter().zip(self.lists) {
            rows.push((format!("lists of {}", length), count));
        }
        rows
    }

    /// What no run had; and an answer that fewer than a fifth of them have.
    pub fn missing(&self) -> Vec<String> {
        let asked = self.all.races + self.all.none;
        let mut missing = runs::zeros(self.rows());
        for (name, count) in [("a race", self.all.races), ("no race", self.all.none)] {
            if 5 * count < asked {
                missing.push(format!("{} in a fifth of the runs", name));
            }
        }
        missing
    }

    fn add(&mut self, lent: &Lent, answer: &Result<Judged, Refusal>) {
        self.all.add(lent, answer);
        let length = LENGTHS
            .iter()
            .position(|length| *length == lent.turns.len());
        if let Some(place) = length {
            self.lists[place] += 1;
        }
        let (program, judged) = match (read(&lent.text), answer) {
            (Ok(program), Ok(judged)) => (program, judged),
            _ => return,
        };
        let deeds = deeds(&program, &lent.turns);
        match judged.race {
            Some(race) => self.add_race(&deeds, race),
            None if would_race(&deeds) => {
                self.handed_over += 1;
                self.handed_over_without_the_word += u64::from(!has_the_word(&lent.text));
            }
            None => {}
        }
    }

    fn add_race(&mut self, deeds: &[Deed], race: Race) {
        let pair = (told(&deeds[race.first]), told(&deeds[race.second]));
        if let Some(place) = PAIRS.iter().position(|other| *other == pair) {
            self.pairs[place] += 1;
        }
        self.fields[usize::from(race.field)] += 1;
    }
}

/// A copy reads as many fields as it meets; one that meets a single field counts as a read of it.
fn told(deed: &Deed) -> &'static str {
    match (deed.swaps, deed.reads.len()) {
        (Some(_), _) => "swap",
        (None, 1) => "field",
        (None, _) => "copy",
    }
}

/// The same turns if no message were received.
fn would_race(deeds: &[Deed]) -> bool {
    let mut alone = deeds.to_vec();
    for deed in &mut alone {
        deed.received.clear();
    }
    let mut races = second::races::races(&alone);
    races.next().is_some()
}

/// The n-th run of a seed.
fn lent(random: &mut Random) -> Lent {
    let (text, turns) = race_shapes::shape(random);
    Lent {
        text: text.into_bytes(),
        turns,
        tables: Tables {
            program: Part::old(random, TABLE_WORDS),
            state: Part::old(random, TABLE_WORDS),
        },
        list: Part::of(random, 0),
    }
}

/// Many runs of a seed that share objects and hand them on; the first difference, with its script and its turns.
pub fn many(seed: u64, count: u64) -> Result<Shared, (Vec<u8>, String)> {
    let mut counts = Shared::default();
    let mut answers = runs::Answers::default();
    for n in 0..count {
        let mut random = Random::of(seed ^ 0x7261_6365, n);
        let lent = lent(&mut random);
        let answer = host::run(&lent, &mut answers)
            .map_err(|fault| format!("box_run: {}", fault))
            .and_then(|after| one(&lent, &after).map_err(|fault| format!("box_race: {}", fault)));
        match answer {
            Ok(answer) => counts.add(&lent, &answer),
            Err(fault) => return Err((runs::shown(lent.text, &lent.turns), fault)),
        }
    }
    Ok(counts)
}
