//! Tables written back to their texts, by the compiled box and by the second interpreter: a script's own table gives its text byte for byte,
//! any other words give the text that reads to them or 18, and every other lent byte stays as it was.

mod counts;

use second::generate;
use second::input;
use second::numbers::*;
use second::random::Random;
use second::script::Edition;
use second::writing::{self, Unwritten};

use crate::agree::same_words;
use crate::host::same;
use crate::lent::Part;
use crate::library::{self, bytes};
use crate::{full, runs, tables};

use counts::{Counts, Held};

/// What is lent to the writer: a table with these words, as far as it goes, and a buffer.
struct Lent {
    words: Vec<u16>,
    program: Part,
    script: Part,
}

impl Lent {
    fn of(mut words: Vec<u16>, program: Part, script: Part) -> Lent {
        words.truncate(program.words());
        Lent {
            program: program.with(&words),
            words,
            script,
        }
    }

    /// Of any length.
    fn old(random: &mut Random, words: Vec<u16>) -> Lent {
        let (program, script) = (
            Part::old(random, TABLE_WORDS),
            Part::old(random, MOST_TEXT / 2),
        );
        Lent::of(words, program, script)
    }

    fn set(&mut self, place: usize, word: u16) {
        self.words[place] = word;
        self.program.lend()[2 * place..2 * place + 2].copy_from_slice(&word.to_le_bytes());
    }
}

/// What both answer on one table, or how they differ.
fn one(lent: &Lent) -> Result<Result<Vec<u8>, Unwritten>, String> {
    let (mut program, mut script) = (lent.program.clone(), lent.script.clone());
    let ours = bytes::write(program.lend(), script.lend());
    let theirs = writing::write(&lent.words, lent.script.bytes().len());
    let length = theirs.as_ref().map(Vec::len);
    same(&ours, &length.map_err(|why| why.number()))?;
    program.same("the program table", &lent.program)?;
    match &theirs {
        Ok(text) => {
            script.same("the buffer", &lent.script.with_bytes(text))?;
            read_again(text, &lent.words)?;
        }
        Err(_) => script.same("the buffer", &lent.script)?,
    }
    Ok(theirs)
}

fn read_again(text: &[u8], words: &[u16]) -> Result<(), String> {
    let mut table = vec![u16::MAX; TABLE_WORDS];
    library::read(text, &mut table).map_err(|refusal| format!("what is written: {:?}", refusal))?;
    same_words("the table of what is written", &table, words)
}

/// A script that the box reads, and its table.
struct Script {
    text: Vec<u8>,
    words: Vec<u16>,
}

impl Script {
    fn read(text: Vec<u8>) -> Option<Script> {
        let mut words = vec![u16::MAX; TABLE_WORDS];
        library::read(&text, &mut words).ok()?;
        Some(Script { text, words })
    }

    /// Lends words and compares; a difference is told with how the words differ from the script's.
    fn held(&self, held: Held, lent: &Lent, counts: &mut Counts) -> Result<(), String> {
        let told = |fault| format!("box_write, {:?}{}: {}", held, self.unlike(lent), fault);
        let answer = one(lent).map_err(told)?;
        counts.add(held, lent, &answer);
        let own = answer == Err(Unwritten::Short) || answer.as_ref() == Ok(&self.text);
        if held == Held::Script && !own {
            return Err(told(format!("the script does not come back: {:?}", answer)));
        }
        Ok(())
    }

    /// The first words that are not the script's own.
    fn unlike(&self, lent: &Lent) -> String {
        let pairs = self.words.iter().zip(&lent.words).enumerate();
        let unlike = pairs.filter(|(_, (own, word))| own != word).take(4);
        unlike
            .map(|(place, (own, word))| format!(", word {} {} for {}", place, word, own))
            .collect()
    }
}

/// A script's table and what may come of it.
fn of_script(
    random: &mut Random,
    script: &Script,
    other: &Script,
    counts: &mut Counts,
) -> Result<(), String> {
    let many = random.between(3, 300);
    let lent = [
        (Held::Script, script.words.clone()),
        (Held::OneWord, tables::changed(random, &script.words, 1)),
        (Held::OneWord, tables::changed(random, &script.words, 1)),
        (Held::OneWord, tables::changed(random, &script.words, 1)),
        (Held::SomeWords, tables::changed(random, &script.words, 2)),
        (
            Held::SomeWords,
            tables::changed(random, &script.words, many),
        ),
        (
            Held::Mixed,
            tables::mixed(random, &script.words, &other.words),
        ),
        (Held::Any, tables::any(random)),
    ];
    for (held, words) in lent {
        script.held(held, &Lent::old(random, words), counts)?;
    }
    Ok(())
}

/// The state table that a run of the script leaves.
fn of_state(
    random: &mut Random,
    script: &Script,
    turns: &[u8],
    counts: &mut Counts,
) -> Result<(), String> {
    let (mut program, mut state) = (vec![0; TABLE_WORDS], vec![0; TABLE_WORDS]);
    match library::run(&script.text, turns, &mut program, &mut state) {
        Ok(_) => script.held(Held::State, &Lent::old(random, state), counts),
        Err(_) => Ok(()),
    }
}

/// Each of the 8,192 words changed in three ways or more.
fn each_word(random: &mut Random, script: &Script, counts: &mut Counts) -> Result<(), String> {
    let (program, buffer) = (
        Part::of(random, 2 * TABLE_WORDS),
        Part::of(random, MOST_TEXT),
    );
    let mut lent = Lent::of(script.words.clone(), program, buffer);
    for (place, word) in script.words.iter().enumerate() {
        for other in tables::other_words(*word) {
            lent.set(place, other);
            script.held(Held::EachWord, &lent, counts)?;
        }
        lent.set(place, *word);
    }
    Ok(())
}

/// The shortest script, one of copies, the first ones of the seed, and one that is as long as a text may be.
fn scripts_for_each_word(seed: u64) -> Vec<Script> {
    let firsts = (0..).filter_map(|n| {
        let input = generate::input(seed, n);
        let parts = input::parts(&input).ok()?;
        Script::read(parts.script.to_vec())
    });
    let copies =
        b"(script 2)\n(thread)\n(let (copy imm 0))\n(let (copy unsafe 1))\n(give (read 2))\n";
    let fixed = [
        b"(thread)\n(give (read 0))\n".to_vec(),
        copies.to_vec(),
        full::script(Edition::One, seed),
    ];
    let fixed = fixed.into_iter().filter_map(Script::read);
    firsts.take(3).chain(fixed).collect()
}

/// Many tables of a seed; the first difference, with its script.
pub fn many(seed: u64, count: u64) -> Result<Counts, (Vec<u8>, String)> {
    let mut counts = Counts::default();
    let mut random = Random::of(seed ^ 0x7772_6974, count);
    let mut other = None;
    for script in scripts_for_each_word(seed) {
        each_word(&mut random, &script, &mut counts)
            .map_err(|fault| (script.text.clone(), fault))?;
        other = Some(script);
    }
    for n in 0..count {
        let mut random = Random::of(seed ^ 0x7772_6974, n);
        let (text, turns) = runs::inputs(&mut random, seed, n);
        if let (Some(script), Some(before)) = (Script::read(text), &other) {
            of_script(&mut random, &script, before, &mut counts)
                .and_then(|()| of_state(&mut random, &script, &turns, &mut counts))
                .map_err(|fault| (script.text.clone(), fault))?;
            other = Some(script);
        }
    }
    Ok(counts)
}
