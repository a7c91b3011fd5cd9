//! A script that is as long as a text may be: every count at its most, every form of a line that its edition has.

use second::numbers::*;
use second::random::Random;
use second::script::Edition;

const SHORTEST: &str = "(let (read 0))\n";

fn operand(random: &mut Random, slots: usize) -> String {
    format!("(read {})", random.below(slots))
}

fn kind_line(random: &mut Random, methods: usize) -> String {
    let blocks: String = (0..random.below(MOST_METHODS + 1))
        .map(|_| format!(" {}", MOST_BLOCKS - 1 - random.below(methods)))
        .collect();
    format!(
        "(kind (fields {}) (does{}))\n",
        random.below(MOST_FIELDS + 1),
        blocks
    )
}

/// The forms of a let; the last, a copy, is the second edition's alone.
fn forms(edition: Edition) -> usize {
    match edition {
        Edition::One => 9,
        Edition::Two => 10,
    }
}

fn let_line(
    random: &mut Random,
    forms: usize,
    slots: usize,
    threads: usize,
    fields: &[usize],
) -> String {
    let slot = random.below(slots);
    let value = operand(random, slots);
    let cap = random
        .pick(&["imm", "iso", "local", "unsafe"])
        .unwrap_or("imm");
    let expression = match random.below(forms) {
        0 => value,
        1 => format!("(field {} {})", slot, random.below(256)),
        2 => format!("(swap {} {} {})", slot, random.below(4), value),
        3 => format!("(call {} {} {})", slot, random.below(4), value),
        4 => format!("(cast {} {})", cap, value),
        5 => format!("(spawn {})", random.below(threads)),
        6 => format!("(send {} {})", slot, value),
        7 => format!("(recv {})", slot),
        9 => {
            let cap = if cap == "iso" { "imm" } else { cap };
            format!("(copy {} {})", cap, slot)
        }
        _ => {
            let kind = random.below(fields.len());
            let values: String = (0..fields[kind])
                .map(|_| format!(" {}", operand(random, slots)))
                .collect();
            format!("(new {} {}{})", cap, kind, values)
        }
    };
    format!("(let {})\n", expression)
}

/// An accepted script of exactly 16,384 bytes.
pub fn script(edition: Edition, seed: u64) -> Vec<u8> {
    let mut random = Random::of(seed, 0);
    let (threads, methods) = (MOST_BLOCKS / 2, MOST_BLOCKS / 2);
    let lets = MOST_LETS / MOST_BLOCKS;
    let kinds: Vec<String> = (0..MOST_KINDS)
        .map(|_| kind_line(&mut random, methods))
        .collect();
    let fields: Vec<usize> = kinds
        .iter()
        .map(|line| usize::from(line.as_bytes()["(kind (fields ".len()] - b'0'))
        .collect();
    let mut lines = vec![SHORTEST.to_string(); MOST_LETS];
    let frames = MOST_BLOCKS * ("(thread)\n(give (read 0))\n".len());
    let first_line = edition.first_line();
    let heads: usize = first_line.len() + kinds.iter().map(String::len).sum::<usize>();
    let mut left = MOST_TEXT - heads - frames - MOST_LETS * SHORTEST.len();
    // longer lines, until what is left is what one field's number can fill
    while left > 5 {
        let place = 1 + random.below(MOST_LETS - 1);
        let slots = place % lets + 1;
        let line = let_line(&mut random, forms(edition), slots, threads, &fields);
        let old = lines[place].len();
        if line.len() > old && line.len() - old + 3 <= left {
            left -= line.len() - old;
            lines[place] = line;
        }
    }
    lines[0] = format!("(let (field 0 {}))\n", [0, 10, 100][left - 3]);
    let mut text = [first_line, &kinds.concat()].concat();
    for block in 0..MOST_BLOCKS {
        text.push_str(if block < threads {
            "(thread)\n"
        } else {
            "(method)\n"
        });
        text.push_str(&lines[block * lets..(block + 1) * lets].concat());
        text.push_str("(give (read 0))\n");
    }
    text.into_bytes()
}
