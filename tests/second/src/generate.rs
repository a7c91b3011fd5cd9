//! Random inputs of boxrun: mostly plausible scripts, some special shapes, and some damage. The
//! n-th input of a seed is always the same.

use crate::damage::{change_number, damage};
use crate::plain;
use crate::random::Random;
use crate::shapes::{in_some_edition, long_script, long_turns, shape, Shape};
use crate::turns;

/// The n-th input of a seed.
pub fn input(seed: u64, n: u64) -> Vec<u8> {
    let mut random = Random::of(seed, n);
    let (script, turns) = whole(&mut random);
    let mut text = script.into_bytes();
    let mut last = turns_text(&turns);
    if random.chance(18) {
        damage(&mut random, &mut text);
    }
    match random.weighted(&[95, 3, 2]) {
        0 => {}
        1 => damage(&mut random, &mut last),
        _ => change_number(&mut random, &mut last),
    }
    text.extend(last);
    text
}

fn whole(random: &mut Random) -> Shape {
    let shape = match random.weighted(&[780, 215, 3, 2]) {
        0 => return (plain::script(random), turns::list(random)),
        1 => shape(random),
        2 => long_script(random),
        _ => long_turns(random),
    };
    in_some_edition(random, shape)
}

pub fn turns_text(turns: &[u8]) -> Vec<u8> {
    let numbers: String = turns.iter().map(|turn| format!(" {}", turn)).collect();
    format!("(turns{})\n", numbers).into_bytes()
}
