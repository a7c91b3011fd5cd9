//! Many inputs of a seed, two at a time; the first difference, with its input.

use std::panic;
use std::thread;

use second::damage::damage;
use second::generate;
use second::random::Random;

const WORKERS: u64 = 2;

pub struct Difference {
    pub name: String,
    pub input: Vec<u8>,
    pub fault: String,
}

/// The n-th input of a seed: mostly one that the generator makes, some of these damaged once more, and some bytes of no form.
pub fn input(seed: u64, n: u64) -> Vec<u8> {
    let mut random = Random::of(seed ^ 0x626f_7872, n);
    let mut input = generate::input(seed, n);
    match random.weighted(&[92, 6, 2]) {
        0 => {}
        1 => damage(&mut random, &mut input),
        _ => input = (0..random.below(80)).map(|_| random.word() as u8).collect(),
    }
    input
}

/// The first inputs of a seed, each tried by `one`, which counts what came of it; the counts of each worker.
pub fn many<C: Default + Send>(
    seed: u64,
    count: u64,
    input: fn(u64, u64) -> Vec<u8>,
    one: impl Fn(&[u8], &mut C) -> Result<(), String> + Sync,
) -> Result<Vec<C>, Difference> {
    let part = |first: u64| {
        let mut counts = C::default();
        for n in (first..count).step_by(WORKERS as usize) {
            let input = input(seed, n);
            if let Err(fault) = one(&input, &mut counts) {
                let name = format!("input {} of seed {}", n, seed);
                return Err(Difference { name, input, fault });
            }
        }
        Ok(counts)
    };
    thread::scope(|scope| {
        let start = |first| scope.spawn(move || part(first));
        let workers: Vec<_> = (0..WORKERS).map(start).collect();
        let joined = workers.into_iter().map(|worker| worker.join());
        joined
            .map(|part| part.unwrap_or_else(|fault| panic::resume_unwind(fault)))
            .collect()
    })
}
