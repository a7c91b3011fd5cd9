//! Loads that a turn's time is measured on: scripts that keep moving through their list of turns.

use crate::numbers::{MOST_THREADS, MOST_TURNS};
use crate::random::Random;
use crate::script::Edition;
use crate::turns::rounds;

/// A script and its turns. The first ones, so many as `before` says, only lead up to those that are measured.
pub struct Load {
    pub name: &'static str,
    pub text: Vec<u8>,
    pub turns: Vec<u8>,
    pub before: usize,
}

fn lines(lets: &[String]) -> String {
    lets.iter()
        .map(|expr| format!("(let {})\n", expr))
        .collect()
}

fn strings(lets: &[&str]) -> Vec<String> {
    lets.iter().map(|expr| expr.to_string()).collect()
}

fn thread(lets: &[&str], give: &str) -> String {
    format!("(thread)\n{}(give {})\n", lines(&strings(lets)), give)
}

fn method(lets: &[String], give: &str) -> String {
    format!("(method)\n{}(give {})\n", lines(lets), give)
}

/// Four methods of one kind: the first does the work, each other calls the one before it thirteen times, so that the last takes more
/// turns than a list has. `operand` gives the argument from the slot of the call before.
fn tower(work: &[String], give: &str, operand: fn(usize) -> String) -> String {
    let mut text = method(work, give);
    for below in 0..3 {
        let calls: Vec<String> = (1..14)
            .map(|slot| format!("(call 0 {} {})", below, operand(slot)))
            .collect();
        text.push_str(&method(&calls, &operand(14)));
    }
    text
}

/// Two threads hand one iso object to and fro over one channel.
fn ping_pong() -> Load {
    let kinds = "(kind (fields 0) (does))\n(kind (fields 0) (does 2 3 4 5))\n";
    let first = thread(
        &[
            "(spawn 1)",
            "(new iso 0)",
            "(send 1 (take 2))",
            "(new local 1)",
            "(call 4 3 (read 1))",
        ],
        "(read 1)",
    );
    let second = thread(&["(new local 1)", "(call 1 3 (read 0))"], "(read 0)");
    let work: Vec<String> = (1..7)
        .flat_map(|n| ["(recv 1)".to_string(), format!("(send 1 (take {}))", n * 2)])
        .collect();
    let calls = tower(&work, "(read 1)", |_| "(read 1)".to_string());
    Load {
        name: "iso ping-pong",
        text: [kinds, &first, &second, &calls].concat().into_bytes(),
        turns: rounds(2, MOST_TURNS),
        before: 0,
    }
}

/// Fields swapped and read: the argument goes through both fields of self.
fn swaps() -> Vec<String> {
    (1..13)
        .map(|slot| match slot % 4 {
            0 => format!("(field 0 {})", slot / 4 % 2),
            _ => format!("(swap 0 {} (take {}))", slot % 2, slot),
        })
        .collect()
}

/// One thread that calls methods which swap fields.
fn calls_and_swaps() -> Load {
    let kinds = "(kind (fields 0) (does))\n(kind (fields 2) (does 1 2 3 4))\n";
    let first = thread(
        &[
            "(new local 0)",
            "(new local 0)",
            "(new local 0)",
            "(new local 1 (take 1) (take 2))",
            "(call 4 3 (take 3))",
            "(call 4 3 (take 5))",
        ],
        "(take 6)",
    );
    let calls = tower(&swaps(), "(take 13)", |slot| format!("(take {})", slot));
    Load {
        name: "calls and swaps",
        text: [kinds, &first, &calls].concat().into_bytes(),
        turns: vec![0; MOST_TURNS],
        before: 0,
    }
}

/// One thread that makes objects until they are nearly used up.
fn objects_made() -> Load {
    let kinds = "(kind (fields 0) (does))\n(kind (fields 2) (does 1 2 3 4))\n";
    let mut lets = vec![
        "(new unsafe 0)",
        "(new unsafe 1 (read 1) (read 1))",
        "(call 2 1 (read 1))",
    ];
    lets.extend(["(call 2 0 (read 1))"; 8]);
    let first = thread(&lets, "(read 1)");
    let work: Vec<String> = (1..13)
        .map(|slot| format!("(new unsafe 1 (read 1) (read {}))", slot))
        .collect();
    let calls = tower(&work, "(read 13)", |_| "(read 1)".to_string());
    Load {
        name: "objects made",
        text: [kinds, &first, &calls].concat().into_bytes(),
        turns: vec![0; 21 * 14 + 5],
        before: 0,
    }
}

/// Sixteen threads, each on objects of its own.
fn sixteen(name: &'static str, turns: Vec<u8>) -> Load {
    let kinds = "(kind (fields 0) (does))\n(kind (fields 2) (does 3 4 5 6))\n";
    let own = |slot: usize| {
        strings(&["(new local 0)"])
            .into_iter()
            .chain([
                format!("(new local 1 (read {0}) (read {0}))", slot),
                format!("(call {} 3 (read {}))", slot + 1, slot),
            ])
            .collect::<Vec<String>>()
    };
    let block = |spawns: &[&str]| {
        let lets = [strings(spawns), own(spawns.len() + 1)].concat();
        format!("(thread)\n{}(give (read {}))\n", lines(&lets), lets.len())
    };
    let mut spawns = vec!["(spawn 1)"; 7];
    spawns.push("(spawn 2)");
    let threads = [block(&spawns), block(&["(spawn 2)"]), block(&[])].concat();
    let work: Vec<String> = (1..13)
        .map(|slot| match slot % 4 {
            0 => format!("(field 0 {})", slot / 4 % 2),
            1 => format!("(cast local (read {}))", slot),
            2 => format!("(read {})", slot),
            _ => format!("(swap 0 {} (read {}))", slot % 2, slot),
        })
        .collect();
    let calls = tower(&work, "(take 13)", |slot| format!("(read {})", slot));
    Load {
        name,
        text: [kinds, &threads, &calls].concat().into_bytes(),
        turns,
        before: 0,
    }
}

/// One thread builds a graph and copies it, which its last turn does. Nine calls of the first method make its nodes, each call on what the one
/// before it gave; the thread's own lets go on from slot 2. No object is made that the graph does not hold.
fn copied(name: &'static str, fields: usize, work: &[String], give: &str, own: &[&str]) -> Load {
    let kinds = format!(
        "(kind (fields 0) (does 1 2))\n(kind (fields {}) (does))\n",
        fields
    );
    let copy = format!("(copy unsafe {})", own.len() + 2);
    let built = ["(new unsafe 0)", "(call 1 1 (read 1))"];
    let first = thread(&[&built, own, &[&copy]].concat(), "(read 1)");
    let calls: Vec<String> = (1..10)
        .map(|slot| format!("(call 0 0 (read {}))", slot))
        .collect();
    let methods = [method(work, give), method(&calls, "(read 10)")].concat();
    let before = 2 + 9 * (work.len() + 2) + 1 + own.len();
    Load {
        name,
        text: [Edition::Two.first_line(), &kinds, &first, &methods]
            .concat()
            .into_bytes(),
        turns: vec![0; before + 1],
        before,
    }
}

/// Nodes of two fields, which hold the node before and an earlier one, in rings of eleven: 99 of them and the object that they end in.
fn graph_copied() -> Load {
    let mut work: Vec<String> = (2..13)
        .map(|slot| format!("(new unsafe 1 (read {}) (read {}))", slot - 1, slot / 2))
        .collect();
    work.push("(swap 2 1 (read 12))".to_string());
    copied("100 objects copied", 2, &work, "(read 12)", &[])
}

/// Nodes of one field, each of which holds the one before: 119 of them and the object that they end in.
fn chain_copied() -> Load {
    let work: Vec<String> = (2..15)
        .map(|slot| format!("(new unsafe 1 (read {}))", slot - 1))
        .collect();
    let own = ["(new unsafe 1 (read 2))", "(new unsafe 1 (read 3))"];
    copied("a chain of 120 copied", 1, &work, "(read 14)", &own)
}

/// All loads.
pub fn all() -> Vec<Load> {
    let mut random = Random::of(1, 1);
    let any = (0..MOST_TURNS)
        .map(|_| random.below(MOST_THREADS) as u8)
        .collect();
    vec![
        ping_pong(),
        calls_and_swaps(),
        objects_made(),
        sixteen("16 threads in rotation", rounds(MOST_THREADS, MOST_TURNS)),
        sixteen("16 threads at random", any),
        graph_copied(),
        chain_copied(),
    ]
}

#[cfg(test)]
mod tests {
    use super::*;
    use crate::machine;
    use crate::reading::read;

    #[test]
    fn the_last_turn_of_a_copy_copies_all_objects() {
        for (load, objects) in [(graph_copied(), 100), (chain_copied(), 120)] {
            let program = read(&load.text).unwrap();
            let made = |turns: &[u8]| {
                let run = machine::run(&program, turns);
                (run.moves as usize, run.state.objects.len())
            };
            assert_eq!(made(&load.turns[..load.before]), (load.before, objects));
            assert_eq!(made(&load.turns), (load.before + 1, 2 * objects));
        }
    }
}
