//! Lists of 1,024 turns that make it slow to look for races: messages from which all objects are reached, put and received as often as can be.
//! A list is searched for each script: at every turn the thread moves whose message reaches most.

use crate::checks::{decide, Action, Decision};
use crate::copying::met;
use crate::machine::Machine;
use crate::numbers::*;
use crate::reading::read;
use crate::script::{Edition, Program};
use crate::state::{State, Value};

pub struct RaceLoad {
    pub name: String,
    pub text: Vec<u8>,
    pub turns: Vec<u8>,
}

fn lines(exprs: &[String]) -> String {
    exprs
        .iter()
        .map(|expr| format!("(let {})\n", expr))
        .collect()
}

fn method(exprs: &[String], give: usize) -> String {
    format!("(method)\n{}(give (read {}))\n", lines(exprs), give)
}

fn node(held: [usize; 4]) -> String {
    let held: String = held
        .iter()
        .map(|slot| format!(" (read {})", slot))
        .collect();
    format!("(new unsafe 1{})", held)
}

/// A way to make all objects, or all but one, every node of four fields: what the thread does on slot 1, the first object; the slot of the top;
/// and two methods of the first kind, blocks 3 and 4.
struct Graph {
    name: &'static str,
    lets: Vec<String>,
    top: usize,
    methods: String,
}

const IDLE: &str = "(method)\n(give (read 1))\n";

/// Three copies of what there is and a node that holds all four, thrice; then two copies more: 5, 21, 85 and 256 objects.
fn tree() -> Graph {
    let mut work = Vec::new();
    for top in [1, 5, 9] {
        work.extend(vec![format!("(copy unsafe {})", top); 3]);
        work.push(node([top, top + 1, top + 2, top + 3]));
    }
    let copy = "(copy unsafe 2)".to_string();
    Graph {
        name: "a tree",
        lets: vec![
            "(call 1 0 (read 1))".to_string(),
            copy.clone(),
            copy,
            node([2, 3, 4, 2]),
        ],
        top: 5,
        methods: [&method(&work, 13), IDLE].concat(),
    }
}

/// A copy of what there is and a node that holds both, each twice, seven times: 255 objects.
fn doubled() -> Graph {
    let work: Vec<String> = (0..7)
        .flat_map(|times| {
            let top = 1 + 2 * times;
            let copy = format!("(copy unsafe {})", top);
            [copy, node([top, top + 1, top, top + 1])]
        })
        .collect();
    Graph {
        name: "doubled",
        lets: vec!["(call 1 0 (read 1))".to_string()],
        top: 2,
        methods: [&method(&work, 15), IDLE].concat(),
    }
}

/// Each node holds the one before it four times: 14 by one method, 14 times 14 by the other, and so on.
fn chain() -> Graph {
    let work: Vec<String> = (1..15).map(|slot| node([slot; 4])).collect();
    let calls: Vec<String> = (1..15)
        .map(|slot| format!("(call 0 0 (read {}))", slot))
        .collect();
    let mut lets = vec!["(call 1 1 (read 1))".to_string()];
    lets.extend((2..6).map(|slot| format!("(call 1 0 (read {}))", slot)));
    lets.extend((6..9).map(|slot| node([slot; 4])));
    Graph {
        name: "a chain",
        lets,
        top: 9,
        methods: [method(&work, 15), method(&calls, 15)].concat(),
    }
}

/// Threads in pairs: each of even number starts the next one, sends it the top, and gets it back, over and over; each of odd number, if there
/// are to be more than two, first starts one of even number and sends it the top. A node's methods: a message sent and one received some times,
/// perhaps with a line on the top after it; and fourteen times that.
fn script(graph: &Graph, threads: usize, line: Option<&str>) -> String {
    let mut each = vec!["(send 1 (read 0))", "(recv 1)"];
    each.extend(line);
    let times = 14 / each.len();
    let work: Vec<String> = each
        .repeat(times)
        .iter()
        .map(|line| line.to_string())
        .collect();
    let channel = graph.lets.len() + 2;
    let many = |top: usize, channel: usize| vec![format!("(call {} 1 (read {}))", top, channel); 2];
    let first = [
        vec!["(new unsafe 0)".to_string()],
        graph.lets.clone(),
        vec!["(spawn 1)".to_string()],
        many(graph.top, channel),
    ];
    let mut odd = vec!["(recv 0)".to_string()];
    if threads > 2 {
        odd.extend(["(spawn 2)", "(send 2 (read 1))"].map(str::to_string));
    }
    odd.extend(many(1, 0));
    let mut even = ["(recv 0)", "(spawn 1)"].map(str::to_string).to_vec();
    even.extend(many(1, 2));
    let thread = |exprs: &[String]| format!("(thread)\n{}(give (read 1))\n", lines(exprs));
    [
        Edition::Two.first_line(),
        "(kind (fields 0) (does 3 4))\n(kind (fields 4) (does 5 6))\n",
        &thread(&first.concat()),
        &thread(&odd),
        &thread(&even),
        &graph.methods,
        &method(&work, 1),
        &method(&vec!["(call 0 0 (read 1))".to_string(); 14], 1),
    ]
    .concat()
}

/// How many objects are reached from the message that a turn puts or receives; 0 for any other that moves.
fn weight(program: &Program, state: &State, thread: u8) -> Option<usize> {
    let message = match decide(program, state, thread) {
        Decision::Move(step) => match step.action {
            Action::Put { value, .. } => value,
            Action::Receive { channel } => state.channel(channel).message,
            _ => Value::Absent,
        },
        Decision::Idle | Decision::Wait | Decision::Stop(_) => return None,
    };
    match message {
        Value::Obj(object) => Some(met(state, object).len()),
        Value::Absent | Value::Chan(_) => Some(0),
    }
}

/// The turns that weigh most; among equals the thread that has waited longest. Before these all that start a thread, while there are too few.
fn searched(program: &Program, threads: usize) -> Vec<u8> {
    let mut machine = Machine::fresh(program);
    let mut last = [0; MOST_THREADS];
    let mut turns = Vec::new();
    while turns.len() < MOST_RACE_TURNS {
        let started = machine.state.threads.len();
        let starting = |thread: &u8| match decide(program, &machine.state, *thread) {
            Decision::Move(step) => matches!(step.action, Action::Start { .. }),
            _ => false,
        };
        let may = |thread: &u8| started < threads || !starting(thread);
        let weighed = (0..started as u8).filter(may).filter_map(|thread| {
            let weight = weight(program, &machine.state, thread)?;
            let first = started < threads && starting(&thread);
            let idle = turns.len() - last[usize::from(thread)];
            Some((first, weight, idle, thread))
        });
        let thread = weighed.max().map_or(0, |(_, _, _, thread)| thread);
        machine.turn(thread);
        last[usize::from(thread)] = turns.len();
        turns.push(thread);
    }
    turns
}

/// All of them: graphs of three forms, for 2 threads and for all; the top is only sent, or touched after each message too. Pairs of threads would
/// race if they swapped.
pub fn all() -> Vec<RaceLoad> {
    let forms = [
        (2, "2 threads", None),
        (2, "2 threads, swaps", Some("(swap 0 0 (read 0))")),
        (MOST_THREADS, "16 threads", None),
        (MOST_THREADS, "16 threads, reads", Some("(field 0 0)")),
    ];
    let mut all = Vec::new();
    for graph in [tree(), doubled(), chain()] {
        for (threads, name, line) in forms {
            let text = script(&graph, threads, line).into_bytes();
            let turns = match read(&text) {
                Ok(program) => searched(&program, threads),
                Err(_) => Vec::new(),
            };
            all.push(RaceLoad {
                name: format!("{}, {}", graph.name, name),
                text,
                turns,
            });
        }
    }
    all
}

#[cfg(test)]
mod tests {
    use super::*;
    use crate::machine::run;
    use crate::races::{deeds, races};

    /// Every list is as long as can be asked, all its turns move, and no race ends the search for one early.
    #[test]
    fn the_lists_are_long_and_have_no_race() {
        for load in all() {
            let program = read(&load.text).unwrap_or_else(|_| panic!("{}", load.name));
            let ran = run(&program, &load.turns);
            assert_eq!(load.turns.len(), 1_024, "{}", load.name);
            assert_eq!(ran.moves, 1_024, "{}", load.name);
            assert!(ran.state.objects.len() >= 255, "{}", load.name);
            assert_eq!(
                races(&deeds(&program, &load.turns)).next(),
                None,
                "{}",
                load.name
            );
        }
    }

    /// In the heaviest list more than half of the turns put or receive what reaches all objects.
    #[test]
    fn most_turns_carry_all_objects() {
        let heavy = |load: RaceLoad| {
            let program = read(&load.text).unwrap();
            let made = deeds(&program, &load.turns);
            let all = |deed: &&crate::races::Deed| deed.put.len().max(deed.received.len()) >= 255;
            made.iter().filter(all).count()
        };
        let most = all().into_iter().map(heavy).max();
        assert!(most > Some(600), "{:?}", most);
    }
}
