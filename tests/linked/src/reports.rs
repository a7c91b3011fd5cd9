//! Reach reports on every thread of a run: the count, the objects by rising number, then zeros; the tables as the run leaves them.

use second::machine::End;
use second::numbers::*;
use second::reach::{reach, reach_report, Report};

use crate::graph::Graph;
use crate::host::{same, Lent, Tables};
use crate::library::bytes;

/// Every thread that a run can have, and numbers of none, some of them 0 in fewer bits.
fn threads() -> impl Iterator<Item = usize> {
    (0..=MOST_THREADS + 1).chain([255, 256, 65_536, 1 << 32, usize::MAX])
}

/// Sizes by their first: the row at place n holds those from FIRST[n] to before the next.
const FIRST: [usize; 10] = [0, 1, 2, 4, 8, 16, 32, 64, 128, 256];

/// What the reports came to: how many objects they listed, of threads with how many frames; and what made the walk hard.
#[derive(Clone, Debug, Default)]
pub struct Counts {
    pub objects: [u64; 10],
    pub frames: [u64; 6],
    pub rings: u64,
    pub shared: u64,
    pub outer: u64,
    pub out_of_order: u64,
    pub in_flight: u64,
    pub messages: u64,
    pub answers: u64,
    pub stopped: u64,
    pub refused: [u64; NO_THREAD as usize + 1],
}

/// The rows of a histogram of sizes.
fn sizes(what: &str, counts: &[u64]) -> Vec<(String, u64)> {
    let row = |(place, count): (usize, &u64)| {
        let (first, last) = (
            FIRST[place],
            FIRST.get(place + 1).map_or(MOST_OBJECTS, |next| next - 1),
        );
        let size = if first == last || place + 1 == counts.len() {
            first.to_string()
        } else {
            format!("{} to {}", first, last)
        };
        (format!("{} {}", size, what), *count)
    };
    counts.iter().enumerate().map(row).collect()
}

fn place(size: usize) -> usize {
    FIRST.iter().filter(|first| **first <= size).count() - 1
}

impl Counts {
    pub fn rows(&self) -> Vec<(String, u64)> {
        let mut rows = [
            sizes("objects", &self.objects),
            sizes("frames", &self.frames),
        ]
        .concat();
        let telling = [
            ("objects in a ring", self.rings),
            ("an object held twice", self.shared),
            ("by an outer frame alone", self.outer),
            ("met in another order", self.out_of_order),
            ("by a message in flight alone", self.in_flight),
            ("another's message left out", self.messages),
            ("an answer left out", self.answers),
            ("a stopped run", self.stopped),
        ];
        rows.extend(telling.map(|(name, count)| (name.to_string(), count)));
        for number in (OVERLONG..=SHORT_TABLE).chain([NO_THREAD]) {
            rows.push((
                format!("refused {}", number),
                self.refused[usize::from(number)],
            ));
        }
        rows
    }

    fn add(&mut self, report: &Report, thread: usize, objects: &[u16]) {
        let state = &report.run.state;
        let graph = Graph { state, objects };
        self.objects[place(objects.len())] += 1;
        self.frames[place(state.threads[thread].frames.len())] += 1;
        self.rings += u64::from(graph.has_ring());
        self.shared += u64::from(graph.shares());
        self.outer += u64::from(graph.needs_outer_frames(thread));
        self.out_of_order += u64::from(graph.is_met_out_of_order(thread));
        self.in_flight += u64::from(graph.needs_message(thread));
        self.messages += u64::from(graph.leaves_message(thread));
        self.answers += u64::from(graph.leaves_answer(thread));
        self.stopped += u64::from(matches!(report.run.end, End::Stopped(_)));
    }
}

/// One report, and every byte that it was lent. `after` are the tables as the run leaves them.
fn one(
    lent: &Lent,
    after: &Tables,
    thread: usize,
    theirs: &Result<Vec<u16>, Refusal>,
) -> Result<(), String> {
    let (mut tables, mut list) = (lent.tables.clone(), lent.list.clone());
    let (program, state) = (tables.program.lend(), tables.state.lend());
    let ours = bytes::reach(&lent.text, &lent.turns, program, state, thread, list.lend());
    same(
        &ours,
        &theirs.as_ref().map(Vec::len).map_err(|refusal| *refusal),
    )?;
    tables.same(match theirs {
        Err(refusal) if refusal.number != NO_THREAD => &lent.tables,
        _ => after,
    })?;
    match theirs {
        Err(_) => list.same("the list", &lent.list),
        Ok(objects) => {
            let mut words = objects.clone();
            words.resize(LIST_WORDS, 0);
            list.same("the list", &lent.list.with(&words))
        }
    }
}

/// Reports on all threads; every one makes the run anew.
pub fn of_all_threads(lent: &Lent, after: &Tables, counts: &mut Counts) -> Result<(), String> {
    let (program, state) = lent.tables.words();
    let mut list = vec![0; lent.list.words()];
    let report = reach_report(&lent.text, &lent.turns, program, state, 0, &mut list);
    for thread in threads() {
        let theirs = match &report {
            Ok(report) => reach(&report.run.state, thread),
            Err(refusal) => Err(*refusal),
        };
        one(lent, after, thread, &theirs)
            .map_err(|fault| format!("box_reach on thread {}: {}", thread, fault))?;
        match (&report, &theirs) {
            (Ok(report), Ok(objects)) => counts.add(report, thread, objects),
            (_, Err(refusal)) | (Err(refusal), _) => {
                counts.refused[usize::from(refusal.number)] += 1
            }
        }
    }
    Ok(())
}
