//! Time, in one run: the compiled box and the second interpreter on the same scripts, turn about.

use std::hint::black_box;
use std::time::Instant;

use second::loads::{self, Load};
use second::machine;
use second::numbers::{MOST_RACE_TURNS, MOST_TEXT, TABLE_WORDS};
use second::race_loads::{self, RaceLoad};
use second::races;
use second::reading;
use second::script::Edition;
use second::writing;

use crate::chart::{self, Row};
use crate::full;
use crate::library::bytes;

fn median(mut times: Vec<f64>) -> f64 {
    times.sort_by(|a, b| a.total_cmp(b));
    times[times.len() / 2]
}

fn seconds(work: impl FnOnce()) -> f64 {
    let began = Instant::now();
    work();
    began.elapsed().as_secs_f64()
}

/// Medians of many calls, in seconds: the box's and the second interpreter's, turn about.
fn medians(calls: usize, mut ours: impl FnMut(), mut theirs: impl FnMut()) -> (f64, f64) {
    let (mut left, mut right) = (Vec::new(), Vec::new());
    for _ in 0..calls {
        left.push(seconds(&mut ours));
        right.push(seconds(&mut theirs));
    }
    (median(left), median(right))
}

/// One call on 16,384 bytes: its name, and the seconds of both.
struct Whole {
    name: &'static str,
    ours: f64,
    second: f64,
}

impl Whole {
    fn row(&self) -> Row {
        let byte = |time: f64| time / MOST_TEXT as f64 * 1e9;
        Row {
            name: format!("{}, by the byte", self.name),
            ours: byte(self.ours),
            second: byte(self.second),
            lua: None,
        }
    }

    /// The same by the script.
    fn line(&self) -> String {
        let told = |time: f64| {
            let megabytes = MOST_TEXT as f64 / time / 1e6;
            format!("{:.1} µs, {:.0} MB/s", time * 1e6, megabytes)
        };
        format!(
            "{} a script of {} bytes: {}; the second interpreter {}\n",
            self.name,
            MOST_TEXT,
            told(self.ours),
            told(self.second)
        )
    }
}

/// Reading 16,384 bytes. The table is lent full of old bytes.
fn whole_reading(calls: usize) -> Whole {
    let text = full::script(Edition::One, 1);
    let mut table = vec![0xa5; 2 * TABLE_WORDS];
    let (ours, second) = medians(
        calls,
        || {
            let _ = black_box(bytes::read(black_box(&text), &mut table));
        },
        || {
            let _ = black_box(reading::read(black_box(&text)));
        },
    );
    Whole {
        name: "reading",
        ours,
        second,
    }
}

/// Writing them back from their table. The buffer is lent full of old bytes.
fn whole_writing(calls: usize) -> Result<Whole, String> {
    let text = full::script(Edition::One, 1);
    let mut table = vec![0xa5; 2 * TABLE_WORDS];
    bytes::read(&text, &mut table).map_err(|refusal| format!("writing: {:?}", refusal))?;
    let pairs = table.chunks(2);
    let words: Vec<u16> = pairs
        .map(|pair| u16::from_le_bytes([pair[0], pair[1]]))
        .collect();
    let mut buffer = vec![0xa5; MOST_TEXT];
    let (ours, second) = medians(
        calls,
        || {
            let _ = black_box(bytes::write(black_box(&table), &mut buffer));
        },
        || {
            let _ = black_box(writing::write(black_box(&words), MOST_TEXT));
        },
    );
    if buffer != text {
        return Err("writing: the script does not come back".to_string());
    }
    Ok(Whole {
        name: "writing",
        ours,
        second,
    })
}

/// The turns of a load: a whole run less the same run on the turns before those that are measured, by turn.
fn run_row(calls: usize, load: &Load, lua: &str) -> Result<Row, String> {
    let (mut program, mut state) = (vec![0xa5; 2 * TABLE_WORDS], vec![0xa5; 2 * TABLE_WORDS]);
    let ours = bytes::run(&load.text, &load.turns, &mut program, &mut state)
        .map_err(|refusal| format!("{}: {:?}", load.name, refusal))?;
    let mut box_run = |turns: &[u8]| {
        let _ = black_box(bytes::run(
            black_box(&load.text),
            turns,
            &mut program,
            &mut state,
        ));
    };
    let second_run = |turns: &[u8]| -> Option<(machine::End, usize)> {
        let program = reading::read(black_box(&load.text)).ok()?;
        let run = black_box(machine::run(&program, turns));
        Some((run.end, run.moves as usize))
    };
    if second_run(&load.turns) != Some(ours) {
        return Err(format!("{}: the answers differ", load.name));
    }
    let mut part = |turns: &[u8]| {
        medians(
            calls,
            || box_run(turns),
            || {
                let _ = second_run(turns);
            },
        )
    };
    let (whole, whole_theirs) = part(&load.turns);
    let (before, before_theirs) = part(&load.turns[..load.before]);
    let turn = |time: f64| time / (load.turns.len() - load.before) as f64 * 1e9;
    Ok(Row {
        name: load.name.to_string(),
        ours: turn(whole - before),
        second: turn(whole_theirs - before_theirs),
        lua: chart::lua_time(lua, load.name),
    })
}

/// What a list of turns that is asked for races is to take at most, in ms.
const RACE_BOUND: f64 = 20.0;

/// The time of one question for races, in ms; both must answer the same.
fn race_time(calls: usize, load: &RaceLoad) -> Result<f64, String> {
    let (mut program, mut state) = (vec![0xa5; 2 * TABLE_WORDS], vec![0xa5; 2 * TABLE_WORDS]);
    let theirs = races::judge(&load.text, &load.turns, TABLE_WORDS, TABLE_WORDS);
    let mut ask = || bytes::race(black_box(&load.text), &load.turns, &mut program, &mut state);
    if ask() != theirs.map(|judged| judged.race) {
        return Err(format!("{}: the answers differ", load.name));
    }
    let times = (0..calls).map(|_| {
        seconds(|| {
            let _ = black_box(ask());
        })
    });
    Ok(median(times.collect()) * 1e3)
}

/// The lists that were searched for, with their times, and the worst of them.
fn race_lines(calls: usize) -> Result<String, String> {
    let mut text = format!(
        "\nlooking for races in {} turns, ms; medians of {} calls\n",
        MOST_RACE_TURNS, calls
    );
    let mut worst = (0.0, String::new());
    for load in race_loads::all() {
        let time = race_time(calls, &load)?;
        text.push_str(&format!("  {:<32}{:>8.3}\n", load.name, time));
        if time > worst.0 {
            worst = (time, load.name);
        }
    }
    let (time, name) = worst;
    let told = if time < RACE_BOUND { "under" } else { "OVER" };
    text.push_str(&format!(
        "the worst of these: {}, {:.3} ms, {} {} ms\n",
        name, time, told, RACE_BOUND
    ));
    Ok(text)
}

/// What a person reads; `lua` has the lines that the Lua side printed, if any.
pub fn shown(calls: usize, lua: &str) -> Result<String, String> {
    let wholes = [whole_reading(calls), whole_writing(calls)?];
    let mut rows: Vec<Row> = wholes.iter().map(Whole::row).collect();
    for load in loads::all() {
        rows.push(run_row(calls / 10, &load, lua)?);
    }
    let head = format!(
        "ns a turn: the compiled box, the second interpreter and Lua 5.4 coroutines over plain tables, resumed at every turn; ratio: the box's time by theirs.\n\
         The rows of copies: the one turn that copies.\n\
         Medians of {} calls (reading and writing: {}), box and second turn about.\n\n",
        calls / 10,
        calls
    );
    let lines: String = wholes.iter().map(Whole::line).collect();
    Ok([
        head,
        chart::table(&rows),
        "\n".to_string(),
        lines,
        chart::bars(&rows),
        race_lines(calls / 40)?,
    ]
    .concat())
}
