//! The commands of box: what each prints, tells and exits with, on a file, on standard input, on none, on a bad one, and with wrong arguments.

use std::fs;
use std::os::unix::fs::symlink;
use std::path::Path;

use crate::started::{ended, Ended, Start};
use crate::tally::Tally;
use crate::{file, printed, prints, INPUT, REFUSED};

const NUMBERS: &str = "box: explain: there are the numbers 1 to 21\n";

fn boxed(wrapper: &str, words: &[&str], input: &str) -> Ended {
    Start::of(&[&[wrapper], words].concat())
        .input(input.as_bytes())
        .ended()
}

/// Every way to name an input, for each command that takes one.
fn inputs(tally: &mut Tally, room: &Path, wrapper: &str) {
    let (good, bad) = (file(room, "good", INPUT), file(room, "bad", REFUSED));
    let missing = room.join("missing").display().to_string();
    let folder = room.display().to_string();
    for command in ["run", "save", "strip", "check", "draw"] {
        let (out, refused) = (prints(command, INPUT), prints(command, REFUSED));
        let told = |path: &str, why: &str| ended(2, "", &format!("box: {}: {}\n", path, why));
        let cases = [
            (vec![command], INPUT, ended(0, &out, "")),
            (vec![command, "-"], INPUT, ended(0, &out, "")),
            (vec![command, &good], REFUSED, ended(0, &out, "")),
            (vec![command], REFUSED, ended(1, &refused, "")),
            (vec![command, &bad], INPUT, ended(1, &refused, "")),
            (vec![command], "", ended(1, &prints(command, ""), "")),
            (
                vec![command, &missing],
                INPUT,
                told(&missing, "No such file or directory"),
            ),
            (
                vec![command, &folder],
                INPUT,
                told(&folder, "Is a directory"),
            ),
            (
                vec![command, ""],
                INPUT,
                told("", "No such file or directory"),
            ),
        ];
        for (words, input, wanted) in cases {
            let name = format!("box {:?} on {:?}", words, input);
            tally.same(&name, &boxed(wrapper, &words, input), &wanted);
        }
    }
    let long = "x".repeat(5000);
    let wanted = ended(2, "", "box: the name of the input: File name too long\n");
    tally.same("a long name", &boxed(wrapper, &["run", &long], ""), &wanted);
}

/// What is asked of a thread, and of a script that has capabilities and makes objects.
fn asked(tally: &mut Tally, room: &Path, wrapper: &str) {
    let text = "(kind (fields 0) (does))\n(thread)\n(let (new iso 0))\n(let (new imm 0))\n(give (take 1))\n(turns 0 0)\n";
    let bare = text
        .replace(" iso ", " unsafe ")
        .replace(" imm ", " unsafe ");
    let graph = "digraph objects {\n  node [style=filled];\n  0 [label=\"0 iso\", shape=ellipse, fillcolor=palegreen];\n  \
                 1 [label=\"1 imm\", shape=box, fillcolor=lightblue];\n}\n";
    let path = file(room, "asked", text);
    let usage = ended(2, "", &boxed(wrapper, &["--help"], "").out);
    let unstarted = ended(1, "(refused 17 0)\n", "");
    for (words, wanted) in [
        (vec!["strip", &path], ended(0, &bare, "")),
        (vec!["draw", &path], ended(0, graph, "")),
        (vec!["draw"], ended(0, graph, "")),
        (vec!["reach", &path, "0"], ended(0, "(reached 0 1)\n", "")),
        (vec!["reach", "-", "0"], ended(0, "(reached 0 1)\n", "")),
        (vec!["reach", &path, "1"], unstarted.clone()),
        (vec!["reach", &path, "999"], unstarted),
        (vec!["reach", &path, "1000"], usage.clone()),
        (vec!["reach", &path, "00"], usage.clone()),
        (vec!["reach", &path, ""], usage.clone()),
        (vec!["reach", &path, "x"], usage.clone()),
        (vec!["reach", &path], usage.clone()),
        (vec!["reach"], usage.clone()),
        (vec!["reach", &path, "0", "1"], usage.clone()),
        (vec!["draw", &path, "0"], usage.clone()),
        (vec!["strip", &path, "0"], usage),
    ] {
        tally.same(
            &format!("box {:?}", words),
            &boxed(wrapper, &words, text),
            &wanted,
        );
    }
    let got = boxed(wrapper, &["reach", "-", "0"], REFUSED);
    tally.same("box reach, refused", &got, &ended(1, &printed(REFUSED), ""));
}

/// The status of a check goes by the verdict: 1 where the turns alone are not filed, 0 after a guard's stop.
fn checks(tally: &mut Tally, wrapper: &str) {
    let script = "(kind (fields 0) (does))\n(thread)\n(let (new iso 0))\n(give (read 1))\n";
    for (last, status, word) in [
        ("(turns 0 0)\n", 0, "(stopped 19 "),
        ("(turns 0 256)\n", 1, "refused: 4 "),
        ("(turns 0 0)", 1, "no LF"),
        ("(turns 0 0)\r\n", 1, "CR LF"),
    ] {
        let input = [script, last].concat();
        let out = prints("check", &input);
        tally.holds(out.contains(word), || out.clone());
        tally.same(
            &format!("box check, {:?}", last),
            &boxed(wrapper, &["check"], &input),
            &ended(status, &out, ""),
        );
    }
}

/// A run that stopped is well: it answers what came of the turns.
fn stopped(tally: &mut Tally, wrapper: &str) {
    let input = "(thread)\n(give (read 0))\n(turns 0)\n";
    let out = printed(input);
    tally.holds(out.starts_with("(stopped 10 "), || out.clone());
    tally.same(
        "a stop",
        &boxed(wrapper, &["run"], input),
        &ended(0, &out, ""),
    );
}

fn others(tally: &mut Tally, wrapper: &str) {
    let usage = boxed(wrapper, &["--help"], "").out;
    for line in [
        "box check [FILE]",
        "box run [FILE]",
        "box save [FILE]",
        "box strip [FILE]",
        "box reach FILE THREAD",
        "box draw [FILE]",
        "box explain NUMBER",
    ] {
        tally.holds(usage.contains(line), || format!("no {} in the usage", line));
    }
    let none = ended(1, "", NUMBERS);
    let wrong = ended(2, "", &usage);
    let mut cases = vec![
        (vec!["--version"], ended(0, "box 1.8.0\n", "")),
        (vec!["--help"], ended(0, &usage, "")),
        (vec!["help"], ended(0, &usage, "")),
    ];
    for word in [
        "0",
        "22",
        "05",
        "1x",
        " 1",
        "1 ",
        "-1",
        "100",
        "1000000000000000000000",
        "alias",
        "",
    ] {
        cases.push((vec!["explain", word], none.clone()));
    }
    cases.push((vec!["explain"], none));
    for words in [
        vec![],
        vec![""],
        vec!["runs"],
        vec!["ru"],
        vec!["Run"],
        vec!["version"],
        vec!["a-word-that-is-longer-than-any-command"],
        vec!["run", "-", "-"],
        vec!["save", "-", "-"],
        vec!["draw", "-", "-"],
        vec!["explain", "1", "2"],
        vec!["--version", "1"],
        vec!["--help", "run"],
        vec!["--status"],
        vec!["--status", "--version"],
    ] {
        cases.push((words, wrong.clone()));
    }
    for (words, wanted) in cases {
        tally.same(
            &format!("box {:?}", words),
            &boxed(wrapper, &words, INPUT),
            &wanted,
        );
    }
}

/// Without --status the program writes nothing on descriptor 3; with it, its status and nothing else.
fn descriptor_3(tally: &mut Tally, room: &Path, folder: &str) {
    let program = format!("{}/box_tool", folder);
    let left = room.join("left");
    for (words, input, digit) in [
        (vec!["run"], INPUT, ""),
        (vec!["--status", "run"], INPUT, "0"),
        (vec!["--status", "run"], REFUSED, "1"),
        (vec!["--status", "runs"], INPUT, "2"),
        (vec!["--status"], INPUT, "2"),
    ] {
        let started = Start::of(&[&[&program[..]], &words[..]].concat()).input(input.as_bytes());
        let got = started.redirected(&format!("3>{}", left.display())).ended();
        let name = format!("box_tool {:?}: {}", words, got);
        tally.holds(got.status == Ok(0), || name.clone());
        let text = fs::read_to_string(&left).unwrap_or_default();
        tally.same(&name, &text, &digit.to_string());
    }
}

/// The wrapper finds its program where it is installed, also by a link, and says where it looked.
fn installed(tally: &mut Tally, room: &Path, folder: &str, wrapper: &str) {
    let (bin, lib) = (room.join("bin"), room.join("libexec/freezerbox"));
    fs::create_dir_all(&bin)
        .and(fs::create_dir_all(&lib))
        .expect("folders");
    let path = bin.join("box");
    fs::copy(wrapper, &path).expect("a copy of the wrapper");
    let path = path.display().to_string();
    let got = boxed(&path, &["--version"], "");
    let alone =
        got.status == Ok(2) && got.out.is_empty() && got.err.contains("box_tool is neither in");
    tally.holds(alone, || format!("without its program: {}", got));
    fs::copy(format!("{}/box_tool", folder), lib.join("box_tool")).expect("a copy of the program");
    let wanted = ended(0, "box 1.8.0\n", "");
    tally.same("installed", &boxed(&path, &["--version"], ""), &wanted);
    let link = room.join("link").display().to_string();
    symlink(&path, &link).expect("a link");
    tally.same("by a link", &boxed(&link, &["--version"], ""), &wanted);
    let by_path = Start::of(&["box", "explain", "99"])
        .set("PATH", format!("{}:/usr/bin:/bin", bin.display()));
    tally.same("by the path", &by_path.ended(), &ended(1, "", NUMBERS));
}

pub fn all(tally: &mut Tally, room: &Path, folder: &str, wrapper: &str) {
    inputs(tally, room, wrapper);
    asked(tally, room, wrapper);
    checks(tally, wrapper);
    stopped(tally, wrapper);
    others(tally, wrapper);
    descriptor_3(tally, room, folder);
    installed(tally, room, folder, wrapper);
}
