//! What Graphviz makes of what `box draw` prints. Its language for graphs, `gvpr`, reads all the drawings from one stream and tells the nodes and
//! edges that it parsed, with their labels, shapes and fills; they must be those of the objects that the second interpreter has. And `dot` must
//! draw them, without a warning of a shape or a colour that it does not know.

use std::fs;
use std::io::Write;
use std::process::{Command, Output, Stdio};
use std::thread;

use second::drawing::look;
use second::generate::{self, turns_text};
use second::input::accepted;
use second::loads;
use second::machine::{run, End, Run};
use second::numbers::{MOST_FIELDS, MOST_OBJECTS};
use second::script::Cap;
use second::state::Value;

use crate::many::{self, Difference};
use crate::program::Program;
use crate::{differs, example_files, fixed, Held};

/// What gvpr is asked of each graph: its name, whether it is directed and whether it leaves out second edges; then each node and each edge.
const ASKED: &str = r#"
BEG_G { printf("graph\t%s\t%d\t%d\n", $G.name, isDirect($G), isStrict($G)); }
N { printf("node\t%s\t%s\t%s\t%s\t%s\n", $.name, $.label, $.style, $.shape, $.fillcolor); }
E { printf("edge\t%s\t%s\t%s\n", $.tail.name, $.head.name, $.label); }
"#;

/// A run, and what box draw prints of its input.
struct Drawn {
    name: String,
    input: Vec<u8>,
    run: Run,
    text: Vec<u8>,
}

/// Nothing where the input is refused, which draws no graph.
fn drawn(program: &Program, name: &str, input: &[u8]) -> Result<Option<Drawn>, String> {
    let (script, turns) = match accepted(input) {
        Ok(read) => read,
        Err(_) => return Ok(None),
    };
    Ok(Some(Drawn {
        name: name.to_string(),
        input: input.to_vec(),
        run: run(&script, &turns),
        text: program.printed(input)?,
    }))
}

/// What gvpr must tell of a run, its lines sorted: the order in which it goes through a graph is its own.
fn told(run: &Run) -> Vec<String> {
    let mut lines = vec!["graph\tobjects\t1\t0".to_string()];
    for (number, object) in run.state.objects.iter().enumerate() {
        let (shape, fill) = look(object.cap);
        lines.push(format!(
            "node\t{}\t{} {}\tfilled\t{}\t{}",
            number,
            number,
            object.cap.word(),
            shape,
            fill
        ));
        for (field, value) in object.fields.iter().enumerate() {
            if let Value::Obj(held) = value {
                lines.push(format!("edge\t{}\t{}\t{}", number, held, field));
            }
        }
    }
    lines.sort();
    lines
}

/// Starts a program of Graphviz on one stream of drawings; it must say nothing of them on standard error.
fn started(words: &[&str], stream: &[u8]) -> Result<String, String> {
    let started = Command::new(words[0])
        .args(&words[1..])
        .stdin(Stdio::piped())
        .stdout(Stdio::piped())
        .stderr(Stdio::piped())
        .spawn();
    let mut child = started.map_err(|fault| format!("{}: {}", words[0], fault))?;
    let stdin = child.stdin.take();
    let output = thread::scope(|scope| {
        scope.spawn(move || stdin.map(|mut stdin| stdin.write_all(stream)));
        child.wait_with_output()
    });
    let Output {
        status,
        stdout,
        stderr,
    } = output.map_err(|fault| format!("{}: {}", words[0], fault))?;
    if !status.success() || !stderr.is_empty() {
        let said = String::from_utf8_lossy(&stderr);
        return Err(format!("{}: {}, and it says {}", words[0], status, said));
    }
    Ok(String::from_utf8_lossy(&stdout).into_owned())
}

/// The lines that gvpr tells of each graph of a stream, sorted.
fn parsed(stream: &[u8]) -> Result<Vec<Vec<String>>, String> {
    let mut graphs: Vec<Vec<String>> = Vec::new();
    for line in started(&["gvpr", ASKED], stream)?.lines() {
        match graphs.last_mut() {
            Some(graph) if !line.starts_with("graph\t") => graph.push(line.to_string()),
            _ => graphs.push(vec![line.to_string()]),
        }
    }
    graphs.iter_mut().for_each(|graph| graph.sort());
    Ok(graphs)
}

fn stream(all: &[Drawn]) -> Vec<u8> {
    all.iter().flat_map(|drawn| drawn.text.clone()).collect()
}

/// The first line of Graphviz that is not as it must be.
fn unlike(got: &[String], wanted: &[String]) -> Option<String> {
    let lines = got.len().max(wanted.len());
    let place = (0..lines).find(|place| got.get(*place) != wanted.get(*place))?;
    Some(format!(
        "Graphviz has {:?} and not {:?}",
        got.get(place),
        wanted.get(place)
    ))
}

/// Each drawing is one graph, with the nodes and edges of its run.
fn held(all: &[Drawn]) -> Result<(), Difference> {
    let graphs = parsed(&stream(all)).map_err(|fault| differs("gvpr", b"", fault))?;
    for (drawn, graph) in all.iter().zip(&graphs) {
        if let Some(fault) = unlike(graph, &told(&drawn.run)) {
            return Err(differs(&drawn.name, &drawn.input, fault));
        }
    }
    if graphs.len() != all.len() {
        let fault = format!("{} graphs of {} drawings", graphs.len(), all.len());
        return Err(differs("gvpr", b"", fault));
    }
    Ok(())
}

/// dot makes a picture of each, in which each node and each edge stands.
fn pictured(all: &[Drawn]) -> Result<(), Difference> {
    let fault = |fault| differs("dot", b"", fault);
    let svg = started(&["dot", "-Tsvg"], &stream(all)).map_err(fault)?;
    let (mut nodes, mut edges) = (0, 0);
    for line in all.iter().flat_map(|drawn| told(&drawn.run)) {
        nodes += usize::from(line.starts_with("node\t"));
        edges += usize::from(line.starts_with("edge\t"));
    }
    let found = ["<svg ", "class=\"node\"", "class=\"edge\""].map(|part| svg.matches(part).count());
    if found != [all.len(), nodes, edges] {
        let wanted = [all.len(), nodes, edges];
        return Err(fault(format!(
            "pictures, nodes and edges: {:?} and not {:?}",
            found, wanted
        )));
    }
    Ok(())
}

/// Inputs that are written out: the examples, the cases of document 01 and others, and the loads of the bench.
fn written_out() -> Result<Vec<(String, Vec<u8>)>, Difference> {
    let mut all = Vec::new();
    for path in example_files()? {
        let name = path.display().to_string();
        let input = fs::read(&path).map_err(|fault| differs(&name, b"", fault.to_string()))?;
        all.push((name, input));
    }
    all.extend(fixed::all().into_iter().map(|case| (case.name, case.input)));
    for load in loads::all() {
        let input = [load.text, turns_text(&load.turns)].concat();
        all.push((load.name.to_string(), input));
    }
    Ok(all)
}

pub fn all(path: &Program, seed: u64, count: u64) -> Held {
    let program = Program {
        path: path.path.clone(),
        words: vec!["draw".to_string()],
    };
    let mut written = Vec::new();
    for (name, input) in written_out()? {
        let one = drawn(&program, &name, &input).map_err(|fault| differs(&name, &input, fault))?;
        written.extend(one);
    }
    pictured(&written)?;
    let one = |input: &[u8], all: &mut Vec<Drawn>| {
        all.extend(drawn(&program, "a random input", input)?);
        Ok(())
    };
    let random = many::many(seed, count, generate::input, one)?;
    let all: Vec<Drawn> = written
        .into_iter()
        .chain(random.into_iter().flatten())
        .collect();
    held(&all)?;
    Ok(rows(&all))
}

/// What was drawn: how many runs had each.
fn rows(all: &[Drawn]) -> Vec<(String, u64)> {
    let runs = |name: &str, has: &dyn Fn(&Run) -> bool| {
        let count = all.iter().filter(|drawn| has(&drawn.run)).count();
        (name.to_string(), count as u64)
    };
    let mut rows = vec![
        runs("graphs", &|_| true),
        runs("no object", &|run| run.state.objects.is_empty()),
        runs("256 objects", &|run| {
            run.state.objects.len() == MOST_OBJECTS
        }),
        runs("a stopped run", &|run| matches!(run.end, End::Stopped(_))),
        runs("an edge to itself", &|run| {
            any_field(run, |number, fields, field| {
                fields[field] == Value::Obj(number)
            })
        }),
        runs("two edges to one", &|run| {
            any_field(run, |_, fields, field| {
                fields[..field].contains(&fields[field])
            })
        }),
    ];
    for cap in Cap::ALL {
        let has = |run: &Run| run.state.objects.iter().any(|object| object.cap == cap);
        rows.push(runs(&format!("a node {}", cap.word()), &has));
    }
    for field in 0..MOST_FIELDS {
        let has = |run: &Run| any_field(run, |_, _, place| place == field);
        rows.push(runs(&format!("an edge of field {}", field), &has));
    }
    rows
}

/// Whether it holds of some field of some object.
fn any_field(run: &Run, holds: impl Fn(u16, &[Value], usize) -> bool) -> bool {
    let mut objects = run.state.objects.iter().enumerate();
    objects.any(|(number, object)| {
        (0..object.fields.len()).any(|field| holds(number as u16, &object.fields, field))
    })
}

#[cfg(test)]
mod tests {
    use super::*;
    use second::input::drawn as printed;

    const INPUT: &str =
        "(kind (fields 0) (does))\n(kind (fields 2) (does))\n(thread)\n(let (new imm 0))\n\
                         (let (new unsafe 1 (read 1) (read 1)))\n(give (take 2))\n(turns 0 0)\n";

    /// The drawing of the input with a change, as if box draw had printed it.
    fn changed(from: &str, to: &str) -> Drawn {
        let text = String::from_utf8(printed(INPUT.as_bytes())).unwrap();
        assert!(text.contains(from), "no {} in {}", from, text);
        let (script, turns) = accepted(INPUT.as_bytes()).unwrap();
        Drawn {
            name: "a test".to_string(),
            input: INPUT.as_bytes().to_vec(),
            run: run(&script, &turns),
            text: text.replacen(from, to, 1).into_bytes(),
        }
    }

    #[test]
    fn a_drawing_is_well() {
        let all = [changed("", ""), changed("", "")];
        assert!(held(&all).is_ok());
        assert!(pictured(&all).is_ok());
    }

    /// What Graphviz reads must be all that there is, and nothing else.
    #[test]
    fn each_part_is_compared() {
        for (from, to) in [
            ("digraph", "strict digraph"),
            ("digraph objects", "digraph object"),
            ("digraph objects", "graph objects"),
            ("style=filled", "style=dashed"),
            ("label=\"0 imm\"", "label=\"0 iso\""),
            ("label=\"0 imm\"", "label=\"1 imm\""),
            ("shape=box", "shape=ellipse"),
            ("fillcolor=salmon", "fillcolor=khaki"),
            ("  1 -> 0 [label=\"1\"];\n", ""),
            ("  1 -> 0 [label=\"1\"];\n", "  1 -> 0 [label=\"2\"];\n"),
            ("  1 -> 0 [label=\"1\"];\n", "  0 -> 1 [label=\"1\"];\n"),
            ("  1 -> 0 [label=\"1\"];\n", "  1 -> 1 [label=\"1\"];\n"),
            ("}", "  2 [label=\"2 imm\"];\n}"),
            ("}", "  1 -> 0 [label=\"2\"];\n}"),
            ("}", "} digraph objects {}"),
            ("}", ""),
            ("[label", "[[label"),
        ] {
            assert!(held(&[changed(from, to)]).is_err(), "{} to {}", from, to);
        }
    }

    /// gvpr takes any word for a shape or a colour; dot knows them.
    #[test]
    fn a_shape_and_a_colour_must_be_known() {
        for (from, to) in [("shape=box", "shape=boxy"), ("=salmon", "=salmony")] {
            assert!(pictured(&[changed(from, to)]).is_err(), "{}", to);
        }
    }
}
