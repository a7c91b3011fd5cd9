//! What the bench prints: a table, and a bar for each time.

/// The times of one load, in ns a turn (for reading and writing, ns a byte). A load without a Lua side has none.
pub struct Row {
    pub name: String,
    pub ours: f64,
    pub second: f64,
    pub lua: Option<f64>,
}

const WIDTH: f64 = 50.0;

pub fn table(rows: &[Row]) -> String {
    let mut text = format!(
        "{:<24}{:>9}{:>9}{:>8}{:>9}{:>8}\n",
        "", "box", "second", "ratio", "Lua", "ratio"
    );
    for row in rows {
        text.push_str(&format!(
            "{:<24}{:>9.1}{:>9.1}{:>8.2}",
            row.name,
            row.ours,
            row.second,
            row.ours / row.second
        ));
        match row.lua {
            Some(lua) => text.push_str(&format!("{:>9.1}{:>8.2}\n", lua, row.ours / lua)),
            None => text.push_str(&format!("{:>9}{:>8}\n", "-", "-")),
        }
    }
    text
}

/// Three bars for each load, the slowest at full width.
pub fn bars(rows: &[Row]) -> String {
    let mut text = String::new();
    for row in rows {
        let times = [
            ("box", Some(row.ours)),
            ("second", Some(row.second)),
            ("Lua", row.lua),
        ];
        let slowest = times
            .iter()
            .filter_map(|(_, time)| *time)
            .fold(0.0, f64::max);
        text.push_str(&format!("\n{}\n", row.name));
        for (name, time) in times {
            if let Some(time) = time {
                let length = (time / slowest * WIDTH).round().max(1.0) as usize;
                text.push_str(&format!(
                    "  {:<7}{} {:.1} ns\n",
                    name,
                    "#".repeat(length),
                    time
                ));
            }
        }
    }
    text
}

/// The Lua side's own lines: a load's name, a tab, its ns a step.
pub fn lua_time(lines: &str, name: &str) -> Option<f64> {
    let line = lines
        .lines()
        .find(|line| line.split('\t').next() == Some(name))?;
    line.split('\t').nth(1)?.parse().ok()
}
