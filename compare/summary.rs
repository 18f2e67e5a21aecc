//! The table in which the comparison ends.

/// A line of it: what was compared, how many, and how often the original panicked on the way.
pub struct Row {
    what: String,
    count: u64,
    panics: u64,
}

/// Without a panic.
pub fn row(what: impl Into<String>, count: u64) -> Row {
    Row {
        what: what.into(),
        count,
        panics: 0,
    }
}

impl Row {
    pub fn with_panics(self, panics: u64) -> Row {
        Row { panics, ..self }
    }
}

/// A part that is done: its name, its lines, its seconds.
pub type Done = (&'static str, Vec<Row>, f64);

/// A number with its thousands apart.
fn grouped(n: u64) -> String {
    let digits = n.to_string();
    let mut out = String::new();
    for (i, digit) in digits.chars().enumerate() {
        if i > 0 && (digits.len() - i) % 3 == 0 {
            out.push(',');
        }
        out.push(digit);
    }
    out
}

/// Every part has found no difference: the first one would have ended the run.
pub fn print(parts: &[Done]) {
    let widest = parts.iter().flat_map(|part| &part.1);
    let widest = widest.map(|row| row.what.len()).max().unwrap_or(0);
    let line = |part: &str, what: &str, rest: [&str; 4]| {
        let [count, differences, panics, seconds] = rest;
        println!(
            "{part:<13} {what:<widest$} {count:>15} {differences:>11} {panics:>22} {seconds:>7}"
        );
    };
    let head = [
        "how many",
        "differences",
        "panics of the original",
        "seconds",
    ];
    line("part", "what was compared", head);
    for (part, rows, seconds) in parts {
        for (i, row) in rows.iter().enumerate() {
            let seconds = format!("{seconds:.1}");
            let (part, seconds) = if i == 0 {
                (*part, &seconds[..])
            } else {
                ("", "")
            };
            let panics = grouped(row.panics);
            line(
                part,
                &row.what,
                [&grouped(row.count), "0", &panics, seconds],
            );
        }
    }
}
