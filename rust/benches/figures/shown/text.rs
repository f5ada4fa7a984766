//! Times, counts and tables as text.

use std::time::Duration;

/// A table in Markdown.
pub fn table(header: &[&str], rows: impl IntoIterator<Item = Vec<String>>) -> String {
    let line = |cells: Vec<String>| format!("| {} |\n", cells.join(" | "));
    let head = line(header.iter().map(ToString::to_string).collect());
    let rule = format!("|{}\n", "---|".repeat(header.len()));
    head + &rule + &rows.into_iter().map(line).collect::<String>()
}

/// Three digits and a unit.
pub fn time(time: Duration) -> String {
    match time.as_secs_f64() {
        t if t < 999.5e-9 => format!("{} ns", digits(t * 1e9)),
        t if t < 999.5e-6 => format!("{} µs", digits(t * 1e6)),
        t if t < 999.5e-3 => format!("{} ms", digits(t * 1e3)),
        t => format!("{} s", digits(t)),
    }
}

/// Three digits.
pub fn digits(number: f64) -> String {
    match number {
        n if n < 0.009995 => format!("{n:.5}"),
        n if n < 0.09995 => format!("{n:.4}"),
        n if n < 0.9995 => format!("{n:.3}"),
        n if n < 9.995 => format!("{n:.2}"),
        n if n < 99.95 => format!("{n:.1}"),
        n => format!("{n:.0}"),
    }
}

/// A count with a comma before each group of three digits.
pub fn count(count: u64) -> String {
    let digits = count.to_string();
    let starts_group = |place: usize| place > 0 && (digits.len() - place) % 3 == 0;
    let part =
        |(place, digit): (usize, char)| if starts_group(place) { format!(",{digit}") } else { digit.to_string() };
    digits.chars().enumerate().map(part).collect()
}
