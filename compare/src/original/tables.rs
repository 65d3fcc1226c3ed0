//! Tables in Markdown, a row for each time to the meeting and one for all.

use super::ends::NAMES;

/// What is counted in a row; rows add up to the row of all.
pub trait Counts: Clone {
    fn add(&mut self, other: &Self);

    /// Whether there is nothing to show.
    fn is_empty(&self) -> bool;
}

pub type Rows<C> = [C; NAMES.len()];

/// A title, the columns' names, and what they hold of a row.
pub fn print<C: Counts>(
    title: &str,
    columns: &[&str],
    rows: &Rows<C>,
    cells: impl Fn(&C) -> Vec<String>,
) {
    println!("\n{title}\n");
    println!("| {} |", columns.join(" | "));
    println!("|---|{}", "---:|".repeat(columns.len() - 1));
    NAMES.iter().zip(rows).for_each(|(name, row)| print_row(name, row, &cells));
    let [mut all, rest @ ..] = rows.clone();
    rest.iter().for_each(|row| all.add(row));
    print_row("all", &all, &cells);
}

fn print_row<C: Counts>(name: &str, row: &C, cells: impl Fn(&C) -> Vec<String>) {
    if !row.is_empty() {
        println!("| {name} | {} |", cells(row).join(" | "));
    }
}

/// A part in percent.
pub fn share(part: u64, of: u64) -> String {
    if part == 0 { "0".into() } else { format!("{:.3}", 100.0 * part as f64 / of as f64) }
}

/// Seconds in a few digits.
pub fn seconds(x: f64) -> String {
    match x {
        0.0 => "0".into(),
        _ if x >= 10.0 => format!("{x:.1}"),
        _ if x >= 1e-3 => format!("{x:.4}"),
        _ => format!("{x:.1e}"),
    }
}
