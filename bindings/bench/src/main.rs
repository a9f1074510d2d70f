//! Measures the verified library beside plain Rust and other libraries, and prints a table. With a file named, it also
//! draws nanoseconds per byte over the length of values.

mod addresses;
mod base;
mod calls;
mod feeding;
mod fields;
mod listing;
mod measure;
mod plot;
mod varints;

use std::env;
use std::fs;
use std::process::ExitCode;

use feeding::{Cell, Role};

/// A row of the table.
pub struct Row {
    pub work: String,
    pub peer: &'static str,
    /// Nanoseconds and what they are for.
    pub ours: f64,
    pub theirs: f64,
    pub unit: &'static str,
    /// The largest ratio that is aimed at, where there is an aim.
    pub aim: Option<f64>,
}

impl Row {
    fn print(&self) {
        let ratio = self.ours / self.theirs;
        let aim = match self.aim {
            Some(aim) if ratio <= aim => format!("{aim:.2} | met"),
            Some(aim) => format!("{aim:.2} | missed"),
            None => "| ".to_string(),
        };
        println!(
            "| {} | {} | {:.2} | {:.2} | {} | {ratio:.2} | {aim} |",
            self.work, self.peer, self.ours, self.theirs, self.unit
        );
    }
}

fn table(title: &str, rows: Vec<Row>) {
    println!("## {title}\n");
    println!("| Work | Beside | Ours, ns | Other, ns | for | Ratio | Aim | |");
    println!("|---|---|---|---|---|---|---|---|");
    rows.iter().for_each(Row::print);
    println!();
}

/// The table beside the archive of an earlier revision, and the ratios of its parts.
fn table_before(revision: &str) {
    println!("## Beside the archive of {revision}\n");
    println!("| Work | Now, ns | Before, ns | for | Ratio |");
    println!("|---|---|---|---|---|");
    let mut parts = Vec::new();
    for (part, rows) in [
        ("feeding", feeding::rows_before()),
        ("varints", varints::rows_before()),
        ("listing", listing::rows_before()),
        ("judging, writing", calls::rows_before()),
        ("field", fields::rows_before()),
    ] {
        if rows.is_empty() {
            continue;
        }
        let mut ratios: Vec<f64> = Vec::new();
        for row in rows {
            let ratio = row.ours / row.theirs;
            println!(
                "| {} | {:.2} | {:.2} | {} | {ratio:.2} |",
                row.work, row.ours, row.theirs, row.unit
            );
            ratios.push(ratio);
        }
        ratios.sort_by(f64::total_cmp);
        let logarithms: f64 = ratios.iter().map(|ratio| ratio.ln()).sum();
        let mean = (logarithms / ratios.len() as f64).exp();
        let (least, most) = (ratios[0], ratios[ratios.len() - 1]);
        let count = ratios.len();
        parts.push(format!(
            "{part}: {least:.2} to {most:.2}, {mean:.2} in the geometric mean of {count}"
        ));
    }
    println!("\nNow divided by before, {}.\n", parts.join("; "));
}

fn plot(path: &str) -> std::io::Result<()> {
    let lengths = [
        1, 2, 4, 10, 20, 40, 100, 200, 400, 1_000, 1_200, 2_000, 4_000, 8_000, 16_000,
    ];
    let mut lines = vec![
        plot::Line::new("verified, endpoint", "#c0392b", false),
        plot::Line::new("independent, endpoint", "#2874a6", false),
        plot::Line::new("verified, intermediary", "#c0392b", true),
        plot::Line::new("independent, intermediary", "#2874a6", true),
        plot::Line::new("bare copy of the values", "#555555", false),
    ];
    for length in lengths {
        for (first, role) in [(0, Role::Endpoint), (2, Role::Intermediary)] {
            let times = feeding::measure(Cell {
                role,
                length,
                piece: 16_384,
            });
            let mut push = |line: usize, time| lines[line].points.push((length as f64, time));
            push(first, times.ours);
            push(first + 1, times.inlined);
            if role == Role::Endpoint {
                push(4, times.copy);
            }
        }
    }
    let title = "Reading a stream of equal capsules, pieces of 16,384 bytes";
    fs::write(path, plot::draw(title, &lines))
}

fn main() -> ExitCode {
    let arguments: Vec<String> = env::args().skip(1).collect();
    if arguments.len() > 1 {
        eprintln!("usage: bench [PLOT.svg]");
        return ExitCode::from(2);
    }
    let rounds = measure::ROUNDS;
    println!("Each figure is the least of {rounds} rounds in which all sides have their turn. Buffers are not cleared between passes.\n");
    table("Feeding", feeding::rows());
    table("Reading varints", varints::rows());
    table("Judging, writing", calls::rows());
    table("Address capsules", addresses::rows());
    table("The Capsule-Protocol field", fields::rows());
    if cfg!(base) {
        table_before(&env::var("MARUZHENU_BASE_NAME").unwrap_or_default());
    }
    if let Some(path) = arguments.first() {
        if let Err(error) = plot(path) {
            eprintln!("bench: {path}: {error}");
            return ExitCode::FAILURE;
        }
    }
    ExitCode::SUCCESS
}
