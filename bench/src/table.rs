//! The figures as tables in Markdown.

use std::fmt::Write;

use crate::copies::{self, COUNTED};
use crate::entrants::ENTRANTS;
use crate::figures::{Cost, Figures};
use crate::workload::Workload;

pub type Measured = (Workload, Vec<Figures>);

const COST: &str =
    "µs: mean, 99th percentile, and in brackets the ratio of the desk's mean to this one's.";

pub fn tables(about: &str, measured: &[Measured]) -> String {
    let mut text = format!("{about}\n\n");
    workloads(&mut text, measured);
    costs(&mut text, "A request", measured, |f| f.request);
    costs(&mut text, "A step", measured, |f| f.step);
    costs(&mut text, "An answer, for each block", measured, |f| {
        f.answer
    });
    head(&mut text, "Entries held", "Mean, peak.", &entrants());
    each(&mut text, measured, |figures, _| {
        let mean = grouped(figures.held_mean.round() as u64);
        format!("{mean}, {}", grouped(figures.held_peak as u64))
    });
    head(
        &mut text,
        "Bytes of state",
        "The most in a run.",
        &entrants(),
    );
    each(&mut text, measured, |figures, _| {
        grouped(figures.bytes as u64)
    });
    write_copies(&mut text);
    text
}

fn row(text: &mut String, cells: impl IntoIterator<Item = String>) {
    for cell in cells {
        write!(text, "| {cell} ").expect("a string takes all");
    }
    text.push_str("|\n");
}

/// A title, a note, the heads of the columns and the line below them.
fn head(text: &mut String, title: &str, note: &str, columns: &[&str]) {
    writeln!(text, "### {title}\n\n{note}\n").expect("a string takes all");
    row(text, columns.iter().map(|column| column.to_string()));
    row(text, columns.iter().map(|_| "---".to_string()));
}

/// The heads of a table with a column for each entrant.
fn entrants() -> Vec<&'static str> {
    let names = ENTRANTS.iter().map(|entrant| entrant.name);
    ["workload"].into_iter().chain(names).collect()
}

fn workloads(text: &mut String, measured: &[Measured]) {
    let note = "The window named is the longest of the boards.";
    let columns = [
        "workload",
        "sum of needs",
        "requests in a window",
        "requests timed",
        "steps timed",
        "of these with answers",
    ];
    head(text, "Workloads", note, &columns);
    for (workload, all) in measured {
        let numbers = [
            workload.needs(),
            u64::from(workload.longest() * workload.rate),
            u64::from(workload.timed * workload.rate),
            u64::from(workload.timed),
            all[0].answers as u64,
        ];
        let cells = numbers.map(grouped);
        row(text, [workload.name.clone()].into_iter().chain(cells));
    }
    text.push('\n');
}

fn costs(text: &mut String, title: &str, measured: &[Measured], part: fn(&Figures) -> Cost) {
    head(text, title, COST, &entrants());
    each(text, measured, |figures, desk| {
        let (cost, desk_cost) = (part(figures), part(desk));
        let own = format!("{}, {}", micros(cost.mean), micros(cost.high));
        if std::ptr::eq(figures, desk) {
            return own;
        }
        format!("{own} ({})", digits(desk_cost.mean / cost.mean))
    });
}

/// A row for each workload: what a cell says of an entrant, beside the desk.
fn each(text: &mut String, measured: &[Measured], cell: impl Fn(&Figures, &Figures) -> String) {
    for (workload, all) in measured {
        let cells = all.iter().map(|figures| cell(figures, &all[0]));
        row(text, [workload.name.clone()].into_iter().chain(cells));
    }
    text.push('\n');
}

fn write_copies(text: &mut String) {
    let note = "Of the desk, in one call; its list is full (32 boards of 8 views, k 4). \
                Copies of 16 KB and above, and the bytes of all copies.";
    let archives = COUNTED.iter().map(|(name, _)| *name);
    let columns: Vec<&str> = ["call"].into_iter().chain(archives).collect();
    head(text, "Copies", note, &columns);
    for (call, counts) in copies::counted() {
        let cell = |[large, bytes]: [u64; 2]| format!("{}, {}", grouped(large), grouped(bytes));
        let cells = counts.into_iter().map(cell);
        row(text, [call.to_string()].into_iter().chain(cells));
    }
    text.push('\n');
}

fn micros(nanos: f64) -> String {
    digits(nanos / 1_000.0)
}

/// Three digits that count.
fn digits(figure: f64) -> String {
    let whole = figure.max(0.001).log10().floor() as i32 + 1;
    format!("{figure:.*}", (3 - whole).clamp(0, 3) as usize)
}

fn grouped(number: u64) -> String {
    let digits = number.to_string();
    let mut text = String::new();
    for (place, digit) in digits.chars().enumerate() {
        if place > 0 && (digits.len() - place).is_multiple_of(3) {
            text.push(',');
        }
        text.push(digit);
    }
    text
}
