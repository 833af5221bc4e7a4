//! What the proved desk costs, beside peers that answer the same boards.

mod calls;
mod check;
mod contest;
mod copies;
mod entrants;
mod figures;
mod peers;
mod plan;
mod plot;
mod proved;
mod reference;
mod table;
mod workload;

use std::path::Path;
use std::process::ExitCode;
use std::{env, fs};

use entrants::{Entrant, ENTRANTS};
use figures::Figures;
use plan::{Choice, FEW, MANY, USUAL_COUNT};
use plot::Curve;

const USAGE: &str = "\
usage: bench measure RESULTS ABOUT [--all]
       bench call NUMBER
";

/// So often every workload is run.
const RUNS: usize = 5;

fn main() -> ExitCode {
    let words: Vec<String> = env::args().skip(1).collect();
    let words: Vec<&str> = words.iter().map(String::as_str).collect();
    let done = match words[..] {
        ["measure", results, about] => measure(Path::new(results), about, false),
        ["measure", results, about, "--all"] => measure(Path::new(results), about, true),
        ["call", number] => call(number),
        _ => Err(USAGE.to_string()),
    };
    match done {
        Ok(()) => ExitCode::SUCCESS,
        Err(trouble) => {
            eprintln!("bench: {trouble}");
            ExitCode::FAILURE
        }
    }
}

fn measure(results: &Path, about: &str, all: bool) -> Result<(), String> {
    eprintln!("checking every contestant against the second desk");
    check::run()?;
    let choices = plan::choices(all);
    let mut measured = Vec::new();
    let workloads = choices.iter().map(|choice| choice.workload());
    for workload in workloads.chain(plan::worst()) {
        eprintln!("{}", workload.name);
        let figures = figures::measure(&workload, RUNS)?;
        measured.push((workload, figures));
    }
    let text = table::tables(about, &measured);
    print!("{text}");
    write(results, "table.md", &text)?;

    let figures = measured.iter().map(|(_, figures)| figures);
    let points: Vec<Point> = choices.into_iter().zip(figures).collect();
    plots(results, &points)
}

type Point<'a> = (Choice, &'a Vec<Figures>);

fn plots(results: &Path, points: &[Point]) -> Result<(), String> {
    for rate in [FEW, MANY] {
        let title = format!("Mean cost of a request, {rate} requests to a tick");
        let curves = curves(points, |choice| {
            (choice.rate == rate).then_some(choice.count)
        });
        let text = plot::svg(&title, "boards", &curves);
        write(results, &format!("boards-{rate}.svg"), &text)?;
    }
    let title = format!("Mean cost of a request, {USUAL_COUNT} boards");
    let curves = curves(points, |choice| {
        (choice.count == USUAL_COUNT).then_some(choice.rate)
    });
    let text = plot::svg(&title, "requests to a tick", &curves);
    write(results, "rates.svg", &text)
}

/// A curve for each entrant, over the usual workloads that have a place on it.
fn curves(points: &[Point], across: impl Fn(Choice) -> Option<u32>) -> Vec<Curve> {
    let on_it = |number: usize| {
        let usual = points.iter().filter(|(choice, _)| choice.is_usual());
        let point = |(choice, figures): &Point| {
            let nanos = figures[number].request.mean;
            across(*choice).map(|place| (f64::from(place), nanos))
        };
        usual.filter_map(point).collect()
    };
    let curve = |(number, entrant): (usize, &Entrant)| Curve {
        name: entrant.name,
        points: on_it(number),
    };
    ENTRANTS.iter().enumerate().map(curve).collect()
}

fn write(results: &Path, name: &str, text: &str) -> Result<(), String> {
    let path = results.join(name);
    fs::write(&path, text).map_err(|error| format!("{}: {error}", path.display()))
}

/// Makes one call of the proved desk, for a program that counts instructions.
fn call(number: &str) -> Result<(), String> {
    let calls = calls::calls(proved::desk_take_counted);
    let number: usize = number.parse().map_err(|_| USAGE.to_string())?;
    let call = calls.get(number).ok_or("no such call")?;
    call.made(proved::desk_take);
    println!("{}", call.name);
    Ok(())
}
