//! The commands of the second desk.

use std::io::{self, Read, Write};
use std::path::PathBuf;
use std::process::ExitCode;

use second::check;
use second::compare::{Comparison, Task};
use second::generate::{self, Kind};
use second::outcome::Outcome;
use second::rules::Rules;
use second::text;

const USAGE: &str = "\
usage: second desk [--fault NAME] < messages
       second from-text [--fault NAME] < lines > messages
       second to-text < messages > lines
       second generate lesson|damage|edge|long SEED > messages
       second generate lines|slip|range|wide|pages SEED > lines
       second compare [--seed S] [--files N] [--fault NAME] [--keep DIRECTORY] -- CONSOLE [ARGUMENT..]
       second compare-text [--seed S] [--files N] [--fault NAME] [--keep DIRECTORY] -- FROM-TEXT [ARGUMENT..]
       second check
";

/// The status for a command line or a stream that is of no use.
const TROUBLE: u8 = 2;

fn main() -> ExitCode {
    let words: Vec<String> = std::env::args_os()
        .skip(1)
        .map(|word| word.to_string_lossy().into_owned())
        .collect();
    let words: Vec<&str> = words.iter().map(String::as_str).collect();
    let result = match words.split_first() {
        Some((&"desk", rest)) => second(Task::Desk, rest),
        Some((&"from-text", rest)) => second(Task::FromText, rest),
        Some((&"to-text", [])) => input().and_then(|file| finish(&text::to_text(&file))),
        Some((&"generate", rest)) => generate(rest),
        Some((&"compare", rest)) => compare(Task::Desk, rest),
        Some((&"compare-text", rest)) => compare(Task::FromText, rest),
        Some((&"check", [])) => Ok(status(check::run())),
        _ => Err(String::from(USAGE)),
    };
    result.unwrap_or_else(|trouble| {
        eprint!("{trouble}");
        ExitCode::from(TROUBLE)
    })
}

fn status(is_good: bool) -> ExitCode {
    if is_good {
        ExitCode::SUCCESS
    } else {
        ExitCode::FAILURE
    }
}

/// Runs a second program from standard input.
fn second(task: Task, words: &[&str]) -> Result<ExitCode, String> {
    let rules = match words {
        [] => Rules::sound(),
        ["--fault", name] => fault(task, name)?,
        _ => return Err(String::from(USAGE)),
    };
    finish(&task.outcome(&input()?, rules))
}

fn input() -> Result<Vec<u8>, String> {
    let mut input = Vec::new();
    io::stdin()
        .read_to_end(&mut input)
        .map_err(|error| format!("standard input: {error}\n"))?;
    Ok(input)
}

fn output(bytes: &[u8]) -> Result<(), String> {
    let mut output = io::stdout().lock();
    output
        .write_all(bytes)
        .and_then(|()| output.flush())
        .map_err(|error| format!("standard output: {error}\n"))
}

fn finish(outcome: &Outcome) -> Result<ExitCode, String> {
    output(&outcome.output)?;
    io::stderr()
        .write_all(&outcome.errors)
        .map_err(|error| format!("standard error: {error}\n"))?;
    Ok(status(outcome.status == Some(0)))
}

fn generate(words: &[&str]) -> Result<ExitCode, String> {
    let [kind, seed] = words else {
        return Err(String::from(USAGE));
    };
    let kind = Kind::named(kind).ok_or_else(|| format!("no kind {kind}\n{USAGE}"))?;
    output(&generate::generate(kind, number(seed)?))?;
    Ok(ExitCode::SUCCESS)
}

fn compare(task: Task, words: &[&str]) -> Result<ExitCode, String> {
    let end = words.iter().position(|word| *word == "--");
    let (options, command) = words.split_at(end.ok_or(USAGE)?);
    let mut comparison = Comparison {
        task,
        program: command[1..].iter().map(|word| word.to_string()).collect(),
        start: 0,
        files: 400,
        fault: None,
        rules: Rules::sound(),
        keep: None,
    };
    for option in options.chunks(2) {
        match option {
            ["--seed", seed] => comparison.start = number(seed)?,
            ["--files", files] => comparison.files = number(files)?,
            ["--keep", directory] => comparison.keep = Some(PathBuf::from(directory)),
            ["--fault", name] => {
                comparison.rules = fault(task, name)?;
                comparison.fault = Some(name.to_string());
            }
            _ => return Err(String::from(USAGE)),
        }
    }
    // A comparison of nothing would agree with anything.
    if comparison.program.is_empty() || comparison.files == 0 {
        return Err(String::from(USAGE));
    }
    Ok(status(comparison.run() == 0))
}

fn fault(task: Task, name: &str) -> Result<Rules, String> {
    Rules::named(task.faults(), name).ok_or_else(|| {
        let mut text = format!("no fault {name}; there are:\n");
        for (_, name, what) in task.faults() {
            text += &format!("  {name}: {what}\n");
        }
        text
    })
}

fn number(word: &str) -> Result<u64, String> {
    word.parse()
        .map_err(|_| format!("{word} is no number\n{USAGE}"))
}
