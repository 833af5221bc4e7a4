//! Holds a program against the second one on many generated files.

use std::fs;
use std::io::{self, Write};
use std::path::{Path, PathBuf};
use std::sync::atomic::{AtomicU64, Ordering};
use std::thread;

use crate::console;
use crate::generate::{generate, numbered, numbered_text, Kind};
use crate::limits::MESSAGE_LENGTH;
use crate::outcome::Outcome;
use crate::rules::{Faults, Rules, DESK_FAULTS, TEXT_FAULTS};
use crate::run::{run, Handing};
use crate::text;

/// How many programs run at a time.
const WORKERS: usize = 2;

/// What there is a second program for.
#[derive(Clone, Copy, Debug, PartialEq, Eq)]
pub enum Task {
    Desk,
    FromText,
}

impl Task {
    /// The command of the second program.
    pub fn name(self) -> &'static str {
        match self {
            Task::Desk => "desk",
            Task::FromText => "from-text",
        }
    }

    pub fn faults(self) -> &'static Faults {
        match self {
            Task::Desk => DESK_FAULTS,
            Task::FromText => TEXT_FAULTS,
        }
    }

    /// Kind and seed of a numbered file of a run.
    pub fn numbered(self, start: u64, number: u64) -> (Kind, u64) {
        match self {
            Task::Desk => numbered(start, number),
            Task::FromText => numbered_text(start, number),
        }
    }

    /// What the second program leaves behind on a file.
    pub fn outcome(self, file: &[u8], rules: Rules) -> Outcome {
        match self {
            Task::Desk => Outcome::sound(console::output(file, rules)),
            Task::FromText => text::from_text(file, rules),
        }
    }

    /// The first place where two outputs differ, from each side.
    fn first_difference(self, program: &[u8], second: &[u8]) -> Option<String> {
        match self {
            Task::Desk => first_difference("line", lines(program), lines(second)),
            Task::FromText => first_difference(
                "message",
                program.chunks(MESSAGE_LENGTH),
                second.chunks(MESSAGE_LENGTH),
            ),
        }
    }
}

pub struct Comparison {
    pub task: Task,
    /// The program's command and its arguments.
    pub program: Vec<String>,
    pub start: u64,
    pub files: u64,
    /// The fault planted in the second program, if any, for the printed commands.
    pub fault: Option<String>,
    pub rules: Rules,
    /// Where the files that differ are kept.
    pub keep: Option<PathBuf>,
}

impl Comparison {
    /// Prints each difference and the sum, and returns how many files differ.
    pub fn run(&self) -> u64 {
        let next = AtomicU64::new(0);
        let differing = AtomicU64::new(0);
        thread::scope(|scope| {
            for _ in 0..WORKERS {
                scope.spawn(|| loop {
                    let number = next.fetch_add(1, Ordering::Relaxed);
                    if number >= self.files {
                        break;
                    }
                    let (kind, seed) = self.task.numbered(self.start, number);
                    if let Some(difference) = self.difference(kind, seed) {
                        differing.fetch_add(1, Ordering::Relaxed);
                        print(&difference);
                    }
                });
            }
        });
        let differing = differing.into_inner();
        print(&format!(
            "{} files compared, {differing} differ\n",
            self.files
        ));
        differing
    }

    /// What differs on one file, as text, or nothing.
    fn difference(&self, kind: Kind, seed: u64) -> Option<String> {
        let file = generate(kind, seed);
        let handing = Handing::drawn(seed, file.len());
        let second = self.task.outcome(&file, self.rules);
        let program = run(&self.program, &file, handing);
        let what = match &program {
            Ok(program) => self.first_difference(program, &second)?,
            Err(error) => format!("the program did not run: {error}\n"),
        };
        let name = kind.name();
        let mut text = format!("differs: kind {name}, seed {seed}, handed {handing}\n{what}");
        text += &self.commands(kind, seed);
        if let Some(directory) = &self.keep {
            let name = format!("{name}-{seed}");
            text += &match keep(directory, &name, &file, program.ok().as_ref(), &second) {
                Ok(()) => format!("kept: {}\n", directory.join(name).display()),
                Err(error) => format!("not kept: {error}\n"),
            };
        }
        Some(text)
    }

    fn first_difference(&self, program: &Outcome, second: &Outcome) -> Option<String> {
        if program == second {
            return None;
        }
        let output = self
            .task
            .first_difference(&program.output, &second.output)
            .unwrap_or_default();
        let errors = first_difference(
            "standard error, line",
            lines(&program.errors),
            lines(&second.errors),
        );
        let errors = errors.unwrap_or_default();
        let status = if program.status == second.status {
            String::new()
        } else {
            let (one, other) = (status(program), status(second));
            format!("status, program: {one}\nstatus, second:  {other}\n")
        };
        Some(output + &errors + &status)
    }

    /// The commands that run both sides on the file again.
    fn commands(&self, kind: Kind, seed: u64) -> String {
        let own = std::env::current_exe().unwrap_or_else(|_| PathBuf::from("second"));
        let own = quoted(&own.to_string_lossy());
        let generate = format!("{own} generate {} {seed}", kind.name());
        let program: Vec<String> = self.program.iter().map(|word| quoted(word)).collect();
        let fault = match &self.fault {
            Some(name) => format!(" --fault {name}"),
            None => String::new(),
        };
        format!(
            "again: {generate} | {}\nsecond: {generate} | {own} {}{fault}\n",
            program.join(" "),
            self.task.name()
        )
    }
}

fn lines(text: &[u8]) -> impl Iterator<Item = &[u8]> {
    text.split(|&byte| byte == b'\n')
}

/// The first piece that differs, from each side, counted from 0.
fn first_difference<'a>(
    piece: &str,
    mut program: impl Iterator<Item = &'a [u8]>,
    mut second: impl Iterator<Item = &'a [u8]>,
) -> Option<String> {
    for number in 0.. {
        let (one, other) = (program.next(), second.next());
        if one != other {
            let (one, other) = (shown(one), shown(other));
            return Some(format!(
                "{piece} {number}, program: {one}\n{piece} {number}, second:  {other}\n"
            ));
        }
        if one.is_none() {
            break;
        }
    }
    None
}

fn shown(piece: Option<&[u8]>) -> String {
    match piece {
        Some(piece) => format!("\"{}\"", piece.escape_ascii()),
        None => String::from("(none)"),
    }
}

fn status(outcome: &Outcome) -> String {
    match outcome.status {
        Some(status) => status.to_string(),
        None => String::from("(ended by a signal)"),
    }
}

fn keep(
    directory: &Path,
    name: &str,
    file: &[u8],
    program: Option<&Outcome>,
    second: &Outcome,
) -> io::Result<()> {
    fs::create_dir_all(directory)?;
    let write = |end: &str, bytes: &[u8]| fs::write(directory.join(format!("{name}.{end}")), bytes);
    write("input", file)?;
    if let Some(program) = program {
        write("program", &program.output)?;
        write("program-errors", &program.errors)?;
    }
    write("second", &second.output)?;
    write("second-errors", &second.errors)
}

/// A word as a shell takes it.
fn quoted(word: &str) -> String {
    let is_plain =
        |character: char| character.is_ascii_alphanumeric() || "/._-+=:,".contains(character);
    if !word.is_empty() && word.chars().all(is_plain) {
        return String::from(word);
    }
    format!("'{}'", word.replace('\'', "'\\''"))
}

/// Prints a whole text at once; nobody reading is no reason to stop.
fn print(text: &str) {
    let _ = io::stdout().lock().write_all(text.as_bytes());
}
