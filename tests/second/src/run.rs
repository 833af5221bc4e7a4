//! Runs a program on a file, which is handed to its standard input.

use std::fmt;
use std::io::{self, Read, Write};
use std::os::fd::OwnedFd;
use std::os::unix::net::UnixDatagram;
use std::process::{Command, Stdio};
use std::thread;
use std::time::Duration;

use crate::generate::random::Random;
use crate::outcome::Outcome;

/// How a file is handed over: a program must do the same with any pieces.
#[derive(Clone, Copy, Debug, PartialEq, Eq)]
pub enum Handing {
    Whole,
    /// Some hundred pieces of drawn lengths, with a pause after each.
    Pieces {
        seed: u64,
    },
    /// Every read gets one byte.
    Bytes,
}

/// The longest file that is handed over byte by byte.
const SHORT: usize = 1_500;
/// Long enough for a program that waits to take the piece.
const PAUSE: Duration = Duration::from_micros(100);

impl Handing {
    /// How the file of a seed is handed over: one in two in pieces of some kind.
    pub fn drawn(seed: u64, length: usize) -> Handing {
        // Other numbers than those the file was drawn with.
        match Random::new(!seed).between(0, 3) {
            0 if length <= SHORT => Handing::Bytes,
            0 | 1 => Handing::Pieces { seed },
            _ => Handing::Whole,
        }
    }
}

impl fmt::Display for Handing {
    fn fmt(&self, formatter: &mut fmt::Formatter) -> fmt::Result {
        formatter.write_str(match self {
            Handing::Whole => "whole",
            Handing::Pieces { .. } => "in pieces",
            Handing::Bytes => "byte by byte",
        })
    }
}

/// Runs a command with its arguments. The file is handed over and the errors are
/// read by threads of their own, so that no stream waits for another.
pub fn run(command: &[String], file: &[u8], handing: Handing) -> io::Result<Outcome> {
    let Some((program, arguments)) = command.split_first() else {
        return Err(io::Error::other("no command"));
    };
    let (input, hand): (OwnedFd, Box<dyn FnOnce() -> io::Result<()> + Send>) = match handing {
        Handing::Whole => {
            let (far, mut near) = io::pipe()?;
            (far.into(), Box::new(move || near.write_all(file)))
        }
        Handing::Pieces { seed } => {
            let (far, near) = io::pipe()?;
            let random = Random::new(seed);
            (far.into(), Box::new(move || in_pieces(near, file, random)))
        }
        Handing::Bytes => {
            let (near, far) = UnixDatagram::pair()?;
            (far.into(), Box::new(move || byte_by_byte(near, file)))
        }
    };
    let mut child = Command::new(program)
        .args(arguments)
        // A shell that misses the caller's locale says so on standard error.
        .env("LC_ALL", "C")
        .stdin(Stdio::from(input))
        .stdout(Stdio::piped())
        .stderr(Stdio::piped())
        .spawn()?;
    let (output, errors) = (child.stdout.take(), child.stderr.take());
    let (output, errors) = thread::scope(|scope| {
        // A program that stops reading early shows by its outcome.
        scope.spawn(hand);
        let errors = scope.spawn(|| read_all(errors));
        (read_all(output), errors.join())
    });
    let status = child.wait()?.code();
    Ok(Outcome {
        output: output?,
        errors: errors.unwrap_or_else(|_| Err(io::Error::other("standard error was not read")))?,
        status,
    })
}

fn in_pieces(mut pipe: impl Write, file: &[u8], mut random: Random) -> io::Result<()> {
    let longest = (file.len() / 50).max(16) as u32;
    let mut rest = file;
    while !rest.is_empty() {
        let length = random.between(1, longest) as usize;
        let (piece, others) = rest.split_at(length.min(rest.len()));
        pipe.write_all(piece)?;
        thread::sleep(PAUSE);
        rest = others;
    }
    Ok(())
}

/// A read takes one datagram, however many wait; an empty one is the end of the
/// file, as often as the program asks for it.
fn byte_by_byte(socket: UnixDatagram, file: &[u8]) -> io::Result<()> {
    for byte in file.chunks(1) {
        socket.send(byte)?;
    }
    loop {
        socket.send(&[])?;
    }
}

fn read_all(stream: Option<impl Read>) -> io::Result<Vec<u8>> {
    let mut bytes = Vec::new();
    if let Some(mut stream) = stream {
        stream.read_to_end(&mut bytes)?;
    }
    Ok(bytes)
}
