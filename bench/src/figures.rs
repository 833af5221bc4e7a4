//! Times the calls of a contestant.

use std::time::Instant;

use second::limits::REPLY_LENGTH;

use crate::contest::Contestant;
use crate::entrants::{Entrant, ENTRANTS, LISTED};
use crate::workload::{Request, Workload, UNTIMED};

/// Nanoseconds of many calls of one kind.
#[derive(Clone, Copy, Debug)]
pub struct Cost {
    pub mean: f64,
    /// The 99th percentile.
    pub high: f64,
}

#[derive(Clone, Debug)]
pub struct Figures {
    pub request: Cost,
    pub step: Cost,
    /// For each block.
    pub answer: Cost,
    /// So many steps had answers.
    pub answers: usize,
    pub held_mean: f64,
    pub held_peak: usize,
    pub bytes: usize,
}

/// What one run through the timed ticks gave.
#[derive(Default)]
struct Times {
    requests: Vec<f64>,
    steps: Vec<f64>,
    answers: Vec<f64>,
    held: Vec<usize>,
    bytes: usize,
    /// Of every answer: equal for all contestants.
    digest: u64,
}

/// The figures of every entrant, in their order.
pub fn measure(workload: &Workload, runs: usize) -> Result<Vec<Figures>, String> {
    let mut stream = workload.stream();
    stream.ticks(workload.warm);
    let ticks = stream.ticks(UNTIMED + workload.timed);
    let warm = all_warmed(workload);
    let mut times: Vec<Vec<Times>> = ENTRANTS.iter().map(|_| Vec::new()).collect();
    // By turns, so that what slows the machine for a while slows all of them.
    for _ in 0..runs {
        for (warm, times) in warm.iter().zip(&mut times) {
            times.push(timed(warm.copied().as_mut(), workload.warm, &ticks));
        }
    }
    for (entrant, own) in ENTRANTS.iter().zip(&times) {
        if own[0].digest != times[0][0].digest {
            let (name, workload) = (entrant.name, &workload.name);
            return Err(format!("{name} and the desk answer otherwise: {workload}"));
        }
    }
    Ok(times.iter().map(|own| figures_of(own)).collect())
}

/// Every entrant at the clock where the timing begins. A peer goes through all
/// that came before; a proved desk, which is slow at that, is put where the peer
/// with the same list stands.
fn all_warmed(workload: &Workload) -> Vec<Box<dyn Contestant>> {
    let listed = workload.warmed(&LISTED);
    let list = listed.list().expect("this peer keeps the list");
    let warmed = |entrant: &Entrant| {
        entrant
            .go_on(&workload.boards, workload.warm, &list)
            .unwrap_or_else(|| workload.warmed(entrant))
    };
    ENTRANTS.iter().map(warmed).collect()
}

fn timed(contestant: &mut dyn Contestant, clock: u32, ticks: &[Vec<Request>]) -> Times {
    let own = clock_cost();
    let mut times = Times::default();
    let mut reply = vec![0; REPLY_LENGTH];
    for (tick, requests) in ticks.iter().enumerate() {
        if tick == UNTIMED as usize {
            times = Times::default();
        }
        for request in requests {
            let start = Instant::now();
            contestant.request(request.topic, request.id, request.score);
            times.requests.push(since(start, own));
        }
        times.note_size(contestant);
        let target = clock + tick as u32 + 1;
        let start = Instant::now();
        let step = contestant.step(target, &mut reply);
        let cost = since(start, own);
        times.steps.push(cost);
        if step.due > 0 {
            times.answers.push(cost / f64::from(step.due));
        }
        for &word in &reply[..step.words] {
            times.digest = (times.digest ^ u64::from(word)).wrapping_mul(0x100_0000_01b3);
        }
        times.note_size(contestant);
    }
    times
}

impl Times {
    fn note_size(&mut self, contestant: &dyn Contestant) {
        let size = contestant.size();
        self.held.push(size.entries);
        self.bytes = self.bytes.max(size.bytes);
    }
}

/// What the clock itself takes, which every measured time has in it.
fn clock_cost() -> f64 {
    median((0..1_001).map(|_| since(Instant::now(), 0.0)).collect())
}

fn since(start: Instant, own: f64) -> f64 {
    (start.elapsed().as_nanos() as f64 - own).max(0.0)
}

/// All runs see the same messages, so that each call has one time in each run.
/// The median of these counts: what disturbs one run does little.
fn figures_of(runs: &[Times]) -> Figures {
    let held = &runs[0].held;
    Figures {
        request: cost(runs, |times| &times.requests),
        step: cost(runs, |times| &times.steps),
        answer: cost(runs, |times| &times.answers),
        answers: runs[0].answers.len(),
        held_mean: mean(held.iter().map(|&held| held as f64)),
        held_peak: held.iter().copied().max().unwrap_or(0),
        bytes: runs[0].bytes,
    }
}

fn cost(runs: &[Times], part: fn(&Times) -> &Vec<f64>) -> Cost {
    let call = |at| median(runs.iter().map(|times| part(times)[at]).collect());
    let mut calls: Vec<f64> = (0..part(&runs[0]).len()).map(call).collect();
    calls.sort_unstable_by(f64::total_cmp);
    Cost {
        mean: mean(calls.iter().copied()),
        high: calls[(calls.len() * 99).div_ceil(100) - 1],
    }
}

fn mean(figures: impl ExactSizeIterator<Item = f64>) -> f64 {
    let count = figures.len() as f64;
    figures.sum::<f64>() / count
}

fn median(mut figures: Vec<f64>) -> f64 {
    figures.sort_unstable_by(f64::total_cmp);
    figures[figures.len() / 2]
}
