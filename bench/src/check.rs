//! Holds every entrant against the second desk on random runs, before any is timed.

use second::generate::boards::small;
use second::generate::random::Random;
use second::limits::{HIGHEST_SCORE, LAST_TICK, LAST_TOPIC, MOST_BOARDS, MOST_NEEDS, REPLY_LENGTH};
use second::rules::{Fault, Rules};

use crate::contest::{Board, Contestant};
use crate::entrants::{Entrant, ENTRANTS};
use crate::reference::Reference;
use crate::workload::need;

const RUNS: u64 = 300;
const ROUNDS: u32 = 60;

/// Faults of the second desk that show in answers.
const FAULTS: [Fault; 4] = [Fault::Tie, Fault::Window, Fault::Mask, Fault::Empty];

/// Says what differs first, if anything does.
pub fn run() -> Result<(), String> {
    for seed in 0..RUNS {
        if let Some(differing) = differing(Rules::sound(), seed).first() {
            return Err(format!(
                "{differing} differs from the second desk in run {seed}"
            ));
        }
    }
    // The check can fail: a fault in the second desk is found, beside every entrant.
    for fault in FAULTS {
        let mut unfound: Vec<&str> = ENTRANTS.iter().map(|entrant| entrant.name).collect();
        for seed in 0..RUNS {
            let found = differing(Rules::with(fault), seed);
            unfound.retain(|name| !found.contains(name));
            if unfound.is_empty() {
                break;
            }
        }
        if let Some(name) = unfound.first() {
            return Err(format!(
                "{name} agrees with a second desk that has the fault {fault:?}"
            ));
        }
    }
    Ok(())
}

/// An entrant's name, its desk, and whether all was equal so far.
type Judged = (&'static str, Box<dyn Contestant>, bool);

/// The entrants that differ from the second desk in the run of a seed.
fn differing(rules: Rules, seed: u64) -> Vec<&'static str> {
    let mut random = Random::new(seed);
    let boards = boards(&mut random);
    let mut clock = 0;
    if random.percent(20) {
        clock = LAST_TICK - random.between(0, 200);
    }
    let mut reference = Reference::open_at(rules, &boards, clock);
    let judged = |entrant: &Entrant| (entrant.name, entrant.open_at(&boards, clock), true);
    let mut contestants: Vec<Judged> = ENTRANTS.iter().map(judged).collect();
    let highest_score = random.pick(&[2, 40, HIGHEST_SCORE]);
    let longest_step = random.pick(&[1, 4, 30]);
    for round in 1..=ROUNDS {
        for _ in 0..random.between(0, 9) {
            let topic = random.between(0, LAST_TOPIC);
            let id = random.any();
            let score = random.between(0, highest_score);
            reference.request(topic, id, score);
            for (_, contestant, _) in &mut contestants {
                contestant.request(topic, id, score);
            }
        }
        let target = LAST_TICK.min(clock + random.between(0, longest_step));
        clock = step_all(&mut reference, &mut contestants, target);
        if round % (ROUNDS / 3) == 0 {
            compare_lists(&reference, &mut contestants);
        }
    }
    contestants
        .iter()
        .filter(|(_, _, agrees)| !agrees)
        .map(|(name, _, _)| *name)
        .collect()
}

/// Steps all until the target: every step's numbers and every word must agree.
fn step_all(reference: &mut Reference, contestants: &mut [Judged], target: u32) -> u32 {
    let mut expected = vec![0; REPLY_LENGTH];
    let mut reply = vec![0; REPLY_LENGTH];
    loop {
        let step = reference.step(target, &mut expected);
        for (_, contestant, agrees) in contestants.iter_mut() {
            let stepped = contestant.step(target, &mut reply);
            *agrees &= stepped == step && reply[..step.words] == expected[..step.words];
        }
        if step.clock == target {
            return target;
        }
    }
}

fn compare_lists(reference: &Reference, contestants: &mut [Judged]) {
    let expected = reference.list();
    for (_, contestant, agrees) in contestants {
        if let Some(list) = contestant.list() {
            *agrees &= list == expected;
        }
    }
}

/// Boards of all kinds, as many as their needs allow.
fn boards(random: &mut Random) -> Vec<Board> {
    let count = random.between(1, MOST_BOARDS as u32);
    let mut boards: Vec<Board> = Vec::new();
    for _ in 0..count {
        let board = small(random, 1);
        let needs: u64 = boards.iter().chain([&board]).map(need).sum();
        if needs <= MOST_NEEDS {
            boards.push(board);
        }
    }
    boards
}
