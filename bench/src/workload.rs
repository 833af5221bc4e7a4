//! What is asked of the contestants: boards, and a stream of requests and ticks.

use second::generate::boards::mask;
use second::generate::random::Random;
use second::limits::{HIGHEST_SCORE, LAST_TOPIC, MOST_K, MOST_NEEDS, REPLY_LENGTH};
use second::rules::Rules;

use crate::contest::{Board, Contestant};
use crate::entrants::Entrant;

/// The longest window, in ticks: with 1,000 requests to a tick it holds a million.
const LONGEST: u32 = 1_000;

/// The first ticks of a run: a copied contestant has no room to grow yet, and nothing in the cache.
pub const UNTIMED: u32 = 2;

/// Which numbers of the boards are drawn; the others are the same for all.
#[derive(Clone, Copy, Debug, PartialEq, Eq)]
pub enum Drawn {
    K,
    Slide,
    Window,
    All,
}

#[derive(Clone, Copy, Debug, PartialEq, Eq)]
pub enum Scores {
    Uniform,
    Rising,
    Falling,
}

#[derive(Clone, Copy, Debug, PartialEq, Eq)]
pub enum Masks {
    Drawn,
    Zero,
}

pub struct Workload {
    pub name: String,
    pub boards: Vec<Board>,
    /// Requests to a tick.
    pub rate: u32,
    pub scores: Scores,
    /// Ticks before the timing, and of it.
    pub warm: u32,
    pub timed: u32,
}

#[derive(Clone, Copy)]
pub struct Request {
    pub topic: u32,
    pub id: u32,
    pub score: u32,
}

impl Workload {
    pub fn new(count: u32, drawn: Drawn, rate: u32, scores: Scores, masks: Masks) -> Workload {
        let mut random = Random::new(u64::from(count));
        let boards = drawn_boards(&mut random, count, drawn, masks);
        let plural = if count == 1 { "" } else { "s" };
        let name = format!(
            "{count} board{plural}, {drawn:?} drawn, {rate} to a tick, {scores:?}, masks {masks:?}"
        );
        Workload::of(name.to_lowercase(), boards, rate, scores)
    }

    fn of(name: String, boards: Vec<Board>, rate: u32, scores: Scores) -> Workload {
        // Enough steps where requests are few, and not too many requests where they are many.
        let timed = (4_000 / rate).clamp(40, 400);
        // A moment lies in the middle of the timed ticks, so that there is an answer in any case.
        let slide = boards.iter().map(|board| board.slide).min().unwrap_or(1);
        let moment = (longest(&boards) + timed).next_multiple_of(slide);
        Workload {
            name,
            boards,
            rate,
            scores,
            warm: moment - timed / 2 - UNTIMED,
            timed,
        }
    }

    pub fn needs(&self) -> u64 {
        self.boards.iter().map(need).sum()
    }

    pub fn longest(&self) -> u32 {
        longest(&self.boards)
    }

    pub fn stream(&self) -> Stream {
        Stream {
            random: Random::new(u64::from(self.rate)),
            rate: self.rate,
            scores: self.scores,
            arrivals: 0,
            // Rising and falling scores use the whole range.
            rise: HIGHEST_SCORE / (self.rate * (self.warm + UNTIMED + self.timed)),
        }
    }

    /// A contestant that has been through the ticks before the timing.
    pub fn warmed(&self, entrant: &Entrant) -> Box<dyn Contestant> {
        let mut contestant = entrant.open_at(&self.boards, 0);
        let mut stream = self.stream();
        let mut reply = vec![0; REPLY_LENGTH];
        for tick in 0..self.warm {
            for _ in 0..self.rate {
                let request = stream.next();
                contestant.request(request.topic, request.id, request.score);
            }
            contestant.step(tick + 1, &mut reply);
        }
        contestant
    }
}

pub struct Stream {
    random: Random,
    rate: u32,
    scores: Scores,
    arrivals: u32,
    rise: u32,
}

impl Stream {
    pub fn next(&mut self) -> Request {
        let score = match self.scores {
            Scores::Uniform => self.random.between(0, HIGHEST_SCORE),
            Scores::Rising => self.arrivals * self.rise,
            Scores::Falling => HIGHEST_SCORE - self.arrivals * self.rise,
        };
        self.arrivals += 1;
        Request {
            topic: self.random.between(0, LAST_TOPIC),
            id: self.random.any(),
            score,
        }
    }

    /// All requests of the next ticks, those of a tick together.
    pub fn ticks(&mut self, ticks: u32) -> Vec<Vec<Request>> {
        let tick = |_| (0..self.rate).map(|_| self.next()).collect();
        (0..ticks).map(tick).collect()
    }
}

pub fn need(board: &Board) -> u64 {
    Rules::sound().need(board.window, board.slide, board.k)
}

fn longest(boards: &[Board]) -> u32 {
    boards.iter().map(|board| board.window).max().unwrap_or(0)
}

/// Draws until the boards use most of the room for needs, and no more than it.
fn drawn_boards(random: &mut Random, count: u32, drawn: Drawn, masks: Masks) -> Vec<Board> {
    loop {
        let board = |_| drawn_board(random, count, drawn, masks);
        let boards: Vec<Board> = (0..count).map(board).collect();
        let needs: u64 = boards.iter().map(need).sum();
        if (MOST_NEEDS * 3 / 4..=MOST_NEEDS).contains(&needs) {
            return boards;
        }
    }
}

/// A board has its share of the needs, about as many views as k where neither is drawn.
fn drawn_board(random: &mut Random, count: u32, drawn: Drawn, masks: Masks) -> Board {
    let share = MOST_NEEDS as u32 / count;
    let usual = share.isqrt();
    let draws = |this| drawn == this || drawn == Drawn::All;
    let k = if draws(Drawn::K) {
        random.between(1, (2 * usual).min(MOST_K))
    } else {
        usual
    };
    let views = if draws(Drawn::Slide) {
        random.between(1, 2 * usual)
    } else {
        usual
    };
    let window = if draws(Drawn::Window) {
        random.between(LONGEST / 2, LONGEST)
    } else {
        LONGEST
    };
    Board {
        mask: if masks == Masks::Drawn {
            mask(random)
        } else {
            0
        },
        window,
        slide: LONGEST.div_ceil(views),
        k,
    }
}

/// One board of 1,024 views with k 1: falling scores fill the list, an entry for each tick.
pub fn many_views() -> Workload {
    let board = Board {
        mask: 0,
        window: 1_024,
        slide: 1,
        k: 1,
    };
    let name = "worst: 1 board of 1,024 views, k 1";
    Workload::of(name.to_string(), vec![board], 10, Scores::Falling)
}

/// 32 boards with needs of 32. Four boards share a topic, and no two of their
/// windows begin at one tick, so that falling scores fill the list.
pub fn many_boards() -> Workload {
    let board = |number: u32| Board {
        mask: 1 << (number / 4),
        window: 61 + number % 4,
        slide: 8,
        k: 4,
    };
    let name = "worst: 32 boards of 8 views, k 4";
    let boards = (0..32).map(board).collect();
    Workload::of(name.to_string(), boards, 100, Scores::Falling)
}

/// Four boards of k 256 and one view; no two name one topic.
pub fn large_k() -> Workload {
    let board = |number: u32| Board {
        mask: 3 << (2 * number),
        window: 40,
        slide: 40,
        k: 256,
    };
    let name = "worst: 4 boards of 1 view, k 256";
    let boards = (0..4).map(board).collect();
    Workload::of(name.to_string(), boards, 100, Scores::Uniform)
}
