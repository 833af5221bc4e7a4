//! All limits on both sides, a scene for each seed in turn.

use super::boards;
use super::course::Course;
use super::random::Random;
use super::sheet::Sheet;
use crate::board::Board;
use crate::limits::{
    HIGHEST_SCORE, LAST_TICK, LAST_TOPIC, MOST_BOARDS, MOST_K, MOST_NEEDS, MOST_TICKS,
};
use crate::message::Message;

const LINES: u64 = 30_000;
/// For the scenes that keep the printed lines few by themselves.
const PLENTY_OF_LINES: u64 = 2_000_000;

pub fn edge(seed: u64, random: Random) -> Vec<u8> {
    let scene = seed % 7;
    let lines = if scene < 5 { LINES } else { PLENTY_OF_LINES };
    let mut sheet = Sheet::new(random, lines);
    match scene {
        0 => short_fields(&mut sheet),
        1 => long_fields(&mut sheet),
        2 => board_count(&mut sheet),
        3 => sum_of_needs(&mut sheet),
        4 => window_ends(&mut sheet),
        5 => clock_limit(&mut sheet),
        _ => full_list(&mut sheet),
    }
    sheet.finish()
}

/// Both sides of a board's limits, with slides so short that steps are short.
fn short_fields(sheet: &mut Sheet) {
    let windows = [0, 1, 2, 7, MOST_TICKS, MOST_TICKS + 1];
    let slides = [0, 1, 2, 3, 5, MOST_TICKS + 1];
    fields(sheet, &windows, &slides, 1);
}

/// The same with slides so long that steps can pass whole windows of 86,400.
fn long_fields(sheet: &mut Sheet) {
    let ends = [MOST_TICKS - 1, MOST_TICKS, MOST_TICKS, MOST_TICKS + 1];
    let windows = [&ends[..], &[0, 1, 9_000]].concat();
    let slides = [&ends[..], &[0, 9_000, 43_200]].concat();
    fields(sheet, &windows, &slides, 9_000);
}

fn fields(sheet: &mut Sheet, windows: &[u32], slides: &[u32], scale: u32) {
    around_loading(sheet);
    for _ in 0..sheet.random.between(10, 60) {
        let board = Board {
            mask: sheet.random.pick(&[0, 1, 128, 255]),
            window: sheet.random.pick(windows),
            slide: sheet.random.pick(slides),
            k: sheet.random.pick(&[0, 1, 1, 2, 255, MOST_K, MOST_K + 1]),
        };
        sheet.message(Message::Board(board));
    }
    open_and_play(sheet, scale);
}

/// One below 32 boards, exactly 32, and some beyond, on either side of 1,024.
fn board_count(sheet: &mut Sheet) {
    around_loading(sheet);
    let most = MOST_BOARDS as u32;
    let each = sheet.random.pick(&[1, 2, 31, 32]);
    let loaded = sheet.random.pick(&[most - 1, most, most, most + 1]);
    for _ in 0..loaded {
        load_need(sheet, each);
    }
    let too_long = boards::of_need(&mut sheet.random, MOST_NEEDS as u32, 5);
    for _ in 0..sheet.random.between(0, 4) {
        match sheet.random.between(0, 2) {
            0 => load_need(sheet, 1),
            1 => {
                if let Some(board) = too_long {
                    sheet.message(Message::Board(board));
                }
            }
            _ => {
                let mut board = boards::small(&mut sheet.random, 1);
                board.k = MOST_K + 1;
                sheet.message(Message::Board(board));
            }
        }
    }
    open_and_play(sheet, 1);
}

/// Needs of exactly 1,023, 1,024 and 1,025, and what follows them.
fn sum_of_needs(sheet: &mut Sheet) {
    around_loading(sheet);
    while sheet.needs_left() > 400 && sheet.random.percent(80) {
        let need = sheet.random.between(1, 300);
        load_need(sheet, need);
    }
    // The loop leaves at least 100 of the needs.
    let left = sheet.needs_left() as u32;
    let wanted = sheet.random.pick(&[left - 1, left, left, left + 1]);
    load_need(sheet, wanted);
    for _ in 0..sheet.random.between(0, 5) {
        let need = sheet.random.pick(&[1, 1, 2, 1_024, 1_025]);
        load_need(sheet, need);
    }
    open_and_play(sheet, 1);
}

/// Loads a board of exactly this need, whether it fits or not.
fn load_need(sheet: &mut Sheet, need: u32) {
    let longest_slide = sheet.random.pick(&[1, 3, 12]);
    if let Some(board) = boards::of_need(&mut sheet.random, need, longest_slide) {
        sheet.message(Message::Board(board));
    }
}

/// Up to 1,000,000,000 and requests there. Every moment on the way is answered,
/// so the slides are the longest ones: most files have one, a few have two.
fn clock_limit(sheet: &mut Sheet) {
    // The first five have a moment at the limit itself.
    let choices = [
        80_000, 78_125, 64_000, 62_500, 50_000, MOST_TICKS, 86_399, 70_001,
    ];
    let slide = sheet.random.pick(&choices);
    let other = if sheet.random.percent(15) {
        sheet.random.pick(&[80_000, MOST_TICKS])
    } else {
        slide
    };
    for number in 0..sheet.random.between(1, 3) {
        let slide = if number == 0 { slide } else { other };
        let windows = [
            1,
            slide - 1,
            slide,
            slide + 1,
            86_399,
            MOST_TICKS,
            MOST_TICKS,
        ];
        let board = Board {
            mask: boards::mask(&mut sheet.random),
            window: sheet.random.pick(&windows).min(MOST_TICKS),
            slide,
            k: sheet.random.pick(&[1, 1, 2, 3, 10]),
        };
        sheet.message(Message::Board(board));
    }
    sheet.message(Message::Open);
    let mut course = Course::draw(&mut sheet.random, 1);
    let mut from_the_limit = vec![
        250_000,
        MOST_TICKS + 1,
        MOST_TICKS,
        MOST_TICKS - 1,
        slide + 1,
        slide,
        slide - 1,
        LAST_TICK % slide + 1,
        LAST_TICK % slide,
        3,
        2,
        1,
        0,
        0,
    ];
    from_the_limit.sort_unstable_by(|one, other| other.cmp(one));
    // Some files end before the limit, so that the list there is seen too.
    let last = if sheet.random.percent(40) {
        0
    } else {
        sheet.random.pick(&from_the_limit)
    };
    for distance in from_the_limit {
        if distance < last {
            break;
        }
        for _ in 0..sheet.random.pick(&[0, 1, 2, 6]) {
            let request = course.request(&mut sheet.random);
            sheet.message(request);
        }
        sheet.message(Message::Clock {
            target: LAST_TICK - distance,
        });
        around_open(sheet);
    }
    for _ in 0..sheet.random.between(0, 6) {
        let request = course.request(&mut sheet.random);
        sheet.message(request);
    }
}

/// Requests on each side of both ends of a window.
fn window_ends(sheet: &mut Sheet) {
    let scale = sheet.random.pick(&[1, 1, 100]);
    let count = sheet.random.between(1, 5);
    boards::load_small(sheet, count, scale);
    sheet.message(Message::Open);
    let mut course = Course::draw(&mut sheet.random, scale);
    for _ in 0..sheet.random.between(3, 15) {
        let number = sheet
            .random
            .between(0, sheet.desk.boards().len() as u32 - 1);
        let board = sheet.desk.boards()[number as usize];
        let clock = sheet.desk.clock();
        // The first moment whose window begins above the clock.
        let moment = ((clock + board.window) / board.slide + 1) * board.slide;
        let start = moment - board.window;
        let around = |tick: u32| [tick.saturating_sub(1), tick, tick + 1];
        let mut ticks = [around(start), around(moment)].concat();
        ticks.sort_unstable();
        for tick in ticks {
            sheet.step_by(tick.saturating_sub(sheet.desk.clock()));
            for _ in 0..sheet.random.between(0, 3) {
                let request = course.request(&mut sheet.random);
                sheet.message(request);
            }
        }
    }
}

/// One board for a topic and falling scores, so that each future view shows
/// entries of its own and the list grows up to the sum of needs.
fn full_list(sheet: &mut Sheet) {
    let topics = sheet.random.between(1, LAST_TOPIC + 1);
    let slide = sheet.random.pick(&[1, 2, 3]);
    for topic in 0..topics {
        let left = sheet.needs_left() as u32;
        let share = left / (topics - topic);
        let need = if topic + 1 == topics {
            left
        } else {
            sheet.random.between(share / 2, share)
        };
        if let Some(board) = boards::of_need(&mut sheet.random, need, 1) {
            sheet.message(Message::Board(Board {
                mask: 1 << topic,
                window: board.window * slide,
                slide,
                k: board.k,
            }));
        }
    }
    sheet.message(Message::Open);
    let boards = sheet.desk.boards().to_vec();
    let longest_window = boards.iter().map(|board| board.window).max().unwrap_or(0);
    let end = longest_window + slide * sheet.random.between(0, 20);
    let mut score = HIGHEST_SCORE / 2;
    for tick in (0..=end).step_by(slide as usize) {
        sheet.message(Message::Clock { target: tick });
        for (topic, board) in boards.iter().enumerate() {
            // Earlier ones would have left the window by the end.
            if tick + board.window <= end {
                continue;
            }
            for _ in 0..board.k + sheet.random.pick(&[0, 0, 1]) {
                score -= sheet.random.between(1, 9);
                sheet.message(Message::Request {
                    topic: topic as u32,
                    id: score,
                    score,
                });
            }
        }
    }
    // Newcomers of any rank meet the full list.
    for _ in 0..sheet.random.between(0, 30) {
        let below = sheet.random.between(0, score);
        let among = sheet.random.between(score, HIGHEST_SCORE / 2);
        let message = Message::Request {
            topic: sheet.random.between(0, topics - 1),
            id: sheet.random.any(),
            score: sheet.random.pick(&[score, below, among, HIGHEST_SCORE]),
        };
        sheet.message(message);
    }
    let ticks = sheet.random.pick(&[0, 1, slide]);
    sheet.step_by(ticks);
}

fn open_and_play(sheet: &mut Sheet, scale: u32) {
    sheet.message(Message::Open);
    let mut course = Course::draw(&mut sheet.random, scale);
    for _ in 0..sheet.random.between(2, 12) {
        let messages = sheet.random.between(1, 25);
        course.play(sheet, messages);
        around_open(sheet);
    }
}

/// Both sides of a request's and a target's limits, while loading.
fn around_loading(sheet: &mut Sheet) {
    for _ in 0..sheet.random.between(0, 3) {
        let message = limits_of_an_open_desk(sheet);
        sheet.message(message);
    }
}

/// The same while open; the step to the limit itself is left to its scene.
fn around_open(sheet: &mut Sheet) {
    for _ in 0..sheet.random.between(0, 3) {
        let message = limits_of_an_open_desk(sheet);
        if message != (Message::Clock { target: LAST_TICK }) {
            sheet.message(message);
        }
    }
}

fn limits_of_an_open_desk(sheet: &mut Sheet) -> Message {
    let random = &mut sheet.random;
    if random.percent(30) {
        let target = random.pick(&[0, LAST_TICK, LAST_TICK + 1, u32::MAX]);
        return Message::Clock { target };
    }
    Message::Request {
        topic: random.pick(&[0, LAST_TOPIC, LAST_TOPIC, LAST_TOPIC + 1, 255]),
        id: random.pick(&[0, 1, u32::MAX]),
        score: random.pick(&[0, HIGHEST_SCORE, HIGHEST_SCORE, HIGHEST_SCORE + 1, u32::MAX]),
    }
}
