//! How requests and clock steps are drawn in one file, once it is open.

use super::random::Random;
use super::sheet::Sheet;
use crate::limits::{HIGHEST_SCORE, LAST_TOPIC};
use crate::message::Message;

#[derive(Clone, Copy)]
enum Scores {
    One(u32),
    Few(u32),
    Any,
    Rising(u32),
    Falling(u32),
    Ends,
}

#[derive(Clone, Copy)]
enum Ids {
    One(u32),
    Few(u32),
    Counting,
    Any,
}

pub struct Course {
    scores: Scores,
    /// After so many requests the scores are drawn in another way.
    same_scores: u32,
    ids: Ids,
    pub last_topic: u32,
    /// The share of clock messages, in a hundred.
    pub clocks: u32,
    pub longest_step: u32,
    /// A rare step that passes whole windows.
    pub jump: u32,
    drawn: u32,
}

impl Scores {
    fn draw(random: &mut Random) -> Scores {
        match random.between(0, 5) {
            0 => Scores::One(random.between(0, HIGHEST_SCORE)),
            1 => Scores::Few(random.between(1, 6)),
            2 => Scores::Any,
            3 => Scores::Rising(random.between(1, 40_000)),
            4 => Scores::Falling(random.between(1, 40_000)),
            _ => Scores::Ends,
        }
    }
}

impl Course {
    /// The scale says how many ticks are a small step.
    pub fn draw(random: &mut Random, scale: u32) -> Course {
        let ids = match random.between(0, 3) {
            0 => Ids::One(random.any()),
            1 => Ids::Few(random.between(1, 9)),
            2 => Ids::Counting,
            _ => Ids::Any,
        };
        Course {
            scores: Scores::draw(random),
            same_scores: random.pick(&[u32::MAX, u32::MAX, 15, 60, 1_000]),
            ids,
            last_topic: random.pick(&[0, 1, 3, LAST_TOPIC, LAST_TOPIC]),
            clocks: random.pick(&[3, 10, 25, 45, 60]),
            longest_step: scale * random.pick(&[1, 2, 3, 8]),
            jump: scale * random.between(20, 90),
            drawn: 0,
        }
    }

    pub fn request(&mut self, random: &mut Random) -> Message {
        self.drawn += 1;
        if self.drawn.is_multiple_of(self.same_scores) {
            self.scores = Scores::draw(random);
        }
        let moved = |step: u32| (u64::from(step) * u64::from(self.drawn) / 3) as u32;
        let score = match self.scores {
            Scores::One(score) => score,
            Scores::Few(values) => random.between(0, values),
            Scores::Any => random.between(0, HIGHEST_SCORE),
            Scores::Rising(step) => moved(step).min(HIGHEST_SCORE),
            Scores::Falling(step) => HIGHEST_SCORE.saturating_sub(moved(step)),
            Scores::Ends => random.pick(&[0, 1, HIGHEST_SCORE - 1, HIGHEST_SCORE]),
        };
        let id = match self.ids {
            Ids::One(id) => id,
            Ids::Few(values) => random.between(0, values),
            Ids::Counting => self.drawn,
            Ids::Any => random.any(),
        };
        Message::Request {
            topic: random.between(0, self.last_topic),
            id,
            score,
        }
    }

    /// A step of some ticks, often none at all.
    pub fn ticks(&self, random: &mut Random) -> u32 {
        match random.between(0, 99) {
            0..=9 => 0,
            10..=96 => random.between(1, self.longest_step),
            _ => random.between(1, self.jump),
        }
    }

    pub fn play_one(&mut self, sheet: &mut Sheet) {
        if sheet.random.percent(self.clocks) {
            let ticks = self.ticks(&mut sheet.random);
            sheet.step_by(ticks);
        } else {
            let request = self.request(&mut sheet.random);
            sheet.message(request);
        }
    }

    pub fn play(&mut self, sheet: &mut Sheet, messages: u32) {
        for _ in 0..messages {
            self.play_one(sheet);
        }
    }
}
