//! Message files and texts drawn from a kind and a seed.

pub mod boards;
mod course;
mod damage;
mod edge;
mod lesson;
mod long;
pub mod random;
mod sheet;
pub mod text;

use random::Random;

/// The first four are message files, the others texts.
#[derive(Clone, Copy, Debug, PartialEq, Eq)]
pub enum Kind {
    Lesson,
    Damage,
    Edge,
    Long,
    Lines,
    Slip,
    Range,
    Wide,
    Pages,
}

const NAMES: [(Kind, &str); 9] = [
    (Kind::Lesson, "lesson"),
    (Kind::Damage, "damage"),
    (Kind::Edge, "edge"),
    (Kind::Long, "long"),
    (Kind::Lines, "lines"),
    (Kind::Slip, "slip"),
    (Kind::Range, "range"),
    (Kind::Wide, "wide"),
    (Kind::Pages, "pages"),
];

impl Kind {
    pub fn named(name: &str) -> Option<Kind> {
        let (kind, _) = NAMES.iter().find(|(_, known)| *known == name)?;
        Some(*kind)
    }

    pub fn name(self) -> &'static str {
        NAMES[self as usize].1
    }
}

pub fn generate(kind: Kind, seed: u64) -> Vec<u8> {
    let random = Random::new(seed);
    match kind {
        Kind::Lesson => lesson::lesson(seed, random),
        Kind::Damage => damage::damage(seed, random),
        Kind::Edge => edge::edge(seed, random),
        Kind::Long => long::long(random),
        Kind::Lines => text::lines::lines(seed, random),
        Kind::Slip => text::slip::slip(seed, random),
        Kind::Range => text::range::range(seed, random),
        Kind::Wide => text::wide::wide(seed, random),
        Kind::Pages => text::pages::pages(seed, random),
    }
}

/// The first seed of a run: one that no run of a different start meets.
fn first_seed(start: u64) -> u64 {
    start.wrapping_mul(1_000_000)
}

/// Kind and seed of a numbered message file of a run: the kinds in turn, one
/// long file in sixteen.
pub fn numbered(start: u64, number: u64) -> (Kind, u64) {
    let first = first_seed(start);
    if number % 16 == 15 {
        return (Kind::Long, first.wrapping_add(number / 16));
    }
    let kind = match number % 3 {
        0 => Kind::Lesson,
        1 => Kind::Damage,
        _ => Kind::Edge,
    };
    (kind, first.wrapping_add(number / 3))
}

/// The kinds of a run's texts, over and over.
const TEXTS: [Kind; 16] = [
    Kind::Lines,
    Kind::Slip,
    Kind::Range,
    Kind::Slip,
    Kind::Wide,
    Kind::Slip,
    Kind::Range,
    Kind::Slip,
    Kind::Range,
    Kind::Slip,
    Kind::Range,
    Kind::Slip,
    Kind::Range,
    Kind::Slip,
    Kind::Slip,
    Kind::Pages,
];

/// Kind and seed of a numbered text of a run: the texts of a kind have seeds in
/// a row, so that no slip and no field is left out.
pub fn numbered_text(start: u64, number: u64) -> (Kind, u64) {
    let place = (number % TEXTS.len() as u64) as usize;
    let kind = TEXTS[place];
    let those = |part: &[Kind]| part.iter().filter(|&&other| other == kind).count() as u64;
    let before = number / TEXTS.len() as u64 * those(&TEXTS) + those(&TEXTS[..place]);
    (kind, first_seed(start).wrapping_add(before))
}
