//! The requests: the worked cases, tables refused by each cause, accepted tables played with,
//! foreign images, tables whose definitions call themselves, and summaries.

use super::answers::Session;
use super::foreign::play_foreign;
use super::play::{play, play_dialogue, play_like, play_refused};
use super::rewriting::play_rewriting;
use super::shapes::SHAPES;
use super::summaries::play_summaries;
use super::worked::play_worked;
use crate::generate::Shape;
use crate::random::Random;

/// Requests being written, and what they have made so far.
pub struct Writer {
    /// What a table and the calls on it are drawn from.
    pub random: Random,
    seed: u64,
    pub session: Session,
    text: String,
}

impl Writer {
    fn new() -> Writer {
        Writer {
            random: Random::new(0),
            seed: 0,
            session: Session::default(),
            text: String::new(),
        }
    }

    /// Draws from this seed on.
    pub fn draw_from(&mut self, seed: u64) {
        self.random = Random::new(seed);
        self.seed = seed;
    }

    /// Draws from the next seed on: a table is drawn from its seed alone, whatever was asked before.
    pub fn draw_next(&mut self) {
        self.draw_from(self.seed + 1);
    }

    /// Adds a request.
    pub fn ask(&mut self, letter: char, numbers: &[u64]) {
        let mut line = letter.to_string();
        for number in numbers {
            line.push(' ');
            line.push_str(&number.to_string());
        }
        // A request made of numbers is always answered.
        let _ = self.session.answer(&line);
        self.text.push_str(&line);
        self.text.push('\n');
    }

    pub fn table(&mut self, words: &[u16]) {
        let numbers: Vec<u64> = words.iter().map(|&word| word.into()).collect();
        self.ask('t', &numbers);
    }

    /// Runs by one rule or the other.
    pub fn run(&mut self, limit: u64, room: u64) {
        let letter = match (limit + room) % 2 {
            0 => 'u',
            _ => 'U',
        };
        self.ask(letter, &[limit, room]);
    }

    /// Looks at a firing with a room that is exact, short or longer, or with none.
    pub fn look(&mut self, number: u64, places: usize) {
        let room = match self.random.below(8) {
            0 => 0,
            1 => places.saturating_sub(1),
            2 => self.random.below(places),
            3 | 4 => places + self.random.between(1, 5),
            _ => places,
        };
        self.ask('e', &[number, room as u64]);
    }
}

/// A table small enough that its markings, and often its image, are written whole.
pub const TINY: Shape = Shape {
    publics: 2,
    bound: 3,
    threads: 2,
    extra_definitions: 2,
    formals: 2,
    nodes: 10,
    branches: 2,
    depth: 4,
    self_calls: false,
};

/// All requests.
pub fn requests() -> String {
    let mut writer = Writer::new();
    play_worked(&mut writer);
    for cause in 1..=9 {
        for _ in 0..24 {
            play_refused(&mut writer, TINY, cause);
        }
        for _ in 0..12 {
            play_refused(&mut writer, Shape::SMALL, cause);
        }
        for _ in 0..2 {
            play_refused(&mut writer, Shape::WIDE, cause);
        }
    }
    for wanted in SHAPES {
        for shape in [TINY, TINY, TINY, TINY, Shape::SMALL] {
            play_like(&mut writer, shape, wanted, 9);
        }
    }
    for _ in 0..60 {
        play(&mut writer, TINY, 0..2_000, 12);
    }
    for _ in 0..50 {
        play_dialogue(&mut writer, Shape::SMALL, 18);
    }
    for _ in 0..50 {
        play(&mut writer, Shape::SMALL, 0..20_000, 16);
    }
    for _ in 0..24 {
        play(&mut writer, Shape::WIDE, 0..120_000, 20);
    }
    for _ in 0..8 {
        play(&mut writer, Shape::FULL, 40_000..120_000, 16);
    }
    for _ in 0..4 {
        play(&mut writer, Shape::FULL, 131_073..100_000_000, 6);
    }
    for _ in 0..90 {
        play_foreign(&mut writer);
    }
    writer.ask('z', &[]);
    play_rewriting(&mut writer);
    play_summaries(&mut writer);
    writer.ask('q', &[1, 2]);
    writer.text
}

/// Those on definitions that call themselves.
pub fn rewriting_requests() -> String {
    let mut writer = Writer::new();
    play_rewriting(&mut writer);
    writer.text
}
