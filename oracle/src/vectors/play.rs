//! Requests on a random table: a list of calls, some refused, with damaged images, markings and
//! states among them.

use std::ops::Range;

use super::answers::{Session, IMAGE_ROOM, LABEL_ROOM};
use super::drawing::first_words;
use super::markings::{spoil, standing};
use super::requests::Writer;
use super::shapes::shapes;
use crate::builder::COMMUNICATION;
use crate::damage::damaged;
use crate::dialogue::dialogue;
use crate::generate::{accepted, Shape};
use crate::net::Image;
use crate::places::Places;
use crate::random::Random;
use crate::size::image_words;
use crate::table::{accept, Table};

/// A table that `cause` refuses, its size, and a call or two with it.
pub fn play_refused(writer: &mut Writer, shape: Shape, cause: u32) {
    writer.draw_next();
    let words = damaged(&mut writer.random, shape, cause);
    writer.table(&words);
    writer.ask('z', &[]);
    for _ in 0..writer.random.between(1, 2) {
        ask_any(writer);
    }
}

/// A call that takes the table, with any room.
pub fn ask_any(writer: &mut Writer) {
    let room = writer.random.below(40) as u64;
    match writer.random.below(5) {
        0 => writer.ask('b', &[room]),
        1 => writer.ask('s', &[room]),
        2 => writer.ask('g', &[room]),
        3 => writer.ask('o', &[room]),
        _ => writer.ask('k', &[5, 0, 0, room]),
    }
}

/// An accepted table whose image by document 01 alone has a number of words in the range, and
/// `calls` calls.
pub fn play(writer: &mut Writer, shape: Shape, sizes: Range<usize>, calls: usize) {
    play_any(writer, calls, calls / 2, |random| {
        let words = accepted(random, shape);
        let fits = |table: &Table| sizes.contains(&first_words(table));
        accept(&words)
            .is_ok_and(|table| fits(&table))
            .then_some(words)
    });
}

/// A table that is like `wanted`.
pub fn play_like(writer: &mut Writer, shape: Shape, wanted: &str, calls: usize) {
    play_any(writer, calls, calls / 2, |random| {
        let words = accepted(random, shape);
        let like = |table: &Table| shapes(table).contains(&wanted);
        accept(&words)
            .is_ok_and(|table| like(&table))
            .then_some(words)
    });
}

/// A table whose threads keep talking.
pub fn play_dialogue(writer: &mut Writer, shape: Shape, calls: usize) {
    play_any(writer, calls, 2 * calls, |random| {
        Some(dialogue(random, shape))
    });
}

/// The first table that is drawn, `calls` calls, and `steps` steps from the starting state.
fn play_any(
    writer: &mut Writer,
    calls: usize,
    steps: usize,
    mut draw: impl FnMut(&mut Random) -> Option<Vec<u16>>,
) {
    writer.draw_next();
    loop {
        if let Some(words) = draw(&mut writer.random) {
            if let Ok(table) = accept(&words) {
                return play_table(writer, &words, table, calls, steps);
            }
        }
    }
}

/// An accepted table, `calls` calls, and `steps` steps from the starting state.
pub fn play_table(writer: &mut Writer, words: &[u16], table: Table, calls: usize, steps: usize) {
    let places = Places::of(&table);
    writer.table(words);
    let size = image_words(&table);
    let mut player = Player {
        writer,
        table,
        places,
        size,
        fired: Vec::new(),
    };
    player.build();
    if size <= IMAGE_ROOM {
        player.begin();
        for _ in 0..calls {
            player.call();
        }
    }
    player.walk(steps);
}

/// The enabled transitions of the image and the marking that are kept.
pub fn enabled(session: &Session) -> Vec<u32> {
    let Some(image) = Image::open(&session.image) else {
        return Vec::new();
    };
    let marked = |place: &u32| session.marking.get(*place as usize) == Some(&1);
    let enabled = |&number: &u32| {
        let arcs = image.arcs(number);
        arcs.is_some_and(|arcs| arcs.inputs.iter().all(marked))
    };
    (0..image.transitions).filter(enabled).collect()
}

struct Player<'w> {
    writer: &'w mut Writer,
    table: Table,
    places: Places,
    /// The image's words.
    size: usize,
    /// Numbers fired in turn from the initial marking.
    fired: Vec<u32>,
}

impl Player<'_> {
    fn random(&mut self) -> &mut Random {
        &mut self.writer.random
    }

    fn ask(&mut self, letter: char, numbers: &[usize]) {
        let numbers: Vec<u64> = numbers.iter().map(|&number| number as u64).collect();
        self.writer.ask(letter, &numbers);
    }

    fn build(&mut self) {
        let size = self.size;
        if self.random().chance(25) {
            self.ask('b', &[size.min(IMAGE_ROOM + 1) - 1]);
        }
        if self.random().chance(10) {
            self.ask('b', &[0]);
        }
        let more = [0, 0, 0, 1, 7][self.random().below(5)];
        self.ask('b', &[(size + more).min(IMAGE_ROOM)]);
        self.ask('z', &[]);
    }

    /// The initial marking.
    fn begin(&mut self) {
        self.ask('l', &[self.places.count]);
        self.ask('r', &[]);
        self.fired.clear();
    }

    fn call(&mut self) {
        match self.random().below(100) {
            0..=39 => self.fire_enabled(),
            40..=45 => self.fire_any(),
            46..=53 => self.run(),
            54..=58 => self.replay(),
            59..=68 => self.read(),
            69..=76 => self.take_step(),
            77..=81 => self.stand_anywhere(),
            82..=87 => self.spoil_marking(),
            88..=93 => self.spoil_image(),
            _ => self.spoil_state(),
        }
    }

    fn enabled(&self) -> Vec<u32> {
        enabled(&self.writer.session)
    }

    /// Fires an enabled transition; where there is none, begins again.
    fn fire_enabled(&mut self) {
        let enabled = self.enabled();
        match self.random().pick(&enabled) {
            Some(number) => {
                self.look_at(number as usize, 30);
                self.ask('f', &[number as usize]);
                self.fired.push(number);
            }
            None => self.begin(),
        }
    }

    fn fire_any(&mut self) {
        let count = self.writer.session.image[1] as usize;
        let number = match self.random().below(4) {
            0 => count + self.random().below(3),
            1 => 4_294_967_295,
            _ => self.random().below(count + 1),
        };
        self.look_at(number, 60);
        self.ask('f', &[number]);
    }

    /// Looks at a firing, with a chance.
    fn look_at(&mut self, number: usize, percent: usize) {
        if self.random().chance(percent) {
            self.writer.look(number as u64, self.places.count);
        }
    }

    fn run(&mut self) {
        let (limit, room) = (self.random().below(7), self.random().below(7));
        self.writer.run(limit as u64, room as u64);
        if self.random().chance(40) {
            let count = self.random().between(0, room);
            self.ask('h', &[count]);
        }
        self.read_after();
    }

    /// Replays what was fired, now and then with a number put in.
    fn replay(&mut self) {
        let count = self.writer.session.image[1] as usize;
        let end = self.writer.random.below(self.fired.len() + 1);
        let mut numbers: Vec<usize> = self.fired[..end]
            .iter()
            .map(|&number| number as usize)
            .collect();
        if self.random().chance(50) {
            let at = self.random().below(numbers.len() + 1);
            let number = self.random().below(count + 2);
            numbers.insert(at, number);
        }
        self.ask('r', &numbers);
        self.read_after();
    }

    fn state_room(&mut self) -> usize {
        let exact = self.table.entries.len() + self.table.names.len();
        match self.random().below(8) {
            0 => exact - 1,
            1 => exact + 3,
            2 => self.random().below(exact),
            _ => exact,
        }
    }

    fn read(&mut self) {
        let room = self.state_room();
        self.ask('g', &[room]);
        if self.random().chance(40) {
            self.list_open();
        }
    }

    fn read_after(&mut self) {
        if self.random().chance(50) {
            self.read();
        }
    }

    /// The open labels of the state; none where it is malformed.
    fn open_labels(&self) -> Vec<[u32; 3]> {
        let session = &self.writer.session;
        let mut labels = vec![0; 3 * self.table.branches.len().pow(2) + 3 * 8];
        let count = crate::open_steps(&session.table, &session.state, &mut labels).unwrap_or(0);
        labels[..3 * count]
            .chunks(3)
            .map(|label| [label[0], label[1], label[2]])
            .collect()
    }

    fn list_open(&mut self) {
        let exact = 3 * self.open_labels().len();
        let room = match self.random().below(6) {
            0 => exact.saturating_sub(1),
            1 => exact + 4,
            2 => self.random().below(exact + 1),
            _ => exact,
        };
        self.ask('o', &[room.min(LABEL_ROOM)]);
    }

    /// Takes an open step, or tries one that is not.
    fn take_step(&mut self) {
        let open = self.open_labels();
        let label = match self.random().below(10) {
            0 => self.image_label(),
            1 => {
                let most = self.table.branches.len().max(self.table.nodes.len());
                [6, most, most].map(|most| self.random().between(0, most) as u32)
            }
            2 => {
                let [kind, a, b] = self.random().pick(&open).unwrap_or([3, 0, 0]);
                let other = [b + 1, 4_294_967_295][self.random().below(2)];
                [kind, a, other]
            }
            _ => self.pick_open(&open).unwrap_or([5, 0, 0]),
        };
        let room = self.state_room();
        let [kind, a, b] = label.map(|word| word as usize);
        self.ask('k', &[kind, a, b, room]);
    }

    /// One of the open labels, a communication rather than another.
    fn pick_open(&mut self, open: &[[u32; 3]]) -> Option<[u32; 3]> {
        let spoken = |label: &&[u32; 3]| label[0] == COMMUNICATION;
        let spoken: Vec<[u32; 3]> = open.iter().filter(spoken).copied().collect();
        let preferred = if self.random().chance(70) {
            self.random().pick(&spoken)
        } else {
            None
        };
        preferred.or_else(|| self.random().pick(open))
    }

    /// The label of a transition, bookkeeping ones too.
    fn image_label(&mut self) -> [u32; 3] {
        let session = &mut self.writer;
        let Some(image) = Image::open(&session.session.image) else {
            return [0, 0, 0];
        };
        if image.transitions == 0 {
            return [1, 0, 0];
        }
        let number = session.random.below(image.transitions as usize);
        let [kind, a, b, ..] = image.record(number as u32);
        [kind, a, b]
    }

    /// Goes on from a marking that stands for a state that need not be reachable.
    fn stand_anywhere(&mut self) {
        let marking = standing(&mut self.writer.random, &self.table, &self.places);
        self.lend(&marking);
        self.read();
        if let Some(number) = self.writer.random.pick(&self.enabled()) {
            self.look_at(number as usize, 40);
            self.ask('f', &[number as usize]);
            self.read();
        }
        if self.random().chance(30) {
            self.run();
        }
    }

    fn lend(&mut self, marking: &[u8]) {
        let bytes: Vec<usize> = marking.iter().map(|&byte| byte.into()).collect();
        self.ask('p', &bytes);
    }

    /// Spoils the marking, tries it and begins again.
    fn spoil_marking(&mut self) {
        if self.random().chance(50) {
            let marking = standing(&mut self.writer.random, &self.table, &self.places);
            self.lend(&marking);
        }
        for _ in 0..self.random().between(1, 2) {
            let before = self.writer.session.marking.clone();
            if before.len() != self.places.count {
                break;
            }
            let mut after = before.clone();
            spoil(
                &mut self.writer.random,
                &self.table,
                &self.places,
                &mut after,
            );
            self.change_marking(&before, &after);
            let room = self.state_room();
            self.ask('g', &[room]);
        }
        let enabled = self.enabled();
        let number = self.random().pick(&enabled).unwrap_or(0);
        self.look_at(number as usize, 60);
        self.try_firing();
        self.begin();
    }

    /// Asks for the changes from one marking to the next.
    fn change_marking(&mut self, before: &[u8], after: &[u8]) {
        if before.len() != after.len() {
            self.ask('l', &[after.len()]);
        }
        for (place, &byte) in after.iter().enumerate() {
            if before.get(place).copied().unwrap_or(0) != byte {
                self.ask('m', &[place, byte.into()]);
            }
        }
    }

    fn try_firing(&mut self) {
        match self.random().below(4) {
            0 => self.fire_any(),
            2 => {
                let numbers: Vec<usize> =
                    self.fired.iter().map(|&number| number as usize).collect();
                self.ask('r', &numbers);
            }
            1 => {
                let enabled = self.enabled();
                let number = self.random().pick(&enabled).unwrap_or(0);
                self.ask('f', &[number as usize]);
            }
            _ => {
                let limit = self.random().below(5);
                self.writer.run(limit as u64, 4);
            }
        }
    }

    /// Spoils a word or the length of the image, tries it, and mends it.
    fn spoil_image(&mut self) {
        let image = self.writer.session.image.clone();
        let (records, arcs) = (image[6] as usize, image[7] as usize);
        let enabled = self.enabled();
        let number = match self.random().chance(60) {
            true => self.random().pick(&enabled),
            false => None,
        };
        let number = number.map_or_else(|| self.random().below(image[1] as usize), |n| n as usize);
        let record = records + 6 * number;
        let at = match self.random().below(8) {
            0 => {
                let length = [image.len() - 1, image.len() + 1, self.random().below(9)];
                let length = length[self.random().below(3)];
                self.ask('j', &[length]);
                self.try_spoilt(number);
                self.ask('b', &[self.size]);
                return;
            }
            1 => self.random().below(8),
            2 => 8 + self.random().below(records - 8),
            3 | 4 => record + 3 + self.random().below(3),
            5 => arcs + self.random().below(image.len() - arcs),
            6 if record + 6 <= arcs => image[record + 3] as usize,
            _ if record + 6 <= arcs => {
                let count = image[record + 4] + image[record + 5];
                image[record + 3] as usize + self.random().below(count as usize)
            }
            _ => self.random().below(image.len()),
        };
        let Some(&word) = image.get(at) else {
            return;
        };
        let words = [
            word.wrapping_add(1),
            word.wrapping_sub(1),
            0,
            4_294_967_295,
            image[0],
            self.random().number() as u32,
        ];
        let other = words[self.random().below(words.len())];
        self.ask('i', &[at, other as usize]);
        self.try_spoilt(number);
        self.ask('i', &[at, word as usize]);
    }

    /// Looks, fires, replays and runs with a spoilt image.
    fn try_spoilt(&mut self, number: usize) {
        self.look_at(number, 70);
        self.ask('f', &[number]);
        if self.random().chance(50) {
            let mut numbers: Vec<usize> =
                self.fired.iter().map(|&number| number as usize).collect();
            numbers.truncate(12);
            numbers.push(number);
            self.ask('r', &numbers);
        }
        if self.random().chance(70) {
            let limit = self.random().below(6);
            self.writer.run(limit as u64, 5);
        }
    }

    /// Spoils a word or the length of the state, tries it, and starts anew.
    fn spoil_state(&mut self) {
        let (threads, bound) = (self.table.entries.len(), self.table.names.len());
        let names = self.table.name_count();
        if self.random().chance(50) {
            let marking = standing(&mut self.writer.random, &self.table, &self.places);
            self.lend(&marking);
            self.ask('g', &[threads + bound]);
        } else {
            self.ask('g', &[threads + bound]);
        }
        let mut state = self.writer.session.state.clone();
        match self.random().below(8) {
            0 => {
                state.pop();
                self.lend_state(&state);
            }
            1 => {
                state.push(65535);
                self.lend_state(&state);
            }
            2 => {
                let at = self.random().below(threads);
                let node = self.writer.random.below(self.table.nodes.len() + 1);
                self.ask('y', &[at, node]);
            }
            _ => {
                let at = threads + self.random().below(bound);
                let publics = self.table.publics;
                let value = match self.random().below(6) {
                    0 => 65535,
                    1 => names,
                    2 => 0,
                    3 => publics,
                    4 => self.random().below(names + 1),
                    _ => publics + self.random().below(bound),
                };
                self.ask('y', &[at, value]);
            }
        }
        self.list_open();
        self.take_step();
        self.begin();
    }

    fn lend_state(&mut self, state: &[u16]) {
        let words: Vec<usize> = state.iter().map(|&word| word.into()).collect();
        self.ask('x', &words);
    }

    /// Goes through states from the starting one.
    fn walk(&mut self, steps: usize) {
        let exact = self.table.entries.len() + self.table.names.len();
        let room = self.state_room();
        self.ask('s', &[room]);
        self.ask('s', &[exact]);
        for _ in 0..steps {
            if self.random().chance(50) {
                self.list_open();
            }
            match self.open_labels().is_empty() {
                true => self.ask('s', &[exact]),
                false => self.take_step(),
            }
        }
    }
}
