//! The answers to requests.

use crate::net::{Reason, Refusal, RunAnswer};
use crate::summary;

/// How much is kept of a table, an image, a marking, a state, a history and a summary, and lent for
/// labels.
pub const TABLE_ROOM: usize = 4096;
pub const IMAGE_ROOM: usize = 131_072;
pub const MARKING_ROOM: usize = 32_768;
pub const STATE_ROOM: usize = 64;
pub const HISTORY_ROOM: usize = 4096;
pub const LABEL_ROOM: usize = 4096;
pub const COUNT_ROOM: usize = 32_768;
pub const SET_ROOM: usize = 512;

/// How many numbers of a request are read.
const NUMBERS: usize = 4095;

/// What fills bytes and words that are lent to be written.
const FILL_8: u8 = 0xaa;
const FILL_16: u16 = 0xaaaa;
const FILL_32: u32 = 0xaaaa_aaaa;
const FILL_64: u64 = 0xaaaa_aaaa_aaaa_aaaa;

/// The longest list that is written whole.
const WHOLE: usize = 128;

/// The lines that answer the lines of `requests`.
pub fn answers(requests: &str) -> Result<String, String> {
    let mut session = Session::default();
    let mut text = String::new();
    for line in requests.lines() {
        text.push_str(&session.answer(line)?);
        text.push('\n');
    }
    Ok(text)
}

/// A run by one of the rules.
type Run = fn(&[u32], &mut [u8], u64, &mut [u32]) -> Result<RunAnswer, Refusal>;

/// What requests make, kept for those after them.
#[derive(Default)]
pub struct Session {
    pub table: Vec<u16>,
    pub image: Vec<u32>,
    pub marking: Vec<u8>,
    pub state: Vec<u16>,
    pub history: Vec<u32>,
    pub counts: Vec<u32>,
    pub enabled: Vec<u64>,
}

impl Session {
    pub fn answer(&mut self, line: &str) -> Result<String, String> {
        let mut words = line.split(' ');
        let letter = words.next().unwrap_or_default();
        let numbers: Vec<u64> = words
            .take(NUMBERS)
            .map(str::parse)
            .collect::<Result<_, _>>()
            .map_err(|_| format!("no request: {line}"))?;
        let fields = match letter {
            "t" => self.take_table(&numbers),
            "b" => self.build(&numbers),
            "z" => told(crate::size(&self.table)),
            "w" => {
                self.image = kept(&numbers, IMAGE_ROOM, |number| number as u32);
                vec![self.image.len().to_string()]
            }
            "j" => {
                self.image.resize(at(&numbers, 0).min(IMAGE_ROOM), 0);
                vec![self.image.len().to_string()]
            }
            "i" => {
                set(&mut self.image, at(&numbers, 0), number(&numbers, 1) as u32);
                vec![self.image.len().to_string()]
            }
            "p" => {
                self.marking = kept(&numbers, MARKING_ROOM, |number| number as u8);
                vec![self.marking.len().to_string()]
            }
            "l" => {
                self.marking.resize(at(&numbers, 0).min(MARKING_ROOM), 0);
                vec![self.marking.len().to_string()]
            }
            "m" => {
                set(
                    &mut self.marking,
                    at(&numbers, 0),
                    number(&numbers, 1) as u8,
                );
                vec![self.marking.len().to_string()]
            }
            "f" => self.fire(&numbers),
            "e" => self.look(&numbers),
            "r" => {
                let numbers: Vec<u32> = numbers.iter().map(|&number| number as u32).collect();
                self.replay(&numbers)
            }
            "h" => {
                let count = at(&numbers, 0).min(self.history.len());
                let numbers = self.history[..count].to_vec();
                self.replay(&numbers)
            }
            "u" => self.run(crate::run, &numbers),
            "U" => self.run(crate::run_lowest, &numbers),
            "g" => {
                let mut room = lent_state(at(&numbers, 0));
                let answer = crate::read(&self.table, &self.marking, &mut room);
                self.keep_state(answer, &room)
            }
            "s" => {
                let mut room = lent_state(at(&numbers, 0));
                let answer = crate::start(&self.table, &mut room);
                self.keep_state(answer, &room)
            }
            "x" => {
                self.state = kept(&numbers, STATE_ROOM, |number| number as u16);
                vec![self.state.len().to_string()]
            }
            "y" => {
                set(&mut self.state, at(&numbers, 0), number(&numbers, 1) as u16);
                vec![self.state.len().to_string()]
            }
            "o" => self.open_steps(&numbers),
            "k" => self.step(&numbers),
            "v" => self.rewrite(&numbers),
            "a" => self.original(&numbers),
            "c" => self.make_summary(&numbers),
            "d" => {
                let count = number(&numbers, 1) as u32;
                set(&mut self.counts, at(&numbers, 0), count);
                vec![self.counts.len().to_string()]
            }
            "n" => {
                set(&mut self.enabled, at(&numbers, 0), number(&numbers, 1));
                vec![self.enabled.len().to_string()]
            }
            "F" => self.fire_with_summary(&numbers),
            "K" => {
                let (counts, enabled) = (&self.counts, &self.enabled);
                let cause = summary::check(&self.image, &self.marking, counts, enabled);
                vec![cause.to_string()]
            }
            "L" => self.look_at_set(),
            _ => vec![],
        };
        let start = letter.to_string();
        Ok([vec![start], fields].concat().join(" "))
    }

    fn take_table(&mut self, numbers: &[u64]) -> Vec<String> {
        self.table = kept(numbers, TABLE_ROOM, |number| number as u16);
        vec![crate::check(&self.table).to_string()]
    }

    fn build(&mut self, numbers: &[u64]) -> Vec<String> {
        let mut room = vec![FILL_32; at(numbers, 0).min(IMAGE_ROOM)];
        let answer = crate::build(&self.table, &mut room);
        self.image = room[..answer.unwrap_or(0)].to_vec();
        counted(answer, list32(&room))
    }

    fn fire(&mut self, numbers: &[u64]) -> Vec<String> {
        let fired = crate::fire(&self.image, &mut self.marking, number(numbers, 0) as u32);
        let cause = fired.map_or_else(|refusal| refusal.cause, |()| 0);
        vec![cause.to_string(), list8(&self.marking)]
    }

    /// `e number room` looks at a firing, with so many bytes lent, and keeps nothing.
    fn look(&self, numbers: &[u64]) -> Vec<String> {
        let mut room = vec![FILL_8; at(numbers, 1).min(MARKING_ROOM)];
        let number = number(numbers, 0) as u32;
        let answer = crate::look(&self.image, &self.marking, number, &mut room);
        counted(answer, list8(&room))
    }

    fn replay(&mut self, numbers: &[u32]) -> Vec<String> {
        let (cause, firings) = match crate::replay(&self.image, &mut self.marking, numbers) {
            Ok(firings) => (0, firings),
            Err(refusal) => refused(refusal),
        };
        vec![cause.to_string(), firings.to_string(), list8(&self.marking)]
    }

    fn run(&mut self, run: Run, numbers: &[u64]) -> Vec<String> {
        let limit = number(numbers, 0);
        self.history = vec![FILL_32; at(numbers, 1).min(HISTORY_ROOM)];
        let ran = run(&self.image, &mut self.marking, limit, &mut self.history);
        let (cause, reason, firings) = match ran {
            Ok(answer) => (0, reason_number(answer.reason), answer.firings),
            Err(refusal) => {
                let (cause, firings) = refused(refusal);
                (cause, 0, firings)
            }
        };
        vec![
            cause.to_string(),
            reason.to_string(),
            firings.to_string(),
            list32(&self.history),
            list8(&self.marking),
        ]
    }

    fn open_steps(&mut self, numbers: &[u64]) -> Vec<String> {
        let mut room = vec![FILL_32; at(numbers, 0).min(LABEL_ROOM)];
        let answer = crate::open_steps(&self.table, &self.state, &mut room);
        counted(answer, list32(&room))
    }

    fn step(&mut self, numbers: &[u64]) -> Vec<String> {
        let [kind, a, b] = [0, 1, 2].map(|at| number(numbers, at) as u32);
        let mut room = lent_state(at(numbers, 3));
        let answer = crate::step(&self.table, &self.state, kind, a, b, &mut room);
        self.keep_state(answer, &room)
    }

    /// `v room` rewrites the table into so many words and keeps nothing.
    fn rewrite(&self, numbers: &[u64]) -> Vec<String> {
        let mut room = vec![FILL_16; at(numbers, 0).min(TABLE_ROOM)];
        let answer = crate::rewrite(&self.table, &mut room);
        counted(answer, list16(&room))
    }

    /// `a kind number` reads a number of the rewritten table back, of a node, a branch or a name by
    /// the kind modulo 3; with a cause the answer's number is 0.
    fn original(&self, numbers: &[u64]) -> Vec<String> {
        let original = match number(numbers, 0) % 3 {
            0 => crate::original_node,
            1 => crate::original_branch,
            _ => crate::original_name,
        };
        let (cause, original) = match original(&self.table, number(numbers, 1) as u32) {
            Ok(original) => (0, original),
            Err(cause) => (cause, 0),
        };
        vec![cause.to_string(), original.to_string()]
    }

    /// `c counts set` makes the summary in so many words of each, which are all kept.
    fn make_summary(&mut self, numbers: &[u64]) -> Vec<String> {
        self.counts = vec![FILL_32; at(numbers, 0).min(COUNT_ROOM)];
        self.enabled = vec![FILL_64; at(numbers, 1).min(SET_ROOM)];
        let (counts, enabled) = (&mut self.counts, &mut self.enabled);
        let made = summary::make(&self.image, &self.marking, counts, enabled);
        let answer = told(made.map(|transitions| transitions as usize));
        let lists = vec![list32(&self.counts), list64(&self.enabled)];
        [answer, lists].concat()
    }

    fn fire_with_summary(&mut self, numbers: &[u64]) -> Vec<String> {
        let number = number(numbers, 0) as u32;
        let (counts, enabled) = (&mut self.counts, &mut self.enabled);
        let fired = summary::fire(&self.image, &mut self.marking, counts, enabled, number);
        let cause = fired.map_or_else(|refusal| refusal.cause, |()| 0);
        vec![
            cause.to_string(),
            list8(&self.marking),
            list32(&self.counts),
            list64(&self.enabled),
        ]
    }

    /// `L` answers 1 and the lowest of the set, or 0 and 0, then how many it has.
    fn look_at_set(&self) -> Vec<String> {
        let (found, lowest) = match summary::lowest(&self.enabled) {
            Some(lowest) => (1, lowest),
            None => (0, 0),
        };
        let number = summary::number(&self.enabled);
        vec![found.to_string(), lowest.to_string(), number.to_string()]
    }

    /// The answer of a call that writes a state, which is kept unless it was refused.
    fn keep_state(&mut self, answer: Result<usize, u32>, room: &[u16]) -> Vec<String> {
        if let Ok(count) = answer {
            self.state = room[..count].to_vec();
        }
        counted(answer, list16(room))
    }
}

/// A number of a request; 0 where it is missing.
fn number(numbers: &[u64], at: usize) -> u64 {
    numbers.get(at).copied().unwrap_or(0)
}

/// A number of a request as an index or a count.
fn at(numbers: &[u64], at: usize) -> usize {
    usize::try_from(number(numbers, at)).unwrap_or(usize::MAX)
}

fn kept<W>(numbers: &[u64], room: usize, word: impl Fn(u64) -> W) -> Vec<W> {
    numbers
        .iter()
        .take(room)
        .map(|&number| word(number))
        .collect()
}

fn set<W>(list: &mut [W], at: usize, word: W) {
    if let Some(place) = list.get_mut(at) {
        *place = word;
    }
}

fn lent_state(room: usize) -> Vec<u16> {
    vec![FILL_16; room.min(STATE_ROOM)]
}

/// A cause, and a count that is 0 with it.
fn told(answer: Result<usize, u32>) -> Vec<String> {
    let (cause, count) = match answer {
        Ok(count) => (0, count),
        Err(cause) => (cause, 0),
    };
    vec![cause.to_string(), count.to_string()]
}

fn counted(answer: Result<usize, u32>, list: String) -> Vec<String> {
    [told(answer), vec![list]].concat()
}

/// A refusal's cause, and its firings where it has any.
fn refused(refusal: Refusal) -> (u32, u64) {
    (refusal.cause, refusal.firings.unwrap_or(0))
}

fn reason_number(reason: Reason) -> u32 {
    match reason {
        Reason::LimitReached => 1,
        Reason::HistoryFull => 2,
        Reason::NothingEnabled => 3,
    }
}

fn list8(list: &[u8]) -> String {
    listed(list, |byte| vec![byte])
}

fn list16(list: &[u16]) -> String {
    listed(list, |word| word.to_le_bytes().to_vec())
}

fn list32(list: &[u32]) -> String {
    listed(list, |word| word.to_le_bytes().to_vec())
}

fn list64(list: &[u64]) -> String {
    listed(list, |word| word.to_le_bytes().to_vec())
}

/// A list's length with its items, or with the digest of its bytes.
fn listed<W: Copy + ToString>(list: &[W], bytes: impl Fn(W) -> Vec<u8>) -> String {
    let length = list.len();
    if length > WHOLE {
        let bytes = list.iter().flat_map(|&item| bytes(item));
        return format!("{length}#{:016x}", digest(bytes));
    }
    let items: Vec<String> = list.iter().map(W::to_string).collect();
    format!("{length}:{}", items.join(" "))
}

/// 64-bit FNV-1a.
fn digest(bytes: impl Iterator<Item = u8>) -> u64 {
    bytes.fold(0xcbf2_9ce4_8422_2325, |digest, byte| {
        (digest ^ u64::from(byte)).wrapping_mul(0x0000_0100_0000_01b3)
    })
}
