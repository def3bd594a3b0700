//! Requests on summaries: made, kept by firings, checked, and spoilt in every part.

use super::foreign::foreign;
use super::play::enabled;
use super::requests::{Writer, TINY};
use super::worked::E;
use crate::dialogue::dialogue;
use crate::generate::{accepted, Shape};
use crate::summary::set_words;

/// Above the seeds of all requests before.
const FIRST_SEED: u64 = 2_000_000;

/// All of them, whatever was asked before.
pub fn play_summaries(writer: &mut Writer) {
    writer.draw_from(FIRST_SEED);
    play_none(writer);
    writer.table(&E);
    play_table(writer, 24);
    play_order(writer);
    for _ in 0..30 {
        writer.draw_next();
        let words = accepted(&mut writer.random, TINY);
        writer.table(&words);
        play_table(writer, 8);
    }
    for _ in 0..12 {
        writer.draw_next();
        let words = dialogue(&mut writer.random, Shape::SMALL);
        writer.table(&words);
        play_table(writer, 16);
    }
    for _ in 0..3 {
        writer.draw_next();
        let words = accepted(&mut writer.random, Shape::WIDE);
        writer.table(&words);
        play_table(writer, 16);
    }
    for transitions in [1, 63, 64, 65, 128, 129] {
        writer.draw_next();
        lend(writer, &alternating(transitions));
        play_image(writer, 10);
    }
    for _ in 0..40 {
        writer.draw_next();
        let image = foreign(&mut writer.random);
        lend(writer, &image);
        play_image(writer, 10);
    }
}

/// No image, and no summary.
fn play_none(writer: &mut Writer) {
    writer.ask('w', &[]);
    for letter in ['L', 'K', 'F', 'c', 'd', 'n'] {
        writer.ask(letter, &[]);
    }
    writer.ask('c', &[3, 2]);
    writer.ask('L', &[]);
    writer.ask('n', &[0, 0]);
    writer.ask('L', &[]);
    writer.ask('n', &[1, 9_223_372_036_854_775_808]);
    writer.ask('L', &[]);
    writer.ask('n', &[1, 0]);
    writer.ask('L', &[]);
    let most = 18_446_744_073_709_551_615;
    writer.ask('n', &[0, most]);
    writer.ask('L', &[]);
    writer.ask('d', &[2, most]);
    writer.ask('d', &[most, 1]);
    writer.ask('n', &[most, 1]);
    writer.ask('F', &[0]);
    writer.ask('c', &[32_768, 512]);
    writer.ask('c', &[most, 513]);
    writer.ask('L', &[]);
}

fn lend(writer: &mut Writer, image: &[u32]) {
    let words: Vec<u64> = image.iter().map(|&word| word.into()).collect();
    writer.ask('w', &words);
}

/// An image of two places, the first marked: of three transitions one moves the token on, one moves
/// it back, and one has no arcs.
fn alternating(transitions: u32) -> Vec<u32> {
    let arcs = 9 + 6 * transitions;
    let mut image = vec![2, transitions, 2, 2, 1, 8, 9, arcs, 0];
    for number in 0..transitions {
        let [start, count] = [[arcs, 1], [arcs + 2, 1], [arcs, 0]][(number % 3) as usize];
        image.extend([9, 9, 9, start, count, count]);
    }
    image.extend([0, 1, 1, 0]);
    image
}

/// The image of the table that is lent, and calls on it.
fn play_table(writer: &mut Writer, calls: usize) {
    let size = crate::size(&writer.session.table).unwrap_or(0);
    writer.ask('b', &[size as u64]);
    play_image(writer, calls);
}

/// How many places, transitions and words of the set the image has, if it has a header.
fn counts(writer: &Writer) -> [u64; 3] {
    match writer.session.image[..] {
        [places, transitions, ..] => {
            let words = set_words(transitions) as u64;
            [places.into(), transitions.into(), words]
        }
        _ => [0, 0, 0],
    }
}

/// The initial marking with its summary.
fn begin(writer: &mut Writer) {
    let [places, transitions, words] = counts(writer);
    writer.ask('l', &[places]);
    writer.ask('r', &[]);
    writer.ask('c', &[transitions, words]);
}

fn play_image(writer: &mut Writer, calls: usize) {
    begin(writer);
    writer.ask('L', &[]);
    for _ in 0..calls {
        match writer.random.below(100) {
            0..=44 => fire_enabled(writer),
            45..=51 => fire_any(writer),
            52..=57 => look(writer),
            58..=67 => spoil_count(writer),
            68..=77 => spoil_set(writer),
            78..=85 => spoil_lengths(writer),
            86..=91 => spoil_marking(writer),
            _ => spoil_image(writer),
        }
    }
    look(writer);
}

fn look(writer: &mut Writer) {
    writer.ask('K', &[]);
    writer.ask('L', &[]);
}

fn fire_enabled(writer: &mut Writer) {
    let enabled = enabled(&writer.session);
    match writer.random.pick(&enabled) {
        Some(number) => writer.ask('F', &[number.into()]),
        None => begin(writer),
    }
}

fn fire_any(writer: &mut Writer) {
    let [_, transitions, _] = counts(writer);
    let number = match writer.random.below(4) {
        0 => transitions,
        1 => 4_294_967_295,
        2 => 4_294_967_296 + transitions / 2,
        _ => writer.random.below(transitions as usize) as u64,
    };
    writer.ask('F', &[number]);
}

/// A count that is not the marking's: found by a check, kept by a firing unless it is worked out
/// afresh.
fn spoil_count(writer: &mut Writer) {
    let [_, transitions, _] = counts(writer);
    let at = writer.random.below(transitions as usize) as u64;
    let count = [0, 1, 2, 4_294_967_295][writer.random.below(4)];
    writer.ask('d', &[at, count]);
    after_spoiling(writer);
}

/// A bit of the set that is not the marking's, perhaps a spare one.
fn spoil_set(writer: &mut Writer) {
    let at = writer.random.below(writer.session.enabled.len());
    let word = writer.session.enabled.get(at).copied().unwrap_or(0);
    let bit = match writer.random.chance(50) {
        true => writer.random.below(64),
        false => writer.random.below(counts(writer)[1].min(64) as usize),
    };
    let words = [word ^ 1 << bit, 0, u64::MAX];
    let word = words[writer.random.below(4).saturating_sub(1)];
    writer.ask('n', &[at as u64, word]);
    writer.ask('L', &[]);
    after_spoiling(writer);
}

fn after_spoiling(writer: &mut Writer) {
    writer.ask('K', &[]);
    for _ in 0..writer.random.between(1, 2) {
        fire_enabled(writer);
    }
    match writer.random.chance(60) {
        true => make(writer),
        false => writer.ask('K', &[]),
    }
}

fn make(writer: &mut Writer) {
    let [_, transitions, words] = counts(writer);
    writer.ask('c', &[transitions, words]);
}

/// A summary with too many words, or none where there are too few.
fn spoil_lengths(writer: &mut Writer) {
    let [_, transitions, words] = counts(writer);
    let lengths: [[u64; 2]; 6] = [
        [transitions.saturating_sub(1), words],
        [transitions, words.saturating_sub(1)],
        [transitions + 1, words],
        [transitions, words + 1],
        [0, 0],
        [transitions + 3, words + 2],
    ];
    let lengths = lengths[writer.random.below(6)];
    writer.ask('c', &lengths);
    writer.ask('K', &[]);
    fire_enabled(writer);
    make(writer);
}

/// The marking goes on without its summary, or is none.
fn spoil_marking(writer: &mut Writer) {
    let [places, _, _] = counts(writer);
    let place = writer.random.below(places as usize) as u64;
    let byte = [0, 1, 2][writer.random.below(3)];
    match writer.random.below(3) {
        0 => writer.ask('l', &[places + 1]),
        1 => writer.ask('m', &[place, byte]),
        _ => {
            let enabled = enabled(&writer.session);
            let number = writer.random.pick(&enabled).unwrap_or(0);
            writer.ask('f', &[number.into()]);
        }
    }
    writer.ask('K', &[]);
    fire_enabled(writer);
    match writer.random.chance(50) {
        true => make(writer),
        false => writer.ask('K', &[]),
    }
    begin(writer);
}

/// A word of any record, of an arc or of the header is wrong for a while.
fn spoil_image(writer: &mut Writer) {
    let image = &writer.session.image;
    let Some(&records) = image.get(6) else {
        return;
    };
    let (records, length) = (records as usize, image.len());
    let [_, transitions, _] = counts(writer);
    let record = records + 6 * writer.random.below(transitions as usize);
    let at = match writer.random.below(5) {
        0 => writer.random.below(8),
        1 | 2 => record + 3 + writer.random.below(3),
        _ => writer.random.between(records, length - 1),
    };
    let Some(&word) = writer.session.image.get(at) else {
        return;
    };
    let other = [word.wrapping_add(1), word.wrapping_sub(1), 0, u32::MAX][writer.random.below(4)];
    writer.ask('i', &[at as u64, other.into()]);
    writer.ask('K', &[]);
    fire_any(writer);
    fire_enabled(writer);
    make(writer);
    writer.ask('i', &[at as u64, word.into()]);
    begin(writer);
}

/// A firing with a summary that every cause refuses, and a check and a making likewise, with what
/// the first of them finds mended each time.
fn play_order(writer: &mut Writer) {
    writer.ask('b', &[4096]);
    let [places, transitions, words] = counts(writer);
    let (initial, arc_start) = (8, u64::from(writer.session.image[6]) + 3);
    let [first, second, start] =
        [initial, initial + 1, arc_start].map(|at| u64::from(writer.session.image[at as usize]));
    let try_all = |writer: &mut Writer, lengths: [u64; 2], number: u64| {
        writer.ask('c', &lengths);
        writer.ask('K', &[]);
        writer.ask('F', &[number]);
    };
    let (short, exact) = ([transitions - 1, words - 1], [transitions, words]);
    writer.ask('l', &[places]);
    writer.ask('r', &[]);
    writer.ask('i', &[initial, second]);
    writer.ask('i', &[arc_start, 0]);
    writer.ask('m', &[places - 1, 2]);
    try_all(writer, short, transitions);
    writer.ask('i', &[initial, first]);
    try_all(writer, short, transitions);
    writer.ask('m', &[places - 1, 0]);
    try_all(writer, short, transitions);
    try_all(writer, [transitions, words + 1], transitions);
    try_all(writer, [transitions + 1, words], transitions);
    // 12 leaves what was lent, so the lengths are right and the contents are not.
    try_all(writer, exact, transitions);
    try_all(writer, exact, 2);
    writer.ask('i', &[arc_start, start]);
    writer.ask('K', &[]);
    writer.ask('F', &[2]);
    // An output of 0 is marked.
    writer.ask('m', &[0, 1]);
    writer.ask('F', &[0]);
    try_all(writer, exact, 0);
    writer.ask('m', &[0, 0]);
    try_all(writer, exact, 0);
    writer.ask('K', &[]);
}
