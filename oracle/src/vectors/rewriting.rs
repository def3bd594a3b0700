//! Requests on tables whose definitions call themselves: their rewriting, the maps back, and calls
//! on the rewritten table.

use super::answers::TABLE_ROOM;
use super::drawing::first_words;
use super::play::{ask_any, play_table};
use super::requests::{Writer, TINY};
use super::self_calls::{self_call_shapes, SELF_CALL_SHAPES};
use crate::bounds::{many_arguments, many_definitions, many_names, many_nodes};
use crate::damage::{damaged, spoil};
use crate::dialogue::dialogue;
use crate::generate::{accepted, Shape};
use crate::random::Random;
use crate::rewrite::rewritten;
use crate::table::{accept, accept_sparing, Table};

/// A definition that calls itself at once.
const CALLER: [u16; 21] = [
    0, 0, 1, 1, 1, 0, 0, 13, 13, 17, 18, 21, 21, 0, 0, 0, 0, 0, 3, 0, 0,
];

/// Above the seeds of all other requests.
const FIRST_SEED: u64 = 1_000_000;

const NODE: u64 = 0;
const BRANCH: u64 = 1;
const NAME: u64 = 2;

/// All of them, whatever was asked before.
pub fn play_rewriting(writer: &mut Writer) {
    writer.draw_from(FIRST_SEED);
    play_caller(writer);
    for cause in 1..=9 {
        for shape in [TINY, TINY, TINY, TINY, Shape::SMALL] {
            writer.draw_next();
            let words = damaged(&mut writer.random, self_calling(shape), cause);
            play_refused(writer, &words);
        }
    }
    for wanted in SELF_CALL_SHAPES {
        for shape in [TINY, TINY, TINY, Shape::SMALL, Shape::SMALL] {
            let any = |random: &mut Random| accepted(random, self_calling(shape));
            let like = |table: &Table| self_call_shapes(table).contains(&wanted);
            writer.draw_next();
            let words = drawn(&mut writer.random, any, like);
            play_self_calling(writer, &words, 9, 5);
        }
    }
    for _ in 0..12 {
        let talk = |random: &mut Random| dialogue(random, self_calling(Shape::SMALL));
        let calls_itself = |table: &Table| !table.self_calling().is_empty();
        writer.draw_next();
        let words = drawn(&mut writer.random, talk, calls_itself);
        play_self_calling(writer, &words, 12, 24);
    }
    for _ in 0..6 {
        let wide = |random: &mut Random| accepted(random, self_calling(Shape::WIDE));
        writer.draw_next();
        let words = drawn(&mut writer.random, wide, |_| true);
        play_self_calling(writer, &words, 9, 5);
    }
    for (shape, count) in [
        (TINY, 4),
        (Shape::SMALL, 2),
        (Shape::WIDE, 1),
        (Shape::FULL, 1),
    ] {
        for _ in 0..count {
            writer.draw_next();
            let words = accepted(&mut writer.random, shape);
            play_plain(writer, &words);
        }
    }
    play_bounds(writer);
}

fn self_calling(shape: Shape) -> Shape {
    Shape {
        self_calls: true,
        ..shape
    }
}

/// The first table drawn that is as wanted and whose rewriting has a net that is not too large.
fn drawn(
    random: &mut Random,
    draw: impl Fn(&mut Random) -> Vec<u16>,
    wanted: impl Fn(&Table) -> bool,
) -> Vec<u16> {
    loop {
        let words = draw(random);
        let table = rewritten(&words).and_then(|words| accept(&words));
        let fits = table.is_ok_and(|table| first_words(&table) < 60_000);
        if fits && accept_sparing(&words).is_ok_and(|table| wanted(&table)) {
            return words;
        }
    }
}

/// The definition that calls itself at once, by every call, with rooms and numbers of every kind.
fn play_caller(writer: &mut Writer) {
    writer.table(&CALLER);
    writer.ask('b', &[28]);
    writer.ask('s', &[1]);
    writer.ask('g', &[1]);
    writer.ask('o', &[3]);
    writer.ask('k', &[5, 0, 0, 1]);
    for room in [28, 27, 0, 29, 40, 4096, 4097] {
        writer.ask('v', &[room]);
    }
    for number in [0, 1, 2, 65_535, 65_536, 4_294_967_295, 4_294_967_297] {
        writer.ask('a', &[NODE, number]);
    }
    for kind in [BRANCH, NAME, 3, 4, 5, 18_446_744_073_709_551_615] {
        writer.ask('a', &[kind, 0]);
        writer.ask('a', &[kind, 1]);
    }
    play_rewritten(writer, &CALLER, 12, 6);
}

/// A table that is refused, also where there is no room and for numbers that no table has.
fn play_refused(writer: &mut Writer, words: &[u16]) {
    writer.table(words);
    let room = [0, 64, 4096][writer.random.below(3)];
    writer.ask('v', &[room]);
    for kind in [NODE, BRANCH, NAME] {
        let number = [0, 1, 65_535, 4_294_967_295][writer.random.below(4)];
        writer.ask('a', &[kind, number]);
    }
}

/// A table with self-calls, then `calls` calls on its rewriting and `steps` steps.
fn play_self_calling(writer: &mut Writer, words: &[u16], calls: usize, steps: usize) {
    writer.table(words);
    if writer.random.chance(30) {
        ask_any(writer);
    }
    ask_rewriting(writer, words);
    ask_originals(writer, words);
    play_rewritten(writer, words, calls, steps);
    if writer.random.chance(25) {
        let words = writer.session.table.clone();
        ask_rewriting(writer, &words);
        ask_originals(writer, &words);
    }
}

/// The rewritten table, lent as any other.
fn play_rewritten(writer: &mut Writer, words: &[u16], calls: usize, steps: usize) {
    if let Ok(words) = rewritten(words) {
        if let Ok(table) = accept(&words) {
            play_table(writer, &words, table, calls, steps);
        }
    }
}

/// A table without self-calls: it is rewritten to itself.
fn play_plain(writer: &mut Writer, words: &[u16]) {
    writer.table(words);
    ask_rewriting(writer, words);
    ask_originals(writer, words);
}

/// Rewrites into rooms that are long enough, exactly or not, and that are not.
fn ask_rewriting(writer: &mut Writer, words: &[u16]) {
    let exact = rewritten(words).map_or(0, |words| words.len());
    if writer.random.chance(60) {
        writer.ask('v', &[exact.saturating_sub(1) as u64]);
    }
    let (below, more) = (writer.random.below(exact), writer.random.between(1, 9));
    match writer.random.below(4) {
        0 => writer.ask('v', &[below as u64]),
        1 => writer.ask('v', &[(exact + more) as u64]),
        _ => {}
    }
    writer.ask('v', &[exact as u64]);
}

/// Reads numbers back: all of a small table, else some; at the ends and beyond them.
fn ask_originals(writer: &mut Writer, words: &[u16]) {
    let (Ok(college), Ok(table)) = (
        accept_sparing(words),
        rewritten(words).and_then(|words| accept(&words)),
    ) else {
        return;
    };
    let all = words.len() < 100 && writer.random.chance(50);
    for (kind, own, count) in [
        (NODE, college.nodes.len(), table.nodes.len()),
        (BRANCH, college.branches.len(), table.branches.len()),
        (NAME, college.name_count(), table.name_count()),
    ] {
        let mut numbers: Vec<usize> = if all {
            (0..count).collect()
        } else {
            let between = [writer.random.below(own), writer.random.between(own, count)];
            [0, own.saturating_sub(1), own, count.saturating_sub(1)]
                .into_iter()
                .chain(between)
                .collect()
        };
        let beyond = [count, count + 1, 65_535, 65_536, 4_294_967_295];
        numbers.extend([count, beyond[writer.random.below(5)]]);
        numbers.sort_unstable();
        numbers.dedup();
        for number in numbers {
            writer.ask('a', &[kind, number as u64]);
        }
    }
}

/// Tables whose rewriting is just within document 01's bounds, and just beyond one of them.
fn play_bounds(writer: &mut Writer) {
    for words in [
        many_nodes(127, 2),
        many_definitions(16, 0),
        many_definitions(1, 30),
        many_names(16, 0),
        many_names(1, 30),
        many_arguments(16, 0),
        many_arguments(15, 16),
    ] {
        writer.draw_next();
        play_self_calling(writer, &words, 3, 2);
    }
    for words in [
        many_nodes(128, 1),
        many_nodes(129, 0),
        many_definitions(16, 1),
        many_definitions(1, 31),
        many_definitions(32, 0),
        many_names(16, 1),
        many_names(1, 31),
        many_names(32, 0),
        many_arguments(16, 1),
        many_arguments(15, 17),
    ] {
        play_refused(writer, &words);
        writer.ask('v', &[TABLE_ROOM as u64]);
        writer.ask('a', &[NODE, 0]);
    }
    for _ in 0..3 {
        writer.draw_next();
        let words = accepted(&mut writer.random, self_calling(Shape::FULL));
        play_refused(writer, &words);
    }
    // Other causes come before that of a rewritten table beyond a bound.
    for cause in 4..=9 {
        for mut words in [many_names(16, 1), many_arguments(16, 1)] {
            writer.draw_next();
            if spoil(&mut writer.random, &mut words, cause, true) {
                play_refused(writer, &words);
            }
        }
    }
}
