//! Document 01's worked cases: table E, its image, firings, run and states, and the variants that
//! its paragraph of starred cases names; then small tables written out by hand, and a large one.

use super::reaching::reaching;
use super::requests::Writer;
use crate::generate::encode;

/// Table E.
pub const E: [u16; 48] = [
    1, 2, 2, 2, 5, 2, 0, 13, 15, 23, 25, 40, 48, // header
    0, 1, // names
    0, 0, 0, 0, 1, 3, 0, 0, // definitions
    0, 1, // threads
    2, 1, 1, 1, 0, 1, 0, 0, 0, 1, 1, 1, 0, 0, 0, // nodes
    1, 0, 1, 2, 2, 0, 2, 4, // branches
];

/// What its net has, and which of its transitions are where r and x have value 1 and 2.
const E_WORDS: u64 = 106;
const E_PLACES: u64 = 15;
const E_TRANSITIONS: u64 = 8;
const E_RUN: [[u64; 4]; 2] = [[0, 6, 2, 4], [1, 7, 3, 5]];

/// One thread that stands at Stop.
const STOPPED: [u16; 21] = [
    0, 0, 1, 1, 1, 0, 0, 13, 13, 17, 18, 21, 21, 0, 0, 0, 0, 0, 0, 0, 0,
];

/// ν r.K(r) with K(f) := 0: a call into a Stop body.
const INTO_STOP: [u16; 34] = [
    1, 2, 2, 1, 3, 0, 1, 13, 15, 23, 24, 33, 33, // header
    0, 2, // names
    0, 0, 0, 0, 0, 2, 2, 1, // definitions
    0, // threads
    2, 1, 1, 3, 1, 0, 0, 0, 0, // nodes
    1, // arguments
];

/// p(x).x⟨x⟩.0 beside ν r.p⟨r⟩.r(y).0: a private channel handed over, a name sent on itself.
const ON_ITSELF: [u16; 63] = [
    1, 3, 2, 2, 7, 4, 0, 13, 16, 24, 26, 47, 63, // header
    1, 0, 1, // names
    0, 0, 0, 0, 1, 3, 0, 0, // definitions
    0, 1, // threads
    1, 0, 1, 1, 1, 1, 0, 0, 0, // nodes 0 to 2
    2, 2, 4, 1, 2, 1, 1, 3, 1, 0, 0, 0, // nodes 3 to 6
    2, 0, 1, 1, 1, 1, 1, 2, 1, 0, 2, 5, 2, 2, 3, 6, // branches
];

/// K(p, p) with K(f, g) := f⟨g⟩.0 beside p(x).0: arguments public and repeated, an entry that is a
/// Call, and an entry that is a Choice.
const REPEATED: [u16; 55] = [
    1, 3, 3, 2, 5, 2, 2, 13, 16, 28, 30, 45, 53, // header
    2, 2, 1, // names
    0, 0, 0, 0, 0, 1, 1, 2, 1, 3, 0, 0, // definitions
    0, 2, // threads
    3, 1, 0, 1, 0, 1, 0, 0, 0, 1, 1, 1, 0, 0, 0, // nodes
    1, 1, 2, 2, 2, 0, 3, 4, // branches
    0, 0, // arguments
];

pub fn play_worked(writer: &mut Writer) {
    writer.ask('z', &[]);
    writer.ask('e', &[0, 4]);
    play_e(writer);
    look_at_e(writer);
    play_variants(writer);
    play_rules(writer);
    for table in [&INTO_STOP[..], &ON_ITSELF[..], &REPEATED[..]] {
        walk(writer, table);
    }
    for table in reaching() {
        walk(writer, &table);
    }
    writer.table(&large());
    writer.ask('z', &[]);
    writer.ask('b', &[0]);
}

/// p0(x).(x(y).0 + …) beside p0(g).p0(h).(g⟨h⟩.0 + …) and ν r.(p0⟨p0⟩.0 + … + p0⟨r⟩.0), as many as
/// the bounds let through: any value on any channel.
fn large() -> Vec<u16> {
    let (r, x, g, h, first_input) = (32, 33, 34, 35, 36);
    let (receives, sends, values) = (28, 180, 33);
    let names = [vec![0], vec![1; 3 + receives]].concat();
    let definitions = vec![0, 0, 0, 0, 1, 1, 0, 0, 2, 2, 0, 0];
    // Branches: x, g, the receives on x, h, the sends on g, the sends on p0.
    let for_h = 2 + receives;
    let first_send = for_h + 1;
    let first_value = first_send + sends;
    let count = first_value + values;
    let inner = [
        [1, 0, 1],
        [1, 1, 1],
        [2, r, 6],
        [1, 2, receives],
        [1, for_h, 1],
        [1, first_send, sends],
        [1, first_value, values],
    ];
    let mut nodes: Vec<usize> = inner.concat();
    let mut branches: Vec<usize> = Vec::new();
    for at in 0..count {
        let stop = nodes.len() / 3;
        branches.extend(match at {
            0 => [2, 0, x, 3],
            1 => [2, 0, g, 4],
            at if at < for_h => [2, x, first_input + at - 2, stop],
            at if at == for_h => [2, 0, h, 5],
            at if at < first_value => [1, g, h, stop],
            at => [1, 0, at - first_value, stop],
        });
        if branches.ends_with(&[stop]) {
            nodes.extend([0, 0, 0]);
        }
    }
    let words = |list: Vec<usize>| list.into_iter().map(|word| word as u16).collect();
    encode(
        32,
        [
            names,
            definitions,
            vec![0, 1, 2],
            words(nodes),
            words(branches),
            vec![],
        ],
    )
}

fn play_e(writer: &mut Writer) {
    writer.table(&E);
    for room in [E_WORDS, E_WORDS - 1, 0, E_WORDS + 5, E_WORDS] {
        writer.ask('z', &[]);
        writer.ask('b', &[room]);
    }
    let channel = E_RUN[0][1];
    for number in [channel, E_TRANSITIONS, 4_294_967_295, 0, 1] {
        writer.ask('l', &[E_PLACES]);
        writer.ask('r', &[]);
        writer.ask('f', &[number]);
        writer.ask('g', &[4]);
    }
    for (limit, room) in [
        (5, 5),
        (4, 5),
        (4, 3),
        (0, 5),
        (5, 0),
        (18_446_744_073_709_551_615, 4),
        (18_446_744_073_709_551_615, 8),
    ] {
        for rule in ['u', 'U'] {
            writer.ask('r', &[]);
            writer.ask(rule, &[limit, room]);
            writer.ask('h', &[4]);
            writer.ask('g', &[6]);
        }
    }
    writer.ask('r', &[]);
    writer.ask('g', &[4]);
    for number in E_RUN[0] {
        writer.ask('f', &[number]);
        for room in [4, 3] {
            writer.ask('g', &[room]);
        }
        writer.ask('o', &[6]);
    }
    for room in [4, 3, 6] {
        writer.ask('s', &[room]);
    }
    for room in [3, 2, 5] {
        writer.ask('o', &[room]);
    }
    for label in [[2, 0, 2], [2, 0, 0], [4, 0, 1], [2, 0, 1]] {
        writer.ask('k', &[label[0], label[1], label[2], 5]);
    }
    for label in [[2, 0, 1], [1, 2, 1], [4, 1, 0], [4, 0, 1], [4, 0, 1]] {
        writer.ask('k', &[label[0], label[1], label[2], 4]);
    }
    writer.ask('o', &[0]);
}

/// The firings of table E, looked at with rooms of every kind; then a look that every cause refuses,
/// with what the first of them finds mended each time.
fn look_at_e(writer: &mut Writer) {
    writer.ask('r', &[]);
    let most = 18_446_744_073_709_551_615;
    let (exact, channel) = (E_PLACES, E_RUN[0][1]);
    for room in [exact, exact - 1, 0, exact + 1, 40, 32_768, 32_769, most] {
        writer.ask('e', &[0, room]);
    }
    let beyond = [E_TRANSITIONS, 4_294_967_295, 4_294_967_296];
    for number in [&beyond[..], &[4_294_967_296 + channel, most]].concat() {
        writer.ask('e', &[number, exact]);
    }
    writer.ask('e', &[channel]);
    writer.ask('e', &[]);
    for fired in E_RUN[1] {
        for number in 0..E_TRANSITIONS + 1 {
            writer.ask('e', &[number, exact]);
        }
        writer.ask('f', &[fired]);
    }
    writer.ask('r', &[]);
    // The places of [r=1], node 1, node 2's end and [x=1].
    let (made, standing, ended, received) = (0, 9, 11, 2);
    let (initial, arc_start) = (8, 14 + 6 * channel + 3);
    let [first, second, start] = [initial, initial + 1, arc_start].map(|at| image_word(writer, at));
    writer.ask('i', &[initial, second]);
    writer.ask('i', &[arc_start, 0]);
    writer.ask('m', &[ended, 2]);
    writer.ask('e', &[E_TRANSITIONS, 0]);
    writer.ask('i', &[initial, first]);
    writer.ask('e', &[E_TRANSITIONS, 0]);
    writer.ask('m', &[ended, 0]);
    writer.ask('e', &[E_TRANSITIONS, 0]);
    writer.ask('e', &[channel, 0]);
    writer.ask('i', &[arc_start, start]);
    writer.ask('m', &[received, 1]);
    writer.ask('e', &[channel, 0]);
    writer.ask('m', &[made, 1]);
    writer.ask('m', &[standing, 1]);
    writer.ask('e', &[channel, 0]);
    writer.ask('m', &[received, 0]);
    for room in [0, exact - 1, exact, exact + 2] {
        writer.ask('e', &[channel, room]);
    }
}

fn image_word(writer: &Writer, at: u64) -> u64 {
    writer.session.image[at as usize].into()
}

/// Table E with a word changed, cut and lengthened; the stopped table and its variant.
fn play_variants(writer: &mut Writer) {
    let with = |at: usize, word: u16| {
        let mut words = E.to_vec();
        words[at] = word;
        words
    };
    let mut call = STOPPED;
    call[18] = 3;
    let variants = [
        vec![],
        E[..12].to_vec(),
        E[..13].to_vec(),
        E[..47].to_vec(),
        [&E[..], &[0]].concat(),
        [&E[..], &[0; 2400]].concat(),
        with(0, 33),
        with(0, 32),
        with(0, 0),
        with(0, 2),
        with(3, 0),
        with(4, 0),
        with(13, 3),
        with(42, 2),
        with(43, 0),
        with(13, 1),
        call.to_vec(),
        STOPPED.to_vec(),
    ];
    for words in variants {
        writer.table(&words);
        writer.ask('z', &[]);
        writer.ask('b', &[E_WORDS]);
        writer.ask('s', &[4]);
        writer.ask('g', &[4]);
        writer.ask('o', &[3]);
        writer.ask('k', &[2, 0, 1, 4]);
    }
    writer.ask('b', &[9]);
    writer.ask('b', &[8]);
    writer.ask('b', &[10]);
    writer.ask('l', &[1]);
    writer.ask('r', &[]);
    writer.ask('u', &[1, 1]);
    writer.ask('g', &[1]);
    writer.ask('s', &[1]);
    writer.ask('o', &[0]);
}

/// Runs by both rules of nets that no table has: three places, the first marked, and a token that
/// can go to the second or the third by transitions of these kinds, the third of which may be
/// malformed.
fn play_rules(writer: &mut Writer) {
    let step = [[0, 1], [0, 2], [0, 1]];
    for (kinds, wrong) in [
        ([2, 1, 1], false),
        ([3, 4, 0], false),
        ([2, 5, 3], false),
        ([1, 0, 2], false),
        ([6, 7, 4_294_967_295], false),
        ([2, 3, 1], true),
        ([2, 1, 0], true),
        ([0, 3, 1], true),
    ] {
        let mut image = vec![3, 3, 3, 3, 1, 8, 9, 27, 0];
        for (number, kind) in kinds.into_iter().enumerate() {
            let start = match wrong && number == 2 {
                true => 26,
                false => 27 + 2 * number as u64,
            };
            image.extend([kind, 0, 0, start, 1, 1]);
        }
        image.extend(step.concat());
        writer.ask('w', &image);
        for (rule, limit) in [('u', 2), ('U', 2), ('u', 0), ('U', 0)] {
            writer.ask('p', &[1, 0, 0]);
            writer.ask(rule, &[limit, 2]);
        }
        // Where the token would go to the third place, there is one.
        writer.ask('p', &[1, 0, 1]);
        writer.ask('u', &[3, 3]);
        writer.ask('U', &[3, 3]);
    }
}

/// Builds a table, runs it firing by firing with a read-back after each, and walks its states.
fn walk(writer: &mut Writer, table: &[u16]) {
    writer.table(table);
    writer.ask('z', &[]);
    writer.ask('b', &[1024]);
    let places = image_word(writer, 0);
    writer.ask('l', &[places]);
    writer.ask('r', &[]);
    writer.ask('g', &[8]);
    for turn in 0..12 {
        writer.ask(['U', 'u'][turn % 2], &[1, 1]);
        writer.ask('g', &[8]);
        writer.ask('o', &[9]);
    }
    writer.ask('s', &[8]);
    for _ in 0..6 {
        let mut labels = vec![0; 64];
        let state = writer.session.state.clone();
        writer.ask('o', &[9]);
        if matches!(crate::open_steps(table, &state, &mut labels), Ok(count) if count > 0) {
            writer.ask(
                'k',
                &[labels[0].into(), labels[1].into(), labels[2].into(), 8],
            );
        }
    }
}
