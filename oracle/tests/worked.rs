//! Document 01's worked examples as document 02, item 4, leaves them: table E, its image, listing,
//! firings, run, states, and the starred cases.

mod common;

use common::{image_of, initial_of, E};
use oracle::{build, check, fire, listing, open_steps, read, replay, size, start, step};
use oracle::{run, run_lowest, Reason, Refusal, RunAnswer};

const STOPPED: [u16; 21] = [
    0, 0, 1, 1, 1, 0, 0, 13, 13, 17, 18, 21, 21, 0, 0, 0, 0, 0, 0, 0, 0,
];

const E_LISTING: &str = "\
15 8 22 22 6
0 2 0 1 : 4 6 8 > 0 4 9
1 2 0 1 : 5 7 8 > 1 5 9
2 1 2 1 : 0 10 > 6 11
3 1 2 1 : 1 10 > 7 11
4 1 4 2 : 2 13 > 4 14
5 1 4 2 : 3 13 > 5 14
6 4 0 1 : 0 4 9 12 > 0 2 10 13
7 4 0 1 : 1 5 9 12 > 1 3 10 13
";

const E_IMAGE: [u32; 106] = [
    15, 8, 22, 22, 6, 8, 14, 62, // header
    4, 5, 6, 7, 8, 12, // initial places
    2, 0, 1, 62, 3, 3, // records
    2, 0, 1, 68, 3, 3, //
    1, 2, 1, 74, 2, 2, //
    1, 2, 1, 78, 2, 2, //
    1, 4, 2, 82, 2, 2, //
    1, 4, 2, 86, 2, 2, //
    4, 0, 1, 90, 4, 4, //
    4, 0, 1, 98, 4, 4, //
    4, 6, 8, 0, 4, 9, // arcs
    5, 7, 8, 1, 5, 9, //
    0, 10, 6, 11, //
    1, 10, 7, 11, //
    2, 13, 4, 14, //
    3, 13, 5, 14, //
    0, 4, 9, 12, 0, 2, 10, 13, //
    1, 5, 9, 12, 1, 3, 10, 13, //
];

fn bytes(words: &[u16]) -> Vec<u8> {
    words.iter().flat_map(|word| word.to_le_bytes()).collect()
}

fn with(at: usize, word: u16) -> [u16; 48] {
    let mut words = E;
    words[at] = word;
    words
}

fn state_of(table: &[u16], marking: &[u8]) -> Vec<u16> {
    let mut state = vec![7; 64];
    let length = read(table, marking, &mut state).unwrap();
    assert!(state[length..].iter().all(|&word| word == 7));
    state.truncate(length);
    state
}

fn labels_of(table: &[u16], state: &[u16]) -> Vec<[u32; 3]> {
    let mut labels = vec![0; 64];
    let count = open_steps(table, state, &mut labels).unwrap();
    labels[..3 * count]
        .chunks(3)
        .map(|words| [words[0], words[1], words[2]])
        .collect()
}

fn step_of(table: &[u16], state: &[u16], [kind, a, b]: [u32; 3]) -> Vec<u16> {
    let mut next = vec![0; 64];
    let length = step(table, state, kind, a, b, &mut next).unwrap();
    next.truncate(length);
    next
}

#[test]
fn table_e_is_accepted_and_builds_its_image() {
    assert_eq!(check(&E), 0);
    let mut out = [9; 120];
    assert_eq!(build(&E, &mut out), Ok(106));
    assert_eq!(out[..106], E_IMAGE);
    assert_eq!(out[106..], [9; 14]);
}

#[test]
fn table_e_has_its_listing() {
    assert_eq!(listing(&bytes(&E)), E_LISTING);
}

#[test]
fn table_e_needs_106_words() {
    assert_eq!(size(&E), Ok(106));
    let mut out = [3; 106];
    assert_eq!(build(&E, &mut out), Ok(106));
    assert_eq!(out, E_IMAGE);
    let mut short = [3; 105];
    assert_eq!(build(&E, &mut short), Err(10));
    assert_eq!(short, [3; 105]);
}

#[test]
fn starred_tables_are_refused() {
    assert_eq!(check(&E[..12]), 1);
    assert_eq!(check(&E[..13]), 3);
    assert_eq!(check(&with(0, 33)), 2);
    assert_eq!(check(&with(0, 32)), 5);
    assert_eq!(check(&with(42, 2)), 8);
    assert_eq!(check(&with(43, 0)), 6);
}

#[test]
fn the_stopped_table_builds_its_nine_words() {
    assert_eq!(size(&STOPPED), Ok(9));
    assert_eq!(image_of(&STOPPED), [1, 0, 0, 0, 1, 8, 9, 9, 0]);
    assert_eq!(listing(&bytes(&STOPPED)), "1 0 0 0 1\n");
    let mut call = STOPPED;
    call[18..21].copy_from_slice(&[3, 0, 0]);
    assert_eq!(check(&call), 9);
    assert_eq!(build(&call, &mut []), Err(9));
}

#[test]
fn table_e_fires_as_starred() {
    let image = image_of(&E);
    let initial = initial_of(&image);
    assert_eq!(initial, [0, 0, 0, 0, 1, 1, 1, 1, 1, 0, 0, 0, 1, 0, 0]);
    for (number, cause) in [(6, 15), (8, 14), (u32::MAX, 14)] {
        let mut marking = initial.clone();
        let refusal = Refusal {
            cause,
            firings: Some(0),
        };
        assert_eq!(fire(&image, &mut marking, number), Err(refusal));
        assert_eq!(marking, initial);
    }
    for number in [0, 1] {
        let mut marking = initial.clone();
        assert_eq!(fire(&image, &mut marking, number), Ok(()));
        assert_eq!(state_of(&E, &marking), [1, 3, 1, 65535]);
    }
}

/// Table E runs alike by both rules.
#[test]
fn table_e_runs_as_starred() {
    for run in [run, run_lowest] {
        runs_as_starred(run);
    }
}

type Run = fn(&[u32], &mut [u8], u64, &mut [u32]) -> Result<RunAnswer, Refusal>;

fn runs_as_starred(run: Run) {
    let image = image_of(&E);
    let mut marking = initial_of(&image);
    let mut history = [77; 5];
    let answer = RunAnswer {
        reason: Reason::NothingEnabled,
        firings: 4,
    };
    assert_eq!(run(&image, &mut marking, 5, &mut history), Ok(answer));
    assert_eq!(history, [0, 6, 2, 4, 77]);
    let ended = marking.clone();

    let mut marking = initial_of(&image);
    let mut history = [77; 5];
    let answer = RunAnswer {
        reason: Reason::LimitReached,
        firings: 4,
    };
    assert_eq!(run(&image, &mut marking, 4, &mut history), Ok(answer));
    assert_eq!(history, [0, 6, 2, 4, 77]);
    assert_eq!(marking, ended);

    let mut marking = initial_of(&image);
    let mut history = [77; 3];
    let answer = RunAnswer {
        reason: Reason::HistoryFull,
        firings: 3,
    };
    assert_eq!(run(&image, &mut marking, 4, &mut history), Ok(answer));
    assert_eq!(history, [0, 6, 2]);

    let mut marking = vec![5; 15];
    assert_eq!(replay(&image, &mut marking, &[0, 6, 2, 4]), Ok(4));
    assert_eq!(marking, ended);
}

#[test]
fn table_e_reads_back_along_its_run() {
    let image = image_of(&E);
    let mut marking = initial_of(&image);
    assert_eq!(state_of(&E, &marking), [0, 3, 65535, 65535]);
    let states = [
        (0, [1, 3, 1, 65535]),
        (6, [2, 4, 65535, 65535]),
        (2, [2, 4, 65535, 65535]),
        (4, [2, 4, 65535, 65535]),
    ];
    for (number, state) in states {
        assert_eq!(fire(&image, &mut marking, number), Ok(()));
        assert_eq!(state_of(&E, &marking), state);
    }
}

#[test]
fn table_e_has_its_steps() {
    let mut first = [8; 5];
    assert_eq!(start(&E, &mut first), Ok(4));
    assert_eq!(first, [0, 3, 65535, 65535, 8]);
    let first = &first[..4];
    assert_eq!(labels_of(&E, first), [[2, 0, 1]]);
    let second = step_of(&E, first, [2, 0, 1]);
    assert_eq!(second, [1, 3, 1, 65535]);
    assert_eq!(labels_of(&E, &second), [[4, 0, 1]]);
    let third = step_of(&E, &second, [4, 0, 1]);
    assert_eq!(third, [2, 4, 65535, 65535]);
    assert!(labels_of(&E, &third).is_empty());
}

#[test]
fn the_listing_refuses_in_order() {
    let whole = bytes(&E);
    let odd = |bytes: &[u8]| [bytes, &[0]].concat();
    assert_eq!(listing(&[]), "refused 1\n");
    assert_eq!(listing(&odd(&whole[..24])), "refused 1\n");
    assert_eq!(listing(&odd(&bytes(&with(0, 33)))), "refused 2\n");
    assert_eq!(listing(&odd(&whole)), "refused 3\n");
    assert_eq!(listing(&odd(&bytes(&with(13, 9)))), "refused 3\n");
    assert_eq!(listing(&whole[..whole.len() - 1]), "refused 3\n");
    assert_eq!(listing(&bytes(&with(42, 2))), "refused 8\n");
    assert_eq!(listing(&vec![0; 1 << 20]), "refused 2\n");
    assert_eq!(listing(&[whole, vec![0; 1 << 20]].concat()), "refused 3\n");
}

/// ν r.K(r) with K(f) := 0: a call of one formal into a Stop body, written out by hand.
#[test]
fn a_call_into_a_stop_body_has_its_listing() {
    let words = [
        1, 2, 2, 1, 3, 0, 1, 13, 15, 23, 24, 33, 33, // header
        0, 2, // names: r, f
        0, 0, 0, 0, 0, 2, 2, 1, // definitions
        0, // threads
        2, 1, 1, 3, 1, 0, 0, 0, 0, // nodes
        1, // arguments
    ];
    let text = "\
14 9 21 21 5
0 2 0 1 : 4 6 8 > 0 4 9
1 2 0 1 : 5 7 8 > 1 5 9
2 5 1 0 : 9 > 10
3 0 1 2 : 0 4 10 > 0 2 11
4 0 1 2 : 1 5 10 > 1 3 11
5 1 1 1 : 0 11 > 6 12
6 1 1 1 : 1 11 > 7 12
7 1 2 2 : 2 12 > 4 13
8 1 2 2 : 3 12 > 5 13
";
    assert_eq!(listing(&bytes(&words)), text);
    let image = image_of(&words);
    let mut marking = initial_of(&image);
    let states = [
        (1, [1, 1, 65535]),
        (2, [2, 65535, 65535]),
        (4, [2, 65535, 65535]),
        (6, [2, 65535, 65535]),
        (8, [2, 65535, 65535]),
    ];
    for (number, state) in states {
        assert_eq!(fire(&image, &mut marking, number), Ok(()));
        assert_eq!(state_of(&words, &marking), state);
    }
    assert_eq!(labels_of(&words, &[1, 1, 65535]), [[5, 1, 0]]);
    assert_eq!(
        step_of(&words, &[1, 1, 65535], [5, 1, 0]),
        [2, 65535, 65535]
    );
}

/// p(x).x⟨x⟩.0 beside ν r.p⟨r⟩.r(y).0: a received private channel, a name sent on itself.
#[test]
fn a_name_sent_on_itself_has_one_value() {
    let words = [
        1, 3, 2, 2, 7, 4, 0, 13, 16, 24, 26, 47, 63, // header
        1, 0, 1, // names: x = 1, r = 2, y = 3
        0, 0, 0, 0, 1, 3, 0, 0, // definitions
        0, 1, // threads
        1, 0, 1, 1, 1, 1, 0, 0, 0, // nodes 0 to 2
        2, 2, 4, 1, 2, 1, 1, 3, 1, 0, 0, 0, // nodes 3 to 6
        2, 0, 1, 1, 1, 1, 1, 2, 1, 0, 2, 5, 2, 2, 3, 6, // branches
    ];
    // Rows: x 0–2 and 3–5, r 6–8, y 9–11 and 12–14, [*≠n] 15–17. Control by node: 18; 19; 20 21;
    // 22; 23; 24; 25 26 27.
    let text = listing(&bytes(&words));
    let lines: Vec<&str> = text.lines().collect();
    assert!(lines[0].starts_with("28 "));
    let sends: Vec<&&str> = lines
        .iter()
        .filter(|line| line.contains(" 4 1 3 : "))
        .collect();
    // Channels x and r both reach r: i = 1, 2, 3 in common, j = i.
    assert_eq!(sends.len(), 3);
    assert!(sends[0].ends_with(" 4 1 3 : 0 6 12 19 24 > 0 6 9 20 25"));
    assert!(sends[2].ends_with(" 4 1 3 : 2 8 14 19 24 > 2 8 11 20 25"));
    let handed: Vec<&&str> = lines
        .iter()
        .filter(|line| line.contains(" 4 2 0 : "))
        .collect();
    assert_eq!(handed.len(), 3);
    assert!(handed[1].ends_with(" 4 2 0 : 4 7 18 23 > 1 7 19 24"));
    // Branches 0 and 1 are of one thread, 2 and 3 of the other.
    assert!(!text.contains(" 4 1 0 : ") && !text.contains(" 4 2 3 : "));
}
