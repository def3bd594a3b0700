//! Causes 1 to 10 and 17 to 19, by every call that has them, and what they leave of the lent
//! buffers.

mod common;

use common::{image_of, initial_of, E};
use oracle::damage::damaged;
use oracle::generate::{encode, Shape};
use oracle::random::Random;
use oracle::{build, check, fire, open_steps, read, size, start, step};

/// One thread: K0 := τ.ν r.K1(r, p); K1(f, g) := τ.K2; K2 := p(x).K0.
fn calls() -> Vec<u16> {
    encode(
        1,
        [
            vec![2, 2, 0, 1],                         // f = 1, g = 2, r = 3, x = 4
            vec![0, 0, 0, 0, 0, 1, 1, 2, 0, 2, 0, 0], // K0, K1, K2
            vec![0],                                  // entry
            vec![
                1, 0, 1, // 0: Choice
                1, 1, 1, // 1: Choice
                1, 2, 1, // 2: Choice
                2, 3, 4, // 3: New r
                3, 1, 0, // 4: Call K1
                3, 2, 0, // 5: Call K2
                3, 0, 0, // 6: Call K0
            ],
            vec![0, 0, 0, 3, 0, 0, 0, 5, 2, 0, 4, 6],
            vec![3, 0],
        ],
    )
}

fn changed(words: &[u16], changes: &[(usize, u16)]) -> Vec<u16> {
    let mut words = words.to_vec();
    for &(at, word) in changes {
        words[at] = word;
    }
    words
}

#[test]
fn the_table_of_calls_is_accepted() {
    assert_eq!(check(&calls()), 0);
    assert_eq!(check(&E), 0);
}

#[test]
fn cause_2_is_each_bound() {
    for (at, bound) in [
        (0, 32),
        (1, 32),
        (2, 32),
        (3, 8),
        (4, 256),
        (5, 256),
        (6, 256),
    ] {
        assert_eq!(check(&changed(&E, &[(at, bound + 1)])), 2);
        assert_eq!(check(&changed(&E, &[(at, 65535)])), 2);
        assert_ne!(check(&changed(&E, &[(at, bound)])), 2);
    }
    assert_eq!(check(&changed(&E, &[(3, 0)])), 2);
    assert_eq!(check(&changed(&E, &[(4, 0)])), 2);
}

#[test]
fn cause_3_is_each_offset_and_the_length() {
    for (at, word) in E.into_iter().enumerate().take(13).skip(1) {
        assert_eq!(check(&changed(&E, &[(at, word + 1)])), 3);
    }
    assert_eq!(check(&E[..47]), 3);
    assert_eq!(check(&[&E[..], &[0]].concat()), 3);
}

#[test]
fn no_definitions_is_5() {
    assert_eq!(
        check(&encode(
            0,
            [vec![], vec![], vec![0], vec![0, 0, 0], vec![], vec![]]
        )),
        5
    );
}

#[test]
fn causes_4_to_9_are_found_field_by_field() {
    let calls = calls();
    let (names, definitions, threads, nodes, branches, arguments) = (13, 17, 29, 30, 51, 63);
    let cases: &[(&[(usize, u16)], u32)] = &[
        (&[(names, 3)], 4),
        (&[(definitions + 2, 1)], 4),
        (&[(definitions + 2, 65535)], 4),
        (&[(nodes, 4)], 4),
        (&[(nodes + 2, 0)], 4),
        (&[(nodes + 1, 65535), (nodes + 2, 0)], 4),
        (&[(nodes, 0)], 4),
        (&[(nodes + 17, 1)], 4),
        (&[(nodes + 20, 65535)], 4),
        (&[(branches, 3)], 4),
        (&[(branches + 1, 1)], 4),
        (&[(branches + 2, 1)], 4),
        // A call of no definition is 5, also with a first argument.
        (&[(nodes + 16, 3), (nodes + 17, 1)], 5),
        (&[(definitions, 1)], 5),
        (&[(definitions + 1, 7)], 5),
        (&[(definitions + 6, 0)], 5),
        (&[(definitions + 6, 4)], 5),
        (&[(definitions + 6, 65535)], 5),
        (&[(definitions + 7, 65535)], 5),
        (&[(threads, 3)], 5),
        (&[(nodes + 1, 3)], 5),
        (&[(nodes + 2, 65535)], 5),
        (&[(nodes + 1, 65535)], 5),
        (&[(nodes + 10, 0)], 5),
        (&[(nodes + 10, 5)], 5),
        (&[(nodes + 11, 7)], 5),
        (&[(nodes + 13, 3)], 5),
        (&[(nodes + 14, 1)], 5),
        (&[(nodes + 14, 65535)], 5),
        (&[(branches + 3, 7)], 5),
        (&[(branches + 9, 5)], 5),
        (&[(branches + 10, 0)], 5),
        (&[(branches + 10, 5)], 5),
        (&[(arguments, 5)], 5),
        (&[(definitions + 1, 1)], 6),
        (&[(nodes + 11, 3)], 6),
        (&[(branches + 3, 0), (definitions + 1, 3)], 6),
        (&[(nodes + 1, 1), (nodes + 4, 0)], 6),
        (&[(nodes + 14, 0), (nodes + 13, 2)], 6),
        (&[(names, 1)], 7),
        (&[(names + 2, 1)], 7),
        (&[(nodes + 10, 4)], 7),
        (&[(branches + 10, 3)], 7),
        (&[(definitions + 6, 2)], 7),
        (&[(branches + 9, 4)], 8),
        (&[(branches + 9, 3)], 8),
        (&[(arguments + 1, 4)], 8),
        (&[(arguments, 1)], 8),
        (&[(threads, 1)], 9),
        (&[(nodes + 16, 0), (nodes + 19, 2)], 9),
    ];
    for (changes, cause) in cases {
        assert_eq!(check(&changed(&calls, changes)), *cause, "{changes:?}");
    }
}

#[test]
fn causes_of_another_thread_are_9() {
    assert_eq!(check(&changed(&E, &[(23, 1), (24, 0)])), 9);
    assert_eq!(check(&changed(&E, &[(15, 1)])), 9);
    // Node 2 of E calls the definition of the other thread.
    assert_eq!(check(&changed(&E, &[(31, 3), (32, 1)])), 9);
    assert_eq!(check(&changed(&E, &[(31, 3), (32, 0)])), 9);
}

#[test]
fn damaged_tables_fail_by_their_cause_in_every_call() {
    let mut random = Random::new(11);
    for cause in 1..=9 {
        for _ in 0..400 {
            let words = damaged(&mut random, Shape::SMALL, cause);
            assert_eq!(check(&words), cause, "{words:?}");
            assert_eq!(size(&words), Err(cause));
            assert_eq!(build(&words, &mut []), Err(cause));
            assert_eq!(start(&words, &mut []), Err(cause));
            assert_eq!(read(&words, &[2], &mut []), Err(cause));
            assert_eq!(open_steps(&words, &[1], &mut []), Err(cause));
            assert_eq!(step(&words, &[1], 9, 9, 9, &mut []), Err(cause));
        }
    }
}

#[test]
fn cause_10_leaves_the_output() {
    let image = image_of(&E);
    let marking = initial_of(&image);
    let first = [0, 3, 65535, 65535];
    let mut words = [6; 3];
    assert_eq!(start(&E, &mut words), Err(10));
    assert_eq!(read(&E, &marking, &mut words), Err(10));
    assert_eq!(step(&E, &first, 2, 0, 1, &mut words), Err(10));
    assert_eq!(words, [6; 3]);
    let mut labels = [6; 2];
    assert_eq!(open_steps(&E, &first, &mut labels), Err(10));
    assert_eq!(labels, [6; 2]);
    let mut labels = [6; 4];
    assert_eq!(open_steps(&E, &first, &mut labels), Ok(1));
    assert_eq!(labels, [2, 0, 1, 6]);
    // 10 is last.
    assert_eq!(read(&E, &marking[1..], &mut []), Err(13));
    assert_eq!(read(&E, &[0; 15], &mut []), Err(17));
    assert_eq!(open_steps(&E, &first[1..], &mut []), Err(18));
    assert_eq!(step(&E, &first[1..], 2, 0, 1, &mut []), Err(18));
    assert_eq!(step(&E, &first, 4, 0, 1, &mut []), Err(19));
}

#[test]
fn cause_17_is_each_clause() {
    let image = image_of(&E);
    let mut marking = initial_of(&image);
    fire(&image, &mut marking, 0).unwrap();
    let mut state = [4; 4];
    assert_eq!(read(&E, &marking, &mut state), Ok(4));
    let flips: [&[usize]; 11] = [
        &[9],     // no control place
        &[8],     // two control places
        &[0, 6],  // a held name without a value
        &[1, 7],  // two values
        &[2],     // a value of a name not held
        &[2, 4],  // the same, with its [x≠n] empty
        &[0],     // [r=n] and [*≠n] both empty
        &[6],     // both marked
        &[4],     // [x≠n] empty without [x=n]
        &[10],    // a chain place of the same thread
        &[9, 11], // the final place holds nothing
    ];
    for places in flips {
        let mut wrong = marking.clone();
        for &place in places {
            wrong[place] ^= 1;
        }
        let mut state = [4; 4];
        assert_eq!(read(&E, &wrong, &mut state), Err(17), "{places:?}");
        assert_eq!(state, [4; 4]);
    }
    // The Stop's release place holds r, which is not in the state.
    let mut stopping = marking.clone();
    stopping[9] = 0;
    stopping[10] = 1;
    assert_eq!(read(&E, &stopping, &mut state), Ok(4));
    assert_eq!(state, [2, 3, 65535, 65535]);
}

/// Two threads, each ν r.τ.0: two restricted names.
fn two_news() -> Vec<u16> {
    let nodes = vec![2, 0, 1, 1, 0, 1, 0, 0, 0, 2, 1, 4, 1, 1, 1, 0, 0, 0];
    let branches = vec![0, 0, 0, 2, 0, 0, 0, 5];
    encode(
        0,
        [
            vec![0, 0],
            vec![0, 0, 0, 0, 1, 3, 0, 0],
            vec![0, 1],
            nodes,
            branches,
            vec![],
        ],
    )
}

#[test]
fn two_restricted_names_never_share_a_value() {
    let table = two_news();
    // Rows 0–1 and 2–3, [*≠n] 4–5, control 6, 7, 8 9, 10, 11, 12 13.
    let mut marking = vec![0; 14];
    for place in [0, 3, 7, 11] {
        marking[place] = 1;
    }
    assert_eq!(read(&table, &marking, &mut [0; 4]), Ok(4));
    marking[3] = 0;
    marking[2] = 1;
    assert_eq!(read(&table, &marking, &mut [0; 4]), Err(17));
    marking[5] = 1;
    assert_eq!(read(&table, &marking, &mut [0; 4]), Err(17));
    assert_eq!(open_steps(&table, &[1, 4, 0, 1], &mut [0; 9]), Ok(2));
    assert_eq!(open_steps(&table, &[1, 4, 0, 0], &mut [0; 9]), Err(18));
    assert_eq!(open_steps(&table, &[1, 4, 1, 0], &mut [0; 9]), Err(18));
    assert_eq!(open_steps(&table, &[1, 4, 0, 2], &mut [0; 9]), Err(18));
}

#[test]
fn cause_18_is_each_clause() {
    let states: [&[u16]; 12] = [
        &[],
        &[0, 3, 65535],
        &[0, 3, 65535, 65535, 65535],
        &[3, 3, 65535, 65535],
        &[0, 0, 65535, 65535],
        &[5, 3, 65535, 65535],
        &[65535, 3, 65535, 65535],
        &[0, 3, 1, 65535],
        &[1, 3, 65535, 65535],
        &[1, 3, 0, 65535],
        &[1, 3, 2, 65535],
        &[2, 4, 1, 65535],
    ];
    for state in states {
        assert_eq!(open_steps(&E, state, &mut [0; 9]), Err(18), "{state:?}");
        assert_eq!(step(&E, state, 2, 0, 1, &mut [0; 9]), Err(18));
    }
    assert_eq!(open_steps(&E, &[1, 3, 1, 65535], &mut [0; 9]), Ok(1));
}

#[test]
fn cause_19_is_every_label_not_open() {
    let first = [0, 3, 65535, 65535];
    let labels = [
        [0, 0, 0],
        [1, 0, 1],
        [1, 2, 1],
        [2, 0, 0],
        [2, 0, 2],
        [2, 1, 1],
        [2, 5, 1],
        [3, 0, 0],
        [4, 0, 1],
        [4, 1, 0],
        [4, 0, 0],
        [4, 2, 1],
        [4, 0, u32::MAX],
        [5, 0, 0],
        [6, 0, 1],
        [u32::MAX, u32::MAX, u32::MAX],
    ];
    let mut next = [5; 4];
    for [kind, a, b] in labels {
        assert_eq!(
            step(&E, &first, kind, a, b, &mut next),
            Err(19),
            "{kind} {a} {b}"
        );
    }
    assert_eq!(next, [5; 4]);
    let calls = calls();
    let state = |node| [node, 65535, 65535, 65535, 65535];
    assert_eq!(step(&calls, &state(0), 3, 0, 0, &mut [0; 5]), Ok(5));
    assert_eq!(step(&calls, &state(0), 3, 0, 1, &mut [0; 5]), Err(19));
    assert_eq!(step(&calls, &state(0), 3, 1, 0, &mut [0; 5]), Err(19));
    assert_eq!(
        step(&calls, &[4, 65535, 65535, 1, 65535], 5, 4, 1, &mut [0; 5]),
        Err(19)
    );
    let mut next = [0; 5];
    assert_eq!(
        step(&calls, &[4, 65535, 65535, 1, 65535], 5, 4, 0, &mut next),
        Ok(5)
    );
    assert_eq!(next, [1, 1, 0, 65535, 65535]);
}
