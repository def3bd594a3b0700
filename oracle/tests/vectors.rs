//! The requests and answers of crates/vectors: how long the requests are, what they hold, and how
//! they are answered.

mod common;

use std::collections::HashMap;

use common::E;
use oracle::vectors::{answers, counts, requests, rewriting_requests};
use oracle::vectors::{REACH_SHAPES, SELF_CALL_SHAPES, VALUE_SHAPES};

/// How many bytes of its input the program crates/vectors reads.
const READ: usize = 1_048_576;

const CALLER: &str = "t 0 0 1 1 1 0 0 13 13 17 18 21 21 0 0 0 0 0 3 0 0";

fn answer_to(requests: &[&str]) -> Vec<String> {
    let text = answers(&[&[CALLER], requests].concat().join("\n")).unwrap();
    text.lines().skip(1).map(str::to_string).collect()
}

#[test]
fn the_requests_leave_a_twentieth_of_the_input_to_spare() {
    assert!(requests().len() <= READ / 20 * 19);
}

#[test]
fn sizes_are_told_of_the_table_alone() {
    let table: Vec<String> = E.iter().map(u16::to_string).collect();
    let table = table.join(" ");
    let asked = format!("z\nt {table}\nz\nb 0\nz\nw 1 2 3\nz\nt 33 {table}\nz\n");
    let told = "z 1 0\nt 0\nz 0 106\nb 10 0 0:\nz 0 106\nw 3\nz 0 106\nt 2\nz 2 0\n";
    assert_eq!(answers(&asked), Ok(told.to_string()));
}

#[test]
fn every_call_meets_every_cause_of_a_table() {
    let counts = counts(&requests()).unwrap();
    for letter in "tbzgsok".chars() {
        for cause in 0..=9 {
            let found = format!("cause {letter} {cause:>2} ");
            assert!(
                counts.lines().any(|line| line.starts_with(&found)),
                "{found}"
            );
        }
    }
}

#[test]
fn a_look_is_answered_with_the_bytes_lent() {
    // Two places, the first marked; transition 0 moves the token, transition 1 leaves it there.
    let image = "w 2 2 2 2 1 8 9 21 0 3 0 0 21 1 1 3 1 0 23 1 1 0 1 0 0";
    let asked = [
        "e 0 2",
        image,
        "l 2",
        "r",
        "e 0 2",
        "e 1 4",
        "e 0 1",
        "e 1 0",
        "e",
        "e 2 3",
        "e 4294967296 2",
        "f 0",
        "e 0 2",
        "m 1 2",
        "e 0 2",
        "j 24",
        "e 0 1",
        "f 0",
    ];
    let told = answer_to(&asked);
    let looked: Vec<&str> = told
        .iter()
        .filter(|answer| answer.starts_with('e'))
        .map(String::as_str)
        .collect();
    assert_eq!(
        looked,
        [
            "e 11 0 2:170 170",
            "e 0 2 2:0 1",
            "e 0 2 4:1 0 170 170",
            "e 10 0 1:170",
            "e 10 0 0:",
            "e 10 0 0:",
            "e 14 0 3:170 170 170",
            "e 0 2 2:0 1",
            "e 15 0 2:170 170",
            "e 13 0 2:170 170",
            "e 11 0 1:170",
        ]
    );
    // A look changes neither the image nor the marking.
    assert_eq!(told[11], "f 0 2:0 1");
    assert_eq!(told[17], "f 11 2:0 2");
    let [most, more] = ["e 0 32768", "e 0 32769"].map(|look| answer_to(&[image, "l 2", "r", look]));
    assert!(most == more && most[3].starts_with("e 0 2 32768#"));
}

#[test]
fn looks_meet_every_cause_of_a_firing_and_a_room_too_short() {
    let counts = counts(&requests()).unwrap();
    for cause in [0, 10, 11, 12, 13, 14, 15, 16] {
        let found = format!("cause e {cause:>2} ");
        let count = counts.lines().find_map(|line| line.strip_prefix(&found));
        let count: usize = count.map_or(0, |count| count.parse().unwrap());
        assert!(count >= 20, "{found}: {count}");
    }
}

#[test]
fn a_summary_is_answered_with_the_words_kept() {
    // Two places, the first marked; transition 0 moves the token, transition 1 leaves it there.
    let image = "w 2 2 2 2 1 8 9 21 0 3 0 0 21 1 1 3 1 0 23 1 1 0 1 0 0";
    let told = answer_to(&[
        image, "l 2", "r", "K", "c 2 1", "K", "L", "F 0", "L", "d 1 9", "d 2 9", "K", "n 0 8", "L",
        "F 1", "c 1 1", "K", "c 2 2", "F 0", "c 3 1", "n 1 1",
    ]);
    assert_eq!(
        told[3..],
        [
            "K 20",
            "c 0 2 2:0 0 1:3",
            "K 0",
            "L 1 0 2",
            "F 0 2:0 1 2:1 1 1:0",
            "L 0 0 0",
            "d 2",
            "d 2",
            "K 20",
            "n 1",
            "L 1 3 1",
            "F 15 2:0 1 2:1 9 1:8",
            "c 10 0 1:2863311530 1:12297829382473034410",
            "K 20",
            "c 0 2 2:1 1 2:0 12297829382473034410",
            "F 20 2:0 1 2:1 1 2:0 12297829382473034410",
            "c 0 2 3:1 1 2863311530 1:0",
            "n 1",
        ]
    );
}

#[test]
fn summaries_meet_every_cause() {
    let counts = counts(&requests()).unwrap();
    for (letter, causes) in [
        ("c", vec![0, 10, 11, 12, 13]),
        ("F", vec![0, 11, 12, 13, 14, 15, 16, 20]),
        ("K", vec![0, 11, 12, 13, 20]),
    ] {
        for cause in causes {
            let found = format!("cause {letter} {cause:>2} ");
            let count = counts.lines().find_map(|line| line.strip_prefix(&found));
            let count: usize = count.map_or(0, |count| count.parse().unwrap());
            assert!(count >= 5, "{found}: {count}");
        }
    }
}

#[test]
fn a_rewriting_is_answered_with_the_words_lent() {
    let written = "0 0 2 1 2 0 0 13 13 21 22 28 28 0 0 0 0 0 1 0 0 0 3 1 0 3 0 0";
    let left = ["43690"; 27].join(" ");
    assert_eq!(
        answer_to(&["v 28", "v 29", "v 27", "v 0", "v", "b 9"]),
        [
            &format!("v 0 28 28:{written}"),
            &format!("v 0 28 29:{written} 43690"),
            &format!("v 10 0 27:{left}"),
            "v 10 0 0:",
            "v 10 0 0:",
            // Nothing is kept: the table still calls itself.
            "b 9 0 9:2863311530 2863311530 2863311530 2863311530 2863311530 2863311530 \
             2863311530 2863311530 2863311530",
        ]
    );
    let [most, more] = ["v 4096", "v 4097"].map(|request| answer_to(&[request]));
    assert!(most == more && most[0].starts_with("v 0 28 4096#"));
}

#[test]
fn a_number_is_read_back_by_its_kind() {
    assert_eq!(
        answer_to(&["a 0 0", "a 0 1", "a 0 2", "a 1 0", "a 2 0", "a"]),
        ["a 0 0", "a 0 0", "a 5 0", "a 5 0", "a 5 0", "a 0 0"]
    );
    // The kind modulo 3, the number modulo 2³².
    assert_eq!(
        answer_to(&["a 3 1", "a 4 0", "a 5 0", "a 0 65536", "a 0 4294967297"]),
        ["a 0 0", "a 5 0", "a 5 0", "a 5 0", "a 0 0"]
    );
}

#[test]
fn values_are_set_and_reached_in_every_way() {
    let counts = counts(&requests()).unwrap();
    for shape in VALUE_SHAPES.into_iter().chain(REACH_SHAPES) {
        let found = format!("shape {shape} ");
        let count = counts.lines().find_map(|line| line.strip_prefix(&found));
        let count: usize = count.map_or(0, |count| count.parse().unwrap());
        assert!(count >= 10, "{found}: {count}");
    }
}

#[test]
fn every_shape_and_cause_is_asked_for() {
    let counts = counts(&rewriting_requests()).unwrap();
    let counts: HashMap<&str, usize> = counts
        .lines()
        .filter_map(|line| line.rsplit_once(' '))
        .map(|(found, count)| (found, count.parse().unwrap()))
        .collect();
    let at_least = |least: usize, found: &str| {
        let count = counts.get(found).copied().unwrap_or(0);
        assert!(count >= least, "{found}: {count}");
    };
    for shape in SELF_CALL_SHAPES {
        at_least(10, &format!("shape {shape}"));
    }
    for cause in 0..=10 {
        at_least(5, &format!("cause v {cause:>2}"));
    }
    for cause in 0..=9 {
        at_least(15, &format!("cause a {cause:>2}"));
    }
    // What follows on the rewritten tables.
    for letter in ["b", "f", "r", "g", "o", "k"] {
        at_least(100, &format!("cause {letter}  0"));
    }
    for rule in ["u", "U"] {
        at_least(50, &format!("cause {rule}  0"));
    }
}
