//! What the requests hold: how many of each kind, how often each cause and reason, which shapes.

use std::collections::BTreeMap;

use super::answers::Session;
use super::self_calls::self_call_shapes;
use super::shapes::{reach_shapes, shapes, value_shapes};
use crate::table::{accept, accept_sparing};

/// Counts, a line each.
pub fn counts(requests: &str) -> Result<String, String> {
    let mut session = Session::default();
    let mut counts: BTreeMap<String, usize> = BTreeMap::new();
    for line in requests.lines() {
        let letter = line.chars().next().unwrap_or(' ');
        for found in found_before(&session, line, letter) {
            *counts.entry(found).or_default() += 1;
        }
        let answer = session.answer(line)?;
        let numbers: Vec<&str> = answer.split(' ').collect();
        for found in found_after(&session, &numbers, letter) {
            *counts.entry(found).or_default() += 1;
        }
    }
    let lines = counts
        .iter()
        .map(|(found, count)| format!("{found} {count}\n"));
    Ok(lines.collect())
}

/// What a request shows before it is answered: a communication on a private value.
fn found_before(session: &Session, line: &str, letter: char) -> Vec<String> {
    let mut found = vec!["request all".to_string(), format!("request {letter}")];
    let numbers: Vec<usize> = line
        .split(' ')
        .skip(1)
        .filter_map(|word| word.parse().ok())
        .collect();
    if letter == 'k' && numbers.first() == Some(&4) {
        if let Ok(table) = accept(&session.table) {
            if let Some(pair) = table.pair(numbers[1], numbers[2]) {
                let threads = table.entries.len();
                let value = |name: usize| {
                    let at = threads + name - table.publics;
                    session
                        .state
                        .get(at)
                        .map_or(65535, |&value| usize::from(value))
                };
                let private = |name| table.is_bound(name) && value(name) >= table.publics;
                if private(pair.sending) {
                    found.push("shape step on a private channel".to_string());
                }
                if table.is_bound(pair.sent) && private(pair.sent) {
                    found.push("shape step that hands over a private channel".to_string());
                }
            }
        }
    }
    found
}

fn found_after(session: &Session, answer: &[&str], letter: char) -> Vec<String> {
    let mut found = Vec::new();
    if "tbzferhuUgsokvacFK".contains(letter) {
        let cause = answer.get(1).unwrap_or(&"");
        found.push(format!("cause {letter} {cause:>2}"));
        found.push(format!("cause all {cause:>2}"));
    }
    if letter == 'u' || letter == 'U' {
        let [reason, firings] = [2, 3].map(|at| answer.get(at).copied().unwrap_or(""));
        found.push(format!("run reason {reason}"));
        if reason == "0" && firings != "0" {
            found.push("run stopped by a cause after firings".to_string());
        }
    }
    if letter == 't' {
        if let Ok(table) = accept(&session.table) {
            found.push("shape any".to_string());
            let shapes = [shapes(&table), value_shapes(&table), reach_shapes(&table)].concat();
            found.extend(shapes.iter().map(|shape| format!("shape {shape}")));
        } else if let Ok(table) = accept_sparing(&session.table) {
            let shapes = self_call_shapes(&table);
            found.extend(shapes.iter().map(|shape| format!("shape {shape}")));
        }
    }
    if letter == 'b' && answer.get(1) == Some(&"0") {
        found.push(format!("image {}", range_of(session.image.len())));
    }
    if letter == 'z' && answer.get(1) == Some(&"0") {
        let length = answer.get(2).and_then(|count| count.parse().ok());
        found.push(format!("size {}", range_of(length.unwrap_or(0))));
    }
    found
}

/// Where an image's length lies.
fn range_of(length: usize) -> &'static str {
    match length {
        0..=128 => "of at most 128 words",
        129..=9_999 => "of 129 to 9999 words",
        10_000..=49_999 => "of 10000 to 49999 words",
        50_000..=131_072 => "of 50000 to 131072 words",
        131_073..=99_999_999 => "of 131073 words and more",
        _ => "of 100000000 words and more",
    }
}
