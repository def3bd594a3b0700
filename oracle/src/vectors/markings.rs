//! Markings that stand for a state, reachable or not, and such markings with one thing spoilt.

use crate::places::{names_at, Places};
use crate::random::Random;
use crate::table::Table;

/// A marking that stands for a random state: each thread at a random control place, each name held
/// there at a random value of its reach.
pub fn standing(random: &mut Random, table: &Table, places: &Places) -> Vec<u8> {
    let mut marking = vec![0; places.count];
    let mut held = Vec::new();
    for thread in 0..table.entries.len() {
        let (place, names) = random_control(random, table, places, thread);
        marking[place] = 1;
        held.extend(names);
    }
    let mut fresh: Vec<usize> = places.private_values().collect();
    random.shuffle(&mut fresh);
    let shared = fresh.clone();
    let mut values = vec![None; table.names.len()];
    for name in held {
        let own = places.values_of(name);
        let value = if table.is_restricted(name) {
            fresh.pop()
        } else if random.chance(60) && own.private_count() > 0 {
            random.pick(&shared)
        } else {
            own.into_iter().nth(random.below(own.len()))
        };
        values[name - table.publics] = value;
    }
    mark_values(table, places, &values, &mut marking);
    marking
}

/// A control place of a thread, and the names held there: each of them has some value.
fn random_control(
    random: &mut Random,
    table: &Table,
    places: &Places,
    thread: usize,
) -> (usize, Vec<usize>) {
    let of_thread = |&node: &usize| table.thread(node) == thread;
    let nodes: Vec<usize> = (0..table.nodes.len()).filter(of_thread).collect();
    loop {
        let node = random.pick(&nodes).unwrap_or(0);
        let range = places.of_node(table, node);
        let position = random.below(range.len());
        let held: Vec<usize> = names_at(table, node, position).collect();
        if held.iter().all(|&name| !places.values_of(name).is_empty()) {
            return (range.start + position, held);
        }
    }
}

/// Marks the rows of all names for their values.
fn mark_values(table: &Table, places: &Places, values: &[Option<usize>], marking: &mut [u8]) {
    for value in places.private_values() {
        marking[places.free(value)] = 1;
        for name in places.with_private_values(table) {
            marking[places.unequal(name, value)] = 1;
        }
    }
    for (name, value) in table.bound_names().zip(values) {
        if let Some(value) = *value {
            give(table, places, marking, name, value);
        }
    }
}

/// Gives a name a value.
fn give(table: &Table, places: &Places, marking: &mut [u8], name: usize, value: usize) {
    marking[places.equal(name, value)] = 1;
    if table.is_restricted(name) {
        marking[places.free(value)] = 0;
    } else if places.is_private(value) {
        marking[places.unequal(name, value)] = 0;
    }
}

/// Takes a value from a name.
fn take(table: &Table, places: &Places, marking: &mut [u8], name: usize, value: usize) {
    marking[places.equal(name, value)] = 0;
    if table.is_restricted(name) {
        marking[places.free(value)] = 1;
    } else if places.is_private(value) {
        marking[places.unequal(name, value)] = 1;
    }
}

/// Changes a marking a little; now and then it still stands for a state.
pub fn spoil(random: &mut Random, table: &Table, places: &Places, marking: &mut Vec<u8>) {
    let rows = places.first(0);
    let names: Vec<usize> = table.bound_names().collect();
    let name = random.pick(&names);
    match (random.below(10), name) {
        (0, _) => flip(random, marking, 0..rows),
        (1, _) => flip(random, marking, rows..places.count),
        (2, _) => move_token(random, marking, rows..places.count),
        (3, _) => move_token(random, marking, 0..rows),
        (4, _) => {
            let at = random.below(marking.len());
            marking[at] = random.between(2, 255) as u8;
        }
        (5, _) => {
            marking.pop();
        }
        (6, _) => marking.push(random.below(2) as u8),
        (7, Some(name)) => {
            let values: Vec<usize> = places.values_of(name).into_iter().collect();
            if let Some(value) = random.pick(&values) {
                give(table, places, marking, name, value);
            }
        }
        (_, Some(name)) => {
            let values: Vec<usize> = places.values_of(name).into_iter().collect();
            let has = |&value: &usize| marking[places.equal(name, value)] == 1;
            let Some(value) = values.iter().copied().find(has) else {
                return;
            };
            take(table, places, marking, name, value);
            if let (true, Some(other)) = (random.chance(70), random.pick(&values)) {
                give(table, places, marking, name, other);
            }
        }
        _ => flip(random, marking, 0..places.count),
    }
}

fn flip(random: &mut Random, marking: &mut [u8], range: std::ops::Range<usize>) {
    let place = range.start + random.below(range.len());
    if let Some(byte) = marking.get_mut(place) {
        *byte ^= 1;
    }
}

/// Moves one token within a range.
fn move_token(random: &mut Random, marking: &mut [u8], range: std::ops::Range<usize>) {
    let marked: Vec<usize> = range.clone().filter(|&place| marking[place] == 1).collect();
    if let Some(place) = random.pick(&marked) {
        marking[place] = 0;
        marking[range.start + random.below(range.len())] = 1;
    }
}
