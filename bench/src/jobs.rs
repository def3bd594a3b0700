//! What is timed: calls on a case, with buffers made before.

use std::hint::black_box;

use crate::case::{Case, LABELS};
use crate::engine::Engine;

pub struct Job {
    /// What is counted per second.
    pub title: &'static str,
    /// How much of it one turn does.
    pub units: fn(&Case) -> usize,
    pub turn: fn(&dyn Engine, &Case, &mut Buffers),
}

/// The buffers lent to the calls. They are written before the first turn and never cleared after.
pub struct Buffers {
    pub image: Vec<u32>,
    pub marking: Vec<u8>,
    pub next: Vec<u8>,
    pub history: Vec<u32>,
    pub state: Vec<u16>,
    pub labels: Vec<u32>,
}

impl Buffers {
    pub fn of(case: &Case) -> Buffers {
        Buffers {
            image: vec![1; case.image.len()],
            marking: case.initial.clone(),
            next: case.initial.clone(),
            history: vec![1; case.limit],
            state: vec![1; usize::from(case.table[1] + case.table[3])],
            labels: vec![1; 3 * LABELS],
        }
    }
}

pub const BUILD: Job = Job {
    title: "words built",
    units: |case| case.image.len(),
    turn: |engine, case, buffers| {
        black_box(engine.build(&case.table, &mut buffers.image));
    },
};

pub const OTHERS: [Job; 10] = [
    Job {
        title: "checks",
        units: |_| 1,
        turn: |engine, case, _| {
            black_box(engine.check(&case.table));
        },
    },
    Job {
        title: "firings replayed",
        units: |case| case.history.len(),
        turn: |engine, case, buffers| {
            black_box(engine.replay(&case.image, &mut buffers.marking, &case.history));
        },
    },
    Job {
        title: "firings run, settled",
        units: |case| case.settled.len(),
        turn: |engine, case, buffers| {
            let limit = case.limit as u64;
            buffers.marking.copy_from_slice(&case.initial);
            let Buffers {
                marking, history, ..
            } = buffers;
            black_box(engine.run(&case.image, marking, limit, history));
        },
    },
    Job {
        title: "firings run, lowest",
        units: |case| case.history.len(),
        turn: |engine, case, buffers| {
            let limit = case.limit as u64;
            buffers.marking.copy_from_slice(&case.initial);
            let Buffers {
                marking, history, ..
            } = buffers;
            black_box(engine.run_lowest(&case.image, marking, limit, history));
        },
    },
    Job {
        title: "single firings",
        units: |case| case.history.len(),
        turn: |engine, case, buffers| {
            buffers.marking.copy_from_slice(&case.initial);
            for &number in &case.history {
                black_box(engine.fire(&case.image, &mut buffers.marking, number));
            }
        },
    },
    Job {
        title: "looks",
        units: |case| case.history.len(),
        turn: |engine, case, buffers| {
            let Buffers { marking, next, .. } = buffers;
            marking.copy_from_slice(&case.initial);
            for &number in &case.history {
                black_box(engine.look(&case.image, marking, number, next));
                std::mem::swap(marking, next);
            }
        },
    },
    Job {
        title: "read-backs",
        units: |case| case.points.len(),
        turn: |engine, case, buffers| {
            for point in &case.points {
                black_box(engine.read(&case.table, &point.marking, &mut buffers.state));
            }
        },
    },
    Job {
        title: "starting states",
        units: |_| 1,
        turn: |engine, case, buffers| {
            black_box(engine.start(&case.table, &mut buffers.state));
        },
    },
    Job {
        title: "lists of open steps",
        units: |case| case.points.len(),
        turn: |engine, case, buffers| {
            for point in &case.points {
                black_box(engine.open_steps(&case.table, &point.state, &mut buffers.labels));
            }
        },
    },
    Job {
        title: "steps",
        units: |case| case.points.len(),
        turn: |engine, case, buffers| {
            for point in &case.points {
                let state = &mut buffers.state;
                black_box(engine.step(&case.table, &point.state, point.label, state));
            }
        },
    },
];

/// Writes a changing word to each element, in a loop that the compiler may turn into wide stores.
pub fn plain_write(words: &mut [u32], first: u32) {
    let first = black_box(first);
    for (at, word) in words.iter_mut().enumerate() {
        *word = first.wrapping_add(at as u32);
    }
    black_box(words);
}

/// The same with one store for each word.
pub fn single_write(words: &mut [u32], first: u32) {
    let first = black_box(first);
    for (at, word) in words.iter_mut().enumerate() {
        // The reference is valid for writing; a volatile store is neither left out nor joined to others.
        unsafe { std::ptr::write_volatile(word, first.wrapping_add(at as u32)) };
    }
}
