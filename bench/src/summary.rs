//! How fast the library tells what can be done next: by a summary, and by a search.

use std::hint::black_box;

use crate::case::Case;
use crate::measure::best_of_rounds;

/// A marking with its summary.
struct Kept {
    marking: Vec<u8>,
    counts: Vec<u32>,
    enabled: Vec<u64>,
}

impl Kept {
    fn of(image: &[u32], marking: &[u8]) -> Kept {
        let transitions = image[1] as usize;
        let mut kept = Kept {
            marking: marking.to_vec(),
            counts: vec![1; transitions],
            enabled: vec![1; transitions.div_ceil(64)],
        };
        kept.make(image);
        kept
    }

    fn make(&mut self, image: &[u32]) {
        let Kept {
            marking,
            counts,
            enabled,
        } = self;
        black_box(dekohuna::summary_make(image, marking, counts, enabled));
    }

    fn fire(&mut self, image: &[u32], number: u32) {
        let Kept {
            marking,
            counts,
            enabled,
        } = self;
        black_box(dekohuna::summary_fire(
            image, marking, counts, enabled, number,
        ));
    }
}

/// The summary kept along the history is that of the last marking, and tells what a search finds.
fn agrees(case: &Case, markings: &[Kept]) -> bool {
    let mut kept = Kept::of(&case.image, &case.initial);
    for &number in &case.history {
        kept.fire(&case.image, number);
    }
    let last = dekohuna::summary_check(&case.image, &kept.marking, &kept.counts, &kept.enabled);
    last.code == dekohuna::DONE
        && markings.iter().all(|kept| {
            let found = dekohuna::summary_lowest(&kept.enabled);
            let mut history = [0; 1];
            let ran = dekohuna::run_lowest(&case.image, &mut kept.marking.clone(), 1, &mut history);
            found.code == dekohuna::NOTHING_ENABLED && ran.value == 0
                || found.code == dekohuna::DONE && found.value == u64::from(history[0])
        })
}

/// Prints both, side by side. Returns whether the summaries told what they should.
pub fn report(case: &Case) -> bool {
    let markings: Vec<Kept> = case
        .points
        .iter()
        .map(|point| Kept::of(&case.image, &point.marking))
        .collect();
    if !agrees(case, &markings) {
        return false;
    }
    let mut scratch = case.initial.clone();
    let seconds = best_of_rounds(&mut [
        &mut || {
            for kept in &markings {
                black_box(dekohuna::summary_lowest(&kept.enabled));
            }
        },
        &mut || {
            for kept in &markings {
                scratch.copy_from_slice(&kept.marking);
                black_box(dekohuna::run_lowest(&case.image, &mut scratch, 1, &mut [0]));
            }
        },
    ]);
    print(
        "lowest enabled",
        markings.len(),
        ["summary", "run_lowest with limit 1"],
        &seconds,
    );

    let mut kept = Kept::of(&case.image, &case.initial);
    let mut made = Kept::of(&case.image, &case.initial);
    let first = Kept::of(&case.image, &case.initial);
    let seconds = best_of_rounds(&mut [
        &mut || {
            kept.marking.copy_from_slice(&first.marking);
            kept.counts.copy_from_slice(&first.counts);
            kept.enabled.copy_from_slice(&first.enabled);
            for &number in &case.history {
                kept.fire(&case.image, number);
            }
        },
        &mut || {
            made.marking.copy_from_slice(&first.marking);
            for &number in &case.history {
                black_box(dekohuna::fire(&case.image, &mut made.marking, number));
                made.make(&case.image);
            }
        },
    ]);
    let ways = ["summary kept", "fired, then made"];
    print("firings", case.history.len(), ways, &seconds);
    true
}

fn print(title: &str, units: usize, ways: [&str; 2], seconds: &[f64]) {
    println!(
        "{title:22} {:>15.0} {:>15.0} {:>15.2}   ({}, {})",
        units as f64 / seconds[0],
        units as f64 / seconds[1],
        seconds[1] / seconds[0],
        ways[0],
        ways[1]
    );
}
