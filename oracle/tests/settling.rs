//! Document 02, item 6: a run takes the lowest enabled bookkeeping transition, else the lowest
//! enabled one, and meets every record that its search passes; the old rule remains by name.

mod common;

use common::{is_bookkeeping, Net};
use oracle::generate::{accepted, Shape};
use oracle::random::Random;
use oracle::{fire, look, run, run_lowest, Reason, Refusal, RunAnswer};

type Answer = Result<RunAnswer, Refusal>;
type Run = fn(&[u32], &mut [u8], u64, &mut [u32]) -> Answer;

/// Three places. Transitions of these kinds take a token of the first place to the second, the
/// third and the second.
fn foreign(kinds: [u32; 3]) -> Vec<u32> {
    let mut image = vec![3, 3, 3, 3, 1, 8, 9, 27, 0];
    for (number, kind) in (0..).zip(kinds) {
        image.extend([kind, 0, 0, 27 + 2 * number, 1, 1]);
    }
    image.extend([0, 1, 0, 2, 0, 1]);
    image
}

/// A run's answer, its history and the marking left.
fn ran(run: Run, image: &[u32], from: [u8; 3]) -> (Answer, Vec<u32>, [u8; 3]) {
    let mut marking = from;
    let mut history = [9; 2];
    let answer = run(image, &mut marking, 2, &mut history);
    let made = match answer {
        Ok(answer) => answer.firings,
        Err(refusal) => refusal.firings.unwrap(),
    };
    assert!(history[made as usize..].iter().all(|&cell| cell == 9));
    (answer, history[..made as usize].to_vec(), marking)
}

fn ended(firings: u64) -> Answer {
    Ok(RunAnswer {
        reason: Reason::NothingEnabled,
        firings,
    })
}

fn stopped(cause: u32, firings: u64) -> Answer {
    Err(Refusal {
        cause,
        firings: Some(firings),
    })
}

#[test]
fn the_rules_differ_where_bookkeeping_is_not_the_lowest() {
    for kinds in [[2, 1, 3], [2, 0, 1], [9, 1, 0], [u32::MAX, 0, 2]] {
        let image = foreign(kinds);
        let settled = (ended(1), vec![1], [0, 0, 1]);
        assert_eq!(ran(run, &image, [1, 0, 0]), settled);
        let lowest = (ended(1), vec![0], [0, 1, 0]);
        assert_eq!(ran(run_lowest, &image, [1, 0, 0]), lowest);
    }
    for kinds in [[2, 3, 4], [0, 1, 2], [1, 2, 0], [5, 5, 5]] {
        let image = foreign(kinds);
        let both = (ended(1), vec![0], [0, 1, 0]);
        for rule in [run, run_lowest] {
            assert_eq!(ran(rule, &image, [1, 0, 0]), both);
        }
    }
}

#[test]
fn a_malformed_record_is_met_behind_a_step_and_not_behind_bookkeeping() {
    let wrong = |kinds| {
        let mut image = foreign(kinds);
        image[9 + 6 * 2 + 3] = 26;
        image
    };
    let left = (stopped(12, 0), vec![], [1, 0, 0]);
    assert_eq!(ran(run, &wrong([2, 3, 1]), [1, 0, 0]), left);
    // By the old rule 0 is fired, and the next search meets the record.
    let lowest = (stopped(12, 1), vec![0], [0, 1, 0]);
    assert_eq!(ran(run_lowest, &wrong([2, 3, 1]), [1, 0, 0]), lowest);
    let settled = (stopped(12, 1), vec![1], [0, 0, 1]);
    assert_eq!(ran(run, &wrong([2, 1, 1]), [1, 0, 0]), settled);
    let lowest = (stopped(12, 1), vec![0], [0, 1, 0]);
    assert_eq!(ran(run, &wrong([0, 2, 1]), [1, 0, 0]), lowest);
}

#[test]
fn a_contact_stops_a_run_and_is_not_passed_over() {
    let image = foreign([2, 1, 0]);
    let marked = [1, 0, 1];
    let left = (stopped(16, 0), vec![], marked);
    assert_eq!(ran(run, &image, marked), left);
    let lowest = (ended(1), vec![0], [0, 1, 1]);
    assert_eq!(ran(run_lowest, &image, marked), lowest);
}

/// A run by single firings: the search looks at one transition after the other.
fn run_by_looking(
    image: &[u32],
    marking: &mut [u8],
    limit: usize,
    cells: usize,
) -> (Answer, Vec<u32>) {
    let mut numbers: Vec<u32> = Vec::new();
    loop {
        let firings = numbers.len() as u64;
        let end = |reason| Ok(RunAnswer { reason, firings });
        if numbers.len() == limit {
            return (end(Reason::LimitReached), numbers);
        }
        if numbers.len() == cells {
            return (end(Reason::HistoryFull), numbers);
        }
        let mut chosen = None;
        for number in 0..image[1] {
            let kind = image[image[6] as usize + 6 * number as usize];
            let cause = look(image, marking, number, &mut vec![0; marking.len()]);
            match cause {
                Err(15) => {}
                Err(cause) if cause != 16 => return (stopped(cause, firings), numbers),
                _ if is_bookkeeping([kind, 0, 0]) => {
                    chosen = Some(number);
                    break;
                }
                _ => chosen = chosen.or(Some(number)),
            }
        }
        let Some(number) = chosen else {
            return (end(Reason::NothingEnabled), numbers);
        };
        if let Err(Refusal { cause, .. }) = fire(image, marking, number) {
            return (stopped(cause, firings), numbers);
        }
        numbers.push(number);
    }
}

#[test]
fn spoilt_images_run_as_their_records_are_met() {
    let mut random = Random::new(61);
    let (mut differ, mut causes) = (0, [0; 20]);
    for _ in 0..6000 {
        let shape = Shape {
            nodes: 8,
            ..Shape::SMALL
        };
        let net = Net::of(accepted(&mut random, shape));
        let mut image = net.image.clone();
        let records = image[6] as usize;
        for _ in 0..random.below(4).min(image.len() - records) {
            let at = random.between(records, image.len() - 1);
            let words = [0, 1, image[at].wrapping_add(1), image[at].wrapping_sub(1)];
            image[at] = words[random.below(4)];
        }
        let mut from = net.initial();
        for byte in &mut from {
            *byte ^= u8::from(random.chance(15));
        }
        let (limit, cells) = (random.below(12), random.below(12));
        let mut expected = from.clone();
        let (answer, numbers) = run_by_looking(&image, &mut expected, limit, cells);
        let mut marking = from.clone();
        let mut history = vec![u32::MAX; cells];
        let ran = run(&image, &mut marking, limit as u64, &mut history);
        assert_eq!((ran, &marking), (answer, &expected));
        assert_eq!(history[..numbers.len()], numbers);
        assert!(history[numbers.len()..]
            .iter()
            .all(|&cell| cell == u32::MAX));
        let mut other = vec![u32::MAX; cells];
        let _ = run_lowest(&image, &mut from, limit as u64, &mut other);
        differ += usize::from(other != history);
        causes[ran.map_or_else(|refusal| refusal.cause as usize, |_| 0)] += 1;
    }
    println!("{differ} differ, {causes:?}");
    assert!(differ > 300 && [0, 12, 16].iter().all(|&cause| causes[cause] > 100));
}
