//! Document 02, item 5: summaries are the marking's after every accepted firing, on any net; only
//! transitions that share a place are worked out afresh; the causes in their order.

mod common;

use common::{image_of, initial_of, standing_marking, Net, Values, E};
use oracle::generate::{accepted, Shape};
use oracle::random::Random;
use oracle::summary::{check, fire, lowest, make, number};
use oracle::Refusal;

/// What lent words hold before a call.
const LENT: (u32, u64) = (7, 7);

type Summary = (Vec<u32>, Vec<u64>);

fn made(image: &[u32], marking: &[u8]) -> Summary {
    let transitions = image[1] as usize;
    let mut summary = lent(transitions, transitions.div_ceil(64));
    assert_eq!(
        make(image, marking, &mut summary.0, &mut summary.1),
        Ok(image[1])
    );
    summary
}

fn lent(counts: usize, words: usize) -> Summary {
    (vec![LENT.0; counts], vec![LENT.1; words])
}

fn fired(
    image: &[u32],
    marking: &mut [u8],
    summary: &mut Summary,
    transition: u32,
) -> Result<(), u32> {
    let (counts, enabled) = summary;
    let answer = fire(image, marking, counts, enabled, transition);
    answer.map_err(|Refusal { cause, .. }| cause)
}

fn checked(image: &[u32], marking: &[u8], (counts, enabled): &Summary) -> u32 {
    check(image, marking, counts, enabled)
}

/// The record and arcs of a transition.
fn arcs(image: &[u32], number: usize) -> (&[u32], &[u32]) {
    let record = &image[image[6] as usize + 6 * number..][..6];
    let (start, inputs, outputs) = (record[3] as usize, record[4] as usize, record[5] as usize);
    image[start..start + inputs + outputs].split_at(inputs)
}

/// A summary by its words in document 02, one transition after the other.
fn expected(image: &[u32], marking: &[u8]) -> Summary {
    let transitions = image[1] as usize;
    let mut summary = (Vec::new(), vec![0; transitions.div_ceil(64)]);
    for number in 0..transitions {
        let (inputs, _) = arcs(image, number);
        let empty = inputs.iter().filter(|&&place| marking[place as usize] == 0);
        summary.0.push(empty.count() as u32);
        if summary.0[number] == 0 {
            summary.1[number / 64] |= 1 << (number % 64);
        }
    }
    summary
}

#[test]
fn table_e_has_its_summary() {
    let image = image_of(&E);
    let mut marking = initial_of(&image);
    let mut summary = made(&image, &marking);
    assert_eq!(summary, (vec![0, 0, 2, 2, 2, 2, 2, 2], vec![3]));
    assert_eq!((lowest(&summary.1), number(&summary.1)), (Some(0), 2));
    assert_eq!(fired(&image, &mut marking, &mut summary, 0), Ok(()));
    assert_eq!(summary, (vec![2, 1, 1, 2, 2, 2, 0, 1], vec![64]));
    assert_eq!((lowest(&summary.1), number(&summary.1)), (Some(6), 1));
    assert_eq!(checked(&image, &marking, &summary), 0);
}

#[test]
fn the_set_is_looked_at_as_lent() {
    assert_eq!((lowest(&[]), number(&[])), (None, 0));
    assert_eq!((lowest(&[0, 0]), number(&[0, 0])), (None, 0));
    assert_eq!(
        (lowest(&[0, 1 << 63]), number(&[0, 1 << 63])),
        (Some(127), 1)
    );
    assert_eq!(
        (lowest(&[6, u64::MAX]), number(&[6, u64::MAX])),
        (Some(1), 66)
    );
}

/// Calls that every cause refuses, with what the first of them finds mended each time.
#[test]
fn the_causes_come_in_their_order() {
    let mut image = image_of(&E);
    let mut marking = initial_of(&image);
    let (transitions, last) = (image[1], marking.len() - 1);
    let (initial, arc_start) = (8, image[6] as usize + 3);
    let (first, start) = (image[initial], image[arc_start]);
    image[initial] = image[initial + 1];
    image[arc_start] = 0;
    marking[last] = 2;
    let mut summary = lent(transitions as usize + 1, 1);
    let mut number = transitions;
    let mut met: [Vec<u32>; 3] = Default::default();
    for round in 0..8 {
        let before = (marking.clone(), summary.clone());
        let mut short = lent(transitions as usize - 1, 1);
        let making = make(&image, &marking, &mut short.0, &mut short.1);
        assert_eq!(short, lent(transitions as usize - 1, 1));
        met[0].push(making.unwrap_err());
        met[1].push(checked(&image, &marking, &summary));
        let firing = fired(&image, &mut marking, &mut summary, number);
        met[2].push(firing.unwrap_err());
        assert_eq!((marking.clone(), summary.clone()), before);
        match round {
            0 => image[initial] = first,
            1 => marking[last] = 0,
            2 => summary = lent(transitions as usize, 2),
            3 => summary = lent(transitions as usize, 1),
            4 => number = 2,
            5 => image[arc_start] = start,
            6 => {
                number = 0;
                marking[0] = 1;
            }
            _ => {}
        }
    }
    assert_eq!(met[0], [11, 13, 12, 12, 12, 12, 10, 10]);
    assert_eq!(met[1], [11, 13, 20, 20, 12, 12, 20, 20]);
    assert_eq!(met[2], [11, 13, 20, 20, 14, 12, 15, 16]);
    marking[0] = 0;
    assert_eq!(fired(&image, &mut marking, &mut summary, 0), Ok(()));
    let mut words = [LENT.1; 0];
    let mut counts = [LENT.0; 8];
    assert_eq!(make(&image, &marking, &mut counts, &mut words), Err(10));
    assert_eq!(counts, [LENT.0; 8]);
    // Of longer lists only the answer's part changes.
    let mut long = lent(10, 3);
    assert_eq!(make(&image, &marking, &mut long.0, &mut long.1), Ok(8));
    let right = made(&image, &marking);
    assert_eq!(long.0, [&right.0[..], &[LENT.0; 2]].concat());
    assert_eq!(long.1, [&right.1[..], &[LENT.1; 2]].concat());
}

#[test]
fn a_check_looks_at_every_count_and_bit() {
    let image = image_of(&E);
    let marking = initial_of(&image);
    let right = made(&image, &marking);
    for at in 0..8 {
        let mut wrong = right.clone();
        wrong.0[at] += 1;
        assert_eq!(checked(&image, &marking, &wrong), 20);
    }
    for bit in 0..64 {
        let mut wrong = right.clone();
        wrong.1[0] ^= 1 << bit;
        assert_eq!(checked(&image, &marking, &wrong), 20);
    }
    assert_eq!(checked(&image, &marking, &right), 0);
}

/// An image with any arcs.
fn foreign(random: &mut Random) -> (Vec<u32>, Vec<u8>) {
    let places = random.between(1, 8);
    let transitions = random.between(0, 140) / random.between(1, 20);
    let mut some = |percent| -> Vec<u32> {
        let chosen = (0..places as u32).filter(|_| random.chance(percent));
        chosen.collect()
    };
    let marked = some(60);
    let lists: Vec<[Vec<u32>; 2]> = (0..transitions).map(|_| [some(20), some(20)]).collect();
    let total: usize = lists.iter().map(|[inputs, _]| inputs.len()).sum();
    let start = 8 + 6 * transitions;
    let mut records = Vec::new();
    let mut words: Vec<u32> = Vec::new();
    for [inputs, outputs] in &lists {
        let at = start + words.len();
        records.extend([
            9,
            9,
            9,
            at as u32,
            inputs.len() as u32,
            outputs.len() as u32,
        ]);
        words.extend(inputs.iter().chain(outputs));
    }
    let outputs = words.len() - total;
    let header = [places, transitions, total, outputs, 0, 8, 8, start];
    let mut image: Vec<u32> = header.iter().map(|&word| word as u32).collect();
    image.extend(records);
    image.extend(words);
    let mut marking = vec![0; places];
    marked.iter().for_each(|&place| marking[place as usize] = 1);
    (image, marking)
}

/// Fires on, and sees that the summary stays the marking's; then with a summary that is not, sees
/// that what shares no place is left.
fn walk(random: &mut Random, image: &[u32], mut marking: Vec<u8>, met: &mut [usize; 3]) {
    let mut summary = made(image, &marking);
    let mut spoilt = summary.clone();
    for count in &mut spoilt.0 {
        *count = count.wrapping_add(random.below(3) as u32);
    }
    for word in &mut spoilt.1 {
        *word ^= random.number() & random.number();
    }
    for _ in 0..12 {
        assert_eq!(summary, expected(image, &marking));
        assert_eq!(checked(image, &marking, &summary), 0);
        let open: Vec<u32> = (0..image[1])
            .filter(|&number| summary.0[number as usize] == 0)
            .collect();
        assert_eq!(lowest(&summary.1), open.first().map(|&first| first.into()));
        assert_eq!(number(&summary.1), open.len() as u64);
        let Some(number) = random.pick(&open) else {
            return;
        };
        let mut plain = marking.clone();
        let answer = oracle::fire(image, &mut plain, number).map_err(|refusal| refusal.cause);
        let before = (summary.clone(), spoilt.clone());
        let mut copy = marking.clone();
        assert_eq!(fired(image, &mut copy, &mut spoilt, number), answer);
        assert_eq!(fired(image, &mut marking, &mut summary, number), answer);
        assert_eq!((&copy, &marking), (&plain, &plain));
        if answer.is_err() {
            assert_eq!((summary.clone(), spoilt.clone()), before);
            met[1] += 1;
            continue;
        }
        met[0] += 1;
        let right = expected(image, &marking);
        let (inputs, outputs) = arcs(image, number as usize);
        for other in 0..image[1] as usize {
            let (taken, given) = arcs(image, other);
            let mut places = taken.iter().chain(given);
            let shares = places.any(|place| inputs.contains(place) || outputs.contains(place));
            let bit = |words: &[u64]| words[other / 64] >> (other % 64) & 1;
            let wanted = if shares { &right } else { &before.1 };
            assert_eq!(spoilt.0[other], wanted.0[other]);
            assert_eq!(bit(&spoilt.1), bit(&wanted.1));
            met[2] += usize::from(!shares && wanted.0[other] != right.0[other]);
        }
        // Spare bits stay as lent.
        if let (Some(word), spare @ 1..) = (spoilt.1.last(), image[1] % 64) {
            assert_eq!(word >> spare, before.1 .1.last().unwrap() >> spare);
        }
    }
}

#[test]
fn summaries_of_built_nets_stay_right() {
    let mut random = Random::new(51);
    let mut met = [0; 3];
    for (shape, tables) in [(Shape::SMALL, 1500), (Shape::WIDE, 60)] {
        for _ in 0..tables {
            let net = Net::of(accepted(&mut random, shape));
            let standing = standing_marking(&net, &mut random, Values::Shared);
            for marking in [net.initial(), standing] {
                walk(&mut random, &net.image, marking, &mut met);
            }
        }
    }
    println!("{met:?}");
    assert!(met[0] > 5000 && met[1] == 0 && met[2] > 10_000);
}

#[test]
fn summaries_of_foreign_nets_stay_right() {
    let mut random = Random::new(52);
    let mut met = [0; 3];
    for _ in 0..4000 {
        let (image, marking) = foreign(&mut random);
        walk(&mut random, &image, marking, &mut met);
    }
    println!("{met:?}");
    assert!(met[0] > 3000 && met[1] > 1000 && met[2] > 3000);
}
