//! Document 02, item 2: looking at a firing equals firing on a copy, and refuses as it does; a room
//! too short is refused last.

mod common;

use common::{image_of, initial_of, Net, E};
use oracle::generate::{accepted, Shape};
use oracle::random::Random;
use oracle::{fire, look};

/// What lent bytes hold before a look.
const LENT: u8 = 170;

/// Every cause of a look, in the order in which they are looked at.
const CAUSES: [u32; 7] = [11, 13, 14, 12, 15, 16, 10];

fn e() -> (Vec<u32>, Vec<u8>) {
    let image = image_of(&E);
    let marking = initial_of(&image);
    (image, marking)
}

/// The bytes lent as they are after a look, and its answer.
fn looked(
    image: &[u32],
    marking: &[u8],
    number: u32,
    room: usize,
) -> (Result<usize, u32>, Vec<u8>) {
    let mut next = vec![LENT; room];
    let answer = look(image, marking, number, &mut next);
    (answer, next)
}

/// A refusal writes nothing.
fn refused(image: &[u32], marking: &[u8], number: u32, room: usize, cause: u32) {
    let answer = (Err(cause), vec![LENT; room]);
    assert_eq!(looked(image, marking, number, room), answer);
}

#[test]
fn table_e_is_looked_at_before_its_run() {
    let (image, mut marking) = e();
    let left = [
        (0, [1, 0, 0, 0, 1, 1, 0, 1, 0, 1, 0, 0, 1, 0, 0]),
        (6, [1, 0, 1, 0, 0, 1, 0, 1, 0, 0, 1, 0, 0, 1, 0]),
        (2, [0, 0, 1, 0, 0, 1, 1, 1, 0, 0, 0, 1, 0, 1, 0]),
        (4, [0, 0, 0, 0, 1, 1, 1, 1, 0, 0, 0, 1, 0, 0, 1]),
    ];
    for (number, next) in left {
        assert_eq!(
            looked(&image, &marking, number, 15),
            (Ok(15), next.to_vec())
        );
        fire(&image, &mut marking, number).unwrap();
        assert_eq!(marking, next);
        // The token has gone on.
        refused(&image, &marking, number, 15, 15);
    }
}

#[test]
fn table_e_is_refused_as_a_firing_is() {
    let (image, marking) = e();
    refused(&image, &marking, 6, 15, 15);
    refused(&image, &marking, 8, 15, 14);
    refused(&image, &marking, u32::MAX, 15, 14);
    refused(&image[..105], &marking, 0, 15, 11);
    refused(&image, &marking[1..], 0, 15, 13);
}

#[test]
fn the_room_holds_the_places_exactly_or_more() {
    let (image, marking) = e();
    for room in 0..15 {
        refused(&image, &marking, 1, room, 10);
    }
    let (_, exact) = looked(&image, &marking, 1, 15);
    for more in [1, 2, 100] {
        let (answer, next) = looked(&image, &marking, 1, 15 + more);
        assert_eq!(answer, Ok(15));
        assert_eq!(next[..15], exact);
        assert!(next[15..].iter().all(|&byte| byte == LENT));
    }
}

/// A look that every cause refuses, with what the first of them finds mended each time.
#[test]
fn the_causes_come_in_their_order() {
    let (mut image, mut marking) = e();
    let (initial, arc_start) = (8, 14 + 6 * 6 + 3);
    let (first, start) = (image[initial], image[arc_start]);
    // The places of [r=1], node 1, node 2's end and [x=1].
    let (made, standing, ended, received) = (0, 9, 11, 2);
    image[initial] = image[initial + 1];
    image[arc_start] = image[7] - 1;
    marking[ended] = 2;
    marking[received] = 1;
    let mut number = 8;
    let mut met = Vec::new();
    loop {
        let (answer, next) = looked(&image, &marking, number, 14);
        assert_eq!(next, [LENT; 14]);
        let cause = answer.unwrap_err();
        met.push(cause);
        match cause {
            11 => image[initial] = first,
            13 => marking[ended] = 0,
            14 => number = 6,
            12 => image[arc_start] = start,
            15 => {
                marking[made] = 1;
                marking[standing] = 1;
            }
            16 => marking[received] = 0,
            _ => break,
        }
        assert!(met.len() <= CAUSES.len());
    }
    assert_eq!(met, CAUSES);
    assert_eq!(looked(&image, &marking, number, 15).0, Ok(15));
}

#[test]
fn cause_13_is_the_length_and_the_bytes() {
    let (image, marking) = e();
    refused(&image, &[], 99, 0, 13);
    refused(&image, &marking[..14], 99, 0, 13);
    refused(&image, &[&marking[..], &[0]].concat(), 99, 0, 13);
    for byte in [2, 3, 170, 255] {
        let mut wrong = marking.clone();
        wrong[14] = byte;
        refused(&image, &wrong, 99, 0, 13);
    }
}

/// Three places. Transition 0 gives place 1; transition 1 takes and gives it; transition 2 has no
/// inputs, transition 3 no arcs; transition 4 has outputs that do not ascend.
const FOREIGN: [u32; 48] = [
    3, 5, 2, 6, 2, 8, 10, 40, // header
    0, 1, // initial places
    9, 9, 9, 40, 1, 1, // records
    9, 9, 9, 42, 1, 2, //
    9, 9, 9, 45, 0, 1, //
    9, 9, 9, 46, 0, 0, //
    9, 9, 9, 46, 0, 2, //
    0, 1, 1, 1, 2, 2, 2, 1, // arcs
];

/// A marking, a number, and the marking or the cause that it gives.
type Case = ([u8; 3], u32, Result<[u8; 3], u32>);

#[test]
fn foreign_nets_are_looked_at() {
    let cases: [Case; 11] = [
        ([1, 0, 0], 0, Ok([0, 1, 0])),
        ([1, 1, 0], 0, Err(16)),
        ([0, 1, 0], 0, Err(15)),
        ([0, 1, 0], 1, Ok([0, 1, 1])),
        ([0, 1, 1], 1, Err(16)),
        ([0, 0, 1], 1, Err(15)),
        ([0, 0, 0], 2, Ok([0, 0, 1])),
        ([0, 0, 1], 2, Err(16)),
        ([1, 0, 1], 3, Ok([1, 0, 1])),
        ([1, 0, 1], 4, Err(12)),
        ([1, 0, 1], 5, Err(14)),
    ];
    for (marking, number, expected) in cases {
        match expected {
            Ok(next) => assert_eq!(
                looked(&FOREIGN, &marking, number, 3),
                (Ok(3), next.to_vec())
            ),
            Err(cause) => {
                for room in 0..5 {
                    refused(&FOREIGN, &marking, number, room, cause);
                }
            }
        }
    }
    // No places: nothing is written, and there is always room.
    let empty = [0, 1, 0, 0, 0, 8, 8, 14, 3, 0, 0, 14, 0, 0];
    assert_eq!(looked(&empty, &[], 0, 0), (Ok(0), vec![]));
    assert_eq!(looked(&empty, &[], 0, 2), (Ok(0), vec![LENT; 2]));
}

/// Counts of answers, by cause.
type Met = [usize; 20];

/// A look, and a firing on a copy: the same refusal, or the same marking, then a room too short.
fn check_look(image: &[u32], marking: &[u8], number: u32, room: usize, met: &mut Met) {
    let mut copy = marking.to_vec();
    let fired = fire(image, &mut copy, number);
    let (answer, next) = looked(image, marking, number, room);
    let expected = match fired {
        Err(refusal) => Err(refusal.cause),
        Ok(()) if room < marking.len() => Err(10),
        Ok(()) => Ok(marking.len()),
    };
    assert_eq!(answer, expected);
    let written = answer.unwrap_or(0);
    assert_eq!(next[..written], copy[..written]);
    assert!(next[written..].iter().all(|&byte| byte == LENT));
    met[answer.err().unwrap_or(0) as usize] += 1;
}

/// Exact more often than not.
fn any_room(random: &mut Random, places: usize) -> usize {
    match random.below(6) {
        0 => 0,
        1 => places.saturating_sub(1),
        2 => places + random.between(1, 9),
        _ => places,
    }
}

#[test]
fn looking_equals_firing_on_a_copy() {
    let mut random = Random::new(71);
    let mut met = [0; 20];
    for _ in 0..600 {
        let net = Net::of(accepted(&mut random, Shape::SMALL));
        let mut marking = net.initial();
        for _ in 0..20 {
            for number in 0..=net.image[1] {
                let room = any_room(&mut random, marking.len());
                check_look(&net.image, &marking, number, room, &mut met);
            }
            let Some(number) = random.pick(&net.enabled(&marking)) else {
                break;
            };
            let (_, next) = looked(&net.image, &marking, number, marking.len());
            assert_eq!(next, moved(&net, &marking, number));
            marking = next;
        }
    }
    println!("{met:?}");
    assert!([0, 10, 14, 15].iter().all(|&cause| met[cause] > 1000));
    assert_eq!(
        met.iter().sum::<usize>(),
        met[0] + met[10] + met[14] + met[15]
    );
}

/// The inputs' tokens taken, the outputs' given.
fn moved(net: &Net, marking: &[u8], number: u32) -> Vec<u8> {
    let (inputs, outputs) = net.arcs(number);
    let marked = |(place, &byte): (usize, &u8)| {
        let place = place as u32;
        u8::from(outputs.contains(&place) || byte == 1 && !inputs.contains(&place))
    };
    marking.iter().enumerate().map(marked).collect()
}

#[test]
fn spoilt_images_and_markings_are_looked_at_as_they_are_fired() {
    let mut random = Random::new(72);
    let mut met = [0; 20];
    for _ in 0..3000 {
        let shape = Shape {
            nodes: 8,
            ..Shape::SMALL
        };
        let net = Net::of(accepted(&mut random, shape));
        let mut image = net.image.clone();
        let mut marking = net.initial();
        for _ in 0..random.between(0, 3) {
            // The header is spoilt less often than the rest.
            let low = if random.chance(15) { 0 } else { 8 };
            let at = random.between(low, image.len() - 1);
            let words = [0, 1, image[at].wrapping_add(1), image[at].wrapping_sub(1)];
            image[at] = words[random.below(4)];
        }
        for byte in &mut marking {
            *byte ^= u8::from(random.chance(20));
        }
        match random.below(12) {
            0 => marking.push(1),
            1 => marking[0] = 2,
            2 => marking.truncate(random.below(marking.len())),
            _ => {}
        }
        for number in 0..=net.image[1] {
            let room = any_room(&mut random, marking.len());
            check_look(&image, &marking, number, room, &mut met);
        }
    }
    println!("{met:?}");
    assert!(met[0] > 100 && CAUSES.iter().all(|&cause| met[cause as usize] > 100));
}
