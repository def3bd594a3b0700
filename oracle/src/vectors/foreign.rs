//! Requests on small images that no table has: any arcs, shared arcs, contacts, wrong words.

use super::requests::Writer;
use crate::random::Random;

/// An image with a few places and transitions, and calls on it.
pub fn play_foreign(writer: &mut Writer) {
    writer.draw_next();
    let mut image = foreign(&mut writer.random);
    if writer.random.chance(40) {
        spoil(&mut writer.random, &mut image);
    }
    let places = u64::from(image[0]).min(12);
    let transitions = image[1] as usize;
    let words: Vec<u64> = image.iter().map(|&word| word.into()).collect();
    writer.ask('w', &words);
    writer.ask('l', &[places]);
    writer.ask('r', &[]);
    for number in 0..=transitions.min(9) {
        writer.look(number as u64, places as usize);
    }
    for _ in 0..9 {
        match writer.random.below(8) {
            0..=2 => {
                let number = writer.random.below(transitions.min(9) + 1) as u64;
                if writer.random.chance(50) {
                    writer.look(number, places as usize);
                }
                writer.ask('f', &[number]);
            }
            3 => {
                let place = writer.random.below(places as usize + 1) as u64;
                let byte = writer.random.below(2) as u64;
                writer.ask('m', &[place, byte]);
            }
            4 => {
                let count = writer.random.below(5);
                let random = &mut writer.random;
                let numbers: Vec<u64> = (0..count)
                    .map(|_| random.below(transitions.min(9)) as u64)
                    .collect();
                writer.ask('r', &numbers);
            }
            5 => {
                writer.ask('u', &[6, 5]);
                writer.ask('h', &[5]);
            }
            _ => {
                let (limit, room) = (writer.random.below(6), writer.random.below(6));
                writer.run(limit as u64, room as u64);
            }
        }
    }
}

/// An image whose header is right and whose transitions have any arcs.
pub fn foreign(random: &mut Random) -> Vec<u32> {
    let places = random.between(0, 6);
    let transitions = random.between(0, 5);
    let initial = some_places(random, places, 50);
    let records = 8 + initial.len();
    let start = records + 6 * transitions;
    let mut record_words = Vec::new();
    let mut arc_words: Vec<u32> = Vec::new();
    let mut counts = [0, 0];
    for _ in 0..transitions {
        let inputs = some_places(random, places, 35);
        let outputs = some_places(random, places, 35);
        let label = [random.below(7), random.below(9), random.below(9)];
        record_words.extend(label.map(|word| word as u32));
        record_words
            .extend([start + arc_words.len(), inputs.len(), outputs.len()].map(|n| n as u32));
        counts[0] += inputs.len();
        counts[1] += outputs.len();
        arc_words.extend(inputs);
        arc_words.extend(outputs);
    }
    let header = [
        places,
        transitions,
        counts[0],
        counts[1],
        initial.len(),
        8,
        records,
        start,
    ];
    let mut image: Vec<u32> = header.iter().map(|&word| word as u32).collect();
    image.extend(initial);
    image.extend(record_words);
    image.extend(arc_words);
    share_arcs(random, &mut image, records, transitions);
    image
}

/// Places below the count, ascending, each with a chance.
fn some_places(random: &mut Random, places: usize, percent: usize) -> Vec<u32> {
    (0..places as u32)
        .filter(|_| random.chance(percent))
        .collect()
}

/// Now and then one record gets the arcs of another.
fn share_arcs(random: &mut Random, image: &mut [u32], records: usize, transitions: usize) {
    if transitions > 1 && random.chance(20) {
        let [from, to] = [0, 1].map(|_| records + 6 * random.below(transitions) + 3);
        for word in 0..3 {
            image[to + word] = image[from + word];
        }
    }
}

/// Changes a word or the length.
fn spoil(random: &mut Random, image: &mut Vec<u32>) {
    let at = random.below(image.len());
    match random.below(8) {
        0 => image.push(0),
        1 if image.len() > 8 => {
            image.pop();
        }
        2 => image[at] = random.number() as u32,
        3 => image[at] = 4_294_967_295,
        4 | 5 => image[at] = image[at].wrapping_sub(1),
        _ => image[at] = image[at].wrapping_add(1),
    }
}
