//! Document 02, item 5: the list of what can be done next, kept beside a marking.

use crate::net::{Image, Refusal, Transition};

/// "Keep beside a marking the number of unmarked inputs of each transition, as a 32-bit word, and a
/// set of enabled transitions in 64-bit words": writes both and answers how many transitions there
/// are; causes 11, 13, 12 in any record, 10 for either.
pub fn make(
    image: &[u32],
    marking: &[u8],
    counts: &mut [u32],
    enabled: &mut [u64],
) -> Result<u32, u32> {
    let image = opened(image, marking)?;
    let transitions = all_records(&image).ok_or(12u32)?;
    let made = Summary::of(&transitions, marking);
    let (Some(counts), Some(enabled)) = (
        counts.get_mut(..made.counts.len()),
        enabled.get_mut(..made.enabled.len()),
    ) else {
        return Err(10);
    };
    counts.copy_from_slice(&made.counts);
    enabled.copy_from_slice(&made.enabled);
    Ok(image.transitions)
}

/// "A firing decides by the marking and works out afresh only transitions that share a place with
/// the fired one. [...] a refused one changes none of it." Causes 11, 13, 20 for a wrong length,
/// 14, 12 in any record, 15, 16.
pub fn fire(
    image: &[u32],
    marking: &mut [u8],
    counts: &mut [u32],
    enabled: &mut [u64],
    transition: u32,
) -> Result<(), Refusal> {
    let image = opened(image, marking).map_err(Refusal::alone)?;
    if !has_lengths(&image, counts, enabled) {
        return Err(Refusal::alone(20));
    }
    if transition >= image.transitions {
        return Err(Refusal::after(14, 0));
    }
    let transitions = all_records(&image).ok_or(Refusal::after(12, 0))?;
    image
        .fire(marking, transition)
        .map_err(|cause| Refusal::after(cause, 0))?;
    let fired = &transitions[transition as usize];
    let mut touched = vec![false; marking.len()];
    for &place in fired.inputs.iter().chain(fired.outputs) {
        touched[place as usize] = true;
    }
    for (number, other) in transitions.iter().enumerate() {
        let mut places = other.inputs.iter().chain(other.outputs);
        if places.any(|&place| touched[place as usize]) {
            let count = unmarked(other, marking);
            counts[number] = count;
            let bit = 1 << (number % 64);
            match count {
                0 => enabled[number / 64] |= bit,
                _ => enabled[number / 64] &= !bit,
            }
        }
    }
    Ok(())
}

/// "a summary that isn't the marking's is found by an explicit check, which looks at lengths, then
/// every record for 12, then contents": 0, or a cause of 11, 13, 20, 12, 20.
pub fn check(image: &[u32], marking: &[u8], counts: &[u32], enabled: &[u64]) -> u32 {
    match checked(image, marking, counts, enabled) {
        Ok(()) => 0,
        Err(cause) => cause,
    }
}

fn checked(image: &[u32], marking: &[u8], counts: &[u32], enabled: &[u64]) -> Result<(), u32> {
    let image = opened(image, marking)?;
    if !has_lengths(&image, counts, enabled) {
        return Err(20);
    }
    let transitions = all_records(&image).ok_or(12u32)?;
    let right = Summary::of(&transitions, marking);
    match right.counts == counts && right.enabled == enabled {
        true => Ok(()),
        false => Err(20),
    }
}

/// "The lowest enabled one is found by counting trailing zeros [...] in the set as lent."
pub fn lowest(enabled: &[u64]) -> Option<u64> {
    let word = enabled.iter().position(|&word| word != 0)?;
    Some(64 * word as u64 + u64::from(enabled[word].trailing_zeros()))
}

/// "and their number by counting ones".
pub fn number(enabled: &[u64]) -> u64 {
    enabled
        .iter()
        .map(|word| u64::from(word.count_ones()))
        .sum()
}

/// The words of a set: "transition k at bit k mod 64 of word k div 64, spare bits 0".
pub(crate) fn set_words(transitions: u32) -> usize {
    (transitions as usize).div_ceil(64)
}

/// Causes 11 and 13.
fn opened<'a>(image: &'a [u32], marking: &[u8]) -> Result<Image<'a>, u32> {
    let image = Image::open(image).ok_or(11u32)?;
    match image.has_marking(marking) {
        true => Ok(image),
        false => Err(13),
    }
}

fn has_lengths(image: &Image, counts: &[u32], enabled: &[u64]) -> bool {
    counts.len() == image.transitions as usize && enabled.len() == set_words(image.transitions)
}

/// All transitions; `None` where a record is wrong (12).
fn all_records<'a>(image: &Image<'a>) -> Option<Vec<Transition<'a>>> {
    (0..image.transitions)
        .map(|number| image.transition(number))
        .collect()
}

/// How many inputs of a transition are unmarked.
fn unmarked(transition: &Transition, marking: &[u8]) -> u32 {
    let unmarked = |place: &&u32| marking[**place as usize] == 0;
    transition.inputs.iter().filter(unmarked).count() as u32
}

struct Summary {
    counts: Vec<u32>,
    enabled: Vec<u64>,
}

impl Summary {
    /// The summary of a marking.
    fn of(transitions: &[Transition], marking: &[u8]) -> Summary {
        let count = |transition| unmarked(transition, marking);
        let counts: Vec<u32> = transitions.iter().map(count).collect();
        let bits = |counts: &[u32]| {
            let bit = |(at, &count): (usize, &u32)| u64::from(count == 0) << at;
            counts.iter().enumerate().map(bit).sum()
        };
        Summary {
            enabled: counts.chunks(64).map(bits).collect(),
            counts,
        }
    }
}
