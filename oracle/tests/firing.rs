//! Causes 11 to 16, and what a firing, a replay and a run stopped by them leave.

mod common;

use common::{image_of, initial_of, E};
use oracle::{fire, read, replay, run, run_lowest, Reason, Refusal};

fn all_refuse(image: &[u32], marking: &[u8], number: u32, cause: u32) {
    let alone = Refusal {
        cause,
        firings: None,
    };
    let mut lent = marking.to_vec();
    let mut history = [9; 2];
    assert_eq!(fire(image, &mut lent, number), Err(alone));
    assert_eq!(run(image, &mut lent, 0, &mut history), Err(alone));
    assert_eq!(run(image, &mut lent, 9, &mut history), Err(alone));
    assert_eq!(run_lowest(image, &mut lent, 9, &mut history), Err(alone));
    assert_eq!(lent, marking);
    assert_eq!(history, [9; 2]);
}

#[test]
fn cause_11_is_each_header_word_and_the_initial_list() {
    let image = image_of(&E);
    let marking = initial_of(&image);
    let mut wrong: Vec<Vec<u32>> = vec![vec![], image[..7].to_vec(), image[..105].to_vec()];
    wrong.push([&image[..], &[0]].concat());
    for (at, word) in [
        (1, 7),
        (1, u32::MAX),
        (2, 23),
        (2, u32::MAX),
        (3, u32::MAX),
        (4, 5),
        (4, u32::MAX),
        (5, 9),
        (6, 15),
        (7, 61),
        (0, 12),
        (8, 5),
        (9, 4),
        (13, 15),
        (13, u32::MAX),
    ] {
        let mut words = image.clone();
        words[at] = word;
        wrong.push(words);
    }
    for words in wrong {
        all_refuse(&words, &marking, 0, 11);
        all_refuse(&words, &[], 99, 11);
        let mut lent = marking.clone();
        let alone = Refusal {
            cause: 11,
            firings: None,
        };
        assert_eq!(replay(&words, &mut lent, &[99]), Err(alone));
        assert_eq!(lent, marking);
    }
    // Shifting the arc totals against one another changes nothing that is looked at.
    let mut shifted = image;
    shifted[2] += 1;
    shifted[3] -= 1;
    assert_eq!(fire(&shifted, &mut marking.clone(), 0), Ok(()));
}

#[test]
fn cause_13_is_the_length_and_the_bytes() {
    let image = image_of(&E);
    let mut marking = initial_of(&image);
    all_refuse(&image, &marking[1..], 99, 13);
    all_refuse(&image, &[&marking[..], &[0]].concat(), 99, 13);
    marking[3] = 2;
    all_refuse(&image, &marking, 99, 13);
    assert_eq!(read(&E, &marking, &mut [0; 4]), Err(13));
    let alone = Refusal {
        cause: 13,
        firings: None,
    };
    let mut short = vec![4; 14];
    assert_eq!(replay(&image, &mut short, &[99]), Err(alone));
    assert_eq!(short, [4; 14]);
    // A replay looks at the length alone.
    assert_eq!(replay(&image, &mut marking, &[0]), Ok(1));
}

/// A foreign image: places, initial places, and per transition its inputs and outputs.
fn foreign(places: u32, initial: &[u32], transitions: &[(&[u32], &[u32])]) -> Vec<u32> {
    let m = initial.len() as u32;
    let t = transitions.len() as u32;
    let inputs: usize = transitions.iter().map(|(inputs, _)| inputs.len()).sum();
    let outputs: usize = transitions.iter().map(|(_, outputs)| outputs.len()).sum();
    let arcs = 8 + m + 6 * t;
    let mut image = vec![places, t, inputs as u32, outputs as u32, m, 8, 8 + m, arcs];
    image.extend(initial);
    let mut at = arcs;
    for (inputs, outputs) in transitions {
        image.extend([9, 9, 9, at, inputs.len() as u32, outputs.len() as u32]);
        at += (inputs.len() + outputs.len()) as u32;
    }
    for (inputs, outputs) in transitions {
        image.extend(*inputs);
        image.extend(*outputs);
    }
    image
}

#[test]
fn cause_12_stops_a_firing_a_replay_and_a_run() {
    let right = foreign(3, &[0], &[(&[0], &[1]), (&[1], &[2]), (&[2], &[])]);
    let record = 9 + 6;
    // (word, its wrong content) of transition 1.
    for (at, word) in [
        (record + 3, 26),
        (record + 3, 31),
        (record + 3, u32::MAX),
        (record + 4, 9),
        (record + 4, u32::MAX),
        (record + 5, u32::MAX),
        (29, 3),
        (30, 3),
    ] {
        let mut image = right.clone();
        image[at] = word;
        let mut marking = vec![0, 1, 0];
        let refused = |firings| Refusal {
            cause: 12,
            firings: Some(firings),
        };
        assert_eq!(fire(&image, &mut marking, 1), Err(refused(0)));
        assert_eq!(marking, [0, 1, 0]);
        let mut history = [7; 3];
        assert_eq!(replay(&image, &mut marking, &[0, 1, 2]), Err(refused(1)));
        assert_eq!(marking, [0, 1, 0]);
        // Transition 0 is fired before the search meets transition 1.
        let mut marking = vec![1, 0, 1];
        let answer = run_lowest(&image, &mut marking, 9, &mut history).map(|answer| answer.firings);
        assert_eq!(answer, Err(refused(1)));
        assert_eq!(history, [0, 7, 7]);
        assert_eq!(marking, [0, 1, 1]);
    }
    for arcs in [&[1, 0][..], &[1, 1][..]] {
        let image = foreign(3, &[0], &[(&[0], arcs), (&[0], &[])]);
        let mut marking = vec![0, 0, 0];
        let refused = Refusal {
            cause: 12,
            firings: Some(0),
        };
        assert_eq!(fire(&image, &mut marking, 0), Err(refused));
        assert_eq!(run_lowest(&image, &mut marking, 1, &mut [0]), Err(refused));
        assert_eq!(
            run_lowest(&image, &mut marking, 1, &mut []).unwrap().reason,
            Reason::HistoryFull
        );
        assert_eq!(
            run_lowest(&image, &mut marking, 0, &mut []).unwrap().reason,
            Reason::LimitReached
        );
    }
}

#[test]
fn causes_14_15_and_16_leave_the_firings_made() {
    // Transition 2 gives place 1, which stays marked after transition 0.
    let image = foreign(3, &[0, 2], &[(&[0], &[1]), (&[0, 1], &[]), (&[2], &[1, 2])]);
    let mut marking = vec![8; 3];
    for (number, cause) in [(3, 14), (u32::MAX, 14), (1, 15), (2, 16)] {
        let refused = |firings| Refusal {
            cause,
            firings: Some(firings),
        };
        assert_eq!(
            replay(&image, &mut marking, &[0, number, 0]),
            Err(refused(1))
        );
        assert_eq!(marking, [0, 1, 1]);
        assert_eq!(fire(&image, &mut marking, number), Err(refused(0)));
        assert_eq!(marking, [0, 1, 1]);
    }
    let refused = Refusal {
        cause: 14,
        firings: Some(0),
    };
    assert_eq!(replay(&image, &mut marking, &[9]), Err(refused));
    assert_eq!(marking, [1, 0, 1]);
    // A run does not pass over a contact.
    let mut history = [7; 4];
    let answer = run_lowest(&image, &mut marking, 9, &mut history);
    assert_eq!(
        answer,
        Err(Refusal {
            cause: 16,
            firings: Some(1)
        })
    );
    assert_eq!((marking, history), (vec![0, 1, 1], [0, 7, 7, 7]));
    // A place both taken and given is no contact; a transition without inputs is enabled.
    let image = foreign(2, &[0], &[(&[0], &[0]), (&[], &[1])]);
    let mut marking = vec![0, 0];
    assert_eq!(
        run_lowest(&image, &mut marking, 1, &mut [0])
            .unwrap()
            .reason,
        Reason::LimitReached
    );
    assert_eq!(marking, [0, 1]);
    assert_eq!(replay(&image, &mut marking, &[0, 0, 1]), Ok(3));
    assert_eq!(marking, [1, 1]);
}
