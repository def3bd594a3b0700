//! Spoilt tables, images, markings and states: no call panics, and the calls agree.

mod common;

use common::{Label, Net};
use oracle::generate::{accepted, Shape};
use oracle::random::Random;
use oracle::rewrite::rewritten;
use oracle::{
    build, check, fire, listing, open_steps, read, replay, run_lowest, size, start, step,
};
use oracle::{original_branch, original_name, original_node};
use oracle::{Reason, Refusal, RunAnswer};

/// Numbers likely to be at an edge.
fn edge(random: &mut Random, word: u64, most: u64) -> u64 {
    let edges = [
        0,
        1,
        2,
        3,
        31,
        32,
        33,
        255,
        256,
        word + 1,
        word.wrapping_sub(1),
        most,
        most - 1,
    ];
    edges[random.below(edges.len())].min(most)
}

#[test]
fn spoilt_tables_have_one_cause_in_every_call() {
    let mut random = Random::new(31);
    let mut causes = [0; 10];
    let mut spared = 0;
    for _ in 0..30_000 {
        let mut words = accepted(&mut random, Shape::SMALL);
        for _ in 0..random.between(1, 3) {
            let at = random.below(words.len());
            words[at] = edge(&mut random, u64::from(words[at]), 65535) as u16;
        }
        let cause = check(&words);
        causes[cause as usize] += 1;
        let mut image = vec![1; 40_000];
        let mut state = vec![1; 64];
        let needed = size(&words);
        match build(&words, &mut image) {
            Ok(length) => assert!(cause == 0 && needed == Ok(length)),
            Err(10) => assert!(cause == 0 && needed.is_ok_and(|needed| needed > image.len())),
            Err(other) => assert!(cause == other && needed == Err(other)),
        }
        match start(&words, &mut state) {
            Ok(length) => {
                assert_eq!(cause, 0);
                state.truncate(length);
                let count = open_steps(&words, &state, &mut [0; 4096]);
                assert!(count.is_ok());
            }
            Err(other) => assert_eq!(other, cause),
        }
        let bytes: Vec<u8> = words.iter().flat_map(|word| word.to_le_bytes()).collect();
        let text = listing(&bytes);
        match rewritten(&words) {
            // The rewriting spares self-calls, which are 9 elsewhere.
            Ok(table) => {
                assert!(cause == 0 && table == words || cause == 9 && table != words);
                assert!(text == "refused 10\n" || !text.starts_with("refused"));
                spared += usize::from(cause == 9);
            }
            Err(other) => {
                assert!(other == cause || other == 2 && cause == 9);
                assert_eq!(text, format!("refused {other}\n"));
            }
        }
        let most = u64::from(u32::MAX);
        let number = edge(&mut random, u64::from(words[4]), most) as u32;
        for original in [original_node, original_branch, original_name] {
            match (original(&words, number), rewritten(&words)) {
                (Ok(_), rewritten) => assert!(rewritten.is_ok()),
                (Err(last), Ok(_)) => assert_eq!(last, 5),
                (Err(other), Err(cause)) => assert_eq!(other, cause),
            }
        }
    }
    println!("{causes:?}, {spared} spared");
    assert!(causes[2..].iter().all(|&count| count > 100) && spared > 20);
}

#[test]
fn arbitrary_words_are_refused() {
    let mut random = Random::new(32);
    for _ in 0..20_000 {
        let length = random.below(60);
        let high = [2, 16, 65536][random.below(3)];
        let words: Vec<u16> = (0..length).map(|_| random.below(high) as u16).collect();
        assert!(check(&words) != 0 && rewritten(&words).is_err());
    }
}

/// A run by single firings: the search meets the records in order.
fn run_by_firing(
    image: &[u32],
    marking: &mut [u8],
    limit: usize,
    cells: usize,
) -> (Result<RunAnswer, Refusal>, Vec<u32>) {
    let mut numbers = Vec::new();
    loop {
        let firings = numbers.len() as u64;
        let reason = if numbers.len() == limit {
            Reason::LimitReached
        } else if numbers.len() == cells {
            Reason::HistoryFull
        } else {
            match (0..=u32::MAX)
                .map(|number| (number, fire(image, marking, number)))
                .find(not_15)
            {
                Some((number, Ok(()))) => {
                    numbers.push(number);
                    continue;
                }
                Some((_, Err(Refusal { cause: 14, .. }))) => Reason::NothingEnabled,
                Some((
                    _,
                    Err(Refusal {
                        cause,
                        firings: None,
                    }),
                )) => {
                    return (
                        Err(Refusal {
                            cause,
                            firings: None,
                        }),
                        numbers,
                    )
                }
                Some((_, Err(Refusal { cause, .. }))) => {
                    return (
                        Err(Refusal {
                            cause,
                            firings: Some(firings),
                        }),
                        numbers,
                    )
                }
                None => unreachable!(),
            }
        };
        return (Ok(RunAnswer { reason, firings }), numbers);
    }
}

fn not_15((_, answer): &(u32, Result<(), Refusal>)) -> bool {
    !matches!(answer, Err(Refusal { cause: 15, .. }))
}

#[test]
fn spoilt_images_fire_run_and_replay_alike() {
    let mut random = Random::new(33);
    let mut causes = [0; 20];
    for _ in 0..8000 {
        let net = Net::of(accepted(
            &mut random,
            Shape {
                nodes: 8,
                ..Shape::SMALL
            },
        ));
        let mut image = net.image.clone();
        for _ in 0..random.between(1, 4) {
            // The header is spoilt less often than the rest.
            let low = if random.chance(15) { 0 } else { 8 };
            let at = random.between(low, image.len() - 1);
            image[at] = edge(&mut random, u64::from(image[at]), u64::from(u32::MAX)) as u32;
        }
        let mut from = net.initial();
        for byte in &mut from {
            *byte ^= u8::from(random.chance(5));
        }
        let (limit, cells) = (random.below(12), random.below(12));
        let mut expected = from.clone();
        let (answer, numbers) = run_by_firing(&image, &mut expected, limit.max(1), cells.max(1));
        let mut marking = from.clone();
        let mut history = vec![u32::MAX; cells.max(1)];
        let ran = run_lowest(&image, &mut marking, limit.max(1) as u64, &mut history);
        assert_eq!(ran, answer);
        assert_eq!(marking, expected);
        assert_eq!(history[..numbers.len()], numbers);
        assert!(history[numbers.len()..]
            .iter()
            .all(|&cell| cell == u32::MAX));
        if let Err(Refusal { cause, .. }) = ran {
            causes[cause as usize] += 1;
        }
        check_spoilt_replay(&image, &mut random, &numbers, &mut causes);
    }
    println!("{causes:?}");
    assert!([11, 12, 14, 15, 16]
        .iter()
        .all(|&cause: &usize| causes[cause] > 20));
}

/// A replay agrees with firing its numbers one by one from the initial marking.
fn check_spoilt_replay(image: &[u32], random: &mut Random, numbers: &[u32], causes: &mut [usize]) {
    let mut numbers = numbers.to_vec();
    for number in &mut numbers {
        if random.chance(10) {
            *number = random.below(image[1].saturating_add(2) as usize) as u32;
        }
    }
    let places = image[0].min(100_000) as usize;
    let mut expected = vec![3; places];
    let mut marking = vec![4; places];
    let replayed = replay(image, &mut marking, &numbers);
    if let Err(refusal @ Refusal { firings: None, .. }) = replay(image, &mut expected, &[]) {
        assert_eq!(replayed, Err(refusal));
        assert_eq!(marking, vec![4; places]);
        return;
    }
    let mut made = 0;
    for &number in &numbers {
        if let Err(Refusal { cause, .. }) = fire(image, &mut expected, number) {
            assert_eq!(
                replayed,
                Err(Refusal {
                    cause,
                    firings: Some(made)
                })
            );
            causes[cause as usize] += 1;
            break;
        }
        made += 1;
    }
    assert!(made < numbers.len() as u64 || replayed == Ok(made));
    assert_eq!(marking, expected);
}

#[test]
fn spoilt_states_are_refused_or_go_on() {
    let mut random = Random::new(34);
    let (mut refused, mut stepped) = (0, 0);
    for _ in 0..4000 {
        let net = Net::of(accepted(&mut random, Shape::SMALL));
        let mut state = net.start();
        for _ in 0..20 {
            let mut spoilt = state.clone();
            let at = random.below(spoilt.len());
            spoilt[at] = edge(&mut random, u64::from(spoilt[at]), 65535) as u16;
            match open_steps(&net.words, &spoilt, &mut [0; 4096]) {
                Err(cause) => {
                    assert_eq!(cause, 18);
                    refused += 1;
                }
                Ok(_) => check_labels(&net, &spoilt, &mut random),
            }
            check_labels(&net, &state, &mut random);
            let in_net =
                |&label: &Label| (0..net.image[1]).any(|number| net.label(number) == label);
            assert!(net.open_labels(&state).iter().all(in_net));
            let Some(label) = random.pick(&net.open_labels(&state)) else {
                break;
            };
            state = net.step(&state, label);
            stepped += 1;
        }
    }
    println!("{refused} refused, {stepped} stepped");
}

/// The open labels are taken, in strictly rising order by node and then by send and receive; others
/// are refused by 19. A state that cannot be reached may have open labels that the net has not.
fn check_labels(net: &Net, state: &[u16], random: &mut Random) {
    let open = net.open_labels(state);
    let rank = |&[kind, a, b]: &Label| match kind {
        3 => [0, net.table.standing[a as usize], a as usize],
        4 => [1, a as usize, b as usize],
        _ => [0, a as usize, 0],
    };
    let order: Vec<[usize; 3]> = open.iter().map(rank).collect();
    assert!(order.windows(2).all(|pair| pair[0] < pair[1]));
    for &label in &open {
        let next = net.step(state, label);
        assert!(open_steps(&net.words, &next, &mut [0; 4096]).is_ok());
    }
    let mut below = |bound: usize| random.below(bound) as u32;
    let label = [below(7), below(8), below(8)];
    let answer = step(
        &net.words,
        state,
        label[0],
        label[1],
        label[2],
        &mut [0; 64],
    );
    assert_eq!(answer.is_ok(), open.contains(&label));
    assert!(answer.is_ok() || answer == Err(19));
}

#[test]
fn arbitrary_markings_are_refused_or_well_formed() {
    let mut random = Random::new(35);
    for _ in 0..4000 {
        let net = Net::of(accepted(
            &mut random,
            Shape {
                nodes: 6,
                bound: 2,
                ..Shape::SMALL
            },
        ));
        for _ in 0..20 {
            let mut marking = net.initial();
            for byte in &mut marking {
                *byte ^= u8::from(random.chance(10));
            }
            let mut state = vec![0; net.start().len()];
            match read(&net.words, &marking, &mut state) {
                Err(cause) => assert_eq!(cause, 17),
                Ok(length) => {
                    assert!(open_steps(&net.words, &state[..length], &mut [0; 999]).is_ok())
                }
            }
        }
    }
}
