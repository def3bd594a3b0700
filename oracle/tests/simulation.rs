//! Random accepted tables, fired at random: the marking reads back as the plain process's state.

mod common;

use common::{is_bookkeeping, standing_marking, Label, Net, Values};
use oracle::generate::{accepted, Shape};
use oracle::random::Random;
use oracle::table::Branch;
use oracle::{fire, read, replay, run, run_lowest, Reason, Refusal, RunAnswer};

/// What the walks met, so that the tests do not pass on empty ground.
#[derive(Debug, Default)]
struct Met {
    firings: usize,
    kinds: [usize; 6],
    private_channels: usize,
    longest_wait_is_b: usize,
    longest_row_is_2b: usize,
    ended: usize,
}

/// Every promise about one marking: each enabled transition fires, without contact, into a
/// marking that reads back as the next state; each open step is at most B bookkeeping firings
/// away; at most 2B bookkeeping firings are in a row.
fn check_marking(net: &Net, marking: &[u8], state: &[u16], met: &mut Met) -> Vec<u32> {
    assert_eq!(net.read(marking), state);
    let open = net.open_labels(state);
    let enabled = net.enabled(marking);
    for &number in &enabled {
        let label = net.label(number);
        let next = net.fired(marking, number);
        assert_eq!(net.read(&next), next_state(net, state, label));
        assert!(is_bookkeeping(label) || open.contains(&label));
    }
    for &label in &open {
        let waited = net.wait_for(marking, label);
        assert!(waited <= net.bound());
        met.longest_wait_is_b += usize::from(waited > 0 && waited == net.bound());
        met.private_channels += usize::from(is_private_channel(net, state, label));
    }
    let row = net.bookkeeping_row(marking);
    assert!(row <= 2 * net.bound());
    met.longest_row_is_2b += usize::from(row > 0 && row == 2 * net.bound());
    enabled
}

/// "Each number made keeps the state if its label is bookkeeping, else takes that step."
fn next_state(net: &Net, state: &[u16], label: Label) -> Vec<u16> {
    if is_bookkeeping(label) {
        state.to_vec()
    } else {
        net.step(state, label)
    }
}

fn is_private_channel(net: &Net, state: &[u16], [kind, a, _]: Label) -> bool {
    let table = &net.table;
    let Some(Branch::Send { channel, .. }) = table.branches.get(a as usize).copied() else {
        return false;
    };
    let value = |name: usize| state[table.entries.len() + name - table.publics];
    kind == 4 && table.is_bound(channel) && usize::from(value(channel)) >= table.publics
}

/// A random walk of at most `most` firings; the numbers fired and the marking reached.
fn walk(net: &Net, random: &mut Random, most: usize, met: &mut Met) -> (Vec<u32>, Vec<u8>) {
    let mut marking = net.initial();
    let mut state = net.start();
    let mut numbers = Vec::new();
    for _ in 0..most {
        let enabled = check_marking(net, &marking, &state, met);
        let Some(number) = random.pick(&enabled) else {
            met.ended += 1;
            break;
        };
        let label = net.label(number);
        state = next_state(net, &state, label);
        marking = net.fired(&marking, number);
        numbers.push(number);
        met.firings += 1;
        met.kinds[label[0] as usize] += 1;
    }
    (numbers, marking)
}

/// A replay of the walk ends where it did; one of a walk cut by a refusal leaves the firings
/// made.
fn check_replay(net: &Net, random: &mut Random, numbers: &[u32], end: &[u8]) {
    let mut marking = vec![9; end.len()];
    assert_eq!(
        replay(&net.image, &mut marking, numbers),
        Ok(numbers.len() as u64)
    );
    assert_eq!(marking, end);
    let cut = random.below(numbers.len() + 1);
    let mut expected = net.initial();
    for &number in &numbers[..cut] {
        assert_eq!(fire(&net.image, &mut expected, number), Ok(()));
    }
    let stuck = (0..net.image[1]).find(|&number| !net.is_enabled(&expected, number));
    for (number, cause) in [(Some(net.image[1]), 14), (stuck, 15)] {
        let Some(number) = number else { continue };
        let mut spoilt = numbers[..cut].to_vec();
        spoilt.extend([number, 0]);
        let refusal = Refusal {
            cause,
            firings: Some(cut as u64),
        };
        assert_eq!(replay(&net.image, &mut marking, &spoilt), Err(refusal));
        assert_eq!(marking, expected);
    }
}

/// A run by either rule agrees with firing the transition of that rule again and again.
fn check_run(net: &Net, random: &mut Random, from: &[u8]) {
    check_rule(net, random, from, run, |enabled| {
        let mut settling = enabled.iter();
        let settling = settling.find(|&&number| is_bookkeeping(net.label(number)));
        settling.or(enabled.first()).copied()
    });
    check_rule(net, random, from, run_lowest, |enabled| {
        enabled.first().copied()
    });
}

type Run = fn(&[u32], &mut [u8], u64, &mut [u32]) -> Result<RunAnswer, Refusal>;

fn check_rule(
    net: &Net,
    random: &mut Random,
    from: &[u8],
    run: Run,
    chosen: impl Fn(&[u32]) -> Option<u32>,
) {
    let limit = random.below(30);
    let cells = random.below(30);
    let mut expected = from.to_vec();
    let mut numbers = Vec::new();
    let reason = loop {
        if numbers.len() == limit {
            break Reason::LimitReached;
        }
        if numbers.len() == cells {
            break Reason::HistoryFull;
        }
        let Some(number) = chosen(&net.enabled(&expected)) else {
            break Reason::NothingEnabled;
        };
        expected = net.fired(&expected, number);
        numbers.push(number);
    };
    let mut marking = from.to_vec();
    let mut history = vec![u32::MAX; cells];
    let answer = RunAnswer {
        reason,
        firings: numbers.len() as u64,
    };
    assert_eq!(
        run(&net.image, &mut marking, limit as u64, &mut history),
        Ok(answer)
    );
    assert_eq!(marking, expected);
    assert_eq!(history[..numbers.len()], numbers);
    assert!(history[numbers.len()..]
        .iter()
        .all(|&cell| cell == u32::MAX));
}

fn simulate(seed: u64, tables: usize, shape: Shape, most: usize) -> Met {
    let mut random = Random::new(seed);
    let mut met = Met::default();
    for _ in 0..tables {
        let net = Net::of(accepted(&mut random, shape));
        let (numbers, end) = walk(&net, &mut random, most, &mut met);
        check_replay(&net, &mut random, &numbers, &end);
        check_run(&net, &mut random, &net.initial());
        check_run(&net, &mut random, &end);
    }
    met
}

#[test]
fn small_tables_do_as_their_process() {
    let met = simulate(1, 8000, Shape::SMALL, 60);
    println!("{met:?}");
    assert!(met.firings > 30_000 && met.ended > 100);
    assert!(met.kinds.iter().all(|&count| count > 1000));
    assert!(met.private_channels > 200);
    assert!(met.longest_wait_is_b > 0 && met.longest_row_is_2b > 0);
}

#[test]
fn wide_tables_do_as_their_process() {
    let met = simulate(2, 500, Shape::WIDE, 60);
    println!("{met:?}");
    assert!(met.kinds.iter().all(|&count| count > 500));
}

#[test]
fn tables_up_to_the_bounds_do_as_their_process() {
    let met = simulate(5, 12, Shape::FULL, 20);
    println!("{met:?}");
    assert!(met.firings > 100);
}

#[test]
fn every_standing_marking_keeps_the_promises() {
    let mut random = Random::new(3);
    let mut met = Met::default();
    for _ in 0..3000 {
        let net = Net::of(accepted(&mut random, Shape::SMALL));
        for _ in 0..8 {
            let marking = standing_marking(&net, &mut random, Values::Shared);
            let state = net.read(&marking);
            check_marking(&net, &marking, &state, &mut met);
            check_run(&net, &mut random, &marking);
        }
    }
    println!("{met:?}");
    assert!(met.private_channels > 50 && met.longest_wait_is_b > 0);
}

/// A standing marking with one place flipped stands for no state: every clause ties a place to
/// another.
#[test]
fn a_flipped_place_is_seen() {
    let mut random = Random::new(4);
    for _ in 0..1500 {
        let net = Net::of(accepted(&mut random, Shape::SMALL));
        let marking = standing_marking(&net, &mut random, Values::Shared);
        let mut flipped = marking.clone();
        for place in 0..marking.len() {
            flipped[place] ^= 1;
            let mut state = vec![5; net.start().len()];
            assert_eq!(read(&net.words, &flipped, &mut state), Err(17));
            assert!(state.iter().all(|&word| word == 5));
            flipped[place] ^= 1;
        }
    }
}
