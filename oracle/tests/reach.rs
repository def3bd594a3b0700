//! Document 02, item 4: the least reach of each name, the places that it leaves, and that every
//! step of the scheme is still found.

mod common;

use common::{image_of, initial_of, reaches, values_in, Net, E};
use oracle::generate::{accepted, Shape};
use oracle::places::Places;
use oracle::random::Random;
use oracle::reach::Reach;
use oracle::table::{accept, Table};
use oracle::vectors::reaching;
use oracle::{build, listing, run, size, Reason, RunAnswer};

/// The names in each name's reach.
fn reach_of(words: &[u16]) -> Vec<Vec<usize>> {
    let table = accept(words).unwrap();
    let reach = Reach::least(&table);
    let names = 0..table.name_count();
    let in_reach = |name| {
        names
            .clone()
            .filter(|&other| reach.reaches(name, other))
            .collect()
    };
    names.clone().map(in_reach).collect()
}

fn listing_of(words: &[u16]) -> String {
    let bytes: Vec<u8> = words.iter().flat_map(|word| word.to_le_bytes()).collect();
    listing(&bytes)
}

/// "E loses [x=p] and one release: 15 places, 8 transitions, 106 words, and document 01's run
/// becomes 0 6 2 4."
#[test]
fn table_e_has_its_figures() {
    assert_eq!(reach_of(&E), [vec![0], vec![1], vec![1]]);
    let image = image_of(&E);
    assert_eq!(image[..5], [15, 8, 22, 22, 6]);
    assert_eq!(size(&E), Ok(106));
    assert_eq!(build(&E, &mut [0; 106]), Ok(106));
    assert_eq!(build(&E, &mut [0; 105]), Err(10));
    let mut marking = initial_of(&image);
    let mut history = [9; 5];
    let answer = RunAnswer {
        reason: Reason::NothingEnabled,
        firings: 4,
    };
    assert_eq!(run(&image, &mut marking, 5, &mut history), Ok(answer));
    assert_eq!(history, [0, 6, 2, 4, 9]);
}

/// p(x).x(y).0 beside ν r.p⟨r⟩.r⟨q⟩.0: p, q, x, y, r are 0 to 4.
#[test]
fn a_channel_is_reached_before_what_is_sent_on_it() {
    let [words, ..] = reaching();
    let reach = [vec![0], vec![1], vec![4], vec![1], vec![4]];
    assert_eq!(reach_of(&words), reach);
    // N = 3. Rows: x 0–2 and 3–5, y 6, r 7–9, [*≠n] 10–12. Control by node: 13; 14; 15 16 17; 18;
    // 19; 20; 21 22.
    let text = "\
23 16 47 49 8
0 1 2 2 : 0 15 > 3 16
1 1 2 2 : 1 15 > 4 16
2 1 2 2 : 2 15 > 5 16
3 1 2 3 : 6 16 > 17
4 2 3 4 : 3 10 18 > 3 7 19
5 2 3 4 : 4 11 18 > 4 8 19
6 2 3 4 : 5 12 18 > 5 9 19
7 1 6 4 : 7 21 > 10 22
8 1 6 4 : 8 21 > 11 22
9 1 6 4 : 9 21 > 12 22
10 4 2 0 : 3 7 13 19 > 0 7 14 20
11 4 2 0 : 4 8 13 19 > 1 8 14 20
12 4 2 0 : 5 9 13 19 > 2 9 14 20
13 4 3 1 : 0 7 14 20 > 0 6 7 15 21
14 4 3 1 : 1 8 14 20 > 1 6 8 15 21
15 4 3 1 : 2 9 14 20 > 2 6 9 15 21
";
    assert_eq!(listing_of(&words), text);
}

/// ν r.r(x).0 beside ν s.s⟨s⟩.0: r, x, s are 0 to 2. Both channels are private, and never one
/// value.
#[test]
fn channels_without_a_restricted_name_in_common_never_meet() {
    let [_, words, ..] = reaching();
    assert_eq!(reach_of(&words), [vec![0], vec![], vec![2]]);
    // N = 3. Rows: r 0–2, x none, s 3–5, [*≠n] 6–8. Control by node: 9; 10; 11 12 13; 14; 15; 16
    // 17. New reads no row, and x is never released.
    let text = "\
18 12 24 24 5
0 2 0 0 : 6 9 > 0 10
1 2 0 0 : 7 9 > 1 10
2 2 0 0 : 8 9 > 2 10
3 1 2 0 : 0 11 > 6 12
4 1 2 0 : 1 11 > 7 12
5 1 2 0 : 2 11 > 8 12
6 2 3 2 : 6 14 > 3 15
7 2 3 2 : 7 14 > 4 15
8 2 3 2 : 8 14 > 5 15
9 1 5 2 : 3 16 > 6 17
10 1 5 2 : 4 16 > 7 17
11 1 5 2 : 5 16 > 8 17
";
    assert_eq!(listing_of(&words), text);
}

/// p⟨q⟩.0 + p(x).0 beside p⟨p⟩.p(y).0: p, q, x, y are 0 to 3.
#[test]
fn a_thread_does_not_speak_to_itself() {
    let [_, _, words, ..] = reaching();
    assert_eq!(reach_of(&words), [vec![0], vec![1], vec![0], vec![1]]);
}

/// ν r.(τ.K(r, p) + τ.K(q, p)), K(f, g) := f⟨g⟩.0, beside q(x).0: p, q, r, f, g, x are 0 to 5.
#[test]
fn a_formal_takes_in_every_argument() {
    let [_, _, _, words, _] = reaching();
    let reach = [vec![0], vec![1], vec![2], vec![1, 2], vec![0], vec![0]];
    assert_eq!(reach_of(&words), reach);
    // N = 4. Rows: r 0–3, f 4–8 and 9–12 with [f=q] first, g 13, x 14.
    let places = Places::of(&accept(&words).unwrap());
    let (r, f, g, x, free) = (2, 3, 4, 5, 15);
    assert_eq!([2, 5].map(|value| places.equal(r, value)), [0, 3]);
    assert_eq!([1, 2, 5].map(|value| places.equal(f, value)), [4, 5, 8]);
    assert_eq!([2, 5].map(|value| places.unequal(f, value)), [9, 12]);
    assert_eq!([places.equal(g, 0), places.equal(x, 0)], [13, 14]);
    assert_eq!([places.free(2), places.first(0)], [free, free + 4]);
}

fn random_tables(seed: u64) -> impl Iterator<Item = Table> {
    let mut random = Random::new(seed);
    let shapes = [(Shape::SMALL, 2000), (Shape::WIDE, 150), (Shape::FULL, 20)];
    let shapes = shapes
        .into_iter()
        .flat_map(|(shape, count)| vec![shape; count]);
    shapes.map(move |shape| accept(&accepted(&mut random, shape)).unwrap())
}

/// The reach is closed, and the one that the rules give in any order; by itself it adds nothing.
#[test]
fn the_reach_is_the_least_one() {
    let mut random = Random::new(41);
    let (mut late, mut empty) = (0, 0);
    for table in random_tables(42) {
        let reach = Reach::least(&table);
        assert!(reach.is_closed(&table));
        let sets = reaches(&table, &mut random);
        for (name, set) in sets.iter().enumerate() {
            let names = (0..table.name_count()).filter(|&other| reach.reaches(name, other));
            assert!(names.eq(set.iter().copied()));
            empty += usize::from(set.is_empty());
        }
        late += usize::from(!Reach::after_a_round(&table).is_closed(&table));
    }
    println!("{late} grow in a second round, {empty} names that nothing reaches");
    assert!(late > 100 && empty > 300);
}

/// The rows and, last, [*≠n] fill the numbers below the first control place: no gap, no overlap,
/// and each value of a name at its place.
#[test]
fn rows_fill_the_numbers_below_the_control_places() {
    let mut random = Random::new(43);
    for table in random_tables(44) {
        let places = Places::of(&table);
        let sets = reaches(&table, &mut random);
        let mut next = 0;
        for name in table.bound_names() {
            let own = values_in(&table, &sets[name]);
            for &value in &own {
                assert_eq!(places.equal(name, value), next);
                next += 1;
            }
            if !table.is_restricted(name) {
                for &value in own.iter().filter(|&&value| value >= table.publics) {
                    assert_eq!(places.unequal(name, value), next);
                    next += 1;
                }
            }
        }
        for value in places.private_values() {
            assert_eq!(places.free(value), next);
            next += 1;
        }
        assert_eq!(places.first(0), next);
    }
}

/// Whatever value a name comes to have is in its reach, by the origin that a private value has:
/// walks by the labels of the plain process, in which each New makes a value of its own.
#[test]
fn what_arrives_is_reached() {
    let mut random = Random::new(45);
    let (mut met, mut private) = (0, 0);
    for _ in 0..1500 {
        let net = Net::of(accepted(&mut random, Shape::SMALL));
        let table = &net.table;
        let reach = Reach::least(table);
        let mut state = oracle::process::State::starting(table);
        // Who made each private value, by its number in the state.
        let mut origins = std::collections::HashMap::new();
        for _ in 0..40 {
            let Some(label) = random.pick(&state.open_labels(table)) else {
                break;
            };
            let next = state.stepped(table, label).unwrap();
            if let [2, _, made] = label.map(|word| word as usize) {
                origins.extend(next.value(table, made).map(|value| (value, made)));
            }
            for name in table.bound_names() {
                if let Some(value) = next.value(table, name) {
                    let origin = match value < table.publics {
                        true => value,
                        false => origins[&value],
                    };
                    assert!(reach.reaches(name, origin));
                    met += 1;
                    private += usize::from(value >= table.publics);
                }
            }
            state = next;
        }
    }
    println!("{met} values, {private} of them private");
    assert!(met > 10_000 && private > 3000);
}
