//! Document 02, item 3: how many private values there are, and that a New always finds a free one.

mod common;

use common::{held_at, image_of, private_count, standing_marking, Net, Values, E};
use oracle::generate::{accepted, encode, Shape};
use oracle::places::{names_at, Places};
use oracle::random::Random;
use oracle::table::{accept, NameKind, Node, Table};
use oracle::{listing, open_steps, read, size};

/// N of an accepted table.
fn n_of(words: &[u16]) -> usize {
    Places::of(&accept(words).unwrap()).private_values().len()
}

fn listing_of(words: &[u16]) -> String {
    let bytes: Vec<u8> = words.iter().flat_map(|word| word.to_le_bytes()).collect();
    listing(&bytes)
}

fn has_restricted(table: &Table) -> bool {
    table.names.contains(&NameKind::Restricted)
}

/// "Table E keeps N = 2".
#[test]
fn table_e_keeps_two_values() {
    assert_eq!(n_of(&E), 2);
}

/// K := ν r.L, L := ν s.K, without publics: two names, never held together.
fn taking_turns() -> Vec<u16> {
    encode(
        0,
        [
            vec![0, 0],
            vec![0, 0, 0, 0, 0, 1, 0, 0],
            vec![0],
            vec![2, 0, 2, 2, 1, 3, 3, 1, 0, 3, 0, 0],
            vec![],
            vec![],
        ],
    )
}

#[test]
fn names_never_held_together_share_a_value() {
    let words = taking_turns();
    assert_eq!(n_of(&words), 1);
    // Rows 0 and 1, [*≠n] 2, control by node: 3; 4; 5 6; 7 8.
    let text = "\
9 6 10 10 2
0 2 0 0 : 2 3 > 0 5
1 2 1 1 : 2 4 > 1 7
2 5 2 0 : 5 > 6
3 1 2 0 : 0 6 > 2 4
4 5 3 0 : 7 > 8
5 1 3 1 : 1 8 > 2 3
";
    assert_eq!(listing_of(&words), text);
    let net = Net::of(words.clone());
    assert_eq!(net.image[8..10], [2, 3]);
    let mut marking = net.initial();
    for number in [0, 2, 3, 1, 4, 5, 0] {
        marking = net.fired(&marking, number);
    }
    assert_eq!(net.read(&marking), [2, 0, 65535]);
    // A marking of the length that two values would give is none.
    assert_eq!(read(&words, &[0; 12], &mut [0; 3]), Err(13));
}

/// p(x).x⟨x⟩.0 beside p⟨p⟩.0: no restricted name.
fn without_restricted() -> Vec<u16> {
    encode(
        1,
        [
            vec![1],
            vec![0, 0, 0, 0, 1, 3, 0, 0],
            vec![0, 1],
            vec![1, 0, 1, 1, 1, 1, 0, 0, 0, 1, 2, 1, 0, 0, 0],
            vec![2, 0, 1, 1, 1, 1, 1, 2, 1, 0, 0, 4],
            vec![],
        ],
    )
}

#[test]
fn without_restricted_names_there_are_no_private_values() {
    let words = without_restricted();
    assert_eq!(n_of(&words), 0);
    // [x=p] is 0, control by node: 1; 2; 3 4; 5; 6.
    let text = "\
7 2 4 4 2
0 1 2 1 : 0 3 > 4
1 4 2 0 : 1 5 > 0 2 6
";
    assert_eq!(listing_of(&words), text);
    assert_eq!(image_of(&words)[8..10], [1, 5]);
    // State words are as they were: a private value below P + B is well formed.
    assert_eq!(open_steps(&words, &[1, 4, 0], &mut [0; 9]), Ok(0));
    assert_eq!(open_steps(&words, &[1, 4, 1], &mut [0; 9]), Ok(0));
    assert_eq!(open_steps(&words, &[1, 4, 2], &mut [0; 9]), Err(18));
}

/// ν r.….K(r, …) with K(f, …) := τ.0.
#[test]
fn a_call_holds_its_names_and_the_copied_formals() {
    let call = |names: &[u16], nodes: &[u16], branches: &[u16], arguments: &[u16]| {
        let restricted = names.iter().filter(|&&kind| kind == 0).count() as u16;
        let formals = names.len() as u16 - restricted;
        let root = restricted + 1;
        let first = if formals == 0 { 0 } else { 1 + restricted };
        let definitions = vec![0, 0, 0, 0, 0, root, first, formals];
        let sections = [names, &definitions, &[0], nodes, branches, arguments];
        n_of(&encode(1, sections.map(<[u16]>::to_vec)))
    };
    // ν r.K(r, p): r, f and g at the first release place.
    let nodes = [2, 1, 1, 3, 1, 0, 1, 0, 1, 0, 0, 0];
    assert_eq!(call(&[0, 2, 2], &nodes, &[0, 0, 0, 3], &[1, 0]), 3);
    // ν r.ν s.K with K := τ.0: r and s at the Call.
    let nodes = [2, 1, 1, 2, 2, 2, 3, 1, 0, 1, 0, 1, 0, 0, 0];
    assert_eq!(call(&[0, 0], &nodes, &[0, 0, 0, 4], &[]), 2);
    // ν r.ν s.K(r): r, s and f.
    assert_eq!(call(&[0, 0, 2], &nodes, &[0, 0, 0, 4], &[1]), 3);
}

/// ν r.0, beside ν s.ν t.0 that is never called; then the second in a thread of its own.
#[test]
fn definitions_never_called_count_and_threads_add_up() {
    let table = |thread: u16, entries: &[u16]| {
        let definitions = vec![0, 0, 0, 0, thread, 2, 0, 0];
        let nodes = vec![2, 0, 1, 0, 0, 0, 2, 1, 3, 2, 2, 4, 0, 0, 0];
        let sections = [vec![0; 3], definitions, entries.to_vec(), nodes];
        let [names, definitions, entries, nodes] = sections;
        encode(0, [names, definitions, entries, nodes, vec![], vec![]])
    };
    assert_eq!(n_of(&table(0, &[0])), 2);
    assert_eq!(n_of(&table(1, &[0, 1])), 3);
}

/// Random tables, small ones and some up to the bounds.
fn random_tables(seed: u64) -> impl Iterator<Item = (Vec<u16>, Table)> {
    let mut random = Random::new(seed);
    let shapes = [(Shape::SMALL, 3000), (Shape::WIDE, 600), (Shape::FULL, 150)];
    let shapes = shapes
        .into_iter()
        .flat_map(|(shape, count)| vec![shape; count]);
    shapes.map(move |shape| {
        let words = accepted(&mut random, shape);
        let table = accept(&words).unwrap();
        (words, table)
    })
}

#[test]
fn private_values_are_counted() {
    let (mut none, mut fewer) = (0, 0);
    for (_, table) in random_tables(81) {
        let places = Places::of(&table);
        let (n, b) = (places.private_values().len(), table.names.len());
        assert_eq!(n, private_count(&table));
        assert!(n <= b && (n == 0) != has_restricted(&table));
        for node in 0..table.nodes.len() {
            for position in 0..places.of_node(&table, node).len() {
                let names: Vec<usize> = names_at(&table, node, position).collect();
                assert_eq!(names, held_at(&table, node, position));
            }
        }
        none += usize::from(n == 0 && b > 0);
        fewer += usize::from(0 < n && n < b);
    }
    println!("{none} with no private value, {fewer} with fewer than bound names");
    assert!(none > 300 && fewer > 1000);
}

#[test]
fn tables_without_restricted_names_have_no_rows_for_private_values() {
    let mut met = 0;
    for (words, table) in random_tables(82) {
        if has_restricted(&table) || size(&words).unwrap() > 100_000 {
            continue;
        }
        let net = Net::of(words);
        let public = |name: usize| net.places.values_of(name).public_count();
        let rows = table.bound_names().map(public).sum();
        assert_eq!(net.places.first(0), rows);
        // Only control places are marked at first, and no transition has the label of a New.
        assert_eq!(net.initial()[..rows], vec![0; rows]);
        assert_eq!(net.image[4] as usize, table.entries.len());
        assert!((0..net.image[1]).all(|number| net.label(number)[0] != 2));
        met += usize::from(!table.names.is_empty());
    }
    println!("{met} tables");
    assert!(met > 200);
}

/// What was met: threads at a New, and those of them that had just one value to take.
#[derive(Debug, Default)]
struct Met {
    news: usize,
    last_value: usize,
}

/// Every thread at a New has an enabled transition with that New's label, whose value is then used
/// by no other name.
fn check_news(net: &Net, marking: &[u8], met: &mut Met) {
    for (node, kind) in net.table.nodes.iter().enumerate() {
        let Node::New { name, .. } = *kind else {
            continue;
        };
        if marking[net.places.first(node)] == 0 {
            continue;
        }
        let label = [2, node as u32, name as u32];
        let open = |&number: &u32| net.label(number) == label && net.is_enabled(marking, number);
        let enabled: Vec<u32> = (0..net.image[1]).filter(open).collect();
        assert!(!enabled.is_empty(), "no free value: {:?}", net.words);
        met.news += 1;
        met.last_value += usize::from(enabled.len() == 1);
        for &number in &enabled {
            let after = net.fired(marking, number);
            let holding = |value| holders(net, &after, value);
            let taken = |&value: &usize| holding(value).contains(&name);
            let value = net.places.private_values().find(taken).unwrap();
            assert_eq!(holding(value), [name]);
        }
    }
}

/// The bound names that have a value.
fn holders(net: &Net, marking: &[u8], value: usize) -> Vec<usize> {
    let (table, places) = (&net.table, &net.places);
    let has = |&name: &usize| {
        places.values_of(name).contains(value) && marking[places.equal(name, value)] == 1
    };
    table.bound_names().filter(has).collect()
}

#[test]
fn a_new_finds_a_value_wherever_a_walk_leads() {
    let mut random = Random::new(83);
    let mut met = Met::default();
    for (shape, tables) in [(Shape::SMALL, 4000), (Shape::WIDE, 150)] {
        for _ in 0..tables {
            let net = Net::of(accepted(&mut random, shape));
            let mut marking = net.initial();
            for _ in 0..60 {
                check_news(&net, &marking, &mut met);
                let Some(number) = random.pick(&net.enabled(&marking)) else {
                    break;
                };
                marking = net.fired(&marking, number);
            }
        }
    }
    println!("{met:?}");
    assert!(met.news > 4000 && met.last_value > 150);
}

/// "In any marking that stands for a state, a thread at a New must find a free value, whoever acted
/// before."
#[test]
fn a_new_finds_a_value_in_every_standing_marking() {
    let mut random = Random::new(84);
    let mut met = Met::default();
    for (shape, tables) in [(Shape::SMALL, 4000), (Shape::WIDE, 150)] {
        for _ in 0..tables {
            let net = Net::of(accepted(&mut random, shape));
            for how in [Values::Apart, Values::Any, Values::Shared] {
                let marking = standing_marking(&net, &mut random, how);
                net.read(&marking);
                check_news(&net, &marking, &mut met);
            }
        }
    }
    println!("{met:?}");
    assert!(met.news > 400 && met.last_value > 20);
}
