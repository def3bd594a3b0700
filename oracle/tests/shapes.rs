//! Random accepted tables: that every shape occurs, and what their images look like.

mod common;

use common::{image_of, private_count, reaches, values_in, Net};
use oracle::generate::{accepted, Shape};
use oracle::random::Random;
use oracle::table::{accept, Branch, NameKind, Node, Table};
use oracle::{build, check, size};

/// The shapes a table has.
fn shapes(table: &Table) -> Vec<(&'static str, bool)> {
    let calls: Vec<usize> = (0..table.nodes.len())
        .filter(|&node| matches!(table.nodes[node], Node::Call { .. }))
        .collect();
    let called = |node: usize| match table.nodes[node] {
        Node::Call { definition, .. } => definition,
        _ => unreachable!(),
    };
    let arguments = |node: usize| &table.arguments[table.argument_range(node)];
    let root_of = |definition: usize| table.nodes[table.definitions[definition].root];
    let entry_root =
        |wanted: fn(&Node) -> bool| table.entries.iter().any(|&entry| wanted(&root_of(entry)));
    let repeated = |node: usize| {
        let names = arguments(node);
        names
            .iter()
            .enumerate()
            .any(|(at, name)| names[..at].contains(name))
    };
    let public = |node: usize| arguments(node).iter().any(|&name| name < table.publics);
    let into_stop =
        |node: usize| root_of(called(node)) == Node::Stop && !arguments(node).is_empty();
    let mutual = calls.iter().any(|&node| {
        let (caller, definition) = (table.owners[node], called(node));
        calls
            .iter()
            .any(|&other| table.owners[other] == definition && called(other) == caller)
    });
    let on_itself = |branch: &Branch| match *branch {
        Branch::Send { channel, name, .. } => channel == name && table.is_bound(name),
        _ => false,
    };
    let channel_kind = |wanted: NameKind| {
        table.branches.iter().any(|branch| match *branch {
            Branch::Send { channel, .. } | Branch::Receive { channel, .. } => {
                table.is_bound(channel) && table.names[channel - table.publics] == wanted
            }
            Branch::Silent { .. } => false,
        })
    };
    let restricted_sent = table.branches.iter().any(|branch| match *branch {
        Branch::Send { name, .. } => table.is_restricted(name),
        _ => false,
    });
    let never_called = (0..table.definitions.len()).any(|definition| {
        !table.entries.contains(&definition) && calls.iter().all(|&node| called(node) != definition)
    });
    let out_of_order = table
        .held
        .iter()
        .any(|held| held.windows(2).any(|pair| pair[0] > pair[1]));
    let interleaved =
        (1..table.nodes.len()).any(|node| table.thread(node) < table.thread(node - 1));
    vec![
        ("formals", table.names.contains(&NameKind::Formal)),
        (
            "a repeated argument",
            calls.iter().any(|&node| repeated(node)),
        ),
        ("a public argument", calls.iter().any(|&node| public(node))),
        (
            "a call with arguments into Stop",
            calls.iter().any(|&node| into_stop(node)),
        ),
        (
            "a call that drops a name",
            calls.iter().any(|&node| !table.held[node].is_empty()),
        ),
        (
            "a call with no chain",
            calls
                .iter()
                .any(|&node| table.held[node].is_empty() && arguments(node).is_empty()),
        ),
        (
            "an entry called",
            calls
                .iter()
                .any(|&node| table.entries.contains(&called(node))),
        ),
        ("mutual calls", mutual),
        ("a definition never called", never_called),
        (
            "an entry Stop",
            entry_root(|node| matches!(node, Node::Stop)),
        ),
        (
            "an entry Choice",
            entry_root(|node| matches!(node, Node::Choice { .. })),
        ),
        (
            "an entry New",
            entry_root(|node| matches!(node, Node::New { .. })),
        ),
        (
            "an entry Call",
            entry_root(|node| matches!(node, Node::Call { .. })),
        ),
        ("no publics", table.publics == 0),
        ("no bound names", table.names.is_empty()),
        ("neither", table.publics == 0 && table.names.is_empty()),
        ("one thread", table.entries.len() == 1),
        (
            "a bound name sent on itself",
            table.branches.iter().any(on_itself),
        ),
        ("a restricted name sent", restricted_sent),
        ("an input as channel", channel_kind(NameKind::Input)),
        ("a formal as channel", channel_kind(NameKind::Formal)),
        (
            "a restricted name as channel",
            channel_kind(NameKind::Restricted),
        ),
        ("held names out of name order", out_of_order),
        ("threads' nodes interleaved", interleaved),
    ]
}

#[test]
fn every_shape_occurs() {
    let mut random = Random::new(21);
    let mut counts: Vec<(&str, usize)> = Vec::new();
    for _ in 0..4000 {
        let words = accepted(&mut random, Shape::SMALL);
        assert_eq!(check(&words), 0, "{words:?}");
        let shapes = shapes(&accept(&words).unwrap());
        if counts.is_empty() {
            counts.extend(shapes.iter().map(|&(name, _)| (name, 0)));
        }
        for ((_, count), (_, present)) in counts.iter_mut().zip(shapes) {
            *count += usize::from(present);
        }
    }
    for (name, count) in counts {
        println!("{count:5} {name}");
        assert!(count >= 20, "{name}");
    }
}

/// The order of a transition's label: by node, in a node call, copies and releases, then
/// communications by send and receive.
fn rank(net: &Net, [kind, a, b]: [u32; 3]) -> [usize; 4] {
    let table = &net.table;
    let (a, b) = (a as usize, b as usize);
    let held = |name: usize| {
        table.held[a]
            .iter()
            .position(|&other| other == name)
            .unwrap()
    };
    match kind {
        0 => [0, a, 1, b],
        1 => [0, a, 2, held(b)],
        2 | 5 => [0, a, 0, 0],
        3 => [0, table.standing[a], 0, a],
        _ => [1, a, b, 0],
    }
}

fn check_image(net: &Net) {
    let image = &net.image;
    let [places, transitions, inputs, outputs, initial] = [0, 1, 2, 3, 4].map(|at| image[at]);
    assert_eq!(image[5..8], [8, 8 + initial, 8 + initial + 6 * transitions]);
    assert_eq!(image.len() as u32, image[7] + inputs + outputs);
    let mut at = image[7];
    let mut given = [0, 0];
    let mut last = [0; 4];
    for number in 0..transitions {
        let record = &image[(image[6] + 6 * number) as usize..][..6];
        assert_eq!(record[3], at);
        at += record[4] + record[5];
        given = [given[0] + record[4], given[1] + record[5]];
        let (taken, given) = net.arcs(number);
        for list in [taken, given] {
            assert!(list.windows(2).all(|pair| pair[0] < pair[1]));
            assert!(!list.is_empty() && *list.last().unwrap() < places);
        }
        let rank = rank(net, net.label(number));
        assert!(rank >= last);
        last = rank;
    }
    assert_eq!(given, [inputs, outputs]);
    assert_eq!(image.len() as u32, at);
}

/// A place for each value of each name, [x≠n] for the private ones of an input or formal, [*≠n],
/// and the control places by node.
fn check_places(net: &Net, random: &mut Random) {
    let table = &net.table;
    let n = private_count(table);
    let sets = reaches(table, random);
    let mut tokens = n + table.entries.len();
    let mut values = n;
    for name in table.bound_names() {
        let own = values_in(table, &sets[name]);
        let private = own.iter().filter(|&&value| value >= table.publics).count();
        values += own.len();
        if !table.is_restricted(name) {
            values += private;
            tokens += private;
        }
    }
    assert_eq!(net.places.first(0), values);
    let control: usize = (0..table.nodes.len())
        .map(|node| match table.nodes[node] {
            Node::Choice { .. } | Node::New { .. } => 1,
            Node::Stop => table.held[node].len() + 1,
            Node::Call { .. } => 1 + table.argument_range(node).len() + table.held[node].len(),
        })
        .sum();
    assert_eq!(net.image[0] as usize, values + control);
    assert_eq!(net.image[4] as usize, tokens);
}

fn within_fourth_power(words: &[u16], image_words: usize) -> bool {
    let base = words.len() as u128 + u128::from(words[0]);
    image_words as u128 <= base.pow(4)
}

#[test]
fn images_are_well_formed_and_within_the_fourth_power() {
    let mut random = Random::new(22);
    for round in 0..2000 {
        let shape = if round % 10 == 0 {
            Shape::WIDE
        } else {
            Shape::SMALL
        };
        let net = Net::of(accepted(&mut random, shape));
        check_image(&net);
        check_places(&net, &mut random);
        assert!(within_fourth_power(&net.words, net.image.len()));
        let mut short = vec![5; net.image.len() - 1];
        assert_eq!(build(&net.words, &mut short), Err(10));
        assert!(short.iter().all(|&word| word == 5));
        let mut longer = vec![5; net.image.len() + 2];
        assert_eq!(build(&net.words, &mut longer), Ok(net.image.len()));
        assert_eq!(longer, [&net.image[..], &[5, 5]].concat());
    }
}

#[test]
fn tables_up_to_the_bounds_keep_the_fourth_power() {
    let mut random = Random::new(23);
    let mut largest = 0;
    for _ in 0..300 {
        let words = accepted(&mut random, Shape::FULL);
        let image_words = size(&words).unwrap();
        assert!(within_fourth_power(&words, image_words));
        largest = largest.max(image_words);
        if image_words < 2_000_000 {
            assert_eq!(image_of(&words).len(), image_words);
        }
    }
    println!("largest image: {largest} words");
}
