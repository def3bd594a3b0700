//! What a table is like.

use crate::places::{names_at, Places};
use crate::reach::Reach;
use crate::table::{Branch, Node, Table};

/// The names of the shapes.
pub const SHAPES: [&str; 15] = [
    "P = 0",
    "B = 0",
    "one thread",
    "formals",
    "repeated arguments",
    "public arguments",
    "call of formals into a Stop body",
    "call without formals",
    "entry at Stop",
    "entry at Choice",
    "entry at New",
    "entry at Call",
    "bound name sent on itself",
    "public name sent on itself",
    "definition never called",
];

/// The names of the shapes that a table has by its private values.
pub const VALUE_SHAPES: [&str; 7] = [
    "N = 0 beside bound names",
    "no values beside bound names",
    "N below B",
    "N = B",
    "N set by a definition never called",
    "N set by a Call's chain",
    "N set by a Stop's chain",
];

/// The names of the shapes that a table has by the reach of its names.
pub const REACH_SHAPES: [&str; 8] = [
    "a bound name that nothing reaches",
    "a reach of some publics",
    "a reach of some publics and private values",
    "a reach of private values alone of an input or formal",
    "private channels without a restricted name in common",
    "a reach that grows in a second round",
    "a name sent within its thread alone",
    "a channel that is received or handed on",
];

/// The shapes that an accepted table has by the reach of its names.
pub fn reach_shapes(table: &Table) -> Vec<&'static str> {
    let places = Places::of(table);
    let reach = Reach::least(table);
    let others = || {
        table
            .inputs_and_formals()
            .map(|name| places.values_of(name))
    };
    let count = table.branches.len();
    let pairs = || (0..count).flat_map(move |send| (0..count).map(move |receive| (send, receive)));
    let across = || pairs().filter_map(|(send, receive)| table.pair(send, receive));
    let within = || {
        pairs().filter_map(|(send, receive)| {
            match (table.branches[send], table.branches[receive]) {
                (
                    Branch::Send { channel, name, .. },
                    Branch::Receive {
                        channel: receiving,
                        name: received,
                        ..
                    },
                ) => Some((channel, name, receiving, received)),
                _ => None,
            }
        })
    };
    let is_other = |name: usize| table.is_bound(name) && !table.is_restricted(name);
    let private = |name: usize| places.values_of(name).private_count() > 0;
    let found = [
        others().any(|values| values.is_empty()),
        others().any(|values| {
            (1..table.publics).contains(&values.public_count()) && values.private_count() == 0
        }),
        others().any(|values| {
            (1..table.publics).contains(&values.public_count()) && values.private_count() > 0
        }),
        others().any(|values| values.public_count() == 0 && values.private_count() > 0),
        across().any(|pair| {
            private(pair.sending)
                && private(pair.receiving)
                && places.common(pair.sending, pair.receiving).private_count() == 0
        }),
        !Reach::after_a_round(table).is_closed(table),
        within().any(|(sending, sent, receiving, received)| {
            reach.overlap(sending, receiving) && !reach.within(sent, received)
        }),
        across()
            .any(|pair| is_other(pair.receiving) && reach.overlap(pair.sending, pair.receiving)),
    ];
    let shapes = REACH_SHAPES.into_iter().zip(found);
    shapes
        .filter(|&(_, has)| has)
        .map(|(shape, _)| shape)
        .collect()
}

/// The shapes that an accepted table has by its private values.
pub fn value_shapes(table: &Table) -> Vec<&'static str> {
    let places = Places::of(table);
    let (bound, privates) = (table.names.len(), places.private_values().len());
    let is_called = |definition: usize| {
        let calls = |node: &Node| match *node {
            Node::Call {
                definition: called, ..
            } => called == definition,
            _ => false,
        };
        table.entries.contains(&definition) || table.nodes.iter().any(calls)
    };
    // Whether in some thread more names are held at a place as wanted than at any other.
    let set_by = |wanted: &dyn Fn(usize, usize) -> bool| {
        let mut most = vec![[0, 0]; table.entries.len()];
        for node in 0..table.nodes.len() {
            for position in 0..places.of_node(table, node).len() {
                let held = names_at(table, node, position).count();
                let side = usize::from(wanted(node, position));
                let largest = &mut most[table.thread(node)][side];
                *largest = held.max(*largest);
            }
        }
        privates > 0 && most.iter().any(|[others, wanted]| wanted > others)
    };
    let found = [
        bound > 0 && privates == 0,
        bound > 0 && places.values().is_empty(),
        0 < privates && privates < bound,
        0 < privates && privates == bound,
        set_by(&|node, _| !is_called(table.owners[node])),
        set_by(&|node, position| matches!(table.nodes[node], Node::Call { .. }) && position > 0),
        set_by(&|node, _| table.nodes[node] == Node::Stop),
    ];
    let shapes = VALUE_SHAPES.into_iter().zip(found);
    shapes
        .filter(|&(_, has)| has)
        .map(|(shape, _)| shape)
        .collect()
}

/// The shapes of an accepted table.
pub fn shapes(table: &Table) -> Vec<&'static str> {
    let root = |definition: usize| table.nodes[table.definitions[definition].root];
    let any_call = |wanted: &dyn Fn(usize, &[usize]) -> bool| {
        (0..table.nodes.len()).any(|node| match table.nodes[node] {
            Node::Call { definition, .. } => {
                wanted(definition, &table.arguments[table.argument_range(node)])
            }
            _ => false,
        })
    };
    let entry =
        |wanted: &dyn Fn(Node) -> bool| table.entries.iter().any(|&entry| wanted(root(entry)));
    let repeats = |names: &[usize]| (1..names.len()).any(|at| names[..at].contains(&names[at]));
    let on_itself = |bound: bool| {
        table.branches.iter().any(|branch| match *branch {
            Branch::Send { channel, name, .. } => channel == name && table.is_bound(name) == bound,
            _ => false,
        })
    };
    let never_called = (0..table.definitions.len()).any(|definition| {
        !table.entries.contains(&definition) && !any_call(&|called, _| called == definition)
    });
    let found = [
        ("P = 0", table.publics == 0),
        ("B = 0", table.names.is_empty()),
        ("one thread", table.entries.len() == 1),
        (
            "formals",
            table.definitions.iter().any(|d| d.formal_count > 0),
        ),
        ("repeated arguments", any_call(&|_, names| repeats(names))),
        (
            "public arguments",
            any_call(&|_, names| names.iter().any(|&name| name < table.publics)),
        ),
        (
            "call of formals into a Stop body",
            any_call(&|called, names| root(called) == Node::Stop && !names.is_empty()),
        ),
        (
            "call without formals",
            any_call(&|_, names| names.is_empty()),
        ),
        ("entry at Stop", entry(&|node| node == Node::Stop)),
        (
            "entry at Choice",
            entry(&|node| matches!(node, Node::Choice { .. })),
        ),
        (
            "entry at New",
            entry(&|node| matches!(node, Node::New { .. })),
        ),
        (
            "entry at Call",
            entry(&|node| matches!(node, Node::Call { .. })),
        ),
        ("bound name sent on itself", on_itself(true)),
        ("public name sent on itself", on_itself(false)),
        ("definition never called", never_called),
    ];
    found
        .into_iter()
        .filter(|&(_, has)| has)
        .map(|(shape, _)| shape)
        .collect()
}
