//! Random tables that fail by a given cause, 1 to 9: accepted ones with one thing spoilt.

use crate::generate::{accepted, Shape};
use crate::random::Random;
use crate::table::{accept_sparing, Branch, Node, Table, BOUNDS};

/// A table that document 01 refuses by `cause`, 1 to 9; one with self-calls, where the shape has
/// them, is so refused when they are spared.
pub fn damaged(random: &mut Random, shape: Shape, cause: u32) -> Vec<u16> {
    loop {
        let mut words = accepted(random, shape);
        if spoil(random, &mut words, cause, shape.self_calls) {
            return words;
        }
    }
}

/// Spoils an accepted table so that it fails by `cause`, with self-calls spared or not; false where
/// it has nothing to spoil so.
pub fn spoil(random: &mut Random, words: &mut Vec<u16>, cause: u32, spared: bool) -> bool {
    let Ok(table) = accept_sparing(words) else {
        return false;
    };
    match cause {
        1 => cut_header(random, words),
        2 => exceed_bound(random, words),
        3 => shift(random, words),
        4 => put(random, words, &malformed_fields(&table)),
        5 => put(random, words, &outside_numbers(&table)),
        6 => put(random, words, &misplaced_nodes(&table)),
        7 => put(random, words, &misbound_names(&table)),
        8 => put(random, words, &unheld_names(&table)),
        9 => put(random, words, &misdirected_calls(&table, spared)),
        _ => false,
    }
}

/// A word's place in the table and what to put there.
type Change = (usize, u16);

/// Makes one of the changes.
fn put(random: &mut Random, words: &mut [u16], changes: &[Change]) -> bool {
    match random.pick(changes) {
        Some((at, word)) => {
            words[at] = word;
            true
        }
        None => false,
    }
}

fn cut_header(random: &mut Random, words: &mut Vec<u16>) -> bool {
    words.truncate(random.below(13));
    true
}

fn exceed_bound(random: &mut Random, words: &mut [u16]) -> bool {
    let at = random.below(7);
    let (low, high) = BOUNDS[at];
    let above = [high + 1, 65535, random.between(high + 1, 65535)];
    words[at] = if low > 0 && random.chance(30) {
        0
    } else {
        above[random.below(3)] as u16
    };
    true
}

/// An offset or the length not as the counts give.
fn shift(random: &mut Random, words: &mut Vec<u16>) -> bool {
    match random.below(3) {
        0 => {
            let at = random.between(7, 12);
            words[at] ^= random.between(1, 65535) as u16;
        }
        1 => words.push(random.below(65536) as u16),
        _ => {
            words.pop();
        }
    }
    true
}

/// The place of each section's first word.
struct Offsets {
    definitions: usize,
    threads: usize,
    nodes: usize,
    branches: usize,
    arguments: usize,
}

fn offsets(table: &Table) -> Offsets {
    let definitions = 13 + table.names.len();
    let threads = definitions + 4 * table.definitions.len();
    let nodes = threads + table.entries.len();
    let branches = nodes + 3 * table.nodes.len();
    let arguments = branches + 4 * table.branches.len();
    Offsets {
        definitions,
        threads,
        nodes,
        branches,
        arguments,
    }
}

/// Cause 4.
fn malformed_fields(table: &Table) -> Vec<Change> {
    let offsets = offsets(table);
    let mut changes: Vec<Change> = Vec::new();
    changes.extend((0..table.names.len()).flat_map(|name| [(13 + name, 3), (13 + name, 65535)]));
    for (number, definition) in table.definitions.iter().enumerate() {
        if definition.formal_count == 0 {
            changes.push((
                offsets.definitions + 4 * number + 2,
                table.publics as u16 + 1,
            ));
        }
    }
    for (number, node) in table.nodes.iter().enumerate() {
        let at = offsets.nodes + 3 * number;
        changes.push((at, 4));
        match *node {
            Node::Stop => changes.extend([(at + 1, 1), (at + 2, 65535)]),
            Node::Choice { .. } => changes.push((at + 2, 0)),
            Node::Call { definition, .. } if table.definitions[definition].formal_count == 0 => {
                changes.push((at + 2, 1));
            }
            _ => {}
        }
    }
    for (number, branch) in table.branches.iter().enumerate() {
        let at = offsets.branches + 4 * number;
        changes.push((at, 3));
        if let Branch::Silent { .. } = branch {
            changes.extend([(at + 1, 1), (at + 2, 65535)]);
        }
    }
    changes
}

/// Cause 5.
fn outside_numbers(table: &Table) -> Vec<Change> {
    let offsets = offsets(table);
    let names = table.name_count() as u16;
    let nodes = table.nodes.len() as u16;
    let definitions = table.definitions.len() as u16;
    let mut changes: Vec<Change> = Vec::new();
    for (number, definition) in table.definitions.iter().enumerate() {
        let at = offsets.definitions + 4 * number;
        changes.extend([(at, table.entries.len() as u16), (at + 1, nodes)]);
        if definition.formal_count > 0 {
            changes.extend([(at + 2, names), (at + 2, 65535), (at + 3, 65535)]);
            changes.extend((table.publics > 0).then_some((at + 2, 0)));
        }
    }
    changes.extend((0..table.entries.len()).map(|thread| (offsets.threads + thread, definitions)));
    for (number, node) in table.nodes.iter().enumerate() {
        let at = offsets.nodes + 3 * number;
        match *node {
            Node::Stop => {}
            Node::Choice { .. } => changes.extend([(at + 1, 65535), (at + 2, 65535)]),
            Node::New { .. } => {
                changes.extend([(at + 1, names), (at + 2, nodes)]);
                changes.extend((table.publics > 0).then(|| (at + 1, table.publics as u16 - 1)));
            }
            Node::Call { .. } => {
                changes.extend([(at + 1, definitions), (at + 1, 65535)]);
                changes
                    .extend((!table.argument_range(number).is_empty()).then_some((at + 2, 65535)));
            }
        }
    }
    for (number, branch) in table.branches.iter().enumerate() {
        let at = offsets.branches + 4 * number;
        changes.push((at + 3, nodes));
        match branch {
            Branch::Silent { .. } => {}
            Branch::Send { .. } => changes.extend([(at + 1, names), (at + 2, 65535)]),
            Branch::Receive { .. } => {
                changes.extend([(at + 1, 65535), (at + 2, names)]);
                changes.extend((table.publics > 0).then_some((at + 2, 0)));
            }
        }
    }
    changes.extend((0..table.arguments.len()).map(|at| (offsets.arguments + at, names)));
    changes
}

/// Cause 6: a root, child or next node becomes another node of the table; a first branch or
/// argument moves down.
fn misplaced_nodes(table: &Table) -> Vec<Change> {
    let offsets = offsets(table);
    let mut places: Vec<(usize, usize)> = Vec::new();
    for (number, definition) in table.definitions.iter().enumerate() {
        places.push((offsets.definitions + 4 * number + 1, definition.root));
    }
    let mut changes: Vec<Change> = Vec::new();
    for (number, node) in table.nodes.iter().enumerate() {
        let at = offsets.nodes + 3 * number;
        match *node {
            Node::New { child, .. } => places.push((at + 2, child)),
            Node::Choice { first, .. } if first > 0 => changes.push((at + 1, first as u16 - 1)),
            Node::Choice { count, .. } if count > 1 => changes.push((at + 2, count as u16 - 1)),
            Node::Call { first_argument, .. } if first_argument > 0 => {
                changes.push((at + 2, first_argument as u16 - 1));
            }
            _ => {}
        }
    }
    for (number, branch) in table.branches.iter().enumerate() {
        places.push((offsets.branches + 4 * number + 3, branch.next()));
    }
    for (at, node) in places {
        let others = (0..table.nodes.len()).filter(|&other| other != node);
        changes.extend(others.map(|other| (at, other as u16)));
    }
    changes
}

/// Cause 7: a kind changes, or a New or receive binds another bound name.
fn misbound_names(table: &Table) -> Vec<Change> {
    let offsets = offsets(table);
    let mut changes: Vec<Change> = Vec::new();
    for (at, &kind) in table.names.iter().enumerate() {
        let kinds = (0..3).filter(|&other| other != kind as u16);
        changes.extend(kinds.map(|other| (13 + at, other)));
    }
    let mut rebind = |at: usize, name: usize| {
        let others = table.bound_names().filter(|&other| other != name);
        changes.extend(others.map(|other| (at, other as u16)));
    };
    for (number, node) in table.nodes.iter().enumerate() {
        if let Node::New { name, .. } = *node {
            rebind(offsets.nodes + 3 * number + 1, name);
        }
    }
    for (number, branch) in table.branches.iter().enumerate() {
        if let Branch::Receive { name, .. } = *branch {
            rebind(offsets.branches + 4 * number + 2, name);
        }
    }
    changes
}

/// Cause 8: a use becomes a bound name that the node does not hold.
fn unheld_names(table: &Table) -> Vec<Change> {
    let offsets = offsets(table);
    let mut changes: Vec<Change> = Vec::new();
    for node in 0..table.nodes.len() {
        let mut uses: Vec<usize> = table
            .argument_range(node)
            .map(|argument| offsets.arguments + argument)
            .collect();
        for branch in table.branch_range(node) {
            let at = offsets.branches + 4 * branch;
            match table.branches[branch] {
                Branch::Silent { .. } => {}
                Branch::Send { .. } => uses.extend([at + 1, at + 2]),
                Branch::Receive { .. } => uses.push(at + 1),
            }
        }
        let unheld = |name: &usize| !table.held[node].contains(name);
        for at in uses {
            changes.extend(
                table
                    .bound_names()
                    .filter(unheld)
                    .map(|name| (at, name as u16)),
            );
        }
    }
    changes
}

/// Cause 9: an entry becomes a definition of another thread or with formals; a call is aimed at
/// its own definition, unless that is spared, or into another thread, with as many formals.
fn misdirected_calls(table: &Table, spared: bool) -> Vec<Change> {
    let offsets = offsets(table);
    let mut changes: Vec<Change> = Vec::new();
    for thread in 0..table.entries.len() {
        for (number, definition) in table.definitions.iter().enumerate() {
            if definition.thread != thread || definition.formal_count > 0 {
                changes.push((offsets.threads + thread, number as u16));
            }
        }
    }
    for (number, node) in table.nodes.iter().enumerate() {
        if let Node::Call { definition, .. } = *node {
            let formals = table.definitions[definition].formal_count;
            for (other, called) in table.definitions.iter().enumerate() {
                let itself = other == table.owners[number] && !spared;
                let barred = itself || called.thread != table.thread(number);
                if barred && called.formal_count == formals {
                    changes.push((offsets.nodes + 3 * number + 1, other as u16));
                }
            }
        }
    }
    changes
}
