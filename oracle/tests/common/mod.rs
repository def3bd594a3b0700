//! What the tests over random tables share.
#![allow(dead_code)]

use std::collections::{BTreeSet, HashMap};

use oracle::places::Places;
use oracle::random::Random;
use oracle::reach::Reach;
use oracle::table::{accept, NameKind, Node, Table};
use oracle::{build, fire, open_steps, read, replay, size, start, step};

pub type Label = [u32; 3];

/// Document 01's table E.
pub const E: [u16; 48] = [
    1, 2, 2, 2, 5, 2, 0, 13, 15, 23, 25, 40, 48, 0, 1, 0, 0, 0, 0, 1, 3, 0, 0, 0, 1, 2, 1, 1, 1, 0,
    1, 0, 0, 0, 1, 1, 1, 0, 0, 0, 1, 0, 1, 2, 2, 0, 2, 4,
];

/// An accepted table with its image, and its transitions by label.
pub struct Net {
    pub words: Vec<u16>,
    pub table: Table,
    pub places: Places,
    pub image: Vec<u32>,
    by_label: HashMap<Label, Vec<u32>>,
    /// Bookkeeping transitions by thread.
    bookkeeping: Vec<Vec<u32>>,
}

impl Net {
    pub fn of(words: Vec<u16>) -> Net {
        let table = accept(&words).unwrap();
        let places = Places::of(&table);
        let image = image_of(&words);
        let mut net = Net {
            bookkeeping: vec![Vec::new(); table.entries.len()],
            words,
            table,
            places,
            image,
            by_label: HashMap::new(),
        };
        for number in 0..net.image[1] {
            let label = net.label(number);
            net.by_label.entry(label).or_default().push(number);
            if is_bookkeeping(label) {
                net.bookkeeping[net.table.thread(label[1] as usize)].push(number);
            }
        }
        net
    }

    /// B.
    pub fn bound(&self) -> usize {
        self.table.names.len()
    }

    fn record(&self, number: u32) -> &[u32] {
        &self.image[(self.image[6] + 6 * number) as usize..][..6]
    }

    pub fn label(&self, number: u32) -> Label {
        let record = self.record(number);
        [record[0], record[1], record[2]]
    }

    pub fn arcs(&self, number: u32) -> (&[u32], &[u32]) {
        let record = self.record(number);
        let (start, inputs, outputs) = (record[3] as usize, record[4] as usize, record[5] as usize);
        self.image[start..start + inputs + outputs].split_at(inputs)
    }

    pub fn is_enabled(&self, marking: &[u8], number: u32) -> bool {
        self.arcs(number)
            .0
            .iter()
            .all(|&place| marking[place as usize] == 1)
    }

    pub fn enabled(&self, marking: &[u8]) -> Vec<u32> {
        (0..self.image[1])
            .filter(|&number| self.is_enabled(marking, number))
            .collect()
    }

    pub fn initial(&self) -> Vec<u8> {
        initial_of(&self.image)
    }

    pub fn fired(&self, marking: &[u8], number: u32) -> Vec<u8> {
        let mut marking = marking.to_vec();
        assert_eq!(fire(&self.image, &mut marking, number), Ok(()));
        marking
    }

    fn state_words(&self) -> usize {
        self.table.entries.len() + self.bound()
    }

    pub fn read(&self, marking: &[u8]) -> Vec<u16> {
        let mut state = vec![0; self.state_words()];
        assert_eq!(read(&self.words, marking, &mut state), Ok(state.len()));
        state
    }

    pub fn start(&self) -> Vec<u16> {
        let mut state = vec![0; self.state_words()];
        assert_eq!(start(&self.words, &mut state), Ok(state.len()));
        state
    }

    pub fn step(&self, state: &[u16], [kind, a, b]: Label) -> Vec<u16> {
        let mut next = vec![0; self.state_words()];
        assert_eq!(
            step(&self.words, state, kind, a, b, &mut next),
            Ok(next.len())
        );
        next
    }

    pub fn open_labels(&self, state: &[u16]) -> Vec<Label> {
        let mut labels = vec![0; 4096];
        let count = open_steps(&self.words, state, &mut labels).unwrap();
        labels[..3 * count]
            .chunks(3)
            .map(|words| [words[0], words[1], words[2]])
            .collect()
    }

    /// The threads of a label of a step.
    fn threads(&self, [kind, a, b]: Label) -> Vec<usize> {
        let of_branch = |branch: u32| self.table.thread(self.table.standing[branch as usize]);
        match kind {
            2 | 5 => vec![self.table.thread(a as usize)],
            3 => vec![of_branch(a)],
            _ => vec![of_branch(a), of_branch(b)],
        }
    }

    /// One enabled bookkeeping transition of the threads.
    pub fn next_bookkeeping(&self, marking: &[u8], threads: &[usize]) -> Option<u32> {
        let numbers = threads.iter().flat_map(|&thread| &self.bookkeeping[thread]);
        numbers
            .copied()
            .find(|&number| self.is_enabled(marking, number))
    }

    /// How many bookkeeping firings precede a firing with an open label.
    pub fn wait_for(&self, marking: &[u8], label: Label) -> usize {
        let threads = self.threads(label);
        let mut marking = marking.to_vec();
        let mut waited = 0;
        loop {
            let numbers = self.by_label.get(&label).map_or(&[][..], |numbers| numbers);
            if numbers
                .iter()
                .any(|&number| self.is_enabled(&marking, number))
            {
                return waited;
            }
            let number = self
                .next_bookkeeping(&marking, &threads)
                .expect("an open step is stuck");
            marking = self.fired(&marking, number);
            waited += 1;
        }
    }

    /// How many bookkeeping firings can be made in a row.
    pub fn bookkeeping_row(&self, marking: &[u8]) -> usize {
        let threads: Vec<usize> = (0..self.table.entries.len()).collect();
        let mut marking = marking.to_vec();
        let mut row = 0;
        while let Some(number) = self.next_bookkeeping(&marking, &threads) {
            marking = self.fired(&marking, number);
            row += 1;
        }
        row
    }
}

pub fn is_bookkeeping(label: Label) -> bool {
    label[0] <= 1
}

pub fn image_of(words: &[u16]) -> Vec<u32> {
    let mut image = vec![0; size(words).unwrap()];
    assert_eq!(build(words, &mut image), Ok(image.len()));
    image
}

pub fn initial_of(image: &[u32]) -> Vec<u8> {
    let mut marking = vec![1; image[0] as usize];
    assert_eq!(replay(image, &mut marking, &[]), Ok(0));
    marking
}

/// Document 02's N, by how many names are held at each control place: at a Choice, a New and a Call's
/// own place the h names of the node; at a Call's k-th copy place h + k − 1, at its k-th release place
/// f + h − k + 1, f counting the formals; at a Stop's k-th release place h − k + 1.
pub fn private_count(table: &Table) -> usize {
    let largest = |node: usize| {
        let h = table.held[node].len();
        let f = table.argument_range(node).len();
        let copies = (1..=f).map(|k| h + k - 1);
        let releases = (1..=h).map(|k| f + h - k + 1);
        match table.nodes[node] {
            Node::Choice { .. } | Node::New { .. } => h,
            Node::Call { .. } => copies.chain(releases).fold(h, usize::max),
            Node::Stop => releases.fold(0, usize::max),
        }
    };
    let of_thread = |thread: usize| {
        let nodes = (0..table.nodes.len()).filter(|&node| table.thread(node) == thread);
        nodes.map(largest).max().unwrap_or(0)
    };
    if table.names.contains(&NameKind::Restricted) {
        (0..table.entries.len()).map(of_thread).sum()
    } else {
        0
    }
}

/// Document 02's reach of each name, as a set of public and restricted names: the rules of document
/// 000, section 7.3, and of calls, taken one at a time in any order until none adds a name.
pub fn reaches(table: &Table, random: &mut Random) -> Vec<BTreeSet<usize>> {
    let own = |name: usize| match name < table.publics || table.is_restricted(name) {
        true => BTreeSet::from([name]),
        false => BTreeSet::new(),
    };
    let mut sets: Vec<BTreeSet<usize>> = (0..table.name_count()).map(own).collect();
    // Who takes in whom, if the reaches of two channels overlap.
    let mut rules: Vec<(usize, usize, Option<[usize; 2]>)> = Vec::new();
    for send in 0..table.branches.len() {
        for receive in 0..table.branches.len() {
            if let Some(pair) = table.pair(send, receive) {
                let channels = [pair.sending, pair.receiving];
                rules.push((pair.received, pair.sent, Some(channels)));
            }
        }
    }
    for (node, kind) in table.nodes.iter().enumerate() {
        if let Node::Call { definition, .. } = *kind {
            let formals = table.definitions[definition].formals();
            let arguments = &table.arguments[table.argument_range(node)];
            rules.extend(
                formals
                    .zip(arguments)
                    .map(|(formal, &name)| (formal, name, None)),
            );
        }
    }
    loop {
        random.shuffle(&mut rules);
        let adds = |sets: &[BTreeSet<usize>], &(taker, taken, channels): &(_, _, Option<_>)| {
            let open = channels
                .is_none_or(|[one, other]: [usize; 2]| !sets[one].is_disjoint(&sets[other]));
            let taker: usize = taker;
            let taken: usize = taken;
            open && !sets[taken].is_subset(&sets[taker])
        };
        let Some(&(taker, taken, _)) = rules.iter().find(|rule| adds(&sets, rule)) else {
            return sets;
        };
        let more = sets[taken].clone();
        sets[taker].extend(more);
    }
}

/// The values that a reach stands for: its publics, and all private ones if it has a restricted
/// name.
pub fn values_in(table: &Table, set: &BTreeSet<usize>) -> Vec<usize> {
    let (p, n) = (table.publics, private_count(table));
    let privates = match set.iter().any(|&name| name >= p) {
        true => p..p + n,
        false => p..p,
    };
    let publics = set.iter().copied().filter(|&name| name < p);
    publics.chain(privates).collect()
}

/// How the names of a marking come to their values.
#[derive(Clone, Copy, PartialEq, Eq)]
pub enum Values {
    /// Many inputs and formals have one value, so that steps are open; each private value in use
    /// has an origin, a restricted name in the reach of all that have it.
    Shared,
    /// Each name has a private value of its own, where it can have one.
    Apart,
    /// Any values of the names' reaches.
    Any,
}

/// A random marking that stands for a state, reached or not.
pub fn standing_marking(net: &Net, random: &mut Random, how: Values) -> Vec<u8> {
    let (table, places) = (&net.table, &net.places);
    let mut marking = vec![0; places.count];
    let mut held = Vec::new();
    for thread in 0..table.entries.len() {
        let (place, names) = random_control(net, random, thread);
        marking[place] = 1;
        held.extend(names);
    }
    let mut left: Vec<usize> = places.private_values().collect();
    random.shuffle(&mut left);
    let mut origins: Vec<(usize, usize)> = Vec::new();
    let mut values = vec![None; table.names.len()];
    // Restricted names choose first: no two of them have one value.
    held.sort_by_key(|&name| !table.is_restricted(name));
    for name in held {
        let own = places.values_of(name);
        let private = own.private_count() > 0;
        let any = own.into_iter().nth(random.below(own.len()));
        values[name - table.publics] = if table.is_restricted(name) {
            let value = left.pop();
            origins.push((value.unwrap(), name));
            value
        } else {
            match how {
                Values::Apart if private => left.pop(),
                Values::Shared if private => {
                    shared_value(net, random, name, &mut left, &mut origins)
                }
                _ => any,
            }
        };
    }
    for (name, value) in table.bound_names().zip(values) {
        mark_row(net, &mut marking, name, value);
    }
    mark_free(net, &mut marking);
    marking
}

/// A value of a name with a private reach: often a private one whose origin it reaches, at times a
/// public one.
fn shared_value(
    net: &Net,
    random: &mut Random,
    name: usize,
    left: &mut Vec<usize>,
    origins: &mut Vec<(usize, usize)>,
) -> Option<usize> {
    let reach = Reach::least(&net.table);
    let own = net.places.values_of(name);
    let reached = |&(value, origin): &(usize, usize)| reach.reaches(name, origin).then_some(value);
    let known: Vec<usize> = origins.iter().filter_map(reached).collect();
    let publics: Vec<usize> = own
        .into_iter()
        .filter(|&value| value < net.table.publics)
        .collect();
    if random.chance(30) && !publics.is_empty() {
        return random.pick(&publics);
    }
    if random.chance(70) && !known.is_empty() {
        return random.pick(&known);
    }
    let restricted: Vec<usize> = net
        .table
        .bound_names()
        .filter(|&origin| net.table.is_restricted(origin) && reach.reaches(name, origin))
        .collect();
    let value = left.pop();
    origins.push((value.unwrap(), random.pick(&restricted).unwrap()));
    value
}

/// A control place of a thread, a choice rather than another, and the names held there: each of
/// them can have a value.
fn random_control(net: &Net, random: &mut Random, thread: usize) -> (usize, Vec<usize>) {
    let (table, places) = (&net.table, &net.places);
    let nodes: Vec<usize> = (0..table.nodes.len())
        .filter(|&node| table.thread(node) == thread)
        .collect();
    let choices: Vec<usize> = nodes
        .iter()
        .copied()
        .filter(|&node| !table.branch_range(node).is_empty())
        .collect();
    loop {
        let choice = if random.chance(60) {
            random.pick(&choices)
        } else {
            None
        };
        let node = choice.or_else(|| random.pick(&nodes)).unwrap();
        let control: Vec<usize> = places.of_node(table, node).collect();
        let at = random.below(control.len());
        let names = held_at(table, node, at);
        if names.iter().all(|&name| !places.values_of(name).is_empty()) {
            return (control[at], names);
        }
    }
}

/// The names held at a control place, by its position among those of its node.
pub fn held_at(table: &Table, node: usize, at: usize) -> Vec<usize> {
    let held = &table.held[node];
    match table.nodes[node] {
        Node::Choice { .. } | Node::New { .. } => held.clone(),
        Node::Stop => held[at..].to_vec(),
        Node::Call { definition, .. } => {
            let formals: Vec<usize> = table.definitions[definition].formals().collect();
            let copied = at.saturating_sub(1).min(formals.len());
            let released = at.saturating_sub(1 + formals.len());
            [&formals[..copied], &held[released..]].concat()
        }
    }
}

fn mark_row(net: &Net, marking: &mut [u8], name: usize, value: Option<usize>) {
    if let Some(value) = value {
        marking[net.places.equal(name, value)] = 1;
    }
    if !net.table.is_restricted(name) && net.places.values_of(name).private_count() > 0 {
        for other in net
            .places
            .private_values()
            .filter(|&other| Some(other) != value)
        {
            marking[net.places.unequal(name, other)] = 1;
        }
    }
}

/// "[\*≠n] exactly when no restricted name has n".
fn mark_free(net: &Net, marking: &mut [u8]) {
    let (table, places) = (&net.table, &net.places);
    for value in places.private_values() {
        let mut restricted = table
            .bound_names()
            .filter(|&name| table.is_restricted(name));
        let taken = restricted.any(|name| marking[places.equal(name, value)] == 1);
        marking[places.free(value)] = u8::from(!taken);
    }
}
