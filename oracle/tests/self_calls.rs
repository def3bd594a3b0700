//! Document 02, item 1: "A college's own table then allows exactly the sequences of process steps
//! that the net shows, with labels of copies read as their originals'."

mod common;

use std::collections::HashSet;

use common::{is_bookkeeping, Label, Net};
use oracle::generate::{accepted, encode, Shape};
use oracle::process::State;
use oracle::random::Random;
use oracle::rewrite::rewritten;
use oracle::table::{accept, accept_sparing, Node, Table};
use oracle::{original_branch, original_name, original_node};

/// A college's own table beside the rewritten one, and what the latter's numbers read back as.
struct Both {
    college: Table,
    rewritten: Table,
    names: Vec<u32>,
    nodes: Vec<u32>,
    branches: Vec<u32>,
}

/// What was met, so that the tests do not pass on empty ground.
#[derive(Debug, Default)]
struct Met {
    pairs: usize,
    steps: [usize; 6],
    self_calls: usize,
    self_calls_of_copies: usize,
    /// Self-calls that hand a formal on as another one.
    crossed: usize,
    /// Tables explored to the end.
    finished: usize,
    firings: usize,
}

impl Both {
    fn of(words: &[u16]) -> Option<Both> {
        let rewritten = accept(&rewritten(words).ok()?).unwrap();
        let all = |count: usize, original: fn(&[u16], u32) -> Result<u32, u32>| {
            (0..count as u32)
                .map(|number| original(words, number).unwrap())
                .collect()
        };
        Some(Both {
            college: accept_sparing(words).unwrap(),
            names: all(rewritten.name_count(), original_name),
            nodes: all(rewritten.nodes.len(), original_node),
            branches: all(rewritten.branches.len(), original_branch),
            rewritten,
        })
    }

    /// A label of the rewritten table with its numbers read back.
    fn label(&self, [kind, a, b]: Label) -> Label {
        let read = |originals: &[u32], number: u32| originals[number as usize];
        match kind {
            0..=2 => [kind, read(&self.nodes, a), read(&self.names, b)],
            3 => [kind, read(&self.branches, a), b],
            4 => [kind, read(&self.branches, a), read(&self.branches, b)],
            _ => [kind, read(&self.nodes, a), b],
        }
    }

    /// A state of the rewritten table with its nodes and held names read back. No two held names
    /// have one original.
    fn state(&self, state: &State) -> State {
        let mut values = vec![None; self.college.names.len()];
        for name in self.rewritten.bound_names() {
            if let Some(value) = state.value(&self.rewritten, name) {
                let place = &mut values[self.names[name] as usize - self.college.publics];
                assert_eq!(place.replace(value), None);
            }
        }
        State {
            nodes: state
                .nodes
                .iter()
                .map(|&node| self.nodes[node] as usize)
                .collect(),
            values,
        }
    }

    /// The open labels of both tables, those of the rewritten one with what they read back as.
    fn open(&self, own: &State, state: &State) -> Vec<(Label, Label)> {
        assert_eq!(
            self.state(state).words(&self.college),
            own.words(&self.college)
        );
        let open = state.open_labels(&self.rewritten);
        let mut pairs: Vec<(Label, Label)> = open
            .iter()
            .map(|&label| (self.label(label), label))
            .collect();
        pairs.sort_unstable();
        let read_back: Vec<Label> = pairs.iter().map(|&(own, _)| own).collect();
        let mut own_labels = own.open_labels(&self.college);
        own_labels.sort_unstable();
        assert_eq!(read_back, own_labels);
        pairs
    }

    fn note(&self, met: &mut Met, label: Label) {
        let [kind, original, _] = self.label(label);
        met.steps[kind as usize] += 1;
        let original = original as usize;
        let Node::Call { definition, .. } = self.college.nodes[original] else {
            return;
        };
        if kind != 5 || !self.college.calls_itself(original) {
            return;
        }
        met.self_calls += 1;
        met.self_calls_of_copies += usize::from(label[1] as usize != original);
        let formals = self.college.definitions[definition].formals();
        let arguments = &self.college.arguments[self.college.argument_range(original)];
        let crossed = formals
            .clone()
            .zip(arguments)
            .any(|(formal, argument)| formal != *argument && formals.contains(argument));
        met.crossed += usize::from(crossed);
    }
}

/// The same state with its private values numbered anew.
fn renumbered(table: &Table, state: &State) -> State {
    State::parse(table, &state.words(table)).unwrap()
}

/// Goes through at most so many pairs of states, breadth first.
fn explore(both: &Both, most: usize, met: &mut Met) {
    let mut queue = vec![(
        State::starting(&both.college),
        State::starting(&both.rewritten),
    )];
    let mut seen = HashSet::new();
    let mut at = 0;
    while at < queue.len() && at < most {
        let (own, state) = queue[at].clone();
        at += 1;
        met.pairs += 1;
        for (own_label, label) in both.open(&own, &state) {
            both.note(met, label);
            let own = own.stepped(&both.college, own_label).unwrap();
            let state = state.stepped(&both.rewritten, label).unwrap();
            if seen.insert((own.words(&both.college), state.words(&both.rewritten))) {
                queue.push((
                    renumbered(&both.college, &own),
                    renumbered(&both.rewritten, &state),
                ));
            }
        }
    }
    met.finished += usize::from(at == queue.len());
}

fn simulate(seed: u64, tables: usize, shape: Shape, most: usize) -> Met {
    let mut random = Random::new(seed);
    let mut met = Met::default();
    for _ in 0..tables {
        let self_calls = true;
        if let Some(both) = Both::of(&accepted(
            &mut random,
            Shape {
                self_calls,
                ..shape
            },
        )) {
            explore(&both, most, &mut met);
        }
    }
    println!("{met:?}");
    met
}

#[test]
fn small_tables_step_as_their_rewriting() {
    let met = simulate(61, 1500, Shape::SMALL, 60);
    assert!(met.pairs > 20_000 && met.finished > 500);
    assert!(met.steps[2..].iter().all(|&count| count > 1000));
    assert!(met.self_calls_of_copies > 1000 && met.self_calls > 3000);
    assert!(met.crossed > 50);
}

#[test]
fn wide_tables_step_as_their_rewriting() {
    let met = simulate(62, 200, Shape::WIDE, 60);
    assert!(met.pairs > 2000 && met.self_calls_of_copies > 50);
}

/// The net of the rewritten table, fired at random beside the college's own process: a firing is
/// bookkeeping, or its label reads back as an open step; every open step is at most B bookkeeping
/// firings away, B of the rewritten table.
fn walk(both: &Both, net: &Net, random: &mut Random, most: usize, met: &mut Met) {
    let mut marking = net.initial();
    let mut own = State::starting(&both.college);
    for _ in 0..most {
        let state = State::parse(&both.rewritten, &net.read(&marking)).unwrap();
        for (_, label) in both.open(&own, &state) {
            assert!(net.wait_for(&marking, label) <= net.bound());
        }
        let Some(number) = random.pick(&net.enabled(&marking)) else {
            return;
        };
        let label = net.label(number);
        marking = net.fired(&marking, number);
        met.firings += 1;
        if !is_bookkeeping(label) {
            both.note(met, label);
            own = own.stepped(&both.college, both.label(label)).unwrap();
            own = renumbered(&both.college, &own);
        }
    }
}

#[test]
fn nets_of_rewritten_tables_show_the_college_s_steps() {
    let mut random = Random::new(63);
    let mut met = Met::default();
    for _ in 0..1000 {
        let self_calls = true;
        let shape = Shape {
            self_calls,
            ..Shape::SMALL
        };
        let words = accepted(&mut random, shape);
        let Some(both) = Both::of(&words) else {
            continue;
        };
        let net = Net::of(rewritten(&words).unwrap());
        walk(&both, &net, &mut random, 50, &mut met);
    }
    println!("{met:?}");
    assert!(met.firings > 20_000 && met.self_calls_of_copies > 500);
    assert!(met.steps[2..].iter().all(|&count| count > 300));
    assert!(met.crossed > 20);
}

/// "There a self-call reads all its arguments before any name ends.": ν a.ν b.K(a, b) with
/// K(f, g) := τ.K(g, f).
#[test]
fn a_self_call_reads_all_its_arguments_first() {
    let words = encode(
        0,
        [
            vec![0, 0, 2, 2], // a = 0, b = 1, f = 2, g = 3
            vec![0, 0, 0, 0, 0, 3, 2, 2],
            vec![0],
            vec![2, 0, 1, 2, 1, 2, 3, 1, 0, 1, 0, 1, 3, 1, 2],
            vec![0, 0, 0, 4],
            vec![0, 1, 3, 2],
        ],
    );
    let both = Both::of(&words).unwrap();
    let table = &both.college;
    let mut state = State::starting(table);
    for label in [[2, 0, 0], [2, 1, 1], [5, 2, 0]] {
        state = state.stepped(table, label).unwrap();
    }
    let [_, _, f, g] = state.values[..] else {
        panic!("four names");
    };
    assert!(f.is_some() && g.is_some() && f != g);
    for values in [[None, None, g, f], [None, None, f, g]] {
        for label in [[3, 0, 0], [5, 4, 0]] {
            state = state.stepped(table, label).unwrap();
        }
        assert_eq!(state.values, values);
        assert_eq!(state.nodes, [3]);
    }
    let mut met = Met::default();
    explore(&both, 99, &mut met);
    assert!(met.finished == 1 && met.crossed == 2);
}
