//! Document 01, "Process rules": states, open steps and steps.

use crate::builder::{label, Label, CALL, COMMUNICATION, NEW, SILENT};
use crate::table::{accept, Branch, Node, Table};

/// "65535 for a name not held".
pub const NOT_HELD: u16 = 65535;

/// "A state has a node per thread, a value per held name": values by bound name, name P first.
/// Private values are any numbers from P.
#[derive(Clone, Debug, PartialEq, Eq)]
pub struct State {
    pub nodes: Vec<usize>,
    pub values: Vec<Option<usize>>,
}

/// A step of the process. Nodes and branches are those of the table.
#[derive(Clone, Copy, Debug, PartialEq, Eq)]
enum Step {
    Silent { branch: usize },
    Communication { send: usize, receive: usize },
    New { node: usize },
    Call { node: usize },
}

/// Writes the starting state's words to `state` and answers how many; causes 1 to 9, 10.
pub fn start(table: &[u16], state: &mut [u16]) -> Result<usize, u32> {
    let table = accept(table)?;
    write_words(&State::starting(&table).words(&table), state)
}

/// Writes the labels of the open steps, three words each, "in the image's label order, each
/// once", and answers how many labels; causes 1 to 9, 18, 10.
pub fn open_steps(table: &[u16], state: &[u16], labels: &mut [u32]) -> Result<usize, u32> {
    let table = accept(table)?;
    let state = State::parse(&table, state).ok_or(18u32)?;
    let open = state.open_labels(&table);
    write_words(&open.concat(), labels)?;
    Ok(open.len())
}

/// Takes the open step of a label, writes the next state's words and answers how many; causes
/// 1 to 9, 18, 19, 10.
pub fn step(
    table: &[u16],
    state: &[u16],
    kind: u32,
    a: u32,
    b: u32,
    next: &mut [u16],
) -> Result<usize, u32> {
    let table = accept(table)?;
    let state = State::parse(&table, state).ok_or(18u32)?;
    let after = state.stepped(&table, [kind, a, b]).ok_or(19u32)?;
    write_words(&after.words(&table), next)
}

/// Cause 10: "lent output shorter than the answer"; "Of a longer output only the answer's part
/// changes."
pub(crate) fn write_words<W: Copy>(answer: &[W], out: &mut [W]) -> Result<usize, u32> {
    out.get_mut(..answer.len())
        .ok_or(10u32)?
        .copy_from_slice(answer);
    Ok(answer.len())
}

/// The names a thread standing at a node holds: "Names end on arrival at Stop."
fn held_at(table: &Table, node: usize) -> &[usize] {
    match table.nodes[node] {
        Node::Stop => &[],
        _ => &table.held[node],
    }
}

impl State {
    /// "Each thread starts at its entry's root." Entries have no formals, so nothing is held.
    pub fn starting(table: &Table) -> State {
        let root = |&entry: &usize| table.definitions[entry].root;
        State {
            nodes: table.entries.iter().map(root).collect(),
            values: vec![None; table.names.len()],
        }
    }

    /// "State words: T nodes, then B values [...] Private values are numbered from P by first
    /// appearance in name order."
    pub fn words(&self, table: &Table) -> Vec<u16> {
        let mut words: Vec<u16> = self.nodes.iter().map(|&node| node as u16).collect();
        let mut seen: Vec<usize> = Vec::new();
        for value in &self.values {
            words.push(match *value {
                None => NOT_HELD,
                Some(value) if value < table.publics => value as u16,
                Some(value) => {
                    let place = seen.iter().position(|&other| other == value);
                    let place = place.unwrap_or_else(|| {
                        seen.push(value);
                        seen.len() - 1
                    });
                    (table.publics + place) as u16
                }
            });
        }
        words
    }

    /// State words as a state; malformed ones (18) are `None`.
    pub fn parse(table: &Table, words: &[u16]) -> Option<State> {
        let threads = table.entries.len();
        if words.len() != threads + table.names.len() {
            return None;
        }
        let (nodes, values) = words.split_at(threads);
        let value = |&word: &u16| (word != NOT_HELD).then_some(usize::from(word));
        let state = State {
            nodes: nodes.iter().map(|&node| usize::from(node)).collect(),
            values: values.iter().map(value).collect(),
        };
        let well_formed = state.nodes_are_the_threads(table)
            && state.held_names_are_the_nodes(table)
            && state.values_are_so_numbered(table)
            && state.restricted_values_are_allowed(table);
        well_formed.then_some(state)
    }

    /// Else "a node of another thread".
    fn nodes_are_the_threads(&self, table: &Table) -> bool {
        self.nodes
            .iter()
            .enumerate()
            .all(|(thread, &node)| node < table.nodes.len() && table.thread(node) == thread)
    }

    /// Else "held names not the node's (none at Stop)".
    fn held_names_are_the_nodes(&self, table: &Table) -> bool {
        let mut held = vec![false; table.names.len()];
        for &node in &self.nodes {
            for &name in held_at(table, node) {
                held[name - table.publics] = true;
            }
        }
        self.values
            .iter()
            .zip(held)
            .all(|(value, held)| value.is_some() == held)
    }

    /// Else "a value not below P+B or not so numbered".
    fn values_are_so_numbered(&self, table: &Table) -> bool {
        let mut next = table.publics;
        self.values.iter().flatten().all(|&value| {
            let numbered = value <= next && value < table.name_count();
            next += usize::from(value == next);
            numbered
        })
    }

    /// Else "a restricted name holding a public value, or two restricted names holding one
    /// value".
    fn restricted_values_are_allowed(&self, table: &Table) -> bool {
        let mut taken = vec![false; table.names.len()];
        let restricted = table
            .bound_names()
            .filter(|&name| table.is_restricted(name));
        restricted
            .filter_map(|name| self.value(table, name))
            .all(|value| {
                value >= table.publics
                    && !std::mem::replace(&mut taken[value - table.publics], true)
            })
    }

    /// The value of a name; a public is its own.
    pub fn value(&self, table: &Table, name: usize) -> Option<usize> {
        if name < table.publics {
            Some(name)
        } else {
            self.values[name - table.publics]
        }
    }

    /// Whether the node's thread stands at it.
    fn stands_at(&self, table: &Table, node: usize) -> bool {
        self.nodes[table.thread(node)] == node
    }

    /// The step of a label, if the table has the label and the step is open: "A step is open
    /// when its threads stand at its nodes and, for a communication, both channels have one
    /// value."
    fn open_step(&self, table: &Table, [kind, a, b]: Label) -> Option<Step> {
        let (a, b) = (a as usize, b as usize);
        match kind {
            NEW => self.open_new(table, a, b),
            SILENT => self.open_silent(table, a, b),
            COMMUNICATION => self.open_communication(table, a, b),
            CALL => self.open_call(table, a, b),
            _ => None,
        }
    }

    fn open_new(&self, table: &Table, node: usize, name: usize) -> Option<Step> {
        let Node::New { name: bound, .. } = *table.nodes.get(node)? else {
            return None;
        };
        (bound == name && self.stands_at(table, node)).then_some(Step::New { node })
    }

    fn open_silent(&self, table: &Table, branch: usize, zero: usize) -> Option<Step> {
        let Branch::Silent { .. } = *table.branches.get(branch)? else {
            return None;
        };
        let open = zero == 0 && self.stands_at(table, table.standing[branch]);
        open.then_some(Step::Silent { branch })
    }

    /// "Communication: threads differ, both channels have one value".
    fn open_communication(&self, table: &Table, send: usize, receive: usize) -> Option<Step> {
        let pair = table.pair(send, receive)?;
        let (sender, receiver) = (table.standing[send], table.standing[receive]);
        let open = self.stands_at(table, sender)
            && self.stands_at(table, receiver)
            && self.value(table, pair.sending) == self.value(table, pair.receiving);
        open.then_some(Step::Communication { send, receive })
    }

    fn open_call(&self, table: &Table, node: usize, zero: usize) -> Option<Step> {
        let Node::Call { .. } = *table.nodes.get(node)? else {
            return None;
        };
        (zero == 0 && self.stands_at(table, node)).then_some(Step::Call { node })
    }

    /// The labels of the open steps, in the image's order: by node, then by send and receive.
    pub fn open_labels(&self, table: &Table) -> Vec<Label> {
        let mut nodes = self.nodes.clone();
        nodes.sort_unstable();
        let branches: Vec<usize> = nodes
            .iter()
            .flat_map(|&node| table.branch_range(node))
            .collect();
        let mut labels: Vec<Label> = Vec::new();
        for &node in &nodes {
            match table.nodes[node] {
                Node::Stop => {}
                Node::New { name, .. } => labels.push(label(NEW, node, name)),
                Node::Call { .. } => labels.push(label(CALL, node, 0)),
                Node::Choice { .. } => labels.extend(
                    table
                        .branch_range(node)
                        .map(|branch| label(SILENT, branch, 0)),
                ),
            }
        }
        for &send in &branches {
            labels.extend(
                branches
                    .iter()
                    .map(|&receive| label(COMMUNICATION, send, receive)),
            );
        }
        labels.retain(|&label| self.open_step(table, label).is_some());
        labels
    }

    /// The state after the step of a label; `None` where it is not open.
    pub fn stepped(&self, table: &Table, label: Label) -> Option<State> {
        let step = self.open_step(table, label)?;
        Some(self.after(table, step))
    }

    /// The state after an open step.
    fn after(&self, table: &Table, step: Step) -> State {
        let mut next = self.clone();
        match step {
            Step::Silent { branch } => next.go_on(table, branch),
            Step::Communication { send, receive } => next.communicate(table, send, receive),
            Step::New { node } => next.make_new(table, node),
            Step::Call { node } => next.call(table, node),
        }
        next
    }

    /// "Silent: go to the next node."
    fn go_on(&mut self, table: &Table, branch: usize) {
        self.arrive(table, table.branches[branch].next());
    }

    /// "the receiver's name takes the sent value", read before any name ends.
    fn communicate(&mut self, table: &Table, send: usize, receive: usize) {
        if let Some(pair) = table.pair(send, receive) {
            self.values[pair.received - table.publics] = self.value(table, pair.sent);
        }
        self.go_on(table, send);
        self.go_on(table, receive);
    }

    /// "New: the name takes the counter, which rises by 1." State words carry no counter: a
    /// number that no name has stands for it.
    fn make_new(&mut self, table: &Table, node: usize) {
        if let Node::New { name, child } = table.nodes[node] {
            let highest = self.values.iter().flatten().copied().max().unwrap_or(0);
            self.values[name - table.publics] = Some(highest.max(table.publics) + 1);
            self.arrive(table, child);
        }
    }

    /// "Call: all formals take the arguments' values, the caller's names end." "There a self-call
    /// reads all its arguments before any name ends." (document 02, item 1)
    fn call(&mut self, table: &Table, node: usize) {
        if let Node::Call { definition, .. } = table.nodes[node] {
            let arguments = &table.arguments[table.argument_range(node)];
            let values: Vec<_> = arguments
                .iter()
                .map(|&name| self.value(table, name))
                .collect();
            self.end(table, node);
            for (formal, value) in table.definitions[definition].formals().zip(values) {
                self.values[formal - table.publics] = value;
            }
            self.arrive(table, table.definitions[definition].root);
        }
    }

    /// "Names end on arrival at Stop."
    fn arrive(&mut self, table: &Table, node: usize) {
        self.nodes[table.thread(node)] = node;
        if table.nodes[node] == Node::Stop {
            self.end(table, node);
        }
    }

    /// The held names of a node end.
    fn end(&mut self, table: &Table, node: usize) {
        for &name in &table.held[node] {
            self.values[name - table.publics] = None;
        }
    }
}
