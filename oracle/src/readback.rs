//! Document 01, "Transitions", last paragraph: which state a marking stands for.

use crate::places::{names_at, Places};
use crate::process::{write_words, State};
use crate::table::{accept, Node, Table};

/// Writes the words of the state that `marking` stands for and answers how many; causes 1 to 9,
/// 13, 17, 10.
pub fn read(table: &[u16], marking: &[u8], state: &mut [u16]) -> Result<usize, u32> {
    let table = accept(table)?;
    let places = Places::of(&table);
    if marking.len() != places.count || marking.iter().any(|&byte| byte > 1) {
        return Err(13);
    }
    let reader = Reader {
        table: &table,
        places: &places,
        marking,
    };
    let read = reader.state().ok_or(17u32)?;
    write_words(&read.words(&table), state)
}

/// Where a thread's control token is.
#[derive(Clone, Copy)]
enum Control {
    /// A Choice, a New, a Call's own place, or a Stop's final place.
    At(usize),
    /// A Stop's chain: the held names from this position on are unreleased.
    Stopping { node: usize, released: usize },
    /// A Call's chain: so many formals are copied, so many held names released.
    Calling {
        node: usize,
        definition: usize,
        copied: usize,
        released: usize,
    },
}

struct Reader<'a> {
    table: &'a Table,
    places: &'a Places,
    marking: &'a [u8],
}

impl Reader<'_> {
    /// The state, or `None` where the marking stands for none (17).
    fn state(&self) -> Option<State> {
        let controls = self.controls()?;
        let nodes: Vec<usize> = controls
            .iter()
            .map(|&control| self.node_in_state(control))
            .collect();
        let held = State {
            values: self.values_held(&controls)?,
            nodes,
        };
        if !self.counters_are_right() {
            return None;
        }
        let mut values = vec![None; self.table.names.len()];
        for &control in &controls {
            for (name, source) in self.names_in_state(control) {
                values[name - self.table.publics] = held.value(self.table, source);
            }
        }
        Some(State {
            nodes: held.nodes,
            values,
        })
    }

    fn is_marked(&self, place: usize) -> bool {
        self.marking[place] == 1
    }

    /// "each thread has one marked control place".
    fn controls(&self) -> Option<Vec<Control>> {
        let mut controls: Vec<Option<Control>> = vec![None; self.table.entries.len()];
        for node in 0..self.table.nodes.len() {
            let node_places = self.places.of_node(self.table, node);
            let first = node_places.start;
            for place in node_places.filter(|&place| self.is_marked(place)) {
                let control = self.control(node, place - first);
                if controls[self.table.thread(node)].replace(control).is_some() {
                    return None;
                }
            }
        }
        controls.into_iter().collect()
    }

    /// "A chain is a Call's copy and release places, or a Stop's release places; a Call's own
    /// place stands for the Call node."
    fn control(&self, node: usize, position: usize) -> Control {
        match self.table.nodes[node] {
            Node::Stop if position < self.table.held[node].len() => Control::Stopping {
                node,
                released: position,
            },
            Node::Call { definition, .. } if position > 0 => {
                let formals = self.table.definitions[definition].formal_count;
                let copied = formals.min(position - 1);
                Control::Calling {
                    node,
                    definition,
                    copied,
                    released: position - 1 - copied,
                }
            }
            _ => Control::At(node),
        }
    }

    /// The names held at a control place.
    fn held_names(&self, control: Control) -> Vec<usize> {
        let (node, position) = match control {
            Control::At(node) if self.table.nodes[node] == Node::Stop => {
                (node, self.table.held[node].len())
            }
            Control::At(node) => (node, 0),
            Control::Stopping { node, released } => (node, released),
            Control::Calling {
                node,
                copied,
                released,
                ..
            } => (node, 1 + copied + released),
        };
        names_at(self.table, node, position).collect()
    }

    /// The values the held names have in the marking: "each name held there one marked value and
    /// every other name none".
    fn values_held(&self, controls: &[Control]) -> Option<Vec<Option<usize>>> {
        let mut held = vec![false; self.table.names.len()];
        for &control in controls {
            for name in self.held_names(control) {
                held[name - self.table.publics] = true;
            }
        }
        let mut values = Vec::new();
        for (name, held) in self.table.bound_names().zip(held) {
            let values_of_name = self.places.values_of(name).into_iter();
            let equal = |&value: &usize| self.has_value(name, value);
            let marked: Vec<usize> = values_of_name.filter(equal).collect();
            if marked.len() != usize::from(held) {
                return None;
            }
            values.push(marked.first().copied());
        }
        Some(values)
    }

    fn has_value(&self, name: usize, value: usize) -> bool {
        self.is_marked(self.places.equal(name, value))
    }

    /// "[x≠n] is marked exactly without [x=n], and [\*≠n] exactly when no restricted name has n;
    /// two restricted names never share n." A name that does not reach n has neither place.
    fn counters_are_right(&self) -> bool {
        self.places.private_values().all(|value| {
            let mut holders = 0;
            for name in self.table.bound_names() {
                if !self.places.values_of(name).contains(value) {
                    continue;
                }
                let equal = self.has_value(name, value);
                if self.table.is_restricted(name) {
                    holders += usize::from(equal);
                } else if self.is_marked(self.places.unequal(name, value)) == equal {
                    return false;
                }
            }
            holders + usize::from(self.is_marked(self.places.free(value))) == 1
        })
    }

    /// In a call's chain "the state is the one after the call".
    fn node_in_state(&self, control: Control) -> usize {
        match control {
            Control::At(node) | Control::Stopping { node, .. } => node,
            Control::Calling { definition, .. } => self.table.definitions[definition].root,
        }
    }

    /// The names of the state, each with the name whose value it has: "In a Stop's chain the
    /// unreleased names are held but not in the state."; in a call's chain "uncopied formals valued
    /// as their arguments; where the called root is Stop, it has none of these names."
    fn names_in_state(&self, control: Control) -> Vec<(usize, usize)> {
        if self.table.nodes[self.node_in_state(control)] == Node::Stop {
            return Vec::new();
        }
        match control {
            Control::Calling {
                node,
                definition,
                copied,
                ..
            } => {
                let formals = self.table.definitions[definition].formals();
                let arguments = &self.table.arguments[self.table.argument_range(node)];
                let source = |(position, (formal, &argument)): (usize, (usize, &usize))| {
                    (formal, if position < copied { formal } else { argument })
                };
                formals.zip(arguments).enumerate().map(source).collect()
            }
            _ => self
                .held_names(control)
                .into_iter()
                .map(|name| (name, name))
                .collect(),
        }
    }
}
