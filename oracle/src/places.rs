//! Document 01, "Places": which number each place has; document 02, item 3: how many private values
//! there are; item 4: which values have a place.

use std::ops::Range;

use crate::reach::{Reach, Values};
use crate::table::{Node, Table};

/// The numbers of an accepted table's places.
pub struct Places {
    publics: usize,
    /// N.
    privates: usize,
    reach: Reach,
    /// The values of each name, publics first.
    values: Vec<Values>,
    /// The first place of each bound name's row, name P first.
    rows: Vec<usize>,
    /// [*≠n] of the first private value.
    free: usize,
    /// The first control place of each node.
    control: Vec<usize>,
    /// The place count.
    pub count: usize,
}

impl Places {
    /// The places of an accepted table: "Per bound name in order: input or formal x has [x=v] for
    /// the P+N values, then [x≠n] for N; restricted r has [r=n] for N. Then [\*≠n] for N. [...]
    /// Then control places by node"; "Values outside a name's reach have no place" (document 02,
    /// item 4).
    pub fn of(table: &Table) -> Places {
        let (publics, privates) = (table.publics, private_count(table));
        let reach = Reach::least(table);
        let values_of = |name| reach.values_of(name, publics..publics + privates);
        let values: Vec<Values> = (0..table.name_count()).map(values_of).collect();
        let mut next = 0;
        let mut rows = Vec::with_capacity(table.names.len());
        for name in table.bound_names() {
            rows.push(next);
            next += values[name].len();
            if !table.is_restricted(name) {
                next += values[name].private_count();
            }
        }
        let free = next;
        next += privates;
        let mut control = Vec::with_capacity(table.nodes.len());
        for node in 0..table.nodes.len() {
            control.push(next);
            next += control_places(table, node);
        }
        Places {
            publics,
            privates,
            reach,
            values,
            rows,
            free,
            control,
            count: next,
        }
    }

    /// The values of a name, by its reach.
    pub fn values_of(&self, name: usize) -> Values {
        self.values[name]
    }

    /// "channel value i common to both".
    pub fn common(&self, one: usize, other: usize) -> Values {
        self.reach.common(one, other, self.private_values())
    }

    /// All values, publics first: P+N of them.
    pub fn values(&self) -> Range<usize> {
        0..self.publics + self.privates
    }

    /// The private values, P to P+N−1.
    pub fn private_values(&self) -> Range<usize> {
        self.publics..self.publics + self.privates
    }

    pub fn is_private(&self, value: usize) -> bool {
        value >= self.publics
    }

    /// [name=value], of a bound name and a value of it.
    pub fn equal(&self, name: usize, value: usize) -> usize {
        self.rows[name - self.publics] + self.values[name].position(value)
    }

    /// [name≠value], of an input or formal and a private value of it.
    pub fn unequal(&self, name: usize, value: usize) -> usize {
        self.equal(name, value) + self.privates
    }

    /// The inputs and formals whose rows have private values.
    pub fn with_private_values<'a>(&'a self, table: &'a Table) -> impl Iterator<Item = usize> + 'a {
        table
            .inputs_and_formals()
            .filter(|&name| self.values[name].private_count() > 0)
    }

    /// [*≠value], of a private value.
    pub fn free(&self, value: usize) -> usize {
        self.free + value - self.publics
    }

    /// The first control place of a node.
    pub fn first(&self, node: usize) -> usize {
        self.control[node]
    }

    /// The control places of a node.
    pub fn of_node(&self, table: &Table, node: usize) -> Range<usize> {
        self.control[node]..self.control[node] + control_places(table, node)
    }

    /// "Initially marked: every [x≠n], every [\*≠n], each entry root's first place." Ascending.
    pub fn initial(&self, table: &Table) -> Vec<usize> {
        let mut initial = Vec::new();
        for name in self.with_private_values(table) {
            initial.extend(self.private_values().map(|value| self.unequal(name, value)));
        }
        initial.extend(self.private_values().map(|value| self.free(value)));
        let roots = table
            .entries
            .iter()
            .map(|&entry| table.definitions[entry].root);
        initial.extend(roots.map(|root| self.first(root)));
        initial.sort_unstable();
        initial
    }
}

/// "Choice and New one; Stop a release place per held name, then its final place; Call its own,
/// a copy place per formal, a release place per held name."
fn control_places(table: &Table, node: usize) -> usize {
    match table.nodes[node] {
        Node::Choice { .. } | Node::New { .. } => 1,
        Node::Stop => table.held[node].len() + 1,
        Node::Call { definition, .. } => {
            1 + table.definitions[definition].formal_count + table.held[node].len()
        }
    }
}

/// N: "With no restricted names N is now 0. Otherwise N is the sum, over threads, of the largest
/// number of names held at any one of the thread's control places, chain places included." (document
/// 02, item 3) A thread's control places are those of all its definitions, called or not.
fn private_count(table: &Table) -> usize {
    if !table.bound_names().any(|name| table.is_restricted(name)) {
        return 0;
    }
    let mut most = vec![0; table.entries.len()];
    for node in 0..table.nodes.len() {
        let held = |position| names_at(table, node, position).count();
        let largest = (0..control_places(table, node)).map(held).max();
        let of_thread = &mut most[table.thread(node)];
        *of_thread = largest.unwrap_or(0).max(*of_thread);
    }
    most.iter().sum()
}

/// The names held at a control place, by its position among those of its node: at a Stop's final
/// place none. "In a call's chain the held names are the copied formals and the unreleased caller's
/// names"; "In a Stop's chain the unreleased names are held".
pub fn names_at(table: &Table, node: usize, position: usize) -> impl Iterator<Item = usize> + '_ {
    let (copied, released) = match table.nodes[node] {
        Node::Choice { .. } | Node::New { .. } => (0..0, 0),
        Node::Stop => (0..0, position),
        Node::Call { definition, .. } => {
            let formals = table.definitions[definition].formals();
            let done = position.saturating_sub(1);
            let copied = formals.len().min(done);
            (formals.start..formals.start + copied, done - copied)
        }
    };
    copied.chain(table.held[node][released..].iter().copied())
}
