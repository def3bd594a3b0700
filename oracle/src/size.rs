//! The counts of an image before it is written: how many transitions, inputs and outputs the
//! rules of document 01, "Transitions", give, by the reach of document 02, item 4. Within the
//! table's bounds every sum stays below 2³².

use crate::places::Places;
use crate::table::{accept, Branch, Node, Table};

/// How many words the image of a table has; causes 1 to 9.
pub fn size(words: &[u16]) -> Result<usize, u32> {
    Ok(image_words(&accept(words)?))
}

/// How many words the image of an accepted table has.
pub fn image_words(table: &Table) -> usize {
    let places = Places::of(table);
    Size::of(table, &places).image_words(places.initial(table).len())
}

#[derive(Clone, Copy, Debug, Default, PartialEq, Eq)]
pub struct Size {
    pub transitions: usize,
    pub inputs: usize,
    pub outputs: usize,
}

impl Size {
    pub fn of(table: &Table, places: &Places) -> Size {
        let mut size = Size::default();
        for (number, node) in table.nodes.iter().enumerate() {
            match *node {
                Node::Stop => size.add_releases(table, places, number),
                Node::Choice { .. } => size.add_silents(table, number),
                Node::New { .. } => size.add_news(table, places),
                Node::Call { .. } => size.add_call(table, places, number),
            }
        }
        for send in 0..table.branches.len() {
            for receive in 0..table.branches.len() {
                size.add_communications(table, places, send, receive);
            }
        }
        size
    }

    /// Header, initial list, records and arcs: "the length is exact".
    pub fn image_words(&self, initial: usize) -> usize {
        8 + initial + 6 * self.transitions + self.inputs + self.outputs
    }

    /// `count` transitions with as many inputs and outputs each.
    fn add(&mut self, count: usize, inputs: usize, outputs: usize) {
        self.transitions += count;
        self.inputs += count * inputs;
        self.outputs += count * outputs;
    }

    /// Inputs [z=v] and the release place; outputs the next place and, for private v, [z≠v] or
    /// [*≠v].
    fn add_releases(&mut self, table: &Table, places: &Places, node: usize) {
        for &name in &table.held[node] {
            let values = places.values_of(name);
            self.outputs += values.private_count();
            self.add(values.len(), 2, 1);
        }
    }

    fn add_silents(&mut self, table: &Table, node: usize) {
        let branches = &table.branches[table.branch_range(node)];
        let silent = |branch: &&Branch| matches!(branch, Branch::Silent { .. });
        self.add(branches.iter().filter(silent).count(), 1, 1);
    }

    /// Inputs [*≠n], the reads and the node; outputs [r=n], the reads and the next place.
    fn add_news(&mut self, table: &Table, places: &Places) {
        let reads = places.with_private_values(table).count();
        self.add(places.private_values().len(), reads + 2, reads + 2);
    }

    /// The call; the copies, with inputs the read, [f≠v] for private v and the copy place, and
    /// outputs the read, [f=v] and the next place; the releases.
    fn add_call(&mut self, table: &Table, places: &Places, node: usize) {
        self.add(1, 1, 1);
        for &argument in &table.arguments[table.argument_range(node)] {
            let values = places.values_of(argument);
            let reads = usize::from(table.is_bound(argument));
            self.inputs += values.private_count();
            self.add(values.len(), reads + 1, reads + 2);
        }
        self.add_releases(table, places, node);
    }

    /// Inputs the reads, two nodes and, for private j, [y≠j]; outputs the reads, two next places
    /// and [y=j].
    fn add_communications(&mut self, table: &Table, places: &Places, send: usize, receive: usize) {
        let Some(pair) = table.pair(send, receive) else {
            return;
        };
        let common = places.common(pair.sending, pair.receiving);
        let bound = |name: usize| usize::from(table.is_bound(name));
        let mut reads = bound(pair.sending) + bound(pair.receiving);
        let mut count = common.len();
        let mut private = common.private_count();
        if pair.sent != pair.sending {
            let sent_values = places.values_of(pair.sent);
            reads += bound(pair.sent);
            count = common.len() * sent_values.len();
            private = common.len() * sent_values.private_count();
        }
        self.inputs += private;
        self.add(count, reads + 2, reads + 3);
    }
}
