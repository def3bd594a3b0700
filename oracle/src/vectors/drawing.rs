//! How many words an image has by document 01 alone, with as many private values as bound names and
//! each of them for every name: what tables are drawn by, so that they stay the same whatever
//! document 02 makes of their images.

use crate::table::{Branch, Node, Table};

/// How many words the image of an accepted table has by document 01.
pub fn first_words(table: &Table) -> usize {
    let first = First {
        table,
        privates: table.names.len(),
    };
    let others = table.inputs_and_formals().count();
    let initial = (others + 1) * first.privates + table.entries.len();
    8 + initial + first.of_nodes() + first.of_pairs()
}

struct First<'a> {
    table: &'a Table,
    /// N = B.
    privates: usize,
}

impl First<'_> {
    /// How many values a name has, and how many of them are private.
    fn values(&self, name: usize) -> (usize, usize) {
        if !self.table.is_bound(name) {
            (1, 0)
        } else if self.table.is_restricted(name) {
            (self.privates, self.privates)
        } else {
            (self.table.publics + self.privates, self.privates)
        }
    }

    /// How many values two names both have, and how many of them are private.
    fn common(&self, one: usize, other: usize) -> (usize, usize) {
        let bound = [one, other].map(|name| self.table.is_bound(name));
        let public_with = |name: usize| match self.table.is_restricted(name) {
            true => (0, 0),
            false => (1, 0),
        };
        match bound {
            [false, false] => (usize::from(one == other), 0),
            [false, true] => public_with(other),
            [true, false] => public_with(one),
            [true, true] => self.values(one).min(self.values(other)),
        }
    }

    /// The words of records and arcs of the transitions by node.
    fn of_nodes(&self) -> usize {
        let others = self.table.inputs_and_formals().count();
        let of_node = |node: usize| match self.table.nodes[node] {
            Node::Stop => self.of_releases(node),
            Node::New { .. } => self.privates * (6 + 2 * (others + 2)),
            Node::Choice { .. } => {
                let branches = &self.table.branches[self.table.branch_range(node)];
                let silent = |branch: &&Branch| matches!(branch, Branch::Silent { .. });
                branches.iter().filter(silent).count() * (6 + 2)
            }
            Node::Call { .. } => {
                let arguments = &self.table.arguments[self.table.argument_range(node)];
                let copies = arguments.iter().map(|&name| self.of_copies(name));
                6 + 2 + copies.sum::<usize>() + self.of_releases(node)
            }
        };
        (0..self.table.nodes.len()).map(of_node).sum()
    }

    fn of_releases(&self, node: usize) -> usize {
        let of_name = |&name: &usize| {
            let (values, private) = self.values(name);
            values * (6 + 3) + private
        };
        self.table.held[node].iter().map(of_name).sum()
    }

    fn of_copies(&self, argument: usize) -> usize {
        let (values, private) = self.values(argument);
        let reads = usize::from(self.table.is_bound(argument));
        values * (6 + 2 * reads + 3) + private
    }

    /// The words of records and arcs of the communications.
    fn of_pairs(&self) -> usize {
        let branches = self.table.branches.len();
        let of_send = |send: usize| -> usize {
            (0..branches)
                .map(|receive| self.of_pair(send, receive))
                .sum()
        };
        (0..branches).map(of_send).sum()
    }

    fn of_pair(&self, send: usize, receive: usize) -> usize {
        let Some(pair) = self.table.pair(send, receive) else {
            return 0;
        };
        let bound = |name: usize| usize::from(self.table.is_bound(name));
        let (channels, private) = self.common(pair.sending, pair.receiving);
        let reads = bound(pair.sending) + bound(pair.receiving);
        if pair.sent == pair.sending {
            return channels * (6 + 2 * reads + 5) + private;
        }
        let (sent, private) = self.values(pair.sent);
        let reads = reads + bound(pair.sent);
        channels * (sent * (6 + 2 * reads + 5) + private)
    }
}
