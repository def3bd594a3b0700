//! Document 02, item 4: which values each name can take, by document 000, section 7.3.

use std::ops::Range;

use crate::table::{Branch, Node, Table};

/// The reach of each name, "the least one": a set of public and restricted names, name k at bit k.
#[derive(Clone)]
pub struct Reach {
    of_names: Vec<u64>,
    restricted: u64,
}

impl Reach {
    /// The least reach of an accepted table: grown from the names that reach themselves until no
    /// rule adds to it.
    pub fn least(table: &Table) -> Reach {
        let mut reach = Reach::of_themselves(table);
        while reach.grow(table) {}
        reach
    }

    /// The reach after a single round.
    pub fn after_a_round(table: &Table) -> Reach {
        let mut reach = Reach::of_themselves(table);
        reach.grow(table);
        reach
    }

    /// Whether no rule adds to it.
    pub fn is_closed(&self, table: &Table) -> bool {
        !self.clone().grow(table)
    }

    /// "A public reaches itself, a restricted name itself."
    fn of_themselves(table: &Table) -> Reach {
        let bits = |name: usize| match name < table.publics || table.is_restricted(name) {
            true => 1 << name,
            false => 0,
        };
        let of_names: Vec<u64> = (0..table.name_count()).map(bits).collect();
        let restricted = of_names[table.publics..]
            .iter()
            .fold(0, |all, own| all | own);
        Reach {
            of_names,
            restricted,
        }
    }

    /// "An input takes in the reach of every name sent on a channel in another thread whose reach
    /// overlaps its own channel's; a formal takes in its arguments' reaches." Whether any did.
    fn grow(&mut self, table: &Table) -> bool {
        let mut grown = false;
        for (send, branch) in table.branches.iter().enumerate() {
            let Branch::Send { .. } = branch else {
                continue;
            };
            for receive in 0..table.branches.len() {
                if let Some(pair) = table.pair(send, receive) {
                    grown |= self.overlap(pair.sending, pair.receiving)
                        && self.take_in(pair.received, pair.sent);
                }
            }
        }
        for (node, kind) in table.nodes.iter().enumerate() {
            let Node::Call { definition, .. } = *kind else {
                continue;
            };
            let arguments = &table.arguments[table.argument_range(node)];
            for (formal, &argument) in table.definitions[definition].formals().zip(arguments) {
                grown |= self.take_in(formal, argument);
            }
        }
        grown
    }

    /// Whether a name's reach grows by another's.
    fn take_in(&mut self, name: usize, other: usize) -> bool {
        let before = self.of_names[name];
        self.of_names[name] |= self.of_names[other];
        self.of_names[name] != before
    }

    /// Whether a name is in another's reach.
    pub fn reaches(&self, name: usize, other: usize) -> bool {
        self.of_names[name] & 1 << other != 0
    }

    /// Whether all that a name reaches is in another's reach.
    pub fn within(&self, name: usize, other: usize) -> bool {
        self.of_names[name] & !self.of_names[other] == 0
    }

    /// Whether two reaches have a name in common.
    pub fn overlap(&self, one: usize, other: usize) -> bool {
        self.of_names[one] & self.of_names[other] != 0
    }

    /// "A restricted name in a reach stands for all private values."
    pub(crate) fn values_of(&self, name: usize, private: Range<usize>) -> Values {
        Values::of(self.of_names[name], self.restricted, private)
    }

    /// The values that two names can both have: "A channel value is private only if both reaches
    /// share a restricted name."
    pub(crate) fn common(&self, one: usize, other: usize, private: Range<usize>) -> Values {
        let both = self.of_names[one] & self.of_names[other];
        Values::of(both, self.restricted, private)
    }
}

/// Values upward: some public ones, then all private ones or none.
#[derive(Clone, Copy, Debug, PartialEq, Eq)]
pub struct Values {
    /// Public value k at bit k.
    publics: u64,
    first_private: usize,
    /// Past the last private value.
    end: usize,
}

impl Values {
    /// Those that a set of public and restricted names stands for.
    fn of(names: u64, restricted: u64, private: Range<usize>) -> Values {
        let has_private = names & restricted != 0;
        Values {
            publics: names & !restricted,
            first_private: private.start,
            end: if has_private {
                private.end
            } else {
                private.start
            },
        }
    }

    pub fn len(&self) -> usize {
        self.public_count() + self.private_count()
    }

    pub fn is_empty(&self) -> bool {
        self.len() == 0
    }

    pub fn public_count(&self) -> usize {
        self.publics.count_ones() as usize
    }

    pub fn private_count(&self) -> usize {
        self.end - self.first_private
    }

    pub fn contains(&self, value: usize) -> bool {
        match value < self.first_private {
            true => self.publics & 1 << value != 0,
            false => value < self.end,
        }
    }

    /// How many of them are below a value.
    pub fn position(&self, value: usize) -> usize {
        match value < self.first_private {
            true => (self.publics & ((1 << value) - 1)).count_ones() as usize,
            false => self.public_count() + value - self.first_private,
        }
    }
}

impl IntoIterator for Values {
    type Item = usize;
    type IntoIter = Upward;

    fn into_iter(self) -> Upward {
        Upward {
            publics: self.publics,
            privates: self.first_private..self.end,
        }
    }
}

/// Values still to come.
pub struct Upward {
    publics: u64,
    privates: Range<usize>,
}

impl Iterator for Upward {
    type Item = usize;

    fn next(&mut self) -> Option<usize> {
        if self.publics == 0 {
            return self.privates.next();
        }
        let value = self.publics.trailing_zeros() as usize;
        self.publics &= self.publics - 1;
        Some(value)
    }
}
