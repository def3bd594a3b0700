//! Document 01, "Process table" and causes 1 to 9: the check and the decoded table.

use std::ops::Range;

use crate::decode::Sections;

/// "The header has 13 words".
pub const HEADER_WORDS: usize = 13;

/// "Bounds: P, B and D at most 32; T 1 to 8; M 1 to 256; C and A at most 256."
pub const BOUNDS: [(usize, usize); 7] = [
    (0, 32),
    (0, 32),
    (0, 32),
    (1, 8),
    (1, 256),
    (0, 256),
    (0, 256),
];

/// "names: B words, 0 restricted, 1 input, 2 formal".
#[derive(Clone, Copy, Debug, PartialEq, Eq)]
pub enum NameKind {
    Restricted,
    Input,
    Formal,
}

/// "definitions: 4 words: thread, root node, first formal (a name number), formal count".
#[derive(Clone, Copy, Debug, PartialEq, Eq)]
pub struct Definition {
    pub thread: usize,
    pub root: usize,
    pub first_formal: usize,
    pub formal_count: usize,
}

/// "nodes: 3 words. 0 Stop 0 0; 1 Choice, first branch, count; 2 New, name, child; 3 Call,
/// definition, first argument".
#[derive(Clone, Copy, Debug, PartialEq, Eq)]
pub enum Node {
    Stop,
    Choice {
        first: usize,
        count: usize,
    },
    New {
        name: usize,
        child: usize,
    },
    Call {
        definition: usize,
        first_argument: usize,
    },
}

/// "branches: 4 words: kind, channel, name, next node. 0 silent (channel and name 0), 1 send,
/// 2 receive".
#[derive(Clone, Copy, Debug, PartialEq, Eq)]
pub enum Branch {
    Silent {
        next: usize,
    },
    Send {
        channel: usize,
        name: usize,
        next: usize,
    },
    Receive {
        channel: usize,
        name: usize,
        next: usize,
    },
}

impl Branch {
    pub fn next(&self) -> usize {
        match *self {
            Branch::Silent { next } => next,
            Branch::Send { next, .. } => next,
            Branch::Receive { next, .. } => next,
        }
    }

    /// The name a branch binds.
    pub(crate) fn binds(&self) -> Option<usize> {
        match *self {
            Branch::Receive { name, .. } => Some(name),
            _ => None,
        }
    }
}

impl Definition {
    pub fn formals(&self) -> Range<usize> {
        self.first_formal..self.first_formal + self.formal_count
    }
}

/// A decoded table. `owners`, `held` and `standing` are filled when causes 1 to 7 are past.
#[derive(Clone, Debug)]
pub struct Table {
    /// P; "Public names are numbered 0 to P−1, bound names from P."
    pub publics: usize,
    /// The kind of each bound name, name P first.
    pub names: Vec<NameKind>,
    pub definitions: Vec<Definition>,
    /// "threads: the entry definition".
    pub entries: Vec<usize>,
    pub nodes: Vec<Node>,
    pub branches: Vec<Branch>,
    pub arguments: Vec<usize>,
    /// The definition whose body each node is in.
    pub owners: Vec<usize>,
    /// The held names of each node, in held order.
    pub held: Vec<Vec<usize>>,
    /// The Choice node of each branch.
    pub standing: Vec<usize>,
}

/// The channels of a send and a receive, the name sent and the name that takes its value.
#[derive(Clone, Copy, Debug)]
pub struct Pair {
    pub sending: usize,
    pub sent: usize,
    pub receiving: usize,
    pub received: usize,
}

/// 0 for an accepted table, else the cause, 1 to 9.
pub fn check(words: &[u16]) -> u32 {
    match accept(words) {
        Ok(_) => 0,
        Err(cause) => cause,
    }
}

/// "Checked in number order save as said below, each over the whole table before the next."
pub fn accept(words: &[u16]) -> Result<Table, u32> {
    let table = accept_sparing(words)?;
    require(
        !(0..table.nodes.len()).any(|node| table.calls_itself(node)),
        9,
    )?;
    Ok(table)
}

/// A college's own table: "Only here and in the listing, which rewrites first, does cause 9 spare
/// self-calls." (document 02, item 1)
pub fn accept_sparing(words: &[u16]) -> Result<Table, u32> {
    let sections = Sections::cut(words)?;
    let mut table = sections.decode().ok_or(4u32)?;
    require(table.numbers_lie_in_sections(), 5)?;
    require(table.nodes_form_bodies(), 6)?;
    require(table.names_are_bound_once(), 7)?;
    table.descend();
    require(table.used_names_are_held(), 8)?;
    require(table.entries_and_calls_are_allowed(), 9)?;
    Ok(table)
}

pub(crate) fn require(holds: bool, cause: u32) -> Result<(), u32> {
    if holds {
        Ok(())
    } else {
        Err(cause)
    }
}

impl Table {
    /// "A node's held names are its definition's formals in order, then the names bound by New
    /// and receive on the way down from the root." A parent's number is below its children's.
    pub(crate) fn descend(&mut self) {
        self.owners = vec![0; self.nodes.len()];
        self.held = vec![Vec::new(); self.nodes.len()];
        self.standing = vec![0; self.branches.len()];
        for (number, definition) in self.definitions.iter().enumerate() {
            self.owners[definition.root] = number;
            self.held[definition.root] = definition.formals().collect();
        }
        for node in 0..self.nodes.len() {
            for branch in self.branch_range(node) {
                self.standing[branch] = node;
            }
            for (child, bound) in self.children(node) {
                self.owners[child] = self.owners[node];
                self.held[child] = self.held[node].iter().copied().chain(bound).collect();
            }
        }
    }

    /// P+B.
    pub fn name_count(&self) -> usize {
        self.publics + self.names.len()
    }

    pub(crate) fn is_name(&self, name: usize) -> bool {
        name < self.name_count()
    }

    pub fn is_bound(&self, name: usize) -> bool {
        self.publics <= name && self.is_name(name)
    }

    pub fn is_restricted(&self, name: usize) -> bool {
        self.is_bound(name) && self.names[name - self.publics] == NameKind::Restricted
    }

    /// The bound names, P to P+B−1.
    pub fn bound_names(&self) -> Range<usize> {
        self.publics..self.name_count()
    }

    /// The bound names that are not restricted.
    pub fn inputs_and_formals(&self) -> impl Iterator<Item = usize> + '_ {
        self.bound_names().filter(|&name| !self.is_restricted(name))
    }

    /// The branches of a Choice; none elsewhere.
    pub fn branch_range(&self, node: usize) -> Range<usize> {
        match self.nodes[node] {
            Node::Choice { first, count } => first..first + count,
            _ => 0..0,
        }
    }

    /// The arguments of a Call of formals; none elsewhere. "arguments: names, one per formal of
    /// the definition called".
    pub fn argument_range(&self, node: usize) -> Range<usize> {
        match self.nodes[node] {
            Node::Call {
                definition,
                first_argument,
            } => first_argument..first_argument + self.definitions[definition].formal_count,
            _ => 0..0,
        }
    }

    /// Each child of a node, with the name the node binds on the way to it.
    pub(crate) fn children(&self, node: usize) -> Vec<(usize, Option<usize>)> {
        match self.nodes[node] {
            Node::New { name, child } => vec![(child, Some(name))],
            _ => self.branches[self.branch_range(node)]
                .iter()
                .map(|branch| (branch.next(), branch.binds()))
                .collect(),
        }
    }

    /// Whether a node is a Call of the definition that it is in.
    pub fn calls_itself(&self, node: usize) -> bool {
        matches!(self.nodes[node], Node::Call { definition, .. } if definition == self.owners[node])
    }

    /// The definitions "with a direct self-call", in order.
    pub fn self_calling(&self) -> Vec<usize> {
        let mut definitions: Vec<usize> = (0..self.nodes.len())
            .filter(|&node| self.calls_itself(node))
            .map(|node| self.owners[node])
            .collect();
        definitions.sort_unstable();
        definitions.dedup();
        definitions
    }

    /// The thread a node belongs to.
    pub fn thread(&self, node: usize) -> usize {
        self.definitions[self.owners[node]].thread
    }

    /// The names of a send and a receive of different threads.
    pub fn pair(&self, send: usize, receive: usize) -> Option<Pair> {
        let Branch::Send {
            channel: sending,
            name: sent,
            ..
        } = *self.branches.get(send)?
        else {
            return None;
        };
        let Branch::Receive {
            channel: receiving,
            name: received,
            ..
        } = *self.branches.get(receive)?
        else {
            return None;
        };
        let threads = [send, receive].map(|branch| self.thread(self.standing[branch]));
        (threads[0] != threads[1]).then_some(Pair {
            sending,
            sent,
            receiving,
            received,
        })
    }
}
