//! Random accepted tables.

use crate::dialogue::dialogue;
use crate::draft::{Branch, Definition, Draft, Name, Node, FORMAL, INPUT, RESTRICTED};
use crate::random::Random;
use crate::table::check;

pub use crate::encode::encode;

/// The most a table may have of each thing, within document 01's bounds.
#[derive(Clone, Copy, Debug)]
pub struct Shape {
    pub publics: usize,
    pub bound: usize,
    pub threads: usize,
    /// Definitions besides the threads' entries.
    pub extra_definitions: usize,
    /// Formals of one definition.
    pub formals: usize,
    pub nodes: usize,
    /// Branches of one choice.
    pub branches: usize,
    pub depth: usize,
    /// Whether definitions call themselves, which document 02's rewriting accepts.
    pub self_calls: bool,
}

impl Shape {
    pub const SMALL: Shape = Shape {
        publics: 2,
        bound: 6,
        threads: 3,
        extra_definitions: 4,
        formals: 2,
        nodes: 24,
        branches: 3,
        depth: 6,
        self_calls: false,
    };

    pub const WIDE: Shape = Shape {
        publics: 4,
        bound: 14,
        threads: 8,
        extra_definitions: 8,
        formals: 4,
        nodes: 60,
        branches: 4,
        depth: 9,
        self_calls: false,
    };

    /// Up to document 01's own bounds.
    pub const FULL: Shape = Shape {
        publics: 32,
        bound: 32,
        threads: 8,
        extra_definitions: 24,
        formals: 6,
        nodes: 256,
        branches: 8,
        depth: 14,
        self_calls: false,
    };
}

/// The words of a random table that document 01 accepts, or in which some definition calls itself
/// and all else is right: of bodies grown at random, or of a dialogue.
pub fn accepted(random: &mut Random, shape: Shape) -> Vec<u16> {
    loop {
        let words = if random.chance(40) {
            dialogue(random, shape)
        } else {
            grown(random, shape)
        };
        if !shape.self_calls || check(&words) == 9 {
            return words;
        }
    }
}

/// A table of bodies grown at random.
pub fn grown(random: &mut Random, shape: Shape) -> Vec<u16> {
    let publics = random.between(0, shape.publics);
    let threads = random.between(1, shape.threads);
    // Now and then a table without bound names.
    let bound = if random.chance(5) { 0 } else { shape.bound };
    let mut grower = Grower {
        draft: Draft::new(publics, threads, shape.self_calls),
        shape: Shape { bound, ..shape },
        random,
        roots: 0,
        promised: 0,
        node_limit: 0,
        name_limit: 0,
    };
    grower.make_definitions();
    grower.make_bodies();
    grower.draft.write(grower.random)
}

struct Grower<'r> {
    draft: Draft,
    shape: Shape,
    random: &'r mut Random,
    /// Roots still to be made.
    roots: usize,
    /// Nodes still to be made in the body being grown.
    promised: usize,
    /// How many nodes and bound names there may be when this body is grown.
    node_limit: usize,
    name_limit: usize,
}

impl Grower<'_> {
    fn make_definitions(&mut self) {
        let extra = self.random.between(0, self.shape.extra_definitions);
        let mut places: Vec<(usize, bool)> = (0..self.draft.threads)
            .map(|thread| (thread, true))
            .collect();
        for _ in 0..extra {
            places.push((self.random.below(self.draft.threads), false));
        }
        self.random.shuffle(&mut places);
        for (thread, entry) in places {
            // Formals take at most half of the bound names.
            let room = self
                .shape
                .formals
                .min(self.shape.bound / 2 - self.draft.kinds.len());
            let count = if entry {
                0
            } else {
                self.random.between(0, room)
            };
            let formals = self.draft.bind(FORMAL, count);
            self.draft.definitions.push(Definition {
                thread,
                entry,
                formals,
                root: 0,
            });
        }
    }

    fn make_bodies(&mut self) {
        self.roots = self.draft.definitions.len();
        for definition in 0..self.draft.definitions.len() {
            let held: Vec<usize> = self.draft.definitions[definition].formals.clone().collect();
            let depth = if self.random.chance(15) {
                0
            } else {
                self.shape.depth
            };
            self.limit_body();
            self.roots -= 1;
            self.promised = 1;
            self.draft.definitions[definition].root = self.grow(definition, &held, depth);
        }
    }

    /// Each body gets at most about twice its share of the nodes and names left.
    fn limit_body(&mut self) {
        let nodes = (self.shape.nodes - self.draft.nodes.len()) / self.roots;
        let names = self.shape.bound - self.draft.kinds.len();
        let share = names.min(2 * names / self.roots + 1);
        self.node_limit = self.draft.nodes.len() + self.random.between(1, 2 * nodes);
        self.name_limit = self.draft.kinds.len() + self.random.between(0, share);
    }

    fn may_bind(&self) -> bool {
        self.draft.kinds.len() < self.name_limit
    }

    fn grow(&mut self, definition: usize, held: &[usize], depth: usize) -> usize {
        self.promised -= 1;
        let number = self.draft.add_node();
        let used = self.draft.nodes.len() + self.promised;
        let room = self
            .node_limit
            .min(self.shape.nodes - self.roots)
            .saturating_sub(used);
        self.draft.nodes[number] = match self.random.below(100) {
            _ if room == 0 || depth == 0 => self.leaf(definition, held),
            0..=9 => self.leaf(definition, held),
            10..=29 if self.may_bind() => self.make_new(definition, held, depth),
            _ => self.choice(definition, held, depth, room),
        };
        number
    }

    /// A Stop, or a call of another definition of the thread.
    fn leaf(&mut self, caller: usize, held: &[usize]) -> Node {
        let names = self.draft.publics > 0 || !held.is_empty();
        let callable = self.draft.callable(caller, names);
        let Some(definition) = self.random.pick(&callable) else {
            return Node::Stop;
        };
        if self.random.chance(30) {
            return Node::Stop;
        }
        let count = self.draft.definitions[definition].formals.len();
        let arguments = (0..count).filter_map(|_| self.use_name(held)).collect();
        self.draft.arguments += count;
        Node::Call {
            definition,
            arguments,
        }
    }

    fn make_new(&mut self, definition: usize, held: &[usize], depth: usize) -> Node {
        let name = self.draft.bind(RESTRICTED, 1).start;
        self.promised += 1;
        let child = self.grow(definition, &with(held, name), depth - 1);
        Node::New { name, child }
    }

    fn choice(&mut self, definition: usize, held: &[usize], depth: usize, room: usize) -> Node {
        let count = self.random.between(1, self.shape.branches.min(room));
        self.promised += count;
        Node::Choice(
            (0..count)
                .map(|_| self.branch(definition, held, depth))
                .collect(),
        )
    }

    fn branch(&mut self, definition: usize, held: &[usize], depth: usize) -> Branch {
        let channel = if self.random.chance(15) {
            None
        } else {
            self.use_name(held)
        };
        let Some(channel) = channel else {
            return Branch::Silent {
                next: self.grow(definition, held, depth - 1),
            };
        };
        if self.random.chance(50) && self.may_bind() {
            let name = self.draft.bind(INPUT, 1).start;
            let next = self.grow(definition, &with(held, name), depth - 1);
            return Branch::Receive {
                channel,
                name,
                next,
            };
        }
        let on_itself = self.random.chance(15);
        let sent = if on_itself { None } else { self.use_name(held) };
        let name = sent.unwrap_or(channel);
        Branch::Send {
            channel,
            name,
            next: self.grow(definition, held, depth - 1),
        }
    }

    /// A public or held name: publics half of the time, else often the latest held name.
    fn use_name(&mut self, held: &[usize]) -> Option<Name> {
        let public = held.is_empty() || self.random.chance(50);
        if public && self.draft.publics > 0 {
            return Some(Name::Public(self.random.below(self.draft.publics)));
        }
        let latest = if self.random.chance(50) {
            held.last().copied()
        } else {
            None
        };
        latest.or_else(|| self.random.pick(held)).map(Name::Bound)
    }
}

fn with(held: &[usize], name: usize) -> Vec<usize> {
    held.iter().copied().chain([name]).collect()
}
