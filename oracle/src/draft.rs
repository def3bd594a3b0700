//! A table being drafted: bodies as trees, numbered and written as words in the end.

use std::ops::Range;

use crate::encode::encode;
use crate::random::Random;

/// A name before numbering.
#[derive(Clone, Copy, PartialEq, Eq)]
pub(crate) enum Name {
    Public(usize),
    Bound(usize),
}

/// A node before numbering; children, definitions and names by draft number.
pub(crate) enum Node {
    Stop,
    Choice(Vec<Branch>),
    New {
        name: usize,
        child: usize,
    },
    Call {
        definition: usize,
        arguments: Vec<Name>,
    },
}

pub(crate) enum Branch {
    Silent {
        next: usize,
    },
    Send {
        channel: Name,
        name: Name,
        next: usize,
    },
    Receive {
        channel: Name,
        name: usize,
        next: usize,
    },
}

pub(crate) struct Definition {
    pub thread: usize,
    pub entry: bool,
    pub formals: Range<usize>,
    pub root: usize,
}

pub(crate) const RESTRICTED: u16 = 0;
pub(crate) const INPUT: u16 = 1;
pub(crate) const FORMAL: u16 = 2;

#[derive(Default)]
pub(crate) struct Draft {
    pub publics: usize,
    pub threads: usize,
    /// The kind word of each bound name.
    pub kinds: Vec<u16>,
    /// Bound names whose numbers stay together: a definition's formals, or one name.
    blocks: Vec<Range<usize>>,
    pub definitions: Vec<Definition>,
    pub nodes: Vec<Node>,
    /// Arguments of all calls.
    pub arguments: usize,
    /// Whether a definition may call itself.
    self_calls: bool,
}

impl Draft {
    pub fn new(publics: usize, threads: usize, self_calls: bool) -> Draft {
        Draft {
            publics,
            threads,
            self_calls,
            ..Draft::default()
        }
    }

    /// Fresh bound names of a kind, numbered together.
    pub fn bind(&mut self, kind: u16, count: usize) -> Range<usize> {
        let names = self.kinds.len()..self.kinds.len() + count;
        self.kinds.extend(names.clone().map(|_| kind));
        if count > 0 {
            self.blocks.push(names.clone());
        }
        names
    }

    /// A Stop, to be replaced or not.
    pub fn add_node(&mut self) -> usize {
        self.nodes.push(Node::Stop);
        self.nodes.len() - 1
    }

    /// The definitions a definition may call, where names for arguments can be had or not.
    pub fn callable(&self, caller: usize, names: bool) -> Vec<usize> {
        let allowed = |&called: &usize| {
            let count = self.definitions[called].formals.len();
            (called != caller || self.self_calls)
                && self.definitions[called].thread == self.definitions[caller].thread
                && (count == 0 || names)
                && self.arguments + count <= 256
        };
        (0..self.definitions.len()).filter(allowed).collect()
    }

    pub fn write(&self, random: &mut Random) -> Vec<u16> {
        let order = self.order_nodes(random);
        let mut numbers = vec![0; self.nodes.len()];
        for (number, &node) in order.iter().enumerate() {
            numbers[node] = number;
        }
        let names = self.number_names(random);
        let mut writer = Writer {
            names,
            numbers,
            nodes: vec![],
            branches: vec![],
            arguments: vec![],
        };
        for &node in &order {
            writer.write_node(&self.nodes[node]);
        }
        let mut kinds = vec![0; self.kinds.len()];
        for (name, &kind) in self.kinds.iter().enumerate() {
            kinds[writer.names[name] - self.publics] = kind;
        }
        let definitions = self
            .definitions
            .iter()
            .flat_map(|definition| writer.definition_words(definition));
        let definitions = definitions.collect();
        let Writer {
            nodes,
            branches,
            arguments,
            ..
        } = writer;
        encode(
            self.publics,
            [
                kinds,
                definitions,
                self.entry_words(),
                nodes,
                branches,
                arguments,
            ],
        )
    }

    /// Numbers of the bound names, the blocks in random order.
    fn number_names(&self, random: &mut Random) -> Vec<usize> {
        let mut blocks = self.blocks.clone();
        random.shuffle(&mut blocks);
        let mut names = vec![0; self.kinds.len()];
        for (place, name) in blocks.into_iter().flatten().enumerate() {
            names[name] = self.publics + place;
        }
        names
    }

    /// A random order of the nodes with every child after its parent.
    fn order_nodes(&self, random: &mut Random) -> Vec<usize> {
        let mut ready: Vec<usize> = self
            .definitions
            .iter()
            .map(|definition| definition.root)
            .collect();
        let mut order = Vec::new();
        while !ready.is_empty() {
            let at = random.below(ready.len());
            let node = ready.swap_remove(at);
            order.push(node);
            match &self.nodes[node] {
                Node::Stop | Node::Call { .. } => {}
                Node::New { child, .. } => ready.push(*child),
                Node::Choice(branches) => ready.extend(branches.iter().map(Branch::next)),
            }
        }
        order
    }

    fn entry_words(&self) -> Vec<u16> {
        let entry = |thread: usize| {
            let is_entry =
                |definition: &Definition| definition.entry && definition.thread == thread;
            self.definitions.iter().position(is_entry).unwrap_or(0) as u16
        };
        (0..self.threads).map(entry).collect()
    }
}

impl Branch {
    fn next(&self) -> usize {
        match *self {
            Branch::Silent { next } => next,
            Branch::Send { next, .. } => next,
            Branch::Receive { next, .. } => next,
        }
    }
}

/// The numbers given, and the sections being written in node order.
struct Writer {
    names: Vec<usize>,
    numbers: Vec<usize>,
    nodes: Vec<u16>,
    branches: Vec<u16>,
    arguments: Vec<u16>,
}

impl Writer {
    fn name(&self, name: Name) -> u16 {
        match name {
            Name::Public(name) => name as u16,
            Name::Bound(name) => self.names[name] as u16,
        }
    }

    fn definition_words(&self, definition: &Definition) -> [u16; 4] {
        let formals = &definition.formals;
        let first = if formals.is_empty() {
            0
        } else {
            self.names[formals.start]
        };
        let root = self.numbers[definition.root];
        [
            definition.thread as u16,
            root as u16,
            first as u16,
            formals.len() as u16,
        ]
    }

    fn write_node(&mut self, node: &Node) {
        let words = match node {
            Node::Stop => [0, 0, 0],
            Node::New { name, child } => [2, self.names[*name] as u16, self.numbers[*child] as u16],
            Node::Choice(branches) => {
                let first = self.branches.len() / 4;
                for branch in branches {
                    let words = self.branch_words(branch);
                    self.branches.extend(words);
                }
                [1, first as u16, branches.len() as u16]
            }
            Node::Call {
                definition,
                arguments,
            } => {
                let first = if arguments.is_empty() {
                    0
                } else {
                    self.arguments.len()
                };
                let words: Vec<u16> = arguments.iter().map(|&name| self.name(name)).collect();
                self.arguments.extend(words);
                [3, *definition as u16, first as u16]
            }
        };
        self.nodes.extend(words);
    }

    fn branch_words(&self, branch: &Branch) -> [u16; 4] {
        let next = self.numbers[branch.next()] as u16;
        match *branch {
            Branch::Silent { .. } => [0, 0, 0, next],
            Branch::Send { channel, name, .. } => [1, self.name(channel), self.name(name), next],
            Branch::Receive { channel, name, .. } => {
                [2, self.name(channel), self.names[name] as u16, next]
            }
        }
    }
}
