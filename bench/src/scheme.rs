//! Schemes as bodies, and their tables.

use oracle::generate::encode;

/// What stands at a node.
pub enum Body {
    Call {
        definition: usize,
        arguments: Vec<usize>,
    },
    New {
        name: usize,
        child: Box<Body>,
    },
    Choice(Vec<(Action, Body)>),
}

pub enum Action {
    Silent,
    Send { channel: usize, name: usize },
    Receive { channel: usize, name: usize },
}

/// The kinds of bound names.
pub const RESTRICTED: u16 = 0;
pub const INPUT: u16 = 1;
pub const FORMAL: u16 = 2;

/// A scheme being written: definitions by number, bound names by number from P.
pub struct Scheme {
    publics: usize,
    kinds: Vec<u16>,
    definitions: Vec<Vec<u16>>,
    entries: Vec<u16>,
    nodes: Vec<[u16; 3]>,
    branches: Vec<[u16; 4]>,
    arguments: Vec<u16>,
}

impl Scheme {
    pub fn new(publics: usize) -> Scheme {
        Scheme {
            publics,
            kinds: Vec::new(),
            definitions: Vec::new(),
            entries: Vec::new(),
            nodes: Vec::new(),
            branches: Vec::new(),
            arguments: Vec::new(),
        }
    }

    /// A new bound name.
    pub fn name(&mut self, kind: u16) -> usize {
        self.kinds.push(kind);
        self.publics + self.kinds.len() - 1
    }

    /// A new thread, which starts at the next definition.
    pub fn thread(&mut self) {
        self.entries.push(self.definitions.len() as u16);
    }

    /// The number of the next definition.
    pub fn next_definition(&self) -> usize {
        self.definitions.len()
    }

    /// A new definition of the latest thread, with a formal or none.
    pub fn define(&mut self, formal: Option<usize>, body: Body) {
        let thread = self.entries.len() - 1;
        let root = self.write(body);
        let (first, count) = formal.map_or((0, 0), |name| (name, 1));
        let words = [thread, root, first, count].map(|word| word as u16);
        self.definitions.push(words.to_vec());
    }

    /// Numbers a body's nodes from the top down, and answers the first number.
    fn write(&mut self, body: Body) -> usize {
        let number = self.nodes.len();
        self.nodes.push([0; 3]);
        let words = match body {
            Body::Call {
                definition,
                arguments,
            } => {
                let first = match arguments.len() {
                    0 => 0,
                    _ => self.arguments.len(),
                };
                self.arguments
                    .extend(arguments.iter().map(|&name| name as u16));
                [3, definition, first]
            }
            Body::New { name, child } => [2, name, self.write(*child)],
            Body::Choice(choices) => self.write_choice(choices),
        };
        self.nodes[number] = words.map(|word| word as u16);
        number
    }

    fn write_choice(&mut self, choices: Vec<(Action, Body)>) -> [usize; 3] {
        let (first, count) = (self.branches.len(), choices.len());
        self.branches.resize(first + count, [0; 4]);
        for (branch, (action, body)) in (first..).zip(choices) {
            let next = self.write(body);
            let words = match action {
                Action::Silent => [0, 0, 0, next],
                Action::Send { channel, name } => [1, channel, name, next],
                Action::Receive { channel, name } => [2, channel, name, next],
            };
            self.branches[branch] = words.map(|word| word as u16);
        }
        [1, first, count]
    }

    /// The words of the table.
    pub fn table(self) -> Vec<u16> {
        let sections = [
            self.kinds,
            self.definitions.concat(),
            self.entries,
            self.nodes.concat(),
            self.branches.concat(),
            self.arguments,
        ];
        encode(self.publics, sections)
    }
}

/// One action, then a body.
pub fn then(action: Action, body: Body) -> Body {
    Body::Choice(vec![(action, body)])
}

pub fn call(definition: usize, arguments: &[usize]) -> Body {
    Body::Call {
        definition,
        arguments: arguments.to_vec(),
    }
}

pub fn send(channel: usize, name: usize) -> Action {
    Action::Send { channel, name }
}

pub fn receive(channel: usize, name: usize) -> Action {
    Action::Receive { channel, name }
}

/// ν name, then a body.
pub fn new(name: usize, body: Body) -> Body {
    Body::New {
        name,
        child: Box::new(body),
    }
}
