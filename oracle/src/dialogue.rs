//! Random accepted tables that keep talking: the threads' bodies are written along one course of
//! the process, in which names are made, handed over, used as channels and passed in calls.

use crate::draft::{Branch, Definition, Draft, Name, Node, FORMAL, INPUT, RESTRICTED};
use crate::generate::Shape;
use crate::random::Random;

/// A table along a random course.
pub fn dialogue(random: &mut Random, shape: Shape) -> Vec<u16> {
    // Without publics no thread can speak to another.
    let least = usize::from(random.chance(90)).min(shape.publics);
    let publics = random.between(least, shape.publics);
    let threads = random.between(shape.threads.min(2), shape.threads);
    let draft = Draft::new(publics, threads, shape.self_calls);
    let mut course = Course {
        draft,
        shape,
        random,
        tips: Vec::new(),
        values: publics,
    };
    for thread in 0..threads {
        let tip = course.add_definition(thread, true, Vec::new());
        course.tips.push(tip);
    }
    for _ in 0..shape.nodes {
        course.take_step();
    }
    course.end();
    course.draft.write(course.random)
}

/// Where a thread's course has come to: a node still to be chosen.
struct Tip {
    node: usize,
    definition: usize,
    /// The held names, with the values they have on this course.
    held: Vec<(usize, usize)>,
}

struct Course<'r> {
    draft: Draft,
    shape: Shape,
    random: &'r mut Random,
    tips: Vec<Tip>,
    /// The first value not yet in use.
    values: usize,
}

impl Course<'_> {
    fn add_definition(&mut self, thread: usize, entry: bool, values: Vec<usize>) -> Tip {
        let formals = self.draft.bind(FORMAL, values.len());
        let root = self.draft.add_node();
        let held = formals.clone().zip(values).collect();
        self.draft.definitions.push(Definition {
            thread,
            entry,
            formals,
            root,
        });
        Tip {
            node: root,
            definition: self.draft.definitions.len() - 1,
            held,
        }
    }

    /// Whether so many more nodes and bound names fit.
    fn fits(&self, nodes: usize, names: usize) -> bool {
        self.draft.nodes.len() + nodes <= self.shape.nodes
            && self.draft.kinds.len() + names <= self.shape.bound
    }

    fn take_step(&mut self) {
        let thread = self.random.below(self.tips.len());
        match self.random.below(100) {
            0..=54 if self.fits(4, 2) => self.exchange(thread),
            55..=69 if self.fits(1, 1) => self.make_new(thread),
            70..=79 if self.fits(2, 1) => self.go_on(thread),
            80..=99 => self.call(thread),
            _ => {}
        }
    }

    /// The names a thread can use, with their values.
    fn known(&self, thread: usize) -> Vec<(Name, usize)> {
        let publics = (0..self.draft.publics).map(|name| (Name::Public(name), name));
        let held = self.tips[thread]
            .held
            .iter()
            .map(|&(name, value)| (Name::Bound(name), value));
        publics.chain(held).collect()
    }

    /// One of a list, a private value rather than a public one.
    fn pick_private<T: Copy>(&mut self, list: &[(T, usize)]) -> Option<(T, usize)> {
        let publics = self.draft.publics;
        let private: Vec<(T, usize)> = list
            .iter()
            .copied()
            .filter(|&(_, value)| value >= publics)
            .collect();
        let preferred = if self.random.chance(70) {
            self.random.pick(&private)
        } else {
            None
        };
        preferred.or_else(|| self.random.pick(list))
    }

    /// The thread sends on a value that another thread has too.
    fn exchange(&mut self, sender: usize) {
        let mut shared = Vec::new();
        for (sending, value) in self.known(sender) {
            for receiver in (0..self.tips.len()).filter(|&receiver| receiver != sender) {
                let known = self.known(receiver).into_iter();
                shared.extend(
                    known
                        .filter(|&(_, other)| other == value)
                        .map(|(receiving, _)| ((sending, receiver, receiving), value)),
                );
            }
        }
        let known = self.known(sender);
        let Some(((sending, receiver, receiving), value)) = self.pick_private(&shared) else {
            return;
        };
        let Some((sent, sent_value)) = self.pick_private(&known) else {
            return;
        };
        let on_itself = self.random.chance(10);
        let (sent, sent_value) = if on_itself {
            (sending, value)
        } else {
            (sent, sent_value)
        };
        let name = self.draft.bind(INPUT, 1).start;
        let next = self.draft.add_node();
        self.choose(
            sender,
            Branch::Send {
                channel: sending,
                name: sent,
                next,
            },
            next,
        );
        let next = self.draft.add_node();
        self.choose(
            receiver,
            Branch::Receive {
                channel: receiving,
                name,
                next,
            },
            next,
        );
        self.tips[receiver].held.push((name, sent_value));
    }

    /// The tip becomes a choice with this branch, now and then beside another.
    fn choose(&mut self, thread: usize, branch: Branch, next: usize) {
        let mut branches = vec![branch];
        if self.fits(2, 1) && self.random.chance(25) {
            branches.push(self.other_branch(thread));
            self.random.shuffle(&mut branches);
        }
        self.draft.nodes[self.tips[thread].node] = Node::Choice(branches);
        self.tips[thread].node = next;
    }

    /// A branch that leaves the course.
    fn other_branch(&mut self, thread: usize) -> Branch {
        let known = self.known(thread);
        let next = self.draft.add_node();
        self.draft.nodes[next] = self.last_call(thread).unwrap_or(Node::Stop);
        let channel = if self.random.chance(30) {
            None
        } else {
            self.pick_private(&known)
        };
        match channel {
            None => Branch::Silent { next },
            Some((channel, _)) if self.random.chance(40) => {
                let name = self.draft.bind(INPUT, 1).start;
                Branch::Receive {
                    channel,
                    name,
                    next,
                }
            }
            Some((channel, _)) => {
                let (name, _) = self.pick_private(&known).unwrap_or((channel, 0));
                Branch::Send {
                    channel,
                    name,
                    next,
                }
            }
        }
    }

    fn make_new(&mut self, thread: usize) {
        let name = self.draft.bind(RESTRICTED, 1).start;
        let child = self.draft.add_node();
        self.draft.nodes[self.tips[thread].node] = Node::New { name, child };
        self.tips[thread].node = child;
        self.tips[thread].held.push((name, self.values));
        self.values += 1;
    }

    fn go_on(&mut self, thread: usize) {
        let next = self.draft.add_node();
        self.choose(thread, Branch::Silent { next }, next);
    }

    /// The thread goes on in a fresh definition.
    fn call(&mut self, thread: usize) {
        let known = self.known(thread);
        let most = if known.is_empty() {
            0
        } else {
            self.shape.formals
        };
        let count = self.random.between(0, most);
        let definitions = self.shape.extra_definitions + self.draft.threads;
        if !self.fits(1, count)
            || self.draft.definitions.len() >= definitions
            || self.draft.arguments + count > 256
        {
            return;
        }
        let arguments: Vec<(Name, usize)> = (0..count)
            .filter_map(|_| self.pick_private(&known))
            .collect();
        let values = arguments.iter().map(|&(_, value)| value).collect();
        let tip = self.add_definition(thread, false, values);
        let arguments: Vec<Name> = arguments.into_iter().map(|(name, _)| name).collect();
        self.draft.arguments += count;
        self.draft.nodes[self.tips[thread].node] = Node::Call {
            definition: tip.definition,
            arguments,
        };
        self.tips[thread] = tip;
    }

    /// Every thread ends with a Stop or a call of what it has been through.
    fn end(&mut self) {
        for thread in 0..self.tips.len() {
            if self.random.chance(70) {
                let node = self.last_call(thread).unwrap_or(Node::Stop);
                self.draft.nodes[self.tips[thread].node] = node;
            }
        }
    }

    fn last_call(&mut self, thread: usize) -> Option<Node> {
        let known = self.known(thread);
        let callable = self
            .draft
            .callable(self.tips[thread].definition, !known.is_empty());
        let definition = self.random.pick(&callable)?;
        let count = self.draft.definitions[definition].formals.len();
        let arguments: Vec<(Name, usize)> = (0..count)
            .filter_map(|_| self.pick_private(&known))
            .collect();
        self.draft.arguments += count;
        let arguments = arguments.into_iter().map(|(name, _)| name).collect();
        Some(Node::Call {
            definition,
            arguments,
        })
    }
}
