//! Document 02, item 1: the rewriting step for definitions that call themselves, and what its
//! numbers were in the college's own table.

use crate::process::write_words;
use crate::table::{accept_sparing, Branch, Definition, Node, Table, BOUNDS};

/// Writes the rewritten table of `words` to `out` and answers its length in words; causes 1 to 9
/// with self-calls spared, 2, 10. "After the other causes, a rewritten table beyond a bound is
/// refused with 2, then one that doesn't fit the lent table with 10."
pub fn rewrite(words: &[u16], out: &mut [u16]) -> Result<usize, u32> {
    write_words(&rewritten(words)?, out)
}

/// The words of the rewritten table; causes 1 to 9 with self-calls spared, 2.
pub fn rewritten(words: &[u16]) -> Result<Vec<u16>, u32> {
    Ok(within_bounds(words)?.table.words())
}

/// What a node of the rewritten table was in the college's: "a copy's nodes, branches and names can
/// be read back as their originals, others as themselves; a number the rewritten table doesn't have
/// is refused with 5, last." Causes 1 to 9 with self-calls spared, 2, 5.
pub fn original_node(words: &[u16], node: u32) -> Result<u32, u32> {
    original(&within_bounds(words)?.nodes, node)
}

/// What a branch of the rewritten table was.
pub fn original_branch(words: &[u16], branch: u32) -> Result<u32, u32> {
    original(&within_bounds(words)?.branches, branch)
}

/// What a name of the rewritten table was; a public is itself.
pub fn original_name(words: &[u16], name: u32) -> Result<u32, u32> {
    original(&within_bounds(words)?.names, name)
}

fn original(originals: &[usize], number: u32) -> Result<u32, u32> {
    match originals.get(number as usize) {
        Some(&original) => Ok(original as u32),
        None => Err(5),
    }
}

/// The rewriting of an accepted table, unless a count is beyond its bound (2).
fn within_bounds(words: &[u16]) -> Result<Rewriting, u32> {
    let rewriting = Rewriting::of(&accept_sparing(words)?);
    let table = &rewriting.table;
    let counts = [
        table.publics,
        table.names.len(),
        table.definitions.len(),
        table.entries.len(),
        table.nodes.len(),
        table.branches.len(),
        table.arguments.len(),
    ];
    let within = counts
        .iter()
        .zip(BOUNDS)
        .all(|(&count, (_, high))| count <= high);
    if within {
        Ok(rewriting)
    } else {
        Err(2)
    }
}

/// A rewritten table, with the original of each name (publics too), node and branch.
struct Rewriting {
    table: Table,
    names: Vec<usize>,
    nodes: Vec<usize>,
    branches: Vec<usize>,
}

impl Rewriting {
    /// "Each definition with a direct self-call gets a copy, appended in definition order".
    fn of(college: &Table) -> Rewriting {
        let mut rewriting = Rewriting {
            table: college.clone(),
            names: (0..college.name_count()).collect(),
            nodes: (0..college.nodes.len()).collect(),
            branches: (0..college.branches.len()).collect(),
        };
        for definition in college.self_calling() {
            rewriting.append(college, definition);
        }
        rewriting.table.descend();
        rewriting
    }

    /// "with its names, nodes, branches and arguments appended in their old order. Self-calls of
    /// the original go to the copy, those of the copy to the original. Other calls keep their
    /// target."
    fn append(&mut self, college: &Table, definition: usize) {
        let body = Body::of(college, definition);
        let copy = Copied {
            body: &body,
            first_name: self.names.len(),
            first_node: self.nodes.len(),
            first_branch: self.branches.len(),
            first_argument: self.table.arguments.len(),
        };
        let table = &mut self.table;
        for &node in &body.nodes {
            match &mut table.nodes[node] {
                Node::Call { definition, .. } if college.calls_itself(node) => {
                    *definition = table.definitions.len();
                }
                _ => {}
            }
        }
        let kind = |&name: &usize| college.names[name - college.publics];
        table.names.extend(body.names.iter().map(kind));
        table
            .definitions
            .push(copy.definition(&college.definitions[definition]));
        let node = |&node: &usize| copy.node(college, node);
        table.nodes.extend(body.nodes.iter().map(node));
        let branch = |&branch: &usize| copy.branch(&college.branches[branch]);
        table.branches.extend(body.branches.iter().map(branch));
        let argument = |&argument: &usize| copy.name(college.arguments[argument]);
        table.arguments.extend(body.arguments.iter().map(argument));
        self.names.extend(&body.names);
        self.nodes.extend(&body.nodes);
        self.branches.extend(&body.branches);
    }
}

/// The numbers of a definition's names, nodes, branches and arguments, ascending.
struct Body {
    names: Vec<usize>,
    nodes: Vec<usize>,
    branches: Vec<usize>,
    arguments: Vec<usize>,
}

impl Body {
    /// Branch and argument ranges are consecutive in node order, so they ascend with the nodes.
    fn of(table: &Table, definition: usize) -> Body {
        let nodes: Vec<usize> = (0..table.nodes.len())
            .filter(|&node| table.owners[node] == definition)
            .collect();
        let bound = nodes.iter().flat_map(|&node| table.children(node));
        let mut names: Vec<usize> = table.definitions[definition]
            .formals()
            .chain(bound.filter_map(|(_, name)| name))
            .collect();
        names.sort_unstable();
        Body {
            names,
            branches: nodes
                .iter()
                .flat_map(|&node| table.branch_range(node))
                .collect(),
            arguments: nodes
                .iter()
                .flat_map(|&node| table.argument_range(node))
                .collect(),
            nodes,
        }
    }
}

/// The numbers that a copied body gets.
struct Copied<'a> {
    body: &'a Body,
    first_name: usize,
    first_node: usize,
    first_branch: usize,
    first_argument: usize,
}

impl Copied<'_> {
    /// A public keeps its number. A bound name used in a body is held there, so it is the body's.
    fn name(&self, name: usize) -> usize {
        numbered(&self.body.names, self.first_name, name)
    }

    fn node_number(&self, node: usize) -> usize {
        numbered(&self.body.nodes, self.first_node, node)
    }

    /// "First formal is 0 where there are no formals", whatever name 0 is.
    fn definition(&self, definition: &Definition) -> Definition {
        Definition {
            root: self.node_number(definition.root),
            first_formal: match definition.formal_count {
                0 => 0,
                _ => self.name(definition.first_formal),
            },
            ..*definition
        }
    }

    /// A Call keeps its target: one of the definition itself now leads to the original.
    fn node(&self, college: &Table, node: usize) -> Node {
        match college.nodes[node] {
            Node::Stop => Node::Stop,
            Node::Choice { first, count } => Node::Choice {
                first: numbered(&self.body.branches, self.first_branch, first),
                count,
            },
            Node::New { name, child } => Node::New {
                name: self.name(name),
                child: self.node_number(child),
            },
            Node::Call { definition, .. } => {
                let arguments = college.argument_range(node);
                let first_argument = if arguments.is_empty() {
                    0
                } else {
                    numbered(&self.body.arguments, self.first_argument, arguments.start)
                };
                Node::Call {
                    definition,
                    first_argument,
                }
            }
        }
    }

    fn branch(&self, branch: &Branch) -> Branch {
        let next = self.node_number(branch.next());
        match *branch {
            Branch::Silent { .. } => Branch::Silent { next },
            Branch::Send { channel, name, .. } => Branch::Send {
                channel: self.name(channel),
                name: self.name(name),
                next,
            },
            Branch::Receive { channel, name, .. } => Branch::Receive {
                channel: self.name(channel),
                name: self.name(name),
                next,
            },
        }
    }
}

/// The number that a copy's list, appended from `first` on, gives an old number in it; others stay.
fn numbered(list: &[usize], first: usize, old: usize) -> usize {
    match list.binary_search(&old) {
        Ok(position) => first + position,
        Err(_) => old,
    }
}
