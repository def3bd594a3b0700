//! Causes 1 to 4 of document 01: cutting a table's words into sections and decoding them.

use crate::table::{require, Branch, Definition, NameKind, Node, Table, BOUNDS, HEADER_WORDS};

/// The words of each section.
pub(crate) struct Sections<'a> {
    publics: usize,
    names: &'a [u16],
    definitions: &'a [u16],
    threads: &'a [u16],
    nodes: &'a [u16],
    branches: &'a [u16],
    arguments: &'a [u16],
}

impl<'a> Sections<'a> {
    /// Causes 1, 2 and 3.
    pub(crate) fn cut(words: &'a [u16]) -> Result<Sections<'a>, u32> {
        if words.len() < HEADER_WORDS {
            return Err(1);
        }
        let (header, mut rest) = words.split_at(HEADER_WORDS);
        let count = |at: usize| usize::from(header[at]);
        let in_bounds =
            |(at, &(low, high)): (usize, &(usize, usize))| (low..=high).contains(&count(at));
        require(BOUNDS.iter().enumerate().all(in_bounds), 2)?;
        let lengths = section_lengths(&header[..7]);
        let mut offset = HEADER_WORDS;
        let mut sections: [&[u16]; 6] = [&[]; 6];
        for at in 0..6 {
            require(count(7 + at) == offset, 3)?;
            require(lengths[at] <= rest.len(), 3)?;
            let (section, after) = rest.split_at(lengths[at]);
            sections[at] = section;
            rest = after;
            offset += lengths[at];
        }
        require(rest.is_empty(), 3)?;
        let [names, definitions, threads, nodes, branches, arguments] = sections;
        let publics = count(0);
        Ok(Sections {
            publics,
            names,
            definitions,
            threads,
            nodes,
            branches,
            arguments,
        })
    }

    /// Cause 4: "unknown kind; a field that must be 0 is not; choice of 0 branches" is `None`.
    pub(crate) fn decode(&self) -> Option<Table> {
        let names = self
            .names
            .iter()
            .map(|&word| decode_name(word))
            .collect::<Option<_>>()?;
        let definitions: Vec<Definition> = self
            .definitions
            .chunks_exact(4)
            .map(decode_definition)
            .collect::<Option<_>>()?;
        let node = |words| decode_node(words, &definitions);
        let nodes = self
            .nodes
            .chunks_exact(3)
            .map(node)
            .collect::<Option<_>>()?;
        let branches = self
            .branches
            .chunks_exact(4)
            .map(decode_branch)
            .collect::<Option<_>>()?;
        Some(Table {
            publics: self.publics,
            names,
            definitions,
            entries: self.threads.iter().map(|&word| usize::from(word)).collect(),
            nodes,
            branches,
            arguments: self
                .arguments
                .iter()
                .map(|&word| usize::from(word))
                .collect(),
            owners: Vec::new(),
            held: Vec::new(),
            standing: Vec::new(),
        })
    }
}

/// The lengths, in words, that the seven counts give the six sections.
fn section_lengths(counts: &[u16]) -> [usize; 6] {
    let count = |at: usize| usize::from(counts[at]);
    [
        count(1),
        4 * count(2),
        count(3),
        3 * count(4),
        4 * count(5),
        count(6),
    ]
}

fn decode_name(word: u16) -> Option<NameKind> {
    match word {
        0 => Some(NameKind::Restricted),
        1 => Some(NameKind::Input),
        2 => Some(NameKind::Formal),
        _ => None,
    }
}

/// "First formal is 0 where there are no formals".
fn decode_definition(words: &[u16]) -> Option<Definition> {
    match *words {
        [_, _, first, 0] if first != 0 => None,
        [thread, root, first, count] => Some(Definition {
            thread: thread.into(),
            root: root.into(),
            first_formal: first.into(),
            formal_count: count.into(),
        }),
        _ => None,
    }
}

fn decode_node(words: &[u16], definitions: &[Definition]) -> Option<Node> {
    match *words {
        [0, 0, 0] => Some(Node::Stop),
        [1, _, 0] => None,
        [1, first, count] => Some(Node::Choice {
            first: first.into(),
            count: count.into(),
        }),
        [2, name, child] => Some(Node::New {
            name: name.into(),
            child: child.into(),
        }),
        [3, definition, first] => decode_call(definition.into(), first.into(), definitions),
        _ => None,
    }
}

/// "first argument is 0 where the definition called has none (else 4; a call of no definition
/// is 5)."
fn decode_call(
    definition: usize,
    first_argument: usize,
    definitions: &[Definition],
) -> Option<Node> {
    let without_formals = definitions
        .get(definition)
        .is_some_and(|called| called.formal_count == 0);
    if without_formals && first_argument != 0 {
        None
    } else {
        Some(Node::Call {
            definition,
            first_argument,
        })
    }
}

fn decode_branch(words: &[u16]) -> Option<Branch> {
    match *words {
        [0, 0, 0, next] => Some(Branch::Silent { next: next.into() }),
        [1, channel, name, next] => Some(Branch::Send {
            channel: channel.into(),
            name: name.into(),
            next: next.into(),
        }),
        [2, channel, name, next] => Some(Branch::Receive {
            channel: channel.into(),
            name: name.into(),
            next: next.into(),
        }),
        _ => None,
    }
}
