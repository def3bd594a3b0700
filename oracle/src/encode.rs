//! Writing a table as words.

use crate::table::{Branch, Node, Table};

/// A table's words from P and its six sections.
pub fn encode(publics: usize, sections: [Vec<u16>; 6]) -> Vec<u16> {
    let widths = [1, 4, 1, 3, 4, 1];
    let count = |(section, width): (&Vec<u16>, usize)| (section.len() / width) as u16;
    let mut words = vec![publics as u16];
    words.extend(sections.iter().zip(widths).map(count));
    let mut offset = 13;
    for section in &sections {
        words.push(offset as u16);
        offset += section.len();
    }
    words.extend(sections.into_iter().flatten());
    words
}

impl Table {
    /// The words that decode to this table.
    pub(crate) fn words(&self) -> Vec<u16> {
        let words = |numbers: &[usize]| numbers.iter().map(|&number| number as u16).collect();
        let definitions = self.definitions.iter().flat_map(|definition| {
            [
                definition.thread,
                definition.root,
                definition.first_formal,
                definition.formal_count,
            ]
        });
        encode(
            self.publics,
            [
                self.names.iter().map(|&kind| kind as u16).collect(),
                definitions.map(|number| number as u16).collect(),
                words(&self.entries),
                self.nodes.iter().flat_map(node_words).collect(),
                self.branches.iter().flat_map(branch_words).collect(),
                words(&self.arguments),
            ],
        )
    }
}

fn node_words(node: &Node) -> [u16; 3] {
    let [kind, a, b] = match *node {
        Node::Stop => [0, 0, 0],
        Node::Choice { first, count } => [1, first, count],
        Node::New { name, child } => [2, name, child],
        Node::Call {
            definition,
            first_argument,
        } => [3, definition, first_argument],
    };
    [kind as u16, a as u16, b as u16]
}

fn branch_words(branch: &Branch) -> [u16; 4] {
    let [kind, channel, name] = match *branch {
        Branch::Silent { .. } => [0, 0, 0],
        Branch::Send { channel, name, .. } => [1, channel, name],
        Branch::Receive { channel, name, .. } => [2, channel, name],
    };
    [
        kind as u16,
        channel as u16,
        name as u16,
        branch.next() as u16,
    ]
}
