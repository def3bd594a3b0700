//! What a table is like in which definitions call themselves.

use std::ops::Range;

use crate::table::{Branch, NameKind, Node, Table};

/// The names of the shapes.
pub const SELF_CALL_SHAPES: [&str; 20] = [
    "one self-call in a definition",
    "several self-calls in a definition",
    "self-callers in one thread",
    "self-callers in several threads",
    "self-caller beside one that does not call itself",
    "self-caller and another call each other",
    "self-caller calls another self-caller",
    "self-caller never called",
    "self-caller at an entry",
    "self-call at the root",
    "self-call with arguments",
    "self-call without arguments",
    "self-call that hands a formal on as another",
    "self-call that hands on a new name",
    "self-call that hands on a public name",
    "self-caller that receives",
    "self-callers without publics, name 0 copied beside zeros",
    "copied names among others",
    "copied branches among others",
    "copied arguments among others",
];

/// The shapes of a table in which some definition calls itself.
pub fn self_call_shapes(table: &Table) -> Vec<&'static str> {
    let look = Look::at(table);
    let found = [
        look.any(|caller| look.self_calls(caller).len() == 1),
        look.any(|caller| look.self_calls(caller).len() > 1),
        look.pairs(|one, other| look.thread(one) == look.thread(other)),
        look.pairs(|one, other| look.thread(one) != look.thread(other)),
        look.callers.len() < table.definitions.len(),
        look.any(|caller| {
            look.called_by(caller)
                .any(|other| look.calls(other, caller))
        }),
        look.pairs(|one, other| look.calls(one, other)),
        look.any(|caller| {
            !table.entries.contains(&caller)
                && !(0..table.definitions.len()).any(|other| look.calls(other, caller))
        }),
        look.any(|caller| table.entries.contains(&caller)),
        look.any(|caller| table.calls_itself(table.definitions[caller].root)),
        look.any(|caller| table.definitions[caller].formal_count > 0),
        look.any(|caller| table.definitions[caller].formal_count == 0),
        look.argument(|caller, formal, name| {
            formal != name && table.definitions[caller].formals().contains(&name)
        }),
        look.argument(|_, _, name| table.is_restricted(name)),
        look.argument(|_, _, name| name < table.publics),
        look.any(|caller| look.binds(caller, NameKind::Input)),
        table.publics == 0
            && look.any(|caller| look.names(caller).contains(&0) && look.has_zeros(caller)),
        look.any(|caller| apart(&look.names(caller))),
        look.any(|caller| apart(&look.in_nodes(caller, |node| table.branch_range(node)))),
        look.any(|caller| apart(&look.in_nodes(caller, |node| table.argument_range(node)))),
    ];
    let shapes = SELF_CALL_SHAPES.into_iter().zip(found);
    shapes
        .filter(|&(_, has)| has)
        .map(|(shape, _)| shape)
        .collect()
}

/// Whether numbers lie between those of an ascending list.
fn apart(list: &[usize]) -> bool {
    list.windows(2).any(|pair| pair[0] + 1 < pair[1])
}

/// A table and its definitions that call themselves.
struct Look<'a> {
    table: &'a Table,
    callers: Vec<usize>,
}

impl Look<'_> {
    fn at(table: &Table) -> Look<'_> {
        Look {
            table,
            callers: table.self_calling(),
        }
    }

    fn any(&self, wanted: impl Fn(usize) -> bool) -> bool {
        self.callers.iter().any(|&caller| wanted(caller))
    }

    /// Two definitions that call themselves.
    fn pairs(&self, wanted: impl Fn(usize, usize) -> bool) -> bool {
        self.any(|one| self.any(|other| one != other && wanted(one, other)))
    }

    fn thread(&self, definition: usize) -> usize {
        self.table.definitions[definition].thread
    }

    fn nodes(&self, definition: usize) -> impl Iterator<Item = usize> + '_ {
        (0..self.table.nodes.len()).filter(move |&node| self.table.owners[node] == definition)
    }

    fn self_calls(&self, definition: usize) -> Vec<usize> {
        self.nodes(definition)
            .filter(|&node| self.table.calls_itself(node))
            .collect()
    }

    /// The other definitions that a definition calls.
    fn called_by(&self, definition: usize) -> impl Iterator<Item = usize> + '_ {
        self.nodes(definition)
            .filter_map(|node| match self.table.nodes[node] {
                Node::Call { definition, .. } => Some(definition),
                _ => None,
            })
            .filter(move |&called| called != definition)
    }

    /// Whether a definition calls another.
    fn calls(&self, caller: usize, called: usize) -> bool {
        self.called_by(caller).any(|other| other == called)
    }

    /// A self-call's formal and the name that it takes its value from.
    fn argument(&self, wanted: impl Fn(usize, usize, usize) -> bool) -> bool {
        self.any(|caller| {
            self.self_calls(caller).into_iter().any(|node| {
                let names = &self.table.arguments[self.table.argument_range(node)];
                let formals = self.table.definitions[caller].formals();
                formals
                    .zip(names)
                    .any(|(formal, &name)| wanted(caller, formal, name))
            })
        })
    }

    /// The names that a definition binds, ascending.
    fn names(&self, definition: usize) -> Vec<usize> {
        let bound = self
            .nodes(definition)
            .flat_map(|node| self.table.children(node));
        let bound = bound.filter_map(|(_, name)| name);
        let mut names: Vec<usize> = self.table.definitions[definition]
            .formals()
            .chain(bound)
            .collect();
        names.sort_unstable();
        names
    }

    fn binds(&self, definition: usize, kind: NameKind) -> bool {
        let kind_of = |name: usize| self.table.names[name - self.table.publics];
        self.names(definition)
            .into_iter()
            .any(|name| kind_of(name) == kind)
    }

    /// Whether a body has words that must be 0: of a Stop, a silent branch, or a call without
    /// arguments.
    fn has_zeros(&self, definition: usize) -> bool {
        self.nodes(definition)
            .any(|node| match self.table.nodes[node] {
                Node::Stop => true,
                Node::New { .. } => false,
                Node::Call { .. } => self.table.argument_range(node).is_empty(),
                Node::Choice { .. } => self.table.branches[self.table.branch_range(node)]
                    .iter()
                    .any(|branch| matches!(branch, Branch::Silent { .. })),
            })
    }

    fn in_nodes(&self, definition: usize, range: impl Fn(usize) -> Range<usize>) -> Vec<usize> {
        self.nodes(definition).flat_map(range).collect()
    }
}
