//! Causes 5 to 9 of document 01, over a decoded table.

use crate::table::{Branch, Definition, NameKind, Node, Table};

/// Cause 5: "a number or range outside its section; New, receive or formal names no bound
/// name".
impl Table {
    pub(crate) fn numbers_lie_in_sections(&self) -> bool {
        self.definitions
            .iter()
            .all(|definition| self.definition_lies_in_sections(definition))
            && self
                .entries
                .iter()
                .all(|&entry| entry < self.definitions.len())
            && self
                .nodes
                .iter()
                .all(|node| self.node_lies_in_sections(node))
            && self
                .branches
                .iter()
                .all(|branch| self.branch_lies_in_sections(branch))
            && self.arguments.iter().all(|&name| self.is_name(name))
    }

    fn definition_lies_in_sections(&self, definition: &Definition) -> bool {
        let formals = definition.formals();
        definition.thread < self.entries.len()
            && definition.root < self.nodes.len()
            && (formals.is_empty()
                || (self.publics <= formals.start && formals.end <= self.name_count()))
    }

    fn node_lies_in_sections(&self, node: &Node) -> bool {
        match *node {
            Node::Stop => true,
            Node::Choice { first, count } => first + count <= self.branches.len(),
            Node::New { name, child } => self.is_bound(name) && child < self.nodes.len(),
            Node::Call {
                definition,
                first_argument,
            } => self.definitions.get(definition).is_some_and(|called| {
                called.formal_count == 0
                    || first_argument + called.formal_count <= self.arguments.len()
            }),
        }
    }

    fn branch_lies_in_sections(&self, branch: &Branch) -> bool {
        let names = match *branch {
            Branch::Silent { .. } => true,
            Branch::Send { channel, name, .. } => self.is_name(channel) && self.is_name(name),
            Branch::Receive { channel, name, .. } => self.is_name(channel) && self.is_bound(name),
        };
        names && branch.next() < self.nodes.len()
    }
}

/// Cause 6: "a node not exactly once a root or child; child not above its parent; branch
/// ranges, or non-empty argument ranges, not consecutive from 0 to the count in node order".
impl Table {
    pub(crate) fn nodes_form_bodies(&self) -> bool {
        self.nodes_are_placed_once() && self.children_lie_above() && self.ranges_are_consecutive()
    }

    fn nodes_are_placed_once(&self) -> bool {
        let mut placed = vec![0usize; self.nodes.len()];
        for definition in &self.definitions {
            placed[definition.root] += 1;
        }
        for node in &self.nodes {
            if let Node::New { child, .. } = *node {
                placed[child] += 1;
            }
        }
        for branch in &self.branches {
            placed[branch.next()] += 1;
        }
        placed.iter().all(|&times| times == 1)
    }

    fn children_lie_above(&self) -> bool {
        (0..self.nodes.len()).all(|node| self.children(node).iter().all(|&(child, _)| child > node))
    }

    fn ranges_are_consecutive(&self) -> bool {
        let mut branches = 0;
        let mut arguments = 0;
        for node in 0..self.nodes.len() {
            let branch_range = self.branch_range(node);
            let argument_range = self.argument_range(node);
            if !branch_range.is_empty() && branch_range.start != branches
                || !argument_range.is_empty() && argument_range.start != arguments
            {
                return false;
            }
            branches += branch_range.len();
            arguments += argument_range.len();
        }
        branches == self.branches.len() && arguments == self.arguments.len()
    }
}

/// Cause 7: "a bound name not bound exactly once, by its own kind".
impl Table {
    pub(crate) fn names_are_bound_once(&self) -> bool {
        let mut times = vec![0usize; self.names.len()];
        let mut own_kind = true;
        for (name, kind) in self.binders() {
            times[name - self.publics] += 1;
            own_kind &= self.names[name - self.publics] == kind;
        }
        own_kind && times.iter().all(|&times| times == 1)
    }

    /// Every binding of a name, with the kind it binds.
    fn binders(&self) -> Vec<(usize, NameKind)> {
        let mut binders = Vec::new();
        for definition in &self.definitions {
            binders.extend(definition.formals().map(|name| (name, NameKind::Formal)));
        }
        for node in &self.nodes {
            if let Node::New { name, .. } = *node {
                binders.push((name, NameKind::Restricted));
            }
        }
        for branch in &self.branches {
            binders.extend(branch.binds().map(|name| (name, NameKind::Input)));
        }
        binders
    }
}

/// Causes 8 and 9, where held names are known.
impl Table {
    /// Cause 8: "a name used where not held (publics are held everywhere)".
    pub(crate) fn used_names_are_held(&self) -> bool {
        (0..self.nodes.len()).all(|node| {
            let held = |&name: &usize| name < self.publics || self.held[node].contains(&name);
            self.arguments[self.argument_range(node)].iter().all(held)
                && self
                    .branch_range(node)
                    .all(|branch| match self.branches[branch] {
                        Branch::Silent { .. } => true,
                        Branch::Send { channel, name, .. } => held(&channel) && held(&name),
                        Branch::Receive { channel, .. } => held(&channel),
                    })
        })
    }

    /// Cause 9: "entry definition of another thread or with formals; call into another thread",
    /// a call "to the caller's own definition" spared.
    pub(crate) fn entries_and_calls_are_allowed(&self) -> bool {
        let entry_allowed = |(thread, &entry): (usize, &usize)| {
            let definition = &self.definitions[entry];
            definition.thread == thread && definition.formal_count == 0
        };
        let call_allowed = |node: usize| match self.nodes[node] {
            Node::Call { definition, .. } => {
                self.definitions[definition].thread == self.thread(node)
            }
            _ => true,
        };
        self.entries.iter().enumerate().all(entry_allowed)
            && (0..self.nodes.len()).all(call_allowed)
    }
}
