//! Document 01, "Transitions" and "Net image and firing": building the image of a table. "Every
//! builder rule that ranges over values now follows this reach." (document 02, item 4)

use crate::arcs::Arcs;
use crate::places::Places;
use crate::size::Size;
use crate::table::{accept, Branch, Node, Table};

/// "Labels (kind, a, b): 0 copy, node, formal; 1 release, node, name; 2 new, node, name;
/// 3 silent, branch, 0; 4 communication, send, receive; 5 call, node, 0."
pub type Label = [u32; 3];

pub const COPY: u32 = 0;
pub const RELEASE: u32 = 1;
pub const NEW: u32 = 2;
pub const SILENT: u32 = 3;
pub const COMMUNICATION: u32 = 4;
pub const CALL: u32 = 5;

/// "Kinds 0 and 1 are bookkeeping."
pub fn is_bookkeeping(kind: u32) -> bool {
    kind == COPY || kind == RELEASE
}

/// The label of a kind and two numbers of the table.
pub(crate) fn label(kind: u32, a: usize, b: usize) -> Label {
    [kind, a as u32, b as u32]
}

/// Writes the image of `words` to `out` and answers its length in words; causes 1 to 9, 10.
pub fn build(words: &[u16], out: &mut [u32]) -> Result<usize, u32> {
    let table = accept(words)?;
    let places = Places::of(&table);
    let initial = places.initial(&table);
    let size = Size::of(&table, &places);
    let length = size.image_words(initial.len());
    let image = out.get_mut(..length).ok_or(10u32)?;
    write_head(image, &places, &initial, &size);
    let record = 8 + initial.len();
    let mut builder = Builder {
        table: &table,
        places: &places,
        image,
        record,
        arc: record + 6 * size.transitions,
    };
    builder.write_transitions();
    Ok(length)
}

/// "Header: places, transitions, input arcs, output arcs, initial tokens m, then offsets 8, 8+m
/// and 8+m+6t, t the transition count." Then the initial places.
fn write_head(image: &mut [u32], places: &Places, initial: &[usize], size: &Size) {
    let m = initial.len();
    let records = 8 + m;
    let header = [
        places.count,
        size.transitions,
        size.inputs,
        size.outputs,
        m,
        8,
        records,
        records + 6 * size.transitions,
    ];
    for (word, &number) in image.iter_mut().zip(header.iter().chain(initial)) {
        *word = number as u32;
    }
}

/// Writes transitions in order.
struct Builder<'a> {
    table: &'a Table,
    places: &'a Places,
    image: &'a mut [u32],
    /// Where the next record goes.
    record: usize,
    /// Where the next arc goes.
    arc: usize,
}

impl Builder<'_> {
    /// "By node: [...] Then communications by send branch, receive branch of another thread".
    fn write_transitions(&mut self) {
        for (number, &node) in self.table.nodes.iter().enumerate() {
            match node {
                Node::Stop => self.write_stop(number),
                Node::Choice { .. } => self.write_silents(number),
                Node::New { name, child } => self.write_new(number, name, child),
                Node::Call { definition, .. } => self.write_call(number, definition),
            }
        }
        let branches = self.table.branches.len();
        for send in 0..branches {
            for receive in 0..branches {
                self.write_communications(send, receive);
            }
        }
    }

    /// "Stop a release place per held name, then its final place".
    fn write_stop(&mut self, node: usize) {
        let first = self.places.first(node);
        for (position, &name) in self.table.held[node].iter().enumerate() {
            self.write_releases(node, name, first + position, first + position + 1);
        }
    }

    /// "release z=v: take [z=v]; give [z≠v] (v private), or [\*≠v] if z is restricted; on."
    fn write_releases(&mut self, node: usize, name: usize, here: usize, on: usize) {
        let (table, places) = (self.table, self.places);
        for value in places.values_of(name) {
            let mut arcs = Arcs::between(here, on);
            arcs.take(places.equal(name, value));
            if table.is_restricted(name) {
                arcs.give(places.free(value));
            } else if places.is_private(value) {
                arcs.give(places.unequal(name, value));
            }
            self.write_transition(label(RELEASE, node, name), &arcs);
        }
    }

    /// "Choice: each silent branch."
    fn write_silents(&mut self, node: usize) {
        for branch in self.table.branch_range(node) {
            if let Branch::Silent { next } = self.table.branches[branch] {
                let arcs = Arcs::between(self.places.first(node), self.places.first(next));
                self.write_transition(label(SILENT, branch, 0), &arcs);
            }
        }
    }

    /// "New r=n: take [\*≠n], read [x≠n] for every input and formal; give [r=n]; on."; "New reads
    /// only rows that have private values" (document 02, item 4).
    fn write_new(&mut self, node: usize, name: usize, child: usize) {
        let (table, places) = (self.table, self.places);
        for value in places.private_values() {
            let mut arcs = Arcs::between(places.first(node), places.first(child));
            arcs.take(places.free(value));
            for other in places.with_private_values(table) {
                arcs.read(places.unequal(other, value));
            }
            arcs.give(places.equal(name, value));
            self.write_transition(label(NEW, node, name), &arcs);
        }
    }

    /// "Call: one transition on; then copy f from a [...] Copies precede releases; the last goes
    /// to the called root."
    fn write_call(&mut self, node: usize, definition: usize) {
        let table = self.table;
        let called = self.places.first(table.definitions[definition].root);
        let mut chain = self.places.of_node(table, node);
        let end = chain.end;
        let mut next_of_chain = || {
            let here = chain.next().unwrap_or(called);
            (here, if here + 1 < end { here + 1 } else { called })
        };
        let (here, on) = next_of_chain();
        self.write_transition(label(CALL, node, 0), &Arcs::between(here, on));
        let arguments = &table.arguments[table.argument_range(node)];
        for (formal, &argument) in table.definitions[definition].formals().zip(arguments) {
            let (here, on) = next_of_chain();
            self.write_copies(node, formal, argument, here, on);
        }
        for &name in &table.held[node] {
            let (here, on) = next_of_chain();
            self.write_releases(node, name, here, on);
        }
    }

    /// "copy f from a, by value v of a: read [a=v] if a is bound, take [f≠v] if private, give
    /// [f=v]; on."
    fn write_copies(
        &mut self,
        node: usize,
        formal: usize,
        argument: usize,
        here: usize,
        on: usize,
    ) {
        let places = self.places;
        for value in places.values_of(argument) {
            let mut arcs = Arcs::between(here, on);
            self.read_bound(&mut arcs, argument, value);
            if places.is_private(value) {
                arcs.take(places.unequal(formal, value));
            }
            arcs.give(places.equal(formal, value));
            self.write_transition(label(COPY, node, formal), &arcs);
        }
    }

    /// "communications by send branch, receive branch of another thread, channel value i common
    /// to both, sent value j. Bound channels are read at i, a bound sent name at j, [y≠j] is
    /// taken for private j, [y=j] given. A name sent on itself has only j=i."
    fn write_communications(&mut self, send: usize, receive: usize) {
        let (table, places) = (self.table, self.places);
        let Some(pair) = table.pair(send, receive) else {
            return;
        };
        let [sender, receiver] = [send, receive].map(|branch| places.first(table.standing[branch]));
        let [sender_on, receiver_on] =
            [send, receive].map(|branch| places.first(table.branches[branch].next()));
        let mut moves = Arcs::between(sender, sender_on);
        moves.take(receiver);
        moves.give(receiver_on);
        for i in places.common(pair.sending, pair.receiving) {
            let mut on_channel = moves;
            self.read_bound(&mut on_channel, pair.sending, i);
            self.read_bound(&mut on_channel, pair.receiving, i);
            let itself = pair.sent == pair.sending;
            let sent_values = places.values_of(pair.sent).into_iter();
            for j in sent_values.filter(|&j| !itself || j == i) {
                let mut arcs = on_channel;
                self.read_bound(&mut arcs, pair.sent, j);
                if places.is_private(j) {
                    arcs.take(places.unequal(pair.received, j));
                }
                arcs.give(places.equal(pair.received, j));
                self.write_transition(label(COMMUNICATION, send, receive), &arcs);
            }
        }
    }

    /// Reads [name=value] if the name is bound.
    fn read_bound(&self, arcs: &mut Arcs, name: usize, value: usize) {
        if self.table.is_bound(name) {
            arcs.read(self.places.equal(name, value));
        }
    }

    /// "A transition has 6 words: label (3), arc start (an offset in the image; arcs follow in
    /// transition order), input and output counts. Inputs then outputs, each ascending".
    fn write_transition(&mut self, [kind, a, b]: Label, arcs: &Arcs) {
        let (inputs, outputs) = (arcs.inputs.list(), arcs.outputs.list());
        let counts = [inputs.len(), outputs.len()];
        let record = [
            kind,
            a,
            b,
            self.arc as u32,
            counts[0] as u32,
            counts[1] as u32,
        ];
        self.image[self.record..self.record + 6].copy_from_slice(&record);
        self.record += 6;
        for list in [inputs, outputs] {
            self.image[self.arc..self.arc + list.len()].copy_from_slice(list);
            self.arc += list.len();
        }
    }
}
