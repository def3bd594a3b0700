//! The arcs of one transition: "Inputs then outputs, each ascending".

/// More than any transition has: the most is New's, a read per other bound name and two more.
const MOST: usize = 40;

/// Places in ascending order, each once.
#[derive(Clone, Copy)]
pub struct PlaceSet {
    places: [u32; MOST],
    count: usize,
}

impl PlaceSet {
    fn empty() -> PlaceSet {
        PlaceSet {
            places: [0; MOST],
            count: 0,
        }
    }

    fn include(&mut self, place: usize) {
        let place = place as u32;
        let mut at = self.count;
        while at > 0 && self.places[at - 1] > place {
            at -= 1;
        }
        if at > 0 && self.places[at - 1] == place {
            return;
        }
        self.places.copy_within(at..self.count, at + 1);
        self.places[at] = place;
        self.count += 1;
    }

    pub fn list(&self) -> &[u32] {
        &self.places[..self.count]
    }
}

#[derive(Clone, Copy)]
pub struct Arcs {
    pub inputs: PlaceSet,
    pub outputs: PlaceSet,
}

impl Arcs {
    /// A transition that moves a control token.
    pub fn between(here: usize, on: usize) -> Arcs {
        let mut arcs = Arcs {
            inputs: PlaceSet::empty(),
            outputs: PlaceSet::empty(),
        };
        arcs.take(here);
        arcs.give(on);
        arcs
    }

    pub fn take(&mut self, place: usize) {
        self.inputs.include(place);
    }

    pub fn give(&mut self, place: usize) {
        self.outputs.include(place);
    }

    /// "A read is both input and output."
    pub fn read(&mut self, place: usize) {
        self.take(place);
        self.give(place);
    }
}
