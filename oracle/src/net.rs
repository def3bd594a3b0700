//! Document 01, "Net image and firing": reading an image, firing by number, replay and run;
//! document 02, item 2: looking at a firing before it is made; item 6: settling before acting.

use crate::builder::is_bookkeeping;
use crate::process::write_words;

/// Why a call on an image was refused. `firings` is there where the document's table returns
/// "number, firings made", and not where it returns the number alone.
#[derive(Clone, Copy, Debug, PartialEq, Eq)]
pub struct Refusal {
    pub cause: u32,
    pub firings: Option<u64>,
}

impl Refusal {
    pub(crate) fn alone(cause: u32) -> Refusal {
        Refusal {
            cause,
            firings: None,
        }
    }

    pub(crate) fn after(cause: u32, firings: u64) -> Refusal {
        Refusal {
            cause,
            firings: Some(firings),
        }
    }
}

/// Why a run ended: "limit reached, then history full (never 10), then nothing enabled".
#[derive(Clone, Copy, Debug, PartialEq, Eq)]
pub enum Reason {
    LimitReached,
    HistoryFull,
    NothingEnabled,
}

/// A run "answers with a reason and its count of firings".
#[derive(Clone, Copy, Debug, PartialEq, Eq)]
pub struct RunAnswer {
    pub reason: Reason,
    pub firings: u64,
}

/// "A single firing checks 11, 13, 14, 12, 15, 16 and makes 0 firings before a refusal."
pub fn fire(image: &[u32], marking: &mut [u8], transition: u32) -> Result<(), Refusal> {
    let image = Image::open(image).ok_or(Refusal::alone(11))?;
    if !image.has_marking(marking) {
        return Err(Refusal::alone(13));
    }
    image
        .fire(marking, transition)
        .map_err(|cause| Refusal::after(cause, 0))
}

/// "Write the resulting marking to a second lent buffer of the place count's length. Accepted, that
/// buffer equals what firing on a copy leaves; a refusal is the same as there and writes nothing; the
/// marking itself is only read. The second buffer's length is checked last, as 10." (document 02,
/// item 2) Answers the bytes written.
pub fn look(image: &[u32], marking: &[u8], transition: u32, next: &mut [u8]) -> Result<usize, u32> {
    let mut copy = marking.to_vec();
    fire(image, &mut copy, transition).map_err(|refusal| refusal.cause)?;
    write_words(&copy, next)
}

/// "Replay starts afresh from the initial marking; of the lent marking only the length is
/// checked. Refused at its first number, it leaves the initial marking." Answers the firings
/// made.
pub fn replay(image: &[u32], marking: &mut [u8], numbers: &[u32]) -> Result<u64, Refusal> {
    let image = Image::open(image).ok_or(Refusal::alone(11))?;
    if marking.len() != image.places {
        return Err(Refusal::alone(13));
    }
    image.mark_initially(marking);
    let mut firings = 0;
    for &number in numbers {
        image
            .fire(marking, number)
            .map_err(|cause| Refusal::after(cause, firings))?;
        firings += 1;
    }
    Ok(firings)
}

/// A run "fires [...], writes each number to the history [...] Before each firing it looks at limit
/// reached, then history full (never 10), then nothing enabled. It stops at a malformed record met
/// in the search (12)." Which transition it fires when no rule is named: "the lowest enabled
/// bookkeeping transition, else the lowest enabled one" (document 02, item 6).
pub fn run(
    image: &[u32],
    marking: &mut [u8],
    limit: u64,
    history: &mut [u32],
) -> Result<RunAnswer, Refusal> {
    run_by(Rule::SettleFirst, image, marking, limit, history)
}

/// Document 01's rule: "A run fires the lowest enabled transition of the lent marking".
pub fn run_lowest(
    image: &[u32],
    marking: &mut [u8],
    limit: u64,
    history: &mut [u32],
) -> Result<RunAnswer, Refusal> {
    run_by(Rule::Lowest, image, marking, limit, history)
}

/// Which enabled transition a run fires.
#[derive(Clone, Copy, PartialEq, Eq)]
enum Rule {
    SettleFirst,
    Lowest,
}

fn run_by(
    rule: Rule,
    image: &[u32],
    marking: &mut [u8],
    limit: u64,
    history: &mut [u32],
) -> Result<RunAnswer, Refusal> {
    let image = Image::open(image).ok_or(Refusal::alone(11))?;
    if !image.has_marking(marking) {
        return Err(Refusal::alone(13));
    }
    let mut cells = history.iter_mut();
    let mut met = 0;
    let mut firings = 0;
    loop {
        let answer = |reason| Ok(RunAnswer { reason, firings });
        if firings == limit {
            return answer(Reason::LimitReached);
        }
        let Some(cell) = cells.next() else {
            return answer(Reason::HistoryFull);
        };
        let stopped = |cause| Refusal::after(cause, firings);
        let found = image.search(rule, marking, &mut met).map_err(stopped)?;
        let Some(number) = found else {
            return answer(Reason::NothingEnabled);
        };
        image.fire(marking, number).map_err(stopped)?;
        *cell = number;
        firings += 1;
    }
}

/// An image whose header, length and initial list are right.
pub(crate) struct Image<'a> {
    words: &'a [u32],
    places: usize,
    pub(crate) transitions: u32,
    initial: &'a [u32],
    /// The offset of the records.
    records: usize,
    /// The offset of the arc section.
    arcs: usize,
}

/// The arcs of a transition.
pub(crate) struct Transition<'a> {
    pub(crate) inputs: &'a [u32],
    pub(crate) outputs: &'a [u32],
}

impl<'a> Image<'a> {
    /// Cause 11, "net header, length or initial list wrong", is `None`. Sums of 32-bit words
    /// are made in 64 bits.
    pub(crate) fn open(words: &'a [u32]) -> Option<Image<'a>> {
        let &[places, transitions, inputs, outputs, m, at_initial, at_records, at_arcs] =
            words.first_chunk::<8>()?;
        let records = 8 + u64::from(m);
        let arcs = records + 6 * u64::from(transitions);
        let length = arcs + u64::from(inputs) + u64::from(outputs);
        if at_initial != 8
            || u64::from(at_records) != records
            || u64::from(at_arcs) != arcs
            || words.len() as u64 != length
        {
            return None;
        }
        let (records, arcs) = (records as usize, arcs as usize);
        let initial = &words[8..records];
        let image = Image {
            words,
            places: places as usize,
            transitions,
            initial,
            records,
            arcs,
        };
        image.are_places(initial).then_some(image)
    }

    /// Strictly ascending and below the place count.
    fn are_places(&self, list: &[u32]) -> bool {
        list.windows(2).all(|pair| pair[0] < pair[1])
            && list
                .last()
                .is_none_or(|&last| (last as usize) < self.places)
    }

    /// Cause 13: "marking length not the place count, or a byte above 1".
    pub(crate) fn has_marking(&self, marking: &[u8]) -> bool {
        marking.len() == self.places && marking.iter().all(|&byte| byte <= 1)
    }

    fn mark_initially(&self, marking: &mut [u8]) {
        marking.fill(0);
        for &place in self.initial {
            marking[place as usize] = 1;
        }
    }

    /// The six words of a transition below the count.
    pub(crate) fn record(&self, number: u32) -> [u32; 6] {
        let at = self.records + 6 * number as usize;
        let mut record = [0; 6];
        record.copy_from_slice(&self.words[at..at + 6]);
        record
    }

    /// A transition's arcs, if they "lie in the arc section".
    pub(crate) fn arcs(&self, number: u32) -> Option<Transition<'a>> {
        let [_, _, _, start, inputs, outputs] = self.record(number);
        let split = u64::from(start) + u64::from(inputs);
        let end = split + u64::from(outputs);
        if (start as usize) < self.arcs || end > self.words.len() as u64 {
            return None;
        }
        let (start, split, end) = (start as usize, split as usize, end as usize);
        Some(Transition {
            inputs: &self.words[start..split],
            outputs: &self.words[split..end],
        })
    }

    /// Cause 12, "record or arcs of the transition wrong", is `None`: "A foreign record's arcs
    /// need only lie in the arc section, ascend strictly and name places."
    pub(crate) fn transition(&self, number: u32) -> Option<Transition<'a>> {
        let transition = self.arcs(number)?;
        let right = self.are_places(transition.inputs) && self.are_places(transition.outputs);
        right.then_some(transition)
    }

    /// Causes 14, 12, 15 and 16, then the firing.
    pub(crate) fn fire(&self, marking: &mut [u8], number: u32) -> Result<(), u32> {
        if number >= self.transitions {
            return Err(14);
        }
        let transition = self.transition(number).ok_or(12u32)?;
        if !transition.is_enabled(marking) {
            return Err(15);
        }
        if transition.has_contact(marking) {
            return Err(16);
        }
        transition.move_tokens(marking);
        Ok(())
    }

    /// The transition that a rule takes, or 12 for a wrong record met in the search: "All records
    /// up to an enabled bookkeeping one are met in its search." Records below `met` have been met,
    /// and found right, by an earlier search.
    fn search(&self, rule: Rule, marking: &[u8], met: &mut u32) -> Result<Option<u32>, u32> {
        let mut lowest = None;
        for number in 0..self.transitions {
            let transition = if number < *met {
                self.arcs(number)
            } else {
                self.transition(number)
            };
            let transition = transition.ok_or(12u32)?;
            *met = (*met).max(number + 1);
            if transition.is_enabled(marking) {
                if rule == Rule::Lowest || is_bookkeeping(self.record(number)[0]) {
                    return Ok(Some(number));
                }
                lowest = lowest.or(Some(number));
            }
        }
        Ok(lowest)
    }
}

impl Transition<'_> {
    /// Every input is marked.
    fn is_enabled(&self, marking: &[u8]) -> bool {
        self.inputs
            .iter()
            .all(|&place| marking[place as usize] == 1)
    }

    /// Cause 16: "an output place marked that is not also an input".
    fn has_contact(&self, marking: &[u8]) -> bool {
        let input = |place| self.inputs.binary_search(place).is_ok();
        self.outputs
            .iter()
            .any(|place| marking[*place as usize] == 1 && !input(place))
    }

    fn move_tokens(&self, marking: &mut [u8]) {
        for &place in self.inputs {
            marking[place as usize] = 0;
        }
        for &place in self.outputs {
            marking[place as usize] = 1;
        }
    }
}
