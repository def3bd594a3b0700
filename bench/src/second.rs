//! The oracle, with its answers in the form of the C interface.

use dekohuna::{Answer, Label, HISTORY_FULL, LIMIT_REACHED, NOTHING_ENABLED};
use oracle::{Reason, Refusal, RunAnswer};

use crate::engine::Engine;

pub struct Oracle;

fn counted(result: Result<usize, u32>) -> Answer {
    match result {
        Ok(count) => Answer {
            value: count as u64,
            code: 0,
        },
        Err(cause) => Answer {
            value: 0,
            code: cause as u8,
        },
    }
}

fn refused(refusal: Refusal) -> Answer {
    Answer {
        value: refusal.firings.unwrap_or(0),
        code: refusal.cause as u8,
    }
}

fn fired(result: Result<u64, Refusal>) -> Answer {
    match result {
        Ok(value) => Answer { value, code: 0 },
        Err(refusal) => refused(refusal),
    }
}

fn ran(result: Result<RunAnswer, Refusal>) -> Answer {
    match result {
        Ok(answer) => Answer {
            value: answer.firings,
            code: match answer.reason {
                Reason::LimitReached => LIMIT_REACHED,
                Reason::HistoryFull => HISTORY_FULL,
                Reason::NothingEnabled => NOTHING_ENABLED,
            },
        },
        Err(refusal) => refused(refusal),
    }
}

impl Engine for Oracle {
    fn check(&self, table: &[u16]) -> Answer {
        Answer {
            value: 0,
            code: oracle::check(table) as u8,
        }
    }

    fn build(&self, table: &[u16], out: &mut [u32]) -> Answer {
        counted(oracle::build(table, out))
    }

    fn fire(&self, image: &[u32], marking: &mut [u8], transition: u32) -> Answer {
        fired(oracle::fire(image, marking, transition).map(|()| 1))
    }

    fn look(&self, image: &[u32], marking: &[u8], transition: u32, next: &mut [u8]) -> Answer {
        counted(oracle::look(image, marking, transition, next))
    }

    fn replay(&self, image: &[u32], marking: &mut [u8], numbers: &[u32]) -> Answer {
        fired(oracle::replay(image, marking, numbers))
    }

    fn run(&self, image: &[u32], marking: &mut [u8], limit: u64, history: &mut [u32]) -> Answer {
        ran(oracle::run(image, marking, limit, history))
    }

    fn run_lowest(
        &self,
        image: &[u32],
        marking: &mut [u8],
        limit: u64,
        history: &mut [u32],
    ) -> Answer {
        ran(oracle::run_lowest(image, marking, limit, history))
    }

    fn read(&self, table: &[u16], marking: &[u8], state: &mut [u16]) -> Answer {
        counted(oracle::read(table, marking, state))
    }

    fn start(&self, table: &[u16], state: &mut [u16]) -> Answer {
        counted(oracle::start(table, state))
    }

    fn open_steps(&self, table: &[u16], state: &[u16], labels: &mut [u32]) -> Answer {
        counted(oracle::open_steps(table, state, labels))
    }

    fn step(&self, table: &[u16], state: &[u16], label: Label, next: &mut [u16]) -> Answer {
        let [kind, a, b] = label;
        counted(oracle::step(table, state, kind, a, b, next))
    }
}
