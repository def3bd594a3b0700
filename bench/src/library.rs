//! The proved library, through its C interface.

use dekohuna::{Answer, Label};

use crate::engine::Engine;

pub struct Library;

impl Engine for Library {
    fn check(&self, table: &[u16]) -> Answer {
        dekohuna::check(table)
    }

    fn build(&self, table: &[u16], out: &mut [u32]) -> Answer {
        dekohuna::build(table, out)
    }

    fn fire(&self, image: &[u32], marking: &mut [u8], transition: u32) -> Answer {
        dekohuna::fire(image, marking, transition)
    }

    fn look(&self, image: &[u32], marking: &[u8], transition: u32, next: &mut [u8]) -> Answer {
        dekohuna::look(image, marking, transition, next)
    }

    fn replay(&self, image: &[u32], marking: &mut [u8], numbers: &[u32]) -> Answer {
        dekohuna::replay(image, marking, numbers)
    }

    fn run(&self, image: &[u32], marking: &mut [u8], limit: u64, history: &mut [u32]) -> Answer {
        dekohuna::run(image, marking, limit, history)
    }

    fn run_lowest(
        &self,
        image: &[u32],
        marking: &mut [u8],
        limit: u64,
        history: &mut [u32],
    ) -> Answer {
        dekohuna::run_lowest(image, marking, limit, history)
    }

    fn read(&self, table: &[u16], marking: &[u8], state: &mut [u16]) -> Answer {
        dekohuna::read(table, marking, state)
    }

    fn start(&self, table: &[u16], state: &mut [u16]) -> Answer {
        dekohuna::start(table, state)
    }

    fn open_steps(&self, table: &[u16], state: &[u16], labels: &mut [u32]) -> Answer {
        dekohuna::open_steps(table, state, labels)
    }

    fn step(&self, table: &[u16], state: &[u16], label: Label, next: &mut [u16]) -> Answer {
        dekohuna::step(table, state, label, next)
    }
}
