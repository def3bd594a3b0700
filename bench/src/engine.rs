//! The calls that both engines have, with answers of one form: that of the C interface.

use dekohuna::{Answer, Label};

pub trait Engine {
    fn check(&self, table: &[u16]) -> Answer;
    fn build(&self, table: &[u16], out: &mut [u32]) -> Answer;
    fn fire(&self, image: &[u32], marking: &mut [u8], transition: u32) -> Answer;
    fn look(&self, image: &[u32], marking: &[u8], transition: u32, next: &mut [u8]) -> Answer;
    fn replay(&self, image: &[u32], marking: &mut [u8], numbers: &[u32]) -> Answer;
    fn run(&self, image: &[u32], marking: &mut [u8], limit: u64, history: &mut [u32]) -> Answer;
    fn run_lowest(
        &self,
        image: &[u32],
        marking: &mut [u8],
        limit: u64,
        history: &mut [u32],
    ) -> Answer;
    fn read(&self, table: &[u16], marking: &[u8], state: &mut [u16]) -> Answer;
    fn start(&self, table: &[u16], state: &mut [u16]) -> Answer;
    fn open_steps(&self, table: &[u16], state: &[u16], labels: &mut [u32]) -> Answer;
    fn step(&self, table: &[u16], state: &[u16], label: Label, next: &mut [u16]) -> Answer;
}
