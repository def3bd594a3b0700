//! A second reading of document 01 and of document 02's items 1 to 6: the table check, the
//! rewriting of self-calls, the image builder and its size, firing, looking, replay, run,
//! summaries, reading back, and the plain process, written from the documents and sharing no code
//! with the project it is compared with.
//!
//! The calls exported here are total. A refusal changes no lent buffer, except that a replay or run
//! stopped on its way leaves exactly the firings made.

#![forbid(unsafe_code)]

mod arcs;
pub mod bounds;
pub mod builder;
mod causes;
pub mod damage;
mod decode;
mod dialogue;
mod draft;
mod encode;
pub mod generate;
pub mod listing;
pub mod net;
pub mod places;
pub mod process;
pub mod program;
pub mod random;
pub mod reach;
pub mod readback;
pub mod rewrite;
pub mod size;
pub mod summary;
pub mod table;
pub mod vectors;

pub use builder::build;
pub use listing::listing;
pub use net::{fire, look, replay, run, run_lowest, Reason, Refusal, RunAnswer};
pub use process::{open_steps, start, step};
pub use readback::read;
pub use rewrite::{original_branch, original_name, original_node, rewrite};
pub use size::size;
pub use table::check;
