//! Requests for the program crates/vectors and the answers that it must give. The head of its
//! src/main.rt defines both formats.

mod answers;
mod count;
mod drawing;
mod foreign;
mod markings;
mod play;
mod reaching;
mod requests;
mod rewriting;
mod self_calls;
mod shapes;
mod summaries;
mod worked;

pub use answers::answers;
pub use count::counts;
pub use reaching::reaching;
pub use requests::{requests, rewriting_requests};
pub use self_calls::SELF_CALL_SHAPES;
pub use shapes::{REACH_SHAPES, VALUE_SHAPES};
