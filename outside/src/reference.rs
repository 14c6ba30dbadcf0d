//! An independent implementation of document 01 in the most obviously right form: sets and maps, one paragraph of the
//! document after the other. Nothing here is written for speed.

pub mod file;
pub mod program;
pub mod shapes;
pub mod step;
pub mod stores;
pub mod verdict;
pub mod working;

pub use file::{read, record, Claim, Reading};
pub use program::Statement;
pub use shapes::{Key, Shape, Truth};
pub use step::step;
pub use stores::{run_step, Next, Store};
pub use verdict::check;
