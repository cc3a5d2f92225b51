//! Makes rule texts, exchanges with proofs, and whole transcripts, right ones and damaged ones.

mod books;
mod lines;
mod receipts;
mod swaps;
mod transcripts;

pub use books::{damaged, hyphened, limits, small, valid};
pub use lines::long_settlement;
pub use receipts::{one_short, Giver, Part};
pub use swaps::{small_exchange, Settlement, Swap};
pub use transcripts::{BookFile, Script, Transcript};
