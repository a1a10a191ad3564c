//! The copying program of document 01, with of document 02, and
//! the differential test of splitrun against it. Everything here is written
//! from the documents' text alone.

pub mod demand3;
pub mod edges;
pub mod families;
pub mod generate;
pub mod history;
pub mod machine;
pub mod name;
pub mod orders;
pub mod program;
pub mod random;
pub mod record;
pub mod reducer;
pub mod refusal;
pub mod schedules;
pub mod shape;
pub mod sharing;
pub mod splitrun;
pub mod tally;
pub mod transcript;
pub mod waiting;
