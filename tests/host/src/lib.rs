//! libsplitter.a beside the documents' engine in plain Rust: see README.md.

pub mod base;
pub mod call;
pub mod changeover;
pub mod clocks;
pub mod corrupt;
pub mod damage;
pub mod family;
pub mod image;
pub mod images;
pub mod layouts;
pub mod lent;
pub mod order;
pub mod parts;
pub mod plain;
pub mod random;
pub mod record;
pub mod replay;
pub mod reports;
pub mod runs;
pub mod sentences;
pub mod session;
pub mod sharing;
pub mod sketch;
pub mod soundness;
pub mod steps;
pub mod tables;
pub mod tally;
pub mod waits;

#[cfg(test)]
mod tests;
