//! The benchmark: `bench DOCS` measures all and writes to that folder; `bench --instructions` prints the quick tables.

use bench::{full, quick};
use std::env;
use std::path::Path;
use std::process::ExitCode;

fn main() -> ExitCode {
    let words: Vec<String> = env::args().skip(1).collect();
    match words.iter().map(String::as_str).collect::<Vec<_>>()[..] {
        ["--instructions"] => quick::run(),
        [docs] => {
            if let Err(error) = full::run(Path::new(docs)) {
                eprintln!("bench: {docs}: {error}");
                return ExitCode::FAILURE;
            }
        }
        _ => {
            eprintln!("bench DOCS\nbench --instructions");
            return ExitCode::FAILURE;
        }
    }
    ExitCode::SUCCESS
}
