//! `generate SEED` writes the input of a seed to standard output;
//! `generate SEED --words` tells it in words instead.

use differential::{generate, transcript};
use std::io::{self, Write};

fn main() -> io::Result<()> {
    let arguments: Vec<String> = std::env::args().skip(1).collect();
    let Some(seed) = arguments.first().and_then(|seed| seed.parse().ok()) else {
        eprintln!("usage: generate SEED [--words]");
        std::process::exit(2);
    };
    let input = generate::input(seed);
    let mut output = io::stdout().lock();
    if arguments.get(1).is_some_and(|option| option == "--words") {
        for words in transcript::in_words(&input) {
            writeln!(output, "{words}")?;
        }
        return Ok(());
    }
    output.write_all(&input)
}
