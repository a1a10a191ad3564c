//! The copying program: splitrun's lines by document 01's plain machine.
//! With `--recount` every cached count of nodes in use is compared with a
//! plain recount.

use differential::machine::Counting;
use differential::splitrun;
use std::io::{self, Read, Write};

fn main() -> io::Result<()> {
    let recount = std::env::args().any(|argument| argument == "--recount");
    let counting = if recount {
        Counting::Recounted
    } else {
        Counting::Cached
    };
    let mut input = Vec::new();
    io::stdin().read_to_end(&mut input)?;
    io::stdout().write_all(splitrun::output(&input, counting).as_bytes())
}
