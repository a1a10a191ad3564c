//! The copying program with one fault, chosen by the environment variable
//! FAULT. `faulty --list` names the faults.

use std::io::{self, Read, Write};

include!("../../faults.rs");
// The faulty programs, made by build.rs, and `output`, which chooses one.
include!(concat!(env!("OUT_DIR"), "/faulty_programs.rs"));

fn main() -> io::Result<()> {
    if std::env::args().any(|argument| argument == "--list") {
        return list();
    }
    let fault = std::env::var("FAULT").unwrap_or_default();
    let mut input = Vec::new();
    io::stdin().read_to_end(&mut input)?;
    let Some(output) = output(&fault, &input) else {
        eprintln!("FAULT must be one of those that `faulty --list` names");
        std::process::exit(2);
    };
    io::stdout().write_all(output.as_bytes())
}

fn list() -> io::Result<()> {
    for fault in FAULTS {
        writeln!(io::stdout(), "{:24}{}", fault.name, fault.says)?;
    }
    Ok(())
}
