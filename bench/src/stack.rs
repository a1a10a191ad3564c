//! How much stack a call of the library takes, as host/c/stack.c finds it.

use std::env;
use std::process::Command;

pub struct Stack {
    /// What the program says.
    pub bytes: String,
    /// No call takes more than splitter.h promises.
    pub kept: bool,
}

/// Runs the program that `BENCH_STACK` names; bench/run builds it.
pub fn measure() -> Option<Stack> {
    let program = env::var_os("BENCH_STACK")?;
    let output = Command::new(program)
        .env("LD_BIND_NOW", "1") // or the linker's own work would count
        .output()
        .ok()?;
    let said = String::from_utf8_lossy(&output.stdout);
    let bytes = said.lines().next()?.strip_prefix("stack: ")?.to_string();
    Some(Stack {
        bytes,
        kept: output.status.success(),
    })
}
