//! Makes the faulty programs: for each fault a module with the copying
//! program's files, one place of one file changed. Files that come before
//! the changed one do not use it, so they are taken from the library.

use std::path::Path;
use std::{env, fs};

include!("faults.rs");

/// The copying program's files: each uses only those before it.
const FILES: [&str; 8] = [
    "refusal.rs",
    "shape.rs",
    "name.rs",
    "reducer.rs",
    "record.rs",
    "history.rs",
    "machine.rs",
    "splitrun.rs",
];

fn main() {
    println!("cargo:rerun-if-changed=faults.rs");
    for file in FILES {
        println!("cargo:rerun-if-changed=src/{file}");
    }
    let mut text: String = FAULTS.iter().map(faulty_program).collect();
    text += &chooser();
    let folder = env::var("OUT_DIR").expect("cargo sets OUT_DIR");
    let path = Path::new(&folder).join("faulty_programs.rs");
    fs::write(path, text).expect("the output folder takes files");
}

fn faulty_program(fault: &Fault) -> String {
    let changed = FILES
        .iter()
        .position(|file| *file == fault.file)
        .unwrap_or_else(|| panic!("fault {}: no such file", fault.name));
    let (same, copied) = FILES.split_at(changed);
    let same: String = same
        .iter()
        .map(|file| format!("pub use differential::{};\n", module(file)))
        .collect();
    let copied: String = copied
        .iter()
        .map(|file| format!("pub mod {} {{\n{}\n}}\n", module(file), text(file, fault)))
        .collect();
    format!(
        "#[allow(dead_code, unused)]\npub mod {} {{\n{same}{copied}}}\n",
        fault.name
    )
}

fn module(file: &str) -> &str {
    file.trim_end_matches(".rs")
}

/// A function that runs the faulty program of a name.
fn chooser() -> String {
    let arms: String = FAULTS
        .iter()
        .map(|Fault { name, .. }| {
            format!(
                "{name:?} => {name}::splitrun::output(input, {name}::machine::Counting::Cached),\n"
            )
        })
        .collect();
    format!(
        "fn output(fault: &str, input: &[u8]) -> Option<String> {{\n\
         Some(match fault {{\n{arms}_ => return None,\n}})\n}}\n"
    )
}

/// The file's text, changed if the fault is in this file. Unit tests are cut
/// off.
fn text(file: &str, fault: &Fault) -> String {
    let text = fs::read_to_string(format!("src/{file}")).expect("a file of the program");
    let (program, _tests) = text.split_once("#[cfg(test)]").unwrap_or((&text, ""));
    if file != fault.file {
        return program.to_string();
    }
    let places = program.matches(fault.rule).count();
    assert_eq!(places, 1, "fault {}: one place must read so", fault.name);
    program.replace(fault.rule, fault.fault)
}
