//! Where and with what the figures were made.

use std::fs;
use std::path::Path;
use std::process::Command;

/// The archive that this program is linked with.
const ARCHIVE: &str = env!("SPLITTER_ARCHIVE");

/// What a command prints, or a dash.
fn said(program: &str, words: &[&str]) -> String {
    let output = Command::new(program).args(words).output();
    let text = output.map(|output| {
        String::from_utf8_lossy(&output.stdout)
            .trim_end()
            .to_string()
    });
    text.ok()
        .filter(|text| !text.is_empty())
        .unwrap_or_else(|| "-".into())
}

fn processor() -> String {
    let text = fs::read_to_string("/proc/cpuinfo").unwrap_or_default();
    let line = text.lines().find(|line| line.starts_with("model name"));
    line.and_then(|line| line.split(": ").nth(1))
        .unwrap_or("unknown")
        .into()
}

fn archive() -> String {
    let bytes = fs::metadata(ARCHIVE).map_or(0, |data| data.len());
    let sum = said("sha256sum", &[ARCHIVE]);
    format!(
        "{bytes} bytes, sha256 {}...",
        sum.chars().take(16).collect::<String>()
    )
}

/// The archive's text before R-9, at this commit.
const TEXT_BEFORE: (u64, &str) = (20_571, "884d316");

/// The bytes of code and constants in the archive, by binutils.
fn text() -> String {
    let totals = said("size", &["-t", ARCHIVE]);
    let text = totals
        .lines()
        .last()
        .and_then(|line| line.split_whitespace().next());
    let (before, commit) = TEXT_BEFORE;
    format!(
        "{} bytes; before R-9, commit {commit}: {before}",
        text.unwrap_or("-")
    )
}

/// What git says of the repository that this bench is of, or a dash.
fn git(words: &[&str]) -> String {
    let at = ["-C", env!("CARGO_MANIFEST_DIR")];
    said("git", &[&at, words].concat())
}

/// The files that are changed or new since the commit, a line for each, but for what the bench itself writes.
fn changes() -> Option<String> {
    let files = git(&[
        "status",
        "--porcelain",
        "--untracked-files=normal",
        "--",
        ":/",
        ":(top,exclude)docs/BENCH.md",
        ":(top,exclude)docs/bench_*.svg",
    ]);
    (files != "-").then_some(files)
}

fn commit() -> String {
    let changed = changes().map_or("", |_| ", with changes");
    git(&["describe", "--always"]) + changed
}

/// Why no report may be written to this folder: it is the repository's docs, and the tree is not that of a commit.
pub fn objection(docs: &Path) -> Option<String> {
    let of_repository = Path::new(&git(&["rev-parse", "--show-toplevel"])).join("docs");
    let same = docs.canonicalize().ok()? == of_repository.canonicalize().ok()?;
    let files = changes().filter(|_| same)?;
    Some(format!(
        "not written, as these files are changed or new since the commit:\n{files}\n\
        Commit them first; or bench/run FOLDER writes there, and marks the commit \"with changes\"."
    ))
}

/// Lines of a list in markdown.
pub fn list() -> String {
    let facts = [
        ("date", said("date", &["-u", "+%Y-%m-%d %H:%M UTC"])),
        (
            "machine",
            format!(
                "{}, {} cores, {}",
                processor(),
                said("nproc", &[]),
                said("uname", &["-srm"])
            ),
        ),
        ("commit", commit()),
        ("libsplitter.a", archive()),
        ("its text", text()),
        ("rustc", said("rustc", &["--version"])),
        ("valgrind", said("valgrind", &["--version"])),
        (
            "im-rc",
            said(
                "dpkg-query",
                &["-W", "-f", "${Package} ${Version}", "librust-im-rc-dev"],
            ),
        ),
    ];
    facts
        .map(|(name, fact)| format!("- {name}: {fact}\n"))
        .concat()
}
