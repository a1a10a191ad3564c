//! Runs one peer on one case, for callgrind: see `USAGE`; `rest` is the tape without the records that are counted; a report's tape has the
//! prelude too; an image is that of the state that `check` has; a filling, a step in a full pool and a kind of records go by their names in the tables, each as one word, an old pool
//! by its name in converts.rs.
//! By hand: `valgrind --tool=callgrind --dump-instr=yes --toggle-collect=bench_measured one library mix 16 64`.

use bench::job::Job;
use bench::measure;
use bench::peer::Peer;
use std::env;
use std::process::ExitCode;

const USAGE: &str = "\
one PEER WORKLOAD N PLACES [rest]
one PEER check N NODES PLACES FRAMES WRITES LINES
one PEER pool WORKLOAD N NODES [rest]
one PEER steps WORKLOAD N NODES
one PEER filled FILLING
one PEER full_steps|full_tape STEP
one PEER kind KIND PLACES [rest]
one PEER report WORKLOAD N [rest]
one PEER convert convert|refused|pack|check|copy POOL
one PEER save|load|bare_save|bare_load|checks|copy N NODES PLACES FRAMES WRITES LINES";

fn main() -> ExitCode {
    let words: Vec<String> = env::args().skip(1).collect();
    let words: Vec<&str> = words.iter().map(String::as_str).collect();
    let asked = words
        .split_first()
        .and_then(|(peer, job)| Some((Peer::named(peer)?, Job::from_words(job)?)));
    let Some((peer, job)) = asked else {
        eprintln!("{USAGE}");
        return ExitCode::FAILURE;
    };
    measure::once(peer, job);
    ExitCode::SUCCESS
}
