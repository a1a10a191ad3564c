//! The differential test: `compare PROGRAM [--runs 3000] [--seed S]` runs
//! PROGRAM (splitrun) on document 01's edges and on seeded inputs, beside the
//! copying machine, and sees demand 3 and R-5's totals from outside.

use differential::demand3::{self, Run};
use differential::machine::Counting;
use differential::orders::Shown;
use differential::program::Program;
use differential::random::Random;
use differential::record::RECORD_BYTES;
use differential::splitrun::{self, Input};
use differential::tally::{self, Tally};
use differential::{edges, generate, schedules, transcript};
use std::path::PathBuf;
use std::process::ExitCode;
use std::time::Instant;

const USAGE: &str = "usage: compare PROGRAM [--runs 3000] [--seed 1] [--recount]
PROGRAM is the path of an executable that reads splitrun's input.";

/// From so many on, every case of a write must have been met at every n.
const ENOUGH_RUNS: u64 = 3_000;

/// One run in so many that ended Main is made again under another schedule.
const RESCHEDULED_ONE_IN: usize = 3;

struct Options {
    program: PathBuf,
    runs: u64,
    seed: u64,
    counting: Counting,
}

fn options() -> Option<Options> {
    let mut arguments = std::env::args().skip(1);
    let program = arguments.next()?;
    let mut options = Options {
        program: std::fs::canonicalize(program).ok()?,
        runs: 3_000,
        seed: 1,
        counting: Counting::Cached,
    };
    while let Some(argument) = arguments.next() {
        match argument.as_str() {
            "--runs" => options.runs = arguments.next()?.parse().ok()?,
            "--seed" => options.seed = arguments.next()?.parse().ok()?,
            "--recount" => options.counting = Counting::Recounted,
            _ => return None,
        }
    }
    Some(options)
}

fn main() -> ExitCode {
    let Some(options) = options() else {
        eprintln!("{USAGE}");
        return ExitCode::from(2);
    };
    let began = Instant::now();
    let passed = compare(&options);
    let verdict = if passed { "passed" } else { "FAILED" };
    println!("{verdict} in {:.1} s", began.elapsed().as_secs_f64());
    if passed {
        ExitCode::SUCCESS
    } else {
        ExitCode::FAILURE
    }
}

fn compare(options: &Options) -> bool {
    let program = Program::new(&options.program);
    let mut edge_tally = Tally::default();
    let edges_passed = compare_edges(&program, &mut edge_tally);
    let pieces_passed = compare_pieces(&program);
    let mut random = RandomRuns::new(&program, options.counting);
    let random_passed = random.compare(options);
    if !edges_passed || !pieces_passed || !random_passed {
        return false;
    }
    let seen = events_seen(&edge_tally, &random.tally);
    let waited = returns_waited(&random.tally);
    let large = families_seen(&random.tally);
    let shown = wrong_rules_shown(&random.shown);
    let written = writes_at_every_n(&random.tally, options.runs);
    seen && waited && large && shown && written
}

/// Every event of the table occurred in both columns.
fn events_seen(edges: &Tally, random: &Tally) -> bool {
    let (table, missing) = tally::table(edges, random);
    print!("{table}");
    for event in &missing {
        println!("never seen in one of the columns: {event}");
    }
    missing.is_empty()
}

/// Enough returns of the random runs waited, and chains of them ended.
fn returns_waited(random: &Tally) -> bool {
    let (line, met) = random.waiting.line();
    println!("random: {line}");
    if !met {
        println!("too few returns wait, or a chain's stop was never seen in the random runs");
    }
    met
}

/// Enough random runs had three live siblings or more.
fn families_seen(random: &Tally) -> bool {
    let (line, met) = random.families.line();
    println!("random: {line}");
    if !met {
        println!("too few random runs have so many");
    }
    met
}

/// Each wrong rule for views would show in enough random runs.
fn wrong_rules_shown(shown: &Shown) -> bool {
    let (lines, met) = shown.lines();
    print!("random: {lines}");
    if !met {
        println!("a wrong rule shows in too few random runs");
    }
    met
}

/// With runs enough, every case of a write occurred at every n.
fn writes_at_every_n(random: &Tally, runs: u64) -> bool {
    let (fewest, absent) = random.sharing.at_every_n();
    println!(
        "random: at n 1 to 40, 255 and 256, for each number of shared nodes on a write's path, \
         every case at least {fewest} times"
    );
    if runs < ENOUGH_RUNS {
        return true;
    }
    for case in &absent {
        println!("never seen in the random runs: {case}");
    }
    absent.is_empty()
}

/// PROGRAM's output if it is the expected one, byte for byte; else why not.
fn expect(program: &Program, input: &[u8], expected: &str) -> Result<String, String> {
    judge(program.output(input)?, input, expected)
}

fn judge(came: String, input: &[u8], expected: &str) -> Result<String, String> {
    if came == expected {
        return Ok(came);
    }
    Err(transcript::difference(input, expected, &came))
}

/// Every edge is run; the first that differs is shown in full.
fn compare_edges(program: &Program, tally: &mut Tally) -> bool {
    let edges = edges::all();
    let mut failed = 0;
    for edge in &edges {
        match expect(program, &edge.input, &edge.expected) {
            Ok(output) => {
                tally.add(&output);
                let mut watch = |machine: &_, record| tally.see(machine, record);
                splitrun::watched_output(&edge.input, Counting::Cached, &mut watch);
            }
            Err(reason) => {
                println!("edge: {}", edge.name);
                if failed == 0 {
                    println!("{reason}");
                }
                failed += 1;
            }
        }
    }
    println!("edges: {} run, {failed} failed", edges.len());
    failed == 0
}

/// Some of the edges again, the input fed in pieces.
fn compare_pieces(program: &Program) -> bool {
    let edges = edges::in_pieces();
    let mut failed = 0;
    for edge in &edges {
        let came = program.output_in_pieces(&edge.input);
        if let Err(reason) = came.and_then(|came| judge(came, &edge.input, &edge.expected)) {
            println!("edge in pieces: {}", edge.name);
            if failed == 0 {
                println!("{reason}");
            }
            failed += 1;
        }
    }
    println!("edges in pieces: {} run, {failed} failed", edges.len());
    failed == 0
}

struct RandomRuns<'a> {
    program: &'a Program,
    counting: Counting,
    tally: Tally,
    records: usize,
    homes: usize,
    waited: usize,
    too_long: usize,
    shown: Shown,
    rescheduled: usize,
    /// Schedules at which no frame could go on, or that are too long.
    given_up: usize,
}

impl<'a> RandomRuns<'a> {
    fn new(program: &'a Program, counting: Counting) -> RandomRuns<'a> {
        RandomRuns {
            program,
            counting,
            tally: Tally::default(),
            records: 0,
            homes: 0,
            waited: 0,
            too_long: 0,
            shown: Shown::default(),
            rescheduled: 0,
            given_up: 0,
        }
    }

    /// Runs seed after seed, up to the first that fails.
    fn compare(&mut self, options: &Options) -> bool {
        for run in 0..options.runs {
            let seed = options.seed.wrapping_add(run);
            if let Err(reason) = self.compare_one(seed) {
                println!("random: run {} failed, seed {seed}", run + 1);
                println!("(`generate {seed}` writes this input)\n{reason}");
                return false;
            }
        }
        println!(
            "random: {} runs, none failed; demand 3: Main returned in {} of them, with {} \
             records and {} frames that waited, and their one-worker runs agree ({} too long to \
             run)",
            options.runs, self.homes, self.records, self.waited, self.too_long
        );
        println!(
            "random: the frames' steps of {} runs again under another schedule, with the same \
             reads and totals ({} schedules given up)",
            self.rescheduled, self.given_up
        );
        true
    }

    fn compare_one(&mut self, seed: u64) -> Result<(), String> {
        let bytes = generate::input(seed);
        let mut watch = |machine: &_, record| self.tally.see(machine, record);
        let expected = splitrun::watched_output(&bytes, self.counting, &mut watch);
        let output = expect(self.program, &bytes, &expected)?;
        self.tally.add(&output);
        if output.contains("\nfree ") {
            self.tally.families.end_run();
        }
        if !demand3::main_has_returned(&output) {
            return Ok(());
        }
        let input = Input::parse(&bytes).ok_or("a run of an unfit input")?;
        self.homes += 1;
        self.records += input.tape.len() / RECORD_BYTES;
        let run = Run::observe(&input, &output)?;
        self.see_demand_3(&run, &input)?;
        if let Some(totals) = run.reduced() {
            self.shown.add(run.events(), totals);
        }
        if self.homes.is_multiple_of(RESCHEDULED_ONE_IN) {
            self.see_rescheduled(&run, &input, seed)?;
        }
        Ok(())
    }

    fn see_demand_3(&mut self, run: &Run, input: &Input) -> Result<(), String> {
        self.waited += run.waited();
        let Some(one_worker_input) = run.one_worker_input(input) else {
            self.too_long += 1;
            return Ok(());
        };
        let bytes = one_worker_input.to_bytes();
        let one_worker_output = self.program.output(&bytes)?;
        Run::observe(&one_worker_input, &one_worker_output)
            .and_then(|one_worker| demand3::check(input.nodes, run, &one_worker))
            .map_err(|reason| {
                let lines = self.lines(&bytes, &one_worker_output);
                format!("demand 3: {reason}\nthe one-worker run:\n{lines}")
            })
    }

    /// The same frames' steps under another schedule.
    fn see_rescheduled(&mut self, run: &Run, input: &Input, seed: u64) -> Result<(), String> {
        let other = schedules::reschedule(run, input, &mut Random::new(!seed));
        let Some(other_input) = other else {
            self.given_up += 1;
            return Ok(());
        };
        self.rescheduled += 1;
        let bytes = other_input.to_bytes();
        let other_output = self.program.output(&bytes)?;
        Run::observe(&other_input, &other_output)
            .and_then(|other| demand3::check_rescheduled(other_input.nodes, run, &other))
            .map_err(|reason| {
                let lines = self.lines(&bytes, &other_output);
                format!("another schedule: {reason}\nthe run under it:\n{lines}")
            })
    }

    /// What came for an input beside what the copying machine prints.
    fn lines(&self, bytes: &[u8], came: &str) -> String {
        let expected = splitrun::output(bytes, self.counting);
        transcript::difference(bytes, &expected, came)
    }
}
