//! The library beside plain.rs, call by call and word for word: seeded runs, reports, corrupted states, change-overs, images.

use host_tests::changeover;
use host_tests::corrupt::KINDS;
use host_tests::images;
use host_tests::record::Recorder;
use host_tests::reports;
use host_tests::runs;
use host_tests::sentences::SENTENCES;
use host_tests::session::{Failure, Session};
use host_tests::soundness::{self, Counts, PER_SEED};
use splitter::raw;
use std::process::ExitCode;
use std::time::Instant;

const USAGE: &str = "usage: compare [--runs N] [--reports N] [--corrupt N] [--four-words N] [--images N] [--damaged N] [--seed S] [--quick] [--record FILE]
--quick: few runs, and each slice a heap block of its own, for memcheck
--record: writes all calls and what they left to FILE, for sanitized.c";

/// Words on each side of a lent slice.
const GUARD: usize = 7;
/// From so many on, every event, kind and sentence must have been met.
const ENOUGH_RUNS: u64 = 1_000;
/// And so many pools in both layouts.
const ENOUGH_POOLS: u64 = 20_000;
/// And from so many runs on, every case of a write at every n.
const ENOUGH_WRITES: u64 = 4_000;
const ENOUGH_REPORTS: u64 = 5_000;
const ENOUGH_PAIRS: usize = 150_000;
const ENOUGH_OLD_PAIRS: usize = 100_000;
const ENOUGH_IMAGES: u64 = 10_000;
const ENOUGH_DAMAGED: usize = 50_000;

struct Options {
    runs: u64,
    reports: u64,
    corrupt: usize,
    four_words: usize,
    images: u64,
    damaged: usize,
    seed: u64,
    guard: usize,
    record: Option<String>,
}

fn options() -> Option<Options> {
    let mut options = Options {
        runs: 5_000,
        reports: 5_000,
        corrupt: 150_000,
        four_words: 100_000,
        images: 20_000,
        damaged: 120_000,
        seed: 1,
        guard: GUARD,
        record: None,
    };
    let mut arguments = std::env::args().skip(1);
    while let Some(argument) = arguments.next() {
        match argument.as_str() {
            "--quick" => {
                (options.runs, options.corrupt, options.guard) = (150, 3_000, 0);
                (options.images, options.damaged) = (100, 1_500);
                (options.reports, options.four_words) = (150, 2_000);
            }
            "--runs" => options.runs = arguments.next()?.parse().ok()?,
            "--reports" => options.reports = arguments.next()?.parse().ok()?,
            "--corrupt" => options.corrupt = arguments.next()?.parse().ok()?,
            "--four-words" => options.four_words = arguments.next()?.parse().ok()?,
            "--images" => options.images = arguments.next()?.parse().ok()?,
            "--damaged" => options.damaged = arguments.next()?.parse().ok()?,
            "--seed" => options.seed = arguments.next()?.parse().ok()?,
            "--record" => options.record = Some(arguments.next()?),
            _ => return None,
        }
    }
    Some(options)
}

fn main() -> ExitCode {
    let Some(options) = options() else {
        eprintln!("{USAGE}");
        return ExitCode::from(2);
    };
    let began = Instant::now();
    let outcome = compare(&options);
    let seconds = began.elapsed().as_secs_f64();
    match outcome {
        Ok(()) => {
            println!("passed in {seconds:.1} s");
            ExitCode::SUCCESS
        }
        Err(failure) => {
            println!("{failure}\nFAILED in {seconds:.1} s");
            ExitCode::FAILURE
        }
    }
}

fn compare(options: &Options) -> Result<(), Failure> {
    let say = |error: std::io::Error| error.to_string();
    let recorder = options.record.as_deref().map(Recorder::create);
    let mut session = Session::new(options.guard, recorder.transpose().map_err(say)?);
    compare_sizes()?;
    compare_runs(options, &mut session)?;
    compare_reports(options, &mut session)?;
    compare_corrupted(options, &mut session)?;
    compare_changeovers(options, &mut session)?;
    compare_images(options, &mut session)?;
    in_both_layouts(options, &session)?;
    match session.recorder {
        Some(recorder) => recorder.finish().map_err(say),
        None => Ok(()),
    }
}

/// Every call of the runs, every report and every step from a sound corrupted pair was made in both layouts.
fn in_both_layouts(options: &Options, session: &Session) -> Result<(), Failure> {
    let layouts = &session.layouts;
    println!(
        "in both layouts: {} calls, {} pools of {} nodes unpacked",
        layouts.calls, layouts.pools, layouts.nodes
    );
    if options.runs >= ENOUGH_RUNS && layouts.pools < ENOUGH_POOLS {
        return Err("few pools in both layouts".to_string());
    }
    Ok(())
}

/// T(n) for every n that a start takes, and for some beyond.
fn compare_sizes() -> Result<(), Failure> {
    let sum = |n: u32| -> u64 {
        let levels = 0..=u64::from(n).next_power_of_two().trailing_zeros();
        levels.map(|level| u64::from(n).div_ceil(1 << level)).sum()
    };
    let mut sizes = (0..=1_000).chain([65_535, 65_536, 1 << 31, u32::MAX]);
    let wrong = sizes.find(|&n| raw::tree_nodes(n) != sum(n));
    wrong.map_or(Ok(()), |n| Err(format!("T({n}) differs")))
}

fn compare_runs(options: &Options, session: &mut Session) -> Result<(), Failure> {
    for run in 0..options.runs {
        let seed = options.seed.wrapping_add(run);
        runs::run(seed, session).map_err(|failure| {
            format!("{failure}\n(--runs 1 --reports 0 --corrupt 0 --four-words 0 --images 0 --damaged 0 --seed {seed})")
        })?;
    }
    println!(
        "{} runs, {} calls, {} records on tapes",
        options.runs, session.calls, session.records
    );
    println!("{}", session.tally.line());
    if options.runs > 0 {
        let lines = [
            session.sharing.lines(),
            session.waits.lines(),
            session.families.lines(),
            vec![session.tables.line()],
        ]
        .concat();
        lines.iter().for_each(|line| println!("{line}"));
    }
    let missing = session.tally.missing();
    if options.runs >= ENOUGH_RUNS && !missing.is_empty() {
        return Err(format!("never met: {missing:?}"));
    }
    let missing = session.waits.missing();
    if options.runs >= ENOUGH_RUNS && !missing.is_empty() {
        return Err(format!("returns not met: {missing:?}"));
    }
    let missing = session.tables.missing();
    if options.runs >= ENOUGH_RUNS && !missing.is_empty() {
        return Err(format!("tables never full: {missing:?}"));
    }
    let missing = session.families.missing();
    if options.runs >= ENOUGH_RUNS && !missing.is_empty() {
        return Err(format!("views not met: {missing:?}"));
    }
    let missing = session.sharing.missing();
    if options.runs >= ENOUGH_WRITES && !missing.is_empty() {
        return Err(format!("writes never met: {missing:?}"));
    }
    Ok(())
}

fn compare_reports(options: &Options, session: &mut Session) -> Result<(), Failure> {
    let began = Instant::now();
    let mut counts = reports::Counts::default();
    for report in 0..options.reports {
        let seed = options.seed.wrapping_add(report);
        reports::report(seed, session, &mut counts).map_err(|failure| {
            format!("{failure}\n(--runs 0 --reports 1 --corrupt 0 --four-words 0 --images 0 --damaged 0 --seed {seed})")
        })?;
    }
    if options.reports > 0 {
        let seconds = began.elapsed().as_secs_f64();
        println!("{} seeds of reports: {seconds:.1} s", options.reports);
        counts.lines().iter().for_each(|line| println!("{line}"));
    }
    match counts.missing() {
        Some(missing) if options.reports >= ENOUGH_REPORTS => Err(missing),
        _ => Ok(()),
    }
}

fn compare_corrupted(options: &Options, session: &mut Session) -> Result<(), Failure> {
    let mut counts = Counts::default();
    let mut left = options.corrupt;
    let mut seed = options.seed;
    while left > 0 {
        soundness::group(seed, left, session, &mut counts).map_err(|failure| {
            format!(
                "{failure}\n(--runs 0 --reports 0 --corrupt {PER_SEED} --four-words 0 --images 0 --damaged 0 --seed {seed})"
            )
        })?;
        left -= left.min(PER_SEED);
        seed = seed.wrapping_add(1);
    }
    if options.corrupt > 0 {
        report(&counts);
    }
    if options.corrupt >= ENOUGH_PAIRS {
        return all_met(&counts);
    }
    Ok(())
}

/// Those in the middle of the runs are made with the runs.
fn compare_changeovers(options: &Options, session: &mut Session) -> Result<(), Failure> {
    let began = Instant::now();
    let mut left = options.four_words;
    let mut seed = options.seed;
    while left > 0 {
        changeover::group(seed, left, session).map_err(|failure| {
            let most = changeover::PER_SEED;
            format!("{failure}\n(--runs 0 --reports 0 --corrupt 0 --four-words {most} --images 0 --damaged 0 --seed {seed})")
        })?;
        left -= left.min(changeover::PER_SEED);
        seed = seed.wrapping_add(1);
    }
    if options.four_words > 0 {
        let seconds = began.elapsed().as_secs_f64();
        println!(
            "{} corrupted pairs of four-word nodes: {seconds:.1} s",
            options.four_words
        );
        session
            .changeovers
            .lines()
            .iter()
            .for_each(|line| println!("{line}"));
    }
    let enough = options.runs >= ENOUGH_RUNS && options.four_words >= ENOUGH_OLD_PAIRS;
    match session.changeovers.missing() {
        Some(missing) if enough => Err(missing),
        _ => Ok(()),
    }
}

fn compare_images(options: &Options, session: &mut Session) -> Result<(), Failure> {
    images::compare_sizes()?;
    let began = Instant::now();
    let mut counts = images::Counts::default();
    saved_images(options, session, &mut counts)?;
    damaged_images(options, session, &mut counts)?;
    if options.images > 0 || options.damaged > 0 {
        let seconds = began.elapsed().as_secs_f64();
        println!(
            "{} images and {} damaged ones: {seconds:.1} s",
            options.images, options.damaged
        );
        counts.lines().iter().for_each(|line| println!("{line}"));
    }
    let enough = options.images >= ENOUGH_IMAGES && options.damaged >= ENOUGH_DAMAGED;
    match counts.missing() {
        Some(missing) if enough => Err(missing),
        _ => Ok(()),
    }
}

fn saved_images(
    options: &Options,
    session: &mut Session,
    counts: &mut images::Counts,
) -> Result<(), Failure> {
    for image in 0..options.images {
        let seed = options.seed.wrapping_add(image);
        images::image(seed, session, counts).map_err(|failure| {
            format!("{failure}\n(--runs 0 --reports 0 --corrupt 0 --four-words 0 --images 1 --damaged 0 --seed {seed})")
        })?;
    }
    Ok(())
}

fn damaged_images(
    options: &Options,
    session: &mut Session,
    counts: &mut images::Counts,
) -> Result<(), Failure> {
    let mut left = options.damaged;
    let mut seed = options.seed;
    while left > 0 {
        images::group(seed, left, session, counts).map_err(|failure| {
            let most = images::PER_SEED;
            format!("{failure}\n(--runs 0 --reports 0 --corrupt 0 --four-words 0 --images 0 --damaged {most} --seed {seed})")
        })?;
        left -= left.min(images::PER_SEED);
        seed = seed.wrapping_add(1);
    }
    Ok(())
}

fn report(counts: &Counts) {
    let sum = |part: fn(&soundness::Judged) -> u64| counts.kinds.iter().map(part).sum::<u64>();
    println!(
        "corrupted pairs: {} sound, {} unsound, {} with more nodes than any work slice",
        sum(|judged| judged.sound),
        sum(|judged| judged.unsound),
        sum(|judged| judged.short_work)
    );
    let entries: Vec<String> = KINDS
        .iter()
        .zip(&counts.kinds)
        .map(|(kind, judged)| format!("{:20}{:6}{:6}", kind.name, judged.sound, judged.unsound))
        .collect();
    println!("kind, sound, unsound:");
    for line in entries.chunks(4) {
        println!("  {}", line.join("   "));
    }
    println!("how often a sentence was the only one broken:");
    for (sentence, times) in SENTENCES.iter().zip(counts.alone) {
        println!("  {times:6}  {}", sentence.text);
    }
    let fewest = counts.turns.iter().min().unwrap_or(&0);
    println!("each word of numbers and deques was the one changed at least {fewest} times");
    let [none, some, all] = counts.writes;
    println!(
        "writes from sound pairs: {none} with none of the path shared, {some} with some, {all} with all; {} by the only frame, in a tree with a node in two places",
        counts.beside_itself
    );
    println!(
        "returns from sound pairs, of a frame with its parent above it and a younger sibling: {}; spawns by a frame with a live child: {}",
        counts.younger_within, counts.further_children
    );
}

fn all_met(counts: &Counts) -> Result<(), Failure> {
    let kind =
        (KINDS.iter().zip(&counts.kinds)).find(|(_, judged)| judged.sound + judged.unsound == 0);
    if let Some((kind, _)) = kind {
        return Err(format!("never judged: {}", kind.name));
    }
    let sentence = SENTENCES
        .iter()
        .zip(counts.alone)
        .find(|(_, times)| *times == 0);
    if let Some((sentence, _)) = sentence {
        return Err(format!("never broken alone: {}", sentence.text));
    }
    if counts.turns.contains(&0) {
        return Err("a word of numbers or deques never had its turn".to_string());
    }
    if counts.writes.contains(&0) || counts.beside_itself == 0 {
        return Err("a case of a write from a sound pair was never met".to_string());
    }
    if counts.younger_within == 0 || counts.further_children == 0 {
        return Err("a case of siblings from a sound pair was never met".to_string());
    }
    Ok(())
}
