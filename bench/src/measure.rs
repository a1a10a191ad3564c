//! What is measured: one call with a tape, single steps, a report, one call with an image, or a change-over.

use crate::case::Case;
use crate::converts::{self, ConvertCall, UNSOUND};
use crate::images;
use crate::job::{ImageCall, Job};
use crate::peer::{Conversion, Images, Peer, Reporter, Run};
use crate::plain_image::WRONG_CHECK;
use crate::reports::{self, NO_SPAN};
use crate::tape::fields;
use host_tests::plain::OLD_NODE_WORDS;

/// The function that callgrind counts in; by its symbol, so it must stay a function of its own.
#[no_mangle]
#[inline(never)]
pub fn bench_measured(run: &mut dyn Run, tape: &[u8], answers: &mut [u32]) -> u32 {
    run.tape(tape, answers)
}

/// The same for single steps.
#[no_mangle]
#[inline(never)]
pub fn bench_measured_steps(run: &mut dyn Run, steps: &[[u32; 4]], answers: &mut [[u32; 2]]) {
    for (&step, answer) in steps.iter().zip(answers) {
        *answer = run.step(step);
    }
}

/// The same for a report.
#[no_mangle]
#[inline(never)]
pub fn bench_measured_report(reporter: &mut dyn Reporter, tape: &[u8], answers: &mut [u32]) -> u32 {
    reporter.report(tape, answers)
}

/// The same for a save.
#[no_mangle]
#[inline(never)]
pub fn bench_measured_save(run: &mut dyn Images, target: &mut [u8]) -> u32 {
    run.save(target)
}

/// The same for a reading.
#[no_mangle]
#[inline(never)]
pub fn bench_measured_load(run: &mut dyn Images, image: &[u8]) -> u32 {
    run.load(image)
}

/// The same for a save without the soundness check.
#[no_mangle]
#[inline(never)]
pub fn bench_measured_bare_save(run: &mut dyn Images, target: &mut [u8]) -> u32 {
    run.bare_save(target)
}

/// The same for a reading without it.
#[no_mangle]
#[inline(never)]
pub fn bench_measured_bare_load(run: &mut dyn Images, image: &[u8]) -> u32 {
    run.bare_load(image)
}

/// The same for a plain copy, of an image or of a pool.
#[no_mangle]
#[inline(never)]
pub fn bench_measured_copy(bytes: &[u8], target: &mut [u8]) {
    target.copy_from_slice(bytes);
}

/// The same for a change-over.
#[no_mangle]
#[inline(never)]
pub fn bench_measured_convert(run: &mut dyn Conversion) -> u32 {
    run.convert()
}

/// The same for its pass over the nodes.
#[no_mangle]
#[inline(never)]
pub fn bench_measured_pack(run: &mut dyn Conversion) {
    run.pack();
}

/// The same for the soundness check of nodes of four words.
#[no_mangle]
#[inline(never)]
pub fn bench_measured_old_check(run: &mut dyn Conversion) -> u32 {
    run.old_check()
}

/// What is not measured, to warm the allocator up, then the same on a fresh run, measured.
pub fn once(peer: Peer, job: Job) {
    let case = job.case();
    match job {
        Job::Steps(..) | Job::FullSteps(_) => {
            let steps = steps(&case);
            let mut answers = step_answers(peer, &case);
            bench_measured_steps(peer.begin(&case).as_mut(), &steps, &mut answers);
        }
        Job::Image(call, _) => {
            let image = images::saved(peer, &case);
            let again = images::read_and_saved(peer, &case, &image);
            assert!(again == image, "{}: reads something else", peer.name());
            image_call(peer, &case, call, &image);
        }
        Job::Report(..) | Job::ReportRest(..) => {
            let (_, mut answers, _) = reports::given(peer, &case);
            let mut reporter = peer.reporter(&case).expect("it reports");
            let refusal = bench_measured_report(reporter.as_mut(), &case.tape, &mut answers);
            assert_eq!(refusal, NO_SPAN, "{}: the report's answer", peer.name());
        }
        Job::Convert(call, pool) => {
            converts::compare_peer(peer, &case, pool.name());
            convert_call(peer, &case, call);
        }
        _ => {
            let mut answers = answers(peer, &case);
            let mut run = peer.begin(&case);
            let refusal = bench_measured(run.as_mut(), &case.tape, &mut answers);
            assert_eq!(refusal, 0, "{}: the tape is refused", peer.name());
        }
    }
}

/// One call, measured, on a fresh run.
fn image_call(peer: Peer, case: &Case, call: ImageCall, image: &[u8]) {
    let mut run = peer.begin(case);
    let run = images::images(run.as_mut());
    let mut target = vec![0; image.len()];
    let (refusal, expected) = match call {
        ImageCall::Save => (bench_measured_save(run, &mut target), 0),
        ImageCall::Load => (bench_measured_load(run, image), 0),
        ImageCall::BareSave => (bench_measured_bare_save(run, &mut target), 0),
        ImageCall::BareLoad => (bench_measured_bare_load(run, image), 0),
        ImageCall::Checks => {
            let image = images::last_check_wrong(image);
            (bench_measured_load(run, &image), WRONG_CHECK)
        }
        ImageCall::Copy => {
            bench_measured_copy(image, &mut target);
            (0, 0)
        }
    };
    assert_eq!(refusal, expected, "{}: the call's answer", peer.name());
    let saves = matches!(
        call,
        ImageCall::Save | ImageCall::BareSave | ImageCall::Copy
    );
    assert!(
        !saves || target == image,
        "{}: saves other bytes",
        peer.name()
    );
}

/// One change-over, measured, on a fresh run with nodes of four words.
fn convert_call(peer: Peer, case: &Case, call: ConvertCall) {
    let mut run = converts::conversion(peer, case);
    let run = run.as_mut();
    let (refusal, expected) = match call {
        ConvertCall::Convert => (bench_measured_convert(run), 0),
        ConvertCall::Refused => {
            converts::end_chain_elsewhere(run.pool());
            (bench_measured_convert(run), UNSOUND)
        }
        ConvertCall::Pack => {
            bench_measured_pack(run);
            (0, 0)
        }
        ConvertCall::Check => (bench_measured_old_check(run), 0),
        ConvertCall::Copy => {
            let words = &run.pool()[..OLD_NODE_WORDS * case.nodes];
            let bytes: Vec<u8> = words.iter().flat_map(|word| word.to_le_bytes()).collect();
            let mut target = vec![0; bytes.len()];
            bench_measured_copy(&bytes, &mut target);
            assert!(target == bytes, "another copy");
            (0, 0)
        }
    };
    assert_eq!(refusal, expected, "{}: the call's answer", peer.name());
}

/// The answers to the case's tape on a fresh run.
pub fn answers(peer: Peer, case: &Case) -> Vec<u32> {
    let mut run = peer.begin(case);
    let mut answers = vec![0; case.tape.len() / 4];
    let refusal = run.tape(&case.tape, &mut answers);
    assert_eq!(refusal, 0, "{}: the tape is refused", peer.name());
    answers
}

/// The same records one by one.
pub fn step_answers(peer: Peer, case: &Case) -> Vec<[u32; 2]> {
    let mut run = peer.begin(case);
    steps(case).into_iter().map(|step| run.step(step)).collect()
}

fn steps(case: &Case) -> Vec<[u32; 4]> {
    case.tape.as_chunks().0.iter().map(fields).collect()
}
