//! Demand 3 seen from outside: a run in which Main has returned, and its
//! one-worker run ("A run and its one-worker run"). R-5's totals too.

use crate::machine::{Counting, FrameId, Machine, MAIN};
use crate::name::{self, Name};
use crate::orders::{self, Event, Rule, Words};
use crate::record::{self, Step};
use crate::splitrun::{Input, MAX_TAPE_BYTES, PLACES};
use std::collections::BTreeMap;

/// "What a frame has read", by the frame's name.
type Reads = BTreeMap<Name, Vec<u32>>;

/// One of a frame's steps, with the child that a spawn made.
#[derive(Clone, Copy)]
pub struct FrameStep {
    pub step: Step,
    pub child: Option<FrameId>,
}

#[derive(Default)]
struct FrameLog {
    name: Name,
    steps: Vec<FrameStep>,
    reads: Vec<u32>,
    spawns: usize,
    /// The outcome that the frame's return was answered with.
    returned: Option<u32>,
}

/// What was seen of one run: a log for each frame it made.
pub struct Run {
    logs: Vec<FrameLog>,
    /// What happened to views.
    events: Vec<Event>,
    refused: usize,
    free: u32,
    reduced: Option<Words>,
}

/// "Main has returned once a return of the run was answered with outcome 3."
pub fn main_has_returned(output: &str) -> bool {
    output.lines().any(|line| line == "102 3")
}

impl Run {
    /// Builds the logs from PROGRAM's own answers. The plain machine only
    /// tells which frame was the worker's bottom.
    pub fn observe(input: &Input, output: &str) -> Result<Run, String> {
        let workers = usize::from(input.workers);
        let mut machine = Machine::start(
            workers,
            PLACES,
            input.nodes as usize,
            &input.values,
            Counting::Cached,
        )
        .map_err(|refusal| format!("the plain machine refuses the start: {refusal:?}"))?;
        let printed = Printed::parse(output)?;
        let mut run = Run {
            logs: vec![FrameLog::default()],
            events: Vec::new(),
            refused: 0,
            free: printed.free,
            reduced: printed.reduced,
        };
        for (place, record) in record::records(&input.tape).enumerate() {
            let answer = printed.answers.get(place);
            let (word, number) = *answer.ok_or("an answer is missing")?;
            match record::decode(record) {
                Ok(step) if word == 100 + u32::from(step.kind()) => {
                    run.log(&machine, step, number)?;
                    let live = match step {
                        Step::Return { .. } => machine.in_order(),
                        _ => Vec::new(),
                    };
                    machine
                        .step(step)
                        .map_err(|r| format!("record {place}: the plain machine says {r:?}"))?;
                    run.log_ends(&machine, &live);
                }
                _ => run.refused += 1,
            }
        }
        Ok(run)
    }

    /// Logs an accepted step, before the plain machine takes it. "A frame's
    /// steps are the accepted steps of the run, steals left out, that a
    /// worker took while this was its bottom frame on the plain machine."
    fn log(&mut self, machine: &Machine, step: Step, number: u32) -> Result<(), String> {
        if let Step::Steal { .. } = step {
            return Ok(());
        }
        let bottom = machine
            .bottom(step.worker().into())
            .ok_or("an accepted step of an idle worker")?;
        let child = match step {
            Step::Spawn { .. } => Some(self.name_child(bottom, machine.frames_made())),
            _ => None,
        };
        let log = &mut self.logs[bottom];
        if log.returned.is_some() {
            return Err(format!("frame {:?} steps after its return", log.name));
        }
        log.steps.push(FrameStep { step, child });
        match step {
            Step::Read { .. } => log.reads.push(number),
            Step::Return { .. } => log.returned = Some(number),
            Step::Fold { reducer, value, .. } => self.events.push(Event::Fold {
                frame: bottom,
                reducer,
                value,
            }),
            _ => {}
        }
        Ok(())
    }

    fn name_child(&mut self, parent: FrameId, child: FrameId) -> FrameId {
        assert_eq!(child, self.logs.len(), "frames are logged as they are made");
        self.events.push(Event::Spawn { parent, child });
        let parent = &mut self.logs[parent];
        parent.spawns += 1;
        let name = name::of_child(&parent.name, parent.spawns);
        self.logs.push(FrameLog {
            name,
            ..FrameLog::default()
        });
        child
    }

    /// Of the frames that were live before, those that are not any more: a
    /// child before its parent.
    fn log_ends(&mut self, machine: &Machine, before: &[FrameId]) {
        let ended = before.iter().filter(|frame| !machine.is_live(**frame));
        let ends = ended.map(|frame| Event::End { frame: *frame });
        self.events.extend(ends);
    }

    /// "A frame's child-first list is its steps in order, each spawn followed
    /// at once by the whole child-first list of the child it made."
    fn child_first(&self, frame: FrameId) -> Vec<Step> {
        let mut list = Vec::new();
        for FrameStep { step, child } in &self.logs[frame].steps {
            list.push(*step);
            if let Some(child) = child {
                list.extend(self.child_first(*child));
            }
        }
        list
    }

    /// "The one-worker run starts with one worker, the same initial values
    /// and a pool of as many whole nodes. It enters Main's child-first list
    /// step by step, all for worker 0." None if its tape is too long.
    pub fn one_worker_input(&self, input: &Input) -> Option<Input> {
        let list = self.child_first(MAIN);
        let tape: Vec<u8> = list
            .into_iter()
            .flat_map(|step| step.taken_by(0).encode())
            .collect();
        (tape.len() <= MAX_TAPE_BYTES).then(|| Input {
            workers: 1,
            nodes: input.nodes,
            values: input.values.clone(),
            tape,
        })
    }

    /// The steps of a frame, by its place among the frames made.
    pub fn steps(&self, frame: FrameId) -> &[FrameStep] {
        &self.logs[frame].steps
    }

    pub fn events(&self) -> &[Event] {
        &self.events
    }

    pub fn reduced(&self) -> Option<Words> {
        self.reduced
    }

    /// "Each total is the identity joined with the values folded into its
    /// reducer, in the order of Main's child-first list." The affine map is
    /// known by what it makes of 0 and of 1.
    pub fn folded_child_first(&self) -> Words {
        let (mut sum, mut minimum) = (0, 4_294_967_295);
        let mut made = [0, 1];
        for step in self.child_first(MAIN) {
            let Step::Fold { reducer, value, .. } = step else {
                continue;
            };
            match reducer {
                0 => sum = orders::multiply_add(1, sum, value),
                1 => minimum = value.min(minimum),
                _ => made = made.map(|x| orders::multiply_add(value / 65_536, x, value % 65_536)),
            }
        }
        let [of_0, of_1] = made;
        [sum, minimum, of_1.wrapping_sub(of_0), of_0]
    }

    /// The frames whose return waited for a child.
    pub fn waited(&self) -> usize {
        let logs = self.logs.iter();
        logs.filter(|log| log.returned == Some(4)).count()
    }

    fn reads(&self) -> Reads {
        let logs = self.logs.iter();
        logs.map(|log| (log.name.clone(), log.reads.clone()))
            .collect()
    }
}

/// "Once Main has returned, no step of the one-worker run is refused, its
/// frames have the same names, frames of the same name have read equal lists
/// of values, and after either run all recorded nodes lie once on the free
/// chain": from outside, `free` equals the nodes.
pub fn check(nodes: u32, run: &Run, one_worker: &Run) -> Result<(), String> {
    if one_worker.refused != 0 {
        let refused = one_worker.refused;
        return Err(format!("{refused} steps of the one-worker run are refused"));
    }
    check_reads(&run.reads(), &one_worker.reads())?;
    check_returns(run, one_worker)?;
    check_totals(run, one_worker)?;
    if run.free != nodes || one_worker.free != nodes {
        return Err(format!(
            "of {nodes} nodes, {} are free after the run and {} after its one-worker run",
            run.free, one_worker.free
        ));
    }
    Ok(())
}

fn check_reads(run: &Reads, one_worker: &Reads) -> Result<(), String> {
    if !run.keys().eq(one_worker.keys()) {
        return Err(format!(
            "the run's frames are {:?}, its one-worker run's {:?}",
            run.keys(),
            one_worker.keys()
        ));
    }
    for (name, reads) in run {
        let others = &one_worker[name];
        if reads != others {
            return Err(format!(
                "frame {name:?} read {reads:?}, in the one-worker run {others:?}"
            ));
        }
    }
    Ok(())
}

/// R-5: "Once Main has returned, each total is the identity joined with the
/// values folded into its reducer, in the order of Main's child-first list, as
/// in the one-worker run." And as the views give it that a family tree has.
fn check_totals(run: &Run, one_worker: &Run) -> Result<(), String> {
    let expected = Some(run.folded_child_first());
    let ways = [
        (run.reduced, "the run"),
        (one_worker.reduced, "its one-worker run"),
        (orders::totals(&run.events, Rule::Right), "the family tree"),
        (
            orders::totals(&one_worker.events, Rule::Right),
            "the family tree of the one-worker run",
        ),
    ];
    for (totals, whose) in ways {
        if totals != expected {
            return Err(format!(
                "{whose} has the totals {totals:?}, the child-first list {expected:?}"
            ));
        }
    }
    Ok(())
}

/// The same frames' steps under another schedule: the frames have the same
/// names and have read the same, the totals are the same, and every node is
/// free.
pub fn check_rescheduled(nodes: u32, run: &Run, other: &Run) -> Result<(), String> {
    check_reads(&run.reads(), &other.reads())?;
    if other.free != nodes {
        return Err(format!("of {nodes} nodes, {} are free", other.free));
    }
    if other.reduced != run.reduced || other.reduced.is_none() {
        return Err(format!(
            "the totals are {:?}, under the first schedule {:?}",
            other.reduced, run.reduced
        ));
    }
    Ok(())
}

/// Main has returned only after every other frame has. In the one-worker run
/// a return finds no live child: Main's is outcome 3, the others' 0.
fn check_returns(run: &Run, one_worker: &Run) -> Result<(), String> {
    for log in &run.logs {
        if log.returned.is_none() {
            return Err(format!("frame {:?} never returned", log.name));
        }
    }
    for log in &one_worker.logs {
        let expected = if log.name.is_empty() { 3 } else { 0 };
        if log.returned != Some(expected) {
            return Err(format!(
                "frame {:?} returns with {:?} in the one-worker run",
                log.name, log.returned
            ));
        }
    }
    Ok(())
}

/// What a run that is not refused whole printed after its first line.
struct Printed {
    /// The two answer words of each record.
    answers: Vec<(u32, u32)>,
    free: u32,
    reduced: Option<Words>,
}

impl Printed {
    fn parse(output: &str) -> Result<Printed, String> {
        let lines: Vec<&str> = output.lines().collect();
        let (lines, reduced) = match lines.as_slice() {
            [before @ .., last] if last.starts_with("reduced") => (before, Some(*last)),
            all => (all, None),
        };
        let [_first, records @ .., free] = lines else {
            return Err("fewer than two lines".to_string());
        };
        let bad_line = || "a line that is not an answer".to_string();
        let answers: Option<Vec<_>> = records.iter().map(|line| answer(line)).collect();
        let free = free.strip_prefix("free ").and_then(|n| n.parse().ok());
        Ok(Printed {
            answers: answers.ok_or_else(bad_line)?,
            free: free.ok_or_else(bad_line)?,
            reduced: match reduced {
                Some(line) => Some(totals(line).ok_or_else(bad_line)?),
                None => None,
            },
        })
    }
}

fn answer(line: &str) -> Option<(u32, u32)> {
    let (word, number) = line.split_once(' ')?;
    Some((word.parse().ok()?, number.parse().ok()?))
}

/// The words of the line `reduced`.
fn totals(line: &str) -> Option<Words> {
    let numbers = line.strip_prefix("reduced ")?.split(' ');
    let words: Option<Vec<u32>> = numbers.map(|number| number.parse().ok()).collect();
    words?.try_into().ok()
}

#[cfg(test)]
mod tests {
    use super::*;
    use crate::edges;
    use crate::splitrun;

    fn example() -> (Input, String) {
        edge("the example tape")
    }

    /// Two branches, and all three frames with a child wait.
    fn waiting_example() -> (Input, String) {
        edge("two branches wait below Main: the first stops at it, the second ends it")
    }

    fn edge(name: &str) -> (Input, String) {
        let edge = edges::all().into_iter().find(|edge| edge.name == name);
        let edge = edge.expect("an edge of this name");
        let input = Input::parse(&edge.input).expect("a fit input");
        (input, edge.expected)
    }

    #[test]
    fn the_examples_child_first_list() {
        let (input, output) = example();
        assert!(main_has_returned(&output));
        let run = Run::observe(&input, &output).expect("a run");
        let kinds: Vec<u8> = run.child_first(MAIN).iter().map(|s| s.kind()).collect();
        // Main: spawn, write, sync, read, return; its child: read, return.
        assert_eq!(kinds, [1, 5, 2, 6, 4, 5, 2]);
    }

    /// The example's run against its one-worker run, of whose output one
    /// line is changed.
    fn check_changed(line: &str, changed: &str) -> Result<(), String> {
        check_changed_in(example(), line, changed)
    }

    fn check_changed_in(
        (input, output): (Input, String),
        line: &str,
        changed: &str,
    ) -> Result<(), String> {
        let run = Run::observe(&input, &output)?;
        let one_worker = run.one_worker_input(&input).expect("a short tape");
        let output = splitrun::output(&one_worker.to_bytes(), Counting::Recounted);
        let output = output.replace(line, changed);
        check(input.nodes, &run, &Run::observe(&one_worker, &output)?)
    }

    #[test]
    fn the_examples_one_worker_run() {
        let (input, output) = example();
        let run = Run::observe(&input, &output).expect("a run");
        let one_worker = run.one_worker_input(&input).expect("a short tape");
        assert_eq!(
            splitrun::output(&one_worker.to_bytes(), Counting::Recounted),
            "1 5 20\n101 1\n105 50\n102 0\n106 9\n104 0\n105 99\n102 3\nfree 20\n\
             reduced 0 4294967295 1 0\n"
        );
        assert_eq!(check_changed("", ""), Ok(()));
    }

    #[test]
    fn misses_of_demand_3_are_caught() {
        let read = check_changed("105 99", "105 50").expect_err("another read");
        assert!(read.starts_with("frame [] read [99]"), "{read}");
        let refused = check_changed("106 9", "16 0").expect_err("a refused step");
        assert!(refused.starts_with("1 steps"), "{refused}");
        let lost = check_changed("free 20", "free 19").expect_err("a lost node");
        assert!(lost.starts_with("of 20 nodes"), "{lost}");
        let totals = check_changed(" 1 0\n", " 1 1\n").expect_err("other totals");
        assert!(totals.starts_with("its one-worker run has"), "{totals}");
    }

    /// Returns that wait are last steps, and no return waits with one worker.
    #[test]
    fn waiting_frames_in_the_one_worker_run() {
        let (input, output) = waiting_example();
        let run = Run::observe(&input, &output).expect("a run");
        assert_eq!(run.waited(), 3);
        let one_worker = run.one_worker_input(&input).expect("a short tape");
        assert_eq!(
            splitrun::output(&one_worker.to_bytes(), Counting::Recounted),
            "1 5 20\n101 1\n101 2\n102 0\n102 0\n101 1\n101 2\n102 0\n102 0\n102 3\nfree 20\n\
             reduced 0 4294967295 1 0\n"
        );
        assert_eq!(check_changed_in(waiting_example(), "", ""), Ok(()));
        let waits = check_changed_in(waiting_example(), "102 0", "102 4");
        let waits = waits.expect_err("a return that waits with one worker");
        assert!(
            waits.starts_with("frame [1] returns with Some(4)"),
            "{waits}"
        );
    }

    #[test]
    fn steps_of_waiting_frames_are_caught() {
        let (mut input, output) = edge("return by Main while its child runs elsewhere: 102 4");
        let read = Step::Read {
            worker: 1,
            splitter: 0,
        };
        input.tape[24..32].copy_from_slice(&read.encode());
        let output = output.replace("10 0\n", "105 10\n");
        let seen = Run::observe(&input, &output).err();
        assert_eq!(seen.as_deref(), Some("an accepted step of an idle worker"));
    }
}
