//! The same frames' steps under another schedule: each frame takes the steps
//! that it took in a run, in order, but other workers take them, and in
//! another order among the frames.

use crate::demand3::Run;
use crate::machine::{Counting, FrameId, Machine, MAIN};
use crate::random::Random;
use crate::record::Step;
use crate::splitrun::{Input, MAX_NODES, MAX_TAPE_BYTES, PLACES};

/// The input of the same frames' steps under a random schedule, with a pool as
/// large as can be. None if it came to a point where no frame could go on (by
/// 13 or 16), or is too long.
pub fn reschedule(run: &Run, input: &Input, random: &mut Random) -> Option<Input> {
    let workers = random.between(1, 8);
    let nodes = MAX_NODES as usize;
    let machine = Machine::start(workers, PLACES, nodes, &input.values, Counting::Cached).ok()?;
    let mut schedule = Schedule {
        run,
        machine,
        of_run: vec![MAIN],
        taken: vec![0],
        tape: Vec::new(),
        stealing: random.pick(&[2, 20, 60]),
    };
    while !schedule.machine.main_has_returned() {
        schedule.go_on(random)?;
        if schedule.tape.len() > MAX_TAPE_BYTES {
            return None;
        }
    }
    Some(Input {
        workers: workers as u16,
        nodes: MAX_NODES,
        values: input.values.clone(),
        tape: schedule.tape,
    })
}

struct Schedule<'a> {
    run: &'a Run,
    machine: Machine,
    /// By the frame made here: the run's frame of the same name.
    of_run: Vec<FrameId>,
    /// And how many of its steps are taken.
    taken: Vec<usize>,
    tape: Vec<u8>,
    /// Of 100 steps, so many are steals, if one can be.
    stealing: usize,
}

impl Schedule<'_> {
    /// One accepted step: none if there is none.
    fn go_on(&mut self, random: &mut Random) -> Option<()> {
        let steals = self.steals();
        if !steals.is_empty() && random.percent(self.stealing) {
            return self.push(random.pick(&steals));
        }
        let steps = self.steps();
        let choice = if steps.is_empty() { steals } else { steps };
        (!choice.is_empty())
            .then(|| random.pick(&choice))
            .and_then(|step| self.push(step))
    }

    /// The steals that are accepted.
    fn steals(&self) -> Vec<Step> {
        let workers = self.machine.workers();
        let pairs = (0..workers).flat_map(|thief| (0..workers).map(move |victim| (thief, victim)));
        let steal = |(thief, victim)| Step::Steal {
            worker: thief as u8,
            victim: victim as u16,
        };
        self.accepted(pairs.map(steal))
    }

    /// The next step of each worker's bottom frame, if it is accepted.
    fn steps(&self) -> Vec<Step> {
        let next = |worker: usize| {
            let frame = self.machine.bottom(worker)?;
            let steps = self.run.steps(self.of_run[frame]);
            let step = steps.get(self.taken[frame])?.step;
            Some(step.taken_by(worker as u8))
        };
        self.accepted((0..self.machine.workers()).filter_map(next))
    }

    fn accepted(&self, steps: impl Iterator<Item = Step>) -> Vec<Step> {
        steps
            .filter(|step| self.machine.check(*step).is_ok())
            .collect()
    }

    fn push(&mut self, step: Step) -> Option<()> {
        if !matches!(step, Step::Steal { .. }) {
            let frame = self.machine.bottom(step.worker().into())?;
            let taken = self.run.steps(self.of_run[frame])[self.taken[frame]];
            self.taken[frame] += 1;
            if let Some(child) = taken.child {
                self.of_run.push(child);
                self.taken.push(0);
            }
        }
        self.machine.step(step).ok()?;
        self.tape.extend(step.encode());
        Some(())
    }
}

#[cfg(test)]
mod tests {
    use super::*;
    use crate::{demand3, generate, splitrun};

    /// The copying program's totals are the same under every schedule.
    #[test]
    fn schedules_change_no_totals() {
        let mut random = Random::new(5);
        let (mut made, mut workers) = (0, [false; 9]);
        for seed in 0..150 {
            let bytes = generate::input(seed);
            let output = splitrun::output(&bytes, Counting::Cached);
            if !demand3::main_has_returned(&output) {
                continue;
            }
            let input = Input::parse(&bytes).expect("a fit input");
            let run = Run::observe(&input, &output).expect("a run");
            for _ in 0..3 {
                let Some(other) = reschedule(&run, &input, &mut random) else {
                    continue;
                };
                let output = splitrun::output(&other.to_bytes(), Counting::Cached);
                let seen = Run::observe(&other, &output).expect("a run");
                let same = demand3::check_rescheduled(other.nodes, &run, &seen);
                assert_eq!(same, Ok(()), "seed {seed}");
                made += 1;
                workers[usize::from(other.workers)] = true;
            }
        }
        assert!(made > 200, "{made} schedules");
        assert!(workers[1..].iter().all(|met| *met));
    }

    /// A total that a schedule changes is caught.
    #[test]
    fn other_totals_are_caught() {
        let edges = crate::edges::all();
        let name = "two children and Main return on workers [0, 1, 2]";
        let edge = edges
            .iter()
            .find(|edge| edge.name == name)
            .expect("an edge");
        let input = Input::parse(&edge.input).expect("a fit input");
        let run = Run::observe(&input, &edge.expected).expect("a run");
        let changed = edge.expected.replace("12345", "12354");
        let other = Run::observe(&input, &changed).expect("a run");
        assert_eq!(demand3::check_rescheduled(20, &run, &run), Ok(()));
        assert!(demand3::check_rescheduled(20, &run, &other).is_err());
        let none = edge
            .expected
            .replace("reduced 0 4294967295 100000 12345\n", "");
        let other = Run::observe(&input, &none).expect("a run");
        assert!(demand3::check_rescheduled(20, &run, &other).is_err());
    }
}
