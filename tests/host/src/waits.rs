//! R-3's cases: returns that wait for a child, and how many frames one return ends. Counted are the accepted returns of the runs.

use crate::plain::{self, State, NONE, RETURN};
use crate::replay::Taken;
use std::collections::BTreeMap;

const RETURNED: u32 = 102;
const WAITS: u32 = 4;
/// The outcomes of a return whose deque is empty afterwards.
const STOPS: [u32; 3] = [1, 2, 3];
/// At least one accepted return in so many must wait.
const ONE_IN: u64 = 10;
/// A chain: so many frames ended by one return, or more.
const CHAIN: usize = 3;

#[derive(Default)]
pub struct Waits {
    returns: u64,
    waiting: u64,
    /// Of those, Main's.
    by_main: u64,
    /// Records accepted while Main waited, the return that ended it too.
    while_main_waits: u64,
    /// By the outcome and the frames ended.
    ended: BTreeMap<(u32, usize), u64>,
}

impl Waits {
    /// Counts a step.
    pub fn count(&mut self, taken: &Taken) {
        let Taken { before, after, .. } = taken;
        let ([kind, worker, ..], [first, outcome]) = (taken.step, taken.answer);
        let is_main = |frame: &&plain::Frame| frame.live == 1 && frame.parent == NONE;
        let main = before.frames.iter().find(is_main);
        let main_waits = main.is_some_and(|main| main.returning == 1);
        self.while_main_waits += u64::from(first > 100 && main_waits);
        if kind != RETURN || first != RETURNED {
            return;
        }
        self.returns += 1;
        if outcome == WAITS {
            self.waiting += 1;
            let bottom = before.deques[worker as usize].bottom();
            let frame = bottom.map(|frame| before.frames[frame as usize]);
            self.by_main += u64::from(frame.is_some_and(|frame| frame.parent == NONE));
        }
        let ended = live(before) - live(after);
        *self.ended.entry((outcome, ended)).or_default() += 1;
    }

    pub fn lines(&self) -> Vec<String> {
        let share = self.waiting as f64 / self.returns.max(1) as f64 * 100.0;
        let mut lines = vec![format!(
            "returns: {} accepted, {} of them wait (102 4), {share:.1} in 100; {} by Main; {} records accepted while Main waits",
            self.returns, self.waiting, self.by_main, self.while_main_waits
        )];
        for outcome in STOPS {
            let times = |least, most| self.times(outcome, least, most);
            lines.push(format!(
                "  102 {outcome}, by the frames ended: one {}, two {}, 3 to 9 {}, 10 and more {}; at most {}",
                times(1, 1),
                times(2, 2),
                times(CHAIN, 9),
                times(10, usize::MAX),
                self.longest(outcome)
            ));
        }
        lines
    }

    /// What was not met, or too seldom.
    pub fn missing(&self) -> Vec<String> {
        let mut missing = Vec::new();
        if self.waiting * ONE_IN < self.returns || self.returns == 0 {
            missing.push(format!("fewer than one return in {ONE_IN} waits"));
        }
        if self.by_main == 0 || self.while_main_waits == 0 {
            missing.push("Main never waits".to_string());
        }
        for outcome in STOPS {
            if self.times(outcome, CHAIN, usize::MAX) == 0 {
                missing.push(format!("a chain that ends with 102 {outcome}"));
            }
        }
        missing
    }

    fn times(&self, outcome: u32, least: usize, most: usize) -> u64 {
        let range = self.ended.range((outcome, least)..=(outcome, most));
        range.map(|(_, times)| times).sum()
    }

    fn longest(&self, outcome: u32) -> usize {
        let range = self.ended.range((outcome, 0)..=(outcome, usize::MAX));
        range.last().map_or(0, |(&(_, ended), _)| ended)
    }
}

fn live(state: &State) -> usize {
    state.frames.iter().filter(|frame| frame.live == 1).count()
}
