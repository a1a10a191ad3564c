//! R-5 once more, by names and lists, beside a run from its start: each live frame has its name and the list of what was folded into its
//! view, and joining is appending. Nothing of plain.rs's views and links is used: they must be what the names and lists give.

use crate::plain::{State, FOLD, NONE, RETURN, SPAWN};
use crate::replay::Taken;
use crate::session::Failure;
use std::cmp::Ordering;
use std::collections::BTreeMap;

/// A family is large from so many live children of one frame on.
const LARGE: usize = 3;
/// At least one run in so many must have a large family at some time.
const LARGE_ONE_IN: u64 = 3;

/// A reducer and a value.
type Fold = (u32, u32);

struct Member {
    /// Document 01: "Main's name is the empty chain. The child made by a frame's k-th accepted spawn, k counted from 1, has its parent's
    /// name with k after it."
    name: Vec<u32>,
    spawns: u32,
    folds: Vec<Fold>,
}

/// The live frames of a run by their places, and the totals once Main has returned.
pub struct Family {
    members: BTreeMap<u32, Member>,
    totals: Option<Vec<Fold>>,
}

/// "Order the live frames with siblings eldest first and each, after all below it, before its parent": by their names.
fn order(one: &[u32], other: &[u32]) -> Ordering {
    let differ = one.iter().zip(other).find(|(a, b)| a != b);
    differ.map_or(other.len().cmp(&one.len()), |(a, b)| a.cmp(b))
}

/// "0, the sum modulo 4,294,967,296; 1, the minimum; 2, the affine map", which is known by what it makes of 0 and of 1.
fn words(folds: &[Fold]) -> [u32; 4] {
    let (mut sum, mut minimum, mut of_0, mut of_1) = (0u64, 4_294_967_295, 0u64, 1u64);
    for &(reducer, value) in folds {
        let applied =
            |x: u64| (x * u64::from(value / 65_536) + u64::from(value % 65_536)) % (1 << 32);
        match reducer {
            0 => sum = (sum + u64::from(value)) % (1 << 32),
            1 => minimum = u32::min(minimum, value),
            _ => (of_0, of_1) = (applied(of_0), applied(of_1)),
        }
    }
    let multiplier = (of_1 + (1 << 32) - of_0) % (1 << 32);
    [sum as u32, minimum, multiplier as u32, of_0 as u32]
}

impl Family {
    /// After a start: Main in place 0, with the identities.
    pub fn of_main() -> Family {
        let main = Member {
            name: Vec::new(),
            spawns: 0,
            folds: Vec::new(),
        };
        Family {
            members: BTreeMap::from([(0, main)]),
            totals: None,
        }
    }

    /// Takes an accepted step.
    pub fn take(&mut self, taken: &Taken, counts: &mut Counts) {
        let [kind, worker, field, value] = taken.step;
        let bottom = |state: &State| state.deques.get(worker as usize)?.bottom();
        if !taken.accepted() {
            return;
        }
        match (kind, bottom(taken.before), bottom(taken.after)) {
            (SPAWN, Some(parent), Some(child)) => {
                self.spawn(parent, child);
                counts.siblings = counts.siblings.max(self.siblings(child));
            }
            (FOLD, Some(frame), _) => {
                if let Some(member) = self.members.get_mut(&frame) {
                    member.folds.push((field, value));
                }
            }
            (RETURN, ..) => self.end(taken, counts),
            _ => {}
        }
    }

    /// "The child inherits, the continuation begins with the identity."
    fn spawn(&mut self, parent: u32, child: u32) {
        let Some(above) = self.members.get_mut(&parent) else {
            return;
        };
        above.spawns += 1;
        let member = Member {
            name: [&above.name[..], &[above.spawns]].concat(),
            spawns: 0,
            folds: std::mem::take(&mut above.folds),
        };
        self.members.insert(child, member);
    }

    /// The frames that live no more, the deepest first: "the view of a frame that ends joins on the left of the next one's".
    fn end(&mut self, taken: &Taken, counts: &mut Counts) {
        let dead = |place: &u32| taken.after.frames[*place as usize].live == 0;
        let mut ended: Vec<u32> = self.members.keys().copied().filter(dead).collect();
        ended.sort_by_key(|place| std::cmp::Reverse(self.members[place].name.len()));
        for place in ended {
            if let Some(member) = self.members.remove(&place) {
                self.hand_on(member, counts);
            }
        }
    }

    fn hand_on(&mut self, ended: Member, counts: &mut Counts) {
        let later = self.members.values_mut();
        let next = later
            .filter(|other| order(&ended.name, &other.name).is_lt())
            .min_by(|one, other| order(&one.name, &other.name));
        let Some(next) = next else {
            self.totals = Some(ended.folds);
            return;
        };
        counts.count_end(&ended, next);
        next.folds = [&ended.folds[..], &next.folds].concat();
    }

    /// The live children of a frame's parent, itself among them.
    fn siblings(&self, place: u32) -> usize {
        let own = self.members.get(&place);
        let Some((_, above)) = own.and_then(|own| own.name.split_last()) else {
            return 0;
        };
        let is_sibling = |other: &&Member| {
            let its = other.name.split_last();
            its.is_some_and(|(_, its)| its == above)
        };
        self.members.values().filter(is_sibling).count()
    }

    /// The place of the next younger live sibling, or none.
    fn younger(&self, member: &Member) -> u32 {
        let Some((number, above)) = member.name.split_last() else {
            return NONE;
        };
        let siblings = self.members.iter().filter_map(|(place, other)| {
            let (k, its) = other.name.split_last()?;
            (its == above && k > number).then_some((k, place))
        });
        siblings.min().map_or(NONE, |(_, place)| *place)
    }

    /// The views, the links and the totals of the state are those that names and lists give.
    pub fn check(&self, state: &State) -> Result<(), Failure> {
        let totals = self.totals.as_ref().map_or([0; 4], |folds| words(folds));
        if state.totals.words() != totals {
            return Err(format!(
                "the totals are {:?}, by the lists {totals:?}",
                state.totals
            ));
        }
        for (place, member) in &self.members {
            let frame = &state.frames[*place as usize];
            let (view, younger) = (words(&member.folds), self.younger(member));
            if frame.live != 1 || frame.view.words() != view || frame.younger != younger {
                return Err(format!(
                    "frame {:?} in place {place} has {frame:?}, by names and lists the view {view:?} and the link {younger}",
                    member.name
                ));
            }
        }
        Ok(())
    }

    /// By the frames that live: a run has come to its end.
    pub fn has_totals(&self) -> bool {
        self.totals.is_some()
    }
}

/// Ends by whose view is joined, and runs by how many live siblings they have.
#[derive(Default)]
pub struct Counts {
    to_the_parent: u64,
    to_a_sibling: u64,
    below_a_sibling: u64,
    /// Further than one level.
    deeper: u64,
    /// With something folded on both sides.
    joined: u64,
    /// The most live children of one frame in this run, and in all.
    siblings: usize,
    most: usize,
    runs: u64,
    large_runs: u64,
    runs_with_totals: u64,
}

impl Counts {
    fn count_end(&mut self, ended: &Member, next: &Member) {
        let depth = ended.name.len();
        match next.name.len() {
            least if least < depth => self.to_the_parent += 1,
            same if same == depth => self.to_a_sibling += 1,
            more => {
                self.below_a_sibling += 1;
                self.deeper += u64::from(more > depth + 1);
            }
        }
        let is_map = |fold: &Fold| fold.0 == 2;
        let maps = |member: &Member| member.folds.iter().any(is_map);
        self.joined += u64::from(maps(ended) && maps(next));
    }

    /// A run whose start was accepted has come to its end.
    pub fn end_run(&mut self, family: &Family) {
        self.runs += 1;
        self.large_runs += u64::from(self.siblings >= LARGE);
        self.runs_with_totals += u64::from(family.has_totals());
        self.most = self.most.max(self.siblings);
        self.siblings = 0;
    }

    pub fn lines(&self) -> Vec<String> {
        vec![
            format!(
                "views handed on: {} to the parent, {} to a sibling, {} below a sibling ({} of them two levels and more); {} with maps on both sides",
                self.to_the_parent, self.to_a_sibling, self.below_a_sibling, self.deeper, self.joined
            ),
            format!(
                "  {} of {} runs have {LARGE} live siblings or more at some time, {} at most; {} have totals",
                self.large_runs, self.runs, self.most, self.runs_with_totals
            ),
        ]
    }

    /// What was not met, or too seldom.
    pub fn missing(&self) -> Vec<String> {
        let met = [
            (self.to_the_parent, "a view handed on to the parent"),
            (self.to_a_sibling, "to a sibling"),
            (self.below_a_sibling, "below a sibling"),
            (self.deeper, "two levels below a sibling"),
            (self.joined, "maps on both sides"),
            (self.runs_with_totals, "a run with totals"),
        ];
        let never = met.into_iter().filter(|(times, _)| *times == 0);
        let mut missing: Vec<String> = never.map(|(_, what)| what.to_string()).collect();
        if self.large_runs * LARGE_ONE_IN < self.runs {
            missing.push(format!(
                "{LARGE} live siblings in one run of {LARGE_ONE_IN}"
            ));
        }
        missing
    }
}
