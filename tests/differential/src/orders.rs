//! R-5's views a second time, over a family tree and with no names: each frame
//! has its live children in a list, eldest first. Beside the right rule it has
//! wrong ones, to tell in how many runs each of them would show.

use crate::machine::{FrameId, MAIN};
use std::collections::BTreeMap;

/// What happens to views in a run, in order.
#[derive(Clone, Copy, Debug, PartialEq, Eq)]
pub enum Event {
    Spawn {
        parent: FrameId,
        child: FrameId,
    },
    Fold {
        frame: FrameId,
        reducer: u16,
        value: u32,
    },
    End {
        frame: FrameId,
    },
}

#[derive(Clone, Copy, Debug, PartialEq, Eq)]
pub enum Rule {
    Right,
    /// The view of a frame that ends joins on the right of the next one's.
    OnTheRight,
    /// It joins the parent's, though a younger sibling lives.
    ToTheParent,
    /// It joins the younger sibling's, though frames live below that one.
    ToTheSibling,
    YoungestFirst,
    /// The continuation keeps the view that the child inherits.
    ContinuationKeeps,
    /// The child begins with the identity, and the continuation keeps the
    /// view.
    ChildBegins,
    /// The later map is applied first.
    LaterMapFirst,
}

/// The wrong rules, with words for them.
pub const WRONG: [(Rule, &str); 7] = [
    (Rule::OnTheRight, "joined on the right"),
    (Rule::ToTheParent, "joined to the parent, past a sibling"),
    (Rule::ToTheSibling, "joined to a sibling, past those below"),
    (Rule::YoungestFirst, "siblings youngest first"),
    (Rule::ContinuationKeeps, "the continuation keeps the view"),
    (Rule::ChildBegins, "the child begins with the identity"),
    (Rule::LaterMapFirst, "the later map applied first"),
];

/// Sum, minimum, multiplier, addend.
pub type Words = [u32; 4];

const IDENTITY: Words = [0, 4_294_967_295, 1, 0];

struct Member {
    parent: FrameId,
    /// The live ones, eldest first.
    children: Vec<FrameId>,
    view: Words,
}

struct Family {
    rule: Rule,
    members: BTreeMap<FrameId, Member>,
}

/// The totals by the rule, none if Main has not ended.
pub fn totals(events: &[Event], rule: Rule) -> Option<Words> {
    let main = Member {
        parent: MAIN,
        children: Vec::new(),
        view: IDENTITY,
    };
    let mut family = Family {
        rule,
        members: BTreeMap::from([(MAIN, main)]),
    };
    events.iter().find_map(|event| family.take(*event))
}

impl Family {
    /// The totals, if Main ends.
    fn take(&mut self, event: Event) -> Option<Words> {
        match event {
            Event::Spawn { parent, child } => self.spawn(parent, child),
            Event::Fold {
                frame,
                reducer,
                value,
            } => self.fold(frame, reducer, value),
            Event::End { frame } => return self.end(frame),
        }
        None
    }

    fn spawn(&mut self, parent: FrameId, child: FrameId) {
        let above = self.member(parent);
        above.children.push(child);
        let view = above.view;
        let (of_child, of_parent) = match self.rule {
            Rule::ContinuationKeeps => (view, view),
            Rule::ChildBegins => (IDENTITY, view),
            _ => (view, IDENTITY),
        };
        self.member(parent).view = of_parent;
        let member = Member {
            parent,
            children: Vec::new(),
            view: of_child,
        };
        self.members.insert(child, member);
    }

    fn fold(&mut self, frame: FrameId, reducer: u16, value: u32) {
        let mut folded = IDENTITY;
        match reducer {
            0 => folded[0] = value,
            1 => folded[1] = value,
            _ => [folded[2], folded[3]] = [value >> 16, value & 0xffff],
        }
        let view = self.member(frame).view;
        self.member(frame).view = self.joined(view, folded);
    }

    fn end(&mut self, frame: FrameId) -> Option<Words> {
        let next = self.next(frame);
        let ended = self.members.remove(&frame).expect("a live frame");
        if frame == MAIN {
            return Some(ended.view);
        }
        self.member(ended.parent)
            .children
            .retain(|child| *child != frame);
        let view = self.member(next).view;
        self.member(next).view = match self.rule {
            Rule::OnTheRight => self.joined(view, ended.view),
            _ => self.joined(ended.view, view),
        };
        None
    }

    /// Whose view the ended frame's joins; Main itself for Main.
    fn next(&self, frame: FrameId) -> FrameId {
        let parent = self.members[&frame].parent;
        let siblings = self.children(parent);
        let place = siblings.iter().position(|child| *child == frame);
        let sibling = place.and_then(|place| match self.rule {
            Rule::ToTheParent => None,
            Rule::YoungestFirst => siblings[..place].last(),
            _ => siblings.get(place + 1),
        });
        match sibling {
            None => parent,
            Some(sibling) if self.rule == Rule::ToTheSibling => *sibling,
            Some(sibling) => self.first_below(*sibling),
        }
    }

    /// The first in order of a frame and all below it.
    fn first_below(&self, frame: FrameId) -> FrameId {
        let children = self.children(frame);
        let first = match self.rule {
            Rule::YoungestFirst => children.last(),
            _ => children.first(),
        };
        first.map_or(frame, |child| self.first_below(*child))
    }

    fn joined(&self, earlier: Words, later: Words) -> Words {
        let [sum, minimum, multiplier, addend] = earlier;
        let [sum_2, minimum_2, multiplier_2, addend_2] = later;
        let addend = match self.rule {
            Rule::LaterMapFirst => multiply_add(multiplier, addend_2, addend),
            _ => multiply_add(multiplier_2, addend, addend_2),
        };
        [
            multiply_add(1, sum, sum_2),
            if minimum < minimum_2 {
                minimum
            } else {
                minimum_2
            },
            multiply_add(multiplier, multiplier_2, 0),
            addend,
        ]
    }

    fn children(&self, frame: FrameId) -> &[FrameId] {
        &self.members[&frame].children
    }

    fn member(&mut self, frame: FrameId) -> &mut Member {
        self.members.get_mut(&frame).expect("a live frame")
    }
}

/// Modulo 4,294,967,296.
pub fn multiply_add(a: u32, b: u32, c: u32) -> u32 {
    ((u64::from(a) * u64::from(b) + u64::from(c)) % 4_294_967_296) as u32
}

/// In how many of the runs that ended Main a wrong rule gives other totals.
#[derive(Default)]
pub struct Shown {
    runs: usize,
    by_rule: [usize; WRONG.len()],
}

/// Of the runs that ended Main, at least one in so many must show each rule.
const SHOWN_ONE_IN: usize = 10;

impl Shown {
    /// Takes the events of a run that ended Main, with its totals.
    pub fn add(&mut self, events: &[Event], right: Words) {
        self.runs += 1;
        for (count, (rule, _)) in self.by_rule.iter_mut().zip(WRONG) {
            *count += usize::from(totals(events, rule) != Some(right));
        }
    }

    /// The counts in lines, and whether each rule shows often enough.
    pub fn lines(&self) -> (String, bool) {
        let mut lines = format!(
            "of {} runs that ended Main, the totals are others by a wrong rule (at least one in \
             {SHOWN_ONE_IN} asked):\n",
            self.runs
        );
        for ((_, words), count) in WRONG.into_iter().zip(self.by_rule) {
            lines += &format!("  {words:40} {count:>6}\n");
        }
        let often = |count: &usize| count * SHOWN_ONE_IN >= self.runs && *count > 0;
        (lines, self.by_rule.iter().all(often))
    }
}

#[cfg(test)]
mod tests {
    use super::*;

    const fn spawn(parent: FrameId, child: FrameId) -> Event {
        Event::Spawn { parent, child }
    }

    /// x times 2 plus `addend`.
    fn fold(frame: FrameId, addend: u32) -> Event {
        Event::Fold {
            frame,
            reducer: 2,
            value: 2 * 65_536 + addend,
        }
    }

    const fn end(frame: FrameId) -> Event {
        Event::End { frame }
    }

    /// Main folds 1, spawns a, folds 3, spawns b, folds 5; a folds 2, b folds
    /// 4, and below b c folds 9 first. a ends before c, b and Main.
    fn events() -> Vec<Event> {
        vec![
            fold(0, 1),
            spawn(0, 1),
            fold(0, 3),
            spawn(0, 2),
            fold(0, 5),
            spawn(2, 3),
            fold(3, 9),
            fold(2, 4),
            fold(1, 2),
            end(1),
            end(3),
            end(2),
            end(0),
        ]
    }

    fn addend(rule: Rule) -> u32 {
        let totals = totals(&events(), rule).expect("Main has ended");
        totals[3]
    }

    /// ((((1 · 2 + 2) · 2 + 3) · 2 + 9) · 2 + 4) · 2 + 5 by the order 1, 2, 3,
    /// 9, 4, 5; the others by hand too.
    #[test]
    fn each_rule_by_hand() {
        let in_order = |addends: [u32; 6]| addends.iter().fold(0, |sum, addend| 2 * sum + addend);
        assert_eq!(addend(Rule::Right), in_order([1, 2, 3, 9, 4, 5]));
        // a after the view that c inherited and folded; c after b, b after Main
        assert_eq!(addend(Rule::OnTheRight), in_order([5, 4, 3, 9, 1, 2]));
        assert_eq!(addend(Rule::ToTheParent), in_order([3, 9, 4, 1, 2, 5]));
        assert_eq!(addend(Rule::ToTheSibling), in_order([3, 9, 1, 2, 4, 5]));
        assert_eq!(addend(Rule::YoungestFirst), in_order([3, 9, 4, 1, 2, 5]));
        // Main's own: 1, 3, 5; a's 2; c's 9; b's 4
        assert_eq!(addend(Rule::ChildBegins), in_order([2, 9, 4, 1, 3, 5]));
        let reversed = in_order([5, 4, 9, 3, 2, 1]);
        assert_eq!(addend(Rule::LaterMapFirst), reversed);
        let kept = totals(&events(), Rule::ContinuationKeeps).expect("Main has ended");
        assert_ne!(
            kept,
            totals(&events(), Rule::Right).expect("Main has ended")
        );
    }

    #[test]
    fn no_totals_before_the_end() {
        let events = events();
        assert_eq!(totals(&events[..events.len() - 1], Rule::Right), None);
        assert_eq!(totals(&[end(0)], Rule::Right), Some(IDENTITY));
    }

    #[test]
    fn each_rule_must_show() {
        let right = totals(&events(), Rule::Right).expect("Main has ended");
        let mut shown = Shown::default();
        assert!(!shown.lines().1);
        shown.add(&events(), right);
        assert!(shown.lines().1, "{}", shown.lines().0);
        for _ in 0..10 {
            shown.add(&[end(0)], IDENTITY);
        }
        assert!(!shown.lines().1);
    }
}
