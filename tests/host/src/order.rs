//! R-5 once more over the words of any sound state: all live frames are put in a list, by a walk from Main down the links, and a step must
//! change the list and the views as the request says. `family.rs` follows runs from their start; this one asks about one step.

use crate::plain::{State, FOLD, NONE, RETURN, SPAWN};
use crate::replay::Taken;
use crate::session::Failure;
use crate::soundness::expect;
use std::collections::BTreeMap;

type Words = [u32; 4];

const IDENTITIES: Words = [0, 4_294_967_295, 1, 0];

/// "Order the live frames with siblings eldest first and each, after all below it, before its parent": their places.
fn in_order(state: &State) -> Vec<u32> {
    let mut list = Vec::new();
    if let Some(main) = places(state, NONE).first() {
        walk(state, *main, &mut list);
    }
    list
}

fn walk(state: &State, place: u32, list: &mut Vec<u32>) {
    children(state, place)
        .into_iter()
        .for_each(|child| walk(state, child, list));
    list.push(place);
}

/// Eldest first: each is the next younger one of that before it.
fn children(state: &State, parent: u32) -> Vec<u32> {
    let mut left = places(state, parent);
    let mut youngest_first = Vec::new();
    let mut younger = NONE;
    while let Some(at) = left
        .iter()
        .position(|&place| state.frames[place as usize].younger == younger)
    {
        younger = left.swap_remove(at);
        youngest_first.push(younger);
    }
    youngest_first.into_iter().rev().collect()
}

/// The live frames of a parent.
fn places(state: &State, parent: u32) -> Vec<u32> {
    let frames = (0..).zip(&state.frames);
    let of_parent = frames.filter(|(_, frame)| frame.live == 1 && frame.parent == parent);
    of_parent.map(|(place, _)| place).collect()
}

/// "0, the sum modulo 4,294,967,296; 1, the minimum; 2, the affine map, multiply then add, modulo 4,294,967,296, earlier map applied first"
fn joined(earlier: Words, later: Words) -> Words {
    let [sum, minimum, multiplier, addend] = earlier.map(u64::from);
    let [sum_2, minimum_2, multiplier_2, addend_2] = later.map(u64::from);
    let words = [
        sum + sum_2,
        minimum.min(minimum_2),
        multiplier * multiplier_2,
        addend * multiplier_2 % (1 << 32) + addend_2,
    ];
    words.map(|word| (word % (1 << 32)) as u32)
}

fn folded(reducer: u32, value: u32) -> Words {
    let [sum, minimum, multiplier, addend] = IDENTITIES;
    match reducer {
        0 => [value, minimum, multiplier, addend],
        1 => [sum, value, multiplier, addend],
        _ => [sum, minimum, value / 65_536, value % 65_536],
    }
}

/// What an accepted step left of the order, the views and the totals.
pub fn check(taken: &Taken) -> Result<(), Failure> {
    let Taken { before, after, .. } = taken;
    let mut list = in_order(before);
    let view = |state: &State, place: u32| state.frames[place as usize].view.words();
    let mut views: BTreeMap<u32, Words> = list.iter().map(|&p| (p, view(before, p))).collect();
    let mut totals = before.totals.words();
    let [kind, worker, field, value] = taken.step;
    let bottom = |state: &State| state.deques[worker as usize].bottom().unwrap_or(NONE);
    match kind {
        SPAWN => {
            let (parent, child) = (bottom(before), bottom(after));
            let inherited = views.insert(parent, IDENTITIES).unwrap_or(IDENTITIES);
            views.insert(child, inherited);
            let at = list.iter().position(|&place| place == parent);
            list.insert(at.unwrap_or(0), child);
        }
        FOLD => {
            let fold = |view: Words| joined(view, folded(field, value));
            views
                .entry(bottom(before))
                .and_modify(|view| *view = fold(*view));
        }
        RETURN => {
            let dead = |place: &u32| after.frames[*place as usize].live == 0;
            while let Some(at) = list.iter().position(dead) {
                let ended = views.remove(&list.remove(at)).unwrap_or(IDENTITIES);
                match list.get(at) {
                    Some(next) => {
                        let join = |view: &mut Words| *view = joined(ended, *view);
                        views.entry(*next).and_modify(join);
                    }
                    None => totals = ended,
                }
            }
        }
        _ => {}
    }
    expect(in_order(after) == list, "the frames are in another order")?;
    let same = list
        .iter()
        .all(|&place| view(after, place) == views[&place]);
    expect(same, "a view is not what the order gives")?;
    expect(after.totals.words() == totals, "other totals")
}
