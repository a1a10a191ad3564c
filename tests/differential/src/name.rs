//! Frames' names, and the order of the live frames by them.

use std::cmp::Ordering;

/// "Main's name is the empty chain. The child made by a frame's k-th accepted
/// spawn, k counted from 1, has its parent's name with k after it."
pub type Name = Vec<usize>;

pub fn of_child(parent: &Name, k: usize) -> Name {
    let mut name = parent.clone();
    name.push(k);
    name
}

/// "Order the live frames with siblings eldest first and each, after all below
/// it, before its parent."
pub fn order(one: &Name, other: &Name) -> Ordering {
    match one.iter().zip(other).find(|(a, b)| a != b) {
        // Below two siblings, or these themselves.
        Some((a, b)) => a.cmp(b),
        // One is below the other: it has the longer name.
        None => other.len().cmp(&one.len()),
    }
}

#[cfg(test)]
mod tests {
    use super::*;

    #[test]
    fn siblings_eldest_first_and_each_after_all_below_it() {
        let sorted: [&[usize]; 9] = [
            &[1, 1],
            &[1, 2],
            &[1],
            &[2, 3, 1],
            &[2, 3],
            &[2, 10],
            &[2],
            &[11],
            &[],
        ];
        for (place, one) in sorted.iter().enumerate() {
            for (other_place, other) in sorted.iter().enumerate() {
                let order = order(&one.to_vec(), &other.to_vec());
                assert_eq!(order, place.cmp(&other_place), "{one:?} {other:?}");
            }
        }
    }
}
