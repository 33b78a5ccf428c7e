//! Damage to the parents of a table's actions, and parents that only look like damage: rings, rows that are their own
//! parents, and numbers above the child's.

use crate::damage::{any_action, beyond, field, highest, row, Damage};
use crate::library::{LIVE, PARENT, STATE};
use crate::random::Random;

/// A ring has at most so many actions.
const LONGEST_RING: u64 = 4;

pub fn damage_parent(r: &mut Random, damage: Damage, words: &mut [u64]) {
    let highest = highest(words);
    let finished = !r.one_in(3);
    let fits = |n: u64| !finished || field(words, n, STATE) != LIVE;
    let Some(n) = any_action(r, words, fits) else { return };
    match damage {
        Damage::ParentUnknown => row(words, n)[PARENT] = beyond(r, highest + 1),
        Damage::ParentAbove if n < highest => row(words, n)[PARENT] = n + 1 + r.below(highest - n),
        Damage::OwnParent => row(words, n)[PARENT] = n,
        Damage::OtherParent => row(words, n)[PARENT] = r.below(highest + 1),
        Damage::RingOfLive => make_ring(r, words, true),
        Damage::RingOfFinished => make_ring(r, words, false),
        _ => {}
    }
}

/// Some live actions, or some finished ones, each made the next one's child, and the last the first one's.
fn make_ring(r: &mut Random, words: &mut [u64], live: bool) {
    let fits = |n: &u64| (field(words, *n, STATE) == LIVE) == live;
    let mut numbers: Vec<u64> = (1..=highest(words)).filter(fits).collect();
    let length = (1 + r.below(LONGEST_RING)).min(numbers.len() as u64);
    let ring: Vec<u64> = (0..length).map(|_| numbers.swap_remove(r.below(numbers.len() as u64) as usize)).collect();
    for (n, parent) in ring.iter().zip(ring.iter().cycle().skip(1)) {
        row(words, *n)[PARENT] = *parent;
    }
}
