//! The finish bound, worked out from document 01 in numbers wide enough for it.

use crate::expect::{is_time, table_fault};
use crate::random::Random;
use crate::tree::{Tree, AFTER};
use crate::Count;
use lemboraw::raw::{self, Bound};

const TOP: f64 = (1u64 << 40) as f64;

/// Compares the bound of a random tree for a random step.
pub fn compare(random: &mut Random, count: &mut Count) -> Result<(), String> {
    let most = random.pick(&[6, 12, 40, 256]);
    let large = random.one_in(2);
    let tree = Tree::random(random, most, &mut |random| limit(random, large));
    // Actions, endless waits and memoryless nodes have no bound: without them there is more to see.
    let mut tree = tree;
    if !random.one_in(4) {
        for place in 0..tree.len() {
            tree.kinds[place] = match tree.kinds[place] {
                1 | 2 => 0,
                9 | 10 => 13,
                AFTER if tree.ns[place] == 0 && !random.one_in(20) => 14,
                kind => kind,
            };
            if tree.kinds[place] == 0 {
                tree.ns[place] = 0;
                tree.limits[place] = limit(random, large);
            }
        }
    }
    if random.one_in(50) {
        let place = random.below(tree.len());
        tree.limits[place] = random.pick(&[0.5, TOP + 1.0, f64::NAN, f64::MAX, -1.0, TOP * 2.0]);
    }
    let step = match random.below(12) {
        0 => random.pick(&[0.0, -1.0, 0.5, 1.5, TOP + 1.0, f64::NAN, f64::INFINITY, -0.0, f64::MAX]),
        1 => TOP,
        _ => (1 + random.below(4)) as f64,
    };
    count.bounds += 1;
    let (got, must) = (raw::bound(tree.table(), step), bound(&tree, step));
    if got == must {
        Ok(())
    } else {
        Err(format!("{tree}bound for {step:?}\nsaid {got:?}\nmust {must:?}\n"))
    }
}

fn limit(random: &mut Random, large: bool) -> f64 {
    if large {
        random.pick(&[TOP, TOP - 1.0, 1048576.0, 9007199.0, 8192.0, 4096.0, 2.0])
    } else {
        random.pick(&[-0.0, 0.0, 1.0, 2.0, 3.0, 4.0, 5.0, 6.0, 7.0, 8.0])
    }
}

fn bound(tree: &Tree, step: f64) -> Bound {
    if let Some(place) = table_fault(&tree.table()) {
        return Bound { no: 3, place, ..Bound::default() };
    }
    let whole = |x: f64| is_time(x) && x <= TOP && x.fract() == 0.0;
    let empty_after = (0..tree.len()).any(|p| tree.kinds[p] == AFTER && tree.ns[p] == 0);
    if !whole(step) || step < 1.0 || !tree.limits.iter().all(|&x| whole(x)) || empty_after {
        return Bound { no: 8, ..Bound::default() };
    }
    match ticks(tree, 0, step as u128) {
        None => Bound { kind: 1, ..Bound::default() },
        Some(ticks) if ticks > 1 << 53 => Bound { kind: 2, ..Bound::default() },
        Some(ticks) => Bound { ticks: ticks as u64, ..Bound::default() },
    }
}

/// A number may be as large as it likes: past u128 it stays at the largest, far above 2^53.
fn ticks(tree: &Tree, place: usize, step: u128) -> Option<u128> {
    let mut below = vec![];
    let mut q = place + 1;
    for _ in 0..tree.children(place) {
        below.push(ticks(tree, q, step));
        q = tree.ends[q];
    }
    let own = (tree.limits[place] as u128).div_ceil(step).max(1);
    let sum = |of: &[Option<u128>]| of.iter().copied().try_fold(0u128, |a, b| Some(a.saturating_add(b?)));
    let largest = |of: &[Option<u128>]| of.iter().copied().try_fold(1u128, |a, b| Some(a.max(b?)));
    match tree.kinds[place] {
        0 => Some(own),
        3 | 4 | 11 => below[0],
        5 => Some(below[0].map_or(own, |child| child.min(own))),
        6 | 8 => sum(&below),
        7 => Some(below[0]?.saturating_add(largest(&below[1..])?)),
        9 | 10 if below.is_empty() => Some(1),
        12 => Some(below[0]?.saturating_mul(sum(&below[1..])?)),
        13..=15 => largest(&below),
        16 => below.into_iter().flatten().min(),
        _ => None,
    }
}
