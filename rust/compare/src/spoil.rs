//! Things that can be wrong in a table or in cells; some of them are not wrong everywhere.

use crate::ours::Cells;
use crate::random::Random;
use crate::tree::{Tree, ACTION};

/// A number in one of the cells of a tree.
pub fn cell(cells: &mut Cells, tree: &Tree, random: &mut Random) {
    let place = random.below(tree.len());
    let n = tree.ns.get(place).copied().unwrap_or(0);
    match random.below(3) {
        0 => cells.times[place] = random.pick(&[f64::NAN, -0.0, -1.0, 1.0, f64::INFINITY]),
        1 => cells.places[place] = random.pick(&[1, 2, n, n.wrapping_add(1)]),
        _ => cells.marks[place] = random.pick(&[1, 2, 255]),
    }
}

/// A number in one of the rows.
pub fn row(tree: &mut Tree, random: &mut Random) {
    let place = random.below(tree.len());
    match random.below(3) {
        0 => tree.kinds[place] = random.below(18) as u8,
        1 => tree.ns[place] = random.pick(&[0, 1, 2, 3, 65535]),
        _ => tree.limits[place] = random.pick(&[0.0, -5e-324, 1.0, f64::NAN, f64::INFINITY]),
    }
}

/// A column that is too short or too long; the others say whether that matters.
pub fn column(tree: &mut Tree, random: &mut Random) {
    let len = tree.len();
    match random.below(5) {
        0 => tree.kinds.truncate(random.below(len)),
        1 => tree.ns.truncate(random.below(len)),
        2 => tree.limits.truncate(random.below(len)),
        3 => tree.kinds.push(1),
        _ => {
            tree.kinds.push(ACTION);
            tree.ns.push(0);
            tree.limits.push(0.0);
        }
    }
}
