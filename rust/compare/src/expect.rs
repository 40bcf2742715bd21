//! What is refused before the walk, worked out from document 01: bonsai has no say in it.

use crate::ours::{Call, Cells};
use crate::tree::{children_of, ACTION, AFTER, IF, TIMEOUT, WAIT, WHEN_ALL, WHEN_ANY};
use lemboraw::raw::{Said, Table};

/// Finite, with the sign bit clear once minus zero is taken as plus zero.
pub fn is_time(x: f64) -> bool {
    x.is_finite() && x >= 0.0
}

/// A run lent as several slices is as long as the shortest.
pub fn length(table: &Table) -> usize {
    table.kinds.len().min(table.ns.len()).min(table.limits.len())
}

/// The smallest faulty place of a table.
pub fn table_fault(table: &Table) -> Option<usize> {
    let len = length(table);
    // For each level under way, the children still to come; above the root there is one.
    let mut due = vec![1];
    for place in 0.. {
        while due.last() == Some(&0) {
            due.pop();
        }
        let Some(left) = due.last_mut() else {
            return (place < len).then_some(place);
        };
        *left -= 1;
        if place == len || place == 256 || due.len() > 16 {
            return Some(place);
        }
        let (kind, n, limit) = (table.kinds[place], table.ns[place], table.limits[place]);
        let Some((fewest, most)) = children_of(kind) else {
            return Some(place);
        };
        let children = if kind == ACTION { 0 } else { n };
        let limited = kind == WAIT || kind == TIMEOUT;
        let limit_good = if limited { is_time(limit) } else { limit == 0.0 };
        if children < fewest || children > most || !limit_good {
            return Some(place);
        }
        due.push(u32::from(children));
    }
    None
}

/// The smallest place with a bad cell, in a good table.
pub fn cell_fault(table: &Table, cells: &Cells) -> Option<usize> {
    // The nodes above, each with its children still to come and whether it or one above is marked.
    let mut above: Vec<(u8, u16, bool)> = vec![];
    for place in 0..length(table) {
        while matches!(above.last(), Some((_, 0, _))) {
            above.pop();
        }
        let (parent, dead) = match above.last_mut() {
            Some((kind, left, dead)) => {
                *left -= 1;
                (*kind, *dead)
            }
            None => (0, false),
        };
        let (kind, n) = (table.kinds[place], table.ns[place]);
        let (time, at, mark) = (cells.times[place], cells.places[place], cells.marks[place]);
        let most = match kind {
            IF => 2,
            6 | 8 | AFTER => n,
            11 => n - 2,
            12 => n - 1,
            _ => 0,
        };
        let timed = kind == WAIT || kind == TIMEOUT;
        let time_good = if timed { !time.is_nan() && time.is_sign_positive() } else { time.to_bits() == 0 };
        let mark_good = mark == 0 || mark == 1 && (parent == WHEN_ALL || parent == WHEN_ANY) && !dead;
        let zero = time.to_bits() == 0 && at == 0;
        if !time_good || at > most || !mark_good || (mark == 1 || dead) && !zero {
            return Some(place);
        }
        above.push((kind, if kind == ACTION { 0 } else { n }, dead || mark == 1));
    }
    None
}

/// The refusal of a call on a tree with these cells, if there is one before the walk.
pub fn refusal(call: &Call, cells: &Cells, finished: bool) -> Option<Said> {
    let said = |no, extra: usize| Some(Said { no, extra, ..Said::default() });
    if let Some(place) = table_fault(&call.table) {
        return said(3, place);
    }
    if call.lent.iter().any(|&lent| lent.min(cells.times.len()) < length(&call.table)) {
        return said(4, 0);
    }
    // A restart looks at no cell and at no record.
    if let Some(place) = cell_fault(&call.table, cells).filter(|_| !call.restart) {
        return said(9, place);
    }
    if call.ev.dt().is_some_and(|dt| !is_time(dt)) {
        return said(5, 0);
    }
    let bad = |(status, left): (&u8, &f64)| !(1..=3).contains(status) || !is_time(*left);
    if let Some(index) = call.statuses.iter().zip(call.leftovers).position(bad) {
        return said(6, index);
    }
    (finished && !call.restart).then(|| Said { no: 2, ..Said::default() })
}
