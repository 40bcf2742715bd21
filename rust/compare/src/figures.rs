//! What a tick costs here, with recursion and without, and in bonsai, in one process, on the same trees and answers.

use crate::cases::{asked, ticked, Case};
use crate::ours::run;
use crate::sides::{asking, bonsai, flat, ours, Lent, Side};
use crate::theirs::number;
use std::ops::Range;
use std::slice::from_ref;
use std::sync::atomic::{AtomicU8, Ordering};
use std::time::Instant;

/// How many trees of a case are ticked in turn: one, which stays in the nearest cache, and as many as a
/// host has, which do not.
const TREES: [usize; 2] = [1, 500];
/// So often everything is measured, each time in so many pieces,
const PASSES: usize = 10;
const PIECES: usize = 20;
/// each of which takes so many nanoseconds at least.
const PIECE: f64 = 3e5;

/// What is measured: a case and a number of its trees.
fn measured() -> Vec<(Case, usize)> {
    let ticked = TREES.into_iter().flat_map(|trees| ticked().into_iter().map(move |case| (case, trees)));
    ticked.chain(asked().into_iter().map(|case| (case, 1))).collect()
}

fn sides(case: &Case, trees: usize) -> Vec<Side<'_>> {
    let mut all = vec![
        Side::new("bonsai", trees, || bonsai(case)),
        Side::new("ours", trees, || ours(case, Lent::new(&case.tree))),
        Side::new("flat", trees, || flat(case, Lent::new(&case.tree))),
    ];
    if case.asks {
        all.push(Side::new("asking", trees, || asking(case.answers.len())));
    }
    all
}

/// Whether all sides tell the same of the first ticks: else there would be nothing to compare.
fn agree(case: &Case) -> bool {
    let lent = || Lent::new(&case.tree);
    let (mut theirs, mut ours, mut flat) = (bonsai(case), ours(case, lent()), flat(case, lent()));
    (0..3).map(|_| (theirs(), ours(), flat())).all(|(theirs, ours, flat)| {
        let theirs = theirs.map(|(status, left)| (0, number(status), left));
        theirs == Some((ours.no, ours.status, ours.time)) && ours == flat
    })
}

/// Prints what can be measured, a line each: tree, trees, side.
pub fn list() -> bool {
    for (case, trees) in measured() {
        if !agree(&case) {
            eprintln!("{}: the sides differ", case.name);
            return false;
        }
        sides(&case, trees).iter().for_each(|side| println!("{}\t{trees}\t{}", case.name, side.name));
    }
    true
}

/// Prints the same with the nanoseconds of a tick. The quickest piece counts, so that other work on the
/// machine does not, and the passes are far apart, for other work that lasts.
pub fn times() {
    let mut best = vec![];
    for pass in 0..PASSES {
        for (i, (case, trees)) in measured().iter().enumerate() {
            let mut sides = sides(case, *trees);
            if pass == 0 {
                best.push(vec![f64::INFINITY; sides.len()]);
            }
            time(&mut sides, &mut best[i]);
        }
    }
    for ((case, trees), best) in measured().iter().zip(best) {
        for (side, nanoseconds) in sides(case, *trees).iter().zip(best) {
            println!("{}\t{trees}\t{}\t{:.1}", case.name, side.name, nanoseconds / *trees as f64);
        }
    }
}

/// Times rounds of the sides, which take turns, and keeps the quickest of each.
fn time(sides: &mut [Side], best: &mut [f64]) {
    for _ in 0..PIECES {
        for (side, best) in sides.iter_mut().zip(&mut *best) {
            let mut rounds = 1;
            loop {
                let start = Instant::now();
                (side.rounds)(rounds);
                let nanos = start.elapsed().as_nanos() as f64;
                if nanos > PIECE {
                    *best = best.min(nanos / rounds as f64);
                    break;
                }
                rounds *= 2;
            }
        }
    }
}

/// Makes so many rounds of one line of the list, for a tool that counts instructions.
pub fn repeat(tree: &str, trees: usize, side: &str, rounds: u64) -> bool {
    let Some((case, trees)) = measured().into_iter().find(|(case, n)| case.name == tree && *n == trees) else {
        return false;
    };
    let mut sides = sides(&case, trees);
    let Some(side) = sides.iter_mut().find(|one| one.name == side) else {
        return false;
    };
    (side.rounds)(rounds);
    true
}

/// Makes a call of this library between two exchanges of a mark, and prints where the mark and all that is lent
/// lie, for a tool that traces memory.
pub fn trace(tree: &str) -> bool {
    let Some(case) = ticked().into_iter().find(|case| case.name == tree) else {
        return false;
    };
    let lent = Lent::new(&case.tree);
    let mark = AtomicU8::new(0);
    let place = |name: &str, run: Range<usize>| println!("{name}\t{:x}\t{:x}", run.start, run.end);
    place("mark", run(from_ref(&mark)));
    place("kinds", run(&lent.tree.kinds));
    place("ns", run(&lent.tree.ns));
    place("limits", run(&lent.tree.limits));
    lent.cells.runs().into_iter().for_each(|run| place("cells", run));
    lent.spare.runs().into_iter().for_each(|run| place("spare", run));
    place("board", run(&lent.board));
    let mut tick = ours(&case, lent);
    // The second tick is like all that follow.
    tick();
    mark.store(1, Ordering::SeqCst);
    tick();
    mark.store(2, Ordering::SeqCst);
    true
}
