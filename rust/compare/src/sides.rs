//! The sides of a measurement: trees of one case, each with memory of its own, ticked in turn.

use crate::cases::Case;
use crate::levels::Levels;
use crate::ours::Cells;
use crate::small::split;
use crate::theirs::{Answer, Ev};
use crate::tree::{Act, Tree};
use crate::{ActionArgs, Status, BT};
use lemboraw::raw::{self, Record, Said, Table};
use std::hint::black_box;

/// More than any of the ticks needs.
const FUEL: u32 = 1 << 20;

/// Ticks one tree, and gives what the tick told.
pub type Tick<'a, T> = Box<dyn FnMut() -> T + 'a>;

/// One side, with many trees.
pub struct Side<'a> {
    pub name: &'static str,
    /// Makes so many rounds, each of which ticks every tree once.
    pub rounds: Box<dyn FnMut(u64) + 'a>,
}

impl<'a> Side<'a> {
    pub fn new<T: 'a>(name: &'static str, trees: usize, tree: impl Fn() -> Tick<'a, T>) -> Self {
        let mut ticks: Vec<_> = (0..trees).map(|_| tree()).collect();
        let rounds = move |count| {
            for _ in 0..count {
                for tick in &mut ticks {
                    black_box(tick());
                }
            }
        };
        Side { name, rounds: Box::new(rounds) }
    }
}

/// All that is lent to a call for one tree. Each tree has a spare of its own, as in the crate `lemboraw`,
/// though one spare could serve them all.
pub struct Lent {
    pub tree: Tree,
    record: Record,
    pub cells: Cells,
    pub spare: Cells,
    pub board: Vec<u8>,
}

impl Lent {
    pub fn new(tree: &Tree) -> Self {
        let (tree, len) = (tree.clone(), tree.len());
        let (cells, spare, board) = (Cells::fresh(len), Cells::fresh(len), vec![0; len]);
        Lent { tree, record: Record::default(), cells, spare, board }
    }
}

/// A tree in this library, ticked, or restarted where each call ends it.
pub fn ours(case: &Case, lent: Lent) -> Tick<'_, Said> {
    if case.restart {
        calling(case, lent, raw::restart)
    } else {
        calling(case, lent, raw::tick)
    }
}

/// The same without recursion, with levels of its own.
pub fn flat(case: &Case, lent: Lent) -> Tick<'_, Said> {
    let mut levels = Levels::new();
    if case.restart {
        calling(case, lent, move |record, table, cells, spare, board, dt, fuel, statuses, leftovers| {
            raw::restart_flat(record, table, cells, spare, board, dt, fuel, statuses, leftovers, levels.lend())
        })
    } else {
        calling(case, lent, move |record, table, cells, spare, board, dt, fuel, statuses, leftovers| {
            raw::tick_flat(record, table, cells, spare, board, dt, fuel, statuses, leftovers, levels.lend())
        })
    }
}

fn calling<'a, F>(case: &'a Case, mut lent: Lent, mut call: F) -> Tick<'a, Said>
where
    F: FnMut(&mut Record, Table, raw::Cells, raw::Cells, &mut [u8], Option<f64>, u32, &[u8], &[f64]) -> Said + 'a,
{
    let (statuses, leftovers) = split(&case.answers);
    Box::new(move || {
        call(
            &mut lent.record,
            lent.tree.table(),
            lent.cells.lend(),
            lent.spare.lend(),
            &mut lent.board,
            case.ev.dt(),
            FUEL,
            &statuses,
            &leftovers,
        )
    })
}

/// A tree in bonsai, reset where each tick ends it.
pub fn bonsai(case: &Case) -> Tick<'_, Option<Answer>> {
    let mut bt = BT::new(case.tree.behavior(0), ());
    Box::new(move || {
        let mut given = case.answers.iter();
        let told = bt.tick(&case.ev, &mut |args: ActionArgs<Ev, Act>, _: &mut ()| {
            black_box(args.dt);
            given.next().copied().unwrap_or((Status::Failure, 0.0))
        });
        if case.restart {
            bt.reset_bt();
        }
        told
    })
}

/// A WhenAll of actions in the Rust crate over this library, which asks again for each.
pub fn asking(actions: usize) -> Tick<'static, Option<lemboraw::Status>> {
    let behavior = lemboraw::WhenAll((0..actions).map(lemboraw::Action).collect());
    // The tree is small enough, so nothing is refused.
    let mut bt = lemboraw::BT::new(behavior, ()).ok();
    let event = lemboraw::Event::Update(lemboraw::UpdateArgs { dt: 1.0 });
    Box::new(move || {
        let mut answer = |args: lemboraw::ActionArgs<lemboraw::Event, usize>, _: &mut ()| {
            black_box(args.dt);
            lemboraw::RUNNING
        };
        Some(bt.as_mut()?.tick(&event, &mut answer).ok()?.0)
    })
}
