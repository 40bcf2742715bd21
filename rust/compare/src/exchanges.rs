//! Exchanges on random histories: each node tried as the place, and calls with something wrong in them.

use crate::exchange::{both, refused_early, Exchange};
use crate::ours::Ours;
use crate::random::Random;
use crate::spoil;
use crate::theirs::Theirs;
use crate::tree::Tree;
use crate::wrapped::Wrapped;
use crate::Count;

/// Larger trees are tried at some places.
const EACH_PLACE: usize = 40;

/// A tree on both sides, and in the crate.
pub struct Sides<'a> {
    pub tree: &'a mut Tree,
    pub theirs: &'a mut Theirs,
    pub ours: &'a mut Ours,
    pub wrapped: &'a mut Option<Wrapped>,
}

/// Tries each place, and goes on from one of the exchanges that were carried out.
pub fn each_place(
    sides: Sides,
    limit: &mut dyn FnMut(&mut Random) -> f64,
    random: &mut Random,
    count: &mut Count,
) -> Result<(), String> {
    let Sides { tree, theirs, ours, wrapped } = sides;
    let len = tree.len();
    let behind = random.pick(&[len, len + 1, usize::MAX]);
    let places: Vec<usize> = match () {
        () if theirs.bt.finished => vec![random.below(len), behind],
        () if len <= EACH_PLACE => (0..len).chain([behind]).collect(),
        () => (0..8).map(|_| random.below(len)).chain([behind]).collect(),
    };
    let mut chosen = None;
    let mut done = 0;
    for at in places {
        let most = random.pick(&[1, 2, 3, 5, 8, 8, 40, 256]);
        let branch = Tree::random(random, most, limit);
        let size = tree.ends.get(at).map_or(len, |end| len - (end - at) + branch.len());
        let mut room = [size + random.below(3); 7];
        if random.one_in(4) {
            room[random.below(7)] = random.pick(&[0, size - 1, size]);
        }
        let after = both(theirs, ours, tree, at, &branch, room, count)?;
        match after {
            Some(after) => {
                done += 1;
                if random.one_in(done) {
                    chosen = Some((at, branch, after));
                }
            }
            // The crate has room of its own, and would carry out what was refused for want of it.
            None if room.iter().all(|&lent| lent >= size) => {
                if let Some(wrapped) = wrapped {
                    wrapped.exchange(at, &branch, theirs, tree)?;
                }
            }
            None => {}
        }
    }
    if let Some((at, branch, after)) = chosen {
        if let Some(crates) = wrapped {
            crates.exchange(at, &branch, theirs, tree)?;
        }
        if after.tree.len() > EACH_PLACE {
            *wrapped = None;
        }
        (*tree, *theirs, *ours) = (after.tree, after.theirs, after.ours);
    }
    Ok(())
}

/// An exchange with one or two things wrong in it.
pub fn spoiled(
    tree: &Tree,
    theirs: &Theirs,
    ours: &Ours,
    random: &mut Random,
    count: &mut Count,
) -> Result<(), String> {
    let mut ours = ours.clone();
    let mut tables = [tree.clone(), Tree::random(random, 6, &mut |random| random.below(3) as f64)];
    let len = tree.len();
    let mut lent = [usize::MAX; 4];
    for _ in 0..1 + random.below(2) {
        let which = random.below(2);
        match random.below(4) {
            0 => lent[random.below(4)] = random.pick(&[0, len - 1, len]),
            1 => spoil::cell(ours.cells_mut(), tree, random),
            2 => spoil::row(&mut tables[which], random),
            _ => {
                // What is spoiled next would need every column.
                spoil::column(&mut tables[which], random);
                break;
            }
        }
    }
    let room = [random.pick(&[0, 1, 600]); 7];
    let at = random.below(len + 2);
    let call = Exchange { table: tables[0].table(), lent, at, branch: tables[1].table(), room };
    if let Some(said) = refused_early(&call, ours.cells(), theirs.bt.finished) {
        count.exchange(said.no);
        ours.exchange(&call, said, None)?;
    }
    Ok(())
}
