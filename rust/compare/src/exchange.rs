//! Exchanges: what each must say, what it must write, and how both sides go on.

use crate::branch::{held, way};
use crate::expect;
use crate::ours::{Cells, Ours};
use crate::theirs::{cleaned, Theirs};
use crate::tree::Tree;
use crate::Count;
use lemboraw::raw::{self, Exchanged, Table};

/// The input of an exchange, but for record and cells.
#[derive(Clone, Copy)]
pub struct Exchange<'a> {
    pub table: Table<'a>,
    /// How much is lent of times, places, marks and sinces; more than there is means all.
    pub lent: [usize; 4],
    pub at: usize,
    pub branch: Table<'a>,
    /// How much room there is for kinds, ns, limits, times, places, marks and sinces.
    pub room: [usize; 7],
}

/// The room as it is after an exchange.
pub struct Room {
    kinds: Vec<u8>,
    ns: Vec<u16>,
    limits: Vec<f64>,
    pub cells: Cells,
}

impl Room {
    /// What may lie in the room before.
    fn rubbish(lent: [usize; 7]) -> Self {
        let [kinds, ns, limits, cells @ ..] = lent;
        Room {
            kinds: vec![0xee; kinds],
            ns: vec![0xdead; ns],
            limits: vec![-98.76; limits],
            cells: Cells::rubbish_of(cells),
        }
    }

    /// A tree and its cells at the start.
    fn put(&mut self, tree: &Tree, cells: &Cells) {
        let len = tree.len();
        self.kinds[..len].copy_from_slice(&tree.kinds);
        self.ns[..len].copy_from_slice(&tree.ns);
        self.limits[..len].copy_from_slice(&tree.limits);
        self.cells.copy(cells, len);
    }

    fn same(&self, other: &Room) -> bool {
        let bits = |limits: &[f64]| limits.iter().map(|limit| limit.to_bits()).collect::<Vec<_>>();
        self.kinds == other.kinds
            && self.ns == other.ns
            && bits(&self.limits) == bits(&other.limits)
            && self.cells.same(&other.cells)
    }
}

/// The tree with a branch replaced, each limit as the library takes it.
pub fn replaced(tree: &Tree, place: usize, branch: &Tree) -> Tree {
    let nodes = |tree: &Tree, from: usize, to: usize| {
        (from..to).map(|p| (tree.kinds[p], tree.ns[p], cleaned(tree.limits[p]))).collect::<Vec<_>>()
    };
    let end = tree.ends[place];
    let parts = [nodes(tree, 0, place), nodes(branch, 0, branch.len()), nodes(tree, end, tree.len())];
    Tree::new(&parts.concat())
}

/// What an exchange of good tables and cells must say; with the tree that it leads to, if it is carried out.
pub fn said(theirs: &Theirs, tree: &Tree, at: usize, branch: &Tree, room: usize) -> (Exchanged, Option<Tree>) {
    let refused = |no| Exchanged { no, ..Exchanged::default() };
    if theirs.bt.finished {
        return (refused(2), None);
    }
    if at >= tree.len() {
        return (refused(17), None);
    }
    if held(&theirs.bt.state, &way(tree, &theirs.seen, at)) {
        return (refused(18), None);
    }
    let result = replaced(tree, at, branch);
    if result.len() > 256 || result.depths.iter().any(|&depth| depth > 16) {
        return (refused(19), None);
    }
    if room < result.len() {
        return (refused(20), None);
    }
    (Exchanged { nodes: result.len(), ..Exchanged::default() }, Some(result))
}

/// Both sides after an exchange.
pub struct After {
    pub tree: Tree,
    pub theirs: Theirs,
    pub ours: Ours,
}

/// Exchanges on both sides and compares; gives what it led to, or none for a refusal.
pub fn both(
    theirs: &Theirs,
    ours: &mut Ours,
    tree: &Tree,
    at: usize,
    branch: &Tree,
    room: [usize; 7],
    count: &mut Count,
) -> Result<Option<After>, String> {
    let call = Exchange { table: tree.table(), lent: [usize::MAX; 4], at, branch: branch.table(), room };
    let shortest = room.into_iter().min().unwrap_or(0);
    let (said, result) = said(theirs, tree, at, branch, shortest);
    count.exchange(said.no);
    let then = result.map(|result| (theirs.exchanged(tree, at, branch.len(), &result), result));
    let room = ours
        .exchange(&call, said, then.as_ref().map(|(theirs, result)| (theirs, result)))
        .map_err(|wrong| format!("{wrong}the branch\n{branch}"))?;
    Ok(then.map(|(theirs, tree)| After { ours: ours.over(&tree, room.cells), tree, theirs }))
}

/// What an exchange with something wrong in its tables or cells must say, if it does not come to look for the node.
pub fn refused_early(call: &Exchange, cells: &Cells, finished: bool) -> Option<Exchanged> {
    let refused = |no, table, place| Some(Exchanged { no, table, place, nodes: 0 });
    if let Some(place) = expect::table_fault(&call.table) {
        return refused(3, 0, place);
    }
    if let Some(place) = expect::table_fault(&call.branch) {
        return refused(3, 1, place);
    }
    if call.lent.iter().any(|&lent| lent.min(cells.times.len()) < expect::length(&call.table)) {
        return refused(4, 0, 0);
    }
    if let Some(place) = expect::cell_fault(&call.table, cells) {
        return refused(9, 0, place);
    }
    if finished {
        return refused(2, 0, 0);
    }
    None
}

impl Ours {
    /// Calls the library and compares what it says and leaves in the room. `then` is bonsai after the exchange, with its tree.
    pub fn exchange(
        &mut self,
        call: &Exchange,
        said: Exchanged,
        then: Option<(&Theirs, &Tree)>,
    ) -> Result<Room, String> {
        let mut room = Room::rubbish(call.room);
        let mut must = Room::rubbish(call.room);
        if let Some((theirs, tree)) = then {
            must.put(tree, &theirs.left(tree).cells);
        }
        let before = (self.record(), self.cells().clone());
        let cells = self.cells();
        let cut = |i: usize| call.lent[i].min(cells.times.len());
        let got = raw::exchange(
            &before.0,
            call.table,
            raw::CellsRef {
                times: &cells.times[..cut(0)],
                places: &cells.places[..cut(1)],
                marks: &cells.marks[..cut(2)],
                sinces: &cells.sinces[..cut(3)],
            },
            call.at,
            call.branch,
            raw::TableMut { kinds: &mut room.kinds, ns: &mut room.ns, limits: &mut room.limits },
            room.cells.lend(),
        );
        let read_only = before.0 == self.record() && before.1.same(self.cells());
        if got == said && read_only && room.same(&must) {
            return Ok(room);
        }
        let most = said.nodes.max(got.nodes);
        let show = |room: &Room| {
            let Cells { times, places, marks, sinces } = &room.cells;
            let first = |len: usize| len.min(most);
            format!(
                "{:?} {:?} {:?}\n  {:?} {:?} {:?} {:?}",
                &room.kinds[..first(room.kinds.len())],
                &room.ns[..first(room.ns.len())],
                &room.limits[..first(room.limits.len())],
                &times[..first(times.len())],
                &places[..first(places.len())],
                &marks[..first(marks.len())],
                &sinces[..first(sinces.len())]
            )
        };
        Err(format!(
            "exchange at {}, lent {:?}, room {:?}, {:?}\n{:?}\nsaid {got:?}\nmust {said:?}\nroom {}\nmust {}\n",
            call.at,
            call.lent,
            call.room,
            before.0,
            before.1,
            show(&room),
            show(&must)
        ))
    }
}
