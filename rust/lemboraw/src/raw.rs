//! The eight functions of the archive on slices, without allocation.
//!
//! Each is proved to return for every argument and to touch only what is lent to it, so these are
//! safe to call with anything. What the numbers mean, and what each answer leaves behind, is in
//! `include/lemboraw.h`. [`BT`](crate::BT) is the comfortable way to the same thing.
//!
//! The proofs speak of IEEE 754 arithmetic, so each call sets the thread's floating-point settings
//! where they are others, and puts them back.

use crate::floats::usual;

/// The entries that [`tick_flat`] and [`restart_flat`] ask for in their [`Levels`].
pub const LEVELS: usize = 16;

/// The standing record of one tree; the default is that of a new one.
#[repr(C)]
#[derive(Clone, Copy, Debug, Default, PartialEq, Eq)]
pub struct Record {
    /// Whether the last tick ended in success or failure.
    pub finished: bool,
    /// The ticks carried out.
    pub ticks: u64,
}

/// What a tick or a restart says; a field that `no` does not use is 0.
#[repr(C)]
#[derive(Clone, Copy, Debug, Default, PartialEq)]
pub struct Said {
    /// 0 done, 1 asks an action, else a refusal.
    pub no: u8,
    /// The root's status: 1 running, 2 success, 3 failure.
    pub status: u8,
    /// The visits made.
    pub visits: u32,
    /// The answers used.
    pub used: usize,
    /// An action's number, a place or an index.
    pub extra: usize,
    /// The leftover time, or the dt that an action sees.
    pub time: f64,
}

/// What the finish bound says.
#[repr(C)]
#[derive(Clone, Copy, Debug, Default, PartialEq, Eq)]
pub struct Bound {
    /// 0, 3 or 8.
    pub no: u8,
    /// 0 a number, 1 none, 2 above 2^53.
    pub kind: u8,
    /// The place of a refusal 3.
    pub place: usize,
    /// The number.
    pub ticks: u64,
}

/// What an exchange says; a field that `no` does not use is 0.
#[repr(C)]
#[derive(Clone, Copy, Debug, Default, PartialEq, Eq)]
pub struct Exchanged {
    /// 0 done, else a refusal.
    pub no: u8,
    /// Of a refusal 3: 0 for the tree's table, 1 for the branch's.
    pub table: u8,
    /// The place of a refusal 3 or 9.
    pub place: usize,
    /// Of 0: the nodes written.
    pub nodes: usize,
}

/// A tree's nodes in preorder.
#[derive(Clone, Copy, Debug)]
pub struct Table<'a> {
    /// What each node is.
    pub kinds: &'a [u8],
    /// Its number of children, or an action's number.
    pub ns: &'a [u16],
    /// The time limit of a Wait or Timeout.
    pub limits: &'a [f64],
}

/// A tree's state, or the spare room for one.
#[derive(Debug)]
pub struct Cells<'a> {
    /// Elapsed times.
    pub times: &'a mut [f64],
    /// Which child is in progress.
    pub places: &'a mut [u16],
    /// 1 for an ended child of WhenAll or WhenAny.
    pub marks: &'a mut [u8],
    /// The number of the tick that last made each fresh; any number is taken. See [`age`].
    pub sinces: &'a mut [u64],
}

/// Room for the open nodes of a call without recursion, an entry for each level. It is as long as the shortest of them.
#[derive(Debug)]
pub struct Levels<'a> {
    /// Which node is open, and where it stands.
    pub opens: &'a mut [u64],
    /// A count of its own.
    pub counts: &'a mut [u32],
    /// The time that it was ticked with.
    pub wholes: &'a mut [f64],
    /// The time that is left, or the least leftover.
    pub rests: &'a mut [f64],
}

/// Room for a table.
#[derive(Debug)]
pub struct TableMut<'a> {
    /// As in [`Table`].
    pub kinds: &'a mut [u8],
    /// As in [`Table`].
    pub ns: &'a mut [u16],
    /// As in [`Table`].
    pub limits: &'a mut [f64],
}

/// A tree's state, only to be read.
#[derive(Clone, Copy, Debug)]
pub struct CellsRef<'a> {
    /// As in [`Cells`].
    pub times: &'a [f64],
    /// As in [`Cells`].
    pub places: &'a [u16],
    /// As in [`Cells`].
    pub marks: &'a [u8],
    /// As in [`Cells`].
    pub sinces: &'a [u64],
}

/// One tick; `dt` is `None` for an event that is no update.
#[allow(clippy::too_many_arguments)]
#[inline]
pub fn tick(
    record: &mut Record,
    table: Table,
    cells: Cells,
    spare: Cells,
    board: &mut [u8],
    dt: Option<f64>,
    fuel: u32,
    statuses: &[u8],
    leftovers: &[f64],
) -> Said {
    carry_out(false, record, table, cells, spare, board, dt, fuel, statuses, leftovers, None)
}

/// A restart and its first tick in one call: it ticks as from a fresh tree. The cells are not checked
/// and may hold anything; where it does not say 0, they and the record are as they were.
#[allow(clippy::too_many_arguments)]
#[inline]
pub fn restart(
    record: &mut Record,
    table: Table,
    cells: Cells,
    spare: Cells,
    board: &mut [u8],
    dt: Option<f64>,
    fuel: u32,
    statuses: &[u8],
    leftovers: &[f64],
) -> Said {
    carry_out(true, record, table, cells, spare, board, dt, fuel, statuses, leftovers, None)
}

/// A tick without recursion, for a thread with little stack: [`tick`] in all else, whatever the input. It keeps its open
/// nodes in the levels, and says 13, after 4 and before 9, where these have fewer than [`LEVELS`] entries, also for a tree
/// that is less deep.
///
/// What is in them does not matter. After 0, 7 and 1 the first [`LEVELS`] entries are zero, every bit of them; after
/// anything else, and behind those, all is as it was.
///
/// ```
/// use lemboraw::raw::{self, Cells, Levels, Record, Table, LEVELS};
///
/// // A Wait of 2 below an Invert.
/// let table = Table { kinds: &[3, 0], ns: &[1, 0], limits: &[0.0, 2.0] };
/// let (mut times, mut places, mut marks, mut sinces) = ([0.0; 2], [0; 2], [0; 2], [0; 2]);
/// let (mut spare_times, mut spare_places, mut spare_marks, mut spare_sinces) = ([0.0; 2], [0; 2], [0; 2], [0; 2]);
/// let (mut opens, mut counts) = ([1; LEVELS], [1; LEVELS]);
/// let (mut wholes, mut rests) = ([1.0; LEVELS], [1.0; LEVELS]);
///
/// let said = raw::tick_flat(
///     &mut Record::default(),
///     table,
///     Cells { times: &mut times, places: &mut places, marks: &mut marks, sinces: &mut sinces },
///     Cells {
///         times: &mut spare_times,
///         places: &mut spare_places,
///         marks: &mut spare_marks,
///         sinces: &mut spare_sinces,
///     },
///     &mut [0; 2],
///     Some(1.5),
///     2,
///     &[],
///     &[],
///     Levels { opens: &mut opens, counts: &mut counts, wholes: &mut wholes, rests: &mut rests },
/// );
/// assert_eq!((said.no, said.status, said.visits, times), (0, 1, 2, [0.0, 1.5]));
/// assert_eq!((opens, counts, wholes, rests), ([0; LEVELS], [0; LEVELS], [0.0; LEVELS], [0.0; LEVELS]));
/// ```
#[allow(clippy::too_many_arguments)]
#[inline]
pub fn tick_flat(
    record: &mut Record,
    table: Table,
    cells: Cells,
    spare: Cells,
    board: &mut [u8],
    dt: Option<f64>,
    fuel: u32,
    statuses: &[u8],
    leftovers: &[f64],
    levels: Levels,
) -> Said {
    carry_out(false, record, table, cells, spare, board, dt, fuel, statuses, leftovers, Some(levels))
}

/// A restart without recursion: [`restart`] in all else, with levels as in [`tick_flat`].
#[allow(clippy::too_many_arguments)]
#[inline]
pub fn restart_flat(
    record: &mut Record,
    table: Table,
    cells: Cells,
    spare: Cells,
    board: &mut [u8],
    dt: Option<f64>,
    fuel: u32,
    statuses: &[u8],
    leftovers: &[f64],
    levels: Levels,
) -> Said {
    carry_out(true, record, table, cells, spare, board, dt, fuel, statuses, leftovers, Some(levels))
}

/// Lends everything to a tick, or to a restart; where there are levels, to one without recursion.
#[allow(clippy::too_many_arguments)]
#[inline]
pub(crate) fn carry_out(
    restart: bool,
    record: &mut Record,
    table: Table,
    cells: Cells,
    spare: Cells,
    board: &mut [u8],
    dt: Option<f64>,
    fuel: u32,
    statuses: &[u8],
    leftovers: &[f64],
    levels: Option<Levels>,
) -> Said {
    // SAFETY: every pointer goes with the length of its slice, the borrows keep the slices apart,
    // and all four functions are proved to stay within them.
    macro_rules! lend {
        ($call:expr $(, $more:expr)*) => {
            usual(|| unsafe {
                $call(
                    record,
                    table.kinds.as_ptr(),
                    table.kinds.len(),
                    table.ns.as_ptr(),
                    table.ns.len(),
                    table.limits.as_ptr(),
                    table.limits.len(),
                    cells.times.as_mut_ptr(),
                    cells.times.len(),
                    cells.places.as_mut_ptr(),
                    cells.places.len(),
                    cells.marks.as_mut_ptr(),
                    cells.marks.len(),
                    cells.sinces.as_mut_ptr(),
                    cells.sinces.len(),
                    spare.times.as_mut_ptr(),
                    spare.times.len(),
                    spare.places.as_mut_ptr(),
                    spare.places.len(),
                    spare.marks.as_mut_ptr(),
                    spare.marks.len(),
                    spare.sinces.as_mut_ptr(),
                    spare.sinces.len(),
                    board.as_mut_ptr(),
                    board.len(),
                    dt.is_some(),
                    dt.unwrap_or(0.0),
                    fuel,
                    statuses.as_ptr(),
                    statuses.len(),
                    leftovers.as_ptr(),
                    leftovers.len(),
                    $($more,)*
                )
            })
        };
    }
    match levels {
        None => {
            let call = if restart { lemboraw_restart } else { lemboraw_tick };
            lend!(call)
        }
        Some(levels) => {
            let call = if restart { lemboraw_restart_flat } else { lemboraw_tick_flat };
            lend!(
                call,
                levels.opens.as_mut_ptr(),
                levels.opens.len(),
                levels.counts.as_mut_ptr(),
                levels.counts.len(),
                levels.wholes.as_mut_ptr(),
                levels.wholes.len(),
                levels.rests.as_mut_ptr(),
                levels.rests.len()
            )
        }
    }
}

/// The exchange of a branch that has not been started: writes the tree in which `branch` stands in place of
/// the node `at` and all below it, its table and its cells. [`BT::exchange`](crate::BT::exchange) says where
/// that is allowed. Where it does not say 0, nothing is written.
pub fn exchange(
    record: &Record,
    table: Table,
    cells: CellsRef,
    at: usize,
    branch: Table,
    room_table: TableMut,
    room_cells: Cells,
) -> Exchanged {
    // SAFETY: as for `tick`; what is lent by a shared borrow is only read.
    usual(|| unsafe {
        lemboraw_exchange(
            *record,
            table.kinds.as_ptr(),
            table.kinds.len(),
            table.ns.as_ptr(),
            table.ns.len(),
            table.limits.as_ptr(),
            table.limits.len(),
            cells.times.as_ptr(),
            cells.times.len(),
            cells.places.as_ptr(),
            cells.places.len(),
            cells.marks.as_ptr(),
            cells.marks.len(),
            cells.sinces.as_ptr(),
            cells.sinces.len(),
            at,
            branch.kinds.as_ptr(),
            branch.kinds.len(),
            branch.ns.as_ptr(),
            branch.ns.len(),
            branch.limits.as_ptr(),
            branch.limits.len(),
            room_table.kinds.as_mut_ptr(),
            room_table.kinds.len(),
            room_table.ns.as_mut_ptr(),
            room_table.ns.len(),
            room_table.limits.as_mut_ptr(),
            room_table.limits.len(),
            room_cells.times.as_mut_ptr(),
            room_cells.times.len(),
            room_cells.places.as_mut_ptr(),
            room_cells.places.len(),
            room_cells.marks.as_mut_ptr(),
            room_cells.marks.len(),
            room_cells.sinces.as_mut_ptr(),
            room_cells.sinces.len(),
        )
    })
}

/// The finish bound for a step; [`BT::finish_bound`](crate::BT::finish_bound) says what it needs.
pub fn bound(table: Table, step: f64) -> Bound {
    // SAFETY: as for `tick`.
    usual(|| unsafe {
        lemboraw_bound(
            table.kinds.as_ptr(),
            table.kinds.len(),
            table.ns.as_ptr(),
            table.ns.len(),
            table.limits.as_ptr(),
            table.limits.len(),
            step,
        )
    })
}

/// For how many ticks a branch has stood: the record's tick count less the since of its cell. It wraps
/// as the count does.
#[inline]
pub fn age(ticks: u64, since: u64) -> u64 {
    // SAFETY: it takes and gives plain numbers.
    unsafe { lemboraw_age(ticks, since) }
}

/// The kind with its memory on or off.
pub fn memory(kind: u8, on: bool) -> u8 {
    // SAFETY: it takes and gives plain numbers.
    unsafe { lemboraw_memory(kind, on) }
}

extern "C" {
    fn lemboraw_tick(
        record: *mut Record,
        kinds: *const u8,
        kinds_len: usize,
        ns: *const u16,
        ns_len: usize,
        limits: *const f64,
        limits_len: usize,
        times: *mut f64,
        times_len: usize,
        places: *mut u16,
        places_len: usize,
        marks: *mut u8,
        marks_len: usize,
        sinces: *mut u64,
        sinces_len: usize,
        spare_times: *mut f64,
        spare_times_len: usize,
        spare_places: *mut u16,
        spare_places_len: usize,
        spare_marks: *mut u8,
        spare_marks_len: usize,
        spare_sinces: *mut u64,
        spare_sinces_len: usize,
        board: *mut u8,
        board_len: usize,
        update: bool,
        dt: f64,
        fuel: u32,
        statuses: *const u8,
        statuses_len: usize,
        leftovers: *const f64,
        leftovers_len: usize,
    ) -> Said;

    fn lemboraw_restart(
        record: *mut Record,
        kinds: *const u8,
        kinds_len: usize,
        ns: *const u16,
        ns_len: usize,
        limits: *const f64,
        limits_len: usize,
        times: *mut f64,
        times_len: usize,
        places: *mut u16,
        places_len: usize,
        marks: *mut u8,
        marks_len: usize,
        sinces: *mut u64,
        sinces_len: usize,
        spare_times: *mut f64,
        spare_times_len: usize,
        spare_places: *mut u16,
        spare_places_len: usize,
        spare_marks: *mut u8,
        spare_marks_len: usize,
        spare_sinces: *mut u64,
        spare_sinces_len: usize,
        board: *mut u8,
        board_len: usize,
        update: bool,
        dt: f64,
        fuel: u32,
        statuses: *const u8,
        statuses_len: usize,
        leftovers: *const f64,
        leftovers_len: usize,
    ) -> Said;

    fn lemboraw_tick_flat(
        record: *mut Record,
        kinds: *const u8,
        kinds_len: usize,
        ns: *const u16,
        ns_len: usize,
        limits: *const f64,
        limits_len: usize,
        times: *mut f64,
        times_len: usize,
        places: *mut u16,
        places_len: usize,
        marks: *mut u8,
        marks_len: usize,
        sinces: *mut u64,
        sinces_len: usize,
        spare_times: *mut f64,
        spare_times_len: usize,
        spare_places: *mut u16,
        spare_places_len: usize,
        spare_marks: *mut u8,
        spare_marks_len: usize,
        spare_sinces: *mut u64,
        spare_sinces_len: usize,
        board: *mut u8,
        board_len: usize,
        update: bool,
        dt: f64,
        fuel: u32,
        statuses: *const u8,
        statuses_len: usize,
        leftovers: *const f64,
        leftovers_len: usize,
        opens: *mut u64,
        opens_len: usize,
        counts: *mut u32,
        counts_len: usize,
        wholes: *mut f64,
        wholes_len: usize,
        rests: *mut f64,
        rests_len: usize,
    ) -> Said;

    fn lemboraw_restart_flat(
        record: *mut Record,
        kinds: *const u8,
        kinds_len: usize,
        ns: *const u16,
        ns_len: usize,
        limits: *const f64,
        limits_len: usize,
        times: *mut f64,
        times_len: usize,
        places: *mut u16,
        places_len: usize,
        marks: *mut u8,
        marks_len: usize,
        sinces: *mut u64,
        sinces_len: usize,
        spare_times: *mut f64,
        spare_times_len: usize,
        spare_places: *mut u16,
        spare_places_len: usize,
        spare_marks: *mut u8,
        spare_marks_len: usize,
        spare_sinces: *mut u64,
        spare_sinces_len: usize,
        board: *mut u8,
        board_len: usize,
        update: bool,
        dt: f64,
        fuel: u32,
        statuses: *const u8,
        statuses_len: usize,
        leftovers: *const f64,
        leftovers_len: usize,
        opens: *mut u64,
        opens_len: usize,
        counts: *mut u32,
        counts_len: usize,
        wholes: *mut f64,
        wholes_len: usize,
        rests: *mut f64,
        rests_len: usize,
    ) -> Said;

    fn lemboraw_exchange(
        record: Record,
        kinds: *const u8,
        kinds_len: usize,
        ns: *const u16,
        ns_len: usize,
        limits: *const f64,
        limits_len: usize,
        times: *const f64,
        times_len: usize,
        places: *const u16,
        places_len: usize,
        marks: *const u8,
        marks_len: usize,
        sinces: *const u64,
        sinces_len: usize,
        at: usize,
        new_kinds: *const u8,
        new_kinds_len: usize,
        new_ns: *const u16,
        new_ns_len: usize,
        new_limits: *const f64,
        new_limits_len: usize,
        room_kinds: *mut u8,
        room_kinds_len: usize,
        room_ns: *mut u16,
        room_ns_len: usize,
        room_limits: *mut f64,
        room_limits_len: usize,
        room_times: *mut f64,
        room_times_len: usize,
        room_places: *mut u16,
        room_places_len: usize,
        room_marks: *mut u8,
        room_marks_len: usize,
        room_sinces: *mut u64,
        room_sinces_len: usize,
    ) -> Exchanged;

    fn lemboraw_bound(
        kinds: *const u8,
        kinds_len: usize,
        ns: *const u16,
        ns_len: usize,
        limits: *const f64,
        limits_len: usize,
        step: f64,
    ) -> Bound;

    fn lemboraw_age(ticks: u64, since: u64) -> u64;

    fn lemboraw_memory(kind: u8, on: bool) -> u8;
}
