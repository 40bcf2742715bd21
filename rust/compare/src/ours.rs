//! This library, with all the memory that it is lent, and what each call must leave there.

use crate::levels::Levels;
use crate::random::Random;
use crate::theirs::{Ev, Left, Theirs};
use crate::tree::Tree;
use crate::Count;
use lemboraw::raw::{self, Record, Said, Table};
use std::ops::Range;

/// Cells of a tree, and perhaps of more room behind them.
#[derive(Clone, Debug, Default)]
pub struct Cells {
    pub times: Vec<f64>,
    pub places: Vec<u16>,
    pub marks: Vec<u8>,
    pub sinces: Vec<u64>,
}

impl Cells {
    pub fn fresh(len: usize) -> Self {
        Cells { times: vec![0.0; len], places: vec![0; len], marks: vec![0; len], sinces: vec![0; len] }
    }

    /// What may lie in memory before the library writes there.
    pub fn rubbish(len: usize) -> Self {
        Cells::rubbish_of([len; 4])
    }

    /// The same, each of its own length.
    pub fn rubbish_of([times, places, marks, sinces]: [usize; 4]) -> Self {
        Cells {
            times: vec![-123.456; times],
            places: vec![0xbeef; places],
            marks: vec![0xcd; marks],
            sinces: vec![0xfeed_f00d; sinces],
        }
    }

    /// Takes over the first `len` cells of another.
    pub fn copy(&mut self, from: &Cells, len: usize) {
        self.times[..len].copy_from_slice(&from.times[..len]);
        self.places[..len].copy_from_slice(&from.places[..len]);
        self.marks[..len].copy_from_slice(&from.marks[..len]);
        self.sinces[..len].copy_from_slice(&from.sinces[..len]);
    }

    fn copy_all(&mut self, from: &Cells) {
        self.copy(from, from.times.len());
    }

    pub fn lend(&mut self) -> raw::Cells<'_> {
        raw::Cells {
            times: &mut self.times,
            places: &mut self.places,
            marks: &mut self.marks,
            sinces: &mut self.sinces,
        }
    }

    /// Where each of the runs lies.
    pub fn runs(&self) -> [Range<usize>; 4] {
        [run(&self.times), run(&self.places), run(&self.marks), run(&self.sinces)]
    }

    /// Equal bit by bit.
    pub fn same(&self, other: &Cells) -> bool {
        self.places == other.places
            && self.marks == other.marks
            && self.sinces == other.sinces
            && self.times.len() == other.times.len()
            && self.times.iter().zip(&other.times).all(|(a, b)| a.to_bits() == b.to_bits())
    }
}

/// Where the elements of a slice lie.
pub fn run<T>(of: &[T]) -> Range<usize> {
    let run = of.as_ptr_range();
    run.start as usize..run.end as usize
}

/// The input of a tick or a restart, but for the memory.
#[derive(Clone, Copy)]
pub struct Call<'a> {
    pub restart: bool,
    pub table: Table<'a>,
    pub ev: Ev,
    pub fuel: u32,
    pub statuses: &'a [u8],
    pub leftovers: &'a [f64],
    /// How much is lent of times, places, marks, sinces, the same of the spare, and the board; more
    /// than there is means all.
    pub lent: [usize; 9],
}

pub const ALL: [usize; 9] = [usize::MAX; 9];

/// All that a call can change.
#[derive(Clone)]
struct Memory {
    record: Record,
    cells: Cells,
    spare: Cells,
    board: Vec<u8>,
}

impl Memory {
    fn copy_all(&mut self, from: &Memory) {
        self.record = from.record;
        self.cells.copy_all(&from.cells);
        self.spare.copy_all(&from.spare);
        self.board.copy_from_slice(&from.board);
    }

    fn differs(&self, must: &Memory) -> Option<&'static str> {
        match () {
            () if self.record != must.record => Some("record"),
            () if !self.cells.same(&must.cells) => Some("cells"),
            () if !self.spare.same(&must.spare) => Some("spare"),
            () if self.board != must.board => Some("board"),
            () => None,
        }
    }

    /// Lends it to a call; with levels, to one without recursion.
    fn carry_out(&mut self, call: &Call, levels: Option<raw::Levels>) -> Said {
        let Memory { record, cells, spare, board } = self;
        let cut = |i: usize| call.lent[i].min(board.len());
        let cells = raw::Cells {
            times: &mut cells.times[..cut(0)],
            places: &mut cells.places[..cut(1)],
            marks: &mut cells.marks[..cut(2)],
            sinces: &mut cells.sinces[..cut(3)],
        };
        let spare = raw::Cells {
            times: &mut spare.times[..cut(4)],
            places: &mut spare.places[..cut(5)],
            marks: &mut spare.marks[..cut(6)],
            sinces: &mut spare.sinces[..cut(7)],
        };
        let lent = cut(8);
        let board = &mut board[..lent];
        let Call { table, fuel, statuses, leftovers, .. } = *call;
        let dt = call.ev.dt();
        match levels {
            None => {
                let carry_out = if call.restart { raw::restart } else { raw::tick };
                carry_out(record, table, cells, spare, board, dt, fuel, statuses, leftovers)
            }
            Some(levels) => {
                let carry_out = if call.restart { raw::restart_flat } else { raw::tick_flat };
                carry_out(record, table, cells, spare, board, dt, fuel, statuses, leftovers, levels)
            }
        }
    }

    /// Compares what a call has said and left; `more` is what else differs.
    fn verdict(
        &self,
        must: &Memory,
        got: Said,
        said: Said,
        call: &Call,
        more: Option<&'static str>,
    ) -> Result<(), String> {
        let differs = self.differs(must).or(more);
        if got == said && got.time.to_bits() == said.time.to_bits() && differs.is_none() {
            return Ok(());
        }
        let answers: Vec<_> = call.statuses.iter().zip(call.leftovers).collect();
        Err(format!(
            "{} {:?}, fuel {}, lent {:?}, answers {answers:?}\nsaid {got:?}\nmust {said:?}\ndiffers in {}\nnow {:?} {:?} board {:?}\nmust {:?} {:?} board {:?}\n",
            if call.restart { "restart" } else { "tick" },
            call.ev,
            call.fuel,
            call.lent,
            differs.unwrap_or("the answer"),
            self.record,
            self.cells,
            self.board,
            must.record,
            must.cells,
            must.board,
        ))
    }
}

/// A tree in this library.
#[derive(Clone)]
pub struct Ours {
    len: usize,
    now: Memory,
    /// What the memory must be after a call.
    must: Memory,
    /// A copy of it, for the same call without recursion, and where the levels of that come from.
    flat: Memory,
    random: Random,
}

impl Ours {
    /// A tree as new as bonsai's, in memory for `more` nodes beyond its own.
    pub fn new(tree: &Tree, more: usize, theirs: &Theirs) -> Self {
        let len = tree.len();
        let mut cells = Cells::rubbish(len + more);
        cells.copy(&theirs.left(tree).cells, len);
        let now = Memory {
            record: Record { finished: false, ticks: theirs.bt.tick_count },
            cells,
            spare: Cells::rubbish(len + more),
            board: vec![0xab; len + more],
        };
        // Other levels for each tree, and the same on every run.
        let rows = tree.kinds.iter().zip(&tree.ns);
        let seed = rows.fold(0u64, |seed, (&kind, &n)| seed.wrapping_mul(31) ^ u64::from(kind) << 16 ^ u64::from(n));
        Ours { len, must: now.clone(), flat: now.clone(), now, random: Random::new(seed, 0) }
    }

    /// The tree that an exchange led to, over the cells that it left.
    pub fn over(&self, tree: &Tree, cells: Cells) -> Self {
        let lens = [cells.times.len(), cells.places.len(), cells.marks.len(), cells.sinces.len()];
        let room = lens.into_iter().min().unwrap_or(0);
        let mut now = Memory {
            record: self.now.record,
            cells: Cells::rubbish(room),
            spare: Cells::rubbish(room),
            board: vec![0xab; room],
        };
        now.cells.copy(&cells, room);
        Ours { len: tree.len(), must: now.clone(), flat: now.clone(), now, random: self.random.clone() }
    }

    pub fn record(&self) -> Record {
        self.now.record
    }

    pub fn cells(&self) -> &Cells {
        &self.now.cells
    }

    /// The cells, to spoil them.
    pub fn cells_mut(&mut self) -> &mut Cells {
        &mut self.now.cells
    }

    /// Calls the library, with recursion and without, and compares what it says and leaves. `then` is bonsai after the call,
    /// with what that left; it is looked at for answer 0 alone.
    pub fn call(
        &mut self,
        call: &Call,
        said: Said,
        then: Option<(&Theirs, &Left)>,
        count: &mut Count,
    ) -> Result<(), String> {
        count.said(call.restart, said.no);
        self.must.copy_all(&self.now);
        self.flat.copy_all(&self.now);
        if self.random.one_in(4) {
            // Too few levels are refused behind 3 and 4, and everything is as it was.
            let said = if matches!(said.no, 3 | 4) { said } else { Said { no: 13, ..Said::default() } };
            count.few_levels += u64::from(said.no == 13);
            let few = Levels::too_few(&mut self.random);
            self.without_recursion(call, said, few)?;
        }
        match (said.no, then) {
            (0, Some((theirs, left))) => {
                self.must.spare.copy(&self.now.cells, self.len);
                self.must.cells.copy(&left.cells, self.len);
                self.must.board[..self.len].copy_from_slice(&left.board);
                self.must.record = Record { finished: theirs.bt.finished, ticks: theirs.bt.tick_count };
            }
            (1 | 7, _) => self.must.spare.copy(&self.now.cells, self.len),
            _ => {}
        }
        let got = self.now.carry_out(call, None);
        self.now.verdict(&self.must, got, said, call, None)?;
        count.flat += 1;
        let enough = Levels::enough(&mut self.random);
        self.without_recursion(call, said, enough)
    }

    /// The same call without recursion, on the copy: its levels are zero behind a walk, and else as they were.
    fn without_recursion(&mut self, call: &Call, said: Said, levels: Levels) -> Result<(), String> {
        let (mut now, mut must) = (levels.clone(), levels);
        if matches!(said.no, 0 | 1 | 7) {
            must.clear();
        }
        let got = self.flat.carry_out(call, Some(now.lend()));
        let levels = (!now.same(&must)).then_some("levels");
        let told = self.flat.verdict(&self.must, got, said, call, levels);
        told.map_err(|wrong| format!("without recursion: {wrong}{now:?}\nmust {must:?}\n"))
    }
}
