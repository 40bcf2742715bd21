//! Random trees on random histories.

use crate::bound;
use crate::exchanges::{self, Sides};
use crate::expect;
use crate::ours::{Call, Cells, Ours, ALL};
use crate::random::Random;
use crate::small::split;
use crate::spoil;
use crate::theirs::{Answer, Ev, Left, Theirs, Trace};
use crate::tree::Tree;
use crate::wrapped::{How, Wrapped};
use crate::{Count, Status};
use lemboraw::raw::{Said, Table};

const TREES: usize = 50;

/// Where a tree's times come from; now and then one comes from another source.
#[derive(Clone, Copy)]
enum Source {
    Zero,
    Whole,
    Tenths,
    Subnormal,
    Huge,
    Bits,
}

const SOURCES: [Source; 6] =
    [Source::Zero, Source::Whole, Source::Tenths, Source::Subnormal, Source::Huge, Source::Bits];

impl Source {
    fn time(self, random: &mut Random) -> f64 {
        let source = if random.one_in(12) { random.pick(&SOURCES) } else { self };
        let time = match source {
            Source::Zero => 0.0,
            Source::Whole => random.below(6) as f64,
            Source::Tenths => random.below(40) as f64 * 0.1,
            Source::Subnormal => f64::from_bits(random.below(6) as u64),
            Source::Huge => random.pick(&[f64::MAX, f64::MAX / 2.0, 1e308, 9e307]),
            Source::Bits => {
                let time = f64::from_bits(random.next() >> 1);
                if time.is_finite() {
                    time
                } else {
                    1.5
                }
            }
        };
        if time == 0.0 {
            random.pick(&[0.0, -0.0])
        } else {
            time
        }
    }
}

/// One batch of trees; the same for the same seed and number.
pub fn batch(seed: u64, number: u64, count: &mut Count) -> Result<(), String> {
    let random = &mut Random::new(seed, number);
    for _ in 0..TREES {
        let source = random.pick(&SOURCES);
        let most = random.pick(&[6, 12, 12, 40, 256]);
        let tree = Tree::random(random, most, &mut |random| source.time(random));
        let mut now = tree.clone();
        walk(&mut now, source, random, count).map_err(|wrong| format!("batch {number}\n{tree}now\n{now}{wrong}"))?;
        bound::compare(random, count).map_err(|wrong| format!("batch {number}\n{wrong}"))?;
    }
    Ok(())
}

/// Ticks a tree, of which branches are exchanged now and then.
fn walk(tree: &mut Tree, source: Source, random: &mut Random, count: &mut Count) -> Result<(), String> {
    let mut theirs = Theirs::new(tree);
    // Some trees have ticked nearly forever, so that the count goes round.
    theirs.bt.tick_count = random.pick(&[0, 0, 5, u64::MAX - 6, u64::MAX - 1, u64::MAX]);
    // In a new tree every since is 0; any number is taken.
    if random.one_in(2) {
        let any = random.next();
        theirs.since.numbers.fill_with(|| random.pick(&[0, 1, 6, u64::MAX - 2, u64::MAX, any]));
    }
    let mut ours = Ours::new(tree, random.below(3), &theirs);
    // The crate walks once for each action that is asked: small trees show the same in less time.
    let mut wrapped = if tree.len() <= 40 { Some(Wrapped::new(tree, &theirs)?) } else { None };
    // Some hosts say Running most of the time, so that trees grow old.
    let patient = random.one_in(2);
    for _ in 0..4 + random.below(20) {
        if random.one_in(12) {
            exchanges::spoiled(tree, &theirs, &ours, random, count)?;
            let sides = Sides { tree, theirs: &mut theirs, ours: &mut ours, wrapped: &mut wrapped };
            exchanges::each_place(sides, &mut |random| source.time(random), random, count)?;
        }
        // Room for some rounds of a loop.
        let most = 4 * tree.len() as u32 + 40;
        let ev = if random.one_in(4) { Ev::Other } else { Ev::Update(source.time(random)) };
        if random.one_in(3) {
            spoiled(tree, &theirs, &ours, ev, random, count)?;
        }
        if theirs.bt.finished {
            let call =
                Call { restart: false, table: tree.table(), ev, fuel: most, statuses: &[], leftovers: &[], lent: ALL };
            ours.call(&call, Said { no: 2, ..Said::default() }, None, count)?;
        }
        let restart = theirs.bt.finished || random.one_in(20);
        let before = restart.then(|| (theirs.clone(), ours.clone()));
        if restart {
            // In the Rust the pair of both.
            theirs.reset();
            if random.one_in(2) {
                spoil(ours.cells_mut(), tree.len(), random);
            }
        }
        let watched = theirs.watch(tree, ev, most, &mut |_| answer(source, patient, random));
        let trace = &watched.trace;
        let all = trace.asks.len();
        if all > 0 {
            // An action whose answer is missing, with fuel that just reaches it, or just not.
            let given = random.below(all);
            let entered = trace.asks[given].entered as u32;
            for fuel in [entered - 1, entered, entered + 1] {
                call(tree, &mut ours, restart, ev, trace, fuel.min(most), given, 0, None, count)?;
            }
        }
        match trace.end {
            Some((_, visits)) if visits <= u64::from(most) => {
                let visits = visits as u32;
                call(tree, &mut ours, restart, ev, trace, visits - 1, all, 0, None, count)?;
                theirs.tick(tree, ev, &watched)?;
                let left = theirs.left(tree);
                if let Some(wrapped) = &mut wrapped {
                    let again = [How::Restart, How::ResetAndTick];
                    wrapped.call(if restart { random.pick(&again) } else { How::Tick }, ev, trace, &theirs)?;
                }
                let fuel = random.pick(&[visits, visits, visits + 1, u32::MAX]);
                let unused = random.pick(&[0, 0, 0, 3]);
                call(tree, &mut ours, restart, ev, trace, fuel, all, unused, Some((&theirs, &left)), count)?;
            }
            _ => {
                call(tree, &mut ours, restart, ev, trace, most, all, 0, None, count)?;
                // It goes on from where it stood.
                if let Some(stood) = before {
                    (theirs, ours) = stood;
                }
            }
        }
    }
    Ok(())
}

fn answer(source: Source, patient: bool, random: &mut Random) -> Answer {
    let status = if patient && !random.one_in(4) {
        Status::Running
    } else {
        random.pick(&[Status::Running, Status::Success, Status::Success, Status::Failure])
    };
    (status, source.time(random))
}

/// Puts anything into some cells: only a restart takes them.
fn spoil(cells: &mut Cells, len: usize, random: &mut Random) {
    for place in 0..len {
        if random.one_in(2) {
            cells.times[place] = f64::from_bits(random.next());
            cells.places[place] = random.next() as u16;
            cells.marks[place] = random.next() as u8;
            cells.sinces[place] = random.next();
        }
    }
}

/// Calls with that many of the trace's answers, and some that are not used behind them.
#[allow(clippy::too_many_arguments)]
fn call(
    tree: &Tree,
    ours: &mut Ours,
    restart: bool,
    ev: Ev,
    trace: &Trace,
    fuel: u32,
    given: usize,
    unused: usize,
    then: Option<(&Theirs, &Left)>,
    count: &mut Count,
) -> Result<(), String> {
    let (mut statuses, mut leftovers) = split(&trace.answers[..given]);
    statuses.resize(given + unused, 3);
    leftovers.resize(given + unused, -0.0);
    let call = Call { restart, table: tree.table(), ev, fuel, statuses: &statuses, leftovers: &leftovers, lent: ALL };
    ours.call(&call, trace.said(fuel, given), then, count)
}

/// A call with one or two things wrong in it, which must leave everything as it was.
fn spoiled(
    tree: &Tree,
    theirs: &Theirs,
    ours: &Ours,
    mut ev: Ev,
    random: &mut Random,
    count: &mut Count,
) -> Result<(), String> {
    let mut ours = ours.clone();
    let mut tree = tree.clone();
    let len = tree.len();
    let mut statuses = vec![1, 2, 3];
    let mut leftovers = vec![0.0, 1.0, f64::MAX];
    let mut lent = ALL;
    let no_time = [f64::NAN, f64::INFINITY, f64::NEG_INFINITY, -5e-324, -1.0, -f64::NAN];
    for _ in 0..1 + random.below(2) {
        match random.below(7) {
            0 => ev = Ev::Update(random.pick(&no_time)),
            1 => {
                let index = random.below(statuses.len());
                statuses[index] = random.pick(&[0, 4, 255, 2]);
                leftovers[index] = random.pick(&[0.0, no_time[index], no_time[index + 3]]);
            }
            2 => lent[random.below(9)] = random.pick(&[0, len - 1, len]),
            3 => spoil::cell(ours.cells_mut(), &tree, random),
            4 => spoil::row(&mut tree, random),
            5 => spoil::column(&mut tree, random),
            _ => statuses.truncate(2),
        }
        // What is spoiled next needs every column.
        if tree.kinds.len() != len || tree.ns.len() != len || tree.limits.len() != len {
            break;
        }
    }
    let table = Table { kinds: &tree.kinds, ns: &tree.ns, limits: &tree.limits };
    for restart in [false, true] {
        let call = Call { restart, table, ev, fuel: 9, statuses: &statuses, leftovers: &leftovers, lent };
        if let Some(said) = expect::refusal(&call, ours.cells(), theirs.bt.finished) {
            ours.call(&call, said, None, count)?;
        }
    }
    Ok(())
}
