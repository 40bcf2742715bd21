//! Walks without recursion: the same in all that a host sees, with little stack.

use lemboraw::raw::{self, Cells, Levels, Record, Said, Table, LEVELS};
use lemboraw::{
    Action, ActionArgs, After, AlwaysSucceed, Behavior, Event, Failure, If, Invert, Race, Refusal, Running, Select,
    Sequence, Status, Success, Timeout, UpdateArgs, Wait, WaitForever, WhenAll, WhenAny, While, WhileAll, BT,
};

type Tree = BT<u8, Vec<u8>>;

fn boxed(behavior: Behavior<u8>) -> Box<Behavior<u8>> {
    Box::new(behavior)
}

/// One behavior of each kind above another.
fn above(below: &Behavior<u8>) -> Vec<Behavior<u8>> {
    let one = || boxed(below.clone());
    let two = || vec![below.clone(), Action(9)];
    vec![
        Invert(one()),
        AlwaysSucceed(one()),
        Timeout(4.0, one()),
        Select(two()),
        If(one(), boxed(Action(8)), boxed(Wait(1.0))),
        Sequence(two()),
        Sequence(two()).memory(false),
        Select(two()).memory(false),
        While(boxed(Wait(5.0)), two()),
        WhileAll(boxed(Wait(5.0)), two()),
        WhenAll(two()),
        WhenAny(two()),
        After(two()),
        Race(two()),
    ]
}

fn both(behavior: Behavior<u8>) -> [Tree; 2] {
    let bt = BT::new(behavior, vec![]).unwrap();
    [bt.clone(), bt.without_recursion()]
}

/// Ticks, or restarts; the answers depend on the action, the dt and how many were asked before.
fn call(bt: &mut Tree, again: bool, dt: f64) -> Result<(Status, f64), Refusal> {
    let e: Event = UpdateArgs { dt }.into();
    let mut act = |args: ActionArgs<Event, u8>, asked: &mut Vec<u8>| {
        asked.push(*args.action);
        let status = [Running, Success, Failure][(asked.len() + usize::from(*args.action)) % 3];
        (status, args.dt / 2.0)
    };
    if again {
        bt.restart(&e, &mut act)
    } else {
        bt.tick(&e, &mut act)
    }
}

/// Makes a call on both, which must tell the same and leave the same.
fn same(pair: &mut [Tree; 2], again: bool, dt: f64) -> Result<(Status, f64), Refusal> {
    let [told, flat] = pair.each_mut().map(|bt| call(bt, again, dt));
    let [must, left] = pair.each_ref().map(|bt| {
        (bt.state(), bt.to_string(), bt.blackboard().clone(), bt.last_visits(), bt.last_questions(), bt.is_finished())
    });
    assert_eq!((flat, left), (told, must));
    told
}

#[test]
fn both_tell_the_same() {
    let leaves = [Wait(2.0), Action(3), WaitForever, Sequence(vec![Wait(1.0), Action(4)])];
    for root in leaves.iter().flat_map(above).flat_map(|below| above(&below)) {
        let mut pair = both(root);
        for tick in 0..8 {
            let finished = pair[0].is_finished();
            assert_eq!(same(&mut pair, false, 1.5) == Err(Refusal::Finished), finished);
            if finished || tick == 5 {
                same(&mut pair, true, 1.0).ok();
            }
        }
    }
}

#[test]
fn it_stays_so() {
    let mut pair = both(Sequence(vec![Wait(2.0), Invert(boxed(Action(1))), Action(2)]));
    assert_eq!(same(&mut pair, false, 1.0), Ok((Running, 0.0)));
    for bt in &mut pair {
        bt.exchange(2, Select(vec![Action(5), Action(6)])).unwrap();
        bt.set_fuel(3);
    }
    assert_eq!(same(&mut pair, false, 4.0), Err(Refusal::OutOfFuel { fuel: 3, questions: 0 }));
    let state = pair[0].state();
    for bt in &mut pair {
        bt.set_fuel(100);
        bt.restore(&state).unwrap();
        bt.reset_bt();
    }
    assert!(same(&mut pair, false, 4.0).is_ok());
    assert_eq!(pair[1].tick_count(), 2);
}

/// Sixteen levels of each kind, on the smallest thread that there is.
#[test]
fn a_deep_tree_on_a_small_stack() {
    let deep = |kind: usize| (0..15).fold(Wait(2.0), |below, _| above(&below).swap_remove(kind));
    let mut trees: Vec<_> = (0..14).map(|kind| BT::new(deep(kind), vec![]).unwrap().without_recursion()).collect();
    let ticks = move || trees.iter_mut().all(|bt| call(bt, false, 1.0).is_ok() && call(bt, true, 1.0).is_ok());
    let thread = std::thread::Builder::new().stack_size(1).spawn(ticks).unwrap();
    assert!(thread.join().unwrap());
}

/// Ticks or restarts a Sequence of a Wait and an Action with levels of so many entries, and gives the bits that are left in them.
fn raw_call(again: bool, table: Table, dt: f64, lens: [usize; 4], answers: usize) -> (Said, [Vec<u64>; 4], Record) {
    let (mut times, mut places, mut marks, mut sinces) = ([0.0; 3], [0; 3], [0; 3], [0; 3]);
    let (mut spare_times, mut spare_places, mut spare_marks, mut spare_sinces) = ([0.0; 3], [0; 3], [0; 3], [0; 3]);
    let mut record = Record::default();
    let (mut opens, mut counts) = (vec![7; lens[0]], vec![7; lens[1]]);
    let (mut wholes, mut rests) = (vec![-0.0; lens[2]], vec![f64::NAN; lens[3]]);
    let said = (if again { raw::restart_flat } else { raw::tick_flat })(
        &mut record,
        table,
        Cells { times: &mut times, places: &mut places, marks: &mut marks, sinces: &mut sinces },
        Cells {
            times: &mut spare_times,
            places: &mut spare_places,
            marks: &mut spare_marks,
            sinces: &mut spare_sinces,
        },
        &mut [0; 3],
        Some(dt),
        3,
        &[2][..answers],
        &[0.0][..answers],
        Levels { opens: &mut opens, counts: &mut counts, wholes: &mut wholes, rests: &mut rests },
    );
    let bits = |numbers: Vec<f64>| numbers.into_iter().map(f64::to_bits).collect();
    (said, [opens, counts.into_iter().map(u64::from).collect(), bits(wholes), bits(rests)], record)
}

#[test]
fn levels_are_refused_or_left_zero() {
    let table = Table { kinds: &[8, 0, 2], ns: &[2, 0, 40], limits: &[0.0, 2.0, 0.0] };
    let bad = Table { kinds: &[8, 0, 99], ..table };
    let before = [7, 7, (-0.0f64).to_bits(), f64::NAN.to_bits()];
    for again in [false, true] {
        for short in 0..4 {
            for len in [0, LEVELS - 1] {
                let mut lens = [LEVELS; 4];
                lens[short] = len;
                for (table, dt, no) in [(bad, 1.0, 3), (table, 1.0, 13), (table, -1.0, 13)] {
                    let (said, left, record) = raw_call(again, table, dt, lens, 0);
                    assert_eq!((said.no, said.extra), (no, if no == 3 { 2 } else { 0 }));
                    assert!(left.iter().zip(before).all(|(run, was)| run.iter().all(|&bits| bits == was)));
                    assert_eq!(record, Record::default());
                }
            }
        }
        for (dt, answers, no) in [(1.0, 0, 0), (3.0, 1, 0), (3.0, 0, 1), (-1.0, 0, 5)] {
            let (said, left, record) = raw_call(again, table, dt, [16, 17, 18, 19], answers);
            assert_eq!((said.no, record.ticks), (no, u64::from(no == 0)));
            for (run, was) in left.iter().zip(before) {
                let (levels, behind) = run.split_at(LEVELS);
                assert!(levels.iter().all(|&bits| bits == if no == 5 { was } else { 0 }));
                assert!(behind.iter().all(|&bits| bits == was));
            }
        }
    }
}
