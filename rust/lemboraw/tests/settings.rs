//! The thread's floating-point settings: whatever they are, a tree ticks by the same rules.

use lemboraw::{floats_are_usual, ActionArgs, Event, FinishBound, Running, Success, UpdateArgs, Wait, BT};
use std::arch::asm;

const USUAL: u32 = 0x1f80;
const FLUSH_AND_NO_DENORMALS: u32 = USUAL | 0x8040;
const ROUND_DOWN: u32 = USUAL | 0x2000;
const NOTHING_MASKED: u32 = 0;

fn set(word: u32) {
    unsafe { asm!("ldmxcsr [{}]", in(reg) &word) };
}

fn settings() -> u32 {
    let mut word = 0u32;
    unsafe { asm!("stmxcsr [{}]", in(reg) &mut word) };
    word & 0xffc0
}

/// Runs under other settings, which are there again after each call, and then under those it found.
fn under<T>(word: u32, run: impl FnOnce() -> T) -> T {
    assert!(floats_are_usual());
    set(word);
    let result = run();
    let (after, told) = (settings(), floats_are_usual());
    set(USUAL);
    assert_eq!(after, word);
    assert!(!told);
    result
}

fn tick(bt: &mut BT<(), ()>, dt: f64) -> Option<(lemboraw::Status, f64)> {
    bt.tick(&UpdateArgs { dt }.into(), &mut |_: ActionArgs<Event, ()>, _: &mut ()| (Running, 0.0)).ok()
}

#[test]
fn denormals_count() {
    let mut bt = BT::new(Wait(5e-324), ()).unwrap();
    assert_eq!(under(FLUSH_AND_NO_DENORMALS, || tick(&mut bt, 0.0)), Some((Running, 0.0)));
    let ended = under(FLUSH_AND_NO_DENORMALS, || tick(&mut bt, 1e-323)).map(|(status, left)| (status, left.to_bits()));
    assert_eq!(ended, Some((Success, 1)));
}

#[test]
fn sums_are_rounded_to_nearest() {
    let mut bt = BT::new(Wait(1.0), ()).unwrap();
    for _ in 0..3 {
        under(ROUND_DOWN, || tick(&mut bt, 0.1));
    }
    assert_eq!(bt.state().cells[0].time, 0.30000000000000004);
}

#[test]
fn nothing_is_thrown() {
    // Inexact and overflow, both unmasked.
    let mut bt = BT::new(Wait(f64::MAX), ()).unwrap();
    under(NOTHING_MASKED, || tick(&mut bt, 0.1));
    under(NOTHING_MASKED, || tick(&mut bt, 0.7));
    let mut bt = BT::new(lemboraw::Invert(Box::new(Wait(f64::MAX))), ()).unwrap();
    under(NOTHING_MASKED, || tick(&mut bt, 1e308));
    under(NOTHING_MASKED, || tick(&mut bt, 1e308));
    assert!(bt.is_finished());
    let bt = BT::<(), ()>::new(Wait(1000.0), ()).unwrap();
    assert_eq!(under(NOTHING_MASKED, || bt.finish_bound(3.0)), Ok(FinishBound::Ticks(334)));
}
