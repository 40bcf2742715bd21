//! The floating-point settings that the evaluator rests on.

use std::arch::asm;

/// Round to nearest, no flush-to-zero, no denormals-are-zero, every exception masked: as a thread starts.
const USUAL: u32 = 0x1f80;
/// The six lowest bits only say what has happened.
const SETTINGS: u32 = 0xffc0;

/// Whether this thread's settings are those that IEEE 754 arithmetic needs.
///
/// A program linked with `-ffast-math` has others. The calls of this crate set and restore them, so
/// a tree is ticked by the same rules there; arithmetic of the host's own is not.
pub fn floats_are_usual() -> bool {
    word() & SETTINGS == USUAL
}

/// Runs `call` under the usual settings, and puts back those that were found.
#[inline]
pub(crate) fn usual<T>(call: impl FnOnce() -> T) -> T {
    let found = word();
    let other = found & SETTINGS != USUAL;
    if other {
        set(USUAL);
    }
    let said = call();
    if other {
        set(found);
    }
    said
}

#[inline]
fn word() -> u32 {
    let mut word = 0u32;
    // SAFETY: it stores the control word to where it is told, and nothing else.
    unsafe { asm!("stmxcsr [{}]", in(reg) &mut word, options(nostack, preserves_flags)) };
    word
}

#[inline]
fn set(word: u32) {
    // SAFETY: the word is the usual one or one that was found, so no reserved bit is set.
    unsafe { asm!("ldmxcsr [{}]", in(reg) &word, options(nostack, readonly, preserves_flags)) };
}
