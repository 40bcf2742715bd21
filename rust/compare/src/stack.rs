//! What a tick takes of the stack, here, with recursion and without, and in bonsai.

use crate::cases::one_kind;
use crate::sides::{bonsai, flat, ours, Lent};
use std::arch::asm;
use std::hint::black_box;

const PAINT: u8 = 0xa5;
const ROOM: usize = 1 << 18;

/// Prints the stack that a tick takes.
pub fn print() {
    println!("Stack of one tick at depth 16 in bytes, for 15 nodes of one kind above a Wait.\n");
    println!("| kind | bonsai | ours | without recursion |");
    println!("|---|---|---|---|");
    for kind in 3..=16 {
        let name = lemboraw::Kind::ALL[usize::from(kind)];
        let case = one_kind("", kind);
        let lent = || Lent::new(&case.tree);
        let (mut bonsai, mut ours, mut flat) = (bonsai(&case), ours(&case, lent()), flat(&case, lent()));
        let bonsai = stack(&mut || _ = black_box(bonsai()));
        let ours = stack(&mut || _ = black_box(ours()));
        let flat = stack(&mut || _ = black_box(flat()));
        println!("| {name} | {bonsai} | {ours} | {flat} |");
    }
}

/// The stack that a call takes: it runs on a stack that is all painted, and what is not any more
/// was used.
fn stack(call: &mut dyn FnMut()) -> usize {
    extern "C" fn run(call: &mut &mut dyn FnMut()) {
        call();
    }
    let mut room = vec![PAINT; ROOM];
    let mut call = call;
    // The top of the stack, aligned as the convention asks.
    let top = ROOM - (room.as_ptr() as usize + ROOM) % 64;
    for _ in 0..2 {
        // The first call only warms up whatever is done once.
        room.fill(PAINT);
        // SAFETY: the stack pointer is back before the block ends, the new stack is far larger than
        // any call here needs, and nothing unwinds through it.
        unsafe {
            asm!(
                "mov r12, rsp",
                "mov rsp, {top}",
                "call {run}",
                "mov rsp, r12",
                top = in(reg) room.as_mut_ptr().add(top),
                run = in(reg) run as extern "C" fn(&mut &mut dyn FnMut()),
                in("rdi") &mut call,
                out("r12") _,
                clobber_abi("C"),
            );
        }
    }
    top - room.iter().position(|&byte| byte != PAINT).unwrap_or(top)
}
