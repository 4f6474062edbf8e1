//! The stack that a call uses: it runs on a stack of its own, painted beforehand, and the deepest byte that changed is looked for.

use crate::original::Original;
use crate::rattle::Rattle;
use crate::side::{fill_page, fill_with_marks, flush, next_page, Side, SIDES};
use punelovash::Word;
use std::arch::asm;
use std::ffi::c_void;

const STACK: usize = 1 << 16;
const PAINT: u8 = 0xA5;

extern "C" fn enter(call: *mut c_void) {
    let call: &mut &mut dyn FnMut() = unsafe { &mut *call.cast() };
    call();
}

/// Calls `enter` with the stack pointer at `top`, a multiple of 16.
fn on_stack(top: *mut u8, mut call: &mut dyn FnMut()) {
    let call: *mut &mut dyn FnMut() = &mut call;
    unsafe {
        asm!(
            "mov r12, rsp",
            "mov rsp, {top}",
            "call {enter}",
            "mov rsp, r12",
            top = in(reg) top,
            enter = sym enter,
            in("rdi") call,
            out("r12") _,
            clobber_abi("C"),
        );
    }
}

fn depth(call: &mut dyn FnMut()) -> usize {
    let mut stack = vec![PAINT; STACK + 16];
    let skip = stack.as_ptr().align_offset(16);
    on_stack(stack[skip..].as_mut_ptr().wrapping_add(STACK), call);
    let untouched = stack[skip..]
        .iter()
        .take_while(|byte| **byte == PAINT)
        .count();
    STACK - untouched
}

/// The return address of a call.
const RETURN: usize = size_of::<usize>();

/// The bytes of stack that a call uses, its arguments and its return address included: what an empty call has beyond that is taken off.
fn used(mut call: impl FnMut()) -> usize {
    depth(&mut call) - (depth(&mut || ()) - RETURN)
}

/// Calls, each with its use.
type Uses = Vec<(&'static str, usize)>;

pub struct Use {
    pub call: &'static str,
    /// Of each side. Nothing where the Rust has no such call, or no function of its own for it.
    pub sides: [Option<usize>; SIDES.len()],
}

/// The deepest of each call, over the ways through it that a log which works takes.
fn uses<S: Side>() -> Uses {
    let mut side = S::new(512, 4);
    let log = &mut side;
    let mut all = vec![("restart", used(|| log.restart()))];
    let fits = used(|| log.append(64));
    (0..5).for_each(|_| next_page(log, 64));
    fill_page(log, 32);
    let flushes = used(|| log.append(64));
    all.push(("append", fits.max(flushes)));
    log.flash();
    let stores = used(|| log.write_complete());
    let id = log.oldest();
    all.push(("seek", used(|| log.seek(id))));
    let sought = used(|| log.deferred_call());
    all.push(("read", used(|| log.read())));
    all.push(("deferred call", sought.max(used(|| log.deferred_call()))));
    all.push(("sync", used(|| log.sync())));
    log.flash();
    all.push(("write complete", stores.max(used(|| log.write_complete()))));
    fill_page(log, 0);
    flush(log);
    all[0].1 = all[0].1.max(used(|| log.restart()));
    all.push(("erase", used(|| log.erase())));
    let mut erased = 0;
    let before = log.reports();
    while log.reports() == before {
        erased = erased.max(used(|| log.erase_complete()));
    }
    all.push(("erase complete", erased));
    all
}

/// The calls of the library that `Log` has not, or reads a cell for.
fn others<W: Word>() -> Uses {
    let mut side = Rattle::<W>::new(512, 4);
    fill_with_marks(&mut side, 4);
    macro_rules! get {
        ($getter:ident) => {{
            let above_0 = |block, length| unsafe { W::$getter(block, length) } > 0;
            (stringify!($getter), used(|| side.get(above_0)))
        }};
    }
    vec![
        ("survey", used(|| side.survey())),
        ("nearest", used(|| assert!(side.nearest(0) > 0))),
        ("between", used(|| assert!(side.between(0, u32::MAX) > 0))),
        get!(log_start),
        get!(log_end),
        get!(next_read_entry_id),
        get!(get_size),
    ]
}

/// All calls of a board's log.
fn board<W: Word>() -> Uses {
    let mut all = uses::<Rattle<W>>();
    all.extend(others::<W>());
    all
}

pub fn table() -> Vec<Use> {
    let sides = [uses::<Original<512>>(), board::<u64>(), board::<u32>()];
    let use_of = |call: usize| Use {
        call: sides[1][call].0,
        sides: sides
            .each_ref()
            .map(|side| side.get(call).map(|(_, used)| *used)),
    };
    (0..sides[1].len()).map(use_of).collect()
}
