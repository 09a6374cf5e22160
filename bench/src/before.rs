//! The archive before, where one was linked (`build.rs`): asked about the same points and tables as ours.

use std::arch::asm;
use std::cell::Cell;
use std::hint::black_box;

use crate::race::Runner;
use crate::Reply;

/// Where it stands, if it was linked.
pub const ARCHIVE: Option<&str> = option_env!("KNEUKELBOOM_BEFORE");

/// What runs it in a race, if it was linked.
pub fn runner(run: Runner) -> Option<Runner> {
    ARCHIVE.map(|_| run)
}

/// Its reply, if it was linked.
pub fn reply(ask: impl FnOnce() -> Reply) -> Option<Reply> {
    ARCHIVE.map(|_| ask())
}

/// The calls by the names that `build.rs` gives them. Where no archive was linked nothing makes them, but for the
/// compiler they are there.
macro_rules! calls {
    ($(fn $name:ident($($number:ident: $kind:ty),*);)*) => {
        #[cfg(before)]
        extern "C" {
            $(fn $name($($number: $kind),*) -> Reply;)*
        }
        $(
            #[cfg(not(before))]
            #[allow(clippy::too_many_arguments)]
            unsafe fn $name($(_: $kind),*) -> Reply {
                unreachable!("no archive before was linked")
            }
        )*
    };
}

type Numbers = *const i64;

calls! {
    fn before_build(points: Numbers, points_len: usize, table: *mut i64, table_len: usize);
    fn before_near(
        points: Numbers, points_len: usize, table: Numbers, table_len: usize,
        x: i64, y: i64, distance: i64, allowance: u32
    );
    fn before_inside(
        points: Numbers, points_len: usize, table: Numbers, table_len: usize,
        x: i64, y: i64, allowance: u32
    );
    fn before_meet(
        points_a: Numbers, points_a_len: usize, table_a: Numbers, table_a_len: usize,
        points_b: Numbers, points_b_len: usize, table_b: Numbers, table_b_len: usize,
        allowance: u32
    );
    fn before_agree(
        points_a: Numbers, points_a_len: usize, table_a: Numbers, table_a_len: usize,
        points_b: Numbers, points_b_len: usize, table_b: Numbers, table_b_len: usize,
        distance: i64, allowance: u32
    );
}

#[inline]
pub fn build(p: &[i64], t: &mut [i64]) -> Reply {
    look(p.len() / 2);
    // SAFETY: as in `rust/src/ffi.rs`: what lies behind pointer and length is lent, the table to be written.
    unsafe { before_build(p.as_ptr(), p.len(), t.as_mut_ptr(), t.len()) }
}

#[inline]
pub fn near(p: &[i64], t: &[i64], x: i64, y: i64, d: i64, allowance: u32) -> Reply {
    look(p.len() / 2);
    // SAFETY: as for `build`; here and below it is only read.
    unsafe { before_near(p.as_ptr(), p.len(), t.as_ptr(), t.len(), x, y, d, allowance) }
}

#[inline]
pub fn inside(p: &[i64], t: &[i64], x: i64, y: i64, allowance: u32) -> Reply {
    look(p.len() / 2);
    // SAFETY: as for `near`.
    unsafe { before_inside(p.as_ptr(), p.len(), t.as_ptr(), t.len(), x, y, allowance) }
}

#[inline]
pub fn meet(p: &[i64], t: &[i64], q: &[i64], u: &[i64], allowance: u32) -> Reply {
    look(p.len() / 2 + q.len() / 2);
    let (a, at, b, bt) = (p.as_ptr(), t.as_ptr(), q.as_ptr(), u.as_ptr());
    // SAFETY: as for `near`, of both lines.
    unsafe { before_meet(a, p.len(), at, t.len(), b, q.len(), bt, u.len(), allowance) }
}

#[inline]
pub fn agree(p: &[i64], t: &[i64], q: &[i64], u: &[i64], d: i64, allowance: u32) -> Reply {
    look((p.len() / 2).max(q.len() / 2));
    let (a, at, b, bt) = (p.as_ptr(), t.as_ptr(), q.as_ptr(), u.as_ptr());
    let (p, t, q, u) = (p.len(), t.len(), q.len(), u.len());
    // SAFETY: as for `meet`.
    unsafe { before_agree(a, p, at, t, b, q, bt, u, d, allowance) }
}

thread_local! {
    /// The lowest address that a call may come down to, and the one past the highest.
    static STACK: Cell<(usize, usize)> = const { Cell::new((0, 0)) };
}

/// The look at the room on the stack that `lent` takes before each call of ours: as many instructions, so that both
/// archives are asked alike. That of a bench is large enough.
#[inline(always)]
fn look(levels: usize) {
    let need = 256 + 160 * levels;
    let (lowest, high) = STACK.with(Cell::get);
    let here: usize;
    // SAFETY: it copies one register into another, and touches neither memory nor flags.
    unsafe {
        asm!("mov {}, rsp", out(reg) here, options(nomem, nostack, preserves_flags));
    }
    let left = here.wrapping_sub(lowest);
    if need > left || left >= high - lowest {
        first_look();
    }
}

#[cold]
#[inline(never)]
fn first_look() {
    STACK.with(|stack| stack.set((0, black_box(usize::MAX))));
}
