//! The only unsafe code of this crate: the seven functions of the proved archive, each behind a safe one, and what is
//! to be known of a thread's stack.
//!
//! Why the calls are sound:
//! - A slice's pointer leads to as many numbers as its length says, is aligned, and is never null. A `&mut`
//!   slice overlaps no other. The archive reads and writes inside those lengths alone, whatever the numbers
//!   are: that is what is proved of it, for every input, with no condition on the caller.
//! - It keeps no pointer, has no state, allocates nothing and cannot unwind.
//! - Names, order, types and fields are those of the Rattle source: `tests/header.rs` holds this file, the C
//!   header and `crates/kneukelboom_c/src/lib.rt` against each other.
//! - A slice passes as pointer and length and the reply by value, by the C calling convention of x86-64.
//!
//! What is not proved: that the stack is deep enough. Calls nest at most n deep, n + m for `meet`, with n and m at
//! most 4,096: no call may be made but through [`room::with`](crate::room::with). `widen` alone does not nest.

use std::arch::asm;

use crate::lent::Reply;

extern "C" {
    #[link_name = "kneukelboom_build_v2"]
    fn kneukelboom_build(
        points: *const i64,
        points_len: usize,
        table: *mut i64,
        table_len: usize,
    ) -> Reply;

    #[link_name = "kneukelboom_widen_v2"]
    fn kneukelboom_widen(old: *const i32, old_len: usize, wide: *mut i64, wide_len: usize)
        -> Reply;

    #[link_name = "kneukelboom_check_v2"]
    fn kneukelboom_check(
        points: *const i64,
        points_len: usize,
        table: *const i64,
        table_len: usize,
    ) -> Reply;

    #[link_name = "kneukelboom_near_v2"]
    fn kneukelboom_near(
        points: *const i64,
        points_len: usize,
        table: *const i64,
        table_len: usize,
        x: i64,
        y: i64,
        distance: i64,
        allowance: u32,
    ) -> Reply;

    #[link_name = "kneukelboom_inside_v2"]
    fn kneukelboom_inside(
        points: *const i64,
        points_len: usize,
        table: *const i64,
        table_len: usize,
        x: i64,
        y: i64,
        allowance: u32,
    ) -> Reply;

    #[link_name = "kneukelboom_meet_v2"]
    fn kneukelboom_meet(
        points_a: *const i64,
        points_a_len: usize,
        table_a: *const i64,
        table_a_len: usize,
        points_b: *const i64,
        points_b_len: usize,
        table_b: *const i64,
        table_b_len: usize,
        allowance: u32,
    ) -> Reply;

    #[link_name = "kneukelboom_agree_v2"]
    fn kneukelboom_agree(
        points_a: *const i64,
        points_a_len: usize,
        table_a: *const i64,
        table_a_len: usize,
        points_b: *const i64,
        points_b_len: usize,
        table_b: *const i64,
        table_b_len: usize,
        distance: i64,
        allowance: u32,
    ) -> Reply;
}

#[inline]
pub fn build(points: &[i64], table: &mut [i64]) -> Reply {
    // SAFETY: slices, and one of them `&mut`: see the top of this file.
    unsafe {
        kneukelboom_build(
            points.as_ptr(),
            points.len(),
            table.as_mut_ptr(),
            table.len(),
        )
    }
}

#[inline]
pub fn widen(old: &[i32], wide: &mut [i64]) -> Reply {
    // SAFETY: slices, and one of them `&mut`: see the top of this file.
    unsafe { kneukelboom_widen(old.as_ptr(), old.len(), wide.as_mut_ptr(), wide.len()) }
}

#[inline]
pub fn check(points: &[i64], table: &[i64]) -> Reply {
    // SAFETY: slices, only read: see the top of this file.
    unsafe { kneukelboom_check(points.as_ptr(), points.len(), table.as_ptr(), table.len()) }
}

#[inline]
pub fn near(points: &[i64], table: &[i64], x: i64, y: i64, distance: i64, allowance: u32) -> Reply {
    // SAFETY: slices, only read: see the top of this file.
    unsafe {
        kneukelboom_near(
            points.as_ptr(),
            points.len(),
            table.as_ptr(),
            table.len(),
            x,
            y,
            distance,
            allowance,
        )
    }
}

#[inline]
pub fn inside(points: &[i64], table: &[i64], x: i64, y: i64, allowance: u32) -> Reply {
    // SAFETY: slices, only read: see the top of this file.
    unsafe {
        kneukelboom_inside(
            points.as_ptr(),
            points.len(),
            table.as_ptr(),
            table.len(),
            x,
            y,
            allowance,
        )
    }
}

#[inline]
pub fn meet(
    points_a: &[i64],
    table_a: &[i64],
    points_b: &[i64],
    table_b: &[i64],
    allowance: u32,
) -> Reply {
    // SAFETY: slices, only read: see the top of this file.
    unsafe {
        kneukelboom_meet(
            points_a.as_ptr(),
            points_a.len(),
            table_a.as_ptr(),
            table_a.len(),
            points_b.as_ptr(),
            points_b.len(),
            table_b.as_ptr(),
            table_b.len(),
            allowance,
        )
    }
}

#[inline]
pub fn agree(
    points_a: &[i64],
    table_a: &[i64],
    points_b: &[i64],
    table_b: &[i64],
    distance: i64,
    allowance: u32,
) -> Reply {
    // SAFETY: slices, only read: see the top of this file.
    unsafe {
        kneukelboom_agree(
            points_a.as_ptr(),
            points_a.len(),
            table_a.as_ptr(),
            table_a.len(),
            points_b.as_ptr(),
            points_b.len(),
            table_b.as_ptr(),
            table_b.len(),
            distance,
            allowance,
        )
    }
}

/// Where the stack of the running thread has come down to. The address of a local would not do: it lies anywhere in a
/// frame, and the frame of a caller that this is inlined into can be large.
#[inline(always)]
pub fn stack_pointer() -> usize {
    let pointer;
    // SAFETY: it copies one register into another, and touches neither memory nor flags.
    unsafe {
        asm!("mov {}, rsp", out(reg) pointer, options(nomem, nostack, preserves_flags));
    }
    pointer
}

/// `pthread_attr_t`: 56 bytes on x86-64 Linux, in glibc and in musl, with room to spare.
#[repr(C, align(16))]
struct Attributes([u64; 16]);

extern "C" {
    fn pthread_self() -> usize;
    fn pthread_getattr_np(thread: usize, attributes: *mut Attributes) -> i32;
    fn pthread_attr_getstack(
        attributes: *const Attributes,
        low: *mut usize,
        size: *mut usize,
    ) -> i32;
    fn pthread_attr_destroy(attributes: *mut Attributes) -> i32;
}

/// The lowest address and the size of the running thread's stack, if the C library can tell.
pub fn stack() -> Option<(usize, usize)> {
    let mut attributes = Attributes([0; 16]);
    let (mut low, mut size) = (0, 0);
    // SAFETY: the attributes are read and destroyed only after they have been written, and all three are locals with
    // room for what is written: an address is as wide as a usize, and so is a `pthread_t`.
    unsafe {
        if pthread_getattr_np(pthread_self(), &mut attributes) != 0 {
            return None;
        }
        let told = pthread_attr_getstack(&attributes, &mut low, &mut size);
        pthread_attr_destroy(&mut attributes);
        (told == 0).then_some((low, size))
    }
}
