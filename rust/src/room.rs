//! Room on the stack: a call that could need more than its thread has left runs on a thread of its own.
//!
//! The builder, the checker and the walks of the archive call themselves, once for each level of a tree, so what a call
//! needs is known before it is made. Nothing proves that a stack has it; this file sees to it. The same code of the
//! archive runs either way, only on another stack.

use std::cell::Cell;
use std::panic::resume_unwind;
use std::thread;

use crate::ffi::{self, stack_pointer};
use crate::lent::Reply;
use crate::MOST_POINTS;

/// The bytes of stack that building a tree of so many levels takes, as `KNEUKELBOOM_STACK_BUILD` of the header has it;
/// checking one takes no more.
pub const fn build(levels: usize) -> usize {
    256 + 96 * levels
}

/// Of a walk down one tree, in `near`, `inside` and `agree`.
pub const fn walk(levels: usize) -> usize {
    256 + 208 * levels
}

/// Of `meet`, for the levels of both trees together.
pub const fn meet(levels: usize) -> usize {
    256 + 176 * levels
}

/// What is always left free: for the frames of this crate, a guard page, a signal's frame.
const RESERVE: usize = 16 << 10;

/// What the deepest call of all needs.
const MOST: usize = meet(2 * (MOST_POINTS - 1));

/// Makes a call that needs so many bytes of stack, here where they are free, else on a thread of its own, and panics
/// where that cannot be started. A macro, so that nothing is put into memory for the call that is made here.
macro_rules! with {
    ($need:expr, $call:expr) => {{
        let need = $need;
        if $crate::room::is_free(need) {
            $call
        } else {
            $crate::room::here_or_elsewhere(need, move || $call)
        }
    }};
}
pub(crate) use with;

/// Is it known that so many bytes of stack are free here?
#[inline(always)]
pub fn is_free(need: usize) -> bool {
    STACK.with(Cell::get).holds(need, stack_pointer())
}

/// What [`with`] does where that is not known, or not so: the thread's stack may not have been asked for yet.
#[cold]
#[inline(never)]
pub fn here_or_elsewhere(need: usize, call: impl FnOnce() -> Reply + Send) -> Reply {
    // A line of more points than there may be is refused before it is walked.
    let need = need.min(MOST);
    if own_stack().holds(need, stack_pointer()) {
        return call();
    }
    let mut call = Some(call);
    let mut once = || call.take().expect("a call is made once")();
    elsewhere(need, need + need / 4, &mut once)
}

/// Makes the call on a new thread, of so many bytes and what is left free. What a program keeps for each thread (its
/// thread-locals) comes out of the same bytes: where that leaves too few, a thread of twice as many is started.
fn elsewhere(need: usize, size: usize, call: &mut (dyn FnMut() -> Reply + Send)) -> Reply {
    let there = || {
        let (stack, here) = (own_stack(), stack_pointer());
        if stack.has(here) && !stack.holds(need, here) {
            elsewhere(need, 2 * size, call)
        } else {
            call()
        }
    };
    thread::scope(|scope| {
        let builder = thread::Builder::new().stack_size(size + 2 * RESERVE);
        match builder.spawn_scoped(scope, there) {
            Ok(thread) => thread.join().unwrap_or_else(|panic| resume_unwind(panic)),
            Err(error) => panic!(
                "a call of kneukelboom needs {need} bytes of stack, \
                 and a thread that has them could not be started: {error}"
            ),
        }
    })
}

/// The stack of a thread: its lowest address, the lowest that a call may come down to, and the one past its highest.
#[derive(Clone, Copy)]
struct Stack {
    low: usize,
    lowest: usize,
    high: usize,
}

impl Stack {
    /// A stack that has no address: nothing is known of the thread's.
    const UNKNOWN: Stack = Stack {
        low: 0,
        lowest: 0,
        high: 0,
    };

    /// An eighth of a stack stays free, and never less than the reserve: of the first thread's usual 8 MiB the 1 MiB
    /// that the kernel may want.
    fn new(low: usize, size: usize) -> Stack {
        let high = low.saturating_add(size);
        let lowest = low.saturating_add(RESERVE.max(size / 8)).min(high);
        Stack { low, lowest, high }
    }

    fn has(self, address: usize) -> bool {
        self.low <= address && address < self.high
    }

    /// Are so many bytes free below an address? No, if it is not on this stack.
    #[inline(always)]
    fn holds(self, need: usize, below: usize) -> bool {
        // Below the lowest there are more left, wrapped round, than this stack has.
        let left = below.wrapping_sub(self.lowest);
        need <= left && left < self.high - self.lowest
    }
}

thread_local! {
    /// The running thread's, once it has been asked for.
    static STACK: Cell<Stack> = const { Cell::new(Stack::UNKNOWN) };
    static ASKED: Cell<bool> = const { Cell::new(false) };
}

/// The stack of the running thread, for which the C library is asked once.
///
/// - A thread that was started has a block of its own, and the answer is that block without its guard page (with it
///   before glibc 2.27, which the reserve outweighs).
/// - The first thread's stack grows as it is used. glibc answers with all that it may grow to by RLIMIT_STACK, and
///   where the limit is none or large, with all that is free down to the mapping below. The kernel keeps the last
///   1 MiB of that free, which glibc does not know: see [`Stack::new`]. A limit that the program lowers later is not
///   seen. musl answers with what the stack has grown to, which is too little, never too much.
/// - Without /proc glibc cannot tell of the first thread. On a coroutine's stack no address is the thread's. Then each
///   call is made on a thread of its own.
fn own_stack() -> Stack {
    if !ASKED.with(|asked| asked.replace(true)) {
        if let Some((low, size)) = ffi::stack() {
            STACK.with(|stack| stack.set(Stack::new(low, size)));
        }
    }
    STACK.with(Cell::get)
}

#[cfg(test)]
#[path = "../tests/shapes/mod.rs"]
mod shapes;

#[cfg(test)]
mod tests {
    use super::shapes::*;
    use super::*;
    use std::hint::black_box;
    use std::thread::ThreadId;

    const KILOBYTE: usize = 1 << 10;

    /// The thread that a call is asked on, of so many bytes or, where the C library hands out a stack again, of up to
    /// four times as many; and the thread that it is made on.
    fn made_on(size: usize, need: usize) -> (ThreadId, ThreadId) {
        let from_there = move || {
            let mut on = None;
            let mut build = || {
                on = Some(thread::current().id());
                ffi::build(&[], &mut [])
            };
            let reply = with!(need, build());
            assert_eq!(reply.number, 2, "the reply comes back");
            (thread::current().id(), on.expect("the call was made"))
        };
        let builder = thread::Builder::new().stack_size(size);
        builder.spawn(from_there).unwrap().join().unwrap()
    }

    /// 1234567 as 1,234,567
    fn spaced(number: usize) -> String {
        match number {
            0..=999 => number.to_string(),
            _ => format!("{},{:03}", spaced(number / 1_000), number % 1_000),
        }
    }

    #[test]
    fn needs_are_the_headers_and_the_readmes() {
        let header = include_str!("../../include/kneukelboom.h");
        let readme = include_str!("../README.md");
        for (name, needs) in [
            ("BUILD", [0, 1, SEGMENTS].map(build)),
            ("WALK", [0, 1, SEGMENTS].map(walk)),
            ("MEET", [0, 1, 2 * SEGMENTS].map(meet)),
        ] {
            let [always, one, most] = needs;
            let (level, most) = (one - always, spaced(most));
            let said = format!("STACK_{name}(segments) ({always} + {level} * (segments))");
            assert!(header.contains(&said), "the header has no {said}");
            let said = format!("| {always} + {level} a level | {most} |");
            assert!(readme.contains(&said), "the README has no {said}");
        }
    }

    /// Makes a call in a frame that lies no higher than an address, and little lower.
    fn no_higher_than(address: usize, call: &mut dyn FnMut()) {
        let frame = [0_u8; 256];
        if black_box(&frame).as_ptr() as usize > address {
            no_higher_than(address, call);
        } else {
            call();
        }
    }

    /// Makes a call with as much stack left as it is said to need, and a page for the frames around it.
    fn with_no_more_than_needed(need: usize, mut call: impl FnMut() + Send) {
        let builder = thread::Builder::new().stack_size(need + 64 * KILOBYTE);
        thread::scope(|scope| {
            let there = || {
                let (low, _) = ffi::stack().unwrap();
                no_higher_than(low + need + 4 * KILOBYTE, &mut call);
            };
            builder.spawn_scoped(scope, there).unwrap().join().unwrap();
        });
    }

    /// The deepest trees: a byte a level more than is said would end this test's process.
    #[test]
    fn needs_are_enough() {
        for points in [comb(0), reversed(comb(0))] {
            let points = numbers(&points);
            let mut table = vec![0; crate::lent::table_len(points.len())];
            with_no_more_than_needed(build(SEGMENTS), || {
                ffi::build(&points, &mut table).built().unwrap();
            });
        }
        let (p, q) = (&flat_ring(0), &flat_ring(9));
        for split in [left, right] {
            let t = &table_without_end(SEGMENTS + 1, split);
            with_no_more_than_needed(build(SEGMENTS), || {
                ffi::check(p, t).accepted().unwrap();
            });
            with_no_more_than_needed(walk(SEGMENTS), || {
                let near = ffi::near(p, t, 0, 16_000, 0, u32::MAX);
                let inside = ffi::inside(p, t, 0, 16_000, u32::MAX);
                let agree = ffi::agree(p, t, q, t, 0, u32::MAX);
                assert_eq!([near.visits, inside.visits, agree.visits], [8_191; 3]);
            });
            with_no_more_than_needed(meet(2 * SEGMENTS), || {
                let meet = ffi::meet(p, t, q, t, 100_000);
                assert_eq!(meet.visits, 100_000);
            });
        }
    }

    #[test]
    fn a_call_that_fits_is_made_at_once() {
        for (size, need) in [(256, 0), (256, 128), (2_048, 1_024), (65_536, 32_768)] {
            let (asked, made) = made_on(size * KILOBYTE, need * KILOBYTE);
            assert_eq!(asked, made, "{need} KB of {size}");
        }
    }

    /// What is needed, and the most that any call needs, is more than a stack of four times the size has.
    #[test]
    fn a_call_that_does_not_fit_is_made_on_a_thread_of_its_own() {
        for (size, need) in [(64, 256), (128, 512), (256, 1_024), (256, 1 << 40)] {
            let (asked, made) = made_on(size * KILOBYTE, need * KILOBYTE);
            assert_ne!(asked, made, "{need} KB of {size}");
        }
    }

    /// Are so many bytes free below a frame of 64 KB?
    #[inline(never)]
    fn is_free_further_down(need: usize) -> bool {
        let frame = [0_u8; 64 * KILOBYTE];
        black_box(&frame);
        own_stack().holds(need, stack_pointer())
    }

    #[test]
    fn a_frame_further_down_has_less_room() {
        let there = || {
            let room = stack_pointer() - own_stack().lowest;
            assert!(is_free_further_down(room - 66 * KILOBYTE));
            assert!(!is_free_further_down(room - 64 * KILOBYTE));
        };
        let builder = thread::Builder::new().stack_size(512 * KILOBYTE);
        builder.spawn(there).unwrap().join().unwrap();
    }

    #[test]
    fn an_eighth_and_the_reserve_stay_free() {
        const LOW: usize = 1 << 30;
        let room = |size: usize, above: usize, need: usize| {
            let stack = Stack::new(LOW, size * KILOBYTE);
            let below = LOW + above * KILOBYTE;
            stack.holds(need * KILOBYTE, below) && !stack.holds(need * KILOBYTE + 1, below)
        };
        assert!(room(8_192, 4_096, 3_072));
        assert!(room(8_192, 1_024, 0));
        assert!(room(64, 60, 44));
        // In what stays free, above the stack, below it; all stays free of a small one; nothing is known of it.
        let holds_none = |size: usize, address| !Stack::new(LOW, size * KILOBYTE).holds(0, address);
        assert!(holds_none(64, LOW + KILOBYTE));
        assert!(holds_none(64, LOW + 64 * KILOBYTE));
        assert!(holds_none(64, LOW - 1));
        assert!(holds_none(12, LOW + 11 * KILOBYTE));
        assert!(!Stack::UNKNOWN.holds(0, LOW));
    }

    #[test]
    #[should_panic(expected = "a thread that has them could not be started")]
    fn a_thread_that_cannot_be_started_is_a_panic() {
        let _ = elsewhere(1 << 60, 1 << 60, &mut || ffi::build(&[], &mut []));
    }
}
