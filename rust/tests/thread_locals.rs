//! A program whose threads each keep a megabyte of their own: it comes out of the stack that a thread is started with,
//! and a deep call gets its room all the same.

mod shapes;

use std::cell::Cell;
use std::hint::black_box;
use std::thread;

use kneukelboom::{lent, Answer};

thread_local! {
    static LARGE: Cell<[u8; 1 << 20]> = const { Cell::new([0; 1 << 20]) };
}

#[test]
fn large_thread_locals_take_no_room_from_a_call() {
    let near = || {
        LARGE.with(|large| black_box(large.as_ptr()));
        let points = shapes::flat_ring(0);
        let table = shapes::table_without_end(points.len() / 2, shapes::left);
        lent::near(&points, &table, 0, 16_000, 0, u32::MAX).answer()
    };
    let thread = thread::Builder::new().stack_size(256 << 10);
    let answer = thread.spawn(near).unwrap().join().unwrap();
    assert_eq!(answer, Ok(Answer::No { visits: 8_191 }));
}
