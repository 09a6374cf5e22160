//! The deepest trees, asked from threads whose stacks do not hold them. Nothing proves that a stack is deep enough: a
//! call that overflows one ends this test's whole process.

mod shapes;

use std::fmt::Debug;
use std::sync::OnceLock;
use std::thread;

use kneukelboom::{lent, Answer, Line, Side, ROW_WIDTH};
use shapes::*;

/// Stacks of a caller: the least that can be had (16 KB and what a thread itself needs), a small one, and Rust's usual
/// one.
const STACKS: [usize; 3] = [0, 256 << 10, 2 << 20];
/// One that holds every call.
const ROOMY: usize = 64 << 20;

fn on_a_stack_of<T: Send>(bytes: usize, call: impl FnOnce() -> T + Send) -> T {
    let builder = thread::Builder::new().stack_size(bytes);
    thread::scope(|scope| builder.spawn_scoped(scope, call).unwrap().join().unwrap())
}

/// What a call gives on a stack that holds it, after every smaller stack has given the same.
fn the_same_on_each_stack<T: PartialEq + Debug + Send>(call: impl Fn() -> T + Sync) -> T {
    let given = on_a_stack_of(ROOMY, &call);
    for bytes in STACKS {
        assert_eq!(on_a_stack_of(bytes, &call), given, "on {bytes} bytes");
    }
    given
}

/// Each line both ways round, with another one beside it; built once.
fn pairs() -> &'static [(Line, Line)] {
    static PAIRS: OnceLock<Vec<(Line, Line)>> = OnceLock::new();
    PAIRS.get_or_init(|| {
        let pairs = [
            (comb(0), comb(1)),
            (reversed(comb(0)), reversed(comb(1))),
            (saw(0), saw(1)),
            (reversed(saw(0)), comb_ring()),
        ];
        let line = |points: Vec<(i64, i64)>| Line::new(&points).unwrap();
        pairs.map(|(a, b)| (line(a), line(b))).into()
    })
}

/// The levels of a table's tree, counted by its nodes' runs of points.
fn levels(table: &[i64]) -> usize {
    let mut above: Vec<i64> = Vec::new();
    let mut deepest = 0;
    for row in table.chunks(ROW_WIDTH) {
        let (first, last) = (row[0], row[1]);
        while above.last().is_some_and(|&end| end <= first) {
            above.pop();
        }
        above.push(last);
        deepest = deepest.max(above.len());
    }
    deepest
}

#[test]
fn deep_lines_are_built() {
    let built = |points: &[(i64, i64)]| {
        let table = || Line::new(points).unwrap().table().to_vec();
        levels(&the_same_on_each_stack(table))
    };
    for points in [comb(0), reversed(comb(0))] {
        assert_eq!(built(&points), SEGMENTS);
    }
    for points in [saw(0), reversed(saw(0))] {
        assert!(built(&points) > 3_000);
    }
}

#[test]
fn deep_lines_are_asked_for_points() {
    for line in pairs().iter().flat_map(|(a, b)| [a, b]) {
        for (point, distance) in [((0, 0), 0), ((2_048, 3_712), 5), ((-16_000, 16_000), 9)] {
            let near = || line.near(point, distance, line.enough_visits()).unwrap();
            assert!(the_same_on_each_stack(near).decided().is_some());
        }
    }
}

#[test]
fn deep_rings_are_asked_for_points() {
    for points in [comb_ring(), reversed(comb_ring())] {
        let ring = Line::new(&points).unwrap();
        assert_eq!(levels(ring.table()), SEGMENTS);
        for point in [(0, 0), (2_040, 0), (-2_048, 16_000), (-2_048, 16_001)] {
            let inside = || ring.inside(point, ring.enough_visits()).unwrap();
            assert!(the_same_on_each_stack(inside).decided().is_some());
        }
    }
}

#[test]
fn deep_lines_are_asked_whether_they_meet() {
    for (a, b) in pairs() {
        for (a, b) in [(a, b), (b, a)] {
            let _ = the_same_on_each_stack(|| a.meets(b, 100_000).unwrap());
        }
    }
}

#[test]
fn deep_lines_are_asked_whether_they_agree() {
    for (a, b) in pairs() {
        for (a, b, distance) in [(a, b, 1), (b, a, 0)] {
            let _ = the_same_on_each_stack(|| a.agrees(b, distance, 100_000).unwrap());
        }
    }
}

#[test]
fn deep_lent_lines_are_built() {
    for points in [comb(0), reversed(saw(0))] {
        let points = numbers(&points);
        the_same_on_each_stack(|| {
            let mut table = vec![0; lent::table_len(points.len())];
            lent::build(&points, &mut table).built().unwrap();
            table
        });
    }
}

/// A straight line and a ring, whose built trees have few levels, with tables of as many levels as there are segments.
#[test]
fn deep_tables_from_elsewhere_are_checked_and_asked() {
    let straight = numbers(&Vec::from_iter((0..=SEGMENTS as i64).map(|x| (x, 0))));
    let ring = flat_ring(0);
    for split in [left, right] {
        let table = table_without_end(SEGMENTS + 1, split);
        assert_eq!(levels(&table), SEGMENTS);
        let foreign = |points: &Vec<i64>| {
            let with_table = || Line::with_table(points.clone(), table.clone()).unwrap();
            the_same_on_each_stack(with_table)
        };
        let (straight, ring) = (&foreign(&straight), &foreign(&ring));
        let near = || straight.near((2_048, 9), 8, 9_999).unwrap();
        let visits = 2 * SEGMENTS as u32 - 1;
        assert_eq!(the_same_on_each_stack(near), Answer::No { visits });
        let inside = || ring.inside((0, 0), 9_999).unwrap();
        assert_eq!(the_same_on_each_stack(inside), Side::Outside { visits });
        let meets = || straight.meets(ring, 100_000).unwrap().decided();
        assert_eq!(the_same_on_each_stack(meets), None);
        let agrees = || straight.agrees(straight, 0, 100_000).unwrap().decided();
        assert_eq!(the_same_on_each_stack(agrees), None);
    }
}

#[test]
fn a_deep_comb_answers_the_same_over_another_table() {
    let built = Line::new(&comb(0)).unwrap();
    for split in [left, right] {
        let table = table_without_end(SEGMENTS + 1, split);
        let other = &Line::with_table(built.points().to_vec(), table).unwrap();
        for (point, distance) in [((0, 0), 0), ((2_048, 3_712), 5), ((-16_000, 16_000), 9)] {
            let near = |line: &Line| line.near(point, distance, 9_999).unwrap().decided();
            assert_eq!(the_same_on_each_stack(|| near(other)), near(&built));
        }
    }
}

#[test]
fn the_last_row_of_a_deep_table_is_checked() {
    let points = numbers(&comb(0));
    let last_row = 2 * SEGMENTS - 2;
    for split in [left, right] {
        // Its split, and where its box ends.
        for (column, refused) in [(2, 21), (8, 22)] {
            let mut table = table_without_end(SEGMENTS + 1, split);
            table[ROW_WIDTH * last_row + column] = 0;
            let check = || lent::check(&points, &table).accepted();
            let refusal = the_same_on_each_stack(check).unwrap_err();
            assert_eq!((refusal.number, refusal.place), (refused, last_row));
        }
    }
}

#[test]
fn the_deepest_lent_tables_are_walked() {
    let (low, high) = (flat_ring(0), flat_ring(9));
    for split in [left, right] {
        let table = table_without_end(low.len() / 2, split);
        let visits = 2 * SEGMENTS as u32 - 1;
        let near = || lent::near(&low, &table, 0, 16_000, 0, u32::MAX).answer();
        assert_eq!(the_same_on_each_stack(near), Ok(Answer::No { visits }));
        let inside = || lent::inside(&low, &table, 0, 16_000, u32::MAX).side();
        assert_eq!(the_same_on_each_stack(inside), Ok(Side::Outside { visits }));
        // As deep as both lines together; going through all pairs would take a second.
        let visits = 100_000;
        let meet = || lent::meet(&low, &table, &high, &table, visits).answer();
        let undecided = Answer::Undecided { visits };
        assert_eq!(the_same_on_each_stack(meet), Ok(undecided));
        let agree = || lent::agree(&low, &table, &high, &table, 0, visits).agreement();
        let no = the_same_on_each_stack(agree).unwrap();
        assert_eq!(no.decided(), Some(false));
    }
}
