//! Tables that the builder did not write: the figures of `docs/RULES.md`, section 8.3, the order of the refusals, what
//! a line keeps of such a table, and that it answers as with the built one.

mod shapes;

use kneukelboom::{lent, widen, Answer, Line, Name, Refusal, Side, ROW_WIDTH};
use shapes::{comb, comb_ring, numbers, reversed, saw};

const L: [i64; 6] = [0, 0, 4, 3, 8, 0];
const S: [i64; 10] = [0, 0, 4, 0, 4, 4, 0, 4, 0, 0];
/// A table of S that splits at points 1, 2 and 3.
const V: [[i64; ROW_WIDTH]; 7] = [
    [0, 4, 1, 0, 4, 0, 4, 0, 4, 0, 4],
    [0, 1, -1, 0, 0, 0, 16, 0, 4, 0, 0],
    [1, 4, 2, -16, 0, 0, 16, 0, 4, 0, 4],
    [1, 2, -1, 0, 0, 0, 16, 4, 4, 0, 4],
    [2, 4, 3, -16, 0, 0, 32, 0, 4, 0, 4],
    [2, 3, -1, 0, 0, 0, 16, 0, 4, 4, 4],
    [3, 4, -1, 0, 0, 0, 16, 0, 0, 0, 4],
];

const FIRST: usize = 0;
const SPLIT: usize = 2;
const CMIN: usize = 3;
const CMAX: usize = 4;
const TMAX: usize = 6;
const XMAX: usize = 8;
const YMIN: usize = 9;

/// Row, column and the number that is put there.
type Change = (usize, usize, i64);
/// The number and the place of a refusal.
type Fault = (u32, usize);

fn built(points: &[i64]) -> Line {
    Line::from_numbers(points.to_vec()).unwrap()
}

fn v() -> Line {
    Line::with_table(S.to_vec(), V.concat()).unwrap()
}

fn changed(table: &[i64], changes: &[Change]) -> Vec<i64> {
    let mut table = table.to_vec();
    for &(row, column, number) in changes {
        table[ROW_WIDTH * row + column] = number;
    }
    table
}

/// What the check says, which is also what a line with that table comes to.
fn checked(points: &[i64], table: &[i64]) -> Result<(), Fault> {
    let checked = lent::check(points, table).accepted();
    let line = Line::with_table(points.to_vec(), table.to_vec());
    assert_eq!(line.map(|_| ()), checked);
    checked.map_err(|refusal| {
        let Refusal { line, visits, .. } = refusal;
        assert_eq!((line, visits), (Some(Name::A), 0));
        (refusal.number, refusal.place)
    })
}

#[test]
fn a_good_table_may_be_wider_than_the_built_one() {
    let (least, most) = (i64::from(i32::MIN), i64::from(i32::MAX));
    let table = built(&L).table().to_vec();
    for changes in [
        &[][..],
        &[(0, CMAX, 25)],
        &[(0, XMAX, 1_000_000)],
        &[(0, CMIN, least), (0, CMAX, most)],
        &[(0, CMIN, i64::MIN), (0, CMAX, i64::MAX)],
    ] {
        let checked = checked(&L, &changed(&table, changes));
        assert_eq!(checked, Ok(()), "{changes:?}");
    }
}

#[test]
fn the_lowest_row_at_fault_decides_and_21_comes_before_22() {
    let table = built(&L).table().to_vec();
    let faults: [(&[Change], Fault); 12] = [
        (&[(0, CMAX, 23)], (22, 0)),
        (&[(0, YMIN, 1)], (22, 0)),
        (&[(0, CMIN, 1)], (21, 0)),
        (&[(0, CMAX, -1)], (21, 0)),
        (&[(0, YMIN, 4)], (21, 0)),
        (&[(0, XMAX, 1_000_001)], (21, 0)),
        (&[(1, SPLIT, 0)], (21, 1)),
        (&[(2, FIRST, 0)], (21, 2)),
        (&[(0, CMAX, 23), (1, SPLIT, 0)], (22, 0)),
        (&[(0, SPLIT, 2), (0, CMAX, 23)], (21, 0)),
        (&[(1, TMAX, 24), (2, FIRST, 0)], (22, 1)),
        (&[(2, XMAX, 7)], (22, 2)),
    ];
    for (changes, fault) in faults {
        let checked = checked(&L, &changed(&table, changes));
        assert_eq!(checked, Err(fault), "{changes:?}");
    }
}

/// Each has the faults of those that follow it, too.
#[test]
fn points_then_the_tables_length_then_its_rows() {
    let far = 1_000_001;
    let many = vec![far; 2 * 4_098];
    let table = changed(built(&L).table(), &[(0, CMAX, 23), (1, SPLIT, 0)]);
    let not_good = changed(&table, &[(0, SPLIT, 2)]);
    for (points, table, fault) in [
        (&[far][..], &[][..], (1, 0)),
        (&[far, far], &[], (2, 0)),
        (&many, &[], (3, 0)),
        (&[0, 0, 4, 3, 4, 3, far, 0], &[], (4, 3)),
        (&[0, 0, 4, 3, 4, 3], &[], (5, 1)),
        (&[0, 0, 4, 3, 4, 3], &table, (5, 1)),
        (&L, &not_good[..32], (6, 0)),
        (&L, &not_good, (21, 0)),
        (&L, &table, (22, 0)),
    ] {
        assert_eq!(checked(points, table), Err(fault));
    }
    assert_eq!(checked(&L, built(&L).table()), Ok(()));
}

#[test]
fn other_splits_other_visits_the_same_answers() {
    let (v, built) = (v(), built(&S));
    assert_eq!((v.table()[SPLIT], built.table()[SPLIT]), (1, 2));
    assert_eq!(v.near((2, 2), 2, 9), Ok(Answer::Yes { visits: 2 }));
    assert_eq!(built.near((2, 2), 2, 9), Ok(Answer::Yes { visits: 3 }));
    assert_eq!(v.near((2, 2), 1, 9), Ok(Answer::No { visits: 7 }));
    assert_eq!(v.inside((2, 2), 9), Ok(Side::Inside { visits: 7 }));
    assert_eq!(v.inside((4, 2), 9), Ok(Side::On { visits: 4 }));
}

#[test]
fn a_split_elsewhere_hands_other_ranges_down() {
    let fault = |change| checked(&S, &changed(&V.concat(), &[change]));
    assert_eq!(fault((2, CMIN, -15)), Err((22, 2)));
    assert_eq!(fault((0, SPLIT, 2)), Err((21, 1)));
}

/// What no question finds out.
#[test]
fn a_table_whose_answers_would_be_false_is_refused() {
    let (narrow, (x, y)) = (changed(&V.concat(), &[(2, CMIN, -15)]), (2, 4));
    let near = lent::near(&S, &narrow, x, y, 0, 9).answer();
    assert_eq!(near, Ok(Answer::No { visits: 3 }));
    assert_eq!(v().near((x, y), 0, 9).unwrap().decided(), Some(true));
    let inside = lent::inside(&S, &narrow, x, y, 9).side();
    assert_eq!(inside, Ok(Side::Outside { visits: 3 }));
    assert_eq!(v().inside((x, y), 9), Ok(Side::On { visits: 6 }));
    assert_eq!(checked(&S, &narrow), Err((22, 2)));
}

#[test]
fn numbers_past_the_rows_are_neither_looked_at_nor_kept() {
    for past in [&[i64::MIN][..], &[9; 10], &V[2], &[0; 5 * ROW_WIDTH]] {
        let table = [&V.concat(), past].concat();
        let line = Line::with_table(S.to_vec(), table).unwrap();
        assert_eq!(line.table(), V.concat());
        assert_eq!(line.near((2, 2), 1, 9), Ok(Answer::No { visits: 7 }));
    }
}

#[test]
fn the_vectors_are_kept() {
    let (points, table) = (S.to_vec(), V.concat());
    let kept = (points.as_ptr(), table.as_ptr());
    let line = Line::with_table(points, table).unwrap();
    assert_eq!((line.points().as_ptr(), line.table().as_ptr()), kept);
}

#[test]
fn a_stored_table_of_version_1_need_not_be_built_again() {
    let built = built(&L);
    let stored = |numbers: &[i64]| -> Vec<i32> { numbers.iter().map(|&n| n as i32).collect() };
    let (points, table) = (stored(built.points()), stored(built.table()));
    let line = Line::with_table(widen(&points), widen(&table)).unwrap();
    assert_eq!((&line, line.table()), (&built, built.table()));
}

#[test]
fn what_is_built_is_accepted_and_answers_the_same_after_the_same_visits() {
    let deep = [comb(0), reversed(comb(1)), saw(0), comb_ring()];
    let lines = deep.map(|points| built(&numbers(&points)));
    for line in lines.iter().chain([&built(&L), &built(&S)]) {
        let (points, table) = (line.points().to_vec(), line.table().to_vec());
        let again = Line::with_table(points, table).unwrap();
        assert_eq!((again.table(), &again), (line.table(), line));
        for point in [(0, 0), (2, 2), (4, 5), (-2_000, 900), (2_000, -900)] {
            let near = |of: &Line| of.near(point, 2, of.enough_visits());
            assert_eq!(near(&again), near(line));
            let inside = |of: &Line| of.inside(point, of.enough_visits());
            assert_eq!(inside(&again), inside(line));
        }
        let other = built(&S);
        assert_eq!(again.meets(&other, 9_999), line.meets(&other, 9_999));
        assert_eq!(other.agrees(&again, 9, 999), other.agrees(line, 9, 999));
    }
}

/// One number of V changed: what is accepted answers as the built table does, of every point about.
#[test]
fn whatever_is_accepted_answers_as_the_built_table() {
    let (built, probe) = (built(&S), built(&[1, 1, 3, 5]));
    let points = || (-1..6).flat_map(|x| (-1..6).map(move |y| (x, y)));
    let answers = |line: &Line| -> Vec<_> {
        let of_point = |point| {
            let near = [0, 1, 2].map(|d| line.near(point, d, 7).unwrap().decided());
            (near, line.inside(point, 7).unwrap().decided())
        };
        points().map(of_point).collect()
    };
    let of_lines = |line: &Line| {
        let meets = line.meets(&probe, line.enough_to_meet(&probe)).unwrap();
        let agrees = [0, 1, 2, 3].map(|d| probe.agrees(line, d, 99).unwrap().decided());
        (meets.decided(), agrees)
    };
    let mut accepted = 0;
    for (at, number) in V.concat().into_iter().enumerate() {
        for other in [-1_000_000, number - 1, number + 1, 0, 40, 1_000_000] {
            let table = changed(&V.concat(), &[(at / ROW_WIDTH, at % ROW_WIDTH, other)]);
            let Ok(line) = Line::with_table(S.to_vec(), table) else {
                continue;
            };
            accepted += 1;
            assert_eq!(answers(&line), answers(&built), "number {at} is {other}");
            assert_eq!(of_lines(&line), of_lines(&built), "number {at} is {other}");
        }
    }
    assert!(accepted > 100, "{accepted} were accepted");
}
