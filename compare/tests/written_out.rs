//! What the rules say, written out number by number where definition, code and second reading could err alike: which
//! of two reasons to refuse is told, what a strip dismisses, and what the checker says of tables from other software.
//! `compare` asks both readings each time.

use compare::{agree, build, check, inside, meet, near, widen, Lent, ACCEPTED, WRITTEN};
use kneukelboom::lent::{line, word, Reply};
use kneukelboom::{FARTHEST, ROW_WIDTH};

const L: [i64; 6] = [0, 0, 4, 3, 8, 0];
/// Its table, as it was in 32 bits.
const TABLE_OF_L: [i32; 33] = [
    0, 2, 1, 0, 24, 0, 64, 0, 8, 0, 3, // the root
    0, 1, -1, 0, 0, 0, 25, 0, 4, 0, 3, // its left half
    1, 2, -1, 0, 0, 0, 25, 4, 8, 0, 3, // its right half
];

// columns of a row
const FIRST: usize = 0;
const LAST: usize = 1;
const SPLIT: usize = 2;
const CMIN: usize = 3;
const CMAX: usize = 4;
const TMIN: usize = 5;
const TMAX: usize = 6;
const XMIN: usize = 7;
const XMAX: usize = 8;
const YMIN: usize = 9;
const YMAX: usize = 10;

fn says(word: u32, visits: u32) -> Reply {
    Reply {
        word,
        visits,
        number: 0,
        line: line::NO_LINE,
        place: 0,
    }
}

fn refused(number: u32, line: u32, place: u64, visits: u32) -> Reply {
    Reply {
        number,
        line,
        place,
        ..says(word::REFUSED, visits)
    }
}

/// What a refused build or check says: of line A, after no visit. The place is a row, or a point.
fn refused_at(number: u32, place: u64) -> Reply {
    refused(number, line::LINE_A, place, 0)
}

/// Lines that are refused for their lengths, each with its number: the first of 1, 2, 3, 6 that holds.
fn unfit() -> Vec<(u32, Lent)> {
    let lent = |points: &[i64], numbers: usize| Lent {
        points: points.to_vec(),
        table: vec![0; numbers],
    };
    vec![
        (1, lent(&[5], 0)),                 // odd, no point, no table
        (1, lent(&[0, 0, 4, 3, 8], 0)),     // odd, and no table
        (1, lent(&vec![0; 8_197], 0)),      // odd, 4,098 points, and no table
        (2, lent(&[], 0)),                  // no point, no table
        (2, lent(&[5, 5], 0)),              // one point, no table
        (3, lent(&vec![0; 8_196], 0)),      // 4,098 points, and no table
        (3, lent(&vec![0; 8_196], 9)),      // the same with too short a table
        (6, lent(&L, 0)),                   // no table
        (6, lent(&L, 32)),                  // one number short
        (2, lent(&[5, 5], 99)),             // one point
        (3, lent(&vec![0; 8_196], 90_200)), // 4,098 points
    ]
}

/// The built line with one number of its table changed.
fn changed(points: &[i64], row: usize, column: usize, value: i64) -> Lent {
    let mut line = Lent::built(points);
    line.table[ROW_WIDTH * row + column] = value;
    line
}

/// Lines of which the root row is bad, with the reason.
fn bad_roots() -> Vec<(String, Lent)> {
    let moved = points_of_bad_roots().into_iter();
    let moved = moved.map(|(why, line, _)| (why.to_string(), line));
    bad_root_rows().into_iter().chain(moved).collect()
}

/// Bad by a number of the row: for each reason that the rules name, and each column in its high bits.
fn bad_root_rows() -> Vec<(String, Lent)> {
    let named = bad_by_the_rules().into_iter();
    let named = named.map(|(why, line)| (why.to_string(), line));
    let high = (0..ROW_WIDTH).map(|column| {
        // cmin and tmin may be as low as they like
        let more = if [CMIN, TMIN].contains(&column) {
            1 << 32
        } else {
            i64::MIN
        };
        let line = changed(&L, 0, column, i64::from(TABLE_OF_L[column]) + more);
        (format!("column {column} is right in its low 32 bits"), line)
    });
    named.chain(high).collect()
}

fn bad_by_the_rules() -> Vec<(&'static str, Lent)> {
    let row_of_l = |column: usize, value: i64| changed(&L, 0, column, value);
    let leaf = changed(&[0, 0, 4, 3], 0, SPLIT, 0);
    vec![
        ("first is not 0", row_of_l(FIRST, 1)),
        ("last is not 2", row_of_l(LAST, 1)),
        ("a leaf's split is not -1", leaf),
        ("split is -1 for two segments", row_of_l(SPLIT, -1)),
        ("split is first", row_of_l(SPLIT, 0)),
        ("split is last", row_of_l(SPLIT, 2)),
        ("cmin above 0", row_of_l(CMIN, 1)),
        ("cmax below 0", row_of_l(CMAX, -1)),
        ("tmin above 0", row_of_l(TMIN, 1)),
        ("tmax below 0", row_of_l(TMAX, -1)),
        ("x reversed", row_of_l(XMIN, 9)),
        ("y reversed", row_of_l(YMIN, 4)),
        ("xmin off the sheet", row_of_l(XMIN, -1_000_001)),
        ("xmax off the sheet", row_of_l(XMAX, 1_000_001)),
        ("ymin off the sheet", row_of_l(YMIN, -1_000_001)),
        ("ymax off the sheet", row_of_l(YMAX, 1_000_001)),
    ]
}

/// Bad by points that have moved since the build, with what a check says of them: a question does not look at them all.
fn points_of_bad_roots() -> [(&'static str, Lent, Reply); 3] {
    let moved = |line: &[i64], points: &[i64]| Lent {
        points: points.to_vec(),
        ..Lent::built(line)
    };
    let off_first = moved(&L, &[1_000_001, 0, 4, 3, 8, 0]);
    let off_last = moved(&L, &[0, 0, 4, 3, 8, -1_000_001]);
    let equal = moved(&[0, 0, 4, 3], &[4, 3, 4, 3]);
    [
        ("first off the sheet", off_first, refused_at(4, 0)),
        ("last off the sheet", off_last, refused_at(4, 2)),
        ("a leaf's points equal", equal, refused_at(5, 0)),
    ]
}

/// The table with the range of that row made wrong.
fn bad_at(points: &[i64], row: usize) -> Lent {
    let mut line = Lent::built(points);
    line.table[ROW_WIDTH * row] += 1;
    line
}

#[test]
fn meet_checks_a_wholly_before_b() {
    let (sound, bad_root) = (Lent::built(&L), bad_at(&L, 0));
    for allowance in [0, 9] {
        for (number, a) in &unfit() {
            let of_a = refused(*number, line::LINE_A, 0, 0);
            for (_, b) in &unfit() {
                assert_eq!(meet(a, b, allowance), of_a);
            }
            assert_eq!(meet(a, &sound, allowance), of_a);
            assert_eq!(meet(a, &bad_root, allowance), of_a);
        }
        for (number, b) in &unfit() {
            let of_b = refused(*number, line::LINE_B, 0, 0);
            assert_eq!(meet(&sound, b, allowance), of_b);
            // lengths before any row
            assert_eq!(meet(&bad_root, b, allowance), of_b);
        }
    }
}

#[test]
fn agree_checks_b_before_the_distance() {
    let (sound, bad_root) = (Lent::built(&L), bad_at(&L, 0));
    let mut off = Lent::built(&L);
    off.points[0] = 1_000_001;
    for d in [-1, FARTHEST + 1, i64::MIN, i64::MAX, 0, FARTHEST] {
        for (number, a) in &unfit() {
            for (_, b) in &unfit() {
                assert_eq!(agree(a, b, d, 9), refused(*number, line::LINE_A, 0, 0));
            }
        }
        for (number, b) in &unfit() {
            for a in [&sound, &bad_root, &off] {
                assert_eq!(agree(a, b, d, 9), refused(*number, line::LINE_B, 0, 0));
            }
        }
    }
    // 7 with no line, before a point or a row is looked at and before a visit is due
    for d in [-1, 2_000_001, 2 + (1 << 32), i64::MIN, i64::MAX] {
        for a in [&sound, &bad_root, &off] {
            for b in [&sound, &bad_root, &off] {
                assert_eq!(agree(a, b, d, 0), refused(7, line::NO_LINE, 0, 0));
            }
        }
    }
    // then 8 of A's point 0, before its walk; then B's row, as A's points are asked of B first
    assert_eq!(agree(&off, &bad_root, 2, 0), refused(8, line::LINE_A, 0, 0));
    assert_eq!(
        agree(&bad_root, &bad_root, 2, 9),
        refused(10, line::LINE_B, 0, 1)
    );
}

#[test]
fn meet_reads_a_before_b() {
    let sound = Lent::built(&L);
    let (of_a, of_b) = (
        refused(10, line::LINE_A, 0, 1),
        refused(10, line::LINE_B, 0, 1),
    );
    for (why, bad) in &bad_roots() {
        for (also, other) in &bad_roots() {
            assert_eq!(meet(bad, other, 0), says(word::UNDECIDED, 0));
            assert_eq!(meet(bad, other, 1), of_a, "A: {why}; B: {also}");
        }
        assert_eq!(meet(bad, &sound, 1), of_a, "A: {why}");
        assert_eq!(meet(&sound, bad, 1), of_b, "B: {why}");
    }
    // B's second segment crosses A's first: the pairs of rows are 0 0, 1 0, 1 1, 1 2, and the last says yes.
    let crossing = [5, 0, 4, 1, 0, 2];
    let b = Lent::built(&crossing);
    let (a1, a2) = (bad_at(&L, 1), bad_at(&L, 2));
    let (b0, b1, b2) = (
        bad_at(&crossing, 0),
        bad_at(&crossing, 1),
        bad_at(&crossing, 2),
    );
    assert_eq!(meet(&sound, &b, 9), says(word::YES, 4));
    assert_eq!(meet(&a1, &b, 9), refused(10, line::LINE_A, 1, 2));
    assert_eq!(meet(&a2, &b, 9), says(word::YES, 4));
    assert_eq!(meet(&sound, &b1, 9), refused(10, line::LINE_B, 1, 3));
    assert_eq!(meet(&sound, &b2, 9), refused(10, line::LINE_B, 2, 4));
    assert_eq!(meet(&a1, &b0, 9), refused(10, line::LINE_B, 0, 1));
    assert_eq!(meet(&a1, &b1, 9), refused(10, line::LINE_A, 1, 2));
    assert_eq!(meet(&a2, &b1, 9), refused(10, line::LINE_B, 1, 3));
    assert_eq!(meet(&a1, &b1, 1), says(word::UNDECIDED, 1));
}

/// Three sides of a diamond: u is (1, 1), c is y - x and -2 to 0, t is x + y and 0 to 2, the box is 0 to 2 by -1 to 1.
/// Each corner of the box lies outside another side of the strip.
const DIAMOND: [i64; 8] = [0, 0, 1, -1, 2, 0, 1, 1];

/// A split or a range that would lead past the last row is refused at the row that tells it, on its visit.
#[test]
fn a_row_that_leads_astray_is_10_at_its_own_row() {
    for (row, column, value, visits) in [
        (0, SPLIT, 2, 1),
        (0, SPLIT, 2_000_000_000, 1),
        (0, SPLIT, i64::MAX, 1),
        (0, LAST, 3, 1),
        (2, SPLIT, 1, 3),
    ] {
        let refusal = refused(10, line::LINE_A, row as u64, visits);
        assert_eq!(near(&changed(&L, row, column, value), 4, 0, 2, 9), refusal);
    }
    let one_higher = changed(&[0, 1, 4, 4, 8, 1], 0, SPLIT, 2);
    let refusal = refused(10, line::LINE_B, 0, 1);
    assert_eq!(meet(&Lent::built(&L), &one_higher, 99), refusal);
}

#[test]
fn meet_asks_both_strips_by_c_and_by_t() {
    let diamond = Lent::built(&DIAMOND);
    // Each stands on a corner of the box: it is dismissed at once by that side of the strip, and by nothing else.
    for beyond in [
        [2, -2, 2, -1], // c is -4 to -3, below -2; t is 0 to 1
        [0, 1, 0, 2],   // c is 1 to 2, above 0; t is 1 to 2
        [0, -2, 0, -1], // t is -2 to -1, below 0; c is -2 to -1
        [2, 1, 2, 2],   // t is 3 to 4, above 2; c is -1 to 0
    ] {
        let beyond = Lent::built(&beyond);
        assert_eq!(meet(&diamond, &beyond, 9), says(word::NO, 1));
        assert_eq!(meet(&beyond, &diamond, 9), says(word::NO, 1));
    }
}

/// The root splits at point 2. Points 0 to 2: c is 2y - 2x and -6 to 0, t is 2x + 2y and 0 to 10, the box the ring's.
/// Points 2 to 4: c is 2x - 2y and 0 to 4, t is 8 - 2x - 2y and 0 to 8, the box 0 to 3 by 0 to 2.
const DENTED: [i64; 10] = [0, 0, 4, 1, 2, 2, 3, 1, 0, 0];

#[test]
fn in_asks_t() {
    let ring = Lent::built(&DENTED);
    // t is 12, above 10, and c is -4; right of the other box
    assert_eq!(inside(&ring, 4, 2, 9), says(word::OUTSIDE, 3));
    // t is 10, and c is -2: two leaves; t is -2, below 0, and c is 2
    assert_eq!(inside(&ring, 3, 2, 9), says(word::OUTSIDE, 5));
}

#[test]
fn in_asks_c() {
    let ring = Lent::built(&DENTED);
    // c is -8, below -6, and t is 8; right of the other box
    assert_eq!(inside(&ring, 4, 0, 9), says(word::OUTSIDE, 3));
    // c is -6, and t is 6: two leaves; c is 6, above 4, and t is 2
    assert_eq!(inside(&ring, 3, 0, 9), says(word::OUTSIDE, 5));
}

/// From corner to corner of the sheet: |u|² is 8,000,000,000,000.
const DIAGONAL: [i64; 4] = [-1_000_000, -1_000_000, 1_000_000, 1_000_000];

#[test]
fn the_row_of_the_sheets_diagonal() {
    let row = [
        0,
        1,
        -1,
        0,
        0,
        0,
        8_000_000_000_000,
        -1_000_000,
        1_000_000,
        -1_000_000,
        1_000_000,
    ];
    assert_eq!(Lent::built(&DIAGONAL).table[..ROW_WIDTH], row);
}

/// c is 4,000,000,000,000 below or above 0, and c² is 16·10^24. D²·|u|² is 15.999987..·10^24 at D 1,414,213, and
/// 16.0000099..·10^24 at D 1,414,214.
#[test]
fn the_sheets_other_corner_lies_between_1414213_and_1414214_from_the_diagonal() {
    let diagonal = Lent::built(&DIAGONAL);
    for (d, answer) in [
        (0, word::NO),
        (1_414_213, word::NO),
        (1_414_214, word::YES),
        (2_000_000, word::YES),
    ] {
        assert_eq!(
            near(&diagonal, 1_000_000, -1_000_000, d, 9),
            says(answer, 1)
        );
        assert_eq!(
            near(&diagonal, -1_000_000, 1_000_000, d, 9),
            says(answer, 1)
        );
    }
    for d in [2_000_001, -1] {
        let refusal = refused(7, line::NO_LINE, 0, 0);
        assert_eq!(near(&diagonal, 1_000_000, -1_000_000, d, 9), refusal);
    }
    let refusal = refused(8, line::NO_LINE, 0, 0);
    assert_eq!(near(&diagonal, 1_000_001, 0, 2, 9), refusal);
}

#[test]
fn a_coordinate_of_1000000_is_built_and_1000001_refused_4() {
    let mut table = [5; 12];
    assert_eq!(build(&[0, 0, 1_000_000, 0], &mut table), WRITTEN);
    assert_eq!(
        table,
        [0, 1, -1, 0, 0, 0, 1_000_000_000_000, 0, 1_000_000, 0, 0, 5]
    );
    let refusal = refused_at(4, 1);
    assert_eq!(build(&[0, 0, 1_000_001, 0], &mut [5; 12]), refusal);
}

#[test]
fn a_box_side_past_the_old_sheet_is_good_and_past_the_new_one_bad() {
    let wide = changed(&L, 0, XMAX, 16_384);
    assert_eq!(near(&wide, 4, 5, 2, 9), says(word::YES, 2));
    let off = changed(&L, 0, XMAX, 1_000_001);
    assert_eq!(near(&off, 4, 5, 2, 9), refused(10, line::LINE_A, 0, 1));
}

/// c is -72 and |u|² is 64: a cmin of 0 dismisses the root, and one of -2^63 does not. Of both leaves c is -48 and |u|²
/// is 25: they are dismissed.
#[test]
fn a_cmin_of_the_least_number_is_no_shortfall() {
    assert_eq!(near(&Lent::built(&L), 4, -9, 1, 9), says(word::NO, 1));
    let loose = changed(&L, 0, CMIN, i64::MIN);
    assert_eq!(near(&loose, 4, -9, 1, 9), says(word::NO, 3));
}

#[test]
fn the_table_of_l_is_widened_into_35_numbers_and_refused_6_into_32() {
    let mut room = [5; 35];
    assert_eq!(widen(&TABLE_OF_L, &mut room), WRITTEN);
    let mut built = [5; 35];
    assert_eq!(build(&L, &mut built), WRITTEN);
    assert_eq!(room, built);
    assert_eq!(room[33..], [5, 5]);
    let mut short = [5; 32];
    assert_eq!(
        widen(&TABLE_OF_L, &mut short),
        refused(6, line::NO_LINE, 0, 0)
    );
    assert_eq!(short, [5; 32]);
}

// ---- the checker, by the figures of docs/RULES.md, section 8.3: L with its built table, changed; and a table of S

/// Row, column and the value that it gets.
type Change = (usize, usize, i64);

fn check_changed(mut lent: Lent, changes: &[Change]) -> Reply {
    for &(row, column, value) in changes {
        lent.table[ROW_WIDTH * row + column] = value;
    }
    check(&lent)
}

fn check_l(changes: &[Change]) -> Reply {
    check_changed(Lent::built(&L), changes)
}

#[test]
fn as_built_or_wider_is_accepted() {
    let five_zeros = Reply {
        word: 0,
        visits: 0,
        number: 0,
        line: 0,
        place: 0,
    };
    assert_eq!(check_l(&[]), five_zeros);
    for wider in [
        &[(0, CMAX, 25)][..],
        &[(0, XMAX, 16_383)],
        &[(0, XMAX, 1_000_000)],
        &[(0, CMIN, -2_147_483_648), (0, CMAX, 2_147_483_647)],
        &[(0, CMIN, i64::MIN), (0, CMAX, i64::MAX)],
    ] {
        assert_eq!(check_l(wider), five_zeros, "{wider:?}");
    }
}

/// Point 1, (4,3), has c 24; points 0 and 2 have y 0.
#[test]
fn a_root_that_leaves_a_point_out_is_22() {
    assert_eq!(check_l(&[(0, CMAX, 23)]), refused_at(22, 0));
    assert_eq!(check_l(&[(0, YMIN, 1)]), refused_at(22, 0));
}

/// u is (5,0). Point 1 has c -10 and t -5, point 2 has t 25; the box is -1 to 5 by -2 to 0.
const HOOK: [i64; 6] = [0, 0, -1, -2, 5, 0];

#[test]
fn each_side_of_strip_and_box_is_asked_to_the_unit() {
    for (column, value, tighter) in [
        (CMIN, -10, -9),
        (TMIN, -5, -4),
        (TMAX, 25, 24),
        (XMIN, -1, 0),
        (XMAX, 5, 4),
        (YMIN, -2, -1),
        (YMAX, 0, -1),
    ] {
        let hook = |value| check(&changed(&HOOK, 0, column, value));
        assert_eq!(hook(value), ACCEPTED, "column {column}");
        assert_eq!(hook(tighter), refused_at(22, 0), "column {column}");
    }
    let diagonal = |value| check(&changed(&DIAGONAL, 0, TMAX, value));
    assert_eq!(diagonal(8_000_000_000_000), ACCEPTED);
    assert_eq!(diagonal(7_999_999_999_999), refused_at(22, 0));
}

/// The first three leave a point out as well.
#[test]
fn a_bad_root_is_21_whether_it_leaves_a_point_out_or_not() {
    for change in [
        (0, CMIN, 1),
        (0, CMAX, -1),
        (0, YMIN, 4),
        (0, XMAX, 1_000_001),
    ] {
        assert_eq!(check_l(&[change]), refused_at(21, 0), "{change:?}");
    }
}

#[test]
fn each_reason_by_which_a_root_is_bad_is_21_and_points_are_refused_before() {
    for (why, bad) in bad_root_rows() {
        assert_eq!(check(&bad), refused_at(21, 0), "{why}");
    }
    for (why, bad, reply) in points_of_bad_roots() {
        assert_eq!(check(&bad), reply, "{why}");
    }
}

#[test]
fn the_lowest_row_decides_and_in_one_row_21() {
    for (changes, reply) in [
        (&[(1, SPLIT, 0)][..], refused_at(21, 1)),
        (&[(2, FIRST, 0)], refused_at(21, 2)),
        (&[(0, CMAX, 23), (1, SPLIT, 0)], refused_at(22, 0)),
        (&[(0, SPLIT, 2), (0, CMAX, 23)], refused_at(21, 0)),
        (&[(1, TMAX, 24), (2, FIRST, 0)], refused_at(22, 1)),
        (&[(1, SPLIT, 0), (2, XMAX, 7)], refused_at(21, 1)),
        (&[(2, XMAX, 7)], refused_at(22, 2)),
    ] {
        assert_eq!(check_l(changes), reply, "{changes:?}");
    }
}

#[test]
fn a_short_table_is_6_and_equal_neighbours_5_with_any_table() {
    let mut short = Lent::built(&L);
    short.table.truncate(32);
    assert_eq!(check(&short), refused_at(6, 0));
    let tables = [vec![], vec![7; 32], vec![7; 33], Lent::built(&L).table];
    for table in tables {
        let points = vec![0, 0, 4, 3, 4, 3];
        assert_eq!(check(&Lent { points, table }), refused_at(5, 1));
    }
}

/// What a build checks comes first, in the build's order, whatever the rows hold.
#[test]
fn the_checker_refuses_by_1_to_6_as_a_build() {
    for (number, line) in unfit() {
        assert_eq!(check(&line), refused_at(number, 0));
    }
    for (points, reply) in [
        (&[0, 0, 0, 0, 1_000_001, 0][..], refused_at(4, 2)), // and equal neighbours, and no table
        (&[0, 0, 4, 3, 8, i64::MIN], refused_at(4, 2)),
        (&[4, 3, 4, 3, 4, 3], refused_at(5, 0)),
    ] {
        for numbers in [0, 32, 33] {
            let (points, table) = (points.to_vec(), vec![-1; numbers]);
            assert_eq!(check(&Lent { points, table }), reply);
        }
    }
}

const S: [i64; 10] = [0, 0, 4, 0, 4, 4, 0, 4, 0, 0];

/// It splits at 1, then at 2, then at 3.
const V: [[i64; ROW_WIDTH]; 7] = [
    [0, 4, 1, 0, 4, 0, 4, 0, 4, 0, 4],
    [0, 1, -1, 0, 0, 0, 16, 0, 4, 0, 0],
    [1, 4, 2, -16, 0, 0, 16, 0, 4, 0, 4],
    [1, 2, -1, 0, 0, 0, 16, 4, 4, 0, 4],
    [2, 4, 3, -16, 0, 0, 32, 0, 4, 0, 4],
    [2, 3, -1, 0, 0, 0, 16, 0, 4, 4, 4],
    [3, 4, -1, 0, 0, 0, 16, 0, 0, 0, 4],
];

fn s_with_v() -> Lent {
    Lent {
        points: S.to_vec(),
        table: V.concat(),
    }
}

#[test]
fn a_table_with_other_splits_is_accepted_while_its_rows_fit() {
    assert_eq!(check(&s_with_v()), ACCEPTED);
    assert_eq!((V[0][SPLIT], Lent::built(&S).table[SPLIT]), (1, 2));
    // point 2, (4,4), has c -16 of the run from 1 to 4
    assert_eq!(
        check_changed(s_with_v(), &[(2, CMIN, -15)]),
        refused_at(22, 2)
    );
    // row 1 is no longer 0 to 2
    assert_eq!(
        check_changed(s_with_v(), &[(0, SPLIT, 2)]),
        refused_at(21, 1)
    );
}

#[test]
fn answers_over_other_splits_are_the_same_and_visits_their_own() {
    let (by_v, built) = (s_with_v(), Lent::built(&S));
    assert_eq!(near(&by_v, 2, 2, 2, 7), says(word::YES, 2));
    assert_eq!(near(&built, 2, 2, 2, 7), says(word::YES, 3));
    assert_eq!(near(&by_v, 2, 2, 1, 7), says(word::NO, 7));
    assert_eq!(inside(&by_v, 2, 2, 7), says(word::INSIDE, 7));
    assert_eq!(inside(&by_v, 4, 2, 7), says(word::ON, 4));
}

#[test]
fn a_box_past_the_old_sheet_is_accepted_and_past_the_new_one_21() {
    assert_eq!(check_l(&[(0, XMAX, 16_384)]), ACCEPTED);
    assert_eq!(check_l(&[(0, XMAX, 1_000_001)]), refused_at(21, 0));
}

/// (4,5) is 2 away from point 1. The root's c is 40 there, 17 above 23, and 17² is above 2²·64.
#[test]
fn a_table_that_is_refused_22_can_say_a_false_no() {
    assert_eq!(near(&Lent::built(&L), 4, 5, 2, 9), says(word::YES, 2));
    let tight = changed(&L, 0, CMAX, 23);
    assert_eq!(near(&tight, 4, 5, 2, 9), says(word::NO, 1));
    assert_eq!(check(&tight), refused_at(22, 0));
}
