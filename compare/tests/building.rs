//! Building: each refusal, its place, and the table that it leaves untouched; and the described table otherwise.

use compare::{build, Dice, Lent, WRITTEN};
use kneukelboom::lent::{self, line, word};
use kneukelboom::{MOST_POINTS, ROW_WIDTH, SHEET};
use second::generate::{sound_line, stray, Random};
use second::tree::OLD_SHEET;

/// A table of so many numbers that no builder writes in this order.
fn unwritten(room: usize) -> Vec<i64> {
    (0..room as i64).map(|k| k * 31 - 7).collect()
}

/// Builds into a table of so many numbers and looks that a refusal leaves every one as it was.
fn refused(points: &[i64], room: usize) -> (u32, u64) {
    let mut table = unwritten(room);
    let reply = build(points, &mut table);
    assert_eq!(reply.word, word::REFUSED, "{reply:?}");
    assert_eq!((reply.line, reply.visits), (line::LINE_A, 0));
    assert_eq!(table, unwritten(room), "a refused build wrote");
    (reply.number, reply.place)
}

fn taken(points: &[i64], room: usize) -> Vec<i64> {
    let mut table = unwritten(room);
    assert_eq!(build(points, &mut table), WRITTEN);
    let rows = lent::table_len(points.len());
    assert_eq!(
        table[rows..],
        unwritten(room)[rows..],
        "numbers past the rows stay unchanged"
    );
    table
}

/// So many points along the sheet, no two neighbours equal.
fn long_line(points: usize) -> Vec<i64> {
    (0..points as i64)
        .flat_map(|k| [k * 488 - 999_424, k % 2])
        .collect()
}

const L: [i64; 6] = [0, 0, 4, 3, 8, 0];

#[test]
fn odd_length_is_refused_1_and_too_few_points_2() {
    assert_eq!(refused(&[0], 99), (1, 0));
    assert_eq!(refused(&[0, 0, 4], 99), (1, 0));
    assert_eq!(refused(&[], 99), (2, 0));
    assert_eq!(refused(&[5, 5], 99), (2, 0));
}

#[test]
fn a_line_of_4097_points_is_taken_and_of_4098_refused_3() {
    let most = long_line(MOST_POINTS);
    Lent::built(&most);
    assert_eq!(refused(&long_line(4_098), 90_200), (3, 0));
    let mut odd = long_line(4_098);
    odd.push(0);
    assert_eq!(refused(&odd, 90_200), (1, 0), "1 is checked before 3");
}

/// Numbers off the sheet: one past it, and those of which fewer bits would be on it.
const PAST: [i64; 14] = [
    1_000_001,
    -1_000_001,
    1 << 31,
    -(1 << 31) - 1,
    1 << 32,
    (1 << 32) + 7,
    7 - (1 << 32),
    (1 << 32) - 1,
    1 << 62,
    -(1 << 62),
    i64::MAX,
    i64::MIN,
    i64::MIN + 7,
    i64::MAX - 1_000_000,
];

#[test]
fn coordinates_at_the_limit_are_taken_and_past_it_refused_4_at_the_lowest_point() {
    for limit in [SHEET, -SHEET] {
        taken(&[0, 0, limit, 1, 1, limit, limit, limit], 99);
    }
    for past in PAST {
        for place in 0..4 {
            for coordinate in 0..2 {
                let mut points = vec![0, 0, 1, 1, 2, 0, 3, 1];
                points[2 * place + coordinate] = past;
                assert_eq!(refused(&points, 99), (4, place as u64));
                points[7] = past;
                assert_eq!(
                    refused(&points, 99),
                    (4, place as u64),
                    "the lowest point decides"
                );
            }
        }
    }
}

#[test]
fn equal_neighbours_are_refused_5_at_the_lower_point_after_all_of_4() {
    let points = [0, 0, 1, 1, 2, 0, 3, 1];
    for place in 0..3 {
        let mut equal = points;
        equal.copy_within(2 * place..2 * place + 2, 2 * place + 2);
        assert_eq!(refused(&equal, 99), (5, place as u64));
        equal.copy_within(4..6, 6);
        assert_eq!(
            refused(&equal, 99),
            (5, place as u64),
            "the lower point decides"
        );
    }
    assert_eq!(
        refused(&[0, 0, 0, 0, 1_000_001, 0], 99),
        (4, 2),
        "4 before 5 over the whole line"
    );
    taken(&[0, 0, 1, 1, 0, 0], 99);
}

#[test]
fn a_table_one_number_short_is_refused_6_and_an_exact_or_longer_one_serves() {
    assert_eq!(refused(&L, 0), (6, 0));
    assert_eq!(refused(&L, 32), (6, 0));
    assert_eq!(refused(&[0, 0, 0, 0], 0), (5, 0), "5 before 6");
    let exact = taken(&L, 33);
    assert_eq!(
        exact,
        [
            0, 2, 1, 0, 24, 0, 64, 0, 8, 0, 3, 0, 1, -1, 0, 0, 0, 25, 0, 4, 0, 3, 1, 2, -1, 0, 0,
            0, 25, 4, 8, 0, 3
        ]
    );
    assert_eq!(taken(&L, 50)[..33], exact);
}

#[test]
fn rows_are_those_written_out_by_hand() {
    let written: [(&[i64], &[[i64; ROW_WIDTH]]); 4] = [
        // a closed run has u = (1,0); points 2 and 3 tie at c 4, and 2 is nearer to the middle
        (
            &[0, 0, 4, 0, 4, 4, 0, 4, 0, 0],
            &[
                [0, 4, 2, 0, 4, 0, 4, 0, 4, 0, 4],
                [0, 2, 1, -16, 0, 0, 32, 0, 4, 0, 4],
                [0, 1, -1, 0, 0, 0, 16, 0, 4, 0, 0],
                [1, 2, -1, 0, 0, 0, 16, 4, 4, 0, 4],
                [2, 4, 3, -16, 0, 0, 32, 0, 4, 0, 4],
                [2, 3, -1, 0, 0, 0, 16, 0, 4, 4, 4],
                [3, 4, -1, 0, 0, 0, 16, 0, 0, 0, 4],
            ],
        ),
        // all c are 0; points 1 and 2 are as near to the middle, and the lower splits
        (
            &[0, 0, 1, 0, 2, 0, 3, 0],
            &[
                [0, 3, 1, 0, 0, 0, 9, 0, 3, 0, 0],
                [0, 1, -1, 0, 0, 0, 1, 0, 1, 0, 0],
                [1, 3, 2, 0, 0, 0, 4, 1, 3, 0, 0],
                [1, 2, -1, 0, 0, 0, 1, 1, 2, 0, 0],
                [2, 3, -1, 0, 0, 0, 1, 2, 3, 0, 0],
            ],
        ),
        // point 1 lies on one side of the root's chord and on the other of the left half's
        (
            &[0, 0, 2, 1, 4, 3, 8, 0],
            &[
                [0, 3, 2, 0, 24, 0, 64, 0, 8, 0, 3],
                [0, 2, 1, -2, 0, 0, 25, 0, 4, 0, 3],
                [0, 1, -1, 0, 0, 0, 5, 0, 2, 0, 1],
                [1, 2, -1, 0, 0, 0, 8, 2, 4, 1, 3],
                [2, 3, -1, 0, 0, 0, 25, 4, 8, 0, 3],
            ],
        ),
        // a closed run left of its start: t is 0 at its end, and not |u|^2, which is 1
        (
            &[5, 5, 1, 5, 1, 9, 5, 5],
            &[
                [0, 3, 2, 0, 4, -4, 0, 1, 5, 5, 9],
                [0, 2, 1, 0, 16, 0, 32, 1, 5, 5, 9],
                [0, 1, -1, 0, 0, 0, 16, 1, 5, 5, 5],
                [1, 2, -1, 0, 0, 0, 16, 1, 1, 5, 9],
                [2, 3, -1, 0, 0, 0, 32, 1, 5, 5, 9],
            ],
        ),
    ];
    for (points, rows) in written {
        let table = Lent::built(points).table;
        assert_eq!(table[..lent::table_len(points.len())], rows.concat());
    }
}

#[test]
fn rows_at_the_limits_are_those_written_out_by_hand() {
    const S: i64 = 1_000_000;
    let (cross, whole) = (4_000_000_000_000, 8_000_000_000_000);
    // two sides of the sheet: u is (2000000, 2000000), and the corner lies 2,000,000 to the right of the start
    let two_sides = [
        [0, 2, 1, -cross, 0, 0, whole, -S, S, -S, S],
        [0, 1, -1, 0, 0, 0, cross, -S, S, -S, -S],
        [1, 2, -1, 0, 0, 0, cross, S, S, -S, S],
    ];
    assert_eq!(taken(&[-S, -S, S, -S, S, S], 33), two_sides.concat());
    // there and back: u is (1, 0), so c is py - sy and t is px - sx
    let there_and_back = [
        [0, 2, 1, 0, 2 * S, -2 * S, 0, -S, S, -S, S],
        [0, 1, -1, 0, 0, 0, whole, -S, S, -S, S],
        [1, 2, -1, 0, 0, 0, whole, -S, S, -S, S],
    ];
    assert_eq!(taken(&[S, -S, -S, S, S, -S], 33), there_and_back.concat());
}

#[test]
fn the_worst_line_builds_with_every_split_at_an_end() {
    // of the points on the other side of the chord the last is always the farthest from it
    let points: Vec<i64> = (0..MOST_POINTS as i64)
        .flat_map(|k| [244 * k, if k % 2 == 0 { 244 * k } else { -244 * k }])
        .collect();
    let worst = Lent::built(&points);
    for row in 0..4_095 {
        let (last, split) = (
            worst.table[ROW_WIDTH * row + 1],
            worst.table[ROW_WIDTH * row + 2],
        );
        assert_eq!((last, split), (4_096 - row as i64, 4_095 - row as i64));
    }
}

#[test]
fn tables_are_those_of_the_second_reading() {
    let mut dice = Dice(20_261_115);
    for round in 0..3_000 {
        let half = dice.one_of(&[1, 2, 5, 40, 1_000, OLD_SHEET, SHEET]);
        let segments = if round % 100 == 0 {
            300
        } else {
            1 + (round % 24)
        };
        let points = dice.line(segments, half);
        Lent::built(&points);
        Lent::built(&dice.ring(segments.max(3), half));
    }
}

#[test]
fn lines_of_every_shape_and_points_astray_build_as_the_second_reading_does() {
    let mut random = Random(20_261_116);
    for _ in 0..3_000 {
        let mut points = sound_line(&mut random);
        Lent::built(&points);
        stray(&mut random, &mut points);
        let mut table = unwritten(lent::table_len(points.len()) + 3);
        build(&points, &mut table);
    }
}
