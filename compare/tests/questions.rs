//! The four questions on built tables: word, visits, refusal, line and place are those of the second reading, and a
//! decided word is the plain geometry's.

use compare::{agree, ask_plainly, inside, meet, near, Dice, Lent, ENOUGH};
use kneukelboom::lent::word;
use kneukelboom::{FARTHEST, SHEET};
use second::generate::{asked_point, distance, sound_line, tight, Random};
use second::geometry::{all_points, plain_astray, plain_meet, plain_near, plain_side};
use second::geometry::{Point, Side};
use second::tree::OLD_SHEET;

fn allowances(exact: u32) -> [u32; 5] {
    [0, 1, exact.saturating_sub(1), exact, ENOUGH]
}

#[test]
fn near_is_the_plain_answer_and_counts_as_the_second_reading() {
    let mut dice = Dice(2);
    for round in 0..4_000 {
        let half = dice.one_of(&[2, 6, 40, OLD_SHEET, SHEET]);
        let line = Lent::built(&dice.line(1 + round % 30, half));
        let z = Point {
            x: dice.within(-half, half),
            y: dice.within(-half, half),
        };
        let d = dice.one_of(&[0, 1, half / 3, half, FARTHEST]);
        let reply = near(&line, z.x, z.y, d, ENOUGH);
        assert_eq!(reply.word == word::YES, plain_near(&line.points, z, d));
        for allowance in allowances(reply.visits) {
            let again = near(&line, z.x, z.y, d, allowance);
            assert_eq!(again.word == word::UNDECIDED, allowance < reply.visits);
        }
    }
}

#[test]
fn near_checks_7_before_8_and_both_after_the_lengths() {
    let line = Lent::built(&[0, 0, 4, 3, 8, 0]);
    for (x, y, d, number) in [
        (4, 5, -1, 7),
        (4, 5, 2_000_001, 7),
        (4, 5, (1 << 32) + 2, 7),
        (4, 5, i64::MIN, 7),
        (4, 5, i64::MAX, 7),
        (1_000_001, 0, -1, 7),
        (1_000_001, 0, 2, 8),
        (4 + (1 << 32), 5, 2, 8),
        (4, 5 - (1 << 32), 2, 8),
        (4, i64::MIN + 5, 2, 8),
        (0, i64::MIN, 2, 8),
        (i64::MAX, 0, 2, 8),
    ] {
        assert_eq!(near(&line, x, y, d, 9).number, number);
    }
    assert_eq!(near(&line, 4, 5, FARTHEST, 9).word, word::YES);
    let mut short = line.clone();
    short.table.truncate(32);
    assert_eq!(near(&short, 1_000_001, 0, -1, 9).number, 6);
}

#[test]
fn meet_is_the_plain_answer_both_ways_round() {
    let mut dice = Dice(3);
    for round in 0..4_000 {
        let half = dice.one_of(&[2, 5, 30, OLD_SHEET, SHEET]);
        let a = Lent::built(&dice.line(1 + round % 17, half));
        let b = Lent::built(&dice.line(1 + round % 13, half));
        let reply = meet(&a, &b, ENOUGH);
        assert_eq!(reply.word == word::YES, plain_meet(&a.points, &b.points));
        assert_eq!(meet(&b, &a, ENOUGH).word, reply.word);
        for allowance in allowances(reply.visits) {
            assert_eq!(
                meet(&a, &b, allowance).word == word::UNDECIDED,
                allowance < reply.visits
            );
        }
    }
}

#[test]
fn touching_overlapping_crossing_nested_and_zigzag_lines_meet_as_plain_geometry_says() {
    let lines: Vec<Lent> = [
        &[0, 0, 10, 0][..],
        &[10, 0, 20, 0],
        &[5, 0, 15, 0],
        &[11, 0, 20, 0],
        &[0, 0, 10, 10],
        &[0, 10, 10, 0],
        &[5, 5, 6, 7],
        &[5, 4, 6, 5, 7, 4],
        &[3, 0, 3, 5],
        &[0, 1, 10, 1, 10, 2, 0, 2, 0, 3, 10, 3],
        &[-5, -5, 15, -5, 15, 15, -5, 15, -5, -5],
        &[0, 0, 1, 4, 2, 0, 3, 4, 4, 0, 5, 4],
        &[0, 5, 1, 1, 2, 5, 3, 1, 4, 5],
    ]
    .into_iter()
    .map(Lent::built)
    .collect();
    for a in &lines {
        for b in &lines {
            assert_eq!(
                meet(a, b, ENOUGH).word == word::YES,
                plain_meet(&a.points, &b.points)
            );
        }
    }
}

fn side_word(side: Side) -> u32 {
    match side {
        Side::Inside => word::INSIDE,
        Side::Outside => word::OUTSIDE,
        Side::On => word::ON,
    }
}

#[test]
fn inside_is_the_plain_side_of_any_ring() {
    let mut dice = Dice(4);
    for round in 0..4_000 {
        let half = dice.one_of(&[2, 4, 9, 60, OLD_SHEET, SHEET]);
        let ring = Lent::built(&dice.ring(3 + round % 20, half));
        let z = Point {
            x: dice.within(-half, half),
            y: dice.within(-half, half),
        };
        let reply = inside(&ring, z.x, z.y, ENOUGH);
        assert_eq!(reply.word, side_word(plain_side(&ring.points, z)));
        for allowance in allowances(reply.visits) {
            assert_eq!(
                inside(&ring, z.x, z.y, allowance).word == word::UNDECIDED,
                allowance < reply.visits
            );
        }
    }
}

#[test]
fn rays_through_corners_along_edges_and_wound_rings_count_as_plain_geometry_says() {
    let rings: Vec<Lent> = [
        &[4, 0, 8, 4, 4, 8, 0, 4, 4, 0][..],
        &[0, 0, 8, 0, 8, 4, 4, 4, 4, 8, 0, 8, 0, 0],
        &[0, 0, 8, 0, 8, 8, 6, 4, 4, 8, 2, 4, 0, 8, 0, 0],
        &[0, 0, 8, 8, 8, 0, 0, 8, 0, 0],
        &[0, 0, 8, 0, 8, 8, 0, 8, 0, 0, 8, 0, 8, 8, 0, 8, 0, 0],
        &[0, 0, 8, 0, 0, 0, 0, 4, 0, 0],
    ]
    .into_iter()
    .map(Lent::built)
    .collect();
    for ring in &rings {
        for x in -1..=9 {
            for y in -1..=9 {
                assert_eq!(
                    inside(ring, x, y, ENOUGH).word,
                    side_word(plain_side(&ring.points, Point { x, y }))
                );
            }
        }
    }
}

#[test]
fn a_ring_of_4_points_is_taken_of_3_and_an_open_line_refused_9() {
    assert_eq!(
        inside(&Lent::built(&[0, 0, 4, 0, 4, 4, 0, 0]), 3, 1, 9).word,
        word::INSIDE
    );
    assert_eq!(inside(&Lent::built(&[0, 0, 4, 0, 0, 0]), 3, 1, 9).number, 9);
    assert_eq!(
        inside(&Lent::built(&[0, 0, 4, 0, 4, 4, 0, 4]), 3, 1, 9).number,
        9
    );
    assert_eq!(
        inside(&Lent::built(&[0, 0, 4, 0, 0, 0]), 1_000_001, 1, 9).number,
        8,
        "8 before 9"
    );
}

#[test]
fn agree_is_the_plain_answer_and_names_the_first_point_astray() {
    let mut dice = Dice(5);
    for round in 0..2_000 {
        let half = dice.one_of(&[2, 6, 40, OLD_SHEET, SHEET]);
        let a = Lent::built(&dice.line(1 + round % 9, half));
        let b = Lent::built(&dice.line(1 + round % 11, half));
        let d = dice.one_of(&[0, 1, half / 2, half, FARTHEST]);
        let reply = agree(&a, &b, d, ENOUGH);
        assert_eq!(
            reply.word == word::YES,
            plain_astray(&a.points, &b.points, d).is_none()
        );
        for allowance in allowances(reply.visits) {
            assert_eq!(
                agree(&a, &b, d, allowance).word == word::UNDECIDED,
                allowance < reply.visits
            );
        }
    }
}

/// c² is D²·|u|², or 1 beside it, on the whole sheet: where fewer than 128 bits, or a rounded number, would err.
#[test]
fn near_turns_on_the_last_unit() {
    let mut random = Random(8);
    for _ in 0..20_000 {
        let asked = tight(&mut random);
        let segment = Lent::built(&asked.points);
        let reply = near(&segment, asked.z.x, asked.z.y, asked.d, ENOUGH);
        assert_eq!(reply.word == word::YES, asked.within, "{asked:?}");
    }
}

#[test]
fn lines_of_every_shape_over_the_sheet_are_answered_as_plain_geometry_says() {
    let mut random = Random(81);
    for _ in 0..3_000 {
        let [a, b] = [(); 2].map(|()| Lent::built(&sound_line(&mut random)));
        let points: Vec<Point> = all_points(&a.points).collect();
        let (z, d) = (asked_point(&mut random, &points), distance(&mut random, 9));
        ask_plainly(&a, &b, z, d);
    }
}
