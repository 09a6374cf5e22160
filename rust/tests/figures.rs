//! The figures of the rules, asked of the archive through the safe calls. P1 to P12 are theorems about the
//! definitions; here the compiled code is held to them, and to the figures at each limit.

use kneukelboom::{lent, widen, Agreement, Answer, Line, Name, Refusal, Side, ROW_WIDTH};

fn l() -> Line {
    Line::new(&[(0, 0), (4, 3), (8, 0)]).expect("L is sound")
}

fn square() -> Line {
    Line::new(&[(0, 0), (4, 0), (4, 4), (0, 4), (0, 0)]).expect("S is sound")
}

fn refusal(number: u32, line: Option<Name>, place: usize) -> Refusal {
    Refusal {
        number,
        line,
        place,
        visits: 0,
    }
}

const A: Option<Name> = Some(Name::A);
const B: Option<Name> = Some(Name::B);

#[test]
fn p1_rows_of_l() {
    let rows = [
        [0, 2, 1, 0, 24, 0, 64, 0, 8, 0, 3],
        [0, 1, -1, 0, 0, 0, 25, 0, 4, 0, 3],
        [1, 2, -1, 0, 0, 0, 25, 4, 8, 0, 3],
    ];
    assert_eq!(l().table(), rows.concat());
}

#[test]
fn p2_to_p6_near() {
    let l = l();
    assert_eq!(l.near((4, 5), 2, 10), Ok(Answer::Yes { visits: 2 }));
    assert_eq!(l.near((4, 5), 1, 10), Ok(Answer::No { visits: 1 }));
    assert_eq!(l.near((4, 5), 2, 1), Ok(Answer::Undecided { visits: 1 }));
    assert_eq!(l.near((4, 5), 2, 0), Ok(Answer::Undecided { visits: 0 }));
    assert_eq!(l.near((4, 0), 2, 10), Ok(Answer::No { visits: 3 }));
    assert_eq!(l.near((4, 0), 3, 10), Ok(Answer::Yes { visits: 2 }));
}

#[test]
fn p7_and_p8_meet() {
    let short = Line::new(&[(4, 0), (4, 2)]).unwrap();
    let long = Line::new(&[(4, 0), (4, 3)]).unwrap();
    assert_eq!(l().meets(&short, 9), Ok(Answer::No { visits: 3 }));
    assert_eq!(l().meets(&long, 9), Ok(Answer::Yes { visits: 2 }));
    assert_eq!(l().meets(&short, 2), Ok(Answer::Undecided { visits: 2 }));
}

#[test]
fn p9_to_p12_inside() {
    let s = square();
    assert_eq!(s.inside((2, 2), 9), Ok(Side::Inside { visits: 7 }));
    assert_eq!(s.inside((4, 2), 9), Ok(Side::On { visits: 4 }));
    assert_eq!(s.inside((5, 2), 9), Ok(Side::Outside { visits: 1 }));
    assert_eq!(s.inside((3, 1), 9), Ok(Side::Inside { visits: 5 }));
    assert_eq!(s.inside((2, 2), 6), Ok(Side::Undecided { visits: 6 }));
}

#[test]
fn points_where_other_tools_are_wrong() {
    let near = |from, to, z, d| Line::new(&[from, to]).unwrap().near(z, d, 9).unwrap();
    let boost = near((-12_782, 383), (-10_910, -1_255), (-12_526, 159), 0);
    assert_eq!(boost.decided(), Some(true));
    let geos = near((-50, 913), (6_515, 8_185), (4_922, 8_447), 1_358);
    assert_eq!(geos.decided(), Some(true));
    let geos = near((0, -16_383), (5_137, -16_382), (-1, -6_109), 10_274);
    assert_eq!(geos.decided(), Some(false));
}

#[test]
fn agreement_is_asked_both_ways() {
    let long = Line::new(&[(0, 0), (100, 0)]).unwrap();
    let stub = Line::new(&[(0, 0), (10, 0)]).unwrap();
    let no = |line| Agreement::No {
        line,
        point: 1,
        visits: if line == Name::A { 2 } else { 4 },
    };
    assert_eq!(long.agrees(&stub, 5, 9), Ok(no(Name::A)));
    assert_eq!(stub.agrees(&long, 5, 9), Ok(no(Name::B)));
    assert_eq!(
        stub.agrees(&long, 5, 3),
        Ok(Agreement::Undecided { visits: 3 })
    );
}

#[test]
fn coordinates_to_1000000() {
    assert!(Line::new(&[(1_000_000, -1_000_000), (-1_000_000, 1_000_000)]).is_ok());
    // The last four are on the sheet in their lower 32 bits.
    for off in [1_000_001, i64::MAX, 1 << 32, 5 << 40, i64::MIN, -(1 << 32)] {
        for off in [(off, 0), (0, off), (-1_000_001, 0), (0, -1_000_001)] {
            let refused = Line::new(&[(0, 0), off, off]).unwrap_err();
            assert_eq!(refused, refusal(4, A, 1), "{off:?}");
        }
    }
}

#[test]
fn points_to_4097() {
    let straight = |count: i64| -> Vec<(i64, i64)> { (0..count).map(|i| (i, 0)).collect() };
    let longest = Line::new(&straight(4_097)).unwrap();
    assert_eq!(longest.segments(), 4_096);
    assert_eq!(longest.table().len(), 90_101);
    assert_eq!(Line::new(&straight(4_098)).unwrap_err(), refusal(3, A, 0));
    assert_eq!(Line::new(&straight(1)).unwrap_err(), refusal(2, A, 0));
    assert_eq!(Line::new(&[]).unwrap_err(), refusal(2, A, 0));
    assert_eq!(
        Line::from_numbers(vec![0, 0, 1]).unwrap_err(),
        refusal(1, A, 0)
    );
}

#[test]
fn neighbours_after_all_coordinates() {
    assert_eq!(
        Line::new(&[(1, 1), (1, 1), (0, 1_000_001)]).unwrap_err(),
        refusal(4, A, 2)
    );
    assert_eq!(
        Line::new(&[(0, 0), (1, 1), (1, 1), (1, 1)]).unwrap_err(),
        refusal(5, A, 1)
    );
}

#[test]
fn a_table_of_33_serves_l_and_32_does_not() {
    let points = [0, 0, 4, 3, 8, 0];
    let mut table = [9; 34];
    assert_eq!(
        lent::build(&points, &mut table[..32]).built(),
        Err(refusal(6, A, 0))
    );
    assert_eq!(table, [9; 34], "a refused build writes nothing");
    assert_eq!(lent::build(&points, &mut table).built(), Ok(()));
    assert_eq!(table[33], 9, "numbers past the rows stay");
    assert_eq!(
        lent::near(&points, &table[..32], 4, 5, 2, 10).answer(),
        Err(refusal(6, A, 0))
    );
}

#[test]
fn rings_from_4_points() {
    let triangle = Line::new(&[(0, 0), (4, 0), (0, 4), (0, 0)]).unwrap();
    assert!(triangle.inside((1, 1), 9).is_ok());
    let there_and_back = Line::new(&[(0, 0), (4, 0), (0, 0)]).unwrap();
    assert_eq!(there_and_back.inside((1, 1), 9), Err(refusal(9, A, 0)));
    assert_eq!(l().inside((1, 1), 9), Err(refusal(9, A, 0)));
    assert_eq!(l().inside((1_000_001, 1), 9), Err(refusal(8, None, 0)));
}

#[test]
fn distances_to_2000000() {
    assert!(l().near((0, 0), 2_000_000, 9).is_ok());
    assert!(l().agrees(&l(), 2_000_000, 9).is_ok());
    for off in [2_000_001, -1, i64::MIN, i64::MAX, 1 << 32, -(1 << 32)] {
        assert_eq!(l().near((0, 1_000_001), off, 9), Err(refusal(7, None, 0)));
        assert_eq!(l().agrees(&l(), off, 9), Err(refusal(7, None, 0)));
    }
}

#[test]
fn asked_points_on_the_sheet() {
    assert!(l().near((1_000_000, -1_000_000), 0, 9).is_ok());
    for off in [
        1_000_001,
        -1_000_001,
        i64::MIN,
        i64::MAX,
        1 << 32,
        -(1 << 32),
    ] {
        for off in [(off, 0), (0, off)] {
            assert_eq!(l().near(off, 9, 9), Err(refusal(8, None, 0)), "{off:?}");
            assert_eq!(square().inside(off, 9), Err(refusal(8, None, 0)), "{off:?}");
        }
    }
}

/// The diagonal of the sheet, and its other corner: c² is 16·10^24, and D²·|u|² little less or more.
#[test]
fn the_sheets_diagonal() {
    let g = Line::new(&[(-1_000_000, -1_000_000), (1_000_000, 1_000_000)]).unwrap();
    let (low, high) = (-1_000_000, 1_000_000);
    let row = [0, 1, -1, 0, 0, 0, 8_000_000_000_000, low, high, low, high];
    assert_eq!(g.table(), row);
    for corner in [(high, low), (low, high)] {
        let near = |distance| g.near(corner, distance, 9);
        assert_eq!(near(1_414_213), Ok(Answer::No { visits: 1 }));
        assert_eq!(near(1_414_214), Ok(Answer::Yes { visits: 1 }));
        assert_eq!(near(2_000_000), Ok(Answer::Yes { visits: 1 }));
        assert_eq!(near(2_000_001), Err(refusal(7, None, 0)));
    }
    assert_eq!(g.near((1_000_001, 0), 0, 9), Err(refusal(8, None, 0)));
}

/// 1998000² + 1999² is 1998001²: c = D·|u| exactly, and one more and one less, which is half a millionth of a unit.
#[test]
fn exactly_that_far_is_within_where_squares_pass_64_bits() {
    let line = Line::new(&[(-999_000, -1_000), (999_000, 999)]).unwrap();
    let near = |point, distance| line.near(point, distance, 1).unwrap().decided();
    assert_eq!(near((-99_900, 899_000), 899_100), Some(true));
    assert_eq!(near((-99_900, 899_000), 899_099), Some(false));
    assert_eq!(near((-101_899, 898_998), 899_100), Some(false));
    assert_eq!(near((-97_901, 899_002), 899_100), Some(true));
}

#[test]
fn line_b_is_refused_as_b() {
    let (a, b) = (l(), [0, 0, 4]);
    let meet = |points: &[i64], table: &[i64]| {
        lent::meet(a.points(), a.table(), points, table, 9).answer()
    };
    assert_eq!(meet(&b, &[]), Err(refusal(1, B, 0)));
    assert_eq!(meet(&[], &[]), Err(refusal(2, B, 0)));
    assert_eq!(meet(&[1; 8_196], &[]), Err(refusal(3, B, 0)));
    assert_eq!(meet(a.points(), &[]), Err(refusal(6, B, 0)));
}

/// One number of L's table changed: refusal 10 at that row, on the visit that reads it.
#[test]
fn every_rule_for_rows_is_checked() {
    let (l, off) = (l(), 1_000_001);
    let changes = [
        (0, 1),
        (1, 1),
        (2, 0),
        (2, 2),
        (2, -1),
        (3, 1),
        (4, -1),
        (5, 1),
        (6, -1),
        (7, 9),
        (7, -off),
        (8, off),
        (9, 4),
        (9, -off),
        (10, off),
        (0, i64::MAX),
        (1, 2 + (1 << 32)),
        (2, i64::MIN),
        (3, i64::MAX),
        (4, i64::MIN),
        (5, i64::MAX),
        (6, i64::MIN),
        (7, i64::MIN),
        (8, i64::MAX),
    ];
    for (column, number) in changes {
        for (row, z, visits) in [(0, (0, 0), 1), (1, (0, 0), 2), (2, (8, 0), 3)] {
            // A leaf has no split: -1 is right there, and every other number is wrong.
            if column == 2 && row > 0 && number == -1 {
                continue;
            }
            // The second leaf begins at point 1.
            if (row, column, number) == (2, 0, 1) || (row, column, number) == (1, 1, 1) {
                continue;
            }
            let mut table = l.table().to_vec();
            table[ROW_WIDTH * row + column] = number;
            let refused = lent::near(l.points(), &table, z.0, z.1, 0, 9).answer();
            let expected = Refusal {
                visits,
                ..refusal(10, A, row)
            };
            assert_eq!(refused, Err(expected), "row {row}, column {column}");
        }
    }
}

#[test]
fn off_sheet_points_of_agree_are_named() {
    let (a, b) = (l(), [0, 0, 4, 3, 8, 1_000_001]);
    let agree = lent::agree(a.points(), a.table(), &b, a.table(), 9, 99).agreement();
    // B's root row is read for A's first point, and its last point is off the sheet.
    assert_eq!(
        agree,
        Err(Refusal {
            visits: 1,
            ..refusal(10, B, 0)
        })
    );
    let agree = lent::agree(&b, a.table(), a.points(), a.table(), 9, 99).agreement();
    let Err(refused) = agree else {
        panic!("{agree:?}");
    };
    assert_eq!((refused.number, refused.line, refused.place), (8, A, 2));
}

/// A side of a box may be anywhere on the sheet.
#[test]
fn a_box_that_reaches_past_the_sheet_is_bad() {
    let l = l();
    let mut table = l.table().to_vec();
    for (xmax, near) in [
        (16_384, Ok(Answer::Yes { visits: 2 })),
        (1_000_000, Ok(Answer::Yes { visits: 2 })),
        (
            1_000_001,
            Err(Refusal {
                visits: 1,
                ..refusal(10, A, 0)
            }),
        ),
    ] {
        table[8] = xmax;
        let answer = lent::near(l.points(), &table, 4, 5, 2, 10).answer();
        assert_eq!(answer, near, "xmax {xmax}");
    }
}

/// Strips as wide as 64 bits go hold every point: nothing wraps, and answers are those over the built table.
#[test]
fn no_subtraction_wraps() {
    let l = l();
    let near = |table: &[i64], (x, y), d| lent::near(l.points(), table, x, y, d, 9).answer();
    let mut table = l.table().to_vec();
    table[3] = i64::MIN;
    assert_eq!(near(&table, (4, -9), 1), Ok(Answer::No { visits: 3 }));
    for row in table.chunks_mut(ROW_WIDTH) {
        row[3..7].copy_from_slice(&[i64::MIN, i64::MAX, i64::MIN, i64::MAX]);
    }
    for z in [(4, -9), (4, 9), (-9, 0), (17, 0), (-1_000_000, 1_000_000)] {
        assert_eq!(near(&table, z, 1), Ok(Answer::No { visits: 3 }), "{z:?}");
    }
    assert_eq!(near(&table, (4, 5), 2), Ok(Answer::Yes { visits: 2 }));
    let meet = |y| {
        let b = Line::new(&[(4, 0), (4, y)]).unwrap();
        lent::meet(l.points(), &table, b.points(), b.table(), 9).answer()
    };
    assert_eq!(meet(2), Ok(Answer::No { visits: 3 }));
    assert_eq!(meet(3), Ok(Answer::Yes { visits: 2 }));
}

#[test]
fn rows_of_the_widest_numbers_have_an_answer_or_a_refusal() {
    let s = square();
    for at in 0..s.table().len() {
        for number in [i64::MIN, i64::MIN + 1, -(1 << 32), 1 << 32, i64::MAX] {
            let mut table = s.table().to_vec();
            table[at] = number;
            let (row, column) = (at / ROW_WIDTH, at % ROW_WIDTH);
            // A strip that is wider than its points is no fault.
            let wider = matches!((column, number < 0), (3 | 5, true) | (4 | 6, false));
            let side = lent::inside(s.points(), &table, 2, 2, 9).side();
            match side {
                Ok(side) => {
                    assert!(wider, "row {row}, column {column}, {number}");
                    assert_eq!(side, Side::Inside { visits: 7 });
                }
                Err(refused) => {
                    assert!(!wider, "row {row}, column {column}, {number}");
                    assert_eq!((refused.number, refused.place), (10, row));
                }
            }
        }
    }
}

/// L's table as 32-bit numbers, into 35 numbers that are all 5, and into 32.
#[test]
fn a_widened_table_is_the_built_one() {
    let old: Vec<i32> = l().table().iter().map(|&number| number as i32).collect();
    let mut wide = [5; 35];
    let short = lent::widen(&old, &mut wide[..32]).built();
    assert_eq!(short, Err(refusal(6, None, 0)));
    assert_eq!(wide, [5; 35], "a refused widening writes nothing");
    assert_eq!(lent::widen(&old, &mut wide).built(), Ok(()));
    assert_eq!(wide[..33], *l().table());
    assert_eq!(wide[33..], [5, 5], "numbers past the old ones stay");
    let near = lent::near(l().points(), &wide, 4, 5, 2, 10).answer();
    assert_eq!(near, Ok(Answer::Yes { visits: 2 }));
    assert_eq!(widen(&old), l().table());
}

/// What the old sheet holds is as it was: from corner to corner of it, |u|² still fits 32 bits.
#[test]
fn the_old_sheets_tables_fit_32_bits() {
    let line = Line::new(&[(-16_383, -16_383), (16_383, -16_383), (16_383, 16_383)]).unwrap();
    let narrow = |&number: &i64| i32::try_from(number).expect("it fits");
    let old: Vec<i32> = line.table().iter().map(narrow).collect();
    assert_eq!(old.iter().max(), Some(&2_147_221_512), "2 * 32,766²");
    assert_eq!(widen(&old), line.table());
}

#[test]
fn any_numbers_of_any_length_are_widened() {
    for length in [0, 1, 2, 3, 7, 33, 8_196, 90_102] {
        let number = |i: usize| match i % 4 {
            0 => i32::MIN,
            1 => i32::MAX,
            2 => -1,
            _ => i as i32,
        };
        let old: Vec<i32> = (0..length).map(number).collect();
        let expected: Vec<i64> = old.iter().copied().map(i64::from).collect();
        assert_eq!(widen(&old), expected);
        for past in [1, 5] {
            let mut wide = vec![i64::MIN; length + past];
            assert_eq!(lent::widen(&old, &mut wide).built(), Ok(()));
            assert_eq!(wide[..length], expected);
            assert_eq!(wide[length..], vec![i64::MIN; past]);
        }
        for fewer in (0..length).rev().take(3) {
            let mut wide = vec![i64::MAX; fewer];
            let refused = lent::widen(&old, &mut wide).built();
            assert_eq!(refused, Err(refusal(6, None, 0)));
            assert_eq!(wide, vec![i64::MAX; fewer]);
        }
    }
}

/// Each refusal that a call can give, with its sentence, as `cases/sentences.tsv` has them for all languages.
#[test]
fn refusals_are_sentences() {
    let sentences = include_str!("../../cases/sentences.tsv");
    let mut numbers = Vec::new();
    for row in sentences.lines().skip(1) {
        let fields: Vec<&str> = row.split('\t').collect();
        let [number, line, place, visits, sentence] = fields[..] else {
            panic!("not five fields: {row}");
        };
        let line = match line {
            "A" => A,
            "B" => B,
            _ => None,
        };
        let (number, place) = (number.parse().unwrap(), place.parse().unwrap());
        let said = Refusal {
            visits: visits.parse().unwrap(),
            ..refusal(number, line, place)
        };
        assert_eq!(said.to_string(), sentence);
        numbers.push(number);
    }
    numbers.dedup();
    assert_eq!(numbers, Vec::from_iter((1..=10).chain([21, 22])));
}

#[test]
fn enough_visits_decide_and_one_fewer_may_not() {
    let (a, b) = (l(), square());
    assert_eq!(a.enough_visits(), 3);
    assert_eq!(a.enough_to_meet(&b), 15);
    assert_eq!(a.enough_to_agree(&b), 3 * 7 + 5 * 3);
    let near = a.near((4, 0), 2, a.enough_visits()).unwrap();
    assert_eq!(near, Answer::No { visits: 3 });
    assert_eq!(a.near((4, 0), 2, 2).unwrap().decided(), None);
    assert!(a
        .meets(&b, a.enough_to_meet(&b))
        .unwrap()
        .decided()
        .is_some());
    let agreed = a.agrees(&b, 1, a.enough_to_agree(&b)).unwrap();
    assert!(agreed.decided().is_some());
}

#[test]
fn answers_are_sentences() {
    let said = |answer: Answer| answer.to_string();
    assert_eq!(said(Answer::Yes { visits: 2 }), "yes (visits: 2)");
    assert_eq!(
        said(Answer::Undecided { visits: 2 }),
        "undecided: more than 2 visits are needed"
    );
    let astray = Agreement::No {
        line: Name::B,
        point: 3,
        visits: 8,
    };
    assert_eq!(
        astray.to_string(),
        "no: point 3 of line B is not near the other line (visits: 8)"
    );
    assert_eq!(
        Side::On { visits: 4 }.to_string(),
        "on the ring (visits: 4)"
    );
}
