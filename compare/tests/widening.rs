//! Widening: each number as it is, at the front, or refused with nothing written; and what the old rules let a builder
//! write becomes what is built now.

use compare::{build, widen, Dice, Lent, WRITTEN};
use kneukelboom::lent::{line, table_len, word};
use kneukelboom::{MOST_POINTS, SHEET};
use second::geometry::Name;
use second::old::build_old;
use second::tree::OLD_SHEET;

/// Any 32-bit numbers, with a liking for the ends.
fn any_numbers(dice: &mut Dice, count: usize) -> Vec<i32> {
    let ends = [i32::MIN, i32::MIN + 1, -1, 0, 1, i32::MAX - 1, i32::MAX];
    (0..count)
        .map(|_| match dice.next() {
            n if n % 3 == 0 => dice.one_of(&ends),
            n => (n >> 32) as i32,
        })
        .collect()
}

#[test]
fn lists_of_any_lengths_are_widened_as_they_are_or_refused_6() {
    let mut dice = Dice(80);
    for round in 0..4_000 {
        let count = dice.within(0, if round % 10 == 0 { 3_000 } else { 40 }) as usize;
        let room = match round % 4 {
            0 => count,
            1 => count + dice.within(1, 20) as usize,
            2 => count.saturating_sub(dice.within(1, 3) as usize),
            _ => dice.within(0, 60) as usize,
        };
        let old = any_numbers(&mut dice, count);
        let before: Vec<i64> = (0..room).map(|_| dice.next() as i64).collect();
        let mut new = before.clone();
        let reply = widen(&old, &mut new);
        if room < count {
            assert_eq!((reply.word, reply.number), (word::REFUSED, 6));
            assert_eq!((reply.line, reply.place), (line::NO_LINE, 0));
            assert_eq!(new, before, "a refused widening wrote");
        } else {
            assert_eq!(reply, WRITTEN);
            let same = |(new, old): (&i64, &i32)| *new == i64::from(*old);
            assert!(new.iter().zip(&old).all(same));
            assert_eq!(new[count..], before[count..]);
        }
    }
}

#[test]
fn nothing_is_widened_into_nothing_and_one_number_is_not() {
    assert_eq!(widen(&[], &mut []), WRITTEN);
    assert_eq!(widen(&[], &mut [5]), WRITTEN);
    assert_eq!(widen(&[7], &mut []).number, 6);
}

/// Builds by the old rules into a table of so many numbers more than it needs, and widens points and table: it must be
/// what both readings build of the widened points.
fn widened_is_built(points: &[i32], more: usize) {
    let room = table_len(points.len()) + more;
    let mut old = vec![-9; room];
    let built_before = build_old(Name::A, points, &mut old);
    let mut wide = vec![0; points.len()];
    assert_eq!(widen(points, &mut wide), WRITTEN);
    let mut table = vec![1 << 40; room];
    assert_eq!(widen(&old, &mut table), WRITTEN);
    let mut built = vec![-9; room];
    let reply = build(&wide, &mut built);
    assert_eq!(reply == WRITTEN, built_before.is_ok(), "{points:?}");
    assert_eq!(table, built, "{points:?}");
}

fn narrow(points: Vec<i64>) -> Vec<i32> {
    points.into_iter().map(|number| number as i32).collect()
}

#[test]
fn a_table_built_by_the_old_rules_and_widened_is_the_one_that_is_built_now() {
    let mut dice = Dice(82);
    for round in 0..3_000 {
        let half = dice.one_of(&[1, 2, 5, 40, 1_000, OLD_SHEET]);
        let segments = if round % 100 == 0 {
            300
        } else {
            1 + (round % 24)
        };
        widened_is_built(&narrow(dice.line(segments, half)), round % 5);
        widened_is_built(&narrow(dice.ring(segments.max(3), half)), round % 5);
    }
    let most = dice.line(MOST_POINTS - 1, OLD_SHEET);
    widened_is_built(&narrow(most), 3);
}

#[test]
fn lines_that_the_old_rules_refused_for_their_points_stay_refused_on_the_old_sheet() {
    let mut dice = Dice(83);
    for round in 0..2_000 {
        let mut points = narrow(dice.line(2 + round % 9, OLD_SHEET));
        let at = 2 * dice.within(0, points.len() as i64 / 2 - 2) as usize;
        points.copy_within(at..at + 2, at + 2);
        widened_is_built(&points, 0);
    }
}

#[test]
fn a_line_past_the_old_sheet_is_widened_and_built() {
    let limit = SHEET as i32;
    for far in [16_384, -16_384, limit, -limit] {
        let points = [0, 0, far, 1, 4, far];
        let mut untouched = [7; 33];
        let refusal = build_old(Name::A, &points, &mut untouched).unwrap_err();
        assert_eq!((refusal.number, refusal.place), (4, 1));
        let mut wide = [0; 6];
        assert_eq!(widen(&points, &mut wide), WRITTEN);
        Lent::built(&wide);
    }
}
