//! The checker of tables from other software: is every row good, and does each hold its points?
//!
//! docs/RULES.md, section 2.9. The rules go from the root down, the left half before the right. That
//! is the order of the table: here the rows are taken as they stand, and no half's row is looked up.

use crate::geometry::{all_points, Name};
use crate::tree::{check_build, rows, Refusal, SHEET};
use crate::walk::{Node, Tree, View};

/// Accepts a line's table, whoever wrote it, or refuses by 1 to 6, 21 or 22. Nothing is written.
pub fn check(name: Name, points: &[i64], table: &[i64]) -> Result<(), Refusal> {
    check_build(name, points, SHEET, table.len())?;
    let lent = Tree {
        name,
        points,
        table,
    };
    let segments = points.len() / 2 - 1;
    // Leaves stand in the order of their segments: the node of a row begins where the last leaf ended.
    let mut first = 0;
    // Where the nodes end whose rows are still owed, the next row's at the back.
    let mut ends = vec![segments];
    for row in 0..rows(segments) {
        let last = ends
            .pop()
            .expect("k segments have 2k - 1 rows, however they split");
        let view = sound(lent, Node { row, first, last }).map_err(|number| Refusal {
            number,
            line: Some(name),
            place: row as u64,
        })?;
        match view.split {
            None => first = last,
            // The left half's row is the next, and the right half ends where its parent does.
            Some(split) => ends.extend([last, split]),
        }
    }
    Ok(())
}

/// The row of a node: 21 where it is not good, else 22 where it leaves out a point of the node.
fn sound(lent: Tree, node: Node) -> Result<View, u8> {
    let view = lent.view(node).ok_or(21)?;
    let mut run = all_points(&lent.points[2 * node.first..2 * node.last + 2]);
    if run.any(|p| view.clear_of(p)) {
        return Err(22);
    }
    Ok(view)
}

#[cfg(test)]
mod tests {
    use super::*;
    use crate::generate::{
        comb, damage, damage_at, foreign, foreign_table, sound_line, stray, Damage, Random,
    };
    use crate::geometry::Point;
    use crate::tree::{build, ROW};
    use crate::walk::{near, side, Answer, Outcome};

    const L: [i64; 6] = [0, 0, 4, 3, 8, 0];
    const SQUARE: [i64; 10] = [0, 0, 4, 0, 4, 4, 0, 4, 0, 0];
    /// A table of the square from other software: it splits at 1, then 2, then 3.
    const V: [i64; 77] = [
        0, 4, 1, 0, 4, 0, 4, 0, 4, 0, 4, // points 0 to 4
        0, 1, -1, 0, 0, 0, 16, 0, 4, 0, 0, // points 0 to 1
        1, 4, 2, -16, 0, 0, 16, 0, 4, 0, 4, // points 1 to 4
        1, 2, -1, 0, 0, 0, 16, 4, 4, 0, 4, // points 1 to 2
        2, 4, 3, -16, 0, 0, 32, 0, 4, 0, 4, // points 2 to 4
        2, 3, -1, 0, 0, 0, 16, 0, 4, 4, 4, // points 2 to 3
        3, 4, -1, 0, 0, 0, 16, 0, 0, 0, 4, // points 3 to 4
    ];
    const COLUMNS: [&str; ROW] = [
        "first", "last", "split", "cmin", "cmax", "tmin", "tmax", "xmin", "xmax", "ymin", "ymax",
    ];

    type Verdict = Result<(), Refusal>;

    const ACCEPTED: Verdict = Ok(());

    fn refused(number: u8, place: usize) -> Verdict {
        Err(Refusal {
            number,
            line: Some(Name::A),
            place: place as u64,
        })
    }

    fn built(points: &[i64]) -> Vec<i64> {
        let mut table = vec![0; ROW * rows(points.len() / 2 - 1)];
        build(Name::A, points, &mut table).expect("these points are sound");
        table
    }

    /// The table with changes as the figures write them: `row.column=value`, parted by spaces.
    fn changed(table: &[i64], changes: &str) -> Vec<i64> {
        let mut table = table.to_vec();
        for change in changes.split_whitespace() {
            let (place, value) = change.split_once('=').expect("row.column=value");
            let (row, column) = place.split_once('.').expect("row.column");
            let row: usize = row.parse().expect("a row");
            let column = COLUMNS.iter().position(|name| *name == column);
            table[ROW * row + column.expect("a column")] = value.parse().expect("a value");
        }
        table
    }

    fn l_with(changes: &str) -> Verdict {
        check(Name::A, &L, &changed(&built(&L), changes))
    }

    fn v_with(changes: &str) -> Verdict {
        check(Name::A, &SQUARE, &changed(&V, changes))
    }

    #[test]
    fn figure_7_1_wider_strips_and_boxes_are_accepted() {
        for changes in [
            "",
            "0.cmax=25",
            "0.xmax=16383",
            "0.xmax=1000000",
            "0.cmin=-2147483648 0.cmax=2147483647",
            "0.cmin=-9223372036854775808 0.cmax=9223372036854775807",
        ] {
            assert_eq!(l_with(changes), ACCEPTED, "{changes}");
        }
    }

    #[test]
    fn figure_7_2_row_that_leaves_out_a_point_is_22() {
        for changes in ["0.cmax=23", "0.ymin=1"] {
            assert_eq!(l_with(changes), refused(22, 0), "{changes}");
        }
    }

    #[test]
    fn figure_7_3_row_that_is_not_good_is_21_also_where_it_leaves_out_a_point() {
        for changes in ["0.cmin=1", "0.cmax=-1", "0.ymin=4", "0.xmax=1000001"] {
            assert_eq!(l_with(changes), refused(21, 0), "{changes}");
        }
    }

    #[test]
    fn figures_7_4_to_7_8_lowest_row_decides_and_in_one_row_21_comes_first() {
        for (changes, verdict) in [
            ("1.split=0", refused(21, 1)),
            ("2.first=0", refused(21, 2)),
            ("0.cmax=23 1.split=0", refused(22, 0)),
            ("0.split=2 0.cmax=23", refused(21, 0)),
            ("1.tmax=24 2.first=0", refused(22, 1)),
            ("2.xmax=7", refused(22, 2)),
        ] {
            assert_eq!(l_with(changes), verdict, "{changes}");
        }
    }

    #[test]
    fn figure_7_9_short_table_is_6_and_the_points_come_before_any_table() {
        assert_eq!(check(Name::A, &L, &built(&L)[..32]), refused(6, 0));
        let equal = [0, 0, 4, 3, 4, 3];
        for table in [&[][..], &[0; 32], &[7; 33], &built(&L)] {
            assert_eq!(check(Name::A, &equal, table), refused(5, 1));
        }
    }

    #[test]
    fn figures_7_10_and_7_12_table_with_other_splits_is_accepted_if_its_rows_fit_together() {
        assert_eq!(v_with(""), ACCEPTED);
        assert_eq!((V[2], built(&SQUARE)[2]), (1, 2));
        assert_eq!(v_with("2.cmin=-15"), refused(22, 2));
        assert_eq!(v_with("0.split=2"), refused(21, 1));
    }

    #[test]
    fn figure_7_11_answers_over_other_splits_are_the_same_and_visits_differ() {
        let lent = |table| Tree {
            name: Name::A,
            points: &SQUARE,
            table,
        };
        let says = |answer, visits| Outcome { answer, visits };
        let at = |x, y| Point { x, y };
        let by_v = |d| near(lent(&V), at(2, 2), d, 7);
        assert_eq!(by_v(2), says(Answer::Yes, 2));
        assert_eq!(by_v(1), says(Answer::No, 7));
        let inside = side(lent(&V), at(2, 2), 7);
        assert_eq!(inside, says(Answer::Inside, 7));
        assert_eq!(side(lent(&V), at(4, 2), 7), says(Answer::On, 4));
        let as_built = near(lent(&built(&SQUARE)), at(2, 2), 2, 7);
        assert_eq!(as_built, says(Answer::Yes, 3));
    }

    #[test]
    fn figure_8_5_box_beyond_the_old_sheet_is_accepted_and_beyond_the_sheet_21() {
        assert_eq!(l_with("0.xmax=16384"), ACCEPTED);
        assert_eq!(l_with("0.xmax=1000001"), refused(21, 0));
    }

    #[test]
    fn each_number_of_a_row_is_asked_for() {
        // Of row 1, points (0,0) (4,3): u = (4,3), so the strip is 0 0 0 25 and the box 0 4 0 3.
        for (change, number) in [
            ("1.first=1", 21),
            ("1.last=2", 21),
            ("1.split=1", 21),
            ("1.cmin=1", 21),
            ("1.cmax=-1", 21),
            ("1.tmin=1", 21),
            ("1.tmax=-1", 21),
            ("1.xmin=-1000001", 21),
            ("1.xmax=-1", 21),
            ("1.ymin=-1000001", 21),
            ("1.ymax=1000001", 21),
            ("1.tmax=24", 22),
            ("1.xmin=1", 22),
            ("1.xmax=3", 22),
            ("1.ymin=1", 22),
            ("1.ymax=2", 22),
        ] {
            assert_eq!(l_with(change), refused(number, 1), "{change}");
        }
        // c below and t below are told by a run that turns back: its second point is behind and to the right.
        let hook = [0, 0, -1, -2, 5, 0];
        for (change, verdict) in [
            ("0.cmin=-10", ACCEPTED),
            ("0.cmin=-9", refused(22, 0)),
            ("0.tmin=-5", ACCEPTED),
            ("0.tmin=-4", refused(22, 0)),
        ] {
            let table = changed(&built(&hook), change);
            assert_eq!(check(Name::A, &hook, &table), verdict, "{change}");
        }
    }

    /// A row as numbers that no sum or product can wrap.
    fn wide_row(table: &[i64], row: usize) -> [i128; ROW] {
        std::array::from_fn(|column| table[ROW * row + column].into())
    }

    fn wide_point(points: &[i64], index: i128) -> (i128, i128) {
        let at = 2 * index as usize;
        (points[at].into(), points[at + 1].into())
    }

    /// Section 5.4, told of a range first to last.
    fn is_good(points: &[i64], row: [i128; ROW], (first, last): (i128, i128)) -> bool {
        let [own_first, own_last, split, cmin, cmax, tmin, tmax, xmin, xmax, ymin, ymax] = row;
        let limit = 1_000_000;
        let (start, end) = (wide_point(points, first), wide_point(points, last));
        let off = |number: i128| number.abs() > limit;
        let wrong_split = match last - first {
            1 => split != -1,
            _ => split <= first || last <= split,
        };
        let bad = own_first != first
            || own_last != last
            || wrong_split
            || (cmin > 0 || tmin > 0 || cmax < 0 || tmax < 0)
            || (xmin > xmax || ymin > ymax)
            || [xmin, xmax, ymin, ymax].into_iter().any(off)
            || [start.0, start.1, end.0, end.1].into_iter().any(off)
            || (last - first == 1 && start == end);
        !bad
    }

    /// Do strip and box hold all points from first to last?
    fn holds_run(points: &[i64], row: [i128; ROW], (first, last): (i128, i128)) -> bool {
        let [_, _, _, cmin, cmax, tmin, tmax, xmin, xmax, ymin, ymax] = row;
        let (start, end) = (wide_point(points, first), wide_point(points, last));
        let (dx, dy) = match (end.0 - start.0, end.1 - start.1) {
            (0, 0) => (1, 0),
            step => step,
        };
        (first..=last).all(|index| {
            let (x, y) = wide_point(points, index);
            let c = dx * (y - start.1) - dy * (x - start.0);
            let t = dx * (x - start.0) + dy * (y - start.1);
            (cmin..=cmax).contains(&c)
                && (tmin..=tmax).contains(&t)
                && (xmin..=xmax).contains(&x)
                && (ymin..=ymax).contains(&y)
        })
    }

    /// The range that each row gets from its parent; none below a row that is not good.
    fn handed_down(points: &[i64], table: &[i64]) -> Vec<Option<(i128, i128)>> {
        let segments = points.len() / 2 - 1;
        let mut ranges = vec![None; rows(segments)];
        ranges[0] = Some((0, segments as i128));
        for row in 0..ranges.len() {
            let Some((first, last)) = ranges[row] else {
                continue;
            };
            let numbers = wide_row(table, row);
            if last - first > 1 && is_good(points, numbers, (first, last)) {
                let split = numbers[2];
                ranges[row + 1] = Some((first, split));
                ranges[row + 2 * (split - first) as usize] = Some((split, last));
            }
        }
        ranges
    }

    /// Every row at fault of those that have a range, with all of them asked.
    fn faults(points: &[i64], table: &[i64]) -> Vec<(usize, u8)> {
        let ranges = handed_down(points, table);
        let fault = |row: usize| {
            let (numbers, range) = (wide_row(table, row), ranges[row]?);
            if !is_good(points, numbers, range) {
                Some((row, 21))
            } else if !holds_run(points, numbers, range) {
                Some((row, 22))
            } else {
                None
            }
        };
        let faults: Vec<(usize, u8)> = (0..ranges.len()).filter_map(fault).collect();
        let whole = ranges.iter().all(Option::is_some);
        assert!(
            whole || !faults.is_empty(),
            "a row without a range is below a bad one"
        );
        faults
    }

    /// The same by recursion from a row, the left half before the right.
    fn first_fault(points: &[i64], table: &[i64], row: usize, range: (i128, i128)) -> Verdict {
        let numbers = wide_row(table, row);
        if !is_good(points, numbers, range) {
            return refused(21, row);
        }
        if !holds_run(points, numbers, range) {
            return refused(22, row);
        }
        let ((first, last), split) = (range, numbers[2]);
        if last - first == 1 {
            return ACCEPTED;
        }
        first_fault(points, table, row + 1, (first, split))?;
        let right = row + 2 * (split - first) as usize;
        first_fault(points, table, right, (split, last))
    }

    /// What the checker says, once all three statements and foreign numbers past the rows say the same.
    fn agreed(random: &mut Random, points: &[i64], table: &[i64]) -> Verdict {
        let verdict = check(Name::A, points, table);
        let lowest = faults(points, table).into_iter().min();
        let by_rows = lowest.map_or(ACCEPTED, |(row, number)| refused(number, row));
        assert_eq!(verdict, by_rows, "{points:?} {table:?}");
        let by_recursion = first_fault(points, table, 0, (0, points.len() as i128 / 2 - 1));
        assert_eq!(verdict, by_recursion, "{points:?} {table:?}");
        let past = (0..random.between(1, 40)).map(|_| foreign(random, 0));
        let longer = [table, &past.collect::<Vec<_>>()].concat();
        assert_eq!(
            check(Name::A, points, &longer),
            verdict,
            "{points:?} {longer:?}"
        );
        verdict
    }

    /// How often each verdict came: accepted, 21 and 22.
    #[derive(Default, Debug)]
    struct Met {
        accepted: u32,
        bad: u32,
        leaving_out: u32,
    }

    impl Met {
        fn count(&mut self, verdict: Verdict) {
            match verdict.map_err(|refusal| refusal.number) {
                Ok(()) => self.accepted += 1,
                Err(21) => self.bad += 1,
                Err(22) => self.leaving_out += 1,
                Err(other) => panic!("a line that is built is not refused {other}"),
            }
        }

        fn each_at_least(&self, times: u32) {
            let fewest = self.accepted.min(self.bad).min(self.leaving_out);
            assert!(fewest >= times, "{self:?}");
        }
    }

    /// A built table or one with other splits.
    fn any_table(random: &mut Random, points: &[i64]) -> Vec<i64> {
        if random.one_in(2) {
            built(points)
        } else {
            foreign_table(random, points)
        }
    }

    #[test]
    fn built_and_foreign_tables_are_accepted() {
        let mut random = Random(1);
        for _ in 0..1_000 {
            let points = sound_line(&mut random);
            assert_eq!(agreed(&mut random, &points, &built(&points)), ACCEPTED);
            let table = foreign_table(&mut random, &points);
            assert_eq!(agreed(&mut random, &points, &table), ACCEPTED);
        }
    }

    #[test]
    fn one_damaged_number_is_accepted_exactly_where_all_rows_still_hold() {
        let mut random = Random(2);
        let mut met = Met::default();
        for _ in 0..300 {
            let points = sound_line(&mut random);
            let table = any_table(&mut random, &points);
            let last_row = table.len() / ROW - 1;
            let inner_row = random.between(0, last_row as i64) as usize;
            for row in [0, inner_row, last_row] {
                for column in 0..ROW {
                    for kind in Damage::ALL {
                        let mut table = table.clone();
                        damage_at(&mut table, row, column, kind);
                        met.count(agreed(&mut random, &points, &table));
                    }
                }
            }
        }
        met.each_at_least(5_000);
    }

    #[test]
    fn lowest_row_is_named_whatever_two_numbers_of_a_table_are_damaged() {
        let mut random = Random(3);
        let mut met = Met::default();
        // An open line of three segments, and a closed one.
        for points in [[0, 0, 2, 1, 4, 3, 8, 0], [0, 0, 4, 1, 1, 4, 0, 0]] {
            let table = built(&points);
            let places = 0..table.len();
            let damages = || {
                places
                    .clone()
                    .flat_map(|at| Damage::ALL.map(|kind| (at, kind)))
            };
            for (at, kind) in damages() {
                for (other_at, other_kind) in damages().filter(|&(other_at, _)| at < other_at) {
                    let mut table = table.clone();
                    damage_at(&mut table, at / ROW, at % ROW, kind);
                    damage_at(&mut table, other_at / ROW, other_at % ROW, other_kind);
                    met.count(agreed(&mut random, &points, &table));
                }
            }
        }
        met.each_at_least(5_000);
    }

    #[test]
    fn tables_damaged_in_any_way_are_judged_alike_by_rows_and_by_recursion() {
        let mut random = Random(4);
        let mut met = Met::default();
        for _ in 0..20_000 {
            let points = sound_line(&mut random);
            let mut table = any_table(&mut random, &points);
            damage(&mut random, &mut table);
            met.count(agreed(&mut random, &points, &table));
        }
        met.each_at_least(1_000);
    }

    #[test]
    fn trees_of_4096_levels_are_checked_to_their_last_row() {
        let mut random = Random(6);
        let to_the_right = comb(4_097);
        let to_the_left: Vec<i64> = to_the_right.chunks(2).rev().flatten().copied().collect();
        for (points, split) in [(to_the_right, 1), (to_the_left, 4_095)] {
            for _ in 0..8 {
                let table = foreign_table(&mut random, &points);
                assert_eq!(check(Name::A, &points, &table), ACCEPTED);
            }
            let mut table = built(&points);
            assert_eq!(table[2], split);
            assert_eq!(check(Name::A, &points, &table), ACCEPTED);
            let last = rows(4_096) - 1;
            damage_at(&mut table, last, 6, Damage::OneLess);
            assert_eq!(check(Name::A, &points, &table), refused(22, last));
            damage_at(&mut table, last, 6, Damage::Least);
            assert_eq!(check(Name::A, &points, &table), refused(21, last));
            assert_eq!(faults(&points, &table), [(last, 21)]);
        }
    }

    #[test]
    fn points_and_length_are_refused_as_a_build_refuses_them_before_any_row() {
        let far = 1_000_001;
        let all_wrong = [0, 0, 0, 0, far, 0];
        assert_eq!(check(Name::A, &[0, 0, far], &[]), refused(1, 0));
        assert_eq!(check(Name::A, &[], &[]), refused(2, 0));
        assert_eq!(check(Name::A, &[far, far], &[]), refused(2, 0));
        assert_eq!(check(Name::A, &[0; 2 * 4_098], &[]), refused(3, 0));
        assert_eq!(check(Name::A, &all_wrong, &[]), refused(4, 2));
        assert_eq!(check(Name::A, &all_wrong[..4], &[]), refused(5, 0));
        for length in 0..33 {
            assert_eq!(check(Name::A, &L, &vec![far; length]), refused(6, 0));
        }
        for length in [33, 34, 43, 44, 99] {
            assert_eq!(check(Name::A, &L, &vec![far; length]), refused(21, 0));
        }
    }

    #[test]
    fn any_points_and_any_length_of_a_table_are_refused_as_by_a_build() {
        let mut random = Random(5);
        for _ in 0..5_000 {
            let mut points = sound_line(&mut random);
            let mut table = any_table(&mut random, &points);
            stray(&mut random, &mut points);
            if random.one_in(3) {
                points.truncate(random.between(0, points.len() as i64) as usize);
            }
            if random.one_in(3) {
                table.truncate(random.between(0, table.len() as i64) as usize);
            }
            let verdict = check(Name::A, &points, &table);
            match build(Name::A, &points, &mut table.clone()) {
                Ok(()) => assert_eq!(verdict, agreed(&mut random, &points, &table)),
                refused => assert_eq!(verdict, refused, "{points:?}"),
            }
        }
    }

    #[test]
    fn line_that_is_named_is_the_one_that_is_asked_about() {
        let of_b = |number| {
            Err(Refusal {
                number,
                line: Some(Name::B),
                place: 0,
            })
        };
        assert_eq!(check(Name::B, &L, &[0; 32]), of_b(6));
        assert_eq!(check(Name::B, &L, &[7; 33]), of_b(21));
        let table = changed(&built(&L), "0.cmax=23");
        assert_eq!(check(Name::B, &L, &table), of_b(22));
    }
}
