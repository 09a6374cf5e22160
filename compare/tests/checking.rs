//! The checker: what was built, and sound tables of other software, are accepted; all else gets the refusal and the row
//! that the second reading tells. Where the damage is planned, this file tells them too: what it knows of a built table
//! is that each number of strip and box is that of some point, so that one less leaves it out.

use compare::{build, check, odd_values, small_lines, Dice, Lent, ACCEPTED, WRITTEN};
use kneukelboom::lent::{line, table_len, word, Reply};
use kneukelboom::{MOST_POINTS, ROW_WIDTH, SHEET};
use second::generate::{
    comb, damage, damage_at, foreign, foreign_table, loosen, sound_line, stray, Damage, Random,
};
use second::tree::OLD_SHEET;

const BAD: u32 = 21;
const LEAVES_OUT: u32 = 22;

fn refused(number: u32, row: usize) -> Reply {
    Reply {
        word: word::REFUSED,
        visits: 0,
        number,
        line: line::LINE_A,
        place: row as u64,
    }
}

/// A line with a sound table of other software.
fn of_other_software(random: &mut Random, points: &[i64]) -> Lent {
    Lent {
        points: points.to_vec(),
        table: foreign_table(random, points),
    }
}

/// A line of some shape, built or with a table of other software.
fn any_sound(random: &mut Random) -> Lent {
    let points = sound_line(random);
    if random.one_in(2) {
        Lent::built(&points)
    } else {
        of_other_software(random, &points)
    }
}

/// The same line with one number of its table changed.
fn with(lent: &Lent, row: usize, column: usize, value: i64) -> Lent {
    let mut changed = lent.clone();
    changed.table[ROW_WIDTH * row + column] = value;
    changed
}

/// What the checks of a test came to: how many of each, and of the refusals in which row.
#[derive(Default, Debug)]
struct Seen {
    accepted: u32,
    bad: Rows,
    leaves_out: Rows,
}

#[derive(Default, Debug)]
struct Rows {
    first: u32,
    inner: u32,
    last: u32,
}

impl Rows {
    fn count(&mut self, row: usize, of: usize) {
        match row {
            0 => self.first += 1,
            _ if row + 1 == of => self.last += 1,
            _ => self.inner += 1,
        }
    }

    fn fewest(&self) -> u32 {
        self.first.min(self.inner).min(self.last)
    }
}

impl Seen {
    /// Checks a line that is built: what can come of it is no other refusal than 21 and 22.
    fn check(&mut self, lent: &Lent) -> Reply {
        let reply = check(lent);
        let row = reply.place as usize;
        match reply.number {
            0 => {
                assert_eq!(reply, ACCEPTED);
                self.accepted += 1;
            }
            number => {
                assert_eq!(reply, refused(number, row));
                assert!(row < lent.rows(), "row {row} of {lent:?}");
                let rows = match number {
                    BAD => &mut self.bad,
                    LEAVES_OUT => &mut self.leaves_out,
                    other => panic!("{other} of {lent:?}"),
                };
                rows.count(row, lent.rows());
            }
        }
        reply
    }

    /// What no checker comes to that always says the same, or looks at some rows alone.
    fn each_at_least(&self, times: u32) {
        let fewest = self.bad.fewest().min(self.leaves_out.fewest());
        assert!(fewest.min(self.accepted) >= times, "{self:?}");
    }
}

// ---- accepted

#[test]
fn built_tables_of_every_shape_are_accepted() {
    let mut random = Random(70);
    for _ in 0..3_000 {
        assert_eq!(check(&Lent::built(&sound_line(&mut random))), ACCEPTED);
    }
    let mut dice = Dice(70);
    for round in 0..1_000 {
        let half = dice.one_of(&[1, 2, 5, 40, 1_000, OLD_SHEET, SHEET]);
        let line = dice.line(1 + round % 24, half);
        assert_eq!(check(&Lent::built(&line)), ACCEPTED);
        let ring = dice.ring(3 + round % 24, half);
        assert_eq!(check(&Lent::built(&ring)), ACCEPTED);
    }
}

#[test]
fn sound_tables_of_other_software_are_accepted() {
    let mut random = Random(71);
    // how many split elsewhere than the builder, have a box to the sheet's edge, a strip to the ends of 64 bits
    let (mut splits, mut edges, mut ends) = (0, 0, 0);
    for _ in 0..3_000 {
        let mut lent = Lent::built(&sound_line(&mut random));
        let other = of_other_software(&mut random, &lent.points);
        assert_eq!(check(&other), ACCEPTED);
        let line_ends_before = lent.table[7] > -SHEET;
        splits += u32::from(column(&other, 2) != column(&lent, 2));
        edges += u32::from(line_ends_before && column(&other, 7).contains(&-SHEET));
        ends += u32::from(column(&other, 3).contains(&i64::MIN));
        ends += u32::from(column(&other, 6).contains(&i64::MAX));
        loosen(&mut random, &mut lent.table);
        assert_eq!(check(&lent), ACCEPTED);
    }
    let met = [splits, edges, ends];
    assert!(met.iter().all(|&times| times > 500), "{met:?}");
}

/// The numbers of one column, row by row.
fn column(lent: &Lent, column: usize) -> Vec<i64> {
    let rows = lent.table.chunks_exact(ROW_WIDTH);
    rows.map(|row| row[column]).collect()
}

/// As deep as the line is long, to either side, and as wide as a line can be.
fn largest_lines() -> [Vec<i64>; 3] {
    let comb = comb(MOST_POINTS);
    let back = comb.chunks_exact(2).rev().flatten().copied().collect();
    [comb, back, Dice(72).line(MOST_POINTS - 1, SHEET)]
}

#[test]
fn lines_of_4097_points_are_accepted_and_their_last_row_is_checked() {
    let mut random = Random(72);
    for points in largest_lines() {
        let built = Lent::built(&points);
        assert_eq!(check(&built), ACCEPTED);
        for _ in 0..2 {
            assert_eq!(check(&of_other_software(&mut random, &points)), ACCEPTED);
        }
        let last = built.rows() - 1;
        assert_eq!(check(&with(&built, last, 2, 0)), refused(BAD, last));
        // t of the line's last point is the square of a length, and above 0
        assert_eq!(check(&with(&built, last, 6, 0)), refused(LEAVES_OUT, last));
    }
}

#[test]
fn a_line_of_4098_points_is_refused_3() {
    let lent = Lent {
        points: comb(MOST_POINTS + 1),
        table: vec![0; table_len(2 * MOST_POINTS + 2)],
    };
    assert_eq!(check(&lent), refused(3, 0));
}

#[test]
fn numbers_past_the_rows_are_not_looked_at() {
    let mut random = Random(73);
    for _ in 0..2_000 {
        let mut lent = any_sound(&mut random);
        lent.table.truncate(table_len(lent.points.len()));
        if random.one_in(2) {
            damage(&mut random, &mut lent.table);
        }
        let reply = check(&lent);
        let more = random.between(1, 40) as usize;
        lent.table
            .extend((0..more).map(|_| foreign(&mut random, -1)));
        assert_eq!(check(&lent), reply);
    }
}

// ---- damage that is planned

/// Columns, and the numbers by which a built row that stays good is one unit too tight for some point of its run.
fn tighter(row: &[i64]) -> Vec<(usize, i64)> {
    let mut changes = vec![];
    for (least, greatest) in [(3, 4), (5, 6), (7, 8), (9, 10)] {
        // a good strip has 0 in it; a good box does not end before it begins
        let is_strip = least < 7;
        let wide = row[least] < row[greatest];
        let may_rise = if is_strip { row[least] < 0 } else { wide };
        let may_fall = if is_strip { row[greatest] > 0 } else { wide };
        changes.extend(may_rise.then_some((least, row[least] + 1)));
        changes.extend(may_fall.then_some((greatest, row[greatest] - 1)));
    }
    changes
}

/// Columns, and the numbers by which a row of a sound table is bad: each rule that a row can break, and just so.
fn bad_numbers(row: &[i64]) -> Vec<(usize, i64)> {
    let (first, last) = (row[0], row[1]);
    let mut changes = vec![
        (0, first + 1),
        (0, first - 1),
        (1, last + 1),
        (1, last - 1),
        (2, first),
        (2, last),
        (2, last + 1),
        (2, -2),
        (3, 1),
        (4, -1),
        (5, 1),
        (6, -1),
    ];
    let is_leaf = last - first == 1;
    changes.extend((!is_leaf).then_some((2, -1)));
    for (least, greatest) in [(7, 8), (9, 10)] {
        changes.extend([
            (least, row[greatest] + 1),
            (greatest, row[least] - 1),
            (least, -SHEET - 1),
            (greatest, SHEET + 1),
        ]);
    }
    changes
}

fn faults(number: u32, row: &[i64]) -> Vec<(usize, i64)> {
    match number {
        BAD => bad_numbers(row),
        _ => tighter(row),
    }
}

/// Built lines: the small ones, and so many of any shape.
fn built_lines(random: &mut Random, count: usize) -> Vec<Lent> {
    let mut lines = small_lines();
    lines.extend((0..count).map(|_| Lent::built(&sound_line(random))));
    lines
}

fn row_of(lent: &Lent, row: usize) -> &[i64] {
    &lent.table[ROW_WIDTH * row..][..ROW_WIDTH]
}

#[test]
fn a_row_that_breaks_a_rule_is_21_and_one_that_is_a_unit_too_tight_22() {
    let mut random = Random(74);
    for lent in built_lines(&mut random, 15) {
        for row in 0..lent.rows() {
            for number in [BAD, LEAVES_OUT] {
                for (column, value) in faults(number, row_of(&lent, row)) {
                    let damaged = with(&lent, row, column, value);
                    assert_eq!(check(&damaged), refused(number, row), "column {column}");
                }
            }
        }
    }
}

#[test]
fn a_split_moved_to_another_inner_point_is_21_at_the_next_row() {
    let mut random = Random(75);
    for lent in built_lines(&mut random, 100) {
        for row in 0..lent.rows() {
            let &[first, last, split, ..] = row_of(&lent, row) else {
                panic!("a row has {ROW_WIDTH} numbers");
            };
            for inner in [first + 1, split - 1, split + 1, last - 1] {
                if first < inner && inner < last && inner != split {
                    let moved = with(&lent, row, 2, inner);
                    assert_eq!(check(&moved), refused(BAD, row + 1));
                }
            }
        }
    }
}

/// The same line with some fault of that number in a row.
fn at_fault(random: &mut Random, lent: &Lent, row: usize, number: u32) -> Lent {
    let (column, value) = random.pick(&faults(number, row_of(lent, row)));
    with(lent, row, column, value)
}

#[test]
fn of_two_rows_at_fault_the_lower_decides() {
    let mut random = Random(76);
    for lent in built_lines(&mut random, 1_500) {
        let last = lent.rows() as i64 - 1;
        if last == 0 {
            continue;
        }
        for number in [BAD, LEAVES_OUT] {
            for other in [BAD, LEAVES_OUT] {
                let row = random.between(0, last - 1);
                let higher = random.between(row + 1, last) as usize;
                let damaged = at_fault(&mut random, &lent, row as usize, number);
                let damaged = at_fault(&mut random, &damaged, higher, other);
                let lowest = refused(number, row as usize);
                assert_eq!(check(&damaged), lowest, "{other} at row {higher}");
            }
        }
    }
}

#[test]
fn a_row_that_is_bad_and_leaves_a_point_out_is_21() {
    let mut random = Random(77);
    for lent in built_lines(&mut random, 100) {
        for row in 0..lent.rows() {
            let leaves_out = at_fault(&mut random, &lent, row, LEAVES_OUT);
            let both = at_fault(&mut random, &leaves_out, row, BAD);
            assert_eq!(check(&both), refused(BAD, row));
        }
    }
}

// ---- any damage

#[test]
fn every_number_of_small_tables_set_to_odd_values() {
    let mut random = Random(78);
    let mut seen = Seen::default();
    for lent in small_lines() {
        let others = [(); 6].map(|()| of_other_software(&mut random, &lent.points));
        for lent in [lent].iter().chain(&others) {
            for at in 0..ROW_WIDTH * lent.rows() {
                for value in odd_values(lent.table[at]) {
                    seen.check(&with(lent, at / ROW_WIDTH, at % ROW_WIDTH, value));
                }
            }
        }
    }
    seen.each_at_least(500);
}

/// The test that a checker which accepts all, refuses all or looks at some rows alone cannot pass.
#[test]
fn one_number_of_the_first_an_inner_and_the_last_row() {
    let mut random = Random(79);
    let mut seen = Seen::default();
    for _ in 0..150 {
        let lent = any_sound(&mut random);
        let last = lent.rows() - 1;
        let inner = random.between(last.min(1) as i64, (last as i64 - 1).max(0)) as usize;
        for row in [0, inner, last] {
            for column in 0..ROW_WIDTH {
                for value in odd_values(lent.table[ROW_WIDTH * row + column]) {
                    seen.check(&with(&lent, row, column, value));
                }
            }
        }
    }
    seen.each_at_least(2_000);
}

#[test]
fn any_two_numbers_of_small_tables() {
    let mut seen = Seen::default();
    for lent in small_lines() {
        let numbers = ROW_WIDTH * lent.rows();
        let damages = || (0..numbers).flat_map(|at| Damage::ALL.map(|kind| (at, kind)));
        for (at, kind) in damages() {
            for (other, also) in damages().filter(|&(other, _)| at < other) {
                let mut damaged = lent.clone();
                for (at, kind) in [(at, kind), (other, also)] {
                    damage_at(&mut damaged.table, at / ROW_WIDTH, at % ROW_WIDTH, kind);
                }
                seen.check(&damaged);
            }
        }
    }
    seen.each_at_least(2_000);
}

#[test]
fn tables_damaged_in_any_way() {
    let mut random = Random(80);
    let mut seen = Seen::default();
    for _ in 0..20_000 {
        let mut lent = any_sound(&mut random);
        damage(&mut random, &mut lent.table);
        seen.check(&lent);
    }
    seen.each_at_least(10);
}

#[test]
fn rows_in_the_place_of_others() {
    let mut random = Random(81);
    for round in 0..4_000 {
        let mut lent = any_sound(&mut random);
        let numbers = ROW_WIDTH * lent.rows();
        let mut row = || ROW_WIDTH * random.between(0, lent.rows() as i64 - 1) as usize;
        let (to, from) = (row(), row());
        match round % 4 {
            0 => lent.table.copy_within(from..from + ROW_WIDTH, to),
            1 => lent.table[..numbers].rotate_left(from),
            2 => lent.table[..numbers].rotate_left(1),
            _ => lent.table[..numbers].reverse(),
        }
        check(&lent);
    }
}

#[test]
fn tables_of_one_number_and_of_any_numbers_are_21_at_the_root() {
    let mut random = Random(82);
    for round in 0..2_000 {
        let mut lent = any_sound(&mut random);
        if round % 2 == 0 {
            let number = foreign(&mut random, 0);
            lent.table.fill(number);
        } else {
            lent.table.fill_with(|| random.any() as i64);
        }
        assert_eq!(check(&lent), refused(BAD, 0));
    }
}

// ---- other points

#[test]
fn tables_of_other_lines() {
    let mut dice = Dice(82);
    let mut seen = Seen::default();
    for round in 0..3_000 {
        let half = dice.one_of(&[1, 2, 9, 1_000, SHEET]);
        let mut line = |segments| Lent::built(&dice.line(segments, half)).table;
        let segments = 1 + round % 9;
        let (as_long, longer) = (line(segments), line(segments + 1));
        let points = dice.line(segments, half);
        for (table, told) in [(as_long, None), (longer, Some(refused(BAD, 0)))] {
            let points = points.clone();
            let reply = seen.check(&Lent { points, table });
            assert_eq!(told.unwrap_or(reply), reply);
        }
    }
    let Rows { first, inner, .. } = seen.leaves_out;
    assert!(seen.accepted.min(first).min(inner) > 20, "{seen:?}");
}

#[test]
fn points_moved_after_the_table_was_made() {
    let mut random = Random(83);
    let mut seen = [0; 23];
    for _ in 0..6_000 {
        let mut lent = any_sound(&mut random);
        let at = random.between(0, lent.points.len() as i64 - 1) as usize;
        lent.points[at] += random.pick(&[-100, -2, -1, 1, 2, 100]);
        seen[refused_as_a_build(&lent).number as usize] += 1;
    }
    assert!(seen[0].min(seen[LEAVES_OUT as usize]) > 500, "{seen:?}");
}

/// The refusals 1 to 6 are those of a build, with line and place; where it is not refused, only 21 and 22 are left.
fn refused_as_a_build(lent: &Lent) -> Reply {
    let built = build(&lent.points, &mut lent.table.clone());
    let checked = check(lent);
    if built == WRITTEN {
        assert!(
            [0, BAD, LEAVES_OUT].contains(&checked.number),
            "{checked:?}"
        );
    } else {
        assert_eq!(checked, built, "{lent:?}");
    }
    checked
}

#[test]
fn points_and_lengths_are_refused_as_by_a_build() {
    let mut random = Random(84);
    let mut seen = [0; 23];
    for _ in 0..6_000 {
        let mut lent = any_sound(&mut random);
        match random.between(0, 5) {
            0 => stray(&mut random, &mut lent.points),
            1 => {
                let at = 2 * random.between(0, lent.segments() as i64 - 1) as usize;
                lent.points.copy_within(at..at + 2, at + 2);
            }
            2 => damage(&mut random, &mut lent.table),
            _ => {}
        }
        if random.one_in(4) {
            lent.points
                .truncate(random.between(0, lent.points.len() as i64) as usize);
        }
        if random.one_in(4) {
            lent.table
                .truncate(random.between(0, lent.table.len() as i64) as usize);
        }
        seen[refused_as_a_build(&lent).number as usize] += 1;
    }
    let met = [0, 1, 2, 4, 5, 6, 21, 22].map(|number| seen[number]);
    assert!(met.iter().all(|&times| times > 20), "{met:?}");
}
