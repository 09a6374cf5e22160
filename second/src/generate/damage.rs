//! Numbers that our builder does not write: sound tables of other software, damaged tables, points off
//! the sheet. Some are what a program that is careless with 64 bits would take for something else.

use super::Random;
use crate::tree::{grow, ROW, SHEET};

/// Where 32 and 64 bits end, and the numbers beside.
const EXTREMES: [i64; 20] = [
    i64::MIN,
    i64::MIN + 1,
    i64::MIN + SHEET,
    i64::MAX,
    i64::MAX - 1,
    i64::MAX - SHEET,
    1 << 62,
    -(1 << 62),
    (1 << 62) - 1,
    -(1 << 62) - 1,
    1 << 32,
    -(1 << 32),
    (1 << 32) - 1,
    1 << 31,
    -(1 << 31),
    (1 << 31) - 1,
    -(1 << 31) - 1,
    1 << 43,
    -(1 << 43),
    3_037_000_500, // its square is the first above 2^63
];

/// A number in place of a true one.
pub fn foreign(random: &mut Random, number: i64) -> i64 {
    match random.between(0, 11) {
        0..=3 => random.pick(&EXTREMES),
        // The low 32 bits are those of the true number, or all but the sign.
        4 => number.wrapping_add(1 << 32),
        5 => number.wrapping_sub(1 << 32),
        6 => number.wrapping_add(i64::MIN),
        7 => number.wrapping_neg(),
        8 => number.wrapping_add(random.between(-2, 2)),
        9 => random.sign() * (SHEET + random.between(0, 1)),
        10 => random.between(-1, 4),
        _ => random.any() as i64,
    }
}

/// Damages one to three numbers of a table, now and then a whole row, all strips or all of it.
pub fn damage(random: &mut Random, table: &mut [i64]) {
    if table.is_empty() {
        return;
    }
    match random.between(0, 19) {
        0 => table.fill_with(|| random.any() as i64),
        1 => {
            let rows = table.chunks_mut(ROW).count() as i64;
            let row = random.between(0, rows - 1) as usize;
            for number in table.chunks_mut(ROW).nth(row).expect("a row of the table") {
                *number = foreign(random, *number);
            }
        }
        2 | 3 => damage_strips(random, table),
        _ => {
            for _ in 0..random.between(1, 3) {
                let at = random.between(0, table.len() as i64 - 1) as usize;
                table[at] = foreign(random, table[at]);
            }
        }
    }
}

/// Puts foreign numbers of the right sign in all strips: the rows stay good, and walks go on to the
/// leaves, but the strips need not hold the points.
fn damage_strips(random: &mut Random, table: &mut [i64]) {
    for row in table.chunks_exact_mut(ROW) {
        for pair in row[3..7].chunks_exact_mut(2) {
            pair[0] = foreign(random, pair[0]).min(0);
            pair[1] = foreign(random, pair[1]).max(0);
        }
    }
}

/// What a single damaged number becomes: one more or less, an end of 64 bits, one off the sheet, or 0.
#[derive(Clone, Copy, PartialEq, Eq, Debug)]
pub enum Damage {
    OneMore,
    OneLess,
    Least,
    Greatest,
    BeforeTheSheet,
    PastTheSheet,
    Zero,
}

impl Damage {
    /// Every kind once.
    pub const ALL: [Damage; 7] = [
        Damage::OneMore,
        Damage::OneLess,
        Damage::Least,
        Damage::Greatest,
        Damage::BeforeTheSheet,
        Damage::PastTheSheet,
        Damage::Zero,
    ];
}

/// Damages the one number in that row and column of a table.
pub fn damage_at(table: &mut [i64], row: usize, column: usize, damage: Damage) {
    let number = &mut table[ROW * row + column];
    *number = match damage {
        Damage::OneMore => number.wrapping_add(1),
        Damage::OneLess => number.wrapping_sub(1),
        Damage::Least => i64::MIN,
        Damage::Greatest => i64::MAX,
        Damage::BeforeTheSheet => -SHEET - 1,
        Damage::PastTheSheet => SHEET + 1,
        Damage::Zero => 0,
    };
}

/// Where a node from first to last splits.
type Splitter = fn(&mut Random, usize, usize) -> usize;

const SPLITTERS: [Splitter; 4] = [
    |random, first, last| random.between(first as i64 + 1, last as i64 - 1) as usize,
    |_, first, last| (first + last) / 2,
    |_, first, _| first + 1,
    |_, _, last| last - 1,
];

/// A sound table of a line that every build takes, as other software writes it: other splits, looser strips and boxes.
pub fn foreign_table(random: &mut Random, points: &[i64]) -> Vec<i64> {
    let splitter = random.pick(&SPLITTERS);
    let mut table = grow(points, |first, last, _| splitter(random, first, last));
    loosen(random, &mut table);
    table
}

/// Widens strips and boxes of a sound table. It stays sound: no answer changes, visits may.
pub fn loosen(random: &mut Random, table: &mut [i64]) {
    for row in table.chunks_exact_mut(ROW) {
        for pair in row[3..7].chunks_exact_mut(2) {
            if random.one_in(3) {
                pair[0] = pair[0].min(looser(random, pair[0], i64::MIN));
            }
            if random.one_in(3) {
                pair[1] = pair[1].max(looser(random, pair[1], i64::MAX));
            }
        }
        for side in row[7..].chunks_exact_mut(2) {
            if random.one_in(4) {
                let below = random.between(-SHEET, side[0]);
                side[0] = random.pick(&[side[0], below, -SHEET]);
            }
            if random.one_in(4) {
                let above = random.between(side[1], SHEET);
                side[1] = random.pick(&[side[1], above, SHEET]);
            }
        }
    }
}

/// A number for a strip: a little beside the one that is there, an extreme, or the end of all numbers.
fn looser(random: &mut Random, number: i64, end: i64) -> i64 {
    let beside = number.saturating_add(random.between(-9, 9));
    let extreme = random.pick(&EXTREMES);
    random.pick(&[beside, extreme, end])
}

/// Puts one or two coordinates of a line off the sheet, or nearly so.
pub fn stray(random: &mut Random, points: &mut [i64]) {
    if points.is_empty() {
        return;
    }
    for _ in 0..random.between(1, 2) {
        let at = random.between(0, points.len() as i64 - 1) as usize;
        points[at] = foreign(random, points[at]);
    }
}

#[cfg(test)]
mod tests {
    use super::*;
    use crate::check::check;
    use crate::generate::{asked_point, distance, least_distance, sound_line};
    use crate::geometry::{
        all_points, plain_astray, plain_meet, plain_near, plain_side, point, Name, Point, Side,
    };
    use crate::tree::{build, on_sheet, rows, Refusal};
    use crate::walk::{agree, meet, near, side, Answer, Outcome, Tree};

    #[derive(Debug)]
    struct Lent {
        points: Vec<i64>,
        table: Vec<i64>,
    }

    impl Lent {
        fn built(random: &mut Random) -> Lent {
            Lent::of(sound_line(random))
        }

        fn of(points: Vec<i64>) -> Lent {
            let mut table = vec![0; ROW * rows(points.len() / 2 - 1)];
            build(Name::A, &points, &mut table).expect("a sound line is built");
            Lent { points, table }
        }

        fn segments(&self) -> u32 {
            self.points.len() as u32 / 2 - 1
        }

        /// Puts another table in place: looser, with other splits, or damaged; all are accepted.
        fn exchange_table(&mut self, random: &mut Random) {
            match random.between(0, 2) {
                0 => loosen(random, &mut self.table),
                1 => self.table = foreign_table(random, &self.points),
                _ => self.table = self.damaged_yet_accepted(random),
            }
            assert_eq!(check(Name::A, &self.points, &self.table), Ok(()));
        }

        fn damaged_yet_accepted(&self, random: &mut Random) -> Vec<i64> {
            let mut damaged = (0..1_000).map(|_| {
                let mut table = self.table.clone();
                damage(random, &mut table);
                table
            });
            damaged
                .find(|table| check(Name::A, &self.points, table).is_ok())
                .expect("some damage only widens a strip")
        }

        fn tree(&self, name: Name) -> Tree<'_> {
            Tree {
                name,
                points: &self.points,
                table: &self.table,
            }
        }

        fn asked(&self, random: &mut Random) -> Point {
            let line: Vec<Point> = all_points(&self.points).collect();
            asked_point(random, &line)
        }
    }

    /// One answer to each question, NEAR, MEET, IN and AGREE, with an allowance for each.
    fn ask(a: &Lent, b: &Lent, z: Point, d: i64, allowed: [u32; 4]) -> [Outcome; 4] {
        let (a, b) = (a.tree(Name::A), b.tree(Name::B));
        [
            near(a, z, d, allowed[0]),
            meet(a, b, allowed[1]),
            side(a, z, allowed[2]),
            agree(a, b, d, allowed[3]),
        ]
    }

    /// The visits that always suffice.
    fn enough(a: &Lent, b: &Lent) -> [u32; 4] {
        let (n, m) = (a.segments(), b.segments());
        let point = 2 * n - 1;
        let both_ways = (n + 1) * (2 * m - 1) + (m + 1) * (2 * n - 1);
        [point, 2 * n * m - 1, point, both_ways]
    }

    /// The number of each refusal; nothing else may come of foreign numbers than an answer.
    fn refusals(random: &mut Random, a: &Lent, b: &Lent) -> Vec<u8> {
        let (z, d) = (a.asked(random), distance(random, 9));
        let z = Point {
            x: if random.one_in(9) {
                foreign(random, z.x)
            } else {
                z.x
            },
            y: z.y,
        };
        let d = if random.one_in(9) {
            foreign(random, d)
        } else {
            d
        };
        let mut numbers = vec![];
        for outcome in ask(a, b, z, d, [3_000; 4]) {
            assert!(outcome.visits <= 3_000);
            if let Answer::Refused(refusal) = outcome.answer {
                numbers.push(refusal.number);
            }
        }
        numbers
    }

    #[test]
    fn damaged_tables_have_an_answer_or_a_refusal_and_nothing_wraps() {
        let mut random = Random(1);
        let mut met = [0; 14];
        for _ in 0..3_000 {
            let (mut a, mut b) = (Lent::built(&mut random), Lent::built(&mut random));
            damage(&mut random, &mut a.table);
            if random.one_in(2) {
                damage(&mut random, &mut b.table);
            }
            for number in refusals(&mut random, &a, &b) {
                met[usize::from(number)] += 1;
            }
        }
        assert!(
            met[7] > 0 && met[8] > 0 && met[9] > 0 && met[10] > 1_000,
            "{met:?}"
        );
    }

    #[test]
    fn tables_of_random_numbers_are_refused_10_at_the_root() {
        let mut random = Random(5);
        let bad_root = Answer::Refused(Refusal {
            number: 10,
            line: Some(Name::A),
            place: 0,
        });
        for _ in 0..2_000 {
            let (mut a, b) = (Lent::built(&mut random), Lent::built(&mut random));
            a.table.fill_with(|| random.any() as i64);
            let (a, b) = (a.tree(Name::A), b.tree(Name::B));
            for outcome in [near(a, point(b.points, 0), 9, 1), meet(a, b, 1)] {
                assert_eq!((outcome.answer, outcome.visits), (bad_root, 1));
            }
        }
    }

    #[test]
    fn rows_with_any_strips_of_the_right_sign_stay_good() {
        let mut random = Random(6);
        for _ in 0..1_000 {
            let (mut a, mut b) = (Lent::built(&mut random), Lent::built(&mut random));
            damage_strips(&mut random, &mut a.table);
            damage_strips(&mut random, &mut b.table);
            for outcome in ask(&a, &b, point(&b.points, 0), 900_000, [3_000; 4]) {
                if let Answer::Refused(refusal) = outcome.answer {
                    assert_eq!(refusal.number, 9, "only a line that is no ring is refused");
                }
            }
        }
    }

    #[test]
    fn lines_that_were_never_built_have_an_answer_or_a_refusal_and_nothing_wraps() {
        let mut random = Random(2);
        let mut met = [0; 14];
        for _ in 0..3_000 {
            let (mut a, mut b) = (Lent::built(&mut random), Lent::built(&mut random));
            stray(&mut random, &mut a.points);
            if random.one_in(2) {
                stray(&mut random, &mut b.points);
            }
            for number in refusals(&mut random, &a, &b) {
                met[usize::from(number)] += 1;
            }
        }
        assert!(met[8] > 100 && met[10] > 1_000, "{met:?}");
    }

    #[test]
    fn strayed_points_are_refused_4_or_on_the_sheet() {
        let mut random = Random(3);
        for _ in 0..2_000 {
            let mut a = Lent::built(&mut random);
            stray(&mut random, &mut a.points);
            let off = a.points.iter().position(|v| !(-SHEET..=SHEET).contains(v));
            let built = build(Name::A, &a.points, &mut a.table);
            let refused_4 = built.err().filter(|refusal| refusal.number == 4);
            let place = refused_4.map(|refusal| refusal.place);
            assert_eq!(place, off.map(|at| at as u64 / 2), "{:?}", a.points);
        }
    }

    /// What plain geometry says to the four questions.
    fn plain(a: &[i64], b: &[i64], z: Point, d: i64) -> [Answer; 4] {
        let yes_or_no = |yes| if yes { Answer::Yes } else { Answer::No };
        [
            yes_or_no(plain_near(a, z, d)),
            yes_or_no(plain_meet(a, b)),
            match plain_side(a, z) {
                Side::Inside => Answer::Inside,
                Side::Outside => Answer::Outside,
                Side::On => Answer::On,
            },
            match plain_astray(a, b, d) {
                Some((name, index)) => Answer::NoAt(name, index),
                None => Answer::Yes,
            },
        ]
    }

    /// A distance that matters to NEAR.
    fn telling_distance(random: &mut Random, a: &Lent, z: Point) -> i64 {
        let least = if on_sheet(z) {
            least_distance(|d| plain_near(&a.points, z, d))
        } else {
            1
        };
        distance(random, least)
    }

    /// Often the same line as A, the other way round.
    fn beside(random: &mut Random, a: &Lent) -> Lent {
        if random.one_in(3) {
            return Lent::of(a.points.chunks(2).rev().flatten().copied().collect());
        }
        Lent::built(random)
    }

    #[test]
    fn accepted_tables_are_answered_by_plain_geometry_within_the_visits_that_suffice() {
        let mut random = Random(4);
        let (mut yes, mut no) = ([0; 4], [0; 4]);
        for _ in 0..3_000 {
            let mut a = Lent::built(&mut random);
            let mut b = beside(&mut random, &a);
            a.exchange_table(&mut random);
            b.exchange_table(&mut random);
            let z = a.asked(&mut random);
            let d = telling_distance(&mut random, &a, z);
            let said = ask(&a, &b, z, d, enough(&a, &b)).map(|outcome| outcome.answer);
            let plain = plain(&a.points, &b.points, z, d);
            for question in 0..4 {
                if let Answer::Refused(refusal) = said[question] {
                    assert!([7, 8, 9].contains(&refusal.number));
                    continue;
                }
                assert_eq!(said[question], plain[question], "{a:?} {b:?} {z:?} {d}");
                match said[question] {
                    Answer::No | Answer::NoAt(..) | Answer::Outside => no[question] += 1,
                    _ => yes[question] += 1,
                }
            }
        }
        let fewest = yes.into_iter().chain(no).min();
        assert!(fewest > Some(100), "{yes:?} {no:?}");
    }

    #[test]
    fn foreign_tables_split_otherwise_and_reach_to_the_edge_of_the_sheet_and_of_64_bits() {
        let mut random = Random(7);
        let (mut splits, mut edges, mut ends) = (0, 0, 0);
        for _ in 0..500 {
            let built = Lent::built(&mut random);
            let table = foreign_table(&mut random, &built.points);
            assert_eq!(table.len(), built.table.len());
            splits += u32::from(table[2] != built.table[2]);
            edges += u32::from(table[7] == -SHEET && built.table[7] > -SHEET);
            ends += u32::from(table[3] == i64::MIN) + u32::from(table[4] == i64::MAX);
        }
        let fewest = splits.min(edges).min(ends);
        assert!(fewest > 10, "{splits} {edges} {ends}");
    }

    #[test]
    fn damage_at_a_place_changes_that_number_alone() {
        let table = Lent::of(vec![0, 0, 4, 3, 8, 0]).table;
        let numbers = [25, 23, i64::MIN, i64::MAX, -1_000_001, 1_000_001, 0];
        for (kind, number) in Damage::ALL.into_iter().zip(numbers) {
            let mut damaged = table.clone();
            damage_at(&mut damaged, 0, 4, kind);
            assert_eq!(damaged[4], number);
            damaged[4] = 24;
            assert_eq!(damaged, table);
        }
    }
}
