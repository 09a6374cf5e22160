//! Shared by the tests: both readings of a call as one value that can be compared, lines made from a seed, and numbers
//! to damage them with.

use std::hint::black_box;

use kneukelboom::lent::{self, line, word, Reply};
use kneukelboom::SHEET;
use second::geometry::{plain_astray, plain_meet, plain_near, plain_side, Name, Point, Side};
use second::tree::{self, Refusal};
use second::walk::{self, Answer, Outcome, Tree};
use second::{check, old};

/// What a build or a widening says that wrote.
pub const WRITTEN: Reply = Reply {
    word: word::BUILT,
    visits: 0,
    number: 0,
    line: line::NO_LINE,
    place: 0,
};

/// What a check says that accepts: the same five zeros.
pub const ACCEPTED: Reply = WRITTEN;

/// The greatest allowance: it suffices for any two lines.
pub const ENOUGH: u32 = u32::MAX;

/// The second reading's outcome in the numbers of the proved library's reply.
pub fn in_numbers(outcome: Outcome) -> Reply {
    let plain = |word| Reply {
        word,
        visits: outcome.visits,
        number: 0,
        line: line::NO_LINE,
        place: 0,
    };
    match outcome.answer {
        Answer::Yes => plain(word::YES),
        Answer::No => plain(word::NO),
        Answer::Inside => plain(word::INSIDE),
        Answer::Outside => plain(word::OUTSIDE),
        Answer::On => plain(word::ON),
        Answer::Undecided => plain(word::UNDECIDED),
        Answer::NoAt(name, point) => Reply {
            line: line_of(Some(name)),
            place: point as u64,
            ..plain(word::NO)
        },
        Answer::Refused(refusal) => Reply {
            number: u32::from(refusal.number),
            line: line_of(refusal.line),
            place: refusal.place,
            ..plain(word::REFUSED)
        },
    }
}

fn line_of(name: Option<Name>) -> u32 {
    match name {
        None => line::NO_LINE,
        Some(Name::A) => line::LINE_A,
        Some(Name::B) => line::LINE_B,
    }
}

fn zeros_or_refused(said: Result<(), Refusal>) -> Reply {
    said.map_or_else(
        |refusal| in_numbers(Outcome::refused(refusal)),
        |()| WRITTEN,
    )
}

/// Builds by both readings, which must say and leave the same; gives the reply.
pub fn build(points: &[i64], table: &mut [i64]) -> Reply {
    let mut other = table.to_vec();
    let ours = lent::build(points, table);
    let theirs = zeros_or_refused(tree::build(Name::A, points, &mut other));
    assert_eq!(ours, theirs, "the build of {points:?}");
    assert_eq!(table, other, "the table of {points:?}");
    ours
}

/// Widens by both readings, which must say and leave the same; gives the reply.
pub fn widen(old: &[i32], new: &mut [i64]) -> Reply {
    let mut other = new.to_vec();
    let ours = lent::widen(old, new);
    let theirs = zeros_or_refused(old::widen(old, &mut other));
    assert_eq!(ours, theirs, "the widening of {old:?}");
    assert_eq!(new, other, "the widened numbers of {old:?}");
    ours
}

/// Points and a table, as both readings are lent them.
#[derive(Clone, PartialEq, Eq, Debug)]
pub struct Lent {
    pub points: Vec<i64>,
    pub table: Vec<i64>,
}

impl Lent {
    /// Built by both readings.
    pub fn built(points: &[i64]) -> Lent {
        let mut table = vec![-7; lent::table_len(points.len()) + 3];
        assert_eq!(build(points, &mut table), WRITTEN, "{points:?}");
        Lent {
            points: points.to_vec(),
            table,
        }
    }

    /// Segments of a line of at least two points.
    pub fn segments(&self) -> usize {
        self.points.len() / 2 - 1
    }

    pub fn rows(&self) -> usize {
        2 * self.segments() - 1
    }

    fn tree(&self, name: Name) -> Tree<'_> {
        Tree {
            name,
            points: &self.points,
            table: &self.table,
        }
    }
}

/// Checks by both readings, which must say the same and leave all numbers as they are; gives the reply.
pub fn check(a: &Lent) -> Reply {
    let before = a.clone();
    let ours = lent::check(&a.points, &a.table);
    // The archive is lent them to read, but could write: they are read again, whatever the compiler takes for granted.
    assert_eq!(black_box(a), &before, "a check wrote");
    let theirs = zeros_or_refused(check::check(Name::A, &a.points, &a.table));
    assert_eq!(ours, theirs, "the check of {a:?}");
    ours
}

/// Asks both readings and compares; gives the reply.
pub fn near(a: &Lent, x: i64, y: i64, d: i64, allowance: u32) -> Reply {
    let ours = lent::near(&a.points, &a.table, x, y, d, allowance);
    let theirs = walk::near(a.tree(Name::A), Point { x, y }, d, allowance);
    assert_eq!(
        ours,
        in_numbers(theirs),
        "NEAR {x} {y} {d} {allowance} of {a:?}"
    );
    ours
}

pub fn inside(a: &Lent, x: i64, y: i64, allowance: u32) -> Reply {
    let ours = lent::inside(&a.points, &a.table, x, y, allowance);
    let theirs = walk::side(a.tree(Name::A), Point { x, y }, allowance);
    assert_eq!(ours, in_numbers(theirs), "IN {x} {y} {allowance} of {a:?}");
    ours
}

pub fn meet(a: &Lent, b: &Lent, allowance: u32) -> Reply {
    let ours = lent::meet(&a.points, &a.table, &b.points, &b.table, allowance);
    let theirs = walk::meet(a.tree(Name::A), b.tree(Name::B), allowance);
    assert_eq!(
        ours,
        in_numbers(theirs),
        "MEET {allowance} of {a:?} and {b:?}"
    );
    ours
}

pub fn agree(a: &Lent, b: &Lent, d: i64, allowance: u32) -> Reply {
    let ours = lent::agree(&a.points, &a.table, &b.points, &b.table, d, allowance);
    let theirs = walk::agree(a.tree(Name::A), b.tree(Name::B), d, allowance);
    assert_eq!(
        ours,
        in_numbers(theirs),
        "AGREE {d} {allowance} of {a:?} and {b:?}"
    );
    ours
}

/// NEAR, IN, MEET and AGREE, with the greatest allowance. What is not refused must be plain geometry's answer.
pub fn ask_plainly(a: &Lent, b: &Lent, z: Point, d: i64) -> [Reply; 4] {
    let replies = [
        near(a, z.x, z.y, d, ENOUGH),
        inside(a, z.x, z.y, ENOUGH),
        meet(a, b, ENOUGH),
        agree(a, b, d, ENOUGH),
    ];
    let plain: [&dyn Fn() -> Answer; 4] = [
        &|| yes_or_no(plain_near(&a.points, z, d)),
        &|| side_of(plain_side(&a.points, z)),
        &|| yes_or_no(plain_meet(&a.points, &b.points)),
        &|| {
            plain_astray(&a.points, &b.points, d)
                .map_or(Answer::Yes, |(name, point)| Answer::NoAt(name, point))
        },
    ];
    for (reply, plain) in replies.iter().zip(plain) {
        if reply.word != word::REFUSED {
            let visits = reply.visits;
            let answer = plain();
            let told = in_numbers(Outcome { answer, visits });
            assert_eq!(*reply, told, "{z:?} {d} of {a:?} and {b:?}");
        }
    }
    replies
}

fn yes_or_no(yes: bool) -> Answer {
    if yes {
        Answer::Yes
    } else {
        Answer::No
    }
}

fn side_of(side: Side) -> Answer {
    match side {
        Side::Inside => Answer::Inside,
        Side::Outside => Answer::Outside,
        Side::On => Answer::On,
    }
}

/// Lines of one to four segments, rings among them, small and over the whole sheet.
pub fn small_lines() -> Vec<Lent> {
    [
        &[0, 0, 4, 3][..],
        &[0, 0, 4, 3, 8, 0],
        &[0, 0, 4, 0, 4, 4, 0, 0],
        &[0, 0, 4, 0, 4, 4, 0, 4, 0, 0],
        &[-SHEET, -SHEET, SHEET, SHEET, SHEET, -SHEET, -SHEET, SHEET],
        &[-SHEET, -SHEET, SHEET, -SHEET, 0, SHEET, -SHEET, -SHEET],
    ]
    .into_iter()
    .map(Lent::built)
    .collect()
}

/// Bad and odd numbers for a place that has this one: small ones, the limits, where 32 and 64 bits end, and such as
/// agree with it in some of their bits.
pub fn odd_values(there: i64) -> [i64; 32] {
    [
        -1,
        0,
        1,
        2,
        3,
        4,
        -2,
        7,
        SHEET,
        SHEET + 1,
        -SHEET,
        -SHEET - 1,
        i64::MIN,
        i64::MIN + 1,
        i64::MAX,
        1 << 31,
        (1 << 31) - 1,
        -(1 << 31),
        -(1 << 31) - 1,
        1 << 32,
        -(1 << 32),
        1 << 43,
        1 << 62,
        -(1 << 62),
        there.wrapping_add(1),
        there.wrapping_sub(1),
        there.wrapping_add(1 << 31),
        there.wrapping_add(1 << 32),
        there.wrapping_sub(1 << 32),
        there.wrapping_add(1 << 62),
        there.wrapping_add(i64::MIN),
        there.wrapping_neg(),
    ]
}

/// Numbers from a seed (splitmix64).
pub struct Dice(pub u64);

impl Dice {
    pub fn next(&mut self) -> u64 {
        self.0 = self.0.wrapping_add(0x9e37_79b9_7f4a_7c15);
        let mut z = self.0;
        z = (z ^ (z >> 30)).wrapping_mul(0xbf58_476d_1ce4_e5b9);
        z = (z ^ (z >> 27)).wrapping_mul(0x94d0_49bb_1331_11eb);
        z ^ (z >> 31)
    }

    /// From least to greatest, both taken in.
    pub fn within(&mut self, least: i64, greatest: i64) -> i64 {
        let span = greatest - least + 1;
        least + (self.next() % span as u64) as i64
    }

    pub fn one_of<T: Copy>(&mut self, choices: &[T]) -> T {
        choices[(self.next() % choices.len() as u64) as usize]
    }

    /// A line of so many segments inside a square of that half width, neighbours unequal.
    pub fn line(&mut self, segments: usize, half: i64) -> Vec<i64> {
        let mut points = vec![self.within(-half, half), self.within(-half, half)];
        while points.len() < 2 * segments + 2 {
            let (x, y) = (self.within(-half, half), self.within(-half, half));
            if points[points.len() - 2..] != [x, y] {
                points.extend([x, y]);
            }
        }
        points
    }

    /// A ring: its last point is its first.
    pub fn ring(&mut self, segments: usize, half: i64) -> Vec<i64> {
        loop {
            let mut points = self.line(segments - 1, half);
            let first = [points[0], points[1]];
            if points[points.len() - 2..] != first {
                points.extend(first);
                return points;
            }
        }
    }
}
