//! The same calls over lent slices: no heap, nothing copied, any table.
//!
//! For those who keep points and tables in memory of their own. Points lie as x, y, x, y. Every call takes
//! every input: damaged or foreign tables get refusal 10 where a row that is read is bad. [`crate::Line`] is
//! the same with vectors of its own. [`widen`] takes points and tables that were stored as 32-bit numbers.
//!
//! The answers are plain geometry's over a table that [`build`] wrote, or that [`check`] accepted, for these points,
//! and that nobody changed since. No question finds out a table from elsewhere whose rows look good, but whose strips
//! or boxes leave points out, and a no or an outside over it can be false: check it first.
//!
//! How deep a lent table goes is not known, so room on the stack is asked for the deepest that its line can have:
//! [Threads and stack](crate#threads-and-stack).
//!
//! ```
//! use kneukelboom::{lent, Answer};
//!
//! let points = [0, 0, 4, 3, 8, 0];
//! let mut table = [0; lent::table_len(6)];
//! lent::build(&points, &mut table).built()?;
//! let near = lent::near(&points, &table, 4, 5, 2, 10).answer()?;
//! assert_eq!(near, Answer::Yes { visits: 2 });
//!
//! table[0] = 7; // the first row now says that it begins at point 7
//! let refusal = lent::near(&points, &table, 4, 5, 2, 10).answer().unwrap_err();
//! assert_eq!(refusal.to_string(), "refused 10: row 0 of the table of line A is bad (visit 1)");
//! # Ok::<(), kneukelboom::Refusal>(())
//! ```

use crate::answer::{Agreement, Answer, Side};
use crate::refusal::{Name, Refusal};
use crate::{ffi, room, ROW_WIDTH};

/// The words of a [`Reply`], as in `kneukelboom.h`.
pub mod word {
    /// `build`: the table is written; `widen`: the numbers are.
    pub const BUILT: u32 = 0;
    /// `check`: the table is sound for these points.
    pub const ACCEPTED: u32 = 0;
    /// `near`, `meet`, `agree`.
    pub const YES: u32 = 1;
    /// `near`, `meet`, `agree`.
    pub const NO: u32 = 2;
    /// `inside`.
    pub const INSIDE: u32 = 3;
    /// `inside`.
    pub const OUTSIDE: u32 = 4;
    /// `inside`: the point is on the ring itself.
    pub const ON: u32 = 5;
    /// Any question: more visits are needed than were allowed.
    pub const UNDECIDED: u32 = 6;
    /// Any call: the number says why.
    pub const REFUSED: u32 = 7;
}

/// The lines of a [`Reply`], as in `kneukelboom.h`.
pub mod line {
    /// None is named.
    pub const NO_LINE: u32 = 0;
    /// The first line of a call, or its only one.
    pub const LINE_A: u32 = 1;
    /// The second line of `meet` and `agree`.
    pub const LINE_B: u32 = 2;
}

/// How many numbers the table of a line needs whose points are so many numbers: 2n-1 rows for n segments.
pub const fn table_len(points_len: usize) -> usize {
    if points_len < 4 {
        0
    } else {
        ROW_WIDTH * (points_len - 3)
    }
}

/// Levels that the tree of a line can have: no more than its points.
fn levels(points: &[i64]) -> usize {
    points.len() / 2
}

/// Writes the table of a line: built, or refused and nothing is written. A table needs [`table_len`] numbers; those
/// past them stay unchanged.
///
/// # Panics
/// If a thread is needed and cannot be started: [Threads and stack](crate#threads-and-stack).
#[inline]
pub fn build(points: &[i64], table: &mut [i64]) -> Reply {
    let need = room::build(levels(points));
    room::with!(need, ffi::build(points, table))
}

/// Writes each of the old numbers, points or a table of 32 bits as version 1 of the library had them, to the front of
/// the wide ones: [`built`](Reply::built), or refused 6 and nothing is written, where fewer wide numbers are lent. Any
/// lengths and any numbers; wide numbers past the old ones stay unchanged.
///
/// A table that version 1 built, widened, is number by number the one that [`build`] writes for the widened points.
///
/// ```
/// use kneukelboom::lent;
///
/// let old: [i32; 11] = [0, 1, -1, 0, 0, 0, 25, 0, 4, 0, 3];
/// let mut wide = [5; 12];
/// lent::widen(&old, &mut wide).built()?;
/// let mut built = [5; 12];
/// lent::build(&[0, 0, 4, 3], &mut built).built()?;
/// assert_eq!(wide, built);
///
/// let refusal = lent::widen(&old, &mut wide[..10]).built().unwrap_err();
/// assert_eq!((refusal.number, refusal.line), (6, None));
/// # Ok::<(), kneukelboom::Refusal>(())
/// ```
#[inline]
pub fn widen(old: &[i32], wide: &mut [i64]) -> Reply {
    ffi::widen(old, wide)
}

/// Is a table sound for these points, whoever wrote it? [`accepted`](Reply::accepted), or refused by the first fault.
///
/// Refusals 1 to 6 come first, as of [`build`]; then each row in the table's order: 21 where it is not good for the
/// range of points that falls to it, 22 where its strip or box leaves out a point of that range. A split may be any
/// inner point; a strip or box may be wider than its points need, a box up to the sheet's edge. Numbers past the rows
/// are not looked at.
///
/// ```
/// use kneukelboom::{lent, Answer, Refusal};
///
/// let points = [0, 0, 4, 3, 8, 0];
/// let mut table = [
///     0, 2, 1, -1, 24, 0, 64, 0, 9, 0, 3, // a strip and a box that are wider than built ones
///     0, 1, -1, 0, 0, 0, 25, 0, 4, 0, 3,
///     1, 2, -1, 0, 0, 0, 25, 4, 8, 0, 3,
/// ];
/// lent::check(&points, &table).accepted()?;
/// let near = lent::near(&points, &table, 4, 5, 2, 10).answer()?;
/// assert_eq!(near, Answer::Yes { visits: 2 });
///
/// table[4] = 23; // the strip leaves out (4, 3): the answer is false, and the checker tells
/// let near = lent::near(&points, &table, 4, 5, 2, 10).answer()?;
/// assert_eq!(near, Answer::No { visits: 1 });
/// let refusal = lent::check(&points, &table).accepted().unwrap_err();
/// assert_eq!((refusal.number, refusal.place), (Refusal::POINT_LEFT_OUT, 0));
/// # Ok::<(), kneukelboom::Refusal>(())
/// ```
///
/// # Panics
/// If a thread is needed and cannot be started: [Threads and stack](crate#threads-and-stack).
#[inline]
pub fn check(points: &[i64], table: &[i64]) -> Reply {
    let need = room::build(levels(points));
    room::with!(need, ffi::check(points, table))
}

/// Is (x, y) within the distance of some segment of the line?
///
/// # Panics
/// If a thread is needed and cannot be started: [Threads and stack](crate#threads-and-stack).
#[inline]
pub fn near(points: &[i64], table: &[i64], x: i64, y: i64, distance: i64, allowance: u32) -> Reply {
    let need = room::walk(levels(points));
    room::with!(need, ffi::near(points, table, x, y, distance, allowance))
}

/// On which side of a ring is (x, y)?
///
/// # Panics
/// If a thread is needed and cannot be started: [Threads and stack](crate#threads-and-stack).
#[inline]
pub fn inside(points: &[i64], table: &[i64], x: i64, y: i64, allowance: u32) -> Reply {
    let need = room::walk(levels(points));
    room::with!(need, ffi::inside(points, table, x, y, allowance))
}

/// Do two lines share a point?
///
/// # Panics
/// If a thread is needed and cannot be started: [Threads and stack](crate#threads-and-stack).
#[inline]
pub fn meet(
    points_a: &[i64],
    table_a: &[i64],
    points_b: &[i64],
    table_b: &[i64],
    allowance: u32,
) -> Reply {
    let need = room::meet(levels(points_a) + levels(points_b));
    room::with!(
        need,
        ffi::meet(points_a, table_a, points_b, table_b, allowance)
    )
}

/// Is each point of either line within the distance of the other line?
///
/// # Panics
/// If a thread is needed and cannot be started: [Threads and stack](crate#threads-and-stack).
#[inline]
pub fn agree(
    points_a: &[i64],
    table_a: &[i64],
    points_b: &[i64],
    table_b: &[i64],
    distance: i64,
    allowance: u32,
) -> Reply {
    let need = room::walk(levels(points_a).max(levels(points_b)));
    room::with!(
        need,
        ffi::agree(points_a, table_a, points_b, table_b, distance, allowance)
    )
}

/// What a call answers, in plain numbers; the methods read it as an enum.
#[repr(C)]
#[derive(Clone, Copy, PartialEq, Eq, Debug)]
pub struct Reply {
    /// One of [`word`].
    pub word: u32,
    /// Visits made; with undecided, the allowance; 0 where a refusal comes before the walk.
    pub visits: u32,
    /// Of the refusal, or 0.
    pub number: u32,
    /// One of [`mod@line`].
    pub line: u32,
    /// Of the refusal, or the point of agree's no, or 0.
    pub place: u64,
}

impl Reply {
    /// Of [`build`] and [`widen`].
    ///
    /// # Panics
    /// If this is the reply of a question.
    pub fn built(self) -> Result<(), Refusal> {
        match self.decided()? {
            word::BUILT => Ok(()),
            other => unreachable!("build and widen do not say word {other}"),
        }
    }

    /// Of [`check`].
    ///
    /// # Panics
    /// If this is the reply of a question.
    pub fn accepted(self) -> Result<(), Refusal> {
        match self.decided()? {
            word::ACCEPTED => Ok(()),
            other => unreachable!("check does not say word {other}"),
        }
    }

    /// Of [`near`] and [`meet`].
    ///
    /// # Panics
    /// If this is the reply of another call.
    pub fn answer(self) -> Result<Answer, Refusal> {
        let visits = self.visits;
        Ok(match self.decided()? {
            word::YES => Answer::Yes { visits },
            word::NO => Answer::No { visits },
            word::UNDECIDED => Answer::Undecided { visits },
            other => unreachable!("near and meet do not say word {other}"),
        })
    }

    /// Of [`inside`].
    ///
    /// # Panics
    /// If this is the reply of another call.
    pub fn side(self) -> Result<Side, Refusal> {
        let visits = self.visits;
        Ok(match self.decided()? {
            word::INSIDE => Side::Inside { visits },
            word::OUTSIDE => Side::Outside { visits },
            word::ON => Side::On { visits },
            word::UNDECIDED => Side::Undecided { visits },
            other => unreachable!("inside does not say word {other}"),
        })
    }

    /// Of [`agree`].
    ///
    /// # Panics
    /// If this is the reply of another call.
    pub fn agreement(self) -> Result<Agreement, Refusal> {
        let visits = self.visits;
        Ok(match (self.decided()?, self.name()) {
            (word::YES, _) => Agreement::Yes { visits },
            (word::NO, Some(line)) => Agreement::No {
                line,
                point: self.place as usize,
                visits,
            },
            (word::UNDECIDED, _) => Agreement::Undecided { visits },
            (other, line) => unreachable!("agree does not say word {other}, line {line:?}"),
        })
    }

    /// The word, unless it is a refusal.
    fn decided(self) -> Result<u32, Refusal> {
        if self.word != word::REFUSED {
            return Ok(self.word);
        }
        Err(Refusal {
            number: self.number,
            line: self.name(),
            place: self.place as usize,
            visits: self.visits,
        })
    }

    fn name(self) -> Option<Name> {
        match self.line {
            line::LINE_A => Some(Name::A),
            line::LINE_B => Some(Name::B),
            _ => None,
        }
    }
}
