//! Verified strip trees over whole-number lines.
//!
//! A [`Line`] is a list of points in sheet units of 1/16 metre with its strip tree. It is asked whether a point
//! is near it, whether it meets another line, whether a point lies inside it, and whether it agrees with
//! another line. The code behind each answer is proved, for every input: a no is said only where plain
//! geometry over all the original segments says no, and a search that runs out of its allowance of visits
//! says [`Answer::Undecided`], never no.
//!
//! ```
//! use kneukelboom::{Agreement, Answer, Line, Name};
//!
//! let sketch = Line::new(&[(0, 0), (160, 120), (320, 0), (480, 0), (640, 0)])?;
//! let survey = Line::new(&[(0, 10), (160, 130), (320, 10)])?;
//!
//! // Within a metre of the sketch?
//! assert_eq!(sketch.near((160, 130), 16, 100)?, Answer::Yes { visits: 2 });
//! // One visit does not settle it.
//! assert_eq!(sketch.near((160, 130), 16, 1)?, Answer::Undecided { visits: 1 });
//!
//! // Agreement is asked both ways: the survey lies along the sketch, but reaches only half of it.
//! assert_eq!(
//!     sketch.agrees(&survey, 16, sketch.enough_to_agree(&survey))?,
//!     Agreement::No { line: Name::A, point: 3, visits: 8 },
//! );
//! # Ok::<(), kneukelboom::Refusal>(())
//! ```
//!
//! What is refused prints as a sentence:
//!
//! ```
//! # use kneukelboom::Line;
//! let line = Line::new(&[(0, 0), (4, 3), (8, 0)])?;
//! let refusal = line.near((4, 5), 2_000_001, 9).unwrap_err();
//! assert_eq!(refusal.to_string(), "refused 7: the distance is not from 0 to 2,000,000");
//! # Ok::<(), kneukelboom::Refusal>(())
//! ```
//!
//! [`lent`] has the same calls over slices that the caller lends: no heap, nothing copied. [`Line::with_table`] takes a
//! table that other software wrote, and checks it. [`widen`] takes points and tables that version 1 of the library
//! stored, in 32-bit numbers.
//!
//! # Threads and stack
//!
//! Lines may be asked from several threads at once. No call overflows a stack: what each can need is known before it is
//! made, and where that is more than the running thread has left, it is made on a thread of its own, which is started
//! and joined within the call. The answer is the same, some tens of microseconds later. A call that needs a thread
//! which cannot be started panics.
//!
//! The need goes by the levels of the tree. Those of a [`Line`] are counted when it is built or its table is accepted:
//! the tree of a survey has some tens, and its questions need some kilobytes; combs and spirals of 4,097 points, and
//! whatever other software splits next to an end, can have 4,096, and need up to some megabytes. Building, checking,
//! and all of [`lent`], reckon with a level for each point. The README has the figures.
//!
//! Of the running thread's stack an eighth, and at least 16 KB, is left free. On a stack that is not the thread's own
//! (a coroutine's) nothing is known of the room, and every call is made on a thread of its own. To start that takes
//! some 2 KB of the caller's stack (unoptimised 6), as any call has its frame.
#![deny(unsafe_code)]
#![deny(missing_docs)]

use std::fmt;
use std::hash::{Hash, Hasher};

// Tests of this crate's own share shapes with those beside it, which know it by its name.
#[cfg(test)]
extern crate self as kneukelboom;

mod answer;
#[allow(unsafe_code)]
mod ffi;
pub mod lent;
mod points;
mod refusal;
mod room;

pub use answer::{Agreement, Answer, PlainSide, Side};
pub use points::Points;
pub use refusal::{Name, Refusal};

/// The examples of the README are tests too.
#[cfg(doctest)]
#[doc = include_str!("../README.md")]
struct Readme;

/// Points of a line: at least 2 ..
pub const FEWEST_POINTS: usize = 2;
/// .. and at most 4,097.
pub const MOST_POINTS: usize = 4_097;
/// Coordinates are -1,000,000 to 1,000,000.
pub const SHEET: i64 = 1_000_000;
/// Distances are 0 to 2,000,000.
pub const FARTHEST: i64 = 2_000_000;
/// Numbers of a table row.
pub const ROW_WIDTH: usize = 11;

/// The archive that was linked.
#[doc(hidden)]
pub const ARCHIVE: &str = env!("KNEUKELBOOM_ARCHIVE");

/// A line with its strip tree.
///
/// Only lines whose table was built, or checked and accepted, exist, so the questions refuse no more than a distance
/// (7), an asked point (8) or a line that is no ring (9). Lines are equal, and hash the same, where their points are,
/// whatever their tables: with enough visits allowed, they answer the same. The visits can differ where a table was not
/// built, for a walk follows the splits of its table.
#[derive(Clone)]
pub struct Line {
    /// x, y, x, y
    points: Vec<i64>,
    table: Vec<i64>,
    /// Of the tree: how many rows lie on its longest way down.
    levels: usize,
}

impl Line {
    /// A line through these points, with its tree.
    ///
    /// Refused are fewer than 2 or more than 4,097 points, a coordinate off the sheet, and neighbours that are equal.
    ///
    /// ```
    /// # use kneukelboom::Line;
    /// let refusal = Line::new(&[(0, 0), (4, 3), (4, 3)]).unwrap_err();
    /// assert_eq!((refusal.number, refusal.place), (5, 1));
    /// assert_eq!(refusal.to_string(), "refused 5: points 1 and 2 of line A are equal");
    /// ```
    ///
    /// # Panics
    /// If a thread is needed and cannot be started: [Threads and stack](crate#threads-and-stack).
    pub fn new(points: &[(i64, i64)]) -> Result<Line, Refusal> {
        Line::from_points(points.iter().copied())
    }

    /// The same from whatever gives points, of 64-bit coordinates or of narrower ones. (`collect` cannot refuse, so a
    /// line is no `FromIterator`.)
    ///
    /// ```
    /// # use kneukelboom::Line;
    /// let metres = [(0, 0), (10, 7), (20, 0)];
    /// let line = Line::from_points(metres.iter().map(|(x, y)| (16 * x, 16 * y)))?;
    /// assert_eq!(line, Line::new(&[(0, 0), (160, 112), (320, 0)])?);
    /// let narrow: Vec<(i32, i32)> = vec![(0, 0), (160, 112), (320, 0)];
    /// assert_eq!(line, Line::from_points(narrow)?);
    /// # Ok::<(), kneukelboom::Refusal>(())
    /// ```
    ///
    /// # Panics
    /// If a thread is needed and cannot be started: [Threads and stack](crate#threads-and-stack).
    pub fn from_points<N: Into<i64>>(
        points: impl IntoIterator<Item = (N, N)>,
    ) -> Result<Line, Refusal> {
        // One point too many is refused whatever follows it: no need to read on.
        let read = points.into_iter().take(MOST_POINTS + 1);
        Line::from_numbers(read.flat_map(|(x, y)| [x.into(), y.into()]).collect())
    }

    /// The same from coordinates x, y, x, y; the vector is kept, not copied.
    ///
    /// ```
    /// # use kneukelboom::Line;
    /// assert_eq!(Line::from_numbers(vec![0, 0, 4, 3])?, Line::new(&[(0, 0), (4, 3)])?);
    /// assert_eq!(Line::from_numbers(vec![0, 0, 4]).unwrap_err().number, 1);
    /// # Ok::<(), kneukelboom::Refusal>(())
    /// ```
    ///
    /// # Panics
    /// If a thread is needed and cannot be started: [Threads and stack](crate#threads-and-stack).
    pub fn from_numbers(points: Vec<i64>) -> Result<Line, Refusal> {
        // A line that is too long is refused before its table is looked at: no need for the room.
        let most = lent::table_len(2 * MOST_POINTS);
        let mut table = vec![0; lent::table_len(points.len()).min(most)];
        lent::build(&points, &mut table).built()?;
        Ok(Line::sound(points, table))
    }

    /// A line from coordinates x, y, x, y and a table that other software wrote, or that was stored: checked, and then
    /// asked as it is. The vectors are kept, not copied; numbers past the table's rows are dropped.
    ///
    /// Refused are points as by [`from_numbers`](Line::from_numbers), a table that is too short (6), a row that is not
    /// good for the range of points that falls to it (21), and one whose strip or box leaves out a point of that range
    /// (22). [`lent::check`] checks alone, and leaves points and table where they are.
    ///
    /// ```
    /// use kneukelboom::{Line, Side};
    ///
    /// let square = vec![0, 0, 4, 0, 4, 4, 0, 4, 0, 0];
    /// let mut table = vec![
    ///     0, 4, 1, 0, 4, 0, 4, 0, 4, 0, 4, // it splits at point 1, where the builder splits at 2
    ///     0, 1, -1, 0, 0, 0, 16, 0, 4, 0, 0,
    ///     1, 4, 2, -16, 0, 0, 16, 0, 4, 0, 4,
    ///     1, 2, -1, 0, 0, 0, 16, 4, 4, 0, 4,
    ///     2, 4, 3, -16, 0, 0, 32, 0, 4, 0, 4,
    ///     2, 3, -1, 0, 0, 0, 16, 0, 4, 4, 4,
    ///     3, 4, -1, 0, 0, 0, 16, 0, 0, 0, 4,
    /// ];
    /// let line = Line::with_table(square.clone(), table.clone())?;
    /// assert_eq!(line, Line::from_numbers(square.clone())?);
    /// assert_eq!(line.inside((2, 4), 9)?, Side::On { visits: 6 });
    ///
    /// table[25] = -15; // the strip of row 2 is too narrow for the points (4, 4) and (0, 4)
    /// let refusal = Line::with_table(square, table).unwrap_err();
    /// let sentence = "refused 22: row 2 of the table of line A leaves out a point of its run";
    /// assert_eq!(refusal.to_string(), sentence);
    /// # Ok::<(), kneukelboom::Refusal>(())
    /// ```
    ///
    /// # Panics
    /// If a thread is needed and cannot be started: [Threads and stack](crate#threads-and-stack).
    pub fn with_table(points: Vec<i64>, mut table: Vec<i64>) -> Result<Line, Refusal> {
        lent::check(&points, &table).accepted()?;
        table.truncate(lent::table_len(points.len()));
        Ok(Line::sound(points, table))
    }

    /// Of points and just the rows of a table that was built or accepted for them.
    fn sound(points: Vec<i64>, table: Vec<i64>) -> Line {
        let levels = levels(&table);
        Line {
            points,
            table,
            levels,
        }
    }

    /// The coordinates, x, y, x, y.
    pub fn points(&self) -> &[i64] {
        &self.points
    }

    /// The points, in order.
    ///
    /// ```
    /// # use kneukelboom::Line;
    /// let line = Line::new(&[(0, 0), (4, 3), (8, 0)])?;
    /// assert_eq!(line.iter().len(), 3);
    /// let back: Vec<(i64, i64)> = line.iter().rev().collect();
    /// assert_eq!(back, [(8, 0), (4, 3), (0, 0)]);
    /// let highest = (&line).into_iter().map(|(_, y)| y).max();
    /// assert_eq!(highest, Some(3));
    /// # Ok::<(), kneukelboom::Refusal>(())
    /// ```
    pub fn iter(&self) -> Points<'_> {
        Points::new(&self.points)
    }

    /// The rows of the tree in preorder, [`ROW_WIDTH`] numbers each.
    pub fn table(&self) -> &[i64] {
        &self.table
    }

    /// n, one less than the points.
    pub fn segments(&self) -> usize {
        self.points.len() / 2 - 1
    }

    /// Is a point within the distance of some segment of this line? Exactly that far is within.
    ///
    /// [`enough_visits`](Line::enough_visits) is an allowance that always decides.
    ///
    /// ```
    /// # use kneukelboom::{Answer, Line};
    /// let line = Line::new(&[(0, 0), (4, 3), (8, 0)])?;
    /// assert_eq!(line.near((4, 5), 2, 10)?, Answer::Yes { visits: 2 });
    /// assert_eq!(line.near((4, 5), 1, 10)?, Answer::No { visits: 1 });
    /// assert_eq!(line.near((4, 5), 2, 1)?.decided(), None);
    /// # Ok::<(), kneukelboom::Refusal>(())
    /// ```
    ///
    /// # Panics
    /// If a thread is needed and cannot be started: [Threads and stack](crate#threads-and-stack).
    pub fn near(
        &self,
        (x, y): (i64, i64),
        distance: i64,
        allowance: u32,
    ) -> Result<Answer, Refusal> {
        let need = room::walk(self.levels);
        let (points, table) = self.lent();
        room::with!(need, ffi::near(points, table, x, y, distance, allowance)).answer()
    }

    /// On which side of this ring is a point?
    ///
    /// A ring has at least 4 points and ends where it begins; inside is odd where it crosses itself.
    /// [`enough_visits`](Line::enough_visits) is an allowance that always decides.
    ///
    /// ```
    /// # use kneukelboom::{Line, Side};
    /// let square = Line::new(&[(0, 0), (4, 0), (4, 4), (0, 4), (0, 0)])?;
    /// assert_eq!(square.inside((2, 2), 9)?, Side::Inside { visits: 7 });
    /// assert_eq!(square.inside((4, 2), 9)?, Side::On { visits: 4 });
    /// assert_eq!(square.inside((5, 2), 9)?, Side::Outside { visits: 1 });
    /// # Ok::<(), kneukelboom::Refusal>(())
    /// ```
    ///
    /// # Panics
    /// If a thread is needed and cannot be started: [Threads and stack](crate#threads-and-stack).
    pub fn inside(&self, (x, y): (i64, i64), allowance: u32) -> Result<Side, Refusal> {
        let need = room::walk(self.levels);
        let (points, table) = self.lent();
        room::with!(need, ffi::inside(points, table, x, y, allowance)).side()
    }

    /// Do this line (A) and another (B) share a point, ends, touches and overlaps included?
    ///
    /// [`enough_to_meet`](Line::enough_to_meet) is an allowance that always decides.
    ///
    /// ```
    /// # use kneukelboom::{Answer, Line};
    /// let line = Line::new(&[(0, 0), (4, 3), (8, 0)])?;
    /// let short = Line::new(&[(4, 0), (4, 2)])?;
    /// let long = Line::new(&[(4, 0), (4, 3)])?;
    /// assert_eq!(line.meets(&short, 9)?, Answer::No { visits: 3 });
    /// assert_eq!(line.meets(&long, 9)?, Answer::Yes { visits: 2 });
    /// # Ok::<(), kneukelboom::Refusal>(())
    /// ```
    ///
    /// # Panics
    /// If a thread is needed and cannot be started: [Threads and stack](crate#threads-and-stack).
    pub fn meets(&self, other: &Line, allowance: u32) -> Result<Answer, Refusal> {
        let need = room::meet(self.levels + other.levels);
        let ((p, t), (q, u)) = (self.lent(), other.lent());
        room::with!(need, ffi::meet(p, t, q, u, allowance)).answer()
    }

    /// Is each point of this line (A) within the distance of another (B), and each point of B within it of A?
    ///
    /// Points are compared with lines, not every place between the points.
    /// [`enough_to_agree`](Line::enough_to_agree) is an allowance that always decides.
    ///
    /// ```
    /// # use kneukelboom::{Agreement, Line, Name};
    /// let long = Line::new(&[(0, 0), (100, 0)])?;
    /// let stub = Line::new(&[(0, 0), (10, 0)])?;
    /// // Each point of the stub is on the long line, but not the other way round.
    /// assert_eq!(
    ///     stub.agrees(&long, 5, 9)?,
    ///     Agreement::No { line: Name::B, point: 1, visits: 4 },
    /// );
    /// assert_eq!(stub.agrees(&long, 90, 9)?, Agreement::Yes { visits: 4 });
    /// # Ok::<(), kneukelboom::Refusal>(())
    /// ```
    ///
    /// # Panics
    /// If a thread is needed and cannot be started: [Threads and stack](crate#threads-and-stack).
    pub fn agrees(
        &self,
        other: &Line,
        distance: i64,
        allowance: u32,
    ) -> Result<Agreement, Refusal> {
        let need = room::walk(self.levels.max(other.levels));
        let ((p, t), (q, u)) = (self.lent(), other.lent());
        room::with!(need, ffi::agree(p, t, q, u, distance, allowance)).agreement()
    }

    /// Visits that always decide [`near`](Line::near) and [`inside`](Line::inside): 2n-1.
    pub fn enough_visits(&self) -> u32 {
        2 * self.count() - 1
    }

    /// Visits that always decide [`meets`](Line::meets): 2nm-1.
    pub fn enough_to_meet(&self, other: &Line) -> u32 {
        2 * self.count() * other.count() - 1
    }

    /// Visits that always decide [`agrees`](Line::agrees): (n+1)(2m-1) + (m+1)(2n-1).
    pub fn enough_to_agree(&self, other: &Line) -> u32 {
        let (n, m) = (self.count(), other.count());
        (n + 1) * (2 * m - 1) + (m + 1) * (2 * n - 1)
    }

    /// Points and table, for a call.
    fn lent(&self) -> (&[i64], &[i64]) {
        (&self.points, &self.table)
    }

    /// n; at most 4,096, so that every bound fits.
    fn count(&self) -> u32 {
        self.segments() as u32
    }
}

impl PartialEq for Line {
    fn eq(&self, other: &Line) -> bool {
        self.points == other.points
    }
}

impl Eq for Line {}

impl Hash for Line {
    fn hash<H: Hasher>(&self, state: &mut H) {
        self.points.hash(state);
    }
}

/// The points, and not the table.
impl fmt::Debug for Line {
    fn fmt(&self, f: &mut fmt::Formatter) -> fmt::Result {
        f.debug_tuple("Line").field(&self.iter()).finish()
    }
}

impl<'a> IntoIterator for &'a Line {
    type Item = (i64, i64);
    type IntoIter = Points<'a>;

    fn into_iter(self) -> Points<'a> {
        self.iter()
    }
}

impl TryFrom<&[(i64, i64)]> for Line {
    type Error = Refusal;

    fn try_from(points: &[(i64, i64)]) -> Result<Line, Refusal> {
        Line::new(points)
    }
}

impl TryFrom<Vec<(i64, i64)>> for Line {
    type Error = Refusal;

    fn try_from(points: Vec<(i64, i64)>) -> Result<Line, Refusal> {
        Line::new(&points)
    }
}

impl<const N: usize> TryFrom<[(i64, i64); N]> for Line {
    type Error = Refusal;

    fn try_from(points: [(i64, i64); N]) -> Result<Line, Refusal> {
        Line::new(&points)
    }
}

/// Points or a table that version 1 of the library stored, in the 64-bit numbers that they are now.
///
/// [`lent::widen`] is the same into numbers that the caller lends.
///
/// ```
/// use kneukelboom::{widen, Line};
///
/// let stored: [i32; 6] = [0, 0, 4, 3, 8, 0];
/// let line = Line::from_numbers(widen(&stored))?;
/// assert_eq!(line, Line::new(&[(0, 0), (4, 3), (8, 0)])?);
/// # Ok::<(), kneukelboom::Refusal>(())
/// ```
pub fn widen(old: &[i32]) -> Vec<i64> {
    let mut wide = vec![0; old.len()];
    let widened = lent::widen(old, &mut wide).built();
    widened.expect("as many numbers are lent");
    wide
}

/// The levels of the tree of a table that was built or accepted. In these rows stand in preorder, a node before its
/// halves, and a leaf's split is -1, which no other split is; of other tables nothing is known.
fn levels(table: &[i64]) -> usize {
    let mut due = vec![1];
    let mut deepest = 0;
    for row in table.chunks_exact(ROW_WIDTH) {
        let level = due.pop().unwrap_or(0);
        deepest = level.max(deepest);
        if row[2] >= 0 {
            due.extend([level + 1, level + 1]);
        }
    }
    deepest
}
