//! Numbered refusals, as sentences.

use std::error::Error;
use std::fmt;

/// Which line of a question.
#[derive(Clone, Copy, PartialEq, Eq, Hash, Debug)]
pub enum Name {
    /// The line that is asked.
    A,
    /// The other one.
    B,
}

impl fmt::Display for Name {
    fn fmt(&self, f: &mut fmt::Formatter) -> fmt::Result {
        match self {
            Name::A => write!(f, "line A"),
            Name::B => write!(f, "line B"),
        }
    }
}

/// Why a build, a widening, a check or a question was refused. Each number comes exactly when its reason is the first,
/// in a fixed order, that holds. Its constants name the numbers, in the words of `kneukelboom.h`.
///
/// ```
/// use kneukelboom::{Line, Refusal};
///
/// let refusal = Line::new(&[(0, 0), (1_000_001, 0)]).unwrap_err();
/// assert_eq!(refusal.number, Refusal::POINT_OFF_SHEET);
/// assert_eq!(refusal.to_string(), "refused 4: point 1 of line A is off the sheet");
/// ```
#[derive(Clone, Copy, PartialEq, Eq, Hash, Debug)]
pub struct Refusal {
    /// 1 to 10, 21 or 22.
    pub number: u32,
    /// The line whose points or table are at fault, where one is.
    pub line: Option<Name>,
    /// A point (4, 5, 8 in agree) or a row (10, 21, 22), counted from 0; else 0.
    pub place: usize,
    /// The visits made before.
    pub visits: u32,
}

impl Refusal {
    /// An odd length of a points array.
    pub const ODD_LENGTH: u32 = 1;
    /// Fewer than 2 points.
    pub const TOO_FEW_POINTS: u32 = 2;
    /// More than 4,097 points.
    pub const TOO_MANY_POINTS: u32 = 3;
    /// Building, checking: a coordinate off the sheet.
    pub const POINT_OFF_SHEET: u32 = 4;
    /// Building, checking: two neighbours that are equal.
    pub const EQUAL_NEIGHBOURS: u32 = 5;
    /// A table that is too short for its points, or a list that is shorter than the one to widen.
    pub const SHORT_TABLE: u32 = 6;
    /// A distance outside 0 to 2,000,000.
    pub const DISTANCE: u32 = 7;
    /// An asked point off the sheet.
    pub const ASKED_OFF_SHEET: u32 = 8;
    /// A line with fewer than 4 points, or that does not end where it begins, asked for its inside.
    pub const NO_RING: u32 = 9;
    /// A bad row, read at a visit: the table is not this line's.
    pub const BAD_ROW: u32 = 10;
    /// Checking: a row that is not good for the range of points that falls to it.
    pub const ROW_NOT_GOOD: u32 = 21;
    /// Checking: a good row whose strip or box leaves out a point of its run.
    pub const POINT_LEFT_OUT: u32 = 22;
}

impl fmt::Display for Refusal {
    fn fmt(&self, f: &mut fmt::Formatter) -> fmt::Result {
        let Refusal {
            number,
            line,
            place,
            visits,
        } = *self;
        write!(f, "refused {number}: ")?;
        match (number, line) {
            (Refusal::ODD_LENGTH, Some(line)) => {
                write!(f, "{line} has an odd number of coordinates")
            }
            (Refusal::TOO_FEW_POINTS, Some(line)) => write!(f, "{line} has fewer than 2 points"),
            (Refusal::TOO_MANY_POINTS, Some(line)) => {
                write!(f, "{line} has more than 4,097 points")
            }
            (Refusal::POINT_OFF_SHEET | Refusal::ASKED_OFF_SHEET, Some(line)) => {
                write!(f, "point {place} of {line} is off the sheet")
            }
            (Refusal::EQUAL_NEIGHBOURS, Some(line)) => {
                write!(f, "points {place} and {} of {line} are equal", place + 1)
            }
            (Refusal::SHORT_TABLE, Some(line)) => {
                write!(f, "the table of {line} is too short for its points")
            }
            (Refusal::SHORT_TABLE, None) => write!(
                f,
                "the list to widen into is shorter than the list of 32-bit numbers"
            ),
            (Refusal::DISTANCE, _) => write!(f, "the distance is not from 0 to 2,000,000"),
            (Refusal::ASKED_OFF_SHEET, None) => write!(f, "the asked point is off the sheet"),
            (Refusal::NO_RING, Some(line)) => write!(
                f,
                "{line} is no ring: it has fewer than 4 points, or does not end where it begins"
            ),
            (Refusal::BAD_ROW, Some(line)) => write!(
                f,
                "row {place} of the table of {line} is bad (visit {visits})"
            ),
            (Refusal::ROW_NOT_GOOD, Some(line)) => write!(
                f,
                "row {place} of the table of {line} is not good for its range"
            ),
            (Refusal::POINT_LEFT_OUT, Some(line)) => write!(
                f,
                "row {place} of the table of {line} leaves out a point of its run"
            ),
            (_, Some(line)) => write!(f, "place {place} of {line}"),
            (_, None) => write!(f, "place {place}"),
        }
    }
}

impl Error for Refusal {}
