//! What the questions answer. Each has a third answer besides the two: undecided, for want of visits.

use std::fmt;

use crate::refusal::Name;

/// What [`near`](crate::Line::near) and [`meets`](crate::Line::meets) answer.
///
/// There is deliberately no way to read it as a bare bool: undecided is neither. Match what
/// [`decided`](Answer::decided) gives, or each answer by its name; what `_` stands for may grow, and is never a no.
#[derive(Clone, Copy, PartialEq, Eq, Hash, Debug)]
#[non_exhaustive]
#[must_use]
pub enum Answer {
    /// Some segment is within the distance; some point is shared.
    Yes {
        /// The visits made.
        visits: u32,
    },
    /// No segment is within the distance; no point is shared.
    No {
        /// The visits made.
        visits: u32,
    },
    /// More visits are needed than were allowed. This says nothing about the lines: ask again with more.
    Undecided {
        /// The visits made: the allowance.
        visits: u32,
    },
}

/// What [`inside`](crate::Line::inside) answers.
///
/// Match what [`decided`](Side::decided) gives, or each answer by its name; what `_` stands for may grow.
#[derive(Clone, Copy, PartialEq, Eq, Hash, Debug)]
#[non_exhaustive]
#[must_use]
pub enum Side {
    /// The point is inside the ring, and not on it.
    Inside {
        /// The visits made.
        visits: u32,
    },
    /// The point is outside the ring, and not on it.
    Outside {
        /// The visits made.
        visits: u32,
    },
    /// The point is on the ring itself.
    On {
        /// The visits made.
        visits: u32,
    },
    /// More visits are needed than were allowed.
    Undecided {
        /// The visits made: the allowance.
        visits: u32,
    },
}

/// The side of a ring that a point is on, by plain geometry: what [`Side`] has decided. There is no fourth.
#[derive(Clone, Copy, PartialEq, Eq, Hash, Debug)]
pub enum PlainSide {
    /// Inside the ring, and not on it.
    Inside,
    /// Outside the ring, and not on it.
    Outside,
    /// On the ring itself.
    On,
}

/// What [`agrees`](crate::Line::agrees) answers.
///
/// Match what [`decided`](Agreement::decided) gives, or each answer by its name; what `_` stands for may grow, and is
/// never a no.
#[derive(Clone, Copy, PartialEq, Eq, Hash, Debug)]
#[non_exhaustive]
#[must_use]
pub enum Agreement {
    /// Each point of either line is within the distance of the other line.
    Yes {
        /// The visits made.
        visits: u32,
    },
    /// The first point that is not near the other line: A's points are asked before B's.
    No {
        /// The line that the point is of.
        line: Name,
        /// The point, counted from 0.
        point: usize,
        /// The visits made.
        visits: u32,
    },
    /// More visits are needed than were allowed.
    Undecided {
        /// The visits made: the allowance.
        visits: u32,
    },
}

impl Answer {
    /// Yes or no; none where more visits are needed than were allowed.
    pub fn decided(self) -> Option<bool> {
        match self {
            Answer::Yes { .. } => Some(true),
            Answer::No { .. } => Some(false),
            Answer::Undecided { .. } => None,
        }
    }

    /// The visits made.
    pub fn visits(self) -> u32 {
        match self {
            Answer::Yes { visits } | Answer::No { visits } | Answer::Undecided { visits } => visits,
        }
    }
}

impl Side {
    /// Inside, outside or on; none where more visits are needed than were allowed.
    ///
    /// ```
    /// # use kneukelboom::{Line, PlainSide};
    /// let square = Line::new(&[(0, 0), (4, 0), (4, 4), (0, 4), (0, 0)])?;
    /// let text = match square.inside((4, 2), square.enough_visits())?.decided() {
    ///     Some(PlainSide::Inside) => "in the pond",
    ///     Some(PlainSide::Outside) => "on land",
    ///     Some(PlainSide::On) => "on the bank",
    ///     None => "not known: allow more visits",
    /// };
    /// assert_eq!(text, "on the bank");
    /// # Ok::<(), kneukelboom::Refusal>(())
    /// ```
    pub fn decided(self) -> Option<PlainSide> {
        match self {
            Side::Inside { .. } => Some(PlainSide::Inside),
            Side::Outside { .. } => Some(PlainSide::Outside),
            Side::On { .. } => Some(PlainSide::On),
            Side::Undecided { .. } => None,
        }
    }

    /// The visits made.
    pub fn visits(self) -> u32 {
        match self {
            Side::Inside { visits }
            | Side::Outside { visits }
            | Side::On { visits }
            | Side::Undecided { visits } => visits,
        }
    }
}

impl Agreement {
    /// Yes or no; none where more visits are needed than were allowed.
    pub fn decided(self) -> Option<bool> {
        match self {
            Agreement::Yes { .. } => Some(true),
            Agreement::No { .. } => Some(false),
            Agreement::Undecided { .. } => None,
        }
    }

    /// The visits made.
    pub fn visits(self) -> u32 {
        match self {
            Agreement::Yes { visits }
            | Agreement::No { visits, .. }
            | Agreement::Undecided { visits } => visits,
        }
    }
}

fn undecided(f: &mut fmt::Formatter, visits: u32) -> fmt::Result {
    write!(f, "undecided: more than {visits} visits are needed")
}

impl fmt::Display for Answer {
    fn fmt(&self, f: &mut fmt::Formatter) -> fmt::Result {
        match self {
            Answer::Yes { visits } => write!(f, "yes (visits: {visits})"),
            Answer::No { visits } => write!(f, "no (visits: {visits})"),
            Answer::Undecided { visits } => undecided(f, *visits),
        }
    }
}

impl fmt::Display for PlainSide {
    fn fmt(&self, f: &mut fmt::Formatter) -> fmt::Result {
        f.write_str(match self {
            PlainSide::Inside => "inside",
            PlainSide::Outside => "outside",
            PlainSide::On => "on the ring",
        })
    }
}

impl fmt::Display for Side {
    fn fmt(&self, f: &mut fmt::Formatter) -> fmt::Result {
        let visits = self.visits();
        match self.decided() {
            Some(side) => write!(f, "{side} (visits: {visits})"),
            None => undecided(f, visits),
        }
    }
}

impl fmt::Display for Agreement {
    fn fmt(&self, f: &mut fmt::Formatter) -> fmt::Result {
        match self {
            Agreement::Yes { visits } => write!(f, "yes (visits: {visits})"),
            Agreement::No {
                line,
                point,
                visits,
            } => write!(
                f,
                "no: point {point} of {line} is not near the other line (visits: {visits})"
            ),
            Agreement::Undecided { visits } => undecided(f, *visits),
        }
    }
}
