//! NEAR questions that turn on the last unit: a segment, a point beside it, and a D such that c^2 is
//! D^2 * |u|^2 exactly, or as little beside it as whole numbers can be.

use super::shapes::triple;
use super::{Place, Random};
use crate::geometry::Point;
use crate::tree::{FARTHEST, SHEET};

/// A question with its answer.
#[derive(Clone, Copy, PartialEq, Eq, Debug)]
pub struct Tight {
    /// The line: the two ends of its segment.
    pub points: [i64; 4],
    pub z: Point,
    pub d: i64,
    /// Is `z` within `d` of the segment?
    pub within: bool,
}

/// The same with the segment's first end at (0, 0): its step, the step to z, D and the answer.
struct Steps {
    u: Place,
    w: Place,
    d: i64,
    within: bool,
}

/// All three points are on the sheet and D is 0 to 2,000,000.
pub fn tight(random: &mut Random) -> Tight {
    let steps = match random.between(0, 9) {
        0..=3 => beside_a_whole_length(random),
        4 | 5 => missed_by_one_in_the_square(random),
        6 | 7 => met_by_one_in_the_square(random),
        8 => past_an_end(random),
        _ => across(random),
    };
    let turned = turned(random, steps);
    placed(random, turned)
}

/// |u| is whole, and c is D * |u|, or one more, or one less.
fn beside_a_whole_length(random: &mut Random) -> Steps {
    let (dx, dy, length) = triple(random);
    // Neither side of the three points' box is above |u| + D and a little: it fits the sheet.
    let d = random.between(0, 2 * SHEET - length - 4);
    let more = random.between(-1, 1);
    let c = d * length + more;
    // dx * p + dy * q = 1, so w = c * (-q, p) has this c; whole steps along u leave it as it is.
    let (p, q) = bezout(dx, dy);
    let wide = (
        -i128::from(c) * i128::from(q),
        i128::from(c) * i128::from(p),
    );
    let (ux, uy) = (i128::from(dx), i128::from(dy));
    let back = (ux * wide.0 + uy * wide.1).div_euclid(ux * ux + uy * uy);
    let w = (wide.0 - back * ux, wide.1 - back * uy);
    Steps {
        u: (dx, dy),
        w: (w.0 as i64, w.1 as i64),
        d,
        within: c.abs() <= d * length,
    }
}

/// p and q with a * p + b * q = 1, for numbers without a common factor.
fn bezout(a: i64, b: i64) -> (i64, i64) {
    if b == 0 {
        return (a, 0);
    }
    let (p, q) = bezout(b, a % b);
    (q, p - a / b * q)
}

/// u = (a, 1), D = 2a, c = 2a^2 + 1: c^2 is D^2 * |u|^2 + 1.
fn missed_by_one_in_the_square(random: &mut Random) -> Steps {
    let a = random.between(1, FARTHEST / 2);
    Steps {
        u: (a, 1),
        w: (-1, 2 * a),
        d: 2 * a,
        within: false,
    }
}

/// u = (a, 1), D = 4a^2 + 1, c = 4a^3 + 3a: c^2 is D^2 * |u|^2 - 1.
fn met_by_one_in_the_square(random: &mut Random) -> Steps {
    let a = random.between(1, 707);
    Steps {
        u: (a, 1),
        w: (-3 * a, 4 * a * a),
        d: 4 * a * a + 1,
        within: true,
    }
}

/// Past the last end by a step of whole length, or one unit farther.
fn past_an_end(random: &mut Random) -> Steps {
    let (dx, dy, length) = triple(random);
    let u = (random.between(1, 1_000), random.between(0, 1_000));
    let farther = random.between(0, 1);
    Steps {
        u,
        w: (u.0 + dx + farther, u.1 + dy),
        d: length,
        within: farther == 0,
    }
}

/// From edge to edge of the sheet, or one unit less, at that distance or one less.
fn across(random: &mut Random) -> Steps {
    let height = random.between(1, FARTHEST);
    let away = FARTHEST - random.between(0, 1);
    let short = random.between(0, 1);
    Steps {
        u: (0, height),
        w: (away, random.between(0, height)),
        d: away - short,
        within: short == 0,
    }
}

/// Mirrored, with x and y exchanged, and from the other end: none changes the answer.
fn turned(random: &mut Random, steps: Steps) -> Steps {
    let (right, up, exchanged) = (random.sign(), random.sign(), random.one_in(2));
    let turn = |(x, y): Place| {
        let (x, y) = (right * x, up * y);
        if exchanged {
            (y, x)
        } else {
            (x, y)
        }
    };
    let (u, w) = (turn(steps.u), turn(steps.w));
    if random.one_in(2) {
        return Steps {
            u: (-u.0, -u.1),
            w: (w.0 - u.0, w.1 - u.1),
            ..steps
        };
    }
    Steps { u, w, ..steps }
}

/// Somewhere on the sheet, or right in a corner.
fn placed(random: &mut Random, steps: Steps) -> Tight {
    let (u, w) = (steps.u, steps.w);
    let mut start = |by_u: i64, by_w: i64| {
        let least = -SHEET - by_u.min(by_w).min(0);
        let greatest = SHEET - by_u.max(by_w).max(0);
        let between = random.between(least, greatest);
        random.pick(&[least, between, greatest])
    };
    let (x, y) = (start(u.0, w.0), start(u.1, w.1));
    Tight {
        points: [x, y, x + u.0, y + u.1],
        z: Point {
            x: x + w.0,
            y: y + w.1,
        },
        d: steps.d,
        within: steps.within,
    }
}

#[cfg(test)]
mod tests {
    use super::*;
    use crate::geometry::{point, segments, within, Name};
    use crate::tree::{build, on_sheet, ROW};
    use crate::walk::{near, Answer, Tree};

    #[test]
    fn tight_questions_are_on_the_sheet_and_have_the_answer_that_they_tell() {
        let mut random = Random(1);
        for _ in 0..4_000 {
            let asked = tight(&mut random);
            let ends = [point(&asked.points, 0), point(&asked.points, 1), asked.z];
            assert!(ends.into_iter().all(on_sheet), "{asked:?}");
            assert!((0..=FARTHEST).contains(&asked.d), "{asked:?}");
            let segment = segments(&asked.points).next().expect("two points");
            assert_eq!(within(segment, asked.z, asked.d), asked.within, "{asked:?}");
            let mut table = [0; ROW];
            assert_eq!(build(Name::A, &asked.points, &mut table), Ok(()));
            let tree = Tree {
                name: Name::A,
                points: &asked.points,
                table: &table,
            };
            let answer = if asked.within {
                Answer::Yes
            } else {
                Answer::No
            };
            let said = near(tree, asked.z, asked.d, 1).answer;
            assert_eq!(said, answer, "{asked:?}");
        }
    }

    #[test]
    fn far_questions_that_turn_on_1_in_the_square_are_met() {
        // c^2 - D^2 * |u|^2, for u = (1000000, 1) and u = (707, 1).
        for (u, w, d, difference) in [
            ((1_000_000, 1), (-1, 2_000_000), 2_000_000, 1),
            ((707, 1), (-2_121, 1_999_396), 1_999_397, -1),
        ] {
            let (ux, uy): (i128, i128) = u;
            let (wx, wy): (i128, i128) = w;
            let c = ux * wy - uy * wx;
            assert_eq!(c * c - d * d * (ux * ux + uy * uy), difference);
        }
    }
}
