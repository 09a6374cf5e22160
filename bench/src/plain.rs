//! The plain scan: the rules' plain geometry over all segments, with no tree.
//!
//! It decides what is right: every answer of the trees is held against it. It is also what a program does that has no
//! tree, so it is written well: one pass, 64-bit products where the ranges allow it, out at the first yes.

use crate::lent::word::{INSIDE, NO, ON, OUTSIDE, YES};

type Point = (i64, i64);

/// AGREE's no: the line, 1 or 2, and the index of the first point that is not near the other line.
pub type Astray = Option<(u32, u64)>;

#[inline(always)]
fn all(points: &[i64]) -> impl Iterator<Item = Point> + '_ {
    points.chunks_exact(2).map(|p| (p[0], p[1]))
}

/// The segments, from each point to the next.
#[inline(always)]
fn segments(points: &[i64]) -> impl Iterator<Item = (Point, Point)> + '_ {
    all(points).zip(all(points).skip(1))
}

/// c of z for the step from a to b: below 2^43 on the sheet.
#[inline(always)]
fn c(a: Point, b: Point, z: Point) -> i64 {
    (b.0 - a.0) * (z.1 - a.1) - (b.1 - a.1) * (z.0 - a.0)
}

#[inline(always)]
fn square(a: Point, b: Point) -> i64 {
    (b.0 - a.0) * (b.0 - a.0) + (b.1 - a.1) * (b.1 - a.1)
}

#[inline(always)]
fn within(z: Point, d2: i64, a: Point, b: Point) -> bool {
    let t = (b.0 - a.0) * (z.0 - a.0) + (b.1 - a.1) * (z.1 - a.1);
    let u2 = square(a, b);
    if t <= 0 {
        square(a, z) <= d2
    } else if t >= u2 {
        square(b, z) <= d2
    } else {
        let c = i128::from(c(a, b, z));
        c * c <= i128::from(d2) * i128::from(u2)
    }
}

/// A segment whose box is more than d away is passed over: that halves the time.
#[inline(always)]
fn is_near(points: &[i64], z: Point, d: i64) -> bool {
    let (xmin, xmax) = (z.0 - d, z.0 + d);
    let (ymin, ymax) = (z.1 - d, z.1 + d);
    segments(points).any(|(a, b)| {
        xmin <= a.0.max(b.0)
            && a.0.min(b.0) <= xmax
            && ymin <= a.1.max(b.1)
            && a.1.min(b.1) <= ymax
            && within(z, d * d, a, b)
    })
}

#[inline(never)]
pub fn near(points: &[i64], z: Point, d: i64) -> u32 {
    if is_near(points, z, d) {
        YES
    } else {
        NO
    }
}

#[inline(never)]
pub fn inside(points: &[i64], z: Point) -> u32 {
    let mut odd = false;
    for (a, b) in segments(points) {
        let (low, high) = if a.1 < b.1 { (a, b) } else { (b, a) };
        if z.1 < low.1 || high.1 < z.1 {
            continue;
        }
        let side = c(low, high, z);
        if side == 0 && a.0.min(b.0) <= z.0 && z.0 <= a.0.max(b.0) {
            return ON;
        }
        // With y upward, c of a point to the left of the upward step is above 0.
        odd ^= z.1 < high.1 && side > 0;
    }
    if odd {
        INSIDE
    } else {
        OUTSIDE
    }
}

#[inline(always)]
fn one_side(p: i64, q: i64) -> bool {
    (p > 0 && q > 0) || (p < 0 && q < 0)
}

#[inline(never)]
pub fn meet(points_a: &[i64], points_b: &[i64]) -> u32 {
    for (a, b) in segments(points_a) {
        let (xmin, xmax) = (a.0.min(b.0), a.0.max(b.0));
        let (ymin, ymax) = (a.1.min(b.1), a.1.max(b.1));
        let shared = segments(points_b).any(|(c0, d0)| {
            c0.0.min(d0.0) <= xmax
                && xmin <= c0.0.max(d0.0)
                && c0.1.min(d0.1) <= ymax
                && ymin <= c0.1.max(d0.1)
                && !one_side(c(a, b, c0), c(a, b, d0))
                && !one_side(c(c0, d0, a), c(c0, d0, b))
        });
        if shared {
            return YES;
        }
    }
    NO
}

#[inline(never)]
pub fn agree(points_a: &[i64], points_b: &[i64], d: i64) -> Astray {
    let astray = |of: &[i64], other: &[i64]| all(of).position(|z| !is_near(other, z, d));
    if let Some(i) = astray(points_a, points_b) {
        return Some((1, i as u64));
    }
    astray(points_b, points_a).map(|i| (2, i as u64))
}
