//! Exact tests on points and segments, and the plain answers over all segments.
//!
//! docs/RULES.md, section 3. For points on the sheet and distances of at most 2,000,000 every value
//! here stays below 2^87 (c is at most 8 * 10^12, and squares are compared), and all of it is computed
//! in i128, so nothing can wrap. The strips have their own arithmetic (tree.rs): a slip in one is seen
//! by the other.

/// A point of a line, or the point asked about, in sheet units.
#[derive(Clone, Copy, PartialEq, Eq, Debug)]
pub struct Point {
    pub x: i64,
    pub y: i64,
}

/// Which of the two lines.
#[derive(Clone, Copy, PartialEq, Eq, Debug)]
pub enum Name {
    A,
    B,
}

/// Where a point lies with regard to a ring.
#[derive(Clone, Copy, PartialEq, Eq, Debug)]
pub enum Side {
    Inside,
    Outside,
    On,
}

#[derive(Clone, Copy, PartialEq, Eq, Debug)]
pub struct Segment {
    pub from: Point,
    pub to: Point,
}

/// Point `index` of a slice that holds x, y, x, y.
pub fn point(points: &[i64], index: usize) -> Point {
    Point {
        x: points[2 * index],
        y: points[2 * index + 1],
    }
}

pub fn all_points(points: &[i64]) -> impl Iterator<Item = Point> + '_ {
    points.chunks_exact(2).map(|p| Point { x: p[0], y: p[1] })
}

pub fn segments(points: &[i64]) -> impl Iterator<Item = Segment> + '_ {
    all_points(points)
        .zip(all_points(points).skip(1))
        .map(|(from, to)| Segment { from, to })
}

type Step = (i128, i128);

fn step(from: Point, to: Point) -> Step {
    (
        i128::from(to.x) - i128::from(from.x),
        i128::from(to.y) - i128::from(from.y),
    )
}

/// The rules' c: positive to the left of `u`.
fn cross(u: Step, v: Step) -> i128 {
    u.0 * v.1 - u.1 * v.0
}

/// The rules' t.
fn dot(u: Step, v: Step) -> i128 {
    u.0 * v.0 + u.1 * v.1
}

/// Is `z` within `d` of the segment? Squares are compared, so nothing is rounded.
pub fn within(segment: Segment, z: Point, d: i64) -> bool {
    let u = step(segment.from, segment.to);
    let from_start = step(segment.from, z);
    let from_end = step(segment.to, z);
    let d_square = i128::from(d) * i128::from(d);
    let t = dot(u, from_start);
    if t <= 0 {
        dot(from_start, from_start) <= d_square
    } else if t >= dot(u, u) {
        dot(from_end, from_end) <= d_square
    } else {
        let c = cross(u, from_start);
        c * c <= d_square * dot(u, u)
    }
}

/// Do the segments share a point, ends, touches and overlaps included?
pub fn share_point(p: Segment, q: Segment) -> bool {
    let overlap = |a: i64, b: i64, c: i64, d: i64| a.min(b) <= c.max(d) && c.min(d) <= a.max(b);
    // Both ends strictly on one side of the other's line: no point can be shared.
    let one_sided = |of: Segment, other: Segment| {
        let u = step(of.from, of.to);
        let start = cross(u, step(of.from, other.from));
        let end = cross(u, step(of.from, other.to));
        (start > 0 && end > 0) || (start < 0 && end < 0)
    };
    overlap(p.from.x, p.to.x, q.from.x, q.to.x)
        && overlap(p.from.y, p.to.y, q.from.y, q.to.y)
        && !one_sided(p, q)
        && !one_sided(q, p)
}

pub fn on_segment(segment: Segment, z: Point) -> bool {
    let u = step(segment.from, segment.to);
    let from_start = step(segment.from, z);
    let t = dot(u, from_start);
    cross(u, from_start) == 0 && 0 <= t && t <= dot(u, u)
}

/// Does the segment cross the ray that runs from `z` to the right?
///
/// The lower end counts as below when it is level with `z`, the upper end must be above: a corner
/// passed on the way up is counted once, a corner that only touches the ray twice or not at all.
pub fn crosses(segment: Segment, z: Point) -> bool {
    let (low, high) = if segment.from.y <= segment.to.y {
        (segment.from, segment.to)
    } else {
        (segment.to, segment.from)
    };
    low.y <= z.y && z.y < high.y && cross(step(low, high), step(low, z)) > 0
}

/// NEAR over all segments.
pub fn plain_near(points: &[i64], z: Point, d: i64) -> bool {
    segments(points).any(|segment| within(segment, z, d))
}

/// MEET over all pairs of segments.
pub fn plain_meet(a: &[i64], b: &[i64]) -> bool {
    segments(a).any(|p| segments(b).any(|q| share_point(p, q)))
}

/// IN over all segments.
pub fn plain_side(points: &[i64], z: Point) -> Side {
    if segments(points).any(|segment| on_segment(segment, z)) {
        Side::On
    } else if segments(points).filter(|&s| crosses(s, z)).count() % 2 == 1 {
        Side::Inside
    } else {
        Side::Outside
    }
}

/// AGREE over all points and segments: nothing when the lines agree, else the first point that is
/// not near the other line, A's points before B's.
pub fn plain_astray(a: &[i64], b: &[i64], d: i64) -> Option<(Name, usize)> {
    let first_far = |of: &[i64], other: &[i64]| {
        let index = all_points(of).position(|p| !plain_near(other, p, d));
        index
    };
    match first_far(a, b) {
        Some(index) => Some((Name::A, index)),
        None => first_far(b, a).map(|index| (Name::B, index)),
    }
}

#[cfg(test)]
mod tests {
    use super::*;

    fn at(x: i64, y: i64) -> Point {
        Point { x, y }
    }

    fn seg(x: i64, y: i64, to_x: i64, to_y: i64) -> Segment {
        Segment {
            from: at(x, y),
            to: at(to_x, to_y),
        }
    }

    /// All segments between two different points of a small grid.
    fn grid_segments(size: i64) -> Vec<Segment> {
        let grid = || (0..size).flat_map(|x| (0..size).map(move |y| at(x, y)));
        grid()
            .flat_map(|from| grid().map(move |to| Segment { from, to }))
            .filter(|s| s.from != s.to)
            .collect()
    }

    #[test]
    fn point_on_a_slanted_segment_is_within_zero() {
        assert!(within(seg(-12782, 383, -10910, -1255), at(-12526, 159), 0));
        assert!(on_segment(seg(-12782, 383, -10910, -1255), at(-12526, 159)));
    }

    #[test]
    fn distance_that_is_met_exactly_is_within() {
        assert!(within(seg(-50, 913, 6515, 8185), at(4922, 8447), 1358));
        assert!(!within(seg(-50, 913, 6515, 8185), at(4922, 8447), 1357));
    }

    #[test]
    fn distance_missed_by_one_in_the_square_is_not_within() {
        assert!(!within(seg(0, -16383, 5137, -16382), at(-1, -6109), 10274));
        assert!(within(seg(0, -16383, 5137, -16382), at(-1, -6109), 10275));
    }

    #[test]
    fn beyond_an_end_the_distance_is_to_that_end() {
        let s = seg(0, 0, 10, 0);
        assert!(within(s, at(-3, 4), 5) && !within(s, at(-3, 4), 4));
        assert!(within(s, at(13, -4), 5) && !within(s, at(13, -4), 4));
        assert!(within(s, at(5, 4), 4) && !within(s, at(5, 4), 3));
    }

    #[test]
    fn within_is_the_same_by_the_identity_of_lagrange() {
        // |w|^2 |u|^2 = c^2 + t^2, so between the ends the square distance is |w|^2 - t^2 / |u|^2.
        for s in grid_segments(4) {
            for (x, y) in (-3..7).flat_map(|x| (-3..7).map(move |y| (x, y))) {
                let (u, w) = (step(s.from, s.to), step(s.from, at(x, y)));
                let length = dot(u, u);
                let t = dot(u, w).clamp(0, length);
                // |w - (t / length) u|^2 * length, in whole numbers.
                let scaled = dot(w, w) * length - 2 * t * dot(u, w) + t * t;
                for d in 0..8 {
                    let expected = scaled <= i128::from(d * d) * length;
                    assert_eq!(within(s, at(x, y), d), expected, "{s:?} {x} {y} {d}");
                }
            }
        }
    }

    #[test]
    fn ends_touches_and_overlaps_are_shared_points() {
        let base = seg(0, 0, 8, 0);
        assert!(share_point(base, seg(8, 0, 9, 5)), "end to end");
        assert!(share_point(base, seg(3, 0, 3, 5)), "end on the inside");
        assert!(share_point(base, seg(3, -2, 5, 2)), "crossing");
        assert!(share_point(base, seg(8, 0, 12, 0)), "collinear, end to end");
        assert!(share_point(base, seg(6, 0, 12, 0)), "collinear overlap");
        assert!(share_point(base, seg(2, 0, 3, 0)), "collinear, one inside");
        assert!(share_point(base, seg(8, 0, 0, 0)), "the same, reversed");
    }

    #[test]
    fn segments_apart_share_no_point() {
        let base = seg(0, 0, 8, 0);
        assert!(!share_point(base, seg(9, 0, 12, 0)), "collinear apart");
        assert!(!share_point(base, seg(0, 1, 8, 1)), "parallel");
        assert!(!share_point(base, seg(3, 1, 3, 5)), "one unit short");
        let slanted = seg(0, 0, 8, 8);
        assert!(!share_point(slanted, seg(5, 4, 8, 4)), "boxes overlap only");
        assert!(!share_point(slanted, seg(9, 9, 12, 12)), "collinear apart");
    }

    #[test]
    fn share_point_is_what_solving_for_the_point_gives() {
        let all = grid_segments(4);
        for &p in &all {
            for &q in &all {
                let (u, v) = (step(p.from, p.to), step(q.from, q.to));
                let w = step(p.from, q.from);
                let det = cross(u, v);
                let expected = if det != 0 {
                    // p.from + s u = q.from + r v with s and r between 0 and 1.
                    let (s, r) = (cross(w, v) * det.signum(), cross(w, u) * det.signum());
                    (0..=det.abs()).contains(&s) && (0..=det.abs()).contains(&r)
                } else {
                    // Parallel: on one line, and the stretches along it overlap.
                    let (near, far) = (dot(u, w), dot(u, step(p.from, q.to)));
                    cross(u, w) == 0 && near.min(far) <= dot(u, u) && near.max(far) >= 0
                };
                assert_eq!(share_point(p, q), expected, "{p:?} {q:?}");
            }
        }
    }

    #[test]
    fn ray_through_a_corner_passed_upward_counts_once() {
        // The ring's right side has a corner level with z.
        let ring = [0, 0, 6, 0, 8, 3, 6, 6, 0, 6, 0, 0];
        assert_eq!(plain_side(&ring, at(2, 3)), Side::Inside);
        assert_eq!(plain_side(&ring, at(-1, 3)), Side::Outside);
    }

    #[test]
    fn ray_that_touches_a_peak_or_a_pit_does_not_change_the_side() {
        let peak = [0, 0, 4, 4, 8, 0, 0, 0];
        assert_eq!(plain_side(&peak, at(0, 4)), Side::Outside);
        let pit = [0, 0, 8, 0, 8, 8, 4, 2, 0, 8, 0, 0];
        assert_eq!(plain_side(&pit, at(1, 2)), Side::Inside);
        assert_eq!(plain_side(&pit, at(4, 3)), Side::Outside);
    }

    #[test]
    fn ray_along_a_level_edge_counts_only_where_the_ring_goes_on_upward() {
        // A step: the edge (4,2) (8,2) is level with z.
        let up = [0, 0, 4, 0, 4, 2, 8, 2, 8, 5, 0, 5, 0, 0];
        assert_eq!(plain_side(&up, at(2, 2)), Side::Inside);
        assert_eq!(plain_side(&up, at(6, 2)), Side::On);
        assert_eq!(plain_side(&up, at(-2, 2)), Side::Outside);
        // A notch: the ray runs along its floor and comes back up.
        let notch = [0, 0, 12, 0, 12, 6, 8, 6, 8, 3, 4, 3, 4, 6, 0, 6, 0, 0];
        assert_eq!(plain_side(&notch, at(2, 3)), Side::Inside);
        assert_eq!(plain_side(&notch, at(6, 4)), Side::Outside);
    }

    #[test]
    fn both_lobes_of_a_figure_of_eight_are_inside() {
        let eight = [0, 0, 6, 6, 6, 0, 0, 6, 0, 0];
        assert_eq!(plain_side(&eight, at(1, 3)), Side::Inside);
        assert_eq!(plain_side(&eight, at(5, 3)), Side::Inside);
        assert_eq!(plain_side(&eight, at(3, 1)), Side::Outside);
        assert_eq!(plain_side(&eight, at(3, 5)), Side::Outside);
        assert_eq!(plain_side(&eight, at(3, 3)), Side::On);
    }

    #[test]
    fn ring_wound_twice_has_nothing_inside_the_second_winding() {
        let twice = [0, 0, 4, 0, 4, 4, 0, 4, 0, 0, 4, 0, 4, 4, 0, 4, 0, 0];
        assert_eq!(plain_side(&twice, at(2, 2)), Side::Outside);
        let spiral = [0, 0, 6, 0, 6, 6, 0, 6, 0, 2, 4, 2, 4, 4, 2, 4, 2, 0, 0, 0];
        assert_eq!(plain_side(&spiral, at(3, 3)), Side::Outside);
        assert_eq!(plain_side(&spiral, at(5, 3)), Side::Inside);
    }

    #[test]
    fn ray_to_the_left_gives_the_same_side() {
        let rings: [&[i64]; 4] = [
            &[0, 0, 6, 6, 6, 0, 0, 6, 0, 0],
            &[0, 0, 8, 0, 4, 0, 4, 6, 4, 2, 0, 2, -3, 2, 0, 2, 0, 0],
            &[0, 0, 12, 0, 12, 6, 8, 6, 8, 3, 4, 3, 4, 6, 0, 6, 0, 0],
            &[3, 1, -4, 5, 6, 2, -1, -3, 2, 7, 5, -2, 3, 1],
        ];
        for ring in rings {
            let mirrored: Vec<i64> = ring.chunks(2).flat_map(|p| [-p[0], p[1]]).collect();
            for (x, y) in (-6..14).flat_map(|x| (-5..9).map(move |y| (x, y))) {
                let side = plain_side(ring, at(x, y));
                assert_eq!(side, plain_side(&mirrored, at(-x, y)), "{ring:?} {x} {y}");
            }
        }
    }

    #[test]
    fn first_point_astray_is_looked_for_in_a_before_b() {
        let long = [0, 0, 10, 0, 20, 0];
        let stub = [0, 1, 9, 1];
        assert_eq!(plain_astray(&long, &stub, 2), Some((Name::A, 2)));
        assert_eq!(plain_astray(&stub, &long, 2), Some((Name::B, 2)));
        assert_eq!(plain_astray(&stub, &long, 12), None);
    }
}
