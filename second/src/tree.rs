//! The strip tree: measuring a run of points, building the table, the refusals of a build.
//!
//! docs/RULES.md, sections 1.2 and 2. For points on the sheet, with u the step of a node: |c|, |t| and
//! |u|^2 are at most |u| * |p - s| <= 2 * 2,000,000^2 = 8 * 10^12 < 2^43, so i64 holds them. It does
//! not hold their squares: those are compared in i128 (walk.rs).

use crate::geometry::{all_points, point, Name, Point};

/// Coordinates go from -SHEET to SHEET.
pub const SHEET: i64 = 1_000_000;
/// Coordinates went from -OLD_SHEET to OLD_SHEET when points and tables were 32-bit numbers.
pub const OLD_SHEET: i64 = 16_383;
/// Distances go from 0 to FARTHEST.
pub const FARTHEST: i64 = 2_000_000;
/// Numbers in a table row: first, last, split, then least and greatest of c, t, x and y.
pub const ROW: usize = 11;
pub const MOST_POINTS: usize = 4_097;

/// Why a build, a question or a record is refused.
#[derive(Clone, Copy, PartialEq, Eq, Debug)]
pub struct Refusal {
    pub number: u8,
    pub line: Option<Name>,
    pub place: u64,
}

/// Numbers from `least` to `greatest`, both taken in.
#[derive(Clone, Copy, PartialEq, Eq, Debug)]
pub struct Span {
    pub least: i64,
    pub greatest: i64,
}

impl Span {
    /// The shortest span with both in it.
    fn of(one: i64, other: i64) -> Span {
        Span {
            least: one.min(other),
            greatest: one.max(other),
        }
    }

    fn widen(&mut self, value: i64) {
        self.least = self.least.min(value);
        self.greatest = self.greatest.max(value);
    }

    pub fn holds(self, value: i64) -> bool {
        self.least <= value && value <= self.greatest
    }

    /// How far `value` lies outside; 0 inside.
    ///
    /// For a span with 0 in it, as c and t of a good row are, the difference is at most |value|. It
    /// is taken only where it is due: the span may reach from -2^63 to 2^63 - 1.
    pub fn shortfall(self, value: i64) -> i64 {
        if value < self.least {
            self.least - value
        } else if value > self.greatest {
            value - self.greatest
        } else {
            0
        }
    }

    pub fn disjoint(self, other: Span) -> bool {
        self.greatest < other.least || other.greatest < self.least
    }

    /// Are all values below the least, or all above the greatest?
    pub fn missed_by(self, values: [i64; 4]) -> bool {
        values.iter().all(|&v| v < self.least) || values.iter().all(|&v| v > self.greatest)
    }
}

/// The axes of a node: its first point and the step to its last, both points on the sheet.
#[derive(Clone, Copy, Debug)]
pub struct Frame {
    sx: i64,
    sy: i64,
    dx: i64,
    dy: i64,
}

impl Frame {
    pub fn of(first: Point, last: Point) -> Frame {
        let (dx, dy) = if first == last {
            // A closed run has no direction of its own: the rules give it the x axis.
            (1, 0)
        } else {
            (last.x - first.x, last.y - first.y)
        };
        Frame {
            sx: first.x,
            sy: first.y,
            dx,
            dy,
        }
    }

    pub fn c(self, x: i64, y: i64) -> i64 {
        self.dx * (y - self.sy) - self.dy * (x - self.sx)
    }

    pub fn t(self, x: i64, y: i64) -> i64 {
        self.dx * (x - self.sx) + self.dy * (y - self.sy)
    }

    /// |u|^2
    pub fn square(self) -> i64 {
        self.dx * self.dx + self.dy * self.dy
    }
}

/// The four spans of a node, in the order of the table.
#[derive(Clone, Copy, PartialEq, Eq, Debug)]
pub struct Extents {
    pub c: Span,
    pub t: Span,
    pub x: Span,
    pub y: Span,
}

pub fn on_sheet(p: Point) -> bool {
    within_limit(p, SHEET)
}

fn within_limit(p: Point, limit: i64) -> bool {
    (-limit..=limit).contains(&p.x) && (-limit..=limit).contains(&p.y)
}

/// Rows of a tree over that many segments.
pub const fn rows(segments: usize) -> usize {
    2 * segments - 1
}

/// Refusals 1, 2 and 3.
pub fn check_points(name: Name, points: &[i64]) -> Result<(), Refusal> {
    let refuse = |number| {
        Err(Refusal {
            number,
            line: Some(name),
            place: 0,
        })
    };
    let count = points.len() / 2;
    if points.len() % 2 == 1 {
        refuse(1)
    } else if count < 2 {
        refuse(2)
    } else if count > MOST_POINTS {
        refuse(3)
    } else {
        Ok(())
    }
}

/// Refusal 6, for points that passed `check_points`.
pub fn check_table(name: Name, points: &[i64], table: &[i64]) -> Result<(), Refusal> {
    check_room(name, points, table.len())
}

/// Refusal 6, for a table of that many numbers.
fn check_room(name: Name, points: &[i64], room: usize) -> Result<(), Refusal> {
    if room < numbers(points) {
        return Err(Refusal {
            number: 6,
            line: Some(name),
            place: 0,
        });
    }
    Ok(())
}

/// Numbers in the table of a line of at least 2 points.
fn numbers(points: &[i64]) -> usize {
    ROW * rows(points.len() / 2 - 1)
}

/// Refusals 4 and 5, on a sheet whose coordinates go from -limit to limit.
fn check_places(name: Name, points: &[i64], limit: i64) -> Result<(), Refusal> {
    let at = |number, index| Refusal {
        number,
        line: Some(name),
        place: index as u64,
    };
    if let Some(index) = all_points(points).position(|p| !within_limit(p, limit)) {
        return Err(at(4, index));
    }
    let following = all_points(points).skip(1);
    if let Some(index) = all_points(points).zip(following).position(|(p, q)| p == q) {
        return Err(at(5, index));
    }
    Ok(())
}

/// Writes the tree of the line into the lent table, or refuses and writes nothing.
pub fn build(name: Name, points: &[i64], table: &mut [i64]) -> Result<(), Refusal> {
    let grown = grown(name, points, SHEET, table.len())?;
    table[..grown.len()].copy_from_slice(&grown);
    Ok(())
}

/// The table's numbers for a line on a sheet of that limit, or why a build into that room is refused.
pub(crate) fn grown(
    name: Name,
    points: &[i64],
    limit: i64,
    room: usize,
) -> Result<Vec<i64>, Refusal> {
    check_build(name, points, limit, room)?;
    Ok(grow(points, |_, _, farthest| farthest))
}

/// Refusals 1 to 6, for a line on a sheet of that limit and a table of that many numbers.
pub(crate) fn check_build(
    name: Name,
    points: &[i64],
    limit: i64,
    room: usize,
) -> Result<(), Refusal> {
    check_points(name, points)?;
    check_places(name, points, limit)?;
    check_room(name, points, room)
}

/// The rows of a line, in preorder. `choose` says where a node splits: it is handed the first and the
/// last of its points, and the one at which the rules split it.
pub(crate) fn grow(
    points: &[i64],
    mut choose: impl FnMut(usize, usize, usize) -> usize,
) -> Vec<i64> {
    let mut table = Vec::with_capacity(numbers(points));
    // Nodes that are due, the next one on top. A tree can have 4,096 levels: no calls that deep.
    let mut due = vec![(0, points.len() / 2 - 1)];
    while let Some((first, last)) = due.pop() {
        let (extents, inner) = measure(&points[2 * first..2 * last + 2]);
        let split = inner.map(|inner| choose(first, last, first + inner));
        table.extend(row(first, last, split, extents));
        if let Some(split) = split {
            // Both halves hold the split point.
            due.extend([(split, last), (first, split)]);
        }
    }
    table
}

/// The row of a node; a leaf has no split.
fn row(first: usize, last: usize, split: Option<usize>, extents: Extents) -> [i64; ROW] {
    let Extents { c, t, x, y } = extents;
    let spans = [c, t, x, y].map(|span| [span.least, span.greatest]);
    let split = split.map_or(-1, |split| split as i64);
    let mut row = [0; ROW];
    row[..3].copy_from_slice(&[first as i64, last as i64, split]);
    row[3..].copy_from_slice(spans.as_flattened());
    row
}

/// The extents of a run of points on the sheet, and the index in it at which it splits (none for a
/// single segment). Each point is read once: the two ends, which give the frame, then each inner point.
pub fn measure(run: &[i64]) -> (Extents, Option<usize>) {
    let last = run.len() / 2 - 1;
    let (start, end) = (point(run, 0), point(run, last));
    let frame = Frame::of(start, end);
    // c is 0 at both ends, t is 0 and |u|^2; but a closed run, whose |u|^2 is 1, ends at t 0.
    let end_t = if start == end { 0 } else { frame.square() };
    let mut extents = Extents {
        c: Span::of(0, 0),
        t: Span::of(0, end_t),
        x: Span::of(start.x, end.x),
        y: Span::of(start.y, end.y),
    };
    let mut split = None;
    let (mut farthest, mut off_middle) = (-1, 0);
    for index in 1..last {
        let p = point(run, index);
        let c = frame.c(p.x, p.y);
        extents.c.widen(c);
        extents.t.widen(frame.t(p.x, p.y));
        extents.x.widen(p.x);
        extents.y.widen(p.y);
        // Farthest from the chord first, then nearest to the middle, then lowest: the scan goes
        // upward, so a later point must be strictly better.
        let off = (2 * index).abs_diff(last);
        if c.abs() > farthest || (c.abs() == farthest && off < off_middle) {
            (farthest, off_middle) = (c.abs(), off);
            split = Some(index);
        }
    }
    (extents, split)
}

#[cfg(test)]
mod tests {
    use super::*;
    use crate::generate::Random;

    const L: [i64; 6] = [0, 0, 4, 3, 8, 0];

    fn refusal(number: u8, place: u64) -> Result<(), Refusal> {
        Err(Refusal {
            number,
            line: Some(Name::A),
            place,
        })
    }

    fn built(points: &[i64]) -> Vec<i64> {
        let mut table = vec![0; ROW * rows(points.len() / 2 - 1)];
        build(Name::A, points, &mut table).expect("these points are sound");
        table
    }

    /// A zigzag of that many points.
    fn zigzag(count: i64) -> Vec<i64> {
        (0..count).flat_map(|i| [i, i % 2]).collect()
    }

    #[test]
    fn p1_rows_of_l() {
        let expected = [
            [0, 2, 1, 0, 24, 0, 64, 0, 8, 0, 3],
            [0, 1, -1, 0, 0, 0, 25, 0, 4, 0, 3],
            [1, 2, -1, 0, 0, 0, 25, 4, 8, 0, 3],
        ];
        assert_eq!(built(&L), expected.concat());
    }

    #[test]
    fn split_is_at_the_greatest_absolute_c() {
        assert_eq!(measure(&[0, 0, 1, 2, 2, -3, 3, 1, 4, 0]).1, Some(2));
    }

    #[test]
    fn of_equal_c_the_point_nearest_the_middle_splits() {
        assert_eq!(measure(&[0, 0, 1, 2, 2, -2, 3, 2, 4, 0]).1, Some(2));
        assert_eq!(measure(&[0, 0, 1, 2, 2, 0, 3, -2, 4, 0, 6, 0]).1, Some(3));
    }

    #[test]
    fn of_equals_again_the_lower_splits() {
        assert_eq!(measure(&[0, 0, 1, 2, 2, 2, 3, 0]).1, Some(1));
        assert_eq!(measure(&[0, 0, 1, 2, 2, 0, 3, 0, 4, -2, 6, 0]).1, Some(1));
        let all_c_are_0 = [
            [0, 3, 1, 0, 0, 0, 9, 0, 3, 0, 0],
            [0, 1, -1, 0, 0, 0, 1, 0, 1, 0, 0],
            [1, 3, 2, 0, 0, 0, 4, 1, 3, 0, 0],
            [1, 2, -1, 0, 0, 0, 1, 1, 2, 0, 0],
            [2, 3, -1, 0, 0, 0, 1, 2, 3, 0, 0],
        ];
        assert_eq!(built(&[0, 0, 1, 0, 2, 0, 3, 0]), all_c_are_0.concat());
    }

    #[test]
    fn collinear_run_splits_in_the_middle() {
        let run: Vec<i64> = (0..9).flat_map(|i| [2 * i, 3 * i]).collect();
        let (extents, split) = measure(&run);
        assert_eq!(split, Some(4));
        assert_eq!((extents.c.least, extents.c.greatest), (0, 0));
    }

    #[test]
    fn closed_run_is_measured_along_the_x_axis() {
        let (extents, split) = measure(&[5, 5, 9, 5, 9, 1, 5, 5]);
        assert_eq!(split, Some(2));
        let spans = [extents.c, extents.t].map(|s| (s.least, s.greatest));
        assert_eq!(spans, [(-4, 0), (0, 4)]);
    }

    #[test]
    fn closed_run_ends_at_t_0() {
        let (extents, _) = measure(&[5, 5, 1, 5, 1, 9, 5, 5]);
        assert_eq!((extents.t.least, extents.t.greatest), (-4, 0));
    }

    #[test]
    fn in_a_closed_run_too_the_point_nearest_the_middle_splits() {
        // Of the square's root, u = (1, 0): points 2 and 3 both have c 4.
        let expected = [
            [0, 4, 2, 0, 4, 0, 4, 0, 4, 0, 4],
            [0, 2, 1, -16, 0, 0, 32, 0, 4, 0, 4],
            [0, 1, -1, 0, 0, 0, 16, 0, 4, 0, 0],
            [1, 2, -1, 0, 0, 0, 16, 4, 4, 0, 4],
            [2, 4, 3, -16, 0, 0, 32, 0, 4, 0, 4],
            [2, 3, -1, 0, 0, 0, 16, 0, 4, 4, 4],
            [3, 4, -1, 0, 0, 0, 16, 0, 0, 0, 4],
        ];
        assert_eq!(built(&[0, 0, 4, 0, 4, 4, 0, 4, 0, 0]), expected.concat());
        // The other way round points 1 and 2 do.
        assert_eq!(measure(&[0, 0, 0, 4, 4, 4, 4, 0, 0, 0]).1, Some(2));
    }

    #[test]
    fn half_is_measured_by_its_own_chord() {
        // Point 1 lies left of the root's chord (c 8) and right of the left half's (c -2).
        let expected = [
            [0, 3, 2, 0, 24, 0, 64, 0, 8, 0, 3],
            [0, 2, 1, -2, 0, 0, 25, 0, 4, 0, 3],
            [0, 1, -1, 0, 0, 0, 5, 0, 2, 0, 1],
            [1, 2, -1, 0, 0, 0, 8, 2, 4, 1, 3],
            [2, 3, -1, 0, 0, 0, 25, 4, 8, 0, 3],
        ];
        assert_eq!(built(&[0, 0, 2, 1, 4, 3, 8, 0]), expected.concat());
    }

    /// What `measure` gives, by a pass over all points for each number, and a sort for the split.
    fn measured_one_by_one(run: &[i64]) -> (Extents, Option<usize>) {
        let points: Vec<Point> = all_points(run).collect();
        let last = points.len() - 1;
        let frame = Frame::of(points[0], points[last]);
        let span = |number: &dyn Fn(i64, i64) -> i64| {
            let numbers = || points.iter().map(|p| number(p.x, p.y));
            Span {
                least: numbers().min().expect("a run has points"),
                greatest: numbers().max().expect("a run has points"),
            }
        };
        let extents = Extents {
            c: span(&|x, y| frame.c(x, y)),
            t: span(&|x, y| frame.t(x, y)),
            x: span(&|x, _| x),
            y: span(&|_, y| y),
        };
        let mut inner: Vec<usize> = (1..last).collect();
        inner.sort_by_key(|&i| {
            let c = frame.c(points[i].x, points[i].y);
            (-c.abs(), (2 * i).abs_diff(last), i)
        });
        (extents, inner.first().copied())
    }

    #[test]
    fn one_pass_measures_what_a_pass_for_each_number_does() {
        let mut random = Random(3);
        // A small reach brings ties and equal neighbours, the whole sheet the greatest numbers.
        for reach in [1, 2, 5, OLD_SHEET, SHEET] {
            for count in 2..=9 {
                for round in 0..200 {
                    let mut number = || random.between(-reach, reach);
                    let mut run: Vec<i64> = (0..2 * count).map(|_| number()).collect();
                    let closed = round % 4 == 0;
                    if closed {
                        run.copy_within(..2, 2 * count - 2);
                    }
                    assert_eq!(measure(&run), measured_one_by_one(&run), "{run:?}");
                }
            }
        }
    }

    #[test]
    fn rows_stand_in_preorder_and_halves_share_the_split_point() {
        let table = built(&zigzag(40));
        let mut due = vec![(0, 0, 39)];
        let mut seen = vec![];
        while let Some((row, first, last)) = due.pop() {
            seen.push(row);
            let read = &table[ROW * row..][..ROW];
            assert_eq!(read[..2], [first, last]);
            let split = read[2];
            if last - first == 1 {
                assert_eq!(split, -1);
            } else {
                due.push((row + 2 * (split - first) as usize, split, last));
                due.push((row + 1, first, split));
            }
        }
        assert_eq!(seen, (0..rows(39)).collect::<Vec<_>>());
    }

    #[test]
    fn numbers_past_the_rows_stay_unchanged() {
        let mut table = [77; 40];
        assert_eq!(build(Name::A, &L, &mut table), Ok(()));
        assert_eq!(table[33..], [77; 7]);
        assert!(table[..33].iter().all(|&v| v != 77));
    }

    #[test]
    fn refused_build_writes_nothing() {
        let bad: [&[i64]; 5] = [
            &[0, 0, 1],
            &[0, 0],
            &[0, 0, 1, 1, 1_000_001, 0],
            &[0, 0, 1, 1, 1, 1],
            &[0, 0, 1, 1, 2, 2, 3, 3, 4, 4],
        ];
        for points in bad {
            let mut table = [77; 40];
            assert!(build(Name::A, points, &mut table).is_err());
            assert_eq!(table, [77; 40]);
        }
    }

    #[test]
    fn figure_8_4_coordinate_1000000_is_taken_and_1000001_refused_4() {
        let far = 1_000_000;
        let mut table = [0; 33];
        for points in [[0, 0, far, 0], [0, 0, 0, -far], [-far, far, far, -far]] {
            assert_eq!(build(Name::A, &points, &mut table), Ok(()));
        }
        let off = 1_000_001;
        for (x, y) in [(off, 0), (-off, 0), (0, off), (0, -off)] {
            for points in [&[0, 0, x, y][..], &[0, 0, x, y, 1, 1]] {
                assert_eq!(build(Name::A, points, &mut table), refusal(4, 1));
            }
        }
    }

    #[test]
    fn coordinate_of_64_bits_is_refused_4_also_where_its_low_32_bits_are_on_the_sheet() {
        let mut table = [0; 33];
        let ends = [i64::MIN, i64::MAX, 0, 0];
        assert_eq!(build(Name::A, &ends, &mut table), refusal(4, 0));
        for off in [1 << 32, (1 << 32) + 4, -(1 << 32), 1 << 62, i64::MIN + 4] {
            let points = [0, 0, 4, off, off, off];
            assert_eq!(build(Name::A, &points, &mut table), refusal(4, 1));
        }
        assert_eq!(table, [0; 33]);
    }

    #[test]
    fn figure_8_1_row_of_the_diagonal_of_the_sheet() {
        let far = 1_000_000;
        let row = [0, 1, -1, 0, 0, 0, 8_000_000_000_000, -far, far, -far, far];
        assert_eq!(built(&[-far, -far, far, far]), row);
    }

    #[test]
    fn strips_of_the_widest_sheet_have_c_and_t_beyond_32_bits() {
        let far = 1_000_000;
        let table = built(&[-far, -far, far, -far, far, far]);
        // u = (2000000, 2000000); the middle point is 2000000 to the right of it: c = -2000000^2.
        assert_eq!(table[3..7], [-4_000_000_000_000, 0, 0, 8_000_000_000_000]);
    }

    #[test]
    fn shortfall_does_not_wrap_for_any_span_with_0_in_it() {
        let far = 8_000_000_000_000;
        let ends = [0, 1, far, 1 << 62, i64::MAX];
        for (below, above) in ends.iter().flat_map(|&b| ends.iter().map(move |&a| (b, a))) {
            for least in [-below, -below - 1] {
                let span = Span {
                    least,
                    greatest: above,
                };
                for value in [-far, -far + 1, -1, 0, 1, far - 1, far] {
                    let (low, high) = (i128::from(least), i128::from(above));
                    let v = i128::from(value);
                    let expected = (low - v).max(v - high).max(0);
                    assert_eq!(i128::from(span.shortfall(value)), expected);
                }
            }
        }
    }

    #[test]
    fn off_the_sheet_comes_before_equal_neighbours() {
        let mut table = [0; 99];
        let both = [0, 0, 0, 0, 5, 5, 1_000_001, 0, 0, 1_000_001];
        assert_eq!(build(Name::A, &both, &mut table), refusal(4, 3));
        let equal = [0, 0, 1, 1, 1, 1, 1, 1];
        assert_eq!(build(Name::A, &equal, &mut table), refusal(5, 1));
    }

    #[test]
    fn line_of_4097_points_is_taken_and_of_4098_refused_3() {
        let mut table = vec![0; ROW * rows(4097)];
        assert_eq!(build(Name::A, &zigzag(4097), &mut table), Ok(()));
        assert_eq!(build(Name::A, &zigzag(4098), &mut table), refusal(3, 0));
    }

    #[test]
    fn table_of_33_numbers_serves_l_and_32_is_refused_6() {
        assert_eq!(build(Name::A, &L, &mut [0; 33]), Ok(()));
        assert_eq!(build(Name::A, &L, &mut [0; 32]), refusal(6, 0));
    }

    #[test]
    fn odd_length_and_too_few_points_are_refused_first() {
        assert_eq!(build(Name::A, &[9_999_999], &mut []), refusal(1, 0));
        assert_eq!(build(Name::A, &[], &mut []), refusal(2, 0));
        assert_eq!(build(Name::A, &[9_999_999, 0], &mut []), refusal(2, 0));
        let off_and_no_table = build(Name::A, &[9_999_999, 0, 0, 0], &mut []);
        assert_eq!(off_and_no_table, refusal(4, 0));
    }
}
