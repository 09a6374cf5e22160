//! The four questions by the written walk, with visits counted against an allowance.
//!
//! docs/RULES.md, section 4. Each walk is a loop over a stack of nodes that are due, the
//! next one on top; taking a node from the stack is what makes a visit due. A row may hold any
//! 64-bit numbers: it is checked before anything is computed from it. A good one has its box and its
//! two ends on the sheet, so c and t fit i64, and cmin <= 0 <= cmax (t likewise), so a shortfall is
//! at most |c(z)| < 2^43. Squares are compared in i128: D^2 * |u|^2 is below 2^85.

use crate::geometry::{
    all_points, crosses, on_segment, point, share_point, within, Name, Point, Segment,
};
use crate::tree::{
    check_points, check_table, on_sheet, Extents, Frame, Refusal, Span, FARTHEST, ROW, SHEET,
};

/// What a question is answered with.
#[derive(Clone, Copy, PartialEq, Eq, Debug)]
pub enum Answer {
    Yes,
    No,
    /// AGREE's no: the first point that is not near the other line.
    NoAt(Name, usize),
    Inside,
    Outside,
    On,
    Undecided,
    Refused(Refusal),
}

#[derive(Clone, Copy, PartialEq, Eq, Debug)]
pub struct Outcome {
    pub answer: Answer,
    pub visits: u32,
}

impl Outcome {
    pub fn refused(refusal: Refusal) -> Outcome {
        Outcome {
            answer: Answer::Refused(refusal),
            visits: 0,
        }
    }
}

/// A line with its table, as lent to a question.
#[derive(Clone, Copy)]
pub struct Tree<'a> {
    pub name: Name,
    pub points: &'a [i64],
    pub table: &'a [i64],
}

/// NEAR: is `z` within `d` of the line?
pub fn near(a: Tree, z: Point, d: i64, allowance: u32) -> Outcome {
    let checked = a
        .check()
        .and_then(|()| check_distance(d))
        .and_then(|()| check_asked(z));
    if let Err(refusal) = checked {
        return Outcome::refused(refusal);
    }
    let mut tally = Tally::new(allowance);
    let found = walk_near(a, z, d, &mut tally, &mut Vec::new());
    tally.outcome(found.map(yes_or_no))
}

/// MEET: do the lines share a point?
pub fn meet(a: Tree, b: Tree, allowance: u32) -> Outcome {
    if let Err(refusal) = a.check().and_then(|()| b.check()) {
        return Outcome::refused(refusal);
    }
    let mut tally = Tally::new(allowance);
    let found = walk_meet(a, b, &mut tally);
    tally.outcome(found.map(yes_or_no))
}

/// IN: on which side of the ring does `z` lie?
pub fn side(a: Tree, z: Point, allowance: u32) -> Outcome {
    let checked = a
        .check()
        .and_then(|()| check_asked(z))
        .and_then(|()| a.check_ring());
    if let Err(refusal) = checked {
        return Outcome::refused(refusal);
    }
    let mut tally = Tally::new(allowance);
    let found = walk_side(a, z, &mut tally);
    tally.outcome(found)
}

/// AGREE: is each point of either line near the other?
pub fn agree(a: Tree, b: Tree, d: i64, allowance: u32) -> Outcome {
    let checked = a
        .check()
        .and_then(|()| b.check())
        .and_then(|()| check_distance(d));
    if let Err(refusal) = checked {
        return Outcome::refused(refusal);
    }
    let mut tally = Tally::new(allowance);
    let found = walk_agree(a, b, d, &mut tally);
    tally.outcome(found)
}

fn yes_or_no(found: bool) -> Answer {
    if found {
        Answer::Yes
    } else {
        Answer::No
    }
}

/// Refusal 7.
fn check_distance(d: i64) -> Result<(), Refusal> {
    if (0..=FARTHEST).contains(&d) {
        Ok(())
    } else {
        Err(Refusal {
            number: 7,
            line: None,
            place: 0,
        })
    }
}

/// Refusal 8, outside AGREE.
fn check_asked(z: Point) -> Result<(), Refusal> {
    if on_sheet(z) {
        Ok(())
    } else {
        Err(Refusal {
            number: 8,
            line: None,
            place: 0,
        })
    }
}

/// Why a walk ends without an answer.
enum Stop {
    NoneLeft,
    Refused(Refusal),
}

/// Visits made, never above the allowance.
struct Tally {
    allowance: u32,
    visits: u32,
}

impl Tally {
    fn new(allowance: u32) -> Tally {
        Tally {
            allowance,
            visits: 0,
        }
    }

    /// A visit is due: count it before anything is read, or stop.
    fn visit(&mut self) -> Result<(), Stop> {
        if self.visits == self.allowance {
            return Err(Stop::NoneLeft);
        }
        self.visits += 1;
        Ok(())
    }

    fn outcome(&self, found: Result<Answer, Stop>) -> Outcome {
        let answer = match found {
            Ok(answer) => answer,
            Err(Stop::NoneLeft) => Answer::Undecided,
            Err(Stop::Refused(refusal)) => Answer::Refused(refusal),
        };
        Outcome {
            answer,
            visits: self.visits,
        }
    }
}

/// A node that is due: its row and the range handed down to it.
#[derive(Clone, Copy)]
pub(crate) struct Node {
    pub(crate) row: usize,
    pub(crate) first: usize,
    pub(crate) last: usize,
}

impl Node {
    fn segments(self) -> usize {
        self.last - self.first
    }

    /// The left and the right half, at a split strictly between first and last.
    ///
    /// Their rows are in the table: row r with k segments has r + 2k <= 2n, so r is below 2n - 1.
    /// It holds of the root, and both halves keep it, as each has at least one segment.
    fn halves(self, split: usize) -> [Node; 2] {
        [
            Node {
                row: self.row + 1,
                first: self.first,
                last: split,
            },
            Node {
                row: self.row + 2 * (split - self.first),
                first: split,
                last: self.last,
            },
        ]
    }
}

/// A good row with the points it stands on.
pub(crate) struct View {
    /// First point to last: the chord, and for a leaf the segment itself.
    chord: Segment,
    frame: Frame,
    extents: Extents,
    /// None for a leaf.
    pub(crate) split: Option<usize>,
}

impl View {
    /// Does the strip alone keep `z` farther than `d` from all of the node?
    fn far_from(&self, z: Point, d: i64) -> bool {
        let gc = i128::from(self.extents.c.shortfall(self.frame.c(z.x, z.y)));
        let gt = i128::from(self.extents.t.shortfall(self.frame.t(z.x, z.y)));
        let d = i128::from(d);
        gc * gc + gt * gt > d * d * i128::from(self.frame.square())
    }

    /// Is `z` strictly outside the box or the strip?
    pub(crate) fn clear_of(&self, z: Point) -> bool {
        !(self.extents.x.holds(z.x)
            && self.extents.y.holds(z.y)
            && self.extents.c.holds(self.frame.c(z.x, z.y))
            && self.extents.t.holds(self.frame.t(z.x, z.y)))
    }

    /// c and t of this node at the four corners of the other's box fall on one side of the strip.
    fn strip_misses_box(&self, other: &View) -> bool {
        let (x, y) = (other.extents.x, other.extents.y);
        let corners = [
            (x.least, y.least),
            (x.least, y.greatest),
            (x.greatest, y.least),
            (x.greatest, y.greatest),
        ];
        self.extents
            .c
            .missed_by(corners.map(|(x, y)| self.frame.c(x, y)))
            || self
                .extents
                .t
                .missed_by(corners.map(|(x, y)| self.frame.t(x, y)))
    }
}

impl Tree<'_> {
    /// Refusals 1, 2, 3 and 6.
    fn check(&self) -> Result<(), Refusal> {
        check_points(self.name, self.points)?;
        check_table(self.name, self.points, self.table)
    }

    /// Refusal 9.
    fn check_ring(&self) -> Result<(), Refusal> {
        let count = self.points.len() / 2;
        if count < 4 || point(self.points, 0) != point(self.points, count - 1) {
            return Err(Refusal {
                number: 9,
                line: Some(self.name),
                place: 0,
            });
        }
        Ok(())
    }

    fn root(&self) -> Node {
        Node {
            row: 0,
            first: 0,
            last: self.points.len() / 2 - 1,
        }
    }

    /// Reads the row of a node at a visit, or refuses it as bad (refusal 10).
    fn read(&self, node: Node) -> Result<View, Stop> {
        self.view(node).ok_or(Stop::Refused(Refusal {
            number: 10,
            line: Some(self.name),
            place: node.row as u64,
        }))
    }

    /// The row of a node, where it is good.
    pub(crate) fn view(&self, node: Node) -> Option<View> {
        let row = &self.table[ROW * node.row..][..ROW];
        let chord = Segment {
            from: point(self.points, node.first),
            to: point(self.points, node.last),
        };
        if !good(row, node, chord) {
            return None;
        }
        Some(View {
            chord,
            frame: Frame::of(chord.from, chord.to),
            extents: extents(row),
            split: (node.segments() > 1).then_some(row[2] as usize),
        })
    }
}

/// The strip and the box of a row.
fn extents(row: &[i64]) -> Extents {
    let span = |at: usize| Span {
        least: row[at],
        greatest: row[at + 1],
    };
    Extents {
        c: span(3),
        t: span(5),
        x: span(7),
        y: span(9),
    }
}

/// Is the row good for that node, whose first and last points are those of the chord?
fn good(row: &[i64], node: Node, chord: Segment) -> bool {
    // Indices are at most 4,096, so as i64 they compare with the row's numbers exactly.
    let (first, last, split) = (node.first as i64, node.last as i64, row[2]);
    let split_good = if node.segments() == 1 {
        split == -1 && chord.from != chord.to
    } else {
        first < split && split < last
    };
    let extents = extents(row);
    let side_good = |s: Span| -SHEET <= s.least && s.least <= s.greatest && s.greatest <= SHEET;
    row[..2] == [first, last]
        && split_good
        && extents.c.holds(0)
        && extents.t.holds(0)
        && side_good(extents.x)
        && side_good(extents.y)
        && on_sheet(chord.from)
        && on_sheet(chord.to)
}

/// `due` is lent so that AGREE asks for its room once.
fn walk_near(
    tree: Tree,
    z: Point,
    d: i64,
    tally: &mut Tally,
    due: &mut Vec<Node>,
) -> Result<bool, Stop> {
    due.clear();
    due.push(tree.root());
    while let Some(node) = due.pop() {
        tally.visit()?;
        let view = tree.read(node)?;
        if view.far_from(z, d) {
            continue;
        }
        match view.split {
            None if within(view.chord, z, d) => return Ok(true),
            None => {}
            Some(split) => {
                let [left, right] = node.halves(split);
                due.extend([right, left]);
            }
        }
    }
    Ok(false)
}

fn walk_meet(a: Tree, b: Tree, tally: &mut Tally) -> Result<bool, Stop> {
    let mut due = vec![(a.root(), b.root())];
    while let Some((p, q)) = due.pop() {
        tally.visit()?;
        let of_p = a.read(p)?;
        let of_q = b.read(q)?;
        if of_p.extents.x.disjoint(of_q.extents.x)
            || of_p.extents.y.disjoint(of_q.extents.y)
            || of_p.strip_misses_box(&of_q)
            || of_q.strip_misses_box(&of_p)
        {
            continue;
        }
        // The node with more segments splits, A's on a tie; it has a split, as it is no leaf.
        let a_splits = p.segments() >= q.segments();
        match (of_p.split, of_q.split) {
            (None, None) => {
                if share_point(of_p.chord, of_q.chord) {
                    return Ok(true);
                }
            }
            (Some(split), _) if a_splits => {
                let [left, right] = p.halves(split);
                due.extend([(right, q), (left, q)]);
            }
            (_, Some(split)) => {
                let [left, right] = q.halves(split);
                due.extend([(p, right), (p, left)]);
            }
            (Some(_), None) => unreachable!("a leaf has the fewest segments"),
        }
    }
    Ok(false)
}

fn walk_side(ring: Tree, z: Point, tally: &mut Tally) -> Result<Answer, Stop> {
    let mut odd = false;
    let mut due = vec![ring.root()];
    while let Some(node) = due.pop() {
        tally.visit()?;
        let view = ring.read(node)?;
        match view.split {
            // Seen from outside the run winds as its chord does; equal ends cross nothing.
            _ if view.clear_of(z) => odd ^= crosses(view.chord, z),
            None if on_segment(view.chord, z) => return Ok(Answer::On),
            None => odd ^= crosses(view.chord, z),
            Some(split) => {
                let [left, right] = node.halves(split);
                due.extend([right, left]);
            }
        }
    }
    Ok(if odd { Answer::Inside } else { Answer::Outside })
}

fn walk_agree(a: Tree, b: Tree, d: i64, tally: &mut Tally) -> Result<Answer, Stop> {
    let mut due = Vec::new();
    for (of, other) in [(a, b), (b, a)] {
        for (index, p) in all_points(of.points).enumerate() {
            if !on_sheet(p) {
                return Err(Stop::Refused(Refusal {
                    number: 8,
                    line: Some(of.name),
                    place: index as u64,
                }));
            }
            if !walk_near(other, p, d, tally, &mut due)? {
                return Ok(Answer::NoAt(of.name, index));
            }
        }
    }
    Ok(Answer::Yes)
}

#[cfg(test)]
mod tests {
    use super::*;
    use crate::tree::{build, rows};
    use std::collections::BTreeSet;

    const L: [i64; 6] = [0, 0, 4, 3, 8, 0];
    const SQUARE: [i64; 10] = [0, 0, 4, 0, 4, 4, 0, 4, 0, 0];
    /// The diagonal of the sheet.
    const DIAGONAL: [i64; 4] = [-1_000_000, -1_000_000, 1_000_000, 1_000_000];
    const MOST: u32 = u32::MAX;

    /// A line with its own table.
    struct Built {
        name: Name,
        points: Vec<i64>,
        table: Vec<i64>,
    }

    impl Built {
        fn tree(&self) -> Tree<'_> {
            Tree {
                name: self.name,
                points: &self.points,
                table: &self.table,
            }
        }
    }

    fn built(name: Name, points: &[i64]) -> Built {
        let mut table = vec![0; ROW * rows(points.len() / 2 - 1)];
        build(name, points, &mut table).expect("these points are sound");
        Built {
            name,
            points: points.to_vec(),
            table,
        }
    }

    fn at(x: i64, y: i64) -> Point {
        Point { x, y }
    }

    fn says(answer: Answer, visits: u32) -> Outcome {
        Outcome { answer, visits }
    }

    fn refused(number: u8, line: Option<Name>, place: u64, visits: u32) -> Outcome {
        let refusal = Refusal {
            number,
            line,
            place,
        };
        says(Answer::Refused(refusal), visits)
    }

    fn near_l(z: Point, d: i64, allowance: u32) -> Outcome {
        near(built(Name::A, &L).tree(), z, d, allowance)
    }

    fn meet_l(b: &[i64], allowance: u32) -> Outcome {
        let (a, b) = (built(Name::A, &L), built(Name::B, b));
        meet(a.tree(), b.tree(), allowance)
    }

    fn in_square(x: i64, y: i64) -> Outcome {
        side(built(Name::A, &SQUARE).tree(), at(x, y), MOST)
    }

    fn agreeing(a: &[i64], b: &[i64], d: i64, allowance: u32) -> Outcome {
        let (a, b) = (built(Name::A, a), built(Name::B, b));
        agree(a.tree(), b.tree(), d, allowance)
    }

    #[test]
    fn p2_near_l_at_two_is_yes_after_two_visits() {
        assert_eq!(near_l(at(4, 5), 2, 10), says(Answer::Yes, 2));
    }

    #[test]
    fn p3_near_l_at_one_is_no_after_one_visit() {
        assert_eq!(near_l(at(4, 5), 1, 10), says(Answer::No, 1));
    }

    #[test]
    fn p4_near_l_with_too_small_an_allowance_is_undecided() {
        assert_eq!(near_l(at(4, 5), 2, 1), says(Answer::Undecided, 1));
        assert_eq!(near_l(at(4, 5), 2, 0), says(Answer::Undecided, 0));
    }

    #[test]
    fn p5_near_l_from_below_at_two_is_no_after_three_visits() {
        assert_eq!(near_l(at(4, 0), 2, 10), says(Answer::No, 3));
    }

    #[test]
    fn p6_near_l_from_below_at_three_is_yes_after_two_visits() {
        assert_eq!(near_l(at(4, 0), 3, 10), says(Answer::Yes, 2));
    }

    #[test]
    fn p7_meet_one_unit_short_is_no_after_three_visits() {
        assert_eq!(meet_l(&[4, 0, 4, 2], 9), says(Answer::No, 3));
    }

    #[test]
    fn p8_meet_at_the_corner_is_yes_after_two_visits() {
        assert_eq!(meet_l(&[4, 0, 4, 3], 9), says(Answer::Yes, 2));
    }

    #[test]
    fn p9_middle_of_the_square_is_inside_after_seven_visits() {
        assert_eq!(in_square(2, 2), says(Answer::Inside, 7));
    }

    #[test]
    fn p10_edge_of_the_square_is_on_after_four_visits() {
        assert_eq!(in_square(4, 2), says(Answer::On, 4));
    }

    #[test]
    fn p11_right_of_the_square_is_outside_after_one_visit() {
        assert_eq!(in_square(5, 2), says(Answer::Outside, 1));
    }

    #[test]
    fn p12_below_the_diagonal_is_inside_after_five_visits() {
        assert_eq!(in_square(3, 1), says(Answer::Inside, 5));
    }

    #[test]
    fn ring_of_4_points_is_taken_and_of_3_refused_9() {
        let four = built(Name::A, &[0, 0, 4, 0, 0, 4, 0, 0]);
        let inside = side(four.tree(), at(1, 1), MOST);
        assert_eq!(inside, says(Answer::Inside, 5));
        let three = built(Name::A, &[0, 0, 4, 3, 0, 0]);
        let too_short = side(three.tree(), at(1, 1), MOST);
        assert_eq!(too_short, refused(9, Some(Name::A), 0, 0));
        let open = built(Name::A, &[0, 0, 4, 0, 4, 4, 0, 4]);
        let not_closed = side(open.tree(), at(1, 1), MOST);
        assert_eq!(not_closed, refused(9, Some(Name::A), 0, 0));
    }

    #[test]
    fn figure_8_2_corner_of_the_sheet_is_between_1414213_and_1414214_from_the_diagonal() {
        let diagonal = built(Name::A, &DIAGONAL);
        let corner = at(1_000_000, -1_000_000);
        for (d, answer) in [
            (1_414_213, Answer::No),
            (1_414_214, Answer::Yes),
            (2_000_000, Answer::Yes),
        ] {
            assert_eq!(near(diagonal.tree(), corner, d, MOST), says(answer, 1));
        }
    }

    #[test]
    fn figure_8_3_distance_is_refused_7_and_the_asked_point_8() {
        let diagonal = built(Name::A, &DIAGONAL);
        for d in [2_000_001, -1] {
            let outcome = near(diagonal.tree(), at(0, 0), d, MOST);
            assert_eq!(outcome, refused(7, None, 0, 0));
        }
        let outcome = near(diagonal.tree(), at(1_000_001, 0), 0, MOST);
        assert_eq!(outcome, refused(8, None, 0, 0));
    }

    #[test]
    fn figure_8_6_box_beyond_the_old_sheet_is_good_and_beyond_the_sheet_bad() {
        let mut a = built(Name::A, &L);
        for (xmax, outcome) in [
            (16_384, says(Answer::Yes, 2)),
            (1_000_000, says(Answer::Yes, 2)),
            (1_000_001, refused(10, Some(Name::A), 0, 1)),
            ((1 << 32) + 8, refused(10, Some(Name::A), 0, 1)),
        ] {
            a.table[8] = xmax;
            assert_eq!(near(a.tree(), at(4, 5), 2, MOST), outcome);
        }
    }

    #[test]
    fn figure_8_8_strip_that_begins_at_the_least_number_wraps_nothing() {
        let mut a = built(Name::A, &L);
        a.table[3] = i64::MIN;
        let outcome = near(a.tree(), at(4, -9), 1, MOST);
        assert_eq!(outcome, says(Answer::No, 3));
    }

    #[test]
    fn strip_without_bounds_dismisses_nothing_and_changes_no_answer() {
        let mut a = built(Name::A, &L);
        for row in 0..3 {
            let all = [i64::MIN, i64::MAX, i64::MIN, i64::MAX];
            a.table[ROW * row + 3..][..4].copy_from_slice(&all);
        }
        let b = built(Name::B, &[4, 0, 4, 2]);
        assert_eq!(near(a.tree(), at(4, 5), 1, MOST), says(Answer::No, 3));
        assert_eq!(near(a.tree(), at(4, 5), 2, MOST), says(Answer::Yes, 2));
        assert_eq!(meet(a.tree(), b.tree(), MOST).answer, Answer::No);
        assert_eq!(agree(a.tree(), b.tree(), 5, MOST).answer, Answer::Yes);
    }

    #[test]
    fn distance_2000000_is_taken_and_2000001_and_minus_1_refused_7() {
        assert_eq!(near_l(at(4, 5), 2_000_000, 10), says(Answer::Yes, 2));
        assert_eq!(agreeing(&L, &L, 2_000_000, 99).answer, Answer::Yes);
        for d in [2_000_001, -1, (1 << 32) + 2, i64::MIN, i64::MAX] {
            assert_eq!(near_l(at(4, 5), d, 10), refused(7, None, 0, 0));
            assert_eq!(agreeing(&L, &L, d, 10), refused(7, None, 0, 0));
        }
    }

    #[test]
    fn asked_point_of_64_bits_is_refused_8_also_where_its_low_32_bits_are_on_the_sheet() {
        let ring = built(Name::A, &SQUARE);
        for off in [1_000_001, -1_000_001, (1 << 32) + 4, i64::MIN, i64::MAX] {
            for z in [at(off, 4), at(4, off)] {
                assert_eq!(near_l(z, 2, MOST), refused(8, None, 0, 0));
                assert_eq!(side(ring.tree(), z, MOST), refused(8, None, 0, 0));
            }
        }
    }

    #[test]
    fn hard_points_are_decided_exactly() {
        let cases = [
            (
                [-12782, 383, -10910, -1255],
                at(-12526, 159),
                0,
                Answer::Yes,
            ),
            ([-50, 913, 6515, 8185], at(4922, 8447), 1358, Answer::Yes),
            ([-50, 913, 6515, 8185], at(4922, 8447), 1357, Answer::No),
            ([0, -16383, 5137, -16382], at(-1, -6109), 10274, Answer::No),
            ([0, -16383, 5137, -16382], at(-1, -6109), 10275, Answer::Yes),
            // u = (1000000, 1), c^2 is D^2 * |u|^2 + 1.
            (
                [0, -1_000_000, 1_000_000, -999_999],
                at(-1, 1_000_000),
                2_000_000,
                Answer::No,
            ),
            // u = (707, 1), c^2 is D^2 * |u|^2 - 1.
            (
                [0, -1_000_000, 707, -999_999],
                at(-2_121, 999_396),
                1_999_397,
                Answer::Yes,
            ),
        ];
        for (line, z, d, answer) in cases {
            let a = built(Name::A, &line);
            assert_eq!(near(a.tree(), z, d, 1), says(answer, 1));
        }
    }

    #[test]
    fn far_node_is_dismissed_by_1_in_the_square() {
        // The inner point lies on the other side than z, so the strip ends at the chord, which has
        // u = (999990, 1), and c^2 is D^2 * |u|^2 + 1.
        let line = [0, -999_985, 500_000, -999_990, 999_990, -999_984];
        let a = built(Name::A, &line);
        let z = at(-1, 999_995);
        assert_eq!(near(a.tree(), z, 1_999_980, MOST), says(Answer::No, 1));
        assert_eq!(near(a.tree(), z, 1_999_981, MOST), says(Answer::Yes, 2));
    }

    #[test]
    fn far_node_that_is_exactly_d_away_is_not_dismissed() {
        // u = 200000 * (4, 3), |u| = 1000000; z is 1000000 to the left of it, the line to the right.
        let line = [-400_000, -300_000, 300_000, -500_000, 400_000, 300_000];
        let a = built(Name::A, &line);
        let z = at(-600_000, 800_000);
        assert_eq!(near(a.tree(), z, 999_999, MOST), says(Answer::No, 1));
        assert_eq!(near(a.tree(), z, 1_000_000, MOST), says(Answer::No, 3));
    }

    #[test]
    fn every_allowance_below_the_exact_one_is_undecided_and_none_above_changes_the_answer() {
        let zigzag: Vec<i64> = (0..30).flat_map(|i| [i, i % 2 * 7]).collect();
        let other: Vec<i64> = (0..30).flat_map(|i| [i, i % 3 * 3 + 1]).collect();
        let mut ring = zigzag.clone();
        ring.extend([29, -1, 0, -1, 0, 0]);
        let (a, b) = (built(Name::A, &zigzag), built(Name::B, &other));
        let ring = built(Name::A, &ring);
        let ask = |allowance| {
            [
                near(a.tree(), at(15, 9), 1, allowance),
                near(a.tree(), at(15, 3), 0, allowance),
                meet(a.tree(), b.tree(), allowance),
                side(ring.tree(), at(15, 3), allowance),
                agree(a.tree(), b.tree(), 5, allowance),
            ]
        };
        for (kind, decided) in ask(MOST).into_iter().enumerate() {
            assert_ne!(decided.answer, Answer::Undecided);
            for allowance in 0..decided.visits {
                let short = says(Answer::Undecided, allowance);
                assert_eq!(ask(allowance)[kind], short);
            }
            assert_eq!(ask(decided.visits)[kind], decided);
            assert_eq!(ask(decided.visits + 1)[kind], decided);
        }
    }

    #[test]
    fn meet_visits_the_left_half_first() {
        assert_eq!(meet_l(&[-1, 0, 0, 0], 9), says(Answer::Yes, 2));
        assert_eq!(meet_l(&[8, 0, 9, 0], 9), says(Answer::Yes, 3));
    }

    #[test]
    fn meet_splits_a_on_a_tie() {
        // B's second segment crosses A's first, B's first stays under the roof of A: splitting B
        // first would take six visits.
        assert_eq!(meet_l(&[5, 0, 4, 1, 0, 2], 9), says(Answer::Yes, 4));
    }

    #[test]
    fn collinear_lines_meet_when_they_touch_and_not_when_apart() {
        assert_eq!(meet_l(&[8, 0, 12, -3], 9).answer, Answer::Yes);
        let (a, b) = ([0, 0, 2, 2, 4, 4], [4, 4, 6, 6]);
        let touching = meet(built(Name::A, &a).tree(), built(Name::B, &b).tree(), MOST);
        assert_eq!(touching.answer, Answer::Yes);
        let apart = meet(
            built(Name::A, &a).tree(),
            built(Name::B, &[5, 5, 6, 6]).tree(),
            MOST,
        );
        assert_eq!(apart, says(Answer::No, 1));
    }

    #[test]
    fn stub_does_not_agree_with_a_long_line_either_way_round() {
        let (long, stub) = ([0, 0, 10, 0, 20, 0], [0, 1, 9, 1]);
        let long_first = agreeing(&long, &stub, 2, MOST);
        assert_eq!(long_first.answer, Answer::NoAt(Name::A, 2));
        let stub_first = agreeing(&stub, &long, 2, MOST);
        assert_eq!(stub_first.answer, Answer::NoAt(Name::B, 2));
        assert_eq!(agreeing(&stub, &long, 12, MOST).answer, Answer::Yes);
    }

    #[test]
    fn agree_takes_at_most_the_visits_that_are_enough() {
        let zigzag: Vec<i64> = (0..20).flat_map(|i| [i, i % 2 * 7]).collect();
        let (n, m) = (19, 2);
        let outcome = agreeing(&zigzag, &L, 2_000_000, MOST);
        assert_eq!(outcome.answer, Answer::Yes);
        assert!(outcome.visits <= (n + 1) * (2 * m - 1) + (m + 1) * (2 * n - 1));
    }

    #[test]
    fn refusals_of_a_come_wholly_before_those_of_b_and_those_before_distance() {
        let good = built(Name::A, &L);
        let tree = |name, points, table| Tree {
            name,
            points,
            table,
        };
        let (odd, one) = ([0; 3], [0; 2]);
        let first = |a, b| agree(a, b, -1, 0);
        assert_eq!(
            first(tree(Name::A, &L, &[0; 32]), tree(Name::B, &odd, &[])),
            refused(6, Some(Name::A), 0, 0)
        );
        assert_eq!(
            first(good.tree(), tree(Name::B, &odd, &[])),
            refused(1, Some(Name::B), 0, 0)
        );
        assert_eq!(
            first(good.tree(), tree(Name::B, &one, &[])),
            refused(2, Some(Name::B), 0, 0)
        );
        let many = vec![0; 2 * 4098];
        assert_eq!(
            first(good.tree(), tree(Name::B, &many, &[])),
            refused(3, Some(Name::B), 0, 0)
        );
        assert_eq!(first(good.tree(), good.tree()), refused(7, None, 0, 0));
    }

    #[test]
    fn distance_is_refused_before_the_asked_point_and_that_before_the_ring() {
        let off = at(1_000_001, 0);
        assert_eq!(near_l(off, -1, 0), refused(7, None, 0, 0));
        assert_eq!(near_l(off, 0, 0), refused(8, None, 0, 0));
        let open = built(Name::A, &L);
        assert_eq!(side(open.tree(), off, 0), refused(8, None, 0, 0));
    }

    #[test]
    fn agree_refuses_a_point_off_the_sheet_when_it_comes_up() {
        let mut a = built(Name::A, &L);
        a.points[5] = 1_000_001;
        let b = built(Name::B, &[0, 0, 8, 0]);
        let outcome = agree(a.tree(), b.tree(), 100, MOST);
        assert_eq!(outcome, refused(8, Some(Name::A), 2, 2));
    }

    #[test]
    fn bad_row_is_refused_10_and_its_visit_counts() {
        // (place in the table of L, bad value); rows 0, 1 and 2 start at 0, 11 and 22.
        let bad = [
            (0, 1),
            (1, 3),
            (2, -1),
            (2, 0),
            (2, 2),
            (3, 1),
            (4, -1),
            (5, 1),
            (6, -1),
            (7, -1_000_001),
            (7, 9),
            (8, 1_000_001),
            (9, 4),
            (10, 1_000_001),
            (11, 1),
            (12, 2),
            (13, 1),
            (14, 1),
            (17, -1),
            (22, 0),
            (23, 1),
            (24, 2),
        ];
        for (place, value) in bad {
            l_is_refused_10(place, value);
        }
    }

    #[test]
    fn row_that_is_good_in_its_low_32_bits_alone_is_refused_10() {
        let table = built(Name::A, &L).table;
        for place in [0, 1, 2, 7, 8, 9, 10, 11, 12, 13, 22, 23, 24] {
            l_is_refused_10(place, table[place] + (1 << 32));
            l_is_refused_10(place, table[place].wrapping_add(i64::MIN));
        }
        // Of a strip it is the sign that counts.
        for place in [3, 5] {
            l_is_refused_10(place, 1 << 32);
            l_is_refused_10(place, i64::MAX);
        }
        for place in [4, 6] {
            l_is_refused_10(place, -(1 << 32));
            l_is_refused_10(place, i64::MIN);
        }
    }

    /// The walk visits all rows of L, and the one with the bad number is its last.
    fn l_is_refused_10(place: usize, value: i64) {
        let mut a = built(Name::A, &L);
        a.table[place] = value;
        let row = place / ROW;
        // Far enough from the left leaf to reach the right one, near enough to reach both.
        let outcome = near(a.tree(), at(4, 0), 2, MOST);
        let expected = refused(10, Some(Name::A), row as u64, row as u32 + 1);
        assert_eq!(outcome, expected, "{place} {value}");
    }

    #[test]
    fn wrong_split_or_range_is_refused_10_at_its_own_row() {
        // (row of L, number in the row, bad value): 1 is its last, 2 its split.
        for (row, number, value) in [(0, 2, 2), (0, 2, i64::MAX), (0, 1, 3), (2, 2, 1)] {
            l_is_refused_10(ROW * row + number, value);
        }
        let mut one_higher = built(Name::B, &[0, 1, 4, 4, 8, 1]);
        one_higher.table[2] = 2;
        let outcome = meet(built(Name::A, &L).tree(), one_higher.tree(), MOST);
        assert_eq!(outcome, refused(10, Some(Name::B), 0, 1));
    }

    /// Each place of the table with each of: the least number, the greatest, -1 to the count of
    /// points.
    fn damages(line: &Built) -> Vec<(usize, i64)> {
        let count = line.points.len() as i64 / 2;
        let values: Vec<i64> = (-1..=count).chain([i64::MIN, i64::MAX]).collect();
        (0..line.table.len())
            .flat_map(|place| values.iter().map(move |&value| (place, value)))
            .collect()
    }

    /// The rows that are refused when any two numbers of the table are damaged.
    fn rows_refused(line: &Built, ask: impl Fn(Tree) -> Outcome) -> BTreeSet<u64> {
        let damages = damages(line);
        let mut refused = BTreeSet::new();
        for &(place, value) in &damages {
            for &(other_place, other_value) in &damages {
                let mut table = line.table.clone();
                table[place] = value;
                table[other_place] = other_value;
                let damaged = Tree {
                    table: &table,
                    ..line.tree()
                };
                if let Answer::Refused(refusal) = ask(damaged).answer {
                    assert_eq!((refusal.number, refusal.line), (10, Some(line.name)));
                    refused.insert(refusal.place);
                }
            }
        }
        refused
    }

    #[test]
    fn rows_that_are_read_are_those_below_2n_minus_1_whatever_two_numbers_are_damaged() {
        // No lent table has a number past its 2n - 1 rows: to read there would be a panic.
        let every_row: BTreeSet<u64> = (0..5).collect();
        let k = built(Name::A, &[0, 0, 2, 1, 4, 3, 8, 0]);
        let of_near = rows_refused(&k, |a| near(a, at(4, 0), 2, 99));
        assert_eq!(of_near, every_row);
        let one_higher = built(Name::B, &[0, 1, 2, 2, 4, 4, 8, 1]);
        let of_a = rows_refused(&k, |a| meet(a, one_higher.tree(), 99));
        assert_eq!(of_a, every_row);
        let of_b = rows_refused(&one_higher, |b| meet(k.tree(), b, 99));
        assert_eq!(of_b, every_row);
        let ring = built(Name::A, &[0, 0, 4, 0, 0, 4, 0, 0]);
        let of_side = rows_refused(&ring, |a| side(a, at(1, 1), 99));
        assert_eq!(of_side, every_row);
    }

    #[test]
    fn points_that_a_row_stands_on_are_checked_with_it() {
        let mut off = built(Name::A, &L);
        off.points[4] = 1_000_001;
        let outcome = near(off.tree(), at(4, 0), 2, MOST);
        assert_eq!(outcome, refused(10, Some(Name::A), 0, 1));
        let mut equal = built(Name::A, &L);
        equal.points[..2].copy_from_slice(&[4, 3]);
        let outcome = near(equal.tree(), at(4, 0), 100, MOST);
        assert_eq!(outcome, refused(10, Some(Name::A), 1, 2));
    }

    #[test]
    fn in_a_pair_the_row_of_a_is_checked_before_that_of_b() {
        let (mut a, mut b) = (built(Name::A, &L), built(Name::B, &L));
        b.table[0] = 1;
        let outcome = meet(a.tree(), b.tree(), MOST);
        assert_eq!(outcome, refused(10, Some(Name::B), 0, 1));
        a.table[0] = 1;
        let outcome = meet(a.tree(), b.tree(), MOST);
        assert_eq!(outcome, refused(10, Some(Name::A), 0, 1));
        assert_eq!(meet(a.tree(), b.tree(), 0), says(Answer::Undecided, 0));
    }
}
