//! The yardstick: a strip tree written by hand, in Rust, for speed.
//!
//! Same table rows, same walk, same visits, same row check at every visit, same refusals in the same
//! order as in the rules, and so the same reply to every call, damaged tables included. It uses what a
//! careful Rust programmer would: raw reads where a length was checked before, 64-bit arithmetic where
//! the ranges allow it and 128-bit products where not, a stack of pending ends in place of calls.
//! Nothing is proved here; `main.rs` holds every reply against the proved library and against the
//! plain scan.
//!
//! Why 64 bits suffice but for squares: on the sheet |c|, |t| and |u|^2 are at most 2 * 2,000,000^2 =
//! 8 * 10^12 < 2^43, and so is each of their two products. A good row has cmin, tmin <= 0 <= cmax,
//! tmax, so a shortfall is at most |c| or |t|, whatever else the row holds. The squares of both, and
//! d^2 * |u|^2, reach 2^86: they are compared in 128 bits.
//!
//! Some come in two ways, chosen by `FORM`. False is the faster one. True has the form that is
//! asked of the proved code: a walk or a check calls itself on both halves, in place of a stack of its
//! own; a builder measures strip and box of each node over its run of points, in place of putting the
//! box together from those of the halves (a check has no gain of that). What the form alone costs is the
//! difference between the two.

use core::mem::MaybeUninit;

use crate::lent::line::{LINE_A, LINE_B, NO_LINE};
use crate::lent::word::{ACCEPTED, BUILT, INSIDE, NO, ON, OUTSIDE, REFUSED, UNDECIDED, YES};
use crate::Reply;
use kneukelboom::{FARTHEST, MOST_POINTS, ROW_WIDTH as ROW, SHEET};

type Point = (i64, i64);

#[inline(always)]
fn says(word: u32, visits: u32) -> Reply {
    Reply {
        word,
        visits,
        number: 0,
        line: NO_LINE,
        place: 0,
    }
}

#[cold]
fn refused(number: u32, line: u32, place: u64, visits: u32) -> Reply {
    Reply {
        word: REFUSED,
        visits,
        number,
        line,
        place,
    }
}

// ---- what is checked before a walk

#[inline(always)]
fn in_sheet(v: i64) -> bool {
    (-SHEET..=SHEET).contains(&v)
}

#[inline(always)]
fn asked_on_sheet(x: i64, y: i64) -> bool {
    in_sheet(x) && in_sheet(y)
}

/// Refusals 1, 2 and 3, or the number of segments.
#[inline(always)]
fn segments(points: &[i64], line: u32) -> Result<usize, Reply> {
    let count = points.len() / 2;
    if points.len() % 2 == 1 {
        return Err(refused(1, line, 0, 0));
    }
    if count < 2 {
        return Err(refused(2, line, 0, 0));
    }
    if count > MOST_POINTS {
        return Err(refused(3, line, 0, 0));
    }
    Ok(count - 1)
}

/// A line and its table whose lengths were checked: points 0 to n and rows 0 to 2n-2 may be read.
#[derive(Clone, Copy)]
struct Tree {
    points: *const i64,
    table: *const i64,
    n: usize,
    line: u32,
}

/// Refusals 1, 2, 3 and 6.
#[inline(always)]
fn tree(points: &[i64], table: &[i64], line: u32) -> Result<Tree, Reply> {
    let n = segments(points, line)?;
    if table.len() < ROW * (2 * n - 1) {
        return Err(refused(6, line, 0, 0));
    }
    Ok(Tree {
        points: points.as_ptr(),
        table: table.as_ptr(),
        n,
        line,
    })
}

#[inline(always)]
fn two_trees(
    points_a: &[i64],
    table_a: &[i64],
    points_b: &[i64],
    table_b: &[i64],
) -> Result<(Tree, Tree), Reply> {
    Ok((
        tree(points_a, table_a, LINE_A)?,
        tree(points_b, table_b, LINE_B)?,
    ))
}

// ---- one visit of one node

/// A node that is due: its row and the range handed down.
#[derive(Clone, Copy)]
struct Node {
    row: *const i64,
    first: usize,
    last: usize,
}

impl Node {
    #[inline(always)]
    fn size(self) -> usize {
        self.last - self.first
    }

    /// SAFETY: the split is strictly inside the node, and the node's rows may be read.
    #[inline(always)]
    unsafe fn left(self, split: usize) -> Node {
        Node {
            row: self.row.add(ROW),
            first: self.first,
            last: split,
        }
    }

    /// SAFETY: as for `left`.
    #[inline(always)]
    unsafe fn right(self, split: usize) -> Node {
        Node {
            row: self.row.add(ROW * 2 * (split - self.first)),
            first: split,
            last: self.last,
        }
    }

    /// The node that is due after all of this one, where it ends at `last`.
    ///
    /// SAFETY: there is one: a right half whose left half ends with this node.
    #[inline(always)]
    unsafe fn after(self, last: usize) -> Node {
        Node {
            row: self.row.add(ROW * (2 * self.size() - 1)),
            first: self.last,
            last,
        }
    }
}

/// A good row, with the chord from its first point to its last.
struct Seen {
    split: usize,
    c: (i64, i64),
    t: (i64, i64),
    x: (i64, i64),
    y: (i64, i64),
    from: Point,
    to: Point,
}

impl Tree {
    #[inline(always)]
    fn root(&self) -> Node {
        Node {
            row: self.table,
            first: 0,
            last: self.n,
        }
    }

    /// SAFETY: i is at most n.
    #[inline(always)]
    unsafe fn point(&self, i: usize) -> Point {
        (*self.points.add(2 * i), *self.points.add(2 * i + 1))
    }

    /// The row of a node as a number, for a refusal.
    #[cold]
    fn row_of(&self, node: Node) -> usize {
        (node.row as usize - self.table as usize) / (ROW * size_of::<i64>())
    }

    /// Reads a node's row; none where it is bad.
    ///
    /// SAFETY: the node is the root, or a half of a node whose row was seen. Then its row is one of the
    /// table's: a node of k segments at row r has its subtree in rows r to r + 2k-2, its halves inside.
    #[inline(always)]
    unsafe fn see(&self, node: Node) -> Option<Seen> {
        let at = |k: usize| *node.row.add(k);
        let (first, last) = (node.first as i64, node.last as i64);
        let seen = Seen {
            split: at(2) as usize,
            c: (at(3), at(4)),
            t: (at(5), at(6)),
            x: (at(7), at(8)),
            y: (at(9), at(10)),
            from: self.point(node.first),
            to: self.point(node.last),
        };
        let split_good = if last - first == 1 {
            at(2) == -1 && seen.from != seen.to
        } else {
            first < at(2) && at(2) < last
        };
        let good = at(0) == first
            && at(1) == last
            && split_good
            && seen.c.0 <= 0
            && seen.c.1 >= 0
            && seen.t.0 <= 0
            && seen.t.1 >= 0
            && -SHEET <= seen.x.0
            && seen.x.0 <= seen.x.1
            && seen.x.1 <= SHEET
            && -SHEET <= seen.y.0
            && seen.y.0 <= seen.y.1
            && seen.y.1 <= SHEET
            && in_sheet(seen.from.0)
            && in_sheet(seen.from.1)
            && in_sheet(seen.to.0)
            && in_sheet(seen.to.1);
        good.then_some(seen)
    }
}

/// The axes of a node: its first point and the step to its last.
#[derive(Clone, Copy)]
struct Axes {
    s: Point,
    u: Point,
}

impl Axes {
    #[inline(always)]
    fn of(from: Point, to: Point) -> Axes {
        let u = if from == to {
            (1, 0)
        } else {
            (to.0 - from.0, to.1 - from.1)
        };
        Axes { s: from, u }
    }

    #[inline(always)]
    fn c(&self, (x, y): Point) -> i64 {
        self.u.0 * (y - self.s.1) - self.u.1 * (x - self.s.0)
    }

    #[inline(always)]
    fn t(&self, (x, y): Point) -> i64 {
        self.u.0 * (x - self.s.0) + self.u.1 * (y - self.s.1)
    }

    /// |u|^2
    #[inline(always)]
    fn square(&self) -> i64 {
        self.u.0 * self.u.0 + self.u.1 * self.u.1
    }
}

/// As squares are compared: exact.
#[inline(always)]
fn product(a: i64, b: i64) -> i128 {
    i128::from(a) * i128::from(b)
}

/// The ends of the right halves that are still due, nearest last: where each begins, and its row,
/// follow from the node before it. At most n - 1 are due at a time.
type Due = [MaybeUninit<u16>; MOST_POINTS - 1];

const NOTHING_DUE: Due = [MaybeUninit::uninit(); MOST_POINTS - 1];

/// What one visit does.
enum Visit {
    /// Dismissed, or a leaf tested: on, with a crossing of the ray counted where there is one.
    Pass {
        crosses: bool,
    },
    /// A yes, or on-edge.
    End,
    /// None was left.
    Spent,
    Bad,
    /// The halves are visited.
    Open {
        split: usize,
    },
}

/// What a walk comes to, in two registers. `end` is EVEN or ODD where nothing ended it; only IN counts.
#[derive(Clone, Copy)]
struct Came {
    visits: u32,
    end: u32,
}

const EVEN: u32 = 0;
const ODD: u32 = 1;
const ENDED: u32 = 2;
const SPENT: u32 = 3;
/// A bad row was met: this, and eight times the row.
const BAD: u32 = 4;

// ---- NEAR and IN: one point, one tree

/// What stays the same through a walk. z is on the sheet, and d2 the square of a permitted distance.
struct Asked {
    tree: Tree,
    z: Point,
    d2: i64,
    allowance: u32,
}

impl Asked {
    /// One visit: of IN, or of NEAR.
    ///
    /// SAFETY: as for `see`.
    #[inline(always)]
    unsafe fn visit<const IN: bool>(&self, node: Node, visits: &mut u32) -> Visit {
        if *visits == self.allowance {
            return Visit::Spent;
        }
        *visits += 1;
        let Some(seen) = self.tree.see(node) else {
            return Visit::Bad;
        };
        if IN {
            self.in_visit(node, seen)
        } else {
            self.near_visit(node, seen)
        }
    }

    #[inline(always)]
    fn near_visit(&self, node: Node, seen: Seen) -> Visit {
        let (z, d2) = (self.z, self.d2);
        let axes = Axes::of(seen.from, seen.to);
        let (c, t, u2) = (axes.c(z), axes.t(z), axes.square());
        // Compared first and then subtracted: 0 lies between lo and hi, so nothing wraps.
        let shortfall = |(lo, hi): Point, v: i64| {
            if v < lo {
                lo - v
            } else if hi < v {
                v - hi
            } else {
                0
            }
        };
        let (gc, gt) = (shortfall(seen.c, c), shortfall(seen.t, t));
        let reach = product(d2, u2);
        if product(gc, gc) + product(gt, gt) > reach {
            return Visit::Pass { crosses: false };
        }
        if node.size() > 1 {
            return Visit::Open { split: seen.split };
        }
        let end_within = |p: Point| {
            let (dx, dy) = (z.0 - p.0, z.1 - p.1);
            dx * dx + dy * dy <= d2
        };
        let within = if t <= 0 {
            end_within(seen.from)
        } else if t >= u2 {
            end_within(seen.to)
        } else {
            product(c, c) <= reach
        };
        if within {
            Visit::End
        } else {
            Visit::Pass { crosses: false }
        }
    }

    #[inline(always)]
    fn in_visit(&self, node: Node, seen: Seen) -> Visit {
        let z = self.z;
        let axes = Axes::of(seen.from, seen.to);
        let outside = |(lo, hi): Point, v: i64| v < lo || hi < v;
        let clear = outside(seen.x, z.0)
            || outside(seen.y, z.1)
            || outside(seen.c, axes.c(z))
            || outside(seen.t, axes.t(z));
        if !clear {
            if node.size() > 1 {
                return Visit::Open { split: seen.split };
            }
            if on_segment(z, seen.from, seen.to) {
                return Visit::End;
            }
        }
        Visit::Pass {
            crosses: crosses(z, seen.from, seen.to),
        }
    }

    #[cold]
    fn bad(&self, node: Node, visits: u32) -> Came {
        let end = BAD + 8 * self.tree.row_of(node) as u32;
        Came { visits, end }
    }

    /// The walk by a stack of its own.
    ///
    /// SAFETY: as for `see`, at the root.
    #[inline(always)]
    unsafe fn by_stack<const IN: bool>(&self, mut visits: u32, due: &mut Due) -> Came {
        let mut node = self.tree.root();
        let mut odd = false;
        let mut top = 0;
        loop {
            let end = match self.visit::<IN>(node, &mut visits) {
                Visit::Open { split } => {
                    due.get_unchecked_mut(top).write(node.last as u16);
                    top += 1;
                    node = node.left(split);
                    continue;
                }
                Visit::Pass { crosses } => {
                    odd ^= crosses;
                    if top > 0 {
                        top -= 1;
                        node = node.after(usize::from(due.get_unchecked(top).assume_init()));
                        continue;
                    }
                    u32::from(odd)
                }
                Visit::End => ENDED,
                Visit::Spent => SPENT,
                Visit::Bad => return self.bad(node, visits),
            };
            return Came { visits, end };
        }
    }

    /// The walk that calls itself on the left half and goes on with the right one. The node is handed on in registers.
    ///
    /// SAFETY: as for `see`.
    unsafe fn by_calls<const IN: bool>(
        &self,
        row: *const i64,
        first: usize,
        last: usize,
        mut visits: u32,
    ) -> Came {
        let mut node = Node { row, first, last };
        let mut odd = EVEN;
        loop {
            let end = match self.visit::<IN>(node, &mut visits) {
                Visit::Open { split } => {
                    let Node { row, first, last } = node.left(split);
                    let left = self.by_calls::<IN>(row, first, last, visits);
                    if left.end > ODD {
                        return left;
                    }
                    visits = left.visits;
                    odd ^= left.end;
                    node = node.right(split);
                    continue;
                }
                Visit::Pass { crosses } => odd ^ u32::from(crosses),
                Visit::End => ENDED,
                Visit::Spent => SPENT,
                Visit::Bad => return self.bad(node, visits),
            };
            return Came { visits, end };
        }
    }

    /// SAFETY: as for `see`, at the root.
    #[inline(always)]
    unsafe fn walk<const FORM: bool, const IN: bool>(&self, visits: u32, due: &mut Due) -> Came {
        if FORM {
            let Node { row, first, last } = self.tree.root();
            self.by_calls::<IN>(row, first, last, visits)
        } else {
            self.by_stack::<IN>(visits, due)
        }
    }

    /// The reply to a walk that says these words where nothing ended it, or where a yes or on-edge did.
    #[inline(always)]
    fn reply(&self, came: Came, even: u32, odd: u32, ended: u32) -> Reply {
        match came.end {
            EVEN => says(even, came.visits),
            ODD => says(odd, came.visits),
            ENDED => says(ended, came.visits),
            SPENT => says(UNDECIDED, came.visits),
            bad => refused(10, self.tree.line, (bad / 8).into(), came.visits),
        }
    }
}

#[inline(never)]
pub fn near<const FORM: bool>(
    points: &[i64],
    table: &[i64],
    x: i64,
    y: i64,
    distance: i64,
    allowance: u32,
) -> Reply {
    let tree = match tree(points, table, LINE_A) {
        Ok(tree) => tree,
        Err(refusal) => return refusal,
    };
    if !(0..=FARTHEST).contains(&distance) {
        return refused(7, NO_LINE, 0, 0);
    }
    if !asked_on_sheet(x, y) {
        return refused(8, NO_LINE, 0, 0);
    }
    let asked = Asked {
        tree,
        z: (x, y),
        d2: distance * distance,
        allowance,
    };
    // SAFETY: the lengths were checked.
    let came = unsafe { asked.walk::<FORM, false>(0, &mut { NOTHING_DUE }) };
    asked.reply(came, NO, NO, YES)
}

// ---- IN

/// Whether the step from one point to another crosses the ray from z to the right.
#[inline(always)]
fn crosses(z: Point, from: Point, to: Point) -> bool {
    let (low, high) = if from.1 < to.1 {
        (from, to)
    } else {
        (to, from)
    };
    low.1 <= z.1
        && z.1 < high.1
        && (high.0 - low.0) * (z.1 - low.1) > (z.0 - low.0) * (high.1 - low.1)
}

#[inline(always)]
fn on_segment(z: Point, from: Point, to: Point) -> bool {
    let holds = |a: i64, b: i64, v: i64| a.min(b) <= v && v <= a.max(b);
    holds(from.0, to.0, z.0) && holds(from.1, to.1, z.1) && Axes::of(from, to).c(z) == 0
}

#[inline(never)]
pub fn inside<const FORM: bool>(
    points: &[i64],
    table: &[i64],
    x: i64,
    y: i64,
    allowance: u32,
) -> Reply {
    let tree = match tree(points, table, LINE_A) {
        Ok(tree) => tree,
        Err(refusal) => return refusal,
    };
    if !asked_on_sheet(x, y) {
        return refused(8, NO_LINE, 0, 0);
    }
    // SAFETY: 0 and n are points of the line.
    if tree.n < 3 || unsafe { tree.point(0) != tree.point(tree.n) } {
        return refused(9, LINE_A, 0, 0);
    }
    let asked = Asked {
        tree,
        z: (x, y),
        d2: 0,
        allowance,
    };
    // SAFETY: the lengths were checked.
    let came = unsafe { asked.walk::<FORM, true>(0, &mut { NOTHING_DUE }) };
    asked.reply(came, OUTSIDE, INSIDE, ON)
}

// ---- AGREE

#[inline(never)]
pub fn agree<const FORM: bool>(
    points_a: &[i64],
    table_a: &[i64],
    points_b: &[i64],
    table_b: &[i64],
    distance: i64,
    allowance: u32,
) -> Reply {
    let (a, b) = match two_trees(points_a, table_a, points_b, table_b) {
        Ok(trees) => trees,
        Err(refusal) => return refusal,
    };
    if !(0..=FARTHEST).contains(&distance) {
        return refused(7, NO_LINE, 0, 0);
    }
    let mut due = NOTHING_DUE;
    let mut visits = 0;
    for (of, other) in [(a, b), (b, a)] {
        for i in 0..=of.n {
            // SAFETY: i is a point of its line.
            let z = unsafe { of.point(i) };
            if !in_sheet(z.0) || !in_sheet(z.1) {
                return refused(8, of.line, i as u64, visits);
            }
            let asked = Asked {
                tree: other,
                z,
                d2: distance * distance,
                allowance,
            };
            // SAFETY: the lengths were checked.
            let came = unsafe { asked.walk::<FORM, false>(visits, &mut due) };
            if came.end != ENDED {
                let mut reply = asked.reply(came, NO, NO, YES);
                if reply.word == NO {
                    (reply.line, reply.place) = (of.line, i as u64);
                }
                return reply;
            }
            visits = came.visits;
        }
    }
    says(YES, visits)
}

// ---- MEET

/// Whether c, or t, of a node is below its least, or above its greatest, at all four corners of
/// another's box. Each is a multiple of x and one of y, so its least and greatest over the corners are
/// those of the two parts together.
#[inline(always)]
fn misses(of: &Seen, other: &Seen) -> bool {
    let sorted = |a: i64, b: i64| (a.min(b), a.max(b));
    let axes = Axes::of(of.from, of.to);
    let (dx, dy) = axes.u;
    let (x0, x1) = (other.x.0 - axes.s.0, other.x.1 - axes.s.0);
    let (y0, y1) = (other.y.0 - axes.s.1, other.y.1 - axes.s.1);
    let (cy, cx) = (sorted(dx * y0, dx * y1), sorted(dy * x0, dy * x1));
    if cy.1 - cx.0 < of.c.0 || of.c.1 < cy.0 - cx.1 {
        return true;
    }
    let (tx, ty) = (sorted(dx * x0, dx * x1), sorted(dy * y0, dy * y1));
    tx.1 + ty.1 < of.t.0 || of.t.1 < tx.0 + ty.0
}

/// Whether two segments share a point.
#[inline(always)]
fn share(a: Point, b: Point, c: Point, d: Point) -> bool {
    let overlap = |a: i64, b: i64, c: i64, d: i64| a.min(b) <= c.max(d) && c.min(d) <= a.max(b);
    let one_side = |p: i64, q: i64| (p > 0 && q > 0) || (p < 0 && q < 0);
    let (ab, cd) = (Axes::of(a, b), Axes::of(c, d));
    overlap(a.0, b.0, c.0, d.0)
        && overlap(a.1, b.1, c.1, d.1)
        && !one_side(ab.c(c), ab.c(d))
        && !one_side(cd.c(a), cd.c(b))
}

struct Pairs {
    a: Tree,
    b: Tree,
    allowance: u32,
    visits: u32,
    /// Where a bad row was met: line and row.
    bad: (u32, usize),
}

impl Pairs {
    /// The walk calls itself: a stack of pairs would be 96 kB and cost more than the calls do. It gives EVEN, ENDED,
    /// SPENT or BAD.
    ///
    /// SAFETY: as for `see`, of both nodes.
    unsafe fn walk(&mut self, mut p: Node, mut q: Node) -> u32 {
        loop {
            if self.visits == self.allowance {
                return SPENT;
            }
            self.visits += 1;
            let Some(of_p) = self.a.see(p) else {
                self.bad = (LINE_A, self.a.row_of(p));
                return BAD;
            };
            let Some(of_q) = self.b.see(q) else {
                self.bad = (LINE_B, self.b.row_of(q));
                return BAD;
            };
            if of_p.x.1 < of_q.x.0
                || of_q.x.1 < of_p.x.0
                || of_p.y.1 < of_q.y.0
                || of_q.y.1 < of_p.y.0
                || misses(&of_p, &of_q)
                || misses(&of_q, &of_p)
            {
                return EVEN;
            }
            if p.size().max(q.size()) == 1 {
                let shared = share(of_p.from, of_p.to, of_q.from, of_q.to);
                return if shared { ENDED } else { EVEN };
            }
            let left = if p.size() >= q.size() {
                let whole = p;
                p = whole.right(of_p.split);
                self.walk(whole.left(of_p.split), q)
            } else {
                let whole = q;
                q = whole.right(of_q.split);
                self.walk(p, whole.left(of_q.split))
            };
            if left != EVEN {
                return left;
            }
        }
    }
}

#[inline(never)]
pub fn meet(
    points_a: &[i64],
    table_a: &[i64],
    points_b: &[i64],
    table_b: &[i64],
    allowance: u32,
) -> Reply {
    let (a, b) = match two_trees(points_a, table_a, points_b, table_b) {
        Ok(trees) => trees,
        Err(refusal) => return refusal,
    };
    let mut pairs = Pairs {
        a,
        b,
        allowance,
        visits: 0,
        bad: (NO_LINE, 0),
    };
    // SAFETY: the walk begins at the roots.
    match unsafe { pairs.walk(a.root(), b.root()) } {
        EVEN => says(NO, pairs.visits),
        ENDED => says(YES, pairs.visits),
        SPENT => says(UNDECIDED, pairs.visits),
        _ => refused(10, pairs.bad.0, pairs.bad.1 as u64, pairs.visits),
    }
}

// ---- building

/// Refusals 1 to 6, or the number of segments of a line that can be built into so much room.
#[inline(always)]
fn buildable(points: &[i64], room: usize) -> Result<usize, Reply> {
    let n = segments(points, LINE_A)?;
    if let Some(i) = points.iter().position(|&v| !in_sheet(v)) {
        return Err(refused(4, LINE_A, (i / 2) as u64, 0));
    }
    let next = points.chunks_exact(2).skip(1);
    if let Some(i) = points.chunks_exact(2).zip(next).position(|(p, q)| p == q) {
        return Err(refused(5, LINE_A, i as u64, 0));
    }
    if room < ROW * (2 * n - 1) {
        return Err(refused(6, LINE_A, 0, 0));
    }
    Ok(n)
}

#[inline(never)]
pub fn build<const FORM: bool>(points: &[i64], table: &mut [i64]) -> Reply {
    let n = match buildable(points, table.len()) {
        Ok(n) => n,
        Err(refusal) => return refusal,
    };
    // SAFETY: points 0 to n may be read, rows 0 to 2n-2 written.
    unsafe { grow::<FORM>(points.as_ptr(), table.as_mut_ptr(), 0, n) };
    says(BUILT, 0)
}

/// The box of some points.
#[derive(Clone, Copy)]
struct Extent {
    xmin: i64,
    xmax: i64,
    ymin: i64,
    ymax: i64,
}

impl Extent {
    #[inline(always)]
    fn of((x, y): Point) -> Extent {
        Extent {
            xmin: x,
            xmax: x,
            ymin: y,
            ymax: y,
        }
    }

    #[inline(always)]
    fn with(self, other: Extent) -> Extent {
        Extent {
            xmin: self.xmin.min(other.xmin),
            xmax: self.xmax.max(other.xmax),
            ymin: self.ymin.min(other.ymin),
            ymax: self.ymax.max(other.ymax),
        }
    }
}

/// Writes the rows of a node and of all below it, and gives its box.
///
/// SAFETY: first < last are points that may be read, and 2 * (last - first) - 1 rows may be written.
unsafe fn grow<const FORM: bool>(
    points: *const i64,
    row: *mut i64,
    first: usize,
    last: usize,
) -> Extent {
    let point = |i: usize| (*points.add(2 * i), *points.add(2 * i + 1));
    let axes = Axes::of(point(first), point(last));
    let mut extent = Extent::of(point(first)).with(Extent::of(point(last)));
    let end = axes.t(point(last));
    let (mut cmin, mut cmax, mut tmin, mut tmax) = (0, 0, end.min(0), end.max(0));
    let (mut split, mut farthest, mut off_middle) = (-1, -1, 0);
    for i in first + 1..last {
        let p = point(i);
        let (c, t) = (axes.c(p), axes.t(p));
        (cmin, cmax) = (cmin.min(c), cmax.max(c));
        (tmin, tmax) = (tmin.min(t), tmax.max(t));
        if FORM {
            extent = extent.with(Extent::of(p));
        }
        // Farthest from the chord, then nearest to the middle, then lowest: a later point must be
        // strictly better.
        if c.abs() >= farthest {
            let off = (2 * i).abs_diff(first + last);
            if c.abs() > farthest || off < off_middle {
                (split, farthest, off_middle) = (i as i64, c.abs(), off);
            }
        }
    }
    if split >= 0 {
        let middle = split as usize;
        let left = grow::<FORM>(points, row.add(ROW), first, middle);
        let right = grow::<FORM>(points, row.add(ROW * 2 * (middle - first)), middle, last);
        if !FORM {
            extent = left.with(right);
        }
    }
    row.cast::<[i64; ROW]>().write([
        first as i64,
        last as i64,
        split,
        cmin,
        cmax,
        tmin,
        tmax,
        extent.xmin,
        extent.xmax,
        extent.ymin,
        extent.ymax,
    ]);
    extent
}

// ---- checking

#[inline(never)]
pub fn check<const FORM: bool>(points: &[i64], table: &[i64]) -> Reply {
    let n = match buildable(points, table.len()) {
        Ok(n) => n,
        Err(refusal) => return refusal,
    };
    let tree = Tree {
        points: points.as_ptr(),
        table: table.as_ptr(),
        n,
        line: LINE_A,
    };
    // SAFETY: the lengths were checked.
    let fault = unsafe {
        if FORM {
            let Node { row, first, last } = tree.root();
            tree.fault_by_calls(row, first, last)
        } else {
            tree.fault_by_stack(&mut { NOTHING_DUE })
        }
    };
    match fault {
        SOUND => says(ACCEPTED, 0),
        _ => refused((fault % FAULTS) as u32, LINE_A, (fault / FAULTS) as u64, 0),
    }
}

/// No row is at fault.
const SOUND: usize = 0;
/// A fault is its row, so many times, and the number of its refusal.
const FAULTS: usize = 32;

/// Whether v lies from lo to hi, for lo <= hi: by one comparison, for what is below lo wraps to what is above all.
#[inline(always)]
fn holds((lo, hi): (i64, i64), v: i64) -> bool {
    v.wrapping_sub(lo) as u64 <= hi.wrapping_sub(lo) as u64
}

impl Tree {
    /// The split of a row that is good and holds its run, or the number of its refusal.
    ///
    /// SAFETY: as for `see`.
    #[inline(always)]
    unsafe fn checked(&self, node: Node) -> Result<usize, usize> {
        let seen = self.see(node).ok_or(21_usize)?;
        let in_box = |p: Point| holds(seen.x, p.0) & holds(seen.y, p.1);
        let axes = Axes::of(seen.from, seen.to);
        // Of the ends only t of the last can be outside the strip: all else is 0.
        let ends = in_box(seen.from) & in_box(seen.to) & (axes.t(seen.to) <= seen.t.1);
        if !ends {
            return Err(22);
        }
        for i in node.first + 1..node.last {
            let p = self.point(i);
            if !(holds(seen.c, axes.c(p)) & holds(seen.t, axes.t(p)) & in_box(p)) {
                return Err(22);
            }
        }
        Ok(seen.split)
    }

    #[cold]
    fn fault(&self, node: Node, number: usize) -> usize {
        FAULTS * self.row_of(node) + number
    }

    /// The first fault of all rows, by a stack of its own.
    ///
    /// SAFETY: the table's rows may be read.
    #[inline(always)]
    unsafe fn fault_by_stack(&self, due: &mut Due) -> usize {
        let mut node = self.root();
        let mut top = 0;
        loop {
            let split = match self.checked(node) {
                Ok(split) => split,
                Err(number) => return self.fault(node, number),
            };
            if node.size() > 1 {
                due.get_unchecked_mut(top).write(node.last as u16);
                top += 1;
                node = node.left(split);
            } else if top > 0 {
                top -= 1;
                node = node.after(usize::from(due.get_unchecked(top).assume_init()));
            } else {
                return SOUND;
            }
        }
    }

    /// The first fault of a node's rows, by calls. The node is handed on in registers.
    ///
    /// SAFETY: as for `see`.
    unsafe fn fault_by_calls(&self, row: *const i64, first: usize, last: usize) -> usize {
        let mut node = Node { row, first, last };
        loop {
            let split = match self.checked(node) {
                Ok(split) => split,
                Err(number) => return self.fault(node, number),
            };
            if node.size() == 1 {
                return SOUND;
            }
            let Node { row, first, last } = node.left(split);
            let left = self.fault_by_calls(row, first, last);
            if left != SOUND {
                return left;
            }
            node = node.right(split);
        }
    }
}
