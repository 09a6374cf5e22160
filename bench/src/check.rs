//! Every answer is held against the others: ours against the hand-written tree and the archive before, in all five
//! numbers, and against the plain scan in what it says. A difference ends the run with status 1.

use crate::before;
use crate::hand;
use crate::lent;
use crate::lent::line::LINE_A;
use crate::lent::word::{NO, REFUSED, UNDECIDED, YES};
use crate::plain;
use crate::shapes::{Drawing, Pair, Random, Sheet};
use crate::Reply;
use kneukelboom::{FARTHEST, ROW_WIDTH, SHEET};

/// Prints the difference and ends the run.
#[cold]
fn differ(what: &str, ours: &dyn std::fmt::Debug, other: &dyn std::fmt::Debug) -> ! {
    println!("DIFFERENT ANSWERS: {what}");
    println!("  ours:  {ours:?}");
    println!("  other: {other:?}");
    std::process::exit(1);
}

/// The replies of hand, of form, and of the archive before, where it was asked.
type Others = [Option<Reply>; 3];

fn same(what: &str, ours: Reply, others: Others) {
    for (by, other) in ["hand", "form", "the archive before"].iter().zip(others) {
        match other {
            Some(other) if other != ours => differ(&format!("{what}, by {by}"), &ours, &other),
            _ => {}
        }
    }
}

fn same_word(what: &str, ours: Reply, plain: u32) {
    if ours.word != plain {
        differ(&format!("{what}, by the plain scan"), &ours, &plain);
    }
}

/// A line with the table that all walk over.
pub struct Line {
    pub points: Vec<i64>,
    pub table: Vec<i64>,
}

impl Line {
    /// Builds with all builders, which must write the same numbers and leave what is past them.
    pub fn built(points: Vec<i64>) -> Line {
        const PAST: i64 = 0x5a5a_5a5a_5a5a_5a5a;
        let room = lent::table_len(points.len());
        let unwritten = vec![PAST; room + 5];
        let mut table = unwritten.clone();
        let reply = lent::build(&points, &mut table);
        let mut tables = [(); 3].map(|()| unwritten.clone());
        let [halves, runs, of_before] = &mut tables;
        let others = [
            Some(hand::build::<false>(&points, halves)),
            Some(hand::build::<true>(&points, runs)),
            before::reply(|| before::build(&points, of_before)),
        ];
        same("build", reply, others);
        let written = if reply.built().is_err() { 0 } else { room };
        if table[written..] != unwritten[written..] {
            differ("build: what is to stay", &table, &unwritten);
        }
        for (other, _) in tables.iter().zip(others).filter(|(_, said)| said.is_some()) {
            if *other != table {
                differ("build: the table", &table, other);
            }
        }
        table.truncate(room);
        Line { points, table }
    }

    /// The same table, but that its row 1 does not begin where it should.
    pub fn with_a_bad_row_1(&self) -> Vec<i64> {
        let mut table = self.table.clone();
        table[ROW_WIDTH] += 1;
        table
    }

    /// So many pairs of a kind.
    pub fn pairs(drawing: Drawing, kind: Pair, count: usize) -> Vec<(Line, Line)> {
        let drawn = (0..count).map(|turn| drawing.pair(kind, turn));
        drawn
            .map(|(a, b)| (Line::built(a), Line::built(b)))
            .collect()
    }

    /// Points and table of both.
    pub fn slices((a, b): &(Line, Line)) -> (&[i64], &[i64], &[i64], &[i64]) {
        (&a.points, &a.table, &b.points, &b.table)
    }
}

/// The reply of one question under every allowance that matters, given how to ask. Gives that of the greatest.
fn under_allowances(
    what: &str,
    ours: impl Fn(u32) -> Reply,
    others: impl Fn(u32) -> Others,
) -> Reply {
    let reply = ours(u32::MAX);
    for allowance in [u32::MAX, reply.visits, reply.visits.saturating_sub(1)] {
        let under = ours(allowance);
        same(what, under, others(allowance));
        let stopped = (under.word, under.visits) == (UNDECIDED, allowance);
        if under != reply && (allowance >= reply.visits || !stopped) {
            let what = format!("{what}, with an allowance of {allowance}");
            differ(&what, &reply, &under);
        }
    }
    reply
}

pub fn near(line: &Line, z: (i64, i64), d: i64) -> Reply {
    let (p, t, (x, y)) = (&line.points[..], &line.table[..], z);
    let what = format!("near {z:?} within {d}");
    let reply = under_allowances(
        &what,
        |allowance| lent::near(p, t, x, y, d, allowance),
        |allowance| near_by_others(p, t, z, d, allowance),
    );
    same_word(&what, reply, plain::near(p, z, d));
    reply
}

fn near_by_others(p: &[i64], t: &[i64], (x, y): (i64, i64), d: i64, allowance: u32) -> Others {
    [
        Some(hand::near::<false>(p, t, x, y, d, allowance)),
        Some(hand::near::<true>(p, t, x, y, d, allowance)),
        before::reply(|| before::near(p, t, x, y, d, allowance)),
    ]
}

pub fn inside(line: &Line, z: (i64, i64)) -> Reply {
    let (p, t, (x, y)) = (&line.points[..], &line.table[..], z);
    let what = format!("inside {z:?}");
    let reply = under_allowances(
        &what,
        |allowance| lent::inside(p, t, x, y, allowance),
        |allowance| inside_by_others(p, t, z, allowance),
    );
    same_word(&what, reply, plain::inside(p, z));
    reply
}

fn inside_by_others(p: &[i64], t: &[i64], (x, y): (i64, i64), allowance: u32) -> Others {
    [
        Some(hand::inside::<false>(p, t, x, y, allowance)),
        Some(hand::inside::<true>(p, t, x, y, allowance)),
        before::reply(|| before::inside(p, t, x, y, allowance)),
    ]
}

pub fn meet(pair: &(Line, Line)) -> Reply {
    let (p, t, q, u) = Line::slices(pair);
    let reply = under_allowances(
        "meet",
        |allowance| lent::meet(p, t, q, u, allowance),
        |allowance| meet_by_others(p, t, q, u, allowance),
    );
    same_word("meet", reply, plain::meet(p, q));
    reply
}

fn meet_by_others(p: &[i64], t: &[i64], q: &[i64], u: &[i64], allowance: u32) -> Others {
    [
        Some(hand::meet(p, t, q, u, allowance)),
        None,
        before::reply(|| before::meet(p, t, q, u, allowance)),
    ]
}

pub fn agree(pair: &(Line, Line), d: i64) -> Reply {
    let (p, t, q, u) = Line::slices(pair);
    let what = format!("agree within {d}");
    let reply = under_allowances(
        &what,
        |allowance| lent::agree(p, t, q, u, d, allowance),
        |allowance| agree_by_others(p, t, q, u, d, allowance),
    );
    let plain = plain::agree(p, q, d);
    let named = plain.unwrap_or((0, 0));
    let word = if plain.is_none() { YES } else { NO };
    if (reply.word, reply.line, reply.place) != (word, named.0, named.1) {
        differ(&format!("{what}, by the plain scan"), &reply, &plain);
    }
    reply
}

fn agree_by_others(p: &[i64], t: &[i64], q: &[i64], u: &[i64], d: i64, allowance: u32) -> Others {
    [
        Some(hand::agree::<false>(p, t, q, u, d, allowance)),
        Some(hand::agree::<true>(p, t, q, u, d, allowance)),
        before::reply(|| before::agree(p, t, q, u, d, allowance)),
    ]
}

/// What all checkers say of a table.
fn checked(p: &[i64], t: &[i64]) -> Reply {
    let reply = lent::check(p, t);
    let by_hand = hand::check::<false>(p, t);
    let by_form = hand::check::<true>(p, t);
    same("check", reply, [Some(by_hand), Some(by_form), None]);
    reply
}

pub fn accepted(p: &[i64], t: &[i64]) {
    let reply = checked(p, t);
    if reply.accepted().is_err() {
        differ("check", &reply, &"a table that is sound");
    }
}

pub fn refused_for_row_1(p: &[i64], t: &[i64]) {
    let reply = checked(p, t);
    if (reply.number, reply.line, reply.place) != (21, LINE_A, 1) {
        differ("check", &reply, &"a table whose row 1 is bad");
    }
}

// ---- damaged input

/// Asks `cases` times about small random lines, most of them with damaged tables, moved points, short slices or values
/// out of range. Ours, the hand-written tree and the archive before must refuse, or answer, alike in every number.
/// Gives how many were refused.
pub fn damaged(cases: u64) -> u64 {
    let mut random = Random(8);
    let mut refused = 0;
    for _ in 0..cases {
        let mut pair = [(); 2].map(|()| Line::built(wander(&mut random)));
        for line in &mut pair {
            damage(line, &mut random);
        }
        let z = (value(&mut random), value(&mut random));
        let d = if random.between(0, 3) == 0 {
            value(&mut random)
        } else {
            random.between(0, 60) * random.pick(&[1, Sheet::Wide.scale(), FARTHEST / 60])
        };
        let allowance = random.pick(&[0, 1, 2, 7, 40, u32::MAX, u32::MAX]);
        let replies = asked(&pair, z, d, allowance);
        refused += replies.iter().filter(|reply| reply.word == REFUSED).count() as u64;
    }
    refused
}

/// The four questions and a check, held against the others.
fn asked([a, b]: &[Line; 2], z: (i64, i64), d: i64, allowance: u32) -> [Reply; 5] {
    let (p, t, q, u) = (&a.points[..], &a.table[..], &b.points[..], &b.table[..]);
    let near = lent::near(p, t, z.0, z.1, d, allowance);
    same("near", near, near_by_others(p, t, z, d, allowance));
    let inside = lent::inside(p, t, z.0, z.1, allowance);
    same("inside", inside, inside_by_others(p, t, z, allowance));
    let meet = lent::meet(p, t, q, u, allowance);
    same("meet", meet, meet_by_others(p, t, q, u, allowance));
    let agree = lent::agree(p, t, q, u, d, allowance);
    same("agree", agree, agree_by_others(p, t, q, u, d, allowance));
    [near, inside, meet, agree, checked(p, t)]
}

/// A short line; now and then one that cannot be built, or a ring.
fn wander(random: &mut Random) -> Vec<i64> {
    const OFF: [i64; 5] = [SHEET + 1, -SHEET - 1, 1 << 32, i64::MIN, i64::MAX];
    let count = random.between(0, 20).max(random.between(0, 5));
    let reach = random.pick(&[3, 30, Sheet::Old.limit(), SHEET]);
    let mut points: Vec<i64> = Vec::new();
    for _ in 0..count {
        points.extend([random.between(-reach, reach), random.between(-reach, reach)]);
    }
    match random.between(0, 11) {
        0 => points.extend([random.pick(&OFF), 0]),
        1 => points.push(0),
        2..=6 if count > 2 => points.extend([points[0], points[1]]),
        _ => {}
    }
    points
}

fn damage(line: &mut Line, random: &mut Random) {
    if random.between(0, 2) > 0 && !line.table.is_empty() {
        for _ in 0..random.between(1, 3) {
            // Mostly the first rows: those are read.
            let at = random.between(0, line.table.len() as i64 - 1) as usize;
            let at = if random.between(0, 1) == 0 {
                at % 33 % line.table.len()
            } else {
                at
            };
            // One off, or the same in its low 32 bits.
            let off = random.pick(&[1, -1, 1 << 32, i64::MIN]);
            let moved = line.table[at].wrapping_add(off);
            let other = value(random);
            line.table[at] = random.pick(&[moved, other, 0, -1]);
        }
    }
    if random.between(0, 7) == 0 && !line.points.is_empty() {
        let at = random.between(0, line.points.len() as i64 - 1) as usize;
        line.points[at] = value(random);
    }
    if random.between(0, 15) == 0 {
        line.table.pop();
    }
    if random.between(0, 31) == 0 {
        line.points.pop();
    }
}

/// A number with a liking for the limits.
fn value(random: &mut Random) -> i64 {
    const LIMITS: [i64; 8] = [
        SHEET,
        -SHEET,
        SHEET + 1,
        -SHEET - 1,
        FARTHEST,
        FARTHEST + 1,
        i64::MIN,
        i64::MAX,
    ];
    let small = random.between(-30, 30);
    match random.between(0, 8) {
        0 => random.pick(&LIMITS),
        1 => random.between(-SHEET, SHEET),
        2 => small + (random.between(-8, 8) << 32),
        _ => small,
    }
}
