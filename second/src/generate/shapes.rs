//! Lines of every shape: on the old sheet and over the whole new one, at its edges and over them.

use super::{Place, Random, WHOLE_STEPS};
use crate::geometry::Point;
use crate::program::MOST_STORED;
use crate::tree::{OLD_SHEET, SHEET};

/// Makes the places of a line.
type Maker = fn(&mut Random) -> Vec<Place>;

/// A shape is left as it is made, or scaled and moved as far as it fits.
#[derive(Clone, Copy)]
pub(super) enum Shape {
    Fixed(Maker),
    Moved(Maker),
}

use Shape::{Fixed, Moved};

pub(super) const SHAPES: [Shape; 38] = [
    Moved(small_walk),
    Moved(square),
    Moved(nothing),
    Moved(zigzag),
    Fixed(whole_sheet_walk),
    Moved(one_point),
    Moved(one_segment),
    Moved(castle),
    Moved(equal_neighbours),
    Moved(large_walk),
    Fixed(sheet_corners),
    Fixed(just_off_the_sheet),
    Moved(figure_of_eight),
    Fixed(mixed_scale),
    Moved(collinear_forward),
    Moved(too_many),
    Moved(collinear_back_and_forth),
    Moved(double_wound),
    Fixed(sheet_edges),
    Moved(staircase),
    Fixed(far_off_the_sheet),
    Moved(spiral),
    Moved(star),
    Fixed(across_the_sheet),
    Moved(ring_of_three),
    Moved(full_store),
    Moved(triangle),
    Fixed(equal_neighbours_and_off_the_sheet),
    Fixed(far_triples),
    Moved(pythagorean),
    Moved(random_ring),
    Fixed(whole_sheet_ring),
    Moved(retraced_ring),
    Moved(full_ring),
    Fixed(just_off_the_old_sheet),
    Moved(pillar),
    Fixed(old_sheet_corners),
    Fixed(mixed_scale_ring),
];

/// Shapes that are always built, for the B of a scene whose A should be looked at.
const SOUND: [Shape; 18] = [
    Moved(one_segment),
    Moved(small_walk),
    Moved(large_walk),
    Fixed(old_sheet_corners),
    Fixed(sheet_corners),
    Moved(collinear_back_and_forth),
    Moved(zigzag),
    Moved(staircase),
    Moved(spiral),
    Moved(square),
    Moved(star),
    Fixed(whole_sheet_walk),
    Fixed(mixed_scale),
    Fixed(sheet_edges),
    Fixed(across_the_sheet),
    Fixed(far_triples),
    Fixed(whole_sheet_ring),
    Fixed(mixed_scale_ring),
];

/// Twelve directions, close enough to a circle for stars.
const CLOCK: [Place; 12] = [
    (12, 0),
    (10, 6),
    (6, 10),
    (0, 12),
    (-6, 10),
    (-10, 6),
    (-12, 0),
    (-10, -6),
    (-6, -10),
    (0, -12),
    (6, -10),
    (10, -6),
];

/// A line that every build takes, as x, y, x, y: 2 to 257 points.
pub fn sound_line(random: &mut Random) -> Vec<i64> {
    let shape = random.pick(&SOUND);
    let points = shaped(random, shape);
    points.iter().flat_map(|p| [p.x, p.y]).collect()
}

/// A line of that many points whose built tree is as deep as can be: each node splits at its second point.
pub fn comb(count: usize) -> Vec<i64> {
    let last = count as i64 - 1;
    // Roots lie on one straight line, tips on another, and the last point on both: from either line the
    // next point is the farthest.
    (0..=last).flat_map(|i| [i, i % 2 * (last - i)]).collect()
}

pub(super) fn shaped(random: &mut Random, shape: Shape) -> Vec<Point> {
    let places = match shape {
        Fixed(make) => make(random),
        Moved(make) => {
            let places = make(random);
            moved(random, &places)
        }
    };
    places.into_iter().map(as_point).collect()
}

/// Line B beside A: alike, a part of it, touching it, or something else altogether.
pub(super) fn companion(random: &mut Random, a: &[Point]) -> Vec<Point> {
    match random.between(0, 9) {
        0 => a.to_vec(),
        1 => a.iter().rev().copied().collect(),
        2 | 3 => jittered(random, a),
        // A stub: near A at every point, while A is not near it.
        4 => a[..a.len().min(2 + a.len() / 3)].to_vec(),
        5 | 6 if a.len() >= 2 => stroke(random, a[a.len() / 2 - 1], a[a.len() / 2]),
        7 => {
            let shape = random.pick(&SHAPES);
            shaped(random, shape)
        }
        _ => {
            let shape = random.pick(&SOUND);
            shaped(random, shape)
        }
    }
}

fn jittered(random: &mut Random, a: &[Point]) -> Vec<Point> {
    let size = random.pick(&[1, 3, 9, 1_000]);
    let jittered = a.iter().map(|p| {
        let x = p.x + random.between(-size, size);
        let y = p.y + random.between(-size, size);
        as_point(onto_the_sheet((x, y)))
    });
    jittered.collect()
}

/// From the middle of a segment of A outward: touches it, or crosses it.
fn stroke(random: &mut Random, p: Point, q: Point) -> Vec<Point> {
    let start = ((p.x + q.x) / 2, (p.y + q.y) / 2);
    let (dx, dy) = random.pick(&WHOLE_STEPS);
    let lead = random.between(0, 2);
    let stroke = (0..4).map(|i| (start.0 + (i - lead) * dx, start.1 + (i - lead) * dy));
    stroke.map(as_point).collect()
}

/// Scales and moves a shape, as far as it fits the old sheet or the new one, sometimes right into a
/// corner.
fn moved(random: &mut Random, places: &[Place]) -> Vec<Place> {
    let reach = places
        .iter()
        .map(|p| p.0.abs().max(p.1.abs()))
        .max()
        .unwrap_or(0)
        .max(1);
    let limit = random.pick(&[OLD_SHEET, OLD_SHEET, SHEET]);
    let fitting = (limit / reach).max(1);
    let scale = match random.between(0, 5) {
        0 => fitting,
        1 => random.between(1, fitting),
        _ => 1,
    };
    let room = limit - scale * reach;
    let (right, up) = match random.between(0, 4) {
        0 if room > 0 => (random.between(-room, room), random.between(-room, room)),
        1 if room > 0 => (room, -room),
        _ => (0, 0),
    };
    places
        .iter()
        .map(|p| (scale * p.0 + right, scale * p.1 + up))
        .collect()
}

pub(super) fn as_point(place: Place) -> Point {
    Point {
        x: in_a_record(place.0),
        y: in_a_record(place.1),
    }
}

/// The nearest number that a record can tell: it has to fit 32 bits.
pub(super) fn in_a_record(number: i64) -> i64 {
    number.clamp(i32::MIN.into(), i32::MAX.into())
}

fn onto_the_sheet(place: Place) -> Place {
    (place.0.clamp(-SHEET, SHEET), place.1.clamp(-SHEET, SHEET))
}

fn push_new(places: &mut Vec<Place>, place: Place) {
    if places.last() != Some(&place) {
        places.push(place);
    }
}

fn closed(mut places: Vec<Place>) -> Vec<Place> {
    // A walk that happens to end where it began would have two equal neighbours.
    if places.last() == places.first() {
        places.pop();
    }
    places.push(places[0]);
    places
}

/// Places as they come, no two neighbours equal.
fn taking(count: i64, mut next: impl FnMut() -> Place) -> Vec<Place> {
    let mut places = vec![];
    while (places.len() as i64) < count {
        push_new(&mut places, next());
    }
    places
}

/// Places anywhere in a square.
fn wander(random: &mut Random, count: i64, reach: i64) -> Vec<Place> {
    taking(count, || {
        (random.between(-reach, reach), random.between(-reach, reach))
    })
}

/// Places a short step apart, as of a stream that was surveyed.
fn steps(random: &mut Random, count: i64, size: i64) -> Vec<Place> {
    let mut at = (0, 0);
    let mut places = vec![at];
    while (places.len() as i64) < count {
        at.0 += random.between(0, size);
        at.1 += random.between(-size, size);
        push_new(&mut places, at);
    }
    places
}

// Short lines and walks.

fn nothing(_: &mut Random) -> Vec<Place> {
    vec![]
}

fn one_point(_: &mut Random) -> Vec<Place> {
    vec![(3, -4)]
}

fn one_segment(random: &mut Random) -> Vec<Place> {
    wander(random, 2, 9)
}

fn small_walk(random: &mut Random) -> Vec<Place> {
    let count = random.between(3, 12);
    wander(random, count, 8)
}

fn large_walk(random: &mut Random) -> Vec<Place> {
    let count = random.between(3, 60);
    wander(random, count, OLD_SHEET)
}

fn whole_sheet_walk(random: &mut Random) -> Vec<Place> {
    let count = random.between(2, 60);
    wander(random, count, SHEET)
}

fn full_store(random: &mut Random) -> Vec<Place> {
    steps(random, MOST_STORED as i64, 40)
}

fn too_many(random: &mut Random) -> Vec<Place> {
    let count = random.between(258, 262);
    steps(random, count, 30)
}

/// Steps of one unit and steps right across the sheet in one line.
fn mixed_scale(random: &mut Random) -> Vec<Place> {
    let mut at = (random.between(-SHEET, SHEET), random.between(-SHEET, SHEET));
    let count = random.between(3, 40);
    taking(count, || {
        let size = 1 << random.between(0, 20);
        let (dx, dy) = (random.between(-size, size), random.between(-size, size));
        at = onto_the_sheet((at.0 + dx, at.1 + dy));
        at
    })
}

// Lines at the edges of a sheet.

fn corners(random: &mut Random, limit: i64) -> Vec<Place> {
    let count = random.between(2, 9);
    taking(count, || {
        (
            random.pick(&[-limit, limit, 0]),
            random.pick(&[-limit, limit, limit - 1]),
        )
    })
}

fn old_sheet_corners(random: &mut Random) -> Vec<Place> {
    corners(random, OLD_SHEET)
}

fn sheet_corners(random: &mut Random) -> Vec<Place> {
    corners(random, SHEET)
}

/// Places on the sheet's very edges, or one unit within.
fn sheet_edges(random: &mut Random) -> Vec<Place> {
    let count = random.between(2, 30);
    taking(count, || {
        let edge = random.pick(&[-SHEET, -SHEET, 1 - SHEET, SHEET - 1, SHEET, SHEET]);
        let along = random.between(-SHEET, SHEET);
        random.pick(&[(edge, along), (along, edge)])
    })
}

/// Segments from edge to edge: each is as long as the sheet, or longer.
fn across_the_sheet(random: &mut Random) -> Vec<Place> {
    let count = random.between(2, 24);
    let level = random.one_in(2);
    let mut edge = random.sign() * SHEET;
    taking(count, || {
        edge = -edge;
        let anywhere = random.between(-SHEET, SHEET);
        let along = random.pick(&[-SHEET, 0, SHEET, anywhere]);
        if level {
            (edge, along)
        } else {
            (along, edge)
        }
    })
}

fn just_off(random: &mut Random, limit: i64) -> Vec<Place> {
    let mut places = wander(random, 6, 100);
    let over = random.sign() * (limit + 1);
    let at = random.between(0, 5) as usize;
    places[at] = random.pick(&[(over, limit), (-limit, over)]);
    places
}

fn just_off_the_sheet(random: &mut Random) -> Vec<Place> {
    just_off(random, SHEET)
}

/// Taken, as the sheet goes on there now.
fn just_off_the_old_sheet(random: &mut Random) -> Vec<Place> {
    just_off(random, OLD_SHEET)
}

fn far_off_the_sheet(random: &mut Random) -> Vec<Place> {
    let ends = [i64::from(i32::MIN), i64::from(i32::MAX)];
    let mut places = wander(random, 5, 100);
    let at = random.between(0, 4) as usize;
    places[at] = (random.pick(&ends), random.pick(&ends));
    places
}

fn equal_neighbours(random: &mut Random) -> Vec<Place> {
    let mut places = wander(random, 7, 50);
    let at = random.between(0, 5) as usize;
    places[at + 1] = places[at];
    places
}

fn equal_neighbours_and_off_the_sheet(random: &mut Random) -> Vec<Place> {
    let mut places = wander(random, 7, 50);
    places[1] = places[0];
    let at = random.between(2, 6) as usize;
    places[at] = (SHEET + 1, 0);
    places
}

// Regular lines.

fn collinear_forward(random: &mut Random) -> Vec<Place> {
    let (dx, dy) = random.pick(&WHOLE_STEPS);
    let count = random.between(3, 30);
    (0..count).map(|i| (i * dx, i * dy)).collect()
}

fn collinear_back_and_forth(random: &mut Random) -> Vec<Place> {
    let (dx, dy) = random.pick(&WHOLE_STEPS);
    let mut places = vec![];
    for _ in 0..random.between(4, 30) {
        let i = random.between(-6, 6);
        push_new(&mut places, (i * dx, i * dy));
    }
    push_new(&mut places, (7 * dx, 7 * dy));
    push_new(&mut places, (8 * dx, 8 * dy));
    places
}

fn zigzag(random: &mut Random) -> Vec<Place> {
    let count = random.pick(&[5, 20, 64, 129, 257]);
    let height = random.between(1, 40);
    (0..count).map(|i| (i, i % 2 * height)).collect()
}

fn staircase(random: &mut Random) -> Vec<Place> {
    let count = random.between(4, 60);
    (0..count).map(|i| (i / 2 * 3, (i + 1) / 2 * 2)).collect()
}

fn spiral(random: &mut Random) -> Vec<Place> {
    let count = random.pick(&[9, 30, 100, 257]);
    let turns = [(1, 0), (0, 1), (-1, 0), (0, -1)];
    let mut at = (0, 0);
    let mut places = vec![at];
    for i in 1..count {
        let (dx, dy) = turns[(i % 4) as usize];
        at = (at.0 + i * dx, at.1 + i * dy);
        places.push(at);
    }
    places
}

fn pythagorean(random: &mut Random) -> Vec<Place> {
    let mut at = (0, 0);
    let mut places = vec![at];
    for _ in 0..random.between(1, 12) {
        let (dx, dy) = random.pick(&WHOLE_STEPS);
        let times = random.pick(&[-3, -2, -1, 1, 2, 3]);
        at = (at.0 + times * dx, at.1 + times * dy);
        places.push(at);
    }
    places
}

/// Long segments of whole length, each heading for the middle of the sheet in x and in y.
fn far_triples(random: &mut Random) -> Vec<Place> {
    let mut at = (0, 0);
    let mut places = vec![at];
    for _ in 0..random.between(1, 20) {
        let (dx, dy, _) = triple(random);
        let (dx, dy) = random.pick(&[(dx, dy), (dy, dx)]);
        at.0 += if at.0 < 0 { dx } else { -dx };
        at.1 += if at.1 < 0 { dy } else { -dy };
        places.push(at);
    }
    places
}

/// Two whole legs of at most 1,000,000, without a common factor, and their whole hypotenuse.
pub(super) fn triple(random: &mut Random) -> (i64, i64, i64) {
    loop {
        let n = random.between(1, 999);
        let m = random.between(n + 1, 1_000);
        let legs = (m * m - n * n, 2 * m * n);
        if legs.1 <= SHEET && common_factor(legs.0, legs.1) == 1 {
            return (legs.0, legs.1, m * m + n * n);
        }
    }
}

pub(super) fn common_factor(a: i64, b: i64) -> i64 {
    if b == 0 {
        a.abs()
    } else {
        common_factor(b, a % b)
    }
}

/// Up and down one upright: all c are 0, so only the middle rule splits it.
fn pillar(random: &mut Random) -> Vec<Place> {
    let count = random.between(3, 40);
    (0..count).map(|i| (0, i % 2 * 9 + i / 8)).collect()
}

// Rings.

fn random_ring(random: &mut Random) -> Vec<Place> {
    let count = random.between(4, 16);
    closed(wander(random, count, 7))
}

fn whole_sheet_ring(random: &mut Random) -> Vec<Place> {
    let count = random.between(4, 16);
    closed(wander(random, count, SHEET))
}

fn mixed_scale_ring(random: &mut Random) -> Vec<Place> {
    closed(mixed_scale(random))
}

fn triangle(_: &mut Random) -> Vec<Place> {
    closed(vec![(0, 0), (5, 1), (2, 6)])
}

fn square(_: &mut Random) -> Vec<Place> {
    closed(vec![(0, 0), (4, 0), (4, 4), (0, 4)])
}

fn figure_of_eight(_: &mut Random) -> Vec<Place> {
    closed(vec![(0, 0), (6, 6), (6, 0), (0, 6)])
}

fn double_wound(random: &mut Random) -> Vec<Place> {
    let inner = random.between(0, 2);
    let outer = 6 - inner;
    let mut places = vec![(0, 0), (6, 0), (6, 6), (0, 6)];
    places.extend([
        (inner, inner),
        (outer, inner),
        (outer, outer),
        (inner, outer),
    ]);
    closed(places)
}

fn star(random: &mut Random) -> Vec<Place> {
    let stride = random.pick(&[5, 7]);
    closed((0..12).map(|i| CLOCK[(i * stride) % 12]).collect())
}

/// Battlements: many level edges at few heights, for rays along edges and corners.
fn castle(random: &mut Random) -> Vec<Place> {
    let towers = random.between(2, 30);
    let mut places = vec![];
    for i in 0..towers {
        let height = random.pick(&[3, 5, 5]);
        places.extend([(4 * i, 0), (4 * i, height), (4 * i + 2, height)]);
        places.push((4 * i + 2, 0));
    }
    places.push((4 * towers, 0));
    places.push((4 * towers, -3));
    places.push((0, -3));
    closed(places)
}

fn retraced_ring(_: &mut Random) -> Vec<Place> {
    closed(vec![
        (0, 0),
        (8, 0),
        (4, 0),
        (4, 6),
        (4, 2),
        (0, 2),
        (-3, 2),
        (0, 2),
    ])
}

/// 256 places round a square, each pushed out a little.
fn full_ring(random: &mut Random) -> Vec<Place> {
    let sides: [fn(i64, i64) -> Place; 4] = [
        |along, out| (along, -out),
        |along, out| (640 + out, along),
        |along, out| (640 - along, 640 + out),
        |along, out| (-out, 640 - along),
    ];
    let mut places = vec![];
    for side in sides {
        for i in 0..64 {
            let out = random.between(0, 30);
            places.push(side(10 * i, out));
        }
    }
    closed(places)
}

fn ring_of_three(_: &mut Random) -> Vec<Place> {
    vec![(0, 0), (4, 3), (0, 0)]
}

#[cfg(test)]
mod tests {
    use super::*;
    use crate::geometry::{all_points, Name};
    use crate::tree::{build, rows, ROW};

    #[test]
    fn sound_shapes_are_always_built() {
        let mut random = Random(1);
        for shape in SOUND {
            for _ in 0..50 {
                let points = shaped(&mut random, shape);
                let line: Vec<i64> = points.iter().flat_map(|p| [p.x, p.y]).collect();
                let mut table = vec![0; ROW * rows(points.len() - 1)];
                assert_eq!(build(Name::A, &line, &mut table), Ok(()), "{line:?}");
            }
        }
    }

    #[test]
    fn old_sheet_and_the_sheet_beyond_it_are_both_well_met() {
        let mut random = Random(2);
        let lines: Vec<Vec<i64>> = (0..3_000).map(|_| sound_line(&mut random)).collect();
        let within = |line: &&Vec<i64>| line.iter().all(|v| v.abs() <= OLD_SHEET);
        let old = lines.iter().filter(within).count();
        assert!((1_000..2_000).contains(&old), "{old} of 3000");
        let edge = |line: &&Vec<i64>| line.iter().any(|v| v.abs() == SHEET);
        assert!(lines.iter().filter(edge).count() > 500);
        let across = |line: &&Vec<i64>| {
            let points: Vec<Point> = all_points(line).collect();
            points
                .windows(2)
                .any(|p| p[0].x.abs_diff(p[1].x) == 2_000_000)
        };
        assert!(lines.iter().filter(across).count() > 100);
    }

    #[test]
    fn combs_have_a_level_for_each_segment() {
        for count in [2, 3, 4, 5, 64, 129, 4_097] {
            let mut table = vec![0; ROW * rows(count - 1)];
            assert_eq!(build(Name::A, &comb(count), &mut table), Ok(()));
            // After each row stands the leaf of its first segment.
            for (first, node) in table.chunks(2 * ROW).enumerate() {
                let last = count as i64 - 1;
                assert_eq!(node[..2], [first as i64, last]);
            }
        }
    }

    #[test]
    fn triples_are_whole() {
        let mut random = Random(3);
        for _ in 0..200 {
            let (a, b, h) = triple(&mut random);
            assert!(a * a + b * b == h * h && a.max(b) <= SHEET);
        }
    }
}
