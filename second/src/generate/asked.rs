//! Points and distances to ask with: where an answer turns, and where a refusal begins.

use super::shapes::{as_point, common_factor, in_a_record};
use super::{Place, Random, WHOLE_STEPS};
use crate::geometry::Point;
use crate::tree::{FARTHEST, OLD_SHEET, SHEET};

/// A point to ask about: at or near the line, level with its corners, square off its segments, at
/// and over the sheet's edge. It fits a record.
pub fn asked_point(random: &mut Random, line: &[Point]) -> Point {
    let place = |p: &Point| (in_a_record(p.x), in_a_record(p.y));
    let places: Vec<Place> = line.iter().map(place).collect();
    let corner = if places.is_empty() {
        (0, 0)
    } else {
        random.pick(&places)
    };
    let anywhere = about(random, &places);
    let place = match random.between(0, 23) {
        0 | 1 => corner,
        2 => nudged(random, corner, 2),
        3 | 4 => segment(random, &places).map_or(anywhere, middle),
        5..=8 => (anywhere.0, corner.1),
        9 => (corner.0, anywhere.1),
        10..=12 => a_whole_step_from(random, corner),
        13 => at_an_edge(random),
        14 => (random.between(-SHEET, SHEET), random.between(-SHEET, SHEET)),
        15 => (over_an_edge(random), anywhere.1),
        16 if random.one_in(2) => (anywhere.0, over_an_edge(random)),
        17..=20 => match segment(random, &places) {
            Some(segment) => square_off(random, segment),
            None => anywhere,
        },
        _ => anywhere,
    };
    as_point(place)
}

/// The least distance that says yes, one below it, and distances at the limits.
pub fn distance(random: &mut Random, least: i64) -> i64 {
    match random.between(0, 18) {
        0..=4 => least,
        5..=8 => least - 1,
        9 => 0,
        10 => 1,
        11 => random.between(1, 20),
        12 => random.between(0, FARTHEST),
        13 => FARTHEST - 1,
        14 => FARTHEST,
        15 => FARTHEST + 1,
        16 => -1,
        // Where 15 and 16 bits end.
        17 => random.pick(&[32_767, 32_768, 65_535]),
        _ => random.pick(&[i32::MIN.into(), i32::MAX.into(), -FARTHEST, 2 * FARTHEST]),
    }
}

/// In the box of the places that are on the sheet, or two units beside it.
fn about(random: &mut Random, places: &[Place]) -> Place {
    let reach = |side: fn(&Place) -> i64| {
        let least = places.iter().map(side).min().unwrap_or(0).max(-SHEET);
        let greatest = places.iter().map(side).max().unwrap_or(0).min(SHEET);
        (least.min(greatest) - 2, greatest.max(least) + 2)
    };
    let (x, y) = (reach(|p| p.0), reach(|p| p.1));
    (random.between(x.0, x.1), random.between(y.0, y.1))
}

fn nudged(random: &mut Random, place: Place, size: i64) -> Place {
    (
        place.0 + random.between(-size, size),
        place.1 + random.between(-size, size),
    )
}

fn segment(random: &mut Random, places: &[Place]) -> Option<(Place, Place)> {
    if places.len() < 2 {
        return None;
    }
    let at = random.between(1, places.len() as i64 - 1) as usize;
    Some((places[at - 1], places[at]))
}

fn middle((p, q): (Place, Place)) -> Place {
    ((p.0 + q.0) / 2, (p.1 + q.1) / 2)
}

fn a_whole_step_from(random: &mut Random, place: Place) -> Place {
    let (dx, dy) = random.pick(&WHOLE_STEPS);
    let most = random.pick(&[20, 20, SHEET / 25]);
    let times = random.between(-most, most);
    (place.0 + times * dx, place.1 + times * dy)
}

/// Square off the segment: where its length is whole, so is the distance, far from the ends too.
fn square_off(random: &mut Random, (p, q): (Place, Place)) -> Place {
    let (dx, dy) = (q.0 - p.0, q.1 - p.1);
    let parts = common_factor(dx, dy).max(1);
    let (dx, dy) = (dx / parts, dy / parts);
    let along = random.between(0, parts);
    let most = (SHEET / dx.abs().max(dy.abs()).max(1)).max(1);
    let off = random.between(-most, most);
    let place = (p.0 + along * dx - off * dy, p.1 + along * dy + off * dx);
    if random.one_in(2) {
        nudged(random, place, 1)
    } else {
        place
    }
}

fn at_an_edge(random: &mut Random) -> Place {
    let edges = [-SHEET, -OLD_SHEET - 1, 0, OLD_SHEET, OLD_SHEET + 1, SHEET];
    (random.pick(&edges), random.pick(&edges))
}

fn over_an_edge(random: &mut Random) -> i64 {
    random.pick(&[-SHEET - 1, SHEET + 1, i32::MIN.into(), i32::MAX.into()])
}
