//! Lines and tables whose trees are as deep as they can be, or nearly so. Each test takes those that it needs.
#![allow(dead_code)]

use kneukelboom::SHEET;

pub const SEGMENTS: usize = 4_096;

fn side(i: i64) -> i64 {
    if i % 2 == 0 {
        1
    } else {
        -1
    }
}

/// Strokes from side to side, each shorter than the one before: every split is next to the first point.
pub fn comb(higher: i64) -> Vec<(i64, i64)> {
    let stroke = |i: i64| (i - 2_048, side(i) * (16_000 - 3 * i) + higher);
    (0..=SEGMENTS as i64).map(stroke).collect()
}

/// The same, ending where it begins.
pub fn comb_ring() -> Vec<(i64, i64)> {
    let mut ring = comb(0);
    ring[SEGMENTS] = ring[0];
    ring
}

/// Teeth along an arch: the splits lie next to an end, on each of its slopes.
pub fn saw(higher: i64) -> Vec<(i64, i64)> {
    let tooth = |i: i64| (7 * i, 3_000 * side(i) - i * i / 4_096 + higher);
    (-2_048..=2_048).map(tooth).collect()
}

pub fn reversed(mut points: Vec<(i64, i64)>) -> Vec<(i64, i64)> {
    points.reverse();
    points
}

/// x, y, x, y
pub fn numbers(points: &[(i64, i64)]) -> Vec<i64> {
    points.iter().flat_map(|&(x, y)| [x, y]).collect()
}

/// A ring as flat as the sheet allows: along the bottom and back.
pub fn flat_ring(higher: i64) -> Vec<i64> {
    let half = SEGMENTS as i64 / 2;
    let bottom = higher - SHEET;
    let there = (0..half).flat_map(|i| [i, bottom]);
    let back = (0..half).rev().flat_map(|i| [i, bottom + 1]);
    there.chain(back).chain([0, bottom]).collect()
}

/// A table that dismisses nothing, good by every rule of refusal 10, with the given split of each node.
pub fn table_without_end(points: usize, split: fn(usize, usize) -> usize) -> Vec<i64> {
    let mut table = Vec::new();
    let mut due = vec![(0, points - 1)];
    while let Some((first, last)) = due.pop() {
        let middle = split(first, last);
        let is_leaf = last - first == 1;
        if !is_leaf {
            due.extend([(middle, last), (first, middle)]);
        }
        let split = if is_leaf { -1 } else { middle as i64 };
        table.extend([first as i64, last as i64, split]);
        table.extend([i64::MIN, i64::MAX, i64::MIN, i64::MAX]);
        table.extend([-SHEET, SHEET, -SHEET, SHEET]);
    }
    table
}

/// The split next to the last point: halves nest to the left.
pub fn left(_: usize, last: usize) -> usize {
    last - 1
}

/// The split next to the first point: halves nest to the right.
pub fn right(first: usize, _: usize) -> usize {
    first + 1
}
