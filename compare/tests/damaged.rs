//! Tables whatever they hold: every number of every row of small trees set to bad and odd values, and of the first, an
//! inner and the last row of a large one; rows exchanged, points moved off the sheet, strips wider than any line. Each
//! answer, visit count and refusal is the second reading's.

use compare::{
    agree, ask_plainly, inside, meet, near, odd_values, small_lines, Dice, Lent, ENOUGH,
};
use kneukelboom::{FARTHEST, ROW_WIDTH, SHEET};
use second::generate::{asked_point, damage, distance, foreign, loosen, sound_line, stray, Random};
use second::geometry::{all_points, Point};

fn ask_all(damaged: &Lent, sound: &Lent) {
    for allowance in [0, 1, 2, 3, 100] {
        for (x, y, d) in [
            (4, 5, 2),
            (2, 1, 0),
            (9, 9, 3),
            (-SHEET, SHEET, FARTHEST),
            (SHEET, 0, 1_414_213),
        ] {
            near(damaged, x, y, d, allowance);
            inside(damaged, x, y, allowance);
        }
        meet(damaged, sound, allowance);
        meet(sound, damaged, allowance);
        agree(damaged, sound, 3, allowance);
        agree(sound, damaged, 3, allowance);
    }
}

#[test]
fn every_number_of_every_row_set_to_bad_and_odd_odd_values() {
    let sound = Lent::built(&[1, 1, 3, 2, 6, 0]);
    for line in small_lines() {
        for k in 0..line.table.len() {
            for value in odd_values(line.table[k]) {
                let mut damaged = line.clone();
                damaged.table[k] = value;
                ask_all(&damaged, &sound);
            }
        }
    }
}

#[test]
fn every_number_of_the_first_an_inner_and_the_last_row_of_a_large_tree() {
    let mut dice = Dice(7);
    let line = Lent::built(&dice.ring(200, SHEET));
    let other = Lent::built(&dice.line(150, SHEET));
    let last = 2 * 200 - 2;
    for row in [0, 1, last / 2, last - 1, last] {
        let first = line.table[ROW_WIDTH * row] as usize;
        let (x, y) = (line.points[2 * first], line.points[2 * first + 1]);
        for k in ROW_WIDTH * row..ROW_WIDTH * (row + 1) {
            for value in odd_values(line.table[k]) {
                let mut damaged = line.clone();
                damaged.table[k] = value;
                for d in [0, 1_000, FARTHEST] {
                    near(&damaged, x, y, d, ENOUGH);
                    near(&damaged, y, x, d, ENOUGH);
                }
                inside(&damaged, x, y, ENOUGH);
                inside(&damaged, y, x, ENOUGH);
                meet(&damaged, &other, ENOUGH);
                meet(&other, &damaged, ENOUGH);
                agree(&damaged, &other, SHEET, ENOUGH);
                agree(&other, &damaged, SHEET, ENOUGH);
            }
        }
    }
}

#[test]
fn points_moved_after_the_build() {
    let sound = Lent::built(&[1, 1, 3, 2, 6, 0]);
    for line in small_lines() {
        for k in 0..line.points.len() {
            for value in odd_values(line.points[k]) {
                let mut damaged = line.clone();
                damaged.points[k] = value;
                ask_all(&damaged, &sound);
            }
        }
    }
}

#[test]
fn rows_of_other_nodes_and_numbers_at_random() {
    let mut dice = Dice(6);
    let sound = Lent::built(&[1, 1, 3, 2, 6, 0]);
    for round in 0..1_500 {
        let half = dice.one_of(&[9, SHEET]);
        let mut damaged = Lent::built(&dice.ring(3 + round % 12, half));
        let rows = (damaged.points.len() / 2 - 1) * 2 - 1;
        for _ in 0..=round % 3 {
            let mut row = || dice.within(0, rows as i64 - 1) as usize;
            let (to, from) = (row(), row());
            if round % 2 == 0 {
                damaged
                    .table
                    .copy_within(ROW_WIDTH * from..ROW_WIDTH * (from + 1), ROW_WIDTH * to);
            } else {
                let column = dice.within(0, ROW_WIDTH as i64 - 1) as usize;
                let number = &mut damaged.table[ROW_WIDTH * to + column];
                *number = dice.one_of(&odd_values(*number));
            }
        }
        ask_all(&damaged, &sound);
    }
}

/// A point to ask a line about, on the sheet or not, and a distance, permitted or not.
fn asked(random: &mut Random, line: &Lent) -> (Point, i64) {
    let points: Vec<Point> = all_points(&line.points).collect();
    let (mut z, mut d) = (asked_point(random, &points), distance(random, 9));
    if random.one_in(9) {
        z.x = foreign(random, z.x);
    }
    if random.one_in(9) {
        z.y = foreign(random, z.y);
    }
    if random.one_in(9) {
        d = foreign(random, d);
    }
    (z, d)
}

/// Asks with a small allowance and with one that suffices for any two lines of 257 points.
fn ask_both(random: &mut Random, a: &Lent, b: &Lent) {
    for allowance in [random.between(0, 9) as u32, ENOUGH] {
        let (z, d) = asked(random, a);
        near(a, z.x, z.y, d, allowance);
        inside(a, z.x, z.y, allowance);
        meet(a, b, allowance);
        meet(b, a, allowance);
        agree(a, b, d, allowance);
    }
}

#[test]
fn foreign_numbers_in_tables_and_points_of_every_shape() {
    let mut random = Random(88);
    for round in 0..4_000 {
        let mut lines = [(); 2].map(|()| Lent::built(&sound_line(&mut random)));
        match round % 4 {
            0 => lines
                .iter_mut()
                .for_each(|line| damage(&mut random, &mut line.table)),
            1 => damage(&mut random, &mut lines[0].table),
            2 => stray(&mut random, &mut lines[0].points),
            _ => stray(&mut random, &mut lines[1].points),
        }
        let [a, b] = &lines;
        ask_both(&mut random, a, b);
    }
}

/// Their strips reach to -2^63 and 2^63 - 1, and still hold all their points.
#[test]
fn looser_tables_are_answered_as_plain_geometry_says() {
    let mut random = Random(89);
    for _ in 0..2_000 {
        let mut lines = [(); 2].map(|()| Lent::built(&sound_line(&mut random)));
        for line in &mut lines {
            loosen(&mut random, &mut line.table);
        }
        let [a, b] = &lines;
        ask_both(&mut random, a, b);
        let points: Vec<Point> = all_points(&a.points).collect();
        let (z, d) = (asked_point(&mut random, &points), random.between(0, SHEET));
        ask_plainly(a, b, z, d);
    }
}
