//! Questions over tables that the checker accepts, whoever wrote them: words, lines and points of the replies are plain
//! geometry's, and those of the built table; visits are the second reading's, and at most as many as always suffice.

use compare::{agree, ask_plainly, check, inside, meet, near, Lent, ACCEPTED, ENOUGH};
use kneukelboom::lent::{word, Reply};
use kneukelboom::SHEET;
use second::generate::{asked_point, damage, distance, foreign_table, loosen, sound_line, Random};
use second::geometry::{all_points, Point};

/// A line whose table has other splits and is looser, is the built one but looser, or has foreign numbers in it that
/// leave it sound: the checker decides.
fn accepted(random: &mut Random) -> Lent {
    let mut lines = (0..1_000).map(|_| {
        let mut lent = Lent::built(&sound_line(random));
        match random.between(0, 3) {
            0 => loosen(random, &mut lent.table),
            1 => damage(random, &mut lent.table),
            _ => lent.table = foreign_table(random, &lent.points),
        }
        lent
    });
    let accepted = lines.find(|lent| check(lent) == ACCEPTED);
    accepted.expect("most of them are sound")
}

/// A point and a distance to ask about, on the sheet or not, permitted or not.
fn asked(random: &mut Random, line: &Lent) -> (Point, i64) {
    let points: Vec<Point> = all_points(&line.points).collect();
    let d = random.between(0, SHEET);
    let d = random.pick(&[d, d / 100, d / 10_000]);
    (asked_point(random, &points), distance(random, d))
}

/// The visits that always suffice, for NEAR, IN, MEET and AGREE.
fn always_enough(a: &Lent, b: &Lent) -> [u32; 4] {
    let (n, m) = (a.segments() as u32, b.segments() as u32);
    let both_ways = (n + 1) * (2 * m - 1) + (m + 1) * (2 * n - 1);
    [2 * n - 1, 2 * n - 1, 2 * n * m - 1, both_ways]
}

/// The reply but for its visits.
fn answer(reply: Reply) -> Reply {
    Reply { visits: 0, ..reply }
}

#[test]
fn answers_over_accepted_tables_are_plain_geometrys_and_the_built_tables() {
    let mut random = Random(90);
    let mut other_visits = [0; 4];
    for _ in 0..3_000 {
        let [a, b] = [(); 2].map(|()| accepted(&mut random));
        let (z, d) = asked(&mut random, &a);
        let replies = ask_plainly(&a, &b, z, d);
        let [of_a, of_b] = [&a, &b].map(|lent| Lent::built(&lent.points));
        let built = ask_plainly(&of_a, &of_b, z, d);
        for k in 0..4 {
            assert_eq!(
                answer(replies[k]),
                answer(built[k]),
                "{a:?} {b:?} {z:?} {d}"
            );
            assert!(![10, 21, 22].contains(&replies[k].number));
            other_visits[k] += u32::from(replies[k].visits != built[k].visits);
        }
        for (reply, most) in replies.iter().zip(always_enough(&a, &b)) {
            assert!(
                reply.visits <= most,
                "{reply:?} of {most}: {a:?} {b:?} {z:?} {d}"
            );
        }
    }
    // these tables are walked otherwise than the built ones
    assert!(
        other_visits.iter().all(|&times| times > 100),
        "{other_visits:?}"
    );
}

#[test]
fn the_visits_that_always_suffice_decide_and_one_too_few_does_not() {
    let mut random = Random(91);
    for _ in 0..2_000 {
        let [a, b] = [(); 2].map(|()| accepted(&mut random));
        let (z, d) = asked(&mut random, &a);
        let ask: [&dyn Fn(u32) -> Reply; 4] = [
            &|allowance| near(&a, z.x, z.y, d, allowance),
            &|allowance| inside(&a, z.x, z.y, allowance),
            &|allowance| meet(&a, &b, allowance),
            &|allowance| agree(&a, &b, d, allowance),
        ];
        for (ask, most) in ask.into_iter().zip(always_enough(&a, &b)) {
            let reply = ask(ENOUGH);
            assert_eq!(ask(most), reply);
            assert_eq!(ask(reply.visits), reply);
            if reply.visits > 0 {
                let one_fewer = ask(reply.visits - 1);
                assert_eq!(one_fewer.word, word::UNDECIDED);
            }
        }
    }
}
