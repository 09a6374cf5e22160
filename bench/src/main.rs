//! The proved library beside a hand-written strip tree, a plain scan, and the archive before: the same questions, every
//! answer compared, times as ratios.
//!
//!     cargo run --release --offline             the whole table
//!     cargo run --release --offline -- --quick  two sizes, few repetitions: for the gate
//!
//! `--summary` prints no table. `--bars` ends with status 1 where a bar is missed; a difference between answers always
//! does. `--saw` asks about saws alone, the lines that a strip tree is worst at. The archive before is asked where
//! KNEUKELBOOM_BEFORE_DIR named its folder when this was built.

mod before;
mod check;
mod hand;
mod plain;
mod race;
mod report;
mod shapes;
mod times;

use std::hint::black_box;
use std::process::ExitCode;
use std::time::Instant;

use check::Line;
use kneukelboom::lent::word::{INSIDE, ON, YES};
pub use kneukelboom::lent::{self, Reply};
use race::{Race, Runners};
use report::{Question, Report, Row};
use shapes::{Drawing, Random, Shape, Sheet, PAIRS, POINTS, SHAPES, SHEETS};
use times::Times;

/// Points asked about in a cell, enough that the processor does not learn them by heart.
const ASKED: usize = 512;
/// Pairs asked about in a cell.
const TURNS: usize = 4;
/// The greatest allowance: every answer is decided.
const ENOUGH: u32 = u32::MAX;

fn distances(sheet: Sheet) -> [i64; 4] {
    [0, 8, 32, 500].map(|d| d * sheet.scale())
}

#[derive(Default)]
struct Options {
    quick: bool,
    summary: bool,
    bars: bool,
    saw: bool,
}

impl Options {
    fn read() -> Result<Options, String> {
        let mut options = Options::default();
        for word in std::env::args().skip(1) {
            match word.as_str() {
                "--quick" => options.quick = true,
                "--summary" => options.summary = true,
                "--bars" => options.bars = true,
                "--saw" => options.saw = true,
                _ => return Err(format!("{word}: not one of --quick --summary --bars --saw")),
            }
        }
        Ok(options)
    }

    /// Numbers of segments.
    fn sizes(&self) -> &'static [usize] {
        if self.quick {
            &[64, 1_024]
        } else {
            &[16, 64, 256, 1_024, 4_096]
        }
    }

    fn shapes(&self) -> &'static [Shape] {
        if self.saw {
            &[Shape::Saw]
        } else {
            &SHAPES
        }
    }

    fn drawings(&self) -> Vec<Drawing> {
        let mut drawings = vec![];
        for sheet in SHEETS {
            for &n in self.sizes() {
                let of_shape = |&shape: &Shape| Drawing { sheet, shape, n };
                drawings.extend(self.shapes().iter().map(of_shape));
            }
        }
        drawings
    }
}

fn main() -> ExitCode {
    let options = match Options::read() {
        Ok(options) => options,
        Err(message) => {
            eprintln!("{message}");
            return ExitCode::FAILURE;
        }
    };
    let began = Instant::now();
    let mut bench = Bench {
        race: Race {
            repetitions: if options.quick { 4 } else { 24 },
        },
        report: Report::new(options.summary),
    };
    report::heading(bench.race.repetitions);

    let rounds = if options.quick { 20_000 } else { 200_000 };
    let refused = check::damaged(rounds);
    println!("{rounds} rounds of damaged input: the same replies, {refused} of them refusals");

    let drawings = || options.drawings().into_iter();
    drawings().for_each(|drawing| bench.build(drawing));
    drawings().for_each(|drawing| bench.checker(drawing));
    drawings().for_each(|drawing| bench.near(drawing));
    let rings = drawings().filter(|drawing| drawing.shape == Shape::Ring);
    rings.for_each(|drawing| bench.inside(drawing));
    drawings().for_each(|drawing| bench.meet(drawing));
    drawings().for_each(|drawing| bench.agree(drawing));

    let met = bench.report.summary();
    println!("\n{:.1} s in all", began.elapsed().as_secs_f64());
    if options.bars && !met {
        return ExitCode::FAILURE;
    }
    ExitCode::SUCCESS
}

struct Bench {
    race: Race,
    report: Report,
}

impl Bench {
    fn build(&mut self, drawing: Drawing) {
        let line = Line::built(drawing.alone());
        let points = || black_box(&line.points[..]);
        let [mut a, mut b, mut c, mut d] = [(); 4].map(|()| line.table.clone());
        let times = self.race.run(Runners {
            ours: Some(&mut || sum([lent::build(points(), &mut a)])),
            before: before::runner(&mut || sum([before::build(points(), &mut b)])),
            hand: Some(&mut || sum([hand::build::<false>(points(), &mut c)])),
            form: Some(&mut || sum([hand::build::<true>(points(), &mut d)])),
            ..Runners::default()
        });
        let times = times.per(drawing.n);
        self.add(Question::Build, drawing, "", None, &[], times);
    }

    fn checker(&mut self, drawing: Drawing) {
        let line = Line::built(drawing.alone());
        let faulty = line.with_a_bad_row_1();
        check::accepted(&line.points, &line.table);
        check::refused_for_row_1(&line.points, &faulty);
        let points = || black_box(&line.points[..]);
        let table = || black_box(&line.table[..]);
        let mut built = line.table.clone();
        let times = self.race.run(Runners {
            ours: Some(&mut || sum([lent::check(points(), table())])),
            hand: Some(&mut || sum([hand::check::<false>(points(), table())])),
            form: Some(&mut || sum([hand::check::<true>(points(), table())])),
            build: Some(&mut || sum([lent::build(points(), &mut built)])),
            early: Some(&mut || sum([lent::check(points(), black_box(&faulty))])),
            ..Runners::default()
        });
        let times = times.per(drawing.n);
        self.add(Question::Check, drawing, "", None, &[], times);
    }

    fn near(&mut self, drawing: Drawing) {
        let line = Line::built(drawing.alone());
        let (p, t) = (&line.points[..], &line.table[..]);
        let mut random = Random(drawing.n as u64);
        for kind in POINTS {
            let asked = kind.some(drawing.sheet, p, ASKED, &mut random);
            let each = || black_box(&asked[..]).iter().copied();
            for d in distances(drawing.sheet) {
                let replies: Vec<_> = each().map(|z| check::near(&line, z, d)).collect();
                let times = self.race.run(Runners {
                    ours: Some(&mut || sum(each().map(|(x, y)| lent::near(p, t, x, y, d, ENOUGH)))),
                    before: before::runner(&mut || {
                        sum(each().map(|(x, y)| before::near(p, t, x, y, d, ENOUGH)))
                    }),
                    hand: Some(&mut || {
                        sum(each().map(|(x, y)| hand::near::<false>(p, t, x, y, d, ENOUGH)))
                    }),
                    form: Some(&mut || {
                        sum(each().map(|(x, y)| hand::near::<true>(p, t, x, y, d, ENOUGH)))
                    }),
                    plain: Some(&mut || each().map(|z| u64::from(plain::near(p, z, d))).sum()),
                    ..Runners::default()
                });
                let times = times.per(ASKED);
                let asked = kind.name();
                self.add(Question::Near, drawing, asked, Some(d), &replies, times);
            }
        }
    }

    fn inside(&mut self, drawing: Drawing) {
        let line = Line::built(drawing.alone());
        let (p, t) = (&line.points[..], &line.table[..]);
        let mut random = Random(drawing.n as u64);
        for kind in POINTS {
            let asked = kind.some(drawing.sheet, p, ASKED, &mut random);
            let each = || black_box(&asked[..]).iter().copied();
            let replies: Vec<_> = each().map(|z| check::inside(&line, z)).collect();
            let times = self.race.run(Runners {
                ours: Some(&mut || sum(each().map(|(x, y)| lent::inside(p, t, x, y, ENOUGH)))),
                before: before::runner(&mut || {
                    sum(each().map(|(x, y)| before::inside(p, t, x, y, ENOUGH)))
                }),
                hand: Some(&mut || {
                    sum(each().map(|(x, y)| hand::inside::<false>(p, t, x, y, ENOUGH)))
                }),
                form: Some(&mut || {
                    sum(each().map(|(x, y)| hand::inside::<true>(p, t, x, y, ENOUGH)))
                }),
                plain: Some(&mut || each().map(|z| u64::from(plain::inside(p, z))).sum()),
                ..Runners::default()
            });
            let times = times.per(ASKED);
            self.add(Question::In, drawing, kind.name(), None, &replies, times);
        }
    }

    fn meet(&mut self, drawing: Drawing) {
        for kind in PAIRS {
            let pairs = Line::pairs(drawing, kind, TURNS);
            let each = || black_box(&pairs[..]).iter().map(Line::slices);
            let replies: Vec<_> = pairs.iter().map(check::meet).collect();
            let times = self.race.run(Runners {
                ours: Some(&mut || sum(each().map(|(p, t, q, u)| lent::meet(p, t, q, u, ENOUGH)))),
                before: before::runner(&mut || {
                    sum(each().map(|(p, t, q, u)| before::meet(p, t, q, u, ENOUGH)))
                }),
                hand: Some(&mut || sum(each().map(|(p, t, q, u)| hand::meet(p, t, q, u, ENOUGH)))),
                plain: Some(&mut || {
                    each()
                        .map(|(p, _, q, _)| u64::from(plain::meet(p, q)))
                        .sum()
                }),
                ..Runners::default()
            });
            let times = times.per(TURNS);
            self.add(Question::Meet, drawing, kind.name(), None, &replies, times);
        }
    }

    fn agree(&mut self, drawing: Drawing) {
        for kind in PAIRS {
            let pairs = Line::pairs(drawing, kind, TURNS);
            let each = || black_box(&pairs[..]).iter().map(Line::slices);
            for d in distances(drawing.sheet) {
                let replies: Vec<_> = pairs.iter().map(|pair| check::agree(pair, d)).collect();
                let times = self.race.run(Runners {
                    ours: Some(&mut || {
                        sum(each().map(|(p, t, q, u)| lent::agree(p, t, q, u, d, ENOUGH)))
                    }),
                    before: before::runner(&mut || {
                        sum(each().map(|(p, t, q, u)| before::agree(p, t, q, u, d, ENOUGH)))
                    }),
                    hand: Some(&mut || {
                        sum(each().map(|(p, t, q, u)| hand::agree::<false>(p, t, q, u, d, ENOUGH)))
                    }),
                    form: Some(&mut || {
                        sum(each().map(|(p, t, q, u)| hand::agree::<true>(p, t, q, u, d, ENOUGH)))
                    }),
                    plain: Some(&mut || {
                        each()
                            .map(|(p, _, q, _)| u64::from(plain::agree(p, q, d).is_none()))
                            .sum()
                    }),
                    ..Runners::default()
                });
                let times = times.per(TURNS);
                let asked = kind.name();
                self.add(Question::Agree, drawing, asked, Some(d), &replies, times);
            }
        }
    }

    fn add(
        &mut self,
        question: Question,
        drawing: Drawing,
        asked: &'static str,
        d: Option<i64>,
        replies: &[Reply],
        times: Times,
    ) {
        let count = replies.len() as f64;
        let is_yes = |reply: &&Reply| [YES, INSIDE, ON].contains(&reply.word);
        let visits: u64 = replies.iter().map(|reply| u64::from(reply.visits)).sum();
        self.report.add(Row {
            question,
            drawing,
            asked,
            d,
            yes: replies.iter().filter(is_yes).count() as f64 / count,
            visits: visits as f64 / count,
            times,
        });
    }
}

/// A number that every run of a cell must come to again.
fn sum(replies: impl IntoIterator<Item = Reply>) -> u64 {
    let read = |reply: Reply| u64::from(reply.word) << 40 | u64::from(reply.visits);
    replies.into_iter().map(read).sum()
}
