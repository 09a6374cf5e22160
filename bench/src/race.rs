//! Timing runners by turns, so that what disturbs the machine disturbs them all.

use std::hint::black_box;
use std::time::{Duration, Instant};

use crate::times::Times;

/// Runs a cell's questions once and gives a sum of what they said.
pub type Runner<'a> = &'a mut (dyn FnMut() -> u64 + 'a);

/// What is timed in a cell.
#[derive(Default)]
pub struct Runners<'a> {
    pub ours: Option<Runner<'a>>,
    /// The archive before.
    pub before: Option<Runner<'a>>,
    /// The hand-written tree.
    pub hand: Option<Runner<'a>>,
    /// The same in the prescribed form.
    pub form: Option<Runner<'a>>,
    /// The plain scan.
    pub plain: Option<Runner<'a>>,
    /// Beside a check: the build of the same line.
    pub build: Option<Runner<'a>>,
    /// And the check of a table that is at fault soon.
    pub early: Option<Runner<'a>>,
}

/// The orders in which so many lanes run, repetition after repetition: over all of them each lane follows each other
/// one as often. A lane that always came after the plain scan would always find the caches and the branch predictor as
/// the scan leaves them.
fn orders(lanes: usize) -> Vec<Vec<usize>> {
    // To and fro, 0 1 3 2 of four lanes, and the same begun at each lane; an odd number needs these backward as well.
    let to_and_fro = (0..lanes).map(|k| match k % 2 {
        0 => (lanes - k / 2) % lanes,
        _ => k / 2 + 1,
    });
    let begun_at = |first| to_and_fro.clone().map(move |lane| (lane + first) % lanes);
    let forward = (0..lanes).map(|first| begun_at(first).collect());
    let backward = (0..lanes).map(|first| begun_at(first).rev().collect());
    forward.chain(backward.take(lanes * (lanes % 2))).collect()
}

pub struct Race {
    /// At least so many: they are made up to a multiple of the number of orders.
    pub repetitions: usize,
}

struct Lane<'a> {
    runner: Runner<'a>,
    /// What every run must come to.
    sum: u64,
    /// Runs in a repetition: enough to be timed, and to get going after another lane; too short to be interrupted
    /// often.
    loops: u32,
    /// A slow plain scan runs in few repetitions.
    repetitions: usize,
    times: Vec<f64>,
}

impl Race {
    /// Times all runners in the orders above. One that comes to another sum than before ends the run.
    pub fn run<'a>(&self, runners: Runners<'a>) -> Times {
        let Runners {
            ours,
            before,
            hand,
            form,
            plain,
            build,
            early,
        } = runners;
        let quick = |runner: Option<Runner<'a>>| Some(lane(runner?, usize::MAX));
        let [ours, before, hand, form] = [ours, before, hand, form].map(quick);
        let [build, early] = [build, early].map(quick);
        let plain = plain.map(|runner| lane(runner, 3));
        let mut lanes = [ours, before, hand, form, plain, build, early];
        self.time(lanes.iter_mut().flatten().collect());
        Times::of(lanes.map(|lane| lane.map_or(vec![], |lane| lane.times)))
    }

    fn time(&self, mut lanes: Vec<&mut Lane>) {
        let orders = orders(lanes.len());
        let repetitions = self.repetitions.next_multiple_of(orders.len());
        for repetition in 0..repetitions {
            for &turn in &orders[repetition % orders.len()] {
                let lane = &mut lanes[turn];
                if repetition < lane.repetitions {
                    let time = lane.timed();
                    lane.times.push(time);
                }
            }
        }
    }
}

/// A runner that takes long runs in so many repetitions alone.
fn lane(runner: Runner, if_slow: usize) -> Lane {
    const LEAST: Duration = Duration::from_micros(300);
    const SLOW: Duration = Duration::from_millis(20);
    let mut lane = Lane {
        runner,
        sum: 0,
        loops: 1,
        repetitions: usize::MAX,
        times: vec![],
    };
    lane.sum = (lane.runner)();
    let once = Duration::from_nanos(lane.timed() as u64);
    lane.loops = (LEAST.as_nanos() / once.as_nanos().max(1) + 1) as u32;
    if once > SLOW {
        lane.repetitions = if_slow;
    }
    lane
}

impl Lane<'_> {
    /// Nanoseconds of one run, over the loops.
    fn timed(&mut self) -> f64 {
        let began = Instant::now();
        for _ in 0..self.loops {
            assert_eq!(
                black_box((self.runner)()),
                self.sum,
                "a run came to another sum"
            );
        }
        began.elapsed().as_nanos() as f64 / f64::from(self.loops)
    }
}
