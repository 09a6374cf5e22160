//! Lines, points and pairs to ask about, the same on every run.

use std::f64::consts::TAU;

use kneukelboom::SHEET;

/// splitmix64: short, and the same on every machine.
pub struct Random(pub u64);

impl Random {
    pub fn next(&mut self) -> u64 {
        self.0 = self.0.wrapping_add(0x9e37_79b9_7f4a_7c15);
        let mut z = self.0;
        z = (z ^ (z >> 30)).wrapping_mul(0xbf58_476d_1ce4_e5b9);
        z = (z ^ (z >> 27)).wrapping_mul(0x94d0_49bb_1331_11eb);
        z ^ (z >> 31)
    }

    /// From `least` to `greatest`, both taken in.
    pub fn between(&mut self, least: i64, greatest: i64) -> i64 {
        let range = (greatest - least + 1) as u64;
        least + (self.next() % range) as i64
    }

    pub fn pick<T: Copy>(&mut self, from: &[T]) -> T {
        from[(self.next() % from.len() as u64) as usize]
    }
}

/// The sheet that lines are drawn over.
#[derive(Clone, Copy, PartialEq, Eq, Debug)]
pub enum Sheet {
    /// That of 32-bit tables.
    Old,
    /// All of it: the squares that are compared pass 64 bits.
    Wide,
}

pub const SHEETS: [Sheet; 2] = [Sheet::Old, Sheet::Wide];

impl Sheet {
    pub fn name(self) -> &'static str {
        match self {
            Sheet::Old => "old",
            Sheet::Wide => "wide",
        }
    }

    /// Coordinates go from -limit to limit.
    pub fn limit(self) -> i64 {
        match self {
            Sheet::Old => 16_383,
            Sheet::Wide => SHEET,
        }
    }

    /// Sizes, steps and distances are those of the old sheet so many times: 1, or 61.
    pub fn scale(self) -> i64 {
        self.limit() / Sheet::Old.limit()
    }
}

/// Half a sheet, in which lines are drawn before they are placed: x and y from -1 to 1.
type Drawn = (f64, f64);

#[derive(Clone, Copy, PartialEq, Eq, Debug)]
pub enum Shape {
    /// A river: three waves on one another.
    Smooth,
    /// From side to side at each point, 400 units of the old sheet (25 metres) each.
    Zigzag,
    /// A pond with bays; its last point is its first.
    Ring,
    /// A zigzag along a wave. Splits fall next to an end, and the tree is nearly as deep as the line is long: the worst
    /// that a strip tree can meet. It is asked for by name, and no bar speaks of it.
    Saw,
}

pub const SHAPES: [Shape; 3] = [Shape::Smooth, Shape::Zigzag, Shape::Ring];

impl Shape {
    pub fn name(self) -> &'static str {
        match self {
            Shape::Smooth => "smooth",
            Shape::Zigzag => "zigzag",
            Shape::Ring => "ring",
            Shape::Saw => "saw",
        }
    }

    fn drawn(self, i: usize, n: usize, shift: f64) -> Drawn {
        let s = i as f64 / n as f64;
        let wave = |times: f64, from: f64| (TAU * (times * s + from + shift)).sin();
        let tooth = [0.0125, -0.0125][i % 2];
        match self {
            Shape::Smooth => (
                2.0 * s - 1.0,
                0.30 * wave(1.3, 0.0) + 0.07 * wave(7.0, 0.2) + 0.01 * wave(31.0, 0.4),
            ),
            Shape::Zigzag => (2.0 * s - 1.0, tooth),
            Shape::Saw => (2.0 * s - 1.0, tooth + 0.10 * wave(1.0, 0.0)),
            Shape::Ring => {
                // The last point is the first one, to the last bit.
                let s = if i == n { 0.0 } else { s };
                let wave = |times: f64, from: f64| (TAU * (times * s + from + shift)).sin();
                let radius = 0.80 + 0.15 * wave(5.0, 0.0) + 0.04 * wave(23.0, 0.3);
                (radius * (TAU * s).cos(), radius * (TAU * s).sin())
            }
        }
    }
}

/// What is drawn: a shape of n segments over a sheet.
#[derive(Clone, Copy, PartialEq, Eq, Debug)]
pub struct Drawing {
    pub sheet: Sheet,
    pub shape: Shape,
    pub n: usize,
}

impl Drawing {
    /// Drawn at a size and around a place, in units of the old sheet.
    fn line(self, shift: f64, size: f64, around: Drawn) -> Vec<i64> {
        let (scale, limit) = (self.sheet.scale() as f64, self.sheet.limit());
        let unit = |v: f64| ((scale * v).round() as i64).clamp(-limit, limit);
        (0..=self.n)
            .flat_map(|i| {
                let (x, y) = self.shape.drawn(i, self.n, shift);
                [unit(size * x + around.0), unit(size * y + around.1)]
            })
            .collect()
    }

    /// A line across most of the sheet.
    pub fn alone(self) -> Vec<i64> {
        self.line(0.0, 16_000.0, (0.0, 0.0))
    }

    /// Two lines of n segments. `turn` moves the second a little.
    pub fn pair(self, pair: Pair, turn: usize) -> (Vec<i64>, Vec<i64>) {
        let moved = 37.0 * turn as f64;
        match pair {
            Pair::Far => (
                self.line(0.0, 7_000.0, (-8_500.0, 0.0)),
                self.line(0.0, 7_000.0, (8_500.0, moved)),
            ),
            Pair::Parallel => {
                let a = self.line(0.01 * turn as f64, 15_500.0, (0.0, 0.0));
                let b = a.chunks_exact(2).flat_map(|p| self.beside((p[0], p[1])));
                let b = b.collect();
                (a, b)
            }
            Pair::Crossing if self.shape == Shape::Ring => (
                self.line(0.0, 11_000.0, (-4_000.0, 0.0)),
                self.line(0.0, 11_000.0, (4_000.0, moved)),
            ),
            Pair::Crossing => {
                let a = self.line(0.0, 16_000.0, (0.0, 0.0));
                let b = self.line(0.1, 16_000.0, (0.0, moved));
                (a, b.chunks_exact(2).flat_map(|p| [p[1], p[0]]).collect())
            }
        }
    }

    /// A point 24 units of the old sheet (1.5 metres) beside: upward, or outward from the middle of a ring. So the
    /// lines never meet.
    fn beside(self, (x, y): (i64, i64)) -> [i64; 2] {
        let aside = 24 * self.sheet.scale();
        if self.shape != Shape::Ring {
            return [x, y + aside];
        }
        let (x, y) = (x as f64, y as f64);
        let out = 1.0 + aside as f64 / x.hypot(y);
        [(out * x).round() as i64, (out * y).round() as i64]
    }
}

#[derive(Clone, Copy, PartialEq, Eq, Debug)]
pub enum Pair {
    /// In the two halves of the sheet.
    Far,
    /// 24 units of the old sheet (1.5 metres) beside one another all along.
    Parallel,
    /// One across the other.
    Crossing,
}

pub const PAIRS: [Pair; 3] = [Pair::Far, Pair::Parallel, Pair::Crossing];

impl Pair {
    pub fn name(self) -> &'static str {
        match self {
            Pair::Far => "far",
            Pair::Parallel => "parallel",
            Pair::Crossing => "crossing",
        }
    }
}

#[derive(Clone, Copy, PartialEq, Eq, Debug)]
pub enum Points {
    /// Anywhere on the sheet.
    Uniform,
    /// At most 16 units of the old sheet (a metre) from some place on the line, in x and in y.
    Near,
    /// A point of the line itself.
    Vertex,
}

pub const POINTS: [Points; 3] = [Points::Uniform, Points::Near, Points::Vertex];

impl Points {
    pub fn name(self) -> &'static str {
        match self {
            Points::Uniform => "uniform",
            Points::Near => "near line",
            Points::Vertex => "vertices",
        }
    }

    pub fn some(
        self,
        sheet: Sheet,
        line: &[i64],
        count: usize,
        random: &mut Random,
    ) -> Vec<(i64, i64)> {
        (0..count).map(|_| self.one(sheet, line, random)).collect()
    }

    fn one(self, sheet: Sheet, line: &[i64], random: &mut Random) -> (i64, i64) {
        let at = |i: usize| (line[2 * i], line[2 * i + 1]);
        let n = line.len() as i64 / 2 - 1;
        let limit = sheet.limit();
        match self {
            Points::Uniform => (random.between(-limit, limit), random.between(-limit, limit)),
            Points::Near => {
                let i = random.between(0, n - 1) as usize;
                let (a, b) = (at(i), at(i + 1));
                let part = random.between(0, 1_000) as f64 / 1_000.0;
                let along = |a: i64, b: i64| a + ((b - a) as f64 * part).round() as i64;
                let off = 16 * sheet.scale();
                let mut moved = |v: i64| (v + random.between(-off, off)).clamp(-limit, limit);
                (moved(along(a.0, b.0)), moved(along(a.1, b.1)))
            }
            Points::Vertex => at(random.between(0, n) as usize),
        }
    }
}
