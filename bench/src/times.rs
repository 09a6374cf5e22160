//! What a race comes to: times, their ratios, and the median.

/// Nanoseconds of one run, median over the repetitions. The ratios are medians of the ratios within a repetition. What
/// has not run is not a number.
pub struct Times {
    pub ours: f64,
    pub before: f64,
    pub hand: f64,
    pub form: f64,
    pub plain: f64,
    pub build: f64,
    pub ours_by_before: f64,
    pub ours_by_hand: f64,
    pub ours_by_form: f64,
    pub plain_by_ours: f64,
    pub ours_by_build: f64,
    pub early_by_ours: f64,
}

impl Times {
    /// Of the times of each repetition: ours, before, hand, form, plain, build and early.
    pub fn of([ours, before, hand, form, plain, build, early]: [Vec<f64>; 7]) -> Times {
        let ratio = |over: &[f64], under: &[f64]| {
            let both = over.iter().zip(under);
            median(both.map(|(over, under)| over / under).collect())
        };
        Times {
            ours_by_before: ratio(&ours, &before),
            ours_by_hand: ratio(&ours, &hand),
            ours_by_form: ratio(&ours, &form),
            plain_by_ours: ratio(&plain, &ours),
            ours_by_build: ratio(&ours, &build),
            early_by_ours: ratio(&early, &ours),
            ours: median(ours),
            before: median(before),
            hand: median(hand),
            form: median(form),
            plain: median(plain),
            build: median(build),
        }
    }

    pub fn per(self, count: usize) -> Times {
        let count = count as f64;
        Times {
            ours: self.ours / count,
            before: self.before / count,
            hand: self.hand / count,
            form: self.form / count,
            plain: self.plain / count,
            build: self.build / count,
            ..self
        }
    }
}

/// Not a number of no values.
pub fn median(mut values: Vec<f64>) -> f64 {
    values.sort_by(f64::total_cmp);
    match values.len() {
        0 => f64::NAN,
        count if count % 2 == 1 => values[count / 2],
        count => (values[count / 2 - 1] + values[count / 2]) / 2.0,
    }
}
