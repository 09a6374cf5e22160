//! The table, and what it comes to.

use std::fs;

use crate::before;
use crate::shapes::{Drawing, Shape, Sheet, SHEETS};
use crate::times::{median, Times};

#[derive(Clone, Copy, PartialEq, Eq, Debug)]
pub enum Question {
    Build,
    Check,
    Near,
    In,
    Meet,
    Agree,
}

const QUESTIONS: [Question; 6] = [
    Question::Build,
    Question::Check,
    Question::Near,
    Question::In,
    Question::Meet,
    Question::Agree,
];

impl Question {
    fn name(self) -> &'static str {
        match self {
            Question::Build => "build",
            Question::Check => "check",
            Question::Near => "near",
            Question::In => "in",
            Question::Meet => "meet",
            Question::Agree => "agree",
        }
    }

    /// What a bar speaks of, and what is told beside the bars. A build is to measure each run whole, as form does; but
    /// on wide lines it is held against what is fastest by hand. A check is held against the build of the same line.
    fn yardsticks(self, sheet: Sheet) -> [Yardstick; 2] {
        match (self, sheet) {
            (Question::Check, _) => [Yardstick::Build, Yardstick::Hand],
            (Question::Build, Sheet::Old) => [Yardstick::Form, Yardstick::Hand],
            _ => [Yardstick::Hand, Yardstick::Form],
        }
    }

    /// Whether the archive before is asked it. It need not have a checker.
    fn of_before(self) -> bool {
        before::ARCHIVE.is_some() && self != Question::Check
    }
}

/// What ours is held against.
#[derive(Clone, Copy)]
enum Yardstick {
    Before,
    Hand,
    Form,
    Build,
}

impl Yardstick {
    fn name(self) -> &'static str {
        match self {
            Yardstick::Before => "before",
            Yardstick::Hand => "hand",
            Yardstick::Form => "form",
            Yardstick::Build => "build",
        }
    }

    fn ratio(self, times: &Times) -> f64 {
        match self {
            Yardstick::Before => times.ours_by_before,
            Yardstick::Hand => times.ours_by_hand,
            Yardstick::Form => times.ours_by_form,
            Yardstick::Build => times.ours_by_build,
        }
    }

    /// What a bar allows at most.
    fn most(self, question: Question, sheet: Sheet) -> f64 {
        match (self, question, sheet) {
            (Yardstick::Build, _, _) => 1.00,
            (Yardstick::Before, Question::Build, _) => 1.10,
            (Yardstick::Before, _, _) | (_, Question::Check, _) | (_, _, Sheet::Wide) => 1.15,
            (_, _, Sheet::Old) => 1.10,
        }
    }
}

/// A cell of the table: one kind of question about one kind of line. What does not apply is not a number.
pub struct Row {
    pub question: Question,
    pub drawing: Drawing,
    pub asked: &'static str,
    pub d: Option<i64>,
    /// The part that says yes, inside or on.
    pub yes: f64,
    pub visits: f64,
    pub times: Times,
}

/// The table's columns with their widths. The first four stand to the left.
const COLUMNS: [(&str, usize); 19] = [
    ("", 5),
    ("sheet", 5),
    ("line", 6),
    ("asked", 9),
    ("n", 4),
    ("D", 5),
    ("yes", 4),
    ("visits", 7),
    ("ours", 10),
    ("before", 10),
    ("hand", 10),
    ("form", 10),
    ("plain", 12),
    ("build", 10),
    ("ours/before", 11),
    ("ours/hand", 9),
    ("ours/form", 9),
    ("plain/ours", 10),
    ("ours/build", 10),
];

/// Whether a column has anything to say of a question.
fn applies(column: &str, question: Question) -> bool {
    match column {
        "before" | "ours/before" => question.of_before(),
        "plain" | "plain/ours" => ![Question::Build, Question::Check].contains(&question),
        "build" | "ours/build" => question == Question::Check,
        _ => true,
    }
}

impl Row {
    fn fields(&self) -> [String; COLUMNS.len()] {
        let times = &self.times;
        [
            self.question.name().to_string(),
            self.drawing.sheet.name().to_string(),
            self.drawing.shape.name().to_string(),
            self.asked.to_string(),
            self.drawing.n.to_string(),
            self.d.map_or(String::new(), |d| d.to_string()),
            shown(100.0 * self.yes, |yes| format!("{yes:.0}%")),
            shown(self.visits, number),
            number(times.ours),
            number(times.before),
            number(times.hand),
            number(times.form),
            number(times.plain),
            number(times.build),
            shown(times.ours_by_before, two_places),
            shown(times.ours_by_hand, two_places),
            shown(times.ours_by_form, two_places),
            number(times.plain_by_ours),
            shown(times.ours_by_build, two_places),
        ]
    }

    fn place(&self) -> String {
        let Drawing { sheet, shape, n } = self.drawing;
        let mut place = format!("{}, {}", sheet.name(), shape.name());
        if !self.asked.is_empty() {
            place += &format!(", {}", self.asked);
        }
        place += &format!(", n {n}");
        place + &self.d.map_or(String::new(), |d| format!(", D {d}"))
    }
}

/// One line of the table of a question.
fn print_fields(question: Question, fields: [String; COLUMNS.len()]) {
    let mut line = String::new();
    for (k, ((name, width), field)) in COLUMNS.into_iter().zip(fields).enumerate() {
        if !applies(name, question) {
            continue;
        }
        line += &if k < 4 {
            format!("{field:<width$} ")
        } else {
            format!("{field:>width$} ")
        };
    }
    println!("{}", line.trim_end());
}

pub fn heading(repetitions: usize) {
    let line = |path: &str, key: &str| -> String {
        let text = fs::read_to_string(path).unwrap_or_default();
        let found = text.lines().find(|line| line.starts_with(key));
        found
            .and_then(|line| line.rsplit(": ").next())
            .unwrap_or("")
            .to_string()
    };
    println!("archive    {}", kneukelboom::ARCHIVE);
    println!("before     {}", before::ARCHIVE.unwrap_or("none"));
    println!("processor  {}", line("/proc/cpuinfo", "model name"));
    let load = line("/proc/loadavg", "");
    let load: Vec<&str> = load.split(' ').take(3).collect();
    println!("load       {}", load.join(" "));
    println!(
        "
old    lines within the sheet of 32-bit tables, -16,383 to 16,383
wide   the same lines 61 times as large, over the sheet of today: squares pass 64 bits

ours   the archive
before the archive of the landing before
hand   the hand-written strip tree: same rows, same walk, same row check; walks and checks by a stack, boxes of a build
       from the halves
form   the same in the form that is asked of ours: walks and checks by calls, each run measured whole (meet: hand is)
plain  the plain scan over all segments
build  beside a check: ours building the same line

Nanoseconds per question, for build and check per segment: medians of {repetitions} interleaved repetitions or a few
more. Ratios are medians of those within a repetition. Every answer is compared: all numbers of ours, before, hand and
form, the word with plain.
"
    );
}

pub struct Report {
    rows: Vec<Row>,
    summary_only: bool,
}

impl Report {
    pub fn new(summary_only: bool) -> Report {
        Report {
            rows: vec![],
            summary_only,
        }
    }

    pub fn add(&mut self, row: Row) {
        let group = |row: &Row| (row.question, row.drawing.sheet);
        if !self.summary_only {
            if self.rows.last().map(group) != Some(group(&row)) {
                println!();
                print_fields(row.question, COLUMNS.map(|(name, _)| name.to_string()));
            }
            print_fields(row.question, row.fields());
        }
        self.rows.push(row);
    }

    fn of(&self, question: Question, sheet: Sheet) -> impl Iterator<Item = &Row> {
        let asked = move |row: &&Row| row.question == question && row.drawing.sheet == sheet;
        self.rows.iter().filter(asked)
    }

    /// Numbers of segments, rising.
    fn sizes(&self) -> Vec<usize> {
        let mut sizes: Vec<usize> = self.rows.iter().map(|row| row.drawing.n).collect();
        sizes.sort_unstable();
        sizes.dedup();
        sizes
    }

    /// Prints what the cells come to, and the bars. Gives whether all that could be judged are met.
    pub fn summary(&self) -> bool {
        for sheet in SHEETS {
            self.by_size(sheet);
        }
        for sheet in SHEETS {
            self.by_shape(sheet, Yardstick::Before, Question::of_before);
            self.by_shape(sheet, Yardstick::Build, |question| {
                question == Question::Check
            });
        }
        self.early();
        let met = self.bars();
        println!(
            "\nbeside the bars: against the other hand-written tree, and a check against hand"
        );
        for sheet in SHEETS {
            for question in QUESTIONS.into_iter().filter(|&q| q != Question::Meet) {
                self.held(question, sheet, question.yardsticks(sheet)[1]);
            }
        }
        met
    }

    /// Ours over hand by question and size.
    fn by_size(&self, sheet: Sheet) {
        println!(
            "\n{}: ours/hand, the median over the cells of a size, and the greatest. \
             Visits: medians over the cells with 5 or more",
            sheet.name()
        );
        print!("{:<5}", "");
        for n in self.sizes() {
            print!(" {:>12}", format!("n {n}"));
        }
        for name in ["ours", "hand", "form"] {
            print!(" {:>15}", format!("{name}, ns/visit"));
        }
        println!();
        for question in QUESTIONS {
            print!("{:<5}", question.name());
            for n in self.sizes() {
                let cells = self.of(question, sheet).filter(|row| row.drawing.n == n);
                let [_, middle, most] = spread(cells.map(|row| row.times.ours_by_hand));
                print!(" {:>12}", format!("{middle:.2}, {most:.2}"));
            }
            for time in [|t: &Times| t.ours, |t: &Times| t.hand, |t: &Times| t.form] {
                let walked = self.of(question, sheet).filter(|row| row.visits >= 5.0);
                let by_visit = walked.map(|row| time(&row.times) / row.visits);
                let by_visit = shown(median(by_visit.collect()), |ns| format!("{ns:.1}"));
                print!(" {by_visit:>15}");
            }
            println!();
        }
    }

    /// Ours over something else by shape and size, for the questions that it is held against.
    fn by_shape(&self, sheet: Sheet, by: Yardstick, is_held: fn(Question) -> bool) {
        let questions: Vec<Question> = QUESTIONS.into_iter().filter(|&q| is_held(q)).collect();
        if questions.is_empty() {
            return;
        }
        println!(
            "\n{}: ours/{}, the median over the cells of a shape and size; of several the least and the greatest",
            sheet.name(),
            by.name()
        );
        print!("{:<12}", "");
        for n in self.sizes() {
            print!(" {:>18}", format!("n {n}"));
        }
        println!();
        for question in questions {
            for shape in self.shapes(question) {
                print!("{:<5} {:<6}", question.name(), shape.name());
                for n in self.sizes() {
                    let drawing = Drawing { sheet, shape, n };
                    let cells = self.of(question, sheet);
                    let cells = cells.filter(|row| row.drawing == drawing);
                    print!(" {:>18}", middle_of(cells.map(|row| by.ratio(&row.times))));
                }
                println!();
            }
        }
    }

    /// The shapes that a question was asked about.
    fn shapes(&self, question: Question) -> Vec<Shape> {
        let mut shapes = vec![];
        for row in self.rows.iter().filter(|row| row.question == question) {
            if !shapes.contains(&row.drawing.shape) {
                shapes.push(row.drawing.shape);
            }
        }
        shapes
    }

    /// How soon a check ends that is refused for row 1.
    fn early(&self) {
        let checks = self
            .rows
            .iter()
            .filter(|row| row.question == Question::Check);
        let checks = checks.filter(|row| row.drawing.n >= 64);
        let [least, middle, most] = spread(checks.map(|row| row.times.early_by_ours));
        println!(
            "\ncheck, refused for row 1, from n = 64 on: {least:.2} to {most:.2} of a whole check, median {middle:.2}"
        );
    }

    /// Whether all bars are met.
    fn bars(&self) -> bool {
        println!("\nbars");
        let mut met = true;
        for sheet in SHEETS {
            for question in QUESTIONS {
                met &= self.held(question, sheet, question.yardsticks(sheet)[0]);
            }
        }
        for sheet in SHEETS {
            for question in QUESTIONS.into_iter().filter(|q| q.of_before()) {
                met &= self.held(question, sheet, Yardstick::Before);
            }
        }
        let by_plain = |question, asked: &str, least: f64| {
            let cells = self.of(question, Sheet::Old);
            let cells = cells.filter(|row| row.drawing.n == 4_096 && row.asked == asked);
            let cells = cells.map(|row| (row, row.times.plain_by_ours)).collect();
            let (name, times) = (question.name(), grouped(least));
            let name =
                format!("old, {name}, {asked}, n = 4,096: at least {times} times as fast as plain");
            bar(&name, cells, |ratio| ratio >= least)
        };
        met &= by_plain(Question::Near, "near line", 8.0);
        met &= by_plain(Question::Meet, "crossing", 1_000.0);
        met
    }

    /// Whether ours takes no more than a bar allows, from 64 segments on.
    fn held(&self, question: Question, sheet: Sheet, by: Yardstick) -> bool {
        let most = by.most(question, sheet);
        let cells = self.of(question, sheet).filter(|row| row.drawing.n >= 64);
        let cells = cells.map(|row| (row, by.ratio(&row.times))).collect();
        let name = format!(
            "{}, {}: at most {most:.2} times {}, from n = 64 on",
            sheet.name(),
            question.name(),
            by.name()
        );
        bar(&name, cells, |ratio| ratio <= most)
    }
}

/// Prints one bar: whether all its cells meet it, and some of those that do not. A bar without cells is not judged.
fn bar(name: &str, cells: Vec<(&Row, f64)>, meets: impl Fn(f64) -> bool) -> bool {
    let mut missed: Vec<&(&Row, f64)> = cells.iter().filter(|cell| !meets(cell.1)).collect();
    let verdict = match (cells.len(), missed.len()) {
        (0, _) => {
            println!("{name:<76} not judged");
            return true;
        }
        (count, 0) => format!("met in all {count} cells"),
        (count, missed) => format!("MISSED in {missed} of {count} cells"),
    };
    let [least, middle, most] = spread(cells.iter().map(|cell| cell.1)).map(number);
    println!("{name:<76} {verdict}: {least} to {most}, median {middle}");
    // The worst first: the greatest where the bar is an upper one.
    missed.sort_by(|a, b| {
        if meets(0.0) {
            b.1.total_cmp(&a.1)
        } else {
            a.1.total_cmp(&b.1)
        }
    });
    for (row, value) in missed.iter().take(3) {
        println!("    {}: {}", row.place(), number(*value));
    }
    missed.is_empty()
}

/// The least of some values, their median and the greatest.
fn spread(values: impl Iterator<Item = f64>) -> [f64; 3] {
    let values: Vec<f64> = values.collect();
    let least = values.iter().copied().fold(f64::NAN, f64::min);
    let most = values.iter().copied().fold(f64::NAN, f64::max);
    [least, median(values), most]
}

/// The median, and of several the least and the greatest.
fn middle_of(values: impl Iterator<Item = f64>) -> String {
    let values: Vec<f64> = values.collect();
    let several = values.len() > 1;
    let [least, middle, most] = spread(values.into_iter());
    if several {
        format!("{middle:.2}, {least:.2} {most:.2}")
    } else {
        format!("{middle:.2}")
    }
}

/// Nothing where it is not a number.
fn shown(value: f64, write: fn(f64) -> String) -> String {
    if value.is_nan() {
        String::new()
    } else {
        write(value)
    }
}

fn two_places(value: f64) -> String {
    format!("{value:.2}")
}

/// Three digits or so: 1.23, 12.3, 123, 12,345.
fn number(value: f64) -> String {
    shown(value, |value| match value {
        _ if value < 9.995 => format!("{value:.2}"),
        _ if value < 99.95 => format!("{value:.1}"),
        _ => grouped(value),
    })
}

/// 1234567 as 1,234,567.
fn grouped(value: f64) -> String {
    let digits = format!("{value:.0}");
    let mut out = String::new();
    for (i, digit) in digits.chars().enumerate() {
        if i > 0 && (digits.len() - i) % 3 == 0 {
            out.push(',');
        }
        out.push(digit);
    }
    out
}
