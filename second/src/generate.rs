//! Question files from a fixed seed; and lines, points, distances and foreign tables to lend.
//!
//! A file is a row of scenes: line A of one shape, line B made from it or of another shape, then
//! NEAR, IN, MEET and AGREE, each asked with the exact number of visits as its allowance, one less,
//! and one of 0, 1 and the greatest; records that are not understood stand in between. Shapes and
//! bad records come round in turn, so some eight hundred questions have met each of them once. In
//! every fourth scene NEAR is asked where it turns on the last unit, far from the middle too.
//!
//! Refusals that come through the program: 2, 4, 5, 7, 8, 9, 12 and 13. Those that cannot:
//! 1 (the store hands over whole points), 3 (a line of 258 points is 13 long before), 6 (the
//! program's tables have room for 257 points), 10 (it reads only tables it has just built), 8 in
//! AGREE (a point off the sheet is 4 when its line is built), and 21 and 22 (no record asks the checker).

mod asked;
mod damage;
mod random;
mod shapes;
mod tight;

use std::io::{self, BufWriter, Write};

use crate::geometry::{all_points, plain_astray, plain_near, point, Name, Point};
use crate::program::{Program, Question, MOST_BYTES};
use crate::tree::{on_sheet, FARTHEST, SHEET};
use crate::walk::Answer;
use shapes::{companion, shaped, SHAPES};

pub use asked::{asked_point, distance};
pub use damage::{damage, damage_at, foreign, foreign_table, loosen, stray, Damage};
pub use random::Random;
pub use shapes::{comb, sound_line};
pub use tight::{tight, Tight};

/// Writes a question file with `count` questions. Files of odd seeds lack their last line feed.
pub fn generate(seed: u64, count: u64, output: impl Write) -> io::Result<()> {
    let mut file = File {
        random: Random(seed),
        program: Program::new(false),
        output: BufWriter::new(output),
        written: 0,
        asked: 0,
        count,
        spoiled: 0,
    };
    file.before_any_line()?;
    let mut scene = 0;
    while file.asked < file.count {
        file.scene(scene)?;
        scene += 1;
    }
    if seed & 1 == 0 && file.written > 0 {
        file.output.write_all(b"\n")?;
    }
    file.output.flush()
}

/// A place before it is put on the sheet.
type Place = (i64, i64);

/// Steps whose length is whole: they bring distances that are met exactly.
const WHOLE_STEPS: [Place; 6] = [(3, 4), (-4, 3), (5, -12), (-8, -15), (7, 24), (1, 0)];

/// Records that are not understood, whatever stands before them.
const BAD_RECORDS: [&[u8]; 86] = [
    b"",
    b"\r",
    b" ",
    b"\t",
    b"\t\t\t\t",
    b"\0",
    b"A",
    b"# remark",
    b"1\tYES\t2\t0\t-\t0",
    b"LINE",
    b"LINE\t",
    b"LINE\tC",
    b"LINE\ta",
    b"LINE\tAB",
    b"LINE\tA\t",
    b"LINE\tA\tB",
    b"LINE\t\tA",
    b"LINE\tA ",
    b"LINE\tA\r",
    b"LINE\tA\0",
    b"LINE A",
    b"LINES\tA",
    b"LIN\tB",
    b"Line\tB",
    b"line\tB",
    b"\tLINE\tB",
    b"\0LINE\tB",
    b"\xef\xbb\xbfLINE\tB",
    b"PT",
    b"PT\t",
    b"PT\t1",
    b"PT\t1\t",
    b"PT\t\t1",
    b"PT\t\t1\t2",
    b"PT\t1\t\t2",
    b"PT\t1\t2\t",
    b"PT\t1\t2\t3",
    b"PT\t1\t2\t3\t4\t5\t6",
    b"pt\t1\t2",
    b"PT 1 2",
    b"PT\t1 2",
    b"PT\t01\t2",
    b"PT\t1\t00",
    b"PT\t-0\t1",
    b"PT\t1\t-01",
    b"PT\t+1\t2",
    b"PT\t1.0\t2",
    b"PT\t1 \t2",
    b"PT\t 1\t2",
    b"PT\t--1\t2",
    b"PT\t-\t2",
    b"PT\t1-\t2",
    b"PT\t1e3\t2",
    b"PT\t0x10\t2",
    b"PT\t1\t2\r",
    b"PT\t1\0\t2",
    b"PT\t\xd9\xa1\t2",
    b"PT\t\xff\t2",
    b"PT\t2147483648\t0",
    b"PT\t0\t-2147483649",
    b"PT\t9999999999\t0",
    b"PT\t12345678901\t0",
    b"PT\t0\t-12345678901",
    b"PT\t00000000001\t0",
    b"PT\t18446744073709551617\t0",
    b"NEAR\t1\t2\t3",
    b"NEAR\t1\t2\t3\t4\t5",
    b"NEAR\t1\t2\t2147483648\t4",
    b"NEAR\t1\t2\t-2147483649\t4",
    b"NEAR\t1\t2\t03\t4",
    b"NEAR\t1\t2\t3\t-1",
    b"NEAR\t1\t2\t3\t4294967296",
    b"NEAR\t2147483648\t2\t3\t4",
    b"Near\t1\t2\t3\t4",
    b"MEET",
    b"MEET\t",
    b"MEET\t-0",
    b"MEET\t-2147483648",
    b"MEET\t9999999999",
    b"MEET\t1\t2",
    b"IN\t1\t2",
    b"IN\t1\t2\t3\t4",
    b"IN\t1\t2\t42949672950",
    b"AGREE\t1",
    b"AGREE\t1\t2\t3",
    b"AGREE\t1\t00",
];

struct File<W: Write> {
    random: Random,
    /// The same text lines go here, so that questions can be tried on the lines as they stand.
    program: Program,
    output: BufWriter<W>,
    written: u64,
    asked: u64,
    count: u64,
    spoiled: usize,
}

impl<W: Write> File<W> {
    fn put(&mut self, text: &[u8]) -> io::Result<()> {
        // The line feed goes before the next text line, so that the last can lack its own.
        if self.written > 0 {
            self.output.write_all(b"\n")?;
        }
        self.written += 1;
        self.output.write_all(text)?;
        let taken = (text.len() <= MOST_BYTES).then_some(text);
        self.program
            .take(taken, &mut io::sink())
            .map_err(|failure| io::Error::other(failure.to_string()))
    }

    /// Points and questions while no line is directed to and both are empty.
    fn before_any_line(&mut self) -> io::Result<()> {
        self.put(b"PT\t1\t2")?;
        self.put(b"PT\t-1000001\t2147483647")?;
        self.question(Question::Near {
            z: Point { x: 0, y: 0 },
            d: -1,
            allowance: 0,
        })?;
        self.question(Question::Agree {
            d: 4_000_000,
            allowance: 0,
        })?;
        // The longest record that is understood: 51 bytes.
        self.question(Question::Near {
            z: Point {
                x: i32::MIN.into(),
                y: i32::MIN.into(),
            },
            d: i32::MIN.into(),
            allowance: u32::MAX,
        })?;
        self.bad_record()
    }

    fn scene(&mut self, number: usize) -> io::Result<()> {
        let a = shaped(&mut self.random, SHAPES[number % SHAPES.len()]);
        self.line("LINE\tA", &a)?;
        // Now and then the old B stays.
        if !self.random.one_in(8) {
            let b = companion(&mut self.random, &a);
            self.line("LINE\tB", &b)?;
        }
        for _ in 0..2 {
            let z = asked_point(&mut self.random, &a);
            let d = self.near_distance(z);
            self.ask(|allowance| Question::Near { z, d, allowance })?;
            self.bad_record()?;
        }
        // A ring has more to tell than the refusal of a line that is none.
        let is_ring = a.len() >= 4 && a.first() == a.last();
        for _ in 0..if is_ring { 6 } else { 1 } {
            let z = asked_point(&mut self.random, &a);
            self.ask(|allowance| Question::In { z, allowance })?;
        }
        self.ask(|allowance| Question::Meet { allowance })?;
        self.bad_record()?;
        let d = self.agree_distance();
        self.ask(|allowance| Question::Agree { d, allowance })?;
        if number % 4 == 3 {
            self.tight_scene()?;
        }
        Ok(())
    }

    /// NEAR at the distance itself, one less and one more, at the points beside z, and of a line
    /// that is bent away from z: its strip reaches to the segment, and no point of it does.
    fn tight_scene(&mut self) -> io::Result<()> {
        let Tight { points, z, d, .. } = tight(&mut self.random);
        let (start, end) = (point(&points, 0), point(&points, 1));
        let near = |z, d| Question::Near {
            z,
            d,
            allowance: u32::MAX,
        };
        self.line("LINE\tA", &[start, end])?;
        for d in [d - 1, d, d + 1] {
            self.question(near(z, d))?;
        }
        let (right, up) = (self.random.sign(), self.random.sign());
        self.question(near(
            Point {
                x: z.x + right,
                ..z
            },
            d,
        ))?;
        self.question(near(Point { y: z.y + up, ..z }, d))?;
        self.line("LINE\tA", &[start, bend(start, end, z), end])?;
        for d in [d - 1, d] {
            self.question(near(z, d))?;
        }
        Ok(())
    }

    fn line(&mut self, record: &str, points: &[Point]) -> io::Result<()> {
        self.put(record.as_bytes())?;
        for p in points {
            self.put(format!("PT\t{}\t{}", p.x, p.y).as_bytes())?;
            if self.random.one_in(60) {
                self.bad_record()?;
            }
        }
        Ok(())
    }

    /// One question with the allowances that matter to it.
    fn ask(&mut self, question: impl Fn(u32) -> Question) -> io::Result<()> {
        let outcome = self.program.answer(question(u32::MAX));
        if let Answer::Refused(_) = outcome.answer {
            let allowance = self.random.pick(&[0, 1, 9, u32::MAX]);
            return self.question(question(allowance));
        }
        let exact = outcome.visits;
        let inner = self.random.between(0, i64::from(exact)) as u32;
        let other = self.random.pick(&[0, 1, u32::MAX, exact + 1, inner]);
        for allowance in [exact - 1, exact, other] {
            self.question(question(allowance))?;
        }
        Ok(())
    }

    fn question(&mut self, question: Question) -> io::Result<()> {
        if self.asked == self.count {
            return Ok(());
        }
        self.asked += 1;
        let text = match question {
            Question::Near { z, d, allowance } => {
                format!("NEAR\t{}\t{}\t{d}\t{allowance}", z.x, z.y)
            }
            Question::Meet { allowance } => format!("MEET\t{allowance}"),
            Question::In { z, allowance } => format!("IN\t{}\t{}\t{allowance}", z.x, z.y),
            Question::Agree { d, allowance } => format!("AGREE\t{d}\t{allowance}"),
        };
        self.put(text.as_bytes())
    }

    fn bad_record(&mut self) -> io::Result<()> {
        let turn = self.spoiled;
        self.spoiled += 1;
        // Long text lines and noise take turns with the fixed list.
        let text = match turn % 3 {
            0 => self.overlong_or_noise(turn / 3),
            _ => BAD_RECORDS[(turn - turn / 3 - 1) % BAD_RECORDS.len()].to_vec(),
        };
        self.put(&text)
    }

    fn overlong_or_noise(&mut self, turn: usize) -> Vec<u8> {
        let padded = |record: &[u8], fill: u8, length: usize| {
            let mut text = record.to_vec();
            text.resize(length, fill);
            text
        };
        match turn % 10 {
            0 => padded(b"LINE\tA", b' ', MOST_BYTES),
            1 => padded(b"LINE\tB", b' ', MOST_BYTES + 1),
            2 => padded(b"PT\t1\t", b'0', MOST_BYTES),
            3 => padded(b"PT\t1\t2", b'\t', MOST_BYTES + 1),
            4 => padded(b"", b'\t', MOST_BYTES),
            // A program that cuts at 80 bytes would take the rest for a record of its own.
            5 => [padded(b"PT\t1\t1", b' ', MOST_BYTES), b"LINE\tB".to_vec()].concat(),
            6 => [padded(b"", 0, 3 * MOST_BYTES), b"PT\t5\t5".to_vec()].concat(),
            // Longer than any piece that a program is likely to read at a time, but seldom.
            7 => {
                let length = if turn % 100 == 7 { 200_000 } else { 5_000 };
                padded(b"MEET\t9", b'9', length)
            }
            _ => {
                let length = self.random.between(1, 120) as usize;
                (0..length).map(|_| self.noise()).collect()
            }
        }
    }

    /// Any byte but the line feed.
    fn noise(&mut self) -> u8 {
        match self.random.between(0, 255) as u8 {
            b'\n' => b'\t',
            byte => byte,
        }
    }

    fn near_distance(&mut self, z: Point) -> i64 {
        let a = self.program.points(Name::A);
        let least = if on_sheet(z) && all_on_sheet(a) {
            least_distance(|d| plain_near(a, z, d))
        } else {
            1
        };
        distance(&mut self.random, least)
    }

    fn agree_distance(&mut self) -> i64 {
        let a = self.program.points(Name::A);
        let b = self.program.points(Name::B);
        let least = if all_on_sheet(a) && all_on_sheet(b) {
            least_distance(|d| plain_astray(a, b, d).is_none())
        } else {
            1
        };
        distance(&mut self.random, least)
    }
}

/// A place on the other side of the segment's middle than z, as far as the sheet goes.
fn bend(start: Point, end: Point, z: Point) -> Point {
    let away = |start: i64, end: i64, z: i64| {
        let middle = (start + end) / 2;
        (middle + (middle - z) / 8).clamp(-SHEET, SHEET)
    };
    Point {
        x: away(start.x, end.x, z.x),
        y: away(start.y, end.y, z.y),
    }
}

/// The plain geometry is exact on the sheet only; off it the questions are refused anyway.
fn all_on_sheet(points: &[i64]) -> bool {
    all_points(points).all(on_sheet)
}

/// The least distance for which `yes` holds, 2,000,000 where none does; `yes` never turns back to no.
fn least_distance(yes: impl Fn(i64) -> bool) -> i64 {
    let (mut low, mut high) = (0, FARTHEST);
    while low < high {
        let middle = (low + high) / 2;
        if yes(middle) {
            high = middle;
        } else {
            low = middle + 1;
        }
    }
    low
}

#[cfg(test)]
mod tests {
    use super::*;
    use crate::program::{record, run};
    use std::collections::BTreeSet;

    fn file(seed: u64, count: u64) -> Vec<u8> {
        let mut output = vec![];
        generate(seed, count, &mut output).expect("memory takes all");
        output
    }

    #[test]
    fn generated_files_meet_every_word_and_every_refusal_and_agree_with_the_plain_geometry() {
        for seed in 1..=6 {
            let mut output = vec![];
            run(&file(seed, 1500)[..], &mut output, true).expect("walk and plain agree");
            let output = String::from_utf8(output).expect("printed lines are text");
            let mut words = BTreeSet::new();
            let mut numbers = BTreeSet::new();
            for line in output.lines() {
                let fields: Vec<&str> = line.split('\t').collect();
                words.insert(fields[1]);
                numbers.insert(fields[3]);
            }
            let all = [
                "INSIDE",
                "NO",
                "ON",
                "OUTSIDE",
                "REFUSED",
                "UNDECIDED",
                "YES",
            ];
            assert_eq!(words, BTreeSet::from(all), "seed {seed}");
            let all = ["0", "2", "4", "5", "7", "8", "9", "12", "13"];
            assert_eq!(numbers, BTreeSet::from(all), "seed {seed}");
        }
    }

    #[test]
    fn file_has_as_many_questions_as_asked_for() {
        for (seed, count) in [(1, 0), (2, 1), (3, 77), (4, 500)] {
            let text = file(seed, count);
            let lines = text.split(|&byte| byte == b'\n');
            let asks = lines.filter(|line| matches!(record(line), Some(r) if is_question(r)));
            assert_eq!(asks.count() as u64, count);
        }
    }

    fn is_question(record: crate::program::Record) -> bool {
        matches!(record, crate::program::Record::Ask(_))
    }

    #[test]
    fn same_seed_gives_the_same_file_and_another_seed_another() {
        assert_eq!(file(5, 200), file(5, 200));
        assert_ne!(file(5, 200), file(6, 200));
    }

    #[test]
    fn files_of_odd_seeds_lack_their_last_line_feed() {
        assert_ne!(file(7, 100).last(), Some(&b'\n'));
        assert_eq!(file(8, 100).last(), Some(&b'\n'));
    }

    #[test]
    fn every_bad_record_is_not_understood() {
        for text in BAD_RECORDS {
            assert_eq!(record(text), None, "{text:?}");
        }
    }

    #[test]
    fn least_distance_is_the_first_that_says_yes() {
        assert_eq!(least_distance(|d| d >= 1358), 1358);
        assert_eq!(least_distance(|_| true), 0);
        assert_eq!(least_distance(|_| false), FARTHEST);
    }
}
