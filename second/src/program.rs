//! The question program: bytes in, printed lines out.
//!
//! docs/RULES.md, section 7. Input is taken in pieces of any size; what is kept from
//! one piece to the next is at most 80 bytes of an unfinished text line, the two stores and two
//! counters, so memory does not grow with the input.

use std::fmt;
use std::io::{self, BufWriter, ErrorKind, Read, Write};

use crate::geometry::{plain_astray, plain_meet, plain_near, plain_side, Name, Point, Side};
use crate::tree::{build, rows, Refusal, ROW};
use crate::walk::{agree, meet, near, side, Answer, Outcome, Tree};

/// Bytes of a text line, its line feed not counted.
pub const MOST_BYTES: usize = 80;
/// Points that a line's store holds.
pub const MOST_STORED: usize = 257;

const PIECE: usize = 1 << 16;

/// What ends a run early.
#[derive(Debug)]
pub enum Failure {
    Reading(io::Error),
    Writing(io::Error),
    /// With `--check`: the walk and the plain geometry differ.
    Disagreement(String),
}

impl fmt::Display for Failure {
    fn fmt(&self, f: &mut fmt::Formatter) -> fmt::Result {
        match self {
            Failure::Reading(error) => write!(f, "cannot read: {error}"),
            Failure::Writing(error) => write!(f, "cannot write: {error}"),
            Failure::Disagreement(what) => write!(f, "walk and plain geometry differ: {what}"),
        }
    }
}

/// Answers all of the input. Everything due is written before this returns, also when it fails.
pub fn run(mut input: impl Read, output: impl Write, check: bool) -> Result<(), Failure> {
    let mut output = BufWriter::with_capacity(PIECE, output);
    let answered = answer_all(&mut input, &mut output, check);
    let flushed = output.flush().map_err(Failure::Writing);
    answered.and(flushed)
}

fn answer_all(input: &mut impl Read, output: &mut impl Write, check: bool) -> Result<(), Failure> {
    let mut program = Program::new(check);
    let mut lines = TextLines::new();
    let mut piece = vec![0; PIECE];
    loop {
        match input.read(&mut piece) {
            Ok(0) => break,
            Ok(length) => lines.feed(&piece[..length], |text| program.take(text, output))?,
            Err(error) if error.kind() == ErrorKind::Interrupted => {}
            Err(error) => return Err(Failure::Reading(error)),
        }
    }
    lines.end(|text| program.take(text, output))
}

/// Cuts the input into text lines; one that is too long is handed on as `None`.
struct TextLines {
    held: [u8; MOST_BYTES],
    /// Bytes of the unfinished text line so far; once above MOST_BYTES it no longer grows.
    length: usize,
}

impl TextLines {
    fn new() -> TextLines {
        TextLines {
            held: [0; MOST_BYTES],
            length: 0,
        }
    }

    fn feed<E>(
        &mut self,
        mut piece: &[u8],
        mut take: impl FnMut(Option<&[u8]>) -> Result<(), E>,
    ) -> Result<(), E> {
        while let Some(length) = piece.iter().position(|&byte| byte == b'\n') {
            self.hold(&piece[..length]);
            take(self.text())?;
            self.length = 0;
            piece = &piece[length + 1..];
        }
        self.hold(piece);
        Ok(())
    }

    /// A last text line without its line feed; nothing after a line feed is no text line.
    fn end<E>(self, mut take: impl FnMut(Option<&[u8]>) -> Result<(), E>) -> Result<(), E> {
        if self.length == 0 {
            return Ok(());
        }
        take(self.text())
    }

    fn hold(&mut self, bytes: &[u8]) {
        let end = self.length + bytes.len();
        match self.held.get_mut(self.length..end) {
            Some(room) => {
                room.copy_from_slice(bytes);
                self.length = end;
            }
            None => self.length = MOST_BYTES + 1,
        }
    }

    fn text(&self) -> Option<&[u8]> {
        self.held.get(..self.length)
    }
}

/// A text line that was understood.
#[derive(Clone, Copy, PartialEq, Eq, Debug)]
pub enum Record {
    Line(Name),
    Point(Point),
    Ask(Question),
}

#[derive(Clone, Copy, PartialEq, Eq, Debug)]
pub enum Question {
    Near { z: Point, d: i64, allowance: u32 },
    Meet { allowance: u32 },
    In { z: Point, allowance: u32 },
    Agree { d: i64, allowance: u32 },
}

impl Question {
    fn needs_b(self) -> bool {
        matches!(self, Question::Meet { .. } | Question::Agree { .. })
    }
}

/// The record of a text line; `None` is refusal 12.
pub fn record(text: &[u8]) -> Option<Record> {
    const MOST_FIELDS: usize = 5;
    let mut fields: [&[u8]; MOST_FIELDS] = [b""; MOST_FIELDS];
    let mut count = 0;
    for field in text.split(|&byte| byte == b'\t') {
        *fields.get_mut(count)? = field;
        count += 1;
    }
    let place = |x, y| {
        Some(Point {
            x: signed(x)?,
            y: signed(y)?,
        })
    };
    match fields[..count] {
        [b"LINE", b"A"] => Some(Record::Line(Name::A)),
        [b"LINE", b"B"] => Some(Record::Line(Name::B)),
        [b"PT", x, y] => Some(Record::Point(place(x, y)?)),
        [b"NEAR", x, y, d, allowance] => Some(Record::Ask(Question::Near {
            z: place(x, y)?,
            d: signed(d)?,
            allowance: unsigned(allowance)?,
        })),
        [b"MEET", allowance] => Some(Record::Ask(Question::Meet {
            allowance: unsigned(allowance)?,
        })),
        [b"IN", x, y, allowance] => Some(Record::Ask(Question::In {
            z: place(x, y)?,
            allowance: unsigned(allowance)?,
        })),
        [b"AGREE", d, allowance] => Some(Record::Ask(Question::Agree {
            d: signed(d)?,
            allowance: unsigned(allowance)?,
        })),
        _ => None,
    }
}

/// A number that fits 32 bits, as x, y and D have to.
fn signed(field: &[u8]) -> Option<i64> {
    i32::try_from(number(field)?).ok().map(i64::from)
}

fn unsigned(field: &[u8]) -> Option<u32> {
    u32::try_from(number(field)?).ok()
}

/// Optional minus, 1 to 10 digits, no leading zero, no "-0". Ten digits fit i64.
fn number(field: &[u8]) -> Option<i64> {
    let (negative, digits) = match field {
        [b'-', digits @ ..] => (true, digits),
        digits => (false, digits),
    };
    if digits.is_empty() || digits.len() > 10 || !digits.iter().all(u8::is_ascii_digit) {
        return None;
    }
    if digits[0] == b'0' && (negative || digits.len() > 1) {
        return None;
    }
    let size = digits
        .iter()
        .fold(0, |size, digit| 10 * size + i64::from(digit - b'0'));
    Some(if negative { -size } else { size })
}

/// A line as the program keeps it, with room for its table.
struct Store {
    numbers: [i64; 2 * MOST_STORED],
    count: usize,
    /// Under refusal 13: a point past the 257th came since the last LINE.
    over: bool,
    table: [i64; ROW * rows(MOST_STORED - 1)],
}

impl Store {
    fn new() -> Store {
        Store {
            numbers: [0; 2 * MOST_STORED],
            count: 0,
            over: false,
            table: [0; ROW * rows(MOST_STORED - 1)],
        }
    }

    fn points(&self) -> &[i64] {
        &self.numbers[..2 * self.count]
    }

    fn tree(&self, name: Name) -> Tree<'_> {
        Tree {
            name,
            points: self.points(),
            table: &self.table,
        }
    }
}

/// The state of a run between two text lines.
pub struct Program {
    a: Store,
    b: Store,
    /// The line that points go to.
    directed: Option<Name>,
    text_lines: u64,
    printed: u64,
    check: bool,
}

impl Program {
    pub fn new(check: bool) -> Program {
        Program {
            a: Store::new(),
            b: Store::new(),
            directed: None,
            text_lines: 0,
            printed: 0,
            check,
        }
    }

    /// Takes one text line, `None` for one that is too long.
    pub fn take(&mut self, text: Option<&[u8]>, output: &mut impl Write) -> Result<(), Failure> {
        self.text_lines += 1;
        let not_understood = Refusal {
            number: 12,
            line: None,
            place: self.text_lines,
        };
        let outcome = match (text.and_then(record), self.directed) {
            (Some(Record::Line(name)), _) => {
                let store = self.store(name);
                store.count = 0;
                store.over = false;
                self.directed = Some(name);
                return Ok(());
            }
            (Some(Record::Point(p)), Some(name)) => match self.keep(name, p) {
                Ok(()) => return Ok(()),
                Err(refusal) => Outcome::refused(refusal),
            },
            (Some(Record::Ask(question)), _) => {
                let outcome = self.answer(question);
                if self.check {
                    self.compare(question, outcome)
                        .map_err(Failure::Disagreement)?;
                }
                outcome
            }
            (Some(Record::Point(_)), None) | (None, _) => Outcome::refused(not_understood),
        };
        self.print(outcome, output).map_err(Failure::Writing)
    }

    /// Answers a question on the stored lines, built anew. Refusals of A come before those of B.
    pub fn answer(&mut self, question: Question) -> Outcome {
        let built = self.rebuild(Name::A).and_then(|()| {
            if question.needs_b() {
                self.rebuild(Name::B)
            } else {
                Ok(())
            }
        });
        if let Err(refusal) = built {
            return Outcome::refused(refusal);
        }
        let a = self.a.tree(Name::A);
        let b = self.b.tree(Name::B);
        match question {
            Question::Near { z, d, allowance } => near(a, z, d, allowance),
            Question::Meet { allowance } => meet(a, b, allowance),
            Question::In { z, allowance } => side(a, z, allowance),
            Question::Agree { d, allowance } => agree(a, b, d, allowance),
        }
    }

    /// The stored points of a line: x, y, x, y.
    pub fn points(&self, name: Name) -> &[i64] {
        match name {
            Name::A => self.a.points(),
            Name::B => self.b.points(),
        }
    }

    fn store(&mut self, name: Name) -> &mut Store {
        match name {
            Name::A => &mut self.a,
            Name::B => &mut self.b,
        }
    }

    fn keep(&mut self, name: Name, p: Point) -> Result<(), Refusal> {
        let place = self.text_lines;
        let store = self.store(name);
        if store.count == MOST_STORED {
            store.over = true;
            return Err(too_long(name, place));
        }
        store.numbers[2 * store.count] = p.x;
        store.numbers[2 * store.count + 1] = p.y;
        store.count += 1;
        Ok(())
    }

    fn rebuild(&mut self, name: Name) -> Result<(), Refusal> {
        let place = self.text_lines;
        let store = self.store(name);
        if store.over {
            return Err(too_long(name, place));
        }
        let points = &store.numbers[..2 * store.count];
        build(name, points, &mut store.table)
    }

    /// Holds a decided answer against the plain geometry over all segments.
    fn compare(&self, question: Question, outcome: Outcome) -> Result<(), String> {
        if let Answer::Undecided | Answer::Refused(_) = outcome.answer {
            return Ok(());
        }
        let a = self.points(Name::A);
        let b = self.points(Name::B);
        let yes_or_no = |yes| if yes { Answer::Yes } else { Answer::No };
        let plain = match question {
            Question::Near { z, d, .. } => yes_or_no(plain_near(a, z, d)),
            Question::Meet { .. } => yes_or_no(plain_meet(a, b)),
            Question::In { z, .. } => match plain_side(a, z) {
                Side::Inside => Answer::Inside,
                Side::Outside => Answer::Outside,
                Side::On => Answer::On,
            },
            Question::Agree { d, .. } => match plain_astray(a, b, d) {
                Some((name, index)) => Answer::NoAt(name, index),
                None => Answer::Yes,
            },
        };
        if plain == outcome.answer {
            Ok(())
        } else {
            Err(format!(
                "text line {}, {question:?}: the walk says {:?}, all segments say {plain:?}",
                self.text_lines, outcome.answer
            ))
        }
    }

    fn print(&mut self, outcome: Outcome, output: &mut impl Write) -> io::Result<()> {
        self.printed += 1;
        let (word, number, line, place) = match outcome.answer {
            Answer::Yes => ("YES", 0, None, 0),
            Answer::No => ("NO", 0, None, 0),
            Answer::NoAt(name, index) => ("NO", 0, Some(name), index as u64),
            Answer::Inside => ("INSIDE", 0, None, 0),
            Answer::Outside => ("OUTSIDE", 0, None, 0),
            Answer::On => ("ON", 0, None, 0),
            Answer::Undecided => ("UNDECIDED", 0, None, 0),
            Answer::Refused(refusal) => ("REFUSED", refusal.number, refusal.line, refusal.place),
        };
        let letter = match line {
            Some(Name::A) => 'A',
            Some(Name::B) => 'B',
            None => '-',
        };
        writeln!(
            output,
            "{}\t{word}\t{}\t{number}\t{letter}\t{place}",
            self.printed, outcome.visits
        )
    }
}

/// Refusal 13, at the text line of the point or of the question.
fn too_long(name: Name, place: u64) -> Refusal {
    Refusal {
        number: 13,
        line: Some(name),
        place,
    }
}

#[cfg(test)]
mod tests {
    use super::*;
    use std::fs;
    use std::path::Path;

    /// Hands over a few bytes at a time.
    struct Dripping<'a> {
        rest: &'a [u8],
        size: usize,
    }

    impl Read for Dripping<'_> {
        fn read(&mut self, room: &mut [u8]) -> io::Result<usize> {
            let length = self.size.min(room.len()).min(self.rest.len());
            let (now, later) = self.rest.split_at(length);
            room[..length].copy_from_slice(now);
            self.rest = later;
            Ok(length)
        }
    }

    struct Broken;

    impl Read for Broken {
        fn read(&mut self, _: &mut [u8]) -> io::Result<usize> {
            Err(io::Error::other("torn"))
        }
    }

    impl Write for Broken {
        fn write(&mut self, _: &[u8]) -> io::Result<usize> {
            Err(io::Error::other("full"))
        }

        fn flush(&mut self) -> io::Result<()> {
            Ok(())
        }
    }

    fn answers(input: &[u8]) -> String {
        let mut output = vec![];
        run(input, &mut output, true).expect("walk and plain geometry agree");
        String::from_utf8(output).expect("only letters, digits and tabs are printed")
    }

    /// Input and output with spaces for tabs, as the rules show them.
    fn shown(input: &str) -> String {
        answers(input.replace(' ', "\t").as_bytes()).replace('\t', " ")
    }

    fn stored_cases() -> Vec<(String, Vec<u8>, Vec<u8>)> {
        let folder = Path::new(env!("CARGO_MANIFEST_DIR")).join("../cases");
        let mut cases = vec![];
        for entry in fs::read_dir(folder).expect("the stored cases stand beside second/") {
            let path = entry.expect("a readable folder").path();
            if path.extension().is_some_and(|end| end == "in") {
                let input = fs::read(&path).expect("a readable case");
                let output = fs::read(path.with_extension("out")).expect("its stored output");
                cases.push((path.display().to_string(), input, output));
            }
        }
        assert!(cases.len() >= 6);
        cases
    }

    #[test]
    fn whole_case_of_the_rules() {
        let input = "LINE A\nPT 0 0\nPT 4 3\nPT 8 0\nNEAR 4 5 2 10\nNEAR 4 5 2 1\nMEET 9\n";
        let expected = "1 YES 2 0 - 0\n2 UNDECIDED 1 0 - 0\n3 REFUSED 0 2 B 0\n";
        assert_eq!(shown(input), expected);
    }

    #[test]
    fn stored_cases_give_their_stored_output() {
        for (name, input, output) in stored_cases() {
            assert_eq!(answers(&input).as_bytes(), output, "{name}");
        }
    }

    #[test]
    fn output_does_not_depend_on_the_pieces_of_the_input() {
        for (name, input, output) in stored_cases() {
            for size in [1, 2, 7, 79, 80, 81, 1000] {
                let mut got = vec![];
                let pieces = Dripping { rest: &input, size };
                run(pieces, &mut got, true).expect("walk and plain geometry agree");
                assert_eq!(got, output, "{name} by {size}");
            }
        }
    }

    #[test]
    fn empty_input_prints_nothing_and_an_empty_text_line_is_refusal_12() {
        assert_eq!(shown(""), "");
        assert_eq!(shown("\n"), "1 REFUSED 0 12 - 1\n");
        assert_eq!(shown("LINE A\n"), "");
        assert_eq!(shown("LINE A\n\n"), "1 REFUSED 0 12 - 2\n");
    }

    #[test]
    fn last_text_line_may_lack_its_line_feed() {
        assert_eq!(shown("MEET 1"), "1 REFUSED 0 2 A 0\n");
        assert_eq!(shown("LINE A\nx"), "1 REFUSED 0 12 - 2\n");
    }

    #[test]
    fn text_line_of_80_bytes_is_handed_on_and_of_81_is_not() {
        // No record is that long, so the printed lines cannot show this.
        for (length, whole) in [(80, true), (81, false), (100_000, false)] {
            for size in [1, 80, 81, 200_000] {
                let mut lines = TextLines::new();
                let mut seen = vec![];
                let mut take = |text: Option<&[u8]>| -> Result<(), ()> {
                    seen.push(text.map(<[u8]>::len));
                    Ok(())
                };
                let mut input = vec![b'x'; length];
                input.push(b'\n');
                for piece in input.chunks(size) {
                    lines.feed(piece, &mut take).expect("nothing fails here");
                }
                lines.end(&mut take).expect("nothing fails here");
                assert_eq!(seen, [whole.then_some(length)]);
            }
        }
    }

    #[test]
    fn what_stands_past_80_bytes_is_no_record_of_its_own() {
        let input = format!("LINE A\nPT 0 0\nPT 1 0\n{}LINE A\nMEET 1\n", "x".repeat(80));
        let expected = "1 REFUSED 0 12 - 4\n2 REFUSED 0 2 B 0\n";
        assert_eq!(shown(&input), expected);
    }

    #[test]
    fn numbers_have_one_to_ten_digits_without_leading_zero_or_minus_zero() {
        for good in ["0", "7", "-7", "10", "2147483647", "-2147483648"] {
            assert_eq!(signed(good.as_bytes()), good.parse().ok(), "{good}");
            assert!(signed(good.as_bytes()).is_some());
        }
        for good in ["0", "1", "4294967295"] {
            assert_eq!(unsigned(good.as_bytes()), good.parse().ok(), "{good}");
            assert!(unsigned(good.as_bytes()).is_some());
        }
        let bad = [
            "",
            "-",
            "-0",
            "00",
            "01",
            "-01",
            "+1",
            " 1",
            "1 ",
            "1.",
            "1e1",
            "--1",
            "1-",
            "0x1",
            "\0",
            "1\0",
            "1\r",
            "00000000001",
            "12345678901",
            "-12345678901",
            "2147483648",
            "-2147483649",
            "9999999999",
        ];
        for field in bad {
            assert_eq!(signed(field.as_bytes()), None, "{field:?}");
        }
        for field in ["-1", "-0", "4294967296", "9999999999", "42949672950", "00"] {
            assert_eq!(unsigned(field.as_bytes()), None, "{field:?}");
        }
    }

    #[test]
    fn record_words_are_compared_byte_for_byte() {
        assert_eq!(record(b"LINE\tA"), Some(Record::Line(Name::A)));
        assert_eq!(record(b"LINE\tB"), Some(Record::Line(Name::B)));
        for text in [
            &b"line\tA"[..],
            b"LINE\ta",
            b"LINE\tC",
            b"LINE\tA\r",
            b"LINE\tAB",
            b"LIN\tA",
        ] {
            assert_eq!(record(text), None);
        }
        for text in [
            &b"Pt\t1\t1"[..],
            b"PTS\t1\t1",
            b"near\t1\t1\t1\t1",
            b"MEE\t1",
            b"In\t1\t1\t1",
        ] {
            assert_eq!(record(text), None);
        }
    }

    #[test]
    fn record_has_exactly_its_fields() {
        let whole = [
            "LINE\tA",
            "PT\t1\t2",
            "NEAR\t1\t2\t3\t4",
            "MEET\t1",
            "IN\t1\t2\t3",
            "AGREE\t1\t2",
        ];
        for text in whole {
            assert!(record(text.as_bytes()).is_some());
            for spoiled in [
                format!("{text}\t"),
                format!("\t{text}"),
                format!("{text}\t5"),
                format!("{text} "),
                text.replacen('\t', "\t\t", 1),
                text.replacen('\t', " ", 1),
                text[..text.rfind('\t').expect("a tab")].to_string(),
            ] {
                assert_eq!(record(spoiled.as_bytes()), None, "{spoiled:?}");
            }
        }
    }

    #[test]
    fn point_before_any_line_is_refusal_12() {
        assert_eq!(shown("PT 1 1\nLINE A\nPT 1 1\n"), "1 REFUSED 0 12 - 1\n");
    }

    #[test]
    fn record_that_is_not_understood_leaves_the_lines_alone() {
        let input = "LINE A\nPT 0 0\nLINE C\nPT 1 0 \nPT 1 0\nNEAR 0 0 0 9\n";
        let expected = "1 REFUSED 0 12 - 3\n2 REFUSED 0 12 - 4\n3 YES 1 0 - 0\n";
        assert_eq!(shown(input), expected);
    }

    #[test]
    fn line_record_empties_its_line_only() {
        let input = "LINE B\nPT 0 0\nPT 1 0\nLINE A\nPT 0 0\nPT 1 0\nMEET 1\nLINE A\nMEET 1\n\
                     PT 5 0\nPT 6 0\nMEET 1\nLINE B\nMEET 1\n";
        let expected = "1 YES 1 0 - 0\n2 REFUSED 0 2 A 0\n3 NO 1 0 - 0\n4 REFUSED 0 2 B 0\n";
        assert_eq!(shown(input), expected);
    }

    #[test]
    fn point_258_is_refused_13_and_so_are_questions_until_the_next_line() {
        let mut input = String::from("LINE A\n");
        for i in 0..257 {
            input += &format!("PT {} 0\n", i % 2);
        }
        // Text lines 259 to 266.
        input += "NEAR 0 0 0 9\nPT 9 9\nNEAR 0 0 0 9\nMEET 9\nLINE B\nIN 0 0 9\nLINE A\nMEET 9\n";
        let expected = "1 YES 9 0 - 0\n2 REFUSED 0 13 A 260\n3 REFUSED 0 13 A 261\n\
                        4 REFUSED 0 13 A 262\n5 REFUSED 0 13 A 264\n6 REFUSED 0 2 A 0\n";
        assert_eq!(shown(&input), expected);
    }

    #[test]
    fn refusals_of_a_build_come_before_13_of_b_and_that_before_distance() {
        let mut input = String::from("LINE B\n");
        for i in 0..258 {
            input += &format!("PT {} 0\n", i % 2);
        }
        input += "AGREE -1 0\nLINE A\nPT 0 0\nPT 0 0\nMEET 0\nLINE A\nPT 0 0\nPT 1 0\nAGREE -1 0\n";
        let expected = "1 REFUSED 0 13 B 259\n2 REFUSED 0 2 A 0\n3 REFUSED 0 5 A 0\n\
                        4 REFUSED 0 13 B 268\n";
        assert_eq!(shown(&input), expected);
    }

    #[test]
    fn only_refusals_and_the_no_of_agree_fill_line_and_place() {
        let input = "LINE A\nPT 0 0\nPT 9 0\nPT 18 0\nLINE B\nPT 0 1\nPT 9 1\nAGREE 1 99\n\
                     AGREE 10 99\nMEET 99\nNEAR 0 9 1 99\n";
        let expected = "1 NO 3 0 A 2\n2 YES 7 0 - 0\n3 NO 1 0 - 0\n4 NO 1 0 - 0\n";
        assert_eq!(shown(input), expected);
    }

    #[test]
    fn sheet_of_125_km_and_its_distances_are_taken_and_no_farther() {
        let input = "LINE A\nPT -1000000 -1000000\nPT 1000000 1000000\n\
                     NEAR 1000000 -1000000 1414213 9\nNEAR 1000000 -1000000 1414214 9\n\
                     NEAR 1000000 -1000000 2000000 9\nNEAR 0 0 2000001 9\nNEAR 1000001 0 0 9\n\
                     NEAR 2147483648 0 0 9\nNEAR 0 0 -2147483649 9\nPT 1000001 0\nNEAR 0 0 0 9\n";
        let expected = "1 NO 1 0 - 0\n2 YES 1 0 - 0\n3 YES 1 0 - 0\n4 REFUSED 0 7 - 0\n\
                        5 REFUSED 0 8 - 0\n6 REFUSED 0 12 - 9\n7 REFUSED 0 12 - 10\n\
                        8 REFUSED 0 4 A 2\n";
        assert_eq!(shown(input), expected);
    }

    #[test]
    fn wrong_answer_is_a_disagreement() {
        let mut program = Program::new(true);
        for text in ["LINE\tA", "PT\t0\t0", "PT\t4\t3", "PT\t8\t0"] {
            let taken = program.take(Some(text.as_bytes()), &mut io::sink());
            assert!(taken.is_ok());
        }
        let question = Question::Near {
            z: Point { x: 4, y: 5 },
            d: 2,
            allowance: 9,
        };
        let said = |answer| Outcome { answer, visits: 2 };
        assert!(program.compare(question, said(Answer::Yes)).is_ok());
        assert!(program.compare(question, said(Answer::No)).is_err());
        assert!(program.compare(question, said(Answer::Undecided)).is_ok());
    }

    #[test]
    fn failed_read_ends_the_run_after_what_was_due_is_written() {
        let mut output = vec![];
        let input = b"MEET\t1\n".chain(Broken);
        let failed = run(input, &mut output, false);
        assert!(matches!(failed, Err(Failure::Reading(_))));
        assert_eq!(output, b"1\tREFUSED\t0\t2\tA\t0\n");
    }

    #[test]
    fn failed_write_ends_the_run() {
        let failed = run(&b"MEET\t1\n"[..], Broken, false);
        assert!(matches!(failed, Err(Failure::Writing(_))));
    }
}
