//! Do two survey lines agree? `cargo run --example agree -- DISTANCE A.txt B.txt`. A file has a point on each row: x
//! and y, whole numbers in sheet units of 1/16 metre. Exit status: 0 yes, 1 no, 2 otherwise.

use std::error::Error;
use std::process::ExitCode;
use std::{env, fs};

use kneukelboom::{Agreement, Line};

fn main() -> ExitCode {
    let words: Vec<String> = env::args().collect();
    let answer = match &words[..] {
        [_, distance, a, b] => answer(distance, a, b),
        _ => Err("agree DISTANCE A.txt B.txt".into()),
    };
    match answer {
        Ok(answer) => {
            println!("{answer}");
            ExitCode::from(answer.decided().map_or(2, |yes| u8::from(!yes)))
        }
        Err(error) => {
            eprintln!("{error}");
            ExitCode::from(2)
        }
    }
}

pub fn answer(distance: &str, a: &str, b: &str) -> Result<Agreement, Box<dyn Error>> {
    let (a, b) = (survey(a)?, survey(b)?);
    Ok(a.agrees(&b, distance.parse()?, a.enough_to_agree(&b))?)
}

fn survey(path: &str) -> Result<Line, Box<dyn Error>> {
    let mut points = Vec::new();
    for row in fs::read_to_string(path)?.lines() {
        let (x, y) = row.split_once(' ').ok_or(format!("no point: {row}"))?;
        points.push((x.parse()?, y.parse()?));
    }
    Ok(Line::try_from(points)?)
}
