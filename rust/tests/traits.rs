//! What Rust's own traits make of the crate's types.

use std::collections::HashSet;
use std::hash::Hash;

use kneukelboom::{lent, Agreement, Answer, Line, Name, PlainSide, Points, Refusal, Side};

const L: [(i64, i64); 3] = [(0, 0), (4, 3), (8, 0)];

#[test]
fn lines_are_equal_and_hash_the_same_by_their_points() {
    let line = |points: &[(i64, i64)]| Line::new(points).unwrap();
    let mut register = HashSet::from([line(&L)]);
    assert!(!register.insert(line(&L)));
    assert!(register.insert(line(&[(8, 0), (4, 3), (0, 0)])));
    assert!(register.insert(line(&[(0, 0), (4, 3), (8, 1)])));
    assert_ne!(line(&L), line(&[(0, 0), (4, 3), (8, 1)]));
    assert_eq!(register.len(), 3);
}

/// A strip that is wider than the built one, in a table from elsewhere.
#[test]
fn lines_with_other_tables_are_equal() {
    let built = Line::new(&L).unwrap();
    let mut table = built.table().to_vec();
    table[4] += 1;
    let other = Line::with_table(built.points().to_vec(), table).unwrap();
    assert_ne!(other.table(), built.table());
    assert_eq!(other, built);
    assert_eq!(HashSet::from([built, other.clone()]).len(), 1);
    assert_eq!(other.clone().table(), other.table());
}

#[test]
fn a_line_comes_from_slices_vectors_arrays_and_iterators() {
    let line = Line::new(&L).unwrap();
    assert_eq!(Line::try_from(&L[..]).as_ref(), Ok(&line));
    assert_eq!(Line::try_from(L.to_vec()).as_ref(), Ok(&line));
    assert_eq!(Line::try_from(L).as_ref(), Ok(&line));
    assert_eq!(Line::from_points(L).as_ref(), Ok(&line));
    assert_eq!(Line::from_points(&line).as_ref(), Ok(&line));
    let narrow = [(0_i32, 0), (4, 3), (8, 0)];
    assert_eq!(Line::from_points(narrow).as_ref(), Ok(&line));
    let bytes = [(0_u8, 0), (4, 3), (8, 0)];
    assert_eq!(Line::from_points(bytes).as_ref(), Ok(&line));
    let refused: Result<Line, Refusal> = [(0, 0)].try_into();
    assert_eq!(refused.unwrap_err().number, Refusal::TOO_FEW_POINTS);
}

#[test]
fn points_without_end_are_refused() {
    let refusal = Line::from_points((0..).map(|i| (i % 7, 0))).unwrap_err();
    assert_eq!(refusal.number, Refusal::TOO_MANY_POINTS);
    let slow = (0..4_098).map(|i| (i % 7, 1 << 20)).collect::<Vec<_>>();
    assert_eq!(Line::new(&slow).unwrap_err(), refusal);
}

#[test]
fn points_are_iterated_from_both_ends() {
    let line = Line::new(&L).unwrap();
    let mut points = line.iter();
    assert_eq!(points.len(), 3);
    assert_eq!(points.next_back(), Some(L[2]));
    assert_eq!(points.next(), Some(L[0]));
    assert_eq!(points.len(), 1);
    assert_eq!(points.clone().nth(1), None);
    assert_eq!(points.next_back(), Some(L[1]));
    assert_eq!((points.next(), points.next_back()), (None, None));
    let mut walked = Vec::new();
    for point in &line {
        walked.push(point);
    }
    assert_eq!(walked, L);
}

#[test]
fn debug_shows_the_points_alone() {
    let line = Line::new(&L).unwrap();
    assert_eq!(format!("{line:?}"), "Line([(0, 0), (4, 3), (8, 0)])");
    assert_eq!(format!("{:?}", line.iter()), "[(0, 0), (4, 3), (8, 0)]");
}

#[test]
fn a_side_is_decided_three_ways() {
    let (visits, said) = (7, |side: Side| side.decided());
    assert_eq!(said(Side::Inside { visits }), Some(PlainSide::Inside));
    assert_eq!(said(Side::Outside { visits }), Some(PlainSide::Outside));
    assert_eq!(said(Side::On { visits }), Some(PlainSide::On));
    assert_eq!(said(Side::Undecided { visits }), None);
    let all = [PlainSide::Inside, PlainSide::Outside, PlainSide::On];
    let words = all.map(|side| side.to_string());
    assert_eq!(words, ["inside", "outside", "on the ring"]);
}

#[test]
fn everything_may_be_sent_and_shared() {
    fn sent_and_shared<T: Send + Sync + Clone + std::fmt::Debug>() {}
    fn compared<T: Eq + Hash>() {}
    sent_and_shared::<Line>();
    sent_and_shared::<Points>();
    sent_and_shared::<lent::Reply>();
    sent_and_shared::<Box<Refusal>>();
    compared::<(Line, Answer, Side, PlainSide, Agreement, Name, Refusal)>();
    fn an_error<T: std::error::Error + Send + Sync + 'static>() {}
    an_error::<Refusal>();
}
