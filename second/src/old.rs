//! Tables of 32-bit numbers, from before the sheet had 125 km, and how they become 64-bit ones.
//!
//! docs/RULES.md, section 2.8. On the old sheet |c| and |t| are at most 2 * 32,766^2 < 2^31: what the
//! old rules let a builder write fits 32 bits.

use crate::geometry::Name;
use crate::tree::{grown, Refusal, OLD_SHEET};

/// Puts each number as it is at the front of the lent list, or refuses and writes nothing.
pub fn widen(old: &[i32], new: &mut [i64]) -> Result<(), Refusal> {
    let Some(front) = new.get_mut(..old.len()) else {
        return Err(Refusal {
            number: 6,
            line: None,
            place: 0,
        });
    };
    for (number, &narrow) in front.iter_mut().zip(old) {
        *number = i64::from(narrow);
    }
    Ok(())
}

/// What the old rules let a builder do: the tree of a line of the old sheet, as 32-bit numbers.
pub fn build_old(name: Name, points: &[i32], table: &mut [i32]) -> Result<(), Refusal> {
    let points: Vec<i64> = points.iter().map(|&number| number.into()).collect();
    let grown = grown(name, &points, OLD_SHEET, table.len())?;
    for (number, wide) in table.iter_mut().zip(grown) {
        *number = i32::try_from(wide).expect("numbers of the old sheet fit 32 bits");
    }
    Ok(())
}

#[cfg(test)]
mod tests {
    use super::*;
    use crate::generate::Random;
    use crate::tree::{build, rows, ROW};

    const L: [i32; 6] = [0, 0, 4, 3, 8, 0];
    const TABLE_OF_L: [i32; 33] = [
        0, 2, 1, 0, 24, 0, 64, 0, 8, 0, 3, // the root
        0, 1, -1, 0, 0, 0, 25, 0, 4, 0, 3, // its left half
        1, 2, -1, 0, 0, 0, 25, 4, 8, 0, 3, // its right half
    ];
    const TOO_SHORT: Refusal = Refusal {
        number: 6,
        line: None,
        place: 0,
    };

    fn refusal(number: u8, place: u64) -> Result<(), Refusal> {
        Err(Refusal {
            number,
            line: Some(Name::A),
            place,
        })
    }

    fn widened(old: &[i32]) -> Vec<i64> {
        let mut new = vec![77; old.len()];
        widen(old, &mut new).expect("there is just room");
        new
    }

    fn room(points: &[i32]) -> usize {
        ROW * rows(points.len() / 2 - 1)
    }

    /// A line of `count` points; a small reach brings ties, closed runs and equal neighbours.
    fn line(random: &mut Random, count: i64, reach: i64) -> Vec<i32> {
        (0..2 * count)
            .map(|_| random.between(-reach, reach) as i32)
            .collect()
    }

    #[test]
    fn figure_8_7_table_of_l_widened_into_35_numbers_leaves_the_last_two() {
        let mut new = [5; 35];
        assert_eq!(widen(&TABLE_OF_L, &mut new), Ok(()));
        let mut built = [5; 35];
        assert_eq!(build(Name::A, &widened(&L), &mut built), Ok(()));
        assert_eq!(new, built);
        assert_eq!(new[33..], [5, 5]);
    }

    #[test]
    fn widening_into_too_short_a_list_is_refused_6_and_writes_nothing() {
        let mut new = [5; 32];
        assert_eq!(widen(&TABLE_OF_L, &mut new), Err(TOO_SHORT));
        assert_eq!(new, [5; 32]);
        assert_eq!(widen(&[1], &mut []), Err(TOO_SHORT));
    }

    #[test]
    fn widening_takes_any_numbers_any_length_and_just_enough_room() {
        let old = [i32::MIN, -1, 0, 1, i32::MAX];
        let expected = [-2_147_483_648, -1, 0, 1, 2_147_483_647];
        assert_eq!(widened(&old), expected);
        assert_eq!(widen(&[], &mut []), Ok(()));
        let mut new = [5; 2];
        assert_eq!(widen(&[], &mut new), Ok(()));
        assert_eq!(new, [5; 2]);
    }

    #[test]
    fn old_rules_write_the_rows_of_l_and_leave_the_numbers_past_them() {
        let mut table = [5; 35];
        assert_eq!(build_old(Name::A, &L, &mut table), Ok(()));
        assert_eq!(table[..33], TABLE_OF_L);
        assert_eq!(table[33..], [5, 5]);
    }

    #[test]
    fn old_rules_refuse_16384_and_all_else_as_the_new_ones_and_write_nothing() {
        let refused: [(&[i32], Result<(), Refusal>); 7] = [
            (&[0, 0, 1], refusal(1, 0)),
            (&[0, 0], refusal(2, 0)),
            (&[0; 2 * 4_098], refusal(3, 0)),
            (&[0, 0, 0, 0, 1, 16_384], refusal(4, 2)),
            (&[0, 0, i32::MIN, i32::MAX], refusal(4, 1)),
            (&[0, 0, 1, 1, 1, 1], refusal(5, 1)),
            (&[0, 0, 1, 1, 2, 2, 3, 3], refusal(6, 0)),
        ];
        for (points, expected) in refused {
            let mut table = [77; 40];
            assert_eq!(build_old(Name::A, points, &mut table), expected);
            assert_eq!(table, [77; 40]);
        }
    }

    #[test]
    fn table_of_the_widest_old_line_fits_32_bits() {
        let far = 16_383;
        let points = [-far, -far, far, -far, far, far];
        let mut table = [0; 33];
        assert_eq!(build_old(Name::A, &points, &mut table), Ok(()));
        // u = (32766, 32766); the middle point is 32766 to the right of it: c = -32766^2.
        assert_eq!(table[3..7], [-1_073_610_756, 0, 0, 2_147_221_512]);
    }

    #[test]
    fn table_built_by_the_old_rules_and_widened_is_the_one_that_is_built_now() {
        let mut random = Random(8);
        for round in 0..4_000 {
            let count = 2 + round % 11;
            let reach = random.pick(&[2, 9, 500, OLD_SHEET]);
            let points = line(&mut random, count, reach);
            let mut old = vec![0; room(&points)];
            let mut new = vec![0; room(&points)];
            let by_old_rules = build_old(Name::A, &points, &mut old);
            let by_new_rules = build(Name::A, &widened(&points), &mut new);
            assert_eq!(by_old_rules, by_new_rules, "{points:?}");
            assert_eq!(widened(&old), new, "{points:?}");
        }
    }
}
