"""Tables that the builder did not write: the figures of docs/RULES.md, section 8.3, the order of the refusals, what a
line keeps of such a table, and that it answers as with the built one."""

import itertools
import unittest
from array import array

from kneukelboom import Answer, Line, Refusal, Side, Word, widen

L = Line([(0, 0), (4, 3), (8, 0)])
S = Line([(0, 0), (4, 0), (4, 4), (0, 4), (0, 0)])
#: A table of S that splits at points 1, 2 and 3.
V = (
    (0, 4, 1, 0, 4, 0, 4, 0, 4, 0, 4),
    (0, 1, -1, 0, 0, 0, 16, 0, 4, 0, 0),
    (1, 4, 2, -16, 0, 0, 16, 0, 4, 0, 4),
    (1, 2, -1, 0, 0, 0, 16, 4, 4, 0, 4),
    (2, 4, 3, -16, 0, 0, 32, 0, 4, 0, 4),
    (2, 3, -1, 0, 0, 0, 16, 0, 4, 4, 4),
    (3, 4, -1, 0, 0, 0, 16, 0, 0, 0, 4),
)
COLUMNS = "first last split cmin cmax tmin tmax xmin xmax ymin ymax".split()


def changed(table, *changes):
    """A table with numbers put into it: `(row, column, number)` each."""
    rows = [list(row) for row in table]
    for row, column, number in changes:
        rows[row][COLUMNS.index(column)] = number
    return rows


def on_end(rows):
    return list(itertools.chain(*rows))


class Checked(unittest.TestCase):
    def refused(self, number, place, make, *given):
        with self.assertRaises(Refusal) as caught:
            make(*given)
        refusal = caught.exception
        self.assertEqual((number, "A", place, 0), (refusal.number, refusal.line, refusal.place, refusal.visits))


class Figures(Checked):
    def test_a_good_table_may_be_wider_than_the_built_one(self):
        for changes in (
            [],
            [(0, "cmax", 25)],
            [(0, "xmax", 1000000)],
            [(0, "cmin", -(2**31)), (0, "cmax", 2**31 - 1)],
            [(0, "cmin", -(2**63)), (0, "cmax", 2**63 - 1)],
        ):
            table = changed(L.table, *changes)
            line = Line.with_table(L.points, table)
            self.assertEqual((L, table), (line, [list(row) for row in line.table]))
            self.assertEqual(line.table, Line.from_numbers(on_end(L), on_end(table)).table)

    def test_the_lowest_row_at_fault_decides_and_21_comes_before_22(self):
        for number, place, *changes in (
            (22, 0, (0, "cmax", 23)),
            (22, 0, (0, "ymin", 1)),
            (21, 0, (0, "cmin", 1)),
            (21, 0, (0, "cmax", -1)),
            (21, 0, (0, "ymin", 4)),
            (21, 0, (0, "xmax", 1000001)),
            (21, 1, (1, "split", 0)),
            (21, 2, (2, "first", 0)),
            (22, 0, (0, "cmax", 23), (1, "split", 0)),
            (21, 0, (0, "split", 2), (0, "cmax", 23)),
            (22, 1, (1, "tmax", 24), (2, "first", 0)),
            (22, 2, (2, "xmax", 7)),
        ):
            table = changed(L.table, *changes)
            self.refused(number, place, Line.with_table, L.points, table)
            self.refused(number, place, Line.from_numbers, on_end(L), on_end(table))

    def test_points_then_the_tables_length_then_its_rows(self):
        """Each has the faults of those that follow it, too."""
        far = 1000001
        left_out = changed(L.table, (0, "cmax", 23), (1, "split", 0))
        not_good = changed(left_out, (0, "split", 2))
        self.refused(1, 0, Line.from_numbers, [far], [])
        self.refused(2, 0, Line.with_table, [(far, far)], [])
        self.refused(3, 0, Line.with_table, [(far, far)] * 4098, [])
        self.refused(4, 3, Line.with_table, [(0, 0), (4, 3), (4, 3), (far, 0)], [])
        self.refused(5, 1, Line.with_table, [(0, 0), (4, 3), (4, 3)], [])
        self.refused(5, 1, Line.with_table, [(0, 0), (4, 3), (4, 3)], left_out)
        self.refused(6, 0, Line.with_table, L.points, not_good[:2])
        self.refused(6, 0, Line.from_numbers, on_end(L), on_end(not_good)[:32])
        self.refused(21, 0, Line.with_table, L.points, not_good)
        self.refused(22, 0, Line.with_table, L.points, left_out)

    def test_other_splits_other_visits_the_same_answers(self):
        line = Line.with_table(S.points, V)
        self.assertEqual((V, 1, 2), (line.table, line.table[0][2], S.table[0][2]))
        self.assertEqual(Answer(Word.YES, 2), line.near((2, 2), 2))
        self.assertEqual(Answer(Word.YES, 3), S.near((2, 2), 2))
        self.assertEqual(Answer(Word.NO, 7), line.near((2, 2), 1))
        self.assertEqual(Side(Word.INSIDE, 7), line.side((2, 2)))
        self.assertEqual(Side(Word.ON, 4), line.side((4, 2)))

    def test_a_split_elsewhere_hands_other_ranges_down(self):
        self.refused(22, 2, Line.with_table, S, changed(V, (2, "cmin", -15)))
        self.refused(21, 1, Line.with_table, S, changed(V, (0, "split", 2)))


class Tables(Checked):
    def test_what_is_past_the_rows_is_neither_looked_at_nor_kept(self):
        for past in [[0] * 11], [(2**70,) * 11, None], itertools.repeat(V[2]):
            self.assertEqual(V, Line.with_table(S, itertools.chain(V, past)).table)
        for past in [-(2**63)], [9] * 10, [1.5, None], itertools.count():
            self.assertEqual(V, Line.from_numbers(on_end(S), itertools.chain(on_end(V), past)).table)

    def test_what_is_given_may_change_afterwards(self):
        numbers = array("q", on_end(V))
        line = Line.from_numbers(on_end(S), numbers)
        numbers[2 * 11 + 3] = -15
        self.assertEqual(V, line.table)

    def test_what_is_built_is_accepted_and_answers_the_same_after_the_same_visits(self):
        waves = [Line([(x, (x * x) % modulus) for x in range(300)]) for modulus in (7, 97, 1009)]
        for line in [L, S, *waves]:
            again = Line.with_table(line.points, line.table)
            self.assertEqual((line, line.table), (again, again.table))
            for point in itertools.product((-3, 0, 2, 5, 90), repeat=2):
                for distance in 0, 2, 40:
                    self.assertEqual(line.near(point, distance), again.near(point, distance))
            self.assertEqual(line.meets(L), again.meets(L))
            self.assertEqual(line.agrees(S, 300), again.agrees(S, 300))
        square = Line.with_table(S.points, S.table)
        for point in itertools.product(range(-1, 6), repeat=2):
            self.assertEqual(S.side(point), square.side(point))

    def test_a_stored_table_of_version_1_need_not_be_built_again(self):
        points, table = array("i", on_end(L)), array("i", on_end(L.table))
        line = Line.from_numbers(widen(points), widen(table))
        self.assertEqual((L, L.table), (line, line.table))
