"""The rules' figures, asked of the shared object. P1 to P12 are theorems about the definitions; here the compiled code
is held to them, and to the figures at each limit."""

import unittest
from array import array
from pathlib import Path

from kneukelboom import Agreement, Answer, Line, Refusal, Side, Word, library, widen

L = Line([(0, 0), (4, 3), (8, 0)])
S = Line([(0, 0), (4, 0), (4, 4), (0, 4), (0, 0)])
CASES = Path(__file__).resolve().parents[2] / "cases"


class Refused(unittest.TestCase):
    def refused(self, number, line, place, ask, *asked):
        with self.assertRaises(Refusal) as caught:
            ask(*asked)
        refusal = caught.exception
        self.assertEqual((number, line, place, 0), (refusal.number, refusal.line, refusal.place, refusal.visits))


class Figures(Refused):
    def test_p1_rows_of_l(self):
        rows = (
            (0, 2, 1, 0, 24, 0, 64, 0, 8, 0, 3),
            (0, 1, -1, 0, 0, 0, 25, 0, 4, 0, 3),
            (1, 2, -1, 0, 0, 0, 25, 4, 8, 0, 3),
        )
        self.assertEqual(rows, L.table)

    def test_p2_to_p6_near(self):
        self.assertEqual(Answer(Word.YES, 2), L.near((4, 5), 2, 10))
        self.assertEqual(Answer(Word.NO, 1), L.near((4, 5), 1, 10))
        self.assertEqual(Answer(Word.UNDECIDED, 1), L.near((4, 5), 2, 1))
        self.assertEqual(Answer(Word.UNDECIDED, 0), L.near((4, 5), 2, 0))
        self.assertEqual(Answer(Word.NO, 3), L.near((4, 0), 2, 10))
        self.assertEqual(Answer(Word.YES, 2), L.near((4, 0), 3, 10))

    def test_p7_and_p8_meet(self):
        short, long = Line([(4, 0), (4, 2)]), Line([(4, 0), (4, 3)])
        self.assertEqual(Answer(Word.NO, 3), L.meets(short, 9))
        self.assertEqual(Answer(Word.YES, 2), L.meets(long, 9))
        self.assertEqual(Answer(Word.UNDECIDED, 2), L.meets(short, 2))

    def test_p9_to_p12_side(self):
        self.assertEqual(Side(Word.INSIDE, 7), S.side((2, 2), 9))
        self.assertEqual(Side(Word.ON, 4), S.side((4, 2), 9))
        self.assertEqual(Side(Word.OUTSIDE, 1), S.side((5, 2), 9))
        self.assertEqual(Side(Word.INSIDE, 5), S.side((3, 1), 9))
        self.assertEqual(Side(Word.UNDECIDED, 6), S.side((2, 2), 6))

    def test_agreement_is_asked_both_ways(self):
        long, stub = Line([(0, 0), (100, 0)]), Line([(0, 0), (10, 0)])
        self.assertEqual(Agreement(Word.NO, 2, "A", 1), long.agrees(stub, 5, 9))
        self.assertEqual(Agreement(Word.NO, 4, "B", 1), stub.agrees(long, 5, 9))
        self.assertEqual(Agreement(Word.YES, 4), stub.agrees(long, 90, 9))
        self.assertEqual(Agreement(Word.UNDECIDED, 3), stub.agrees(long, 5, 3))

    def test_enough_visits_decide_and_one_fewer_may_not(self):
        flat = Line([(0, 0), (1, 0), (2, 0)])
        self.assertEqual(3, flat.enough_visits())
        self.assertEqual(Answer(Word.NO, 3), L.near((4, 0), 2, L.enough_visits()))
        self.assertEqual(Word.UNDECIDED, L.near((4, 0), 2, L.enough_visits() - 1).word)
        self.assertEqual(2 * 2 * 4 - 1, L.enough_to_meet(S))
        self.assertEqual(3 * 7 + 5 * 3, L.enough_to_agree(S))

    def test_without_an_allowance_all_is_decided(self):
        far = Line([(x, 7 * (x % 2)) for x in range(40)])
        for answer in far.near((9, 3), 1), far.meets(L), far.agrees(L, 9), S.side((2, 2)):
            self.assertIsNotNone(answer.decided)

    def test_points_where_other_tools_are_wrong(self):
        self.assertTrue(Line([(-12782, 383), (-10910, -1255)]).near((-12526, 159), 0))
        self.assertTrue(Line([(-50, 913), (6515, 8185)]).near((4922, 8447), 1358))
        self.assertFalse(Line([(0, -16383), (5137, -16382)]).near((-1, -6109), 10274))

    def test_coordinates_to_1000000(self):
        self.assertEqual(2, len(Line([(1000000, -1000000), (-1000000, 1000000)])))
        for off in 1000001, -1000001, 2**32 + 1, 2**63 - 1, 2**63, -(2**63), 2**64 + 1, -(10**30):
            self.refused(4, "A", 1, Line, [(0, 0), (off, 0), (off, 0)])
            self.refused(4, "A", 1, Line, [(0, 0), (0, off), (0, off)])

    def test_points_to_4097(self):
        self.assertEqual(4096, Line([(x, 0) for x in range(4097)]).segments)
        self.refused(3, "A", 0, Line, [(x, 0) for x in range(4098)])
        self.refused(3, "A", 0, Line, [(10**30, 0)] * 5000)
        self.refused(2, "A", 0, Line, [(10**30, 0)])
        self.refused(2, "A", 0, Line, [])
        self.refused(1, "A", 0, Line.from_numbers, [0, 0, 1])
        self.refused(1, "A", 0, Line.from_numbers, [0] * 20001)
        self.refused(3, "A", 0, Line.from_numbers, [0] * 20000)

    def test_neighbours_after_all_coordinates(self):
        self.refused(4, "A", 2, Line, [(1, 1), (1, 1), (0, 1000001)])
        self.refused(5, "A", 1, Line, [(0, 0), (1, 1), (1, 1), (1, 1)])

    def test_distances_to_2000000(self):
        self.assertTrue(L.near((4, 5), 2000000))
        self.assertTrue(L.agrees(S, 2000000))
        for distance in 2000001, -1, 2**64, 2**64 + 2, -(2**64):
            self.refused(7, None, 0, L.near, (4, 5), distance)
            self.refused(7, None, 0, L.near, (1000001, 5), distance)
            self.refused(7, None, 0, L.agrees, S, distance)

    def test_asked_points_on_the_sheet(self):
        self.assertFalse(L.near((1000000, -1000000), 0))
        for off in (1000001, 0), (0, -1000001), (2**64, 0), (0, -(2**70)):
            self.refused(8, None, 0, L.near, off, 2)
            self.refused(8, None, 0, L.side, off)

    def test_the_sheets_diagonal(self):
        low, high = -1000000, 1000000
        line = Line([(low, low), (high, high)])
        self.assertEqual(((0, 1, -1, 0, 0, 0, 8 * 10**12, low, high, low, high),), line.table)
        for corner in (high, low), (low, high):
            self.assertEqual(Answer(Word.NO, 1), line.near(corner, 1414213))
            self.assertEqual(Answer(Word.YES, 1), line.near(corner, 1414214))
            self.assertEqual(Answer(Word.YES, 1), line.near(corner, 2000000))

    def test_exactly_that_far_is_within_where_squares_pass_64_bits(self):
        line = Line([(-999000, -1000), (999000, 999)])
        self.assertTrue(line.near((-99900, 899000), 899100))
        self.assertFalse(line.near((-99900, 899000), 899099))
        self.assertFalse(line.near((-101899, 898998), 899100))
        self.assertTrue(line.near((-97901, 899002), 899100))

    def test_rings_from_4_points(self):
        self.assertEqual(Word.INSIDE, Line([(0, 0), (4, 0), (0, 4), (0, 0)]).side((1, 1)).word)
        self.refused(9, "A", 0, Line([(0, 0), (4, 0), (0, 0)]).side, (1, 1))
        self.refused(9, "A", 0, Line([(0, 0), (4, 0), (4, 4), (0, 4)]).side, (1, 1))


class Widening(Refused):
    def widened(self, old, wide):
        library.ask("widen", 0, lambda: 0, *library.lent(old), *library.lent(wide))

    def test_any_numbers_of_any_length(self):
        for length in 0, 1, 2, 33, 8196, 90102:
            old = [(-(2**31), 2**31 - 1, -1, index)[index % 4] for index in range(length)]
            self.assertEqual(array("q", old), widen(old))
            self.assertEqual(array("q", old), widen(array("i", old)))
            self.assertEqual(array("q", old), widen(iter(old)))

    def test_a_widened_table_is_the_built_one(self):
        built = [number for row in L.table for number in row]
        old, wide, short = array("i", built), array("q", [5]) * 35, array("q", [5]) * 32
        self.refused(6, None, 0, self.widened, old, short)
        self.assertEqual([5] * 32, short.tolist())
        self.widened(old, wide)
        self.assertEqual(built + [5, 5], wide.tolist())

    def test_32_bits_alone(self):
        for number in 2**31, -(2**31) - 1, 10**30:
            with self.assertRaisesRegex(ValueError, f"^number 1 does not fit 32 bits: {number}$"):
                widen([0, number])
        with self.assertRaisesRegex(TypeError, "^number 0 is no whole number: 1.5$"):
            widen([1.5])


class Sentences(unittest.TestCase):
    def test_refusals_have_the_stored_sentences(self):
        names, *rows = (row.split("\t") for row in (CASES / "sentences.tsv").read_text().splitlines())
        self.assertEqual(["number", "line", "place", "visits", "sentence"], names)
        self.assertEqual({*range(1, 11), 21, 22}, {int(row[0]) for row in rows})
        for number, line, place, visits, sentence in rows:
            refusal = Refusal(int(number), None if line == "-" else line, int(place), int(visits))
            self.assertEqual(sentence, str(refusal))

    def test_answers_are_sentences(self):
        for sentence, answer in (
            ("yes (visits: 2)", Answer(Word.YES, 2)),
            ("no (visits: 1)", Answer(Word.NO, 1)),
            ("undecided: more than 9 visits are needed", Answer(Word.UNDECIDED, 9)),
            ("yes (visits: 4)", Agreement(Word.YES, 4)),
            ("no: point 3 of line A is not near the other line (visits: 8)", Agreement(Word.NO, 8, "A", 3)),
            ("undecided: more than 5 visits are needed", Agreement(Word.UNDECIDED, 5)),
            ("inside (visits: 7)", Side(Word.INSIDE, 7)),
            ("outside (visits: 1)", Side(Word.OUTSIDE, 1)),
            ("on the ring (visits: 4)", Side(Word.ON, 4)),
            ("undecided: more than 0 visits are needed", Side(Word.UNDECIDED, 0)),
        ):
            self.assertEqual(sentence, str(answer))
