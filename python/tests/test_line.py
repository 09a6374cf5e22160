"""What Python expects of a line, an answer and a refusal."""

import copy
import itertools
import pickle
import unittest

from kneukelboom import Agreement, Answer, Line, Refusal, Side, Word

L = Line([(0, 0), (4, 3), (8, 0)])


class Index:
    """A whole number that is no int, as other libraries have them."""

    def __init__(self, number):
        self.number = number

    def __index__(self):
        return self.number


class Lines(unittest.TestCase):
    def test_a_line_is_its_points(self):
        self.assertEqual([(0, 0), (4, 3), (8, 0)], list(L))
        self.assertEqual(((0, 0), (4, 3), (8, 0)), L.points)
        self.assertEqual((3, 2), (len(L), L.segments))
        same, other = Line(iter(L)), Line([(8, 0), (4, 3), (0, 0)])
        self.assertEqual({L, other}, {L, same, other})
        self.assertNotEqual(L, other)
        self.assertNotEqual(L, L.points)

    def test_a_line_shows_no_table(self):
        self.assertEqual("<Line of 3 points, (0, 0) to (8, 0)>", repr(L))

    def test_a_line_never_changes(self):
        for name in "points", "table", "segments", "more":
            with self.assertRaises(AttributeError):
                setattr(L, name, ())

    def test_copies_are_built_or_checked_anew(self):
        (first, *rest), wide = L.table, 10**15
        other = Line.with_table(L, [first[:3] + (-wide, wide, -wide, wide) + first[7:], *rest])
        self.assertNotEqual(L.table, other.table)
        for line in L, other:
            for made in copy.copy(line), copy.deepcopy(line), pickle.loads(pickle.dumps(line)):
                self.assertEqual((line, line.table), (made, made.table))

    def test_lines_with_other_tables_are_equal(self):
        other = Line.with_table(L, [(*L.table[0][:4], 25, *L.table[0][5:]), *L.table[1:]])
        self.assertNotEqual(L.table, other.table)
        self.assertEqual({L}, {L, other})

    def test_whole_numbers_alone(self):
        for points in [(0, 0), (1.0, 2)], [(0, 0), ("1", 2)], [(0, 0), (1, None)], [(0, 0), (1, 2, 3)], [(0, 0), 5], 5:
            self.assertRaises(TypeError, Line, points)
        self.assertRaises(TypeError, Line.from_numbers, [0, 0, 1, 2.0])
        for point, distance, allowance in ((4, 5.0), 2, 9), ((4, 5), 2.0, 9), ((4, 5), 2, 9.0), (4, 2, 9):
            self.assertRaises(TypeError, L.near, point, distance, allowance)
        self.assertRaises(TypeError, L.agrees, L, 2.0)
        self.assertEqual(L, Line([(Index(0), Index(0)), (4, 3), (Index(8), 0)]))
        self.assertTrue(L.near((Index(4), Index(5)), Index(2), Index(9)))

    def test_a_table_is_whole_numbers_in_rows_of_11(self):
        for wrong in L.table[0][:10], L.table[0] + (0,), L.table[0][:10] + (3.0,), "0 2 1 0 24 0", 7, None, ():
            with self.assertRaisesRegex(TypeError, "^row 1 of the table is no row of 11 whole numbers: "):
                Line.with_table(L, [L.table[0], wrong, L.table[2]])
        numbers = list(itertools.chain(*L.table))
        with self.assertRaisesRegex(TypeError, "^number 4 of the table is no whole number: 24.0$"):
            Line.from_numbers(itertools.chain(*L), [*numbers[:4], 24.0, *numbers[5:]])
        for past in 2**63, -(2**63) - 1:
            with self.assertRaisesRegex(ValueError, f"^number 4 of the table does not fit 64 bits: {past}$"):
                Line.with_table(L, [(*L.table[0][:4], past, *L.table[0][5:]), *L.table[1:]])
        self.assertEqual(L.table, Line.with_table(L, [map(Index, row) for row in L.table]).table)

    def test_a_point_that_is_none_is_named(self):
        with self.assertRaisesRegex(TypeError, r"^point 1 is no pair of whole numbers: \(1\.5, 2\)$"):
            Line([(0, 0), (1.5, 2)])

    def test_points_past_the_first_too_many_are_not_read(self):
        with self.assertRaises(Refusal) as caught:
            Line((x, 0) for x in itertools.count())
        self.assertEqual(3, caught.exception.number)

    def test_allowances_of_32_bits(self):
        self.assertEqual(Answer(Word.YES, 2), L.near((4, 5), 2, 2**32 - 1))
        for allowance in -1, 2**32:
            for ask in L.near, L.agrees:
                self.assertRaises(ValueError, ask, (4, 5) if ask == L.near else L, 2, allowance)

    def test_the_other_line_is_a_line(self):
        for other in None, [(0, 0), (1, 1)]:
            for allowance in None, 9:
                self.assertRaises(TypeError, L.meets, other, allowance)
                self.assertRaises(TypeError, L.agrees, other, 2, allowance)


class Answers(unittest.TestCase):
    def test_undecided_is_neither_true_nor_false(self):
        for answer in L.near((4, 5), 2, 1), L.meets(L, 0), L.agrees(L, 2, 1), Line([*L, (0, 0)]).side((4, 1), 0):
            self.assertIsNone(answer.decided)
            self.assertRaises(TypeError, bool, answer)
            with self.assertRaises(TypeError):
                not answer

    def test_yes_is_true_and_no_is_false(self):
        self.assertIs(True, bool(L.near((4, 5), 2)))
        self.assertIs(False, bool(L.near((4, 5), 1)))
        self.assertIs(True, L.agrees(L, 0).decided)
        self.assertIs(False, L.agrees(Line([(0, 0), (4, 3)]), 0).decided)

    def test_a_side_has_no_truth(self):
        for word in Word.INSIDE, Word.OUTSIDE, Word.ON:
            self.assertIs(word, Side(word, 1).decided)
            self.assertRaises(TypeError, bool, Side(word, 1))

    def test_answers_never_change_and_are_compared(self):
        with self.assertRaises(AttributeError):
            Answer(Word.YES, 1).word = Word.NO
        self.assertNotEqual(Answer(Word.YES, 1), Answer(Word.YES, 2))
        self.assertNotEqual(Answer(Word.YES, 1), True)
        self.assertEqual(1, len({Agreement(Word.NO, 1, "A", 0), Agreement(Word.NO, 1, "A", 0)}))

    def test_refusals_are_value_errors_that_can_be_sent(self):
        refusal = Refusal(5, "A", 1, 0)
        self.assertIsInstance(refusal, ValueError)
        sent = pickle.loads(pickle.dumps(refusal))
        self.assertEqual((5, "A", 1, 0, str(refusal)), (sent.number, sent.line, sent.place, sent.visits, str(sent)))
