"""The deepest trees, built and from elsewhere, asked from threads with little stack. A call that does not fit its
thread ends this test's whole process."""

import threading
import unittest
from unittest import mock

from kneukelboom import Answer, Line, Refusal, Word, stack


def comb(count, lift=0):
    """Strokes from side to side, each shorter than the one before: every split is next to the first point."""
    return [(i - 2048, (16000 - 3 * i) * (1 if i % 2 == 0 else -1) + lift) for i in range(count)]


def table_without_end(count, split):
    """Rows for so many points that hold every point of the sheet, with the given split of each node."""
    sheet, strip = 1000000, 2**63 - 1
    rows, due = [], [(0, count - 1)]
    while due:
        first, last = due.pop()
        leaf = last - first == 1
        middle = -1 if leaf else split(first, last)
        if not leaf:
            due += [(middle, last), (first, middle)]
        rows.append((first, last, middle, -strip, strip, -strip, strip, -sheet, sheet, -sheet, sheet))
    return rows


#: Halves nest to the left, and to the right.
SPLITS = (lambda first, last: last - 1), (lambda first, last: first + 1)


def on_stacks_of(kilobytes, work, threads=1):
    """What `work` gives on threads of that size, all at once. It is also the size of those that they start."""
    given = []
    usual = threading.stack_size(kilobytes << 10)
    try:
        started = [threading.Thread(target=lambda: given.append(work())) for _ in range(threads)]
        for thread in started:
            thread.start()
        for thread in started:
            thread.join()
        if threading.stack_size() != kilobytes << 10:
            raise AssertionError("the size of threads that start is another one now")
    finally:
        threading.stack_size(usual)
    return given


def asked():
    """Every call, on trees that are as deep as they can be. The allowance ends walks over all the pairs."""
    answers = []
    for turned in 1, -1:
        a, b = Line(comb(4097)[::turned]), Line(comb(4097, lift=1)[::turned])
        ring = Line((comb(4096) + comb(1))[::turned])
        answers += [a._levels(), b._levels(), ring._levels() >= 4094]
        answers += [a.near((0, 0), 0), ring.side((0, 0)), a.meets(b), a.agrees(b, 1, allowance=100_000)]
    return answers


def asked_over_tables_from_elsewhere():
    """Of lines whose built trees have few levels, and of a comb."""
    answers = []
    for split in SPLITS:
        table = table_without_end(4097, split)
        straight = Line.with_table([(x, 0) for x in range(4097)], table)
        combed = Line.with_table(comb(4097), table)
        ring = Line.with_table([(x, 0) for x in range(4096)] + [(0, 0)], table)
        answers += [straight._levels(), straight.near((2048, 9), 8), combed.near((0, 0), 0), ring.side((0, 9))]
        answers += [straight.meets(combed, allowance=100_000), straight.agrees(straight, 0, allowance=100_000)]
    return answers


class Deep(unittest.TestCase):
    def test_every_call_from_every_thread(self):
        (roomy,) = on_stacks_of(64 << 10, asked)
        self.assertEqual([4096, 4096, True], roomy[:3])
        for kilobytes in 256, 64:
            self.assertEqual([roomy], on_stacks_of(kilobytes, asked))

    def test_tables_from_elsewhere_from_every_thread(self):
        (roomy,) = on_stacks_of(64 << 10, asked_over_tables_from_elsewhere)
        self.assertEqual([4096, Answer(Word.NO, 8191)] * 2, roomy[0:2] + roomy[6:8])
        self.assertEqual([Line(comb(4097)).near((0, 0), 0).decided] * 2, [roomy[2].decided, roomy[8].decided])
        for kilobytes in 256, 64:
            self.assertEqual([roomy], on_stacks_of(kilobytes, asked_over_tables_from_elsewhere))

    def test_the_last_row_of_a_deep_table_is_checked(self):
        for split in SPLITS:
            *rows, last = table_without_end(4097, split)
            table = [*rows, (*last[:8], 0, *last[9:])]

            def refused():
                with self.assertRaises(Refusal) as caught:
                    Line.with_table(comb(4097), table)
                return caught.exception.number, caught.exception.place

            self.assertEqual([(22, 8190)], on_stacks_of(64, refused))

    def test_several_threads_at_once(self):
        deep = Line(comb(4097)[::-1])
        answers = on_stacks_of(64, lambda: [deep.near((0, 0), 0) for _ in range(9)], threads=4)
        self.assertEqual([[deep.near((0, 0), 0)] * 9] * 4, answers)

    def test_ordinary_trees_are_asked_on_the_thread_itself(self):
        wave = Line([(x, (x * x) % 97) for x in range(4097)])
        with mock.patch.object(stack, "_on_its_own_thread", side_effect=AssertionError("a thread was started")):
            self.assertEqual([False], on_stacks_of(256, lambda: wave.near((0, 9000), 5).decided))
            self.assertEqual([True], on_stacks_of(256, lambda: wave.meets(wave).decided))

    def test_a_thread_of_unknown_size_has_little(self):
        with mock.patch.object(stack, "_size", return_value=0):
            self.assertEqual([stack.LITTLE], on_stacks_of(1024, stack._room))

    def test_a_usual_thread_holds_every_call(self):
        most = {name: 4096 * (2 if name == "meet" else 1) for name in stack.A_LEVEL}
        needed = max(stack.ON_TOP + stack.A_LEVEL[name] * levels for name, levels in most.items())
        self.assertLessEqual(needed, on_stacks_of(8 << 10, stack._room)[0])

    def test_levels_of_small_trees(self):
        self.assertEqual(1, Line([(0, 0), (1, 0)])._levels())
        self.assertEqual(2, Line([(0, 0), (4, 3), (8, 0)])._levels())
        square = [(0, 0), (4, 0), (4, 4), (0, 4), (0, 0)]
        self.assertEqual(3, Line(square)._levels())
        for split in SPLITS:
            self.assertEqual(4, Line.with_table(square, table_without_end(5, split))._levels())
