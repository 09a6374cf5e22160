"""Verified strip trees over whole-number lines.

A `Line` is a list of points in sheet units of 1/16 metre with its strip tree. It is asked whether a point is near it,
whether it meets another line, on which side of it a point lies, and whether it agrees with another line. The code that
answers is proved, for every input: a no is said only where plain geometry over all the original segments says no, and a
search that runs out of its allowance of visits says undecided, never no.

>>> from kneukelboom import Line
>>> sketch = Line([(0, 0), (160, 120), (320, 0), (480, 0), (640, 0)])
>>> survey = Line([(0, 10), (160, 130), (320, 10)])

Within a metre of the sketch?

>>> print(sketch.near((160, 130), distance=16))
yes (visits: 2)

Agreement is asked both ways: the survey lies along the sketch, but reaches only half of it.

>>> print(sketch.agrees(survey, distance=16))
no: point 3 of line A is not near the other line (visits: 8)

An allowance of visits may be given; without one, the answer is always decided. What is undecided is neither true nor
false:

>>> answer = sketch.near((160, 130), distance=16, allowance=1)
>>> print(answer)
undecided: more than 1 visits are needed
>>> bool(answer)
Traceback (most recent call last):
    ...
TypeError: undecided: more than 1 visits are needed; that is neither yes nor no

What is refused is a `Refusal`, a `ValueError` that prints as a sentence:

>>> Line([(0, 0), (4, 3), (4, 3)])
Traceback (most recent call last):
    ...
kneukelboom.Refusal: refused 5: points 1 and 2 of line A are equal

`Line.with_table` takes a table that other software wrote, and checks it; `widen` takes points and tables that version 1
of the library stored.
"""

from __future__ import annotations

import itertools
import operator
from array import array
from functools import partial
from typing import Any, Callable, Iterable, Iterator, List, Optional, SupportsIndex, Tuple

from . import library
from .answer import Agreement, Answer, Side, Word
from .refusal import Refusal

__all__ = ["Agreement", "Answer", "Line", "Refusal", "Side", "Word", "widen"]
for _public in Agreement, Answer, Refusal, Side, Word:
    _public.__module__ = __name__

#: Points of a line: at least 2 ..
FEWEST_POINTS = 2
#: .. and at most 4,097.
MOST_POINTS = 4097
#: Coordinates are -1,000,000 to 1,000,000.
SHEET = 1000000
#: Distances are 0 to 2,000,000.
FARTHEST = 2000000
#: Allowances are 0 to 4,294,967,295.
MOST_VISITS = 2**32 - 1
#: Numbers of a table row.
ROW_WIDTH = 11

Point = Tuple[SupportsIndex, SupportsIndex]


class Line:
    """A line through points (x, y), with its strip tree. It never changes.

    Coordinates are whole numbers (what is not is a `TypeError`). Refused are fewer than 2 or more than 4,097 points, a
    coordinate off the sheet, and neighbours that are equal. Only lines whose table was built, or checked and accepted,
    exist, so the questions refuse no more than a distance (7), an asked point (8) or a line that is no ring (9).

    Lines are equal where their points are, whatever their tables: without an allowance they answer the same. The visits
    can differ where a table was not built (`with_table`), for a walk follows the splits of its table.

    >>> line = Line([(0, 0), (4, 3), (8, 0)])
    >>> line
    <Line of 3 points, (0, 0) to (8, 0)>
    >>> len(line), list(line)
    (3, [(0, 0), (4, 3), (8, 0)])
    >>> line == Line(list(line)), line == Line([(0, 0), (4, 3)])
    (True, False)
    """

    __slots__ = ("_built", "_depth", "_lent", "_points", "_table")
    _built: bool  # or else checked: the table is from elsewhere
    _depth: int  # of the tree, in levels; 0 until it is reckoned
    _lent: Tuple[Any, ...]  # points and table as the calls take them

    def __init__(self, points: Iterable[Point]) -> None:
        self._make(_coordinates(points), None)

    @classmethod
    def from_numbers(cls, numbers: Iterable[SupportsIndex], table: Optional[Iterable[SupportsIndex]] = None) -> Line:
        """The same from coordinates x, y, x, y; an odd number of them is refused.

        >>> Line.from_numbers([0, 0, 4, 3]) == Line([(0, 0), (4, 3)])
        True
        >>> Line.from_numbers([0, 0, 4])
        Traceback (most recent call last):
            ...
        kneukelboom.Refusal: refused 1: line A has an odd number of coordinates

        With the numbers of a table, row after row, it is checked as by `with_table`, and not built:

        >>> Line.from_numbers([0, 0, 4, 3], [0, 1, -1, -5, 5, 0, 25, 0, 4, 0, 3]).table
        ((0, 1, -1, -5, 5, 0, 25, 0, 4, 0, 3),)
        """
        line = cls.__new__(cls)
        line._make([_whole(number, "coordinate", index) for index, number in enumerate(numbers)], table)
        return line

    @classmethod
    def with_table(cls, points: Iterable[Point], table: Iterable[Iterable[SupportsIndex]]) -> Line:
        """A line through points (x, y) with a table that other software wrote: checked, and then asked as it is.

        The table is rows of 11 numbers as `table` has them; rows past the 2n-1 that a line of n segments has are not
        read. Refused are points that `Line` refuses, a table that is too short (6), a row that is not good for the
        range of points that falls to it (21), and one whose strip or box leaves out a point of that range (22). What
        does not fit 64 bits is a `ValueError`.

        >>> square = [(0, 0), (4, 0), (4, 4), (0, 4), (0, 0)]
        >>> table = [
        ...     (0, 4, 1, 0, 4, 0, 4, 0, 4, 0, 4),  # it splits at point 1, where the builder splits at 2
        ...     (0, 1, -1, 0, 0, 0, 16, 0, 4, 0, 0),
        ...     (1, 4, 2, -16, 0, 0, 16, 0, 4, 0, 4),
        ...     (1, 2, -1, 0, 0, 0, 16, 4, 4, 0, 4),
        ...     (2, 4, 3, -16, 0, 0, 32, 0, 4, 0, 4),
        ...     (2, 3, -1, 0, 0, 0, 16, 0, 4, 4, 4),
        ...     (3, 4, -1, 0, 0, 0, 16, 0, 0, 0, 4),
        ... ]
        >>> line = Line.with_table(square, table)
        >>> line == Line(square)
        True
        >>> print(line.near((2, 2), distance=2), Line(square).near((2, 2), distance=2), sep=", ")
        yes (visits: 2), yes (visits: 3)

        With the strip of row 2 too narrow for the points (4, 4) and (0, 4):

        >>> table[2] = (1, 4, 2, -15, 0, 0, 16, 0, 4, 0, 4)
        >>> Line.with_table(square, table)
        Traceback (most recent call last):
            ...
        kneukelboom.Refusal: refused 22: row 2 of the table of line A leaves out a point of its run
        """
        line = cls.__new__(cls)
        line._make(_coordinates(points), itertools.chain.from_iterable(map(_row, table, itertools.count())))
        return line

    def _make(self, numbers: List[int], table: Optional[Iterable[SupportsIndex]]) -> None:
        """Of these coordinates, with its table built or, where one is given, checked."""
        # A line that is too short or too long is refused before its table is looked at: no need for the room.
        segments = len(numbers) // 2 - 1 if FEWEST_POINTS <= len(numbers) // 2 <= MOST_POINTS else 0
        size = ROW_WIDTH * max(2 * segments - 1, 0)
        self._built = table is None
        self._points = array("q", map(_held, numbers))
        self._table = array("q", [0]) * size if table is None else _wide(itertools.islice(table, size))
        self._lent = library.lent(self._points) + library.lent(self._table)
        self._depth = 0
        library.ask("build" if self._built else "check", segments, lambda: segments, *self._lent)

    @property
    def points(self) -> Tuple[Tuple[int, int], ...]:
        """The points, (x, y) each."""
        return tuple(self)

    @property
    def table(self) -> Tuple[Tuple[int, ...], ...]:
        """The rows of the tree in preorder: first, last, split, cmin, cmax, tmin, tmax, xmin, xmax, ymin, ymax.

        >>> Line([(0, 0), (4, 3)]).table
        ((0, 1, -1, 0, 0, 0, 25, 0, 4, 0, 3),)
        """
        numbers = iter(self._table)
        return tuple(zip(*[numbers] * ROW_WIDTH))

    @property
    def segments(self) -> int:
        """n, one less than the points."""
        return len(self) - 1

    def near(self, point: Point, distance: SupportsIndex, allowance: Optional[SupportsIndex] = None) -> Answer:
        """Is a point within the distance of some segment of this line? Exactly that far is within.

        Without an allowance, the one that always decides is used: `enough_visits`.

        >>> line = Line([(0, 0), (4, 3), (8, 0)])
        >>> line.near((4, 5), distance=2).decided, line.near((4, 5), distance=1).decided
        (True, False)
        >>> line.near((4, 5), distance=2, allowance=1).decided is None
        True
        """
        asked = _asked(point) + (_held(_whole(distance, "the distance")),)
        visits = _allowance(allowance, self.enough_visits)
        reply = library.ask("near", self.segments, self._levels, *self._lent, *asked, visits)
        return Answer(Word(reply.word), reply.visits)

    def side(self, point: Point, allowance: Optional[SupportsIndex] = None) -> Side:
        """On which side of this ring is a point?

        A ring has at least 4 points and ends where it begins; inside is odd where it crosses itself. Without an
        allowance, the one that always decides is used: `enough_visits`.

        >>> square = Line([(0, 0), (4, 0), (4, 4), (0, 4), (0, 0)])
        >>> for point in (2, 2), (4, 2), (5, 2):
        ...     print(square.side(point))
        inside (visits: 7)
        on the ring (visits: 4)
        outside (visits: 1)
        >>> square.side((2, 2)).word is Word.INSIDE
        True
        """
        asked = _asked(point)
        visits = _allowance(allowance, self.enough_visits)
        reply = library.ask("inside", self.segments, self._levels, *self._lent, *asked, visits)
        return Side(Word(reply.word), reply.visits)

    def meets(self, other: Line, allowance: Optional[SupportsIndex] = None) -> Answer:
        """Do this line (A) and another (B) share a point, ends, touches and overlaps included?

        Without an allowance, the one that always decides is used: `enough_to_meet`.

        >>> line = Line([(0, 0), (4, 3), (8, 0)])
        >>> line.meets(Line([(4, 0), (4, 2)])).decided, line.meets(Line([(4, 0), (4, 3)])).decided
        (False, True)
        """
        visits = _allowance(allowance, partial(self.enough_to_meet, _other(other)))
        reply = library.ask(
            "meet",
            self.segments + other.segments,
            lambda: self._levels() + other._levels(),
            *self._lent,
            *other._lent,
            visits,
        )
        return Answer(Word(reply.word), reply.visits)

    def agrees(self, other: Line, distance: SupportsIndex, allowance: Optional[SupportsIndex] = None) -> Agreement:
        """Is each point of this line (A) within the distance of another (B), and each point of B within it of A?

        Points are compared with lines, not every place between the points. A no names the first point that is not
        near: A's are asked before B's. Without an allowance, the one that always decides is used: `enough_to_agree`.

        >>> long, stub = Line([(0, 0), (100, 0)]), Line([(0, 0), (10, 0)])
        >>> answer = stub.agrees(long, distance=5)
        >>> answer.decided, answer.line, answer.point
        (False, 'B', 1)
        """
        held = _held(_whole(distance, "the distance"))
        visits = _allowance(allowance, partial(self.enough_to_agree, _other(other)))
        reply = library.ask(
            "agree",
            max(self.segments, other.segments),
            lambda: max(self._levels(), other._levels()),
            *self._lent,
            *other._lent,
            held,
            visits,
        )
        word, line = Word(reply.word), library.LINES[reply.line]
        return Agreement(word, reply.visits, line, reply.place if line else None)

    def enough_visits(self) -> int:
        """Visits that always decide `near` and `side`: 2n-1."""
        return 2 * self.segments - 1

    def enough_to_meet(self, other: Line) -> int:
        """Visits that always decide `meets`: 2nm-1."""
        return 2 * self.segments * other.segments - 1

    def enough_to_agree(self, other: Line) -> int:
        """Visits that always decide `agrees`: (n+1)(2m-1) + (m+1)(2n-1)."""
        return len(self) * other.enough_visits() + len(other) * self.enough_visits()

    def __len__(self) -> int:
        return len(self._points) // 2

    def __iter__(self) -> Iterator[Tuple[int, int]]:
        numbers = iter(self._points)
        return zip(numbers, numbers)

    def __eq__(self, other: object) -> bool:
        if not isinstance(other, Line):
            return NotImplemented
        return self._points == other._points

    def __hash__(self) -> int:
        return hash(self._points.tobytes())

    def __repr__(self) -> str:
        x, y, *_, u, v = self._points
        return f"<Line of {len(self)} points, ({x}, {y}) to ({u}, {v})>"

    def __reduce__(self) -> Tuple[Any, ...]:
        # A copy is built anew, or its table checked anew: answers are only as right as the table.
        kept = [self._points] if self._built else [self._points, self._table]
        return type(self).from_numbers, tuple(numbers.tolist() for numbers in kept)

    def _levels(self) -> int:
        """How many levels the tree has. It is kept when it is known whole, for other threads may ask meanwhile."""
        if not self._depth:
            depth = 0
            above: List[int] = []
            for first, last in zip(self._table[0::ROW_WIDTH], self._table[1::ROW_WIDTH]):
                while above and above[-1] <= first:
                    above.pop()
                above.append(last)
                depth = max(depth, len(above))
            self._depth = depth
        return self._depth


def widen(numbers: Iterable[SupportsIndex]) -> array[int]:
    """Points or a table that version 1 of the library stored, in the 64-bit numbers that they are now.

    A table that version 1 built, widened, is number by number the one that is built for the widened points now. What
    does not fit 32 bits is a `ValueError`.

    >>> from array import array
    >>> stored = array("i", [0, 0, 4, 3, 8, 0])
    >>> widen(stored)
    array('q', [0, 0, 4, 3, 8, 0])
    >>> Line.from_numbers(widen(stored))
    <Line of 3 points, (0, 0) to (8, 0)>
    """
    old = array("i", (_fitting(32, number, "number", index) for index, number in enumerate(numbers)))
    wide = array("q", [0]) * len(old)
    library.ask("widen", 0, lambda: 0, *library.lent(old), *library.lent(wide))
    return wide


def _coordinates(points: Iterable[Point]) -> List[int]:
    # A line with one point too many is refused, whatever follows.
    read = enumerate(itertools.islice(points, MOST_POINTS + 1))
    return [number for index, point in read for number in _pair(point, "point", index)]


def _wide(numbers: Iterable[SupportsIndex]) -> array[int]:
    return array("q", (_fitting(64, number, "number", index, "of the table") for index, number in enumerate(numbers)))


def _row(row: Iterable[SupportsIndex], index: int) -> List[int]:
    try:
        numbers = [operator.index(number) for number in row]
    except TypeError:
        numbers = []
    if len(numbers) != ROW_WIDTH:
        raise TypeError(f"row {index} of the table is no row of {ROW_WIDTH} whole numbers: {row!r}")
    return numbers


def _fitting(bits: int, number: SupportsIndex, *what: object) -> int:
    whole = _whole(number, *what)
    if not -(2 ** (bits - 1)) <= whole < 2 ** (bits - 1):
        raise ValueError(f"{' '.join(map(str, what))} does not fit {bits} bits: {whole}")
    return whole


def _whole(number: SupportsIndex, *what: object) -> int:
    try:
        return operator.index(number)
    except TypeError:
        raise TypeError(f"{' '.join(map(str, what))} is no whole number: {number!r}") from None


def _pair(point: Point, *what: object) -> Tuple[int, int]:
    try:
        x, y = point
        return operator.index(x), operator.index(y)
    except (TypeError, ValueError):
        raise TypeError(f"{' '.join(map(str, what))} is no pair of whole numbers: {point!r}") from None


def _held(number: int) -> int:
    """The nearest number that fits 64 bits. It is off the sheet, or no distance, just where the number is."""
    most = 2**63 - 1
    return min(max(number, -most), most)


def _asked(point: Point) -> Tuple[int, ...]:
    return tuple(map(_held, _pair(point, "the asked point")))


def _other(line: Line) -> Line:
    if not isinstance(line, Line):
        raise TypeError(f"the other line is no Line: {line!r}")
    return line


def _allowance(given: Optional[SupportsIndex], enough: Callable[[], int]) -> int:
    if given is None:
        return enough()
    visits = _whole(given, "the allowance")
    if not 0 <= visits <= MOST_VISITS:
        raise ValueError(f"the allowance is not from 0 to 4,294,967,295: {visits}")
    return visits
