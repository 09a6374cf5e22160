"""What the questions answer. Each has a third answer besides the two: undecided, for want of visits."""

from __future__ import annotations

from dataclasses import dataclass
from enum import Enum
from typing import Optional


class Word(Enum):
    """What an answer says, with the number that C has for it."""

    YES = 1
    NO = 2
    INSIDE = 3
    OUTSIDE = 4
    #: The point is on the ring itself.
    ON = 5
    #: More visits are needed than were allowed. This says nothing about the lines: ask again with more.
    UNDECIDED = 6


@dataclass(frozen=True)
class Answer:
    """What `near` and `meets` answer: yes, no or undecided, after so many visits.

    A yes is true and a no is false; to ask an undecided answer for its truth is a `TypeError`, for it has none.

    >>> bool(Answer(Word.YES, visits=2)), bool(Answer(Word.NO, visits=3))
    (True, False)
    """

    word: Word
    visits: int

    @property
    def decided(self) -> Optional[bool]:
        """Yes or no; None where more visits are needed than were allowed, which is not a no."""
        return {Word.YES: True, Word.NO: False}.get(self.word)

    def __bool__(self) -> bool:
        if self.decided is None:
            raise TypeError(f"{self}; that is neither yes nor no")
        return self.decided

    def __str__(self) -> str:
        return _sentence(self.word, self.visits)


@dataclass(frozen=True)
class Agreement(Answer):
    """What `agrees` answers: a no names the first point that is not near the other line, counted from 0.

    >>> print(Agreement(Word.NO, visits=8, line="A", point=3))
    no: point 3 of line A is not near the other line (visits: 8)
    """

    line: Optional[str] = None
    point: Optional[int] = None

    def __str__(self) -> str:
        if self.word is Word.NO:
            return f"no: point {self.point} of line {self.line} is not near the other line (visits: {self.visits})"
        return _sentence(self.word, self.visits)


@dataclass(frozen=True)
class Side:
    """What `side` answers: inside, outside, on the ring, or undecided, after so many visits.

    None of them is true or false, so its truth is a `TypeError`: compare its word.

    >>> Side(Word.INSIDE, visits=7).decided is Word.INSIDE
    True
    """

    word: Word
    visits: int

    @property
    def decided(self) -> Optional[Word]:
        """Inside, outside or on; None where more visits are needed than were allowed."""
        return None if self.word is Word.UNDECIDED else self.word

    def __bool__(self) -> bool:
        raise TypeError(f"{self}; a side is neither true nor false: compare its word")

    def __str__(self) -> str:
        return _sentence(self.word, self.visits)


def _sentence(word: Word, visits: int) -> str:
    if word is Word.UNDECIDED:
        return f"undecided: more than {visits} visits are needed"
    return f"{'on the ring' if word is Word.ON else word.name.lower()} (visits: {visits})"
