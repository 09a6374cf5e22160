"""Numbered refusals, as exceptions that print as sentences."""

from __future__ import annotations

from typing import Optional


class Refusal(ValueError):
    """Why a line was not built, a table not accepted, numbers not widened or a question not answered.

    Each number comes exactly when its reason is the first, in a fixed order, that holds. `line` is "A" (the line asked)
    or "B" (the other), whichever is at fault, or None; `place` a point (4, 5, 8 of agree) or a row (10, 21, 22),
    counted from 0, else 0; `visits` the visits made before.

    >>> refusal = Refusal(number=4, line="A", place=1)
    >>> print(refusal)
    refused 4: point 1 of line A is off the sheet
    """

    def __init__(self, number: int, line: Optional[str], place: int = 0, visits: int = 0) -> None:
        super().__init__(number, line, place, visits)
        self.number, self.line, self.place, self.visits = number, line, place, visits

    def __str__(self) -> str:
        return f"refused {self.number}: {self._reason()}"

    def _reason(self) -> str:
        line, place = f"line {self.line}", self.place
        if self.number == 6 and self.line is None:
            return "the list to widen into is shorter than the list of 32-bit numbers"
        if self.number == 8 and self.line is None:
            return "the asked point is off the sheet"
        return {
            1: f"{line} has an odd number of coordinates",
            2: f"{line} has fewer than 2 points",
            3: f"{line} has more than 4,097 points",
            4: f"point {place} of {line} is off the sheet",
            5: f"points {place} and {place + 1} of {line} are equal",
            6: f"the table of {line} is too short for its points",
            7: "the distance is not from 0 to 2,000,000",
            8: f"point {place} of {line} is off the sheet",
            9: f"{line} is no ring: it has fewer than 4 points, or does not end where it begins",
            10: f"row {place} of the table of {line} is bad (visit {self.visits})",
            21: f"row {place} of the table of {line} is not good for its range",
            22: f"row {place} of the table of {line} leaves out a point of its run",
        }.get(self.number, "no refusal of the library has this number")
