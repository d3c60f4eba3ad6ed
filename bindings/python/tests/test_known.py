"""What passes know: what a call, a meeting and a wait leave known and settled, and the steps that they take."""

from __future__ import annotations

import unittest
from typing import List, Sequence

from rows import DONE, FULL, GONE, P, Q, R, Row, RowCase, vector
from trowelheath import Info

FIRST = vector(0)
SECOND = vector(1)

# The pass that made the vector has looked at nothing since.
FRESH: List[Row] = [
    (P, "new", (int, 4), FIRST),
    (Q, "set", (FIRST, 1, 9), DONE),
    (P, "get", (FIRST, 1), 9),
    (P, "known", (), 2),
]

REFUSED: List[Row] = [
    (P, "new", (int, 5), FIRST),
    (P, "set", (FIRST, 5, 1), Info.INVALID_INDEX),
    (P, "set", (FIRST, 4, 1), DONE),
    (P, "nvals", (FIRST,), 1),
    (P, "known", (), 2),
]

FREED: List[Row] = [
    (P, "new", (int, 2), FIRST),
    (P, "free", (FIRST,), DONE),
    (P, "get", (FIRST, 0), GONE),
    (P, "free", (FIRST,), GONE),
    (P, "new", (int, 2), SECOND),
]

TOLD: List[Row] = [
    (P, "new", (int, 4), FIRST),
    (P, "steps", (), 2),
    (Q, "set", (FIRST, 1, 9), DONE),
    (Q, "steps", (), 3),
    (P, "meet", (Q,), DONE),
    (P, "steps", (), 1),
    (P, "get", (FIRST, 1), 9),
    (P, "steps", (), 1),
    (P, "known", (), 2),
    (Q, "known", (), 2),
]

# The second pass knows nothing.
UNTOLD: List[Row] = [
    (P, "meet", (Q,), DONE),
    (P, "known", (), 0),
    (P, "new", (int, 4), FIRST),
    (P, "meet", (Q,), DONE),
    (P, "known", (), 1),
    (P, "steps", (), 0),
    (Q, "known", (), 0),
]

KEPT: List[Row] = [
    (P, "new", (int, 4), FIRST),
    (P, "set", (FIRST, 0, 5), DONE),
    (P, "wait", (FIRST, "materialize"), DONE),
    (P, "settled", (), 2),
    (Q, "set", (FIRST, 0, 6), DONE),
    (Q, "set", (FIRST, 0, 7), DONE),
    (P, "meet", (Q,), DONE),
    (P, "settled", (), 2),
    (P, "get", (FIRST, 0), 7),
    (P, "known", (), 4),
    (P, "wait", (FIRST, "complete"), DONE),
    (P, "settled", (), 2),
    (P, "wait", (FIRST, "materialize"), DONE),
    (P, "settled", (), 4),
    (P, "get", (FIRST, 0), 7),
    (P, "nvals", (FIRST,), 1),
    (P, "reduce", (FIRST, "plus"), 7),
    (P, "settled", (), 4),
    (Q, "settled", (), 0),
    (Q, "get", (FIRST, 0), 7),
]

SEVENTH = vector(7)
EIGHTH = vector(8)

# The room is 8, so a number of 8 or more has no status.
INVENTED: List[Row] = [
    (Q, "set", (SEVENTH, 0, 1), GONE),
    (Q, "set", (EIGHTH, 0, 1), GONE),
    (Q, "last_info", (SEVENTH,), GONE),
    (Q, "last_info", (EIGHTH,), None),
    (Q, "known", (), 0),
]

# Nobody else is in a call, so no try is lost.
ALONE: List[Row] = [
    (P, "new", (int, 4), FIRST),
    (P, "steps", (), 2),
    (Q, "set", (FIRST, 1, 7), DONE),
    (Q, "steps", (), 3),
    (P, "get", (FIRST, 1), 7),
    (P, "steps", (), 2),
    (P, "get", (FIRST, 1), 7),
    (P, "steps", (), 1),
    (Q, "set", (FIRST, 4, 7), Info.INVALID_INDEX),
    (Q, "steps", (), 1),
    (Q, "set", (FIRST, 3, 7), DONE),
    (Q, "steps", (), 2),
    (P, "nvals", (SECOND,), GONE),
    (P, "steps", (), 2),
    (P, "size", (FIRST,), 4),
    (P, "steps", (), 1),
]

FULL_ORDER: List[Row] = [
    (P, "new", (int, 3), FIRST),
    (P, "steps", (), 2),
    (P, "set", (FIRST, 0, 7), DONE),
    (P, "steps", (), 2),
    (P, "set", (FIRST, 1, 8), FULL),
    (P, "steps", (), 0),
    (P, "get", (FIRST, 0), 7),
    (P, "steps", (), 0),
    (P, "set", (FIRST, 3, 1), Info.INVALID_INDEX),
    (P, "steps", (), 0),
    (Q, "set", (FIRST, 1, 7), FULL),
    (Q, "steps", (), 2),
]


class KnownCase(RowCase):
    """A test by three passes of a store, the third of which makes no step."""

    def play_in_new(self, room: int, rows: List[Row], openings: Sequence[str] = ("open", "chain_open")) -> None:
        """New stores make the rows: one with this room, and one without an end, each generation of which has it."""
        for opening in openings:
            with self.subTest(opening=opening):
                store = self.begin(room, 3, opening)
                self.play(rows, dict(zip((P, Q, R), store.passes)))


class Knowing(KnownCase):
    def test_a_call_sees_what_another_pass_did_before(self) -> None:
        self.play_in_new(8, FRESH)

    def test_a_refused_call_is_none_of_those_known(self) -> None:
        self.play_in_new(4096, REFUSED)

    def test_the_number_of_a_freed_vector_is_not_used_again(self) -> None:
        self.play_in_new(4096, FREED)


class Meeting(KnownCase):
    def test_a_meeting_tells_what_the_other_pass_knows(self) -> None:
        self.play_in_new(8, TOLD)

    def test_a_meeting_with_a_pass_that_knows_less_changes_nothing(self) -> None:
        self.play_in_new(4, UNTOLD)


class Settling(KnownCase):
    def test_a_read_goes_on_from_what_is_settled(self) -> None:
        self.play_in_new(128, KEPT)


class Statuses(KnownCase):
    def test_an_invented_number_below_the_room_has_a_status(self) -> None:
        self.play_in_new(8, INVENTED)


class Steps(KnownCase):
    def test_a_call_takes_a_step_for_each_word_learnt_and_one_more(self) -> None:
        self.play_in_new(8, ALONE)

    def test_a_call_on_a_full_order_takes_no_step(self) -> None:
        self.play_in_new(2, FULL_ORDER, ["open"])


if __name__ == "__main__":
    unittest.main()
