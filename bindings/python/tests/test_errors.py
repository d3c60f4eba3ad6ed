"""The exceptions of refusals."""

from __future__ import annotations

import pickle
import unittest

from trowelheath import (
    DimensionMismatch,
    DomainMismatch,
    IndexOutOfBounds,
    Info,
    InvalidIndex,
    InvalidValue,
    OrderFull,
    OutOfMemory,
    OutputNotEmpty,
    Panic,
    Refusal,
    UninitializedObject,
)
from trowelheath.errors import InsufficientSpace, RoomTooSmall, refusal_of

KINDS = {
    -1: (UninitializedObject, Exception, "GrB_UNINITIALIZED_OBJECT"),
    -3: (InvalidValue, ValueError, "GrB_INVALID_VALUE"),
    -4: (InvalidIndex, IndexError, "GrB_INVALID_INDEX"),
    -5: (DomainMismatch, TypeError, "GrB_DOMAIN_MISMATCH"),
    -6: (DimensionMismatch, ValueError, "GrB_DIMENSION_MISMATCH"),
    -7: (OutputNotEmpty, Exception, "GrB_OUTPUT_NOT_EMPTY"),
    -101: (Panic, RuntimeError, "GrB_PANIC"),
    -102: (OutOfMemory, MemoryError, "GrB_OUT_OF_MEMORY"),
    -103: (InsufficientSpace, Exception, "GrB_INSUFFICIENT_SPACE"),
    -105: (IndexOutOfBounds, IndexError, "GrB_INDEX_OUT_OF_BOUNDS"),
    -1001: (OrderFull, Exception, "OrderFull"),
}


class Refusals(unittest.TestCase):
    def test_each_status_has_its_exception(self) -> None:
        for code, (kind, base, name) in KINDS.items():
            with self.subTest(code=code):
                refusal = refusal_of(code)
                self.assertIs(type(refusal), kind)
                self.assertIsInstance(refusal, Refusal)
                self.assertIsInstance(refusal, base)
                assert isinstance(refusal, Refusal)
                self.assertEqual((refusal.code, refusal.name), (code, name))
                self.assertEqual(str(refusal), f"{name}. {refusal.hint}")
                self.assertTrue(refusal.hint.endswith("."))

    def test_the_statuses_below_0_are_those_that_have_an_exception(self) -> None:
        self.assertEqual({info for info in Info if info < 0}, set(KINDS))

    def test_an_invalid_value_says_of_what(self) -> None:
        self.assertEqual(str(refusal_of(-3, "Give a room.")), "GrB_INVALID_VALUE. Give a room.")
        self.assertEqual(str(refusal_of(-3)), "GrB_INVALID_VALUE. Give dimensions from 1 to 4,294,967,295.")

    def test_the_hint_of_an_invalid_value_is_not_that_of_others(self) -> None:
        self.assertEqual(str(refusal_of(-7, "Give a room.")), str(refusal_of(-7)))

    def test_an_unknown_status_is_no_refusal(self) -> None:
        fault = refusal_of(-77)
        self.assertIs(type(fault), RuntimeError)
        self.assertIn("-77", str(fault))

    def test_a_refusal_is_the_same_after_pickling(self) -> None:
        for refusal in refusal_of(-4), refusal_of(-3, "Give a room."), refusal_of(-102), RoomTooSmall(7):
            back = pickle.loads(pickle.dumps(refusal))
            self.assertIs(type(back), type(refusal))
            self.assertEqual(str(back), str(refusal))


if __name__ == "__main__":
    unittest.main()
