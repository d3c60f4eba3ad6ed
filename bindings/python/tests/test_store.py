"""Opening and closing stores, and passes that meet."""

from __future__ import annotations

import unittest
from typing import Any
from unittest import mock

from support import StoreCase
from trowelheath import (
    MOST_PASSES,
    MOST_ROOM,
    MOST_SEATS,
    Costs,
    Facts,
    Info,
    InvalidValue,
    Matrix,
    OrderFull,
    OutputNotEmpty,
    Pass,
    RoomTooSmall,
    Store,
    StoreClosed,
    UninitializedObject,
    Vector,
)


class Opening(unittest.TestCase):
    def test_a_store_has_its_passes_in_order(self) -> None:
        with Store(room=10, passes=3) as store:
            self.assertEqual([pass_.number for pass_ in store.passes], [0, 1, 2])
            self.assertTrue(all(isinstance(pass_, Pass) and pass_.store is store for pass_ in store.passes))
            self.assertIs(store.main, store.passes[0])
            self.assertEqual(store.room, 10)

    def test_by_default_it_has_one_pass_and_no_end(self) -> None:
        with Store() as store:
            self.assertEqual((store.room, len(store.passes)), (None, 1))
            self.assertEqual(store.main.facts().room_left, 4096)

    def test_the_smallest_and_the_largest_stores_open(self) -> None:
        largest = MOST_SEATS // MOST_PASSES
        for room, passes in (1, 1), (MOST_ROOM, 1), (1, MOST_PASSES), (largest, MOST_PASSES):
            with self.subTest(room=room, passes=passes), Store(room, passes) as store:
                self.assertEqual(store.main.facts().room_left, room)

    def test_ranges_are_refused_outside(self) -> None:
        cases = (0, 1), (1, 0), (-1, 1), (1, -1), (MOST_ROOM + 1, 1), (1, MOST_PASSES + 1), (4097, 256), (2**64, 1)
        for room, passes in cases:
            with self.subTest(room=room, passes=passes):
                with self.assertRaisesRegex(InvalidValue, "a room from 1 to 65,536"):
                    Store(room, passes)

    def test_ranges_are_whole_numbers(self) -> None:
        for room, passes in (1.0, 1), ("1", 1), (1, None):
            with self.subTest(room=room, passes=passes), self.assertRaises(TypeError):
                Store(room, passes)

    def test_it_says_what_it_is(self) -> None:
        with Store(room=10, passes=2) as store:
            self.assertEqual(repr(store), "<Store of room 10, 2 passes>")
            self.assertEqual(repr(store.passes[1]), "<Pass 1 of <Store of room 10, 2 passes>>")
        self.assertEqual(repr(store), "<Store of room 10, 2 passes, closed>")
        with Store(room=10) as one:
            self.assertEqual(repr(one), "<Store of room 10, 1 pass>")

    def test_stores_stand_apart(self) -> None:
        with Store(room=10) as one, Store(room=10) as other:
            mine, theirs = one.main.vector(3), other.main.vector(4)
            mine[0] = 5
            theirs[0] = 6
            self.assertEqual((mine.number, theirs.number), (0, 0))
            self.assertEqual((mine[0], theirs[0], mine.size, theirs.size), (5, 6, 3, 4))


class Closing(unittest.TestCase):
    def test_a_with_statement_closes_the_store_whatever_happens(self) -> None:
        with self.assertRaises(ZeroDivisionError):
            with Store(room=10) as store:
                self.assertFalse(store.closed)
                raise ZeroDivisionError
        self.assertTrue(store.closed)

    def test_a_store_may_be_closed_again(self) -> None:
        store = Store(room=10)
        store.close()
        store.close()
        self.assertTrue(store.closed)

    def test_every_call_after_that_says_so(self) -> None:
        with Store(room=20, passes=2) as store:
            p, q = store.passes
            a, v = p.matrix(2, 2), p.vector(2)
            other = Store(room=10)
            self.addCleanup(other.close)
        calls = [
            lambda: p.matrix(2, 2),
            lambda: p.vector(2),
            lambda: p.meet(q),
            lambda: p.meet(p),
            lambda: p.adopt(q),
            lambda: other.main.meet(p),
            lambda: p.meet(other.main),
            p.prepare,
            p.help,
            p.blocks,
            p.release,
            p.facts,
            p.is_full,
            lambda: p.succeed(20, 2),
            lambda: a.nvals,
            lambda: a.shape,
            lambda: a[0, 0],
            lambda: a.get(0, 0),
            lambda: a.__setitem__((0, 0), 1),
            lambda: a.__delitem__((0, 0)),
            lambda: a.build([0], [0], [1]),
            lambda: a.to_lists(),
            lambda: a.mxm(a),
            lambda: a.mxv(v, out=v),
            lambda: a.reduce("plus"),
            lambda: a.last_info,
            a.dup,
            a.clear,
            a.free,
            a.wait,
            lambda: v.size,
            lambda: v[0],
            lambda: len(v),
            lambda: list(v.keys()),
        ]
        for place, call in enumerate(calls):
            with self.subTest(place=place), self.assertRaisesRegex(StoreClosed, "the store is closed"):
                call()
        self.assertEqual(repr(a), "<Matrix 0: the store is closed>")


class Passes(StoreCase):
    passes = 3

    def test_a_pass_makes_objects_of_either_sort_and_domain(self) -> None:
        a, b = self.p.matrix(2, 3), self.p.matrix(4, 5, bool)
        v, w = self.p.vector(6), self.p.vector(7, dtype=bool)
        self.assertTrue(isinstance(a, Matrix) and isinstance(b, Matrix))
        self.assertTrue(isinstance(v, Vector) and isinstance(w, Vector))
        self.assertEqual([x.dtype for x in (a, b, v, w)], [int, bool, int, bool])
        self.assertEqual([x.shape for x in (a, b, v, w)], [(2, 3), (4, 5), (6,), (7,)])
        self.assertEqual([x.number for x in (a, b, v, w)], [0, 1, 0, 1])
        self.assertEqual({x.pass_ for x in (a, b, v, w)}, {self.p})
        self.assertEqual({x.store for x in (a, b, v, w)}, {self.store})

    def test_another_dtype_is_refused(self) -> None:
        for dtype in float, str, "int", None:
            with self.subTest(dtype=dtype):
                with self.assertRaises(TypeError):
                    self.p.matrix(2, 2, dtype)
                with self.assertRaises(TypeError):
                    self.p.vector(2, dtype)

    def test_an_object_is_the_same_by_every_pass(self) -> None:
        a, v = self.p.matrix(2, 2), self.p.vector(2, bool)
        a[0, 1] = 5
        v[1] = True
        for pass_ in self.store.passes:
            self.assertEqual(a.using(pass_)[0, 1], 5)
            self.assertIs(v.using(pass_)[1], True)
            self.assertIs(a.using(pass_).pass_, pass_)
            self.assertEqual((a.using(pass_).number, a.using(pass_).dtype), (a.number, int))
        a.using(self.q)[1, 1] = 6
        self.assertEqual(a[1, 1], 6)

    def test_an_object_is_not_used_by_a_pass_of_another_store(self) -> None:
        with Store(room=10) as other:
            with self.assertRaisesRegex(ValueError, "of another store"):
                self.p.matrix(2, 2).using(other.main)

    def test_a_pass_that_meets_another_knows_what_that_knows(self) -> None:
        v = self.p.vector(5)
        for i in range(5):
            v[i] = i
        self.assertEqual(self.p.facts().known, 6)
        self.q.meet(self.p)
        self.assertEqual(self.q.facts().known, 6)
        self.store.passes[1].adopt(self.p)
        self.assertEqual(self.store.passes[1].facts().known, 6)
        self.assertEqual(v.using(self.q).to_dict(), {i: i for i in range(5)})

    def test_a_pass_that_meets_itself_learns_nothing(self) -> None:
        v = self.q.vector(5)
        v[0] = 1
        for meet in self.p.meet, self.p.adopt:
            meet(self.p)
            self.assertEqual((self.p.facts().known, self.q.facts().known), (0, 2))
        self.p.meet(self.q)
        self.assertEqual(self.p.facts().known, 2)

    def test_passes_of_two_stores_do_not_meet(self) -> None:
        with Store(room=10) as other:
            for meet in self.p.meet, self.p.adopt:
                with self.assertRaisesRegex(InvalidValue, "two passes of one store"):
                    meet(other.main)

    def test_a_pass_meets_passes_alone(self) -> None:
        for other in None, self.store, 1:
            with self.subTest(other=other), self.assertRaises(TypeError):
                self.p.meet(other)

    def prepares(self, told: int, made: int) -> None:
        """The first pass prepares: `made` calls are made, and no answer makes one of its first `told` any more."""
        self.assertEqual((self.p.prepare(), self.p.facts().made), (told, made))

    def test_prepare_tells_how_many_calls_are_evaluated(self) -> None:
        self.prepares(0, 0)
        many = 140_000
        v = self.p.vector(many)
        v[0] = 5
        # Neither call is dear, so both are left to a read.
        self.prepares(0, 0)
        self.assertEqual((v[0], self.p.facts().made), (5, 2))

        # The sum is dear by its entries. It overwrites what was made new for it, and the build had the vector cleared.
        v.clear()
        v.build(range(many), 1)
        w = v + v
        self.prepares(6, 2)
        self.assertEqual((w[7], self.p.facts().made), (2, 0))

        # A set more is not dear: it is left, until a wait makes it.
        w[7] = 9
        self.prepares(6, 0)
        w.wait("materialize")
        self.assertEqual(self.p.facts().made, 1)
        self.prepares(7, 0)
        self.assertEqual((w[7], self.p.facts().made), (9, 0))

    def test_a_pass_that_is_released_knows_what_it_knew(self) -> None:
        v = self.p.vector(5)
        v[0] = 1
        v.wait("materialize")
        self.assertEqual(self.p.facts().settled, 2)
        self.p.release()
        facts = self.p.facts()
        self.assertEqual((facts.known, facts.settled, facts.made), (2, 0, 0))
        self.assertEqual(v[0], 1)

    def test_facts_tell_what_the_pass_knows(self) -> None:
        facts = self.q.facts()
        self.assertIsInstance(facts, Facts)
        self.assertEqual((facts.number, facts.known, facts.settled), (2, 0, 0))
        self.assertEqual(facts.room_left, self.room)
        v = self.q.vector(5)
        v[0] = 1
        v.wait("materialize")
        facts = self.q.facts()
        self.assertEqual((facts.known, facts.settled, facts.room_left), (2, 2, self.room - 2))

    def test_costs_tell_what_a_pass_keeps_and_has_left(self) -> None:
        v = self.p.vector(5)
        v[0] = 1
        v[3] = 1
        before = self.p.costs()
        self.assertIsInstance(before, Costs)
        self.assertEqual((before.entries, before.entries_left), (0, 0))
        v.wait("materialize")
        after = self.p.costs()
        self.assertEqual((after.entries, after.entries_left), (2, 2))
        self.assertGreater(after.looks, before.looks)
        self.assertEqual(self.q.costs(), Costs(entries=0, entries_left=2, looks=0))
        self.p.release()
        self.assertEqual(self.p.costs(), Costs(entries=0, entries_left=2, looks=after.looks))

    def test_reads_take_no_room(self) -> None:
        v = self.p.vector(5)
        left = self.p.facts().room_left
        reads = [
            lambda: v.get(0),
            lambda: v.nvals,
            lambda: v.size,
            lambda: v.reduce("plus"),
            lambda: v.last_info,
            lambda: list(v.keys()),
            lambda: repr(v),
            v.to_lists,
            v.wait,
        ]
        for read in reads:
            read()
        self.assertEqual(self.p.facts().room_left, left)


class Branching(StoreCase):
    room = 8

    def branch(self, *objects: Object, room: int = 10, passes: int = 1) -> Store:
        """A branch by the first pass, which is closed behind the test."""
        store = self.p.branch(*objects, room=room, passes=passes)
        self.addCleanup(store.close)
        return store

    def test_it_keeps_the_moment_of_its_objects(self) -> None:
        v, other, a = self.p.vector(3), self.p.vector(4, bool), self.p.matrix(2, 2)
        v[0] = 5
        a[1, 1] = 7
        store = self.branch(a, v, passes=2)
        facts = store.passes[1].facts()
        self.assertEqual((facts.known, facts.room_left), (4, 10))
        w, b = v.using(store.main), a.using(store.passes[1])
        self.assertEqual((w.number, b.number), (0, 0))
        a[0, 0] = 1
        w[1] = 6
        self.assertEqual((w.to_dict(), v.to_dict()), ({0: 5, 1: 6}, {0: 5}))
        self.assertEqual((b.to_dict(), a.to_dict()), ({(1, 1): 7}, {(0, 0): 1, (1, 1): 7}))
        with self.assertRaisesRegex(ValueError, "of another store"):
            other.using(store.main)
        self.assertEqual(store.main.vector(1).number, 1)

    def test_it_begins_with_what_others_made_though_its_pass_has_not_read(self) -> None:
        for room in 100, None:
            with self.subTest(room=room), Store(room=room, passes=2) as store:
                opens, enters = store.passes
                a, v = enters.matrix(19, 19), enters.vector(19)
                for first in 0, 9:
                    for k in range(first, first + 9):
                        a[k, k + 1] = 1
                        v[k] = 1
                    with opens.branch(a.using(opens), v, room=10) as branch:
                        there = a.using(branch.main)
                        self.assertEqual((len(there), len(v.using(branch.main))), (first + 9, first + 9))
                        self.assertEqual(there.to_dict(), a.to_dict())

    def test_a_result_comes_back_by_one_call(self) -> None:
        v, out = self.p.vector(3), self.p.vector(5)
        v[2] = 5
        store = self.branch(v)
        w = v.using(store.main)
        w[0] = 4
        left = self.p.facts().room_left
        out.build_from(w)
        self.assertEqual((out.to_dict(), self.p.facts().room_left), ({0: 4, 2: 5}, left - 1))
        with self.assertRaises(OutputNotEmpty):
            out.build_from(w)
        with self.assertRaises(ValueError):
            out.build_from(v)
        with self.assertRaises(TypeError):
            self.p.matrix(1, 1).build_from(v)  # type: ignore[type-var]

    def test_what_it_begins_with(self) -> None:
        v = self.p.vector(3)
        largest = self.branch(v, room=MOST_ROOM).main.facts()
        self.assertEqual((largest.known, largest.room_left), (1, MOST_ROOM))
        self.assertEqual(self.branch(room=1).main.facts().room_left, 1)
        self.assertEqual(self.branch(v, v).main.facts().known, 1)
        other = Store(room=2)
        self.addCleanup(other.close)
        with self.assertRaisesRegex(ValueError, "of another store"):
            self.p.branch(other.main.vector(1))
        with self.assertRaises(TypeError):
            self.p.branch(3)  # type: ignore[arg-type]


class Succession(StoreCase):
    room = 4

    def succeed(self, room: int = 10, passes: int = 1) -> Store:
        """A successor by the first pass, which is closed behind the test."""
        store = self.p.succeed(room, passes)
        self.addCleanup(store.close)
        return store

    def test_a_full_store_has_a_successor(self) -> None:
        v, gone = self.p.vector(3), self.p.vector(3, bool)
        gone.free()
        v.using(self.q)[0] = 5
        self.assertFalse(self.p.is_full())
        self.p.meet(self.q)
        self.assertTrue(self.p.is_full())
        with self.assertRaises(OrderFull):
            v[1] = 6

        store = self.succeed(room=10, passes=3)
        self.assertEqual(repr(store), "<Store of room 10, 3 passes>")
        for number, pass_ in enumerate(store.passes):
            facts = pass_.facts()
            self.assertEqual((facts.number, facts.known, facts.room_left, facts.settled), (number, 4, 10, 0))
            self.assertFalse(pass_.is_full())
        w = v.using(store.main)
        self.assertEqual((w.number, w.dtype, w.size), (v.number, int, 3))
        self.assertIs(w.store, store)
        self.assertIsNone(v.using(store.passes[1]).last_info)
        w.using(store.passes[2])[1] = 6
        self.assertEqual((w.to_dict(), v.to_dict()), ({0: 5, 1: 6}, {0: 5}))
        with self.assertRaises(UninitializedObject):
            gone.using(store.main).size
        self.assertEqual(store.main.vector(2).number, 2)

        # The new store outlives the old one.
        self.store.close()
        self.assertEqual(len(w), 2)

    def test_before_the_end_it_is_a_branch(self) -> None:
        v = self.p.vector(3)
        store = self.succeed()
        v[0] = 5
        self.assertEqual((v.to_dict(), v.using(store.main).to_dict()), ({0: 5}, {}))

    def test_it_begins_with_what_others_made_though_its_pass_has_not_read(self) -> None:
        with Store(room=100, passes=2) as store:
            opens, enters = store.passes
            a = enters.matrix(19, 19)
            for first in 0, 9:
                for k in range(first, first + 9):
                    a[k, k + 1] = 1
                with opens.succeed(room=10) as successor:
                    made = successor.main.matrix(19, 19)
                    made[2, 2] = 99
                    there = a.using(successor.main)
                    self.assertEqual((there.number, made.number), (0, 1))
                    self.assertEqual(there.to_dict(), a.to_dict())
                    self.assertEqual((len(there), made.to_dict()), (first + 9, {(2, 2): 99}))

    def test_room_that_no_store_has_is_refused_with_what_is_needed(self) -> None:
        v = self.p.vector(3)
        v[0] = 5
        # A million calls that make objects take long: that the library refuses so many is shown by itself.
        def refuse(*arguments: Any) -> Info:
            needed = arguments[-3]
            needed._obj.value = 1_044_482
            return Info.INSUFFICIENT_SPACE

        for name, call in (
            ("trb_succeed", lambda: self.p.succeed(7)),
            ("trb_branch", lambda: self.p.branch(v, room=7)),
        ):
            with self.subTest(name=name), mock.patch.object(self.p._library, name, refuse):
                with self.assertRaisesRegex(RoomTooSmall, "beside the 1,044,482 calls") as caught:
                    call()
                told = caught.exception.needed, caught.exception.detail
                self.assertEqual(told, (1_044_482, "a room of 7 was asked for"))
        for room in 1, MOST_ROOM:
            self.assertEqual(self.succeed(room).main.facts().room_left, room)

    def test_ranges_are_refused_outside(self) -> None:
        for room, passes in (0, 1), (1, 0), (MOST_ROOM + 1, 1), (1, MOST_PASSES + 1), (4097, 256):
            with self.subTest(room=room, passes=passes):
                with self.assertRaisesRegex(InvalidValue, "a room from 1 to 65,536"):
                    self.p.succeed(room, passes)

    def test_an_object_is_used_in_the_next_store_alone(self) -> None:
        v = self.p.vector(3)
        store = self.succeed()
        w = v.using(store.main)
        last = store.main.succeed(10)
        self.addCleanup(last.close)
        self.assertEqual(w.using(last.main).number, v.number)
        for vector, pass_ in (v, last.main), (w, self.p):
            with self.assertRaisesRegex(ValueError, "of another store"):
                vector.using(pass_)


if __name__ == "__main__":
    unittest.main()
