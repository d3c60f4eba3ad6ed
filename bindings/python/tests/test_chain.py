"""Stores without an end: what goes on, what a generation tells of itself, and what is refused."""

from __future__ import annotations

import ctypes
import threading
import time
import unittest
from concurrent.futures import ThreadPoolExecutor
from typing import Any, Callable, List
from unittest import mock

from trowelheath import (
    MOST_PASSES,
    Info,
    InvalidValue,
    Matrix,
    OrderFull,
    Pass,
    RoomTooSmall,
    Store,
    StoreClosed,
    UninitializedObject,
    Vector,
)
from trowelheath import store as store_module

ROOM = 4096
"""How many changes a generation takes where there are few passes."""


def fill(v: Vector, times: int) -> None:
    """So many changes, of which the last one stays."""
    for k in range(times):
        v[0] = k


def open_small(room: int, passes: int = 1) -> Store:
    """A store without an end whose generations take so few changes."""
    with mock.patch.object(store_module, "_default_room", return_value=room):
        return Store(passes=passes)


def status_of(p: Pass, number: int) -> Info:
    """The status of a read of the vector of numbers of this number, whether it is there or not."""
    return Info(p._core.library.trb_vector_get_uint64(p._handle, ctypes.c_uint64(), number, 3))


def answer_of(call: Callable[[], Any]) -> Any:
    """What the call answers. One that found no next generation to be had was made nowhere, and is made again."""
    for _ in range(1000):
        try:
            return call()
        except OrderFull:
            time.sleep(0)
    return call()


class GoingOn(unittest.TestCase):
    def test_more_changes_than_a_generation_takes_are_all_there(self) -> None:
        with Store(passes=2) as store:
            p, q = store.passes
            a = Matrix.from_lists(p, 3, 3, [0, 1], [1, 2], [5, 6])
            v = p.vector(3)
            fill(v, 3 * ROOM)
            self.assertEqual((v[0], p.generation()), (3 * ROOM - 1, 3))
            self.assertEqual(q.generation(), 0)
            self.assertEqual(a.using(q).to_dict(), {(0, 1): 5, (1, 2): 6})
            self.assertEqual((v.using(q)[0], q.generation()), (3 * ROOM - 1, 3))
            self.assertEqual((a.number, v.number), (0, 0))

    def test_numbers_of_freed_objects_are_not_given_again(self) -> None:
        with Store() as store:
            p = store.main
            kept = p.vector(3)
            fill(kept, ROOM)
            for number in range(1, 2000):
                made = p.vector(3)
                self.assertEqual(made.number, number)
                made.free()
            self.assertEqual((kept[0], p.generation()), (ROOM - 1, 1))

    def test_a_new_generation_knows_no_status_and_nothing_is_settled(self) -> None:
        with Store() as store:
            p = store.main
            v = p.vector(3)
            v.wait("materialize")
            self.assertIsNotNone(v.last_info)
            self.assertEqual(p.facts().settled, 1)
            fill(v, ROOM - 1)
            w = p.vector(3)
            self.assertIsNone(v.last_info)
            self.assertIsNotNone(w.last_info)
            self.assertEqual((p.facts().settled, p.generation()), (0, 1))

    def test_a_generation_has_its_room_beside_what_makes_the_objects(self) -> None:
        with Store() as store:
            p = store.main
            v = p.vector(3)
            fill(v, ROOM - 1)
            self.assertEqual(p.facts().room_left, 0)
            self.assertTrue(p.go_on())
            self.assertFalse(p.go_on())
            self.assertFalse(p.is_full())
            self.assertEqual((p.facts().known, p.facts().room_left), (2, ROOM))

    def test_threads_that_count_miss_nothing(self) -> None:
        requests, workers = 2000, 4
        with Store(passes=workers) as store:
            counts = store.main.vector(workers)

            def serve(own: int) -> None:
                mine = counts.using(store.passes[own])
                for k in range(requests):
                    one = mine.pass_.vector(workers)
                    one[own] = k + 1
                    mine[own] = one[own]

            threads = [threading.Thread(target=serve, args=(own,)) for own in range(workers)]
            for thread in threads:
                thread.start()
            for thread in threads:
                thread.join()
            self.assertEqual(counts.reduce("plus"), workers * requests)
            self.assertGreater(store.main.generation(), 4)

    def test_a_pass_meets_another_one_in_its_later_generation_and_knows_all_that_it_knows(self) -> None:
        for how in "meet", "adopt":
            with self.subTest(how=how), open_small(8, 2) as store:
                ahead, behind = store.passes
                fill(ahead.vector(3), 20)
                self.assertIs(ahead.meet(behind), True)
                self.assertEqual((ahead.generation(), behind.generation()), (2, 0))
                self.assertIs(getattr(behind, how)(ahead), True)
                self.assertEqual((behind.generation(), behind.facts().known), (2, ahead.facts().known))

    def test_passes_meet_in_each_generation(self) -> None:
        with Store(passes=2) as store:
            p, q = store.passes
            v = p.vector(3)
            for _ in range(3):
                fill(v, ROOM // 2)
                q.meet(p)
                p.adopt(q)
                self.assertEqual(v.using(q)[0], ROOM // 2 - 1)

    def test_a_branch_has_what_is_there_and_brings_a_result_back(self) -> None:
        with Store() as store:
            p = store.main
            v, squares = p.vector(3), p.vector(3)
            fill(v, ROOM + 10)
            with p.branch(v, room=10) as apart:
                v[1] = 7
                there = v.using(apart.main)
                self.assertEqual(there.to_dict(), {0: ROOM + 9})
                squares.build_from(there.ewise_mult(there, "times"))
                with self.assertRaisesRegex(InvalidValue, "A store with a room has no generations"):
                    apart.main.generation()
            self.assertEqual(squares.to_dict(), {0: (ROOM + 9) ** 2})


class Numbers(unittest.TestCase):
    """What users see of numbers over generations of six changes, each of which numbers its objects anew."""

    def setUp(self) -> None:
        """Three vectors, of which the second is freed and the others store an entry, in the fifth generation."""
        store = open_small(6)
        self.addCleanup(store.close)
        self.p = store.main
        self.first, self.second, self.third = (self.p.vector(10) for _ in range(3))
        self.assertEqual([v.number for v in (self.first, self.second, self.third)], [0, 1, 2])
        self.third[3] = 7
        self.second.free()
        for k in range(20):
            self.first[3] = k
        # The first generation takes one of the sets, and each later one six.
        self.assertEqual(self.p.generation(), 4)

    def test_objects_keep_their_numbers_and_freed_ones_are_gone(self) -> None:
        self.assertEqual([v.number for v in (self.first, self.second, self.third)], [0, 1, 2])
        self.assertEqual((self.first.to_dict(), self.third.to_dict()), ({3: 19}, {3: 7}))
        for call in self.second.to_dict, self.second.dup, self.second.free, lambda: self.second[3]:
            with self.assertRaises(UninitializedObject):
                call()
        none = Info.UNINITIALIZED_OBJECT
        statuses = [status_of(self.p, number) for number in range(5)]
        self.assertEqual(statuses, [Info.SUCCESS, none, Info.SUCCESS, none, none])
        fourth = self.p.vector(10)
        self.assertEqual((fourth.number, fourth.get(3)), (3, None))
        statuses = [status_of(self.p, number) for number in range(5)]
        self.assertEqual(statuses, [Info.SUCCESS, none, Info.SUCCESS, Info.NO_VALUE, none])

    def test_snapshots_and_branches_go_by_the_numbers_that_users_have(self) -> None:
        with Store(room=10) as other:
            # What is built from an object is a snapshot of it.
            copy = other.main.vector(10)
            copy.build_from(self.third)
            self.assertEqual(copy.to_dict(), {3: 7})
            copy = other.main.vector(10)
            with self.assertRaises(UninitializedObject):
                copy.build_from(self.second)
            self.assertEqual(copy.to_dict(), {})
        with self.p.branch(self.third, self.second, self.first, room=4) as branch:
            third, second, first = (v.using(branch.main) for v in (self.third, self.second, self.first))
            self.assertEqual((third.to_dict(), first.to_dict()), ({3: 7}, {3: 19}))
            with self.assertRaises(UninitializedObject):
                second.to_dict()
        self.assertEqual(self.p.generation(), 4)

    def test_numbers_that_threads_are_given_are_each_given_once(self) -> None:
        workers, each = 8, 40
        with open_small(24, workers + 1) as store:
            idle = store.passes[-1]

            def make(own: int) -> List[Vector]:
                p = store.passes[own]
                made: List[Vector] = []
                begin.wait()
                for k in range(each):
                    made.append(answer_of(lambda: p.vector(each)))
                    answer_of(lambda: made[k].__setitem__(k, own))
                return made

            begin = threading.Barrier(workers)
            with ThreadPoolExecutor(workers) as threads:
                vectors = list(threads.map(make, range(workers)))
            numbers = sorted(v.number for made in vectors for v in made)
            self.assertEqual(numbers, list(range(workers * each)))
            self.assertEqual(idle.generation(), 0)
            for own, made in enumerate(vectors):
                found = [v.using(idle).to_dict() for v in made]
                self.assertEqual(found, [{k: own} for k in range(each)])
            # Two changes for each vector, of which a generation takes 24.
            self.assertEqual(idle.generation(), (2 * workers * each - 1) // 24)
            self.assertEqual(idle.vector(1).number, workers * each)


def left_in_next(v: Vector) -> int:
    """How many more objects there is place for in the next generation, before it takes a call.

    The vector is changed as often as this one takes calls yet.
    """
    p = v.pass_
    fill(v, p.facts().room_left)
    if not p.go_on():
        raise AssertionError("the generation takes calls yet")
    return p.objects_left()


class Places(unittest.TestCase):
    def test_many_objects_are_changed_and_freed_and_the_place_for_more_is_told(self) -> None:
        count = 40_000
        with Store(passes=2) as store:
            p, q = store.passes
            first = p.objects_left()
            vectors = [p.vector(4) for _ in range(count)]
            for k, v in enumerate(vectors):
                v[3] = k
            self.assertEqual(left_in_next(vectors[0]), first - count)
            fill(vectors[0].using(q), 10_000)
            self.assertEqual(vectors[0][0], 9_999)
            self.assertEqual([v[3] for v in vectors], list(range(count)))
            for v in vectors[1::2]:
                v.free()
            self.assertEqual(left_in_next(vectors[0]), first - count // 2)
            self.assertEqual([v.using(q)[3] for v in vectors[::2]], list(range(0, count, 2)))
            with self.assertRaises(UninitializedObject):
                vectors[1].clear()

    def test_where_there_is_no_next_generation_it_says_how_many_calls_the_objects_take(self) -> None:
        def refuse(*arguments: Any) -> Info:
            arguments[1]._obj.value = 7
            return Info.INSUFFICIENT_SPACE

        with Store() as store, mock.patch.object(store.main._library, "trb_chain_go_on", refuse):
            with self.assertRaises(RoomTooSmall) as caught:
                store.main.go_on()
            self.assertEqual(caught.exception.needed, 7)


class Opening(unittest.TestCase):
    def test_each_number_of_passes_opens(self) -> None:
        for passes, room in (1, 4096), (64, 4096), (65, 4032), (MOST_PASSES, 1024):
            with self.subTest(passes=passes), Store(passes=passes) as store:
                self.assertIsNone(store.room)
                self.assertEqual([p.facts().room_left for p in store.passes], [room] * passes)

    def test_ranges_are_refused_outside(self) -> None:
        for passes in 0, -1, MOST_PASSES + 1:
            with self.subTest(passes=passes), self.assertRaisesRegex(InvalidValue, "passes from 1 to 256"):
                Store(passes=passes)

    def test_it_says_what_it_is(self) -> None:
        with Store() as store:
            self.assertEqual(repr(store), "<Store without an end, 1 pass>")

    def test_it_has_no_successor(self) -> None:
        with Store() as store, self.assertRaisesRegex(InvalidValue, "goes on by itself"):
            store.main.succeed()

    def test_a_bounded_store_has_no_generations(self) -> None:
        with Store(room=10) as store:
            for call in store.main.generation, store.main.objects_left, store.main.go_on:
                with self.assertRaisesRegex(InvalidValue, "A store with a room has no generations"):
                    call()

    def test_stores_of_two_sorts_stand_apart(self) -> None:
        with Store() as one, Store(room=10) as other:
            with self.assertRaises(InvalidValue):
                one.main.meet(other.main)

    def test_a_closed_store_says_so(self) -> None:
        store = Store()
        p = store.main
        store.close()
        for call in p.generation, p.objects_left, p.go_on, p.succeed:
            with self.assertRaises(StoreClosed):
                call()


if __name__ == "__main__":
    unittest.main()
