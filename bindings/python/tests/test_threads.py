"""Threads with a pass each, and threads that share a pass."""

from __future__ import annotations

import threading
import unittest
from concurrent.futures import ThreadPoolExecutor
from typing import Callable, List

from support import StoreCase
from trowelheath import Matrix, Pass, StoreClosed, Vector


def all_at_once(works: List[Callable[[], None]]) -> None:
    """Runs these at the same time, and raises the first exception of one."""
    ready = threading.Barrier(len(works))

    def begin(work: Callable[[], None]) -> None:
        ready.wait()
        work()

    with ThreadPoolExecutor(len(works)) as threads:
        for done in [threads.submit(begin, work) for work in works]:
            done.result()


class Threads(StoreCase):
    passes = 4
    EACH = 200

    def test_nothing_that_threads_store_is_lost(self) -> None:
        v = self.p.vector(self.passes * self.EACH)

        def fill(pass_: Pass) -> Callable[[], None]:
            mine = v.using(pass_)

            def work() -> None:
                for k in range(self.EACH):
                    place = pass_.number * self.EACH + k
                    mine[place] = place
                    self.assertEqual(mine[place], place)
                    self.assertGreaterEqual(len(mine), k + 1)

            return work

        all_at_once([fill(pass_) for pass_ in self.store.passes])
        wanted = {place: place for place in range(self.passes * self.EACH)}
        for pass_ in self.store.passes:
            self.assertEqual(v.using(pass_).to_dict(), wanted)

    def test_entries_that_are_never_there_together_are_never_seen_together(self) -> None:
        v = self.p.vector(2)
        v[0] = 0
        over = threading.Event()

        def change() -> None:
            mine = v.using(self.store.passes[1])
            try:
                for k in range(1, self.EACH):
                    mine[k % 2] = k
            finally:
                over.set()

        def look(pass_: Pass) -> Callable[[], None]:
            mine = v.using(pass_)

            def work() -> None:
                latest = 0
                is_over = False
                while not is_over:
                    is_over = over.is_set()
                    values = list(mine.values())
                    # What is seen are two rounds, one right after the other, or the first one alone.
                    self.assertEqual(max(values) - min(values), len(values) - 1)
                    self.assertGreaterEqual(max(values), latest)
                    latest = max(values)
                self.assertEqual(latest, self.EACH - 1)

            return work

        all_at_once([change, look(self.store.passes[2]), look(self.store.passes[3])])

    def test_a_pass_that_two_threads_share_makes_one_call_at_a_time(self) -> None:
        v = self.p.vector(4 * self.EACH)

        def fill(part: int) -> Callable[[], None]:
            def work() -> None:
                for k in range(self.EACH):
                    v[part * self.EACH + k] = k
                    self.assertEqual(v[part * self.EACH + k], k)

            return work

        all_at_once([fill(part) for part in range(4)])
        self.assertEqual(len(v), 4 * self.EACH)

    def test_passes_that_meet_each_other_do_not_wait_for_ever(self) -> None:
        p, q, r, s = self.store.passes
        v = q.vector(3)
        v[0] = 5
        have_met = threading.Barrier(4)

        def meet(pass_: Pass, other: Pass) -> Callable[[], None]:
            def work() -> None:
                for _ in range(self.EACH):
                    pass_.meet(other)
                    pass_.adopt(other)
                # The first has met the second now, so the third learns both calls of the first.
                have_met.wait(60)
                pass_.meet(other)

            return work

        all_at_once([meet(p, q), meet(q, p), meet(r, p), meet(q, s)])
        # The fourth has met nobody.
        self.assertEqual([pass_.facts().known for pass_ in self.store.passes], [2, 2, 2, 0])
        self.assertEqual([v.using(pass_).to_dict() for pass_ in self.store.passes], [{0: 5}] * 4)

    def test_a_store_may_be_closed_while_threads_use_it(self) -> None:
        v = Vector.from_lists(self.p, 10, range(10), 5)

        def read(mine: Vector) -> Callable[[], None]:
            def work() -> None:
                with self.assertRaises(StoreClosed):
                    while True:
                        self.assertEqual(mine.reduce("plus"), 50)

            return work

        p, q, r, s = self.store.passes
        all_at_once([read(v), read(v.using(q)), read(v.using(q)), read(v.using(r)), self.store.close, self.store.close])
        self.assertTrue(self.store.closed)

    def test_a_pass_goes_from_one_thread_to_another(self) -> None:
        made: List[Matrix] = []
        first = threading.Thread(target=lambda: made.append(Matrix.from_lists(self.p, 2, 2, [0], [1], [5])))
        first.start()
        first.join()
        second = threading.Thread(target=lambda: made[0].__setitem__((1, 1), 6))
        second.start()
        second.join()
        self.assertEqual(made[0].to_dict(), {(0, 1): 5, (1, 1): 6})


if __name__ == "__main__":
    unittest.main()
