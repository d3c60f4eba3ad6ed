"""Stores, passes and objects end in any order, in this process and in one that is forked from it."""

from __future__ import annotations

import gc
import itertools
import os
import subprocess
import sys
import unittest
import weakref
from pathlib import Path
from typing import Any, Dict, List
from unittest import mock

import trowelheath
from trowelheath import Store, StoreClosed
from trowelheath import store as store_module

SOURCE = Path(trowelheath.__file__).resolve().parent.parent


class Collected(unittest.TestCase):
    def count_ends(self) -> List[int]:
        """A list that gets the number of passes of each store that ends by itself from now on."""
        ends: List[int] = []
        end_all = store_module._end_all

        def counted(library: Any, handles: Any) -> None:
            ends.append(len(handles))
            end_all(library, handles)

        patch = mock.patch.object(store_module, "_end_all", counted)
        patch.start()
        self.addCleanup(patch.stop)
        return ends

    def test_a_store_lives_as_long_as_an_object_of_it(self) -> None:
        ends = self.count_ends()
        v = Store(room=10, passes=3).main.vector(3)
        gc.collect()
        self.assertEqual(ends, [])
        v[0] = 5
        self.assertEqual(v.using(v.store.passes[2])[0], 5)
        del v
        gc.collect()
        self.assertEqual(ends, [3])

    def test_a_store_ends_without_the_collector_of_cycles(self) -> None:
        ends = self.count_ends()
        gc.collect()
        gc.disable()
        self.addCleanup(gc.enable)
        for _ in range(20):
            store = Store(room=10, passes=2)
            a = store.main.matrix(2, 2)
            a[0, 1] = 5
            c = a @ a
            self.assertEqual((c.nvals, a.using(store.passes[1])[0, 1]), (0, 5))
            with self.assertRaises(IndexError):
                a[9, 9]
            with store.main.temporary():
                a.dup()
            repr(store), repr(a), store.main.store, a.store.passes
            del store, a, c
        self.assertEqual(ends, [2] * 20)

    def test_a_successor_ends_so_too(self) -> None:
        ends = self.count_ends()
        gc.collect()
        gc.disable()
        self.addCleanup(gc.enable)
        store = Store(room=10)
        v = store.main.vector(3)
        store = store.main.succeed(10, 3)
        self.assertEqual(ends, [])
        v = v.using(store.main)
        self.assertEqual(ends, [1])
        del store
        self.assertEqual(v.to_dict(), {})
        del v
        self.assertEqual(ends, [1, 3])

    def test_stores_that_are_not_closed_take_no_memory(self) -> None:
        program = (
            "import gc, resource\n"
            "from trowelheath import Store\n"
            "gc.disable()\n"
            "def most(): return resource.getrusage(resource.RUSAGE_SELF).ru_maxrss\n"
            "def use():\n"
            "    v = Store(room=65_536, passes=16).main.vector(3)\n"
            "    v[0] = 1\n"
            "    return v\n"
            "for _ in range(3): use()\n"
            "before = most()\n"
            "for _ in range(100): use()\n"
            "after = most()\n"
            "kept = [use() for _ in range(3)]\n"
            "print(after - before, most() - after)\n"
        )
        ran = subprocess.run(
            [sys.executable, "-c", program],
            env={**os.environ, "PYTHONPATH": str(SOURCE)},
            stdout=subprocess.PIPE,
            check=True,
            timeout=60,
        )
        # Three stores that are kept take more than 12 MB, so 100 would take 400.
        let_go, kept = map(int, ran.stdout.split())
        self.assertLess(let_go, 40_000)
        self.assertGreater(kept, 12_000)

    def test_the_store_of_a_pass_is_one_as_long_as_it_has_a_name(self) -> None:
        store = Store(room=10, passes=2)
        v = store.main.vector(3)
        self.assertIs(v.store, store)
        self.assertIs(v.pass_.store, store)
        p = store.main
        del store
        gc.collect()
        again = v.store
        self.assertIs(again, p.store)
        self.assertIs(again.main, p)
        self.assertEqual((len(again.passes), again.room, again.closed), (2, 10, False))
        again.close()
        with self.assertRaises(StoreClosed):
            v.nvals

    def test_a_closed_store_does_not_end_again(self) -> None:
        ends = self.count_ends()
        with Store(room=10):
            pass
        gc.collect()
        self.assertEqual(ends, [])

    def test_names_may_go_in_any_order(self) -> None:
        for order in itertools.permutations(["store", "p", "q", "a", "v"]):
            store = Store(room=10, passes=2)
            p, q = store.passes
            a, v = p.matrix(2, 2), q.vector(2)
            a[0, 0] = 1
            names: Dict[str, Any] = {"store": store, "p": p, "q": q, "a": a, "v": v}
            gone = weakref.ref(store)
            del store, p, q, a, v
            for name in order:
                del names[name]
                if len(names) == 2:
                    gc.collect()
            gc.collect()
            self.assertIsNone(gone())

    def test_what_is_collected_with_its_store_may_still_make_calls(self) -> None:
        told: List[str] = []

        class Last:
            """It frees a vector when it is collected."""

            def __init__(self, vector: Any) -> None:
                self.vector = vector
                self.myself = self

            def __del__(self) -> None:
                try:
                    self.vector.free()
                    told.append("freed")
                except Exception as fault:
                    told.append(type(fault).__name__)

        last = Last(Store(room=10).main.vector(3))
        del last
        gc.collect()
        # The vector may have been freed by itself just before, as one that has no name. The store is there.
        self.assertIn(told, (["freed"], ["UninitializedObject"]))

    def test_numbers_of_stores_are_never_used_again(self) -> None:
        numbers = [id(number) for number in store_module._numbers]
        for _ in range(5):
            Store(room=1).close()
        gc.collect()
        after = [id(number) for number in store_module._numbers]
        self.assertEqual(after[: len(numbers)], numbers)
        self.assertEqual(len(set(after)), len(numbers) + 5)

    def test_a_process_may_end_with_an_open_store(self) -> None:
        programs = {
            "an open store": "store = Store(); v = store.main.vector(3); v[0] = 1",
            "a cycle": "store = Store(); cycle = [store.main.vector(3)]; cycle.append(cycle)",
            "a thread that goes on": (
                "import threading\n"
                "store = Store(room=65536); v = store.main.vector(3); started = threading.Event()\n"
                "def work():\n"
                "    while True:\n"
                "        v.get(0); started.set()\n"
                "threading.Thread(target=work, daemon=True).start(); started.wait()"
            ),
        }
        for name, program in programs.items():
            with self.subTest(name=name):
                ran = subprocess.run(
                    [sys.executable, "-c", f"from trowelheath import Store\n{program}"],
                    env={**os.environ, "PYTHONPATH": str(SOURCE)},
                    stderr=subprocess.PIPE,
                    timeout=60,
                )
                self.assertEqual((ran.returncode, ran.stderr), (0, b""))


@unittest.skipUnless(hasattr(os, "fork"), "the system has no fork")
class Forked(unittest.TestCase):
    def in_child(self, work: Any) -> int:
        """The exit status of a child that does this work: 0 where it raised nothing."""
        child = os.fork()
        if child == 0:
            try:
                work()
            except BaseException:
                os._exit(1)
            os._exit(0)
        return os.waitstatus_to_exitcode(os.waitpid(child, 0)[1])

    def test_a_store_belongs_to_the_process_that_opened_it(self) -> None:
        with Store(room=10, passes=2) as store:
            v = store.main.vector(3)
            v[0] = 5

            def work() -> None:
                for call in lambda: v[0], store.main.facts, v.free, lambda: store.main.meet(store.passes[1]):
                    with self.assertRaisesRegex(StoreClosed, "forked"):
                        call()
                store.close()
                gc.collect()

            self.assertEqual(self.in_child(work), 0)
            self.assertEqual(v[0], 5)

    def test_a_child_opens_a_store_of_its_own(self) -> None:
        with Store(room=10) as store:
            v = store.main.vector(3)
            v[0] = 5

            def work() -> None:
                with Store(room=10) as own:
                    w = own.main.vector(3)
                    w[0] = 6
                    self.assertEqual(w[0], 6)

            self.assertEqual(self.in_child(work), 0)
            self.assertEqual(v[0], 5)


if __name__ == "__main__":
    unittest.main()
