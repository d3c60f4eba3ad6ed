"""A signal ends the main thread's wait for a long read, and the read goes on in a helper."""

from __future__ import annotations

import os
import signal
import subprocess
import sys
import threading
import time
import unittest
from pathlib import Path
from typing import Any, Callable, List, Optional, Tuple
from unittest import mock

import trowelheath
from support import StoreCase
from trowelheath import Matrix, Pass, Store, StoreClosed, Vector
from trowelheath import store as store_module

SOURCE = Path(trowelheath.__file__).resolve().parent.parent


# The rows of a full matrix. A list of its entries is short, and its square may take long, where it is long to visit
# more than so many entries.
SIZE = 40
ENTRIES = SIZE * SIZE
LONG = 40_000
ROWS = [i for i in range(SIZE) for _ in range(SIZE)]
COLUMNS = list(range(SIZE)) * SIZE


def full(pass_: Pass) -> Matrix:
    """A full matrix of ones. Its square has the number of rows everywhere."""
    return Matrix.from_lists(pass_, SIZE, SIZE, ROWS, COLUMNS, 1)


class Alarm(Exception):
    """What the handler of the signal raises."""


class Held:
    """A library whose reads of entries return when they are let."""

    def __init__(
        self,
        library: Any,
        reads: Tuple[str, ...] = ("get_uint64", "nvals", "tuples_uint64", "reduce_uint64", "wait", "prepare", "help"),
    ) -> None:
        self._library = library
        self._reads = reads
        self.let = threading.Event()
        # Whether the next read sends the signal when it has begun.
        self.sends = False
        # Which thread made each read: "main" or "other".
        self.threads: List[str] = []

    def __getattr__(self, name: str) -> Any:
        function = getattr(self._library, name)
        if not name.endswith(self._reads):
            return function

        def held(*arguments: Any) -> Any:
            is_main = threading.get_ident() == threading.main_thread().ident
            self.threads.append("main" if is_main else "other")
            if self.sends:
                self.sends = False
                signal.pthread_kill(threading.main_thread().ident or 0, signal.SIGALRM)
            self.let.wait(30)
            return function(*arguments)

        return held


@unittest.skipUnless(hasattr(signal, "setitimer"), "the system has no timers")
class Interrupted(StoreCase):
    def setUp(self) -> None:
        super().setUp()
        patch = mock.patch.object(store_module, "_LONG", LONG)
        patch.start()
        self.addCleanup(patch.stop)
        self.a = full(self.p)
        self.library = Held(self.p._library)
        before = signal.signal(signal.SIGALRM, self.handle)
        self.addCleanup(signal.signal, signal.SIGALRM, before)
        self.addCleanup(signal.setitimer, signal.ITIMER_REAL, 0)
        self.addCleanup(self.library.let.set)

    def handle(self, *arguments: Any) -> None:
        raise Alarm

    def interrupt(self, call: Callable[[], Any], library: Optional[Held] = None) -> None:
        """Makes the call, which a signal ends: once this library has begun a read, or some time later."""
        if library is None:
            signal.setitimer(signal.ITIMER_REAL, 0.1)
        else:
            library.sends = True
        begin = time.monotonic()
        with self.assertRaises(Alarm):
            call()
        self.assertLess(time.monotonic() - begin, 10)

    def test_a_read_after_a_product_is_left_to_a_helper(self) -> None:
        reads: List[Callable[[Matrix], Any]] = [
            lambda c: c[0, 0],
            lambda c: c.get(0, 0),
            lambda c: (0, 0) in c,
            lambda c: c.nvals,
            lambda c: c.reduce("plus"),
            lambda c: c.wait(),
            lambda c: self.p.prepare(),
            lambda c: self.p.help(),
        ]
        for place, read in enumerate(reads):
            with self.subTest(place=place):
                c = self.a @ self.a
                library = Held(self.p._core.library)
                self.p._library = library
                self.interrupt(lambda: read(c), library)
                self.assertEqual(library.threads, ["other"])
                library.let.set()
                self.p._library = self.p._core.library
                # The call that was left ends, and the pass is as good as before.
                self.assertEqual(c.to_lists(), (ROWS, COLUMNS, [SIZE] * ENTRIES))

    def test_memory_that_a_read_writes_lives_as_long(self) -> None:
        a, b = self.a, self.a.using(self.q)

        class Between(Held):
            """The entries are counted, another pass squares the matrix, and the reading of the entries is held."""

            def __getattr__(self, name: str) -> Any:
                function = super().__getattr__(name)
                if not name.endswith("nvals"):
                    return function

                def counted(*arguments: Any) -> Any:
                    status = function(*arguments)
                    b.mxm(b, out=b)
                    return status

                return counted

        library = Between(self.p._core.library, ("tuples_uint64",))
        self.addCleanup(library.let.set)
        self.p._library = library
        self.interrupt(a.to_lists, library)
        self.assertEqual(library.threads, ["other"])
        filled = [[7] * ENTRIES for _ in range(50)]
        library.let.set()
        self.p._library = self.p._core.library
        self.assertEqual(a.to_lists(), (ROWS, COLUMNS, [SIZE] * ENTRIES))
        self.assertEqual(filled, [[7] * ENTRIES] * 50)

    def test_a_pass_in_use_is_waited_for_and_the_wait_ends_too(self) -> None:
        c = self.a @ self.a
        self.p._library = self.library
        self.interrupt(lambda: c.nvals, self.library)
        self.interrupt(lambda: c.nvals)
        self.interrupt(lambda: self.a.__setitem__((0, 0), 7))
        self.assertEqual(self.a.using(self.q)[0, 0], 1)
        self.library.let.set()
        self.a[0, 0] = 5
        self.assertEqual(self.a[0, 0], 5)

    def test_another_pass_goes_on(self) -> None:
        c = self.a @ self.a
        self.p._library = self.library
        self.interrupt(lambda: c.nvals, self.library)
        self.assertEqual(c.using(self.q)[0, 0], SIZE)

    def test_another_pass_tells_how_far_the_read_is(self) -> None:
        side = 128
        rows, columns = [i for i in range(side) for _ in range(side)], list(range(side)) * side
        a = Matrix.from_lists(self.p, side, side, rows, columns, 1)
        c = a @ a
        self.p._library = self.library
        self.interrupt(lambda: c.nvals, self.library)
        self.assertEqual(self.q.blocks(), 0)
        self.library.let.set()
        self.p._library = self.p._core.library
        self.assertEqual(c.nvals, side * side)
        self.assertGreater(self.q.blocks(), 0)

    def test_a_store_is_closed_without_waiting(self) -> None:
        ended = threading.Event()

        class Ending(Held):
            def __getattr__(self, name: str) -> Any:
                function = super().__getattr__(name)
                if name != "trb_free":
                    return function

                def free(*arguments: Any) -> None:
                    function(*arguments)
                    ended.set()

                return free

        store = Store(room=10)
        a = full(store.main)
        c = a @ a
        library = Ending(store.main._library)
        store.main._library = library
        with self.assertRaises(Alarm), store:
            self.interrupt(lambda: c.nvals, library)
            raise Alarm
        self.assertTrue(store.closed)
        self.assertFalse(ended.is_set())
        with self.assertRaises(StoreClosed):
            a[0, 0]
        library.let.set()
        self.assertTrue(ended.wait(30))

    def test_a_read_that_is_not_long_is_made_at_once(self) -> None:
        v = self.p.vector(3)
        v[0] = 1
        self.library.let.set()
        self.p._library = self.library
        self.assertEqual((v[0], v.nvals, self.a[0, 1]), (1, 1, 1))
        self.assertEqual(set(self.library.threads), {"main"})
        c, d = self.a @ self.a, self.a @ self.a
        self.library.threads.clear()
        counts = v.nvals, c.nvals, c.nvals, c.using(self.p).nvals, v.nvals
        self.assertEqual(counts, (1, ENTRIES, ENTRIES, ENTRIES, 1))
        self.assertEqual(self.library.threads, ["main", "other", "main", "main", "main"])
        # What was read of one object is not evaluated of another one.
        self.library.threads.clear()
        self.assertEqual((d.nvals, d[0, 0], d.dup().nvals), (ENTRIES, SIZE, ENTRIES))
        self.assertEqual(self.library.threads, ["other", "main", "other"])

    def test_short_reads_add_up_to_a_long_one(self) -> None:
        v = Vector.from_lists(self.p, SIZE, range(SIZE), 1)
        self.library.let.set()
        self.p._library = self.library
        for _ in range(5):
            v.ewise_add(v, "plus", out=v)
        self.assertEqual(v[0], 32)
        for _ in range(400):
            v.ewise_add(v, "max", out=v)
        self.assertEqual((v[0], v[1]), (32, 32))
        self.assertEqual(self.library.threads, ["main", "other", "main"])

    def test_what_an_input_has_to_evaluate_counts(self) -> None:
        c, v = self.a @ self.a, Vector.from_lists(self.p, SIZE, [0], 1)
        d = self.p.matrix(1, 1)
        self.library.let.set()
        self.p._library = self.library
        self.assertEqual((v.nvals, d.nvals), (1, 0))
        self.assertEqual((c @ v)[0], SIZE)
        self.assertEqual(self.library.threads, ["main", "main", "other"])

    def test_what_is_evaluated_for_another_object_is_not_counted_again(self) -> None:
        c, v = self.a @ self.a, Vector.from_lists(self.p, SIZE, [0], 1)
        self.library.let.set()
        self.p._library = self.library
        w = c @ v
        for _ in range(5):
            self.assertEqual(w[0], SIZE)
            # It is read by way of w alone.
            v.ewise_add(w, "first", out=v)
            v.ewise_add(w, "max", out=w)
        self.assertEqual((c @ v)[0], SIZE * (1 + SIZE * (SIZE - 1)))
        self.assertEqual(self.library.threads, ["other"] + ["main"] * 5)
        self.assertEqual(c[0, 0], SIZE)
        self.assertEqual(self.library.threads[6:], ["main"])

    def test_small_products_are_short(self) -> None:
        a = Matrix.from_lists(self.p, 3, 3, [0, 1, 2], [1, 2, 0], 1)
        self.library.let.set()
        self.p._library = self.library
        for _ in range(100):
            a = a @ a
            self.assertEqual(a.nvals, 3)
        self.assertEqual(set(self.library.threads), {"main"})

    def test_a_kronecker_product_is_as_long_as_what_it_makes(self) -> None:
        row = Matrix.from_lists(self.p, 1, 300, [0] * 300, range(300), 1)
        self.library.let.set()
        self.p._library = self.library
        self.assertEqual((row.nvals, row.select("triu").nvals, row.apply("ainv").nvals), (300, 300, 300))
        self.assertEqual(row.kronecker(row).nvals, 90_000)
        self.assertEqual(self.library.threads, ["main", "main", "main", "other"])

    def test_other_threads_read_for_themselves(self) -> None:
        c = self.a @ self.a
        self.library.let.set()
        self.p._library = self.library
        made_by: List[int] = []

        def read() -> None:
            c.nvals
            made_by.append(threading.active_count())

        before = threading.active_count()
        thread = threading.Thread(target=read)
        thread.start()
        thread.join()
        self.assertEqual((self.library.threads, made_by), (["other"], [before + 1]))

    def test_a_fault_comes_through(self) -> None:
        c = self.a @ self.a
        self.store.close()
        with self.assertRaises(StoreClosed):
            c.nvals
        with Store(room=10) as store:
            b = full(store.main)
            d = b @ b
            d.free()
            with self.assertRaises(trowelheath.UninitializedObject):
                d.nvals

    def test_a_process_ends_while_a_helper_reads(self) -> None:
        program = (
            "import os, signal, sys, threading, time\n"
            "from trowelheath import Matrix, Store, store as store_module\n"
            # A shell that starts a job in the background has it ignore the signal.
            "signal.signal(signal.SIGINT, signal.default_int_handler)\n"
            "store = Store(); p = store.main\n"
            "a = Matrix.from_lists(p, 2, 2, [0, 1], [1, 0], [2, 3])\n"
            "store_module._LONG = 1\n"
            "c = a @ a\n"
            "library = p._library\n"
            "class Slow:\n"
            "    def __getattr__(self, name):\n"
            "        function = getattr(library, name)\n"
            "        if not name.endswith('nvals'): return function\n"
            "        return lambda *arguments: (time.sleep(30), function(*arguments))[1]\n"
            "p._library = Slow()\n"
            "threading.Timer(0.3, os.kill, [os.getpid(), signal.SIGINT]).start()\n"
            "try:\n"
            "    with store: len(c)\n"
            "except KeyboardInterrupt:\n"
            "    print('interrupted')\n"
        )
        begin = time.monotonic()
        ran = subprocess.run(
            [sys.executable, "-c", program],
            env={**os.environ, "PYTHONPATH": str(SOURCE)},
            stdout=subprocess.PIPE,
            stderr=subprocess.PIPE,
            timeout=60,
        )
        self.assertEqual((ran.returncode, ran.stdout, ran.stderr), (0, b"interrupted\n", b""))
        self.assertLess(time.monotonic() - begin, 20)

    @unittest.skipUnless(hasattr(os, "fork"), "the system has no fork")
    def test_a_child_has_helpers_of_its_own(self) -> None:
        c = self.a @ self.a
        self.assertEqual(c.nvals, ENTRIES)
        child = os.fork()
        if child == 0:
            try:
                with Store(room=10) as store:
                    b = full(store.main)
                    os._exit(0 if (b @ b).nvals == ENTRIES else 1)
            except BaseException:
                os._exit(1)
        self.assertEqual(os.waitstatus_to_exitcode(os.waitpid(child, 0)[1]), 0)


if __name__ == "__main__":
    unittest.main()
