"""Passes and threads that help with dear products."""

from __future__ import annotations

import gc
import os
import threading
import time
import unittest
from concurrent.futures import ThreadPoolExecutor
from contextlib import contextmanager
from typing import Any, Callable, Dict, Iterator, List, NamedTuple, Optional, Tuple
from unittest import mock

from support import Draws, StoreCase
from trowelheath import InvalidValue, Matrix, Pass, Store, StoreClosed, _helping
from trowelheath import store as store_module

SIDE = 128
ROWS = [i for i in range(SIDE) for _ in range(SIDE)]
COLUMNS = list(range(SIDE)) * SIDE


def full(pass_: Pass) -> Matrix:
    """A full matrix of ones. Its square has the number of rows everywhere, and is dear."""
    return Matrix.from_lists(pass_, SIDE, SIDE, ROWS, COLUMNS, 1)


def everywhere(i: int, j: int) -> bool:
    """Each place stores an entry."""
    return True


def below(i: int, j: int) -> bool:
    """The places below the diagonal do."""
    return j < i


def one(i: int) -> int:
    """The same value in each row."""
    return 1


def parity(i: int) -> int:
    """1 in odd rows, and 0 in even ones."""
    return i % 2


def matrix_of(
    p: Pass, side: int, where: Callable[[int, int], bool], number: Callable[[int], int], dtype: type = int
) -> Matrix:
    """A square matrix with these entries."""
    places = [(i, j) for i in range(side) for j in range(side) if where(i, j)]
    rows, columns = [i for i, _ in places], [j for _, j in places]
    return Matrix.from_lists(p, side, side, rows, columns, [dtype(number(i)) for i in rows], dtype)


@contextmanager
def helping(*passes: Pass) -> Iterator[List[int]]:
    """Has a thread help by each of these passes, to the end of the block; and how many blocks each has made."""
    over = threading.Event()
    made = [0] * len(passes)

    def help_by(at: int) -> None:
        blocks = 0
        while not over.wait(0 if blocks else 0.0005):
            blocks = passes[at].help()
            made[at] += blocks

    with ThreadPoolExecutor(len(passes)) as threads:
        helpers = [threads.submit(help_by, at) for at in range(len(passes))]
        try:
            yield made
        finally:
            over.set()
    for helper in helpers:
        helper.result()


def threads_that_help() -> int:
    """How many there are."""
    return sum(thread.name.startswith("helper ") for thread in threading.enumerate())


class Helped(unittest.TestCase):
    def wait_until(self, holds: Callable[[], bool]) -> None:
        """Waits until this holds, which is soon."""
        end = time.monotonic() + 30
        while not holds():
            self.assertLess(time.monotonic(), end)
            time.sleep(0.001)


class Passes(StoreCase):
    def test_there_is_nothing_to_help_with(self) -> None:
        self.assertEqual((self.q.help(), self.q.blocks()), (0, 0))
        a = Matrix.from_lists(self.p, 2, 2, [0, 1], [1, 0], [2, 3])
        self.assertEqual((a @ a).to_dict(), {(0, 0): 6, (1, 1): 6})
        self.assertEqual((self.q.help(), self.q.blocks()), (0, 0))

    def test_what_is_not_dear_is_made_by_no_blocks(self) -> None:
        # Two full matrices of 96 rows have 884,736 products of entries, and of 104 rows 1,124,864: 2^20 lies between.
        for side, is_dear in (64, False), (96, False), (104, True):
            with self.subTest(side=side), Store(room=16, passes=2) as store:
                p, q = store.passes
                self.assertEqual(q.help(), 0)
                a = matrix_of(p, side, everywhere, one)
                square = a @ a
                self.assertEqual((square.reduce("min"), square.reduce("max"), len(square)), (side, side, side * side))
                self.assertEqual((q.help(), q.blocks() > 0, q.facts().known), (0, is_dear, 0))

    def test_a_dear_product_is_made_by_blocks(self) -> None:
        a = full(self.p)
        self.assertEqual((a @ a).to_lists(), (ROWS, COLUMNS, [SIDE] * (SIDE * SIDE)))
        blocks = self.p.blocks()
        self.assertGreater(blocks, 0)
        self.assertEqual(self.q.blocks(), blocks)

    def test_another_pass_tells_how_far_a_long_read_is(self) -> None:
        a = matrix_of(self.p, 256, everywhere, one)
        # Some products, since who asks may get no turn while one is made.
        for _ in range(10):
            product = a @ a
            told = [self.q.blocks()]
            with ThreadPoolExecutor(1) as threads:
                reading = threads.submit(lambda: product.nvals)
                while not reading.done():
                    told.append(self.q.blocks())
                    time.sleep(0.0005)
                self.assertEqual(reading.result(), 256 * 256)
            told.append(self.q.blocks())
            self.assertEqual(told, sorted(told))
            if len(set(told)) > 2:
                return
        self.fail(f"nothing was told between begin and end: {told}")

    def test_a_pass_that_is_alone_makes_none(self) -> None:
        with Store(room=100) as store:
            a = full(store.main)
            self.assertEqual((a @ a).reduce("min"), SIDE)
            self.assertEqual((store.main.help(), store.main.blocks()), (0, 0))

    def test_a_pass_that_helps_learns_nothing(self) -> None:
        full(self.p)
        known = self.q.facts().known
        self.q.help()
        self.assertEqual(self.q.facts().known, known)


class Product(NamedTuple):
    """A dear product, written into an output, and what that then stores by hand."""

    name: str
    stores: Callable[[int, int, int], Optional[int]]
    """The value at row i and column j, where there are n rows; none where nothing is stored."""
    inputs: Tuple[str, str] = ("all", "all")
    semiring: str = "plus.times"
    mask: Optional[str] = None
    old: Optional[str] = None
    """Of which matrix the output is a copy; of none it is empty."""
    how: Dict[str, Any] = {}
    is_again: bool = False
    """Whether a product before is the same, written otherwise: then all of it may be there."""


# The least product, of a full matrix and one that is full below the diagonal, has 136 * 136 * 135 / 2 = 1,248,480
# products of entries, which is more than 2^20.
DEAR = 136

# The product of the graph's matrix and itself has one of entries for each triangle: 200 * 199 * 198 / 6 = 1,313,400.
VERTICES = 200

# The matrices: their rows, where they store entries, and which.
MATRICES: Dict[str, Tuple[int, type, Callable[[int, int], bool], Callable[[int], int]]] = {
    "all": (DEAR, int, everywhere, one),
    "below": (DEAR, int, below, one),
    "odd": (DEAR, int, everywhere, parity),
    "graph": (VERTICES, int, below, one),
    "all true": (DEAR, bool, everywhere, one),
    "true below": (DEAR, bool, below, one),
}

STRUCTURE = {"structure": True}

PRODUCTS = [
    # Each row of the first has n ones.
    Product("all by all", lambda n, i, j: n),
    # Row i of the first has i ones.
    Product("below the diagonal by all", lambda n, i, j: i or None, ("below", "all")),
    # Column i of the first has n - 1 - i ones.
    Product(
        "the first is read transposed", lambda n, i, j: n - 1 - i or None, ("below", "all"), how={"transpose": True}
    ),
    # Row j of the second has j ones.
    Product(
        "the second is read transposed", lambda n, i, j: j or None, ("all", "below"), how={"transpose_second": True}
    ),
    # So many vertices are between two.
    Product(
        "both are read transposed",
        lambda n, i, j: max(j - i - 1, 0) or None,
        ("graph", "graph"),
        how={"transpose": True, "transpose_second": True},
    ),
    Product("triangles", lambda n, i, j: max(i - j - 1, 0) or None, ("graph", "graph"), mask="graph", how=STRUCTURE),
    Product("inside a structure", lambda n, i, j: n if j < i else None, mask="below", how=STRUCTURE),
    Product(
        "outside a structure",
        lambda n, i, j: n if j >= i else None,
        mask="below",
        how={**STRUCTURE, "complement": True},
        is_again=True,
    ),
    Product("where a value is true", lambda n, i, j: n if i % 2 else None, mask="odd"),
    Product(
        "where no value is true, and the rest is kept",
        lambda n, i, j: (1 if j < i else None) if i % 2 else n,
        mask="odd",
        old="below",
        how={"complement": True},
        is_again=True,
    ),
    Product(
        "where a value is true, and the rest is dropped",
        lambda n, i, j: n if i % 2 else None,
        mask="odd",
        old="below",
        how={"replace": True},
        is_again=True,
    ),
    Product(
        "added to what was stored",
        lambda n, i, j: n + 1 if j < i else n,
        old="below",
        how={"accum": "plus"},
        is_again=True,
    ),
    Product(
        "added inside a structure",
        lambda n, i, j: n + 1 if j < i else None,
        mask="below",
        old="below",
        how={**STRUCTURE, "accum": "plus"},
        is_again=True,
    ),
    # The least sum of a one and a one.
    Product("the least sums", lambda n, i, j: 2 if i else None, ("below", "all"), "min.plus"),
    Product("truths by or", lambda n, i, j: 1 if i else None, ("true below", "all true"), "lor.land"),
    # An odd number of truths is true.
    Product("truths by exclusive or", lambda n, i, j: i % 2 if i else None, ("true below", "all true"), "lxor.land"),
]


class Products(unittest.TestCase):
    """Dear products with masks, accumulators and descriptors, of both domains."""

    wanted: List[Tuple[List[int], List[int], List[int]]]

    @classmethod
    def setUpClass(cls) -> None:
        cls.wanted = []
        for product in PRODUCTS:
            n = MATRICES[product.inputs[0]][0]
            entries = [(i, j, product.stores(n, i, j)) for i in range(n) for j in range(n)]
            rows, columns, values = zip(*(entry for entry in entries if entry[2] is not None))
            cls.wanted.append((list(rows), list(columns), list(values)))

    def blocks_of_all(self, p: Pass) -> List[int]:
        """Makes all products and reads each; and how many blocks the store had made after each."""
        matrices = {
            name: matrix_of(p, side, where, number, dtype) for name, (side, dtype, where, number) in MATRICES.items()
        }
        blocks = []
        for product, wanted in zip(PRODUCTS, self.wanted):
            first, second = (matrices[name] for name in product.inputs)
            out = p.matrix(*first.shape, first.dtype) if product.old is None else matrices[product.old].dup()
            mask = None if product.mask is None else matrices[product.mask]
            first.mxm(second, product.semiring, mask=mask, out=out, **product.how)
            # Assertions that tell how two long lists differ are slow.
            self.assertTrue(out.to_lists() == wanted, product.name)
            blocks.append(p.blocks())
        return blocks

    def test_a_pass_alone_makes_no_blocks(self) -> None:
        with Store(room=256) as store:
            self.assertEqual(self.blocks_of_all(store.main), [0] * len(PRODUCTS))
            self.assertEqual(store.main.help(), 0)

    def test_dear_products_are_the_same_while_another_pass_helps(self) -> None:
        with Store(room=256, passes=2) as store:
            blocks = self.blocks_of_all(store.main)
            self.assertEqual(store.passes[1].help(), 0)
        made = [after - before for before, after in zip([0, *blocks], blocks)]
        for product, count in zip(PRODUCTS, made):
            self.assertGreater(count, 0, product.name)
        least = sum(count for product, count in zip(PRODUCTS, made) if not product.is_again)
        for _ in range(50):
            with Store(room=256, passes=2) as store:
                p, q = store.passes
                with helping(q) as helped:
                    blocks = self.blocks_of_all(p)
                # Each of the two makes a block of a product once at the most.
                self.assertGreaterEqual(blocks[-1], least)
                self.assertLessEqual(blocks[-1], 2 * sum(made))
                self.assertLessEqual(helped[0], sum(made))
                self.assertEqual(q.facts().known, 0)
            if helped[0] > 0:
                return
        self.fail("no block was made by who helps")


MONOIDS = {int: ("plus", "times", "min", "max"), bool: ("lor", "land", "lxor", "lxnor")}
OPERATORS = {int: (*MONOIDS[int], "minus", "first", "second"), bool: (*MONOIDS[bool], "first_bool", "second_bool")}


class Drawn(unittest.TestCase):
    """Drawn products and sets of one pass while others help, next to a pass alone, which makes no blocks."""

    FEWEST, MOST = 60, 110

    # Two full matrices have 104 * 104 * 104 = 1,124,864 products of entries, which is more than 2^20.
    SIDE = 104

    def matrices(self, p: Pass) -> Dict[type, List[Matrix]]:
        """For each domain two inputs, a mask, and an output."""
        return {
            dtype: [
                matrix_of(p, self.SIDE, everywhere, one, dtype),
                matrix_of(p, self.SIDE, everywhere, parity, dtype),
                matrix_of(p, self.SIDE, below, parity, dtype),
                p.matrix(self.SIDE, self.SIDE, dtype),
            ]
            for dtype in (int, bool)
        }

    def draw(self, draws: Draws) -> Callable[[Dict[type, List[Matrix]]], Any]:
        """Draws a set and a product of one domain. What makes the two, and reads the output."""

        def truth() -> bool:
            return draws.below(2) == 1

        dtype = bool if truth() else int
        operators = OPERATORS[dtype]
        changed, i, j = draws.below(4), draws.below(self.SIDE), draws.below(self.SIDE)
        # Among the numbers are small ones and the two largest.
        value = truth() if dtype is bool else (draws.below(6) - 2) % 2**64
        semiring = f"{MONOIDS[dtype][draws.below(4)]}.{operators[draws.below(42) % len(operators)]}"
        accum = None if truth() else operators[draws.below(42) % len(operators)]
        names = "structure", "complement", "replace", "transpose", "transpose_second"
        how = {name: truth() for name in names}
        # The mask may be any of the eight matrices.
        mask = draws.below(8)
        is_masked = truth()
        first, second = draws.below(2), draws.below(2)

        def make(matrices: Dict[type, List[Matrix]]) -> Any:
            mine = matrices[dtype]
            mine[changed][i, j] = value
            among = [*matrices[int], *matrices[bool]][mask] if is_masked else None
            return mine[first].mxm(mine[second], semiring, mask=among, accum=accum, out=mine[3], **how).to_lists()

        return make

    def test_drawn_products_are_those_of_a_pass_alone_while_two_passes_help(self) -> None:
        draws = Draws(73)
        with Store(room=256, passes=3) as store, Store(room=256) as plain:
            matrices, alone = self.matrices(store.main), self.matrices(plain.main)
            with helping(*store.passes[1:]) as helped:
                for turn in range(self.MOST):
                    if turn >= self.FEWEST and sum(helped) > 0:
                        break
                    make = self.draw(draws)
                    self.assertTrue(make(matrices) == make(alone), turn)
            self.assertGreater(sum(helped), 0)
            self.assertLessEqual(sum(helped), store.main.blocks())
            self.assertEqual(plain.main.blocks(), 0)


class Threads(Helped):
    def test_products_are_right_while_threads_help(self) -> None:
        for room in None, 1000:
            with self.subTest(room=room), Store(room, helpers=3) as store:
                a = full(store.main)
                for _ in range(5):
                    self.assertEqual((a @ a).to_lists(), (ROWS, COLUMNS, [SIDE] * (SIDE * SIDE)))
                self.assertGreater(store.main.blocks(), 0)

    def test_their_passes_are_not_handed_out(self) -> None:
        with Store(passes=2, helpers=3) as store:
            self.assertEqual(([p.number for p in store.passes], store.helpers), ([0, 1], 3))
            self.assertEqual(repr(store), "<Store without an end, 2 passes, 3 helpers>")
            self.assertEqual(threads_that_help(), 3)
        with Store(room=10) as store:
            self.assertEqual((store.helpers, threads_that_help()), (0, 0))
            self.assertEqual(repr(store), "<Store of room 10, 1 pass>")

    def test_a_branch_and_a_successor_may_have_them(self) -> None:
        with Store(room=100) as store:
            a = full(store.main)
            with store.main.branch(a, helpers=2) as branch, store.main.succeed(helpers=1, passes=2) as successor:
                self.assertEqual((store.helpers, branch.helpers, successor.helpers), (0, 2, 1))
                self.assertEqual((len(branch.passes), len(successor.passes)), (1, 2))
                self.assertEqual(threads_that_help(), 3)
                for other in branch, successor:
                    b = a.using(other.main)
                    self.assertEqual((b @ b).reduce("min"), SIDE)
                    self.assertGreater(other.main.blocks(), 0)
            self.assertEqual(threads_that_help(), 0)
            for opens in store.main.branch, store.main.succeed:
                with self.assertRaisesRegex(InvalidValue, "a room of 4,096 and 1 passes, and 256 helpers"):
                    opens(helpers=256)

    def test_they_end_with_the_store(self) -> None:
        store = Store(helpers=2)
        store.close()
        self.assertEqual(threads_that_help(), 0)
        store.close()
        with self.assertRaises(StoreClosed):
            store.main.help()
        with self.assertRaises(StoreClosed):
            store.main.blocks()

    def test_they_end_with_a_store_that_nothing_refers_to(self) -> None:
        store = Store(room=10, passes=2, helpers=2)
        handles = store._core.handles
        del store
        gc.collect()
        self.wait_until(lambda: threads_that_help() == 0)
        self.assertFalse(any(handle.is_open for handle in handles))

    def test_where_one_does_not_start_nothing_is_left(self) -> None:
        start = threading.Thread.start

        def starts(thread: threading.Thread) -> None:
            if thread.name == "helper 3":
                raise RuntimeError("can't start new thread")
            start(thread)

        with mock.patch.object(threading.Thread, "start", starts), self.assertRaisesRegex(RuntimeError, "new thread"):
            Store(helpers=3)
        self.assertEqual(threads_that_help(), 0)

    def test_they_count_as_passes(self) -> None:
        for room, passes, helpers in (10, 1, -1), (10, 1, 256), (10, 256, 1), (65_536, 8, 9), (None, 200, 57):
            with self.subTest(room=room, passes=passes, helpers=helpers), self.assertRaises(InvalidValue):
                Store(room, passes, helpers)
        with self.assertRaisesRegex(InvalidValue, "a room of 10 and 1 passes, and 256 helpers, were asked for"):
            Store(10, 1, 256)
        with self.assertRaises(TypeError):
            Store(helpers=1.5)  # type: ignore[arg-type]

    def test_who_helps_goes_to_the_latest_generation(self) -> None:
        with Store(passes=2) as store:
            p, q = store.passes
            v = p.vector(1)
            for k in range(store_module._default_room(2) + 1):
                v[0] = k
            self.assertEqual((p.generation(), q.generation()), (1, 0))
            _helping._follow(store._core.library, q._handle)
            self.assertEqual(q.generation(), 1)

    @unittest.skipUnless(hasattr(os, "fork"), "the system has no fork")
    def test_they_are_not_in_a_process_that_was_forked(self) -> None:
        with Store(helpers=2) as store:
            child = os.fork()
            if child == 0:
                status = 1
                try:
                    store.main.help()
                except StoreClosed:
                    store.close()
                    status = threads_that_help()
                finally:
                    os._exit(status)
            self.assertEqual(os.waitpid(child, 0)[1], 0)
            a = full(store.main)
            self.assertEqual((a @ a).reduce("max"), SIDE)


if __name__ == "__main__":
    unittest.main()
