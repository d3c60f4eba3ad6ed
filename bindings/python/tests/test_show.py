"""How objects are shown: by `repr`, as tables of notebooks, and as plots."""

from __future__ import annotations

import sys
import threading
import types
import unittest
from typing import Any, Callable, List
from unittest import mock

from support import MOST_NUMBER, StoreCase
from trowelheath import Info, Matrix, OutOfMemory, Store, Vector
from trowelheath import store as store_module

try:
    import scipy
except ImportError:
    scipy = None


class Calls:
    """A library that keeps the names of the functions that are called."""

    def __init__(self, library: Any) -> None:
        self._library = library
        self.names: List[str] = []

    def __getattr__(self, name: str) -> Callable[..., Any]:
        function = getattr(self._library, name)

        def called(*arguments: Any) -> Any:
            self.names.append(name)
            return function(*arguments)

        return called


class Grids(StoreCase):
    def test_a_small_matrix_is_shown_whole(self) -> None:
        a = Matrix.from_lists(self.p, 3, 4, [0, 1, 2], [1, 2, 0], [7, 80, 0])
        self.assertEqual(
            repr(a),
            "<Matrix 3x4 int, 3 entries>\n"
            "  0 1  2 3\n"
            "0 . 7  . .\n"
            "1 . . 80 .\n"
            "2 0 .  . .",
        )
        self.assertEqual((str(a), f"{a}"), (repr(a), repr(a)))

    def test_a_matrix_of_truth_values_is_shown_by_them(self) -> None:
        a = Matrix.from_lists(self.p, 2, 2, [0, 1], [1, 0], [True, False], bool)
        self.assertEqual(
            repr(a),
            "<Matrix 2x2 bool, 2 entries>\n"
            "      0    1\n"
            "0     . True\n"
            "1 False    .",
        )

    def test_a_small_vector_is_a_line_below_its_indices(self) -> None:
        v = Vector.from_lists(self.p, 5, [0, 2, 4], [30, 10, 20])
        self.assertEqual(repr(v), "<Vector 5 int, 3 entries>\n 0 1  2 3  4\n30 . 10 . 20")
        self.assertEqual(repr(self.p.vector(2, bool)), "<Vector 2 bool, 0 entries>\n0 1\n. .")
        self.assertEqual(repr(Vector.from_lists(self.p, 1, [0], [5])), "<Vector 1 int, 1 entry>\n0\n5")

    def test_a_view_is_shown_as_it_is_read(self) -> None:
        a = Matrix.from_lists(self.p, 2, 3, [0, 1], [2, 0], [5, 7])
        self.assertEqual(
            repr(a.T), "<transposed of <Matrix 2x3 int>, 2 entries>\n  0 1\n0 . 7\n1 . .\n2 5 ."
        )

    def test_of_a_large_matrix_the_corner_is_shown(self) -> None:
        a = Matrix.from_lists(self.p, 1000, 17, [0, 3, 8, 999, 999], [7, 2, 0, 0, 16], [1, 2, 3, 4, 5])
        lines = repr(a).split("\n")
        self.assertEqual(lines[:2], ["<Matrix 1000x17 int, 5 entries>", "  0 1 2 3 4 5 6 7 ..."])
        self.assertEqual(lines[2], "0 . . . . . . . 1 ...")
        self.assertEqual(lines[5], "3 . . 2 . . . . . ...")
        self.assertEqual(lines[9:], ["7 . . . . . . . . ...", "..."])
        tall = repr(self.p.matrix(17, 1)).split("\n")
        self.assertEqual((tall[1:3], tall[-1], len(tall)), (["  0", "0 ."], "...", 11))
        self.assertEqual(repr(self.p.matrix(2, 17)).split("\n")[1:], [
            "  0 1 2 3 4 5 6 7 ...", "0 . . . . . . . . ...", "1 . . . . . . . . ...",
        ])

    def test_of_a_large_vector_the_first_places_are_shown(self) -> None:
        v = Vector.from_lists(self.p, 1_000_000, [1, 8, 999_999], [5, 6, 7])
        self.assertEqual(repr(v), "<Vector 1000000 int, 3 entries>\n0 1 2 3 4 5 6 7 ...\n. 5 . . . . . . ...")

    def test_many_entries_are_counted_in_groups_of_digits(self) -> None:
        v = Vector.from_lists(self.p, 2000, range(1500), 1)
        self.assertEqual(repr(v).split("\n")[0], "<Vector 2000 int, 1,500 entries>")

    def test_no_line_is_too_long(self) -> None:
        places = [i for i in range(12) for _ in range(12)], list(range(12)) * 12
        lines = repr(Matrix.from_lists(self.p, 12, 12, *places, MOST_NUMBER)).split("\n")
        self.assertEqual(lines[1].split(), ["0", "1", "2", "..."])
        self.assertEqual(lines[2], f" 0 {MOST_NUMBER} {MOST_NUMBER} {MOST_NUMBER} ...")
        self.assertLessEqual(max(map(len, lines)), 80)
        self.assertEqual(len(lines), 14)


class Reads(StoreCase):
    def test_it_makes_reads_alone(self) -> None:
        a, v = Matrix.from_lists(self.p, 3, 3, [0], [1], [5]), self.p.vector(1000, bool)
        known = self.p.facts().known
        self.p._library = library = Calls(self.p._core.library)
        for item in a, v, a.T:
            repr(item)
            item._repr_html_()
        self.p._library = library._library
        reads = {"size", "nvals", "tuples_uint64", "get_bool"}
        self.assertEqual({name.split("_", 2)[2] for name in library.names}, reads)
        self.assertEqual(self.p.facts().known, known)

    def test_a_large_object_is_not_copied(self) -> None:
        a = Matrix.from_lists(self.p, 100, 100, range(100), range(100), 1)
        self.p._library = library = Calls(self.p._core.library)
        repr(a), a._repr_html_()
        self.p._library = library._library
        self.assertEqual({name.split("_", 2)[2] for name in library.names}, {"size", "nvals", "get_uint64"})

    def test_it_waits_for_nobody(self) -> None:
        a = self.p.matrix(3, 4)
        shown: List[Any] = []
        with self.p._lock:
            thread = threading.Thread(target=lambda: shown.extend([repr(a), a._repr_html_()]), daemon=True)
            thread.start()
            thread.join(10)
        self.assertEqual(shown, ["<Matrix 3x4 int>", None])

    def test_it_evaluates_nothing_that_takes_long(self) -> None:
        a = Matrix.from_lists(self.p, 3, 3, [0, 1, 2], [1, 2, 0], [7, 8, 9])
        with mock.patch.object(store_module, "_LONG", 10):
            c = a @ a
            self.assertEqual((repr(c), c._repr_html_()), ("<Matrix 3x3 int, not evaluated yet>", None))
            self.assertEqual(repr(c.T), "<transposed of <Matrix 3x3 int>, not evaluated yet>")
            c.wait()
            self.assertEqual(repr(c).split("\n")[1:], ["   0  1  2", "0  .  . 56", "1 72  .  .", "2  . 63  ."])

    def test_it_is_the_last_call_on_the_object(self) -> None:
        a = self.p.matrix(3, 4)
        a.get(0, 0)
        self.assertEqual(a.last_info, Info.NO_VALUE)
        repr(a)
        self.assertEqual(a.last_info, Info.SUCCESS)

    def test_it_sees_what_other_passes_do(self) -> None:
        a = self.p.matrix(2, 2)
        b = a.using(self.q)
        b[0, 0] = 5
        self.assertEqual(repr(a), "<Matrix 2x2 int, 1 entry>\n  0 1\n0 5 .\n1 . .")
        b.resize(1, 1)
        self.assertEqual(repr(a), "<Matrix 1x1 int, 1 entry>\n  0\n0 5")

    def test_it_raises_nothing(self) -> None:
        a, freed = self.p.matrix(3, 4), self.p.matrix(3, 4)
        freed.free()
        self.assertIn("GrB_UNINITIALIZED_OBJECT", repr(freed))
        self.assertIsNone(freed._repr_html_())
        by_q = a.using(self.q)
        with mock.patch.object(type(a), "items", side_effect=OutOfMemory()):
            self.assertEqual((repr(a), a._repr_html_()), ("<Matrix 3x4 int>", None))
        with Store(room=10) as other:
            gone = other.main.vector(3)
        self.assertEqual((repr(gone), gone._repr_html_()), ("<Vector 0: the store is closed>", None))
        self.store.close()
        self.assertEqual(repr(by_q.T), "<transposed of <Matrix 0: the store is closed>>")

    def test_a_message_shows_no_entries(self) -> None:
        a, b = self.p.matrix(3, 3), Matrix.from_lists(self.p, 3, 3, [0], [1], [5])
        calls: List[Callable[[], Any]] = [
            lambda: a.__setitem__((0, 0), b),
            lambda: a[b],  # type: ignore[index]
            lambda: a[b, 0],  # type: ignore[index]
            lambda: a.ewise_add("plus", b),  # type: ignore[arg-type]
            lambda: a.ewise_add(a, b),  # type: ignore[arg-type]
            lambda: a.mxm(a, b),  # type: ignore[arg-type]
            lambda: self.p.vector(3, b),
            lambda: self.p.vector(3, bool).__setitem__(0, b),  # type: ignore[arg-type]
        ]
        for place, call in enumerate(calls):
            with self.subTest(place=place), self.assertRaises((TypeError, ValueError)) as caught:
                call()
            self.assertNotIn("\n", str(caught.exception))


class Tables(StoreCase):
    def test_a_small_matrix_is_a_table(self) -> None:
        a = Matrix.from_lists(self.p, 2, 2, [0], [1], [7])
        self.assertEqual(
            a._repr_html_(),
            "<table><caption>&lt;Matrix 2x2 int, 1 entry&gt;</caption>"
            "<thead><tr><th></th><th>0</th><th>1</th></tr></thead><tbody>"
            "<tr><th>0</th><td></td><td>7</td></tr><tr><th>1</th><td></td><td></td></tr></tbody></table>",
        )

    def test_a_vector_is_a_table_of_one_line(self) -> None:
        v = Vector.from_lists(self.p, 2, [1], [True], bool)
        self.assertEqual(
            v._repr_html_(),
            "<table><caption>&lt;Vector 2 bool, 1 entry&gt;</caption>"
            "<thead><tr><th></th><th>0</th><th>1</th></tr></thead>"
            "<tbody><tr><th></th><td></td><td>True</td></tr></tbody></table>",
        )

    def test_a_large_matrix_is_cut(self) -> None:
        table = self.p.matrix(20, 20)._repr_html_() or ""
        self.assertIn("&lt;Matrix 20x20 int, 0 entries&gt;", table)
        # A head and eight rows, each with a mark of more, and a row of it.
        self.assertEqual((table.count("<tr>"), table.count("<th>"), table.count("&hellip;")), (10, 18, 10))


class Axes:
    """What a plot is made on."""

    def __init__(self) -> None:
        self.plotted: List[Any] = []

    def spy(self, *arguments: Any, **options: Any) -> str:
        self.plotted.append((arguments, options))
        return "a plot"


@unittest.skipIf(scipy is None, "there is no scipy")
class Plots(StoreCase):
    def setUp(self) -> None:
        super().setUp()
        self.a = Matrix.from_lists(self.p, 2, 3, [0, 1], [2, 0], [0, 7])

    def test_the_structure_is_plotted_by_matplotlib(self) -> None:
        axes = Axes()
        matplotlib: Any = types.ModuleType("matplotlib")
        matplotlib.pyplot = types.SimpleNamespace(gca=lambda: axes)
        with mock.patch.dict(sys.modules, {"matplotlib": matplotlib, "matplotlib.pyplot": matplotlib.pyplot}):
            self.assertEqual(self.a.spy(markersize=1), "a plot")
        ((entries,), options), = axes.plotted
        self.assertEqual(options, {"precision": "present", "markersize": 1})
        self.assertEqual(entries.shape, (2, 3))
        self.assertEqual(sorted(zip(*map(list, (entries.tocoo().row, entries.tocoo().col)))), [(0, 2), (1, 0)])

    def test_the_axes_may_be_given(self) -> None:
        axes = Axes()
        with mock.patch.dict(sys.modules, {"matplotlib": None}):
            self.assertEqual(self.a.T.spy(axes, precision=0.5), "a plot")
        ((entries,), options), = axes.plotted
        self.assertEqual((entries.toarray().tolist(), options), ([[0, 7], [0, 0], [0, 0]], {"precision": 0.5}))

    def test_what_is_missing_is_named(self) -> None:
        for name, axes in ("matplotlib", None), ("scipy", Axes()):
            with self.subTest(name=name), mock.patch.dict(sys.modules, {name: None}):
                with self.assertRaisesRegex(ImportError, rf"spy\(\) plots by matplotlib.*{name}"):
                    self.a.spy(axes)


if __name__ == "__main__":
    unittest.main()
