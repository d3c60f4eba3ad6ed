"""What runs through an object: its places, its values or both, by name, and nothing by itself."""

from __future__ import annotations

import collections
import unittest
from typing import Any, Callable, Dict

from optional import networkx, numpy
from support import StoreCase
from trowelheath import Matrix, Vector


class Sample(StoreCase):
    """v is {0: 30, 2: 10, 4: 20} of size 5, and A is {(0, 1): 7, (1, 2): 8, (2, 0): 9}."""

    def setUp(self) -> None:
        super().setUp()
        self.v = Vector.from_lists(self.p, 5, [0, 2, 4], [30, 10, 20])
        self.a = Matrix.from_lists(self.p, 3, 3, [0, 1, 2], [1, 2, 0], [7, 8, 9])


class Iteration(Sample):
    def test_what_runs_through_an_object_is_told_to_name_what(self) -> None:
        calls: Dict[str, Callable[[Any], Any]] = {
            "sum": sum,
            "min": min,
            "max": max,
            "sorted": sorted,
            "list": list,
            "tuple": tuple,
            "set": set,
            "any": any,
            "all": all,
            "iter": iter,
            "enumerate": enumerate,
            "unpacked": lambda item: [*item],
            "a loop": lambda item: [x for x in item],
            "Counter.update": lambda item: collections.Counter(item),
        }
        for name, call in calls.items():
            for item, letter in (self.v, "v"), (self.a, "A"), (self.a.T, "A.T"):
                if name == "Counter.update" and item is not self.v:
                    continue
                message = rf"values\(\).*keys\(\).*items\(\).*sum\({letter}.values\(\)\)"
                with self.subTest(name=name, letter=letter), self.assertRaisesRegex(TypeError, message):
                    call(item)

    def test_what_is_named_is_run_through(self) -> None:
        v, a = self.v, self.a
        self.assertEqual((sum(v.values()), min(v.values()), max(v.values())), (60, 10, 30))
        self.assertEqual((sorted(v.values()), sorted(v.keys())), ([10, 20, 30], [0, 2, 4]))
        self.assertEqual(list(v.items()), [(0, 30), (2, 10), (4, 20)])
        self.assertEqual((sum(a.values()), list(a.keys())), (24, [(0, 1), (1, 2), (2, 0)]))
        self.assertEqual((dict(v), dict(a)), ({0: 30, 2: 10, 4: 20}, {(0, 1): 7, (1, 2): 8, (2, 0): 9}))
        self.assertEqual((len(v), 2 in v, 1 in v, bool(v)), (3, True, False, True))

    def test_what_turns_an_object_round_is_told_to_name_what(self) -> None:
        for item, letter in (self.v, "v"), (self.a, "A"), (self.a.T, "A.T"):
            message = rf"reversed\(list\({letter}.keys\(\)\)\)"
            with self.subTest(letter=letter), self.assertRaisesRegex(TypeError, message):
                reversed(item)  # type: ignore[call-overload]
        self.assertEqual(list(reversed(list(self.v.keys()))), [4, 2, 0])

    @unittest.skipIf(numpy is None, "there is no numpy")
    def test_numpy_is_told_too(self) -> None:
        v = self.v
        with self.assertRaisesRegex(TypeError, r"values\(\) has its values"):
            numpy.fromiter(v, int)
        self.assertEqual(numpy.fromiter(v.values(), int).tolist(), [30, 10, 20])

    @unittest.skipIf(networkx is None, "there is no networkx")
    def test_networkx_makes_no_graph_of_places(self) -> None:
        for kind in networkx.Graph, networkx.DiGraph, networkx.MultiDiGraph:
            for item, letter in (self.a, "A"), (self.a.T, "A.T"):
                message = rf"write {letter}.to_networkx\(\)$"
                with self.subTest(kind=kind), self.assertRaisesRegex(TypeError, message):
                    kind(item)
        with self.assertRaises(networkx.NetworkXError) as caught:
            networkx.Graph(self.v)
        self.assertIsInstance(caught.exception.__cause__, TypeError)
        self.assertFalse(hasattr(self.v, "adj"))

    def test_a_graph_of_networkx_is_asked_for_by_its_name(self) -> None:
        for name in "nodes", "edges", "is_directed", "is_multigraph":
            with self.subTest(name=name), self.assertRaisesRegex(AttributeError, r"write A.to_networkx\(\)"):
                getattr(self.a, name)


@unittest.skipIf(numpy is None, "there is no numpy")
class WithNumpy(Sample):
    def test_functions_of_numpy_say_what_to_write(self) -> None:
        v, a, ones = self.v, self.a, numpy.ones((3, 3))
        calls: Dict[str, Callable[[], Any]] = {
            r"numpy.array_equal: .*to_numpy\(\).*v.isequal\(B\)": lambda: numpy.array_equal(v, v),
            r"numpy.array_equal: .*A.isequal\(B\)": lambda: numpy.array_equal(ones, a),
            r"numpy.array_equiv: .*A.isequal\(B\)": lambda: numpy.array_equiv(a, ones),
            r"numpy.allclose: .*A.isequal\(B\)": lambda: numpy.allclose(a, ones),
            r"numpy.sum: .*v.sum\(\)": lambda: numpy.sum(v),
            r"numpy.a?min: .*": lambda: numpy.min(v),
            r"numpy.nonzero: .*A.to_lists\(\)": lambda: numpy.nonzero(a),
            r"numpy.transpose: .*A.T": lambda: numpy.transpose(a),
            r"numpy.diag: .*v.diag\(k\)": lambda: numpy.diag(v),
            r"numpy.tril: .*A.T.select\(\"tril\", k\)": lambda: numpy.tril(a.T),
            r"numpy.copy: .*A.dup\(\)": lambda: numpy.copy(a),
            r"numpy.median: .*to_numpy\(\) has its entries in arrays$": lambda: numpy.median(v),
            r"numpy.concatenate: .*to_scipy\(\) makes a matrix of scipy.sparse$": lambda: numpy.concatenate([ones, a]),
        }
        for message, call in calls.items():
            with self.subTest(message=message), self.assertRaisesRegex(TypeError, message):
                call()

    def test_what_asks_for_dimensions_alone_is_answered(self) -> None:
        self.assertEqual((numpy.shape(self.v), numpy.shape(self.a), numpy.shape(self.a.T)), ((5,), (3, 3), (3, 3)))
        self.assertEqual((numpy.ndim(self.v), numpy.ndim(self.a)), (1, 2))


if __name__ == "__main__":
    unittest.main()
