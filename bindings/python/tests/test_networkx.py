"""networkx graphs, where networkx is there."""

from __future__ import annotations

import unittest

from optional import networkx
from support import StoreCase
from trowelheath import InvalidValue, Matrix


@unittest.skipIf(networkx is None, "there is no networkx")
class Graphs(StoreCase):
    def test_an_undirected_edge_has_two_entries_and_a_loop_one(self) -> None:
        graph = networkx.Graph([("a", "b"), ("b", "c"), ("c", "c")])
        a = Matrix.from_networkx(self.p, graph)
        self.assertEqual((a.shape, a.dtype), ((3, 3), int))
        self.assertEqual(a.to_dict(), {(0, 1): 1, (1, 0): 1, (1, 2): 1, (2, 1): 1, (2, 2): 1})

    def test_a_directed_edge_has_one_entry(self) -> None:
        graph = networkx.DiGraph([("a", "b"), ("b", "c"), ("c", "a")])
        self.assertEqual(Matrix.from_networkx(self.p, graph).to_dict(), {(0, 1): 1, (1, 2): 1, (2, 0): 1})

    def test_weights_are_values(self) -> None:
        graph = networkx.DiGraph()
        graph.add_edge(0, 1, weight=5, length=7)
        graph.add_edge(1, 0, length=8)
        for weight, wanted in ("weight", [5, 1]), ("length", [7, 8]), (None, [1, 1]):
            with self.subTest(weight=weight):
                a = Matrix.from_networkx(self.p, graph, weight=weight)
                self.assertEqual(a.to_dict(), {(0, 1): wanted[0], (1, 0): wanted[1]})

    def test_truth_values_say_where_edges_are(self) -> None:
        graph = networkx.DiGraph()
        graph.add_edge(0, 1, weight=0.5)
        for dtype in bool, "bool":
            a = Matrix.from_networkx(self.p, graph, dtype=dtype)
            self.assertEqual((a.dtype, a.to_dict()), (bool, {(0, 1): True}))

    def test_parallel_edges_are_added(self) -> None:
        graph = networkx.MultiDiGraph()
        graph.add_edge(0, 1, weight=5)
        graph.add_edge(0, 1, weight=6)
        self.assertEqual(Matrix.from_networkx(self.p, graph).to_dict(), {(0, 1): 11})
        self.assertEqual(Matrix.from_networkx(self.p, graph, dtype=bool).to_dict(), {(0, 1): True})

    def test_nodes_say_the_order_and_leave_others_out(self) -> None:
        graph = networkx.DiGraph([("a", "b"), ("b", "c"), ("c", "a")])
        a = Matrix.from_networkx(self.p, graph, nodes=["c", "b"])
        self.assertEqual((a.shape, a.to_dict()), ((2, 2), {(1, 0): 1}))
        with self.assertRaises(ValueError):
            Matrix.from_networkx(self.p, graph, nodes=["a", "a"])

    def test_graphs_that_have_no_matrix_are_refused(self) -> None:
        with self.assertRaises(InvalidValue):
            Matrix.from_networkx(self.p, networkx.Graph())
        for weight, kind in (0.5, TypeError), (-1, OverflowError), ("x", TypeError):
            graph = networkx.Graph()
            graph.add_edge(0, 1, weight=weight)
            with self.subTest(weight=weight), self.assertRaises(kind):
                Matrix.from_networkx(self.p, graph)

    def test_a_matrix_becomes_a_directed_graph(self) -> None:
        graph = Matrix.from_lists(self.p, 4, 4, [0, 1, 1], [1, 0, 2], [5, 6, 0]).to_networkx()
        self.assertIs(type(graph), networkx.DiGraph)
        self.assertEqual(list(graph), [0, 1, 2, 3])
        self.assertEqual(sorted(graph.edges(data="weight")), [(0, 1, 5), (1, 0, 6), (1, 2, 0)])

    def test_its_nodes_and_its_type_may_be_chosen(self) -> None:
        a = Matrix.from_lists(self.p, 3, 3, [0, 1], [1, 0], [True, True], bool)
        graph = a.to_networkx(nodes="xyz", create_using=networkx.Graph)
        self.assertIs(type(graph), networkx.Graph)
        self.assertEqual((list(graph), list(graph.edges)), (["x", "y", "z"], [("x", "y")]))
        with self.assertRaises(ValueError):
            a.to_networkx(nodes="xy")

    def test_a_matrix_that_is_not_square_is_no_graph(self) -> None:
        with self.assertRaisesRegex(ValueError, "2 rows and 3 columns"):
            self.p.matrix(2, 3).to_networkx()

    def test_a_graph_comes_back(self) -> None:
        theirs = networkx.gnm_random_graph(50, 200, seed=1)
        back = Matrix.from_networkx(self.p, theirs).to_networkx(create_using=networkx.Graph)
        self.assertEqual({frozenset(edge) for edge in back.edges}, {frozenset(edge) for edge in theirs.edges})


if __name__ == "__main__":
    unittest.main()
