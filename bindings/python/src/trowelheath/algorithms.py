"""Graph algorithms by the names of LAGraph.

**Graphs.** A graph is a square `Matrix` of either dtype with an entry at (i, j) for each edge from vertex i to vertex j,
False and 0 too; or a graph of networkx. `connected_components`, `triangle_count`, `k_truss` and `k_core` are of
undirected graphs: there an edge connects both ends whichever way it leads, and an edge from a vertex to itself does
not count.

**One moment.** Each function reads the entries of the graph at one moment and computes on what it read, so other threads
may go on changing the graph, but for its dimensions: nobody may resize it meanwhile. The computation is done by products
and masks in a store of its own, which is closed at the end. It takes no room of the graph's store.

**Results.** Of a `Matrix` the result is a number, or a new `Vector` or `Matrix` by the pass of the graph, which takes two
calls of the room. Of a networkx graph it is a number, a dict by the names of the nodes, or a graph.

**Refusals.** Each function raises `TypeError` where the graph is neither of the two, `ValueError` where the matrix is
not square, and what `Matrix.to_lists` and the making of the result raise. One with a source raises `IndexError` where it
is no vertex of a matrix, and `KeyError` where it is no node of a networkx graph.

    from trowelheath import Matrix, Store, algorithms

    with Store() as store:
        roads = Matrix.from_lists(store.main, 4, 4, [0, 1, 2, 0], [1, 2, 3, 3], [1, 1, 1, 9])
        levels, parents = algorithms.breadth_first_search(roads, 0)
        levels.to_dict()                                                      # {0: 0, 1: 1, 2: 2, 3: 1}
        algorithms.single_source_shortest_paths(roads, 0).to_dict()           # {0: 0, 1: 1, 2: 2, 3: 3}
"""

from __future__ import annotations

import operator
from typing import Any, Callable, Dict, List, NamedTuple, Optional, SupportsIndex, Tuple, TypeVar

from . import convert
from .objects import Matrix, Vector
from .store import Pass, Store

__all__ = [
    "MOST_SCALE",
    "breadth_first_search",
    "connected_components",
    "k_core",
    "k_truss",
    "pagerank",
    "single_source_shortest_paths",
    "triangle_count",
    "widest_paths",
]

MOST_SCALE = 10**17
"""The largest scale of `pagerank`."""

_Result = TypeVar("_Result")


class _Workshop:
    """A store for one computation. Where its room is used up, it goes on in a successor."""

    def __init__(self) -> None:
        self._store = Store(256, 1)

    def __enter__(self) -> _Workshop:
        return self

    def __exit__(self, *_: object) -> None:
        self._store.close()

    @property
    def pass_(self) -> Pass:
        """The pass that makes all calls. A successor has another one."""
        return self._store.main

    def with_room(self, calls: int, *objects: Any) -> Tuple[Any, ...]:
        """The objects, in a store that has room for so many calls that change it, and to free what was let go."""
        if self.pass_.facts().room_left >= calls + 16:
            return objects
        full = self._store
        self._store = full.main.succeed(full.room, 1)
        moved = tuple(each.using(self.pass_) for each in objects)
        full.close()
        return moved

    def vector(self, size: int, indices: Any, values: Any) -> Vector:
        """A new vector with these entries."""
        return Vector.from_lists(self.pass_, size, indices, values)

    def edges(self, graph: _Graph) -> Matrix:
        """A matrix that stores 1 at each edge."""
        return Matrix.from_lists(self.pass_, graph.size, graph.size, graph.rows, graph.columns, 1, dup="min")

    def weights(self, graph: _Graph) -> Matrix:
        """A matrix that stores the value of each edge."""
        return Matrix.from_lists(self.pass_, graph.size, graph.size, graph.rows, graph.columns, graph.values)

    def below_diagonal(self, graph: _Graph) -> Matrix:
        """A matrix that stores 1 at each undirected edge, its larger end as the row. No vertex is its own neighbour."""
        rows, columns = _ends(graph)
        return Matrix.from_lists(self.pass_, graph.size, graph.size, rows, columns, 1, dup="min")

    def undirected(self, graph: _Graph) -> Matrix:
        """A matrix that stores 1 at each undirected edge, both ways. No vertex is its own neighbour."""
        below = self.below_diagonal(graph)
        return below.ewise_add(below, "first", transpose=True)


class _Graph(NamedTuple):
    """The edges of a graph at one moment."""

    size: int
    rows: Any
    columns: Any
    values: Any


def _entries(of: Matrix) -> Tuple[Any, Any, Any]:
    """All entries at one moment, in numpy's arrays where there is numpy."""
    try:
        return of.to_numpy()
    except ImportError:
        return of.to_lists()


def _graph(matrix: Matrix) -> _Graph:
    """The edges of a matrix at one moment. `ValueError` where it is not square."""
    nrows, ncols = matrix.shape
    if nrows != ncols:
        raise ValueError(f"a graph has as many columns as rows, and not {nrows} x {ncols}")
    return _Graph(nrows, *_entries(matrix))


def _ends(graph: _Graph) -> Tuple[Any, Any]:
    """The larger and the smaller end of each edge whose ends differ."""
    if isinstance(graph.rows, list):
        pairs = [(max(i, j), min(i, j)) for i, j in zip(graph.rows, graph.columns) if i != j]
        return [i for i, _ in pairs], [j for _, j in pairs]
    import numpy

    is_edge = graph.rows != graph.columns
    ends = graph.rows[is_edge], graph.columns[is_edge]
    return numpy.maximum(*ends), numpy.minimum(*ends)


def _source(of: SupportsIndex, size: int) -> int:
    """A vertex to begin at. `IndexError` where it is none."""
    source = operator.index(of)
    if not 0 <= source < size:
        raise IndexError(f"the source {source} is no vertex: there are {size}")
    return source


def _with_names(
    graph: Any,
    weight: Optional[str],
    dup: str,
    compute: Callable[[Matrix, List[Any]], _Result],
    without_nodes: Callable[[], Any],
) -> _Result:
    """Computes on the matrix of a networkx graph, and is given the names of its nodes too. A matrix has a row at least."""
    if not all(hasattr(graph, name) for name in ("edges", "is_directed", "nodes")):
        raise TypeError(f"a graph is a Matrix or a graph of networkx, not a {type(graph).__name__}")
    names = list(graph)
    if not names:
        return without_nodes()
    with Store(64, 1) as store:
        lists = convert.lists_of_networkx(graph, names, weight, int)
        return compute(Matrix.from_lists(store.main, *lists, dup=dup), names)


def _place(of: Any, names: List[Any]) -> int:
    """The number of a node. `KeyError` where it is none."""
    try:
        return names.index(of)
    except ValueError:
        raise KeyError(of) from None


def _by_name(vector: Vector, names: List[Any]) -> Dict[Any, int]:
    """The entries of a vector by the names of the nodes."""
    return {names[i]: x for i, x in vector.items()}


# Searches.


def breadth_first_search(graph: Any, source: Any) -> Tuple[Any, Any]:
    """The levels and the parents of a search along the edges, from a source (`LAGr_BreadthFirstSearch`).

    Args:
        graph: a directed graph, or an undirected one that has each edge both ways.
        source: the vertex, or the node, that the search begins at.

    Returns:
        Two vectors with an entry for each vertex that is reached. Its level is the least number of edges from the
        source. Its parent is the least vertex of the level before that has an edge to it; the source is its own. Of a
        networkx graph two dicts; there the first such node in the order of the graph is the parent.
    """
    if not isinstance(graph, Matrix):
        return _with_names(
            graph,
            None,
            "min",
            lambda matrix, names: _searched_by_name(matrix, names, _place(source, names)),
            lambda: _place(source, []),
        )
    edges = _graph(graph)
    found, levels, parents = _search(edges, _source(source, edges.size))
    return (
        Vector.from_lists(graph.pass_, edges.size, found, levels),
        Vector.from_lists(graph.pass_, edges.size, found, parents),
    )


def _search(graph: _Graph, source: int) -> Tuple[List[int], List[int], List[int]]:
    """The vertices that are reached, and the level and the parent of each."""
    found, levels, from_ = [source], [0], [source]
    with _Workshop() as work:
        edges = work.edges(graph)
        names = work.vector(graph.size, range(graph.size), range(graph.size))
        # The front stores at each of its vertices the vertex itself, and what is reached its parent.
        front = work.vector(graph.size, [source], [source])
        reached = work.vector(graph.size, [source], [source])
        while True:
            edges, names, front, reached = work.with_room(3, edges, names, front, reached)
            front.vxm(edges, "min.first", mask=reached, structure=True, complement=True, replace=True, out=front)
            vertices, parents = front.to_lists()
            if not vertices:
                return found, levels, from_
            levels += [levels[-1] + 1] * len(vertices)
            found += vertices
            from_ += parents
            reached.ewise_add(front, "first", out=reached)
            front.ewise_mult(names, "second", out=front)


def _searched_by_name(matrix: Matrix, names: List[Any], source: int) -> Tuple[Dict[Any, int], Dict[Any, Any]]:
    found, levels, parents = _search(_graph(matrix), source)
    nodes = [names[i] for i in found]
    return dict(zip(nodes, levels)), {node: names[i] for node, i in zip(nodes, parents)}


# Paths.


def single_source_shortest_paths(graph: Any, source: Any, weight: Optional[str] = "weight") -> Any:
    """The lengths of the shortest paths from a source (`LAGr_SingleSourceShortestPath`).

    Args:
        graph: a directed graph whose values are the lengths of its edges, or an undirected one that has each edge both
            ways.
        source: the vertex, or the node, that the paths begin at.
        weight: the attribute of a networkx graph that has the length of an edge; an edge without it has the length 1,
            and with None each has. Of parallel edges the shortest counts.

    Returns:
        A vector with an entry for each vertex that is reached: the length of a shortest path to it; 0 at the source. Of
        a networkx graph a dict.

    Raises:
        TypeError: the matrix has truth values.
        OverflowError: the largest length of an edge times the number of vertices is 2**64 or more.
    """
    return _paths(graph, source, weight, "min", "min.plus", 0)


def widest_paths(graph: Any, source: Any, weight: Optional[str] = "weight") -> Any:
    """The widths of the widest paths from a source. A path is as wide as its narrowest edge.

    Args:
        graph: a directed graph whose values are the widths of its edges, or an undirected one that has each edge both
            ways.
        source: the vertex, or the node, that the paths begin at.
        weight: the attribute of a networkx graph that has the width of an edge; an edge without it has the width 1, and
            with None each has. Of parallel edges the widest counts.

    Returns:
        A vector with an entry for each vertex that is reached: the width of a widest path to it; 2**64 - 1 at the
        source, which no edge narrows. Of a networkx graph a dict.

    Raises:
        TypeError: the matrix has truth values.
    """
    return _paths(graph, source, weight, "max", "max.min", convert.MOST_NUMBER)


def _paths(graph: Any, source: Any, weight: Optional[str], best: str, semiring: str, at_source: int) -> Any:
    """The best of all paths to each vertex, where `best` chooses and `semiring` goes on by an edge."""
    if not isinstance(graph, Matrix):
        return _with_names(
            graph,
            weight,
            best,
            lambda matrix, names: dict(
                zip(*_named(_best_paths(_graph(matrix), _place(source, names), best, semiring, at_source), names))
            ),
            lambda: _place(source, []),
        )
    if graph.dtype is bool:
        raise TypeError("a matrix of truth values tells no lengths and no widths of edges: its dtype must be int")
    edges = _graph(graph)
    found, values = _best_paths(edges, _source(source, edges.size), best, semiring, at_source)
    return Vector.from_lists(graph.pass_, edges.size, found, values)


def _named(entries: Tuple[List[int], List[int]], names: List[Any]) -> Tuple[List[Any], List[int]]:
    found, values = entries
    return [names[i] for i in found], values


def _best_paths(
    graph: _Graph, source: int, best: str, semiring: str, at_source: int
) -> Tuple[List[int], List[int]]:
    """The vertices that are reached, and the best path to each."""
    with _Workshop() as work:
        edges = work.weights(graph)
        if best == "min" and int(edges.reduce("max")) * graph.size > convert.MOST_NUMBER:
            raise OverflowError("the largest length of an edge times the number of vertices is 2**64 or more")
        # The best paths so far, and those of them that became better in the last round.
        paths = work.vector(graph.size, [source], [at_source])
        better = work.vector(graph.size, [source], [at_source])
        before, change = work.pass_.vector(graph.size), work.pass_.vector(graph.size)
        while len(better) > 0:
            edges, paths, better, before, change = work.with_room(5, edges, paths, better, before, change)
            before, paths = paths, before
            better.vxm(edges, semiring, out=better)
            before.ewise_add(better, best, out=paths)
            # A path is better where its value differs from the one before, or there was none.
            paths.ewise_mult(before, "minus", out=change)
            paths.ewise_mult(paths, "first", mask=change, replace=True, out=better)
            paths.ewise_mult(paths, "first", mask=before, structure=True, complement=True, out=better)
        return paths.to_lists()


# Undirected graphs.


def connected_components(graph: Any) -> Any:
    """The connected components of an undirected graph (`LAGr_ConnectedComponents`).

    The edges of a directed graph are taken both ways, so its weakly connected components are told.

    Args:
        graph: the graph.

    Returns:
        A vector with an entry for each vertex: the least vertex of its component. Of a networkx graph a dict with the
        component's first node in the order of the graph.
    """
    if not isinstance(graph, Matrix):
        return _with_names(
            graph,
            None,
            "min",
            lambda matrix, names: {names[i]: names[least] for i, least in enumerate(_components(_graph(matrix)))},
            dict,
        )
    edges = _graph(graph)
    return Vector.from_lists(graph.pass_, edges.size, range(edges.size), _components(edges))


def _components(graph: _Graph) -> List[int]:
    """The least vertex of each vertex's component."""
    # Each vertex has a label, which is a vertex of its component and at most itself. The labels are trees: the label
    # of a label that is its own is a root, and the least of its tree.
    labels = list(range(graph.size))
    with _Workshop() as work:
        edges = work.undirected(graph)
        told, least = work.vector(graph.size, labels, labels), work.pass_.vector(graph.size)
        while True:
            edges, told, least = work.with_room(3, edges, told, least)
            edges.mxv(told, "min.second", out=least)
            is_joined = False
            for i, label in zip(*least.to_lists()):
                if label < labels[labels[i]]:
                    labels[labels[i]] = label
                    is_joined = True
            if not is_joined:
                return labels
            labels = _flat(labels)
            told.clear()
            told.build(range(graph.size), labels)


def _flat(labels: List[int]) -> List[int]:
    """The root of each vertex's tree."""
    while True:
        above = [labels[label] for label in labels]
        if above == labels:
            return labels
        labels = above


def triangle_count(graph: Any) -> int:
    """The number of triangles of an undirected graph, each counted once (`LAGr_TriangleCount`).

    Args:
        graph: the graph.

    Returns:
        The number of sets of three vertices that are all neighbours of each other.
    """
    if not isinstance(graph, Matrix):
        return _with_names(graph, None, "min", lambda matrix, _: triangle_count(matrix), int)
    with _Workshop() as work:
        below = work.below_diagonal(_graph(graph))
        return int(below.mxm(below, "plus.times", mask=below, structure=True).reduce("plus"))


def k_truss(graph: Any, k: SupportsIndex) -> Any:
    """The k-truss of an undirected graph (`LAGraph_KTruss`).

    It is the largest subgraph whose edges are each in k - 2 or more triangles of that subgraph.

    Args:
        graph: the graph.
        k: at least 3.

    Returns:
        A matrix of the graph's dimensions with an entry for each edge of the truss, both ways: the number of the truss's
        triangles that the edge is in. Of a networkx graph the subgraph of these edges, as a copy.

    Raises:
        ValueError: k is below 3.
    """
    least = operator.index(k)
    if least < 3:
        raise ValueError(f"a k-truss has a k of at least 3, and not {least}")
    if not isinstance(graph, Matrix):
        return _with_names(
            graph,
            None,
            "min",
            lambda matrix, names: _subgraph_of_edges(graph, names, _truss(_graph(matrix), least)),
            lambda: graph.copy(),
        )
    edges = _graph(graph)
    return Matrix.from_lists(graph.pass_, edges.size, edges.size, *_truss(edges, least))


def _truss(graph: _Graph, k: int) -> Tuple[List[int], List[int], List[int]]:
    """The edges of the truss, both ways, and the number of triangles of each."""
    with _Workshop() as work:
        edges = work.undirected(graph)
        bound = _constant_like(work, edges, min(k - 3, graph.size))
        triangles, excess = (work.pass_.matrix(graph.size, graph.size) for _ in range(2))
        stored = -1
        while stored != len(edges):
            stored = len(edges)
            edges, bound, triangles, excess = work.with_room(4, edges, bound, triangles, excess)
            edges.mxm(edges, "plus.times", mask=edges, structure=True, replace=True, out=triangles)
            _above(triangles, bound, excess)
            edges.ewise_mult(edges, "first", mask=excess, replace=True, out=edges)
        return triangles.to_lists()


def _constant_like(work: _Workshop, pattern: Matrix, value: int) -> Matrix:
    """A matrix that stores the value where the pattern stores one."""
    rows, columns, _ = _entries(pattern)
    return Matrix.from_lists(work.pass_, *pattern.shape, rows, columns, value)


def _above(values: Any, bound: Any, excess: Any) -> None:
    """Has `excess` store, where both others do, how far the value is above the bound; 0 where it is not."""
    values.ewise_mult(bound, "max", out=excess)
    excess.ewise_mult(bound, "minus", out=excess)


def k_core(graph: Any, k: SupportsIndex) -> Any:
    """The k-core of an undirected graph (`LAGraph_KCore`).

    It is the largest subgraph whose vertices each have k or more neighbours in that subgraph.

    Args:
        graph: the graph.
        k: at least 1.

    Returns:
        A vector with an entry for each vertex of the core: the number of its neighbours there. Of a networkx graph the
        subgraph of these nodes, as a copy.

    Raises:
        ValueError: k is below 1.
    """
    least = operator.index(k)
    if least < 1:
        raise ValueError(f"a k-core has a k of at least 1, and not {least}")
    if not isinstance(graph, Matrix):
        return _with_names(
            graph,
            None,
            "min",
            lambda matrix, names: graph.subgraph([names[i] for i in _core(_graph(matrix), least)[0]]).copy(),
            lambda: graph.copy(),
        )
    edges = _graph(graph)
    return Vector.from_lists(graph.pass_, edges.size, *_core(edges, least))


def _core(graph: _Graph, k: int) -> Tuple[List[int], List[int]]:
    """The vertices of the core, and the number of neighbours of each."""
    with _Workshop() as work:
        edges = work.undirected(graph)
        bound = work.vector(graph.size, range(graph.size), min(k - 1, graph.size))
        # The number of neighbours of each vertex that is left; of those that go now; and how far it is above k - 1.
        left = edges.reduce_rows("plus")
        kept, gone, excess = (work.pass_.vector(graph.size) for _ in range(3))
        while True:
            edges, bound, left, kept, gone, excess = work.with_room(5, edges, bound, left, kept, gone, excess)
            _above(left, bound, excess)
            left.ewise_mult(left, "first", mask=excess, replace=True, out=kept)
            left.ewise_mult(left, "first", mask=kept, structure=True, complement=True, replace=True, out=gone)
            if len(gone) == 0:
                break
            left, kept = kept, left
            gone.vxm(edges, "plus.second", mask=left, structure=True, accum="minus", out=left)
        return left.to_lists()


def _subgraph_of_edges(graph: Any, names: List[Any], entries: Tuple[List[int], List[int], List[int]]) -> Any:
    """A copy of the networkx graph with these edges alone, and their nodes."""
    rows, columns, _ = entries
    pairs = {(names[i], names[j]) for i, j in zip(rows, columns)}
    if graph.is_multigraph():
        kept = [edge for edge in graph.edges(keys=True) if (edge[0], edge[1]) in pairs]
    else:
        kept = [edge for edge in graph.edges() if edge in pairs]
    return graph.edge_subgraph(kept).copy()


# Ranks.


def pagerank(
    graph: Any, damping: SupportsIndex = 85, scale: SupportsIndex = 10**12, rounds: SupportsIndex = 100
) -> Any:
    """The PageRank of each vertex, in whole numbers (`LAGr_PageRank`).

    Who walks along the edges takes each edge of a vertex alike, whatever its value; begins anew at any vertex where
    there is none; and does so after each step in 100 - damping of 100 cases.

    Args:
        graph: a directed graph, or an undirected one that has each edge both ways. An edge to itself counts.
        damping: how many of 100 steps go along an edge, from 0 to 99.
        scale: what all ranks are together, but for what is lost where a division leaves a rest; from 1 to 10**17. It
            should be far above the number of vertices.
        rounds: how many rounds there are at most.

    Returns:
        A vector with an entry for each vertex: its rank times the scale, rounded down in each round. It is the result of
        the first round in which no more than one for each vertex changes in all, or of the last round. Of a networkx
        graph a dict.

    Raises:
        ValueError: damping or scale is out of its range, or rounds is negative.
    """
    share, total, most = operator.index(damping), operator.index(scale), operator.index(rounds)
    if not 0 <= share <= 99:
        raise ValueError(f"the damping is from 0 to 99, and not {share}")
    if not 1 <= total <= MOST_SCALE:
        raise ValueError(f"the scale is from 1 to {MOST_SCALE:,}, and not {total:,}")
    if most < 0:
        raise ValueError(f"there are 0 or more rounds, and not {most}")
    if not isinstance(graph, Matrix):
        return _with_names(
            graph,
            None,
            "min",
            lambda matrix, names: dict(zip(names, map(int, _ranks(_graph(matrix), share, total, most)))),
            dict,
        )
    edges = _graph(graph)
    return Vector.from_lists(graph.pass_, edges.size, range(edges.size), _ranks(edges, share, total, most))


class _Ranks:
    """The ranks of a round by lists, and what is the same in all rounds."""

    def __init__(self, leaving: List[int], scale: int) -> None:
        """Each vertex has the same rank at first. `leaving` is the number of edges that leave it."""
        self.ranks = [scale // len(leaving)] * len(leaving)
        self.begins = [i for i, count in enumerate(leaving) if count > 0]
        self._ends = [i for i, count in enumerate(leaving) if count == 0]
        self._divisors = [100 * leaving[i] for i in self.begins]

    def shares(self, damping: int) -> Any:
        """What each vertex that edges leave gives along each of them."""
        return [self.ranks[i] * damping // divisor for i, divisor in zip(self.begins, self._divisors)]

    def at_ends(self) -> int:
        """The ranks of all vertices that no edge leaves."""
        return sum(self.ranks[i] for i in self._ends)

    def go_on(self, taken: Vector, anew: int) -> int:
        """Has each vertex the rank of the next round, and tells how much changes in all."""
        before, self.ranks = self.ranks, [anew] * len(self.ranks)
        for i, rank in zip(*taken.to_lists()):
            self.ranks[i] += rank
        return sum(map(abs, map(operator.sub, before, self.ranks)))


class _RanksByNumpy:
    """The same by numpy's arrays. A rank is at most 10**17, so a hundred times it is below 2**64."""

    def __init__(self, leaving: List[int], scale: int) -> None:
        """As of `_Ranks`. `ImportError` where there is no numpy."""
        import numpy

        self._numpy = numpy
        counts = numpy.array(leaving, "uint64")
        self.ranks = numpy.full(len(leaving), scale // len(leaving), "uint64")
        self.begins = numpy.flatnonzero(counts)
        self._ends = numpy.flatnonzero(counts == 0)
        self._divisors = counts[self.begins] * numpy.uint64(100)

    def shares(self, damping: int) -> Any:
        """As of `_Ranks`."""
        return self.ranks[self.begins] * self._numpy.uint64(damping) // self._divisors

    def at_ends(self) -> int:
        """As of `_Ranks`."""
        return int(self.ranks[self._ends].sum())

    def go_on(self, taken: Vector, anew: int) -> int:
        """As of `_Ranks`."""
        found, ranks = taken.to_numpy()
        before, self.ranks = self.ranks, self._numpy.full(len(self.ranks), anew, "uint64")
        self.ranks[found] += ranks
        larger, smaller = self._numpy.maximum(before, self.ranks), self._numpy.minimum(before, self.ranks)
        return int((larger - smaller).sum())


def _ranks(graph: _Graph, damping: int, scale: int, rounds: int) -> Any:
    """The rank of each vertex."""
    size = graph.size
    with _Workshop() as work:
        edges = work.edges(graph)
        leaving = [0] * size
        for i, degree in edges.reduce_rows("plus").items():
            leaving[i] = int(degree)
        state: Any = (_Ranks if isinstance(graph.rows, list) else _RanksByNumpy)(leaving, scale)
        given, taken = work.pass_.vector(size), work.pass_.vector(size)
        for _ in range(rounds):
            edges, given, taken = work.with_room(3, edges, given, taken)
            given.clear()
            given.build(state.begins, state.shares(damping))
            given.vxm(edges, "plus.first", out=taken)
            anew = (scale * (100 - damping) + state.at_ends() * damping) // (100 * size)
            if state.go_on(taken, anew) <= size:
                break
        return state.ranks
