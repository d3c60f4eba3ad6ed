"""Times of the graph algorithms, beside networkx and scipy.sparse.csgraph.

    algorithms.py [VERTICES ..]     by default 10000 and 100000

The graph is a small world: a ring, each vertex joined to the eight next ones, of which one edge in ten has its end drawn
anew; lengths are from 1 to 100. Ours is given as a matrix of a store, scipy's as a csr_array, and networkx's as a Graph.
Each number is the least processor time of three runs in milliseconds, those above ten seconds of one. What one of them
has not is left out. The results are compared before they are told.
"""

from __future__ import annotations

import sys
import time
from typing import Any, Callable, Dict, List, Optional, Tuple

import networkx
import numpy
from scipy import sparse
from scipy.sparse import csgraph

from trowelheath import Matrix, Store, algorithms


def small_world(size: int) -> Tuple[Any, Any, Any]:
    """The edges of the graph, each once: their ends and their lengths."""
    draws = numpy.random.default_rng(5)
    begins = numpy.repeat(numpy.arange(size), 8)
    ends = (begins + numpy.tile(numpy.arange(1, 9), size)) % size
    is_anew = draws.random(len(ends)) < 0.1
    ends[is_anew] = draws.integers(0, size, is_anew.sum())
    pairs = numpy.unique(numpy.stack([numpy.minimum(begins, ends), numpy.maximum(begins, ends)]), axis=1)
    begins, ends = pairs[:, pairs[0] != pairs[1]]
    return begins, ends, draws.integers(1, 101, len(begins))


def least(run: Callable[[], Any]) -> Tuple[float, Any]:
    """The least time of three runs in milliseconds, or that of one which is long; and the result."""
    times: List[float] = []
    result = None
    while len(times) < 3 and sum(times) < 10_000:
        start = time.process_time()
        result = run()
        times.append((time.process_time() - start) * 1000)
    return min(times), result


def compare(name: str, *runs: Optional[Callable[[], Any]]) -> None:
    """Times ours, scipy's and networkx's, and tells them where the results are the same."""
    words, results = [], []
    for run in runs:
        if run is None:
            words.append("–")
            continue
        spent, result = least(run)
        words.append(f"{spent:.1f}")
        results.append(result)
    if any(result != results[0] for result in results[1:]):
        sys.exit(f"{name}: the results differ")
    print(f"| {name} | {' | '.join(words)} |", flush=True)


def lengths(found: Any) -> Dict[int, int]:
    """The finite numbers of an array."""
    return {i: int(x) for i, x in enumerate(found) if x != numpy.inf}


def measure(size: int) -> None:
    """Times all algorithms on one graph."""
    begins, ends, weights = small_world(size)
    rows, columns = numpy.concatenate([begins, ends]), numpy.concatenate([ends, begins])
    values = numpy.concatenate([weights, weights])
    theirs = sparse.coo_array((values.astype(float), (rows, columns)), shape=(size, size)).tocsr()
    graph = networkx.Graph()
    graph.add_nodes_from(range(size))
    graph.add_weighted_edges_from(zip(begins.tolist(), ends.tolist(), weights.tolist()))
    print(f"\n{size:,} vertices, {len(begins):,} edges\n")
    print("| | ours | scipy | networkx |\n|---|---|---|---|")

    below = sparse.coo_array((numpy.ones(len(begins), int), (ends, begins)), shape=(size, size)).tocsr()

    with Store(room=4096, passes=1) as store:
        ours = Matrix.from_lists(store.main, size, size, rows, columns, values)
        ours.wait()
        compare(
            "breadth-first search",
            lambda: algorithms.breadth_first_search(ours, 0)[0].nvals,
            lambda: len(csgraph.breadth_first_order(theirs, 0)[0]),
            lambda: len(networkx.single_source_shortest_path_length(graph, 0)),
        )
        compare(
            "shortest paths",
            lambda: algorithms.single_source_shortest_paths(ours, 0).to_dict(),
            lambda: lengths(csgraph.dijkstra(theirs, indices=0)),
            lambda: dict(sorted(networkx.single_source_dijkstra_path_length(graph, 0).items())),
        )
        compare("widest paths", lambda: algorithms.widest_paths(ours, 0).nvals, None, None)
        compare(
            "connected components",
            lambda: len(set(algorithms.connected_components(ours).values())),
            lambda: csgraph.connected_components(theirs, directed=False)[0],
            lambda: networkx.number_connected_components(graph),
        )
        compare(
            "triangles",
            lambda: algorithms.triangle_count(ours),
            lambda: int((below @ below).multiply(below).sum()),
            lambda: sum(networkx.triangles(graph).values()) // 3,
        )
        compare(
            "7-truss",
            lambda: algorithms.k_truss(ours, 7).nvals // 2,
            None,
            lambda: networkx.k_truss(graph, 7).number_of_edges(),
        )
        compare(
            "14-core",
            lambda: algorithms.k_core(ours, 14).nvals,
            None,
            lambda: networkx.k_core(graph, 14).number_of_nodes(),
        )
        compare(
            "PageRank",
            lambda: sorted(algorithms.pagerank(ours).values())[-10:][0] // 10**4,
            None,
            lambda: int(sorted(networkx.pagerank(graph, weight=None, tol=1e-12 / size).values())[-10:][0] * 10**8),
        )


if __name__ == "__main__":
    for count in map(int, sys.argv[1:] or ["10000", "100000"]):
        measure(count)
