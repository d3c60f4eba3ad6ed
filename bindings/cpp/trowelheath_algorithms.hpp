// trowelheath_algorithms.hpp - graph algorithms over the Trowelheath store, by the names of LAGraph, for C++17.
//
// A graph is a square matrix of either domain with an entry at (i, j) for each edge from vertex i to vertex j, false
// and 0 too. connected_components, triangle_count, k_truss and k_core are of undirected graphs: there an edge connects
// both ends whichever way it leads, and an edge from a vertex to itself does not count.
//
//     namespace algorithms = trowelheath::algorithms;
//     auto roads = pass.new_matrix<std::uint64_t>(4, 4);
//     pass.build(roads, {0, 1, 2, 0}, {1, 2, 3, 3}, {1, 1, 1, 9}, trowelheath::plus);
//     auto lengths = algorithms::single_source_shortest_paths(pass, roads, 0);
//     pass.get(lengths, 3);                                                            // 3
//
// Each function reads the entries of the graph at one moment and computes on what it read, so other passes may go on
// changing the graph, but for its dimensions: nobody may resize it meanwhile. The computation is done by products and
// masks in a store of its own, which ends with it. Of the graph's store it takes the room of its result alone: two
// changes for each object that it answers, which the caller frees.
//
// Each throws Refusal with Status::dimension_mismatch where the matrix is not square, and what a read and a change can
// be refused for. What else it throws is told at each. Then no object is left. It may throw std::bad_alloc too.
#ifndef TROWELHEATH_ALGORITHMS_HPP
#define TROWELHEATH_ALGORITHMS_HPP

#include "trowelheath.hpp"

#include <algorithm>
#include <cstddef>
#include <cstdint>
#include <utility>
#include <vector>

namespace trowelheath::algorithms {

/// What breadth_first_search answers.
struct Search {
    Vector<std::uint64_t> levels;
    Vector<std::uint64_t> parents;
};

/// How pagerank counts.
struct PageRank {
    /// The largest scale.
    static constexpr std::uint64_t most_scale = 100000000000000000;

    /// How many of 100 steps go along an edge, from 0 to 99.
    std::uint64_t damping = 85;
    /// What all ranks are together, but for what is lost where a division leaves a rest: from 1 to most_scale. It
    /// should be far above the number of vertices.
    std::uint64_t scale = 1000000000000;
    /// How many rounds there are at most.
    std::uint32_t rounds = 100;
};

namespace detail {

using trowelheath::detail::digits;
using trowelheath::detail::text;
using Number = std::uint64_t;
using Numbers = std::vector<Number>;

// The room of the store that an algorithm computes in. Where it is used up, the algorithm goes on in a successor.
inline constexpr std::uint32_t workshop_room = 256;

// The edges of a graph at one moment.
struct Graph {
    Index size;
    Numbers rows;
    Numbers columns;
    Numbers values;
};

template <typename T>
[[nodiscard]] Graph read(Pass &pass, Matrix<T> graph)
{
    const Size size = pass.size(graph);
    if (size.nrows != size.ncols) {
        throw Refusal(Status::dimension_mismatch,
                      text("the graph is %llu x %llu, and has not as many columns as rows", digits(size.nrows),
                           digits(size.ncols)));
    }
    const auto entries = pass.entries(graph);
    Graph edges{size.nrows, {}, {}, {}};
    for (Numbers *list : {&edges.rows, &edges.columns, &edges.values}) {
        list->reserve(entries.size());
    }
    for (const auto &entry : entries) {
        edges.rows.push_back(entry.row);
        edges.columns.push_back(entry.column);
        edges.values.push_back(entry.value);
    }
    return edges;
}

inline void check_source(const Graph &graph, Index source)
{
    if (source >= graph.size) {
        throw Refusal(Status::invalid_index, text("the source %llu is no vertex: there are %llu", digits(source),
                                                  digits(graph.size)));
    }
}

inline void check_range(bool is_within, const char *said)
{
    if (!is_within) {
        throw Refusal(Status::invalid_value, text("%s", said));
    }
}

// Each vertex in turn.
[[nodiscard]] inline Numbers vertices_of(const Graph &graph)
{
    Numbers vertices;
    vertices.reserve(static_cast<std::size_t>(graph.size));
    for (Index i = 0; i < graph.size; i++) {
        vertices.push_back(i);
    }
    return vertices;
}

// A store for one computation.
class Workshop {
public:
    Workshop() : pass_(Store(workshop_room, 1).take()) {}

    // The pass that makes all calls.
    [[nodiscard]] Pass &pass() noexcept { return pass_; }

    // Goes on in a successor where there is no room for so many changes. Objects mean the same there.
    void make_room(std::uint32_t changes)
    {
        if (pass_.facts().room_left < changes) {
            pass_ = pass_.succeed(workshop_room, 1).take();
        }
    }

    [[nodiscard]] Vector<Number> vector(Index size, const Numbers &indices, const Numbers &values)
    {
        const auto made = pass_.new_vector<Number>(size);
        pass_.build(made, indices, values, plus);
        return made;
    }

    [[nodiscard]] Matrix<Number> matrix(Index size, const Numbers &rows, const Numbers &columns, const Numbers &values)
    {
        const auto made = pass_.new_matrix<Number>(size, size);
        pass_.build(made, rows, columns, values, min);
        return made;
    }

    // A matrix that stores 1 at each edge.
    [[nodiscard]] Matrix<Number> edges(const Graph &graph)
    {
        return matrix(graph.size, graph.rows, graph.columns, Numbers(graph.rows.size(), 1));
    }

    // A matrix that stores 1 at each undirected edge, its larger end as the row. No vertex is its own neighbour.
    [[nodiscard]] Matrix<Number> below_diagonal(const Graph &graph)
    {
        Numbers rows, columns;
        for (std::size_t k = 0; k < graph.rows.size(); k++) {
            const auto [smaller, larger] = std::minmax(graph.rows[k], graph.columns[k]);
            if (smaller != larger) {
                rows.push_back(larger);
                columns.push_back(smaller);
            }
        }
        return matrix(graph.size, rows, columns, Numbers(rows.size(), 1));
    }

    // A matrix that stores 1 at each undirected edge, both ways. No vertex is its own neighbour.
    [[nodiscard]] Matrix<Number> undirected(const Graph &graph)
    {
        const auto below = below_diagonal(graph);
        const auto edges = pass_.new_matrix<Number>(graph.size, graph.size);
        pass_.ewise_add(edges, first, below, below, Descriptor::tran);
        return edges;
    }

    // Has `excess` store, where both others do, how far the value is above the bound; 0 where it is not.
    template <typename Object>
    void above(Object excess, Object values, Object bound)
    {
        pass_.ewise_mult(excess, max, values, bound);
        pass_.ewise_mult(excess, minus, excess, bound);
    }

private:
    Pass pass_;
};

// Frees an object of the caller's store unless it is kept.
template <typename Object>
class Guard {
public:
    Guard(Pass &pass, Object object) noexcept : pass_(&pass), object_(object) {}
    Guard(const Guard &) = delete;
    Guard &operator=(const Guard &) = delete;

    ~Guard()
    {
        if (pass_ != nullptr) {
            try {
                pass_->free(object_);
            } catch (const Refusal &) {
                // A store without room has none for this either.
            }
        }
    }

    [[nodiscard]] Object object() const noexcept { return object_; }

    [[nodiscard]] Object keep() noexcept
    {
        pass_ = nullptr;
        return object_;
    }

private:
    Pass *pass_;
    Object object_;
};

// A new vector of the caller's store with these entries.
[[nodiscard]] inline Vector<Number> answer(Pass &pass, Index size, const Numbers &indices, const Numbers &values)
{
    Guard made(pass, pass.new_vector<Number>(size));
    pass.build(made.object(), indices, values, plus);
    return made.keep();
}

// The entries of a vector as two lists.
[[nodiscard]] inline std::pair<Numbers, Numbers> lists(const std::vector<VectorEntry<Number>> &entries)
{
    std::pair<Numbers, Numbers> found;
    for (const auto &entry : entries) {
        found.first.push_back(entry.index);
        found.second.push_back(entry.value);
    }
    return found;
}

// The best path to each vertex that is reached, where `best` chooses and `semiring` goes on by an edge.
[[nodiscard]] inline std::pair<Numbers, Numbers> best_paths(const Graph &graph, Index source, BinaryOp<Number> best,
                                                            Semiring<Number> semiring, Number at_source)
{
    Workshop work;
    const auto edges = work.matrix(graph.size, graph.rows, graph.columns, graph.values);
    // The best paths so far, and those of them that became better in the last round.
    auto paths = work.vector(graph.size, {source}, {at_source});
    const auto better = work.vector(graph.size, {source}, {at_source});
    auto before = work.pass().new_vector<Number>(graph.size);
    const auto change = work.pass().new_vector<Number>(graph.size);
    while (work.pass().nvals(better) > 0) {
        work.make_room(5);
        Pass &pass = work.pass();
        std::swap(paths, before);
        pass.vxm(better, semiring, better, edges);
        pass.ewise_add(paths, best, before, better);
        // A path is better where its value differs from the one before, or there was none.
        pass.ewise_mult(change, minus, paths, before);
        pass.ewise_mult(better, change, none, first, paths, paths, Descriptor::replace);
        pass.ewise_mult(better, before, none, first, paths, paths, Descriptor::structure | Descriptor::comp);
    }
    return lists(work.pass().entries(paths));
}

} // namespace detail

/// The levels and the parents of a search along the edges, from a source (LAGr_BreadthFirstSearch).
///
/// Both vectors have an entry for each vertex that is reached. Its level is the least number of edges from the source.
/// Its parent is the least vertex of the level before that has an edge to it; the source is its own. An undirected
/// graph has each edge both ways. Throws Refusal with Status::invalid_index where the source is no vertex.
template <typename T>
[[nodiscard]] Search breadth_first_search(Pass &pass, Matrix<T> graph, Index source)
{
    using namespace detail;
    const Graph of = read(pass, graph);
    check_source(of, source);
    Numbers found{source}, levels{0}, parents{source};
    {
        Workshop work;
        const auto edges = work.edges(of);
        const auto names = work.vector(of.size, vertices_of(of), vertices_of(of));
        // The front stores at each of its vertices the vertex itself, and what is reached its parent.
        const auto front = work.vector(of.size, {source}, {source});
        const auto reached = work.vector(of.size, {source}, {source});
        for (Number level = 1;; level++) {
            work.make_room(3);
            work.pass().vxm(front, reached, none, min_first, front, edges,
                            Descriptor::structure | Descriptor::comp | Descriptor::replace);
            const auto entries = work.pass().entries(front);
            if (entries.empty()) {
                break;
            }
            for (const auto &entry : entries) {
                found.push_back(entry.index);
                levels.push_back(level);
                parents.push_back(entry.value);
            }
            work.pass().ewise_add(reached, first, reached, front);
            work.pass().ewise_mult(front, second, front, names);
        }
    }
    Guard made(pass, answer(pass, of.size, found, levels));
    const auto of_parents = answer(pass, of.size, found, parents);
    return {made.keep(), of_parents};
}

/// The lengths of the shortest paths from a source (LAGr_SingleSourceShortestPath), where the values are the lengths of
/// edges.
///
/// The vector has an entry for each vertex that is reached: the length of a shortest path to it; 0 at the source. An
/// undirected graph has each edge both ways. Throws Refusal with Status::invalid_index where the source is no vertex,
/// and with Status::invalid_value where the largest length of an edge times the number of vertices is 2^64 or more.
[[nodiscard]] inline Vector<std::uint64_t> single_source_shortest_paths(Pass &pass, Matrix<std::uint64_t> graph,
                                                                        Index source)
{
    using namespace detail;
    const Graph of = read(pass, graph);
    check_source(of, source);
    const Number longest = of.values.empty() ? 0 : *std::max_element(of.values.begin(), of.values.end());
    check_range(longest <= UINT64_MAX / of.size,
                "the largest length of an edge times the number of vertices is 2^64 or more");
    const auto [found, lengths] = best_paths(of, source, min, min_plus, 0);
    return answer(pass, of.size, found, lengths);
}

/// The widths of the widest paths from a source, where the values are the widths of edges. A path is as wide as its
/// narrowest edge.
///
/// The vector has an entry for each vertex that is reached: the width of a widest path to it; 2^64 - 1 at the source,
/// which no edge narrows. An undirected graph has each edge both ways. Throws Refusal with Status::invalid_index where
/// the source is no vertex.
[[nodiscard]] inline Vector<std::uint64_t> widest_paths(Pass &pass, Matrix<std::uint64_t> graph, Index source)
{
    using namespace detail;
    const Graph of = read(pass, graph);
    check_source(of, source);
    const auto [found, widths] = best_paths(of, source, max, max_min, UINT64_MAX);
    return answer(pass, of.size, found, widths);
}

/// The connected components of an undirected graph (LAGr_ConnectedComponents).
///
/// The vector has an entry for each vertex: the least vertex of its component. Of a directed graph these are the weakly
/// connected ones.
template <typename T>
[[nodiscard]] Vector<std::uint64_t> connected_components(Pass &pass, Matrix<T> graph)
{
    using namespace detail;
    const Graph of = read(pass, graph);
    // Each vertex has a label, which is a vertex of its component and at most itself. The labels are trees: the label of
    // a label that is its own is a root, and the least of its tree.
    const Numbers vertices = vertices_of(of);
    Numbers labels = vertices;
    {
        Workshop work;
        const auto edges = work.undirected(of);
        const auto told = work.vector(of.size, vertices, labels);
        const auto least = work.pass().new_vector<Number>(of.size);
        for (bool is_joined = true; is_joined;) {
            work.make_room(3);
            work.pass().mxv(least, min_second, edges, told);
            is_joined = false;
            for (const auto &entry : work.pass().entries(least)) {
                Number &root = labels[labels[entry.index]];
                if (entry.value < root) {
                    root = entry.value;
                    is_joined = true;
                }
            }
            // A label is at most its vertex, so its own label is final before.
            for (Number &label : labels) {
                label = labels[label];
            }
            work.pass().clear(told);
            work.pass().build(told, vertices, labels, min);
        }
    }
    return answer(pass, of.size, vertices, labels);
}

/// The number of triangles of an undirected graph, each counted once (LAGr_TriangleCount): of sets of three vertices
/// that are all neighbours of each other.
template <typename T>
[[nodiscard]] std::uint64_t triangle_count(Pass &pass, Matrix<T> graph)
{
    using namespace detail;
    const Graph of = read(pass, graph);
    Workshop work;
    const auto below = work.below_diagonal(of);
    const auto triangles = work.pass().template new_matrix<Number>(of.size, of.size);
    work.pass().mxm(triangles, below, none, plus_times, below, below, Descriptor::structure);
    return work.pass().reduce(plus, triangles);
}

/// The k-truss of an undirected graph (LAGraph_KTruss): the largest subgraph whose edges are each in k - 2 or more of its
/// triangles.
///
/// The matrix has an entry for each edge of the truss, both ways: the number of the truss's triangles that the edge is
/// in. Throws Refusal with Status::invalid_value where k is below 3.
template <typename T>
[[nodiscard]] Matrix<std::uint64_t> k_truss(Pass &pass, Matrix<T> graph, std::uint64_t k)
{
    using namespace detail;
    check_range(k >= 3, "a k-truss has a k of at least 3");
    const Graph of = read(pass, graph);
    Workshop work;
    const auto edges = work.undirected(of);
    const auto bound = work.pass().template new_matrix<Number>(of.size, of.size);
    auto all = work.pass().entries(edges);
    for (auto &entry : all) {
        entry.value = k - 3;
    }
    work.pass().build(bound, all, min);
    const auto triangles = work.pass().template new_matrix<Number>(of.size, of.size);
    const auto excess = work.pass().template new_matrix<Number>(of.size, of.size);
    for (Index before = all.size(), left = 0;; before = left) {
        work.make_room(4);
        work.pass().mxm(triangles, edges, none, plus_times, edges, edges, Descriptor::structure | Descriptor::replace);
        work.above(excess, triangles, bound);
        work.pass().ewise_mult(edges, excess, none, first, edges, edges, Descriptor::replace);
        left = work.pass().nvals(edges);
        if (left == before) {
            break;
        }
    }
    Guard made(pass, pass.template new_matrix<Number>(of.size, of.size));
    pass.build(made.object(), work.pass().entries(triangles), min);
    return made.keep();
}

/// The k-core of an undirected graph (LAGraph_KCore): the largest subgraph whose vertices each have k or more neighbours
/// in it.
///
/// The vector has an entry for each vertex of the core: the number of its neighbours there. Throws Refusal with
/// Status::invalid_value where k is 0.
template <typename T>
[[nodiscard]] Vector<std::uint64_t> k_core(Pass &pass, Matrix<T> graph, std::uint64_t k)
{
    using namespace detail;
    check_range(k >= 1, "a k-core has a k of at least 1");
    const Graph of = read(pass, graph);
    Workshop work;
    const auto edges = work.undirected(of);
    const auto bound = work.vector(of.size, vertices_of(of), Numbers(static_cast<std::size_t>(of.size), k - 1));
    // The number of neighbours of each vertex that is left; of those that are kept, and that go now; and how far it is
    // above k - 1.
    auto left = work.pass().template new_vector<Number>(of.size);
    auto kept = work.pass().template new_vector<Number>(of.size);
    const auto gone = work.pass().template new_vector<Number>(of.size);
    const auto excess = work.pass().template new_vector<Number>(of.size);
    work.pass().reduce_rows(left, plus, edges);
    for (;;) {
        work.make_room(5);
        work.above(excess, left, bound);
        work.pass().ewise_mult(kept, excess, none, first, left, left, Descriptor::replace);
        work.pass().ewise_mult(gone, kept, none, first, left, left,
                               Descriptor::structure | Descriptor::comp | Descriptor::replace);
        if (work.pass().nvals(gone) == 0) {
            break;
        }
        std::swap(left, kept);
        work.pass().vxm(left, left, minus, plus_second, gone, edges, Descriptor::structure);
    }
    const auto [found, degrees] = lists(work.pass().entries(left));
    return answer(pass, of.size, found, degrees);
}

/// The PageRank of each vertex, in whole numbers (LAGr_PageRank).
///
/// Who walks along the edges takes each edge of a vertex alike, whatever its value; begins anew at any vertex where
/// there is none; and does so after each step in 100 - damping of 100 cases. An edge to itself counts. An undirected
/// graph has each edge both ways.
///
/// The vector has an entry for each vertex: its rank times the scale, rounded down in each round. It is the result of
/// the first round in which no more than one for each vertex changes in all, or of the last round. Throws Refusal with
/// Status::invalid_value where damping or scale is out of its range.
template <typename T>
[[nodiscard]] Vector<std::uint64_t> pagerank(Pass &pass, Matrix<T> graph, PageRank how = {})
{
    using namespace detail;
    check_range(how.damping <= 99, "the damping is from 0 to 99");
    check_range(how.scale >= 1 && how.scale <= PageRank::most_scale, "the scale is from 1 to 10^17");
    const Graph of = read(pass, graph);
    const Numbers vertices = vertices_of(of);
    Numbers ranks(vertices.size(), how.scale / of.size);
    {
        Workshop work;
        const auto edges = work.edges(of);
        Numbers leaving(vertices.size(), 0);
        for (const Index i : of.rows) {
            leaving[i]++;
        }
        const auto given = work.pass().template new_vector<Number>(of.size);
        const auto taken = work.pass().template new_vector<Number>(of.size);
        for (std::uint32_t round = 0; round < how.rounds; round++) {
            work.make_room(3);
            // A rank is at most the scale, so a hundred times it is below 2^64.
            Numbers shares(vertices.size(), 0);
            Number ended = 0;
            for (const Index i : vertices) {
                if (leaving[i] == 0) {
                    ended += ranks[i];
                } else {
                    shares[i] = ranks[i] * how.damping / (100 * leaving[i]);
                }
            }
            work.pass().clear(given);
            work.pass().build(given, vertices, shares, plus);
            work.pass().vxm(taken, plus_first, given, edges);
            Numbers next(vertices.size(), (how.scale * (100 - how.damping) + ended * how.damping) / (100 * of.size));
            for (const auto &entry : work.pass().entries(taken)) {
                next[entry.index] += entry.value;
            }
            Number changes = 0;
            for (const Index i : vertices) {
                changes += std::max(ranks[i], next[i]) - std::min(ranks[i], next[i]);
            }
            ranks = std::move(next);
            if (changes <= of.size) {
                break;
            }
        }
    }
    return answer(pass, of.size, vertices, ranks);
}

} // namespace trowelheath::algorithms

#endif
