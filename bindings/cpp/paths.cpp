// Shortest paths from one vertex by products over min and plus, and once more edge by edge.
//
//     c++ -std=c++17 -O2 -I../c -o paths paths.cpp libgrb_c.a liblibc_c.a -lpthread
#include "graph.hpp"
#include "trowelheath.hpp"

#include <cstddef>
#include <cstdint>
#include <exception>
#include <iostream>
#include <optional>
#include <utility>
#include <vector>

namespace grb = trowelheath;

namespace {

constexpr grb::Index start = 0;

/// The distance of each vertex, where it is reached.
using Distances = std::vector<std::optional<std::uint64_t>>;

/// Of an edge that comes twice the smaller weight counts.
grb::Matrix<std::uint64_t> load(grb::Pass &pass, const std::vector<Edge> &edges)
{
    std::vector<grb::Index> from, to;
    std::vector<std::uint64_t> weights;
    for (const Edge &edge : edges) {
        from.push_back(edge.from);
        to.push_back(edge.to);
        weights.push_back(edge.weight);
    }
    const auto graph = pass.new_matrix<std::uint64_t>(vertices, vertices);
    pass.build(graph, from, to, weights, grb::min);
    return graph;
}

/// Lets each distance be the least over one more edge, until a round changes none. Answers how many rounds
/// changed one.
std::size_t relax(grb::Pass &pass, grb::Vector<std::uint64_t> distance, grb::Matrix<std::uint64_t> graph)
{
    auto before = pass.entries(distance);
    for (std::size_t rounds = 0;; rounds++) {
        pass.vxm(distance, grb::none, grb::min, grb::min_plus, distance, graph);
        auto after = pass.entries(distance);
        if (after == before) {
            return rounds;
        }
        before = std::move(after);
    }
}

/// The algorithm of Bellman and Ford.
Distances paths_by_hand(const std::vector<Edge> &edges)
{
    Distances distances(vertices);
    distances[start] = 0;
    for (bool has_changed = true; has_changed;) {
        has_changed = false;
        for (const Edge &edge : edges) {
            const auto &known = distances[edge.from];
            auto &there = distances[edge.to];
            if (known && (!there || *known + edge.weight < *there)) {
                there = *known + edge.weight;
                has_changed = true;
            }
        }
    }
    return distances;
}

void run()
{
    const auto edges = draw_edges(3, 4000);
    grb::Store store(vertices + 8, 1);
    grb::Pass pass = store.take();
    const auto graph = load(pass, edges);
    const auto distance = pass.new_vector<std::uint64_t>(vertices);
    pass.set(distance, start, 0);
    const auto rounds = relax(pass, distance, graph);

    const auto by_hand = paths_by_hand(edges);
    for (grb::Index i = 0; i < vertices; i++) {
        require(pass.get(distance, i) == by_hand[i], "each distance is the same by hand");
    }
    std::cout << vertices << " vertices, " << pass.nvals(graph) << " edges, from vertex " << start << '\n';
    std::cout << pass.nvals(distance) << " reached in " << rounds << " rounds\n";
    std::cout << "farthest " << pass.reduce(grb::max, distance) << ", sum " << pass.reduce(grb::plus, distance) << '\n';
}

} // namespace

int main()
{
    try {
        run();
    } catch (const std::exception &error) {
        std::cerr << "paths: " << error.what() << '\n';
        return 1;
    }
    return 0;
}
