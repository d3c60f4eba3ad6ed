// Four threads fill one graph, each by a pass of its own, and then each counts its triangles.
//
//     c++ -std=c++17 -O2 -pthread -I../c -o threads threads.cpp libgrb_c.a liblibc_c.a
#include "graph.hpp"
#include "trowelheath.hpp"

#include <cstddef>
#include <cstdint>
#include <exception>
#include <future>
#include <iostream>
#include <vector>

namespace grb = trowelheath;

namespace {

constexpr std::size_t threads = 4;
constexpr std::size_t share = 1000;

using Graph = grb::Matrix<std::uint64_t>;

/// Stores a share of the edges. The pass sees each of its own entries at once, and of the others more and more.
void fill(grb::Pass &pass, Graph graph, const Edge *begin, const Edge *end)
{
    grb::Index before = 0;
    for (const Edge *edge = begin; edge != end; edge++) {
        pass.set(graph, edge->from, edge->to, 1);
        require(pass.get(graph, edge->from, edge->to) == std::uint64_t{1}, "a pass sees its own entry");
        const grb::Index nvals = pass.nvals(graph);
        require(nvals > 0 && nvals >= before, "no entry is lost");
        before = nvals;
    }
}

/// Counts the triangles of the whole graph in a matrix of its own.
std::uint64_t count(grb::Pass &pass, Graph graph)
{
    const auto t = pass.new_matrix<std::uint64_t>(vertices, vertices);
    pass.mxm(t, graph, grb::none, grb::plus_times, graph, graph, grb::Descriptor::structure);
    const auto triangles = pass.reduce(grb::plus, t);
    pass.free(t);
    return triangles;
}

void run()
{
    auto edges = draw_edges(4, threads * share);
    put_below_diagonal(edges);

    grb::Store store(threads * share + 16, threads);
    std::vector<grb::Pass> passes;
    while (store.passes_left() > 0) {
        passes.push_back(store.take());
    }
    const Graph graph = passes[0].new_matrix<std::uint64_t>(vertices, vertices);

    std::vector<std::future<void>> fills;
    for (std::size_t t = 0; t < threads; t++) {
        const Edge *begin = edges.data() + t * share;
        fills.push_back(std::async(std::launch::async,
                                   [&pass = passes[t], graph, begin] { fill(pass, graph, begin, begin + share); }));
    }
    for (auto &done : fills) {
        done.get();
    }

    // The threads have ended, so every pass sees what all of them did.
    const auto nvals = pairs_of(edges).size();
    for (grb::Pass &pass : passes) {
        require(pass.nvals(graph) == nvals, "every pass sees every edge");
    }
    std::vector<std::future<std::uint64_t>> counts;
    for (grb::Pass &pass : passes) {
        counts.push_back(std::async(std::launch::async, [&pass, graph] { return count(pass, graph); }));
    }

    std::cout << vertices << " vertices, " << nvals << " edges by " << threads << " threads\n";
    const auto by_hand = triangles_by_hand(edges);
    for (std::size_t t = 0; t < threads; t++) {
        const auto triangles = counts[t].get();
        require(triangles == by_hand, "every pass counts the same");
        std::cout << "pass " << t << ": " << triangles << " triangles\n";
    }
}

} // namespace

int main()
{
    try {
        run();
    } catch (const std::exception &error) {
        std::cerr << "threads: " << error.what() << '\n';
        return 1;
    }
    return 0;
}
