// Paths of two steps are counted in a branch, while the graph changes. One change brings the result back.
//
//     c++ -std=c++17 -O2 -o branch branch.cpp libgrb_c.a liblibc_c.a -lpthread
#include "trowelheath.hpp"

#include <cstdint>
#include <iostream>
#include <utility>
#include <vector>

using namespace trowelheath;

namespace {

constexpr Index vertices = 4;

// How many paths of two steps lead from each vertex to each, in a branch that has the graph as its matrix 0.
Matrix<std::uint64_t> two_steps(Pass &own)
{
    const Matrix<std::uint64_t> graph(0);
    const auto paths = own.new_matrix<std::uint64_t>(vertices, vertices);
    own.mxm(paths, plus_times, graph, graph);
    return paths;
}

} // namespace

int main()
{
    Store store(8, 1);
    Pass pass = store.take();
    const auto graph = pass.new_matrix<std::uint64_t>(vertices, vertices);
    const auto counted = pass.new_matrix<std::uint64_t>(vertices, vertices);
    pass.build(graph, {0, 1, 2}, {1, 2, 3}, {1, 1, 1}, plus);

    Store apart = pass.branch({graph.id()}, {}, 10, 1);
    Pass own = apart.take();
    std::cout << "the graph takes " << own.facts().known << " changes\n";
    pass.clear(graph);
    const auto paths = two_steps(own);
    pass.build_from(counted, own, paths);
    std::cout << pass.nvals(counted) << " paths of two steps, and " << pass.nvals(graph) << " edges left\n";
    return 0;
}
