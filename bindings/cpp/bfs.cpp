// Breadth-first search: the level of each vertex by products, and once more by a queue.
//
//     c++ -std=c++17 -O2 -I../c -o bfs bfs.cpp libgrb_c.a liblibc_c.a -lpthread
#include "graph.hpp"
#include "trowelheath.hpp"

#include <algorithm>
#include <cstddef>
#include <exception>
#include <iostream>
#include <optional>
#include <queue>
#include <vector>

namespace grb = trowelheath;

namespace {

constexpr grb::Index start = 0;

/// The level of each vertex, where it was reached.
using Levels = std::vector<std::optional<std::size_t>>;

/// Each level takes two changes of the room.
Levels search(grb::Pass &pass, grb::Matrix<bool> graph)
{
    using grb::Descriptor;
    Levels levels(vertices);
    const auto front = pass.new_vector<bool>(vertices);
    const auto seen = pass.new_vector<bool>(vertices);
    pass.set(front, start, true);
    for (std::size_t depth = 0;; depth++) {
        const auto reached = pass.entries(front);
        if (reached.empty()) {
            return levels;
        }
        for (const auto &entry : reached) {
            levels[entry.index] = depth;
        }
        // The next front: where edges lead from this one, but not to what was seen.
        pass.ewise_add(seen, grb::lor, seen, front);
        pass.vxm(front, seen, grb::none, grb::lor_land, front, graph,
                 Descriptor::structure | Descriptor::comp | Descriptor::replace);
    }
}

Levels search_by_hand(const std::vector<Edge> &edges)
{
    std::vector<std::vector<grb::Index>> next(vertices);
    for (const Edge &edge : edges) {
        next[edge.from].push_back(edge.to);
    }
    Levels levels(vertices);
    std::queue<grb::Index> queue;
    levels[start] = 0;
    queue.push(start);
    while (!queue.empty()) {
        const grb::Index i = queue.front();
        queue.pop();
        for (const grb::Index j : next[i]) {
            if (!levels[j]) {
                levels[j] = *levels[i] + 1;
                queue.push(j);
            }
        }
    }
    return levels;
}

void run()
{
    const auto edges = draw_edges(5, 2000);
    std::vector<grb::MatrixEntry<bool>> entries;
    for (const Edge &edge : edges) {
        entries.push_back({edge.from, edge.to, true});
    }

    grb::Store store(2 * vertices + 8, 1);
    grb::Pass pass = store.take();
    const auto graph = pass.new_matrix<bool>(vertices, vertices);
    pass.build(graph, entries, grb::lor);
    const auto levels = search(pass, graph);

    require(levels == search_by_hand(edges), "both searches find the same levels");
    std::cout << vertices << " vertices, " << pass.nvals(graph) << " edges, from vertex " << start << '\n';
    for (std::size_t depth = 0;; depth++) {
        const auto count = std::count(levels.begin(), levels.end(), depth);
        if (count == 0) {
            break;
        }
        std::cout << "level " << depth << ": " << count << '\n';
    }
}

} // namespace

int main()
{
    try {
        run();
    } catch (const std::exception &error) {
        std::cerr << "bfs: " << error.what() << '\n';
        return 1;
    }
    return 0;
}
