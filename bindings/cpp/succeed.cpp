// A store of little room takes the edges of a graph. Each time it is full, a successor goes on.
//
//     c++ -std=c++17 -O2 -I../c -o succeed succeed.cpp libgrb_c.a liblibc_c.a -lpthread
#include "graph.hpp"
#include "trowelheath.hpp"

#include <cstddef>
#include <cstdint>
#include <exception>
#include <iostream>
#include <map>
#include <utility>
#include <vector>

namespace grb = trowelheath;

namespace {

constexpr std::uint32_t room = 100;
constexpr std::uint32_t passes_of_each = 2;
constexpr std::size_t count = 500;

using Graph = grb::Matrix<std::uint64_t>;
using Passes = std::vector<grb::Pass>;

/// All passes of the store.
Passes take_all(grb::Store store)
{
    Passes passes;
    while (store.passes_left() > 0) {
        passes.push_back(store.take());
    }
    return passes;
}

/// The passes of a successor of a full store.
Passes go_on(Passes &passes, Graph graph)
{
    const grb::Index edges = passes[0].nvals(graph);
    require(passes[0].is_full(), "no pass will know more");
    Passes next = take_all(passes[0].succeed(room, passes_of_each));
    std::cout << "full with " << edges << " edges; a successor begins with " << next[0].facts().known << " changes\n";
    require(next[0].facts().room_left == room, "what makes the objects takes none of the room");

    // The new passes see the same graph, but no object has a status yet. The old store goes on to answer.
    require(!next[1].last_status(graph), "statuses begin anew");
    require(next[1].nvals(graph) == edges, "the entries go over");
    require(passes[1].nvals(graph) == edges, "the old store answers");
    return next;
}

/// Stores an edge, in a successor where the store is full.
void add(Passes &passes, Graph graph, std::size_t k, const Edge &edge)
{
    try {
        passes[k % passes_of_each].set(graph, edge.from, edge.to, edge.weight);
    } catch (const grb::Refusal &refusal) {
        if (refusal.code() != grb::Status::order_full) {
            throw;
        }
        passes = go_on(passes, graph);
        passes[k % passes_of_each].set(graph, edge.from, edge.to, edge.weight);
    }
}

/// The weights of all edges, each as it was stored last.
std::uint64_t total_by_hand(const std::vector<Edge> &edges)
{
    std::map<std::pair<grb::Index, grb::Index>, std::uint64_t> weights;
    for (const Edge &edge : edges) {
        weights[{edge.from, edge.to}] = edge.weight;
    }
    std::uint64_t total = 0;
    for (const auto &[ends, weight] : weights) {
        total += weight;
    }
    return total;
}

/// Whether the store has no such object.
bool is_gone(grb::Pass &pass, grb::Matrix<bool> a)
{
    try {
        static_cast<void>(pass.nvals(a));
    } catch (const grb::Refusal &refusal) {
        return refusal.code() == grb::Status::uninitialized_object;
    }
    return false;
}

void run()
{
    const auto edges = draw_edges(8, count);

    Passes passes = take_all(grb::Store(room, passes_of_each));
    const Graph graph = passes[0].new_matrix<std::uint64_t>(vertices, vertices);
    const auto gone = passes[0].new_matrix<bool>(1, 1);
    passes[0].free(gone);
    for (std::size_t k = 0; k < edges.size(); k++) {
        add(passes, graph, k, edges[k]);
    }

    const auto total = passes[0].reduce(grb::plus, graph);
    std::cout << passes[0].nvals(graph) << " edges of weight " << total << " in the last store\n";
    require(passes[0].nvals(graph) == pairs_of(edges).size(), "no edge is lost");
    require(total == total_by_hand(edges), "no weight is lost");

    // A freed matrix stays freed, and its number is not given again.
    require(is_gone(passes[0], gone), "a freed matrix stays freed");
    const auto made = passes[0].new_matrix<std::uint64_t>(1, 1);
    std::cout << "the next matrix has the number " << made.id() << '\n';
    require(made.id() == gone.id() + 1, "numbers are given once");
}

} // namespace

int main()
{
    try {
        run();
    } catch (const std::exception &error) {
        std::cerr << "succeed: " << error.what() << '\n';
        return 1;
    }
    return 0;
}
