// A branch and a successor begin with all that was entered before they were opened, by whatever pass: also where the
// pass that opens them has not read, of an object that another pass made, and changed after. And a pass of a chain that
// meets another one in its later generation knows all that it knows.
//
//     c++ -std=c++17 -O2 -I../c -o newest newest.cpp libgrb_c.a liblibc_c.a -lpthread
#include "graph.hpp"
#include "trowelheath.hpp"

#include <cstdint>
#include <iostream>
#include <utility>

namespace grb = trowelheath;

namespace {

using Graph = grb::Matrix<std::uint64_t>;

/// A path of so many edges, of which the first half comes first.
constexpr grb::Index edges = 18, half = 9, vertices = edges + 1;

constexpr std::uint32_t room = 100;

/// Of a generation of the chain, which takes less than half of the edges.
constexpr std::uint32_t little_room = 8;

void add(grb::Pass &pass, Graph graph, grb::Index from)
{
    for (grb::Index k = from; k < from + half; k++) {
        pass.set(graph, k, k + 1, 1);
    }
}

/// A branch of the graph, which has the number 0 there, and another one here.
void branch_has(grb::Pass &opens, Graph graph, grb::Index wanted)
{
    grb::Store apart = opens.branch({graph.id()}, {}, room, 1);
    grb::Pass own = apart.take();
    require(graph.id() != 0, "the graph has another number here");
    require(own.nvals(Graph(0)) == wanted, "the branch has all edges");
}

/// A successor, in which the graph has its handle, and what is made there has another one.
void successor_has(grb::Pass &opens, Graph graph, grb::Index wanted)
{
    grb::Store next = opens.succeed(room, 1);
    grb::Pass own = next.take();
    const auto made = own.new_matrix<std::uint64_t>(vertices, vertices);
    require(made.id() == graph.id() + 1, "no number is given anew");
    own.set(made, 2, 2, 99);
    require(own.nvals(graph) == wanted, "the successor has all edges");
    require(own.nvals(made) == 1, "what is made there is another object");
}

/// The first pass makes no call but those that open other stores.
void of_one(const char *what, grb::Pass opens, grb::Pass enters, bool has_successor)
{
    const auto gone = enters.new_matrix<std::uint64_t>(1, 1);
    const auto graph = enters.new_matrix<std::uint64_t>(vertices, vertices);
    enters.free(gone);
    for (grb::Index from = 0; from < edges; from += half) {
        add(enters, graph, from);
        branch_has(opens, graph, from + half);
        if (has_successor) {
            successor_has(opens, graph, from + half);
        }
        std::cout << what << ": " << from + half << " edges\n";
    }
}

/// A pass goes where the other one sits, and knows all that it knows.
void meet_in_chain(bool adopts)
{
    grb::Chain chain(little_room, 2);
    grb::Pass behind = chain.take(), ahead = chain.take();
    const auto graph = ahead.new_matrix<std::uint64_t>(vertices, vertices);
    add(ahead, graph, 0);
    require(ahead.meet(behind), "a pass ahead knows all of an earlier generation");
    require(ahead.generation() == 1 && behind.generation() == 0, "the other one has not moved");
    require(adopts ? behind.adopt(ahead) : behind.meet(ahead), "the two met");
    require(behind.generation() == 1, "the pass has moved");
    require(behind.facts().known == ahead.facts().known, "it knows all that the other one knows");
}

} // namespace

int main()
{
    grb::Store store(room, 2);
    grb::Pass opens = store.take();
    of_one("a store", std::move(opens), store.take(), true);
    grb::Chain chain(little_room, 2);
    grb::Pass sits = chain.take();
    of_one("a chain", std::move(sits), chain.take(), false);
    meet_in_chain(false);
    meet_in_chain(true);
    return 0;
}
