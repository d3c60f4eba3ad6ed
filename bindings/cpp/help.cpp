// Passes make a dear product together: some only help, and two that read it at the same time make different
// blocks of it. What each reads is what one pass makes alone.
//
//     c++ -std=c++17 -O2 -pthread -I../c -o help help.cpp libgrb_c.a liblibc_c.a
#include "graph.hpp"
#include "trowelheath.hpp"

#include <atomic>
#include <chrono>
#include <cstddef>
#include <cstdint>
#include <exception>
#include <future>
#include <iostream>
#include <thread>
#include <vector>

namespace grb = trowelheath;

namespace {

constexpr grb::Index side = 128;
constexpr grb::Index corners = 256;
constexpr std::size_t readers = 2;
constexpr std::size_t helpers = 3;
constexpr int rounds = 8;
constexpr std::uint32_t room = 256;

/// In a graph with all edges each three vertices are a triangle.
constexpr std::uint64_t all_triangles = corners * (corners - 1) * (corners - 2) / 6;

using Graph = grb::Matrix<std::uint64_t>;

/// A matrix with ones in each row i at the columns below `columns(i)`.
template <typename Columns>
Graph ones(grb::Pass &pass, grb::Index size, Columns columns)
{
    std::vector<grb::Index> at_rows, at_columns;
    for (grb::Index i = 0; i < size; i++) {
        for (grb::Index j = 0; j < columns(i); j++) {
            at_rows.push_back(i);
            at_columns.push_back(j);
        }
    }
    const auto a = pass.new_matrix<std::uint64_t>(size, size);
    pass.build(a, at_rows, at_columns, std::vector<std::uint64_t>(at_rows.size(), 1), grb::plus);
    return a;
}

/// A full matrix of ones times itself has as many in each place as it has rows.
void square(grb::Pass &pass)
{
    const auto a = ones(pass, side, [](grb::Index) { return side; });
    const auto c = pass.new_matrix<std::uint64_t>(side, side);
    pass.mxm(c, grb::plus_times, a, a);
    const auto all = pass.entries(c);
    require(all.size() == side * side, "an entry at each place");
    for (const auto &entry : all) {
        require(entry.value == side, "as many as there are rows");
    }
}

void help_nobody()
{
    grb::Store store(room, 2);
    grb::Pass own = store.take(), other = store.take();
    const auto v = own.new_vector<std::uint64_t>(10);
    own.set(v, 3, 7);
    require(own.nvals(v) == 1, "one entry");
    require(other.help() == 0 && other.blocks() == 0, "there is nothing to help with");
    std::cout << "nothing dear: no blocks\n";
}

void multiply_by_blocks()
{
    grb::Store store(room, 2);
    grb::Pass own = store.take(), other = store.take();
    square(own);
    require(own.blocks() > 0 && other.blocks() == own.blocks(), "both tell how many blocks were made");
    std::cout << "two passes: " << side << " at each of " << side * side << " places, by blocks\n";
}

/// Helps until the readers are done.
void help(grb::Pass &pass, const std::atomic<bool> &is_over)
{
    while (!is_over) {
        if (pass.help() == 0) {
            std::this_thread::sleep_for(std::chrono::microseconds(100));
        }
    }
}

/// Counts the triangles again and again, each time in a matrix of its own.
void count(grb::Pass &pass, Graph graph)
{
    for (int round = 0; round < rounds; round++) {
        const auto t = pass.new_matrix<std::uint64_t>(corners, corners);
        pass.mxm(t, graph, grb::none, grb::plus_times, graph, graph, grb::Descriptor::structure);
        require(pass.reduce(grb::plus, t) == all_triangles, "each three vertices are a triangle");
        pass.free(t);
    }
}

void count_together()
{
    grb::Store store(room, readers + helpers);
    std::vector<grb::Pass> passes;
    while (store.passes_left() > 0) {
        passes.push_back(store.take());
    }
    const Graph graph = ones(passes[0], corners, [](grb::Index i) { return i; });
    std::atomic<bool> is_over{false};
    std::vector<std::future<void>> counts, helps;
    for (std::size_t k = 0; k < passes.size(); k++) {
        grb::Pass &pass = passes[k];
        if (k < readers) {
            counts.push_back(std::async(std::launch::async, [&pass, graph] { count(pass, graph); }));
        } else {
            helps.push_back(std::async(std::launch::async, [&pass, &is_over] { help(pass, is_over); }));
        }
    }
    for (auto &done : counts) {
        done.wait();
    }
    is_over = true;
    for (auto *all : {&counts, &helps}) {
        for (auto &done : *all) {
            done.get();
        }
    }
    require(passes[0].blocks() > 0, "blocks were made");
    std::cout << readers << " passes, " << helpers << " that help: " << all_triangles << " triangles in each of "
              << rounds << " rounds\n";
}

} // namespace

int main()
{
    try {
        help_nobody();
        multiply_by_blocks();
        count_together();
    } catch (const std::exception &error) {
        std::cerr << "help: " << error.what() << '\n';
        return 1;
    }
    return 0;
}
