// A service without an end: 50,000 requests of four threads in a chain of stores, each with two temporaries, and an
// analysis in a branch, whose result comes back. The memory stays what it is.
//
//     c++ -std=c++17 -O2 -pthread -I../c -o chain chain.cpp libgrb_c.a liblibc_c.a
#include "trowelheath.hpp"

#include <cstddef>
#include <cstdint>
#include <exception>
#include <fstream>
#include <future>
#include <iostream>
#include <stdexcept>
#include <vector>

namespace grb = trowelheath;

namespace {

constexpr std::size_t workers = 4;
constexpr std::size_t requests = 50000;
constexpr std::size_t first = 1000;
constexpr grb::Index size = 16;

/// How many pages of memory the process may grow between its first thousand requests and its last.
constexpr long most_growth = 16384;

using Counts = grb::Vector<std::uint64_t>;

void require(bool holds, const char *what)
{
    if (!holds) {
        throw std::logic_error(what);
    }
}

/// The pages of the process that are not given back.
long resident()
{
    long all = 0, used = 0;
    require(static_cast<bool>(std::ifstream("/proc/self/statm") >> all >> used), "this is Linux");
    return used;
}

/// So many requests: what is counted there, one more than before each, by way of two temporaries.
void serve(grb::Pass &pass, Counts counts, grb::Index own, std::size_t times)
{
    for (std::size_t k = 0; k < times; k++) {
        const auto one = pass.new_vector<std::uint64_t>(size);
        const auto sum = pass.new_vector<std::uint64_t>(size);
        pass.set(one, own, 1);
        pass.ewise_add(sum, grb::plus, counts, one);
        pass.set(counts, own, pass.get(sum, own).value());
        pass.free(one);
        pass.free(sum);
    }
}

/// All threads at once, each with its share of the requests.
void serve_all(std::vector<grb::Pass> &passes, Counts counts)
{
    std::vector<std::future<void>> served;
    for (std::size_t t = 0; t < workers; t++) {
        served.push_back(std::async(std::launch::async,
                                    [&pass = passes[t], counts, t] { serve(pass, counts, t, requests / workers); }));
    }
    for (auto &done : served) {
        done.get();
    }
}

/// The squares of the counts, found in a branch while the chain goes on, and brought back.
void publish(grb::Pass &pass, Counts counts, Counts squares)
{
    grb::Store apart = pass.branch({}, {counts.id()}, 10, 1);
    grb::Pass own = apart.take();
    pass.clear(counts);
    const Counts there(0);
    const auto made = own.new_vector<std::uint64_t>(size);
    own.ewise_mult(made, grb::times, there, there);
    pass.build_from(squares, own, made);
    try {
        static_cast<void>(own.generation());
        throw std::logic_error("a branch has no generations");
    } catch (const grb::Refusal &refusal) {
        require(refusal.code() == grb::Status::invalid_value, "a branch is of no chain");
    }
}

/// What the passes were not asked for while they served.
void end(std::vector<grb::Pass> &passes, Counts counts)
{
    require(passes[0].generation() > 50, "generations have gone");
    require(!passes[0].go_on() && !passes[0].is_full(), "there is room");
    try {
        static_cast<void>(passes[0].succeed(10, 1));
        throw std::logic_error("a chain has no successor");
    } catch (const grb::Refusal &refusal) {
        require(refusal.code() == grb::Status::invalid_value, "a chain goes on by itself");
    }

    // The pass of a thread that has ended is had anew.
    passes.erase(passes.begin() + 1);
    auto again = passes[0].seat(1);
    require(again.has_value() && again->facts().number == 1 && again->nvals(counts) == 0, "the seat is there");
    require(!passes[0].seat(1).has_value(), "a pass that is there is not had twice");
}

void run()
{
    grb::Chain chain(workers);
    std::vector<grb::Pass> passes;
    while (chain.passes_left() > 0) {
        passes.push_back(chain.take());
    }
    const auto counts = passes[0].new_vector<std::uint64_t>(size);
    const auto squares = passes[0].new_vector<std::uint64_t>(size);
    serve(passes[0], counts, workers, first);
    const long before = resident();
    serve_all(passes, counts);
    require(resident() < before + most_growth, "the memory stays what it is");

    std::cout << passes[0].reduce(grb::plus, counts) << " requests are counted\n";
    publish(passes[0], counts, squares);
    std::cout << "their squares are " << passes[1].reduce(grb::plus, squares) << '\n';
    end(passes, counts);
}

} // namespace

int main()
{
    try {
        run();
    } catch (const std::exception &error) {
        std::cerr << "chain: " << error.what() << '\n';
        return 1;
    }
    return 0;
}
