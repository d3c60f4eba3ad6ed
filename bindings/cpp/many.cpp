// A chain of 40,000 vectors, each with an entry, which goes on for many generations: one of them is changed, half of them
// are freed, and the others are as they were. How many more there is place for falls and rises.
//
//     c++ -std=c++17 -O2 -pthread -I../c -o many many.cpp libgrb_c.a liblibc_c.a
#include "trowelheath.hpp"

#include <cstddef>
#include <cstdint>
#include <exception>
#include <iostream>
#include <stdexcept>
#include <vector>

namespace grb = trowelheath;

namespace {

constexpr std::size_t vectors = 40000;
constexpr std::uint64_t sets = 10000;
constexpr grb::Index last = 3;

using Numbers = grb::Vector<std::uint64_t>;

void require(bool holds, const char *what)
{
    if (!holds) {
        throw std::logic_error(what);
    }
}

/// How many more objects there is place for in the next generation, before it takes a change. The vector is changed as
/// often as this one takes changes yet.
std::uint64_t left_in_next(grb::Pass &pass, Numbers v)
{
    const std::uint32_t room_left = pass.facts().room_left;
    for (std::uint32_t k = 0; k < room_left; k++) {
        pass.set(v, 0, k);
    }
    require(pass.go_on(), "the generation is full");
    return pass.objects_left();
}

void run()
{
    grb::Chain chain(4096, 2);
    grb::Pass own = chain.take(), other = chain.take();
    const std::uint64_t first = own.objects_left();
    std::cout << "place for " << first << " vectors\n";
    std::vector<Numbers> all;
    for (std::size_t k = 0; k < vectors; k++) {
        all.push_back(own.new_vector<std::uint64_t>(last + 1));
        own.set(all[k], last, k);
    }
    std::uint64_t left = left_in_next(own, all[0]);
    std::cout << "place for " << left << " more beside " << vectors << "\n";
    require(left + vectors == first, "it falls by what is there");

    for (std::uint64_t k = 1; k <= sets; k++) {
        other.set(all[0], last, k);
    }
    require(own.get(all[0], last) == sets, "the other pass has set it");
    for (std::size_t k = 1; k < vectors; k++) {
        require(own.get(all[k], last) == k, "no other vector has changed");
    }

    for (std::size_t k = 1; k < vectors; k += 2) {
        own.free(all[k]);
    }
    left = left_in_next(own, all[0]);
    std::cout << "place for " << left << " more beside " << vectors / 2 << "\n";
    require(left + vectors / 2 == first, "it rises by what was freed");
    for (std::size_t k = 2; k < vectors; k += 2) {
        require(other.get(all[k], last) == k, "what was not freed is there");
    }
    std::cout << "generation " << own.generation() << "\n";

    grb::Store store(2, 1);
    grb::Pass bounded = store.take();
    try {
        static_cast<void>(bounded.objects_left());
        throw std::logic_error("a store with a room is no chain");
    } catch (const grb::Refusal &refusal) {
        require(refusal.code() == grb::Status::invalid_value, "the store is of no chain");
    }
}

} // namespace

int main()
{
    try {
        run();
    } catch (const std::exception &failure) {
        std::cerr << failure.what() << "\n";
        return 1;
    }
    return 0;
}
