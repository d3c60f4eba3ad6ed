// Zachary's karate club: its triangles, its trusses, who has many ties, and who is two steps from a member and not
// tied to it. Each is found by filters: of places, of values, and by a mask.
//
//     c++ -std=c++17 -O2 -I../c -o club club.cpp libgrb_c.a liblibc_c.a -lpthread
#include "trowelheath.hpp"

#include <cstdint>
#include <exception>
#include <iostream>
#include <vector>

namespace grb = trowelheath;

namespace {

using Ties = grb::Matrix<std::uint64_t>;

constexpr grb::Index members = 34;

/// Two members for each tie.
constexpr grb::Index ties[][2] = {
    {0, 1}, {0, 2}, {0, 3}, {0, 4}, {0, 5}, {0, 6}, {0, 7}, {0, 8}, {0, 10}, {0, 11}, {0, 12}, {0, 13}, {0, 17},
    {0, 19}, {0, 21}, {0, 31}, {1, 2}, {1, 3}, {1, 7}, {1, 13}, {1, 17}, {1, 19}, {1, 21}, {1, 30}, {2, 3}, {2, 7},
    {2, 8}, {2, 9}, {2, 13}, {2, 27}, {2, 28}, {2, 32}, {3, 7}, {3, 12}, {3, 13}, {4, 6}, {4, 10}, {5, 6}, {5, 10},
    {5, 16}, {6, 16}, {8, 30}, {8, 32}, {8, 33}, {9, 33}, {13, 33}, {14, 32}, {14, 33}, {15, 32}, {15, 33},
    {18, 32}, {18, 33}, {19, 33}, {20, 32}, {20, 33}, {22, 32}, {22, 33}, {23, 25}, {23, 27}, {23, 29}, {23, 32},
    {23, 33}, {24, 25}, {24, 27}, {24, 31}, {25, 31}, {26, 29}, {26, 33}, {27, 33}, {28, 31}, {28, 33}, {29, 32},
    {29, 33}, {30, 32}, {30, 33}, {31, 32}, {31, 33}, {32, 33},
};

/// The club has 1 at each tie, from either member to the other.
Ties load(grb::Pass &pass)
{
    std::vector<grb::MatrixEntry<std::uint64_t>> entries;
    for (const auto &tie : ties) {
        entries.push_back({tie[0], tie[1], 1});
        entries.push_back({tie[1], tie[0], 1});
    }
    const auto club = pass.new_matrix<std::uint64_t>(members, members);
    pass.build(club, entries, grb::plus);
    return club;
}

/// The part below the diagonal has each tie once. Its product with itself has at (i,j) the number of paths from i down
/// over some k to j; where i and j are tied too, each is a triangle.
std::uint64_t triangles(grb::Pass &pass, Ties club)
{
    const auto below = pass.new_matrix<std::uint64_t>(members, members);
    const auto paths = pass.new_matrix<std::uint64_t>(members, members);
    pass.select(below, grb::tril, club, -1);
    pass.mxm(paths, below, grb::none, grb::plus_times, below, below, grb::Descriptor::structure);
    return pass.reduce(grb::plus, paths);
}

/// The k-truss: the most ties of which each is in k - 2 triangles of them. Ties in fewer are left out until none is.
Ties truss_of(grb::Pass &pass, Ties club, std::uint64_t k)
{
    using grb::Descriptor;
    const auto truss = pass.dup(club);
    const auto support = pass.new_matrix<std::uint64_t>(members, members);
    grb::Index nvals = pass.nvals(truss), before = 0;
    do {
        before = nvals;
        pass.mxm(support, truss, grb::none, grb::plus_times, truss, truss, Descriptor::structure | Descriptor::replace);
        pass.select(support, grb::valuege, support, k - 2);
        pass.apply(truss, grb::first, 1, support);
        nvals = pass.nvals(truss);
    } while (nvals != before);
    pass.free(support);
    return truss;
}

/// The degree of each member with a tie: the sum of its row.
grb::Vector<std::uint64_t> degrees_of(grb::Pass &pass, Ties club)
{
    const auto degrees = pass.new_vector<std::uint64_t>(members);
    pass.reduce_rows(degrees, grb::plus, club);
    return degrees;
}

/// Two steps along ties, and what is known is the mask: the member and who is tied to it.
grb::Vector<std::uint64_t> two_hops(grb::Pass &pass, Ties club, grb::Index member)
{
    using grb::Descriptor;
    const auto known = pass.new_vector<std::uint64_t>(members);
    const auto found = pass.new_vector<std::uint64_t>(members);
    pass.set(known, member, 1);
    pass.vxm(found, grb::plus_times, known, club);
    pass.ewise_add(known, grb::plus, known, found);
    pass.vxm(found, known, grb::none, grb::plus_times, found, club,
             Descriptor::structure | Descriptor::comp | Descriptor::replace);
    return found;
}

void run()
{
    grb::Store store(200, 1);
    grb::Pass pass = store.take();
    const auto club = load(pass);
    std::cout << "triangles " << triangles(pass, club) << '\n';
    for (std::uint64_t k = 3; k <= 5; k++) {
        const auto truss = truss_of(pass, club, k);
        std::cout << "truss " << k << " ties " << pass.nvals(truss) / 2 << " members "
                  << pass.nvals(degrees_of(pass, truss)) << '\n';
    }
    const auto degrees = degrees_of(pass, club);
    pass.select(degrees, grb::valuege, degrees, 9);
    std::cout << "degree at least 9:";
    const char *before = " ";
    for (const auto &entry : pass.entries(degrees)) {
        std::cout << before << entry.index << ' ' << entry.value;
        before = ", ";
    }
    std::cout << "\ntwo hops from 16, no tie:";
    for (const auto &entry : pass.entries(two_hops(pass, club, 16))) {
        std::cout << ' ' << entry.index;
    }
    std::cout << '\n';
}

} // namespace

int main()
{
    try {
        run();
    } catch (const std::exception &error) {
        std::cerr << "club: " << error.what() << '\n';
        return 1;
    }
    return 0;
}
