// What refusals say: each is made to come, and its text is printed. Values are whole numbers or truth values.
//
//     c++ -std=c++17 -O2 -I../c -o messages messages.cpp libgrb_c.a liblibc_c.a -lpthread
#include "graph.hpp"
#include "trowelheath.hpp"

#include <cstdlib>
#include <exception>
#include <iostream>
#include <string_view>
#include <utility>
#include <vector>

namespace grb = trowelheath;

namespace {

/// Prints the text of the refusal of this call, which has the status.
template <typename Call>
void refused(grb::Status code, Call call)
{
    try {
        call();
    } catch (const grb::Refusal &refusal) {
        require(refusal.code() == code, "the call is refused with its status");
        std::cout << refusal.what() << '\n';
        return;
    }
    require(false, "the call is refused");
}

void shapes(grb::Pass &pass)
{
    using grb::Descriptor;
    const auto mismatch = grb::Status::dimension_mismatch;
    const auto a = pass.new_matrix<std::uint64_t>(3, 4);
    const auto b = pass.new_matrix<std::uint64_t>(3, 4);
    const auto c = pass.new_matrix<std::uint64_t>(3, 3);
    const auto u = pass.new_vector<std::uint64_t>(3);
    const auto v = pass.new_vector<std::uint64_t>(4);
    const auto mask = pass.new_matrix<bool>(2, 2);
    refused(mismatch, [&] { pass.mxm(c, grb::plus_times, a, b); });
    refused(mismatch, [&] { pass.mxm(c, grb::plus_times, a, b, Descriptor::tran); });
    refused(mismatch, [&] { pass.mxm(c, mask, grb::none, grb::plus_times, c, c); });
    refused(mismatch, [&] { pass.mxv(u, grb::plus_times, a, u); });
    refused(mismatch, [&] { pass.vxm(u, grb::plus_times, u, a); });
    refused(mismatch, [&] { pass.ewise_add(c, grb::plus, a, b, Descriptor::tran); });
    refused(mismatch, [&] { pass.ewise_mult(c, grb::plus, a, b); });
    refused(mismatch, [&] { pass.ewise_add(u, grb::plus, u, v); });
    refused(mismatch, [&] { pass.reduce_rows(v, grb::plus, a); });
    refused(mismatch, [&] { pass.mxm(c, grb::plus_times, c, a, Descriptor::tran1); });
    refused(mismatch, [&] { pass.vxm(u, grb::plus_times, u, a, Descriptor::tran1); });
    refused(mismatch, [&] { pass.transpose(c, a); });
    refused(mismatch, [&] { pass.transpose(c, mask, grb::none, c); });
    refused(mismatch, [&] { pass.apply(c, grb::ainv, a, Descriptor::tran); });
    refused(mismatch, [&] { pass.apply(c, grb::minus, 9, a, Descriptor::tran1); });
    refused(mismatch, [&] { pass.apply(u, grb::minus, v, 9); });
    refused(mismatch, [&] { pass.select(c, grb::tril, a, 0); });
    refused(mismatch, [&] { pass.select(u, u, grb::none, grb::valueeq, v, 0); });
    refused(mismatch, [&] { pass.kronecker(c, grb::times, a, b, Descriptor::tran1); });
    refused(mismatch, [&] { pass.kronecker(pass.new_matrix<std::uint64_t>(9, 16), mask, grb::none, grb::times, a, b); });
}

/// Numbers of rows, columns and diagonals that are too small or too large.
void diagonals(grb::Pass &pass)
{
    const auto invalid = grb::Status::invalid_value;
    const auto c = pass.new_matrix<std::uint64_t>(3, 3);
    const auto u = pass.new_vector<std::uint64_t>(5);
    refused(invalid, [&] { pass.select(c, grb::rowle, c, -1); });
    refused(invalid, [&] { pass.select(u, grb::tril, u, 4294967296); });
    refused(invalid, [&] { (void)pass.diag(u, 4294967291); });
    refused(invalid, [&] { (void)pass.diag(u, UINT64_MAX); });
    const int less = static_cast<int>(pass.nvals(u)) - 1;
    refused(invalid, [&] { pass.apply(u, grb::plus, u, less); });
    pass.free(u);
    refused(grb::Status::uninitialized_object, [&] { (void)pass.diag(u, 0); });
    refused(grb::Status::uninitialized_object, [&] { pass.select(u, grb::rowle, u, 0); });
}

void places(grb::Pass &pass)
{
    const auto outside = grb::Status::invalid_index;
    const auto a = pass.new_matrix<std::uint64_t>(3, 4);
    const auto u = pass.new_vector<bool>(5);
    refused(outside, [&] { pass.set(a, 4, 2, 1); });
    refused(outside, [&] { (void)pass.get(a, 2, 4); });
    refused(outside, [&] { pass.remove(u, 5); });
    refused(grb::Status::index_out_of_bounds, [&] { pass.build(a, {0, 1, 2}, {0, 9, 9}, {7, 8, 9}, grb::plus); });
    refused(grb::Status::index_out_of_bounds, [&] { pass.build(u, {0, 5}, {true, true}, grb::lor); });
    refused(grb::Status::invalid_value, [&] { pass.build(a, {0, 1}, {0}, {7, 8, 9}, grb::plus); });
    pass.set(u, 0, false);
    refused(grb::Status::output_not_empty, [&] { pass.build(u, {1}, {true}, grb::lor); });
}

void values(grb::Pass &pass)
{
    const auto u = pass.new_vector<std::uint64_t>(5);
    const auto t = pass.new_vector<bool>(5);
    const int less = static_cast<int>(pass.nvals(u)) - 1;
    refused(grb::Status::invalid_value, [&] { pass.set(u, 0, less); });
    require(pass.nvals(u) == 0, "a refused call does nothing");
    pass.set(u, 0, 1);
    pass.set(u, 1, 2u);
    pass.set(u, 2, 3ull);
    pass.set(u, 3, static_cast<short>(4));
    pass.set(u, 4, UINT64_MAX);
    pass.set(t, 0, true);
    require(pass.reduce(grb::plus, u) == 9 && pass.nvals(t) == 1, "values that fit are stored");
    const auto w = pass.new_vector<unsigned long long>(2);
    pass.set(w, 1, 7);
    require(pass.get(w, 1) == 7, "either name of an unsigned integer of 64 bits is taken");
    const auto known = pass.facts().known;
    require(pass.costs().entries > 0, "a pass keeps the entries of what it has made");
    pass.release();
    require(pass.costs().entries == 0, "a pass that is released keeps none");
    require(pass.facts().known == known && pass.get(w, 1) == 7, "a pass that is released knows what it knew");
}

void others(grb::Pass &pass)
{
    grb::Store store(10, 1);
    grb::Pass other = store.take();
    const auto invalid = grb::Status::invalid_value;
    refused(invalid, [&] { pass.meet(other); });
    refused(invalid, [&] { pass.adopt(other); });
    refused(invalid, [&] { (void)pass.new_matrix<bool>(0, 5); });
    refused(invalid, [&] { (void)pass.new_vector<bool>(4294967296u); });
    refused(invalid, [&] { grb::Store none(65537, 1); });
    refused(invalid, [&] { grb::Store none(1, 257); });
    const auto freed = other.new_vector<bool>(2);
    other.free(freed);
    refused(grb::Status::uninitialized_object, [&] { (void)other.nvals(freed); });
    refused(grb::Status::uninitialized_object, [&] { other.ewise_add(freed, grb::lor, freed, freed); });
    (void)other.new_vector<bool>(3);
    // An object is made anew for each time that it is chosen, and so many changes are one more than 256 passes may share.
    const std::vector<std::uint32_t> chosen(1044481, 1);
    refused(grb::Status::insufficient_space, [&] { (void)other.branch({}, chosen, 4096, grb::most_passes); });
    grb::Pass moved = std::move(other);
    refused(grb::Status::uninitialized_object, [&] { (void)other.new_vector<bool>(2); });
    refused(grb::Status::uninitialized_object, [&] { pass.meet(other); });
    for (int k = 0; k < 7; k++) {
        moved.clear(grb::Vector<bool>(1));
    }
    refused(grb::Status::order_full, [&] { moved.clear(grb::Vector<bool>(1)); });
}

/// The library says whether it is proved. The environment says when it is not.
void proof()
{
    const char *const wanted = std::getenv("TROWELHEATH_PROVED");
    require(grb::is_proved() == (wanted == nullptr || std::string_view(wanted) != "no"), "the library says whether it is proved");
}

} // namespace

int main()
{
    try {
        proof();
        grb::Store store(100, 1);
        grb::Pass pass = store.take();
        shapes(pass);
        diagonals(pass);
        places(pass);
        values(pass);
        others(pass);
    } catch (const std::exception &error) {
        std::cerr << "messages: " << error.what() << '\n';
        return 1;
    }
    return 0;
}
