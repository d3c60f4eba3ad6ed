// Each method that maps, filters, turns or lays out the entries of an object: transpose, apply, select, kronecker and
// diag, and an input that is read transposed.
//
//     c++ -std=c++17 -O2 -I../c -o terms terms.cpp libgrb_c.a liblibc_c.a -lpthread
#include "graph.hpp"
#include "trowelheath.hpp"

#include <cstdint>
#include <exception>
#include <iostream>
#include <type_traits>

namespace grb = trowelheath;
using grb::Descriptor;

namespace {

/// Prints all entries of a matrix, each as its row, its column and its value.
template <typename T>
void show(const char *title, grb::Pass &pass, grb::Matrix<T> a)
{
    std::cout << title << ':';
    for (const auto &entry : pass.entries(a)) {
        std::cout << ' ' << entry.row << ' ' << entry.column << ' ' << entry.value;
    }
    std::cout << '\n';
}

/// Prints all entries of a vector, each as its index and its value.
template <typename T>
void show(const char *title, grb::Pass &pass, grb::Vector<T> u)
{
    std::cout << title << ':';
    for (const auto &entry : pass.entries(u)) {
        std::cout << ' ' << entry.index << ' ' << entry.value;
    }
    std::cout << '\n';
}

/// Descriptors joined have all bits, and the type of what they turn.
void descriptors()
{
    const auto first = Descriptor::structure | Descriptor::tran;
    const auto second = Descriptor::structure | Descriptor::tran1;
    const auto both = Descriptor::tran | Descriptor::tran1;
    static_assert(std::is_same_v<decltype(first), const grb::MatrixDescriptor>);
    static_assert(std::is_same_v<decltype(second), const grb::SecondDescriptor>);
    static_assert(std::is_same_v<decltype(both), const grb::MatricesDescriptor>);
    static_assert(std::is_same_v<decltype(Descriptor::tran1 | Descriptor::replace), grb::SecondDescriptor>);
    require(first.bits() == (TrB_STRUCTURE | TrB_TRAN), "the first input is turned");
    require(second.bits() == (TrB_STRUCTURE | TrB_TRAN1), "the second input is turned");
    require(both.bits() == (TrB_TRAN | TrB_TRAN1), "both are turned");
    require((Descriptor::tran1 | Descriptor::tran).bits() == both.bits(), "in either order");
    require((Descriptor::comp | both | Descriptor::tran1).bits() == (TrB_COMP | TrB_TRAN | TrB_TRAN1), "with the mask");
    require((first | second).bits() == (both | Descriptor::structure).bits(), "of two that say the same");
}

void turned(grb::Pass &pass, grb::Matrix<std::uint64_t> a, grb::Vector<std::uint64_t> v)
{
    const auto b = pass.new_matrix<std::uint64_t>(2, 2);
    const auto c = pass.new_matrix<std::uint64_t>(3, 2);
    const auto d = pass.new_matrix<std::uint64_t>(2, 3);
    const auto w = pass.new_vector<std::uint64_t>(2);
    pass.transpose(c, a);
    show("a turned", pass, c);
    pass.transpose(d, a, Descriptor::tran);
    show("a turned twice", pass, d);
    pass.transpose(c, c, grb::plus, a, Descriptor::structure);
    show("a turned, added inside of itself", pass, c);
    pass.mxm(b, grb::plus_times, a, a, Descriptor::tran1);
    show("a times a turned", pass, b);
    pass.mxm(b, grb::plus_times, c, a, Descriptor::tran | Descriptor::tran1);
    show("twice that", pass, b);
    pass.ewise_add(d, grb::minus, a, c, Descriptor::tran1);
    show("a minus c turned, where either stores", pass, d);
    pass.ewise_mult(c, grb::plus, a, d, Descriptor::tran | Descriptor::tran1);
    show("a turned plus that turned, where both do", pass, c);
    pass.vxm(w, grb::plus_times, v, a, Descriptor::tran1);
    show("v times a turned", pass, w);
}

void mapped(grb::Pass &pass, grb::Matrix<std::uint64_t> a, grb::Vector<std::uint64_t> v, grb::Vector<bool> q)
{
    const auto c = pass.new_matrix<std::uint64_t>(3, 2);
    const auto d = pass.new_matrix<std::uint64_t>(2, 3);
    const auto w = pass.new_vector<std::uint64_t>(3);
    const auto p = pass.new_vector<bool>(3);
    pass.apply(c, grb::ainv, a, Descriptor::tran);
    show("ainv of a turned", pass, c);
    pass.apply(c, grb::minus, a, 1, Descriptor::tran);
    show("a turned minus 1", pass, c);
    pass.apply(c, grb::minus, 9, a, Descriptor::tran1);
    show("9 minus a turned", pass, c);
    pass.apply(d, grb::none, grb::none, grb::bnot, a);
    show("bnot of a", pass, d);
    pass.apply(d, a, grb::plus, grb::times, a, 2, Descriptor::structure);
    show("to which a times 2 is added", pass, d);
    pass.apply(d, a, grb::none, grb::first, 1u, a, Descriptor::replace);
    show("1 at each entry of a", pass, d);
    pass.apply(d, grb::identity, a);
    show("a itself", pass, d);
    pass.apply(w, grb::ainv, v);
    show("ainv of v", pass, w);
    pass.apply(w, grb::minus, 12, v);
    show("12 minus v", pass, w);
    pass.apply(w, v, grb::plus, grb::min, v, 4, Descriptor::structure);
    show("to which the smaller of v and 4 is added", pass, w);
    pass.apply(p, grb::lnot, q);
    show("lnot of q", pass, p);
    pass.apply(p, grb::none, grb::lor, grb::identity_bool, q);
    show("or q", pass, p);
    pass.apply(p, grb::land, false, q);
    show("false land q", pass, p);
    pass.apply(p, grb::lxnor, q, false);
    show("q lxnor false", pass, p);
}

void filtered(grb::Pass &pass, grb::Matrix<std::uint64_t> a, grb::Vector<std::uint64_t> v, grb::Vector<bool> q)
{
    const auto c = pass.new_matrix<std::uint64_t>(3, 2);
    const auto d = pass.new_matrix<std::uint64_t>(2, 3);
    const auto w = pass.new_vector<std::uint64_t>(3);
    const auto p = pass.new_vector<bool>(3);
    pass.select(d, grb::tril, a, 1);
    show("a tril 1", pass, d);
    pass.select(d, grb::triu, a, 1);
    show("a triu 1", pass, d);
    pass.select(d, grb::diag, a, 0u);
    show("a diag 0", pass, d);
    pass.select(d, grb::offdiag, a, 0);
    show("a offdiag 0", pass, d);
    pass.select(c, grb::rowgt, a, 1, Descriptor::tran);
    show("a turned, rowgt 1", pass, c);
    pass.select(d, grb::rowle, a, 0);
    show("a rowle 0", pass, d);
    pass.select(d, grb::colle, a, 1);
    show("a colle 1", pass, d);
    pass.select(d, a, grb::plus, grb::valuege, a, 5, Descriptor::structure);
    show("to which a valuege 5 is added", pass, d);
    pass.select(d, grb::valuelt, a, 5);
    show("a valuelt 5", pass, d);
    pass.select(d, grb::valuene, a, 5);
    show("a valuene 5", pass, d);
    pass.select(w, grb::colgt, v, 0);
    show("v colgt 0", pass, w);
    pass.select(w, grb::tril, v, -2);
    show("v tril -2", pass, w);
    pass.select(w, grb::valuele, v, 1);
    show("v valuele 1", pass, w);
    pass.select(p, grb::none, grb::none, grb::rowgt, q, 0);
    show("q rowgt 0", pass, p);
    pass.select(p, grb::valueeq, q, true);
    show("q valueeq true", pass, p);
    pass.select(p, grb::valuegt, q, false);
    show("q valuegt false", pass, p);
}

void laid_out(grb::Pass &pass, grb::Vector<std::uint64_t> v, grb::Vector<bool> q)
{
    const auto a = pass.new_matrix<std::uint64_t>(2, 2);
    const auto b = pass.new_matrix<std::uint64_t>(2, 2);
    const auto c = pass.new_matrix<std::uint64_t>(4, 4);
    pass.build(a, {0, 1}, {0, 1}, {2, 3}, grb::plus);
    pass.build(b, {0, 1}, {1, 0}, {10, 20}, grb::plus);
    pass.kronecker(c, grb::times, a, b);
    show("a kronecker b by times", pass, c);
    pass.kronecker(c, grb::minus, b, a);
    show("b kronecker a by minus", pass, c);
    pass.kronecker(c, grb::none, grb::plus, grb::first, b, b, Descriptor::tran1);
    show("to which b kronecker b turned by first is added", pass, c);
    show("v on the diagonal 1", pass, pass.diag(v, 1));
    show("q on the diagonal -2", pass, pass.diag(q, -2));
    const auto size = pass.size(pass.diag(q, -2));
    std::cout << "which is " << size.nrows << " x " << size.ncols << '\n';
}

void run()
{
    grb::Store store(400, 1);
    grb::Pass pass = store.take();
    const auto a = pass.new_matrix<std::uint64_t>(2, 3);
    const auto v = pass.new_vector<std::uint64_t>(3);
    const auto q = pass.new_vector<bool>(3);
    pass.build(a, {0, 0, 1}, {1, 2, 1}, {2, 5, 7}, grb::plus);
    pass.build(v, {1, 2}, {1, 10}, grb::plus);
    pass.build(q, {0, 2}, {true, false}, grb::lor);
    descriptors();
    turned(pass, a, v);
    mapped(pass, a, v, q);
    filtered(pass, a, v, q);
    laid_out(pass, v, q);
}

} // namespace

int main()
{
    try {
        std::cout << std::boolalpha;
        run();
    } catch (const std::exception &error) {
        std::cerr << "terms: " << error.what() << '\n';
        return 1;
    }
    return 0;
}
