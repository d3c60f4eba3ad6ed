// trowelheath.hpp - the Trowelheath store for programs in C++17.
//
// A store holds sparse matrices and vectors, with the operations of GraphBLAS. The threads of one process
// share it. The top of trowelheath.h has the words: store, history, room, pass, object, entry, change,
// read, refusal; and what threads see. Link as that says.
//
//     trowelheath::Chain chain(1);                            // a store without an end, one pass
//     trowelheath::Pass pass = chain.take();
//     auto a = pass.new_matrix<std::uint64_t>(4, 5);          // 4 rows, 5 columns, no entries
//     pass.set(a, 0, 1, 7);                                   // 7 at row 0, column 1
//     std::optional<std::uint64_t> x = pass.get(a, 0, 1);     // 7
//
// What the types see to, and what the caller owes:
//
//   - A Pass is moved and never copied, and ends by itself. A store ends with its last pass.
//   - Objects and operators have the type of their values, bool or std::uint64_t, so domains are not mixed.
//   - A number is given as any integer but bool. Others do not compile, as 2.9. A negative one does not compile where
//     the compiler optimizes and sees it, as -1, and is refused else.
//   - One thread at a time uses a given pass. A pass goes to another thread by something that orders
//     memory, as a lock, the start of a thread or its join.
//   - An object is used with passes of its own store, and of those that succeed it. In another store its
//     number names another object, or none.
//   - No call is made in a signal handler, or in the child of a fork of a process with threads.
#ifndef TROWELHEATH_HPP
#define TROWELHEATH_HPP

#include "trowelheath.h"

#include <array>
#include <cstdarg>
#include <cstddef>
#include <cstdint>
#include <cstdio>
#include <exception>
#include <initializer_list>
#include <memory>
#include <optional>
#include <stdexcept>
#include <type_traits>
#include <utility>
#include <vector>

namespace trowelheath {

/// An index, a dimension or a number of entries. Indices begin at 0; dimensions are from 1 to 2^32 - 1.
using Index = std::uint64_t;

/// What a pass tells of itself. trowelheath.h explains each member.
using Facts = TrB_Facts;
using Costs = TrB_Costs;

/// Whether the library that was linked or loaded is proved. Of one that is not, nothing is claimed.
[[nodiscard]] inline bool is_proved() noexcept
{
    return TrB_is_proved();
}

/// The most changes that a store has room for.
inline constexpr std::uint32_t most_room = 65536;

/// The most passes of a store. Room times passes is at most 1,048,576.
inline constexpr std::uint32_t most_passes = 256;

/// The room of each generation of a chain with so many passes, where none is given: at most 4,096, and less with more
/// than 64 passes, so that room for objects is left.
[[nodiscard]] constexpr std::uint32_t default_room(std::uint32_t passes) noexcept
{
    return passes <= 64 ? 4096 : passes <= most_passes ? 262144 / passes : 1;
}

// ---- Statuses ------------------------------------------------------------------------------------------

/// What a call answers. The numbers are those of GraphBLAS.h, but for order_full, which is our own.
enum class Status : std::int32_t {
    success = TrB_SUCCESS,                            ///< the call was made
    no_value = TrB_NO_VALUE,                          ///< a read asked for what is not there
    uninitialized_object = TrB_UNINITIALIZED_OBJECT,  ///< a pass that was moved from, or an object that was freed
    invalid_value = TrB_INVALID_VALUE,                ///< a number, a dimension or a length is out of its range
    invalid_index = TrB_INVALID_INDEX,                ///< an index of one entry is not below the dimension
    domain_mismatch = TrB_DOMAIN_MISMATCH,            ///< truth values and numbers are mixed
    dimension_mismatch = TrB_DIMENSION_MISMATCH,      ///< the objects do not fit together
    output_not_empty = TrB_OUTPUT_NOT_EMPTY,          ///< the object of a build stores an entry
    index_out_of_bounds = TrB_INDEX_OUT_OF_BOUNDS,    ///< an index in the list of a build is not below the dimension
    order_full = TrB_ORDER_FULL,                      ///< the room is used up, or a chain has no place for an object
    out_of_memory = TrB_OUT_OF_MEMORY,                ///< memory was refused
    panic = TrB_PANIC,                                ///< the record of a call was not taken or not shown
    insufficient_space = TrB_INSUFFICIENT_SPACE,      ///< arrays are too short: entries() sees to it; or RoomTooSmall
};

/// A refused call: it did nothing, and took no room. Each method names a function of trowelheath.h, whose
/// comment has the shapes and the refusals; those that end in _UINT64 stand for those of _BOOL too. Any call
/// may be refused with uninitialized_object, out_of_memory and panic, and any change with order_full.
class Refusal : public std::exception {
public:
    /// What a refusal says of its call, of at most 191 characters.
    using Text = std::array<char, 192>;

    /// The refusal of this status. Takes no memory.
    explicit Refusal(Status code) noexcept : Refusal(code, Text{}) {}

    /// The refusal of this status, with what is known of the call. Takes no memory.
    Refusal(Status code, const Text &said) noexcept : code_(code)
    {
        if (said[0] != '\0') {
            std::snprintf(text_.data(), text_.size(), "%s. %s.", name(), said.data());
        } else {
            std::snprintf(text_.data(), text_.size(), "%s. %s", name(), hint());
        }
    }

    /// The status.
    [[nodiscard]] Status code() const noexcept { return code_; }

    /// Its name, as "GrB_INVALID_INDEX".
    [[nodiscard]] const char *name() const noexcept { return TrB_name(static_cast<TrB_Info>(code_)); }

    /// What to do about it, in one line for a person.
    [[nodiscard]] const char *hint() const noexcept { return TrB_hint(static_cast<TrB_Info>(code_)); }

    /// The name, and what does not fit in the call, as its parameters are named here: "a is 3 x 4, b is 3 x 4: the
    /// columns of a, 4, are not the rows of b, 3". Shapes are those after the refusal. Where nothing is known of the
    /// call, the hint.
    [[nodiscard]] const char *what() const noexcept override { return text_.data(); }

private:
    Status code_;
    std::array<char, 240> text_{};
};

namespace detail {

// What the format says, cut where it is too long.
#if defined(__GNUC__)
[[gnu::format(printf, 1, 2)]]
#endif
inline Refusal::Text
text(const char *format, ...) noexcept
{
    Refusal::Text said{};
    std::va_list values;
    va_start(values, format);
    std::vsnprintf(said.data(), said.size(), format, values);
    va_end(values);
    return said;
}

// A number as the formats take it.
inline unsigned long long digits(std::uint64_t number) noexcept
{
    return number;
}

} // namespace detail

/// The refusal of a store that goes on from another one: no store has so much room beside the changes that make the
/// objects. Its status is Status::insufficient_space.
class RoomTooSmall : public Refusal {
public:
    /// The refusal where so many changes make the objects. Takes no memory.
    explicit RoomTooSmall(std::uint64_t needed) noexcept
        : Refusal(Status::insufficient_space,
                  detail::text("%llu changes make the objects: with the room beside them they are more than a store takes",
                               detail::digits(needed))),
          needed_(needed)
    {
    }

    /// How many changes make the objects. The room and these are at most 4,194,304, and times the passes at most
    /// 268,435,456.
    [[nodiscard]] std::uint64_t needed() const noexcept { return needed_; }

private:
    std::uint64_t needed_;
};

namespace detail {

// A parameter of this type is not deduced from: the objects of a call say what T is.
template <typename T>
struct Same {
    using type = T;
};
template <typename T>
using same = typename Same<T>::type;

template <typename T>
inline constexpr bool is_bool = std::is_same_v<T, bool>;

template <typename T>
inline constexpr bool is_domain = is_bool<T> || std::is_same_v<T, std::uint64_t>;

// The type of values that is meant by T: an unsigned integer of 64 bits has two names.
template <typename T>
using element = std::conditional_t<std::is_integral_v<T> && std::is_unsigned_v<T> && sizeof(T) == 8, std::uint64_t, T>;

// Fails the compilation where the compiler sees that it is called.
#if defined(__GNUC__)
[[gnu::error("a value is from 0 to 2^64 - 1, and not negative")]] void negative_value() noexcept;
#define TROWELHEATH_INLINE [[gnu::always_inline]] inline
#define TROWELHEATH_IS_SEEN(x) __builtin_constant_p(x)
#else
inline void negative_value() noexcept {}
#define TROWELHEATH_INLINE inline
#define TROWELHEATH_IS_SEEN(x) false
#endif

[[noreturn]] inline void refuse_negative(long long x)
{
    throw Refusal(Status::invalid_value, text("the value is %lld, and values are from 0 to 2^64 - 1", x));
}

// The value of a vector or matrix of T that x is. It does not compile where x is of a type that may not fit.
template <typename T, typename V>
TROWELHEATH_INLINE T value(V x)
{
    if constexpr (is_bool<T>) {
        static_assert(is_bool<V>, "the values are bool: give true or false");
        return x;
    } else {
        static_assert(!is_bool<V>, "the values are numbers: give 1 for true");
        static_assert(std::is_integral_v<V> && sizeof(V) <= sizeof(T), "the values are whole numbers from 0 to 2^64 - 1");
        if constexpr (std::is_signed_v<V>) {
            if (TROWELHEATH_IS_SEEN(x) && x < 0) {
                negative_value();
            }
            if (x < 0) {
                refuse_negative(x);
            }
        }
        return static_cast<T>(x);
    }
}

// The number of a diagonal, a row or a column that k is. It does not compile where k is of a type that may not fit.
template <typename V>
std::int64_t place(V k)
{
    static_assert(std::is_integral_v<V> && !is_bool<V> && sizeof(V) <= 8, "places are whole numbers");
    if constexpr (std::is_unsigned_v<V> && sizeof(V) == 8) {
        // No row and no diagonal is so far.
        return k > INT64_MAX ? INT64_MAX : static_cast<std::int64_t>(k);
    } else {
        return k;
    }
}

// Throws where the library that was linked or loaded is not the one that the header is for.
inline void check_version()
{
    const unsigned long version = TrB_version();
    if (version != TRB_VERSION_NUMBER) {
        throw std::runtime_error(text("the library of trowelheath has the version %lu.%lu.%lu, and the header " TRB_VERSION,
                                      version / 10000, version / 100 % 100, version % 100)
                                     .data());
    }
}

// Throws where the call was refused. What is not refused is Status::success or Status::no_value.
inline Status check(std::int32_t status)
{
    if (status < 0) {
        throw Refusal(static_cast<Status>(status));
    }
    return static_cast<Status>(status);
}

// The same, with what `tell` answers of the call where it was refused.
template <typename Tell>
Status check(std::int32_t status, Tell tell)
{
    if (status < 0) {
        throw Refusal(static_cast<Status>(status), tell(static_cast<Status>(status)));
    }
    return static_cast<Status>(status);
}

} // namespace detail

// ---- Operators -----------------------------------------------------------------------------------------

/// An operator on two values of T, with a result of T. The constants below are all that there are.
template <typename T>
class BinaryOp {
    static_assert(detail::is_domain<T>, "values are bool or std::uint64_t");

public:
    /// The operator of this number, which is one of T.
    constexpr explicit BinaryOp(TrB_BinaryOp number) noexcept : number_(number) {}

    /// Its number in trowelheath.h.
    [[nodiscard]] constexpr TrB_BinaryOp number() const noexcept { return number_; }

private:
    TrB_BinaryOp number_;
};

/// An operator that is associative and commutative and has an identity.
template <typename T>
class Monoid : public BinaryOp<T> {
public:
    using BinaryOp<T>::BinaryOp;
};

/// A semiring: `multiply` joins two values, and `add` what was joined.
template <typename T>
struct Semiring {
    Monoid<T> add;
    BinaryOp<T> multiply;
};

inline constexpr Monoid<bool> lor{TrB_LOR};                    ///< x or y; identity false
inline constexpr Monoid<bool> land{TrB_LAND};                  ///< x and y; identity true
inline constexpr Monoid<bool> lxor{TrB_LXOR};                  ///< x differs from y; identity false
inline constexpr Monoid<bool> lxnor{TrB_LXNOR};                ///< x equals y; identity true
inline constexpr BinaryOp<bool> first_bool{TrB_FIRST_BOOL};    ///< x
inline constexpr BinaryOp<bool> second_bool{TrB_SECOND_BOOL};  ///< y

inline constexpr Monoid<std::uint64_t> plus{TrB_PLUS};        ///< x + y modulo 2^64; identity 0
inline constexpr Monoid<std::uint64_t> times{TrB_TIMES};      ///< x * y modulo 2^64; identity 1
inline constexpr Monoid<std::uint64_t> min{TrB_MIN};          ///< the smaller; identity 2^64 - 1
inline constexpr Monoid<std::uint64_t> max{TrB_MAX};          ///< the larger; identity 0
inline constexpr BinaryOp<std::uint64_t> minus{TrB_MINUS};    ///< x - y modulo 2^64
inline constexpr BinaryOp<std::uint64_t> first{TrB_FIRST};    ///< x
inline constexpr BinaryOp<std::uint64_t> second{TrB_SECOND};  ///< y

inline constexpr Semiring<bool> lor_land{lor, land};           ///< paths
inline constexpr Semiring<bool> land_lor{land, lor};           ///< the dual of lor_land
inline constexpr Semiring<bool> lxor_land{lxor, land};         ///< the field of two elements
inline constexpr Semiring<bool> lxnor_lor{lxnor, lor};         ///< the dual of lxor_land
inline constexpr Semiring<bool> lor_first{lor, first_bool};    ///< whether a first value is true
inline constexpr Semiring<bool> lor_second{lor, second_bool};  ///< whether a second value is true

inline constexpr Semiring<std::uint64_t> plus_times{plus, times};    ///< the usual product
inline constexpr Semiring<std::uint64_t> plus_min{plus, min};        ///< sums of the smaller values
inline constexpr Semiring<std::uint64_t> plus_first{plus, first};    ///< sums of first values
inline constexpr Semiring<std::uint64_t> plus_second{plus, second};  ///< sums of second values
inline constexpr Semiring<std::uint64_t> min_plus{min, plus};        ///< shortest paths
inline constexpr Semiring<std::uint64_t> min_times{min, times};      ///< least products
inline constexpr Semiring<std::uint64_t> min_max{min, max};          ///< least of the largest on a path
inline constexpr Semiring<std::uint64_t> min_first{min, first};      ///< least first value
inline constexpr Semiring<std::uint64_t> min_second{min, second};    ///< least second value
inline constexpr Semiring<std::uint64_t> max_plus{max, plus};        ///< longest paths
inline constexpr Semiring<std::uint64_t> max_times{max, times};      ///< greatest products
inline constexpr Semiring<std::uint64_t> max_min{max, min};          ///< widest paths
inline constexpr Semiring<std::uint64_t> max_first{max, first};      ///< greatest first value
inline constexpr Semiring<std::uint64_t> max_second{max, second};    ///< greatest second value

/// An operator on one value of T, with a result of T. The constants below are all that there are.
template <typename T>
class UnaryOp {
    static_assert(detail::is_domain<T>, "values are bool or std::uint64_t");

public:
    /// The operator of this number, which is one of T.
    constexpr explicit UnaryOp(TrB_UnaryOp number) noexcept : number_(number) {}

    /// Its number in trowelheath.h.
    [[nodiscard]] constexpr TrB_UnaryOp number() const noexcept { return number_; }

private:
    TrB_UnaryOp number_;
};

inline constexpr UnaryOp<bool> identity_bool{TrB_IDENTITY_BOOL};  ///< x
inline constexpr UnaryOp<bool> lnot{TrB_LNOT};                    ///< not x

inline constexpr UnaryOp<std::uint64_t> identity{TrB_IDENTITY};  ///< x
inline constexpr UnaryOp<std::uint64_t> ainv{TrB_AINV};          ///< 0 - x modulo 2^64
inline constexpr UnaryOp<std::uint64_t> bnot{TrB_BNOT};          ///< x with each of its 64 bits turned

/// A test of the place of an entry, row i and column j, against a number k. A vector is a column: its index is the row,
/// and the column is 0. The constants below are all that there are.
class PlaceTest {
public:
    /// The test of this number, which is one of places.
    constexpr explicit PlaceTest(TrB_IndexUnaryOp number) noexcept : number_(number) {}

    /// Its number in trowelheath.h.
    [[nodiscard]] constexpr TrB_IndexUnaryOp number() const noexcept { return number_; }

private:
    TrB_IndexUnaryOp number_;
};

/// A test of the value x of an entry against a value y of its domain; false is less than true. The constants below are
/// all that there are.
class ValueTest {
public:
    /// The test of this number, which is one of values.
    constexpr explicit ValueTest(TrB_IndexUnaryOp number) noexcept : number_(number) {}

    /// Its number in trowelheath.h.
    [[nodiscard]] constexpr TrB_IndexUnaryOp number() const noexcept { return number_; }

private:
    TrB_IndexUnaryOp number_;
};

inline constexpr PlaceTest tril{TrB_TRIL};        ///< j <= i + k
inline constexpr PlaceTest triu{TrB_TRIU};        ///< j >= i + k
inline constexpr PlaceTest diag{TrB_DIAG};        ///< j = i + k
inline constexpr PlaceTest offdiag{TrB_OFFDIAG};  ///< j differs from i + k
inline constexpr PlaceTest rowle{TrB_ROWLE};      ///< i <= k
inline constexpr PlaceTest rowgt{TrB_ROWGT};      ///< i > k
inline constexpr PlaceTest colle{TrB_COLLE};      ///< j <= k
inline constexpr PlaceTest colgt{TrB_COLGT};      ///< j > k

inline constexpr ValueTest valueeq{TrB_VALUEEQ};  ///< x = y
inline constexpr ValueTest valuene{TrB_VALUENE};  ///< x differs from y
inline constexpr ValueTest valuelt{TrB_VALUELT};  ///< x < y
inline constexpr ValueTest valuele{TrB_VALUELE};  ///< x <= y
inline constexpr ValueTest valuegt{TrB_VALUEGT};  ///< x > y
inline constexpr ValueTest valuege{TrB_VALUEGE};  ///< x >= y

class MatrixDescriptor;
class SecondDescriptor;

/// How an operation reads its mask and writes outside of it. Values are joined by `|`.
class Descriptor {
public:
    static const Descriptor none;       ///< none of these
    static const Descriptor replace;    ///< entries of the output outside of the mask are removed
    static const Descriptor comp;       ///< inside the mask are the places that it would leave out
    static const Descriptor structure;  ///< inside are the places where it stores an entry, false or 0 too
    static const MatrixDescriptor tran; ///< the first input, a matrix, is read transposed
    static const SecondDescriptor tran1; ///< the second input, a matrix, is read transposed

    /// Its bits in trowelheath.h.
    [[nodiscard]] constexpr std::uint32_t bits() const noexcept { return bits_; }

    /// All that either of both says.
    [[nodiscard]] friend constexpr Descriptor operator|(Descriptor left, Descriptor right) noexcept
    {
        return Descriptor(left.bits_ | right.bits_);
    }

private:
    constexpr explicit Descriptor(std::uint32_t bits) noexcept : bits_(bits) {}

    std::uint32_t bits_;
};

/// A descriptor of an operation whose first input is a matrix, which Descriptor::tran has read transposed. An operation
/// on vectors does not take it.
class MatrixDescriptor {
public:
    /// The same, not transposed.
    constexpr MatrixDescriptor(Descriptor desc) noexcept : bits_(desc.bits()) {}

    /// Its bits in trowelheath.h.
    [[nodiscard]] constexpr std::uint32_t bits() const noexcept { return bits_; }

    /// Whether the first input is read transposed.
    [[nodiscard]] constexpr bool is_transposed() const noexcept { return (bits_ & TrB_TRAN) != 0; }

    /// All that either of both says.
    [[nodiscard]] friend constexpr MatrixDescriptor operator|(MatrixDescriptor left, MatrixDescriptor right) noexcept
    {
        return MatrixDescriptor(left.bits_ | right.bits_);
    }

private:
    friend class Descriptor;

    constexpr explicit MatrixDescriptor(std::uint32_t bits) noexcept : bits_(bits) {}

    std::uint32_t bits_;
};

/// A descriptor of an operation on two matrices, which Descriptor::tran and Descriptor::tran1 have read transposed.
class MatricesDescriptor {
public:
    /// The same, not transposed.
    constexpr MatricesDescriptor(Descriptor desc) noexcept : bits_(desc.bits()) {}

    /// The same, with the second input not transposed.
    constexpr MatricesDescriptor(MatrixDescriptor desc) noexcept : bits_(desc.bits()) {}

    /// The same, with the first input not transposed.
    constexpr MatricesDescriptor(SecondDescriptor desc) noexcept;

    /// Its bits in trowelheath.h.
    [[nodiscard]] constexpr std::uint32_t bits() const noexcept { return bits_; }

    /// Whether the first input is read transposed.
    [[nodiscard]] constexpr bool is_transposed() const noexcept { return (bits_ & TrB_TRAN) != 0; }

    /// Whether the second input is read transposed.
    [[nodiscard]] constexpr bool is_second_transposed() const noexcept { return (bits_ & TrB_TRAN1) != 0; }

    /// All that either of both says.
    [[nodiscard]] friend constexpr MatricesDescriptor operator|(MatricesDescriptor left, MatricesDescriptor right) noexcept
    {
        return MatricesDescriptor(left.bits_ | right.bits_);
    }

private:
    constexpr explicit MatricesDescriptor(std::uint32_t bits) noexcept : bits_(bits) {}

    std::uint32_t bits_;
};

/// A descriptor of an operation whose second input alone is a matrix, which Descriptor::tran1 has read transposed.
class SecondDescriptor {
public:
    /// The same, not transposed.
    constexpr SecondDescriptor(Descriptor desc) noexcept : bits_(desc.bits()) {}

    /// Its bits in trowelheath.h.
    [[nodiscard]] constexpr std::uint32_t bits() const noexcept { return bits_; }

    /// Whether the second input is read transposed.
    [[nodiscard]] constexpr bool is_second_transposed() const noexcept { return (bits_ & TrB_TRAN1) != 0; }

    /// All that either of both says.
    [[nodiscard]] friend constexpr SecondDescriptor operator|(SecondDescriptor left, SecondDescriptor right) noexcept
    {
        return SecondDescriptor(left.bits_ | right.bits_);
    }

    /// All that either of both says.
    [[nodiscard]] friend constexpr SecondDescriptor operator|(Descriptor left, SecondDescriptor right) noexcept
    {
        return SecondDescriptor(left) | right;
    }

    /// All that either of both says.
    [[nodiscard]] friend constexpr SecondDescriptor operator|(SecondDescriptor left, Descriptor right) noexcept
    {
        return left | SecondDescriptor(right);
    }

    /// All that either of both says.
    [[nodiscard]] friend constexpr MatricesDescriptor operator|(MatrixDescriptor left, SecondDescriptor right) noexcept
    {
        return MatricesDescriptor(left) | MatricesDescriptor(right);
    }

    /// All that either of both says.
    [[nodiscard]] friend constexpr MatricesDescriptor operator|(SecondDescriptor left, MatrixDescriptor right) noexcept
    {
        return MatricesDescriptor(left) | MatricesDescriptor(right);
    }

private:
    friend class Descriptor;

    constexpr explicit SecondDescriptor(std::uint32_t bits) noexcept : bits_(bits) {}

    std::uint32_t bits_;
};

constexpr MatricesDescriptor::MatricesDescriptor(SecondDescriptor desc) noexcept : bits_(desc.bits()) {}

inline constexpr Descriptor Descriptor::none{TrB_DEFAULT};
inline constexpr Descriptor Descriptor::replace{TrB_REPLACE};
inline constexpr Descriptor Descriptor::comp{TrB_COMP};
inline constexpr Descriptor Descriptor::structure{TrB_STRUCTURE};
inline constexpr MatrixDescriptor Descriptor::tran{std::uint32_t{TrB_TRAN}};
inline constexpr SecondDescriptor Descriptor::tran1{std::uint32_t{TrB_TRAN1}};

/// How much a wait has done.
enum class WaitMode {
    complete = TrB_COMPLETE,        ///< the pending work on one object
    materialize = TrB_MATERIALIZE,  ///< the pending work on all objects
};

// ---- Objects -------------------------------------------------------------------------------------------

/// A matrix of a store, by its number. It may be copied, and every pass of the store may use it. It owns
/// nothing: Pass::free ends the matrix, and its number is refused from then on.
template <typename T>
class Matrix {
    static_assert(detail::is_domain<T>, "values are bool or std::uint64_t");

public:
    /// The matrix of this number, whose values are of T.
    constexpr explicit Matrix(std::uint32_t id) noexcept : id_(id) {}

    /// Its number.
    [[nodiscard]] constexpr std::uint32_t id() const noexcept { return id_; }

private:
    std::uint32_t id_;
};

/// A vector of a store, by its number. It may be copied, and every pass of the store may use it. It owns
/// nothing: Pass::free ends the vector, and its number is refused from then on.
template <typename T>
class Vector {
    static_assert(detail::is_domain<T>, "values are bool or std::uint64_t");

public:
    /// The vector of this number, whose values are of T.
    constexpr explicit Vector(std::uint32_t id) noexcept : id_(id) {}

    /// Its number.
    [[nodiscard]] constexpr std::uint32_t id() const noexcept { return id_; }

private:
    std::uint32_t id_;
};

/// Stands for no mask, and for no accumulator.
inline constexpr std::nullopt_t none = std::nullopt;

/// The mask of an operation on matrices: a matrix of either domain, or `none`.
class MatrixMask {
public:
    /// No mask: all places are inside, or with Descriptor::comp none.
    constexpr MatrixMask(std::nullopt_t) noexcept {}

    /// This matrix.
    template <typename T>
    constexpr MatrixMask(Matrix<T> mask) noexcept : id_(mask.id())
    {
    }

    /// Its number; the largest for no mask.
    [[nodiscard]] constexpr std::uint32_t id() const noexcept { return id_; }

private:
    std::uint32_t id_ = UINT32_MAX;
};

/// The mask of an operation on vectors: a vector of either domain, or `none`.
class VectorMask {
public:
    /// No mask: all places are inside, or with Descriptor::comp none.
    constexpr VectorMask(std::nullopt_t) noexcept {}

    /// This vector.
    template <typename T>
    constexpr VectorMask(Vector<T> mask) noexcept : id_(mask.id())
    {
    }

    /// Its number; the largest for no mask.
    [[nodiscard]] constexpr std::uint32_t id() const noexcept { return id_; }

private:
    std::uint32_t id_ = UINT32_MAX;
};

/// An accumulator on values of T: an operator that joins the old value and the new one, or `none`.
template <typename T>
using Accum = std::optional<BinaryOp<T>>;

/// The dimensions of a matrix.
struct Size {
    Index nrows;
    Index ncols;
};

/// An entry of a matrix.
template <typename T>
struct MatrixEntry {
    Index row;
    Index column;
    T value;
};

/// An entry of a vector.
template <typename T>
struct VectorEntry {
    Index index;
    T value;
};

/// Whether both are at one place and have one value.
template <typename T>
[[nodiscard]] constexpr bool operator==(const MatrixEntry<T> &left, const MatrixEntry<T> &right) noexcept
{
    return left.row == right.row && left.column == right.column && left.value == right.value;
}

/// Whether both are at one index and have one value.
template <typename T>
[[nodiscard]] constexpr bool operator==(const VectorEntry<T> &left, const VectorEntry<T> &right) noexcept
{
    return left.index == right.index && left.value == right.value;
}

namespace detail {

// An array that the library reads or writes. Its pointer is never null.
template <typename T>
class Array {
public:
    explicit Array(std::size_t length) : items_(new T[length]), length_(length) {}

    [[nodiscard]] T *data() const noexcept { return items_.get(); }
    [[nodiscard]] std::size_t size() const noexcept { return length_; }
    [[nodiscard]] T &operator[](std::size_t k) const noexcept { return items_[k]; }

private:
    std::unique_ptr<T[]> items_;
    std::size_t length_;
};

// The items of a vector as an array that the library reads: those of the vector itself, or a copy where
// they are no array of T, or the library may not be given the vector, since it has it for another array.
template <typename T>
class Items {
public:
    Items(const std::vector<T> &items, bool is_taken) : copy_(0), length_(items.size())
    {
        if constexpr (!is_bool<T>) {
            if (!is_taken && !items.empty()) {
                data_ = items.data();
                return;
            }
        }
        copy_ = Array<T>(items.size());
        for (std::size_t k = 0; k < items.size(); k++) {
            copy_[k] = items[k];
        }
        data_ = copy_.data();
    }

    [[nodiscard]] const T *data() const noexcept { return data_; }
    [[nodiscard]] std::size_t size() const noexcept { return length_; }

private:
    Array<T> copy_;
    std::size_t length_;
    const T *data_ = nullptr;
};

// Whether the two are one vector.
template <typename T, typename U>
[[nodiscard]] bool are_one(const std::vector<T> &left, const std::vector<U> &right) noexcept
{
    return static_cast<const void *>(&left) == static_cast<const void *>(&right);
}

} // namespace detail

// ---- Passes and stores ---------------------------------------------------------------------------------

class Chain;
class Store;

/// One thread's view of a store. Each call on the store is a method of a pass. One thread at a time uses it.
///
/// A method throws Refusal where its call is refused. What the pass has learnt meanwhile stays.
///
/// An operation writes `output<mask> = accum(output, result)`, as trowelheath.h explains at "Operations".
/// Its parameters stand in the order of GraphBLAS, and mask and accumulator are left out together:
///
///     pass.mxm(c, plus_times, a, b);                                              // C = A * B
///     pass.mxm(c, mask, none, plus_times, a, b, Descriptor::structure);           // C<mask> = A * B
///     pass.vxm(d, none, min, min_plus, d, a);                                     // d = min(d, d * A)
class Pass {
public:
    /// The pass; the other is none after, and its calls are refused.
    Pass(Pass &&other) noexcept : number_(std::move(other.number_)), raw_(std::exchange(other.raw_, TrB_Pass{})) {}

    /// The pass, in place of this one, which ends; the other is none after, and its calls are refused.
    Pass &operator=(Pass &&other) noexcept
    {
        if (this != &other) {
            TrB_free(&raw_);
            raw_ = std::exchange(other.raw_, TrB_Pass{});
            number_ = std::move(other.number_);
        }
        return *this;
    }

    Pass(const Pass &) = delete;
    Pass &operator=(const Pass &) = delete;

    /// Ends the pass. What it entered stays in the store. The store ends with its last pass.
    ~Pass() { TrB_free(&raw_); }

    /// Whether it is a pass of a store, and was not moved from.
    [[nodiscard]] bool is_open() const noexcept { return number_ != nullptr; }

    /// Learns all that the other pass knows, as TrB_meet; whether it does. Of one store it always does, and a pass that
    /// meets itself has nothing to learn. In a chain it does not where the other one sits in a later generation, to which
    /// this one could not move now: then try again.
    bool meet(Pass &other)
    {
        return this == &other ||
               detail::check(TrB_meet(&raw_, &other.raw_), told_of_meeting) != Status::no_value;
    }

    /// Learns all that the other pass knows, and goes on from what it has evaluated, as TrB_adopt; whether it learnt that,
    /// as meet.
    bool adopt(Pass &other)
    {
        return this == &other ||
               detail::check(TrB_adopt(&raw_, &other.raw_), told_of_meeting) != Status::no_value;
    }

    /// Evaluates what the pass knows where that is dear, so that others may adopt it. Answers before how many of
    /// the known calls no answer makes one any more. As TrB_prepare.
    std::uint32_t prepare()
    {
        std::uint32_t evaluated = 0;
        detail::check(TrB_prepare(&raw_, &evaluated));
        return evaluated;
    }

    /// Makes blocks of the dear products that other passes of the store make at the moment, and answers how many: 0
    /// where there is none to make. It waits for nobody. A thread that has nothing else to do calls it again and
    /// again, and sleeps a little after each 0. As TrB_help.
    std::uint32_t help()
    {
        std::uint32_t made = 0;
        detail::check(TrB_help(&raw_, &made));
        return made;
    }

    /// How many blocks of dear products were made so far in the store, by whatever pass, as TrB_blocks.
    [[nodiscard]] std::uint64_t blocks()
    {
        std::uint64_t count = 0;
        detail::check(TrB_blocks(&raw_, &count));
        return count;
    }

    /// Drops what the pass has evaluated, so that its memory is given back. It knows what it knew. As TrB_release.
    void release() { detail::check(TrB_release(&raw_)); }

    /// What the pass is and knows, as TrB_facts.
    [[nodiscard]] Facts facts()
    {
        Facts facts{};
        detail::check(TrB_facts(&raw_, &facts));
        return facts;
    }

    /// What the pass keeps and has looked at, as TrB_costs.
    [[nodiscard]] Costs costs()
    {
        Costs costs{};
        detail::check(TrB_costs(&raw_, &costs));
        return costs;
    }

    /// The number of the generation of the chain in which the pass sits, from 0, as TrB_chain_generation.
    [[nodiscard]] std::uint64_t generation()
    {
        std::uint64_t generation = 0;
        detail::check(TrB_chain_generation(&raw_, &generation), told_of_chain);
        return generation;
    }

    /// How many more objects the chain has place for, beside all that there can be where the generation ends in which
    /// the pass sits; 0 where a call that makes one is refused with Status::order_full. As TrB_chain_objects_left.
    [[nodiscard]] std::uint64_t objects_left()
    {
        std::uint64_t left = 0;
        detail::check(TrB_chain_objects_left(&raw_, &left), told_of_chain);
        return left;
    }

    /// Goes to a later generation of the chain, where its own is used up and it knows every change of that, and makes
    /// the next one where there is none; whether it moved. Each call does so by itself: this is for who was answered
    /// Status::order_full, and asks why, where objects_left is not 0. It does not where others make the next one: then
    /// try again. As TrB_chain_go_on. Throws RoomTooSmall where no history has the room of a generation beside the
    /// changes that make the objects.
    bool go_on()
    {
        std::uint64_t needed = 0;
        bool moved = false;
        const std::int32_t status = TrB_chain_go_on(&raw_, &needed, &moved);
        if (status == TrB_INSUFFICIENT_SPACE) {
            throw RoomTooSmall(needed);
        }
        detail::check(status, told_of_chain);
        return moved;
    }

    /// The pass of the chain with this number anew, which has ended; nothing where it is not to be had. As
    /// TrB_chain_seat.
    [[nodiscard]] std::optional<Pass> seat(std::uint32_t number)
    {
        TrB_Pass raw = TRB_PASS_INIT;
        if (detail::check(TrB_chain_seat(&raw_, number, &raw), told_of_chain) == Status::no_value) {
            return std::nullopt;
        }
        return Pass(raw, number_);
    }

    /// Whether the room is used up and the pass knows every change, as TrB_is_full.
    [[nodiscard]] bool is_full()
    {
        bool full = false;
        detail::check(TrB_is_full(&raw_, &full));
        return full;
    }

    /// Opens the successor of the store, which begins with this one as it is now: the pass looks for news first, as in
    /// each call, and each object of this store means the same there. As TrB_succeed, with room and passes as of Store.
    /// Throws RoomTooSmall where no store has room for the changes that make the objects and for `room` more. A chain
    /// has none, since it goes on by itself.
    [[nodiscard]] Store succeed(std::uint32_t room, std::uint32_t passes);

    /// Opens a branch: a store of its own that begins with these objects, all of them as they are at one moment of the
    /// call: the pass looks for news first, as in each call. The matrix at place k of its list has the number k there,
    /// Matrix<T>(k), and so has the vector at place k of its own. As TrB_branch, with room and passes as of Store. Throws
    /// RoomTooSmall where no store has room for the changes that make the objects and for `room` more.
    ///
    ///     Store apart = pass.branch({graph.id()}, {}, 1000, 1);
    [[nodiscard]] Store branch(const std::vector<std::uint32_t> &matrices, const std::vector<std::uint32_t> &vectors,
                               std::uint32_t room, std::uint32_t passes);

    /// Fills a matrix that stores nothing with all entries that `a` has now, a matrix of the other pass: of a branch,
    /// as a rule. They are shared, and none is copied. As TrB_Matrix_build_from.
    template <typename T>
    void build_from(Matrix<T> c, Pass &other, Matrix<T> a)
    {
        detail::check(TrB_Matrix_build_from(&raw_, TrB_Matrix{c.id()}, &other.raw_, TrB_Matrix{a.id()}),
                      [&](Status code) { return told(code, {of("c", c)}); });
    }

    /// Fills a vector that stores nothing with all entries that `u` has now, a vector of the other pass: of a branch,
    /// as a rule. They are shared, and none is copied. As TrB_Vector_build_from.
    template <typename T>
    void build_from(Vector<T> w, Pass &other, Vector<T> u)
    {
        detail::check(TrB_Vector_build_from(&raw_, TrB_Vector{w.id()}, &other.raw_, TrB_Vector{u.id()}),
                      [&](Status code) { return told(code, {of("w", w)}); });
    }

    // ---- Objects ---------------------------------------------------------------------------------------

    /// A new matrix of nrows rows and ncols columns with no entries, as TrB_Matrix_new.
    template <typename T>
    [[nodiscard]] Matrix<detail::element<T>> new_matrix(Index nrows, Index ncols)
    {
        std::uint32_t id = 0;
        detail::check(trb_matrix_new(&raw_, &id, domain<T>(), nrows, ncols),
                      [&](Status code) { return told_of_dimensions(code, nrows, ncols); });
        return Matrix<detail::element<T>>(id);
    }

    /// A new vector of this size with no entries, as TrB_Vector_new.
    template <typename T>
    [[nodiscard]] Vector<detail::element<T>> new_vector(Index size)
    {
        std::uint32_t id = 0;
        detail::check(trb_vector_new(&raw_, &id, domain<T>(), size),
                      [&](Status code) { return told_of_dimensions(code, size); });
        return Vector<detail::element<T>>(id);
    }

    /// A new matrix with the dimensions and the entries that `a` has now, as TrB_Matrix_dup.
    template <typename T>
    [[nodiscard]] Matrix<T> dup(Matrix<T> a)
    {
        std::uint32_t id = 0;
        detail::check(trb_matrix_dup(&raw_, &id, a.id()), [&](Status code) { return told(code, {of("a", a)}); });
        return Matrix<T>(id);
    }

    /// A new vector with the size and the entries that `u` has now, as TrB_Vector_dup.
    template <typename T>
    [[nodiscard]] Vector<T> dup(Vector<T> u)
    {
        std::uint32_t id = 0;
        detail::check(trb_vector_dup(&raw_, &id, u.id()), [&](Status code) { return told(code, {of("u", u)}); });
        return Vector<T>(id);
    }

    /// A new matrix with the entries that `v` has now on the diagonal k, as TrB_Matrix_diag: above the main one, or below
    /// where k is negative.
    template <typename T, typename V>
    [[nodiscard]] Matrix<T> diag(Vector<T> v, V k)
    {
        const std::int64_t diagonal = detail::place(k);
        std::uint32_t id = 0;
        detail::check(trb_matrix_diag(&raw_, &id, v.id(), diagonal),
                      [&](Status code) { return told_of_diagonal(code, of("v", v), diagonal); });
        return Matrix<T>(id);
    }

    /// Ends the matrix, for all passes, as TrB_Matrix_free.
    template <typename T>
    void free(Matrix<T> a)
    {
        detail::check(trb_matrix_free(&raw_, a.id()), [&](Status code) { return told(code, {of("a", a)}); });
    }

    /// Ends the vector, for all passes, as TrB_Vector_free.
    template <typename T>
    void free(Vector<T> v)
    {
        detail::check(trb_vector_free(&raw_, v.id()), [&](Status code) { return told(code, {of("v", v)}); });
    }

    /// Removes all entries of the matrix, as TrB_Matrix_clear.
    template <typename T>
    void clear(Matrix<T> a)
    {
        detail::check(trb_matrix_clear(&raw_, a.id()), [&](Status code) { return told(code, {of("a", a)}); });
    }

    /// Removes all entries of the vector, as TrB_Vector_clear.
    template <typename T>
    void clear(Vector<T> v)
    {
        detail::check(trb_vector_clear(&raw_, v.id()), [&](Status code) { return told(code, {of("v", v)}); });
    }

    /// Gives the matrix new dimensions; entries outside are gone for good, as TrB_Matrix_resize.
    template <typename T>
    void resize(Matrix<T> a, Index nrows, Index ncols)
    {
        detail::check(trb_matrix_resize(&raw_, a.id(), nrows, ncols), [&](Status code) {
            return code == Status::invalid_value ? told_of_dimensions(code, nrows, ncols) : told(code, {of("a", a)});
        });
    }

    /// Gives the vector a new size; entries outside are gone for good, as TrB_Vector_resize.
    template <typename T>
    void resize(Vector<T> v, Index size)
    {
        detail::check(trb_vector_resize(&raw_, v.id(), size), [&](Status code) {
            return code == Status::invalid_value ? told_of_dimensions(code, size) : told(code, {of("v", v)});
        });
    }

    /// The rows and columns of the matrix, both at one moment, as TrB_Matrix_size.
    template <typename T>
    [[nodiscard]] Size size(Matrix<T> a)
    {
        Size size{};
        detail::check(trb_matrix_size(&raw_, &size.nrows, &size.ncols, a.id()), [&](Status code) { return told(code, {of("a", a)}); });
        return size;
    }

    /// The size of the vector, as TrB_Vector_size.
    template <typename T>
    [[nodiscard]] Index size(Vector<T> v)
    {
        Index size = 0;
        detail::check(trb_vector_size(&raw_, &size, v.id()), [&](Status code) { return told(code, {of("v", v)}); });
        return size;
    }

    /// How many entries the matrix stores, as TrB_Matrix_nvals.
    template <typename T>
    [[nodiscard]] Index nvals(Matrix<T> a)
    {
        Index nvals = 0;
        detail::check(trb_matrix_nvals(&raw_, &nvals, a.id()), [&](Status code) { return told(code, {of("a", a)}); });
        return nvals;
    }

    /// How many entries the vector stores, as TrB_Vector_nvals.
    template <typename T>
    [[nodiscard]] Index nvals(Vector<T> v)
    {
        Index nvals = 0;
        detail::check(trb_vector_nvals(&raw_, &nvals, v.id()), [&](Status code) { return told(code, {of("v", v)}); });
        return nvals;
    }

    /// Finishes the pending work on the matrix, or on all objects, as TrB_Matrix_wait.
    template <typename T>
    void wait(Matrix<T> a, WaitMode mode)
    {
        detail::check(trb_matrix_wait(&raw_, a.id(), static_cast<std::uint32_t>(mode)));
    }

    /// Finishes the pending work on the vector, or on all objects, as TrB_Vector_wait.
    template <typename T>
    void wait(Vector<T> v, WaitMode mode)
    {
        detail::check(trb_vector_wait(&raw_, v.id(), static_cast<std::uint32_t>(mode)));
    }

    /// The status that the last call of this pass on the matrix left, as TrB_Matrix_error. None before the first. A
    /// Refusal that tells dimensions has read them by such a call; its code() is the status.
    template <typename T>
    [[nodiscard]] std::optional<Status> last_status(Matrix<T> a)
    {
        std::int32_t status = 0;
        const Status asked = detail::check(trb_matrix_last_info(&raw_, &status, a.id()));
        return found(asked, static_cast<Status>(status));
    }

    /// The status that the last call of this pass on the vector left, as TrB_Vector_error. None before the first. A
    /// Refusal that tells dimensions has read them by such a call; its code() is the status.
    template <typename T>
    [[nodiscard]] std::optional<Status> last_status(Vector<T> v)
    {
        std::int32_t status = 0;
        const Status asked = detail::check(trb_vector_last_info(&raw_, &status, v.id()));
        return found(asked, static_cast<Status>(status));
    }

    // ---- Entries ---------------------------------------------------------------------------------------

    /// Stores x at row i and column j, in place of what was stored there, as TrB_Matrix_setElement_UINT64. Throws
    /// Refusal with Status::invalid_value where x is negative.
    template <typename T, typename V>
    TROWELHEATH_INLINE void set(Matrix<T> c, Index i, Index j, V x)
    {
        set_value(c, i, j, detail::value<T>(x));
    }

    /// Stores x at index i, in place of what was stored there, as TrB_Vector_setElement_UINT64. Throws Refusal with
    /// Status::invalid_value where x is negative.
    template <typename T, typename V>
    TROWELHEATH_INLINE void set(Vector<T> w, Index i, V x)
    {
        set_value(w, i, detail::value<T>(x));
    }

    /// The value stored at row i and column j, if there is one, as TrB_Matrix_extractElement_UINT64.
    template <typename T>
    [[nodiscard]] std::optional<T> get(Matrix<T> a, Index i, Index j)
    {
        T x{};
        std::int32_t status;
        if constexpr (detail::is_bool<T>) {
            status = trb_matrix_get_bool(&raw_, &x, a.id(), i, j);
        } else {
            status = trb_matrix_get_uint64(&raw_, &x, a.id(), i, j);
        }
        return found(detail::check(status, [&](Status code) { return told_of_index(code, of("a", a), i, j); }), x);
    }

    /// The value stored at index i, if there is one, as TrB_Vector_extractElement_UINT64.
    template <typename T>
    [[nodiscard]] std::optional<T> get(Vector<T> u, Index i)
    {
        T x{};
        std::int32_t status;
        if constexpr (detail::is_bool<T>) {
            status = trb_vector_get_bool(&raw_, &x, u.id(), i);
        } else {
            status = trb_vector_get_uint64(&raw_, &x, u.id(), i);
        }
        return found(detail::check(status, [&](Status code) { return told_of_index(code, of("u", u), i); }), x);
    }

    /// Removes the entry at row i and column j, if there is one, as TrB_Matrix_removeElement.
    template <typename T>
    void remove(Matrix<T> c, Index i, Index j)
    {
        detail::check(trb_matrix_remove(&raw_, c.id(), i, j),
                      [&](Status code) { return told_of_index(code, of("c", c), i, j); });
    }

    /// Removes the entry at index i, if there is one, as TrB_Vector_removeElement.
    template <typename T>
    void remove(Vector<T> w, Index i)
    {
        detail::check(trb_vector_remove(&raw_, w.id(), i),
                      [&](Status code) { return told_of_index(code, of("w", w), i); });
    }

    /// Fills a matrix that stores nothing with these entries, in any order, as TrB_Matrix_build_UINT64. The
    /// monoid joins values of one place. Takes memory for three arrays besides what the store takes.
    template <typename T>
    void build(Matrix<T> c, const std::vector<MatrixEntry<T>> &entries, detail::same<Monoid<T>> dup)
    {
        const detail::Array<Index> rows(entries.size()), columns(entries.size());
        const detail::Array<T> values(entries.size());
        std::size_t k = 0;
        for (const MatrixEntry<T> &entry : entries) {
            rows[k] = entry.row;
            columns[k] = entry.column;
            values[k] = entry.value;
            k++;
        }
        build_of(c, rows, columns, values, dup);
    }

    /// Fills a matrix that stores nothing: values[k] at rows[k] and columns[k], in any order. The monoid joins
    /// values of one place. Refused with Status::invalid_value where the lengths differ; else as
    /// TrB_Matrix_build_UINT64. Two of them may be one vector, as for a diagonal; then it is copied.
    template <typename T>
    void build(Matrix<T> c, const std::vector<Index> &rows, const std::vector<Index> &columns,
               const std::vector<T> &values, detail::same<Monoid<T>> dup)
    {
        const detail::Items<Index> read_rows(rows, false);
        const detail::Items<Index> read_columns(columns, detail::are_one(columns, rows));
        const detail::Items<T> read_values(values, detail::are_one(values, rows) || detail::are_one(values, columns));
        build_of(c, read_rows, read_columns, read_values, dup);
    }

    /// Fills a vector that stores nothing with these entries, in any order, as TrB_Vector_build_UINT64. The
    /// monoid joins values of one index. Takes memory for two arrays besides what the store takes.
    template <typename T>
    void build(Vector<T> w, const std::vector<VectorEntry<T>> &entries, detail::same<Monoid<T>> dup)
    {
        const detail::Array<Index> indices(entries.size());
        const detail::Array<T> values(entries.size());
        std::size_t k = 0;
        for (const VectorEntry<T> &entry : entries) {
            indices[k] = entry.index;
            values[k] = entry.value;
            k++;
        }
        build_of(w, indices, values, dup);
    }

    /// Fills a vector that stores nothing: values[k] at indices[k], in any order. The monoid joins values of one
    /// index. Refused with Status::invalid_value where the lengths differ; else as TrB_Vector_build_UINT64. The
    /// two may be one vector; then it is copied.
    template <typename T>
    void build(Vector<T> w, const std::vector<Index> &indices, const std::vector<T> &values,
               detail::same<Monoid<T>> dup)
    {
        const detail::Items<Index> read_indices(indices, false);
        const detail::Items<T> read_values(values, detail::are_one(values, indices));
        build_of(w, read_indices, read_values, dup);
    }

    /// All entries of the matrix as they are at one moment, in rising order of row, then column.
    template <typename T>
    [[nodiscard]] std::vector<MatrixEntry<T>> entries(Matrix<T> a)
    {
        for (Index count = nvals(a);;) {
            const std::size_t length = static_cast<std::size_t>(count);
            const detail::Array<Index> rows(length), columns(length);
            const detail::Array<T> values(length);
            if (!read(a, rows, columns, values, count)) {
                continue; // entries came meanwhile, and count tells how many there are
            }
            std::vector<MatrixEntry<T>> entries;
            entries.reserve(static_cast<std::size_t>(count));
            for (std::size_t k = 0; k < count; k++) {
                entries.push_back({rows[k], columns[k], values[k]});
            }
            return entries;
        }
    }

    /// All entries of the vector as they are at one moment, in rising order of index.
    template <typename T>
    [[nodiscard]] std::vector<VectorEntry<T>> entries(Vector<T> u)
    {
        for (Index count = nvals(u);;) {
            const std::size_t length = static_cast<std::size_t>(count);
            const detail::Array<Index> indices(length);
            const detail::Array<T> values(length);
            if (!read(u, indices, values, count)) {
                continue; // entries came meanwhile, and count tells how many there are
            }
            std::vector<VectorEntry<T>> entries;
            entries.reserve(static_cast<std::size_t>(count));
            for (std::size_t k = 0; k < count; k++) {
                entries.push_back({indices[k], values[k]});
            }
            return entries;
        }
    }

    /// All values of the matrix joined by the monoid; without entries, its identity. As TrB_Matrix_reduce_UINT64.
    template <typename T>
    [[nodiscard]] T reduce(detail::same<Monoid<T>> monoid, Matrix<T> a)
    {
        T x{};
        if constexpr (detail::is_bool<T>) {
            detail::check(trb_matrix_reduce_bool(&raw_, &x, number(monoid), a.id()));
        } else {
            detail::check(trb_matrix_reduce_uint64(&raw_, &x, number(monoid), a.id()));
        }
        return x;
    }

    /// All values of the vector joined by the monoid; without entries, its identity. As TrB_Vector_reduce_UINT64.
    template <typename T>
    [[nodiscard]] T reduce(detail::same<Monoid<T>> monoid, Vector<T> u)
    {
        T x{};
        if constexpr (detail::is_bool<T>) {
            detail::check(trb_vector_reduce_bool(&raw_, &x, number(monoid), u.id()));
        } else {
            detail::check(trb_vector_reduce_uint64(&raw_, &x, number(monoid), u.id()));
        }
        return x;
    }

    // ---- Operations ------------------------------------------------------------------------------------

    /// C<mask> = accum(C, A * B), as TrB_mxm.
    template <typename T>
    void mxm(Matrix<T> c, MatrixMask mask, detail::same<Accum<T>> accum, Semiring<T> semiring, Matrix<T> a,
             Matrix<T> b, MatricesDescriptor desc = Descriptor::none)
    {
        detail::check(trb_mxm(&raw_, c.id(), mask.id(), number(accum), number(semiring.add), number(semiring.multiply), a.id(),
                              b.id(), desc.bits()),
                      [&](Status code) {
                          return told(code,
                                      {of("c", c), of(mask), of("a", a, desc.is_transposed()),
                                       of("b", b, desc.is_second_transposed())},
                                      {{2, 1, 3, 0}, {0, 0, 2, 0}, {0, 1, 3, 1}, {1, 0, 0, 0}, {1, 1, 0, 1}});
                      });
    }

    /// C = A * B, as TrB_mxm.
    template <typename T>
    void mxm(Matrix<T> c, Semiring<T> semiring, Matrix<T> a, Matrix<T> b, MatricesDescriptor desc = Descriptor::none)
    {
        mxm(c, none, none, semiring, a, b, desc);
    }

    /// w<mask> = accum(w, A * u), as TrB_mxv.
    template <typename T>
    void mxv(Vector<T> w, VectorMask mask, detail::same<Accum<T>> accum, Semiring<T> semiring, Matrix<T> a,
             Vector<T> u, MatrixDescriptor desc = Descriptor::none)
    {
        detail::check(trb_mxv(&raw_, w.id(), mask.id(), number(accum), number(semiring.add), number(semiring.multiply), a.id(),
                              u.id(), desc.bits()),
                      [&](Status code) {
                          return told(code, {of("w", w), of(mask), of("a", a, desc.is_transposed()), of("u", u)},
                                      {{2, 1, 3, 0}, {0, 0, 2, 0}, {1, 0, 0, 0}});
                      });
    }

    /// w = A * u, as TrB_mxv.
    template <typename T>
    void mxv(Vector<T> w, Semiring<T> semiring, Matrix<T> a, Vector<T> u, MatrixDescriptor desc = Descriptor::none)
    {
        mxv(w, none, none, semiring, a, u, desc);
    }

    /// w<mask> = accum(w, u * A), as TrB_vxm.
    template <typename T>
    void vxm(Vector<T> w, VectorMask mask, detail::same<Accum<T>> accum, Semiring<T> semiring, Vector<T> u,
             Matrix<T> a, SecondDescriptor desc = Descriptor::none)
    {
        detail::check(trb_vxm(&raw_, w.id(), mask.id(), number(accum), number(semiring.add), number(semiring.multiply), u.id(),
                              a.id(), desc.bits()),
                      [&](Status code) {
                          return told(code, {of("w", w), of(mask), of("u", u), of("a", a, desc.is_second_transposed())},
                                      {{2, 0, 3, 0}, {0, 0, 3, 1}, {1, 0, 0, 0}});
                      });
    }

    /// w = u * A, as TrB_vxm.
    template <typename T>
    void vxm(Vector<T> w, Semiring<T> semiring, Vector<T> u, Matrix<T> a, SecondDescriptor desc = Descriptor::none)
    {
        vxm(w, none, none, semiring, u, a, desc);
    }

    /// C<mask> = accum(C, A + B): op where both store a value, and the one value elsewhere. As TrB_Matrix_eWiseAdd.
    template <typename T>
    void ewise_add(Matrix<T> c, MatrixMask mask, detail::same<Accum<T>> accum, detail::same<BinaryOp<T>> op,
                   Matrix<T> a, Matrix<T> b, MatricesDescriptor desc = Descriptor::none)
    {
        detail::check(trb_matrix_ewise_add(&raw_, c.id(), mask.id(), number(accum), number(op), a.id(), b.id(),
                                           desc.bits()),
                      [&](Status code) {
                          return told(code,
                                      {of("c", c), of(mask), of("a", a, desc.is_transposed()),
                                       of("b", b, desc.is_second_transposed())},
                                      {{2, 0, 3, 0}, {2, 1, 3, 1}, {0, 0, 3, 0}, {0, 1, 3, 1}, {1, 0, 0, 0}, {1, 1, 0, 1}});
                      });
    }

    /// C = A + B: op where both store a value, and the one value elsewhere. As TrB_Matrix_eWiseAdd.
    template <typename T>
    void ewise_add(Matrix<T> c, detail::same<BinaryOp<T>> op, Matrix<T> a, Matrix<T> b,
                   MatricesDescriptor desc = Descriptor::none)
    {
        ewise_add(c, none, none, op, a, b, desc);
    }

    /// w<mask> = accum(w, u + v): op where both store a value, and the one value elsewhere. As TrB_Vector_eWiseAdd.
    template <typename T>
    void ewise_add(Vector<T> w, VectorMask mask, detail::same<Accum<T>> accum, detail::same<BinaryOp<T>> op,
                   Vector<T> u, Vector<T> v, Descriptor desc = Descriptor::none)
    {
        detail::check(trb_vector_ewise_add(&raw_, w.id(), mask.id(), number(accum), number(op), u.id(), v.id(),
                                           desc.bits()),
                      [&](Status code) {
                          return told(code, {of("w", w), of(mask), of("u", u), of("v", v)},
                                      {{2, 0, 3, 0}, {0, 0, 3, 0}, {1, 0, 0, 0}});
                      });
    }

    /// w = u + v: op where both store a value, and the one value elsewhere. As TrB_Vector_eWiseAdd.
    template <typename T>
    void ewise_add(Vector<T> w, detail::same<BinaryOp<T>> op, Vector<T> u, Vector<T> v,
                   Descriptor desc = Descriptor::none)
    {
        ewise_add(w, none, none, op, u, v, desc);
    }

    /// C<mask> = accum(C, A .* B): op where both store a value, and nothing elsewhere. As TrB_Matrix_eWiseMult.
    template <typename T>
    void ewise_mult(Matrix<T> c, MatrixMask mask, detail::same<Accum<T>> accum, detail::same<BinaryOp<T>> op,
                    Matrix<T> a, Matrix<T> b, MatricesDescriptor desc = Descriptor::none)
    {
        detail::check(trb_matrix_ewise_mult(&raw_, c.id(), mask.id(), number(accum), number(op), a.id(), b.id(),
                                           desc.bits()),
                      [&](Status code) {
                          return told(code,
                                      {of("c", c), of(mask), of("a", a, desc.is_transposed()),
                                       of("b", b, desc.is_second_transposed())},
                                      {{2, 0, 3, 0}, {2, 1, 3, 1}, {0, 0, 3, 0}, {0, 1, 3, 1}, {1, 0, 0, 0}, {1, 1, 0, 1}});
                      });
    }

    /// C = A .* B: op where both store a value, and nothing elsewhere. As TrB_Matrix_eWiseMult.
    template <typename T>
    void ewise_mult(Matrix<T> c, detail::same<BinaryOp<T>> op, Matrix<T> a, Matrix<T> b,
                    MatricesDescriptor desc = Descriptor::none)
    {
        ewise_mult(c, none, none, op, a, b, desc);
    }

    /// w<mask> = accum(w, u .* v): op where both store a value, and nothing elsewhere. As TrB_Vector_eWiseMult.
    template <typename T>
    void ewise_mult(Vector<T> w, VectorMask mask, detail::same<Accum<T>> accum, detail::same<BinaryOp<T>> op,
                    Vector<T> u, Vector<T> v, Descriptor desc = Descriptor::none)
    {
        detail::check(trb_vector_ewise_mult(&raw_, w.id(), mask.id(), number(accum), number(op), u.id(), v.id(),
                                           desc.bits()),
                      [&](Status code) {
                          return told(code, {of("w", w), of(mask), of("u", u), of("v", v)},
                                      {{2, 0, 3, 0}, {0, 0, 3, 0}, {1, 0, 0, 0}});
                      });
    }

    /// w = u .* v: op where both store a value, and nothing elsewhere. As TrB_Vector_eWiseMult.
    template <typename T>
    void ewise_mult(Vector<T> w, detail::same<BinaryOp<T>> op, Vector<T> u, Vector<T> v,
                    Descriptor desc = Descriptor::none)
    {
        ewise_mult(w, none, none, op, u, v, desc);
    }

    /// w<mask> = accum(w, the rows of A, each joined by the monoid), as TrB_Matrix_reduce.
    template <typename T>
    void reduce_rows(Vector<T> w, VectorMask mask, detail::same<Accum<T>> accum, detail::same<Monoid<T>> monoid,
                     Matrix<T> a, MatrixDescriptor desc = Descriptor::none)
    {
        detail::check(trb_reduce_rows(&raw_, w.id(), mask.id(), number(accum), number(monoid), a.id(), desc.bits()),
                      [&](Status code) {
                          return told(code, {of("w", w), of(mask), of("a", a, desc.is_transposed())},
                                      {{0, 0, 2, 0}, {1, 0, 0, 0}});
                      });
    }

    /// w = the rows of A, each joined by the monoid, as TrB_Matrix_reduce.
    template <typename T>
    void reduce_rows(Vector<T> w, detail::same<Monoid<T>> monoid, Matrix<T> a, MatrixDescriptor desc = Descriptor::none)
    {
        reduce_rows(w, none, none, monoid, a, desc);
    }

    /// C<mask> = accum(C, A'), as TrB_transpose. With Descriptor::tran it is turned twice.
    template <typename T>
    void transpose(Matrix<T> c, MatrixMask mask, detail::same<Accum<T>> accum, Matrix<T> a,
                   MatrixDescriptor desc = Descriptor::none)
    {
        detail::check(trb_transpose(&raw_, c.id(), mask.id(), number(accum), a.id(), desc.bits()), [&](Status code) {
            return told(code, {of("c", c), of(mask), of("a", a, desc.is_transposed())},
                        {{0, 0, 2, 1}, {0, 1, 2, 0}, {1, 0, 0, 0}, {1, 1, 0, 1}});
        });
    }

    /// C = A', as TrB_transpose. With Descriptor::tran it is turned twice.
    template <typename T>
    void transpose(Matrix<T> c, Matrix<T> a, MatrixDescriptor desc = Descriptor::none)
    {
        transpose(c, none, none, a, desc);
    }

    /// C<mask> = accum(C, the Kronecker product of A and B by op), as TrB_Matrix_kronecker_BinaryOp.
    template <typename T>
    void kronecker(Matrix<T> c, MatrixMask mask, detail::same<Accum<T>> accum, detail::same<BinaryOp<T>> op,
                   Matrix<T> a, Matrix<T> b, MatricesDescriptor desc = Descriptor::none)
    {
        detail::check(trb_matrix_kronecker(&raw_, c.id(), mask.id(), number(accum), number(op), a.id(), b.id(),
                                           desc.bits()),
                      [&](Status code) {
                          return told_of_product(code, of("c", c), of(mask), of("a", a, desc.is_transposed()),
                                                 of("b", b, desc.is_second_transposed()));
                      });
    }

    /// C = the Kronecker product of A and B by op, as TrB_Matrix_kronecker_BinaryOp.
    template <typename T>
    void kronecker(Matrix<T> c, detail::same<BinaryOp<T>> op, Matrix<T> a, Matrix<T> b,
                   MatricesDescriptor desc = Descriptor::none)
    {
        kronecker(c, none, none, op, a, b, desc);
    }

    /// C<mask> = accum(C, op(A)): op of each value, as TrB_Matrix_apply.
    template <typename T>
    void apply(Matrix<T> c, MatrixMask mask, detail::same<Accum<T>> accum, detail::same<UnaryOp<T>> op, Matrix<T> a,
               MatrixDescriptor desc = Descriptor::none)
    {
        detail::check(trb_matrix_apply(&raw_, c.id(), mask.id(), number(accum), number(op), a.id(), desc.bits()),
                      [&](Status code) {
                          return told_of_map(code, of("c", c), of(mask), of("a", a, desc.is_transposed()));
                      });
    }

    /// C = op(A): op of each value, as TrB_Matrix_apply.
    template <typename T>
    void apply(Matrix<T> c, detail::same<UnaryOp<T>> op, Matrix<T> a, MatrixDescriptor desc = Descriptor::none)
    {
        apply(c, none, none, op, a, desc);
    }

    /// C<mask> = accum(C, op(x, A)): op of x and each value, as TrB_Matrix_apply_BinaryOp1st_UINT64. Throws Refusal with
    /// Status::invalid_value where x is negative.
    template <typename T, typename V>
    TROWELHEATH_INLINE void apply(Matrix<T> c, MatrixMask mask, detail::same<Accum<T>> accum, detail::same<BinaryOp<T>> op,
                                  V x, Matrix<T> a, SecondDescriptor desc = Descriptor::none)
    {
        apply_first(c, mask, accum, op, detail::value<T>(x), a, desc);
    }

    /// C = op(x, A): op of x and each value, as TrB_Matrix_apply_BinaryOp1st_UINT64. Throws Refusal with
    /// Status::invalid_value where x is negative.
    template <typename T, typename V>
    TROWELHEATH_INLINE void apply(Matrix<T> c, detail::same<BinaryOp<T>> op, V x, Matrix<T> a,
                                  SecondDescriptor desc = Descriptor::none)
    {
        apply_first(c, none, none, op, detail::value<T>(x), a, desc);
    }

    /// C<mask> = accum(C, op(A, y)): op of each value and y, as TrB_Matrix_apply_BinaryOp2nd_UINT64. Throws Refusal with
    /// Status::invalid_value where y is negative.
    template <typename T, typename V>
    TROWELHEATH_INLINE void apply(Matrix<T> c, MatrixMask mask, detail::same<Accum<T>> accum, detail::same<BinaryOp<T>> op,
                                  Matrix<T> a, V y, MatrixDescriptor desc = Descriptor::none)
    {
        apply_second(c, mask, accum, op, a, detail::value<T>(y), desc);
    }

    /// C = op(A, y): op of each value and y, as TrB_Matrix_apply_BinaryOp2nd_UINT64. Throws Refusal with
    /// Status::invalid_value where y is negative.
    template <typename T, typename V>
    TROWELHEATH_INLINE void apply(Matrix<T> c, detail::same<BinaryOp<T>> op, Matrix<T> a, V y,
                                  MatrixDescriptor desc = Descriptor::none)
    {
        apply_second(c, none, none, op, a, detail::value<T>(y), desc);
    }

    /// w<mask> = accum(w, op(u)): op of each value, as TrB_Vector_apply.
    template <typename T>
    void apply(Vector<T> w, VectorMask mask, detail::same<Accum<T>> accum, detail::same<UnaryOp<T>> op, Vector<T> u,
               Descriptor desc = Descriptor::none)
    {
        detail::check(trb_vector_apply(&raw_, w.id(), mask.id(), number(accum), number(op), u.id(), desc.bits()),
                      [&](Status code) { return told_of_map(code, of("w", w), of(mask), of("u", u)); });
    }

    /// w = op(u): op of each value, as TrB_Vector_apply.
    template <typename T>
    void apply(Vector<T> w, detail::same<UnaryOp<T>> op, Vector<T> u, Descriptor desc = Descriptor::none)
    {
        apply(w, none, none, op, u, desc);
    }

    /// w<mask> = accum(w, op(x, u)): op of x and each value, as TrB_Vector_apply_BinaryOp1st_UINT64. Throws Refusal with
    /// Status::invalid_value where x is negative.
    template <typename T, typename V>
    TROWELHEATH_INLINE void apply(Vector<T> w, VectorMask mask, detail::same<Accum<T>> accum, detail::same<BinaryOp<T>> op,
                                  V x, Vector<T> u, Descriptor desc = Descriptor::none)
    {
        apply_first(w, mask, accum, op, detail::value<T>(x), u, desc);
    }

    /// w = op(x, u): op of x and each value, as TrB_Vector_apply_BinaryOp1st_UINT64. Throws Refusal with
    /// Status::invalid_value where x is negative.
    template <typename T, typename V>
    TROWELHEATH_INLINE void apply(Vector<T> w, detail::same<BinaryOp<T>> op, V x, Vector<T> u,
                                  Descriptor desc = Descriptor::none)
    {
        apply_first(w, none, none, op, detail::value<T>(x), u, desc);
    }

    /// w<mask> = accum(w, op(u, y)): op of each value and y, as TrB_Vector_apply_BinaryOp2nd_UINT64. Throws Refusal with
    /// Status::invalid_value where y is negative.
    template <typename T, typename V>
    TROWELHEATH_INLINE void apply(Vector<T> w, VectorMask mask, detail::same<Accum<T>> accum, detail::same<BinaryOp<T>> op,
                                  Vector<T> u, V y, Descriptor desc = Descriptor::none)
    {
        apply_second(w, mask, accum, op, u, detail::value<T>(y), desc);
    }

    /// w = op(u, y): op of each value and y, as TrB_Vector_apply_BinaryOp2nd_UINT64. Throws Refusal with
    /// Status::invalid_value where y is negative.
    template <typename T, typename V>
    TROWELHEATH_INLINE void apply(Vector<T> w, detail::same<BinaryOp<T>> op, Vector<T> u, V y,
                                  Descriptor desc = Descriptor::none)
    {
        apply_second(w, none, none, op, u, detail::value<T>(y), desc);
    }

    /// C<mask> = accum(C, the entries of A whose places pass the test against k), as TrB_Matrix_select_INT64.
    template <typename T, typename V>
    void select(Matrix<T> c, MatrixMask mask, detail::same<Accum<T>> accum, PlaceTest test, Matrix<T> a, V k,
                MatrixDescriptor desc = Descriptor::none)
    {
        const std::int64_t bound = detail::place(k);
        detail::check(trb_matrix_select_int64(&raw_, c.id(), mask.id(), number(accum), number(test), a.id(), bound,
                                              desc.bits()),
                      [&](Status code) {
                          return code == Status::invalid_value
                                     ? told_of_bound(bound)
                                     : told_of_map(code, of("c", c), of(mask), of("a", a, desc.is_transposed()));
                      });
    }

    /// C = the entries of A whose places pass the test against k, as TrB_Matrix_select_INT64.
    template <typename T, typename V>
    void select(Matrix<T> c, PlaceTest test, Matrix<T> a, V k, MatrixDescriptor desc = Descriptor::none)
    {
        select(c, none, none, test, a, k, desc);
    }

    /// C<mask> = accum(C, the entries of A whose values pass the test against y), as TrB_Matrix_select_UINT64. Throws
    /// Refusal with Status::invalid_value where y is negative.
    template <typename T, typename V>
    TROWELHEATH_INLINE void select(Matrix<T> c, MatrixMask mask, detail::same<Accum<T>> accum, ValueTest test, Matrix<T> a,
                                   V y, MatrixDescriptor desc = Descriptor::none)
    {
        select_values(c, mask, accum, test, a, detail::value<T>(y), desc);
    }

    /// C = the entries of A whose values pass the test against y, as TrB_Matrix_select_UINT64. Throws Refusal with
    /// Status::invalid_value where y is negative.
    template <typename T, typename V>
    TROWELHEATH_INLINE void select(Matrix<T> c, ValueTest test, Matrix<T> a, V y, MatrixDescriptor desc = Descriptor::none)
    {
        select_values(c, none, none, test, a, detail::value<T>(y), desc);
    }

    /// w<mask> = accum(w, the entries of u whose places pass the test against k), as TrB_Vector_select_INT64.
    template <typename T, typename V>
    void select(Vector<T> w, VectorMask mask, detail::same<Accum<T>> accum, PlaceTest test, Vector<T> u, V k,
                Descriptor desc = Descriptor::none)
    {
        const std::int64_t bound = detail::place(k);
        detail::check(trb_vector_select_int64(&raw_, w.id(), mask.id(), number(accum), number(test), u.id(), bound,
                                              desc.bits()),
                      [&](Status code) {
                          return code == Status::invalid_value
                                     ? told_of_bound(bound)
                                     : told_of_map(code, of("w", w), of(mask), of("u", u));
                      });
    }

    /// w = the entries of u whose places pass the test against k, as TrB_Vector_select_INT64.
    template <typename T, typename V>
    void select(Vector<T> w, PlaceTest test, Vector<T> u, V k, Descriptor desc = Descriptor::none)
    {
        select(w, none, none, test, u, k, desc);
    }

    /// w<mask> = accum(w, the entries of u whose values pass the test against y), as TrB_Vector_select_UINT64. Throws
    /// Refusal with Status::invalid_value where y is negative.
    template <typename T, typename V>
    TROWELHEATH_INLINE void select(Vector<T> w, VectorMask mask, detail::same<Accum<T>> accum, ValueTest test, Vector<T> u,
                                   V y, Descriptor desc = Descriptor::none)
    {
        select_values(w, mask, accum, test, u, detail::value<T>(y), desc);
    }

    /// w = the entries of u whose values pass the test against y, as TrB_Vector_select_UINT64. Throws Refusal with
    /// Status::invalid_value where y is negative.
    template <typename T, typename V>
    TROWELHEATH_INLINE void select(Vector<T> w, ValueTest test, Vector<T> u, V y, Descriptor desc = Descriptor::none)
    {
        select_values(w, none, none, test, u, detail::value<T>(y), desc);
    }

private:
    friend class Store;

    Pass(TrB_Pass raw, std::shared_ptr<const char> number) noexcept : number_(std::move(number)), raw_(raw) {}

    template <typename T>
    [[nodiscard]] static constexpr std::uint32_t domain() noexcept
    {
        static_assert(detail::is_domain<detail::element<T>>, "values are bool or std::uint64_t");
        return detail::is_bool<T> ? TrB_BOOL : TrB_UINT64;
    }

    template <typename T>
    [[nodiscard]] static constexpr std::uint32_t number(BinaryOp<T> op) noexcept
    {
        return static_cast<std::uint32_t>(op.number());
    }

    template <typename T>
    [[nodiscard]] static constexpr std::uint32_t number(UnaryOp<T> op) noexcept
    {
        return static_cast<std::uint32_t>(op.number());
    }

    [[nodiscard]] static constexpr std::uint32_t number(PlaceTest test) noexcept
    {
        return static_cast<std::uint32_t>(test.number());
    }

    [[nodiscard]] static constexpr std::uint32_t number(ValueTest test) noexcept
    {
        return static_cast<std::uint32_t>(test.number());
    }

    template <typename T>
    [[nodiscard]] static constexpr std::uint32_t number(const Accum<T> &accum) noexcept
    {
        return static_cast<std::uint32_t>(accum ? accum->number() : TrB_NO_ACCUM);
    }

    template <typename T>
    [[nodiscard]] static std::optional<T> found(Status status, T value)
    {
        return status == Status::no_value ? std::nullopt : std::optional<T>(value);
    }

    template <typename T>
    void set_value(Matrix<T> c, Index i, Index j, T x)
    {
        std::int32_t status;
        if constexpr (detail::is_bool<T>) {
            status = trb_matrix_set_bool(&raw_, c.id(), x, i, j);
        } else {
            status = trb_matrix_set_uint64(&raw_, c.id(), x, i, j);
        }
        detail::check(status, [&](Status code) { return told_of_index(code, of("c", c), i, j); });
    }

    template <typename T>
    void set_value(Vector<T> w, Index i, T x)
    {
        std::int32_t status;
        if constexpr (detail::is_bool<T>) {
            status = trb_vector_set_bool(&raw_, w.id(), x, i);
        } else {
            status = trb_vector_set_uint64(&raw_, w.id(), x, i);
        }
        detail::check(status, [&](Status code) { return told_of_index(code, of("w", w), i); });
    }

    template <typename T, typename Indices, typename Values>
    void build_of(Matrix<T> c, const Indices &rows, const Indices &columns, const Values &values, Monoid<T> dup)
    {
        std::int32_t status;
        if constexpr (detail::is_bool<T>) {
            status = trb_matrix_build_bool(&raw_, c.id(), rows.data(), rows.size(), columns.data(), columns.size(),
                                           values.data(), values.size(), number(dup));
        } else {
            status = trb_matrix_build_uint64(&raw_, c.id(), rows.data(), rows.size(), columns.data(), columns.size(),
                                             values.data(), values.size(), number(dup));
        }
        detail::check(status, [&](Status code) {
            if (code == Status::invalid_value) {
                return detail::text("the list of rows has the length %zu, that of columns %zu, that of values %zu",
                                    rows.size(), columns.size(), values.size());
            }
            return code == Status::index_out_of_bounds
                       ? told_of_list(of("c", c), rows.data(), columns.data(), rows.size())
                       : told(code, {of("c", c)});
        });
    }

    template <typename T, typename Indices, typename Values>
    void build_of(Vector<T> w, const Indices &indices, const Values &values, Monoid<T> dup)
    {
        std::int32_t status;
        if constexpr (detail::is_bool<T>) {
            status = trb_vector_build_bool(&raw_, w.id(), indices.data(), indices.size(), values.data(), values.size(),
                                           number(dup));
        } else {
            status = trb_vector_build_uint64(&raw_, w.id(), indices.data(), indices.size(), values.data(),
                                             values.size(), number(dup));
        }
        detail::check(status, [&](Status code) {
            if (code == Status::invalid_value) {
                return detail::text("the list of indices has the length %zu, that of values %zu", indices.size(),
                                    values.size());
            }
            return code == Status::index_out_of_bounds ? told_of_list(of("w", w), indices.data(), nullptr, indices.size())
                                                       : told(code, {of("w", w)});
        });
    }

    template <typename T>
    void apply_first(Matrix<T> c, MatrixMask mask, detail::same<Accum<T>> accum, detail::same<BinaryOp<T>> op,
                     detail::same<T> x, Matrix<T> a, SecondDescriptor desc)
    {
        std::int32_t status;
        if constexpr (detail::is_bool<T>) {
            status = trb_matrix_apply_first_bool(&raw_, c.id(), mask.id(), number(accum), number(op), x, a.id(),
                                                 desc.bits());
        } else {
            status = trb_matrix_apply_first_uint64(&raw_, c.id(), mask.id(), number(accum), number(op), x, a.id(),
                                                   desc.bits());
        }
        detail::check(status,
                      [&](Status code) {
                          return told_of_map(code, of("c", c), of(mask), of("a", a, desc.is_second_transposed()));
                      });
    }

    template <typename T>
    void apply_second(Matrix<T> c, MatrixMask mask, detail::same<Accum<T>> accum, detail::same<BinaryOp<T>> op, Matrix<T> a,
                      detail::same<T> y, MatrixDescriptor desc)
    {
        std::int32_t status;
        if constexpr (detail::is_bool<T>) {
            status = trb_matrix_apply_second_bool(&raw_, c.id(), mask.id(), number(accum), number(op), a.id(), y,
                                                  desc.bits());
        } else {
            status = trb_matrix_apply_second_uint64(&raw_, c.id(), mask.id(), number(accum), number(op), a.id(), y,
                                                    desc.bits());
        }
        detail::check(status,
                      [&](Status code) {
                          return told_of_map(code, of("c", c), of(mask), of("a", a, desc.is_transposed()));
                      });
    }

    template <typename T>
    void select_values(Matrix<T> c, MatrixMask mask, detail::same<Accum<T>> accum, ValueTest test, Matrix<T> a,
                       detail::same<T> y, MatrixDescriptor desc)
    {
        std::int32_t status;
        if constexpr (detail::is_bool<T>) {
            status = trb_matrix_select_bool(&raw_, c.id(), mask.id(), number(accum), number(test), a.id(), y,
                                            desc.bits());
        } else {
            status = trb_matrix_select_uint64(&raw_, c.id(), mask.id(), number(accum), number(test), a.id(), y,
                                              desc.bits());
        }
        detail::check(status,
                      [&](Status code) {
                          return told_of_map(code, of("c", c), of(mask), of("a", a, desc.is_transposed()));
                      });
    }

    template <typename T>
    void apply_first(Vector<T> w, VectorMask mask, detail::same<Accum<T>> accum, detail::same<BinaryOp<T>> op,
                     detail::same<T> x, Vector<T> u, Descriptor desc)
    {
        std::int32_t status;
        if constexpr (detail::is_bool<T>) {
            status = trb_vector_apply_first_bool(&raw_, w.id(), mask.id(), number(accum), number(op), x, u.id(),
                                                 desc.bits());
        } else {
            status = trb_vector_apply_first_uint64(&raw_, w.id(), mask.id(), number(accum), number(op), x, u.id(),
                                                   desc.bits());
        }
        detail::check(status,
                      [&](Status code) { return told_of_map(code, of("w", w), of(mask), of("u", u)); });
    }

    template <typename T>
    void apply_second(Vector<T> w, VectorMask mask, detail::same<Accum<T>> accum, detail::same<BinaryOp<T>> op, Vector<T> u,
                      detail::same<T> y, Descriptor desc)
    {
        std::int32_t status;
        if constexpr (detail::is_bool<T>) {
            status = trb_vector_apply_second_bool(&raw_, w.id(), mask.id(), number(accum), number(op), u.id(), y,
                                                  desc.bits());
        } else {
            status = trb_vector_apply_second_uint64(&raw_, w.id(), mask.id(), number(accum), number(op), u.id(), y,
                                                    desc.bits());
        }
        detail::check(status,
                      [&](Status code) { return told_of_map(code, of("w", w), of(mask), of("u", u)); });
    }

    template <typename T>
    void select_values(Vector<T> w, VectorMask mask, detail::same<Accum<T>> accum, ValueTest test, Vector<T> u,
                       detail::same<T> y, Descriptor desc)
    {
        std::int32_t status;
        if constexpr (detail::is_bool<T>) {
            status = trb_vector_select_bool(&raw_, w.id(), mask.id(), number(accum), number(test), u.id(), y,
                                            desc.bits());
        } else {
            status = trb_vector_select_uint64(&raw_, w.id(), mask.id(), number(accum), number(test), u.id(), y,
                                              desc.bits());
        }
        detail::check(status,
                      [&](Status code) { return told_of_map(code, of("w", w), of(mask), of("u", u)); });
    }

    // Reads all entries into the arrays, and their number into count. False where the arrays are too short.
    template <typename T>
    [[nodiscard]] bool read(Matrix<T> a, const detail::Array<Index> &rows, const detail::Array<Index> &columns,
                            const detail::Array<T> &values, Index &count)
    {
        if constexpr (detail::is_bool<T>) {
            return is_enough(trb_matrix_tuples_bool(&raw_, rows.data(), rows.size(), columns.data(),
                                                    columns.size(), values.data(), values.size(), &count, a.id()));
        } else {
            return is_enough(trb_matrix_tuples_uint64(&raw_, rows.data(), rows.size(), columns.data(),
                                                      columns.size(), values.data(), values.size(), &count,
                                                      a.id()));
        }
    }

    // Reads all entries into the arrays, and their number into count. False where the arrays are too short.
    template <typename T>
    [[nodiscard]] bool read(Vector<T> u, const detail::Array<Index> &indices, const detail::Array<T> &values,
                            Index &count)
    {
        if constexpr (detail::is_bool<T>) {
            return is_enough(trb_vector_tuples_bool(&raw_, indices.data(), indices.size(), values.data(),
                                                    values.size(), &count, u.id()));
        } else {
            return is_enough(trb_vector_tuples_uint64(&raw_, indices.data(), indices.size(), values.data(),
                                                      values.size(), &count, u.id()));
        }
    }

    [[nodiscard]] static bool is_enough(std::int32_t status)
    {
        if (status == TrB_INSUFFICIENT_SPACE) {
            return false;
        }
        detail::check(status);
        return true;
    }

    // An object of a call, under the name that its method gives it.
    struct Operand {
        const char *name;
        bool is_matrix;
        std::uint32_t id;
        bool is_transposed;
    };

    // Two dimensions of a call that are to be one number: of the operand at each place, its rows or size (0) or its
    // columns (1).
    struct Rule {
        std::size_t left;
        int left_axis;
        std::size_t right;
        int right_axis;
    };

    template <typename T>
    [[nodiscard]] static Operand of(const char *name, Matrix<T> a, bool is_transposed = false) noexcept
    {
        return {name, true, a.id(), is_transposed};
    }

    template <typename T>
    [[nodiscard]] static Operand of(const char *name, Vector<T> v) noexcept
    {
        return {name, false, v.id(), false};
    }

    [[nodiscard]] static Operand of(MatrixMask mask) noexcept { return {"the mask", true, mask.id(), false}; }

    [[nodiscard]] static Operand of(VectorMask mask) noexcept { return {"the mask", false, mask.id(), false}; }

    // The dimensions of an operand as its call reads it; the size of a vector in `nrows`.
    [[nodiscard]] std::int32_t read_size(const Operand &operand, Size &size) noexcept
    {
        if (!operand.is_matrix) {
            return trb_vector_size(&raw_, &size.nrows, operand.id);
        }
        const std::int32_t status = trb_matrix_size(&raw_, &size.nrows, &size.ncols, operand.id);
        if (operand.is_transposed) {
            std::swap(size.nrows, size.ncols);
        }
        return status;
    }

    // "a is 3 x 4"
    [[nodiscard]] static Refusal::Text shape(const Operand &operand, const Size &size) noexcept
    {
        if (!operand.is_matrix) {
            return detail::text("%s has the size %llu", operand.name, detail::digits(size.nrows));
        }
        return detail::text("%s%s is %llu x %llu", operand.name, operand.is_transposed ? ", transposed," : "",
                            detail::digits(size.nrows), detail::digits(size.ncols));
    }

    // What is known of a refused call on these operands, whose dimensions are to meet the rules; or nothing.
    [[nodiscard]] Refusal::Text told(Status code, std::initializer_list<Operand> operands,
                                     std::initializer_list<Rule> rules = {}) noexcept
    {
        if (!is_open()) {
            return detail::text("the pass was moved from");
        }
        if (code == Status::uninitialized_object) {
            for (const Operand &operand : operands) {
                Size size{};
                if (operand.id != UINT32_MAX && read_size(operand, size) == TrB_UNINITIALIZED_OBJECT) {
                    return detail::text("%s was freed, or is of another store", operand.name);
                }
            }
        }
        if (code == Status::output_not_empty && operands.size() == 1) {
            return detail::text("%s stores entries: clear it, or build a new one", operands.begin()->name);
        }
        if (code == Status::dimension_mismatch) {
            for (const Rule &rule : rules) {
                const auto said = told_of_rule(operands.begin()[rule.left], operands.begin()[rule.right], rule);
                if (said[0] != '\0') {
                    return said;
                }
            }
        }
        return {};
    }

    // What is known of a refused call whose output has the shape of its input.
    [[nodiscard]] Refusal::Text told_of_map(Status code, const Operand &output, const Operand &mask,
                                            const Operand &input) noexcept
    {
        return input.is_matrix ? told(code, {output, mask, input}, {{0, 0, 2, 0}, {0, 1, 2, 1}, {1, 0, 0, 0}, {1, 1, 0, 1}})
                               : told(code, {output, mask, input}, {{0, 0, 2, 0}, {1, 0, 0, 0}});
    }

    // What is known of a refused Kronecker product: "c is 4 x 4, a is 2 x 2, b is 2 x 3: a product of these is 4 x 6".
    [[nodiscard]] Refusal::Text told_of_product(Status code, const Operand &output, const Operand &mask,
                                                const Operand &left, const Operand &right) noexcept
    {
        Size of_output{}, of_left{}, of_right{};
        if (code == Status::dimension_mismatch && read_size(output, of_output) == TrB_SUCCESS &&
            read_size(left, of_left) == TrB_SUCCESS && read_size(right, of_right) == TrB_SUCCESS) {
            // Dimensions are below 2^32.
            const Index nrows = of_left.nrows * of_right.nrows, ncols = of_left.ncols * of_right.ncols;
            if (of_output.nrows != nrows || of_output.ncols != ncols) {
                return detail::text("%s, %s, %s: a product of these is %llu x %llu", shape(output, of_output).data(),
                                    shape(left, of_left).data(), shape(right, of_right).data(), detail::digits(nrows),
                                    detail::digits(ncols));
            }
        }
        return told(code, {output, mask, left, right}, {{1, 0, 0, 0}, {1, 1, 0, 1}});
    }

    [[nodiscard]] static Refusal::Text told_of_bound(std::int64_t k) noexcept
    {
        return detail::text("the number is %lld: those of rows and columns are from 0, and those of diagonals from "
                            "-4,294,967,295 to 4,294,967,295",
                            static_cast<long long>(k));
    }

    // "v has the size 5: on the diagonal 4294967295 it does not fit into 4,294,967,295 rows and columns"
    [[nodiscard]] Refusal::Text told_of_diagonal(Status code, const Operand &operand, std::int64_t k) noexcept
    {
        Size size{};
        return code == Status::invalid_value && read_size(operand, size) == TrB_SUCCESS
                   ? detail::text("%s: on the diagonal %lld it does not fit into 4,294,967,295 rows and columns",
                                  shape(operand, size).data(), static_cast<long long>(k))
                   : told(code, {operand});
    }

    // "a is 3 x 4, b is 3 x 4: the columns of a, 4, are not the rows of b, 3", or nothing where they are.
    [[nodiscard]] Refusal::Text told_of_rule(const Operand &left, const Operand &right, const Rule &rule) noexcept
    {
        Size of_left{}, of_right{};
        if (left.id == UINT32_MAX || read_size(left, of_left) != TrB_SUCCESS ||
            read_size(right, of_right) != TrB_SUCCESS) {
            return {};
        }
        const Index first = rule.left_axis == 0 ? of_left.nrows : of_left.ncols;
        const Index second = rule.right_axis == 0 ? of_right.nrows : of_right.ncols;
        if (first == second) {
            return {};
        }
        const auto axis = [](const Operand &operand, int at) {
            return !operand.is_matrix ? "size" : at == 0 ? "rows" : "columns";
        };
        return detail::text("%s, %s: the %s of %s, %llu, %s not the %s of %s, %llu", shape(left, of_left).data(),
                            shape(right, of_right).data(), axis(left, rule.left_axis), left.name,
                            detail::digits(first), left.is_matrix ? "are" : "is", axis(right, rule.right_axis),
                            right.name, detail::digits(second));
    }

    // What is known of a refused call on one entry.
    [[nodiscard]] Refusal::Text told_of_index(Status code, const Operand &operand, Index i, Index j = 0) noexcept
    {
        Size size{};
        return code == Status::invalid_index && read_size(operand, size) == TrB_SUCCESS
                   ? told_of_place(operand, size, i, j, "")
                   : told(code, {operand});
    }

    // The first entry of a list that is outside of its object, or nothing where there is none. A vector's has no columns.
    [[nodiscard]] Refusal::Text told_of_list(const Operand &operand, const Index *rows, const Index *columns,
                                             std::size_t length) noexcept
    {
        Size size{};
        if (read_size(operand, size) != TrB_SUCCESS) {
            return {};
        }
        for (std::size_t k = 0; k < length; k++) {
            const auto said = told_of_place(operand, size, rows[k], columns == nullptr ? 0 : columns[k],
                                            detail::text("entry %zu of the list: ", k).data());
            if (said[0] != '\0') {
                return said;
            }
        }
        return {};
    }

    // "(5, 2) is outside of c, which is 4 x 4", after what is to be said before, or nothing where it is not.
    [[nodiscard]] static Refusal::Text told_of_place(const Operand &operand, const Size &size, Index i, Index j,
                                                     const char *before) noexcept
    {
        if (i < size.nrows && (!operand.is_matrix || j < size.ncols)) {
            return {};
        }
        if (operand.is_matrix) {
            return detail::text("%s(%llu, %llu) is outside of %s, which is %llu x %llu", before, detail::digits(i),
                                detail::digits(j), operand.name, detail::digits(size.nrows), detail::digits(size.ncols));
        }
        return detail::text("%sthe index %llu is not below the size of %s, %llu", before, detail::digits(i),
                            operand.name, detail::digits(size.nrows));
    }

    [[nodiscard]] Refusal::Text told_of_dimensions(Status code, Index nrows, Index ncols) noexcept
    {
        return code == Status::invalid_value
                   ? detail::text("%llu x %llu: dimensions are from 1 to 4,294,967,295", detail::digits(nrows),
                                  detail::digits(ncols))
                   : told(code, {});
    }

    [[nodiscard]] Refusal::Text told_of_dimensions(Status code, Index size) noexcept
    {
        return code == Status::invalid_value
                   ? detail::text("%llu: a size is from 1 to 4,294,967,295", detail::digits(size))
                   : told(code, {});
    }

    [[nodiscard]] static Refusal::Text told_of_meeting(Status code) noexcept
    {
        switch (code) {
        case Status::invalid_value: return detail::text("the two passes are of two stores");
        case Status::uninitialized_object: return detail::text("one of the passes was moved from");
        default: return {};
        }
    }

    [[nodiscard]] static Refusal::Text told_of_chain(Status code) noexcept
    {
        return code == Status::invalid_value ? detail::text("the pass is of no chain") : Refusal::Text{};
    }

    // Its address is the number of the store. It is given back with the last pass, after the store.
    std::shared_ptr<const char> number_;
    TrB_Pass raw_;
};

/// Opens a store, and hands out its passes. The store itself lives as long as one of its passes.
class Store {
public:
    /// Opens a store with room for `room` changes, from 1 to most_room, and this many passes, from 1 to
    /// most_passes; one times the other is at most 1,048,576. A pass reserves some 200 bytes for each change
    /// that there is room for. Throws Refusal: Status::invalid_value where a number is out of its range,
    /// Status::out_of_memory where memory is refused; and std::runtime_error where the library is not of this header's
    /// version.
    Store(std::uint32_t room, std::uint32_t passes)
    {
        detail::check_version();
        detail::check(open(passes, [room](std::uint64_t number, TrB_Pass *opened, std::size_t count) {
                          return trb_open(number, room, opened, count);
                      }),
                      [&](Status code) { return told_of_opening(code, room, passes); });
    }

    /// The next pass that was not handed out; the first is that of number 0. Throws std::out_of_range where all
    /// were handed out.
    [[nodiscard]] Pass take()
    {
        if (next_ == passes_.size()) {
            throw std::out_of_range("all passes of the store were handed out");
        }
        return std::move(passes_[next_++]);
    }

    /// How many passes were not handed out.
    [[nodiscard]] std::size_t passes_left() const noexcept { return passes_.size() - next_; }

private:
    friend class Chain;
    friend class Pass;

    Store() = default;

    // Has so many passes opened under a number that no other open store has. Answers the status of that.
    template <typename Opening>
    [[nodiscard]] std::int32_t open(std::uint32_t passes, Opening opening)
    {
        if (passes < 1 || passes > most_passes) {
            return TrB_INVALID_VALUE;
        }
        auto number = std::make_shared<const char>('\0');
        std::vector<TrB_Pass> opened(passes);
        passes_.reserve(passes);
        const std::int32_t status =
            opening(reinterpret_cast<std::uintptr_t>(number.get()), opened.data(), opened.size());
        for (const TrB_Pass &raw : opened) {
            passes_.push_back(Pass(raw, number));
        }
        return status;
    }

    [[nodiscard]] static Refusal::Text told_of_opening(Status code, std::uint32_t room, std::uint32_t passes) noexcept
    {
        return code == Status::invalid_value
                   ? detail::text("room %lu and passes %lu: room is from 1 to 65,536, passes are from 1 to 256, and one "
                                  "times the other is at most 1,048,576",
                                  static_cast<unsigned long>(room), static_cast<unsigned long>(passes))
                   : Refusal::Text{};
    }

    std::vector<Pass> passes_;
    std::size_t next_ = 0;
};

/// Opens a chain, and hands out its passes: a store without an end. Where the room of one generation is used up, the
/// next one goes on by itself, with all objects and their numbers. It lives as long as one of its passes. All calls are
/// made as with a Store.
///
///     Chain chain(2);
///     Pass own = chain.take(), other = chain.take();
class Chain {
public:
    /// Opens a chain with this many passes, from 1 to most_passes. Throws as Store.
    explicit Chain(std::uint32_t passes) : Chain(default_room(passes), passes) {}

    /// The same with generations of so much room, from 1 to most_room, with the limits of Store. Each has it beside the
    /// changes that make the objects. How many objects a chain takes is told at TrB_chain_open.
    Chain(std::uint32_t room, std::uint32_t passes)
    {
        detail::check_version();
        detail::check(seats_.open(passes, [room](std::uint64_t number, TrB_Pass *opened, std::size_t count) {
                          return trb_chain_open(number, room, opened, count);
                      }),
                      [&](Status code) { return Store::told_of_opening(code, room, passes); });
    }

    /// The next pass that was not handed out; the first is that of number 0. Throws std::out_of_range where all
    /// were handed out.
    [[nodiscard]] Pass take() { return seats_.take(); }

    /// How many passes were not handed out.
    [[nodiscard]] std::size_t passes_left() const noexcept { return seats_.passes_left(); }

private:
    Store seats_;
};

inline Store Pass::succeed(std::uint32_t room, std::uint32_t passes)
{
    Store next;
    std::uint64_t needed = 0;
    const std::int32_t status =
        next.open(passes, [this, room, &needed](std::uint64_t number, TrB_Pass *opened, std::size_t count) {
            return trb_succeed(number, room, &raw_, &needed, opened, count);
        });
    if (status == TrB_INSUFFICIENT_SPACE) {
        throw RoomTooSmall(needed);
    }
    detail::check(status, [&](Status code) {
        std::uint64_t generation = 0;
        if (code == Status::invalid_value && TrB_chain_generation(&raw_, &generation) == TrB_SUCCESS) {
            return detail::text("a chain goes on by itself, and has no successor");
        }
        return is_open() ? Store::told_of_opening(code, room, passes) : detail::text("the pass was moved from");
    });
    return next;
}

inline Store Pass::branch(const std::vector<std::uint32_t> &matrices, const std::vector<std::uint32_t> &vectors,
                          std::uint32_t room, std::uint32_t passes)
{
    static const std::uint32_t none = 0; // where there is no list
    Store apart;
    std::uint64_t needed = 0;
    const std::int32_t status =
        apart.open(passes, [&](std::uint64_t number, TrB_Pass *opened, std::size_t count) {
            return trb_branch(number, room, &raw_, matrices.empty() ? &none : matrices.data(), matrices.size(),
                              vectors.empty() ? &none : vectors.data(), vectors.size(), &needed, opened, count);
        });
    if (status == TrB_INSUFFICIENT_SPACE) {
        throw RoomTooSmall(needed);
    }
    detail::check(status, [&](Status code) {
        return is_open() ? Store::told_of_opening(code, room, passes) : detail::text("the pass was moved from");
    });
    return apart;
}

} // namespace trowelheath

#undef TROWELHEATH_INLINE
#undef TROWELHEATH_IS_SEEN

#endif
