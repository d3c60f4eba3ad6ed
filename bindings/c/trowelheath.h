/* trowelheath.h - the Trowelheath store for programs in C11 and C++11.
 *
 * A store holds sparse matrices and vectors, with the operations of GraphBLAS. The threads of one
 * process share it. Link as pkg-config tells for trowelheath, where it is installed; else with
 * libgrb_c.a, liblibc_c.a and -lpthread.
 *
 *     TrB_Pass pass = TRB_PASS_INIT;
 *     TrB_Matrix a;
 *     uint64_t x;
 *     TrB_Info info = TrB_chain_open(4096, &pass, 1);        // a store without an end, one pass
 *     if (info != TrB_SUCCESS) { puts(TrB_hint(info)); return 1; }
 *     TrB_Matrix_new(&pass, &a, TrB_UINT64, 4, 5);           // 4 rows, 5 columns, no entries
 *     TrB_Matrix_setElement_UINT64(&pass, a, 7, 0, 1);       // 7 at row 0, column 1
 *     TrB_Matrix_extractElement_UINT64(&pass, &x, a, 0, 1);  // x is 7
 *     TrB_free(&pass);
 *
 * The words
 *
 *   store     The objects, and the one history of the calls that made them. TrB_open opens a store.
 *             It ends with its last pass.
 *   history   The calls that changed the store, in one order that all threads see.
 *   room      How many changes the history takes in its whole life, from 1 to 65,536. Those that make the
 *             objects with which a successor, a branch or a generation begins take none of it.
 *   chain     A store without an end, which TrB_chain_open opens: where the room of one generation is
 *             used up, the next one goes on by itself with all objects and their numbers. What is said
 *             of a store and its passes holds of a chain and its own, but where a comment tells more.
 *   pass      One thread's view of a store, a TrB_Pass. A store has 1 to 256 passes, all from its
 *             opening. Each call is made by a pass.
 *   object    A matrix or a vector. Its number, a TrB_Matrix or TrB_Vector, may be copied. It is good
 *             for every pass of its store, and is never used twice.
 *   entry     A value that an object stores. A stored 0 or false is an entry. Indices begin at 0.
 *   change    A call that takes one place of the room. It is checked and answered at once. Its work
 *             is done when a read needs it.
 *   read      A call that changes no object and takes no room.
 *   refusal   A status below 0. The call did nothing: it took no room, and the store and all that its
 *             pointers lead to are as before. TrB_INSUFFICIENT_SPACE alone tells a count.
 *
 * What threads see
 *
 *   Each call takes effect at one moment, in the one order of all calls, so it sees what its own pass
 *   did before: that is proved. It also sees what other passes did by calls that returned before it
 *   began: that is shown by tests. No call waits for another thread.
 *
 * What any call can be refused for
 *
 *   TrB_UNINITIALIZED_OBJECT   The pass is none: it was not opened, or was freed. Or an object of the
 *                              call, its mask too, was never made or was freed.
 *   TrB_INVALID_VALUE          A number stands for no type, operator, monoid, mode or descriptor.
 *   TrB_ORDER_FULL             To a change alone: the room is used up. Reads go on. A chain refuses it
 *                              where it has no next generation, and TrB_chain_go_on tells why; or the
 *                              call makes an object, and TrB_chain_objects_left tells that there is no
 *                              place for one more.
 *   TrB_OUT_OF_MEMORY          Memory was refused. Free some, and make the call again.
 *   TrB_PANIC                  The record of a call was not taken or not shown. Make the call again;
 *                              where it comes again, stop using the store.
 *
 *   The comment of a function names what else it is refused for. What the numbers of a call alone
 *   show is refused first. Of other refusals that apply, the first in the list of TrB_Info is
 *   answered.
 *
 * What differs from GraphBLAS.h, next to TrB_ for GrB_ and the pass in front
 *
 *   names      TrB_Matrix_eWiseAdd is GrB_Matrix_eWiseAdd_BinaryOp, and so for vectors and eWiseMult;
 *              TrB_Matrix_reduce is GrB_Matrix_reduce_Monoid. TrB_PLUS is GrB_PLUS_UINT64 and its
 *              monoid, and so each operator; TrB_PLUS_TIMES is GrB_PLUS_TIMES_SEMIRING_UINT64.
 *              TrB_AINV is GrB_AINV_UINT64. TrB_VALUEEQ is GrB_VALUEEQ_UINT64 and GrB_VALUEEQ_BOOL, and
 *              so each test of values.
 *              TrB_NO_MATRIX, TrB_NO_VECTOR, TrB_NO_ACCUM and TrB_DEFAULT stand for GrB_NULL.
 *   arguments  TrB_Matrix_reduce_UINT64 and its like take no accumulator and no descriptor. The dup of
 *              a build is a monoid. TrB_Matrix_free and TrB_Vector_free take a number by value.
 *              TrB_Matrix_size tells what GrB_Matrix_nrows and GrB_Matrix_ncols tell.
 *              TrB_Matrix_error and TrB_Vector_error tell a status, and no text.
 *   bits       A descriptor is a number of bits, and no object. TrB_TRAN is GrB_TRAN of GrB_INP0, and
 *              TrB_TRAN1 that of GrB_INP1: GrB_DESC_T0T1 is TrB_TRAN | TrB_TRAN1. A bit of an input that
 *              an operation does not read transposed is refused.
 *   not here   All else, as GrB_init, other types, operators of a program's own, other operations.
 *
 * Who makes a product
 *
 *   The pass that reads it. Where a product of two matrices takes millions of multiplications and the store
 *   has two passes or more, it is cut into blocks of rows. Passes that read the same product at the same time
 *   make different blocks of it, and so does each thread that calls TrB_help: then none makes all of them.
 *   Nobody waits for a block that another has begun.
 *
 * What a service does
 *
 *   It opens a chain, which goes on for as long as what it holds fits. Each pass evaluates for itself:
 *   load by one pass, prepare it, and let the others adopt it before they serve reads. While the store
 *   changes, wait with TrB_MATERIALIZE by one pass after each few hundred changes: the others go on from
 *   what that leaves. Release a pass that will stand idle, since it holds what it has evaluated. The
 *   history keeps every change, the arrays of builds too, as long as the store is open, and in a chain as
 *   long as a pass sits in that generation. When the room of a store is used up, TrB_succeed opens one that
 *   goes on from there. Make an analysis of several calls in a branch, which TrB_branch opens: it reads one
 *   moment, its temporaries take no room here, and TrB_Matrix_build_from brings a result back by one call.
 *
 * What the caller owes, since nothing checks it
 *
 *   - A TrB_Pass begins as TRB_PASS_INIT, which is all bytes 0. Only the functions of this header
 *     change it. It may be moved to another place in memory, but is never copied.
 *   - One call at a time has a given pass. A pass goes to another thread by something that orders
 *     memory: a lock, or the creation or the joining of a thread.
 *   - A pointer leads to live, aligned memory of its type, writable where it is not const, of as many
 *     items as the call says. No two pointers of one call lead to memory that overlaps, so not to one
 *     array either: for a diagonal, copy the rows to columns. A bool in memory is 0 or 1.
 *   - An object is used with passes of its own store, and of those that succeed it. In another store its
 *     number names another object, or none.
 *   - Two stores that are open were opened with two numbers. TrB_open, TrB_chain_open, TrB_succeed and
 *     TrB_branch see to it.
 *   - malloc, realloc and free are of one allocator.
 *   - No call is made in a signal handler, or in the child of a fork of a process with threads.
 */
#ifndef TROWELHEATH_H
#define TROWELHEATH_H

/* The version of this header, and of the library that it is for. */
#define TRB_VERSION_MAJOR 1
#define TRB_VERSION_MINOR 0
#define TRB_VERSION_PATCH 0
#define TRB_VERSION "1.0.0"
#define TRB_VERSION_NUMBER (TRB_VERSION_MAJOR * 10000 + TRB_VERSION_MINOR * 100 + TRB_VERSION_PATCH)

#include <stdbool.h>
#include <stddef.h>
#include <stdint.h>
#include <stdlib.h>

#ifdef __cplusplus
extern "C" {
#endif

/* ---- Types and constants ----------------------------------------------------------------------- */

/* What a call answers. The numbers are those of GraphBLAS.h, but for the one that is marked `own`. */
typedef enum {
    TrB_SUCCESS = 0,                /* the call was made */
    TrB_NO_VALUE = 1,               /* a read asked for what is not there; its result is not written */
    TrB_UNINITIALIZED_OBJECT = -1,  /* no pass, or an object that was never made or was freed */
    TrB_INVALID_VALUE = -3,         /* a number, a dimension or a length that is out of its range */
    TrB_INVALID_INDEX = -4,         /* an index of one entry is not below the dimension */
    TrB_DOMAIN_MISMATCH = -5,       /* truth values and numbers are mixed */
    TrB_DIMENSION_MISMATCH = -6,    /* the objects do not fit together */
    TrB_OUTPUT_NOT_EMPTY = -7,      /* the object of a build stores an entry */
    TrB_INDEX_OUT_OF_BOUNDS = -105, /* an index in the arrays of a build is not below the dimension */
    TrB_ORDER_FULL = -1001,         /* own: the room is used up */
    TrB_OUT_OF_MEMORY = -102,       /* memory was refused */
    TrB_PANIC = -101,               /* the record of a call was not taken or not shown */
    TrB_INSUFFICIENT_SPACE = -103   /* an array or a room is too small; how much is needed is told */
} TrB_Info;

/* The domain of an object: what its values are. The numbers are those of GrB_Type_Code. */
typedef enum {
    TrB_BOOL = 1,  /* truth values */
    TrB_UINT64 = 9 /* whole numbers from 0 to 2^64 - 1 */
} TrB_Type;

/* Operators on two values x and y of one domain (own numbers). A monoid is named by its operator; its
 * identity is told here, and operators without one are no monoids. */
typedef enum {
    TrB_NO_ACCUM = 0,    /* no operator: as an accumulator alone */
    TrB_LOR = 1,         /* bool: x or y; identity false */
    TrB_LAND = 2,        /* bool: x and y; identity true */
    TrB_LXOR = 3,        /* bool: x differs from y; identity false */
    TrB_LXNOR = 4,       /* bool: x equals y; identity true */
    TrB_FIRST_BOOL = 5,  /* bool: x */
    TrB_SECOND_BOOL = 6, /* bool: y */
    TrB_PLUS = 7,        /* uint64: x + y modulo 2^64; identity 0 */
    TrB_TIMES = 8,       /* uint64: x * y modulo 2^64; identity 1 */
    TrB_MIN = 9,         /* uint64: the smaller; identity 2^64 - 1 */
    TrB_MAX = 10,        /* uint64: the larger; identity 0 */
    TrB_MINUS = 11,      /* uint64: x - y modulo 2^64 */
    TrB_FIRST = 12,      /* uint64: x */
    TrB_SECOND = 13      /* uint64: y */
} TrB_BinaryOp;

/* Operators on one value x (own numbers). */
typedef enum {
    TrB_IDENTITY_BOOL = 1, /* bool: x */
    TrB_LNOT = 2,          /* bool: not x */
    TrB_IDENTITY = 3,      /* uint64: x */
    TrB_AINV = 4,          /* uint64: 0 - x modulo 2^64 */
    TrB_BNOT = 5           /* uint64: x with each of its 64 bits turned */
} TrB_UnaryOp;

/* Tests of an entry x at row i and column j, against a number (own numbers). A vector is a column: its
 * entry at index i is at row i and column 0. The first eight are tests of places, against a k with a
 * sign, and take entries of either domain. The others are tests of values, against a y of the domain of
 * x; false is less than true. */
typedef enum {
    TrB_TRIL = 1,     /* j <= i + k */
    TrB_TRIU = 2,     /* j >= i + k */
    TrB_DIAG = 3,     /* j = i + k */
    TrB_OFFDIAG = 4,  /* j differs from i + k */
    TrB_ROWLE = 5,    /* i <= k */
    TrB_ROWGT = 6,    /* i > k */
    TrB_COLLE = 7,    /* j <= k */
    TrB_COLGT = 8,    /* j > k */
    TrB_VALUEEQ = 9,  /* x = y */
    TrB_VALUENE = 10, /* x differs from y */
    TrB_VALUELT = 11, /* x < y */
    TrB_VALUELE = 12, /* x <= y */
    TrB_VALUEGT = 13, /* x > y */
    TrB_VALUEGE = 14  /* x >= y */
} TrB_IndexUnaryOp;

/* How much a wait has done. The numbers are those of GraphBLAS.h. */
typedef enum {
    TrB_COMPLETE = 0,   /* the pending work on one object */
    TrB_MATERIALIZE = 1 /* the pending work on all objects */
} TrB_WaitMode;

/* A descriptor: these bits, joined by `|`. All but the two of transposed inputs have the numbers of
 * GraphBLAS.h. */
typedef uint32_t TrB_Descriptor;
enum {
    TrB_DEFAULT = 0,   /* none of them */
    TrB_REPLACE = 1,   /* entries of the output outside of the mask are removed */
    TrB_COMP = 2,      /* inside the mask are the places that it would leave out */
    TrB_STRUCTURE = 4, /* inside the mask are the places where it stores an entry, false or 0 too */
    TrB_TRAN = 8,      /* own: the first input is read transposed; refused where that is no matrix */
    TrB_TRAN1 = 16     /* own: the second input is read transposed; refused where that is no matrix */
};

/* An index, a dimension or a number of entries. Dimensions are from 1 to 2^32 - 1. */
typedef uint64_t TrB_Index;

/* The number of a matrix. All passes of its store may use it. */
typedef struct {
    uint32_t id;
} TrB_Matrix;

/* The number of a vector. All passes of its store may use it. */
typedef struct {
    uint32_t id;
} TrB_Vector;

/* A semiring: the operator `multiply` joins two values, and the monoid of `add` what was joined. Both
 * are of one domain. */
typedef struct {
    TrB_BinaryOp add;
    TrB_BinaryOp multiply;
} TrB_Semiring;

/* TrB_NO_MATRIX and TrB_NO_VECTOR stand for no mask. TrB_SEMIRING makes a semiring. */
#ifdef __cplusplus
#define TrB_NO_MATRIX (TrB_Matrix{UINT32_MAX})
#define TrB_NO_VECTOR (TrB_Vector{UINT32_MAX})
#define TrB_SEMIRING(add, multiply) (TrB_Semiring{(add), (multiply)})
#else
#define TrB_NO_MATRIX ((TrB_Matrix){UINT32_MAX})
#define TrB_NO_VECTOR ((TrB_Vector){UINT32_MAX})
#define TrB_SEMIRING(add, multiply) ((TrB_Semiring){(add), (multiply)})
#endif

/* Semirings of truth values: paths, and which of two inputs a path takes its value from. */
#define TrB_LOR_LAND TrB_SEMIRING(TrB_LOR, TrB_LAND)
#define TrB_LAND_LOR TrB_SEMIRING(TrB_LAND, TrB_LOR)
#define TrB_LXOR_LAND TrB_SEMIRING(TrB_LXOR, TrB_LAND)
#define TrB_LXNOR_LOR TrB_SEMIRING(TrB_LXNOR, TrB_LOR)
#define TrB_LOR_FIRST TrB_SEMIRING(TrB_LOR, TrB_FIRST_BOOL)
#define TrB_LOR_SECOND TrB_SEMIRING(TrB_LOR, TrB_SECOND_BOOL)

/* Semirings of numbers. */
#define TrB_PLUS_TIMES TrB_SEMIRING(TrB_PLUS, TrB_TIMES)
#define TrB_PLUS_MIN TrB_SEMIRING(TrB_PLUS, TrB_MIN)
#define TrB_PLUS_FIRST TrB_SEMIRING(TrB_PLUS, TrB_FIRST)
#define TrB_PLUS_SECOND TrB_SEMIRING(TrB_PLUS, TrB_SECOND)
#define TrB_MIN_PLUS TrB_SEMIRING(TrB_MIN, TrB_PLUS)
#define TrB_MIN_TIMES TrB_SEMIRING(TrB_MIN, TrB_TIMES)
#define TrB_MIN_MAX TrB_SEMIRING(TrB_MIN, TrB_MAX)
#define TrB_MIN_FIRST TrB_SEMIRING(TrB_MIN, TrB_FIRST)
#define TrB_MIN_SECOND TrB_SEMIRING(TrB_MIN, TrB_SECOND)
#define TrB_MAX_PLUS TrB_SEMIRING(TrB_MAX, TrB_PLUS)
#define TrB_MAX_TIMES TrB_SEMIRING(TrB_MAX, TrB_TIMES)
#define TrB_MAX_MIN TrB_SEMIRING(TrB_MAX, TrB_MIN)
#define TrB_MAX_FIRST TrB_SEMIRING(TrB_MAX, TrB_FIRST)
#define TrB_MAX_SECOND TrB_SEMIRING(TrB_MAX, TrB_SECOND)

/* A pass, or none. What is in it is the library's. */
typedef struct {
    bool is_open;
    struct {
        void *opaque;
    } raw;
} TrB_Pass;

/* No pass: what every TrB_Pass begins as. All members of an array that is initialized with
 * { TRB_PASS_INIT } begin so. */
#ifdef __cplusplus
#define TRB_PASS_INIT {}
#else
#define TRB_PASS_INIT {0}
#endif

/* What a pass tells of itself. */
typedef struct {
    uint32_t number;    /* its place in the array of the opening, from 0 */
    uint32_t known;     /* how many calls of the history it knows */
    uint32_t words;     /* how many places of the room it knows to be taken */
    uint32_t settled;   /* how many calls it knew at its last wait with TrB_MATERIALIZE */
    uint32_t room_left; /* how many more changes there is room for, as far as it knows */
    uint32_t steps;     /* how many atomic steps its last call made */
    uint32_t made;      /* how many calls of the history its last call evaluated to answer */
} TrB_Facts;

/* What a pass keeps and has looked at: counts for who watches what a store costs. */
typedef struct {
    uint64_t entries;      /* how many entries the results have that it keeps */
    uint64_t entries_left; /* and those that the passes of its store left to one another */
    uint64_t looks;        /* how much it has looked at so far to find that nothing is to be made */
} TrB_Costs;

#ifdef __cplusplus
static_assert(sizeof(TrB_Pass) == 16 && sizeof(bool) == 1, "the library is for 64-bit machines");
#else
_Static_assert(sizeof(TrB_Pass) == 16 && sizeof(bool) == 1, "the library is for 64-bit machines");
#endif

/* ---- The exports of the library ---------------------------------------------------------------- */

/* The functions of libgrb_c.a as they are. Objects are bare numbers here, a mask of UINT32_MAX is
 * none, and each array has a length of its own: arrays of one call whose lengths differ are refused
 * with TrB_INVALID_VALUE by a build, and the shortest counts for a read of all entries. The typed
 * functions below call them; what they say holds here too. trb_open, trb_chain_open, trb_succeed and
 * trb_branch take the number of the store that they open, which no other open store of the process may
 * have. */
uint32_t trb_version(void);
bool trb_is_proved(void);
int32_t trb_open(uint64_t store, uint32_t room, TrB_Pass *passes, size_t npasses);
int32_t trb_succeed(uint64_t store, uint32_t room, TrB_Pass *pass, uint64_t *needed, TrB_Pass *passes, size_t npasses);
int32_t trb_branch(uint64_t store, uint32_t room, TrB_Pass *pass, const uint32_t *matrices, size_t nmatrices, const uint32_t *vectors, size_t nvectors, uint64_t *needed, TrB_Pass *passes, size_t npasses);
int32_t trb_is_full(TrB_Pass *pass, bool *out);
int32_t trb_chain_open(uint64_t store, uint32_t room, TrB_Pass *passes, size_t npasses);
int32_t trb_chain_generation(TrB_Pass *pass, uint64_t *out);
int32_t trb_chain_objects_left(TrB_Pass *pass, uint64_t *out);
int32_t trb_chain_go_on(TrB_Pass *pass, uint64_t *needed, bool *moved);
int32_t trb_chain_seat(TrB_Pass *pass, uint32_t number, TrB_Pass *into);
void trb_free(TrB_Pass *pass);
int32_t trb_meet(TrB_Pass *pass, TrB_Pass *other);
int32_t trb_adopt(TrB_Pass *pass, TrB_Pass *other);
int32_t trb_prepare(TrB_Pass *pass, uint32_t *out);
int32_t trb_help(TrB_Pass *pass, uint32_t *out);
int32_t trb_blocks(TrB_Pass *pass, uint64_t *out);
int32_t trb_release(TrB_Pass *pass);
int32_t trb_facts(TrB_Pass *pass, TrB_Facts *out);
int32_t trb_costs(TrB_Pass *pass, TrB_Costs *out);
int32_t trb_matrix_last_info(TrB_Pass *pass, int32_t *out, uint32_t a);
int32_t trb_vector_last_info(TrB_Pass *pass, int32_t *out, uint32_t v);

int32_t trb_matrix_new(TrB_Pass *pass, uint32_t *out, uint32_t domain, uint64_t nrows, uint64_t ncols);
int32_t trb_vector_new(TrB_Pass *pass, uint32_t *out, uint32_t domain, uint64_t size);
int32_t trb_matrix_dup(TrB_Pass *pass, uint32_t *out, uint32_t a);
int32_t trb_vector_dup(TrB_Pass *pass, uint32_t *out, uint32_t v);
int32_t trb_matrix_diag(TrB_Pass *pass, uint32_t *out, uint32_t v, int64_t k);
int32_t trb_matrix_free(TrB_Pass *pass, uint32_t a);
int32_t trb_vector_free(TrB_Pass *pass, uint32_t v);
int32_t trb_matrix_clear(TrB_Pass *pass, uint32_t a);
int32_t trb_vector_clear(TrB_Pass *pass, uint32_t v);
int32_t trb_matrix_resize(TrB_Pass *pass, uint32_t a, uint64_t nrows, uint64_t ncols);
int32_t trb_vector_resize(TrB_Pass *pass, uint32_t v, uint64_t size);
int32_t trb_matrix_size(TrB_Pass *pass, uint64_t *nrows, uint64_t *ncols, uint32_t a);
int32_t trb_vector_size(TrB_Pass *pass, uint64_t *out, uint32_t v);

int32_t trb_matrix_set_uint64(TrB_Pass *pass, uint32_t a, uint64_t x, uint64_t i, uint64_t j);
int32_t trb_vector_set_uint64(TrB_Pass *pass, uint32_t v, uint64_t x, uint64_t i);
int32_t trb_matrix_get_uint64(TrB_Pass *pass, uint64_t *out, uint32_t a, uint64_t i, uint64_t j);
int32_t trb_vector_get_uint64(TrB_Pass *pass, uint64_t *out, uint32_t v, uint64_t i);
int32_t trb_matrix_set_bool(TrB_Pass *pass, uint32_t a, bool x, uint64_t i, uint64_t j);
int32_t trb_vector_set_bool(TrB_Pass *pass, uint32_t v, bool x, uint64_t i);
int32_t trb_matrix_get_bool(TrB_Pass *pass, bool *out, uint32_t a, uint64_t i, uint64_t j);
int32_t trb_vector_get_bool(TrB_Pass *pass, bool *out, uint32_t v, uint64_t i);
int32_t trb_matrix_remove(TrB_Pass *pass, uint32_t a, uint64_t i, uint64_t j);
int32_t trb_vector_remove(TrB_Pass *pass, uint32_t v, uint64_t i);
int32_t trb_matrix_nvals(TrB_Pass *pass, uint64_t *out, uint32_t a);
int32_t trb_vector_nvals(TrB_Pass *pass, uint64_t *out, uint32_t v);
int32_t trb_matrix_reduce_uint64(TrB_Pass *pass, uint64_t *out, uint32_t monoid, uint32_t a);
int32_t trb_vector_reduce_uint64(TrB_Pass *pass, uint64_t *out, uint32_t monoid, uint32_t v);
int32_t trb_matrix_reduce_bool(TrB_Pass *pass, bool *out, uint32_t monoid, uint32_t a);
int32_t trb_vector_reduce_bool(TrB_Pass *pass, bool *out, uint32_t monoid, uint32_t v);

int32_t trb_matrix_build_from(TrB_Pass *pass, uint32_t c, TrB_Pass *other, uint32_t a);
int32_t trb_vector_build_from(TrB_Pass *pass, uint32_t w, TrB_Pass *other, uint32_t v);
int32_t trb_matrix_build_uint64(TrB_Pass *pass, uint32_t a, const uint64_t *rows, size_t nrows, const uint64_t *columns, size_t ncolumns, const uint64_t *values, size_t nvalues, uint32_t dup);
int32_t trb_vector_build_uint64(TrB_Pass *pass, uint32_t v, const uint64_t *indices, size_t nindices, const uint64_t *values, size_t nvalues, uint32_t dup);
int32_t trb_matrix_build_bool(TrB_Pass *pass, uint32_t a, const uint64_t *rows, size_t nrows, const uint64_t *columns, size_t ncolumns, const bool *values, size_t nvalues, uint32_t dup);
int32_t trb_vector_build_bool(TrB_Pass *pass, uint32_t v, const uint64_t *indices, size_t nindices, const bool *values, size_t nvalues, uint32_t dup);
int32_t trb_matrix_tuples_uint64(TrB_Pass *pass, uint64_t *rows, size_t nrows, uint64_t *columns, size_t ncolumns, uint64_t *values, size_t nvalues, uint64_t *count, uint32_t a);
int32_t trb_vector_tuples_uint64(TrB_Pass *pass, uint64_t *indices, size_t nindices, uint64_t *values, size_t nvalues, uint64_t *count, uint32_t v);
int32_t trb_matrix_tuples_bool(TrB_Pass *pass, uint64_t *rows, size_t nrows, uint64_t *columns, size_t ncolumns, bool *values, size_t nvalues, uint64_t *count, uint32_t a);
int32_t trb_vector_tuples_bool(TrB_Pass *pass, uint64_t *indices, size_t nindices, bool *values, size_t nvalues, uint64_t *count, uint32_t v);

int32_t trb_mxm(TrB_Pass *pass, uint32_t c, uint32_t mask, uint32_t accum, uint32_t monoid, uint32_t op, uint32_t a, uint32_t b, uint32_t desc);
int32_t trb_mxv(TrB_Pass *pass, uint32_t w, uint32_t mask, uint32_t accum, uint32_t monoid, uint32_t op, uint32_t a, uint32_t u, uint32_t desc);
int32_t trb_vxm(TrB_Pass *pass, uint32_t w, uint32_t mask, uint32_t accum, uint32_t monoid, uint32_t op, uint32_t u, uint32_t a, uint32_t desc);
int32_t trb_matrix_ewise_add(TrB_Pass *pass, uint32_t c, uint32_t mask, uint32_t accum, uint32_t op, uint32_t a, uint32_t b, uint32_t desc);
int32_t trb_vector_ewise_add(TrB_Pass *pass, uint32_t w, uint32_t mask, uint32_t accum, uint32_t op, uint32_t u, uint32_t v, uint32_t desc);
int32_t trb_matrix_ewise_mult(TrB_Pass *pass, uint32_t c, uint32_t mask, uint32_t accum, uint32_t op, uint32_t a, uint32_t b, uint32_t desc);
int32_t trb_vector_ewise_mult(TrB_Pass *pass, uint32_t w, uint32_t mask, uint32_t accum, uint32_t op, uint32_t u, uint32_t v, uint32_t desc);
int32_t trb_reduce_rows(TrB_Pass *pass, uint32_t w, uint32_t mask, uint32_t accum, uint32_t monoid, uint32_t a, uint32_t desc);
int32_t trb_transpose(TrB_Pass *pass, uint32_t c, uint32_t mask, uint32_t accum, uint32_t a, uint32_t desc);
int32_t trb_matrix_kronecker(TrB_Pass *pass, uint32_t c, uint32_t mask, uint32_t accum, uint32_t op, uint32_t a, uint32_t b, uint32_t desc);
int32_t trb_matrix_apply(TrB_Pass *pass, uint32_t c, uint32_t mask, uint32_t accum, uint32_t op, uint32_t a, uint32_t desc);
int32_t trb_matrix_apply_first_bool(TrB_Pass *pass, uint32_t c, uint32_t mask, uint32_t accum, uint32_t op, bool x, uint32_t a, uint32_t desc);
int32_t trb_matrix_apply_second_bool(TrB_Pass *pass, uint32_t c, uint32_t mask, uint32_t accum, uint32_t op, uint32_t a, bool y, uint32_t desc);
int32_t trb_matrix_apply_first_uint64(TrB_Pass *pass, uint32_t c, uint32_t mask, uint32_t accum, uint32_t op, uint64_t x, uint32_t a, uint32_t desc);
int32_t trb_matrix_apply_second_uint64(TrB_Pass *pass, uint32_t c, uint32_t mask, uint32_t accum, uint32_t op, uint32_t a, uint64_t y, uint32_t desc);
int32_t trb_matrix_select_int64(TrB_Pass *pass, uint32_t c, uint32_t mask, uint32_t accum, uint32_t test, uint32_t a, int64_t k, uint32_t desc);
int32_t trb_matrix_select_bool(TrB_Pass *pass, uint32_t c, uint32_t mask, uint32_t accum, uint32_t test, uint32_t a, bool x, uint32_t desc);
int32_t trb_matrix_select_uint64(TrB_Pass *pass, uint32_t c, uint32_t mask, uint32_t accum, uint32_t test, uint32_t a, uint64_t x, uint32_t desc);
int32_t trb_vector_apply(TrB_Pass *pass, uint32_t w, uint32_t mask, uint32_t accum, uint32_t op, uint32_t u, uint32_t desc);
int32_t trb_vector_apply_first_bool(TrB_Pass *pass, uint32_t w, uint32_t mask, uint32_t accum, uint32_t op, bool x, uint32_t u, uint32_t desc);
int32_t trb_vector_apply_second_bool(TrB_Pass *pass, uint32_t w, uint32_t mask, uint32_t accum, uint32_t op, uint32_t u, bool y, uint32_t desc);
int32_t trb_vector_apply_first_uint64(TrB_Pass *pass, uint32_t w, uint32_t mask, uint32_t accum, uint32_t op, uint64_t x, uint32_t u, uint32_t desc);
int32_t trb_vector_apply_second_uint64(TrB_Pass *pass, uint32_t w, uint32_t mask, uint32_t accum, uint32_t op, uint32_t u, uint64_t y, uint32_t desc);
int32_t trb_vector_select_int64(TrB_Pass *pass, uint32_t w, uint32_t mask, uint32_t accum, uint32_t test, uint32_t u, int64_t k, uint32_t desc);
int32_t trb_vector_select_bool(TrB_Pass *pass, uint32_t w, uint32_t mask, uint32_t accum, uint32_t test, uint32_t u, bool x, uint32_t desc);
int32_t trb_vector_select_uint64(TrB_Pass *pass, uint32_t w, uint32_t mask, uint32_t accum, uint32_t test, uint32_t u, uint64_t x, uint32_t desc);
int32_t trb_matrix_wait(TrB_Pass *pass, uint32_t a, uint32_t mode);
int32_t trb_vector_wait(TrB_Pass *pass, uint32_t v, uint32_t mode);

/* ---- Stores and passes ------------------------------------------------------------------------- */

/* Tells the version of the library that was linked or loaded. Where it is not TRB_VERSION_NUMBER, the
 * library is not the one that this header is for: then make no other call. */
static inline uint32_t TrB_version(void)
{
    return trb_version();
}

/* Whether the library that was linked or loaded is proved. What was built before any proof, as by
 * `bindings/library.sh --unproved`, answers false: nothing is claimed of that one. */
static inline bool TrB_is_proved(void)
{
    return trb_is_proved();
}

/* For TrB_open and the like: a number that no other store has, or 0 where memory is refused. It is an address in a block
 * to which nobody writes, so that a number takes no memory. The blocks stay, each 2^20 numbers and reachable. */
static inline uint64_t trb_new_number(void)
{
    static const uintptr_t size = (uintptr_t)1 << 20;
    static uintptr_t next = 0;   /* a multiple of `size` where the numbers of a block are used up */
    static void **latest = NULL; /* leads to all blocks, each to the one before */
    uintptr_t number = __atomic_load_n(&next, __ATOMIC_RELAXED);
    for (;;) {
        if (number % size != 0) {
            if (__atomic_compare_exchange_n(&next, &number, number + 1, false, __ATOMIC_RELAXED, __ATOMIC_RELAXED)) {
                return number;
            }
            continue;
        }
        void **block = (void **)malloc(2 * size);
        if (block == NULL) {
            return 0;
        }
        uintptr_t first = ((uintptr_t)block / size + 1) * size + 1;
        if (__atomic_compare_exchange_n(&next, &number, first + 1, false, __ATOMIC_RELAXED, __ATOMIC_RELAXED)) {
            *block = __atomic_exchange_n(&latest, block, __ATOMIC_RELAXED);
            return first;
        }
        free(block);
    }
}

/* For TrB_open and the like: ends an opening, of which this is the status. Where it was refused, the passes are as
 * before: after TrB_INVALID_VALUE nothing was done, and else all were none before. */
static inline TrB_Info trb_end_opening(int32_t status, TrB_Pass *passes, size_t npasses)
{
    if (status != TrB_SUCCESS && status != TrB_INVALID_VALUE) {
        for (size_t k = 0; k < npasses; k++) {
            trb_free(&passes[k]);
        }
    }
    return (TrB_Info)status;
}

/* Opens a store with room for `room` changes, and gives its passes: passes[k] has the number k. Each
 * of them is none before. The room is from 1 to 65,536, npasses from 1 to 256, and one times the other
 * at most 1,048,576. A pass reserves some 200 bytes for each change that there is room for; they are
 * used when changes come.
 *
 * The store gets a number, by which passes of two stores are told apart: an address in a block from malloc,
 * to which nobody writes, and which is for a million stores. Blocks are never given back, since nothing
 * tells when the last pass is freed. They stay reachable, so leak checkers do not complain.
 * Refused: TrB_INVALID_VALUE where room or npasses is out of its range, or one of the passes is open.
 * All of them are then as before. */
static inline TrB_Info TrB_open(uint32_t room, TrB_Pass *passes, size_t npasses)
{
    uint64_t number = trb_new_number();
    if (number == 0) {
        return TrB_OUT_OF_MEMORY;
    }
    int32_t status = trb_open(number, room, passes, npasses);
    return trb_end_opening(status, passes, npasses);
}

/* Opens a chain: a store without an end, and gives its passes as TrB_open does. `room` is that of one
 * generation, from 1 to 65,536. Where it is used up, the pass that finds it so makes the next generation of
 * all that was entered, and the others follow at their next call.
 *
 *   goes over   Every object, with its number, for good. A number is never used twice.
 *   anew        As in a successor: no object has a status, nothing is settled, and the counts of
 *               TrB_facts are those of the generation in which the pass sits.
 *   memory      A generation is freed when its last pass has left it: so let an idle pass make a read now
 *               and then, or free it. TrB_chain_seat gives its place to another.
 *   room        Each generation has `room` beside the changes that make the objects. 4,096 is a good one
 *               for few passes, and less for more than 64.
 *   objects     A generation begins with one or two changes for each object. These, and `room` beside them,
 *               are at most 4,194,304, and times the passes at most 268,435,456. So a chain of up to 64
 *               passes takes some 2,090,000 objects with a room of 4,096. Where one more could leave no
 *               room for the next generation, a call that makes an object is refused by TrB_ORDER_FULL, and
 *               calls that free, clear or change objects go on: with R for the room, that is so in a chain
 *               of up to 64 passes of (4,194,304 - R) / 2 objects, and where a generation begins of more than
 *               (4,194,304 - 3 R) / 2. Free objects; TrB_chain_objects_left tells when others are made again.
 *
 * All calls are made as with any store, but for TrB_succeed, which has nothing to do here.
 * Refused: TrB_INVALID_VALUE where room or npasses is out of its range, or one of the passes is open.
 * All of them are then as before. */
static inline TrB_Info TrB_chain_open(uint32_t room, TrB_Pass *passes, size_t npasses)
{
    uint64_t number = trb_new_number();
    if (number == 0) {
        return TrB_OUT_OF_MEMORY;
    }
    int32_t status = trb_chain_open(number, room, passes, npasses);
    return trb_end_opening(status, passes, npasses);
}

/* Tells the number of the generation in which a pass of a chain sits, from 0. It learns nothing new.
 * Takes no room.
 * Refused: TrB_INVALID_VALUE where the pass is of no chain. */
static inline TrB_Info TrB_chain_generation(TrB_Pass *pass, uint64_t *generation)
{
    return (TrB_Info)trb_chain_generation(pass, generation);
}

/* Tells how many more objects the chain of a pass has place for, beside all that there can be where the
 * generation ends in which the pass sits: those that it began with or made, and one for each change that it
 * takes yet. Where it is 0, a call that makes an object is refused by TrB_ORDER_FULL. A change that makes none
 * raises it by one, as far as it is not 0. A new generation lowers it: what was freed counts no more, and one
 * object for each change of its own does. It learns nothing new. Takes no room.
 * Refused: TrB_INVALID_VALUE where the pass is of no chain. */
static inline TrB_Info TrB_chain_objects_left(TrB_Pass *pass, uint64_t *left)
{
    return (TrB_Info)trb_chain_objects_left(pass, left);
}

/* Takes a pass of a chain to a later generation, where its own is used up and it knows every change of
 * that, and makes the next one where there is none. *moved tells whether it moved. Each call does so by
 * itself: this is for who was answered TrB_ORDER_FULL and asks why, and for who makes the next generation
 * ahead of the call that needs it. Takes no room.
 * Answers TrB_NO_VALUE, and does not write *moved, where others make the next generation: try again.
 * A call that was refused since there is no place for an object is told by TrB_chain_objects_left alone.
 * Refused: TrB_INVALID_VALUE where the pass is of no chain; TrB_INSUFFICIENT_SPACE where no history has the
 * room of a generation beside the changes that make the objects, and *needed tells how many these are: a
 * branch with less room goes on. It is not written else. TrB_ORDER_FULL where all numbers of objects were
 * given. Where it is refused, the pass sits where it sat, and may try again. */
static inline TrB_Info TrB_chain_go_on(TrB_Pass *pass, uint64_t *needed, bool *moved)
{
    return (TrB_Info)trb_chain_go_on(pass, needed, moved);
}

/* Gives the pass of a chain with this number anew, in *into, which is none before: that of a thread which
 * has freed its own. `pass` is any other pass of the chain; *into sits where that does, or in a later
 * generation. Takes no room.
 * Answers TrB_NO_VALUE, and *into stays none, where the pass is not to be had: there is none of this
 * number, or it is not freed, or it was freed in a generation that others have left, and they have not left
 * the next one. Refused: TrB_INVALID_VALUE where `pass` is of no chain, or *into is open. */
static inline TrB_Info TrB_chain_seat(TrB_Pass *pass, uint32_t number, TrB_Pass *into)
{
    return pass == into ? TrB_INVALID_VALUE : (TrB_Info)trb_chain_seat(pass, number, into);
}

/* Tells in *full whether the room is used up and `pass` knows every change. Then no pass of the store
 * will ever know another one. It learns nothing new: let `pass` meet the others before. Of a chain it tells
 * whether the pass was refused a next generation, or place for an object, in the generation in which it sits;
 * it may go on by then. Takes no room. */
static inline TrB_Info TrB_is_full(TrB_Pass *pass, bool *full)
{
    return (TrB_Info)trb_is_full(pass, full);
}

/* Opens the successor of a store: a store of its own that begins with this one as it is at a moment of the
 * call. `pass` looks for news first, as each call does. The passes are given as by TrB_open, with the same
 * ranges of room and npasses.
 *
 *   goes over   Every object, whoever made it: its number means the same object in both stores, with the
 *               domain, the dimensions and the entries of that moment. A freed number stays freed, and
 *               the next object is given the next number, so none is given anew.
 *   anew        The history begins with the changes that make these objects, one or two for each number
 *               that was ever given. The new passes know them, and share what is evaluated of them. No
 *               object has a status, and nothing is settled.
 *   room        The successor has room for `room` changes beside those that make its objects. Together they
 *               are at most 4,194,304, and times npasses at most 268,435,456.
 *   stays       The old store: its passes are valid, and are freed by their owner. Objects are shared
 *               with it until one of the two changes one.
 *
 * Where the room is used up, as it is after TrB_ORDER_FULL, nothing is lost. Called earlier it makes a
 * store beside this one: what is changed here later is not there, and the number of an object that is made
 * here later may mean another object there. `pass`, the old passes and the new ones are different memory:
 *
 *     info = TrB_succeed(&old[0], &needed, 1000, next, 2);  // room for 1,000 changes, two passes
 *     TrB_free(&old[0]);                                    // the old store ends with its last pass
 *     TrB_free(&old[1]);
 *
 * Refused: TrB_INVALID_VALUE where room or npasses is out of its range, one of `passes` is open, or `pass`
 * is of a chain, which goes on by itself; TrB_INSUFFICIENT_SPACE where no store has room for the changes
 * that make the objects and for `room` more, and *needed tells how many make the objects. It is not written
 * else. TrB_OUT_OF_MEMORY where memory is refused to an object, too: free what is too large to make. Where
 * it is refused, all of `passes` are as before, and so is the old store. */
static inline TrB_Info TrB_succeed(TrB_Pass *pass, uint64_t *needed, uint32_t room, TrB_Pass *passes,
                                   size_t npasses)
{
    uint64_t number = trb_new_number();
    if (number == 0) {
        return TrB_OUT_OF_MEMORY;
    }
    int32_t status = trb_succeed(number, room, pass, needed, passes, npasses);
    return trb_end_opening(status, passes, npasses);
}

/* Opens a branch: a store of its own that begins with chosen objects of this one, all of them as they are
 * at one moment of the call. `pass` looks for news first, as each call does. The passes of the branch are
 * given as by TrB_open, with the same ranges of room and npasses.
 *
 *   numbers     matrices[k] has the number k in the branch, and so has vectors[k]; the next object is
 *               given the next number. One that was freed or never made is not there.
 *   room        The branch has room for `room` changes beside those that make its objects, with the limits
 *               of a successor.
 *   stays       This store, and what is made or changed in either is not seen in the other. Objects are
 *               shared until one of the two changes one. No entry is copied, and of this store only what
 *               was chosen is evaluated.
 *
 *     TrB_Pass own = TRB_PASS_INIT;
 *     TrB_Matrix there = {0};                               // the graph, in the branch
 *     info = TrB_branch(&pass, &needed, &graph, 1, NULL, 0, 1000, &own, 1);
 *     ..                                                    // a search of many calls by `own`
 *     info = TrB_Vector_build_from(&pass, levels, &own, found);
 *     TrB_free(&own);                                       // the branch ends with its last pass
 *
 * Refused: TrB_INVALID_VALUE where room or npasses is out of its range, or one of `passes` is open;
 * TrB_INSUFFICIENT_SPACE where no store has room for the changes that make the objects and for `room`
 * more, and *needed tells how many make the objects. It is not written else. Where it is refused, all of
 * `passes` are as before, and so is this store. */
static inline TrB_Info TrB_branch(TrB_Pass *pass, uint64_t *needed, const TrB_Matrix *matrices,
                                  size_t nmatrices, const TrB_Vector *vectors, size_t nvectors,
                                  uint32_t room, TrB_Pass *passes, size_t npasses)
{
    static const uint32_t none = 0; /* where there is no array */
    uint64_t number = trb_new_number();
    if (number == 0) {
        return TrB_OUT_OF_MEMORY;
    }
    int32_t status = trb_branch(number, room, pass,
                                nmatrices == 0 ? &none : &matrices->id, nmatrices,
                                nvectors == 0 ? &none : &vectors->id, nvectors, needed, passes, npasses);
    return trb_end_opening(status, passes, npasses);
}

/* Ends the pass, which is none after. What it entered stays in the store. With the last pass of a
 * store its memory is given back. A pass that is none stays none. */
static inline void TrB_free(TrB_Pass *pass)
{
    trb_free(pass);
}

/* Lets `pass` learn all that `other` knows. Each call looks for news by itself, so this is for passes
 * that hand work over with no call between. Nothing that `other` knows changes. Both passes are used by
 * this thread meanwhile. In a chain `pass` moves on first, where `other` sits in a later generation; where
 * `other` sits in an earlier one, `pass` knows all of that. Takes no room.
 * Answers TrB_NO_VALUE, in a chain alone, where `other` sits in a later generation to which `pass` could
 * not move now: try again.
 * Refused: TrB_INVALID_VALUE where the two are of two stores, or are one pass. */
static inline TrB_Info TrB_meet(TrB_Pass *pass, TrB_Pass *other)
{
    return pass == other ? TrB_INVALID_VALUE : (TrB_Info)trb_meet(pass, other);
}

/* Does as TrB_meet, and lets `pass` go on from what `other` has evaluated: its next read does what is
 * left. No entry is copied until one of the two changes its object. In a chain it does so where both sit in
 * one generation then.
 * Answers TrB_NO_VALUE as TrB_meet. Refused: as TrB_meet. */
static inline TrB_Info TrB_adopt(TrB_Pass *pass, TrB_Pass *other)
{
    return pass == other ? TrB_INVALID_VALUE : (TrB_Info)trb_adopt(pass, other);
}

/* Evaluates what the pass knows where that is dear, so that others may adopt it. It learns nothing new
 * and changes no answer. *evaluated is before how many of the known calls no answer makes one any more;
 * where memory is refused they are fewer, and that is no refusal. Takes no room. */
static inline TrB_Info TrB_prepare(TrB_Pass *pass, uint32_t *evaluated)
{
    return (TrB_Info)trb_prepare(pass, evaluated);
}

/* Makes blocks of the dear products that other passes of the store make at the moment. *made is how many,
 * and 0 where there is none to make; it is written wherever there is a pass. It returns when no block is
 * left to begin, learns nothing new, changes no answer and waits for nobody. It takes memory for the blocks;
 * where that is refused, fewer are made, and that is no refusal. Takes no room.
 *
 * A thread that has nothing else to do calls it by a pass of its own, and sleeps a little after each 0:
 *
 *     const struct timespec nap = {.tv_nsec = 1000000};      // a millisecond
 *     while (!is_over && TrB_help(&pass, &made) == TrB_SUCCESS) {
 *         if (made == 0) nanosleep(&nap, NULL);
 *     }
 *
 * A store of one pass has nobody to help. A pass of a chain helps in the generation in which it sits, and
 * holds that: let it make a read now and then, as TrB_Matrix_size, by which it follows the others. */
static inline TrB_Info TrB_help(TrB_Pass *pass, uint32_t *made)
{
    return (TrB_Info)trb_help(pass, made);
}

/* Tells in *count how many blocks of dear products were made so far in the store, by whatever pass; of a
 * chain, in the generation in which the pass sits. One that two passes made counts twice. Learns nothing
 * new. Takes no room and no memory. */
static inline TrB_Info TrB_blocks(TrB_Pass *pass, uint64_t *count)
{
    return (TrB_Info)trb_blocks(pass, count);
}

/* Drops what the pass has evaluated, so that its memory is given back. What the pass knows stays, and
 * other passes keep what they have. What a later answer needs is made anew, or found with other passes;
 * no change is settled any more. Takes no room and no memory. */
static inline TrB_Info TrB_release(TrB_Pass *pass)
{
    return (TrB_Info)trb_release(pass);
}

/* Tells what the pass is and knows. It learns nothing new. Takes no room. */
static inline TrB_Info TrB_facts(TrB_Pass *pass, TrB_Facts *facts)
{
    return (TrB_Info)trb_facts(pass, facts);
}

/* Tells what the pass keeps and has looked at. It learns nothing new. Takes no room. */
static inline TrB_Info TrB_costs(TrB_Pass *pass, TrB_Costs *costs)
{
    return (TrB_Info)trb_costs(pass, costs);
}

/* ---- Objects ----------------------------------------------------------------------------------- */

/* Makes a matrix *A of nrows rows and ncols columns with no entries. A change.
 * Refused: TrB_INVALID_VALUE where a dimension is not from 1 to 2^32 - 1. */
static inline TrB_Info TrB_Matrix_new(TrB_Pass *pass, TrB_Matrix *A, TrB_Type type, TrB_Index nrows,
                                      TrB_Index ncols)
{
    return (TrB_Info)trb_matrix_new(pass, &A->id, (uint32_t)type, nrows, ncols);
}

/* Makes a vector *v of this size with no entries. A change.
 * Refused: TrB_INVALID_VALUE where the size is not from 1 to 2^32 - 1. */
static inline TrB_Info TrB_Vector_new(TrB_Pass *pass, TrB_Vector *v, TrB_Type type, TrB_Index size)
{
    return (TrB_Info)trb_vector_new(pass, &v->id, (uint32_t)type, size);
}

/* Makes a matrix *C with the domain, the dimensions and the entries that A has now. Later changes of
 * the one leave the other as it is. A change. */
static inline TrB_Info TrB_Matrix_dup(TrB_Pass *pass, TrB_Matrix *C, TrB_Matrix A)
{
    return (TrB_Info)trb_matrix_dup(pass, &C->id, A.id);
}

/* Makes a vector *w with the domain, the size and the entries that u has now. Later changes of the one
 * leave the other as it is. A change. */
static inline TrB_Info TrB_Vector_dup(TrB_Pass *pass, TrB_Vector *w, TrB_Vector u)
{
    return (TrB_Info)trb_vector_dup(pass, &w->id, u.id);
}

/* Makes a matrix *C with the domain of v and its entries on the diagonal k: entry i of v is at row i and
 * column i + k, or where k is below 0 at row i - k and column i. C has as many rows and columns as v has
 * indices, and as many more as the diagonal is away from the main one. Later changes of the one leave the
 * other as it is. A change.
 * Refused: TrB_INVALID_VALUE where these are more than 2^32 - 1. */
static inline TrB_Info TrB_Matrix_diag(TrB_Pass *pass, TrB_Matrix *C, TrB_Vector v, int64_t k)
{
    return (TrB_Info)trb_matrix_diag(pass, &C->id, v.id, k);
}

/* Ends the matrix, for all passes. Its number is refused from then on. It is taken by value, since
 * other threads may have copies of the number. A change. */
static inline TrB_Info TrB_Matrix_free(TrB_Pass *pass, TrB_Matrix A)
{
    return (TrB_Info)trb_matrix_free(pass, A.id);
}

/* Ends the vector, for all passes. Its number is refused from then on. It is taken by value, since
 * other threads may have copies of the number. A change. */
static inline TrB_Info TrB_Vector_free(TrB_Pass *pass, TrB_Vector v)
{
    return (TrB_Info)trb_vector_free(pass, v.id);
}

/* Removes all entries of the matrix. Domain and dimensions stay. A change. */
static inline TrB_Info TrB_Matrix_clear(TrB_Pass *pass, TrB_Matrix A)
{
    return (TrB_Info)trb_matrix_clear(pass, A.id);
}

/* Removes all entries of the vector. Domain and size stay. A change. */
static inline TrB_Info TrB_Vector_clear(TrB_Pass *pass, TrB_Vector v)
{
    return (TrB_Info)trb_vector_clear(pass, v.id);
}

/* Gives the matrix nrows rows and ncols columns. Entries outside of them are gone for good; a later
 * resize does not bring them back. A change.
 * Refused: TrB_INVALID_VALUE where a dimension is not from 1 to 2^32 - 1. */
static inline TrB_Info TrB_Matrix_resize(TrB_Pass *pass, TrB_Matrix C, TrB_Index nrows, TrB_Index ncols)
{
    return (TrB_Info)trb_matrix_resize(pass, C.id, nrows, ncols);
}

/* Gives the vector this size. Entries outside of it are gone for good; a later resize does not bring
 * them back. A change.
 * Refused: TrB_INVALID_VALUE where the size is not from 1 to 2^32 - 1. */
static inline TrB_Info TrB_Vector_resize(TrB_Pass *pass, TrB_Vector w, TrB_Index size)
{
    return (TrB_Info)trb_vector_resize(pass, w.id, size);
}

/* Tells how many rows and columns the matrix has, both at one moment. A read. */
static inline TrB_Info TrB_Matrix_size(TrB_Pass *pass, TrB_Index *nrows, TrB_Index *ncols, TrB_Matrix A)
{
    return (TrB_Info)trb_matrix_size(pass, nrows, ncols, A.id);
}

/* Tells the size of the vector. A read. */
static inline TrB_Info TrB_Vector_size(TrB_Pass *pass, TrB_Index *size, TrB_Vector v)
{
    return (TrB_Info)trb_vector_size(pass, size, v.id);
}

/* Tells how many entries the matrix stores. A read. */
static inline TrB_Info TrB_Matrix_nvals(TrB_Pass *pass, TrB_Index *nvals, TrB_Matrix A)
{
    return (TrB_Info)trb_matrix_nvals(pass, nvals, A.id);
}

/* Tells how many entries the vector stores. A read. */
static inline TrB_Info TrB_Vector_nvals(TrB_Pass *pass, TrB_Index *nvals, TrB_Vector v)
{
    return (TrB_Info)trb_vector_nvals(pass, nvals, v.id);
}

/* Finishes the pending work on the matrix, or with TrB_MATERIALIZE on all objects. No value changes,
 * and no other thread is waited for. After TrB_SUCCESS of a wait with TrB_MATERIALIZE, no read of this
 * pass is refused memory until the pass learns of new calls. A read. */
static inline TrB_Info TrB_Matrix_wait(TrB_Pass *pass, TrB_Matrix A, TrB_WaitMode mode)
{
    return (TrB_Info)trb_matrix_wait(pass, A.id, (uint32_t)mode);
}

/* Finishes the pending work on the vector, or with TrB_MATERIALIZE on all objects. No value changes,
 * and no other thread is waited for. After TrB_SUCCESS of a wait with TrB_MATERIALIZE, no read of this
 * pass is refused memory until the pass learns of new calls. A read. */
static inline TrB_Info TrB_Vector_wait(TrB_Pass *pass, TrB_Vector v, TrB_WaitMode mode)
{
    return (TrB_Info)trb_vector_wait(pass, v.id, (uint32_t)mode);
}

/* Tells in *last the status that the last call of this pass on the matrix left. A call is on the object
 * that it reads, changes or makes, an operation on its output. What the numbers and arrays of a call
 * alone show leaves none, and a read of a value of the other domain leaves TrB_SUCCESS. Answers
 * TrB_NO_VALUE where the pass made no call on the matrix yet. It does not ask whether the matrix is
 * there. Takes no room. */
static inline TrB_Info TrB_Matrix_error(TrB_Pass *pass, TrB_Info *last, TrB_Matrix A)
{
    int32_t status = 0;
    TrB_Info info = (TrB_Info)trb_matrix_last_info(pass, &status, A.id);
    if (info == TrB_SUCCESS) {
        *last = (TrB_Info)status;
    }
    return info;
}

/* Tells in *last the status that the last call of this pass on the vector left. A call is on the object
 * that it reads, changes or makes, an operation on its output. What the numbers and arrays of a call
 * alone show leaves none, and a read of a value of the other domain leaves TrB_SUCCESS. Answers
 * TrB_NO_VALUE where the pass made no call on the vector yet. It does not ask whether the vector is
 * there. Takes no room. */
static inline TrB_Info TrB_Vector_error(TrB_Pass *pass, TrB_Info *last, TrB_Vector v)
{
    int32_t status = 0;
    TrB_Info info = (TrB_Info)trb_vector_last_info(pass, &status, v.id);
    if (info == TrB_SUCCESS) {
        *last = (TrB_Info)status;
    }
    return info;
}

/* ---- One entry --------------------------------------------------------------------------------- */

/* Stores x at row i and column j, in place of what was stored there. A change.
 * Refused: TrB_INVALID_INDEX where i is not below the rows of C, or j not below its columns;
 * TrB_DOMAIN_MISMATCH where C is not of TrB_UINT64. */
static inline TrB_Info TrB_Matrix_setElement_UINT64(TrB_Pass *pass, TrB_Matrix C, uint64_t x, TrB_Index i,
                                                    TrB_Index j)
{
    return (TrB_Info)trb_matrix_set_uint64(pass, C.id, x, i, j);
}

/* Stores x at index i, in place of what was stored there. A change.
 * Refused: TrB_INVALID_INDEX where i is not below the size of w; TrB_DOMAIN_MISMATCH where w is not of
 * TrB_UINT64. */
static inline TrB_Info TrB_Vector_setElement_UINT64(TrB_Pass *pass, TrB_Vector w, uint64_t x, TrB_Index i)
{
    return (TrB_Info)trb_vector_set_uint64(pass, w.id, x, i);
}

/* Stores x at row i and column j, in place of what was stored there. A change.
 * Refused: TrB_INVALID_INDEX where i is not below the rows of C, or j not below its columns;
 * TrB_DOMAIN_MISMATCH where C is not of TrB_BOOL. */
static inline TrB_Info TrB_Matrix_setElement_BOOL(TrB_Pass *pass, TrB_Matrix C, bool x, TrB_Index i,
                                                  TrB_Index j)
{
    return (TrB_Info)trb_matrix_set_bool(pass, C.id, x, i, j);
}

/* Stores x at index i, in place of what was stored there. A change.
 * Refused: TrB_INVALID_INDEX where i is not below the size of w; TrB_DOMAIN_MISMATCH where w is not of
 * TrB_BOOL. */
static inline TrB_Info TrB_Vector_setElement_BOOL(TrB_Pass *pass, TrB_Vector w, bool x, TrB_Index i)
{
    return (TrB_Info)trb_vector_set_bool(pass, w.id, x, i);
}

/* Tells in *x the value stored at row i and column j, or answers TrB_NO_VALUE where none is. A read.
 * Refused: TrB_INVALID_INDEX where i is not below the rows of A, or j not below its columns;
 * TrB_DOMAIN_MISMATCH where the value stored there is a truth value. */
static inline TrB_Info TrB_Matrix_extractElement_UINT64(TrB_Pass *pass, uint64_t *x, TrB_Matrix A,
                                                        TrB_Index i, TrB_Index j)
{
    return (TrB_Info)trb_matrix_get_uint64(pass, x, A.id, i, j);
}

/* Tells in *x the value stored at index i, or answers TrB_NO_VALUE where none is. A read.
 * Refused: TrB_INVALID_INDEX where i is not below the size of u; TrB_DOMAIN_MISMATCH where the value
 * stored there is a truth value. */
static inline TrB_Info TrB_Vector_extractElement_UINT64(TrB_Pass *pass, uint64_t *x, TrB_Vector u,
                                                        TrB_Index i)
{
    return (TrB_Info)trb_vector_get_uint64(pass, x, u.id, i);
}

/* Tells in *x the value stored at row i and column j, or answers TrB_NO_VALUE where none is. A read.
 * Refused: TrB_INVALID_INDEX where i is not below the rows of A, or j not below its columns;
 * TrB_DOMAIN_MISMATCH where the value stored there is a number. */
static inline TrB_Info TrB_Matrix_extractElement_BOOL(TrB_Pass *pass, bool *x, TrB_Matrix A, TrB_Index i,
                                                      TrB_Index j)
{
    return (TrB_Info)trb_matrix_get_bool(pass, x, A.id, i, j);
}

/* Tells in *x the value stored at index i, or answers TrB_NO_VALUE where none is. A read.
 * Refused: TrB_INVALID_INDEX where i is not below the size of u; TrB_DOMAIN_MISMATCH where the value
 * stored there is a number. */
static inline TrB_Info TrB_Vector_extractElement_BOOL(TrB_Pass *pass, bool *x, TrB_Vector u, TrB_Index i)
{
    return (TrB_Info)trb_vector_get_bool(pass, x, u.id, i);
}

/* Removes the entry at row i and column j, if there is one. A change.
 * Refused: TrB_INVALID_INDEX where i is not below the rows of C, or j not below its columns. */
static inline TrB_Info TrB_Matrix_removeElement(TrB_Pass *pass, TrB_Matrix C, TrB_Index i, TrB_Index j)
{
    return (TrB_Info)trb_matrix_remove(pass, C.id, i, j);
}

/* Removes the entry at index i, if there is one. A change.
 * Refused: TrB_INVALID_INDEX where i is not below the size of w. */
static inline TrB_Info TrB_Vector_removeElement(TrB_Pass *pass, TrB_Vector w, TrB_Index i)
{
    return (TrB_Info)trb_vector_remove(pass, w.id, i);
}

/* ---- All entries ------------------------------------------------------------------------------- */

/* Fills a matrix that stores nothing: values[k] at rows[k] and columns[k], for k from 0 to nvals - 1,
 * in any order. The monoid of dup joins values of one place. The arrays are copied, and the copy is
 * kept as long as the store is open. A change.
 * Refused: TrB_INVALID_VALUE where dup is no monoid; TrB_DOMAIN_MISMATCH where C, dup and the values
 * are not of one domain; TrB_OUTPUT_NOT_EMPTY where C stores an entry; TrB_INDEX_OUT_OF_BOUNDS where
 * an index is not below its dimension, and then nothing was stored. */
static inline TrB_Info TrB_Matrix_build_UINT64(TrB_Pass *pass, TrB_Matrix C, const TrB_Index *rows,
                                               const TrB_Index *columns, const uint64_t *values,
                                               TrB_Index nvals, TrB_BinaryOp dup)
{
    size_t n = (size_t)nvals;
    return (TrB_Info)trb_matrix_build_uint64(pass, C.id, rows, n, columns, n, values, n, (uint32_t)dup);
}

/* Fills a vector that stores nothing: values[k] at indices[k], for k from 0 to nvals - 1, in any order.
 * The monoid of dup joins values of one place. The arrays are copied, and the copy is kept as long as
 * the store is open. A change.
 * Refused: TrB_INVALID_VALUE where dup is no monoid; TrB_DOMAIN_MISMATCH where w, dup and the values
 * are not of one domain; TrB_OUTPUT_NOT_EMPTY where w stores an entry; TrB_INDEX_OUT_OF_BOUNDS where
 * an index is not below the size, and then nothing was stored. */
static inline TrB_Info TrB_Vector_build_UINT64(TrB_Pass *pass, TrB_Vector w, const TrB_Index *indices,
                                               const uint64_t *values, TrB_Index nvals, TrB_BinaryOp dup)
{
    size_t n = (size_t)nvals;
    return (TrB_Info)trb_vector_build_uint64(pass, w.id, indices, n, values, n, (uint32_t)dup);
}

/* Fills a matrix that stores nothing: values[k] at rows[k] and columns[k], for k from 0 to nvals - 1,
 * in any order. The monoid of dup joins values of one place. The arrays are copied, and the copy is
 * kept as long as the store is open. A change.
 * Refused: TrB_INVALID_VALUE where dup is no monoid; TrB_DOMAIN_MISMATCH where C, dup and the values
 * are not of one domain; TrB_OUTPUT_NOT_EMPTY where C stores an entry; TrB_INDEX_OUT_OF_BOUNDS where
 * an index is not below its dimension, and then nothing was stored. */
static inline TrB_Info TrB_Matrix_build_BOOL(TrB_Pass *pass, TrB_Matrix C, const TrB_Index *rows,
                                             const TrB_Index *columns, const bool *values,
                                             TrB_Index nvals, TrB_BinaryOp dup)
{
    size_t n = (size_t)nvals;
    return (TrB_Info)trb_matrix_build_bool(pass, C.id, rows, n, columns, n, values, n, (uint32_t)dup);
}

/* Fills a vector that stores nothing: values[k] at indices[k], for k from 0 to nvals - 1, in any order.
 * The monoid of dup joins values of one place. The arrays are copied, and the copy is kept as long as
 * the store is open. A change.
 * Refused: TrB_INVALID_VALUE where dup is no monoid; TrB_DOMAIN_MISMATCH where w, dup and the values
 * are not of one domain; TrB_OUTPUT_NOT_EMPTY where w stores an entry; TrB_INDEX_OUT_OF_BOUNDS where
 * an index is not below the size, and then nothing was stored. */
static inline TrB_Info TrB_Vector_build_BOOL(TrB_Pass *pass, TrB_Vector w, const TrB_Index *indices,
                                             const bool *values, TrB_Index nvals, TrB_BinaryOp dup)
{
    size_t n = (size_t)nvals;
    return (TrB_Info)trb_vector_build_bool(pass, w.id, indices, n, values, n, (uint32_t)dup);
}

/* Fills a matrix that stores nothing with all entries that A has now, a matrix of the other pass: of a
 * branch, as a rule, or of any store. They are shared with A until one of the two is changed, and none
 * is copied. C may be larger than A. A wait for A by `other`, and a change by `pass`.
 * Refused: TrB_INVALID_VALUE where the two are one pass; TrB_DOMAIN_MISMATCH where C and A are not of one
 * domain; TrB_OUTPUT_NOT_EMPTY where C stores an entry; TrB_INDEX_OUT_OF_BOUNDS where an entry of A is
 * outside of C, and then nothing was stored; as TrB_Matrix_wait where A cannot be made. */
static inline TrB_Info TrB_Matrix_build_from(TrB_Pass *pass, TrB_Matrix C, TrB_Pass *other, TrB_Matrix A)
{
    return pass == other ? TrB_INVALID_VALUE : (TrB_Info)trb_matrix_build_from(pass, C.id, other, A.id);
}

/* Fills a vector that stores nothing with all entries that u has now, a vector of the other pass: of a
 * branch, as a rule, or of any store. They are shared with u until one of the two is changed, and none
 * is copied. w may be larger than u. A wait for u by `other`, and a change by `pass`.
 * Refused: TrB_INVALID_VALUE where the two are one pass; TrB_DOMAIN_MISMATCH where w and u are not of one
 * domain; TrB_OUTPUT_NOT_EMPTY where w stores an entry; TrB_INDEX_OUT_OF_BOUNDS where an entry of u is
 * outside of w, and then nothing was stored; as TrB_Vector_wait where u cannot be made. */
static inline TrB_Info TrB_Vector_build_from(TrB_Pass *pass, TrB_Vector w, TrB_Pass *other, TrB_Vector u)
{
    return pass == other ? TrB_INVALID_VALUE : (TrB_Info)trb_vector_build_from(pass, w.id, other, u.id);
}

/* Writes all entries of A to the front of three arrays, in rising order of row, then column, all as
 * they are at one moment. *nvals is the length of each array before, and the number of entries after.
 * What stands behind the entries in the arrays stays. A read.
 * Refused: TrB_DOMAIN_MISMATCH where A is not of TrB_UINT64; TrB_INSUFFICIENT_SPACE where there are
 * more entries than *nvals, which then tells how many there are, and the arrays stay. Other threads
 * may add entries before the next try, so go on until it is not refused so. */
static inline TrB_Info TrB_Matrix_extractTuples_UINT64(TrB_Pass *pass, TrB_Index *rows, TrB_Index *columns,
                                                       uint64_t *values, TrB_Index *nvals, TrB_Matrix A)
{
    size_t n = (size_t)*nvals;
    return (TrB_Info)trb_matrix_tuples_uint64(pass, rows, n, columns, n, values, n, nvals, A.id);
}

/* Writes all entries of u to the front of two arrays, in rising order of index, all as they are at one
 * moment. *nvals is the length of each array before, and the number of entries after. What stands
 * behind the entries in the arrays stays. A read.
 * Refused: TrB_DOMAIN_MISMATCH where u is not of TrB_UINT64; TrB_INSUFFICIENT_SPACE where there are
 * more entries than *nvals, which then tells how many there are, and the arrays stay. Other threads
 * may add entries before the next try, so go on until it is not refused so. */
static inline TrB_Info TrB_Vector_extractTuples_UINT64(TrB_Pass *pass, TrB_Index *indices, uint64_t *values,
                                                       TrB_Index *nvals, TrB_Vector u)
{
    size_t n = (size_t)*nvals;
    return (TrB_Info)trb_vector_tuples_uint64(pass, indices, n, values, n, nvals, u.id);
}

/* Writes all entries of A to the front of three arrays, in rising order of row, then column, all as
 * they are at one moment. *nvals is the length of each array before, and the number of entries after.
 * What stands behind the entries in the arrays stays. A read.
 * Refused: TrB_DOMAIN_MISMATCH where A is not of TrB_BOOL; TrB_INSUFFICIENT_SPACE where there are more
 * entries than *nvals, which then tells how many there are, and the arrays stay. Other threads may add
 * entries before the next try, so go on until it is not refused so. */
static inline TrB_Info TrB_Matrix_extractTuples_BOOL(TrB_Pass *pass, TrB_Index *rows, TrB_Index *columns,
                                                     bool *values, TrB_Index *nvals, TrB_Matrix A)
{
    size_t n = (size_t)*nvals;
    return (TrB_Info)trb_matrix_tuples_bool(pass, rows, n, columns, n, values, n, nvals, A.id);
}

/* Writes all entries of u to the front of two arrays, in rising order of index, all as they are at one
 * moment. *nvals is the length of each array before, and the number of entries after. What stands
 * behind the entries in the arrays stays. A read.
 * Refused: TrB_DOMAIN_MISMATCH where u is not of TrB_BOOL; TrB_INSUFFICIENT_SPACE where there are more
 * entries than *nvals, which then tells how many there are, and the arrays stay. Other threads may add
 * entries before the next try, so go on until it is not refused so. */
static inline TrB_Info TrB_Vector_extractTuples_BOOL(TrB_Pass *pass, TrB_Index *indices, bool *values,
                                                     TrB_Index *nvals, TrB_Vector u)
{
    size_t n = (size_t)*nvals;
    return (TrB_Info)trb_vector_tuples_bool(pass, indices, n, values, n, nvals, u.id);
}

/* Tells in *x all values of A joined by the monoid; without entries, its identity. A read.
 * Refused: TrB_INVALID_VALUE where the operator is no monoid; TrB_DOMAIN_MISMATCH where A or the
 * monoid is not of TrB_UINT64. */
static inline TrB_Info TrB_Matrix_reduce_UINT64(TrB_Pass *pass, uint64_t *x, TrB_BinaryOp monoid,
                                                TrB_Matrix A)
{
    return (TrB_Info)trb_matrix_reduce_uint64(pass, x, (uint32_t)monoid, A.id);
}

/* Tells in *x all values of u joined by the monoid; without entries, its identity. A read.
 * Refused: TrB_INVALID_VALUE where the operator is no monoid; TrB_DOMAIN_MISMATCH where u or the
 * monoid is not of TrB_UINT64. */
static inline TrB_Info TrB_Vector_reduce_UINT64(TrB_Pass *pass, uint64_t *x, TrB_BinaryOp monoid,
                                                TrB_Vector u)
{
    return (TrB_Info)trb_vector_reduce_uint64(pass, x, (uint32_t)monoid, u.id);
}

/* Tells in *x all values of A joined by the monoid; without entries, its identity. A read.
 * Refused: TrB_INVALID_VALUE where the operator is no monoid; TrB_DOMAIN_MISMATCH where A or the
 * monoid is not of TrB_BOOL. */
static inline TrB_Info TrB_Matrix_reduce_BOOL(TrB_Pass *pass, bool *x, TrB_BinaryOp monoid, TrB_Matrix A)
{
    return (TrB_Info)trb_matrix_reduce_bool(pass, x, (uint32_t)monoid, A.id);
}

/* Tells in *x all values of u joined by the monoid; without entries, its identity. A read.
 * Refused: TrB_INVALID_VALUE where the operator is no monoid; TrB_DOMAIN_MISMATCH where u or the
 * monoid is not of TrB_BOOL. */
static inline TrB_Info TrB_Vector_reduce_BOOL(TrB_Pass *pass, bool *x, TrB_BinaryOp monoid, TrB_Vector u)
{
    return (TrB_Info)trb_vector_reduce_bool(pass, x, (uint32_t)monoid, u.id);
}

/* ---- Operations -------------------------------------------------------------------------------- */

/* An operation computes a result T from its inputs and writes it into its output, C or w:
 *
 *     C<Mask> = accum(C, T)
 *
 *   accum    With TrB_NO_ACCUM the new entries are those of T. With an operator, a place where both C
 *            and T store a value gets the operator of the old and the new one; a place where one of
 *            them does gets that value.
 *   Mask     Says where C is written. Inside are the places where Mask stores a value that is not
 *            false or 0; with TrB_STRUCTURE, where it stores any value; with TrB_COMP, all others.
 *            With TrB_NO_MATRIX or TrB_NO_VECTOR all places are inside, with TrB_COMP none. A mask has
 *            the shape of the output, and either domain.
 *   outside  The entries of C outside of the mask stay. With TrB_REPLACE they are removed.
 *   desc     TrB_DEFAULT, or bits, as TrB_STRUCTURE | TrB_COMP | TrB_REPLACE. With TrB_TRAN the
 *            first input, a matrix, is read transposed, as A' below stands for A; with TrB_TRAN1 the
 *            second, as B'. Where that input is a vector, or there is none, the bit is refused. A value
 *            of the call counts as an input here: A stands second where a value is in front of it.
 *
 * All objects are read before the output is written, so one object may be output, input and mask. The
 * output keeps its domain and its shape.
 *
 * Every operation is a change, and is refused with
 *
 *   TrB_INVALID_VALUE       where an operator, a test, a monoid or a descriptor has no such number, or
 *                           TrB_TRAN is given and the first input is no matrix, or TrB_TRAN1 and the
 *                           second is none;
 *   TrB_DOMAIN_MISMATCH     where output, inputs, operators, values, monoid and accumulator are not all
 *                           of one domain;
 *   TrB_DIMENSION_MISMATCH  where the shapes are not those that its comment tells, or Mask has not the
 *                           shape of the output. */

/* C<Mask> = accum(C, A * B): at row i and column j, `multiply` of A(i,k) and B(k,j) for each k where
 * both are stored, joined by `add`; nothing where there is no such k. A change.
 * Shapes: A is m x l, B is l x n, C and Mask are m x n. With TrB_TRAN A is l x m, and A' is read; with
 * TrB_TRAN1 B is n x l, and B' is read.
 * Refused: as every operation. */
static inline TrB_Info TrB_mxm(TrB_Pass *pass, TrB_Matrix C, TrB_Matrix Mask, TrB_BinaryOp accum,
                               TrB_Semiring semiring, TrB_Matrix A, TrB_Matrix B, TrB_Descriptor desc)
{
    return (TrB_Info)trb_mxm(pass, C.id, Mask.id, (uint32_t)accum, (uint32_t)semiring.add,
                             (uint32_t)semiring.multiply, A.id, B.id, desc);
}

/* w<mask> = accum(w, A * u): at index i, `multiply` of A(i,k) and u(k) for each k where both are
 * stored, joined by `add`; nothing where there is no such k. A change.
 * Shapes: A is m x n, u is of size n, w and mask are of size m. With TrB_TRAN A is n x m, and A' is
 * read.
 * Refused: as every operation. */
static inline TrB_Info TrB_mxv(TrB_Pass *pass, TrB_Vector w, TrB_Vector mask, TrB_BinaryOp accum,
                               TrB_Semiring semiring, TrB_Matrix A, TrB_Vector u, TrB_Descriptor desc)
{
    return (TrB_Info)trb_mxv(pass, w.id, mask.id, (uint32_t)accum, (uint32_t)semiring.add,
                             (uint32_t)semiring.multiply, A.id, u.id, desc);
}

/* w<mask> = accum(w, u * A): at index j, `multiply` of u(k) and A(k,j) for each k where both are
 * stored, joined by `add`; nothing where there is no such k. So values go along the edges of a graph
 * whose edge from i to j is A(i,j). A change.
 * Shapes: u is of size m, A is m x n, w and mask are of size n. With TrB_TRAN1 A is n x m, and A' is
 * read.
 * Refused: as every operation. */
static inline TrB_Info TrB_vxm(TrB_Pass *pass, TrB_Vector w, TrB_Vector mask, TrB_BinaryOp accum,
                               TrB_Semiring semiring, TrB_Vector u, TrB_Matrix A, TrB_Descriptor desc)
{
    return (TrB_Info)trb_vxm(pass, w.id, mask.id, (uint32_t)accum, (uint32_t)semiring.add,
                             (uint32_t)semiring.multiply, u.id, A.id, desc);
}

/* C<Mask> = accum(C, A + B): where both A and B store a value, op of these; where one of them does,
 * that value. A change.
 * Shapes: A, B, C and Mask are m x n. With TrB_TRAN A is n x m, and A' is read; with TrB_TRAN1 B is
 * n x m, and B' is read.
 * Refused: as every operation. */
static inline TrB_Info TrB_Matrix_eWiseAdd(TrB_Pass *pass, TrB_Matrix C, TrB_Matrix Mask,
                                           TrB_BinaryOp accum, TrB_BinaryOp op, TrB_Matrix A,
                                           TrB_Matrix B, TrB_Descriptor desc)
{
    return (TrB_Info)trb_matrix_ewise_add(pass, C.id, Mask.id, (uint32_t)accum, (uint32_t)op, A.id, B.id,
                                          desc);
}

/* w<mask> = accum(w, u + v): where both u and v store a value, op of these; where one of them does,
 * that value. A change.
 * Shapes: u, v, w and mask are of one size.
 * Refused: as every operation. */
static inline TrB_Info TrB_Vector_eWiseAdd(TrB_Pass *pass, TrB_Vector w, TrB_Vector mask,
                                           TrB_BinaryOp accum, TrB_BinaryOp op, TrB_Vector u,
                                           TrB_Vector v, TrB_Descriptor desc)
{
    return (TrB_Info)trb_vector_ewise_add(pass, w.id, mask.id, (uint32_t)accum, (uint32_t)op, u.id, v.id,
                                          desc);
}

/* C<Mask> = accum(C, A .* B): where both A and B store a value, op of these, and nothing elsewhere. A
 * change.
 * Shapes: A, B, C and Mask are m x n. With TrB_TRAN A is n x m, and A' is read; with TrB_TRAN1 B is
 * n x m, and B' is read.
 * Refused: as every operation. */
static inline TrB_Info TrB_Matrix_eWiseMult(TrB_Pass *pass, TrB_Matrix C, TrB_Matrix Mask,
                                            TrB_BinaryOp accum, TrB_BinaryOp op, TrB_Matrix A,
                                            TrB_Matrix B, TrB_Descriptor desc)
{
    return (TrB_Info)trb_matrix_ewise_mult(pass, C.id, Mask.id, (uint32_t)accum, (uint32_t)op, A.id, B.id,
                                           desc);
}

/* w<mask> = accum(w, u .* v): where both u and v store a value, op of these, and nothing elsewhere. A
 * change.
 * Shapes: u, v, w and mask are of one size.
 * Refused: as every operation. */
static inline TrB_Info TrB_Vector_eWiseMult(TrB_Pass *pass, TrB_Vector w, TrB_Vector mask,
                                            TrB_BinaryOp accum, TrB_BinaryOp op, TrB_Vector u,
                                            TrB_Vector v, TrB_Descriptor desc)
{
    return (TrB_Info)trb_vector_ewise_mult(pass, w.id, mask.id, (uint32_t)accum, (uint32_t)op, u.id, v.id,
                                           desc);
}

/* w<mask> = accum(w, the rows of A, each joined): at index i, the values of row i of A joined by the
 * monoid; nothing where row i stores none. With TrB_TRAN these are the columns of A. A change.
 * Shapes: A is m x n, w and mask are of size m. With TrB_TRAN w and mask are of size n.
 * Refused: as every operation; TrB_INVALID_VALUE where the operator is no monoid. */
static inline TrB_Info TrB_Matrix_reduce(TrB_Pass *pass, TrB_Vector w, TrB_Vector mask,
                                         TrB_BinaryOp accum, TrB_BinaryOp monoid, TrB_Matrix A,
                                         TrB_Descriptor desc)
{
    return (TrB_Info)trb_reduce_rows(pass, w.id, mask.id, (uint32_t)accum, (uint32_t)monoid, A.id, desc);
}

/* C<Mask> = accum(C, A'): at row i and column j, A(j,i) where it is stored. With TrB_TRAN it is turned
 * twice, so A itself is written. A change.
 * Shapes: A is n x m, C and Mask are m x n. With TrB_TRAN A is m x n.
 * Refused: as every operation. */
static inline TrB_Info TrB_transpose(TrB_Pass *pass, TrB_Matrix C, TrB_Matrix Mask, TrB_BinaryOp accum,
                                     TrB_Matrix A, TrB_Descriptor desc)
{
    return (TrB_Info)trb_transpose(pass, C.id, Mask.id, (uint32_t)accum, A.id, desc);
}

/* C<Mask> = accum(C, the Kronecker product of A and B): op of A(i,j) and B(p,q) at row i * r + p and
 * column j * c + q, where both are stored and B has r rows and c columns. A change.
 * Shapes: A is m x n, B is r x c, C and Mask are m * r x n * c. With TrB_TRAN A is n x m, and A' is read;
 * with TrB_TRAN1 B is c x r, and B' is read.
 * Refused: as every operation. */
static inline TrB_Info TrB_Matrix_kronecker_BinaryOp(TrB_Pass *pass, TrB_Matrix C, TrB_Matrix Mask,
                                                     TrB_BinaryOp accum, TrB_BinaryOp op, TrB_Matrix A,
                                                     TrB_Matrix B, TrB_Descriptor desc)
{
    return (TrB_Info)trb_matrix_kronecker(pass, C.id, Mask.id, (uint32_t)accum, (uint32_t)op, A.id, B.id,
                                          desc);
}

/* C<Mask> = accum(C, op(A)): where A stores a value, op of it. A change.
 * Shapes: A, C and Mask are m x n. With TrB_TRAN A is n x m, and A' is read.
 * Refused: as every operation. */
static inline TrB_Info TrB_Matrix_apply(TrB_Pass *pass, TrB_Matrix C, TrB_Matrix Mask, TrB_BinaryOp accum,
                                        TrB_UnaryOp op, TrB_Matrix A, TrB_Descriptor desc)
{
    return (TrB_Info)trb_matrix_apply(pass, C.id, Mask.id, (uint32_t)accum, (uint32_t)op, A.id, desc);
}

/* w<mask> = accum(w, op(u)): where u stores a value, op of it. A change.
 * Shapes: u, w and mask are of one size.
 * Refused: as every operation. */
static inline TrB_Info TrB_Vector_apply(TrB_Pass *pass, TrB_Vector w, TrB_Vector mask, TrB_BinaryOp accum,
                                        TrB_UnaryOp op, TrB_Vector u, TrB_Descriptor desc)
{
    return (TrB_Info)trb_vector_apply(pass, w.id, mask.id, (uint32_t)accum, (uint32_t)op, u.id, desc);
}

/* C<Mask> = accum(C, op(x, A)): where A stores a value, op of x and that value. A change.
 * Shapes: A, C and Mask are m x n. With TrB_TRAN1 A, which stands second, is n x m, and A' is read.
 * Refused: as every operation; TrB_DOMAIN_MISMATCH where A is not of TrB_UINT64. */
static inline TrB_Info TrB_Matrix_apply_BinaryOp1st_UINT64(TrB_Pass *pass, TrB_Matrix C,
                                                           TrB_Matrix Mask, TrB_BinaryOp accum,
                                                           TrB_BinaryOp op, uint64_t x, TrB_Matrix A,
                                                           TrB_Descriptor desc)
{
    return (TrB_Info)trb_matrix_apply_first_uint64(pass, C.id, Mask.id, (uint32_t)accum, (uint32_t)op, x,
                                                   A.id, desc);
}

/* C<Mask> = accum(C, op(A, y)): where A stores a value, op of that value and y. A change.
 * Shapes: A, C and Mask are m x n. With TrB_TRAN A is n x m, and A' is read.
 * Refused: as every operation; TrB_DOMAIN_MISMATCH where A is not of TrB_UINT64. */
static inline TrB_Info TrB_Matrix_apply_BinaryOp2nd_UINT64(TrB_Pass *pass, TrB_Matrix C,
                                                           TrB_Matrix Mask, TrB_BinaryOp accum,
                                                           TrB_BinaryOp op, TrB_Matrix A, uint64_t y,
                                                           TrB_Descriptor desc)
{
    return (TrB_Info)trb_matrix_apply_second_uint64(pass, C.id, Mask.id, (uint32_t)accum, (uint32_t)op,
                                                    A.id, y, desc);
}

/* w<mask> = accum(w, op(x, u)): where u stores a value, op of x and that value. A change.
 * Shapes: u, w and mask are of one size.
 * Refused: as every operation; TrB_DOMAIN_MISMATCH where u is not of TrB_UINT64. */
static inline TrB_Info TrB_Vector_apply_BinaryOp1st_UINT64(TrB_Pass *pass, TrB_Vector w,
                                                           TrB_Vector mask, TrB_BinaryOp accum,
                                                           TrB_BinaryOp op, uint64_t x, TrB_Vector u,
                                                           TrB_Descriptor desc)
{
    return (TrB_Info)trb_vector_apply_first_uint64(pass, w.id, mask.id, (uint32_t)accum, (uint32_t)op, x,
                                                   u.id, desc);
}

/* w<mask> = accum(w, op(u, y)): where u stores a value, op of that value and y. A change.
 * Shapes: u, w and mask are of one size.
 * Refused: as every operation; TrB_DOMAIN_MISMATCH where u is not of TrB_UINT64. */
static inline TrB_Info TrB_Vector_apply_BinaryOp2nd_UINT64(TrB_Pass *pass, TrB_Vector w,
                                                           TrB_Vector mask, TrB_BinaryOp accum,
                                                           TrB_BinaryOp op, TrB_Vector u, uint64_t y,
                                                           TrB_Descriptor desc)
{
    return (TrB_Info)trb_vector_apply_second_uint64(pass, w.id, mask.id, (uint32_t)accum, (uint32_t)op,
                                                    u.id, y, desc);
}

/* C<Mask> = accum(C, op(x, A)): where A stores a value, op of x and that value. A change.
 * Shapes: A, C and Mask are m x n. With TrB_TRAN1 A, which stands second, is n x m, and A' is read.
 * Refused: as every operation; TrB_DOMAIN_MISMATCH where A is not of TrB_BOOL. */
static inline TrB_Info TrB_Matrix_apply_BinaryOp1st_BOOL(TrB_Pass *pass, TrB_Matrix C, TrB_Matrix Mask,
                                                         TrB_BinaryOp accum, TrB_BinaryOp op, bool x,
                                                         TrB_Matrix A, TrB_Descriptor desc)
{
    return (TrB_Info)trb_matrix_apply_first_bool(pass, C.id, Mask.id, (uint32_t)accum, (uint32_t)op, x,
                                                 A.id, desc);
}

/* C<Mask> = accum(C, op(A, y)): where A stores a value, op of that value and y. A change.
 * Shapes: A, C and Mask are m x n. With TrB_TRAN A is n x m, and A' is read.
 * Refused: as every operation; TrB_DOMAIN_MISMATCH where A is not of TrB_BOOL. */
static inline TrB_Info TrB_Matrix_apply_BinaryOp2nd_BOOL(TrB_Pass *pass, TrB_Matrix C, TrB_Matrix Mask,
                                                         TrB_BinaryOp accum, TrB_BinaryOp op,
                                                         TrB_Matrix A, bool y, TrB_Descriptor desc)
{
    return (TrB_Info)trb_matrix_apply_second_bool(pass, C.id, Mask.id, (uint32_t)accum, (uint32_t)op, A.id,
                                                  y, desc);
}

/* w<mask> = accum(w, op(x, u)): where u stores a value, op of x and that value. A change.
 * Shapes: u, w and mask are of one size.
 * Refused: as every operation; TrB_DOMAIN_MISMATCH where u is not of TrB_BOOL. */
static inline TrB_Info TrB_Vector_apply_BinaryOp1st_BOOL(TrB_Pass *pass, TrB_Vector w, TrB_Vector mask,
                                                         TrB_BinaryOp accum, TrB_BinaryOp op, bool x,
                                                         TrB_Vector u, TrB_Descriptor desc)
{
    return (TrB_Info)trb_vector_apply_first_bool(pass, w.id, mask.id, (uint32_t)accum, (uint32_t)op, x,
                                                 u.id, desc);
}

/* w<mask> = accum(w, op(u, y)): where u stores a value, op of that value and y. A change.
 * Shapes: u, w and mask are of one size.
 * Refused: as every operation; TrB_DOMAIN_MISMATCH where u is not of TrB_BOOL. */
static inline TrB_Info TrB_Vector_apply_BinaryOp2nd_BOOL(TrB_Pass *pass, TrB_Vector w, TrB_Vector mask,
                                                         TrB_BinaryOp accum, TrB_BinaryOp op,
                                                         TrB_Vector u, bool y, TrB_Descriptor desc)
{
    return (TrB_Info)trb_vector_apply_second_bool(pass, w.id, mask.id, (uint32_t)accum, (uint32_t)op, u.id,
                                                  y, desc);
}

/* C<Mask> = accum(C, the entries of A whose places pass the test against k), of either domain. A
 * change.
 * Shapes: A, C and Mask are m x n. With TrB_TRAN A is n x m, and A' is read: its places are tested.
 * Refused: as every operation; TrB_INVALID_VALUE where the test is one of values, or k is below 0, or
 * with TrB_TRIL, TrB_TRIU, TrB_DIAG and TrB_OFFDIAG below 1 - 2^32 or above 2^32 - 1. */
static inline TrB_Info TrB_Matrix_select_INT64(TrB_Pass *pass, TrB_Matrix C, TrB_Matrix Mask,
                                               TrB_BinaryOp accum, TrB_IndexUnaryOp test, TrB_Matrix A,
                                               int64_t k, TrB_Descriptor desc)
{
    return (TrB_Info)trb_matrix_select_int64(pass, C.id, Mask.id, (uint32_t)accum, (uint32_t)test, A.id, k,
                                             desc);
}

/* w<mask> = accum(w, the entries of u whose places pass the test against k), of either domain. A
 * change.
 * Shapes: u, w and mask are of one size. Index i is tested as row i and column 0.
 * Refused: as every operation; TrB_INVALID_VALUE where the test is one of values, or k is below 0, or
 * with TrB_TRIL, TrB_TRIU, TrB_DIAG and TrB_OFFDIAG below 1 - 2^32 or above 2^32 - 1. */
static inline TrB_Info TrB_Vector_select_INT64(TrB_Pass *pass, TrB_Vector w, TrB_Vector mask,
                                               TrB_BinaryOp accum, TrB_IndexUnaryOp test, TrB_Vector u,
                                               int64_t k, TrB_Descriptor desc)
{
    return (TrB_Info)trb_vector_select_int64(pass, w.id, mask.id, (uint32_t)accum, (uint32_t)test, u.id, k,
                                             desc);
}

/* C<Mask> = accum(C, the entries of A whose values pass the test against y). A change.
 * Shapes: A, C and Mask are m x n. With TrB_TRAN A is n x m, and A' is read.
 * Refused: as every operation; TrB_INVALID_VALUE where the test is one of places; TrB_DOMAIN_MISMATCH
 * where A is not of TrB_UINT64. */
static inline TrB_Info TrB_Matrix_select_UINT64(TrB_Pass *pass, TrB_Matrix C, TrB_Matrix Mask,
                                                TrB_BinaryOp accum, TrB_IndexUnaryOp test, TrB_Matrix A,
                                                uint64_t y, TrB_Descriptor desc)
{
    return (TrB_Info)trb_matrix_select_uint64(pass, C.id, Mask.id, (uint32_t)accum, (uint32_t)test, A.id, y,
                                              desc);
}

/* w<mask> = accum(w, the entries of u whose values pass the test against y). A change.
 * Shapes: u, w and mask are of one size.
 * Refused: as every operation; TrB_INVALID_VALUE where the test is one of places; TrB_DOMAIN_MISMATCH
 * where u is not of TrB_UINT64. */
static inline TrB_Info TrB_Vector_select_UINT64(TrB_Pass *pass, TrB_Vector w, TrB_Vector mask,
                                                TrB_BinaryOp accum, TrB_IndexUnaryOp test, TrB_Vector u,
                                                uint64_t y, TrB_Descriptor desc)
{
    return (TrB_Info)trb_vector_select_uint64(pass, w.id, mask.id, (uint32_t)accum, (uint32_t)test, u.id, y,
                                              desc);
}

/* C<Mask> = accum(C, the entries of A whose values pass the test against y). A change.
 * Shapes: A, C and Mask are m x n. With TrB_TRAN A is n x m, and A' is read.
 * Refused: as every operation; TrB_INVALID_VALUE where the test is one of places; TrB_DOMAIN_MISMATCH
 * where A is not of TrB_BOOL. */
static inline TrB_Info TrB_Matrix_select_BOOL(TrB_Pass *pass, TrB_Matrix C, TrB_Matrix Mask,
                                              TrB_BinaryOp accum, TrB_IndexUnaryOp test, TrB_Matrix A,
                                              bool y, TrB_Descriptor desc)
{
    return (TrB_Info)trb_matrix_select_bool(pass, C.id, Mask.id, (uint32_t)accum, (uint32_t)test, A.id, y,
                                            desc);
}

/* w<mask> = accum(w, the entries of u whose values pass the test against y). A change.
 * Shapes: u, w and mask are of one size.
 * Refused: as every operation; TrB_INVALID_VALUE where the test is one of places; TrB_DOMAIN_MISMATCH
 * where u is not of TrB_BOOL. */
static inline TrB_Info TrB_Vector_select_BOOL(TrB_Pass *pass, TrB_Vector w, TrB_Vector mask,
                                              TrB_BinaryOp accum, TrB_IndexUnaryOp test, TrB_Vector u,
                                              bool y, TrB_Descriptor desc)
{
    return (TrB_Info)trb_vector_select_bool(pass, w.id, mask.id, (uint32_t)accum, (uint32_t)test, u.id, y,
                                            desc);
}

/* ---- Texts ------------------------------------------------------------------------------------- */

/* The name of a status as the pages and the scripts of the store have it: that of GraphBLAS, as
 * "GrB_INVALID_INDEX", or our own, "OrderFull". A static text, never NULL. */
static inline const char *TrB_name(TrB_Info info)
{
    switch (info) {
    case TrB_SUCCESS: return "GrB_SUCCESS";
    case TrB_NO_VALUE: return "GrB_NO_VALUE";
    case TrB_UNINITIALIZED_OBJECT: return "GrB_UNINITIALIZED_OBJECT";
    case TrB_INVALID_VALUE: return "GrB_INVALID_VALUE";
    case TrB_INVALID_INDEX: return "GrB_INVALID_INDEX";
    case TrB_DOMAIN_MISMATCH: return "GrB_DOMAIN_MISMATCH";
    case TrB_DIMENSION_MISMATCH: return "GrB_DIMENSION_MISMATCH";
    case TrB_OUTPUT_NOT_EMPTY: return "GrB_OUTPUT_NOT_EMPTY";
    case TrB_INDEX_OUT_OF_BOUNDS: return "GrB_INDEX_OUT_OF_BOUNDS";
    case TrB_ORDER_FULL: return "OrderFull";
    case TrB_OUT_OF_MEMORY: return "GrB_OUT_OF_MEMORY";
    case TrB_PANIC: return "GrB_PANIC";
    case TrB_INSUFFICIENT_SPACE: return "GrB_INSUFFICIENT_SPACE";
    }
    return "unknown status";
}

/* What to do about a status, in one line for a person. A static text, never NULL. */
static inline const char *TrB_hint(TrB_Info info)
{
    switch (info) {
    case TrB_SUCCESS: return "The call was made.";
    case TrB_NO_VALUE: return "Nothing is stored there; this is no refusal.";
    case TrB_UNINITIALIZED_OBJECT: return "Use an open pass, and objects that were made and not freed.";
    case TrB_INVALID_VALUE: return "Give numbers, dimensions and lengths within their ranges.";
    case TrB_INVALID_INDEX: return "Give an index below the dimension; the first is 0.";
    case TrB_DOMAIN_MISMATCH: return "Give values, objects and operators of one domain.";
    case TrB_DIMENSION_MISMATCH: return "Give objects whose dimensions fit together.";
    case TrB_OUTPUT_NOT_EMPTY: return "Clear the object, or build a new one.";
    case TrB_INDEX_OUT_OF_BOUNDS: return "Give a list whose indices are below the dimensions.";
    case TrB_ORDER_FULL: return "A store with a room: open its successor. A chain: free objects, where TrB_chain_objects_left tells 0; else ask TrB_chain_go_on. Reads go on.";
    case TrB_OUT_OF_MEMORY: return "Nothing has changed: free memory, and make the call again.";
    case TrB_PANIC: return "The call did nothing: make it again.";
    case TrB_INSUFFICIENT_SPACE: return "Give arrays with a place for each entry, or more room; the count is told.";
    }
    return "Link the library that this header is of.";
}

#ifdef __cplusplus
}
#endif

#endif
