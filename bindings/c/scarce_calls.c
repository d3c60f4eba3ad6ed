/* Each call of a list with ever more memory, from none on, each time in a store of its own, until nothing is refused.
 * A refused call leaves all as it was, and is then made once more; in the end each trial comes to what one with ample
 * memory comes to, and has given back all that it took.
 *
 * fail.sh links it, as memory.h tells. Standard error tells how often each call was refused.
 */
#include "check.h"
#include "memory.h"
#include "script.h"
#include "shown.h"
#include "trials.h"
#include "trowelheath.h"

#include <stdio.h>
#include <string.h>

/* How many calls the stores take, and how many places an object of the script has for each of its dimensions. */
enum { ROOM = 96, SIZE = 4, SETS = 64 };

/* Vectors and matrices of size 4, one of each at a time: two of numbers, one of truth values, and an empty one of
 * numbers; and one of numbers of size 2. */
static const char *const history[] = {
    "vector u uint64 4",
    "matrix A uint64 4 4",
    "vector v uint64 4",
    "matrix B uint64 4 4",
    "vector m bool 4",
    "matrix M bool 4 4",
    "vector e uint64 4",
    "matrix E uint64 4 4",
    "vector f uint64 2",
    "matrix F uint64 2 2",
    "build u plus 3 1 0 2 3 3",
    "build A plus 3 1 1 0 2 2 3 1 3",
    "set v 0 4",
    "set v 2 5",
    "set B 0 1 6",
    "set B 2 3 7",
    "set m 0 true",
    "set m 2 true",
    "set M 0 1 true",
    "set M 2 3 true",
    "set e 1 9",
    "set E 1 1 9",
    "set F 0 1 6",
    "set F 1 0 2",
    "clear e",
    "clear E",
};

/* The calls that are tried: each kind of a call, by `tran` and `tran1` too where they are read, with each kind of
 * function and of test, and a wait in both of its modes. */
static const char *const tried[] = {
    "vector w uint64 2",
    "matrix C uint64 2 3",
    "dup d v",
    "dup D B",
    "free u",
    "free A",
    "set u 2 8",
    "set A 2 2 8",
    "remove u 3",
    "remove A 3 1",
    "clear u",
    "clear A",
    "resize u 2",
    "resize A 2 9",
    "build e plus 3 1 0 2 3 3",
    "build E plus 3 1 1 0 2 2 3 1 3",
    "ewiseadd v u v times mask m accum plus",
    "ewiseadd B A B times mask M accum plus",
    "ewisemult e u v plus accum plus",
    "ewisemult E B B plus mask M",
    "ewiseadd B A B times tran",
    "ewisemult E B B plus tran",
    "mxv e B u plus.times mask m",
    "mxv e B u plus.minus tran",
    "vxm e u B plus.times mask m",
    "mxm E A B plus.times",
    "mxm E A B plus.times mask M tran",
    "reduce e A plus",
    "reduce e A plus tran",
    "ewiseadd B A B times tran1",
    "ewisemult E B B plus mask M tran tran1",
    "vxm e u B plus.minus tran1",
    "mxm E A B plus.times tran1",
    "mxm E A B plus.times mask M tran tran1",
    "transpose E B",
    "transpose E B mask M accum plus tran",
    "apply E B bnot mask M",
    "apply E B ainv tran",
    "apply E B 9 minus accum plus",
    "apply E B 9 minus tran1",
    "apply E B minus 1 mask M",
    "apply E B minus 1 tran",
    "select E B tril -1 mask M",
    "select E B rowle 2 tran",
    "select E B valuegt 6",
    "select E B valuegt 6 accum plus tran",
    "kronecker E F F times mask M",
    "kronecker E F F minus accum plus tran",
    "kronecker E F F minus tran1",
    "apply e v bnot mask m",
    "apply e v 9 minus accum plus",
    "apply e v minus 1",
    "select e v rowle 1 mask m",
    "select e v valuegt 4 accum plus",
    "diag G v 0",
    "diag H v -2",
    "get v 2",
    "get B 2 3",
    "nvals v",
    "nvals B",
    "size v",
    "size B",
    "total v plus",
    "total B plus",
    "wait v complete",
    "wait B complete",
    "wait v materialize",
    "wait B materialize",
};

/* Reads of the first vector, which many sets change before: what a wait has left of it is worth looking for. */
static const char *const tried_by_other[] = {"get u 0", "nvals u", "total u plus", "wait u complete"};

enum {
    BEFORE = sizeof history / sizeof history[0],
    TRIED = sizeof tried / sizeof tried[0],
    BY_OTHER_ALONE = sizeof tried_by_other / sizeof tried_by_other[0]
};

/* How a call is tried. */
typedef enum {
    BY_ITSELF, /* by itself */
    LATE,      /* in place of a change, the total that has it evaluated; any other call after so many sets that a wait
                  leaves something to other passes */
    BY_OTHER   /* by the other pass, which goes on from what a wait of the first one left */
} Manner;

/* What the store holds: for each number of a vector and a matrix, of the objects that are there and of the next, its
 * dimensions, its count, and what is at each place. */
enum { LOOKS = 4 + SIZE + SIZE * SIZE };

typedef struct {
    Answer answers[LOOKS];
} Held;

/* What a trial came to. */
typedef struct {
    bool is_refused;
    bool is_status_left; /* a refusal that left its status on the object */
    Answer answer;
    uint32_t made; /* how many calls of the history it evaluated */
    Held held[LOOKED_AT];
} Outcome;

/* A number, or a truth value and 1 as the second one. */
static Answer vector_at(TrB_Pass *pass, TrB_Vector v, TrB_Index i)
{
    Answer answer = {TrB_SUCCESS, 0, 0};
    answer.info = TrB_Vector_extractElement_UINT64(pass, &answer.first, v, i);
    if (answer.info == TrB_DOMAIN_MISMATCH) {
        bool x = false;
        answer = (Answer){TrB_Vector_extractElement_BOOL(pass, &x, v, i), x, 1};
    }
    return answer;
}

static Answer matrix_at(TrB_Pass *pass, TrB_Matrix a, TrB_Index i, TrB_Index j)
{
    Answer answer = {TrB_SUCCESS, 0, 0};
    answer.info = TrB_Matrix_extractElement_UINT64(pass, &answer.first, a, i, j);
    if (answer.info == TrB_DOMAIN_MISMATCH) {
        bool x = false;
        answer = (Answer){TrB_Matrix_extractElement_BOOL(pass, &x, a, i, j), x, 1};
    }
    return answer;
}

/* What the matrix and the vector of this number hold. */
static Held held_by(TrB_Pass *pass, uint32_t number)
{
    Held held;
    TrB_Matrix a = {number};
    TrB_Vector v = {number};
    Answer size = {0}, count = {0};
    size_t k = 0;
    size.info = TrB_Matrix_size(pass, &size.first, &size.second, a);
    count.info = TrB_Matrix_nvals(pass, &count.first, a);
    held.answers[k++] = size;
    held.answers[k++] = count;
    size = count = (Answer){0};
    size.info = TrB_Vector_size(pass, &size.first, v);
    count.info = TrB_Vector_nvals(pass, &count.first, v);
    held.answers[k++] = size;
    held.answers[k++] = count;
    for (TrB_Index i = 0; i < SIZE; i++) {
        held.answers[k++] = vector_at(pass, v, i);
        for (TrB_Index j = 0; j < SIZE; j++) {
            held.answers[k++] = matrix_at(pass, a, i, j);
        }
    }
    HOLDS(k == LOOKS);
    return held;
}

/* What the pass shows after a refusal is what it showed before, but for the status of the object that the call was on.
 * A call that makes an object is on none. A build that was refused memory for the copy of its arrays was not made.
 * Whether a status was left. */
static bool expect_refused(const Shown *before, TrB_Pass *pass, const Names *names, const char *call)
{
    Shown after = shown(pass), wanted = *before;
    if (!makes_object(call)) {
        const char *name = name_in(call);
        uint32_t number = names->of[(unsigned char)name[0]].number;
        *(is_vector(name) ? &wanted.vectors[number] : &wanted.matrices[number]) = TrB_OUT_OF_MEMORY;
    }
    bool is_made = is_same_shown(&after, &wanted), is_build = strncmp(call, "build", 5) == 0;
    HOLDS(is_made || (is_build && is_same_shown(&after, before)));
    return is_made && !makes_object(call);
}

/* Makes the call with this much memory, and if it is refused then once more with ample memory. */
static void try_call(Outcome *trial, TrB_Pass *pass, Names *names, const char *call, Supply supply)
{
    Shown before = shown(pass);
    hold_back(supply);
    trial->answer = make_call(pass, names, call);
    let_go();
    trial->is_refused = trial->answer.info == TrB_OUT_OF_MEMORY;
    if (trial->is_refused) {
        HOLDS(memory.refused > 0);
        trial->is_status_left = expect_refused(&before, pass, names, call);
        trial->answer = make_call(pass, names, call);
    }
    TrB_Facts facts;
    OK(TrB_facts(pass, &facts));
    trial->made = facts.made;
    Shown after = shown(pass);
    uint32_t entered = is_read(call) ? 0 : 1;
    HOLDS(after.facts.words == before.facts.words + entered && after.facts.known == before.facts.known + entered);
    for (uint32_t k = 0; k < LOOKED_AT; k++) {
        trial->held[k] = held_by(pass, k);
    }
}

/* Changes the first vector so many times. */
static void set_often(TrB_Pass *pass)
{
    for (uint64_t k = 0; k < SETS; k++) {
        OK(TrB_Vector_setElement_UINT64(pass, (TrB_Vector){0}, k, k % SIZE));
    }
}

/* A trial in a store of its own, which gives back all that it took. */
static Outcome try_once(const char *call, Manner manner, Supply supply)
{
    TrB_Pass passes[2] = {TRB_PASS_INIT};
    Names names = {0};
    Outcome trial = {0};
    char total[] = "total x plus";
    size_t before = memory.held;
    OK(TrB_open(ROOM, passes, 2));
    make_calls(&passes[0], &names, history, BEFORE);
    if (manner == LATE && !is_read(call)) {
        make_calls(&passes[0], &names, &call, 1);
        total[6] = name_in(call)[0];
        call = total;
    } else if (manner != BY_ITSELF) {
        set_often(&passes[0]);
    }
    if (manner == BY_OTHER) {
        OK(TrB_Vector_wait(&passes[0], (TrB_Vector){0}, TrB_MATERIALIZE));
        OK(TrB_meet(&passes[1], &passes[0]));
    }
    try_call(&trial, &passes[manner == BY_OTHER], &names, call, supply);
    TrB_free(&passes[0]);
    TrB_free(&passes[1]);
    HOLDS(memory.held == before);
    return trial;
}

/* A trial comes to what one with ample memory comes to. */
static void expect_same(const Outcome *trial, const Outcome *ample)
{
    HOLDS(is_same(trial->answer, ample->answer));
    for (uint32_t n = 0; n < LOOKED_AT; n++) {
        for (size_t k = 0; k < LOOKS; k++) {
            HOLDS(is_same(trial->held[n].answers[k], ample->held[n].answers[k]));
        }
    }
}

static const char *const manners[] = {"by itself", "late", "by the other pass"};

/* How many calls the other pass makes for this one: none for dimensions, none of what it finds, and for each other
 * object the one that makes it and two sets. */
static uint32_t made_by_other(const char *call)
{
    bool is_found = name_in(call)[0] == 'u' || strstr(call, "materialize") != NULL;
    return is_found || strncmp(call, "size", 4) == 0 ? 0 : 3;
}

/* Tries the call in each way. All calls take memory but those for dimensions. Where memory is refused to what the other
 * pass would find, it makes the calls itself. */
static void try_all(const char *call, Manner manner)
{
    char row[256];
    checked_row = row;
    snprintf(row, sizeof row, "%s, %s, ample memory", call, manners[manner]);
    Outcome ample = try_once(call, manner, AMPLE);
    bool takes_memory = strncmp(call, "size", 4) != 0, leaves_status = false;
    HOLDS(!ample.is_refused && ample.answer.info == TrB_SUCCESS);
    HOLDS(memory.refused == 0 && (memory.asked > 0) == takes_memory);
    HOLDS(manner != BY_OTHER || ample.made == made_by_other(call));
    fprintf(stderr, "%s, %s: refused", call, manners[manner]);
    for (Way way = ONCE; way < WAYS; way++) {
        Supply supply = first_supply(way);
        unsigned refusals = 0, alone = 0;
        do {
            snprintf(row, sizeof row, "%s, %s, %s %zu", call, manners[manner], name_of_way(way), supply.number);
            Outcome trial = try_once(call, manner, supply);
            expect_same(&trial, &ample);
            refusals += trial.is_refused;
            alone += !trial.is_refused && trial.made > 0;
            leaves_status = leaves_status || trial.is_status_left;
        } while (go_on(&supply));
        HOLDS((refusals > 0) == takes_memory);
        HOLDS(manner != BY_OTHER || name_in(call)[0] != 'u' || way != ONCE || alone > 0);
        fprintf(stderr, " %u", refusals);
    }
    HOLDS(leaves_status == (takes_memory && (manner == LATE || !makes_object(call))));
    fprintf(stderr, "\n");
    checked_row = NULL;
}

/* Tries the calls that can be tried in this manner. */
static void try_list(Manner manner)
{
    unsigned calls = 0;
    for (size_t k = 0; k < TRIED; k++) {
        bool is_free = strncmp(tried[k], "free", 4) == 0;
        if (manner == BY_ITSELF || (manner == LATE && !is_free) || (manner == BY_OTHER && is_read(tried[k]))) {
            try_all(tried[k], manner);
            calls++;
        }
    }
    for (size_t k = 0; manner == BY_OTHER && k < BY_OTHER_ALONE; k++, calls++) {
        try_all(tried_by_other[k], manner);
    }
    printf("%u calls, %s: each is refused in turn, and leaves all as it was\n", calls, manners[manner]);
}

int main(void)
{
    take_numbers();
    try_list(BY_ITSELF);
    try_list(LATE);
    try_list(BY_OTHER);
    return 0;
}
