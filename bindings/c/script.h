/* Calls as the lines of a script say them: `set v 1 5`, `mxm C A B plus.times mask M`. Each object has a name of one
 * letter, a vector a small one. No line takes memory but in the library. */
#ifndef SCRIPT_H
#define SCRIPT_H

#include "check.h"
#include "trowelheath.h"

#include <ctype.h>
#include <stdbool.h>
#include <stdlib.h>
#include <string.h>

enum { MOST_WORDS = 32, MOST_LETTERS = 160, LETTERS = 128, MOST_TUPLES = 10 };

/* What a name stands for. */
typedef struct {
    uint32_t number;
    TrB_Type type;
} Object;

/* What all names stand for, in one store. */
typedef struct {
    Object of[LETTERS];
} Names;

/* What a call answers: its status, and the one or two numbers that it tells. */
typedef struct {
    TrB_Info info;
    uint64_t first, second;
} Answer;

static inline bool is_same(Answer a, Answer b)
{
    return a.info == b.info && a.first == b.first && a.second == b.second;
}

/* The words of a line, and those of an operation that say how its output is written. */
typedef struct {
    char letters[MOST_LETTERS];
    const char *words[MOST_WORDS];
    size_t count;
    char mask; /* a name, or 0 */
    TrB_BinaryOp accum;
    TrB_Descriptor desc;
} Line;

static inline bool is_word(const char *word, const char *wanted)
{
    return word != NULL && strcmp(word, wanted) == 0;
}

static inline bool is_vector(const char *name)
{
    return islower((unsigned char)name[0]);
}

/* The place of a word in a list, from 1, or 0. */
static inline int place_of(const char *word, const char *const *list, int count)
{
    for (int k = 0; k < count; k++) {
        if (is_word(word, list[k])) {
            return k + 1;
        }
    }
    return 0;
}

/* In the order of their numbers, each from 1. */
static inline TrB_BinaryOp binary_op(const char *word)
{
    static const char *const words[] = {"lor",  "land",  "lxor", "lxnor", "first_bool", "second_bool", "plus",
                                        "times", "min", "max", "minus", "first", "second"};
    return (TrB_BinaryOp)place_of(word, words, 13);
}

static inline TrB_UnaryOp unary_op(const char *word)
{
    static const char *const words[] = {"identity_bool", "lnot", "identity", "ainv", "bnot"};
    return (TrB_UnaryOp)place_of(word, words, 5);
}

static inline TrB_IndexUnaryOp test_of(const char *word)
{
    static const char *const words[] = {"tril", "triu", "diag", "offdiag", "rowle", "rowgt", "colle",
                                        "colgt", "valueeq", "valuene", "valuelt", "valuele", "valuegt", "valuege"};
    return (TrB_IndexUnaryOp)place_of(word, words, 14);
}

static inline TrB_Semiring semiring_of(const char *word)
{
    char add[MOST_LETTERS] = {0};
    const char *dot = strchr(word, '.');
    HOLDS(dot != NULL);
    memcpy(add, word, (size_t)(dot - word));
    return TrB_SEMIRING(binary_op(add), binary_op(dot + 1));
}

/* Reads a line. */
static inline void read_line(Line *line, const char *text)
{
    *line = (Line){.accum = TrB_NO_ACCUM, .desc = TrB_DEFAULT};
    HOLDS(strlen(text) < MOST_LETTERS);
    strcpy(line->letters, text);
    for (char *word = strtok(line->letters, " "); word != NULL; word = strtok(NULL, " ")) {
        HOLDS(line->count + 1 < MOST_WORDS);
        line->words[line->count++] = word;
    }
    HOLDS(line->count > 1);
    for (size_t k = 2; k < line->count; k++) {
        const char *word = line->words[k];
        if (is_word(word, "mask")) {
            line->mask = line->words[++k][0];
        } else if (is_word(word, "accum")) {
            line->accum = binary_op(line->words[++k]);
        } else if (is_word(word, "tran")) {
            line->desc |= TrB_TRAN;
        } else if (is_word(word, "tran1")) {
            line->desc |= TrB_TRAN1;
        }
    }
}

/* Of a line, whether its call is a read, which enters nothing. */
static inline bool is_read(const char *text)
{
    static const char *const words[] = {"get", "nvals", "size", "total", "wait"};
    Line line;
    read_line(&line, text);
    return place_of(line.words[0], words, 5) != 0;
}

/* Of a line, whether its call makes an object. */
static inline bool makes_object(const char *text)
{
    static const char *const words[] = {"vector", "matrix", "dup", "diag"};
    Line line;
    read_line(&line, text);
    return place_of(line.words[0], words, 4) != 0;
}

/* Of a line, the name of the object that its call reads, changes or makes. */
static inline const char *name_in(const char *text)
{
    return strchr(text, ' ') + 1;
}

/* What the first letter of a word stands for; nothing that is used, where the word is no name. */
static inline TrB_Matrix matrix_of(const Names *names, const char *word)
{
    return (TrB_Matrix){word == NULL ? 0 : names->of[(unsigned char)word[0]].number};
}

static inline TrB_Vector vector_of(const Names *names, const char *word)
{
    return (TrB_Vector){word == NULL ? 0 : names->of[(unsigned char)word[0]].number};
}

static inline uint64_t number_of(const char *word)
{
    return strtoull(word, NULL, 10);
}

/* The name stands for an object that was made. */
static inline Answer made(Names *names, const char *name, TrB_Info info, uint32_t number, TrB_Type type)
{
    if (info == TrB_SUCCESS) {
        names->of[(unsigned char)name[0]] = (Object){number, type};
    }
    return (Answer){info, info == TrB_SUCCESS ? number : 0, 0};
}

static inline Answer make_object(TrB_Pass *pass, Names *names, const Line *line)
{
    const char *const *w = line->words;
    TrB_Matrix a = {0};
    TrB_Vector v = {0};
    TrB_Info info;
    if (is_word(w[0], "dup")) {
        TrB_Type type = names->of[(unsigned char)w[2][0]].type;
        if (is_vector(w[1])) {
            info = TrB_Vector_dup(pass, &v, vector_of(names, w[2]));
            return made(names, w[1], info, v.id, type);
        }
        info = TrB_Matrix_dup(pass, &a, matrix_of(names, w[2]));
        return made(names, w[1], info, a.id, type);
    }
    if (is_word(w[0], "diag")) {
        info = TrB_Matrix_diag(pass, &a, vector_of(names, w[2]), strtoll(w[3], NULL, 10));
        return made(names, w[1], info, a.id, names->of[(unsigned char)w[2][0]].type);
    }
    TrB_Type type = is_word(w[2], "bool") ? TrB_BOOL : TrB_UINT64;
    if (is_word(w[0], "vector")) {
        info = TrB_Vector_new(pass, &v, type, number_of(w[3]));
        return made(names, w[1], info, v.id, type);
    }
    info = TrB_Matrix_new(pass, &a, type, number_of(w[3]), number_of(w[4]));
    return made(names, w[1], info, a.id, type);
}

static inline TrB_Info build(TrB_Pass *pass, const Names *names, const Line *line)
{
    TrB_Index i[MOST_TUPLES], j[MOST_TUPLES], nvals = 0;
    uint64_t x[MOST_TUPLES];
    const char *const *w = line->words;
    bool is_of_vector = is_vector(w[1]);
    for (size_t k = 3; k < line->count; nvals++) {
        HOLDS(nvals < MOST_TUPLES);
        i[nvals] = number_of(w[k++]);
        j[nvals] = is_of_vector ? 0 : number_of(w[k++]);
        x[nvals] = number_of(w[k++]);
    }
    return is_of_vector ? TrB_Vector_build_UINT64(pass, vector_of(names, w[1]), i, x, nvals, binary_op(w[2]))
                        : TrB_Matrix_build_UINT64(pass, matrix_of(names, w[1]), i, j, x, nvals, binary_op(w[2]));
}

/* A change of one object. */
static inline TrB_Info edit(TrB_Pass *pass, const Names *names, const Line *line)
{
    const char *const *w = line->words;
    bool is_of_vector = is_vector(w[1]), is_of_truth = names->of[(unsigned char)w[1][0]].type == TrB_BOOL;
    TrB_Matrix a = matrix_of(names, w[1]);
    TrB_Vector v = vector_of(names, w[1]);
    if (is_word(w[0], "free")) {
        return is_of_vector ? TrB_Vector_free(pass, v) : TrB_Matrix_free(pass, a);
    }
    if (is_word(w[0], "clear")) {
        return is_of_vector ? TrB_Vector_clear(pass, v) : TrB_Matrix_clear(pass, a);
    }
    if (is_word(w[0], "build")) {
        return build(pass, names, line);
    }
    uint64_t i = number_of(w[2]), j = line->count > 3 ? number_of(w[3]) : 0;
    if (is_word(w[0], "resize")) {
        return is_of_vector ? TrB_Vector_resize(pass, v, i) : TrB_Matrix_resize(pass, a, i, j);
    }
    if (is_word(w[0], "remove")) {
        return is_of_vector ? TrB_Vector_removeElement(pass, v, i) : TrB_Matrix_removeElement(pass, a, i, j);
    }
    HOLDS(is_word(w[0], "set"));
    const char *last = w[line->count - 1];
    if (is_of_truth) {
        bool x = is_word(last, "true");
        return is_of_vector ? TrB_Vector_setElement_BOOL(pass, v, x, i) : TrB_Matrix_setElement_BOOL(pass, a, x, i, j);
    }
    uint64_t x = number_of(last);
    return is_of_vector ? TrB_Vector_setElement_UINT64(pass, v, x, i) : TrB_Matrix_setElement_UINT64(pass, a, x, i, j);
}

/* An operation on matrices or on vectors of numbers. */
static inline TrB_Info operate(TrB_Pass *pass, const Names *names, const Line *line)
{
    const char *const *w = line->words;
    bool is_of_vector = is_vector(w[1]);
    TrB_BinaryOp accum = line->accum;
    TrB_Descriptor desc = line->desc;
    TrB_Matrix c = matrix_of(names, w[1]), a = matrix_of(names, w[2]), b = matrix_of(names, w[3]);
    TrB_Vector x = vector_of(names, w[1]), u = vector_of(names, w[2]), v = vector_of(names, w[3]);
    TrB_Matrix mask = line->mask == 0 ? TrB_NO_MATRIX : matrix_of(names, &line->mask);
    TrB_Vector vmask = line->mask == 0 ? TrB_NO_VECTOR : vector_of(names, &line->mask);
    if (is_word(w[0], "mxm")) {
        return TrB_mxm(pass, c, mask, accum, semiring_of(w[4]), a, b, desc);
    }
    if (is_word(w[0], "mxv")) {
        return TrB_mxv(pass, x, vmask, accum, semiring_of(w[4]), a, v, desc);
    }
    if (is_word(w[0], "vxm")) {
        return TrB_vxm(pass, x, vmask, accum, semiring_of(w[4]), u, b, desc);
    }
    if (is_word(w[0], "ewiseadd")) {
        TrB_BinaryOp op = binary_op(w[4]);
        return is_of_vector ? TrB_Vector_eWiseAdd(pass, x, vmask, accum, op, u, v, desc)
                            : TrB_Matrix_eWiseAdd(pass, c, mask, accum, op, a, b, desc);
    }
    if (is_word(w[0], "ewisemult")) {
        TrB_BinaryOp op = binary_op(w[4]);
        return is_of_vector ? TrB_Vector_eWiseMult(pass, x, vmask, accum, op, u, v, desc)
                            : TrB_Matrix_eWiseMult(pass, c, mask, accum, op, a, b, desc);
    }
    if (is_word(w[0], "reduce")) {
        return TrB_Matrix_reduce(pass, x, vmask, accum, binary_op(w[3]), a, desc);
    }
    if (is_word(w[0], "transpose")) {
        return TrB_transpose(pass, c, mask, accum, a, desc);
    }
    if (is_word(w[0], "kronecker")) {
        return TrB_Matrix_kronecker_BinaryOp(pass, c, mask, accum, binary_op(w[4]), a, b, desc);
    }
    if (is_word(w[0], "select")) {
        TrB_IndexUnaryOp test = test_of(w[3]);
        if (test < TrB_VALUEEQ) {
            int64_t k = strtoll(w[4], NULL, 10);
            return is_of_vector ? TrB_Vector_select_INT64(pass, x, vmask, accum, test, u, k, desc)
                                : TrB_Matrix_select_INT64(pass, c, mask, accum, test, a, k, desc);
        }
        uint64_t y = number_of(w[4]);
        return is_of_vector ? TrB_Vector_select_UINT64(pass, x, vmask, accum, test, u, y, desc)
                            : TrB_Matrix_select_UINT64(pass, c, mask, accum, test, a, y, desc);
    }
    HOLDS(is_word(w[0], "apply"));
    TrB_UnaryOp unary = unary_op(w[3]);
    if (unary != 0) {
        return is_of_vector ? TrB_Vector_apply(pass, x, vmask, accum, unary, u, desc)
                            : TrB_Matrix_apply(pass, c, mask, accum, unary, a, desc);
    }
    if (isdigit((unsigned char)w[3][0])) {
        uint64_t y = number_of(w[3]);
        TrB_BinaryOp op = binary_op(w[4]);
        return is_of_vector ? TrB_Vector_apply_BinaryOp1st_UINT64(pass, x, vmask, accum, op, y, u, desc)
                            : TrB_Matrix_apply_BinaryOp1st_UINT64(pass, c, mask, accum, op, y, a, desc);
    }
    uint64_t y = number_of(w[4]);
    TrB_BinaryOp op = binary_op(w[3]);
    return is_of_vector ? TrB_Vector_apply_BinaryOp2nd_UINT64(pass, x, vmask, accum, op, u, y, desc)
                        : TrB_Matrix_apply_BinaryOp2nd_UINT64(pass, c, mask, accum, op, a, y, desc);
}

/* A read of an object of numbers. */
static inline Answer ask(TrB_Pass *pass, const Names *names, const Line *line)
{
    const char *const *w = line->words;
    bool is_of_vector = is_vector(w[1]);
    TrB_Matrix a = matrix_of(names, w[1]);
    TrB_Vector v = vector_of(names, w[1]);
    Answer answer = {TrB_SUCCESS, 0, 0};
    uint64_t *first = &answer.first, *second = &answer.second;
    if (is_word(w[0], "wait")) {
        TrB_WaitMode mode = is_word(w[2], "complete") ? TrB_COMPLETE : TrB_MATERIALIZE;
        answer.info = is_of_vector ? TrB_Vector_wait(pass, v, mode) : TrB_Matrix_wait(pass, a, mode);
    } else if (is_word(w[0], "nvals")) {
        answer.info = is_of_vector ? TrB_Vector_nvals(pass, first, v) : TrB_Matrix_nvals(pass, first, a);
    } else if (is_word(w[0], "size")) {
        answer.info = is_of_vector ? TrB_Vector_size(pass, first, v) : TrB_Matrix_size(pass, first, second, a);
    } else if (is_word(w[0], "total")) {
        TrB_BinaryOp monoid = binary_op(w[2]);
        answer.info = is_of_vector ? TrB_Vector_reduce_UINT64(pass, first, monoid, v)
                                   : TrB_Matrix_reduce_UINT64(pass, first, monoid, a);
    } else {
        HOLDS(is_word(w[0], "get"));
        uint64_t i = number_of(w[2]), j = line->count > 3 ? number_of(w[3]) : 0;
        answer.info = is_of_vector ? TrB_Vector_extractElement_UINT64(pass, first, v, i)
                                   : TrB_Matrix_extractElement_UINT64(pass, first, a, i, j);
    }
    return answer;
}

/* Makes the call of a line. */
static inline Answer make_call(TrB_Pass *pass, Names *names, const char *text)
{
    static const char *const edits[] = {"set", "remove", "clear", "resize", "free", "build"};
    Line line;
    read_line(&line, text);
    if (makes_object(text)) {
        return make_object(pass, names, &line);
    }
    if (is_read(text)) {
        return ask(pass, names, &line);
    }
    TrB_Info info = place_of(line.words[0], edits, 6) != 0 ? edit(pass, names, &line) : operate(pass, names, &line);
    return (Answer){info, 0, 0};
}

/* Makes the calls of these lines, of which none is refused. */
static inline void make_calls(TrB_Pass *pass, Names *names, const char *const *lines, size_t count)
{
    for (size_t k = 0; k < count; k++) {
        Answer answer = make_call(pass, names, lines[k]);
        check_status(answer.info, TrB_SUCCESS, lines[k], __FILE__, __LINE__);
    }
}

#endif
