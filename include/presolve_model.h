/* Presolve with one struct for the model, one for the result and one lent buffer, over the call of presolve.h. For C99 and C++.
 *
 *     static unsigned char buffer[PRESOLVE_BYTES(VARS, ROWS, TERMS)];
 *     presolve_result result;
 *     int code = presolve_run(&model, buffer, sizeof buffer, &result);
 *     if (code != PRESOLVE_DONE && code != PRESOLVE_INFEASIBLE) puts(presolve_words(code));
 *
 * examples/model.c is a whole caller. These functions are plain C and no proof covers them; what they call is proved. They
 * allocate nothing and keep nothing.
 *
 * Stack: a call takes under 8 KiB of it, whatever the model. Measured on a painted stack with gcc 12 at -O2 over the library's
 * code at -O3: 7,848 bytes with all that a new thread takes by itself, at 4,096 variables, 8,192 rows and 65,536 terms; no
 * more for any of 299 smaller ones.
 */
#ifndef PRESOLVE_MODEL_H
#define PRESOLVE_MODEL_H

#include "presolve.h"

#include <string.h>

#ifdef __cplusplus
extern "C" {
#endif

/* The version, as in the file VERSION. */
#define PRESOLVE_VERSION_MAJOR 0
#define PRESOLVE_VERSION_MINOR 1
#define PRESOLVE_VERSION_PATCH 0
#define PRESOLVE_VERSION "0.1.0"

/* The call is named suedeonyx_presolve since a C program has one space of names for all that it links, and a solver that links
 * this library may well have a presolve of its own. Names of this header are static or begin with presolve_.
 */

/* A model. A pointer may be null where its count is 0. */
typedef struct presolve_model {
    size_t vars, rows, terms;
    const double *objective, *lower, *upper; /* vars entries each */
    const uint8_t *domain;                   /* vars entries: PRESOLVE_INTEGER, .. */
    const size_t *starts;                    /* rows + 1 entries: row k has the terms starts[k] up to starts[k + 1] */
    const size_t *index;                     /* terms entries: the variable, rising within a row */
    const double *coeff;                     /* terms entries */
    const uint8_t *cmp;                      /* rows entries: PRESOLVE_EQ, .. */
    const double *rhs;                       /* rows entries */
    uint8_t mode;                            /* PRESOLVE_LP, .. */
    double feasibility, int_tol;             /* 0 to 0.5; 1e-6 and 1e-9 are usual */
} presolve_model;

/* A result. The pointers are into the buffer; they are set where code is PRESOLVE_DONE, and null otherwise. The counts are
 * set where it is PRESOLVE_DONE or PRESOLVE_INFEASIBLE (docs/COUNTS.md). */
typedef struct presolve_result {
    int code; /* PRESOLVE_DONE, PRESOLVE_INFEASIBLE, or the number of a refusal */
    size_t rows_dropped, bounds_tightened, vars_fixed, coeffs_tightened, passes;
    int reduced;                 /* 0: nothing was found that makes the model smaller */
    const double *lower, *upper; /* vars entries: the bounds now */
    size_t emitted;              /* how many rows the reduced model has; entries of the next five */
    const size_t *row;
    const uint8_t *rewritten;
    const double *rhs;
    const size_t *from, *upto;   /* presolve_terms reads them */
    const size_t *term_index;    /* terms of rewritten rows */
    const double *term_coeff;
    size_t kept;                 /* how many rows an answer is still to be checked against */
    const size_t *kept_row;
} presolve_result;

/* How many entries of eight bytes and how many bytes a call needs in all. PRESOLVE_BYTES of the largest model is 4,989,064. */
#define PRESOLVE_WORDS(vars, rows, terms)                                                                                      \
    (2 * (vars) + 5 * (rows) + 2 * (terms) + PRESOLVE_FLOATS(vars, rows, terms) + PRESOLVE_NUMBERS(vars, rows, terms) +        \
     PRESOLVE_ADJACENCY(vars, rows, terms) + PRESOLVE_ANSWER)
#define PRESOLVE_BYTES(vars, rows, terms) (8 * PRESOLVE_WORDS(vars, rows, terms) + (rows) + 8)

/* The meaning of what a call returns. */
static inline const char *presolve_words(int code) {
    switch (code) {
    case PRESOLVE_DONE: return "done";
    case PRESOLVE_INFEASIBLE: return "infeasible";
    case PRESOLVE_LENGTHS_DISAGREE: return "slice lengths disagree";
    case PRESOLVE_TOO_MANY: return "more than a maximum";
    case PRESOLVE_BAD_STARTS: return "row starts: first is not 0, one falls, or the last is not the term count";
    case PRESOLVE_BAD_INDEX: return "a term's index is too large, or not rising within its row";
    case PRESOLVE_LONG_ROW: return "a row has more than 256 terms";
    case PRESOLVE_BAD_CODE: return "a domain, comparison or mode above 2";
    case PRESOLVE_BAD_BOUND: return "a bound is not a number, a lower bound is +infinity or an upper bound -infinity";
    case PRESOLVE_NOT_FINITE: return "an objective or coefficient is not finite";
    case PRESOLVE_BAD_RHS: return "a right side is not a number, or infinite on the wrong side of its comparison";
    case PRESOLVE_BAD_TOLERANCE: return "feasibility or int_tol is outside 0 to 0.5, or not a number";
    case PRESOLVE_TOO_SHORT: return "a result or working slice is too short";
    default: return "no such number in the table";
    }
}

/* Presolves a model in a buffer of PRESOLVE_BYTES, aligned or not, whatever it holds. Returns and sets result->code. A buffer that
 * is too short is PRESOLVE_TOO_SHORT, after every other refusal of the table, as in the call itself. */
static inline int presolve_run(const presolve_model *m, void *buffer, size_t bytes, presolve_result *result) {
    static const double no_floats[1] = {0};
    static const size_t no_numbers[2] = {0, 0};
    static const uint8_t no_codes[1] = {0};
    const size_t n = m->vars, r = m->rows, t = m->terms;
    memset(result, 0, sizeof *result);
    /* the table's second row comes first here, so that the sizes below cannot pass what a size_t holds */
    if (n > PRESOLVE_MAX_VARS || r > PRESOLVE_MAX_ROWS || t > PRESOLVE_MAX_TERMS) return result->code = PRESOLVE_TOO_MANY;
    const int fits = bytes >= PRESOLVE_BYTES(n, r, t);
    double spare_floats[1];
    size_t spare_numbers[1];
    uint8_t spare_marks[1];
    unsigned char *at = (unsigned char *)buffer;
    if (fits) at += (8 - (uintptr_t)at % 8) % 8;
#define PRESOLVE_TAKE(type, spare, count) (fits ? (at += 8 * (count), (type *)(void *)(at - 8 * (count))) : (spare))
    double *const lower = PRESOLVE_TAKE(double, spare_floats, n);
    double *const upper = PRESOLVE_TAKE(double, spare_floats, n);
    size_t *const row = PRESOLVE_TAKE(size_t, spare_numbers, r);
    double *const rhs = PRESOLVE_TAKE(double, spare_floats, r);
    size_t *const from = PRESOLVE_TAKE(size_t, spare_numbers, r);
    size_t *const upto = PRESOLVE_TAKE(size_t, spare_numbers, r);
    size_t *const kept = PRESOLVE_TAKE(size_t, spare_numbers, r);
    size_t *const term_index = PRESOLVE_TAKE(size_t, spare_numbers, t);
    double *const term_coeff = PRESOLVE_TAKE(double, spare_floats, t);
    double *const floats = PRESOLVE_TAKE(double, spare_floats, PRESOLVE_FLOATS(n, r, t));
    size_t *const numbers = PRESOLVE_TAKE(size_t, spare_numbers, PRESOLVE_NUMBERS(n, r, t));
    size_t *const adjacency = PRESOLVE_TAKE(size_t, spare_numbers, PRESOLVE_ADJACENCY(n, r, t));
    size_t *const answer = PRESOLVE_TAKE(size_t, spare_numbers, PRESOLVE_ANSWER);
    uint8_t *const rewritten = fits ? (uint8_t *)at : spare_marks;
#undef PRESOLVE_TAKE
    /* lent slices of no entries are too short for every model: the answer's alone has nine */
#define PRESOLVE_LEN(count) (fits ? (size_t)(count) : 0)
    result->code = suedeonyx_presolve(
        m->objective ? m->objective : no_floats, n, m->lower ? m->lower : no_floats, n, m->upper ? m->upper : no_floats, n,
        m->domain ? m->domain : no_codes, n, m->starts ? m->starts : no_numbers, r + 1, m->index ? m->index : no_numbers, t,
        m->coeff ? m->coeff : no_floats, t, m->cmp ? m->cmp : no_codes, r, m->rhs ? m->rhs : no_floats, r, m->mode, m->feasibility,
        m->int_tol, lower, PRESOLVE_LEN(n), upper, PRESOLVE_LEN(n), row, PRESOLVE_LEN(r), rewritten, PRESOLVE_LEN(r), rhs,
        PRESOLVE_LEN(r), from, PRESOLVE_LEN(r), upto, PRESOLVE_LEN(r), kept, PRESOLVE_LEN(r), term_index, PRESOLVE_LEN(t),
        term_coeff, PRESOLVE_LEN(t), floats, PRESOLVE_LEN(PRESOLVE_FLOATS(n, r, t)), numbers,
        PRESOLVE_LEN(PRESOLVE_NUMBERS(n, r, t)), adjacency, PRESOLVE_LEN(PRESOLVE_ADJACENCY(n, r, t)), answer,
        PRESOLVE_LEN(PRESOLVE_ANSWER));
#undef PRESOLVE_LEN
    if (result->code != PRESOLVE_DONE && result->code != PRESOLVE_INFEASIBLE) return result->code;
    result->rows_dropped = answer[PRESOLVE_ROWS_DROPPED];
    result->bounds_tightened = answer[PRESOLVE_BOUNDS_TIGHTENED];
    result->vars_fixed = answer[PRESOLVE_VARS_FIXED];
    result->coeffs_tightened = answer[PRESOLVE_COEFFS_TIGHTENED];
    result->passes = answer[PRESOLVE_PASSES];
    if (result->code == PRESOLVE_INFEASIBLE) return result->code;
    result->reduced = answer[PRESOLVE_REDUCED] != 0;
    result->lower = lower;
    result->upper = upper;
    result->emitted = answer[PRESOLVE_EMITTED];
    result->row = row;
    result->rewritten = rewritten;
    result->rhs = rhs;
    result->from = from;
    result->upto = upto;
    result->term_index = term_index;
    result->term_coeff = term_coeff;
    result->kept = answer[PRESOLVE_KEPT];
    result->kept_row = kept;
    return result->code;
}

/* The terms of the reduced model's row i, i < result->emitted: how many, and where they stand. */
static inline size_t presolve_terms(const presolve_model *m, const presolve_result *result, size_t i, const size_t **index,
                                    const double **coeff) {
    *index = (result->rewritten[i] ? result->term_index : m->index) + result->from[i];
    *coeff = (result->rewritten[i] ? result->term_coeff : m->coeff) + result->from[i];
    return result->upto[i] - result->from[i];
}

/* Checks a plan, a value for each variable: what suedeonyx_check_plan returns, PRESOLVE_PLAN_HOLDS where it breaks nothing. */
static inline int presolve_check(const presolve_model *m, const double *plan, size_t *place, double *excursion) {
    static const double no_floats[1] = {0};
    static const size_t no_numbers[2] = {0, 0};
    static const uint8_t no_codes[1] = {0};
    const size_t n = m->vars, r = m->rows, t = m->terms;
    /* no count may pass what a slice can have; the table's second row then says so */
    if (n > PRESOLVE_MAX_VARS || r > PRESOLVE_MAX_ROWS || t > PRESOLVE_MAX_TERMS) return PRESOLVE_TOO_MANY;
    return suedeonyx_check_plan(
        m->objective ? m->objective : no_floats, n, m->lower ? m->lower : no_floats, n, m->upper ? m->upper : no_floats, n,
        m->domain ? m->domain : no_codes, n, m->starts ? m->starts : no_numbers, r + 1, m->index ? m->index : no_numbers, t,
        m->coeff ? m->coeff : no_floats, t, m->cmp ? m->cmp : no_codes, r, m->rhs ? m->rhs : no_floats, r, m->mode, m->feasibility,
        m->int_tol, plan ? plan : no_floats, n, place, excursion);
}

/* What a plan breaks, by what the check returned. */
static inline const char *presolve_plan_words(int code) {
    switch (code) {
    case PRESOLVE_PLAN_HOLDS: return "all hold";
    case PRESOLVE_PLAN_LOWER: return "below a lower bound";
    case PRESOLVE_PLAN_UPPER: return "above an upper bound";
    case PRESOLVE_PLAN_NOT_WHOLE: return "not a whole number";
    case PRESOLVE_PLAN_ROW: return "a row is missed";
    default: return presolve_words(code);
    }
}

/* The lengths that a call of presolve.h itself has, in its order. */
typedef struct presolve_lengths {
    size_t obj, lower, upper, domain, starts, index, coeff, cmp, rhs;
    size_t out_lower, out_upper, emit_row, emit_rewritten, emit_rhs, emit_from, emit_upto, kept, term_index, term_coeff;
    size_t floats, numbers, adjacency, answer;
} presolve_lengths;

/* The first slice whose length is wrong, by its name: after refusal 1 one of the model, after refusal 10 one that was lent. Null if
 * there is none. */
static inline const char *presolve_wrong_slice(const presolve_lengths *s) {
    const size_t n = s->obj, r = s->cmp, t = s->index;
    if (s->lower != n) return "lower";
    if (s->upper != n) return "upper";
    if (s->domain != n) return "domain";
    if (s->starts != r + 1) return "starts";
    if (s->coeff != t) return "coeff";
    if (s->rhs != r) return "rhs";
    if (s->out_lower < n) return "out_lower";
    if (s->out_upper < n) return "out_upper";
    if (s->emit_row < r) return "emit_row";
    if (s->emit_rewritten < r) return "emit_rewritten";
    if (s->emit_rhs < r) return "emit_rhs";
    if (s->emit_from < r) return "emit_from";
    if (s->emit_upto < r) return "emit_upto";
    if (s->kept < r) return "kept";
    if (s->term_index < t) return "term_index";
    if (s->term_coeff < t) return "term_coeff";
    if (s->floats < PRESOLVE_FLOATS(n, r, t)) return "floats";
    if (s->numbers < PRESOLVE_NUMBERS(n, r, t)) return "numbers";
    if (s->adjacency < PRESOLVE_ADJACENCY(n, r, t)) return "adjacency";
    if (s->answer < PRESOLVE_ANSWER) return "answer";
    return NULL;
}

#ifdef __cplusplus
}
#endif

#endif
