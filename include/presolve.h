/* Presolve of a linear or integer model: the proved static library libpresolve_c.a, for C and C++.
 *
 *     tools/staticlib presolve_c
 *     cc -I include program.c target/staticlib/libpresolve_c.a
 *
 * include/presolve_model.h has the same by structs, with words for what is returned; include/presolve.rs is for Rust. The
 * library allocates nothing, keeps nothing between calls and calls only memset. It runs on x86-64 Linux, where size_t has 64
 * bits, on processors of x86-64-v2 and later, and does not test which it is on. Codes and counts have the names of
 * src/problem.rs, src/expr.rs and src/presolve/model.rs of microlp 0.7.0, changed for C; NOTICE has its licence.
 *
 * Every slice is a pointer and a count of entries. The caller's duties, which no refusal checks:
 *   - a pointer is not null and is aligned for its entries, also where the count is 0;
 *   - that many entries can be read, and of a slice that is not const written;
 *   - no slice that is not const overlaps another slice.
 * All else is refused by number, whatever the entries are; what is lent may hold any bytes.
 */
#ifndef PRESOLVE_H
#define PRESOLVE_H

#include <stddef.h>
#include <stdint.h>

#ifdef __cplusplus
extern "C" {
#endif

/* Codes. */
enum { PRESOLVE_INTEGER = 0, PRESOLVE_REAL = 1, PRESOLVE_BOOLEAN = 2 };     /* domains */
enum { PRESOLVE_EQ = 0, PRESOLVE_LE = 1, PRESOLVE_GE = 2 };                 /* comparisons */
enum { PRESOLVE_LP = 0, PRESOLVE_MIP = 1, PRESOLVE_MIP_DUAL = 2 };          /* modes: the last with dual fixing */
enum { PRESOLVE_WRITTEN = 0, PRESOLVE_REWRITTEN = 1 };                      /* marks of emitted rows */

/* The largest counts, and how many terms one row may have. */
enum { PRESOLVE_MAX_VARS = 4096, PRESOLVE_MAX_ROWS = 8192, PRESOLVE_MAX_TERMS = 65536, PRESOLVE_MAX_ROW_TERMS = 256 };

/* How many entries the working slices need (docs/WORKSPACE.md), and the answer's slice. */
#define PRESOLVE_FLOATS(vars, rows, terms) (4 * (vars) + 8 * (rows) + (terms))
#define PRESOLVE_NUMBERS(vars, rows, terms) (3 * (vars) + 10 * (rows) + 2 * (terms) + 6)
#define PRESOLVE_ADJACENCY(vars, rows, terms) ((vars) + (terms) + 1)
#define PRESOLVE_ANSWER 9

/* What the call returns: 0, 100, or the number of a refusal; in the order of the table, of which the earliest row is given. */
enum {
    PRESOLVE_DONE = 0,
    PRESOLVE_LENGTHS_DISAGREE = 1,
    PRESOLVE_TOO_MANY = 2,
    PRESOLVE_BAD_STARTS = 3,
    PRESOLVE_BAD_INDEX = 4,
    PRESOLVE_LONG_ROW = 18,
    PRESOLVE_BAD_CODE = 5,
    PRESOLVE_BAD_BOUND = 6,
    PRESOLVE_NOT_FINITE = 7,
    PRESOLVE_BAD_RHS = 8,
    PRESOLVE_BAD_TOLERANCE = 9,
    PRESOLVE_TOO_SHORT = 10,
    PRESOLVE_INFEASIBLE = 100
};

/* What a check of a plan returns where it is not refused: that all hold, or the first thing that the plan breaks. */
enum {
    PRESOLVE_PLAN_HOLDS = 0,
    PRESOLVE_PLAN_LOWER = 101,
    PRESOLVE_PLAN_UPPER = 102,
    PRESOLVE_PLAN_NOT_WHOLE = 103,
    PRESOLVE_PLAN_ROW = 104
};

/* Places in the answer's slice: five counts, then how much of the result slices is used, then the flag. */
enum {
    PRESOLVE_ROWS_DROPPED = 0,
    PRESOLVE_BOUNDS_TIGHTENED = 1,
    PRESOLVE_VARS_FIXED = 2,
    PRESOLVE_COEFFS_TIGHTENED = 3,
    PRESOLVE_PASSES = 4,
    PRESOLVE_EMITTED = 5,
    PRESOLVE_TERMS = 6,
    PRESOLVE_KEPT = 7,
    PRESOLVE_REDUCED = 8
};

/* Presolves a model of n variables, r rows and t terms.
 *
 * The model:
 *   obj, lower, upper, domain         n entries each: objective, bounds, domain codes
 *   starts                            r + 1 entries: row k has the terms starts[k] up to starts[k + 1]
 *   index, coeff                      t entries each: a term's variable, rising within a row, and its coefficient
 *   cmp, rhs                          r entries each
 *   mode, feas, int_tol               a mode; both tolerances, feasibility and integrality, from 0 to 0.5
 *
 * The result, written at the front of the slices lent:
 *   out_lower, out_upper              n entries: the reduced bounds
 *   emit_row .. emit_upto             r entries, the first answer[5] used: an emitted row's number, its mark, 0 written or
 *                                     1 rewritten, its right side, and its terms' first place and the place after the last, in
 *                                     index and coeff, or, of a rewritten row, in term_index and term_coeff. A row keeps its
 *                                     comparison
 *   kept                              r entries, the first answer[7] used: rows that an answer is still to be checked against
 *   term_index, term_coeff            t entries, the first answer[6] used: terms of rewritten rows
 *   answer                            9 entries, as above; answer[8] is 1 if the model was reduced, else 0
 *
 * Working slices, whatever they hold: floats, numbers, adjacency (sizes above).
 *
 * Returns 0: done. 100: the model is infeasible; answer[0] to answer[4] hold the counts reached, and no result slice is
 * written. 1 to 99: the call is refused, by the earliest row of the table that applies, and nothing is written, in answer
 * neither; 10, the last row, where a result slice, a working slice or answer is too short. After 0 and 100 the working slices
 * hold zeros over their whole length. Entries past the used front of a slice are never written.
 */
uint8_t suedeonyx_presolve(
    const double *obj, size_t obj_len,
    const double *lower, size_t lower_len,
    const double *upper, size_t upper_len,
    const uint8_t *domain, size_t domain_len,
    const size_t *starts, size_t starts_len,
    const size_t *index, size_t index_len,
    const double *coeff, size_t coeff_len,
    const uint8_t *cmp, size_t cmp_len,
    const double *rhs, size_t rhs_len,
    uint8_t mode, double feas, double int_tol,
    double *out_lower, size_t out_lower_len,
    double *out_upper, size_t out_upper_len,
    size_t *emit_row, size_t emit_row_len,
    uint8_t *emit_rewritten, size_t emit_rewritten_len,
    double *emit_rhs, size_t emit_rhs_len,
    size_t *emit_from, size_t emit_from_len,
    size_t *emit_upto, size_t emit_upto_len,
    size_t *kept, size_t kept_len,
    size_t *term_index, size_t term_index_len,
    double *term_coeff, size_t term_coeff_len,
    double *floats, size_t floats_len,
    size_t *numbers, size_t numbers_len,
    size_t *adjacency, size_t adjacency_len,
    size_t *answer, size_t answer_len);

/* Where the terms of an emitted row stand, by its mark and span: emit_rewritten[i], emit_from[i] and emit_upto[i] after a call
 * that returned 0. index and coeff are the model's, term_index and term_coeff those that the call wrote; nothing is copied.
 *
 * Returns PRESOLVE_REWRITTEN where the terms stand in term_index and term_coeff, PRESOLVE_WRITTEN where in index and coeff.
 * *count says how many there are, *start the place of the first: it and those after it are in both slices, whatever mark, from
 * and upto are (no terms stand at place 0), so the two pointers
 *
 *     (returned ? term_index : index) + start, (returned ? term_coeff : coeff) + start
 *
 * and count are the row, as a solver takes it. start and count are each lent as a slice of one entry.
 */
uint8_t suedeonyx_row_terms(
    const size_t *index, size_t index_len,
    const double *coeff, size_t coeff_len,
    const size_t *term_index, size_t term_index_len,
    const double *term_coeff, size_t term_coeff_len,
    uint8_t mark, size_t from, size_t upto,
    size_t *start, size_t *count);

/* Whether a plan is good: one value for each variable of a model, given as for suedeonyx_presolve. Nothing is asked of the plan but
 * its length and that its values are finite.
 *
 * Returns PRESOLVE_PLAN_HOLDS where the plan breaks nothing, else the first thing that it breaks: a bound, variable by variable and
 * lower before upper (PRESOLVE_PLAN_LOWER, PRESOLVE_PLAN_UPPER); then a value that is not within int_tol of the nearest whole number, of
 * two the lower, where one is needed (PRESOLVE_PLAN_NOT_WHOLE: Integer and Boolean, in both modes of Mip); then a row
 * (PRESOLVE_PLAN_ROW). *place is that variable or row, 0 where all hold. *excursion is the largest by which any row is missed, 0 where
 * none is: over all rows, a bound or a value being told too, and +infinity where a row's sum is not finite. Bounds and rows are held to
 * the tolerances that presolve has for them.
 *
 * Returns 1 to 99 where the call is refused, and writes neither: by the table's earliest row that applies, where 1 is given of a plan
 * of another length too, 7 of a value that is not finite too, and 10 never. place and excursion are each lent as a slice of one
 * entry.
 */
uint8_t suedeonyx_check_plan(
    const double *obj, size_t obj_len,
    const double *lower, size_t lower_len,
    const double *upper, size_t upper_len,
    const uint8_t *domain, size_t domain_len,
    const size_t *starts, size_t starts_len,
    const size_t *index, size_t index_len,
    const double *coeff, size_t coeff_len,
    const uint8_t *cmp, size_t cmp_len,
    const double *rhs, size_t rhs_len,
    uint8_t mode, double feas, double int_tol,
    const double *plan, size_t plan_len,
    size_t *place, double *excursion);

#ifdef __cplusplus
}
#endif

#endif
