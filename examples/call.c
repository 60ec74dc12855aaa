/* Presolves 3u + w <= 10, u yes or no, w a whole number from 0 to 8, and prints the answer. Then u + w <= 8, whose row is
 * emitted as written, the first call again with an answer slice that is too short, and u + w >= 10.
 *
 *     tools/staticlib presolve_c
 *     cc -O2 -I include examples/call.c target/staticlib/libpresolve_c.a -o target/call && target/call
 *
 * prints what examples/call.out holds.
 */
#include <presolve.h>
#include <stdio.h>
#include <string.h>

enum { VARS = 2, ROWS = 1, TERMS = 2 };

/* The row's terms. */
static const size_t row_index[TERMS] = {0, 1};
static double row_coeff[TERMS];

/* Lent to every call. They may hold anything. */
static double out_lower[VARS], out_upper[VARS], emit_rhs[ROWS], term_coeff[TERMS];
static size_t emit_row[ROWS], emit_from[ROWS], emit_upto[ROWS], kept[ROWS], term_index[TERMS];
static uint8_t emit_rewritten[ROWS];
static double floats[PRESOLVE_FLOATS(VARS, ROWS, TERMS)];
static size_t numbers[PRESOLVE_NUMBERS(VARS, ROWS, TERMS)];
static size_t adjacency[PRESOLVE_ADJACENCY(VARS, ROWS, TERMS)];
static size_t answer[PRESOLVE_ANSWER];

static int call(double u, double w, uint8_t cmp, double rhs, size_t answer_len) {
    const double objective[VARS] = {0, 0}, lower[VARS] = {0, 0}, upper[VARS] = {1, 8};
    const uint8_t domain[VARS] = {PRESOLVE_BOOLEAN, PRESOLVE_INTEGER};
    const size_t starts[ROWS + 1] = {0, 2};
    row_coeff[0] = u;
    row_coeff[1] = w;
    return suedeonyx_presolve(objective, VARS, lower, VARS, upper, VARS, domain, VARS, starts, ROWS + 1, row_index, TERMS, row_coeff,
                              TERMS, &cmp, ROWS, &rhs, ROWS, PRESOLVE_MIP, 1e-6, 1e-9, out_lower, VARS, out_upper, VARS, emit_row,
                              ROWS, emit_rewritten, ROWS, emit_rhs, ROWS, emit_from, ROWS, emit_upto, ROWS, kept, ROWS, term_index,
                              TERMS, term_coeff, TERMS, floats, sizeof floats / sizeof *floats, numbers,
                              sizeof numbers / sizeof *numbers, adjacency, sizeof adjacency / sizeof *adjacency, answer, answer_len);
}

static void print_counts(void) {
    printf("counts %zu %zu %zu %zu %zu\n", answer[PRESOLVE_ROWS_DROPPED], answer[PRESOLVE_BOUNDS_TIGHTENED],
           answer[PRESOLVE_VARS_FIXED], answer[PRESOLVE_COEFFS_TIGHTENED], answer[PRESOLVE_PASSES]);
}

/* The emitted rows, each with its terms, read where they stand: a written row's in the model's slices. */
static void print_rows(void) {
    for (size_t i = 0; i < answer[PRESOLVE_EMITTED]; i++) {
        size_t start, count;
        int rewritten = suedeonyx_row_terms(row_index, TERMS, row_coeff, TERMS, term_index, TERMS, term_coeff, TERMS,
                                            emit_rewritten[i], emit_from[i], emit_upto[i], &start, &count);
        const size_t *vars = (rewritten ? term_index : row_index) + start;
        const double *coeffs = (rewritten ? term_coeff : row_coeff) + start;
        printf("emit %zu %s %.17g\n", emit_row[i], rewritten ? "rewritten" : "written", emit_rhs[i]);
        for (size_t t = 0; t < count; t++) printf("term %zu %.17g\n", vars[t], coeffs[t]);
    }
}

int main(void) {
    memset(floats, 0xff, sizeof floats);
    memset(numbers, 0xff, sizeof numbers);
    memset(emit_rewritten, 0xff, sizeof emit_rewritten);
    int code = call(3, 1, PRESOLVE_LE, 10, PRESOLVE_ANSWER);
    printf("3u + w <= 10: %d\n", code);
    print_counts();
    for (size_t v = 0; v < VARS; v++) printf("bound %zu %g %g\n", v, out_lower[v], out_upper[v]);
    print_rows();
    for (size_t i = 0; i < answer[PRESOLVE_KEPT]; i++) printf("validate %zu\n", kept[i]);
    printf("reduced %zu\n", answer[PRESOLVE_REDUCED]);
    printf("u + w <= 8: %d\n", call(1, 1, PRESOLVE_LE, 8, PRESOLVE_ANSWER));
    print_rows();
    printf("a short answer slice: refused %d\n", call(3, 1, PRESOLVE_LE, 10, PRESOLVE_ANSWER - 1));
    printf("u + w >= 10: %d\n", call(1, 1, PRESOLVE_GE, 10, PRESOLVE_ANSWER));
    print_counts();
    return 0;
}
