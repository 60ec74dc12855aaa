/* Presolves 3u + w <= 10, u yes or no, w a whole number from 0 to 8, by the structs of presolve_model.h, and prints the reduced
 * model. Then what is infeasible, what is refused, and whether plans are good.
 *
 *     tools/staticlib presolve_c
 *     cc -O2 -I include examples/model.c target/staticlib/libpresolve_c.a -o target/model && target/model
 *
 * prints what examples/model.out holds.
 */
#include <presolve_model.h>
#include <stdio.h>

enum { VARS = 2, ROWS = 1, TERMS = 2 };

static unsigned char buffer[PRESOLVE_BYTES(VARS, ROWS, TERMS)];

static void show(const char *name, const presolve_model *m, size_t bytes) {
    presolve_result result;
    int code = presolve_run(m, buffer, bytes, &result);
    printf("%s: %d, %s\n", name, code, presolve_words(code));
    if (code != PRESOLVE_DONE) return;
    for (size_t v = 0; v < m->vars; v++) printf("  variable %zu from %g to %g\n", v, result.lower[v] + 0, result.upper[v]);
    for (size_t i = 0; i < result.emitted; i++) {
        const size_t *index;
        const double *coeff;
        size_t count = presolve_terms(m, &result, i, &index, &coeff);
        printf("  row %zu%s:", result.row[i], result.rewritten[i] ? ", rewritten" : "");
        for (size_t t = 0; t < count; t++) printf(" %+.17g x%zu", coeff[t], index[t]);
        printf(", right side %.17g\n", result.rhs[i]);
    }
    for (size_t i = 0; i < result.kept; i++) printf("  row %zu is to be checked as it was written\n", result.kept_row[i]);
}

static void check(const char *name, const presolve_model *m, const double *plan) {
    size_t place = 0;
    double excursion = 0;
    int code = presolve_check(m, plan, &place, &excursion);
    printf("%s: %d, %s", name, code, presolve_plan_words(code));
    if (code == PRESOLVE_PLAN_HOLDS || code >= PRESOLVE_PLAN_LOWER) printf(", place %zu, excursion %g", place, excursion);
    printf("\n");
}

int main(void) {
    const double objective[VARS] = {0, 0}, lower[VARS] = {0, 0}, upper[VARS] = {1, 8}, coeff[TERMS] = {3, 1}, rhs[ROWS] = {10};
    const uint8_t domain[VARS] = {PRESOLVE_BOOLEAN, PRESOLVE_INTEGER}, cmp[ROWS] = {PRESOLVE_LE};
    const size_t starts[ROWS + 1] = {0, 2}, index[TERMS] = {0, 1};
    presolve_model m = {VARS, ROWS, TERMS, objective, lower, upper, domain, starts, index, coeff, cmp, rhs, PRESOLVE_MIP, 1e-6, 1e-9};
    printf("presolve %s\n", PRESOLVE_VERSION);
    show("3u + w <= 10", &m, sizeof buffer);

    const double most[ROWS] = {12};
    const uint8_t at_least[ROWS] = {PRESOLVE_GE};
    presolve_model none = m;
    none.rhs = most, none.cmp = at_least;
    show("3u + w >= 12", &none, sizeof buffer);

    static double zeros[257], ones[257];
    static uint8_t boolean[257];
    static size_t all[257];
    for (size_t k = 0; k < 257; k++) ones[k] = 1, boolean[k] = PRESOLVE_BOOLEAN, all[k] = k;
    const size_t one_row[ROWS + 1] = {0, 257};
    presolve_model row = {257, ROWS, 257, zeros, zeros, ones, boolean, one_row, all, ones, cmp, rhs, PRESOLVE_MIP, 1e-6, 1e-9};
    show("a row of 257 terms, in a buffer for 2", &row, sizeof buffer);

    presolve_model wrong = m;
    wrong.int_tol = 0.51;
    show("int_tol 0.51", &wrong, sizeof buffer);
    show("int_tol 0.51 and a buffer one byte short", &wrong, sizeof buffer - 1);
    show("a buffer one byte short", &m, sizeof buffer - 1);
    wrong.vars = (size_t)-1;
    show("more variables than there are numbers", &wrong, sizeof buffer);

    presolve_model empty = {0};
    show("nothing at all", &empty, sizeof buffer);

    check("3u + w <= 10, u 1 and w 7", &m, (const double[VARS]){1, 7});
    check("u 1 and w 8", &m, (const double[VARS]){1, 8});
    check("u 1 and w 9", &m, (const double[VARS]){1, 9});
    check("u a half", &m, (const double[VARS]){0.5, 8});
    wrong.vars = VARS;
    check("int_tol 0.51", &wrong, (const double[VARS]){1, 7});

    presolve_lengths lengths = {2, 2, 2, 2, 2, 2, 2, 1, 1, 2, 2, 1, 1, 1, 1, 1, 1, 2, 2, 18, 26, 5, 9};
    printf("wrong slice: %s\n", presolve_wrong_slice(&lengths) ? presolve_wrong_slice(&lengths) : "none");
    lengths.numbers--;
    printf("wrong slice: %s\n", presolve_wrong_slice(&lengths));
    lengths.rhs = 0;
    printf("wrong slice: %s\n", presolve_wrong_slice(&lengths));
    return 0;
}
