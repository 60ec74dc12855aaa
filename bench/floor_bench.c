// Times floor and ceil of the crate floats beside the C library's, on the same numbers in one run.
// Each figure is the median of 101 passes over 131,072 numbers, in nanoseconds a call. Every call goes
// through a pointer that the compiler cannot see through, so that both sides pay one call and
// neither is made a single instruction. The numbers do not repeat within a pass, so that no branch
// is learnt by heart. It also compares every result: a zero is plus zero here, where the C library's has
// the sign of the number; such zeros are counted, and no other result may differ in any bit.
//
// Crate floats_c exports the two:
//     tools/staticlib floats_c
//     gcc -O3 bench/floor_bench.c target/staticlib/libfloats_c.a -lm -o target/floor_bench && target/floor_bench
#include <math.h>
#include <stdint.h>
#include <stdio.h>
#include <stdlib.h>
#include <string.h>
#include <time.h>

double rt_floor(double);
double rt_ceil(double);

enum { N = 1 << 17, PASSES = 101 };
static double in[N], out[N];

static double now(void) {
    struct timespec t;
    clock_gettime(CLOCK_MONOTONIC, &t);
    return t.tv_sec * 1e9 + t.tv_nsec;
}

static int by_size(const void *a, const void *b) {
    double x = *(const double *)a, y = *(const double *)b;
    return (x > y) - (x < y);
}

static double once(double (*f)(double)) {
    double start = now();
    for (int i = 0; i < N; i++) out[i] = f(in[i]);
    return (now() - start) / N;
}

static void medians(double (*f)(double), double (*g)(double), double *a, double *b) {
    static double p[PASSES], q[PASSES];
    for (int i = 0; i < PASSES; i++) {
        p[i] = once(f);
        q[i] = once(g);
    }
    qsort(p, PASSES, sizeof *p, by_size);
    qsort(q, PASSES, sizeof *q, by_size);
    *a = p[PASSES / 2];
    *b = q[PASSES / 2];
}

static uint64_t seed = 88172645463325252u;
static uint64_t next(void) {
    seed ^= seed << 13;
    seed ^= seed >> 7;
    seed ^= seed << 17;
    return seed;
}

static double unit(void) { return (double)(next() >> 11) * 0x1p-53; }

static void fill(int kind) {
    for (int i = 0; i < N; i++) {
        if (kind == 0) in[i] = unit() * 1e6;                     // positive
        if (kind == 1) in[i] = (unit() - 0.5) * 2e6;             // of both signs
        if (kind == 2) in[i] = (double)(int64_t)(unit() * 1e6) - 5e5; // whole
        if (kind == 3) {                                         // any pattern but NaN
            uint64_t b;
            double x;
            do { b = next(); memcpy(&x, &b, 8); } while (x != x);
            in[i] = x;
        }
    }
}

static int same(double x, double y) {
    uint64_t a, b;
    memcpy(&a, &x, 8);
    memcpy(&b, &y, 8);
    return a == b;
}

static long zeros, wrong;

// The C library's result and the crate's. Plus zero added makes plus zero of minus zero, and leaves every
// other float as it is.
static void compare(double lib, double rt) {
    wrong += !same(lib + 0.0, rt);
    zeros += lib == 0 && rt == 0 && !same(lib, rt);
}

int main(void) {
    double (*volatile lf)(double) = floor, (*volatile lc)(double) = ceil;
    double (*volatile rf)(double) = rt_floor, (*volatile rc)(double) = rt_ceil;
    static const char *name[] = {"positive", "mixed signs", "whole", "any pattern"};
    for (int k = 0; k < 4; k++) {
        fill(k);
        for (int i = 0; i < N; i++) {
            compare(lf(in[i]), rf(in[i]));
            compare(lc(in[i]), rc(in[i]));
        }
        double a, b;
        medians(lf, rf, &a, &b);
        printf("%-12s floor libm %.2f ns  rt %.2f ns  ratio %.2f\n", name[k], a, b, b / a);
        medians(lc, rc, &a, &b);
        printf("%-12s ceil  libm %.2f ns  rt %.2f ns  ratio %.2f\n", name[k], a, b, b / a);
    }
    printf("zeros of another sign: %ld; other results that differ: %ld\n", zeros, wrong);
    return wrong != 0;
}
