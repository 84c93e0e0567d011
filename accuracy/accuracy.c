/* Measures the elementary functions against the C library: for each, the largest error in units
   of the last place (ulp) over random inputs, against the C library's long double result, which has 64 digits, and the
   largest distance to the C library's double result. The square root is compared with the machine's and must agree at
   every input. Usage: accuracy COUNT SEED */
#include <math.h>
#include <stdint.h>
#include <stdio.h>
#include <stdlib.h>
#include <string.h>

double recorder_elementary(uint64_t function, double x);
enum { SQRT = 0, SIN = 3, COS, TAN, EXP, POW10, LN, SINH, COSH, ARCSINH, SINH_BY_EXP };

/* a function by its number; SINH_BY_EXP is sinh by 01's rule everywhere, in place of 02's Q-4 below 1 */
static double ours(uint64_t function, double x) {
    if (function == SINH_BY_EXP) return (recorder_elementary(EXP, x) - recorder_elementary(EXP, -x)) * 0.5;
    return recorder_elementary(function, x);
}
static long double power_of_ten(long double y) { return powl(10.0L, y); }
static double power_of_ten_double(double y) { return pow(10.0, y); }

static uint64_t state;
static uint64_t dice(void) { /* splitmix64 */
    uint64_t z = (state += 0x9e3779b97f4a7c15u);
    z = (z ^ (z >> 30)) * 0xbf58476d1ce4e5b9u;
    z = (z ^ (z >> 27)) * 0x94d049bb133111ebu;
    return z ^ (z >> 31);
}
static double of_bits(uint64_t b) { double x; memcpy(&x, &b, 8); return x; }
static uint64_t bits(double x) { uint64_t b; memcpy(&b, &x, 8); return b; }
static double between(double low, double high) { return low + (high - low) * ((dice() >> 11) * 0x1p-53); }

/* the unit of the last place of a double as large as y */
static long double unit(long double y) {
    int e;
    frexpl(y, &e);
    return ldexpl(1.0L, (e - 53 < -1074) ? -1074 : e - 53);
}
/* how many doubles lie between a and b */
static uint64_t apart(double a, double b) {
    int64_t x = (int64_t)bits(a), y = (int64_t)bits(b);
    if (x < 0) x = INT64_MIN - x;
    if (y < 0) y = INT64_MIN - y;
    return x > y ? (uint64_t)(x - y) : (uint64_t)(y - x);
}

struct row { const char *name; uint64_t ours; long double (*exact)(long double); double (*library)(double); double low, high; };

int main(int argc, char **argv) {
    long count = argc > 1 ? atol(argv[1]) : 1000000;
    state = argc > 2 ? strtoull(argv[2], 0, 10) : 1;
    const struct row rows[] = {
        {"sin, |x| to 128", SIN, sinl, sin, -128, 128},
        {"sin, |x| to 3.2", SIN, sinl, sin, -3.2, 3.2},
        {"cos, |x| to 128", COS, cosl, cos, -128, 128},
        {"cos, |x| to 3.2", COS, cosl, cos, -3.2, 3.2},
        {"tan, 0 to 1.57", TAN, tanl, tan, 0, 1.57},
        {"exp, -708 to 709", EXP, expl, exp, -708, 709},
        {"exp, -1 to 1", EXP, expl, exp, -1, 1},
        {"pow10, -300 to 300", POW10, power_of_ten, power_of_ten_double, -300, 300},
        {"pow10, -10 to 10", POW10, power_of_ten, power_of_ten_double, -10, 10},
        {"sinh, 0.001 to 1", SINH, sinhl, sinh, 0.001, 1},
        {"  by exp alone", SINH_BY_EXP, sinhl, sinh, 0.001, 1},
        {"sinh, 1 to 20", SINH, sinhl, sinh, 1, 20},
        {"cosh, -20 to 20", COSH, coshl, cosh, -20, 20},
        {"arcsinh, 0.1 to 1000", ARCSINH, asinhl, asinh, 0.1, 1000},
        {"ln, 0.5 to 2", LN, logl, log, 0.5, 2},
    };
    printf("%ld random inputs a row, seed %s\n", count, argc > 2 ? argv[2] : "1");
    printf("%-24s %14s %20s\n", "function", "error in ulp", "apart from double");
    for (unsigned r = 0; r < sizeof rows / sizeof *rows; r++) {
        long double worst = 0;
        double at = 0;
        uint64_t far = 0;
        for (long i = 0; i < count; i++) {
            double x = between(rows[r].low, rows[r].high), y = ours(rows[r].ours, x);
            long double e = rows[r].exact(x), d = fabsl(y - e) / unit(e);
            uint64_t a = apart(y, rows[r].library(x));
            if (d > worst) worst = d, at = x;
            if (a > far) far = a;
        }
        printf("%-24s %14.3Lf %20llu   at %016llX\n", rows[r].name, worst, (unsigned long long)far, (unsigned long long)bits(at));
    }
    long double worst = 0;
    uint64_t differ = 0, at = 0;
    for (long i = 0; i < count; i++) { /* every finite pattern above zero alike */
        double x = of_bits(1 + dice() % (0x7ff0000000000000u - 1)), y = recorder_elementary(LN, x);
        long double e = logl(x), d = fabsl(y - e) / unit(e);
        if (d > worst) worst = d, at = bits(x);
    }
    printf("%-24s %14.3Lf %20s   at %016llX\n", "ln, every exponent", worst, "", (unsigned long long)at);
    for (long i = 0; i < count; i++) { /* every pattern alike, NaN and negative ones too */
        double x = of_bits(dice()), y = recorder_elementary(SQRT, x), e = sqrt(x);
        if (bits(y) != bits(e) && !(y != y && e != e)) differ++;
    }
    printf("%-24s %14llu differ\n", "sqrt, every pattern", (unsigned long long)differ);
    return differ != 0;
}
