/* Measures the poles of the Chebyshev designs against long double mathematics, in three ways: with sinh(a) by exp alone, which
   is 01's rule; as they are, with sinh by 02's Q-4; and as they would be if a itself were the double nearest to the
   mathematical a. A pole's parts are worked out here as 001 (chebyshev.rs) does, over the port's elementary functions, and
   compared with the same formulas in long double, from the decibels on. Designs whose a is 1 or above, which the two rules of
   sinh do not tell apart, are left out. Usage: poles [each]. By default it prints a table over designs of every order and many
   decibels; with `each` a line for each design of a few decibels. */
#include <math.h>
#include <stdint.h>
#include <stdio.h>
#include <string.h>

double recorder_elementary(uint64_t function, double x);
enum { SQRT = 0, SIN = 3, COS, TAN, EXP, POW10, LN, SINH, COSH, ARCSINH };
enum { BY_EXP = 0, NOW, NEAREST_A, WAYS };
enum { A = 0, SINH_A, REAL, IMAGINARY, ROWS };
enum { ORDERS = 8, FEW = 8 };
static const char *const TYPES[] = {"type I", "type II"}, *const NAMES[ROWS] = {"a", "sinh(a)", "real", "imaginary"};
static const double PI = 3.141592653589793;
static const long double PI_LONG = 3.14159265358979323846264338327950288L;
static const double DECIBELS[][FEW] = {{0.1, 0.5, 1, 2, 3, 6, 40, 60}, {0.1, 0.5, 1, 3, 10, 20, 40, 60}};

static double call(int function, double x) { return recorder_elementary((uint64_t)function, x); }
static uint64_t bits(double x) { uint64_t b; memcpy(&b, &x, 8); return b; }

/* how far x is from y, in units of the last place of a double as large as y */
static double error(double x, long double y) {
    int e;
    frexpl(y, &e);
    return (double)(fabsl(x - y) / ldexpl(1.0L, e - 53));
}

/* a design's type, counted from 0, order and decibels; a, sinh(a) and cosh(a) in each way; a in long double */
struct design { int type, order; double decibels, a[WAYS], sinh_a[WAYS], cosh_a[WAYS]; long double long_a; };

static struct design design_of(int type, int order, double decibels) {
    double epsilon = call(SQRT, call(POW10, decibels / 10.0) - 1.0);
    long double long_epsilon = sqrtl(expm1l((long double)decibels / 10 * logl(10.0L)));
    struct design d = {.type = type, .order = order, .decibels = decibels};
    d.long_a = asinhl(type == 0 ? 1 / long_epsilon : long_epsilon) / order;
    d.a[BY_EXP] = d.a[NOW] = call(ARCSINH, type == 0 ? 1.0 / epsilon : epsilon) / order;
    d.a[NEAREST_A] = (double)d.long_a;
    for (int way = 0; way < WAYS; way++) {
        d.sinh_a[way] = way == BY_EXP ? (call(EXP, d.a[way]) - call(EXP, -d.a[way])) * 0.5 : call(SINH, d.a[way]);
        d.cosh_a[way] = call(COSH, d.a[way]);
    }
    return d;
}

/* the real and the imaginary part of pole m in one of the ways; the real pole of an odd order is the one in the middle */
static void pole(const struct design *d, int m, int way, double *part) {
    double theta = PI * (2 * m + 1) / (2.0 * d->order);
    double sigma = -d->sinh_a[way] * call(SIN, theta), omega = d->cosh_a[way] * call(COS, theta), size = sigma * sigma + omega * omega;
    if (2 * m + 1 == d->order) {
        part[0] = d->type == 0 ? -d->sinh_a[way] : -1.0 / d->sinh_a[way];
        part[1] = 0;
    } else {
        part[0] = d->type == 0 ? sigma : sigma / size;
        part[1] = d->type == 0 ? omega : -omega / size;
    }
}
static void long_pole(const struct design *d, int m, long double *part) {
    long double theta = PI_LONG * (2 * m + 1) / (2 * d->order);
    long double sigma = -sinhl(d->long_a) * sinl(theta), omega = coshl(d->long_a) * cosl(theta);
    long double size = d->type == 0 ? 1 : sigma * sigma + omega * omega;
    part[0] = sigma / size;
    part[1] = (d->type == 0 ? omega : -omega) / size;
}

/* what was found of a number: how far it is off in each way, and how often it is nearer now than by exp */
struct found { double largest[WAYS], sum[WAYS]; long nearer, farther, same; };

static void add(struct found *f, const double *errors) {
    for (int way = 0; way < WAYS; way++) {
        f->largest[way] = fmax(f->largest[way], errors[way]);
        f->sum[way] += errors[way];
    }
    f->nearer += errors[NOW] < errors[BY_EXP];
    f->farther += errors[NOW] > errors[BY_EXP];
    f->same += errors[NOW] == errors[BY_EXP];
}

static void measure(const struct design *d, struct found *found) {
    double errors[ROWS][WAYS];
    for (int way = 0; way < WAYS; way++) {
        errors[A][way] = error(d->a[way], d->long_a);
        errors[SINH_A][way] = error(d->sinh_a[way], sinhl(d->a[way]));
    }
    add(&found[A], errors[A]);
    add(&found[SINH_A], errors[SINH_A]);
    for (int m = 0; 2 * m < d->order; m++) {
        double part[2];
        long double exact[2];
        long_pole(d, m, exact);
        for (int way = 0; way < WAYS; way++) {
            pole(d, m, way, part);
            for (int i = 0; i < 2; i++) errors[REAL + i][way] = error(part[i], exact[i]);
        }
        add(&found[REAL], errors[REAL]);
        if (2 * m + 1 < d->order) add(&found[IMAGINARY], errors[IMAGINARY]);
    }
}

static void print_table(int type, const struct found *found) {
    for (int row = 0; row < ROWS; row++) {
        const struct found *f = &found[row];
        long n = f->nearer + f->farther + f->same;
        printf("%-8s %-10s %6ld", TYPES[type], NAMES[row], n);
        for (int way = 0; way < WAYS; way++) printf(" %9.2f", f->largest[way]);
        for (int way = 0; way < WAYS; way++) printf(" %9.3f", f->sum[way] / (double)n);
        printf(" %8ld %8ld %8ld\n", f->nearer, f->farther, f->same);
    }
}

static void print_design(const struct design *d) {
    struct found found[ROWS] = {{{0}, {0}, 0, 0, 0}};
    measure(d, found);
    printf("%s, order %d, %g dB, a %.4f, off by %.2f: sinh(a) by exp %016llX, off by %.2f, now %016llX, off by %.2f; poles off by up to %.2f, now %.2f\n",
           TYPES[d->type], d->order, d->decibels, d->a[NOW], found[A].largest[NOW], (unsigned long long)bits(d->sinh_a[BY_EXP]),
           found[SINH_A].largest[BY_EXP], (unsigned long long)bits(d->sinh_a[NOW]), found[SINH_A].largest[NOW],
           fmax(found[REAL].largest[BY_EXP], found[IMAGINARY].largest[BY_EXP]), fmax(found[REAL].largest[NOW], found[IMAGINARY].largest[NOW]));
}

/* type I from 0.01 to 6 dB by 0.01, type II from 0.1 to 100 dB by 0.1 */
static void tabulate(int type) {
    struct found found[ROWS] = {{{0}, {0}, 0, 0, 0}};
    int count = type == 0 ? 600 : 1000;
    double unit = type == 0 ? 100 : 10;
    for (int order = 1; order <= ORDERS; order++)
        for (int i = 1; i <= count; i++) {
            struct design d = design_of(type, order, i / unit);
            if (d.a[NOW] < 1) measure(&d, found);
        }
    print_table(type, found);
}

static void list(int type) {
    for (int i = 0; i < FEW; i++)
        for (int order = 1; order <= ORDERS; order++) {
            struct design d = design_of(type, order, DECIBELS[type][i]);
            if (d.a[NOW] < 1) print_design(&d);
        }
}

int main(int argc, char **argv) {
    int each = argc == 2 && strcmp(argv[1], "each") == 0;
    if (argc > 1 && !each) {
        fprintf(stderr, "usage: poles [each]\n");
        return 2;
    }
    if (!each) {
        printf("%-26s %29s %29s %26s\n", "", "largest, in ulp", "mean, in ulp", "now, against by exp");
        printf("%-19s %6s %9s %9s %9s %9s %9s %9s %8s %8s %8s\n", "Chebyshev", "number", "by exp", "now", "nearest a", "by exp", "now", "nearest a",
               "nearer", "farther", "same");
    }
    for (int type = 0; type < 2; type++)
        if (each) list(type);
        else tabulate(type);
    return 0;
}
