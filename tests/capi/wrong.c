/* Deliberately wrong archives, to see that the tests can fail: stands before the archive's functions (the linker's --wrap)
 * and spoils one thing, by the number in the environment variable WRONG; without it nothing is spoiled. tests/capi/run
 * links the tests with this too, and each number from 1 to WRONGS - 1 must make them fail. */
#include "pulse.h"
#include <float.h>
#include <math.h>
#include <stdlib.h>
#include <string.h>

/* What has a default and a raw form: the designs, and ready-made taps. */
enum form { LOW, HIGH, BAND, RIPPLE, STOPBAND, FIR, COEFFS, FORMS };
enum { BEFORES = 9 }; /* rows of the table `befores` */

enum wrong {
    NOTHING,
    STEP_LAST_BIT,          /* a cascade's answer is the next number */
    STEP_MARK_CLEAR,        /* a cascade's step is never Clouded */
    STEP_REFUSED_ANSWERS,   /* a refused step makes the answer 0 */
    BLOCK_FIRST_ONLY,       /* a block answers the first sample and copies the rest */
    BLOCK_COUNT,            /* a block counts all its answers Clouded */
    BLOCK_WRITES_BEHIND,    /* a block writes one place behind its answers */
    BLOCK_REFUSED_COUNTS,   /* a refused block makes the count 0 */
    BLOCK_SHORT_FIRST,      /* 5 before 11 */
    BLANK_PASSES,           /* a cascade without parts answers the sample itself */
    RESET_KEEPS_CLOUD,
    RESET_TAKES_BAD,        /* a reset of a bad cascade returns 0 */
    FLAG_TRUNCATED,         /* flags are taken modulo 256 */
    COUNT_TRUNCATED,        /* the section count is taken modulo 2^32 */
    LENGTH_IGNORED,         /* a longer `numbers` is accepted */
    LOW_IS_HIGH,            /* the low pass is the high pass */
    HIGH_IS_LOW,            /* the high pass is the low pass */
    HIGH_ORDER_9,           /* a high pass of order 9 is taken as of order 8 */
    TYPE_ONE_IS_TWO,        /* Chebyshev I is Chebyshev II */
    RATE_AFTER_CUTOFF,      /* 2 before 3 */
    REFUSED_BLANKS,         /* a refused design writes the blank record */
    UNUSED_IDENTITY,        /* unused sections of a design have b0 = 1, as in the Rust */
    BAND_SWAPPED,           /* the first two sections of a band pass are swapped */
    BAND_RATE_FIRST,        /* 3 before 2 in a band pass */
    RIPPLE_FIRST,           /* 4 before 1 */
    STOPBAND_LAST_BIT,      /* a coefficient of Chebyshev II is the next number */
    DESIGN_KEEPS_CLOUD,
    FIR_WINDOW_CODE,        /* the window code of a design is 4 */
    FIR_WINDOW_4,           /* window code 4 is taken as 0 */
    FIR_TAP_LAST_BIT,       /* tap 0 of a design is the next number */
    COEFFS_64,              /* 64 ready-made taps are refused */
    COEFFS_KEEP_BEHIND,     /* places behind ready-made taps keep what they held */
    FIR_HELD_STAYS,         /* the held count stays */
    FIR_MOVES_HELD_ONLY,    /* a step leaves the places behind the held samples */
    FIR_MARK_OWN,           /* a step is Clouded by its own sample only */
    FIR_STAYS_CLOUDED,      /* a FIR's steps are Clouded until the reset */
    FIR_BLOCK_COUNT_OWN,    /* a block counts its own samples that are not finite */
    FIR_BLOCK_SHORT_FIRST,  /* 5 before 12 */
    FIR_BLOCK_SHORT_WRITES, /* a short output gets what fits */
    FIR_BLOCK_RESETS,       /* a block starts from no held sample */
    FIR_RESET_KEEPS,        /* a reset leaves the samples */
    FIR_RESET_CODE,         /* a reset makes the window code 0 */
    WINDOW_5,               /* a record with window code 5 is accepted */
    HELD_ABOVE,             /* a held count above the length is taken as the length */
    /* Blocks in place of a cascade, and the same of a FIR. */
    CASCADE_FIRST_PART,     /* answers the first 256 places alone */
    CASCADE_LAST_COUNT,     /* counts the answers from the last multiple of 256 on */
    CASCADE_REFUSED_WRITES, /* a refused call writes the buffer */
    CASCADE_STATE_STAYS,    /* the state is as before the call */
    CASCADE_FORGETS,        /* every 256 places starts from no sample */
    FIR_FIRST_PART,
    FIR_LAST_COUNT,
    FIR_REFUSED_WRITES,
    FIR_STATE_STAYS,
    FIR_FORGETS,
    /* Whole pulses. */
    J211_FORWARD_ONLY,      /* no backward pass */
    J211_FORWARD_TWICE,     /* the backward pass runs forward */
    J211_BACKWARD_FIRST,    /* the backward pass comes first */
    J211_HISTORY_KEPT,      /* the backward pass goes on from the history of the forward one */
    J211_LAST_PLACE,        /* the last place is left out */
    J211_FIRST_PART,        /* answers the first 256 places alone */
    J211_WRITES_BEHIND,     /* writes one place behind the buffer */
    J211_LAST_BIT,          /* one answer is the next number */
    J211_DROPOUT_ZERO,      /* a NaN is taken as 0 */
    J211_OTHER_CLASS,       /* class 600 is taken as class 180 */
    J211_CLASS_TRUNCATED,   /* the class is taken modulo 2^32 */
    J211_CLASS_LAST,        /* 3 and 2 before 21 */
    J211_LIMIT_FIRST,       /* 2 before 3 */
    J211_LIMIT_TAKEN,       /* the rate at the limit is accepted */
    J211_LIMIT_NEXT,        /* the rate next to the limit is refused */
    J211_NAN_RATE,          /* a rate that is a NaN is refused by 2 */
    J211_INFINITE_RATE,     /* an infinite rate is refused by 3 */
    J211_REFUSED_WRITES,    /* a refused call makes the first place 0 */
    /* Default and raw forms, 02's Q-3. These of each function in turn, as `enum form` has them: */
    DEFAULT_ACCEPTS,        /* 25 is never returned */
    DEFAULT_WRITES = DEFAULT_ACCEPTS + FORMS, /* a refusal by 25 writes what the raw form makes */
    DEFAULT_EARLY = DEFAULT_WRITES + FORMS, /* 25 before 13 */
    DEFAULT_HELD = DEFAULT_EARLY + FORMS, /* 25 by a carried value, or a tap behind the length, that the state held before the call */
    RAW_REFUSES = DEFAULT_HELD + FORMS, /* the raw form refuses by 25 */
    RAW_REFUSED_WRITES = RAW_REFUSES + FORMS, /* a refused raw form makes the first place 0 */
    RAW_OTHER = RAW_REFUSED_WRITES + FORMS, /* the raw form is another design, or has other taps */
    RAW_LENGTH = RAW_OTHER + FORMS, /* the raw form accepts a longer `numbers` or `taps` */
    BEFORE = RAW_LENGTH + FORMS, /* 25 before another number, as the table `befores` has them */
    LOW_FIRST_UNSEEN = BEFORE + BEFORES, /* the first-order part is not looked at */
    HIGH_LAST_UNSEEN,       /* the last section is not looked at */
    BAND_TWO_SEEN,          /* sections from the third on are not looked at */
    BAND_A_UNSEEN,          /* a1 and a2 are not looked at */
    STOPBAND_FIRST_UNSEEN,  /* the first-order part is not looked at where there are sections */
    STOPBAND_SECTIONS_UNSEEN, /* sections are not looked at where there is a first-order part */
    COEFFS_INFINITY,        /* infinities are accepted */
    COEFFS_NEGATIVE,        /* the negative infinity is accepted */
    COEFFS_NAN,             /* NaNs are accepted */
    COEFFS_FIRST_SEEN,      /* the first tap alone is looked at */
    COEFFS_LAST_UNSEEN,     /* the last tap is not looked at */
    COEFFS_HALF_SEEN,       /* taps from the 33rd on are not looked at */
    COEFFS_LARGEST,         /* the largest number is refused by 25 */
    FIR_USELESS,            /* two Blackman taps are refused by 25 */
    FIR_SINGLE,             /* a single rectangular tap is refused by 25 */
    /* Channels of the rival recorder's blocks. */
    CHANNEL_HIGH_FIRST,     /* a code has its high byte first */
    CHANNEL_SAMPLES_HIGH_FIRST, /* the samples per channel have their high byte first */
    CHANNEL_SAMPLES_BYTE,   /* the samples per channel are their low byte alone */
    CHANNEL_UNSIGNED,       /* codes are unsigned */
    CHANNEL_APART,          /* the channels stand one after the other */
    CHANNEL_NEXT,           /* the channel is the next one */
    CHANNEL_DROPOUT_NUMBER, /* a dropout is the number -32768 */
    CHANNEL_DROPOUT_ZERO,   /* a dropout is 0 */
    CHANNEL_DROPOUT_LEFT,   /* a dropout leaves its place as it was */
    CHANNEL_DROPOUT_TWO,    /* -32767 is a dropout too */
    CHANNEL_NOT_SKIPPED,    /* samples start at byte 4 */
    CHANNEL_LAST_LEFT,      /* the last sample is left out */
    CHANNEL_FIRST_PART,     /* samples from 256 on are left out */
    CHANNEL_WRITES_BEHIND,  /* writes one place behind the samples */
    CHANNEL_WRITES_BLOCK,   /* an accepted call makes the block's last byte another */
    CHANNEL_COUNT_MORE,     /* the count is one too many */
    CHANNEL_COUNT_LEFT,     /* a channel of no samples leaves the count */
    CHANNEL_REFUSED_COUNTS, /* a refused call makes the count 0 */
    CHANNEL_REFUSED_WRITES, /* a refused call makes the first place 0 */
    CHANNEL_SHORT_WRITES,   /* a short output gets what fits */
    CHANNEL_BAD_CALL_PASSES, /* 13 is not tested */
    CHANNEL_BAD_CALL_LATE,  /* 22 before 13; these four in the order of the reasons */
    CHANNEL_TRUNCATED_FIRST, /* 23 before 22 */
    CHANNEL_ABSENT_FIRST,   /* 24 before 23 */
    CHANNEL_SHORT_FIRST,    /* 5 before 24 */
    CHANNEL_EMPTY_TRUNCATED, /* an empty block is refused by 23 */
    CHANNEL_HEADER_3,       /* a header of 3 bytes is accepted */
    CHANNEL_HEADER_4,       /* a header of 4 bytes is refused */
    CHANNEL_HEADER_ALL,     /* a header as long as the block is refused */
    CHANNEL_HEADER_PAST,    /* a header one byte longer than the block is accepted */
    CHANNEL_NONE,           /* a channel count of 0 is accepted */
    CHANNEL_EIGHT,          /* eight channels are refused */
    CHANNEL_NINE,           /* nine channels are accepted */
    CHANNEL_BYTE_MISSING,   /* samples one byte past the end are accepted */
    CHANNEL_EXACT_BLOCK,    /* samples up to the end are refused */
    CHANNEL_BYTES_BEHIND,   /* bytes past the samples are refused */
    CHANNEL_NO_SAMPLES,     /* a block of no samples is refused */
    CHANNEL_END_TRUNCATED,  /* the end of the samples is taken modulo 2^16 */
    CHANNEL_TRUNCATED,      /* the channel is taken modulo 2^32 */
    CHANNEL_AT_COUNT,       /* the channel at the channel count is accepted */
    CHANNEL_LAST_ABSENT,    /* the last channel is refused */
    CHANNEL_EXACT_OUTPUT,   /* an output with as many places as samples is refused */
    CHANNEL_PLACE_MISSING,  /* an output with a place less is accepted */
    WRONGS
};

static int asked(void) {
    static int number = -1;
    if (number < 0)
        number = getenv("WRONG") ? atoi(getenv("WRONG")) : 0;
    if (number >= WRONGS)
        exit(3); /* there is no such number */
    return number;
}

static int is(enum wrong w) { return asked() == (int)w; }

#define REAL(name, ...) uint8_t __real_##name(__VA_ARGS__); uint8_t __wrap_##name(__VA_ARGS__); uint8_t __wrap_##name(__VA_ARGS__)
#define CASCADE double *n, size_t nl, size_t *c, size_t cl
#define TAP_RECORD double *s, size_t sl, size_t *c, size_t cl
#define BLOCK const double *in, size_t il, double *out, size_t ol, size_t *k, size_t kl

static double next(double x) { return nextafter(x, INFINITY); }

/* What all designs of a cascade may do wrong. */
static uint8_t designed(uint8_t number, CASCADE, size_t cloud) {
    if (number && nl == 32 && cl == 3 && is(REFUSED_BLANKS)) {
        memset(n, 0, nl * sizeof *n);
        memset(c, 0, cl * sizeof *c);
    }
    if (!number && is(UNUSED_IDENTITY))
        for (size_t i = c[0]; i < 4; i++)
            n[7 * i] = 1;
    if (!number && is(DESIGN_KEEPS_CLOUD))
        c[2] = cloud;
    return number;
}

/* Default and raw forms. A design, or ready-made taps, by its arguments: floats in their order, and the slices of its state, whose
 * `n` are numbers or taps. */
struct design {
    enum form form;
    size_t order;
    double x[3];
    size_t window;
    const double *v;
    size_t vl;
};
struct state {
    double *n;
    size_t nl;
    double *s;
    size_t sl;
    size_t *c;
    size_t cl;
};
#define TAPS double *t, size_t tl, TAP_RECORD
#define BOTH(name, ...) uint8_t __real_##name(__VA_ARGS__); uint8_t __real_##name##_raw(__VA_ARGS__)
BOTH(pulse_design_butterworth_lp, size_t order, double cutoff, double rate, CASCADE);
BOTH(pulse_design_butterworth_hp, size_t order, double cutoff, double rate, CASCADE);
BOTH(pulse_design_butterworth_bp, size_t order, double low, double high, double rate, CASCADE);
BOTH(pulse_design_chebyshev1_lp, size_t order, double cutoff, double decibels, double rate, CASCADE);
BOTH(pulse_design_chebyshev2_lp, size_t order, double cutoff, double decibels, double rate, CASCADE);
BOTH(pulse_design_fir_lp, size_t taps, double cutoff, size_t window, TAPS);
BOTH(pulse_fir_from_coeffs, const double *v, size_t vl, TAPS);

/* The archive's own function. */
#define OF(name) (raw ? __real_##name##_raw : __real_##name)
static uint8_t real(const struct design *d, int raw, struct state s) {
    const double *x = d->x;
    switch (d->form) {
    case LOW: return OF(pulse_design_butterworth_lp)(d->order, x[0], x[1], s.n, s.nl, s.c, s.cl);
    case HIGH: return OF(pulse_design_butterworth_hp)(d->order, x[0], x[1], s.n, s.nl, s.c, s.cl);
    case BAND: return OF(pulse_design_butterworth_bp)(d->order, x[0], x[1], x[2], s.n, s.nl, s.c, s.cl);
    case RIPPLE: return OF(pulse_design_chebyshev1_lp)(d->order, x[0], x[1], x[2], s.n, s.nl, s.c, s.cl);
    case STOPBAND: return OF(pulse_design_chebyshev2_lp)(d->order, x[0], x[1], x[2], s.n, s.nl, s.c, s.cl);
    case FIR: return OF(pulse_design_fir_lp)(d->order, x[0], d->window, s.n, s.nl, s.s, s.sl, s.c, s.cl);
    default: return OF(pulse_fir_from_coeffs)(d->v, d->vl, s.n, s.nl, s.s, s.sl, s.c, s.cl);
    }
}

/* What the raw form makes over slices of its own. */
struct made {
    double n[64], s[64];
    size_t c[3];
    uint8_t number;
};

static size_t length_of(const struct design *d) { return d->form < FIR ? 32 : 64; }

static struct made made(const struct design *d) {
    struct made m;
    m.number = real(d, 1, (struct state){m.n, length_of(d), m.s, 64, m.c, 3});
    return m;
}

static void put(const struct design *d, const struct made *m, struct state s) {
    memcpy(s.n, m->n, length_of(d) * sizeof *s.n);
    memcpy(s.c, m->c, sizeof m->c);
    if (d->form >= FIR)
        memcpy(s.s, m->s, sizeof m->s);
}

/* Whether a wrong default form takes a coefficient for finite. */
static int passes(enum form form, double x) {
    if (form != COEFFS)
        return isfinite(x);
    return isfinite(x) || (isinf(x) && is(COEFFS_INFINITY)) || (x == -INFINITY && is(COEFFS_NEGATIVE)) || (isnan(x) && is(COEFFS_NAN));
}

static int all_pass(enum form form, const double *x, size_t n) {
    for (size_t i = 0; i < n; i++)
        if (!passes(form, x[i]))
            return 0;
    return 1;
}

/* Whether a wrong default form sees only finite coefficients in what the raw form made. */
static int cascade_passes(enum form form, const struct made *m) {
    size_t end = m->c[0], each = form == BAND && is(BAND_A_UNSEEN) ? 3 : 5;
    int unseen = (form == LOW && is(LOW_FIRST_UNSEEN)) || (form == STOPBAND && end && is(STOPBAND_FIRST_UNSEEN));
    if (form == HIGH && end && is(HIGH_LAST_UNSEEN))
        end--;
    if (form == BAND && end > 2 && is(BAND_TWO_SEEN))
        end = 2;
    if (form == STOPBAND && m->c[1] && is(STOPBAND_SECTIONS_UNSEEN))
        end = 0;
    for (size_t i = 0; i < end; i++)
        if (!all_pass(form, m->n + 7 * i, each))
            return 0;
    return !m->c[1] || unseen || all_pass(form, m->n + 28, 3);
}

static int taps_pass(enum form form, const struct made *m) {
    size_t end = m->c[0];
    if (form == COEFFS && is(COEFFS_FIRST_SEEN))
        end = 1;
    if (form == COEFFS && is(COEFFS_LAST_UNSEEN))
        end--;
    if (form == COEFFS && end > 32 && is(COEFFS_HALF_SEEN))
        end = 32;
    return all_pass(form, m->n, end);
}

/* Whether coefficients would not be finite, were the call not refused by another number. */
static int would_not_be_finite(const struct design *d) {
    if (d->form == COEFFS)
        return !all_pass(FORMS, d->v, d->vl);
    return d->form == FIR ? d->order == 1 && d->window > 0 : isnan(d->x[0]) || isnan(d->x[1]) || isnan(d->x[2]);
}

/* What a wrong default form refuses by 25 though it is finite; the slices are those before the call. */
static int refuses_more(const struct design *d, const struct made *m, struct state s) {
    int held = 0;
    for (size_t i = m->c[0]; i < 64 && d->form >= FIR; i++)
        held |= !isfinite(s.n[i]);
    if (d->form < FIR)
        held = !isfinite(s.n[5]) || !isfinite(s.n[31]);
    for (size_t i = 0; i < d->vl && is(COEFFS_LARGEST); i++)
        if (fabs(d->v[i]) == DBL_MAX)
            return 1;
    return (held && is(DEFAULT_HELD + d->form)) || (d->form == FIR && d->order == 2 && d->window == 3 && is(FIR_USELESS))
        || (d->form == FIR && d->order == 1 && is(FIR_SINGLE));
}

/* A number of a function that 25 comes before. */
static const struct before {
    enum form form;
    uint8_t number;
} befores[BEFORES] = {{LOW, 1}, {LOW, 2}, {HIGH, 3}, {BAND, 2}, {BAND, 3}, {RIPPLE, 4}, {STOPBAND, 4}, {FIR, 2}, {COEFFS, 1}};

static int comes_before(const struct design *d, uint8_t number) {
    for (int i = 0; i < BEFORES; i++)
        if (befores[i].form == d->form && befores[i].number == number && is(BEFORE + i))
            return would_not_be_finite(d);
    return 0;
}

/* A default form. */
static uint8_t by_default(struct design d, struct state s) {
    if (asked() < DEFAULT_ACCEPTS || asked() >= CHANNEL_HIGH_FIRST)
        return real(&d, 0, s);
    struct made m = made(&d);
    int right = s.nl == length_of(&d) && s.cl == 3 && (d.form < FIR || s.sl == 64);
    if (right && m.number == 0 && refuses_more(&d, &m, s))
        return 25;
    uint8_t number = real(&d, 0, s);
    int passed = m.number == 0 && (d.form < FIR ? cascade_passes(d.form, &m) : taps_pass(d.form, &m));
    if (number == 13 && m.number == 0 && !passed && is(DEFAULT_EARLY + d.form))
        return 25;
    if (number == 25 && (passed || is(DEFAULT_ACCEPTS + d.form) || is(DEFAULT_WRITES + d.form))) {
        put(&d, &m, s);
        return is(DEFAULT_WRITES + d.form) ? 25 : 0;
    }
    return comes_before(&d, number) ? 25 : number;
}

/* Another design, or other taps. */
static struct design other(struct design d) {
    static const enum form others[FORMS] = {HIGH, LOW, BAND, STOPBAND, RIPPLE, FIR, COEFFS};
    d.form = others[d.form];
    d.x[2] *= d.form == BAND ? 2 : 1;
    d.window = d.window < 4 ? 3 - d.window : d.window;
    d.vl = (d.vl + 1) / 2;
    return d;
}

/* A raw form. */
static uint8_t by_raw(struct design d, struct state s) {
    enum form form = d.form;
    if (is(RAW_OTHER + form))
        d = other(d);
    if (s.nl == length_of(&d) + 1 && is(RAW_LENGTH + form))
        s.nl--;
    uint8_t number = real(&d, !is(RAW_REFUSES + form), s);
    if (number && s.nl && is(RAW_REFUSED_WRITES + form))
        s.n[0] = 0;
    return number;
}

#define OF_CASCADE (struct state){n, nl, 0, 0, c, cl}
#define OF_TAPS (struct state){t, tl, s, sl, c, cl}

REAL(pulse_design_butterworth_hp, size_t order, double cutoff, double rate, CASCADE) {
    size_t cloud = cl == 3 ? c[2] : 0;
    if (is(HIGH_IS_LOW))
        return __real_pulse_design_butterworth_lp(order, cutoff, rate, n, nl, c, cl);
    if (order == 9 && is(HIGH_ORDER_9))
        order = 8;
    return designed(by_default((struct design){HIGH, order, {cutoff, rate, 0}, 0, 0, 0}, OF_CASCADE), n, nl, c, cl, cloud);
}

REAL(pulse_design_butterworth_lp, size_t order, double cutoff, double rate, CASCADE) {
    size_t cloud = cl == 3 ? c[2] : 0;
    if (is(LOW_IS_HIGH))
        return __real_pulse_design_butterworth_hp(order, cutoff, rate, n, nl, c, cl);
    uint8_t number = by_default((struct design){LOW, order, {cutoff, rate, 0}, 0, 0, 0}, OF_CASCADE);
    if (number == 3 && !(cutoff > 0) && is(RATE_AFTER_CUTOFF))
        return 2;
    return designed(number, n, nl, c, cl, cloud);
}

REAL(pulse_design_butterworth_bp, size_t order, double low, double high, double rate, CASCADE) {
    size_t cloud = cl == 3 ? c[2] : 0;
    uint8_t number = by_default((struct design){BAND, order, {low, high, rate}, 0, 0, 0}, OF_CASCADE);
    if (number == 2 && !(rate > 0) && is(BAND_RATE_FIRST))
        return 3;
    if (!number && order > 1 && is(BAND_SWAPPED)) {
        double first[7];
        memcpy(first, n, sizeof first);
        memcpy(n, n + 7, sizeof first);
        memcpy(n + 7, first, sizeof first);
    }
    return designed(number, n, nl, c, cl, cloud);
}

REAL(pulse_design_chebyshev1_lp, size_t order, double cutoff, double decibels, double rate, CASCADE) {
    size_t cloud = cl == 3 ? c[2] : 0;
    if (is(TYPE_ONE_IS_TWO))
        return __real_pulse_design_chebyshev2_lp(order, cutoff, decibels, rate, n, nl, c, cl);
    uint8_t number = by_default((struct design){RIPPLE, order, {cutoff, decibels, rate}, 0, 0, 0}, OF_CASCADE);
    if (number == 1 && !(decibels > 0) && is(RIPPLE_FIRST))
        return 4;
    return designed(number, n, nl, c, cl, cloud);
}

REAL(pulse_design_chebyshev2_lp, size_t order, double cutoff, double decibels, double rate, CASCADE) {
    size_t cloud = cl == 3 ? c[2] : 0;
    uint8_t number = by_default((struct design){STOPBAND, order, {cutoff, decibels, rate}, 0, 0, 0}, OF_CASCADE);
    if (!number && is(STOPBAND_LAST_BIT))
        n[4] = next(n[4]);
    return designed(number, n, nl, c, cl, cloud);
}

REAL(pulse_design_butterworth_lp_raw, size_t order, double cutoff, double rate, CASCADE) {
    return by_raw((struct design){LOW, order, {cutoff, rate, 0}, 0, 0, 0}, OF_CASCADE);
}

REAL(pulse_design_butterworth_hp_raw, size_t order, double cutoff, double rate, CASCADE) {
    return by_raw((struct design){HIGH, order, {cutoff, rate, 0}, 0, 0, 0}, OF_CASCADE);
}

REAL(pulse_design_butterworth_bp_raw, size_t order, double low, double high, double rate, CASCADE) {
    return by_raw((struct design){BAND, order, {low, high, rate}, 0, 0, 0}, OF_CASCADE);
}

REAL(pulse_design_chebyshev1_lp_raw, size_t order, double cutoff, double decibels, double rate, CASCADE) {
    return by_raw((struct design){RIPPLE, order, {cutoff, decibels, rate}, 0, 0, 0}, OF_CASCADE);
}

REAL(pulse_design_chebyshev2_lp_raw, size_t order, double cutoff, double decibels, double rate, CASCADE) {
    return by_raw((struct design){STOPBAND, order, {cutoff, decibels, rate}, 0, 0, 0}, OF_CASCADE);
}

/* What all runs of a cascade may take for good. */
static void take(size_t *nl, size_t *c, size_t cl) {
    if (*nl == 33 && is(LENGTH_IGNORED))
        *nl = 32;
    if (cl != 3)
        return;
    if (is(FLAG_TRUNCATED))
        c[1] &= 255;
    if (is(COUNT_TRUNCATED))
        c[0] &= 0xFFFFFFFFu;
}

REAL(pulse_cascade_step, CASCADE, double x, double *a, size_t al, size_t *k, size_t kl) {
    take(&nl, c, cl);
    uint8_t number = __real_pulse_cascade_step(n, nl, c, cl, x, a, al, k, kl);
    if (number == 11 && c[0] == 0 && is(BLANK_PASSES)) {
        a[0] = x;
        return 0;
    }
    if (number && al && is(STEP_REFUSED_ANSWERS))
        a[0] = 0;
    if (!number && is(STEP_LAST_BIT))
        a[0] = next(a[0]);
    if (!number && is(STEP_MARK_CLEAR))
        k[0] = 0;
    return number;
}

REAL(pulse_cascade_block, CASCADE, BLOCK) {
    take(&nl, c, cl);
    uint8_t number = __real_pulse_cascade_block(n, nl, c, cl, in, il, out, ol, k, kl);
    if (number && kl && is(BLOCK_REFUSED_COUNTS))
        k[0] = 0;
    if (number == 11 && ol < il && is(BLOCK_SHORT_FIRST))
        return 5;
    if (number)
        return number;
    if (il > 1 && is(BLOCK_FIRST_ONLY))
        memcpy(out + 1, in + 1, (il - 1) * sizeof *out);
    if (is(BLOCK_COUNT))
        k[0] = il;
    if (ol > il && is(BLOCK_WRITES_BEHIND))
        out[il] = 0;
    return 0;
}

REAL(pulse_cascade_reset, CASCADE) {
    take(&nl, c, cl);
    size_t cloud = cl == 3 ? c[2] : 0;
    uint8_t number = __real_pulse_cascade_reset(n, nl, c, cl);
    if (!number && is(RESET_KEEPS_CLOUD))
        c[2] = cloud;
    return number == 11 && is(RESET_TAKES_BAD) ? 0 : number;
}

REAL(pulse_design_fir_lp, size_t taps, double cutoff, size_t window, TAPS) {
    uint8_t number = by_default((struct design){FIR, taps, {cutoff, 0, 0}, window == 4 && is(FIR_WINDOW_4) ? 0 : window, 0, 0}, OF_TAPS);
    if (!number && is(FIR_WINDOW_CODE))
        c[2] = 4;
    if (!number && is(FIR_TAP_LAST_BIT))
        t[0] = next(t[0]);
    return number;
}

REAL(pulse_fir_from_coeffs, const double *v, size_t vl, TAPS) {
    double old[64];
    if (vl == 64 && tl == 64 && sl == 64 && cl == 3 && is(COEFFS_64))
        return 1;
    memcpy(old, t, (tl < 64 ? tl : 64) * sizeof *t);
    uint8_t number = by_default((struct design){COEFFS, 0, {0, 0, 0}, 0, v, vl}, OF_TAPS);
    if (!number && is(COEFFS_KEEP_BEHIND))
        memcpy(t + vl, old + vl, (64 - vl) * sizeof *t);
    return number;
}

REAL(pulse_design_fir_lp_raw, size_t taps, double cutoff, size_t window, TAPS) {
    return by_raw((struct design){FIR, taps, {cutoff, 0, 0}, window, 0, 0}, OF_TAPS);
}

REAL(pulse_fir_from_coeffs_raw, const double *v, size_t vl, TAPS) {
    return by_raw((struct design){COEFFS, 0, {0, 0, 0}, 0, v, vl}, OF_TAPS);
}

/* Whether a step since the last reset met a sample that was not finite. */
static int met;

/* What all runs of a FIR may take for good. */
static void take_taps(size_t *c, size_t cl) {
    if (cl == 3 && c[2] == 5 && is(WINDOW_5))
        c[2] = 4;
    if (cl == 3 && c[1] > c[0] && is(HELD_ABOVE))
        c[1] = c[0];
}

REAL(pulse_fir_step, const double *t, size_t tl, TAP_RECORD, double x, double *a, size_t al, size_t *k, size_t kl) {
    double old[64];
    take_taps(c, cl);
    size_t held = cl == 3 ? c[1] : 0;
    memcpy(old, s, (sl < 64 ? sl : 64) * sizeof *s);
    uint8_t number = __real_pulse_fir_step(t, tl, s, sl, c, cl, x, a, al, k, kl);
    if (number)
        return number;
    if (is(FIR_HELD_STAYS))
        c[1] = held;
    if (is(FIR_MOVES_HELD_ONLY))
        memcpy(s + c[1], old + c[1], (64 - c[1]) * sizeof *s);
    if (is(FIR_MARK_OWN))
        k[0] = !isfinite(x);
    met |= !isfinite(x);
    if (is(FIR_STAYS_CLOUDED))
        k[0] = (size_t)met;
    return 0;
}

REAL(pulse_fir_block, const double *t, size_t tl, TAP_RECORD, BLOCK) {
    take_taps(c, cl);
    if (cl == 3 && il && ol >= il && c[0] && c[0] <= 64 && c[1] <= c[0] && is(FIR_BLOCK_RESETS))
        c[1] = 0;
    uint8_t number = __real_pulse_fir_block(t, tl, s, sl, c, cl, in, il, out, ol, k, kl);
    if (number == 12 && ol < il && is(FIR_BLOCK_SHORT_FIRST))
        return 5;
    if (number == 5 && is(FIR_BLOCK_SHORT_WRITES))
        memset(out, 0, ol * sizeof *out);
    if (number || !is(FIR_BLOCK_COUNT_OWN))
        return number;
    k[0] = 0;
    for (size_t i = 0; i < il; i++)
        k[0] += !isfinite(in[i]);
    return 0;
}

REAL(pulse_fir_reset, const double *t, size_t tl, TAP_RECORD) {
    double old[64];
    take_taps(c, cl);
    memcpy(old, s, (sl < 64 ? sl : 64) * sizeof *s);
    met = 0;
    uint8_t number = __real_pulse_fir_reset(t, tl, s, sl, c, cl);
    if (!number && is(FIR_RESET_KEEPS))
        memcpy(s, old, sizeof old);
    if (!number && is(FIR_RESET_CODE))
        c[2] = 0;
    return number;
}

/* Blocks in place. The filter's slices; `t` is null of a cascade, whose `n` are its numbers, and of a FIR `n` are its samples. */
enum { PART = 256, LONGEST = 1024 };
struct filter {
    const double *t;
    size_t tl;
    double *n;
    size_t nl;
    size_t *c;
    size_t cl;
};
#define PLACE double *b, size_t bl, size_t *k, size_t kl
uint8_t __real_pulse_cascade_block_in_place(CASCADE, PLACE);
uint8_t __real_pulse_fir_block_in_place(const double *t, size_t tl, TAP_RECORD, PLACE);

static uint8_t run(struct filter f, PLACE) {
    return f.t ? __real_pulse_fir_block_in_place(f.t, f.tl, f.n, f.nl, f.c, f.cl, b, bl, k, kl)
               : __real_pulse_cascade_block_in_place(f.n, f.nl, f.c, f.cl, b, bl, k, kl);
}

static void forget(struct filter f) {
    if (f.t)
        __real_pulse_fir_reset(f.t, f.tl, f.n, f.nl, f.c, f.cl);
    else
        __real_pulse_cascade_reset(f.n, f.nl, f.c, f.cl);
}

/* Each part by itself from no sample, but for the first. */
static uint8_t run_forgetting(struct filter f, PLACE) {
    size_t clouded, all = 0;
    uint8_t number = run(f, b, bl < PART ? bl : PART, k, kl);
    if (number)
        return number;
    for (size_t from = PART; from < bl; from += PART) {
        forget(f);
        run(f, b + from, bl - from < PART ? bl - from : PART, &clouded, 1);
        all += clouded;
    }
    k[0] += all;
    return 0;
}

/* What blocks in place may do wrong; `first` is the first of their errors. Slices of wrong lengths and long buffers go past. */
static uint8_t ran(enum wrong first, struct filter f, PLACE) {
    double samples[LONGEST], numbers[64];
    size_t counts[3], clouded;
    if (f.nl > 64 || f.cl != 3 || bl > LONGEST)
        return run(f, b, bl, k, kl);
    if (is(first + 4))
        return run_forgetting(f, b, bl, k, kl);
    memcpy(samples, b, bl * sizeof *b);
    memcpy(numbers, f.n, f.nl * sizeof *numbers);
    memcpy(counts, f.c, sizeof counts);
    uint8_t number = run(f, b, bl, k, kl);
    if (number && bl && is(first + 2))
        b[0] = 0;
    if (number)
        return number;
    if (bl > PART && is(first))
        memcpy(b + PART, samples + PART, (bl - PART) * sizeof *b);
    if (bl > PART && is(first + 1)) {
        run((struct filter){f.t, f.tl, numbers, f.nl, counts, f.cl}, samples, (bl - 1) / PART * PART, &clouded, 1);
        k[0] -= clouded;
    }
    if (is(first + 3)) {
        memcpy(f.n, numbers, f.nl * sizeof *numbers);
        memcpy(f.c, counts, sizeof counts);
    }
    return 0;
}

REAL(pulse_cascade_block_in_place, CASCADE, PLACE) {
    take(&nl, c, cl);
    return ran(CASCADE_FIRST_PART, (struct filter){0, 0, n, nl, c, cl}, b, bl, k, kl);
}

REAL(pulse_fir_block_in_place, const double *t, size_t tl, TAP_RECORD, PLACE) {
    take_taps(c, cl);
    return ran(FIR_FIRST_PART, (struct filter){t, tl, s, sl, c, cl}, b, bl, k, kl);
}

/* Whole pulses. */
#define PULSE size_t class, double rate, double *b, size_t bl
uint8_t __real_pulse_j211(PULSE);

static double corner(size_t class) { return (double)class * 2.0775; }

static double factorial(int k) { return k < 2 ? 1 : k * factorial(k - 1); }

/* 01's tangent of an angle from 0 to pi / 2. */
static double tangent(double x) {
    double q = nearbyint(x * 0x1.45F306DC9C883p-1), r = x - q * 0x1.921FB544p0 - q * 0x1.0B4611A626331p-34;
    double s = r * r, sine = 0, cosine = 0;
    for (int k = 16; k >= 2; k -= 2) {
        double sign = k % 4 ? -1 : 1;
        sine = sign / factorial(k + 1) + s * sine;
        cosine = sign / factorial(k) + s * cosine;
    }
    sine = r + r * s * sine;
    cosine = 1 + s * cosine;
    return q == 0 ? sine / cosine : cosine / -sine;
}

/* One pass, forward or backward; the history is x1, x2, y1, y2. */
static void pass(PULSE, int backward, double *history) {
    double w = tangent(acos(-1) * corner(class) / rate), d = 1 + sqrt(2) * w + w * w;
    double a0 = w * w / d, b1 = -2 * (w * w - 1) / d, b2 = (-1 + sqrt(2) * w - w * w) / d;
    for (size_t i = 0; i < bl; i++) {
        double *place = b + (backward ? bl - 1 - i : i), x = *place;
        *place = a0 * x + 2 * a0 * history[0] + a0 * history[1] + b1 * history[2] + b2 * history[3];
        history[1] = history[0];
        history[0] = x;
        history[3] = history[2];
        history[2] = *place;
    }
}

static void reverse(double *b, size_t bl) {
    for (size_t i = 0; i < bl / 2; i++) {
        double x = b[i];
        b[i] = b[bl - 1 - i];
        b[bl - 1 - i] = x;
    }
}

/* An accepted pulse by wrong passes, or over other places; `b` holds the samples. */
static void wrong_passes(PULSE) {
    double history[4] = {0}, zero[4] = {0};
    if (is(J211_FORWARD_ONLY) || is(J211_FORWARD_TWICE) || is(J211_HISTORY_KEPT)) {
        pass(class, rate, b, bl, 0, history);
        if (!is(J211_FORWARD_ONLY))
            pass(class, rate, b, bl, is(J211_HISTORY_KEPT), is(J211_HISTORY_KEPT) ? history : zero);
        return;
    }
    if (is(J211_BACKWARD_FIRST))
        reverse(b, bl);
    for (size_t i = 0; i < bl && is(J211_DROPOUT_ZERO); i++)
        b[i] = isnan(b[i]) ? 0 : b[i];
    if ((bl && is(J211_LAST_PLACE)) || (bl > PART && is(J211_FIRST_PART)))
        bl = is(J211_LAST_PLACE) ? bl - 1 : PART;
    __real_pulse_j211(class == 600 && is(J211_OTHER_CLASS) ? 180 : class, rate, b, bl);
    if (is(J211_BACKWARD_FIRST))
        reverse(b, bl);
    if (is(J211_WRITES_BEHIND))
        b[bl] = 0;
    if (bl && is(J211_LAST_BIT))
        b[bl / 2] = next(b[bl / 2]);
}

static uint8_t refused_pulse(uint8_t number, PULSE) {
    int low = corner(class) >= rate * 0.5;
    if (bl && is(J211_REFUSED_WRITES))
        b[0] = 0;
    if (number == 21 && is(J211_CLASS_LAST))
        return !(rate > 0) ? 3 : low ? 2 : 21;
    if (number == 3 && ((low && is(J211_LIMIT_FIRST)) || (isnan(rate) && is(J211_NAN_RATE))))
        return 2;
    if (number == 2 && corner(class) == rate * 0.5 && is(J211_LIMIT_TAKEN))
        return __real_pulse_j211(class, next(rate), b, bl);
    return number;
}

REAL(pulse_j211, PULSE) {
    double none;
    if (is(J211_CLASS_TRUNCATED))
        class &= 0xFFFFFFFFu;
    uint8_t number = __real_pulse_j211(class, rate, &none, 0);
    if (number)
        return refused_pulse(number, class, rate, b, bl);
    if (isinf(rate) && is(J211_INFINITE_RATE))
        return 3;
    if (rate == next(2 * corner(class)) && is(J211_LIMIT_NEXT))
        return 2;
    wrong_passes(class, rate, b, bl);
    return 0;
}

/* Channels of blocks: a reading of its own, with one error, and with none where nothing is spoiled. A byte past the end of the
 * block is 0 here. */
#define CHANNEL const uint8_t *block, size_t block_len, size_t channel, double *output, size_t output_len, size_t *count, size_t count_len
struct header {
    size_t length, channels, samples;
};

static size_t byte(const uint8_t *block, size_t block_len, size_t at) { return at < block_len ? block[at] : 0; }

static struct header header(const uint8_t *block, size_t block_len) {
    size_t low = byte(block, block_len, 2), high = byte(block, block_len, 3);
    size_t samples = is(CHANNEL_SAMPLES_HIGH_FIRST) ? 256 * low + high : is(CHANNEL_SAMPLES_BYTE) ? low : low + 256 * high;
    return (struct header){byte(block, block_len, 0), byte(block, block_len, 1), samples};
}

static int bad_header(struct header h, size_t block_len) {
    if (block_len == 0)
        return !is(CHANNEL_EMPTY_TRUNCATED);
    size_t least = is(CHANNEL_HEADER_3) ? 3 : is(CHANNEL_HEADER_4) ? 5 : 4;
    size_t most = is(CHANNEL_HEADER_PAST) ? block_len + 1 : is(CHANNEL_HEADER_ALL) ? block_len - 1 : block_len;
    size_t channels = is(CHANNEL_NINE) ? 9 : is(CHANNEL_EIGHT) ? 7 : 8;
    return h.length < least || h.length > most || (h.channels == 0 && !is(CHANNEL_NONE)) || h.channels > channels;
}

static int truncated(struct header h, size_t block_len) {
    size_t end = h.length + 2 * h.channels * h.samples;
    if (is(CHANNEL_END_TRUNCATED))
        end &= 0xFFFF;
    if (is(CHANNEL_BYTE_MISSING) && end)
        end--;
    if ((is(CHANNEL_BYTES_BEHIND) && end != block_len) || (is(CHANNEL_NO_SAMPLES) && !h.samples) || (is(CHANNEL_EMPTY_TRUNCATED) && !block_len))
        return 1;
    return is(CHANNEL_EXACT_BLOCK) ? end >= block_len : end > block_len;
}

static int absent(struct header h, size_t channel) {
    size_t channels = is(CHANNEL_AT_COUNT) ? h.channels + 1 : is(CHANNEL_LAST_ABSENT) && h.channels ? h.channels - 1 : h.channels;
    return channel >= channels;
}

static int is_short(struct header h, size_t output_len) {
    size_t samples = is(CHANNEL_PLACE_MISSING) && h.samples ? h.samples - 1 : h.samples;
    return is(CHANNEL_EXACT_OUTPUT) ? output_len <= samples : output_len < samples;
}

/* The number of the first reason found, in their order; where that is wrong, two neighbours are swapped. */
static uint8_t refused_channel(struct header h, CHANNEL) {
    static const uint8_t numbers[5] = {13, 22, 23, 24, 5};
    const int found[5] = {count_len != 1 && !is(CHANNEL_BAD_CALL_PASSES), bad_header(h, block_len), truncated(h, block_len), absent(h, channel),
                          is_short(h, output_len)};
    int order[5] = {0, 1, 2, 3, 4};
    (void)block, (void)output, (void)count;
    for (int i = 0; i < 4; i++)
        if (is(CHANNEL_BAD_CALL_LATE + i)) {
            order[i] = i + 1;
            order[i + 1] = i;
        }
    for (int i = 0; i < 5; i++)
        if (found[order[i]])
            return numbers[order[i]];
    return 0;
}

static void read_sample(const uint8_t *bytes, size_t left, double *place) {
    size_t first = byte(bytes, left, 0), second = byte(bytes, left, 1), code = is(CHANNEL_HIGH_FIRST) ? 256 * first + second : first + 256 * second;
    double number = code >= 0x8000 && !is(CHANNEL_UNSIGNED) ? (double)code - 0x10000 : (double)code;
    if (code == 0x8000 && is(CHANNEL_DROPOUT_LEFT))
        return;
    if (code == 0x8000 || (code == 0x8001 && is(CHANNEL_DROPOUT_TWO)))
        number = is(CHANNEL_DROPOUT_NUMBER) ? -32768 : is(CHANNEL_DROPOUT_ZERO) ? 0 : NAN;
    *place = number;
}

/* The samples that have a place. */
static void read_samples(struct header h, const uint8_t *block, size_t block_len, size_t channel, double *output, size_t output_len) {
    size_t n = h.samples < output_len ? h.samples : output_len;
    if (n && is(CHANNEL_LAST_LEFT))
        n--;
    if (n > PART && is(CHANNEL_FIRST_PART))
        n = PART;
    for (size_t i = 0; i < n; i++) {
        size_t code = is(CHANNEL_APART) ? h.samples * channel + i : h.channels * i + channel + (is(CHANNEL_NEXT) ? 1 : 0);
        size_t at = (is(CHANNEL_NOT_SKIPPED) ? 4 : h.length) + 2 * code;
        read_sample(block + (at < block_len ? at : block_len), at < block_len ? block_len - at : 0, output + i);
    }
}

/* What an accepted call leaves. */
static void accepted_channel(struct header h, CHANNEL) {
    read_samples(h, block, block_len, channel, output, output_len);
    if (output_len > h.samples && is(CHANNEL_WRITES_BEHIND))
        output[h.samples] = 0;
    if (is(CHANNEL_WRITES_BLOCK))
        ((uint8_t *)block)[block_len - 1] ^= 1;
    if (count_len && !(h.samples == 0 && is(CHANNEL_COUNT_LEFT)))
        count[0] = h.samples + (is(CHANNEL_COUNT_MORE) ? 1 : 0);
}

REAL(pulse_read_channel, CHANNEL) {
    if (asked() > NOTHING && asked() < CHANNEL_HIGH_FIRST)
        return __real_pulse_read_channel(block, block_len, channel, output, output_len, count, count_len);
    struct header h = header(block, block_len);
    if (is(CHANNEL_TRUNCATED))
        channel &= 0xFFFFFFFFu;
    uint8_t number = refused_channel(h, block, block_len, channel, output, output_len, count, count_len);
    if (!number)
        accepted_channel(h, block, block_len, channel, output, output_len, count, count_len);
    if (number && count_len && is(CHANNEL_REFUSED_COUNTS))
        count[0] = 0;
    if (number && output_len && is(CHANNEL_REFUSED_WRITES))
        output[0] = 0;
    if (number == 5 && is(CHANNEL_SHORT_WRITES))
        read_samples(h, block, block_len, channel, output, output_len);
    return number;
}
