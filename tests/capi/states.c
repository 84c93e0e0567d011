/* Tries what the stored answers of the oracle cannot have: slices of wrong lengths, damaged states, several reasons for a refusal
 * at once, every place of a state after a call, default forms beside raw ones, a coefficient that is not finite at every place of
 * ready-made taps, blocks in place beside blocks over two arrays, whole pulses of any length beside their recurrence, and channels
 * of the rival recorder's blocks, of up to 65,535 samples, beside a plain reading. The expected numbers are written here from
 * include/pulse.h. After each refusal all slices, and the guard places behind them, must be bit
 * for bit as before, also where they hold NaNs of any bits.
 * Usage: states. Status 0: all as expected; 1: a difference, which is shown, and the parts behind it are not tried. */
#include "pulse.h"
#include <float.h>
#include <math.h>
#include <stdio.h>
#include <string.h>

/* The raw forms stand behind the default ones, in their order. J211, which has no filter's state, comes last. */
enum function { LOW_PASS, HIGH_PASS, BAND_PASS, CHEBYSHEV1, CHEBYSHEV2, LOW_PASS_RAW, HIGH_PASS_RAW, BAND_PASS_RAW, CHEBYSHEV1_RAW, CHEBYSHEV2_RAW,
                CASCADE_STEP, CASCADE_BLOCK, CASCADE_IN_PLACE, CASCADE_RESET, FIR_DESIGN, FIR_COEFFS, FIR_DESIGN_RAW, FIR_COEFFS_RAW,
                FIR_STEP, FIR_BLOCK, FIR_IN_PLACE, FIR_RESET, J211, FUNCTIONS };
static const char *const names[FUNCTIONS] = {
    "butterworth_lp", "butterworth_hp", "butterworth_bp", "chebyshev1_lp", "chebyshev2_lp", "butterworth_lp_raw", "butterworth_hp_raw",
    "butterworth_bp_raw", "chebyshev1_lp_raw", "chebyshev2_lp_raw", "cascade_step", "cascade_block", "cascade_block_in_place",
    "cascade_reset", "fir_lp", "fir_from_coeffs", "fir_lp_raw", "fir_from_coeffs_raw", "fir_step", "fir_block", "fir_block_in_place",
    "fir_reset", "j211"};

/* The slices of a call with room behind each, their lengths, and the other arguments. */
enum slice { NUMBERS, COUNTS, TAPS, SAMPLES, FIR_COUNTS, INPUT, OUTPUT, BUFFER, ANSWER, CLOUDED, SLICES };
struct lent {
    double numbers[40], taps[80], samples[80], input[80], output[80], buffer[80], answer[4];
    size_t counts[6], fir_counts[6], clouded[4];
    size_t length[SLICES];
    size_t size, window, channel_class;
    double cutoff, high, decibels, rate, x, pulse_rate;
};

static unsigned tried, failed;

static void fail(const char *what, const char *name, unsigned expected, unsigned given) {
    failed++;
    printf("%s, %s: expected %u, given %u\n", name, what, expected, given);
}

static void check(int good, const char *what) {
    tried++;
    if (!good)
        fail(what, "state", 1, 0);
}

/* A good call of any function: a cascade of two sections and a first-order part, a FIR of three taps that holds two. */
static struct lent good(void) {
    struct lent s;
    static const size_t length[SLICES] = {PULSE_NUMBERS_LEN, PULSE_CASCADE_COUNTS_LEN, PULSE_TAPS_LEN, PULSE_SAMPLES_LEN, PULSE_FIR_COUNTS_LEN, 3, 5, 3, 1, 1};
    memset(&s, 0, sizeof s);
    for (int i = 0; i < 80; i++) {
        if (i < 40)
            s.numbers[i] = 0.5 / (i + 1);
        s.taps[i] = 0.25 / (i + 1);
        s.samples[i] = i + 1;
        s.input[i] = 2 - i;
        s.output[i] = 1000 + i;
        s.buffer[i] = 2 - i;
    }
    for (int i = 0; i < 4; i++) {
        s.answer[i] = 77;
        s.clouded[i] = 99;
    }
    s.counts[PULSE_SECTIONS] = 2;
    s.counts[PULSE_HAS_FIRST] = 1;
    s.fir_counts[PULSE_LENGTH] = 3;
    s.fir_counts[PULSE_HELD] = 2;
    s.fir_counts[PULSE_WINDOW] = PULSE_READY_MADE;
    memcpy(s.length, length, sizeof length);
    s.size = 3;
    s.window = PULSE_HAMMING;
    s.cutoff = 0.125;
    s.high = 0.25;
    s.decibels = 3;
    s.rate = 1;
    s.x = 1.5;
    s.channel_class = 60;
    s.pulse_rate = 10000;
    return s;
}

#define CASCADE s->numbers, s->length[NUMBERS], s->counts, s->length[COUNTS]
#define TAP_RECORD s->taps, s->length[TAPS], s->samples, s->length[SAMPLES], s->fir_counts, s->length[FIR_COUNTS]
#define THE_INPUT s->input, s->length[INPUT]
#define THE_OUTPUT s->output, s->length[OUTPUT], s->clouded, s->length[CLOUDED]
#define THE_BUFFER s->buffer, s->length[BUFFER], s->clouded, s->length[CLOUDED]
#define THE_ANSWER s->answer, s->length[ANSWER], s->clouded, s->length[CLOUDED]

static uint8_t call(enum function f, struct lent *s) {
    switch (f) {
    case LOW_PASS: return pulse_design_butterworth_lp(s->size, s->cutoff, s->rate, CASCADE);
    case HIGH_PASS: return pulse_design_butterworth_hp(s->size, s->cutoff, s->rate, CASCADE);
    case BAND_PASS: return pulse_design_butterworth_bp(s->size, s->cutoff, s->high, s->rate, CASCADE);
    case CHEBYSHEV1: return pulse_design_chebyshev1_lp(s->size, s->cutoff, s->decibels, s->rate, CASCADE);
    case CHEBYSHEV2: return pulse_design_chebyshev2_lp(s->size, s->cutoff, s->decibels, s->rate, CASCADE);
    case LOW_PASS_RAW: return pulse_design_butterworth_lp_raw(s->size, s->cutoff, s->rate, CASCADE);
    case HIGH_PASS_RAW: return pulse_design_butterworth_hp_raw(s->size, s->cutoff, s->rate, CASCADE);
    case BAND_PASS_RAW: return pulse_design_butterworth_bp_raw(s->size, s->cutoff, s->high, s->rate, CASCADE);
    case CHEBYSHEV1_RAW: return pulse_design_chebyshev1_lp_raw(s->size, s->cutoff, s->decibels, s->rate, CASCADE);
    case CHEBYSHEV2_RAW: return pulse_design_chebyshev2_lp_raw(s->size, s->cutoff, s->decibels, s->rate, CASCADE);
    case CASCADE_STEP: return pulse_cascade_step(CASCADE, s->x, THE_ANSWER);
    case CASCADE_BLOCK: return pulse_cascade_block(CASCADE, THE_INPUT, THE_OUTPUT);
    case CASCADE_IN_PLACE: return pulse_cascade_block_in_place(CASCADE, THE_BUFFER);
    case CASCADE_RESET: return pulse_cascade_reset(CASCADE);
    case FIR_DESIGN: return pulse_design_fir_lp(s->size, s->cutoff, s->window, TAP_RECORD);
    case FIR_COEFFS: return pulse_fir_from_coeffs(THE_INPUT, TAP_RECORD);
    case FIR_DESIGN_RAW: return pulse_design_fir_lp_raw(s->size, s->cutoff, s->window, TAP_RECORD);
    case FIR_COEFFS_RAW: return pulse_fir_from_coeffs_raw(THE_INPUT, TAP_RECORD);
    case FIR_STEP: return pulse_fir_step(TAP_RECORD, s->x, THE_ANSWER);
    case FIR_BLOCK: return pulse_fir_block(TAP_RECORD, THE_INPUT, THE_OUTPUT);
    case FIR_IN_PLACE: return pulse_fir_block_in_place(TAP_RECORD, THE_BUFFER);
    case FIR_RESET: return pulse_fir_reset(TAP_RECORD);
    default: return pulse_j211(s->channel_class, s->pulse_rate, s->buffer, s->length[BUFFER]);
    }
}

/* NaNs, quiet and signalling ones, each with other bits. */
static void fill_with_nans(double *places, size_t n) {
    for (size_t i = 0; i < n; i++) {
        uint64_t bits = (i % 2 ? UINT64_C(0x7FF0000000000001) : UINT64_C(0xFFF8000000000000)) + 8 * i;
        memcpy(places + i, &bits, sizeof bits);
    }
}

static void try_call(enum function f, struct lent s, uint8_t number, const char *what) {
    struct lent before = s;
    uint8_t given = call(f, &s);
    tried++;
    if (given != number)
        fail(what, names[f], number, given);
    else if (number && memcmp(&before, &s, sizeof s))
        fail("something is changed by a refused call", names[f], number, given);
}

/* NaNs in the slices of a filter's state, and in all others. */
static void fill_state(struct lent *s) {
    fill_with_nans(s->numbers, 40);
    fill_with_nans(s->taps, 80);
    fill_with_nans(s->samples, 80);
}

static void fill_others(struct lent *s) {
    fill_with_nans(s->input, 80);
    fill_with_nans(s->output, 80);
    fill_with_nans(s->buffer, 80);
    fill_with_nans(s->answer, 4);
}

/* The call must return the number and, where that is not 0, change nothing, whatever numbers the slices hold. */
static void expect(enum function f, struct lent s, uint8_t number, const char *what) {
    try_call(f, s, number, what);
    if (!number)
        return;
    fill_state(&s);
    fill_others(&s);
    try_call(f, s, number, what);
}

static int is_cascade(enum function f) { return f <= CASCADE_RESET; }
static int is_design(enum function f) { return f < CASCADE_STEP || (f >= FIR_DESIGN && f < FIR_STEP); }
static int is_block(enum function f) { return f == CASCADE_BLOCK || f == FIR_BLOCK; }
static int is_in_place(enum function f) { return f == CASCADE_IN_PLACE || f == FIR_IN_PLACE; }
static int is_step(enum function f) { return f == CASCADE_STEP || f == FIR_STEP; }

/* How many default forms stand before their raw forms. */
static int forms(enum function f) { return is_cascade(f) ? LOW_PASS_RAW - LOW_PASS : FIR_DESIGN_RAW - FIR_DESIGN; }
static int is_raw(enum function f) { return (f >= LOW_PASS_RAW && f < CASCADE_STEP) || (f >= FIR_DESIGN_RAW && f < FIR_STEP); }
static enum function raw_of(enum function f) { return f + forms(f); }
static enum function default_of(enum function f) { return is_raw(f) ? f - forms(f) : f; }

/* Whether 13 watches the length of the slice. */
static int is_watched(enum function f, enum slice slice) {
    switch (slice) {
    case NUMBERS: case COUNTS: return is_cascade(f);
    case TAPS: case SAMPLES: case FIR_COUNTS: return !is_cascade(f);
    case ANSWER: return is_step(f);
    case CLOUDED: return is_step(f) || is_block(f) || is_in_place(f);
    default: return 0;
    }
}

/* Everything wrong that draws a number other than 13. */
static void spoil(struct lent *s) {
    s->size = 0;
    s->rate = 0;
    s->counts[PULSE_SECTIONS] = 5;
    s->fir_counts[PULSE_LENGTH] = 65;
    s->length[OUTPUT] = 1;
}

static void wrong_lengths(void) {
    for (int f = 0; f < J211; f++) {
        expect(f, good(), 0, "a good call");
        for (int slice = 0; slice < SLICES; slice++) {
            size_t right = good().length[slice];
            size_t wrong[] = {0, right - 1, right + 1};
            for (int i = 0; i < 3 && is_watched(f, slice); i++) {
                struct lent s = good();
                s.length[slice] = wrong[i];
                expect(f, s, PULSE_BAD_CALL, "a slice of a wrong length");
                spoil(&s);
                expect(f, s, PULSE_BAD_CALL, "a wrong length before any other refusal");
            }
        }
    }
}

/* A count of the state, or of a call, set to a value that is refused: alone, before a short output, and with no sample. */
static void refused_count(enum function f, size_t place, size_t value, uint8_t number) {
    struct lent s = good();
    (is_cascade(f) ? s.counts : s.fir_counts)[place] = value;
    expect(f, s, number, "a damaged state");
    s.length[OUTPUT] = 0;
    expect(f, s, number, "a damaged state before a short output");
    s.length[INPUT] = s.length[BUFFER] = 0;
    expect(f, s, number, "a damaged state and no sample");
    if (number == PULSE_BAD_CALL) {
        spoil(&s);
        expect(f, s, number, "a bad flag before any other refusal");
    }
}

static void damaged_states(void) {
    const size_t wide[] = {0, 256, (size_t)1 << 32, (size_t)1 << 63};
    for (int f = 0; f < J211; f++) {
        for (int i = 0; i < 4 && !is_design(f); i++) {
            if (is_cascade(f)) {
                refused_count(f, PULSE_HAS_FIRST, wide[i] + (i ? 1 : 2), PULSE_BAD_CALL);
                refused_count(f, PULSE_CLOUD, wide[i] + (i ? 0 : 2), PULSE_BAD_CALL);
                refused_count(f, PULSE_SECTIONS, wide[i] + (i ? 2 : 5), PULSE_BAD_CASCADE);
            } else {
                refused_count(f, PULSE_LENGTH, wide[i] + (i ? 3 : 65), PULSE_BAD_TAPS);
                refused_count(f, PULSE_LENGTH, i ? 1 : 0, PULSE_BAD_TAPS);
                refused_count(f, PULSE_HELD, wide[i] + (i ? 2 : 4), PULSE_BAD_TAPS);
                refused_count(f, PULSE_WINDOW, wide[i] + (i ? 4 : 5), PULSE_BAD_TAPS);
            }
        }
        struct lent s = good();
        s.counts[PULSE_SECTIONS] = s.counts[PULSE_HAS_FIRST] = 0;
        if (is_cascade(f) && !is_design(f))
            expect(f, s, PULSE_BAD_CASCADE, "neither a section nor a first-order part");
        for (size_t n = 0; n < 3 && is_block(f); n++) {
            s = good();
            s.length[OUTPUT] = n;
            expect(f, s, PULSE_SHORT_OUTPUT, "a short output");
        }
    }
}

/* The designs' refusals, each before those that 01 puts behind it. */
static void refused_cascade(enum function f) {
    enum function kind = default_of(f);
    struct lent s = good();
    s.decibels = NAN;
    if (kind >= CHEBYSHEV1)
        expect(f, s, PULSE_INVALID_RIPPLE, "decibels NaN");
    s.cutoff = kind == BAND_PASS ? 0.25 : 0.5;
    expect(f, s, PULSE_INVALID_FREQUENCY, "cutoff at half the rate, or band edges the same");
    s.rate = kind == BAND_PASS ? 0 : NAN;
    expect(f, s, kind == BAND_PASS ? PULSE_INVALID_FREQUENCY : PULSE_INVALID_SAMPLE_RATE, "the rate too");
    s.size = kind == BAND_PASS ? 5 : 9;
    expect(f, s, PULSE_INVALID_ORDER, "order too large");
    s.size = ((size_t)1 << 32) + 2;
    expect(f, s, PULSE_INVALID_ORDER, "order far too large");
    s = good();
    s.rate = NAN;
    expect(f, s, PULSE_INVALID_SAMPLE_RATE, "rate NaN");
}

static void refused_taps(enum function design, enum function coeffs) {
    struct lent s = good();
    s.cutoff = 0.5;
    expect(design, s, PULSE_INVALID_FREQUENCY, "cutoff 0.5");
    s.size = 65;
    expect(design, s, PULSE_INVALID_ORDER, "65 taps");
    s.window = PULSE_READY_MADE;
    expect(design, s, PULSE_BAD_CALL, "window code 4");
    s.window = 256;
    expect(design, s, PULSE_BAD_CALL, "window code 256");
    for (s.length[INPUT] = 0; s.length[INPUT] < 70; s.length[INPUT]++)
        expect(coeffs, s, s.length[INPUT] == 0 || s.length[INPUT] > 64 ? PULSE_INVALID_ORDER : 0, "ready-made taps by their number");
}

static void refused_designs(void) {
    for (int f = LOW_PASS; f < CASCADE_STEP; f++)
        refused_cascade(f);
    refused_taps(FIR_DESIGN, FIR_COEFFS);
    refused_taps(FIR_DESIGN_RAW, FIR_COEFFS_RAW);
}

static int is_plus_zero(double x) { return x == 0 && !signbit(x); }

static int same(const double *a, const double *b, size_t n) {
    for (size_t i = 0; i < n; i++)
        if (memcmp(a + i, b + i, sizeof *a) && !(isnan(a[i]) && isnan(b[i])))
            return 0;
    return 1;
}

/* Whether the place of `numbers` is a coefficient of a used part. */
static int is_coefficient(const struct lent *s, size_t place) {
    if (place >= PULSE_FIRST_B0)
        return s->counts[PULSE_HAS_FIRST] && place < PULSE_FIRST_W;
    return place / PULSE_SECTION_LEN < s->counts[PULSE_SECTIONS] && place % PULSE_SECTION_LEN < PULSE_W1;
}

static void designed_places(void) {
    for (int f = LOW_PASS; f < CASCADE_STEP; f++) {
        struct lent s = good(), old = good();
        s.counts[PULSE_CLOUD] = 1;
        call(f, &s);
        int has_first = default_of(f) != BAND_PASS;
        size_t sections = has_first ? 1 : 3;
        check(s.counts[PULSE_SECTIONS] == sections && s.counts[PULSE_HAS_FIRST] == (size_t)has_first && s.counts[PULSE_CLOUD] == 0, "counts of a design");
        for (size_t i = 0; i < PULSE_NUMBERS_LEN; i++)
            check(is_plus_zero(s.numbers[i]) || is_coefficient(&s, i), "unused parts and carried values of a design are +0");
        check(memcmp(s.numbers + PULSE_NUMBERS_LEN, old.numbers + PULSE_NUMBERS_LEN, 8 * sizeof(double)) == 0, "places behind the numbers");
    }
}

/* Three taps: the places behind them, and all samples, are +0. */
static void three_taps(const struct lent *s, size_t window) {
    check(s->fir_counts[PULSE_LENGTH] == 3 && s->fir_counts[PULSE_HELD] == 0 && s->fir_counts[PULSE_WINDOW] == window, "counts of new taps");
    for (size_t i = 0; i < PULSE_TAPS_LEN; i++)
        check(is_plus_zero(s->samples[i]) && (i < 3 || is_plus_zero(s->taps[i])), "places behind new taps, and samples, are +0");
    check(s->taps[PULSE_TAPS_LEN] == good().taps[PULSE_TAPS_LEN] && s->samples[PULSE_SAMPLES_LEN] == good().samples[PULSE_SAMPLES_LEN], "places behind the slices");
}

static void tap_places(void) {
    for (int f = FIR_DESIGN; f < FIR_STEP; f++) {
        int is_ready_made = default_of(f) == FIR_COEFFS;
        struct lent s = good();
        call(f, &s);
        check(!is_ready_made || (s.taps[0] == 2 && s.taps[1] == 1 && s.taps[2] == 0), "ready-made taps");
        three_taps(&s, is_ready_made ? PULSE_READY_MADE : PULSE_HAMMING);
    }
}

/* Default and raw forms: 02's Q-3. */

/* A design by its numbers; the decibels are of a Chebyshev low pass, `high` is of a band pass, the window of a FIR. */
struct asked {
    enum function f;
    size_t size;
    double cutoff, high, decibels, rate;
    size_t window;
};

static struct lent lent_for(struct asked a) {
    struct lent s = good();
    s.size = a.size;
    s.cutoff = a.cutoff;
    s.high = a.high;
    s.decibels = a.decibels;
    s.rate = a.rate;
    s.window = a.window;
    return s;
}

/* What the used coefficients of a filter are, a letter each: N a NaN, I an infinity, a dot for a finite number. Those of the
 * first-order part come first, a space parts it and the sections. */
enum { MOST_LETTERS = 80 };
static void put_letters(char *word, const double *x, size_t n) {
    word += strlen(word);
    for (size_t i = 0; i < n; i++)
        *word++ = isnan(x[i]) ? 'N' : isinf(x[i]) ? 'I' : '.';
    *word = 0;
}

static void letters_of(enum function f, const struct lent *s, char *word) {
    *word = 0;
    if (!is_cascade(f)) {
        put_letters(word, s->taps, s->fir_counts[PULSE_LENGTH] % (PULSE_TAPS_LEN + 1));
        return;
    }
    if (s->counts[PULSE_HAS_FIRST])
        put_letters(word, s->numbers + PULSE_FIRST_B0, 3);
    for (size_t i = 0; i < s->counts[PULSE_SECTIONS] && i < PULSE_MAX_SECTIONS; i++) {
        if (*word)
            strcat(word, " ");
        put_letters(word, s->numbers + PULSE_SECTION_LEN * i, PULSE_W1);
    }
}

/* Whether every place of the state but the used coefficients is +0, and no sample was met. */
static int is_blank_but_for_coefficients(enum function f, const struct lent *s) {
    int blank = is_cascade(f) ? s->counts[PULSE_CLOUD] == 0 : s->fir_counts[PULSE_HELD] == 0;
    for (size_t i = 0; i < PULSE_NUMBERS_LEN && is_cascade(f); i++)
        blank &= is_coefficient(s, i) || is_plus_zero(s->numbers[i]);
    for (size_t i = 0; i < PULSE_TAPS_LEN && !is_cascade(f); i++)
        blank &= (i < s->fir_counts[PULSE_LENGTH] || is_plus_zero(s->taps[i])) && is_plus_zero(s->samples[i]);
    return blank;
}

/* Whether the raw form accepts, leaves these letters and +0 elsewhere in the state, and nothing behind it. */
static int is_made_raw(enum function f, struct lent s, const char *letters) {
    char word[MOST_LETTERS];
    fill_state(&s);
    s.counts[PULSE_CLOUD] = 1;
    struct lent before = s;
    int made = call(raw_of(f), &s) == 0 && is_blank_but_for_coefficients(f, &s);
    letters_of(f, &s, word);
    return made && strcmp(word, letters) == 0 && memcmp(s.numbers + PULSE_NUMBERS_LEN, before.numbers + PULSE_NUMBERS_LEN, 8 * sizeof(double)) == 0
        && memcmp(s.taps + PULSE_TAPS_LEN, before.taps + PULSE_TAPS_LEN, 16 * sizeof(double)) == 0
        && memcmp(s.samples + PULSE_SAMPLES_LEN, before.samples + PULSE_SAMPLES_LEN, 16 * sizeof(double)) == 0;
}

/* What 01 refuses by, in the order of the kind, and last what 02 does. */
static const uint8_t *reasons_of(enum function kind) {
    static const uint8_t pass[] = {13, 1, 3, 2, 25, 0}, band[] = {13, 1, 2, 3, 25, 0}, chebyshev[] = {13, 1, 3, 2, 4, 25, 0}, fir[] = {13, 1, 2, 25, 0},
                         coeffs[] = {13, 1, 25, 0};
    switch (kind) {
    case LOW_PASS: case HIGH_PASS: return pass;
    case BAND_PASS: return band;
    case CHEBYSHEV1: case CHEBYSHEV2: return chebyshev;
    default: return kind == FIR_DESIGN ? fir : coeffs;
    }
}

/* Something wrong that draws the number, one of two ways. A band pass refuses the rate 0 by 2. */
static void give_reason(enum function kind, struct lent *s, uint8_t number, int other) {
    double bad = other ? 0 : NAN;
    switch (number) {
    case 13: s->length[is_cascade(kind) ? (other ? NUMBERS : COUNTS) : (other ? SAMPLES : FIR_COUNTS)]++; break;
    case 1: s->size = s->length[INPUT] = other ? 0 : 65; break;
    case 2: s->cutoff = bad; break;
    case 3: s->rate = kind == BAND_PASS ? NAN : bad; break;
    case 4: s->decibels = bad; break;
    default: break;
    }
}

/* A default form whose coefficients are not all finite: every set of other reasons, of which the first must be returned, and 25
 * where there is none. The raw form returns the same, and 0 for 25. */
static void reasons_and_25(enum function f, struct lent bad) {
    const uint8_t *reasons = reasons_of(f);
    size_t n = strlen((const char *)reasons) - 1;
    for (unsigned set = 0; set < 1u << n; set++)
        for (int other = 0; other < 2; other++) {
            struct lent s = bad;
            uint8_t number = PULSE_NON_FINITE_COEFFICIENT;
            for (size_t i = n; i-- > 0;)
                if (set >> i & 1) {
                    give_reason(f, &s, reasons[i], other);
                    number = reasons[i];
                }
            expect(f, s, number, "coefficients that are not finite, and other reasons");
            expect(raw_of(f), s, set ? number : 0, "the raw form of it");
        }
}

static void not_finite(enum function f, struct lent s, const char *letters) {
    expect(f, s, PULSE_NON_FINITE_COEFFICIENT, "a coefficient that is not finite");
    check(is_made_raw(f, s, letters), "what a raw form makes of coefficients that are not finite");
}

/* Designs that have NaNs in every part, or in some alone. Infinities are tried in ready-made taps: no design is known that has one. */
static const struct nan_design {
    struct asked asked;
    const char *letters;
} nan_designs[] = {
    {{LOW_PASS, 3, 8e307, 0, 0, DBL_MAX, 0}, "NNN NNNNN"},
    {{LOW_PASS, 1, 1e308, 0, 0, INFINITY, 0}, "NNN"},
    {{HIGH_PASS, 3, 8e307, 0, 0, DBL_MAX, 0}, "NNN NNNNN"},
    {{HIGH_PASS, 2, 1e308, 0, 0, INFINITY, 0}, "NNNNN"},
    {{BAND_PASS, 1, 1, 8e307, 0, DBL_MAX, 0}, "N.NNN"},
    {{BAND_PASS, 2, 1, 1.0001, 0, 4, 0}, "...NN ...NN"},
    {{BAND_PASS, 3, 1, 1.0001, 0, 4, 0}, "...NN ...NN ....."},
    {{BAND_PASS, 4, 1, 1.0001, 0, 4, 0}, "...NN ...NN ...NN ...NN"},
    {{BAND_PASS, 4, 0.2495983436657524, 0.24963284238591849, 0, 1, 0}, "..... ..... ...NN ...NN"},
    {{BAND_PASS, 4, 4.491306378778225e307, 4.49203654027464e307, 0, DBL_MAX, 0}, "...NN ...NN ..... ....."},
    {{CHEBYSHEV1, 3, 0.1, 0, 2e-16, 1, 0}, "NNN NNNNN"},
    {{CHEBYSHEV1, 8, 0.1, 0, 1e-17, 1, 0}, "NNNNN NNNNN NNNNN NNNNN"},
    {{CHEBYSHEV1, 1, 0.1, 0, 5e-324, 1, 0}, "NNN"},
    {{CHEBYSHEV1, 2, 8e307, 0, 3, DBL_MAX, 0}, "NNNNN"},
    {{CHEBYSHEV2, 3, 0.1, 0, 2e-16, 1, 0}, "NNN ....."},
    {{CHEBYSHEV2, 7, 0.1, 0, 5e-324, 1, 0}, "NNN ..... ..... ....."},
    {{CHEBYSHEV2, 2, 0.1, 0, 3090, 1, 0}, "NNNNN"},
    {{CHEBYSHEV2, 7, 0.1, 0, 7000, 1, 0}, "... NNNNN NNNNN NNNNN"},
    {{CHEBYSHEV2, 3, 0.1, 0, INFINITY, 1, 0}, "... NNNNN"},
    {{FIR_DESIGN, 1, 0.25, 0, 0, 1, PULSE_HAMMING}, "N"},
    {{FIR_DESIGN, 1, 0.25, 0, 0, 1, PULSE_HANNING}, "N"},
    {{FIR_DESIGN, 1, 5e-324, 0, 0, 1, PULSE_BLACKMAN}, "N"},
};

static size_t most_of(enum function kind) { return kind == BAND_PASS ? PULSE_MAX_BANDPASS_ORDER : PULSE_MAX_ORDER; }

/* Every order, with a cutoff so large that PI times it overflows. */
static void overflowing_designs(void) {
    for (int f = LOW_PASS; f <= CHEBYSHEV2; f++)
        for (size_t order = 1; order <= most_of(f); order++) {
            int is_band = f == BAND_PASS;
            char letters[MOST_LETTERS] = "";
            if (!is_band && order % 2)
                strcat(letters, "NNN");
            for (size_t i = 0; i < (is_band ? order : order / 2); i++) {
                strcat(letters, *letters ? " " : "");
                strcat(letters, is_band ? "N.NNN" : "NNNNN");
            }
            not_finite(f, lent_for((struct asked){f, order, 7e307, 8e307, 3, DBL_MAX, 0}), letters);
        }
}

/* A number that is not finite at each place of 1 to 64 ready-made taps, and NaNs behind them, which do not count. */
static void not_finite_taps(void) {
    double numbers[6] = {INFINITY, -INFINITY};
    fill_with_nans(numbers + 2, 4);
    for (size_t n = 1; n <= PULSE_MAX_TAPS; n++) {
        struct lent s = good();
        s.length[INPUT] = n;
        fill_with_nans(s.input + n, 80 - n);
        expect(FIR_COEFFS, s, 0, "NaNs behind ready-made taps");
        for (size_t at = 0; at < n; at++)
            for (int i = 0; i < 6; i++) {
                struct lent bad = s;
                char letters[MOST_LETTERS] = "";
                memcpy(bad.input + at, numbers + i, sizeof *numbers);
                put_letters(letters, bad.input, n);
                not_finite(FIR_COEFFS, bad, letters);
                check(call(FIR_COEFFS_RAW, &bad) == 0 && same(bad.taps, bad.input, n), "ready-made taps that are not finite by their numbers");
            }
    }
}

/* Whether the state's own places have the same bits in both. */
static int same_bits(enum function f, const struct lent *a, const struct lent *b) {
    if (is_cascade(f))
        return memcmp(a->numbers, b->numbers, PULSE_NUMBERS_LEN * sizeof(double)) == 0 && memcmp(a->counts, b->counts, sizeof a->counts) == 0;
    return memcmp(a->taps, b->taps, PULSE_TAPS_LEN * sizeof(double)) == 0 && memcmp(a->samples, b->samples, PULSE_SAMPLES_LEN * sizeof(double)) == 0
        && memcmp(a->fir_counts, b->fir_counts, sizeof a->fir_counts) == 0;
}

/* Both forms of a call whose coefficients are finite: accepted, and the same in every place. NaNs that the state held do not count. */
static void same_forms(enum function f, struct lent s, const char *what) {
    struct lent raw = s, full = s;
    char word[MOST_LETTERS];
    fill_state(&full);
    uint8_t given = call(f, &s);
    letters_of(f, &s, word);
    tried++;
    if (given || strpbrk(word, "NI") || call(raw_of(f), &raw) || memcmp(&s, &raw, sizeof s) || call(f, &full) || !same_bits(f, &s, &full))
        fail(what, names[f], 0, given);
}

/* Every order and number of taps, also at an infinite rate. */
static void finite_designs(void) {
    static const double cutoffs[] = {5e-324, 1e-9, 0.01, 0.125, 0.2, 0.249}, decibels[] = {1e-3, 0.5, 3, 40};
    for (int i = 0; i < 6 * 4; i++) {
        struct asked a = {LOW_PASS, 0, cutoffs[i % 6], 0.4, decibels[i / 6], i % 2 ? 1 : INFINITY, (size_t)(i / 6)};
        for (int f = LOW_PASS; f <= CHEBYSHEV2; f++)
            for (a.size = 1; a.size <= most_of(f); a.size++)
                same_forms(f, lent_for(a), "both forms of a design");
        for (a.size = a.window == PULSE_RECTANGULAR ? 1 : 2; a.size <= PULSE_MAX_TAPS; a.size++)
            same_forms(FIR_DESIGN, lent_for(a), "both forms of a FIR");
    }
}

/* Every number of ready-made taps, with the largest and the smallest numbers too. */
static void finite_taps(void) {
    static const double ends[] = {DBL_MAX, -DBL_MAX, 5e-324, -5e-324, DBL_MIN, 0.0, -0.0};
    for (size_t n = 1; n <= PULSE_MAX_TAPS; n++) {
        struct lent s = good();
        s.length[INPUT] = n;
        same_forms(FIR_COEFFS, s, "both forms of ready-made taps");
        for (size_t i = 0; i < n; i++)
            s.input[i] = ends[(n + i) % 7];
        same_forms(FIR_COEFFS, s, "both forms of ready-made taps, the largest and the smallest");
    }
}

/* Finite and useless, and accepted by both forms: two Blackman taps, two Hanning taps, a narrow band pass off its frequency. */
static void useless_designs(void) {
    struct asked blackman = {FIR_DESIGN, 2, 0.25, 0, 0, 1, PULSE_BLACKMAN}, hanning = blackman, narrow = {BAND_PASS, 2, 999.5, 1000.5, 0, 10000, 0};
    hanning.window = PULSE_HANNING;
    same_forms(FIR_DESIGN, lent_for(blackman), "two Blackman taps");
    same_forms(FIR_DESIGN, lent_for(hanning), "two Hanning taps");
    same_forms(BAND_PASS, lent_for(narrow), "a narrow band pass");
    struct lent s = lent_for(blackman);
    check(call(FIR_DESIGN, &s) == 0 && s.taps[0] != 0 && s.taps[0] == s.taps[1] && fabs(s.taps[0] + 6.2e-18) < 1e-19, "two Blackman taps by their numbers");
}

static void default_and_raw(void) {
    for (size_t i = 0; i < sizeof nan_designs / sizeof *nan_designs; i++) {
        const struct nan_design *d = nan_designs + i;
        not_finite(d->asked.f, lent_for(d->asked), d->letters);
        reasons_and_25(d->asked.f, lent_for(d->asked));
    }
    struct lent taps = good();
    taps.input[1] = -INFINITY;
    reasons_and_25(FIR_COEFFS, taps);
    overflowing_designs();
    not_finite_taps();
    finite_designs();
    finite_taps();
    useless_designs();
}

/* An answer that overflows from a finite sample is Clear. */
static void overflow(void) {
    struct lent s = good();
    s.numbers[PULSE_B0] = s.taps[0] = s.x = 1e308;
    call(CASCADE_STEP, &s);
    check(isinf(s.answer[0]) && s.clouded[0] == 0 && s.counts[PULSE_CLOUD] == 0, "a cascade's answer that overflows is Clear");
    call(FIR_STEP, &s);
    check(isinf(s.answer[0]) && s.clouded[0] == 0, "a FIR's answer that overflows is Clear");
}

static void cascade_places(void) {
    struct lent s = good(), old = good();
    call(CASCADE_STEP, &s);
    for (size_t i = 0; i < 40; i++) {
        int moves = i == PULSE_W1 || i == PULSE_W2 || i == 7 + PULSE_W1 || i == 7 + PULSE_W2 || i == PULSE_FIRST_W;
        check((s.numbers[i] != old.numbers[i]) == moves, "a step moves the carried values of the used parts alone");
    }
    check(s.clouded[0] == 0 && s.counts[PULSE_CLOUD] == 0 && s.answer[0] != 77 && s.answer[1] == 77, "a Clear step");
    s.input[1] = INFINITY;
    call(CASCADE_BLOCK, &s);
    check(s.clouded[0] == 2 && s.counts[PULSE_CLOUD] == 1, "Clouded from the sample that is not finite on");
    check(isfinite(s.output[0]) && !isfinite(s.output[1]) && !isfinite(s.output[2]) && s.output[3] == 1003, "output of a block");
    s.length[INPUT] = 0;
    old = s;
    old.clouded[0] = 0;
    call(CASCADE_BLOCK, &s);
    check(memcmp(&s, &old, sizeof s) == 0, "an empty block");
    call(CASCADE_RESET, &s);
    for (size_t i = 0; i < PULSE_NUMBERS_LEN; i++) {
        int is_carried = i == PULSE_FIRST_W || (i < PULSE_FIRST_B0 && i % PULSE_SECTION_LEN >= PULSE_W1);
        check(is_carried ? is_plus_zero(s.numbers[i]) : s.numbers[i] == good().numbers[i], "a reset");
    }
    check(s.counts[PULSE_SECTIONS] == 2 && s.counts[PULSE_HAS_FIRST] == 1 && s.counts[PULSE_CLOUD] == 0, "counts of a reset cascade");
}

/* Taps 0.25, 0.125, 0.25 / 3; samples 1, 2 and behind them 3. */
static void fir_places(void) {
    struct lent s = good(), old = good();
    call(FIR_STEP, &s);
    check(s.samples[0] == 1.5 && s.samples[1] == 1 && s.samples[2] == 2 && s.samples[3] == 4, "a step moves the samples of the first three places");
    check(s.fir_counts[PULSE_HELD] == 3 && s.clouded[0] == 0 && s.answer[0] == (0.25 * 1.5 + 0.125 * 1) + 0.25 / 3 * 2, "a step");
    s = good();
    s.fir_counts[PULSE_HELD] = 0;
    s.samples[1] = NAN;
    call(FIR_STEP, &s);
    check(s.answer[0] == 0.375 && s.clouded[0] == 0 && s.samples[1] == 1 && isnan(s.samples[2]) && s.fir_counts[PULSE_HELD] == 1, "a step that holds its sample alone");
    s.input[1] = NAN;
    s.length[INPUT] = 5;
    call(FIR_BLOCK, &s);
    check(s.clouded[0] == 3 && s.fir_counts[PULSE_HELD] == 3 && s.samples[0] == -2 && s.samples[2] == 0, "Clouded while the sample is held");
    check(isfinite(s.output[0]) && isnan(s.output[3]) && isfinite(s.output[4]) && s.output[5] == 1005, "output of a block");
    s.length[INPUT] = 0;
    old = s;
    old.clouded[0] = 0;
    call(FIR_BLOCK, &s);
    check(memcmp(&s, &old, sizeof s) == 0, "an empty block");
    call(FIR_RESET, &s);
    for (size_t i = 0; i < PULSE_SAMPLES_LEN; i++)
        check(is_plus_zero(s.samples[i]) && s.taps[i] == good().taps[i], "a reset");
    check(s.samples[64] == 65 && s.fir_counts[PULSE_LENGTH] == 3 && s.fir_counts[PULSE_HELD] == 0 && s.fir_counts[PULSE_WINDOW] == 4, "counts of a reset FIR");
}

enum { LONGEST = 600, GUARDS = 8 };

/* What a block over two arrays, or one in place, comes to: the state, the answers with guard places behind them, the count. */
struct outcome {
    struct lent state;
    double answers[LONGEST + GUARDS];
    size_t clouded;
    uint8_t refusal;
};

static uint8_t over_two_arrays(int cascade, struct lent *s, const double *input, double *output, size_t n, size_t *clouded) {
    return cascade ? pulse_cascade_block(CASCADE, input, n, output, n, clouded, 1) : pulse_fir_block(TAP_RECORD, input, n, output, n, clouded, 1);
}

static uint8_t in_place(int cascade, struct lent *s, double *buffer, size_t n, size_t *clouded) {
    return cascade ? pulse_cascade_block_in_place(CASCADE, buffer, n, clouded, 1) : pulse_fir_block_in_place(TAP_RECORD, buffer, n, clouded, 1);
}

/* Samples: finite ones alone, or with a NaN in the middle, an infinity at the end, or an infinity in front. */
enum { MOODS = 4 };
static void fill_with_samples(double *places, size_t n, int mood) {
    for (size_t i = 0; i < n; i++)
        places[i] = (double)(i * 37 % 101) / 16 - 3;
    if (n && mood == 1)
        fill_with_nans(places + n / 2, 1);
    if (n && mood >= 2)
        places[mood == 2 ? n - 1 : 0] = mood == 2 ? INFINITY : -INFINITY;
}

/* A cascade with an unused section, or a FIR of 40 taps that holds 17 samples: a place that a call leaves holds a NaN. */
static struct lent long_state(void) {
    struct lent s = good();
    fill_with_nans(s.numbers + 2 * PULSE_SECTION_LEN, 2 * PULSE_SECTION_LEN);
    fill_with_nans(s.samples + 40, 40);
    fill_with_nans(s.taps + 40, 40);
    s.fir_counts[PULSE_LENGTH] = 40;
    s.fir_counts[PULSE_HELD] = 17;
    return s;
}

/* Whether the places that neither call writes have their very bits, and the others are the same in both. */
static int agree(const struct outcome *a, const struct outcome *b, size_t n) {
    struct lent before = long_state(), left = b->state;
    int kept = memcmp(left.numbers + 14, before.numbers + 14, 14 * sizeof(double)) == 0 && memcmp(left.taps, before.taps, sizeof left.taps) == 0
        && memcmp(left.samples + 40, before.samples + 40, 40 * sizeof(double)) == 0 && memcmp(a->answers + n, b->answers + n, GUARDS * sizeof(double)) == 0;
    return kept && a->refusal == b->refusal && a->clouded == b->clouded && same(a->answers, b->answers, n) && same(a->state.numbers, left.numbers, 40)
        && same(a->state.samples, left.samples, 80) && memcmp(a->state.counts, left.counts, sizeof left.counts) == 0
        && memcmp(a->state.fir_counts, left.fir_counts, sizeof left.fir_counts) == 0;
}

/* A block in place, beside the block over two arrays. */
static void in_place_and_apart(int cascade, size_t n, int mood) {
    static double input[LONGEST];
    static struct outcome two, one;
    two.state = long_state();
    two.clouded = 99;
    fill_with_nans(two.answers, LONGEST + GUARDS);
    one = two;
    fill_with_samples(input, n, mood);
    memcpy(one.answers, input, n * sizeof *input);
    two.refusal = over_two_arrays(cascade, &two.state, input, two.answers, n, &two.clouded);
    one.refusal = in_place(cascade, &one.state, one.answers, n, &one.clouded);
    check(one.refusal == 0 && agree(&two, &one, n), cascade ? "a cascade's block in place" : "a FIR's block in place");
}

/* Marks and answers of blocks in place, by hand: a cascade that passes samples on, a FIR of the one tap 2. */
static void in_place_by_hand(void) {
    struct lent s = good();
    s.counts[PULSE_SECTIONS] = 1;
    s.counts[PULSE_HAS_FIRST] = 0;
    memset(s.numbers, 0, PULSE_SECTION_LEN * sizeof(double));
    s.numbers[PULSE_B0] = 1;
    s.buffer[1] = INFINITY;
    call(CASCADE_IN_PLACE, &s);
    check(s.buffer[0] == 2 && isinf(s.buffer[1]) && s.buffer[3] == -1 && s.clouded[0] == 2 && s.clouded[1] == 99 && s.counts[PULSE_CLOUD] == 1, "a cascade in place");
    s = good();
    s.taps[0] = 2;
    s.fir_counts[PULSE_LENGTH] = s.fir_counts[PULSE_HELD] = 1;
    s.buffer[1] = NAN;
    call(FIR_IN_PLACE, &s);
    check(s.buffer[0] == 4 && isnan(s.buffer[1]) && s.buffer[2] == 0 && s.buffer[3] == -1 && s.clouded[0] == 1 && s.clouded[1] == 99, "a FIR in place");
    check(s.samples[0] == 0 && s.samples[1] == 2 && s.fir_counts[PULSE_HELD] == 1, "the record after a block in place");
}

/* An empty buffer leaves all but the count. */
static void empty_in_place(enum function f) {
    struct lent s = good(), old;
    s.length[BUFFER] = 0;
    fill_with_nans(s.buffer, 80);
    old = s;
    old.clouded[0] = 0;
    check(call(f, &s) == 0 && memcmp(&s, &old, sizeof s) == 0, "an empty buffer");
}

static void blocks_in_place(void) {
    in_place_by_hand();
    empty_in_place(CASCADE_IN_PLACE);
    empty_in_place(FIR_IN_PLACE);
    for (size_t n = 0; n <= LONGEST; n++)
        for (int mood = 0; mood < MOODS; mood++) {
            in_place_and_apart(0, n, mood);
            in_place_and_apart(1, n, mood);
        }
}

/* Whole pulses. */
static const size_t classes[] = {60, 180, 600, 1000};
enum { CLASSES = 4 };

/* The greatest rate that 2 refuses. */
static double limit(size_t channel_class) { return 2 * ((double)channel_class * 2.0775); }

/* A call by its class and rate, with samples and with none. */
static void expect_pulse(size_t channel_class, double rate, uint8_t number, const char *what) {
    struct lent s = good();
    s.channel_class = channel_class;
    s.pulse_rate = rate;
    s.length[BUFFER] = 80 - GUARDS;
    expect(J211, s, number, what);
    s.length[BUFFER] = 0;
    expect(J211, s, number, what);
}

/* 21, also where 3 or 2 could be said, or both. */
static void refused_class(size_t channel_class) {
    expect_pulse(channel_class, 10000, PULSE_INVALID_CLASS, "another class");
    expect_pulse(channel_class, INFINITY, PULSE_INVALID_CLASS, "another class at an infinite rate");
    expect_pulse(channel_class, NAN, PULSE_INVALID_CLASS, "another class, and the rate a NaN");
    expect_pulse(channel_class, 1e-3, PULSE_INVALID_CLASS, "another class, and the rate too low");
    expect_pulse(channel_class, limit(channel_class), PULSE_INVALID_CLASS, "another class, and the rate at its limit");
    expect_pulse(channel_class, 0, PULSE_INVALID_CLASS, "another class, and the rate 0");
    expect_pulse(channel_class, -1, PULSE_INVALID_CLASS, "another class, and the rate negative");
}

/* Numbers about the classes, and numbers that end in the bits of one. */
static void refused_classes(void) {
    const size_t others[] = {0, 1, 120, 1002, 2000, SIZE_MAX};
    const size_t wide[] = {256, 65536, (size_t)1 << 32, (size_t)1 << 63};
    for (int i = 0; i < 6; i++)
        refused_class(others[i]);
    for (int i = 0; i < CLASSES; i++) {
        refused_class(classes[i] - 1);
        refused_class(classes[i] + 1);
        for (int j = 0; j < 4; j++)
            refused_class(classes[i] + wide[j]);
    }
}

/* The rates of a class: 3, also where 2 could be said; then 2 up to the limit; accepted from the next number on. */
static void pulse_rates(size_t channel_class) {
    const double most = limit(channel_class), least = 5e-324;
    const double not_positive[] = {0.0, -0.0, -least, -DBL_MIN, -1, -10000, -DBL_MAX, -INFINITY};
    const double low[] = {least, DBL_MIN / 2, DBL_MIN, 1, most / 2, nextafter(most, 0), most};
    const double high[] = {nextafter(most, INFINITY), 2 * most, 10000, DBL_MAX, INFINITY};
    double nans[4];
    fill_with_nans(nans, 4);
    for (int i = 0; i < 8; i++)
        expect_pulse(channel_class, not_positive[i], PULSE_INVALID_SAMPLE_RATE, "a rate at most 0");
    for (int i = 0; i < 4; i++)
        expect_pulse(channel_class, nans[i], PULSE_INVALID_SAMPLE_RATE, "a rate that is a NaN");
    for (int i = 0; i < 7; i++)
        expect_pulse(channel_class, low[i], PULSE_INVALID_FREQUENCY, "a rate up to the limit");
    for (int i = 0; i < 5; i++)
        expect_pulse(channel_class, high[i], 0, "a rate above the limit");
}

/* Samples between guard places, and what a call makes of them. */
struct pulse {
    double front[GUARDS], places[LONGEST + GUARDS];
};

/* The moods of fill_with_samples, then subnormal samples, and samples near the largest number. */
enum { PULSE_MOODS = MOODS + 2 };
static struct pulse pulse_of(size_t n, int mood) {
    struct pulse p;
    fill_with_nans(p.front, GUARDS);
    fill_with_nans(p.places, LONGEST + GUARDS);
    fill_with_samples(p.places, n, mood < MOODS ? mood : 0);
    for (size_t i = 0; i < n && mood >= MOODS; i++)
        p.places[i] *= mood == MOODS ? 0x1p-1030 : 0x1p1022;
    return p;
}

/* Runs the pulse; whether it is accepted and the places around its n samples have their very bits. */
static int pulse_ran(size_t channel_class, double rate, struct pulse *p, size_t n) {
    struct pulse before = *p;
    uint8_t number = pulse_j211(channel_class, rate, p->places, n);
    return number == 0 && memcmp(p->front, before.front, sizeof before.front) == 0
        && memcmp(p->places + n, before.places + n, (LONGEST + GUARDS - n) * sizeof(double)) == 0;
}

/* Classes, rates, and the oracle's tan((PI x (class x 2.0775)) / rate). */
static const struct tuned {
    size_t channel_class;
    double rate, w;
} tuned[] = {
    {60, 10000, 0x1.40F660AB23A02p-5},
    {180, 12500, 0x1.82186FD2A351Ap-4},
    {600, 20000, 0x1.9633C0C3A95A9p-3},
    {1000, 10000, 0x1.8761FCDD8DF35p-1},
    {1000, 0x1.03B0000000001p12, 0x1.C1F559A028549p50}, /* the number behind the limit */
    {60, INFINITY, 0},
};
enum { TUNED = 6 };

/* The recurrence of 02's Q-1: y = a0 x + a1 x1 + a2 x2 + b1 y1 + b2 y2, added left to right. */
struct recurrence {
    double a0, a1, a2, b1, b2;
};

static struct recurrence recurrence(double w) {
    const double root = 0x1.6A09E667F3BCDp0;
    double d = (1 + root * w) + w * w, a0 = w * w / d;
    return (struct recurrence){a0, 2 * a0, a0, -2 * (w * w - 1) / d, ((-1 + root * w) - w * w) / d};
}

static void pass(struct recurrence r, double *places, size_t n, int backward) {
    double x1 = 0, x2 = 0, y1 = 0, y2 = 0;
    for (size_t i = 0; i < n; i++) {
        double *place = places + (backward ? n - 1 - i : i), x = *place;
        *place = r.a0 * x + r.a1 * x1 + r.a2 * x2 + r.b1 * y1 + r.b2 * y2;
        x2 = x1;
        x1 = x;
        y2 = y1;
        y1 = *place;
    }
}

static void pulse_and_recurrence(const struct tuned *t, size_t n, int mood) {
    struct pulse given = pulse_of(n, mood), expected = given;
    struct recurrence r = recurrence(t->w);
    pass(r, expected.places, n, 0);
    pass(r, expected.places, n, 1);
    check(pulse_ran(t->channel_class, t->rate, &given, n) && same(given.places, expected.places, n), "a pulse beside its recurrence");
}

/* Every length, its moods each at another class and rate; and some lengths with every mood at every class and rate. */
static const size_t lengths[] = {0, 1, 2, 3, LONGEST};
enum { LENGTHS = 5 };
static void pulses_by_length(void) {
    for (size_t n = 0; n <= LONGEST; n++)
        for (int mood = 0; mood < PULSE_MOODS; mood++)
            pulse_and_recurrence(tuned + (n + (size_t)mood) % TUNED, n, mood);
    for (int i = 0; i < LENGTHS; i++)
        for (int j = 0; j < TUNED * PULSE_MOODS; j++)
            pulse_and_recurrence(tuned + j % TUNED, lengths[i], j / TUNED);
}

/* A NaN at the first place, in the middle or at the last makes every place a NaN. */
static void dropouts(const struct tuned *t, size_t n) {
    const size_t at[] = {0, n / 2, n - 1};
    double nans[3];
    fill_with_nans(nans, 3);
    for (int i = 0; i < 3; i++) {
        struct pulse p = pulse_of(n, 0);
        size_t found = 0;
        memcpy(p.places + at[i], nans + i, sizeof nans[i]);
        int ran = pulse_ran(t->channel_class, t->rate, &p, n);
        for (size_t j = 0; j < n; j++)
            found += isnan(p.places[j]) != 0;
        check(ran && found == n, "a pulse with a NaN is all NaN");
    }
}

/* The ends of a constant, as the header has them; and a sine at the -3 dB point of a pass, of which two passes leave half. */
static void pulse_numbers(void) {
    const double turn = 6.283185307179586;
    struct pulse p;
    for (int i = 0; i < 256; i++)
        p.places[i] = 50;
    check(pulse_j211(60, 10000, p.places, 256) == 0 && fabs(p.places[0] - 25.7) < 0.05 && fabs(p.places[255] - 0.07) < 0.005, "a constant 50");
    for (int i = 0; i < CLASSES; i++) {
        double sine[LONGEST], furthest = 0;
        for (int j = 0; j < LONGEST; j++)
            sine[j] = p.places[j] = sin(turn * (2.0775 * (double)classes[i]) * j / 10000);
        int ran = pulse_j211(classes[i], 10000, p.places, LONGEST) == 0;
        for (int j = LONGEST / 2 - 20; j < LONGEST / 2 + 20; j++)
            furthest = fmax(furthest, fabs(p.places[j] - sine[j] / 2));
        check(ran && furthest < 1e-5, "a sine at 2.0775 x the class");
    }
}

static void pulses(void) {
    refused_classes();
    for (int i = 0; i < CLASSES; i++)
        pulse_rates(classes[i]);
    pulses_by_length();
    for (int i = 0; i < TUNED; i++) {
        const struct tuned *t = tuned + i;
        double near = tan(3.141592653589793 * ((double)t->channel_class * 2.0775) / t->rate);
        check(fabs(t->w - near) <= 1e-9 * near, "a stored tangent beside the C library's");
        for (int j = 1; j < LENGTHS; j++)
            dropouts(t, lengths[j]);
    }
    pulse_numbers();
}

/* Channels of the rival recorder's blocks. */

/* A call: the block's bytes, the lengths of the slices, and the channel asked for. */
struct reading {
    const uint8_t *block;
    size_t block_len, channel, output_len, count_len;
};

static size_t word_at(const uint8_t *bytes) { return bytes[0] + 256 * (size_t)bytes[1]; }

static size_t samples_of(struct reading r) { return word_at(r.block + 2); }

/* What the call must return. */
static uint8_t refusal_of(struct reading r) {
    if (r.count_len != 1)
        return PULSE_BAD_CALL;
    if (r.block_len == 0 || r.block[0] < 4 || r.block[0] > r.block_len || r.block[1] == 0 || r.block[1] > 8)
        return PULSE_INVALID_HEADER;
    if (r.block[0] + 2 * r.block[1] * samples_of(r) > r.block_len)
        return PULSE_TRUNCATED_BLOCK;
    if (r.channel >= r.block[1])
        return PULSE_CHANNEL_NOT_PRESENT;
    return r.output_len < samples_of(r) ? PULSE_SHORT_OUTPUT : 0;
}

/* The sample of an accepted call at an instant. */
static double sample_of(struct reading r, size_t instant) {
    long code = (long)word_at(r.block + r.block[0] + 2 * (r.block[1] * instant + r.channel));
    if (code == 0x8000)
        return NAN;
    return (double)(code < 0x8000 ? code : code - 0x10000);
}

enum {
    MOST_SAMPLES = 65535,
    MOST_BYTES = 255 + 2 * PULSE_MAX_CHANNELS * MOST_SAMPLES,
    MOST_PLACES = GUARDS + MOST_SAMPLES + 1 + GUARDS,
    MOST_COUNTS = GUARDS + 3 + GUARDS
};

/* What an output and its guard places hold before a call: numbers, or NaNs. */
static double fills[2][MOST_PLACES];

static void make_fills(void) {
    for (size_t i = 0; i < MOST_PLACES; i++)
        fills[0][i] = (double)(1000 + i);
    fill_with_nans(fills[1], MOST_PLACES);
}

/* Whether the first n places hold the samples, and all others, guard places included, their very bits. */
static int is_read(struct reading r, size_t n, const double *places, const double *fill) {
    const double *output = places + GUARDS;
    for (size_t i = 0; i < n; i++) {
        double x = sample_of(r, i);
        if (!same(output + i, &x, 1))
            return 0;
    }
    return memcmp(places, fill, GUARDS * sizeof *places) == 0
        && memcmp(output + n, fill + GUARDS + n, (r.output_len - n + GUARDS) * sizeof *places) == 0;
}

/* Whether the block and the guard bytes around it are as they were. */
static int is_block_kept(struct reading r, const uint8_t *block) {
    static const uint8_t guards[GUARDS];
    return memcmp(block - GUARDS, guards, GUARDS) == 0 && memcmp(block, r.block, r.block_len) == 0 && memcmp(block + r.block_len, guards, GUARDS) == 0;
}

/* The call over slices between guard places, the block at any address: it must return the number, and leave what it must. */
static void try_channel(struct reading r, uint8_t number, const double *fill, const char *what) {
    static uint8_t bytes[GUARDS + MOST_BYTES + 1 + 2 * GUARDS];
    static double places[MOST_PLACES];
    size_t counts[MOST_COUNTS], expected[MOST_COUNTS], n = number ? 0 : samples_of(r);
    uint8_t *block = bytes + GUARDS + tried % GUARDS;
    memset(block - GUARDS, 0, GUARDS);
    memcpy(block, r.block, r.block_len);
    memset(block + r.block_len, 0, GUARDS);
    memcpy(places, fill, (GUARDS + r.output_len + GUARDS) * sizeof *places);
    for (size_t i = 0; i < MOST_COUNTS; i++)
        counts[i] = expected[i] = 99 + i;
    if (!number)
        expected[GUARDS] = n;
    uint8_t given = pulse_read_channel(block, r.block_len, r.channel, places + GUARDS, r.output_len, counts + GUARDS, r.count_len);
    tried++;
    if (given != number)
        fail(what, "read_channel", number, given);
    else if (!is_read(r, n, places, fill) || memcmp(counts, expected, sizeof counts) || !is_block_kept(r, block))
        fail(what, number ? "something is changed by a refused read_channel" : "a place, the count or the block after read_channel", number, given);
}

static void expect_channel(struct reading r, uint8_t number, const char *what) {
    try_channel(r, number, fills[0], what);
    try_channel(r, number, fills[1], what);
}

/* Bytes by a fixed sequence, each eleventh code a dropout. */
static void fill_with_codes(uint8_t *bytes, size_t n) {
    uint32_t x = 1;
    for (size_t i = 0; i < n; i++) {
        x = x * 1664525 + 1013904223;
        bytes[i] = i / 2 % 11 == 3 ? (i % 2 ? 0x80 : 0) : x >> 24;
    }
}

/* The first four bytes of a block. */
static void put_header(uint8_t *block, size_t header, size_t channels, size_t samples) {
    const uint8_t bytes[4] = {(uint8_t)header, (uint8_t)channels, (uint8_t)samples, (uint8_t)(samples >> 8)};
    memcpy(block, bytes, sizeof bytes);
}

/* A block and its channels, written by hand. */
static void channels_by_hand(void) {
    uint8_t block[] = {7, 3, 2, 0, 0xFF, 0x80, 0x01,       /* a header of 7 bytes: 3 channels of 2 samples */
                       0x01, 0x00, 0xFF, 0xFF, 0x00, 0x80,  /* 1, -1, a dropout */
                       0xFF, 0x7F, 0x01, 0x80, 0x00, 0x01}; /* 32767, -32767, 256 */
    const double samples[3][2] = {{1, 32767}, {-1, -32767}, {NAN, 256}};
    for (size_t channel = 0; channel < 3; channel++) {
        double output[3] = {1000, 1001, 1002};
        size_t count = 99;
        uint8_t number = pulse_read_channel(block, sizeof block, channel, output, 3, &count, 1);
        check(number == 0 && count == 2 && same(output, samples[channel], 2) && output[2] == 1002, "a channel by hand");
        expect_channel((struct reading){block, sizeof block, channel, 3, 1}, 0, "a channel by hand");
    }
}

/* Short blocks about each limit, and what must be returned. */
static void limits_by_hand(void) {
    static const struct {
        uint8_t block[8];
        size_t block_len, channel, output_len;
        uint8_t number;
    } calls[] = {
        {{4, 1}, 0, 0, 1, 22}, {{4, 1}, 1, 0, 1, 22}, {{0, 1}, 1, 0, 1, 22}, {{1, 1}, 1, 0, 1, 22}, {{3, 1}, 3, 0, 1, 22}, {{4, 1}, 3, 0, 1, 22},
        {{3, 1}, 4, 0, 0, 22}, {{4, 1}, 4, 0, 0, 0}, {{5, 1}, 4, 0, 0, 22}, {{5, 1}, 5, 0, 1, 0}, {{6, 1}, 5, 0, 0, 22}, {{255, 1}, 8, 0, 0, 22},
        {{4, 0}, 8, 0, 2, 22}, {{4, 8}, 8, 7, 2, 0}, {{4, 9}, 8, 0, 2, 22}, {{4, 255}, 8, 0, 2, 22},
        {{4, 1, 1, 0, 9, 0}, 5, 0, 1, 23}, {{4, 1, 1, 0, 9, 0}, 6, 0, 1, 0}, {{4, 1, 1, 0, 9, 0}, 7, 0, 1, 0}, {{5, 1, 1, 0, 9, 9, 0}, 6, 0, 1, 23},
        {{5, 1, 1, 0, 9, 9, 0}, 7, 0, 1, 0}, {{4, 2, 1, 0, 9, 0, 8, 0}, 7, 0, 1, 23}, {{4, 2, 1, 0, 9, 0, 8, 0}, 8, 1, 1, 0},
        {{4, 2, 1, 0, 9, 0, 8, 0}, 8, 2, 1, 24}, {{4, 2, 1, 0, 9, 0, 8, 0}, 8, SIZE_MAX, 1, 24}, {{4, 2, 1, 0, 9, 0, 8, 0}, 8, 1, 0, 5},
        {{4, 1, 2, 0, 9, 0, 8, 0}, 8, 0, 1, 5}, {{4, 1, 2, 0, 9, 0, 8, 0}, 8, 0, 2, 0}, {{4, 1, 2, 0, 9, 0, 8, 0}, 8, 0, 3, 0},
        {{4, 1, 0, 1, 9, 0, 8, 0}, 8, 0, 256, 23}, {{4, 8, 0, 16, 9, 0, 8, 0}, 8, 0, 4096, 23}, {{4, 1, 0, 128}, 4, 0, 32768, 23},
    };
    for (size_t i = 0; i < sizeof calls / sizeof *calls; i++)
        expect_channel((struct reading){calls[i].block, calls[i].block_len, calls[i].channel, calls[i].output_len, 1}, calls[i].number, "a limit by hand");
}

/* Something wrong with a header, which 22 is about: its length, the channel count, or no block. */
enum { KINDS = 5 };
static void spoil_header(uint8_t *block, size_t *block_len, int kind) {
    switch (kind) {
    case 0: block[0] = 3; break;
    case 1: block[0] = (uint8_t)(*block_len + 1); break;
    case 2: block[1] = 0; break;
    case 3: block[1] = 9; break;
    default: *block_len = 0;
    }
}

/* Each set of reasons, of which the first in the header's order must be returned. Nine channels, too, have room in 60 bytes. */
static void reasons_at_once(void) {
    static const uint8_t numbers[5] = {PULSE_BAD_CALL, PULSE_INVALID_HEADER, PULSE_TRUNCATED_BLOCK, PULSE_CHANNEL_NOT_PRESENT, PULSE_SHORT_OUTPUT};
    for (unsigned set = 0; set < 1 << 5; set++)
        for (int kind = 0; kind < (set & 2 ? KINDS : 1); kind++) {
            uint8_t block[60], number = 0;
            struct reading r = {block, set & 4 ? 7 : 60, set & 8 ? 9 : 1, set & 16 ? 2 : 3, 1};
            for (int i = 4; i >= 0; i--)
                number = set >> i & 1 ? numbers[i] : number;
            fill_with_codes(block, sizeof block);
            put_header(block, 6, 2, 3);
            if (set & 2)
                spoil_header(block, &r.block_len, kind);
            const size_t lengths[] = {1, 0, 2, 3};
            for (int i = set & 1; i < (set & 1 ? 4 : 1); i++) {
                r.count_len = lengths[i];
                expect_channel(r, number, "several reasons at once");
            }
        }
}

/* Header bytes from 4 on and bytes behind the samples: whatever they are, the samples are the same. */
static void bytes_that_do_not_matter(void) {
    static const uint8_t fill[] = {0x00, 0x80, 0xFF};
    for (size_t header = 4; header <= 255; header++)
        for (int i = 0; i < 3; i++) {
            uint8_t block[255 + 12 + 4];
            memset(block, fill[i], sizeof block);
            put_header(block, header, 2, 3);
            fill_with_codes(block + header, 12);
            expect_channel((struct reading){block, header + 12 + header % 5, header % 2, 3 + header % 3, 1}, 0, "bytes that do not matter");
        }
}

/* Channels at and about the count, and numbers that end in the bits of one. */
static void channels_by_number(void) {
    const size_t wide[] = {0, 256, 65536, (size_t)1 << 32, (size_t)1 << 63};
    for (size_t channels = 1; channels <= 8; channels++)
        for (int i = 0; i < 5; i++)
            for (size_t low = 0; low <= 16; low++) {
                uint8_t block[4 + 2 * 8 * 3];
                fill_with_codes(block, sizeof block);
                put_header(block, 4, channels, 3);
                uint8_t number = !wide[i] && low < channels ? 0 : PULSE_CHANNEL_NOT_PRESENT;
                expect_channel((struct reading){block, sizeof block, wide[i] + low, 3, 1}, number, "a channel by its number");
            }
}

/* A count of samples with both its bytes. */
static void three_hundred_samples(void) {
    uint8_t block[9 + 2 * 3 * 300];
    fill_with_codes(block, sizeof block);
    put_header(block, 9, 3, 300);
    for (size_t channel = 0; channel < 3; channel++)
        expect_channel((struct reading){block, sizeof block, channel, 302, 1}, 0, "300 samples");
}

static void channels(void) {
    make_fills();
    channels_by_hand();
    limits_by_hand();
    reasons_at_once();
    bytes_that_do_not_matter();
    channels_by_number();
    three_hundred_samples();
}

/* A block with channels and output lengths about its own. */
static void read_about(const uint8_t *block, size_t block_len, size_t channels, size_t samples) {
    const size_t asked[] = {0, channels - 1, channels, channels + 1, 256, SIZE_MAX};
    const size_t lengths[] = {0, samples ? samples - 1 : 2, samples, samples + 1};
    for (int i = 0; i < 6; i++)
        for (int j = 0; j < 4; j++) {
            struct reading r = {block, block_len, asked[i], lengths[j], 1};
            expect_channel(r, refusal_of(r), "a block about its limits");
        }
}

/* Lengths of the header, channel counts and samples about their limits; blocks about the end of their header and of their samples. */
static void blocks_about_limits(void) {
    static const size_t headers[] = {0, 1, 3, 4, 5, 6, 254, 255}, channels[] = {0, 1, 2, 7, 8, 9, 255}, samples[] = {0, 1, 2, 3};
    static uint8_t block[255 + 2 * 255 * 3 + 2];
    for (int i = 0; i < 8 * 7 * 4; i++) {
        size_t header = headers[i % 8], count = channels[i / 8 % 7], each = samples[i / 56], end = header + 2 * count * each;
        const size_t lengths[] = {header ? header - 1 : 2, header, header + 1, end ? end - 1 : 3, end, end + 1, end + 2};
        fill_with_codes(block + header, sizeof block - header);
        put_header(block, header, count, each);
        for (int j = 0; j < 7; j++)
            read_about(block, lengths[j], count, each);
    }
}

/* Every block of 0 to 5 of these bytes. An accepted one has no samples. */
static void every_short_block(void) {
    static const uint8_t letters[8] = {0x00, 0x01, 0x03, 0x04, 0x05, 0x08, 0x09, 0xFF};
    static const size_t asked[] = {0, 1, 8, SIZE_MAX};
    for (size_t length = 0; length <= 5; length++)
        for (size_t word = 0; word < (size_t)1 << 3 * length; word++) {
            uint8_t block[5];
            for (size_t i = 0; i < length; i++)
                block[i] = letters[word >> 3 * i & 7];
            for (int i = 0; i < 8; i++) {
                struct reading r = {block, length, asked[i % 4], i < 4 ? 0 : 2, 1};
                expect_channel(r, refusal_of(r), "a short block");
            }
        }
}

/* Every block of 0 to 4 of these bytes behind headers of 4 to 6 bytes, for one and two channels of 0 to 2 samples. */
static void every_short_tail(void) {
    static const uint8_t letters[4] = {0x00, 0x7F, 0x80, 0xFF};
    for (size_t length = 0; length <= 4; length++)
        for (size_t word = 0; word < (size_t)1 << 2 * length; word++)
            for (size_t i = 0; i < 18; i++) {
                uint8_t block[10] = {0};
                size_t header = 4 + i % 3, channels = 1 + i / 3 % 2;
                put_header(block, header, channels, i / 6);
                for (size_t j = 0; j < length; j++)
                    block[header + j] = letters[word >> 2 * j & 3];
                for (size_t j = 0; j < 6; j++) {
                    struct reading r = {block, header + length, j % 2, j / 2, 1};
                    expect_channel(r, refusal_of(r), "a short block with samples");
                }
            }
}

/* Every first and second byte, with no sample and with one. */
static void every_header(void) {
    uint8_t block[300];
    fill_with_codes(block, sizeof block);
    for (size_t header = 0; header <= 255; header++)
        for (size_t channels = 0; channels <= 255; channels++) {
            put_header(block, header, channels, (header + channels) % 2);
            struct reading r = {block, sizeof block, header % 9, 1, 1};
            try_channel(r, refusal_of(r), fills[header % 2], "every header");
        }
}

/* Every count of samples and channels in a block of 64 bytes: all but the least counts run past its end. */
static void every_count(void) {
    uint8_t block[64];
    fill_with_codes(block, sizeof block);
    for (size_t channels = 1; channels <= 8; channels++)
        for (size_t samples = 0; samples <= MOST_SAMPLES; samples++) {
            put_header(block, 4, channels, samples);
            struct reading r = {block, sizeof block, channels - 1, 30, 1};
            try_channel(r, refusal_of(r), fills[samples % 2], "every count");
        }
}

/* Every code, as the only sample of a block and as one of 32,768 of two channels. */
static void every_code(void) {
    static uint8_t block[5 + 4 * 32768];
    static double output[32768];
    size_t count, right = 0;
    put_header(block, 5, 2, 32768);
    for (size_t i = 0; i < 65536; i++) {
        uint8_t one[6] = {4, 1, 1, 0, (uint8_t)i, (uint8_t)(i >> 8)};
        expect_channel((struct reading){one, sizeof one, 0, 1, 1}, 0, "a code by itself");
        memcpy(block + 5 + 2 * i, one + 4, 2);
    }
    for (size_t channel = 0; channel < 2; channel++) {
        right += pulse_read_channel(block, sizeof block, channel, output, 32768, &count, 1) == 0 && count == 32768;
        for (int i = 0; i < 32768; i++) {
            int code = 2 * i + (int)channel;
            int16_t number = (int16_t)(code < 32768 ? code : code - 65536);
            double x = number;
            right += number == -32768 ? isnan(output[i]) != 0 : memcmp(output + i, &x, sizeof x) == 0;
        }
    }
    check(right == 65536 + 2, "every code");
}

/* Every channel of a block with as many samples as there can be or one less, one and eight channels; the block and the output
 * exact, one short and one more. */
static void long_blocks(void) {
    static uint8_t block[MOST_BYTES + 1];
    for (int i = 0; i < 8; i++) {
        size_t header = i & 1 ? 255 : 4, channels = i & 2 ? 8 : 1, samples = i & 4 ? MOST_SAMPLES : MOST_SAMPLES - 1;
        fill_with_codes(block + header, sizeof block - header);
        put_header(block, header, channels, samples);
        for (size_t channel = 0; channel < channels; channel++)
            expect_channel((struct reading){block, header + 2 * channels * samples, channel, samples, 1}, 0, "a long block");
        for (size_t j = 0; j < 9; j++) {
            struct reading r = {block, header + 2 * channels * samples - 1 + j % 3, channels - 1, samples - 1 + j / 3, 1};
            expect_channel(r, refusal_of(r), "a long block about its limits");
        }
    }
}

/* The many and the long ones. */
static void more_channels(void) {
    blocks_about_limits();
    every_short_block();
    every_short_tail();
    every_header();
    every_count();
    every_code();
    long_blocks();
}

/* The short parts come first: a run stops after a part with a difference. */
static void (*const parts[])(void) = {wrong_lengths, damaged_states, refused_designs, designed_places, tap_places, default_and_raw, cascade_places,
                                      fir_places, overflow, channels, blocks_in_place, pulses, more_channels};

int main(void) {
    for (size_t i = 0; i < sizeof parts / sizeof *parts && !failed; i++)
        parts[i]();
    printf("states: %u tried, %u otherwise than expected\n", tried, failed);
    return failed ? 1 : 0;
}
