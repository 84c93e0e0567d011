/* Replays stored answers of the oracle through the C interface, and compares every number, mark, count and output place.
 * Each block also runs in place, on a copy of the state, and must come to the same. The list is that of the program
 * `replay`, crates/replay/data/answers: tools/replay-list asked the oracle (oracle/build) and tools/replay.py converted its
 * answers; the latter says how the list is laid out. Its elementary functions are not part of this interface and are passed
 * over.
 * Usage: replay LIST. Status 0: all agree; 1: a difference, which is shown; 2: no list. */
#include "pulse.h"
#include <inttypes.h>
#include <stdio.h>
#include <stdlib.h>
#include <string.h>

enum { LOW_PASS, HIGH_PASS, BAND_PASS, CHEBYSHEV1, CHEBYSHEV2, CASCADE_STEP, CASCADE_BLOCK, CASCADE_RESET, FIR, TAPS, FIR_STEP, FIR_BLOCK, FIR_RESET, J211,
       RIVAL };
enum { DEFAULT, RAW }; /* the form of a design or of ready-made taps, its first word */
enum { MOST = 4096, FIRST_OUTPUT = 1000 }; /* a line of the protocol has at most 8192 bytes, so a block fewer than 4096 */

struct state {
    double numbers[PULSE_NUMBERS_LEN];
    size_t counts[PULSE_CASCADE_COUNTS_LEN];
    double taps[PULSE_TAPS_LEN], samples[PULSE_SAMPLES_LEN];
    size_t fir_counts[PULSE_FIR_COUNTS_LEN];
};
static struct state now;
#define CASCADE now.numbers, PULSE_NUMBERS_LEN, now.counts, PULSE_CASCADE_COUNTS_LEN
#define TAP_RECORD now.taps, PULSE_TAPS_LEN, now.samples, PULSE_SAMPLES_LEN, now.fir_counts, PULSE_FIR_COUNTS_LEN

static uint64_t asked[MOST], expected[MOST], given[MOST];
static double floats[MOST], output[MOST], buffer[MOST];
static uint8_t bytes[MOST];

static int is_design(uint64_t kind) { return kind < CASCADE_STEP || kind == FIR || kind == TAPS; }

static double number(uint64_t word) {
    double x;
    memcpy(&x, &word, sizeof x);
    return x;
}

/* The bits of a number; every NaN's as the list has them. */
static uint64_t word(double x) {
    uint64_t bits;
    memcpy(&bits, &x, sizeof bits);
    return x == x ? bits : UINT64_C(0x7FF8000000000000);
}

/* The designs of a cascade by their kinds, each in its default form and its raw one. */
typedef uint8_t two_floats(size_t, double, double, double *, size_t, size_t *, size_t);
typedef uint8_t three_floats(size_t, double, double, double, double *, size_t, size_t *, size_t);
static two_floats *const of_two_floats[][2] = {
    {pulse_design_butterworth_lp, pulse_design_butterworth_lp_raw}, {pulse_design_butterworth_hp, pulse_design_butterworth_hp_raw}};
static three_floats *const of_three_floats[][2] = {
    {pulse_design_butterworth_bp, pulse_design_butterworth_bp_raw},
    {pulse_design_chebyshev1_lp, pulse_design_chebyshev1_lp_raw},
    {pulse_design_chebyshev2_lp, pulse_design_chebyshev2_lp_raw}};

static uint8_t design(uint64_t kind) {
    uint64_t form = asked[0];
    double a = number(asked[2]), b = number(asked[3]), c = number(asked[4]);
    if (kind < BAND_PASS)
        return of_two_floats[kind][form](asked[1], a, b, CASCADE);
    if (kind < CASCADE_STEP)
        return of_three_floats[kind - BAND_PASS][form](asked[1], a, b, c, CASCADE);
    return (form == RAW ? pulse_design_fir_lp_raw : pulse_design_fir_lp)(asked[1], a, asked[3], TAP_RECORD);
}

/* Ready-made taps: the words behind the form. */
static uint8_t ready_made(size_t words) {
    for (size_t i = 1; i < words; i++)
        floats[i - 1] = number(asked[i]);
    return (asked[0] == RAW ? pulse_fir_from_coeffs_raw : pulse_fir_from_coeffs)(floats, words - 1, TAP_RECORD);
}

static size_t put(size_t n, const double *from, size_t count) {
    for (size_t i = 0; i < count; i++)
        given[n + i] = word(from[i]);
    return n + count;
}

/* The answer's words of a design or of ready-made taps, from the state that it left. A refused one changed nothing; the
 * list goes on from the blank record. */
static size_t designed(uint64_t kind, uint8_t refusal) {
    size_t n = 3;
    given[0] = refusal;
    given[1] = given[2] = 0;
    if (kind < CASCADE_STEP) {
        if (refusal) {
            memset(now.numbers, 0, sizeof now.numbers);
            memset(now.counts, 0, sizeof now.counts);
        }
        given[1] = now.counts[PULSE_SECTIONS];
        given[2] = now.counts[PULSE_HAS_FIRST];
        if (given[2])
            n = put(n, now.numbers + PULSE_FIRST_B0, 3);
        for (size_t i = 0; i < given[1]; i++)
            n = put(n, now.numbers + PULSE_SECTION_LEN * i, 5);
        return n;
    }
    if (refusal) {
        memset(now.taps, 0, sizeof now.taps);
        memset(now.samples, 0, sizeof now.samples);
        memset(now.fir_counts, 0, sizeof now.fir_counts);
    }
    given[1] = now.fir_counts[PULSE_LENGTH];
    given[2] = now.fir_counts[PULSE_WINDOW];
    return put(n, now.taps, given[1]);
}

static size_t step(uint64_t kind, uint8_t *refusal) {
    double x = number(asked[0]), answer = 0;
    size_t clouded = 0;
    *refusal = kind == CASCADE_STEP ? pulse_cascade_step(CASCADE, x, &answer, 1, &clouded, 1) : pulse_fir_step(TAP_RECORD, x, &answer, 1, &clouded, 1);
    given[0] = *refusal ? 2 : clouded;
    given[1] = *refusal ? *refusal : word(answer);
    return 2;
}

static int same(const double *a, const double *b, size_t count) {
    for (size_t i = 0; i < count; i++)
        if (word(a[i]) != word(b[i]))
            return 0;
    return 1;
}

static int same_state(const struct state *a, const struct state *b) {
    return same(a->numbers, b->numbers, PULSE_NUMBERS_LEN) && same(a->taps, b->taps, PULSE_TAPS_LEN) && same(a->samples, b->samples, PULSE_SAMPLES_LEN)
        && memcmp(a->counts, b->counts, sizeof a->counts) == 0 && memcmp(a->fir_counts, b->fir_counts, sizeof a->fir_counts) == 0;
}

/* Whether a block in place comes to what a block that returned `refusal` came to: the same number, answers, count and state.
 * Where the output was too short it must be accepted, since it has none. */
static int same_in_place(uint64_t kind, const struct state *before, uint8_t refusal, size_t samples, size_t count) {
    struct state after = now;
    size_t clouded = 99;
    now = *before;
    memcpy(buffer, floats, sizeof buffer);
    uint8_t number = kind == CASCADE_BLOCK ? pulse_cascade_block_in_place(CASCADE, buffer, samples, &clouded, 1)
                                           : pulse_fir_block_in_place(TAP_RECORD, buffer, samples, &clouded, 1);
    struct state left = now;
    now = after;
    if (refusal == PULSE_SHORT_OUTPUT)
        return number == 0;
    if (refusal)
        return number == refusal && clouded == 99 && memcmp(buffer, floats, sizeof buffer) == 0 && memcmp(&left, before, sizeof left) == 0;
    int behind = memcmp(buffer + samples, floats + samples, (MOST - samples) * sizeof *buffer) == 0;
    return number == 0 && clouded == count && same(buffer, output, samples) && behind && same_state(&left, &after);
}

static size_t block(uint64_t kind, uint8_t *refusal, int *in_place) {
    struct state before = now;
    size_t samples = asked[0], places = asked[1], clouded = 0;
    for (size_t i = 0; i < samples; i++)
        floats[i] = number(asked[2 + i]);
    for (size_t i = 0; i < places; i++)
        output[i] = (double)(FIRST_OUTPUT + i);
    *refusal = kind == CASCADE_BLOCK ? pulse_cascade_block(CASCADE, floats, samples, output, places, &clouded, 1)
                                     : pulse_fir_block(TAP_RECORD, floats, samples, output, places, &clouded, 1);
    *in_place = same_in_place(kind, &before, *refusal, samples, clouded);
    given[0] = *refusal;
    given[1] = clouded;
    return put(2, output, places);
}

static size_t reset(uint64_t kind, uint8_t *refusal) {
    *refusal = kind == CASCADE_RESET ? pulse_cascade_reset(CASCADE) : pulse_fir_reset(TAP_RECORD);
    given[0] = *refusal;
    return 1;
}

/* A whole pulse. *left: whether the places behind it, and a refused one's own, have the bits that they had. */
static size_t pulse(size_t words, uint8_t *refusal, int *left) {
    size_t samples = words - 2;
    for (size_t i = 0; i < samples; i++)
        floats[i] = number(asked[2 + i]);
    memcpy(buffer, floats, sizeof buffer);
    *refusal = pulse_j211(asked[0], number(asked[1]), buffer, samples);
    size_t written = *refusal ? 0 : samples;
    *left = memcmp(buffer + written, floats + written, (MOST - written) * sizeof *buffer) == 0;
    given[0] = *refusal;
    return put(1, buffer, samples);
}

/* A channel of a rival's block. *left: whether the block, the places behind the output, and the count and the output of a refused
 * call are as they were. */
static size_t channel(size_t words, uint8_t *refusal, int *left) {
    size_t length = words - 2, places = asked[1], count = 99;
    for (size_t i = 0; i < length; i++)
        bytes[i] = (uint8_t)asked[2 + i];
    for (size_t i = 0; i < MOST; i++)
        output[i] = floats[i] = (double)(FIRST_OUTPUT + i);
    *refusal = pulse_read_channel(bytes, length, asked[0], output, places, &count, PULSE_COUNT_LEN);
    size_t written = *refusal ? 0 : places;
    *left = memcmp(output + written, floats + written, (MOST - written) * sizeof *output) == 0 && (!*refusal || count == 99);
    for (size_t i = 0; i < length; i++)
        *left &= bytes[i] == asked[2 + i];
    given[0] = *refusal;
    given[1] = *refusal ? 0 : count;
    return put(2, output, places);
}

/* Calls the function; what is wrong, or none: a refused call that changed the state, a block in place that came to something
 * else, or a pulse or a channel that wrote what it leaves. The answer's words go to `given`, *n of them. */
static const char *called(uint64_t kind, size_t words, size_t *n) {
    struct state before = now;
    uint8_t refusal = 0;
    int in_place = 1, left = 1;
    switch (kind) {
    case CASCADE_STEP: case FIR_STEP: *n = step(kind, &refusal); break;
    case CASCADE_BLOCK: case FIR_BLOCK: *n = block(kind, &refusal, &in_place); break;
    case CASCADE_RESET: case FIR_RESET: *n = reset(kind, &refusal); break;
    case J211: *n = pulse(words, &refusal, &left); break;
    case RIVAL: *n = channel(words, &refusal, &left); break;
    case TAPS: refusal = ready_made(words); break;
    default: refusal = design(kind);
    }
    int kept = !refusal || memcmp(&before, &now, sizeof now) == 0;
    if (is_design(kind))
        *n = designed(kind, refusal);
    return !kept ? "refused, and the state is changed" : !in_place ? "something else in place" : !left ? "a place that the call leaves is changed" : 0;
}

static int read_words(FILE *list, uint64_t *words, size_t count) {
    for (size_t i = 0; i < count; i++)
        if (fscanf(list, "%16" SCNx64, words + i) != 1)
            return 0;
    return 1;
}

/* Whether a channel's answer has as many words as its output asks for, and a design's first word is a form. */
static int is_request(const uint64_t *head) {
    if (head[0] == RIVAL)
        return head[1] >= 2 && head[2] >= 2 && asked[1] == head[2] - 2;
    return !is_design(head[0]) || (head[1] >= 1 && asked[0] <= RAW);
}

/* Reads a request and replays it: 1 where it agrees, 0 where it is passed over, -1 where it differs or cannot be read. */
static int request(FILE *list, size_t line) {
    uint64_t head[3];
    size_t n = 0;
    if (!read_words(list, head, 3) || head[1] > MOST || head[2] > MOST || !read_words(list, asked, head[1]) || !read_words(list, expected, head[2])
        || !is_request(head)) {
        printf("request %zu of the list cannot be read\n", line);
        return -1;
    }
    if (head[0] > RIVAL)
        return 0;
    const char *wrong = called(head[0], head[1], &n);
    if (n != head[2] || memcmp(expected, given, n * sizeof *given))
        wrong = "another answer";
    if (!wrong)
        return 1;
    printf("request %zu, kind %" PRIu64 ": %s; expected and given:\n", line, head[0], wrong);
    for (size_t i = 0; i < head[2] || i < n; i++)
        printf("%016" PRIX64 " %016" PRIX64 "\n", i < head[2] ? expected[i] : 0, i < n ? given[i] : 0);
    return -1;
}

int main(int argc, char **argv) {
    FILE *list = argc == 2 ? fopen(argv[1], "r") : 0;
    uint64_t requests;
    size_t agree = 0;
    if (!list || !read_words(list, &requests, 1)) {
        fprintf(stderr, "usage: replay LIST\n");
        return 2;
    }
    for (size_t i = 1; i <= requests; i++) {
        int result = request(list, i);
        if (result < 0)
            return 1;
        agree += (size_t)result;
    }
    fclose(list);
    printf("replay: %zu requests agree with the oracle\n", agree);
    return agree ? 0 : 1;
}
