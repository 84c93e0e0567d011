/* An example of the C interface: a Butterworth low pass of order 4 and a FIR of 31 Hamming taps, each designed, fed a step
 * and a block, and reset; a whole pulse through channel class 60; a channel of a block of the rival recorder, read and put
 * through the same class; then a block and a design that are refused; and a single Hamming tap, which is a NaN: refused by the
 * default form of the design, and made by the raw one. Answers are printed as bit patterns, in the form of docs/PROTOCOL.md, so
 * that the oracle and the program `sheet` answer the lines of example.requests with the same output: example.answers. */
#include "pulse.h"
#include <inttypes.h>
#include <stdio.h>
#include <string.h>

static double numbers[PULSE_NUMBERS_LEN];
static size_t counts[PULSE_CASCADE_COUNTS_LEN];
static double taps[PULSE_TAPS_LEN], samples[PULSE_SAMPLES_LEN];
static size_t fir_counts[PULSE_FIR_COUNTS_LEN];

static const double pulse[6] = {0.5, 20.25, -3.75, 0.125, -0.5, 1.0};

/* A header of 6 bytes, then channels 0 and 1 at six instants. Channel 1 holds 0, 120, 850, 1200, 400 and -35. */
static const uint8_t recorded[30] = {6, 2, 6, 0, 0x52, 0x01, 0x05, 0x00, 0x00, 0x00, 0xFB, 0xFF, 0x78, 0x00, 0x11, 0x00, 0x52, 0x03,
                                     0xD4, 0xFE, 0xB0, 0x04, 0x02, 0x00, 0x90, 0x01, 0x00, 0x00, 0xDD, 0xFF};

/* A NaN may be any NaN, and is printed by its name. */
static void print_bits(const double *x, size_t n) {
    for (size_t i = 0; i < n; i++) {
        uint64_t bits;
        memcpy(&bits, x + i, sizeof bits);
        if (x[i] == x[i])
            printf(" %016" PRIX64, bits);
        else
            printf(" NaN");
    }
}

static void print_step(uint8_t refusal, const double *answer, size_t clouded) {
    if (refusal) {
        printf("refused %u\n", refusal);
        return;
    }
    printf(clouded ? "clouded" : "clear");
    print_bits(answer, 1);
    printf("\n");
}

/* The count is that of Clouded, or of a channel's samples. */
static void print_block(uint8_t refusal, const double *output, size_t length, size_t count) {
    if (refusal)
        printf("refused %u", refusal);
    else
        printf("done %zu", count);
    print_bits(output, length);
    printf("\n");
}

static void cascade(void) {
    double answer, output[8] = {1000, 1001, 1002, 1003, 1004, 1005, 1006, 1007};
    size_t clouded;
    uint8_t refusal = pulse_design_butterworth_lp(4, 1000, 10000, numbers, PULSE_NUMBERS_LEN, counts, PULSE_CASCADE_COUNTS_LEN);
    if (refusal) {
        printf("refused %u\n", refusal);
        return;
    }
    printf("cascade %zu %zu", counts[PULSE_SECTIONS], counts[PULSE_HAS_FIRST]);
    for (size_t i = 0; i < counts[PULSE_SECTIONS]; i++)
        print_bits(numbers + PULSE_SECTION_LEN * i, PULSE_W1);
    printf("\n");
    refusal = pulse_cascade_step(numbers, PULSE_NUMBERS_LEN, counts, PULSE_CASCADE_COUNTS_LEN, 1, &answer, 1, &clouded, 1);
    print_step(refusal, &answer, clouded);
    refusal = pulse_cascade_block(numbers, PULSE_NUMBERS_LEN, counts, PULSE_CASCADE_COUNTS_LEN, pulse, 6, output, 8, &clouded, 1);
    print_block(refusal, output, 8, clouded);
    refusal = pulse_cascade_reset(numbers, PULSE_NUMBERS_LEN, counts, PULSE_CASCADE_COUNTS_LEN);
    printf(refusal ? "refused %u\n" : "done\n", refusal);
}

static void print_taps(uint8_t refusal) {
    if (refusal) {
        printf("refused %u\n", refusal);
        return;
    }
    printf("taps %zu %zu", fir_counts[PULSE_LENGTH], fir_counts[PULSE_WINDOW]);
    print_bits(taps, fir_counts[PULSE_LENGTH]);
    printf("\n");
}

static void fir(void) {
    double answer, output[6] = {1000, 1001, 1002, 1003, 1004, 1005};
    size_t clouded;
    uint8_t refusal = pulse_design_fir_lp(31, 0.125, PULSE_HAMMING, taps, PULSE_TAPS_LEN, samples, PULSE_SAMPLES_LEN, fir_counts, PULSE_FIR_COUNTS_LEN);
    print_taps(refusal);
    if (refusal)
        return;
    refusal = pulse_fir_step(taps, PULSE_TAPS_LEN, samples, PULSE_SAMPLES_LEN, fir_counts, PULSE_FIR_COUNTS_LEN, 1, &answer, 1, &clouded, 1);
    print_step(refusal, &answer, clouded);
    refusal = pulse_fir_block(taps, PULSE_TAPS_LEN, samples, PULSE_SAMPLES_LEN, fir_counts, PULSE_FIR_COUNTS_LEN, pulse, 6, output, 6, &clouded, 1);
    print_block(refusal, output, 6, clouded);
    refusal = pulse_fir_reset(taps, PULSE_TAPS_LEN, samples, PULSE_SAMPLES_LEN, fir_counts, PULSE_FIR_COUNTS_LEN);
    printf(refusal ? "refused %u\n" : "done\n", refusal);
}

/* In place: the buffer holds the samples, and afterwards the answers. */
static void filter_pulse(double *buffer, size_t length) {
    uint8_t refusal = pulse_j211(60, 10000, buffer, length);
    printf(refusal ? "refused %u" : "done", refusal);
    print_bits(buffer, length);
    printf("\n");
}

static void whole_pulse(void) {
    double buffer[6];
    memcpy(buffer, pulse, sizeof buffer);
    filter_pulse(buffer, 6);
}

/* Whether a sample is a dropout, which would make the whole pulse a NaN. */
static int has_dropout(const double *samples, size_t length) {
    for (size_t i = 0; i < length; i++)
        if (samples[i] != samples[i])
            return 1;
    return 0;
}

/* The output has room for 8 samples; the block holds 6 for each channel, so that its last places stay. */
static void recorded_channel(void) {
    double output[8] = {1000, 1001, 1002, 1003, 1004, 1005, 1006, 1007};
    size_t count = 0;
    uint8_t refusal = pulse_read_channel(recorded, sizeof recorded, 1, output, 8, &count, PULSE_COUNT_LEN);
    print_block(refusal, output, 8, count);
    if (!refusal && !has_dropout(output, count))
        filter_pulse(output, count);
}

/* An output that is too short, and an order that is too large: the output and the filter stay as they are. */
static void refused(void) {
    double output[2] = {1000, 1001};
    size_t clouded = 0;
    uint8_t refusal = pulse_fir_block(taps, PULSE_TAPS_LEN, samples, PULSE_SAMPLES_LEN, fir_counts, PULSE_FIR_COUNTS_LEN, pulse, 6, output, 2, &clouded, 1);
    print_block(refusal, output, 2, clouded);
    refusal = pulse_design_butterworth_lp(9, 1000, 10000, numbers, PULSE_NUMBERS_LEN, counts, PULSE_CASCADE_COUNTS_LEN);
    printf("refused %u\n", refusal);
}

/* A refused design leaves the filter as it is, and so the release sheet without a NaN; a sweep over designs asks for the raw form. */
static void single_tap(void) {
    print_taps(pulse_design_fir_lp(1, 0.25, PULSE_HAMMING, taps, PULSE_TAPS_LEN, samples, PULSE_SAMPLES_LEN, fir_counts, PULSE_FIR_COUNTS_LEN));
    print_taps(pulse_design_fir_lp_raw(1, 0.25, PULSE_HAMMING, taps, PULSE_TAPS_LEN, samples, PULSE_SAMPLES_LEN, fir_counts, PULSE_FIR_COUNTS_LEN));
}

int main(void) {
    cascade();
    fir();
    whole_pulse();
    recorded_channel();
    refused();
    single_tap();
    return 0;
}
