/* The pulse conditioning filters for C: the functions of libcapi.a (`rt lib` in crates/capi writes it to crates/capi/out/).
 *
 * A filter's state is in the caller's memory, in the arrays described below; the library keeps nothing between two calls,
 * allocates nothing and calls no function of a math library. Calls may run at the same time where none writes a slice that
 * another uses.
 *
 * Slices. An array crosses as a pointer and then its length in items. The pointer points to at least that many items, also
 * where the length is not the one asked for. A null pointer is not allowed, even with length 0. The slices of one call do not
 * overlap each other (PULSE_RESTRICT): an input is not its own output, and two parts of one state do not share memory. A
 * slice that is `const` here is only read.
 *
 * Refusals. Each function returns 0, or the number that refuses the call. After a refusal every slice is as it was before
 * the call, bit for bit. No other number is returned, and none but where a function below names it.
 *
 * Numbers. double is IEEE 754 binary64. The processor's modes are those that a program starts with: rounding to nearest, ties
 * to even, and subnormal numbers kept. Every answer is then fixed bit by bit, but for the bits of a NaN: where a NaN is
 * answered, it may be any NaN. Do not link with -ffast-math, -Ofast or -funsafe-math-optimizations, nor load a shared library
 * that was linked so: GCC and Clang then add a start file (crtfastmath.o) that has the processor take subnormal numbers as 0,
 * and answers differ. A FIR of the one tap 1 answers the sample 1e-310 by 0 then. What counts is how the program is linked,
 * not how its files are compiled.
 *
 * Stack. The stack is not part of the proof. A call takes at most this many bytes of it, its return address included:
 *
 *     pulse_design_butterworth_lp         1704
 *     pulse_design_butterworth_lp_raw     1144
 *     pulse_design_butterworth_hp         1704
 *     pulse_design_butterworth_hp_raw     1144
 *     pulse_design_butterworth_bp         1328
 *     pulse_design_butterworth_bp_raw     1040
 *     pulse_design_chebyshev1_lp          1800
 *     pulse_design_chebyshev1_lp_raw      1512
 *     pulse_design_chebyshev2_lp          1800
 *     pulse_design_chebyshev2_lp_raw      1512
 *     pulse_cascade_step                    56
 *     pulse_cascade_block                  440
 *     pulse_cascade_block_in_place        2552
 *     pulse_cascade_reset                   16
 *     pulse_design_fir_lp                 4904
 *     pulse_design_fir_lp_raw             2840
 *     pulse_fir_from_coeffs                104
 *     pulse_fir_from_coeffs_raw            104
 *     pulse_fir_step                         56
 *     pulse_fir_block                     1288
 *     pulse_fir_block_in_place            3400
 *     pulse_fir_reset                       40
 *     pulse_j211                             88
 *     pulse_read_channel                    56
 *
 * These are bounds, which `tools/stack` reads off the archive's machine code; no function calls itself. They leave out what
 * memcpy, memmove and memset take: little by themselves, but kilobytes where the dynamic loader looks one of them up at its
 * first call. */
#ifndef PULSE_H
#define PULSE_H

#include <stddef.h>
#include <stdint.h>

/* `restrict` as the language that reads this header has it: of a pointer of a call, that no other pointer of the call leads to
 * the same items. A compiler can then warn where one array is passed twice (GCC: -Wrestrict, which -Wall includes). */
#if defined(__cplusplus)
#if defined(__GNUC__) || defined(_MSC_VER)
#define PULSE_RESTRICT __restrict
#else
#define PULSE_RESTRICT
#endif
#elif defined(__STDC_VERSION__) && __STDC_VERSION__ >= 199901L
#define PULSE_RESTRICT restrict
#elif defined(__GNUC__)
#define PULSE_RESTRICT __restrict
#else
#define PULSE_RESTRICT
#endif

#ifdef __cplusplus
extern "C" {
#endif

/* The numbers that refuse a call. */
#define PULSE_INVALID_ORDER 1       /* an order or a number of taps that is 0 or too large */
#define PULSE_INVALID_FREQUENCY 2   /* a cutoff or band edge that is a NaN or out of its range */
#define PULSE_INVALID_SAMPLE_RATE 3 /* a sample rate that is a NaN or at most 0 */
#define PULSE_INVALID_RIPPLE 4      /* decibels that are a NaN or at most 0 */
#define PULSE_SHORT_OUTPUT 5        /* an output with fewer places than there are samples */
#define PULSE_BAD_CASCADE 11        /* more than 4 sections, or no section and no first-order part */
#define PULSE_BAD_TAPS 12           /* length 0 or above 64, held count above the length, or window code above 4 */
#define PULSE_BAD_CALL 13           /* a slice of another length than asked for, a flag above 1, or a design's window code above 3 */
#define PULSE_INVALID_CLASS 21      /* a channel class other than 60, 180, 600 and 1000 */
#define PULSE_INVALID_HEADER 22     /* an empty block, a header length below 4 or past the end, or channels outside 1 to 8 */
#define PULSE_TRUNCATED_BLOCK 23    /* samples that run past the end of the rival recorder's block */
#define PULSE_CHANNEL_NOT_PRESENT 24 /* a channel that the rival recorder's block does not have */
#define PULSE_NON_FINITE_COEFFICIENT 25 /* a coefficient that is a NaN or infinite; of the default forms alone, never of a raw one */

/* Limits of the designs. */
#define PULSE_MAX_ORDER 8           /* low pass, high pass, Chebyshev I and II */
#define PULSE_MAX_BANDPASS_ORDER 4
#define PULSE_MAX_TAPS 64

/* The state of a cascade: an array `numbers` and an array `counts`.
 *
 * `numbers` holds four second-order sections of seven doubles each, then a first-order part of four. A section answers
 * y = b0 x + w1, and then w1 becomes (b1 x - a1 y) + w2 and w2 becomes b2 x - a2 y. The first-order part answers
 * y = b0 x + w, and then w becomes b1 x - a1 y. A sample passes the first-order part, if it is used, and then the used
 * sections from section 0 on. Parts that are not used are +0 after a design, and otherwise neither read nor changed, but
 * for a reset, which makes all carried values +0. */
#define PULSE_NUMBERS_LEN 32
#define PULSE_MAX_SECTIONS 4
#define PULSE_SECTION_LEN 7
enum pulse_section {                /* section i has its places at PULSE_SECTION_LEN * i + these */
    PULSE_B0 = 0,
    PULSE_B1 = 1,
    PULSE_B2 = 2,
    PULSE_A1 = 3,
    PULSE_A2 = 4,
    PULSE_W1 = 5,                   /* carried values */
    PULSE_W2 = 6
};
enum pulse_first_order {
    PULSE_FIRST_B0 = 28,
    PULSE_FIRST_B1 = 29,
    PULSE_FIRST_A1 = 30,
    PULSE_FIRST_W = 31              /* carried value */
};
#define PULSE_CASCADE_COUNTS_LEN 3
enum pulse_cascade_counts {
    PULSE_SECTIONS = 0,             /* how many sections are used, 0 to 4 */
    PULSE_HAS_FIRST = 1,            /* flag: 1 where the first-order part is used, else 0 */
    PULSE_CLOUD = 2                 /* flag: 1 where a sample since the design or the last reset was not finite, else 0 */
};

/* The state of a FIR filter, a tap record: the arrays `taps`, `samples` and `counts`.
 *
 * Tap 0 belongs to the newest sample, which is at place 0 of `samples`. A step moves the samples of the first `length`
 * places up by one, drops the last of them and puts the new sample at place 0; the places behind stay. The answer starts
 * from +0 and adds taps[i] x samples[i] from i = 0 on, as far as samples are held. */
#define PULSE_TAPS_LEN 64
#define PULSE_SAMPLES_LEN 64
#define PULSE_FIR_COUNTS_LEN 3
enum pulse_fir_counts {
    PULSE_LENGTH = 0,               /* how many taps there are, 1 to 64 */
    PULSE_HELD = 1,                 /* how many samples are held, 0 to the length */
    PULSE_WINDOW = 2                /* window code, 0 to 4 */
};
enum pulse_window {
    PULSE_RECTANGULAR = 0,
    PULSE_HAMMING = 1,
    PULSE_HANNING = 2,
    PULSE_BLACKMAN = 3,
    PULSE_READY_MADE = 4            /* of a record only, never asked for in a design */
};

/* `answer` is one double and `clouded` one size_t. An answer is Clouded where a sample that is not finite is behind it: of
 * a cascade, any sample since the design or the last reset; of a FIR, one of the samples held. */
#define PULSE_ANSWER_LEN 1
#define PULSE_CLOUDED_LEN 1

/* Default and raw forms.
 *
 * Each design, and the making of a FIR of ready-made taps, has two forms with the same parameters. The default form is refused
 * by 25, after every other check, where a coefficient is a NaN or infinite. The coefficients are b0, b1, b2, a1 and a2 of each
 * section counted, b0, b1 and a1 of the first-order part where its flag is 1, and the taps up to the length.
 *
 * The raw form, with _raw behind the name, is never refused by 25: the coefficients are handed out as the Rust works them out,
 * NaN or infinite too. It is for sweeps over designs that look at the coefficients themselves. Such a filter runs
 * as any other; its answers may be NaN or infinite and yet not Clouded, since that speaks of samples. In all else the raw form is
 * as the default one: the same other refusals in the same order, and where both accept, the same bits in every place.
 *
 * 25 says nothing of a filter that is finite and useless; both forms accept it. Two Blackman taps are both between -1e-17 and 0,
 * and a narrow band pass of order 2 to 4 is off its frequency long before its coefficients are NaN. */

/* Designs of a cascade.
 *
 * After each, `numbers` holds the coefficients, carried values +0 and unused parts +0; `counts` holds the number of
 * sections, the first-order flag and 0. Frequencies have the unit of the sample rate; an infinite rate is accepted.
 *
 * Each is refused by 13 where numbers_len is not 32 or counts_len is not 3, after that as said there, in that order, and last,
 * in its default form, by 25. */

/* Butterworth low pass: order / 2 sections, and the first-order part where the order is odd.
 * 13; 1: order 0 or above 8; 3: rate NaN or at most 0; 2: cutoff NaN, at most 0, or at least rate x 0.5; 25, not of the raw
 * form: as of a cutoff so large that PI x cutoff overflows. */
uint8_t pulse_design_butterworth_lp(size_t order, double cutoff, double sample_rate,
                                    double *PULSE_RESTRICT numbers, size_t numbers_len, size_t *PULSE_RESTRICT counts, size_t counts_len);
uint8_t pulse_design_butterworth_lp_raw(size_t order, double cutoff, double sample_rate,
                                        double *PULSE_RESTRICT numbers, size_t numbers_len, size_t *PULSE_RESTRICT counts, size_t counts_len);

/* Butterworth high pass: parts and refusals as of the low pass. */
uint8_t pulse_design_butterworth_hp(size_t order, double cutoff, double sample_rate,
                                    double *PULSE_RESTRICT numbers, size_t numbers_len, size_t *PULSE_RESTRICT counts, size_t counts_len);
uint8_t pulse_design_butterworth_hp_raw(size_t order, double cutoff, double sample_rate,
                                        double *PULSE_RESTRICT numbers, size_t numbers_len, size_t *PULSE_RESTRICT counts, size_t counts_len);

/* Butterworth band pass from `low` to `high`: as many sections as the order, and no first-order part.
 * 13; 1: order 0 or above 4; 2: an edge NaN, low at most 0, high at most low, or high at least rate x 0.5; 3: rate NaN; 25, not
 * of the raw form: as of low 1, high 1.0001 and a rate of 4 from order 2 on. */
uint8_t pulse_design_butterworth_bp(size_t order, double low, double high, double sample_rate,
                                    double *PULSE_RESTRICT numbers, size_t numbers_len, size_t *PULSE_RESTRICT counts, size_t counts_len);
uint8_t pulse_design_butterworth_bp_raw(size_t order, double low, double high, double sample_rate,
                                        double *PULSE_RESTRICT numbers, size_t numbers_len, size_t *PULSE_RESTRICT counts, size_t counts_len);

/* Chebyshev low pass of type I, `ripple_db` the ripple of the pass band in decibels: parts as of the Butterworth low pass.
 * 13; 1, 3, 2 as of the Butterworth low pass; then 4: ripple_db NaN or at most 0; then 25, not of the raw form: as of a ripple_db
 * of 2e-16 or less. */
uint8_t pulse_design_chebyshev1_lp(size_t order, double cutoff, double ripple_db, double sample_rate,
                                   double *PULSE_RESTRICT numbers, size_t numbers_len, size_t *PULSE_RESTRICT counts, size_t counts_len);
uint8_t pulse_design_chebyshev1_lp_raw(size_t order, double cutoff, double ripple_db, double sample_rate,
                                       double *PULSE_RESTRICT numbers, size_t numbers_len, size_t *PULSE_RESTRICT counts, size_t counts_len);

/* Chebyshev low pass of type II, `stopband_db` the attenuation of the stop band in decibels: parts as of the Butterworth
 * low pass. 13; 1, 3, 2 as of the Butterworth low pass; then 4: stopband_db NaN or at most 0; then 25, not of the raw form: as of
 * an odd order and a stopband_db of 2e-16 or less, or of an order from 2 on and one of 3090 or more. */
uint8_t pulse_design_chebyshev2_lp(size_t order, double cutoff, double stopband_db, double sample_rate,
                                   double *PULSE_RESTRICT numbers, size_t numbers_len, size_t *PULSE_RESTRICT counts, size_t counts_len);
uint8_t pulse_design_chebyshev2_lp_raw(size_t order, double cutoff, double stopband_db, double sample_rate,
                                       double *PULSE_RESTRICT numbers, size_t numbers_len, size_t *PULSE_RESTRICT counts, size_t counts_len);

/* Running a cascade. */

/* One sample x. After it `answer` holds the answer, `clouded` 1 where it is Clouded and else 0, `numbers` the new carried
 * values of the used parts and its other places as they were, and `counts` the new cloud flag.
 * 13: numbers_len is not 32, counts_len not 3, answer_len or clouded_len not 1, or a flag in `counts` above 1; then 11. */
uint8_t pulse_cascade_step(double *PULSE_RESTRICT numbers, size_t numbers_len, size_t *PULSE_RESTRICT counts, size_t counts_len, double x,
                           double *PULSE_RESTRICT answer, size_t answer_len, size_t *PULSE_RESTRICT clouded, size_t clouded_len);

/* `input` and `output` of a block must not overlap. No call can tell: where they do, it returns 0 and the answers may be
 * wrong. For one buffer that holds the samples and afterwards the answers use pulse_cascade_block_in_place. */

/* The samples of `input`, each as a step, in their order. After it the first input_len places of `output` hold the
 * answers, its later places what they held, `clouded` how many of the answers are Clouded, and `numbers` and `counts` the
 * state after the last step. An empty input leaves the state and the output, and makes `clouded` 0.
 * 13: numbers_len is not 32, counts_len not 3, clouded_len not 1, or a flag above 1; then 11; then 5: output_len below
 * input_len. */
uint8_t pulse_cascade_block(double *PULSE_RESTRICT numbers, size_t numbers_len, size_t *PULSE_RESTRICT counts, size_t counts_len,
                            const double *PULSE_RESTRICT input, size_t input_len, double *PULSE_RESTRICT output, size_t output_len,
                            size_t *PULSE_RESTRICT clouded, size_t clouded_len);

/* The samples of `buffer`, each as a step, in their order, in place. After it every place of `buffer` holds the answer to the
 * sample that it held, `clouded` how many of the answers are Clouded, and `numbers` and `counts` the state after the last
 * step: the same as of the block with these samples as its input and another array as its output. An empty buffer leaves the
 * state, and makes `clouded` 0.
 * 13: numbers_len is not 32, counts_len not 3, clouded_len not 1, or a flag above 1; then 11. */
uint8_t pulse_cascade_block_in_place(double *PULSE_RESTRICT numbers, size_t numbers_len, size_t *PULSE_RESTRICT counts, size_t counts_len,
                                     double *PULSE_RESTRICT buffer, size_t buffer_len, size_t *PULSE_RESTRICT clouded, size_t clouded_len);

/* Forgets all samples: after it every carried value in `numbers` is +0, those of unused parts too, the cloud flag in
 * `counts` is 0, and all else is as it was.
 * 13: numbers_len is not 32, counts_len not 3, or a flag above 1; then 11. */
uint8_t pulse_cascade_reset(double *PULSE_RESTRICT numbers, size_t numbers_len, size_t *PULSE_RESTRICT counts, size_t counts_len);

/* Making a FIR filter. */

/* Low pass by a windowed sinc: `taps_asked` taps, `cutoff` as a share of the sample rate, `window` 0 to 3. After it `taps`
 * holds the taps and behind them +0, `samples` is all +0, and `counts` holds the number of taps, 0 and the window code.
 * 13: taps_len or samples_len is not 64, counts_len not 3, or window above 3; then 1: taps_asked 0 or above 64; then 2:
 * cutoff NaN, at most 0, or at least 0.5; then 25, not of the raw form: a single tap with a window other than the rectangular
 * one is a NaN. */
uint8_t pulse_design_fir_lp(size_t taps_asked, double cutoff, size_t window,
                            double *PULSE_RESTRICT taps, size_t taps_len, double *PULSE_RESTRICT samples, size_t samples_len,
                            size_t *PULSE_RESTRICT counts, size_t counts_len);
uint8_t pulse_design_fir_lp_raw(size_t taps_asked, double cutoff, size_t window,
                                double *PULSE_RESTRICT taps, size_t taps_len, double *PULSE_RESTRICT samples, size_t samples_len,
                                size_t *PULSE_RESTRICT counts, size_t counts_len);

/* Taps given ready-made, coeffs_len of them: finite numbers, in the raw form any. After it `taps` holds them and behind them +0,
 * `samples` is all +0, and `counts` holds their number, 0 and the window code 4.
 * 13: taps_len or samples_len is not 64, or counts_len not 3; then 1: coeffs_len 0 or above 64; then 25, not of the raw form: a
 * NaN or an infinity among them. */
uint8_t pulse_fir_from_coeffs(const double *PULSE_RESTRICT coeffs, size_t coeffs_len,
                              double *PULSE_RESTRICT taps, size_t taps_len, double *PULSE_RESTRICT samples, size_t samples_len,
                              size_t *PULSE_RESTRICT counts, size_t counts_len);
uint8_t pulse_fir_from_coeffs_raw(const double *PULSE_RESTRICT coeffs, size_t coeffs_len,
                                  double *PULSE_RESTRICT taps, size_t taps_len, double *PULSE_RESTRICT samples, size_t samples_len,
                                  size_t *PULSE_RESTRICT counts, size_t counts_len);

/* Running a FIR filter. */

/* One sample x. After it `answer` holds the answer, `clouded` 1 where it is Clouded and else 0, `samples` the samples with
 * x at place 0, and `counts` a held count that is one more, up to the length.
 * Where the taps are finite and at most 1 in magnitude, and the samples held after the call are whole numbers from -32768 to
 * 32767, the answer is finite, not Clouded, and within 2 to the -27 of the exact sum of products. So is each answer of a block,
 * where the samples held before it and all samples of its input are such numbers. It is proved of the step of a tap record,
 * which is the step that these calls make; of other taps and samples, and of a cascade, nothing is said.
 * 13: taps_len or samples_len is not 64, counts_len not 3, or answer_len or clouded_len not 1; then 12. */
uint8_t pulse_fir_step(const double *PULSE_RESTRICT taps, size_t taps_len, double *PULSE_RESTRICT samples, size_t samples_len,
                       size_t *PULSE_RESTRICT counts, size_t counts_len, double x,
                       double *PULSE_RESTRICT answer, size_t answer_len, size_t *PULSE_RESTRICT clouded, size_t clouded_len);

/* `input` and `output` of a block must not overlap. No call can tell: where they do, it returns 0 and answers are wrong (of a
 * fresh filter of 31 taps, from 63 samples on). For one buffer that holds the samples and afterwards the answers use
 * pulse_fir_block_in_place. */

/* The samples of `input`, each as a step, in their order. After it the first input_len places of `output` hold the
 * answers, its later places what they held, `clouded` how many of the answers are Clouded, and `samples` and `counts` the
 * state after the last step. An empty input leaves the state and the output, and makes `clouded` 0.
 * 13: taps_len or samples_len is not 64, counts_len not 3, or clouded_len not 1; then 12; then 5: output_len below
 * input_len. */
uint8_t pulse_fir_block(const double *PULSE_RESTRICT taps, size_t taps_len, double *PULSE_RESTRICT samples, size_t samples_len,
                        size_t *PULSE_RESTRICT counts, size_t counts_len, const double *PULSE_RESTRICT input, size_t input_len,
                        double *PULSE_RESTRICT output, size_t output_len, size_t *PULSE_RESTRICT clouded, size_t clouded_len);

/* The samples of `buffer`, each as a step, in their order, in place. After it every place of `buffer` holds the answer to the
 * sample that it held, `clouded` how many of the answers are Clouded, and `samples` and `counts` the state after the last
 * step: the same as of the block with these samples as its input and another array as its output. An empty buffer leaves the
 * state, and makes `clouded` 0.
 * 13: taps_len or samples_len is not 64, counts_len not 3, or clouded_len not 1; then 12. */
uint8_t pulse_fir_block_in_place(const double *PULSE_RESTRICT taps, size_t taps_len, double *PULSE_RESTRICT samples, size_t samples_len,
                                 size_t *PULSE_RESTRICT counts, size_t counts_len, double *PULSE_RESTRICT buffer, size_t buffer_len,
                                 size_t *PULSE_RESTRICT clouded, size_t clouded_len);

/* Forgets all samples: after it `samples` is all +0 and the held count in `counts` is 0; all else is as it was.
 * 13: taps_len or samples_len is not 64, or counts_len not 3; then 12. */
uint8_t pulse_fir_reset(const double *PULSE_RESTRICT taps, size_t taps_len, double *PULSE_RESTRICT samples, size_t samples_len,
                        size_t *PULSE_RESTRICT counts, size_t counts_len);

/* A whole pulse. */

/* The samples of `buffer` through a channel class of SAE J211-1, in place: forward from the first place to the last, then
 * backward from the last to the first. After it every place of `buffer` holds its answer. An empty buffer stays empty.
 *
 * `channel_class` is 60, 180, 600 or 1000. With w = tan((PI x (channel_class x 2.0775)) / sample_rate), r the double
 * 3FF6A09E667F3BCD (the square root of 2) and D = (1 + r w) + w w, a pass answers a sample x by
 * y = a0 x + a1 x1 + a2 x2 + b1 y1 + b2 y2, added from left to right: a0 = w w / D, a1 = 2 a0, a2 = a0,
 * b1 = -2 (w w - 1) / D, b2 = ((-1 + r w) - w w) / D; x1 and x2 are the samples before x, newest first, and y1 and y2 their
 * answers, all four +0 where a pass starts. Each operation rounds once; PI and 2.0775 are their nearest doubles, and tan is the
 * library's own, so that a C library's may give other last bits. These are the standard's names: b1 and b2 weigh the feedback,
 * and are added.
 *
 * Each pass is 3 dB down at 2.0775 x channel_class, in the unit of the sample rate. Both together are 6 dB down there, and 3 dB
 * down at 1.667 x channel_class where the rate is high. A rate just above the limit of 2 filters almost nothing. An infinite
 * rate is accepted, and finite samples are then answered by 0.
 *
 * A pulse has no mark: a NaN among the samples makes every place of `buffer` a NaN, and the call returns 0; an infinity spoils
 * the buffer too. So look for both before the call. Since each pass starts from zeros, a buffer that does not begin and end
 * near zero has wrong ends: at class 60 and a rate of 10000, 256 places of 50 read 25.7 in the first and 0.07 in the last.
 *
 * 21: another class; then 3: rate NaN or at most 0; then 2: channel_class x 2.0775 at least rate x 0.5, both rounded. */
uint8_t pulse_j211(size_t channel_class, double sample_rate, double *PULSE_RESTRICT buffer, size_t buffer_len);

/* A block of the rival recorder. */

/* One channel of `block`. Byte 0 is the header length in bytes, byte 1 the channel count, bytes 2 and 3 are the samples per
 * channel; header bytes from 4 on are skipped. Samples start after the header: signed 16-bit two's complement, channel 0, 1 and
 * so on, then the next instant. Every number has its low byte first. Bytes past the samples are ignored.
 *
 * `channel` counts from 0, and `count` is one size_t. After the call the first places of `output` hold the samples of that channel,
 * the later places of `output` what they held, and `count` how many samples there are: as many as the block has for each channel.
 * Bytes 2 and 3 say how many places are needed; 65535 are always enough. The code -32768 marks a dropout and becomes a NaN, which
 * may be any NaN; every other code becomes exactly its number, and 0 becomes +0. Nothing else tells of a dropout, so look for NaNs
 * before a filter: one makes every place of a pulse through pulse_j211 a NaN.
 *
 * 13: count_len is not 1; then 22: block_len is 0, a header length below 4 or above block_len, or a channel count of 0 or above
 * 8; then 23: header length + 2 x channel count x samples per channel above block_len; then 24: `channel` at or above the
 * channel count; then 5: output_len below the samples per channel. A refusal leaves `count` too, so it is not set to 0: a number
 * other than 0 means a count of 0. */
#define PULSE_COUNT_LEN 1
#define PULSE_MAX_CHANNELS 8
uint8_t pulse_read_channel(const uint8_t *PULSE_RESTRICT block, size_t block_len, size_t channel,
                           double *PULSE_RESTRICT output, size_t output_len, size_t *PULSE_RESTRICT count, size_t count_len);

#ifdef __cplusplus
}
#endif

#endif
