/* One buffer as the input and the output of a block: with -Wrestrict a compiler must warn of both calls. With -DAPART the
 * output is a buffer of its own, and it must not. tests/capi/run compiles it both ways. */
#include "pulse.h"

static double buffer[8];
#ifdef APART
static double output[8];
#else
#define output buffer
#endif

uint8_t cascade(double *numbers, size_t *counts, size_t *clouded);
uint8_t cascade(double *numbers, size_t *counts, size_t *clouded) {
    return pulse_cascade_block(numbers, PULSE_NUMBERS_LEN, counts, PULSE_CASCADE_COUNTS_LEN, buffer, 8, output, 8, clouded, 1);
}

uint8_t fir(const double *taps, double *samples, size_t *counts, size_t *clouded);
uint8_t fir(const double *taps, double *samples, size_t *counts, size_t *clouded) {
    return pulse_fir_block(taps, PULSE_TAPS_LEN, samples, PULSE_SAMPLES_LEN, counts, PULSE_FIR_COUNTS_LEN, buffer, 8, output, 8, clouded, 1);
}
