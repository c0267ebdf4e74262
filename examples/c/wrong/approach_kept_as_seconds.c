/* The instant that a fit was taken about is kept as a time. */
#include "orbit.h"

#ifdef MENDED
typedef orbit_nanoseconds kept;
#else
typedef orbit_seconds kept;
#endif

uint8_t taken_about(const int64_t *instants, size_t rows, const double *positions, const int64_t *samples, const double *frequencies,
                    size_t sample_count, orbit_metres x, orbit_hertz f0, orbit_nanoseconds measured, orbit_seconds tolerance, kept *approach)
{
    orbit_report report;
    uint64_t count, outside;
    uint8_t fallback;
    return orbit_fit_satellite(instants, rows, positions, 3 * rows, samples, sample_count, frequencies, sample_count,
                               x, x, x, f0, measured, tolerance, &report, &count,
                               approach, /* WRONG: passing argument 17 of 'orbit_fit_satellite' from incompatible pointer type */
                               &fallback, &outside);
}
