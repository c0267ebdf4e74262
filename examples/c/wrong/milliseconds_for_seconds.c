/* The tolerance is given in milliseconds, as a bare number. */
#include "orbit.h"

uint8_t where(const int64_t instants[10], const double positions[30], orbit_nanoseconds instant, orbit_motion *motion, uint8_t *place)
{
#ifdef MENDED
    const orbit_seconds tolerance = {0.001};
#else
    const double tolerance = 1.0;
#endif
    return orbit_propagate_ecef(instants, 10, positions, 30, instant,
                                tolerance, /* WRONG: incompatible type for argument 6 of 'orbit_propagate_ecef' */
                                motion, place);
}
