/* A frequency stands where the observer's z is meant. */
#include "orbit.h"

uint8_t closest(const int64_t instants[10], const double positions[30], orbit_nanoseconds about, orbit_seconds tolerance,
                orbit_nanoseconds *found, uint8_t *place)
{
#ifdef MENDED
    const orbit_metres oz = {5019047.0};
#else
    const orbit_hertz oz = {401650000.0};
#endif
    const orbit_metres ox = {3913991.0}, oy = {281932.0};
    return orbit_find_pca_time(instants, 10, positions, 30, ox, oy,
                               oz, /* WRONG: incompatible type for argument 7 of 'orbit_find_pca_time' */
                               about, tolerance, found, place);
}
