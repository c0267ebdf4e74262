/* The observer is given in kilometres, as a bare number. */
#include "orbit.h"

uint8_t closest(const int64_t instants[10], const double positions[30], orbit_nanoseconds about, orbit_seconds tolerance,
                orbit_nanoseconds *found, uint8_t *place)
{
#ifdef MENDED
    const orbit_metres ox = {3913991.0};
#else
    const double ox = 3913.991;
#endif
    const orbit_metres oy = {281932.0}, oz = {5019047.0};
    return orbit_find_pca_time(instants, 10, positions, 30,
                               ox, /* WRONG: incompatible type for argument 5 of 'orbit_find_pca_time' */
                               oy, oz, about, tolerance, found, place);
}
