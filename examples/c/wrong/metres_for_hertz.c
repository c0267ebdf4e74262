/* A length stands where the centre frequency is meant. */
#include "orbit.h"

orbit_metres range(double slope)
{
#ifdef MENDED
    const orbit_hertz f0 = {401650000.0};
#else
    const orbit_metres f0 = {401650000.0};
#endif
    return orbit_estimate_slant_range(f0, slope); /* WRONG: incompatible type for argument 1 of 'orbit_estimate_slant_range' */
}
