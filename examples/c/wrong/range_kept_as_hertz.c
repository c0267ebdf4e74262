/* The answer is a length, and is kept as a frequency. */
#include "orbit.h"

#ifdef MENDED
typedef orbit_metres kept;
#else
typedef orbit_hertz kept;
#endif

kept range(orbit_hertz f0, double slope)
{
    return orbit_estimate_slant_range(f0, slope); /* WRONG: incompatible types when returning type 'orbit_metres' */
}
