/* A satellite's velocity is kept as a length. */
#include "orbit.h"

#ifdef MENDED
typedef orbit_metres_per_second kept;
#else
typedef orbit_metres kept;
#endif

kept along_x(const orbit_motion *motion)
{
    return motion->vx; /* WRONG: incompatible types when returning type 'orbit_metres_per_second' */
}
