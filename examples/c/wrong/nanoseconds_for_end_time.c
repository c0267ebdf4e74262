/* A model's end time is set to a count of nanoseconds. */
#include "orbit.h"

void begin(orbit_model *model, orbit_nanoseconds first)
{
#ifdef MENDED
    const orbit_seconds t0 = {orbit_nearest(first.nanoseconds) * 1e-9};
#else
    const orbit_nanoseconds t0 = first;
#endif
    model->t0 = t0; /* WRONG: incompatible types when assigning to type 'orbit_seconds' from type 'orbit_nanoseconds' */
}
