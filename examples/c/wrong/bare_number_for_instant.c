/* An instant is given as a bare number, which does not say its unit. */
#include "orbit.h"

uint8_t where(const orbit_model *model, orbit_motion *motion)
{
#ifdef MENDED
    const orbit_nanoseconds instant = {INT64_C(1750000740000000000)};
#else
    const int64_t instant = INT64_C(1750000740000000000);
#endif
    return orbit_evaluate(model, instant, motion); /* WRONG: incompatible type for argument 2 of 'orbit_evaluate' */
}
