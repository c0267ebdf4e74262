/* An instant is given in seconds. */
#include "orbit.h"

uint8_t where(const orbit_model *model, orbit_motion *motion)
{
#ifdef MENDED
    const orbit_nanoseconds instant = {INT64_C(1750000740000000000)};
#else
    const orbit_seconds instant = {1750000740.0};
#endif
    return orbit_evaluate(model, instant, motion); /* WRONG: incompatible type for argument 2 of 'orbit_evaluate' */
}
