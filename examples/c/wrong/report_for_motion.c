/* A report is lent where a position and a velocity are written. */
#include "orbit.h"

#ifdef MENDED
typedef orbit_motion lent;
#else
typedef orbit_report lent;
#endif

uint8_t where(const orbit_model *model, orbit_nanoseconds instant, lent *out)
{
    return orbit_evaluate(model, instant, out); /* WRONG: passing argument 3 of 'orbit_evaluate' from incompatible pointer type */
}
