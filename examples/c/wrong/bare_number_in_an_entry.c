/* The clock offset of a board's entry is given without a unit. */
#include "orbit.h"

void correct(orbit_entry *entry, double offset)
{
#ifdef MENDED
    const orbit_seconds corrected = {offset};
#else
    const double corrected = offset;
#endif
    entry->clock_offset = corrected; /* WRONG: incompatible types when assigning to type 'orbit_seconds' from type 'double' */
}
