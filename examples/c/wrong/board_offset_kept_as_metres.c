/* The clock offset of a board is kept as a length. */
#include "orbit.h"

#ifdef MENDED
typedef orbit_seconds kept;
#else
typedef orbit_metres kept;
#endif

uint8_t offset(const orbit_entry *entries, size_t count, kept *clock_offset)
{
    return orbit_fleet_board(entries, count, clock_offset); /* WRONG: passing argument 3 of 'orbit_fleet_board' from incompatible pointer type */
}
