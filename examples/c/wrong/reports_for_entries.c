/* Reports are lent where the entries of a board are meant. */
#include "orbit.h"

#ifdef MENDED
typedef orbit_entry lent;
#else
typedef orbit_report lent;
#endif

uint8_t offset(const lent *list, size_t count, orbit_seconds *clock_offset)
{
    return orbit_fleet_board(list, count, clock_offset); /* WRONG: passing argument 1 of 'orbit_fleet_board' from incompatible pointer type */
}
