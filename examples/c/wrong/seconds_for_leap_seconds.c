/* A time stands where the leap seconds are meant. */
#include "orbit.h"

uint8_t table(const uint8_t *file, size_t length, int64_t instants[96], double positions[288], uint64_t *count)
{
    static const uint8_t satellite[3] = {'G', '0', '5'};
#ifdef MENDED
    const orbit_leap_seconds ahead = {18};
#else
    const orbit_seconds ahead = {18.0};
#endif
    return orbit_read_sp3(file, length, satellite,
                          ahead, /* WRONG: incompatible type for argument 4 of 'orbit_read_sp3' */
                          instants, 96, positions, 288, count);
}
