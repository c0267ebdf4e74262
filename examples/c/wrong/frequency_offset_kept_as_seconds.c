/* A report's frequency offset is kept as a time. */
#include "orbit.h"

#ifdef MENDED
typedef orbit_hertz kept;
#else
typedef orbit_seconds kept;
#endif

kept offset(const orbit_report *report)
{
    return report->frequency_offset; /* WRONG: incompatible types when returning type 'orbit_hertz' */
}
