/* What the refusals of the library mean, in the words of include/orbit.h. */
#ifndef REFUSALS_H
#define REFUSALS_H

#include <stdint.h>

/* What is wrong, for the number of a refusal. */
const char *what_is_wrong(uint8_t refusal);

/* What to do about it. */
const char *what_to_do(uint8_t refusal);

#endif
