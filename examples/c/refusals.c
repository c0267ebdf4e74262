/* What the refusals of the library mean, in the words of include/orbit.h. */
#include "refusals.h"

#include <stddef.h>

typedef struct {
    uint8_t number;
    const char *wrong;
    const char *remedy;
} refusal_text;

/* In the order of their numbers. */
static const refusal_text texts[] = {
    {1, "fewer than 10 or more than 4,096 coordinates, or not three position numbers for each instant.",
     "lend a part of the table with 10 to 4,096 coordinates, and all three numbers of each."},
    {2, "no sample, more than 1,312, or not one frequency for each instant.",
     "see whether the receiver is stuck, and lend one pass of at most 1,312 samples, each instant with its frequency."},
    {3, "an area for the means is shorter than the recording.",
     "lend two areas at least as long as the recording."},
    {4, "an instant is more than 4,000,000,000,000,000,000 ns (some 126 years) from 1970-01-01.",
     "look for a wrong unit or a damaged instant; instants are nanoseconds."},
    {5, "the coordinates' instants do not strictly rise.",
     "sort the table, and strike out coordinates that stand twice."},
    {6, "a coordinate or the observer is not finite, has a component over 100,000,000 m, or all three under 1,000,000 m.",
     "give metres, not kilometres; strike out blank entries."},
    {7, "a sample's frequency is not finite, or the centre frequency not finite or not above zero.",
     "strike out the sample, or set the centre frequency, in hertz."},
    {8, "a column's pivot has a magnitude below 1e-12, so the matrix has no inverse that could be trusted.",
     "look for repeated or missing nodes; in a table, for coordinates that lie too close together or too far apart."},
    {9, "no slope of the frequency is below zero, so the recording shows no approach.",
     "take a recording that holds the closest approach, with at least three samples some milliseconds apart."},
    {10, "no shift of the clock fits the recording.",
     "look whether recording, table, observer and centre frequency belong to the same pass."},
    {11, "a header line, a date or a position of the satellite is not as SP3-c has it, a position stands before the first date, or a date is not real or farther from 1970 than refusal 4 allows.",
     "fetch the orbit file again, whole and unedited; if it is refused again, ask its sender for SP3-c."},
    {12, "the orbit file's time system is neither UTC nor GPS.",
     "take a file in UTC or GPS time; its line 13 says which, in columns 10 to 12."},
    {13, "the orbit file has no position of the satellite, or a lent area is too short for them.",
     "look how the file names the satellite, such as G05; lend room for an instant and three numbers for each of its positions."},
    {14, "no entry on the board, or more than 64.",
     "lend at least one entry and at most 64; of each satellite the latest is enough."},
    {15, "the clock offset, frequency offset or RMSE of an entry is not finite, superseded entries included.",
     "find the entry that holds it, and strike it out."},
    {16, "the tolerance of an even window is not finite or below zero.",
     "give the seconds by which the gaps of a window may be off their mean, such as 0.001 for a file that promises a millisecond."},
};

static const refusal_text unknown = {0, "the library has no such refusal.", "look whether the library and refusals.c belong together."};

static const refusal_text *text_of(uint8_t refusal)
{
    for (size_t k = 0; k < sizeof texts / sizeof texts[0]; k++)
        if (texts[k].number == refusal)
            return &texts[k];
    return &unknown;
}

const char *what_is_wrong(uint8_t refusal)
{
    return text_of(refusal)->wrong;
}

const char *what_to_do(uint8_t refusal)
{
    return text_of(refusal)->remedy;
}
