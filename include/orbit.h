/* The ship clock's library for C (C11 or C++11), and for any language that calls C.
 *
 * Link with target/staticlib/liborbit_abi.a, made by `examples/library`.
 *
 * Every function takes any numbers. Those that can refuse answer the refusal's number, 0 where they answered; results go through the
 * pointers at the end and stay untouched on a refusal (but for the means of orbit_pass under 10). A pointer is to one value of its type,
 * or to as many as its parameter or the count after it says, and never null; areas that are written do not overlap any other argument.
 *
 * A table of coordinates is its instants, strictly rising, and its positions: x, y, z for each instant, in metres, earth-centred and
 * earth-fixed, so position_count is three times instant_count. A recording is its instants and as many frequencies, in hertz. Slices
 * hold bare numbers, but for that of a board, which holds its entries; an instant in one is a count of nanoseconds.
 *
 * Each unit is a type of its own with one field, so that kilometres cannot stand where metres are meant: orbit_metres m = {1500.0};
 * The library takes and gives these structs by value. An answer of several numbers is a struct of them, so that each keeps its unit.
 *
 * A position goes by a window of ten coordinates about its instant. The tolerance says which windows are even: where none of the nine gaps
 * is off their mean by more than the tolerance, the window is taken as exactly evenly spaced; else its own instants are used. Give 0.001 s
 * for a file whose seller promises a millisecond. With ORBIT_EVEN_TOLERANCE, which is document 01's 1.0 s and was the only value before, a
 * window whose gaps are up to a second off is taken as even, and a low satellite kilometres off its track.
 *
 * Refusals. The checks are made in this order, but 16 behind 7 and before 8, and the first that fails gives the number. Refusals 11 to 13
 * are of orbit_read_sp3 alone, 14 and 15 of orbit_fleet_board alone, and neither of these two makes any of the others.
 *
 *    1  What is wrong: fewer than 10 or more than 4,096 coordinates, or not three position numbers for each instant.
 *       What to do: lend a part of the table with 10 to 4,096 coordinates, and all three numbers of each.
 *    2  What is wrong: no sample, more than 1,312, or not one frequency for each instant.
 *       What to do: see whether the receiver is stuck, and lend one pass of at most 1,312 samples, each instant with its frequency.
 *    3  What is wrong: an area for the means is shorter than the recording.
 *       What to do: lend two areas at least as long as the recording.
 *    4  What is wrong: an instant is more than 4,000,000,000,000,000,000 ns (some 126 years) from 1970-01-01.
 *       What to do: look for a wrong unit or a damaged instant; instants are nanoseconds.
 *    5  What is wrong: the coordinates' instants do not strictly rise.
 *       What to do: sort the table, and strike out coordinates that stand twice.
 *    6  What is wrong: a coordinate or the observer is not finite, has a component over 100,000,000 m, or all three under 1,000,000 m.
 *       What to do: give metres, not kilometres; strike out blank entries.
 *    7  What is wrong: a sample's frequency is not finite, or the centre frequency not finite or not above zero.
 *       What to do: strike out the sample, or set the centre frequency, in hertz.
 *    8  What is wrong: a column's pivot has a magnitude below 1e-12, so the matrix has no inverse that could be trusted.
 *       What to do: look for repeated or missing nodes; in a table, for coordinates that lie too close together or too far apart.
 *    9  What is wrong: no slope of the frequency is below zero, so the recording shows no approach.
 *       What to do: take a recording that holds the closest approach, with at least three samples some milliseconds apart.
 *   10  What is wrong: no shift of the clock fits the recording.
 *       What to do: look whether recording, table, observer and centre frequency belong to the same pass.
 *   11  What is wrong: a header line, a date or a position of the satellite is not as SP3-c has it, a position stands before the first date, or a date is not real or farther from 1970 than refusal 4 allows.
 *       What to do: fetch the orbit file again, whole and unedited; if it is refused again, ask its sender for SP3-c.
 *   12  What is wrong: the orbit file's time system is neither UTC nor GPS.
 *       What to do: take a file in UTC or GPS time; its line 13 says which, in columns 10 to 12.
 *   13  What is wrong: the orbit file has no position of the satellite, or a lent area is too short for them.
 *       What to do: look how the file names the satellite, such as G05; lend room for an instant and three numbers for each of its positions.
 *   14  What is wrong: no entry on the board, or more than 64.
 *       What to do: lend at least one entry and at most 64; of each satellite the latest is enough.
 *   15  What is wrong: the clock offset, frequency offset or RMSE of an entry is not finite, superseded entries included.
 *       What to do: find the entry that holds it, and strike it out.
 *   16  What is wrong: the tolerance of an even window is not finite or below zero.
 *       What to do: give the seconds by which the gaps of a window may be off their mean, such as 0.001 for a file that promises a millisecond.
 */
#ifndef ORBIT_H
#define ORBIT_H

#include <stddef.h>
#include <stdint.h>

#ifdef __cplusplus
extern "C" {
#endif

/* The units: a length, a time, a frequency, a count of nanoseconds (of an instant: since 1970-01-01, without leap seconds), and a count of
 * leap seconds, by which GPS time is ahead of UTC: 18 since 2017. */
typedef struct { double metres; } orbit_metres;
typedef struct { double seconds; } orbit_seconds;
typedef struct { double hertz; } orbit_hertz;
typedef struct { int64_t nanoseconds; } orbit_nanoseconds;
typedef struct { int16_t leap_seconds; } orbit_leap_seconds;

/* A velocity, in metres for each second. */
typedef struct { double metres_per_second; } orbit_metres_per_second;

/* The most coordinates that a table may have (refusal 1), the most samples of a recording (refusal 2), and the most entries of a board
 * (refusal 14). */
enum { ORBIT_MOST_COORDINATES = 4096, ORBIT_MOST_SAMPLES = 1312, ORBIT_MOST_ENTRIES = 64 };

/* The tolerance of an even window in document 01: its gaps may be up to 1.0 s off their mean. No function uses it unless it is given. In C it
 * is an object and no constant expression, so a static of yours is set by {1.0}. */
static const orbit_seconds ORBIT_EVEN_TOLERANCE = {1.0};

/* Where an instant lies: before the first coordinate of a table, from the first to the last, both included, or after the last.
 * Outside the table a position is extrapolated: the farther outside, the less it can be trusted. */
enum { ORBIT_BEFORE = 0, ORBIT_WITHIN = 1, ORBIT_AFTER = 2 };

/* What a fit answers. The clock offset is above zero where the recorder's clock is ahead of the table's. */
typedef struct { orbit_seconds clock_offset; orbit_hertz frequency_offset; orbit_hertz rmse; } orbit_report;

/* Where a satellite is and how it moves, earth-centred and earth-fixed. */
typedef struct { orbit_metres x, y, z; orbit_metres_per_second vx, vy, vz; } orbit_motion;

/* The Chebyshev model of ten coordinates: their first time and their last, and ten coefficients of each axis. */
typedef struct { orbit_seconds t0, t9; orbit_metres cx[10], cy[10], cz[10]; } orbit_model;

/* An entry of the fleet board: what one boat has of a satellite. The satellite is its number, the same on all boats; the instant is the
 * approach that the boat's clock offset was taken about, and the other three are those of its report. */
typedef struct {
    uint16_t satellite;
    orbit_nanoseconds instant;
    orbit_seconds clock_offset;
    orbit_hertz frequency_offset;
    orbit_hertz rmse;
} orbit_entry;

/* The library reads and writes report, motion and model as 3, 6 and 32 doubles, one after the other in this order: there must be no
 * padding. An entry has some behind its satellite, which may hold anything, and then four numbers of eight bytes. */
#ifdef __cplusplus
#define ORBIT_ASSERT static_assert
#else
#define ORBIT_ASSERT _Static_assert
#endif
ORBIT_ASSERT(sizeof(orbit_report) == 24, "orbit_report is three doubles");
ORBIT_ASSERT(sizeof(orbit_motion) == 48, "orbit_motion is six doubles");
ORBIT_ASSERT(sizeof(orbit_model) == 256, "orbit_model is 32 doubles");
ORBIT_ASSERT(sizeof(orbit_entry) == 40 && offsetof(orbit_entry, instant) == 8, "orbit_entry is a satellite in 8 bytes and four numbers");
#undef ORBIT_ASSERT

/* The square root of x, correctly rounded. A zero gives itself, a negative number or NaN gives NaN, infinity infinity. */
double orbit_sqrt(double x);

/* The double nearest n, ties to even. */
double orbit_nearest(int64_t n);

/* x cut toward zero to a whole number; past the range the nearer end, 0 for NaN. */
int64_t orbit_truncated(double x);

/* The sum of c[j] * Tj(tau), j from 0 to 9, and its slope for each unit of tau. */
void orbit_evaluate_chebyshev(const double c[10], double tau, double *value, double *slope);

/* The inverse of a ten by ten matrix, both row after row: 0, or 8 and `inverse` untouched. */
uint8_t orbit_invert_matrix_10(const double rows[100], double inverse[100]);

/* The Chebyshev model of the ten coordinates about an instant. Refuses by 1, 4, 5, 6, 16, 8. */
uint8_t orbit_get_chebyshev_model(const int64_t *instants, size_t instant_count, const double *positions, size_t position_count,
                                  orbit_nanoseconds instant, orbit_seconds tolerance, orbit_model *model);

/* Position and velocity by such a model at an instant. Refuses by 4. */
uint8_t orbit_evaluate(const orbit_model *model, orbit_nanoseconds instant, orbit_motion *out);

/* Position and velocity by a table at an instant; outside the table they are extrapolated. Into place: where the instant lies, ORBIT_BEFORE,
 * ORBIT_WITHIN or ORBIT_AFTER. Refuses by 1, 4, 5, 6, 16, 8. */
uint8_t orbit_propagate_ecef(const int64_t *instants, size_t instant_count, const double *positions, size_t position_count,
                             orbit_nanoseconds instant, orbit_seconds tolerance, orbit_motion *out, uint8_t *place);

/* The instant at which the satellite is closest to the observer at (ox, oy, oz), to the second, within 51 minutes of an instant. Into
 * place: where the instant found lies, as above. Refuses by 1, 4, 5, 6, 16. */
uint8_t orbit_find_pca_time(const int64_t *instants, size_t instant_count, const double *positions, size_t position_count,
                            orbit_metres ox, orbit_metres oy, orbit_metres oz, orbit_nanoseconds instant, orbit_seconds tolerance,
                            orbit_nanoseconds *found, uint8_t *place);

/* The means of a recording, one for each second that holds a sample, seconds rising, at the front of the two areas; the rest of each stays.
 * Their number goes into count. Refuses by 2, 3, 4. */
uint8_t orbit_downsample_data(const int64_t *instants, size_t instant_count, const double *frequencies, size_t frequency_count,
                              int64_t *mean_instants, size_t mean_instant_count, double *mean_frequencies, size_t mean_frequency_count,
                              uint64_t *count);

/* The instant of the sample about which a recording's frequency falls fastest, the first of equals. Refuses by 2, 4, 9. */
uint8_t orbit_estimate_measured_pca_time(const int64_t *instants, size_t instant_count, const double *frequencies, size_t frequency_count,
                                         orbit_nanoseconds *found);

/* The steepest slope of a recording's frequency that is at least -120, in hertz for each second; 0.0 where none is below zero.
 * Refuses by 2, 4. */
uint8_t orbit_steepest_slope(const int64_t *instants, size_t instant_count, const double *frequencies, size_t frequency_count,
                             double *slope);

/* The distance to the satellite at its closest, from the centre frequency and the steepest slope in hertz for each second;
 * 2,000,000 m where the slope's magnitude is at most 0.1 or NaN. */
orbit_metres orbit_estimate_slant_range(orbit_hertz f0, double slope);

/* The fit of a recording to a satellite, about the instant of its measured approach. Into count: the number of samples; into approach:
 * that instant again; into fallback: 0, since it was given; into outside: how many of the samples lie before the first coordinate or after
 * the last, once each is moved earlier by the clock offset, cut toward zero to whole microseconds, as the fit moves it. A sample without a
 * position there (refusal 8) is counted if it lies outside, and not if it lies within. Refuses by 1, 2, 4, 5, 6, 7, 16, 10. */
uint8_t orbit_fit_satellite(const int64_t *instants, size_t instant_count, const double *positions, size_t position_count,
                            const int64_t *samples, size_t sample_count, const double *frequencies, size_t frequency_count,
                            orbit_metres ox, orbit_metres oy, orbit_metres oz, orbit_hertz f0,
                            orbit_nanoseconds measured, orbit_seconds tolerance,
                            orbit_report *report, uint64_t *count, orbit_nanoseconds *approach, uint8_t *fallback, uint64_t *outside);

/* The whole pass: the means of a recording, as above, their measured approach or else the mean at index count / 2, and the fit of the means.
 * Into count: the number of means; into approach: the instant that the clock offset was taken about, by the recorder's clock; into fallback:
 * 1 if that is the mean at index count / 2, since no slope of the means is below zero, 0 if it is their measured approach; into outside:
 * how many of the means lie outside the table, counted as above. Where any do, the clock offset goes by extrapolated positions and may be
 * far off: take an orbit file that holds the whole pass. Refuses by 1, 2, 3, 4, 5, 6, 7, 16, 10; under 10 the means stay written. */
uint8_t orbit_pass(const int64_t *instants, size_t instant_count, const double *positions, size_t position_count,
                   const int64_t *samples, size_t sample_count, const double *frequencies, size_t frequency_count,
                   orbit_metres ox, orbit_metres oy, orbit_metres oz, orbit_hertz f0, orbit_seconds tolerance,
                   int64_t *mean_instants, size_t mean_instant_count, double *mean_frequencies, size_t mean_frequency_count,
                   orbit_report *report, uint64_t *count, orbit_nanoseconds *approach, uint8_t *fallback, uint64_t *outside);

/* The positions of one satellite in the bytes of an orbit file in SP3-c, in the file's order, as instants and x, y, z in metres at the
 * front of the two areas; the rest of each stays. The satellite is its three bytes in the file, such as {'G', '0', '5'}. A file in UTC
 * gives its own instants; one in GPS time gives them less the leap seconds. A position of three zeros is absent and left out. The number
 * of positions goes into count. Instants that fall or repeat are given as they stand, and so are more positions than a table may have:
 * such a table is refused by 5 or 1 where it is used. A file that was cut off behind a whole line is read as far as it goes. Refuses by
 * 11, 12, 13. */
uint8_t orbit_read_sp3(const uint8_t *bytes, size_t byte_count, const uint8_t satellite[3], orbit_leap_seconds leap_seconds,
                       int64_t *instants, size_t instant_count, double *positions, size_t position_count, uint64_t *count);

/* The clock offset of a fleet board: the mean of the clock offsets of the entries that no other supersedes, one for each satellite, summed
 * in list order. Of the entries of one satellite the later instant supersedes; at equal instants the smaller RMSE; if that is equal too,
 * the one nearer the front. Any instant is taken. The mean is infinite where the sum, at any step, passes the range of a double. Refuses
 * by 14, 15. */
uint8_t orbit_fleet_board(const orbit_entry *entries, size_t entry_count, orbit_seconds *clock_offset);

#ifdef __cplusplus
}
#endif

#endif
