/* Runs one pass of a satellite from an orbit file and the sample data of examples/data and prints what the library answers; then shows
 * an orbit file that ends too early, a recording without an approach, a fleet board, and three refusals.
 * usage: clock FILE, an orbit file in SP3-c
 * Exit status 0: all was as expected. */
#include <inttypes.h>
#include <math.h>
#include <stdbool.h>
#include <stdio.h>
#include <string.h>
#include <time.h>

#include "orbit.h"
#include "refusals.h"

/* The satellite of the pass, by its three bytes in the orbit file, and how far the file's GPS time is ahead of UTC. */
static const uint8_t satellite[3] = {'L', '0', '1'};
static const orbit_leap_seconds leap_seconds = {18};

/* The tolerance of an even window. Sellers of orbit files promise a millisecond: where a file is off by more, its own instants are used
 * instead of even ones. */
static const orbit_seconds tolerance = {0.001};

/* The sample data; each file says what its rows hold. */
static const struct { int64_t instant; double frequency; } recording[] = {
#include "recording.inc"
};
static const struct { double x, y, z, centre_frequency; } station[] = {
#include "station.inc"
};
static const struct { double clock_offset, frequency_offset; } known[] = {
#include "known.inc"
};

/* Nanoseconds in a second. */
static const int64_t second = 1000000000;

/* The clock offset of the other satellite's entry that none supersedes; it is made up. */
static const orbit_seconds other_offset = {2.36017};

enum {
    LONGEST_FILE = 1 << 20, /* bytes */
    SAMPLES = sizeof recording / sizeof recording[0],
    FEW_SAMPLES = 5, /* too few for an approach: they lie in two seconds */
    EARLY_COORDINATES = 13, /* too few for the pass: in the sample data they end during it */
    MEANS_SHOWN = 3,
    OWN_NUMBER = 1, /* of the pass's satellite on the board, and of another */
    OTHER_NUMBER = 2,
    ENTRIES = 4
};

/* An orbit file. */
typedef struct {
    uint8_t bytes[LONGEST_FILE];
    size_t count;
} sp3_file;

/* The table, as the library reads it from an orbit file and takes it again. */
typedef struct {
    int64_t instants[ORBIT_MOST_COORDINATES];     /* ns since 1970-01-01 */
    double positions[3 * ORBIT_MOST_COORDINATES]; /* m */
    uint64_t count;                               /* of coordinates */
} pass_table;

/* Where the observer is. */
typedef struct { orbit_metres x, y, z; } observer_position;

/* The recording, as the library takes it. */
typedef struct {
    int64_t instants[SAMPLES];   /* ns since 1970-01-01, by the recorder's clock */
    double frequencies[SAMPLES]; /* Hz */
} pass_recording;

/* What the library answers to both. The areas for the means are as long as any recording may be, since there may be as many means. */
typedef struct {
    int64_t mean_instants[ORBIT_MOST_SAMPLES];   /* ns since 1970-01-01, by the recorder's clock */
    double mean_frequencies[ORBIT_MOST_SAMPLES]; /* Hz */
    orbit_report report;
    uint64_t count;                              /* of means */
    orbit_nanoseconds approach;                  /* that the clock offset was taken about */
    uint8_t fallback;                            /* whether that is the middle mean's */
    uint64_t outside;                            /* how many of the means lie outside the table */
} pass_answer;

static orbit_hertz centre_frequency(void)
{
    return (orbit_hertz){station[0].centre_frequency};
}

static observer_position observer(void)
{
    return (observer_position){{station[0].x}, {station[0].y}, {station[0].z}};
}

/* The whole of a file; false where it cannot be read or is too long. */
static bool load_file(const char *path, sp3_file *file)
{
    FILE *stream = fopen(path, "rb");
    if (stream == NULL) {
        return false;
    }
    file->count = fread(file->bytes, 1, LONGEST_FILE, stream);
    const bool whole = feof(stream) && !ferror(stream);
    fclose(stream);
    return whole;
}

/* Copies the recording into slices, as the library takes them. */
static void load_recording(pass_recording *samples)
{
    for (size_t i = 0; i < SAMPLES; i++) {
        samples->instants[i] = recording[i].instant;
        samples->frequencies[i] = recording[i].frequency;
    }
}

/* The table of the satellite in an orbit file: 0, or the number of the refusal. */
static uint8_t read_table(const sp3_file *file, pass_table *table)
{
    return orbit_read_sp3(file->bytes, file->count, satellite, leap_seconds,
                          table->instants, ORBIT_MOST_COORDINATES, table->positions, 3 * ORBIT_MOST_COORDINATES,
                          &table->count);
}

/* The board's entries: that of the pass, and three that are made up. Of these the first is of the same satellite and an hour older, and the
 * others are of another satellite, at one instant, so that the last supersedes by its RMSE. */
static void load_board(const pass_answer *pass, orbit_entry board[ENTRIES])
{
    const orbit_report *report = &pass->report;
    const orbit_nanoseconds approach = pass->approach;
    const orbit_nanoseconds older = {approach.nanoseconds - 3600 * second}, newer = {approach.nanoseconds + 90 * second};
    const orbit_entry entries[ENTRIES] = {
        {OWN_NUMBER, approach, report->clock_offset, report->frequency_offset, report->rmse},
        {OWN_NUMBER, older, {9.0}, {100.0}, {0.1}},
        {OTHER_NUMBER, newer, {9.0}, {100.0}, {0.5}},
        {OTHER_NUMBER, newer, other_offset, {100.0}, {0.4}},
    };
    memcpy(board, entries, sizeof entries);
}

/* The whole pass, of the first so many samples: 0, or the number of the refusal. */
static uint8_t run_pass(const pass_table *table, const pass_recording *samples, size_t sample_count, pass_answer *answer)
{
    const observer_position o = observer();
    return orbit_pass(table->instants, table->count, table->positions, 3 * table->count,
                      samples->instants, sample_count, samples->frequencies, sample_count,
                      o.x, o.y, o.z, centre_frequency(), tolerance,
                      answer->mean_instants, ORBIT_MOST_SAMPLES, answer->mean_frequencies, ORBIT_MOST_SAMPLES,
                      &answer->report, &answer->count, &answer->approach, &answer->fallback, &answer->outside);
}

static void print_refusal(uint8_t refusal)
{
    if (refusal == 0) {
        printf("NOT refused\n");
        return;
    }
    printf("refused by        %" PRIu8 "\n", refusal);
    printf("what is wrong     %s\n", what_is_wrong(refusal));
    printf("what to do        %s\n", what_to_do(refusal));
}

/* An instant in UTC, to the microsecond, cut toward earlier: the date and the time of day, or the time of day alone. */
static void print_instant(int64_t nanoseconds, const char *format)
{
    const int64_t part = (nanoseconds % second + second) % second; /* ns since the second began */
    const time_t seconds = (time_t)((nanoseconds - part) / second);
    char text[32];
    strftime(text, sizeof text, format, gmtime(&seconds));
    printf("%s.%06" PRId64 " UTC", text, part / 1000);
}

static void print_mean(const pass_answer *answer, size_t i)
{
    printf("    mean %3zu      ", i + 1);
    print_instant(answer->mean_instants[i], "%H:%M:%S");
    printf("  %.3f Hz\n", answer->mean_frequencies[i]);
}

/* The first means and the last. */
static void print_means(const pass_answer *answer)
{
    const size_t count = answer->count;
    const size_t first = count < MEANS_SHOWN ? count : MEANS_SHOWN;
    printf("means             the first %zu of %zu and the last, by the recorder's clock:\n", first, count);
    for (size_t i = 0; i < first; i++) {
        print_mean(answer, i);
    }
    if (count > first) {
        print_mean(answer, count - 1);
    }
}

/* How many means there are, and the instant that the clock offset was taken about. */
static void print_count_and_approach(const pass_answer *answer)
{
    printf("count of means    %" PRIu64 "\n", answer->count);
    printf("taken about       ");
    print_instant(answer->approach.nanoseconds, "%Y-%m-%d %H:%M:%S");
    printf(" by the recorder's clock, %s\n",
           answer->fallback ? "the middle of the recording: it shows no approach" : "where the frequency falls fastest");
}

/* A warning, where any of the means lies outside the orbit file. */
static void print_outside(const pass_answer *answer)
{
    if (answer->outside > 0) {
        printf("%" PRIu64 " of %" PRIu64 " means lie outside the orbit file: take a newer one\n", answer->outside, answer->count);
    }
}

static void print_report(const pass_answer *answer)
{
    const orbit_report *report = &answer->report;
    printf("clock offset      %.5f s (above zero: the recorder's clock is ahead)\n", report->clock_offset.seconds);
    printf("frequency offset  %.3f Hz\n", report->frequency_offset.hertz);
    printf("RMSE              %.3f Hz\n", report->rmse.hertz);
    print_count_and_approach(answer);
    print_outside(answer);
}

/* Where an instant lies, in words. */
static const char *place_words(uint8_t place)
{
    switch (place) {
    case ORBIT_BEFORE:
        return "before the orbit file begins";
    case ORBIT_WITHIN:
        return "within the orbit file";
    case ORBIT_AFTER:
        return "after the orbit file ends";
    default:
        return "NO place";
    }
}

/* An instant by the table's clock; what is known of it goes behind, on the same line. */
static void print_instant_by_table(const char *what, orbit_nanoseconds instant)
{
    printf("%-18s", what);
    print_instant(instant.nanoseconds, "%Y-%m-%d %H:%M:%S");
    printf(" by the table's clock, ");
}

/* The instant of the closest approach by the table, and where it lies: 0, or the number of the refusal. */
static uint8_t print_closest(const pass_table *table, const pass_answer *answer)
{
    const observer_position o = observer();
    orbit_nanoseconds found;
    uint8_t place;
    const uint8_t refusal = orbit_find_pca_time(table->instants, table->count, table->positions, 3 * table->count,
                                                o.x, o.y, o.z, answer->approach, tolerance, &found, &place);
    if (refusal == 0) {
        print_instant_by_table("closest approach", found);
        printf("%s\n", place_words(place));
    }
    return refusal;
}

/* The distance of the observer from where the satellite is. */
static orbit_metres distance_to(const orbit_motion *motion)
{
    const observer_position o = observer();
    const double x = motion->x.metres - o.x.metres, y = motion->y.metres - o.y.metres, z = motion->z.metres - o.z.metres;
    return (orbit_metres){orbit_sqrt(x * x + y * y + z * z)};
}

/* An instant by the recorder's clock, moved by the clock offset in whole microseconds as the fit moved it. */
static orbit_nanoseconds moved(int64_t instant, const pass_answer *answer)
{
    const int64_t microseconds = orbit_truncated(answer->report.clock_offset.seconds * 1e6);
    return (orbit_nanoseconds){instant - microseconds * 1000};
}

/* The instant of the last mean by the table's clock, where it lies, and how far the satellite is then by the table. Without a position there
 * it is said so, and no error: the fit leaves such a mean out. */
static void print_last_mean(const pass_table *table, const pass_answer *answer)
{
    const orbit_nanoseconds instant = moved(answer->mean_instants[answer->count - 1], answer);
    orbit_motion motion;
    uint8_t place;
    const uint8_t refusal = orbit_propagate_ecef(table->instants, table->count, table->positions, 3 * table->count,
                                                 instant, tolerance, &motion, &place);
    print_instant_by_table("last mean", instant);
    if (refusal == 0) {
        printf("%s, the satellite %.0f m away\n", place_words(place), distance_to(&motion).metres);
    } else {
        printf("no position there (refusal %" PRIu8 ")\n", refusal);
    }
}

/* Both of these: 0, or the number of the refusal of the closest approach. */
static uint8_t print_places(const pass_table *table, const pass_answer *answer)
{
    const uint8_t refusal = print_closest(table, answer);
    if (refusal == 0) {
        print_last_mean(table, answer);
    }
    return refusal;
}

/* The steepest slope of the means, and the slant range by it: 0, or the number of the refusal. */
static uint8_t print_slope_and_range(const pass_answer *answer)
{
    double slope; /* Hz/s */
    const uint8_t refusal = orbit_steepest_slope(answer->mean_instants, answer->count, answer->mean_frequencies, answer->count, &slope);
    if (refusal == 0) {
        const orbit_metres range = orbit_estimate_slant_range(centre_frequency(), slope);
        printf("steepest slope    %.3f Hz/s\n", slope);
        printf("slant range       %.0f m, estimated from that slope\n", range.metres);
    }
    return refusal;
}

static bool near(double found, double expected, double apart)
{
    return found - expected <= apart && expected - found <= apart;
}

/* Whether the fit found the offsets that went into the sample data. */
static bool print_known(const pass_answer *answer)
{
    const orbit_report *report = &answer->report;
    const bool found = near(report->clock_offset.seconds, known[0].clock_offset, 0.005) &&
                       near(report->frequency_offset.hertz, known[0].frequency_offset, 0.5);
    printf("went into it      %.5f s and %.3f Hz: %s\n", known[0].clock_offset, known[0].frequency_offset,
           found ? "found, to within 0.005 s and 0.5 Hz" : "NOT found");
    return found;
}

/* The table from the orbit file of this name. */
static bool show_table(const char *name, const sp3_file *file, pass_table *table)
{
    const uint8_t refusal = read_table(file, table);
    if (refusal != 0) {
        print_refusal(refusal);
        return false;
    }
    printf("table             %" PRIu64 " coordinates of %.3s from %s\n", table->count, (const char *)satellite, name);
    printf("tolerance         %g s: ten coordinates with a gap farther off the mean gap are taken by their own instants\n", tolerance.seconds);
    return true;
}

/* The pass of the whole recording, its report and its places: 0, or the number of the refusal. */
static uint8_t print_pass(const pass_table *table, const pass_recording *samples, pass_answer *answer)
{
    const uint8_t refusal = run_pass(table, samples, SAMPLES, answer);
    if (refusal != 0) {
        return refusal;
    }
    print_report(answer);
    return print_places(table, answer);
}

/* The pass of the sample data: whether it was answered. */
static bool show_pass(const pass_table *table, const pass_recording *samples, pass_answer *answer)
{
    uint8_t refusal = print_pass(table, samples, answer);
    if (refusal == 0) {
        print_means(answer);
        refusal = print_slope_and_range(answer);
    }
    if (refusal != 0) {
        print_refusal(refusal);
        return false;
    }
    return true;
}

/* Whether the table's first coordinates end during the pass that was answered, and others follow. */
static bool ends_early(const pass_table *table, const pass_recording *samples, const pass_answer *answer)
{
    const int64_t end = table->instants[EARLY_COORDINATES - 1];
    return table->count > EARLY_COORDINATES && moved(samples->instants[0], answer).nanoseconds <= end &&
           end < moved(samples->instants[SAMPLES - 1], answer).nanoseconds;
}

/* The same pass with an orbit file that ends during it: positions after its end are extrapolated, the clock offset is off, and the report
 * warns. It is left out where the table cannot be cut so. Whether it was answered. */
static bool show_early_end(const pass_table *table, const pass_recording *samples, pass_answer *answer)
{
    static pass_table shorter;
    if (!ends_early(table, samples, answer)) {
        return true;
    }
    memcpy(&shorter, table, sizeof shorter);
    shorter.count = EARLY_COORDINATES;
    printf("\nThe same pass, an orbit file that ends during it: its first %d coordinates alone\n", EARLY_COORDINATES);
    const uint8_t refusal = print_pass(&shorter, samples, answer);
    if (refusal != 0) {
        print_refusal(refusal);
    }
    return refusal == 0;
}

/* The pass of the first few samples shows no approach, so that it is taken about the middle mean. */
static bool show_few_samples(const pass_table *table, const pass_recording *samples, pass_answer *answer)
{
    printf("\nThe same pass, its first %d samples alone\n", FEW_SAMPLES);
    const uint8_t refusal = run_pass(table, samples, FEW_SAMPLES, answer);
    if (refusal != 0) {
        print_refusal(refusal);
        return false;
    }
    print_count_and_approach(answer);
    print_outside(answer);
    return answer->fallback && answer->approach.nanoseconds == answer->mean_instants[answer->count / 2];
}

/* The clock offset of the board: the mean of the pass's and of the other satellite's. */
static bool show_board(const orbit_entry board[ENTRIES])
{
    orbit_seconds offset;
    printf("\nA fleet board of %d entries: that of the pass, and %d that are made up\n", ENTRIES, ENTRIES - 1);
    const uint8_t refusal = orbit_fleet_board(board, ENTRIES, &offset);
    if (refusal != 0) {
        print_refusal(refusal);
        return false;
    }
    printf("clock offset      %.5f s, the mean of one entry for each satellite\n", offset.seconds);
    return near(offset.seconds, (board[0].clock_offset.seconds + other_offset.seconds) / 2.0, 1e-9);
}

/* A call that should be refused: whether it was, by that number, and wrote nothing. */
static bool print_refused(uint8_t refusal, uint8_t expected, bool untouched)
{
    print_refusal(refusal);
    printf("lent areas        %s\n", untouched ? "untouched" : "WRITTEN");
    return refusal == expected && untouched;
}

/* The same pass with the table in kilometres is refused, and nothing is written. */
static bool show_kilometres(pass_table *table, const pass_recording *samples, pass_answer *answer)
{
    static pass_answer before;
    for (size_t i = 0; i < 3 * table->count; i++) {
        table->positions[i] /= 1000.0;
    }
    memset(answer, 0x5A, sizeof *answer); /* a mark in every byte that is lent */
    memcpy(&before, answer, sizeof before);
    printf("\nThe same pass, the table in kilometres\n");
    const uint8_t refusal = run_pass(table, samples, SAMPLES, answer);
    return print_refused(refusal, 6, memcmp(&before, answer, sizeof before) == 0);
}

/* The same file with commas for points is refused, and nothing is written. */
static bool show_commas(sp3_file *file, pass_table *table)
{
    static pass_table before;
    for (size_t i = 0; i < file->count; i++) {
        if (file->bytes[i] == '.') {
            file->bytes[i] = ',';
        }
    }
    memset(table, 0x5A, sizeof *table); /* a mark in every byte that is lent */
    memcpy(&before, table, sizeof before);
    printf("\nThe same orbit file, commas for points\n");
    const uint8_t refusal = read_table(file, table);
    return print_refused(refusal, 11, memcmp(&before, table, sizeof before) == 0);
}

/* The same board with an RMSE that is no number is refused, though its entry is superseded, and nothing is written. */
static bool show_board_refused(orbit_entry board[ENTRIES])
{
    orbit_seconds offset = {-1.0}; /* a mark */
    board[1].rmse.hertz = NAN;
    printf("\nThe same board, the RMSE of the older entry no number\n");
    const uint8_t refusal = orbit_fleet_board(board, ENTRIES, &offset);
    print_refusal(refusal);
    return refusal == 15 && offset.seconds == -1.0;
}

int main(int argc, char **argv)
{
    static sp3_file file;
    static pass_table table;
    static pass_recording samples;
    static pass_answer answer;
    static orbit_entry board[ENTRIES];
    if (argc != 2 || !load_file(argv[1], &file)) {
        fprintf(stderr, "usage: clock FILE, an orbit file of less than %d bytes\n", LONGEST_FILE);
        return 1;
    }
    load_recording(&samples);
    printf("A pass: %d samples, centre frequency %.0f Hz\n", SAMPLES, centre_frequency().hertz);
    const bool answered = show_table(argv[1], &file, &table) && show_pass(&table, &samples, &answer);
    const bool found = answered && print_known(&answer);
    load_board(&answer, board);
    const bool all_answered = answered && show_early_end(&table, &samples, &answer) && show_few_samples(&table, &samples, &answer) &&
                              show_board(board);
    const bool kilometres_refused = show_kilometres(&table, &samples, &answer);
    const bool commas_refused = show_commas(&file, &table);
    const bool board_refused = show_board_refused(board);
    return found && all_answered && kilometres_refused && commas_refused && board_refused ? 0 : 1;
}
