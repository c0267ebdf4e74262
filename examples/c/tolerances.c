/* A test: a tolerance that is not finite or below zero is refused by 16 wherever one is taken, and then nothing is written; -0.0 and 0.0
 * are answered alike, and every area is written.
 * usage: tolerances FILE, an orbit file in SP3-c
 * Exit status 0: all was as expected. */
#define main clock_main
#include "clock.c"
#undef main

#include <float.h>

enum { MARK = 0x5A, MIDDLE_ROW = 12 };

/* What the five functions are lent, every byte of it marked. */
typedef struct {
    orbit_model model;
    orbit_motion motion;
    uint8_t propagated;
    orbit_nanoseconds found;
    uint8_t closest;
    pass_answer fit, pass;
} areas;

/* The model, the propagation and the closest approach by a tolerance, about the middle of the table: whether each gave this refusal. */
static bool call_by_table(const pass_table *table, orbit_seconds gaps, uint8_t refusal, areas *lent)
{
    const int64_t *instants = table->instants;
    const double *positions = table->positions;
    const size_t count = table->count;
    const observer_position o = observer();
    const orbit_nanoseconds about = {instants[MIDDLE_ROW]};
    const uint8_t modelled = orbit_get_chebyshev_model(instants, count, positions, 3 * count, about, gaps, &lent->model);
    const uint8_t propagated = orbit_propagate_ecef(instants, count, positions, 3 * count, about, gaps, &lent->motion, &lent->propagated);
    const uint8_t closest = orbit_find_pca_time(instants, count, positions, 3 * count,
                                                o.x, o.y, o.z, about, gaps, &lent->found, &lent->closest);
    return modelled == refusal && propagated == refusal && closest == refusal;
}

/* The fit and the pass by it: the same. */
static bool call_by_recording(const pass_table *table, const pass_recording *samples, orbit_seconds gaps, uint8_t refusal, areas *lent)
{
    const observer_position o = observer();
    const orbit_nanoseconds about = {table->instants[MIDDLE_ROW]};
    pass_answer *fit = &lent->fit, *pass = &lent->pass;
    const uint8_t fitted = orbit_fit_satellite(table->instants, table->count, table->positions, 3 * table->count,
                                               samples->instants, SAMPLES, samples->frequencies, SAMPLES,
                                               o.x, o.y, o.z, centre_frequency(), about, gaps,
                                               &fit->report, &fit->count, &fit->approach, &fit->fallback, &fit->outside);
    const uint8_t passed = orbit_pass(table->instants, table->count, table->positions, 3 * table->count,
                                      samples->instants, SAMPLES, samples->frequencies, SAMPLES,
                                      o.x, o.y, o.z, centre_frequency(), gaps,
                                      pass->mean_instants, ORBIT_MOST_SAMPLES, pass->mean_frequencies, ORBIT_MOST_SAMPLES,
                                      &pass->report, &pass->count, &pass->approach, &pass->fallback, &pass->outside);
    return fitted == refusal && passed == refusal;
}

/* All five into marked areas: whether each gave this refusal. */
static bool call_all(const pass_table *table, const pass_recording *samples, double seconds, uint8_t refusal, areas *lent)
{
    const orbit_seconds gaps = {seconds};
    memset(lent, MARK, sizeof *lent);
    const bool by_table = call_by_table(table, gaps, refusal, lent);
    return call_by_recording(table, samples, gaps, refusal, lent) && by_table;
}

/* Whether a report and what goes with it are all written. */
static bool is_written(const pass_answer *answer, const pass_answer *marked)
{
    return memcmp(&answer->report, &marked->report, sizeof answer->report) != 0 && answer->count != marked->count &&
           answer->approach.nanoseconds != marked->approach.nanoseconds && answer->fallback != MARK && answer->outside != marked->outside;
}

/* Whether every area is written. */
static bool all_written(const areas *lent, const areas *marked)
{
    return memcmp(&lent->model, &marked->model, sizeof lent->model) != 0 &&
           memcmp(&lent->motion, &marked->motion, sizeof lent->motion) != 0 && lent->propagated != MARK &&
           lent->found.nanoseconds != marked->found.nanoseconds && lent->closest != MARK && is_written(&lent->fit, &marked->fit) &&
           is_written(&lent->pass, &marked->pass) && lent->pass.mean_instants[0] != marked->pass.mean_instants[0] &&
           lent->pass.mean_frequencies[0] != marked->pass.mean_frequencies[0];
}

int main(int argc, char **argv)
{
    static const double refused[] = {NAN, INFINITY, -INFINITY, -DBL_TRUE_MIN, -DBL_MAX};
    static sp3_file file;
    static pass_table table;
    static pass_recording samples;
    static areas lent, other, marked;
    (void)clock_main;
    if (argc != 2 || !load_file(argv[1], &file) || read_table(&file, &table) != 0) {
        return 1;
    }
    load_recording(&samples);
    memset(&marked, MARK, sizeof marked);
    bool expected = call_all(&table, &samples, 0.0, 0, &lent) && all_written(&lent, &marked) &&
                    call_all(&table, &samples, -0.0, 0, &other) && memcmp(&lent, &other, sizeof lent) == 0;
    for (size_t i = 0; i < sizeof refused / sizeof refused[0]; i++) {
        expected = expected && call_all(&table, &samples, refused[i], 16, &lent) && memcmp(&lent, &marked, sizeof lent) == 0;
    }
    return expected ? 0 : 1;
}
