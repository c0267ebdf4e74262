/* A test: prints the three places in the words of clock.c; propagation and closest approach write each its place and nothing beside it, and
 * on a refusal nothing at all.
 * usage: places FILE, an orbit file in SP3-c
 * Exit status 0: all was as expected. */
#define main clock_main
#include "clock.c"
#undef main

enum { MARK = 0x5A, MIDDLE_ROW = 12 };

/* What both are lent, every byte of it marked: a place goes between two bytes that stay. */
typedef struct {
    orbit_motion motion;
    orbit_nanoseconds found;
    uint8_t propagated[3], closest[3];
} areas;

/* The propagation a nanosecond before a table's first coordinate, and the closest approach about its middle, by its first so many
 * coordinates: whether both gave this refusal. */
static bool call_both(const pass_table *table, size_t count, uint8_t refusal, areas *lent)
{
    const observer_position o = observer();
    const orbit_nanoseconds before = {table->instants[0] - 1}, about = {table->instants[MIDDLE_ROW]};
    memset(lent, MARK, sizeof *lent);
    const uint8_t propagated = orbit_propagate_ecef(table->instants, count, table->positions, 3 * count,
                                                    before, tolerance, &lent->motion, &lent->propagated[1]);
    const uint8_t closest = orbit_find_pca_time(table->instants, count, table->positions, 3 * count,
                                                o.x, o.y, o.z, about, tolerance, &lent->found, &lent->closest[1]);
    return propagated == refusal && closest == refusal;
}

/* Whether the place between the two marks is this one. */
static bool is_alone(const uint8_t lent[3], uint8_t place)
{
    return lent[0] == MARK && lent[1] == place && lent[2] == MARK;
}

int main(int argc, char **argv)
{
    static sp3_file file;
    static pass_table table;
    static areas lent, marked;
    (void)clock_main;
    if (argc != 2 || !load_file(argv[1], &file) || read_table(&file, &table) != 0) {
        return 1;
    }
    printf("%s\n%s\n%s\n", place_words(ORBIT_BEFORE), place_words(ORBIT_WITHIN), place_words(ORBIT_AFTER));
    memset(&marked, MARK, sizeof marked);
    const bool refused = call_both(&table, 9, 1, &lent) && memcmp(&lent, &marked, sizeof lent) == 0;
    const bool answered = call_both(&table, table.count, 0, &lent) && is_alone(lent.propagated, ORBIT_BEFORE) &&
                          is_alone(lent.closest, ORBIT_WITHIN);
    return refused && answered ? 0 : 1;
}
