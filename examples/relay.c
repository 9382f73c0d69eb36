/* A small world asked through include/jadurphen.h: relay CITIES. examples/run builds and runs it.
 *
 * 36 x 18 cells of 10 degrees, and the people of some cities (examples/cities.txt: latitude, longitude and people,
 * rounded, and a name). Where should a relay stand, and how far must it reach?
 *
 * The sheet's angles may differ in their last bits from one mathematical library to the next. The answers printed here
 * do not hang on them: no cell is that close to the edge of a circle that is asked for. */
#include <inttypes.h>
#include <math.h>
#include <stdio.h>
#include <stdlib.h>

#include "jadurphen.h"

#define WIDTH 36
#define HEIGHT 18
#define STEP 10
#define RADIAN 0.017453292519943295

/* Row 0 lies at the north pole; column 0 is put at 180 degrees west. */
static const double ORIGIN_LAT = 90, LON_STEP = STEP, LAT_STEP = -STEP;

/* The map, and what a call is lent. */
struct world {
    uint32_t *counts;
    double *angles, *cosines;
    size_t counts_len, angles_len, cosines_len;
    uint64_t *sums, *current, *following;
    size_t sums_len, level_len;
    unsigned cities;
};

static void *room(size_t n, size_t size)
{
    void *made = calloc(n, size);
    if (made == NULL) {
        fputs("relay: no memory\n", stderr);
        exit(1);
    }
    return made;
}

static double centre_lat(uint32_t row)
{
    return ORIGIN_LAT + (row + 0.5) * LAT_STEP;
}

/* The angle from (from_lat, 0) to (to_lat, lon), all in degrees, by the haversine. */
static double angle_between(double from_lat, double to_lat, double lon)
{
    double from = from_lat * RADIAN, to = to_lat * RADIAN;
    double south = sin((to - from) / 2), east = sin(lon * RADIAN / 2);
    double h = fmin(south * south + cos(from) * cos(to) * (east * east), 1);
    return 2 * atan2(sqrt(h), sqrt(1 - h));
}

static void fill_sheet(struct world *w)
{
    uint32_t c, r, k;
    for (c = 0; c < HEIGHT; c++) {
        w->cosines[c] = cos(centre_lat(c) * RADIAN);
        for (r = 0; r < HEIGHT; r++)
            for (k = 0; k <= jadurphen_closing(WIDTH); k++)
                w->angles[jadurphen_angle_at(WIDTH, HEIGHT, c, r, k)] =
                    angle_between(centre_lat(c), centre_lat(r), k * LON_STEP);
    }
}

static void read_cities(struct world *w, const char *path)
{
    int lat, lon;
    uint32_t people;
    FILE *file = fopen(path, "r");
    if (file == NULL) {
        perror(path);
        exit(1);
    }
    while (fscanf(file, "%d %d %" SCNu32 " %*s", &lat, &lon, &people) == 3) {
        w->counts[jadurphen_cell_at(WIDTH, (90 - lat) / STEP, (lon + 180) / STEP)] += people;
        w->cities++;
    }
    fclose(file);
}

static struct world world_of(const char *path)
{
    struct world w;
    w.counts_len = jadurphen_counts_len(WIDTH, HEIGHT);
    w.angles_len = jadurphen_angles_len(WIDTH, HEIGHT);
    w.cosines_len = jadurphen_cosines_len(WIDTH, HEIGHT);
    w.sums_len = jadurphen_sums_len(WIDTH, HEIGHT);
    w.level_len = jadurphen_level_len(WIDTH, HEIGHT);
    w.counts = (uint32_t *)room(w.counts_len, sizeof *w.counts);
    w.angles = (double *)room(w.angles_len, sizeof *w.angles);
    w.cosines = (double *)room(w.cosines_len, sizeof *w.cosines);
    w.sums = (uint64_t *)room(w.sums_len, sizeof *w.sums);
    w.current = (uint64_t *)room(w.level_len, sizeof *w.current);
    w.following = (uint64_t *)room(w.level_len, sizeof *w.following);
    w.cities = 0;
    fill_sheet(&w);
    read_cities(&w, path);
    return w;
}

static void free_world(struct world *w)
{
    free(w->counts);
    free(w->angles);
    free(w->cosines);
    free(w->sums);
    free(w->current);
    free(w->following);
}

static uint32_t circle(struct world *w, uint32_t km, uint32_t row, uint32_t col, uint64_t *people)
{
    return jadurphen_circle(
        WIDTH, HEIGHT, ORIGIN_LAT, LON_STEP, LAT_STEP, w->counts, w->counts_len, w->angles, w->angles_len,
        w->cosines, w->cosines_len, w->sums, w->sums_len, km, row, col, people);
}

static uint32_t search(struct world *w, uint32_t km, uint64_t *words)
{
    double tolerance;
    return jadurphen_search(
        WIDTH, HEIGHT, ORIGIN_LAT, LON_STEP, LAT_STEP, w->counts, w->counts_len, w->angles, w->angles_len,
        w->cosines, w->cosines_len, km, true, 0, w->sums, w->sums_len, w->current, w->level_len,
        w->following, w->level_len, words, &tolerance);
}

static uint32_t smallest(struct world *w, double share, uint64_t *ledger, uint64_t *words, double *floats)
{
    return jadurphen_smallest(
        WIDTH, HEIGHT, ORIGIN_LAT, LON_STEP, LAT_STEP, w->counts, w->counts_len, w->angles, w->angles_len,
        w->cosines, w->cosines_len, share, true, 0, ledger, JADURPHEN_LEDGER_WORDS, w->sums, w->sums_len,
        w->current, w->level_len, w->following, w->level_len, words, floats);
}

/* Ends the program where a call that should be answered is not. */
static void answered(uint32_t number)
{
    if (number != JADURPHEN_ANSWERED) {
        printf("refused %" PRIu32 ": %s\n", number, jadurphen_refusal_text(number));
        exit(1);
    }
}

static void print_cell(uint64_t row, uint64_t col)
{
    int lat = 90 - (int)row * STEP - STEP / 2, lon = (int)col * STEP + STEP / 2 - 180;
    printf("%d %c %d %c (row %" PRIu64 ", column %" PRIu64 ")",
           abs(lat), lat < 0 ? 'S' : 'N', abs(lon), lon < 0 ? 'W' : 'E', row, col);
}

static void print_smallest(struct world *w, double share, uint64_t *ledger)
{
    uint64_t words[JADURPHEN_SMALLEST_WORDS];
    double floats[JADURPHEN_SMALLEST_FLOATS];
    answered(smallest(w, share, ledger, words, floats));
    printf("%.0f %% of all people, %.0f: %" PRIu64 " km around ", floats[JADURPHEN_SMALLEST_SHARE] * 100,
           floats[JADURPHEN_SMALLEST_PERSONS], words[JADURPHEN_SMALLEST_KM]);
    print_cell(words[JADURPHEN_SMALLEST_ROW], words[JADURPHEN_SMALLEST_COL]);
    printf(" reach %" PRIu64 ", %.2f %%\n", words[JADURPHEN_SMALLEST_POPULATION],
           floats[JADURPHEN_SMALLEST_SHARE_ACHIEVED] * 100);
    if (words[JADURPHEN_SMALLEST_SHORT])
        printf("  %" PRIu64 " km reach at most %" PRIu64 "\n", words[JADURPHEN_SMALLEST_SHORT_KM],
               words[JADURPHEN_SMALLEST_SHORT_POPULATION]);
    printf("  radii searched %" PRIu64 ", taken from the ledger %" PRIu64 "; the ledger has %" PRIu64 "\n",
           words[JADURPHEN_SMALLEST_RADII_EVALUATED], words[JADURPHEN_SMALLEST_RADII_REUSED], ledger[0]);
}

int main(int argc, char **argv)
{
    /* All words 0: a ledger without entries. It belongs to this map. */
    static uint64_t ledger[JADURPHEN_LEDGER_WORDS];
    uint64_t people, words[JADURPHEN_SEARCH_WORDS];
    uint32_t number;
    struct world w;
    if (argc != 2) {
        fputs("relay CITIES\n", stderr);
        return 1;
    }
    w = world_of(argv[1]);

    answered(circle(&w, 2000, 5, 32, &people));
    printf("%d x %d cells, %u cities, %" PRIu64 " people\n", WIDTH, HEIGHT, w.cities,
           w.sums[jadurphen_sum_at(WIDTH, HEIGHT, WIDTH)]);
    printf("2000 km around ");
    print_cell(5, 32);
    printf(" reach %" PRIu64 "\n", people);

    answered(search(&w, 2048, words));
    printf("2048 km reach most around ");
    print_cell(words[JADURPHEN_SEARCH_ROW], words[JADURPHEN_SEARCH_COL]);
    printf(": %" PRIu64 "\n", words[JADURPHEN_SEARCH_POPULATION]);
    printf("  cells ruled out in blocks %" PRIu64 ", circles evaluated %" PRIu64 "\n",
           words[JADURPHEN_SEARCH_CELLS_PRUNED], words[JADURPHEN_SEARCH_CIRCLES_EVALUATED]);

    /* Put into the ledger, so that a smallest radius whose climb comes to 2048 km need not search it again. */
    answered(jadurphen_put(
        WIDTH, HEIGHT, ORIGIN_LAT, LON_STEP, LAT_STEP, ledger, JADURPHEN_LEDGER_WORDS, 2048,
        (uint32_t)words[JADURPHEN_SEARCH_ROW], (uint32_t)words[JADURPHEN_SEARCH_COL],
        words[JADURPHEN_SEARCH_POPULATION]));
    printf("  put into the ledger, which has %" PRIu64 "\n", ledger[0]);

    print_smallest(&w, 0.5, ledger);
    print_smallest(&w, 0.25, ledger);

    number = circle(&w, JADURPHEN_MAX_KM + 1, 5, 32, &people);
    printf("%d km: refused %" PRIu32 ", %s\n", JADURPHEN_MAX_KM + 1, number, jadurphen_refusal_text(number));
    free_world(&w);
    return 0;
}
