/* Jadurphen's calls for C (C99) and C++ (C++11). The static library that `tools/library` writes has them:
 * target/staticlib/libjadurphen.a.
 *
 * A call puts its questions in order and returns 0, or the number of the first question that is answered no (enum
 * jadurphen_refusal). After a refusal every word lent is as it was, words, floats, population and tolerance included.
 * Nothing is kept, allocated, locked or printed: what a call gives depends on its arguments alone, and calls that are
 * lent different memory may run at the same time. The library needs memcpy and memset and no other function. On the
 * stack jadurphen_smallest takes 40 KiB, jadurphen_put 28 KiB and the others less than 5 KiB (measured).
 *
 * Memory. A slice is a pointer and the number of its elements. No pointer is null, not even where the number is 0, and
 * each is aligned for its type. What a call writes to (sums, current, following, ledger, population, words, tolerance,
 * floats) overlaps nothing else that the call is given; counts, angles and cosines are only read.
 *
 * Floats. double is IEEE 754's binary64, rounded to nearest, with subnormal numbers (neither flushed to zero nor read
 * as zero, as linking with -ffast-math would set it for the whole program).
 *
 * Of every map:
 *   width, height     columns and rows, 1 to 180 and 1 to 90. Column 0 lies where the caller likes, and the last column
 *                     is the neighbour of column 0
 *   origin_lat        latitude of the outer edge of row 0, in degrees
 *   lon_step          degrees from column to column: width of them make a full turn, eastward or westward
 *   lat_step          degrees from row to row: negative where row 0 is the northernmost
 *   counts            people of each cell, row by row: jadurphen_counts_len, each at jadurphen_cell_at
 *   angles            the sheet. The angle in radians, seen from the globe's centre, from the centre of a cell of row c
 *                     to the centre of a cell of row r whose column is k away: jadurphen_angles_len, each at
 *                     jadurphen_angle_at. k goes from 0 to jadurphen_closing, half the way around
 *   cosines           the cosine of the latitude of each row's centre: jadurphen_cosines_len
 * The latitude of a row's centre is origin_lat + (row + 0.5) * lat_step. examples/relay.c fills a sheet.
 *
 * Working space that is lent to a call, with any contents:
 *   sums              at least jadurphen_sums_len words. After an answer the word at jadurphen_sum_at is the people of
 *                     the rows before row and the columns before col; words past that length are as they were
 *   current,          the blocks of one round of a search and of the next: at least jadurphen_level_len words each.
 *   following         After an answer they hold anything
 *
 * Of a search:
 *   km                radius in whole kilometres, on a globe of 6371.0088 km radius
 *   automatic         true: the module chooses the side of the first blocks of cells, and spacing is not read
 *   spacing           otherwise that side in cells, above 0
 * The side changes the work and its counts, and on a fair sheet (docs/PROMISES.md) never the cell that is found. */
#ifndef JADURPHEN_H
#define JADURPHEN_H

#include <float.h>
#include <stdbool.h>
#include <stddef.h>
#include <stdint.h>

#if FLT_RADIX != 2 || DBL_MANT_DIG != 53 || DBL_MAX_EXP != 1024
#error "double is not IEEE 754's binary64"
#endif

#ifdef __cplusplus
extern "C" {
#endif

/* ---- Limits */

#define JADURPHEN_MAX_WIDTH 180
#define JADURPHEN_MAX_HEIGHT 90
#define JADURPHEN_MAX_KM 20016        /* at this radius every circle is the whole grid */
#define JADURPHEN_MAX_LEDGER_KM 20015 /* the longest radius of a ledger's entry */
#define JADURPHEN_LEDGER_PLACES 512
#define JADURPHEN_LEDGER_FREE 28      /* places to be free for a smallest radius: the most radii that it probes */

/* ---- What a call returns: an answer, or the number of the first question that is answered no */

enum jadurphen_refusal {
    JADURPHEN_ANSWERED = 0,
    JADURPHEN_SIZE = 1,         /* 1 to 180 columns, 1 to 90 rows? */
    JADURPHEN_LATITUDES = 2,    /* origin and both steps finite, lat_step not 0, and the origin and the far edge,
                                   origin_lat + height * lat_step, within 90 + 1e-9 of 0? */
    JADURPHEN_LONGITUDES = 3,   /* width * |lon_step| within 1e-9 of 360? */
    JADURPHEN_COUNTS = 4,       /* exactly jadurphen_counts_len counts? */
    JADURPHEN_SHEET_LENGTH = 5, /* exactly jadurphen_angles_len angles and jadurphen_cosines_len cosines? */
    JADURPHEN_SHEET = 6,        /* 0 < cosine <= 1; 0 <= angle <= 3.141592653589793; at k = 0 a row at angle 0 from itself;
                                   along a row no angle below the one at k - 1; at k = 0 none below that of the next row
                                   towards the centre row? */
    JADURPHEN_BUFFERS = 7,      /* sums, current and following long enough? */
    JADURPHEN_RADIUS = 8,       /* km 0 to 20016, and the cell of a single circle on the grid? */
    JADURPHEN_SHARE = 9,        /* 0 < share <= 1? */
    JADURPHEN_SPACING = 10,     /* automatic, or spacing above 0? */
    JADURPHEN_LEDGER = 11,      /* 2049 words; kilometre, row and column of every place of 32 bits; at most 512
                                   entries, their kilometres strictly rising and at most 20015, their cells on the
                                   grid, their populations at most 2^53; the same of an entry to be put? */
    JADURPHEN_LEDGER_FULL = 12  /* room for 28 entries more in a smallest radius, for a put's if its kilometre is new? */
};

/* A refusal in a few words. */
static inline const char *jadurphen_refusal_text(uint32_t number)
{
    static const char *const texts[] = {
        "answered", "size of the grid", "latitudes", "longitudes", "number of counts", "number of angles or cosines",
        "values of the sheet", "room in the buffers", "radius or centre", "share", "spacing", "ledger",
        "room in the ledger"
    };
    return number < sizeof texts / sizeof texts[0] ? texts[number] : "no number of a refusal";
}

/* ---- Lengths of what is lent, and places in it, for sizes that question 1 admits. A sheet has up to 737,100 angles */

/* The greatest distance between two columns around the globe. */
static inline uint32_t jadurphen_closing(uint32_t width)
{
    return width / 2;
}

static inline size_t jadurphen_counts_len(uint32_t width, uint32_t height)
{
    return (size_t)width * height;
}

static inline size_t jadurphen_angles_len(uint32_t width, uint32_t height)
{
    return (size_t)height * height * (jadurphen_closing(width) + 1);
}

static inline size_t jadurphen_cosines_len(uint32_t width, uint32_t height)
{
    (void)width;
    return height;
}

static inline size_t jadurphen_sums_len(uint32_t width, uint32_t height)
{
    return ((size_t)width + 1) * ((size_t)height + 1);
}

/* Of current, and of following. */
static inline size_t jadurphen_level_len(uint32_t width, uint32_t height)
{
    return (size_t)width * height;
}

/* The place of a cell's count. */
static inline size_t jadurphen_cell_at(uint32_t width, uint32_t row, uint32_t col)
{
    return (size_t)row * width + col;
}

/* The place of the angle from centre_row to row, the columns distance apart (0 to jadurphen_closing). */
static inline size_t jadurphen_angle_at(
    uint32_t width, uint32_t height, uint32_t centre_row, uint32_t row, uint32_t distance)
{
    return ((size_t)centre_row * height + row) * (jadurphen_closing(width) + 1) + distance;
}

/* The place of the people of the rows before row and the columns before col; either may be one past the last. */
static inline size_t jadurphen_sum_at(uint32_t width, uint32_t row, uint32_t col)
{
    return (size_t)row * ((size_t)width + 1) + col;
}

/* ---- The ledger: best circles by radius, of one map. 2049 words, the first the number of entries, then four of each
 * place. Entries stand at the front, their kilometres strictly rising; places past them may hold any words whose
 * kilometre, row and column are of 32 bits, and keep them. All words 0 make a ledger without entries.
 *
 * A ledger belongs to one map: empty it (first word 0) when counts, sheet or grid change. No question can ask that. */

#define JADURPHEN_LEDGER_WORDS (1 + 4 * JADURPHEN_LEDGER_PLACES)

/* A place's words, after jadurphen_place_at. */
enum jadurphen_place_word {
    JADURPHEN_PLACE_KM,
    JADURPHEN_PLACE_ROW,
    JADURPHEN_PLACE_COL,
    JADURPHEN_PLACE_POPULATION
};

/* The first word of a place, 0 to 511. */
static inline size_t jadurphen_place_at(size_t place)
{
    return 1 + 4 * place;
}

/* ---- The calls. Each names the questions that it puts. */

/* Questions 1 to 8: the people of the circle of km around the cell (row, col), written to population. A cell is in the
 * circle where its angle is at most km / 6371.0088; a circle of 0 km is empty. current and following are not
 * needed. */
uint32_t jadurphen_circle(
    uint32_t width, uint32_t height, double origin_lat, double lon_step, double lat_step,
    const uint32_t *counts, size_t counts_len,
    const double *angles, size_t angles_len,
    const double *cosines, size_t cosines_len,
    uint64_t *sums, size_t sums_len,
    uint32_t km, uint32_t row, uint32_t col,
    uint64_t *population);

/* What a search writes to words. */
enum jadurphen_search_word {
    JADURPHEN_SEARCH_ROW,               /* the centre of the circle with most people; of several the first by row, */
    JADURPHEN_SEARCH_COL,               /* then column */
    JADURPHEN_SEARCH_POPULATION,
    JADURPHEN_SEARCH_LEVELS,            /* rounds of ever smaller blocks of cells */
    JADURPHEN_SEARCH_BLOCKS_EXAMINED,
    JADURPHEN_SEARCH_BLOCKS_PRUNED,     /* blocks that cannot hold a better cell */
    JADURPHEN_SEARCH_CIRCLES_EVALUATED,
    JADURPHEN_SEARCH_KERNELS_BUILT,
    JADURPHEN_SEARCH_CELLS_PRUNED,      /* the cells of pruned blocks; with those settled they are all cells */
    JADURPHEN_SEARCH_CELLS_SETTLED,     /* cells evaluated as blocks of one cell */
    JADURPHEN_SEARCH_WORDS              /* how many they are */
};

/* Questions 1 to 8 and 10: the most populous circle of km; on a fair sheet no circle of km holds more people. A radius
 * of 0 gives cell (0, 0), nobody, and 0 in all other words. tolerance: in persons; whole counts are summed exactly, so
 * it is 0. */
uint32_t jadurphen_search(
    uint32_t width, uint32_t height, double origin_lat, double lon_step, double lat_step,
    const uint32_t *counts, size_t counts_len,
    const double *angles, size_t angles_len,
    const double *cosines, size_t cosines_len,
    uint32_t km, bool automatic, uint32_t spacing,
    uint64_t *sums, size_t sums_len,
    uint64_t *current, size_t current_len,
    uint64_t *following, size_t following_len,
    uint64_t words[JADURPHEN_SEARCH_WORDS],
    double *tolerance);

/* What a smallest radius writes to words. A flag is 1 or 0; where it is 0 the words that belong to it are 0. */
enum jadurphen_smallest_word {
    JADURPHEN_SMALLEST_KM,                 /* the radius; 20016 where every shorter one falls short */
    JADURPHEN_SMALLEST_ROW,                /* the centre of its best circle */
    JADURPHEN_SMALLEST_COL,
    JADURPHEN_SMALLEST_POPULATION,
    JADURPHEN_SMALLEST_SHORT,              /* flag: a probe one kilometre below fell short */
    JADURPHEN_SMALLEST_SHORT_KM,
    JADURPHEN_SMALLEST_SHORT_POPULATION,
    JADURPHEN_SMALLEST_COVERS_WHOLE_GRID,  /* flag: the circle is the whole grid */
    JADURPHEN_SMALLEST_AMBIGUITY,          /* flag: some probe's population is within the slack of the target */
    JADURPHEN_SMALLEST_AMBIGUITY_LOWEST_KM,
    JADURPHEN_SMALLEST_AMBIGUITY_HIGHEST_KM,
    JADURPHEN_SMALLEST_AMBIGUITY_RADII,    /* how many such probes */
    JADURPHEN_SMALLEST_RADII_EVALUATED,    /* searched, and now in the ledger; with those reused at most 28 */
    JADURPHEN_SMALLEST_RADII_REUSED,       /* taken from the ledger */
    JADURPHEN_SMALLEST_LEVELS,             /* the work of the radii searched, as in enum jadurphen_search_word */
    JADURPHEN_SMALLEST_BLOCKS_EXAMINED,
    JADURPHEN_SMALLEST_BLOCKS_PRUNED,
    JADURPHEN_SMALLEST_CIRCLES_EVALUATED,
    JADURPHEN_SMALLEST_KERNELS_BUILT,
    JADURPHEN_SMALLEST_WORDS               /* how many they are */
};

/* And to floats. */
enum jadurphen_smallest_float {
    JADURPHEN_SMALLEST_SHARE,           /* the share asked for */
    JADURPHEN_SMALLEST_PERSONS,         /* the target: share * total, one rounding */
    JADURPHEN_SMALLEST_TOTAL,           /* all people */
    JADURPHEN_SMALLEST_SHARE_ACHIEVED,  /* the circle's share of all people; 0 where there is nobody */
    JADURPHEN_SMALLEST_SLACK,           /* the ambiguity's slack, in persons */
    JADURPHEN_SMALLEST_TOLERANCE,       /* as in jadurphen_search: 0 */
    JADURPHEN_SMALLEST_FLOATS           /* how many they are */
};

/* Questions 1 to 7 and 9 to 12: the smallest whole-kilometre radius whose best circle holds a share of the people.
 * Radii that the ledger has are taken from it, the others searched and put into it. */
uint32_t jadurphen_smallest(
    uint32_t width, uint32_t height, double origin_lat, double lon_step, double lat_step,
    const uint32_t *counts, size_t counts_len,
    const double *angles, size_t angles_len,
    const double *cosines, size_t cosines_len,
    double share, bool automatic, uint32_t spacing,
    uint64_t *ledger, size_t ledger_len,
    uint64_t *sums, size_t sums_len,
    uint64_t *current, size_t current_len,
    uint64_t *following, size_t following_len,
    uint64_t words[JADURPHEN_SMALLEST_WORDS],
    double floats[JADURPHEN_SMALLEST_FLOATS]);

/* Questions 1 to 3, 11 and 12: the best circle of km (0 to 20015) put into the ledger, in place of an entry of that
 * kilometre. */
uint32_t jadurphen_put(
    uint32_t width, uint32_t height, double origin_lat, double lon_step, double lat_step,
    uint64_t *ledger, size_t ledger_len,
    uint32_t km, uint32_t row, uint32_t col, uint64_t population);

#ifdef __cplusplus
}
#endif

#endif
