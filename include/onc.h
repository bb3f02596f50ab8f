/*
 * The ONC grouping by a seed or with draws of the caller's own, the statistics, the check of a book in whole millionths and the draws of a round: what
 * the crates `exports` (the grouping) and `exports_statistics` (the others) have for C and C++. `bash bindings/build.sh` makes target/lib/libonc.a of their
 * two static libraries. The src/lib.rt of each has the contracts of its functions; all are proved.
 *
 * For every call:
 * - It may be called with any values: what is wrong is refused by a number (onc_number below).
 * - A list is a pointer, then its length. The length is counted in elements and must be true; a pointer is never null and is aligned for its
 *   type, also where the length is 0.
 * - No two lists of a call may overlap.
 * - The caller owns every list. The library keeps no pointer, allocates nothing and has no global state, so several threads may call it at
 *   once on different lists. A list that is only read (const) may be shared by them.
 * - size_t has 64 bits; the library is for x86-64.
 * - 64 KiB of stack were enough for the largest book and for the most rounds (docs/SPEED.md); 1 MiB is plenty.
 * - Equality with the definitions is bit for bit, with all NaNs as one.
 */
#ifndef ONC_H
#define ONC_H

#include <stddef.h>
#include <stdint.h>

#ifdef __cplusplus
extern "C" {
#endif

/* does not compile where size_t has not 64 bits */
typedef char onc_size_t_has_64_bits[sizeof(size_t) == 8 ? 1 : -1];

/* Limits. */
#define ONC_LEAST_NAMES 2
#define ONC_MOST_NAMES 256
#define ONC_MOST_REPEATS 64
#define ONC_MOST_ROUNDS 32
#define ONC_MOST_VALUES 65536
#define ONC_MILLION 1000000

/* The seed of onc_get_onc_clusters. */
#define ONC_DEFAULT_SEED 42

/* Lengths of lists: `answer` of the grouping, of a statistic and of the check of a book, and `average`. */
#define ONC_ANSWER_LENGTH 4
#define ONC_AVERAGE_ANSWER_LENGTH 2
#define ONC_BOOK_ANSWER_LENGTH 2
#define ONC_AVERAGE_LENGTH 1

/* For n names: cells of a book and of the ordered matrix; the least lengths of the working lists of doubles and of whole numbers. */
#define ONC_CELLS(n) ((size_t)(n) * (size_t)(n))
#define ONC_FLOATS(n) (8 * (size_t)(n) * (size_t)(n) + 256 * (size_t)(n))
#define ONC_NUMBERS(n) (320 * (size_t)(n))

/* An index draw is below the number of its round's names, a share draw below this, and means itself over this. */
#define ONC_SHARE_LIMIT (UINT64_C(1) << 53)

/*
 * The numbers, in the order in which they are asked; the place of each is 0 unless one is named. 9, 7 and 8 come as the run meets them, 7 and 8 only with
 * draws of the caller's own; 3 is never returned. No call below gives 11, 29, 10 or 30: 11 is for texts, 29 and 10 for calls below the grouping, and 30 is
 * kept for calls that are handed a grouping. 31, an index draw that is tried 128 times, is never returned either and has no name here: the generator's rule
 * takes at most two words for an index.
 */
enum onc_number {
    ONC_DONE = 0,                       /* not refused */
    ONC_LAYOUT = 11,                    /* a text that is not in the layout of the grouping program; before all others */
    ONC_INVALID_REPEAT = 1,             /* repeat is 0 */
    ONC_INVALID_CORRELATION_MATRIX = 2, /* rows and cols differ, or under 2 rows */
    ONC_TOO_LARGE = 4,                  /* over 256 rows, over 64 repeats, or an average of over 65,536 values */
    ONC_CELL_COUNT = 5,                 /* the cells are not n * n */
    ONC_LIST_LENGTH = 6,                /* an output list or `answer` of wrong length, or a working list that is too short */
    ONC_GROUP_COUNT = 29,               /* a group count outside 2..n, handed to a k-means leaf */
    ONC_OUT_OF_RANGE = 10,              /* a label, centre or row number of n or more, handed to a leaf; place: the first of them */
    ONC_INVALID_GROUPING = 30,          /* a grouping handed in with a name missing or twice, or sizes with a gap or not n in all */
    ONC_TOO_MANY_ROUNDS = 9,            /* a 33rd round would start */
    ONC_TOO_FEW_DRAWS = 7,              /* fewer draws remain than the next round needs; place: the draws read so far */
    ONC_DRAW_OUT_OF_RANGE = 8,          /* a draw that was read is out of range; place: where it is in `draws`, from 0 */
    ONC_CLUSTERING_FAILED = 3,          /* no candidate with a t-stat above -infinity; never returned, since every round has one */
    ONC_CELL_RANGE = 21,                /* a cell outside -1,000,000 to 1,000,000; place: row * n + column */
    ONC_CELL_DIAGONAL = 22,             /* a cell on the diagonal that is not 1,000,000; place: row * n + column */
    ONC_CELL_MIRROR = 23                /* a cell unlike its mirror; place: row * n + column, of the one above the diagonal */
};

/*
 * The groups of the n = rows = cols names of a book, by a seed: the random draws are those of rand 0.10's StdRng, seeded by seed_from_u64(seed).
 *
 *   book      read; n * n cells of a correlation matrix, row by row
 *   repeat    1 to 64
 *   seed      any number; the same seed gives the same grouping
 *   order     n row numbers
 *   sizes     n numbers
 *   scores    n doubles
 *   ordered   n * n doubles
 *   floats    to work in; at least 8 * n * n + 256 * n doubles (ONC_FLOATS)
 *   numbers   to work in; at least 320 * n numbers (ONC_NUMBERS)
 *   answer    4 numbers, which are what is returned: number, place, groups, draws read
 *
 * Returns the number, which answer[0] has too. Afterwards:
 *
 *   0           order: the row numbers of group 0, then of group 1, and so on, each name once. sizes: the size of each group, none 0, then zeros.
 *               scores: the silhouette of each name, by row number, from -1 to 1 whatever the book holds. ordered: the book with rows and columns in that order.
 *               answer: 0, 0, the groups, the draws read.
 *   9           order, sizes, scores and ordered as they were. answer: 9, 0, 0, 0.
 *   1, 2, 4, 5, 6  every list as it was. answer, which is what is returned and no output: the number, 0, 0, 0. An answer whose length is not 4 is as it
 *               was too, and the number is 1, 2, 4, 5 or 6 in that order.
 *
 * After 0 and 9 the first 8 * n * n + 256 * n doubles of `floats` and the first 320 * n numbers of `numbers` are zero, and what lies behind them is as
 * it was.
 */
size_t onc_get_onc_clusters_with_seed(
    const double *book, size_t book_length,
    size_t rows, size_t cols, size_t repeat,
    uint64_t seed,
    size_t *order, size_t order_length,
    size_t *sizes, size_t sizes_length,
    double *scores, size_t scores_length,
    double *ordered, size_t ordered_length,
    double *floats, size_t floats_length,
    size_t *numbers, size_t numbers_length,
    size_t *answer, size_t answer_length);

/* The same by the seed ONC_DEFAULT_SEED. */
size_t onc_get_onc_clusters(
    const double *book, size_t book_length,
    size_t rows, size_t cols, size_t repeat,
    size_t *order, size_t order_length,
    size_t *sizes, size_t sizes_length,
    double *scores, size_t scores_length,
    double *ordered, size_t ordered_length,
    double *floats, size_t floats_length,
    size_t *numbers, size_t numbers_length,
    size_t *answer, size_t answer_length);

/*
 * The same with the random draws from a list of the caller's own in place of a seed.
 *
 *   draws     read from the front; 32 * repeat * onc_draws_for(n) are always enough. A round of m names reads, for each repeat and each number of groups
 *             k from 2 to max(m - 1, 2), first an index, below m, then shares, below ONC_SHARE_LIMIT, some for each of k - 1 further centres; indexes
 *             in their place where the names' least squared distances to a centre do not sum to more than 0. Zeros are in range everywhere and are
 *             for trying out. Random numbers below n everywhere give poor groupings: as shares they are close to 0. docs/CALLS.md says how
 *             proper draws are made.
 *
 * Beside the numbers above it returns 7 and 8. Afterwards all is as after 9, and answer has the number, its place, 0, 0.
 */
size_t onc_get_onc_clusters_with_draws(
    const double *book, size_t book_length,
    size_t rows, size_t cols, size_t repeat,
    const uint64_t *draws, size_t draws_length,
    size_t *order, size_t order_length,
    size_t *sizes, size_t sizes_length,
    double *scores, size_t scores_length,
    double *ordered, size_t ordered_length,
    double *floats, size_t floats_length,
    size_t *numbers, size_t numbers_length,
    size_t *answer, size_t answer_length);

/*
 * The draws that a round of so many names reads for one repeat, for 2 to 256 names; 0 for any other number of names. A grouping reads this
 * times `repeat` in its first round, and again for each round on the names of weak groups.
 */
uint64_t onc_draws_for(size_t names);

/*
 * The mean of the values; the variance, which is the squared differences from the mean, summed, over the count less ddof; and its root.
 * Finite values with equal bits have that value as their mean; others their sum from the left, from +0, over their count.
 *
 *   values    read; at most 65,536 doubles
 *   average   1 double
 *   answer    2 numbers, which are what is returned: number, how many averages there are
 *
 * Returns the number. Afterwards:
 *
 *   0   answer: 0, 1, and average[0] is the average. Or answer: 0, 0, and average is as it was: there is no average of no value, nor a
 *       variance or deviation of at most ddof values.
 *   4   over 65,536 values. average as it was. answer: 4, 0; as it was where `average` or `answer` has not its length.
 *   6   at most 65,536 values, and `average` has not 1 place or `answer` not 2. Both as they were.
 */
size_t onc_mean(
    const double *values, size_t values_length,
    double *average, size_t average_length,
    size_t *answer, size_t answer_length);

size_t onc_variance(
    const double *values, size_t values_length,
    size_t ddof,
    double *average, size_t average_length,
    size_t *answer, size_t answer_length);

size_t onc_std_dev(
    const double *values, size_t values_length,
    size_t ddof,
    double *average, size_t average_length,
    size_t *answer, size_t answer_length);

/*
 * Whether a book of n = rows = cols names in whole millionths is proper: every cell within -1,000,000 to 1,000,000, the diagonal 1,000,000, each
 * cell equal to its mirror.
 *
 *   cells     read; n * n whole numbers, row by row
 *   answer    2 numbers, which are what is returned: number, place
 *
 * Returns the number. Afterwards:
 *
 *   0           a proper book. answer: 0, 0.
 *   2, 4, 5     by the shape of the book. answer: the number, 0.
 *   21, 22, 23  the first cell, row by row, that is not proper; for one cell in that order. answer: the number, and row * n + column.
 *   6           `answer` has not 2 places. It is as it was; then 2, 4, 5 and 6 are asked in that order and the cells are not looked at.
 */
size_t onc_check_book(
    const int64_t *cells, size_t cells_length,
    size_t rows, size_t cols,
    size_t *answer, size_t answer_length);

#ifdef __cplusplus
}
#endif

#endif
