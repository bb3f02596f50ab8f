/* Calls every function of crates/harness_exports once or more, as its precondition asks, on the book of README.md: four names in two pairs, 0.875
   within a pair and 0.125 across. What each gives is compared with what C gives, the leaf that does the same work, or the silhouettes that the
   program prints. Ends with status 1, and the names of the checks that failed, where something differs. bindings/test.sh compiles and runs it. */
#include <math.h>
#include <stdint.h>
#include <stdio.h>
#include <string.h>

#include "onc.h"

/* a list is a pointer, then its length; crates/harness_exports/src/lib.rt has the contracts, docs/READING.md the areas */
double onc_sqrt(double x);
double onc_sqrt_by_digits(double x);
size_t onc_kmeans_plus_plus(const double *points, size_t points_length, size_t n, size_t k, const uint64_t *draws, size_t draws_length, size_t *centres,
                            size_t centres_length, double *floats, size_t floats_length, size_t *numbers, size_t numbers_length, size_t *answer,
                            size_t answer_length);
size_t onc_lloyd(const double *points, size_t points_length, size_t n, const size_t *centres, size_t centres_length, size_t *labels, size_t labels_length,
                 double *floats, size_t floats_length, size_t *numbers, size_t numbers_length, size_t *answer, size_t answer_length);
size_t onc_kmeans_labels(const double *points, size_t points_length, size_t n, size_t k, const uint64_t *draws, size_t draws_length, size_t *labels,
                         size_t labels_length, double *floats, size_t floats_length, size_t *numbers, size_t numbers_length, size_t *answer,
                         size_t answer_length);
void onc_prepare(const double *points, size_t points_length, size_t m, double *area, size_t area_length);
size_t onc_labels_in(double *area, size_t area_length, size_t m, size_t k, const uint64_t *draws, size_t draws_length, size_t at, size_t *labels,
                     size_t labels_length);
void onc_book_pairs(const double *book, size_t book_length, size_t n, const size_t *rows, size_t rows_length, double *area, size_t area_length);
size_t onc_seed_in(const double *area, size_t area_length, size_t m, const uint64_t *draws, size_t draws_length, size_t at, size_t *centres,
                   size_t centres_length, double *weights, size_t weights_length);
void onc_lloyd_in(double *area, size_t area_length, size_t m, const size_t *centres, size_t centres_length, size_t *labels, size_t labels_length);
void onc_scores_in(const double *area, size_t area_length, size_t m, const size_t *labels, size_t labels_length, size_t k, double *scores,
                   size_t scores_length);
double onc_tstat_of(const double *scores, size_t scores_length);

enum { N = 4, CELLS = N * N, FOUR = 4 * CELLS, FIVE = 5 * CELLS, K = 2, DRAWS = 3 };

static int checks, failures;

static void check(const char *name, int ok) {
    checks++;
    if (!ok) {
        failures++;
        printf("harness/exports.c: %s: differs\n", name);
    }
}

/* bit for bit */
static int same(const double *a, const double *b, size_t count) { return memcmp(a, b, count * sizeof *a) == 0; }

static int equal(const size_t *a, const size_t *b, size_t count) { return memcmp(a, b, count * sizeof *a) == 0; }

/* the four areas that a round gets of the book, worked out here: points, transpose, squared pair distances, pair distances */
static void expect(const double *book, double *areas) {
    for (size_t i = 0; i < CELLS; i++) areas[i] = sqrt((1.0 - book[i]) / 2.0);
    for (size_t i = 0; i < N; i++) {
        for (size_t j = 0; j < N; j++) {
            double sum = 0.0;
            for (size_t c = 0; c < N; c++) {
                double d = areas[i * N + c] - areas[j * N + c];
                sum = sum + d * d;
            }
            areas[CELLS + i * N + j] = areas[j * N + i];
            areas[2 * CELLS + i * N + j] = sum;
            areas[3 * CELLS + i * N + j] = sqrt(sum);
        }
    }
}

static size_t numbers[ONC_NUMBERS(N)], answer[3];
static double floats[ONC_FLOATS(N)];

/* whether a leaf was not refused, and read so many draws */
static int done(size_t number, size_t read) { return number == 0 && answer[0] == 0 && answer[1] == 0 && answer[2] == read; }

int main(void) {
    const double book[CELLS] = {1, 0.875, 0.125, 0.125, 0.875, 1, 0.125, 0.125, 0.125, 0.125, 1, 0.875, 0.125, 0.125, 0.875, 1};
    const double eight[8] = {2, 4, 4, 4, 5, 5, 7, 9};
    const size_t rows[N] = {0, 1, 2, 3};
    const uint64_t draws[DRAWS] = {0}, silhouette = UINT64_C(0x3fe5badbd0cf64da);
    double expected[FOUR], area[FIVE] = {0}, prepared[FIVE] = {0}, before[FIVE], weights[N], scores[N], printed[N];
    size_t seeds[K], centres[K], leaf[N], labels[N], number;

    check("onc_sqrt(2)", onc_sqrt(2.0) == sqrt(2.0));
    check("onc_sqrt_by_digits(2)", onc_sqrt_by_digits(2.0) == sqrt(2.0));

    expect(book, expected);
    onc_book_pairs(book, CELLS, N, rows, N, area, FOUR);
    check("onc_book_pairs: points", same(area, expected, CELLS));
    check("onc_book_pairs: transpose", same(area + CELLS, expected + CELLS, CELLS));
    check("onc_book_pairs: squared pair distances", same(area + 2 * CELLS, expected + 2 * CELLS, CELLS));
    check("onc_book_pairs: pair distances", same(area + 3 * CELLS, expected + 3 * CELLS, CELLS));

    onc_prepare(expected, CELLS, N, prepared, FIVE);
    check("onc_prepare: points", same(prepared, expected, CELLS));
    check("onc_prepare: transpose and squared pair distances", same(prepared + CELLS, expected + CELLS, 2 * CELLS));
    memcpy(before, prepared, sizeof before);

    number = onc_kmeans_plus_plus(expected, CELLS, N, K, draws, DRAWS, seeds, K, floats, ONC_FLOATS(N), numbers, ONC_NUMBERS(N), answer, 3);
    check("onc_kmeans_plus_plus: the draws read", done(number, DRAWS));
    check("onc_seed_in: the next draw", onc_seed_in(prepared, FIVE, N, draws, DRAWS, 0, centres, K, weights, N) == DRAWS);
    check("onc_seed_in: the centres of onc_kmeans_plus_plus", equal(centres, seeds, K));

    number = onc_kmeans_labels(expected, CELLS, N, K, draws, DRAWS, leaf, N, floats, ONC_FLOATS(N), numbers, ONC_NUMBERS(N), answer, 3);
    check("onc_kmeans_labels: the draws read", done(number, DRAWS));
    check("onc_kmeans_labels: the two pairs", leaf[0] == leaf[1] && leaf[2] == leaf[3] && leaf[0] + leaf[2] == 1);
    check("onc_labels_in: the next draw", onc_labels_in(prepared, FIVE, N, K, draws, DRAWS, 0, labels, N) == DRAWS);
    check("onc_labels_in: the labels of onc_kmeans_labels", equal(labels, leaf, N));
    memset(labels, 0xff, sizeof labels);
    number = onc_lloyd(expected, CELLS, N, seeds, K, labels, N, floats, ONC_FLOATS(N), numbers, ONC_NUMBERS(N), answer, 3);
    check("onc_lloyd: no draws read", done(number, 0));
    check("onc_lloyd: the labels of onc_kmeans_labels", equal(labels, leaf, N));
    memset(labels, 0xff, sizeof labels);
    onc_lloyd_in(prepared, FIVE, N, centres, K, labels, N);
    check("onc_lloyd_in: the labels of onc_kmeans_labels", equal(labels, leaf, N));
    check("onc_labels_in, onc_lloyd_in: four areas as they were", same(prepared, before, FOUR));

    for (size_t i = 0; i < N; i++) memcpy(&printed[i], &silhouette, sizeof silhouette);
    onc_scores_in(area, FIVE, N, labels, N, K, scores, N);
    check("onc_scores_in: the silhouettes that the program prints", same(scores, printed, N));
    check("onc_tstat_of: equal scores", onc_tstat_of(scores, N) == INFINITY);
    check("onc_tstat_of: a mean of 5 and a deviation of 2", onc_tstat_of(eight, 8) == 2.5);

    if (failures) return 1;
    printf("harness/exports.c: %d checks passed\n", checks);
    return 0;
}
