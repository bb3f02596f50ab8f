/* Calls every function of include/onc.h: worked examples, refusals, and what the lists hold afterwards. */
#include <math.h>
#include <stdio.h>
#include <string.h>

#include "onc.h"

static int checks, failures;

#define CHECK(what)                                         \
    do {                                                    \
        checks++;                                           \
        if (!(what)) {                                      \
            failures++;                                     \
            printf("line %d failed: %s\n", __LINE__, #what); \
        }                                                   \
    } while (0)

/* Room for the lists of up to twelve names, and a little behind them. */
#define MOST 12
#define BEHIND 3

static size_t order[MOST], sizes[MOST], numbers[ONC_NUMBERS(MOST) + BEHIND], answer[4];
static double scores[MOST], ordered[MOST * MOST], floats[ONC_FLOATS(MOST) + BEHIND];

static void fill(void) {
    for (size_t i = 0; i < MOST; i++) order[i] = sizes[i] = 999, scores[i] = 7.0;
    for (size_t i = 0; i < MOST * MOST; i++) ordered[i] = 7.0;
    for (size_t i = 0; i < ONC_FLOATS(MOST) + BEHIND; i++) floats[i] = 7.0;
    for (size_t i = 0; i < ONC_NUMBERS(MOST) + BEHIND; i++) numbers[i] = 999;
    for (size_t i = 0; i < 4; i++) answer[i] = 999;
}

static int same(const double *values, size_t from, size_t to, double value) {
    for (size_t i = from; i < to; i++)
        if (values[i] != value) return 0;
    return 1;
}

static int all(const size_t *values, size_t from, size_t to, size_t value) {
    for (size_t i = from; i < to; i++)
        if (values[i] != value) return 0;
    return 1;
}

static int outputs_kept(void) {
    return all(order, 0, MOST, 999) && all(sizes, 0, MOST, 999) && same(scores, 0, MOST, 7.0) && same(ordered, 0, MOST * MOST, 7.0);
}

static int working_kept(void) {
    return same(floats, 0, ONC_FLOATS(MOST) + BEHIND, 7.0) && all(numbers, 0, ONC_NUMBERS(MOST) + BEHIND, 999);
}

/* Whether the working lists are zero at the front for n names, and kept behind it. */
static int working_wiped(size_t n) {
    return same(floats, 0, ONC_FLOATS(n), 0.0) && same(floats, ONC_FLOATS(n), ONC_FLOATS(MOST) + BEHIND, 7.0) &&
           all(numbers, 0, ONC_NUMBERS(n), 0) && all(numbers, ONC_NUMBERS(n), ONC_NUMBERS(MOST) + BEHIND, 999);
}

/* A call on freshly filled lists, with all the working lists lent. */
static size_t group(const double *book, size_t cells, size_t rows, size_t cols, size_t repeat, const uint64_t *draws, size_t count,
                    size_t outputs) {
    fill();
    return onc_get_onc_clusters_with_draws(book, cells, rows, cols, repeat, draws, count, order, outputs, sizes, outputs, scores, outputs,
                                           ordered, outputs * outputs, floats, ONC_FLOATS(MOST) + BEHIND, numbers,
                                           ONC_NUMBERS(MOST) + BEHIND, answer, 4);
}

static int told(size_t number, size_t place, size_t groups, size_t read) {
    return answer[0] == number && answer[1] == place && answer[2] == groups && answer[3] == read;
}

/* Four names in two pairs, 0.875 within a pair and 0.125 across. */
static const double pairs[16] = {1, 0.875, 0.125, 0.125, 0.875, 1, 0.125, 0.125, 0.125, 0.125, 1, 0.875, 0.125, 0.125, 0.875, 1};

static uint64_t bits_of(double x) {
    uint64_t bits;
    memcpy(&bits, &x, sizeof bits);
    return bits;
}

static void with_draws(void) {
    const double apart[4] = {1, 0, 0, 1}, ones[4] = {1, 1, 1, 1}, nans[4] = {NAN, NAN, NAN, NAN};
    const uint64_t zeros[10] = {0}, halves[3] = {0, 0, (uint64_t)1 << 52}, two[3] = {2, 0, 0};

    CHECK(group(pairs, 16, 4, 4, 1, zeros, 10, 4) == 0 && told(0, 0, 2, 10));
    CHECK(order[0] == 2 && order[1] == 3 && order[2] == 0 && order[3] == 1);
    CHECK(sizes[0] == 2 && sizes[1] == 2 && sizes[2] == 0 && sizes[3] == 0);
    CHECK(bits_of(scores[0]) == 0x3fe5badbd0cf64da && same(scores, 1, 4, scores[0]));
    for (size_t i = 0; i < 16; i++) CHECK(ordered[i] == pairs[order[i / 4] * 4 + order[i % 4]]);
    CHECK(working_wiped(4));

    CHECK(group(apart, 4, 2, 2, 1, halves, 3, 2) == 0 && told(0, 0, 2, 3) && order[0] == 0 && order[1] == 1 && working_wiped(2));
    CHECK(same(scores, 0, 2, 0.0) && order[2] == 999 && sizes[2] == 999 && scores[2] == 7.0 && ordered[4] == 7.0);
    CHECK(group(ones, 4, 2, 2, 1, zeros, 3, 2) == 0 && told(0, 0, 1, 3) && sizes[0] == 2 && sizes[1] == 0);
    CHECK(group(nans, 4, 2, 2, 1, zeros, 3, 2) == 0 && told(0, 0, 1, 3) && isnan(ordered[3]));

    CHECK(group(ones, 1, 1, 1, 0, zeros, 3, 1) == 1 && told(1, 0, 0, 0) && outputs_kept() && working_kept());
    CHECK(group(ones, 1, 1, 1, 1, zeros, 3, 1) == 2 && told(2, 0, 0, 0) && outputs_kept() && working_kept());
    CHECK(group(ones, 4, 2, 3, 1, zeros, 3, 2) == 2 && told(2, 0, 0, 0) && outputs_kept() && working_kept());
    CHECK(group(ones, 4, 2, 2, 65, zeros, 3, 2) == 4 && told(4, 0, 0, 0) && outputs_kept() && working_kept());
    CHECK(group(ones, 4, 257, 257, 1, zeros, 3, 2) == 4 && group(ones, 4, SIZE_MAX, SIZE_MAX, 1, zeros, 3, 2) == 4);
    CHECK(group(ones, 3, 2, 2, 1, zeros, 3, 2) == 5 && told(5, 0, 0, 0) && outputs_kept() && working_kept());
    CHECK(group(ones, 0, 2, 2, 1, zeros, 0, 2) == 5 && outputs_kept());
    CHECK(group(ones, 4, 2, 2, 1, zeros, 3, 3) == 6 && told(6, 0, 0, 0) && outputs_kept() && working_kept());
    CHECK(group(ones, 4, 2, 2, 1, zeros, 2, 2) == 7 && told(7, 0, 0, 0) && outputs_kept() && working_wiped(2));
    CHECK(group(ones, 4, 2, 2, 1, two, 3, 2) == 8 && told(8, 0, 0, 0) && outputs_kept() && working_wiped(2));

    fill();
    CHECK(onc_get_onc_clusters_with_draws(ones, 4, 2, 2, 1, zeros, 3, order, 2, sizes, 2, scores, 2, ordered, 4, floats, ONC_FLOATS(2),
                                          numbers, ONC_NUMBERS(2), answer, 3) == 6);
    CHECK(all(answer, 0, 4, 999) && outputs_kept() && working_kept());
}

/* By a seed, on freshly filled lists. */
static size_t seeded(const double *book, size_t cells, size_t rows, size_t cols, size_t repeat, uint64_t seed, size_t outputs) {
    fill();
    return onc_get_onc_clusters_with_seed(book, cells, rows, cols, repeat, seed, order, outputs, sizes, outputs, scores, outputs, ordered,
                                          outputs * outputs, floats, ONC_FLOATS(MOST) + BEHIND, numbers, ONC_NUMBERS(MOST) + BEHIND, answer,
                                          4);
}

/* By the default seed, likewise. */
static size_t by_default(const double *book, size_t cells, size_t rows, size_t cols, size_t repeat, size_t outputs) {
    fill();
    return onc_get_onc_clusters(book, cells, rows, cols, repeat, order, outputs, sizes, outputs, scores, outputs, ordered, outputs * outputs,
                                floats, ONC_FLOATS(MOST) + BEHIND, numbers, ONC_NUMBERS(MOST) + BEHIND, answer, 4);
}

/* A call that is refused before the run, by 42 and by the default seed: each list is as it was, but for the answer. */
static int refused(size_t number, const double *book, size_t cells, size_t rows, size_t cols, size_t repeat, size_t outputs) {
    int by_seed = seeded(book, cells, rows, cols, repeat, 42, outputs) == number && told(number, 0, 0, 0) && outputs_kept() && working_kept();
    return by_seed && by_default(book, cells, rows, cols, repeat, outputs) == number && told(number, 0, 0, 0) && outputs_kept() &&
           working_kept();
}

/* What the last call gave, and whether a later one gave the same. */
static size_t kept_order[MOST], kept_sizes[MOST], kept_answer[4];
static double kept_scores[MOST], kept_ordered[MOST * MOST];

static void keep(void) {
    memcpy(kept_order, order, sizeof order), memcpy(kept_sizes, sizes, sizeof sizes), memcpy(kept_answer, answer, sizeof answer);
    memcpy(kept_scores, scores, sizeof scores), memcpy(kept_ordered, ordered, sizeof ordered);
}

static int as_kept(void) {
    return !memcmp(kept_order, order, sizeof order) && !memcmp(kept_sizes, sizes, sizeof sizes) &&
           !memcmp(kept_answer, answer, sizeof answer) && !memcmp(kept_scores, scores, sizeof scores) &&
           !memcmp(kept_ordered, ordered, sizeof ordered);
}

/* What the unchanged Rust answers by a seed, as harness/oracle/openquant/examples/seeded.rs prints it. */
static const uint64_t draws_of_42[10] = {0, 2240436130339214, 7822091515682305, 2, 3656038014234310,
                                         309332604289587, 3737598995710448, 6642128755826959, 7649378418684374, 1182455112672144};
static const uint64_t six_pairs[12] = {0x3fd7c6aa1fb3aa44, 0x3fd8cda7090eef9f, 0x3fdcf2c767dd6eb6, 0x3fdc9c63982df4ca,
                                       0x3fdc87190a0e9c93, 0x3fdc1601fb02dc5e, 0x3fd126aad5ce6260, 0x3fd02367d55cbe56,
                                       0x3fcc9fa0254c1c37, 0x3fcfb03c608650d2, 0x3fd62cf7f30d5d0d, 0x3fd4c3ced6b52a5a};
static const uint64_t five_groups[12] = {0x3fd8c06ade0e84c5, 0x3fd8ec56ad15bfcd, 0x3fdd0da72b4e73cf, 0x3fdd3a7ea809fee0,
                                         0x3fdc87190a0e9c93, 0x3fdc295b2dedd8b7, 0x3fbf226d9a2652da, 0x3fbb3ad52fd86f00,
                                         0x3fbef9e9aee405da, 0x3fb9efe078a14f25, 0x3fd62cf7f30d5d0d, 0x3fd584222fa3738d};
static const struct {
    size_t repeat;
    uint64_t seed;
    size_t groups, read, order[12], sizes[12];
    const uint64_t *scores;
} known[5] = {
    {1, 0, 6, 276, {4, 5, 2, 3, 10, 11, 0, 1, 8, 9, 6, 7}, {2, 2, 2, 2, 2, 2}, six_pairs},
    {1, 7, 5, 276, {2, 3, 4, 5, 6, 7, 8, 9, 10, 11, 0, 1}, {2, 2, 4, 2, 2}, five_groups},
    {1, 42, 5, 309, {0, 1, 6, 7, 8, 9, 2, 3, 10, 11, 4, 5}, {2, 4, 2, 2, 2}, five_groups},
    {1, UINT64_MAX, 6, 276, {4, 5, 2, 3, 0, 1, 6, 7, 8, 9, 10, 11}, {2, 2, 2, 2, 2, 2}, six_pairs},
    {2, 42, 6, 552, {4, 5, 2, 3, 6, 7, 0, 1, 10, 11, 8, 9}, {2, 2, 2, 2, 2, 2}, six_pairs},
};

static void with_seed(void) {
    const double ones[4] = {1, 1, 1, 1};
    double twelve[144], endless[36];

    for (size_t i = 0; i < 12; i++)
        for (size_t j = 0; j < 12; j++)
            twelve[12 * i + j] = i == j ? 1 : (double)((i / 2 == j / 2 ? 32 : 0) + (3 * i * j + 9 * (i + j)) % 16) / 64;
    /* six names in three pairs, by which the rounds do not end */
    for (size_t i = 0; i < 6; i++)
        for (size_t j = 0; j < 6; j++) endless[6 * i + j] = i == j ? 1 : i / 2 == j / 2 ? 0.875 : i % 2 && j % 2 ? 0.21875 : 0.0546875;

    CHECK(seeded(pairs, 16, 4, 4, 1, 42, 4) == 0 && told(0, 0, 2, 10) && working_wiped(4));
    CHECK(order[0] == 0 && order[1] == 1 && order[2] == 2 && order[3] == 3);
    CHECK(sizes[0] == 2 && sizes[1] == 2 && sizes[2] == 0 && sizes[3] == 0 && sizes[4] == 999);
    CHECK(bits_of(scores[0]) == 0x3fe5badbd0cf64da && same(scores, 1, 4, scores[0]) && scores[4] == 7.0);
    for (size_t i = 0; i < 16; i++) CHECK(ordered[i] == pairs[order[i / 4] * 4 + order[i % 4]]);
    /* the same by the default seed, and on the list of the draws that 42 made */
    keep();
    CHECK(ONC_DEFAULT_SEED == 42 && by_default(pairs, 16, 4, 4, 1, 4) == 0 && as_kept() && working_wiped(4));
    CHECK(group(pairs, 16, 4, 4, 1, draws_of_42, 10, 4) == 0 && as_kept());
    CHECK(seeded(pairs, 16, 4, 4, 1, 0, 4) == 0 && told(0, 0, 2, 10) && order[0] == 2 && order[2] == 0);

    for (size_t i = 0; i < 5; i++) {
        CHECK(seeded(twelve, 144, 12, 12, known[i].repeat, known[i].seed, 12) == 0 && told(0, 0, known[i].groups, known[i].read));
        CHECK(!memcmp(order, known[i].order, sizeof order) && !memcmp(sizes, known[i].sizes, sizeof sizes) && working_wiped(12));
        for (size_t j = 0; j < 12; j++) CHECK(bits_of(scores[j]) == known[i].scores[j]);
        for (size_t j = 0; j < 144; j++) CHECK(ordered[j] == twelve[order[j / 12] * 12 + order[j % 12]]);
        if (known[i].seed == ONC_DEFAULT_SEED) {
            keep();
            CHECK(by_default(twelve, 144, 12, 12, known[i].repeat, 12) == 0 && as_kept() && working_wiped(12));
        }
    }

    CHECK(seeded(endless, 36, 6, 6, 1, 42, 6) == 9 && told(9, 0, 0, 0) && outputs_kept() && working_wiped(6));
    CHECK(by_default(endless, 36, 6, 6, 1, 6) == 9 && told(9, 0, 0, 0) && outputs_kept() && working_wiped(6));
    CHECK(refused(1, ones, 1, 1, 1, 0, 1));
    CHECK(refused(2, ones, 1, 1, 1, 1, 1) && refused(2, ones, 4, 2, 3, 1, 2));
    CHECK(refused(4, ones, 4, 2, 2, 65, 2) && refused(4, ones, 4, 257, 257, 1, 2) && refused(4, ones, 4, SIZE_MAX, SIZE_MAX, 1, 2));
    CHECK(refused(5, ones, 3, 2, 2, 1, 2) && refused(5, ones, 0, 2, 2, 1, 2));
    CHECK(refused(6, ones, 4, 2, 2, 1, 3));

    fill();
    CHECK(onc_get_onc_clusters_with_seed(ones, 4, 2, 2, 1, 42, order, 2, sizes, 2, scores, 2, ordered, 4, floats, ONC_FLOATS(2), numbers,
                                         ONC_NUMBERS(2), answer, 3) == 6);
    CHECK(onc_get_onc_clusters(ones, 4, 2, 2, 1, order, 2, sizes, 2, scores, 2, ordered, 4, floats, ONC_FLOATS(2), numbers, ONC_NUMBERS(2),
                               answer, 3) == 6);
    CHECK(all(answer, 0, 4, 999) && outputs_kept() && working_kept());
}

typedef size_t average_call(const double *, size_t, size_t, double *, size_t, size_t *, size_t);

static size_t mean_call(const double *values, size_t n, size_t ddof, double *average, size_t average_len, size_t *told_to, size_t told_len) {
    (void)ddof;
    return onc_mean(values, n, average, average_len, told_to, told_len);
}

static void averages(void) {
    static double many[65537];
    const double three[3] = {1, 2, 6}, eight[8] = {2, 4, 4, 4, 5, 5, 7, 9}, tenths[3] = {0.1, 0.1, 0.1};
    average_call *const calls[3] = {mean_call, onc_variance, onc_std_dev};
    double average[2];
    size_t count[3];

    CHECK(onc_mean(three, 3, average, 1, count, 2) == 0 && average[0] == 3.0 && count[0] == 0 && count[1] == 1);
    CHECK(onc_mean(tenths, 3, average, 1, count, 2) == 0 && average[0] == 0.1);
    CHECK(onc_variance(eight, 8, 0, average, 1, count, 2) == 0 && average[0] == 4.0 && count[1] == 1);
    CHECK(onc_variance(eight, 8, 1, average, 1, count, 2) == 0 && average[0] == 32.0 / 7.0);
    CHECK(onc_std_dev(eight, 8, 0, average, 1, count, 2) == 0 && average[0] == 2.0 && count[1] == 1);
    for (size_t i = 0; i < 3; i++) {
        average[0] = 7.0, count[0] = count[1] = 999;
        CHECK(calls[i](three, 0, 0, average, 1, count, 2) == 0 && average[0] == 7.0 && count[0] == 0 && count[1] == 0);
        count[0] = count[1] = 999;
        CHECK(calls[i](many, 65537, 0, average, 1, count, 2) == 4 && average[0] == 7.0 && count[0] == 4 && count[1] == 0);
        CHECK(calls[i](many, 65536, 0, average, 1, count, 2) == 0 && average[0] == 0.0 && count[1] == 1);
        average[0] = 7.0, count[0] = count[1] = count[2] = 999;
        CHECK(calls[i](three, 3, 0, average, 2, count, 2) == 6 && calls[i](three, 3, 0, average, 0, count, 2) == 6);
        CHECK(calls[i](three, 3, 0, average, 1, count, 3) == 6 && calls[i](three, 3, 0, average, 1, count, 1) == 6);
        CHECK(calls[i](many, 65537, 0, average, 1, count, 3) == 4 && average[0] == 7.0 && all(count, 0, 3, 999));
    }
    CHECK(onc_variance(three, 1, 1, average, 1, count, 2) == 0 && count[1] == 0 && average[0] == 7.0);
    CHECK(onc_std_dev(three, 3, SIZE_MAX, average, 1, count, 2) == 0 && count[1] == 0 && average[0] == 7.0);
}

static void intake(void) {
    const int64_t proper[4] = {1000000, -250000, -250000, 1000000}, mirror[4] = {1000000, 0, 1, 1000000};
    const int64_t range[4] = {1000000, INT64_MIN, 0, 1000000}, diagonal[4] = {1000000, 0, 0, 999999};
    size_t told_to[3] = {999, 999, 999};

    CHECK(onc_check_book(proper, 4, 2, 2, told_to, 2) == 0 && told_to[0] == 0 && told_to[1] == 0);
    CHECK(onc_check_book(range, 4, 2, 2, told_to, 2) == 21 && told_to[0] == 21 && told_to[1] == 1);
    CHECK(onc_check_book(diagonal, 4, 2, 2, told_to, 2) == 22 && told_to[0] == 22 && told_to[1] == 3);
    CHECK(onc_check_book(mirror, 4, 2, 2, told_to, 2) == 23 && told_to[0] == 23 && told_to[1] == 1);
    CHECK(onc_check_book(proper, 4, 2, 3, told_to, 2) == 2 && told_to[0] == 2 && told_to[1] == 0);
    CHECK(onc_check_book(proper, 4, 257, 257, told_to, 2) == 4 && told_to[0] == 4);
    CHECK(onc_check_book(proper, 3, 2, 2, told_to, 2) == 5 && told_to[0] == 5);
    told_to[0] = told_to[1] = 999;
    CHECK(onc_check_book(mirror, 4, 2, 2, told_to, 3) == 6 && onc_check_book(mirror, 4, 2, 2, told_to, 1) == 6);
    CHECK(onc_check_book(mirror, 3, 2, 2, told_to, 0) == 5 && all(told_to, 0, 3, 999));
}

static void draws(void) {
    const uint64_t counts[11] = {3, 3, 10, 20, 33, 49, 68, 97, 130, 167, 208};
    for (size_t i = 0; i < 11; i++) CHECK(onc_draws_for(i + 2) == counts[i]);
    CHECK(onc_draws_for(256) == 214428);
    CHECK(onc_draws_for(0) == 0 && onc_draws_for(1) == 0 && onc_draws_for(257) == 0 && onc_draws_for(SIZE_MAX) == 0);
}

int main(void) {
    with_seed();
    with_draws();
    averages();
    intake();
    draws();
    printf("C: %d checks, %d failed\n", checks, failures);
    return failures != 0;
}
