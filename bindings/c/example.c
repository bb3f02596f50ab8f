/* Groups four names in two pairs, 0.875 within a pair and 0.125 across, by the seed 42, and prints it in the layout of the program `grouping`.
   After `bash bindings/build.sh`, from the repository's root:
   cc -std=c99 -Wall -Wextra -Werror -Iinclude -o target/example bindings/c/example.c target/lib/libonc.a */
#include <inttypes.h>
#include <stdio.h>
#include <string.h>

#include "onc.h"

#define N 4

int main(void) {
    const double book[N * N] = {
        1.0,   0.875, 0.125, 0.125,
        0.875, 1.0,   0.125, 0.125,
        0.125, 0.125, 1.0,   0.875,
        0.125, 0.125, 0.875, 1.0,
    };
    size_t order[N], sizes[N], labels[N], answer[ONC_ANSWER_LENGTH];
    double scores[N], ordered[N * N];
    static double floats[ONC_FLOATS(N)];
    static size_t numbers[ONC_NUMBERS(N)];
    size_t number = onc_get_onc_clusters_with_seed(book, N * N, N, N, 1, 42, order, N, sizes, N, scores, N, ordered, N * N, floats,
                                                   ONC_FLOATS(N), numbers, ONC_NUMBERS(N), answer, ONC_ANSWER_LENGTH);
    if (number != ONC_DONE) {
        printf("refused %zu at %zu\n", number, answer[1]);
        return 1;
    }
    printf("names %d groups %zu draws %zu\n", N, answer[2], answer[3]);
    for (size_t group = 0, at = 0; group < answer[2]; group++) {
        for (size_t end = at + sizes[group]; at < end; at++) {
            labels[order[at]] = group;
        }
    }
    for (size_t i = 0; i < N; i++) {
        printf("%zu%c", labels[i], i + 1 < N ? ' ' : '\n');
    }
    for (size_t i = 0; i < N; i++) {
        uint64_t bits;
        memcpy(&bits, &scores[i], sizeof bits);
        printf("%016" PRIx64 "%c", bits, i + 1 < N ? ' ' : '\n');
    }
    return 0;
}
