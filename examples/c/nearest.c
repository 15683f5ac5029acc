/* Builds the label table of four points in the plane, searches it once and prints what was found.
 *
 * At the repository's root, once `tools/build archive` has made the archive:
 *
 *   gcc -std=c99 -Wall -Iinclude -o target/nearest examples/c/nearest.c target/staticlib/libcabi.a && target/nearest
 */
#include "magpiehinge.h"
#include <stdio.h>

enum { N = 4, D = 2, K = 2 };

int main(void) {
    const int8_t vectors[N * D] = {0, 0, 10, 0, 8, 9, -2, 13};
    const int8_t query[D] = {7, 7};
    uint16_t table[N * N];
    uint8_t refused = magpiehinge_build(N, D, vectors, N * D, table, N * N);
    if (refused) {
        fprintf(stderr, "build: refused %d\n", refused);
        return 1;
    }

    /* Room for k ids and distances, and for a trail over every point. */
    uint16_t ids[K], trail[N];
    uint32_t distances[K];
    size_t found, seen, walked;
    const uint16_t start = 0, threshold = 0, width = 2;
    refused = magpiehinge_search(N, D, vectors, N * D, table, N * N, query, D, start, threshold, width, K, ids, K, distances, K, trail, N, &found,
                                 &seen, &walked);
    if (refused) {
        fprintf(stderr, "search: refused %d\n", refused);
        return 1;
    }
    for (size_t i = 0; i < found; i++)
        printf("point %d at squared distance %lu\n", ids[i], (unsigned long)distances[i]);
    printf("%lu points seen, %lu on the trail\n", (unsigned long)seen, (unsigned long)walked);
    return 0;
}
