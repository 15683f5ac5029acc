/* Magpiehinge, the reference searcher, for C. Link with libcabi.a, made by `tools/build archive`.
 *
 * Every function takes all input as it comes. A slice is a pointer and the number of its elements; a pointer is not null, even where the number is 0.
 * Every function but the distance returns a refusal number, 0 for none, always the first of its order that applies. A refusal changes no lent cell.
 * Buffers and cells of one call must not overlap.
 *
 *   1  n is 0 or over 128                      10  id or distance buffer shorter than k, or trail buffer shorter than n
 *   2  d is 0 or over 64                       11  coordinate width 0 or over 8
 *   3  vectors are not n * d long              12  over 127 asks, or ask numbers not 4 * asks long
 *   4  table is not n * n long                 13  a coordinate or query value does not fit the coordinate width
 *   5  query is not d long                     14  output shorter than the sheet
 *      (writer: queries are not asks * d)      15  sheet under 3 bytes, or shorter than its header requires
 *   6  start, current or asked id is n or      16  sheet longer than required, or a filling bit is 1
 *      more (writer: start over 127)           17  ask number not below the sheet's count
 *   7  width is 0 or over 128                  18  a step is due to move and the record has 127 moves or more
 *   8  k is 0 or over the width (writer: 0 or over 128)
 *   9  threshold over 32,767
 */
#ifndef MAGPIEHINGE_H
#define MAGPIEHINGE_H

#include <stddef.h>
#include <stdint.h>

#ifdef __cplusplus
extern "C" {
#endif

/* The coordinates of point `id`: they start at vectors[*start], and there are *count = d of them. Refusals: 1, 2, 3, 6. */
uint8_t magpiehinge_point(size_t n, size_t d, const int8_t *vectors, size_t vectors_len, size_t id, size_t *start, size_t *count);

/* The squared distance of two points: over the coordinates that both have, at most the first 64. It refuses nothing. */
uint32_t magpiehinge_distance(const int8_t *a, size_t a_len, const int8_t *b, size_t b_len);

/* The label table of a set of n points of d coordinates, into n * n cells, row after row. Refusals: 1 to 4. */
uint8_t magpiehinge_build(size_t n, size_t d, const int8_t *vectors, size_t vectors_len, uint16_t *table, size_t table_len);

/* A search of the lent table, taken as it is. The first *found cells of ids and distances get the answer in order from the query, the first *walked
 * cells of the trail get the trail; the cells past them keep what they held. Refusals: 1 to 10. */
uint8_t magpiehinge_search(size_t n, size_t d, const int8_t *vectors, size_t vectors_len, const uint16_t *table, size_t table_len,
                           const int8_t *query, size_t query_len, uint16_t start, uint16_t threshold, uint16_t width, uint16_t k,
                           uint16_t *ids, size_t ids_len, uint32_t *distances, size_t distances_len, uint16_t *trail, size_t trail_len,
                           size_t *found, size_t *seen, size_t *walked);

/* One greedy step of a walk record, *current and *moves. *moved becomes 1 where the record moved and 0 where it is at its end.
 * Refusals: 1 to 6, 9, 18. */
uint8_t magpiehinge_step(size_t n, size_t d, const int8_t *vectors, size_t vectors_len, const uint16_t *table, size_t table_len,
                         const int8_t *query, size_t query_len, uint16_t threshold, uint16_t *current, uint16_t *moves, uint8_t *moved);

/* The whole greedy walk from a start: the last id, its squared distance and the number of moves, at most n - 1. Refusals: 1 to 6, 9. */
uint8_t magpiehinge_walk(size_t n, size_t d, const int8_t *vectors, size_t vectors_len, const uint16_t *table, size_t table_len,
                         const int8_t *query, size_t query_len, uint16_t start, uint16_t threshold,
                         uint16_t *last, uint32_t *distance, uint16_t *moves);

/* Writes a test sheet with coordinates of c bits and asks of four numbers each (start, width, k, threshold) beside their queries. *written becomes
 * the sheet's length; bytes past it stay as they were. Refusals: 1, 2, 11, 12, 3, 5; then ask by ask 6, 7, 8, 9; then 13, 14. */
uint8_t magpiehinge_write(size_t n, size_t d, size_t c, size_t asks, const int8_t *vectors, size_t vectors_len,
                          const uint16_t *numbers, size_t numbers_len, const int8_t *queries, size_t queries_len,
                          uint8_t *output, size_t output_len, size_t *written);

/* Reads what a sheet's header says: points, coordinates, coordinate width, asks. Refusals: 15, 12, 15, 16, 16. */
uint8_t magpiehinge_header(const uint8_t *sheet, size_t sheet_len, size_t *n, size_t *d, size_t *c, size_t *asks);

/* Reads a sheet's vectors into n * d cells. Refusals: the header's, then 3. */
uint8_t magpiehinge_vectors(const uint8_t *sheet, size_t sheet_len, int8_t *buffer, size_t buffer_len);

/* Reads one ask: its four numbers, and its query into d cells. Refusals: the header's, then 17 and 5. */
uint8_t magpiehinge_ask(const uint8_t *sheet, size_t sheet_len, uint16_t number, int8_t *query, size_t query_len,
                        uint16_t *start, uint16_t *width, uint16_t *k, uint16_t *threshold);

#ifdef __cplusplus
}
#endif

#endif
