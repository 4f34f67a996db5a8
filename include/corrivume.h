/*
 * Corrivume: a dictionary of weighted k-mers over lent tables.
 *
 * A collection is a number k and three tables: the letters of all strings, one string behind the other (N bytes, each an A, C,
 * G or T); where each string ends, counted in letters from the very start (m numbers); and a weight for each k-mer (n numbers).
 * K-mers are numbered from 1, string by string and from left to right; that number is a k-mer's handle. k goes from 3 to 31, a
 * string has k letters or more, weights go from 1 to 16,777,215, N up to 1,048,576, m up to 65,536, and n is N - m(k-1).
 * docs/SPECIFICATION.md says all of it.
 *
 * EVERY CALL
 *
 * A table is passed as a pointer and its number of entries. A table of 0 entries may have a null pointer. A table that a call
 * fills must not overlap another table of the same call. No call remembers a table, asks for memory or needs more than 64 KB of
 * stack. Calls from several threads at once are fine where no table that one of them fills is lent to another.
 *
 * The last table, `answer`, needs CORRIVUME_ANSWER entries. With fewer, a call returns CORRIVUME_ROOM and writes nothing, whatever
 * else it was given.
 *
 * A call returns 0 when done: its answers stand in the first entries of `answer`, and each filled table holds them in its first
 * entries; the rest of every table is as it was. Else it returns the number of a refusal: answer[0] is the refusal's place, and
 * all outputs and the other entries of `answer` are as they were.
 *
 * The length of an input table is its count: N is `letters_count`, m is `ends_count`. Outputs need just the length that the answer
 * fills, and may be longer. `work` may hold anything; it keeps its content on refusals up to 6 and on 1. When a call is done, and
 * after 7 and 8, the entries of work that it needs are zero and the rest is as it was.
 */
#ifndef CORRIVUME_H
#define CORRIVUME_H

#include <stddef.h>
#include <stdint.h>

#ifdef __cplusplus
extern "C" {
#endif

/* How many entries the answer table needs, for every call. */
#define CORRIVUME_ANSWER 4

/* The refusals: when, and then the place that answer[0] tells (docs/SPECIFICATION.md, 8.1). */
#define CORRIVUME_DONE 0u      /* nothing is refused */
#define CORRIVUME_ROOM 1u      /* an output or the work table has too few entries; 0 */
#define CORRIVUME_SIZES 2u     /* k or p is out of range; 0 */
#define CORRIVUME_TOO_LARGE 3u /* more letters or strings than allowed; 0 */
#define CORRIVUME_STRING 4u    /* a string of fewer than k letters: its number; or the last end differs from N: m + 1 */
#define CORRIVUME_LETTER 5u    /* a byte that is no letter; the first one, counted from 1 */
#define CORRIVUME_WEIGHT 6u    /* not exactly n weights: 0; or a weight out of range: the first one, counted from 1 */
#define CORRIVUME_REPEAT 7u    /* a word repeats, as it is or turned; the lowest handle that repeats an earlier one */
#define CORRIVUME_PLACE 8u     /* not exactly m places: 0; or a place that is 0, above m or taken already: that string */
#define CORRIVUME_ASKED 9u     /* the asked word has not k letters, or the handle is not from 1 to n; 0 */
#define CORRIVUME_INDEX 10u    /* the index does not fit the question; 0 */
#define CORRIVUME_LINE 11u     /* a line of the sheet is wrong; the first one, counted from 1 */
#define CORRIVUME_RUN_LIST 12u /* what is lent is no run list; 0 */

/*
 * READ: a sheet's k, letters, ends and weights. A sheet of b bytes needs at most b entries in each table.
 * answer: k, letters, ends, weights (how many were filled in each). Refusals: 11, 2, 11, 3, 1.
 */
uint32_t corrivume_read(const uint8_t *sheet, size_t sheet_count,
                        uint8_t *letters, size_t letters_count,
                        uint32_t *ends, size_t ends_count,
                        uint32_t *weights, size_t weights_count,
                        uint64_t *answer, size_t answer_count);

/*
 * WRITE: a collection's sheet. At most 5 + 3m + N + 9n bytes.
 * answer: bytes. Refusals: 2 to 6, 1.
 */
uint32_t corrivume_write(size_t k,
                         const uint8_t *letters, size_t letters_count,
                         const uint32_t *ends, size_t ends_count,
                         const uint32_t *weights, size_t weights_count,
                         uint8_t *sheet, size_t sheet_count,
                         uint64_t *answer, size_t answer_count);

/*
 * CHECK: whether the collection is good and no word in it repeats, turned or not. work: 4n.
 * answer: k-mers. Refusals: 2 to 6, 1, 7.
 */
uint32_t corrivume_check(size_t k,
                         const uint8_t *letters, size_t letters_count,
                         const uint32_t *ends, size_t ends_count,
                         const uint32_t *weights, size_t weights_count,
                         uint32_t *work, size_t work_count,
                         uint64_t *answer, size_t answer_count);

/*
 * COVER: signed places with the least number of runs. places: m, one for each string, from 1 to m, negative if the string is
 * turned. work: 16m. answer: paths, places (how many were filled). Refusals: 2 to 6, 1.
 */
uint32_t corrivume_cover(size_t k,
                         const uint8_t *letters, size_t letters_count,
                         const uint32_t *ends, size_t ends_count,
                         const uint32_t *weights, size_t weights_count,
                         int32_t *places, size_t places_count,
                         uint32_t *work, size_t work_count,
                         uint64_t *answer, size_t answer_count);

/*
 * APPLY: the collection with each string at its place, turned where the place is negative, its weights turned with it.
 * new_letters: N, new_ends: m, new_weights: n, work: m. answer: letters, ends, weights. Refusals: 2 to 6, 1, 8.
 */
uint32_t corrivume_apply(size_t k,
                         const uint8_t *letters, size_t letters_count,
                         const uint32_t *ends, size_t ends_count,
                         const uint32_t *weights, size_t weights_count,
                         const int32_t *places, size_t places_count,
                         uint8_t *new_letters, size_t new_letters_count,
                         uint32_t *new_ends, size_t new_ends_count,
                         uint32_t *new_weights, size_t new_weights_count,
                         uint32_t *work, size_t work_count,
                         uint64_t *answer, size_t answer_count);

/*
 * RUNS: each run's weight and first handle. Each table: as many entries as there are runs, at most n.
 * answer: runs. Refusals: 2 to 6, 1.
 */
uint32_t corrivume_runs(size_t k,
                        const uint8_t *letters, size_t letters_count,
                        const uint32_t *ends, size_t ends_count,
                        const uint32_t *weights, size_t weights_count,
                        uint32_t *run_weights, size_t run_weights_count,
                        uint32_t *run_firsts, size_t run_firsts_count,
                        uint64_t *answer, size_t answer_count);

/*
 * WEIGHT of a handle, by the run list of n k-mers. answer: weight. Refusals: 12, 9.
 */
uint32_t corrivume_weight(const uint32_t *run_weights, size_t run_weights_count,
                          const uint32_t *run_firsts, size_t run_firsts_count,
                          size_t n, size_t handle,
                          uint64_t *answer, size_t answer_count);

/*
 * ACCESS: where the k letters of a handle stand in the letters. Letters are not judged and there are no weights.
 * answer: position of the first letter (from 0), k. Refusals: 2, 3, 4, 9.
 */
uint32_t corrivume_access(size_t k,
                          const uint8_t *letters, size_t letters_count,
                          const uint32_t *ends, size_t ends_count,
                          size_t handle,
                          uint64_t *answer, size_t answer_count);

/*
 * PLAIN question, by a scan of the collection: the lowest handle of an equal word as asked, else of an equal turned word.
 * answer: handle (0 if absent), side (0 as asked, 1 turned). Refusals: 2 to 6, 9.
 */
uint32_t corrivume_plain(size_t k,
                         const uint8_t *letters, size_t letters_count,
                         const uint32_t *ends, size_t ends_count,
                         const uint32_t *weights, size_t weights_count,
                         const uint8_t *word, size_t word_count,
                         uint64_t *answer, size_t answer_count);

/*
 * INDEX, by minimizers of p letters; p is 1 to 8 and at most k. firsts, positions and numbers hold, per stretch, its first handle,
 * the position of its first letter and its number of k-mers: as many entries as there are stretches, at most n. before: 4^p + 1.
 * work: 4n. answer: stretches, entries of before. Refusals: 2 to 6, 1, 7.
 */
uint32_t corrivume_index(size_t k, size_t p,
                         const uint8_t *letters, size_t letters_count,
                         const uint32_t *ends, size_t ends_count,
                         const uint32_t *weights, size_t weights_count,
                         uint32_t *firsts, size_t firsts_count,
                         uint32_t *positions, size_t positions_count,
                         uint32_t *numbers, size_t numbers_count,
                         uint32_t *before, size_t before_count,
                         uint32_t *work, size_t work_count,
                         uint64_t *answer, size_t answer_count);

/*
 * QUICK question, by the index. The three tables have the length that INDEX answered, before has 4^p + 1.
 * answer: handle (0 if absent), side (0 as asked, 1 turned), how many k-mers were compared. Refusals: 2, 3, 9, 10.
 */
uint32_t corrivume_quick(size_t k, size_t p,
                         const uint8_t *word, size_t word_count,
                         const uint8_t *letters, size_t letters_count,
                         const uint32_t *firsts, size_t firsts_count,
                         const uint32_t *positions, size_t positions_count,
                         const uint32_t *numbers, size_t numbers_count,
                         const uint32_t *before, size_t before_count,
                         uint64_t *answer, size_t answer_count);

/*
 * The weight of a word: QUICK, then WEIGHT of the handle found, by the run list of n k-mers.
 * answer: 1 and the weight; 0 and 0 if absent. Refusals: 2, 3, 9, 10; then, if found, 12, 9.
 */
uint32_t corrivume_weigh(size_t k, size_t p,
                         const uint8_t *word, size_t word_count,
                         const uint8_t *letters, size_t letters_count,
                         const uint32_t *firsts, size_t firsts_count,
                         const uint32_t *positions, size_t positions_count,
                         const uint32_t *numbers, size_t numbers_count,
                         const uint32_t *before, size_t before_count,
                         const uint32_t *run_weights, size_t run_weights_count,
                         const uint32_t *run_firsts, size_t run_firsts_count,
                         size_t n,
                         uint64_t *answer, size_t answer_count);

#ifdef __cplusplus
}
#endif

#endif
