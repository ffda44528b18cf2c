/* Fjalgrout for C: every public call of the proved library, target/staticlib/libfjalgrout.a (made by `bin/staticlib`, for x86-64 Linux).
 *
 * A slice is an address and a count of its entries. What the caller must ensure, since nothing in C can check it:
 *   - each count is true: that many entries may be read, and, where the address is not const, written;
 *   - an address is aligned for its entries and is never NULL, also that of an empty slice;
 *   - slices that are lent for writing lie apart from each other and from every slice that is read;
 *   - nothing else writes to a lent slice before the call returns.
 * All else is checked by the call: bad input gets its number, and a refusal changes no byte of a lent slice.
 *
 * The numbers, each given exactly when its line holds. A call checks, in rising number, those that are listed at it; the first that holds is returned.
 *    0  done
 *    1  dim (for distance, the first vector's length) is 0 or above 256
 *    2  n is 0 or above 65,536, or the vectors are not n x dim bytes
 *    3  degree is 0 or above 64
 *    4  beam above 256
 *    5  alpha above 4.0, infinity included
 *    6  start id not below n
 *    7  extra seeds above 16 or not below n; seeds not that many per node; a seed not below n, equal to the start, or repeated within its group
 *    8  a table, also one to be written, has the wrong length, or an entry of one that is read breaks its rule
 *    9  a batch over 256 nodes, with a repeat or an id not below n; or an order that is no permutation of 0..n-1
 *   10  scratch, or an output that is no table, too short
 *   11  query length differs from dim; queries whose bytes are no multiple of dim, or over 65,535 of them; for distance, two vectors of unequal length
 *   12  pivots: none, over 8, or one not below n
 *   14  k is 0 or above 256, for exhaustive and report alone
 * (13 is the program seek's.)
 *
 * A closed table has n x degree words, a wide table n x slack words. Build rule for a row: distinct ids below n, not its own, then only padding.
 * Search rule: every word is padding or an id below n. Batch, open, close and build read tables under the build rule; search, records, report and fit under
 * the search rule; lookup under none.
 *
 * Stack that a call needs, in bytes, as bin/stack measures it: batch and build 27,200, open and close 16,950, report 8,200, records 4,070, lookup and search
 * 4,020, exhaustive 2,500, every other call 260.
 * bin/stack fails where one needs more than 32 KiB, a lookup or a search 4 KiB, or a run of records 64 bytes more. No call uses the heap.
 */
#ifndef FJALGROUT_H
#define FJALGROUT_H

#include <stddef.h>
#include <stdint.h>

#ifdef __cplusplus
extern "C" {
#endif

/* The padding word of a table. */
#define FJALGROUT_PADDING UINT32_C(0xFFFFFFFF)

/* The limits. */
#define FJALGROUT_MOST_DIM 256
#define FJALGROUT_MOST_ENTRIES 65536
#define FJALGROUT_MOST_DEGREE 64
#define FJALGROUT_MOST_BEAM 256
#define FJALGROUT_MOST_EXTRA 16
#define FJALGROUT_MOST_NODES 256
#define FJALGROUT_MOST_PIVOTS 8
#define FJALGROUT_MOST_K 256
#define FJALGROUT_MOST_QUERIES 65535

/* What every call but report returns. A refusal has its number and every other field 0. On success a search, exhaustive too, gives its answer count, medoid
 * its id, distance its value, a single draw its draw; every other such field is 0.
 * `expanded`, how many entries' rows were walked, and `measured`, how many distances were worked out, are for search, lookup and records; in every other call,
 * exhaustive included, they are 0. Each entry is expanded at most once. expanded <= measured, measured <= n, and measured <= 1 + degree x expanded. With beam 0
 * or 1 nothing is expanded and measured is 1. k alters neither. */
typedef struct {
    uint32_t number;
    size_t count;
    uint32_t id;
    uint32_t draw;
    float distance;
    size_t expanded;
    size_t measured;
} fjalgrout_answer;

/* The build parameters. NaN alpha and any alpha below 1.0 act as 1.0. Beam 0 is legal. */
typedef struct {
    size_t degree;
    size_t beam;
    float alpha;
    size_t extra;
} fjalgrout_params;

/* One answer of a search. */
typedef struct {
    uint32_t id;
    float distance;
} fjalgrout_candidate;

/* A generator's state after a call, and what the call answers. A refusal has the state that was given. */
typedef struct {
    uint64_t state;
    fjalgrout_answer answer;
} fjalgrout_stepped;

/* What report returns: how many queries there were; how many entries were asked for, min(k, n) by each; how many of these, the true nearest, the searches
 * brought; and for how many queries they brought all. A refusal has its number and every other field 0. The tag stays, as with `struct stat`: the call has
 * the same name. */
struct fjalgrout_report {
    uint32_t number;
    size_t queries;
    size_t asked;
    size_t found;
    size_t whole;
};

/* a x b + c; SIZE_MAX where that is no size_t, as it is for arguments that every call refuses. */
static inline size_t fjalgrout_saturated(size_t a, size_t b, size_t c) { return b != 0 && a > (SIZE_MAX - c) / b ? SIZE_MAX : a * b + c; }

/* Slack: the words of a wide row, ceil(13 x degree / 10). */
static inline size_t fjalgrout_slack(size_t degree) { return fjalgrout_saturated(degree / 10, 13, (degree % 10 * 13 + 9) / 10); }

/* The words of a closed table and of a wide one. */
static inline size_t fjalgrout_closed_words(size_t n, size_t degree) { return fjalgrout_saturated(n, degree, 0); }
static inline size_t fjalgrout_wide_words(size_t n, size_t degree) { return fjalgrout_saturated(n, fjalgrout_slack(degree), 0); }

/* Room for a batch, close or whole build. On success that much is left zero; scratch beyond it is untouched. */
static inline size_t fjalgrout_build_words(size_t n) { return fjalgrout_saturated(n, 6, 32768); }
static inline size_t fjalgrout_build_floats(size_t n) { return fjalgrout_saturated(n, 4, 1024); }

/* Room for a search, left zero likewise: n + 512 words, and 512 floats whatever n is. And the answers that each of its outputs must have room for:
 * min(k, max(beam, 1)). */
static inline size_t fjalgrout_search_words(size_t n) { return fjalgrout_saturated(n, 1, 512); }
static inline size_t fjalgrout_search_floats(size_t n) { return (void)n, 512; }
static inline size_t fjalgrout_most_answers(size_t beam, size_t k) {
    size_t most = beam < 1 ? 1 : beam;
    return k < most ? k : most;
}

/* The answers of an exhaustive search, and so the room that each of its outputs must have: min(k, n). */
static inline size_t fjalgrout_most_nearest(size_t n, size_t k) { return k < n ? k : n; }

/* Room for a report, left zero likewise: a search's, and 512 more of each kind. */
static inline size_t fjalgrout_report_words(size_t n) { return fjalgrout_saturated(n, 1, 1024); }
static inline size_t fjalgrout_report_floats(size_t n) { return (void)n, 1024; }

/* The pivots that a draw of them writes: min(8, n). */
static inline size_t fjalgrout_most_pivots(size_t n) { return n < FJALGROUT_MOST_PIVOTS ? n : FJALGROUT_MOST_PIVOTS; }

/* The build parameters with their defaults: degree 64, beam 128, alpha 1.2, one extra seed. */
fjalgrout_params fjalgrout_defaults(void);

/* Distance: the sum of squared byte differences of two vectors, an exact whole number of at most 16,516,096. A sample that is 255 in either vector is saturated
 * and adds nothing, here and wherever a call works out distances: so 0 does not mean equal bytes. Numbers 1, 11. */
fjalgrout_answer fjalgrout_distance(const uint8_t *a, size_t a_count, const uint8_t *b, size_t b_count);

/* Medoid: the id with the least sum of distances to the pivots, the lower id on equality; a start for build and search. Numbers 1, 2, 12. */
fjalgrout_answer fjalgrout_medoid(size_t n, size_t dim, const uint8_t *vectors, size_t vectors_count, const uint32_t *pivots, size_t pivots_count);

/* Batch: the listed nodes (at most 256) get fresh rows, all from the rows as they were before the batch, and the rows that these name are merged.
 * `seeds` has params.extra ids for each node, in the nodes' order. A batch of no nodes is done and alters no row. Room: build_words, build_floats.
 * Numbers 1 to 10. */
fjalgrout_answer fjalgrout_batch(size_t n, size_t dim, const uint8_t *vectors, size_t vectors_count, fjalgrout_params params, uint32_t start,
                                 const uint32_t *nodes, size_t nodes_count, const uint32_t *seeds, size_t seeds_count, uint32_t *wide,
                                 size_t wide_count, uint32_t *words, size_t words_count, float *floats, size_t floats_count);

/* Open: copies opening rows, a closed table, to wide ones. Numbers 2, 3, 8. */
fjalgrout_answer fjalgrout_open(size_t n, size_t degree, const uint32_t *opening, size_t opening_count, uint32_t *wide, size_t wide_count);

/* Close: prunes each wide row longer than degree and copies the others. params.beam and params.extra are ignored. Room: build_words, build_floats.
 * Numbers 1, 2, 3, 5, 8, 10. */
fjalgrout_answer fjalgrout_close(size_t n, size_t dim, const uint8_t *vectors, size_t vectors_count, fjalgrout_params params, const uint32_t *wide,
                                 size_t wide_count, uint32_t *closed, size_t closed_count, uint32_t *words, size_t words_count, float *floats,
                                 size_t floats_count);

/* Whole build: open, the order in batches of 256 with the last shorter, close. `order` is a permutation of 0..n-1, `seeds` has params.extra ids for
 * each node, in that order. The wide table stays as after the last batch; `closed` is the table to search. Room: build_words, build_floats.
 * Numbers 1 to 10. */
fjalgrout_answer fjalgrout_build(size_t n, size_t dim, const uint8_t *vectors, size_t vectors_count, fjalgrout_params params, uint32_t start,
                                 const uint32_t *order, size_t order_count, const uint32_t *seeds, size_t seeds_count, const uint32_t *opening,
                                 size_t opening_count, uint32_t *wide, size_t wide_count, uint32_t *closed, size_t closed_count, uint32_t *words,
                                 size_t words_count, float *floats, size_t floats_count);

/* Search: for a table that nobody has checked. `count` answers by distance, then the higher id, as ids and distances; of equals at the cut to k the higher
 * ids. The outputs beyond them are untouched. Beam 0 acts as 1, k = 0 gives no answers. What a full beam keeps is another matter: of equals the lower id.
 * There are at most most_answers of them, min(k, max(beam, 1)). Fewer than that are all that the rows lead to from the start. As many as that: an entry
 * that is missing can be reached only by passing some entry that is no nearer than the last answer. (It may be nearer itself: the search is greedy.)
 * Room: search_words, search_floats; each output most_answers. Numbers 1, 2, 3, 4, 6, 8, 10, 11. */
fjalgrout_answer fjalgrout_search(size_t n, size_t dim, const uint8_t *vectors, size_t vectors_count, size_t degree, size_t beam, size_t k,
                                  uint32_t start, const uint32_t *table, size_t table_count, const uint8_t *query, size_t query_count,
                                  uint32_t *words, size_t words_count, float *floats, size_t floats_count, uint32_t *ids, size_t ids_count,
                                  float *dists, size_t dists_count);

/* Lookup: what a tower calls. The same search, over the same table, outputs and room and in the same order, without the pass over the table: 8 is given for
 * its length alone, and a word that is no id below n reads as padding. So it is safe on every table, and where fit gives 0 it is search itself, refusals
 * included. Where it does not, the answers are those of the table with padding in place of every such word. Numbers 1, 2, 3, 4, 6, 8, 10, 11. */
fjalgrout_answer fjalgrout_lookup(size_t n, size_t dim, const uint8_t *vectors, size_t vectors_count, size_t degree, size_t beam, size_t k,
                                  uint32_t start, const uint32_t *table, size_t table_count, const uint8_t *query, size_t query_count,
                                  uint32_t *words, size_t words_count, float *floats, size_t floats_count, uint32_t *ids, size_t ids_count,
                                  float *dists, size_t dists_count);

/* Fit: the number that a search would give for its table, or 0. Asked once, when a table is loaded; lookup does the rest. Numbers 2 (the limits of n),
 * 3, 8. */
fjalgrout_answer fjalgrout_fit(size_t n, size_t degree, const uint32_t *table, size_t table_count);

/* Exhaustive: the true nearest, from the distances to all n entries and with no table. min(k, n) answers by distance, then the higher id, as ids and
 * distances; of equals at the cut to k the higher ids. The outputs beyond them are untouched. Each output must have room for most_nearest, min(k, n).
 * Numbers 1, 2, 10, 11, 14. */
fjalgrout_answer fjalgrout_exhaustive(size_t n, size_t dim, const uint8_t *vectors, size_t vectors_count, size_t k, const uint8_t *query,
                                      size_t query_count, uint32_t *ids, size_t ids_count, float *dists, size_t dists_count);

/* Report: how many of the true nearest the search brings, in whole numbers. `queries` holds up to 65,535 of them one after another, dim bytes each, and may
 * be empty. Each is searched for, as fjalgrout_search does with this table, start, beam and k, and then exhaustively; an answer is found where its id is
 * among the nearest: where the cut to k divides equals, one of a lower id is not, though it is as near. Room: report_words, report_floats.
 * Numbers 1, 2, 3, 4, 6, 8, 10, 11, 14. */
struct fjalgrout_report fjalgrout_report(size_t n, size_t dim, const uint8_t *vectors, size_t vectors_count, size_t degree, size_t beam, size_t k,
                                         uint32_t start, const uint32_t *table, size_t table_count, const uint8_t *queries, size_t queries_count,
                                         uint32_t *words, size_t words_count, float *floats, size_t floats_count);

/* The same search, and its answers once more as a run of records, in their order; records beyond the answers are untouched. The run, too, must have room
 * for most_answers records. Numbers 1, 2, 3, 4, 6, 8, 10, 11. */
fjalgrout_answer fjalgrout_records(size_t n, size_t dim, const uint8_t *vectors, size_t vectors_count, size_t degree, size_t beam, size_t k,
                                   uint32_t start, const uint32_t *table, size_t table_count, const uint8_t *query, size_t query_count,
                                   uint32_t *words, size_t words_count, float *floats, size_t floats_count, uint32_t *ids, size_t ids_count,
                                   float *dists, size_t dists_count, fjalgrout_candidate *run, size_t run_count);

/* Draws. Each takes a generator's state, any number, and returns the state after it. Output beyond what is drawn is untouched. */

/* One draw below m, any m; 0 for m = 0. Never refused. */
fjalgrout_stepped fjalgrout_draw(uint64_t state, uint32_t m);

/* The opening rows: fills a whole closed table. Numbers 2, 3, 8. */
fjalgrout_stepped fjalgrout_rows(uint64_t state, size_t n, size_t degree, uint32_t *table, size_t table_count);

/* One group of `extra` seeds, from empty: distinct ids that are not the start. Numbers 2, 6, 7 (only its limits on extra seeds), 10. */
fjalgrout_stepped fjalgrout_seeds(uint64_t state, size_t n, uint32_t start, size_t extra, uint32_t *out, size_t out_count);

/* An order: a permutation of 0..n-1 in the first n words. Numbers 2, 10. */
fjalgrout_stepped fjalgrout_order(uint64_t state, size_t n, uint32_t *out, size_t out_count);

/* The pivots: min(8, n) draws below n, which may repeat. Numbers 2, 10. */
fjalgrout_stepped fjalgrout_pivots(uint64_t state, size_t n, uint32_t *out, size_t out_count);

#ifdef __cplusplus
}
#endif

#endif
