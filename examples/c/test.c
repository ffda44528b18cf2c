/* Checks of the library through C: cases of docs/01-scope.md with their outcomes, equal distances as 3/13 lists them, a search's counts and room as 10/13 has
 * them, and refusals, each of which must give its number and change nothing. */
#include <fjalgrout.h>
#include <math.h>
#include <stdio.h>
#include <string.h>

#define PAD FJALGROUT_PADDING

static int checks, failures;

static void check_at(int line, const char *text, int holds) {
    checks++;
    if (!holds) {
        failures++;
        printf("line %d: %s\n", line, text);
    }
}
#define CHECK(x) check_at(__LINE__, #x, (x))

/* What floats hold before a call: NaNs, quiet and signalling, of both signs and with payloads, and a plain number. No contract tells one NaN from another;
 * here they are compared byte by byte. They are only ever copied as bytes, since a copy as a float might quiet one. */
static const uint32_t odd_floats[5] = {0x7FA00001, 0xFF800001, 0x7FC12345, 0x5A5A5A5A, 0xFFFFFFFF};

static void fill_floats(void *floats, size_t bytes) {
    for (size_t i = 0; i < bytes / 4; i++) memcpy((char *)floats + 4 * i, &odd_floats[i % 5], 4);
}

/* The fields beside the number, all 0 in a refusal and in a call that only fills slices; the distance is +0.0. */
static int only(fjalgrout_answer a, uint32_t number) {
    return a.number == number && a.count == 0 && a.id == 0 && a.draw == 0 && a.distance == 0 && !signbit(a.distance) && a.expanded == 0 && a.measured == 0;
}

/* ---- distance */

static void test_distance(void) {
    uint8_t low[257] = {0}, high[257];
    memset(high, 254, sizeof high);
    CHECK(fjalgrout_distance(low, 1, high, 1).distance == 64516);
    CHECK(fjalgrout_distance(low, 256, high, 256).distance == 16516096);
    CHECK(fjalgrout_distance(low, 256, high, 256).number == 0);
    CHECK(only(fjalgrout_distance(low, 257, high, 257), 1));
    CHECK(only(fjalgrout_distance(low, 0, high, 0), 1));
    CHECK(only(fjalgrout_distance(low, 257, high, 1), 1));
    CHECK(only(fjalgrout_distance(low, 4, high, 5), 11));
    /* 255 in either vector adds nothing, in whichever place */
    for (size_t i = 0; i < 256; i++) {
        low[i] = 255;
        CHECK(fjalgrout_distance(low, 256, high, 256).distance == 64516 * 255);
        CHECK(fjalgrout_distance(high, 256, low, 256).distance == 64516 * 255);
        low[i] = 0;
    }
    memset(high, 255, sizeof high);
    CHECK(only(fjalgrout_distance(low, 256, high, 256), 0));
}

/* ---- the line: dim 1, degree 2, start 0 */

/* besides has entries 0 and 1 as far from 25, and 2 there */
static const uint8_t line[4] = {10, 20, 30, 40}, bent[4] = {10, 20, 30, 25}, besides[4] = {20, 30, 25, 40}, alike[4] = {20, 20, 20, 20};
static const uint32_t line_rows[8] = {1, PAD, 0, 2, 1, 3, 2, PAD};

/* The room of a search of it. */
enum { WORDS = 4 + 512, FLOATS = 512 };

/* One search with all that it is lent; every slice has guards behind its room, and a pattern to begin with. */
struct searching {
    size_t n, dim, vectors_count, degree, beam, k, table_count, query_count, words_count, floats_count, ids_count, dists_count;
    uint32_t start, table[8];
    const uint8_t *vectors;
    uint8_t query;
    uint32_t words[WORDS + 4], ids[12];
    float floats[FLOATS + 4], dists[12];
};

static struct searching the_line(uint8_t query, size_t beam, size_t k) {
    struct searching s;
    memset(&s, 0x5A, sizeof s), fill_floats(s.floats, sizeof s.floats), fill_floats(s.dists, sizeof s.dists);
    s.n = 4, s.dim = 1, s.vectors_count = 4, s.degree = 2, s.beam = beam, s.k = k, s.start = 0;
    s.vectors = line, s.query = query, s.query_count = 1, s.table_count = 8;
    memcpy(s.table, line_rows, sizeof line_rows);
    s.words_count = WORDS, s.floats_count = FLOATS;
    s.ids_count = s.dists_count = fjalgrout_most_answers(beam, k);
    return s;
}

static fjalgrout_answer search(struct searching *s) {
    return fjalgrout_search(s->n, s->dim, s->vectors, s->vectors_count, s->degree, s->beam, s->k, s->start, s->table, s->table_count, &s->query,
                            s->query_count, s->words, s->words_count, s->floats, s->floats_count, s->ids, s->ids_count, s->dists, s->dists_count);
}

static fjalgrout_answer lookup(struct searching *s) {
    return fjalgrout_lookup(s->n, s->dim, s->vectors, s->vectors_count, s->degree, s->beam, s->k, s->start, s->table, s->table_count, &s->query,
                            s->query_count, s->words, s->words_count, s->floats, s->floats_count, s->ids, s->ids_count, s->dists, s->dists_count);
}

static void answers_by(int at, fjalgrout_answer (*call)(struct searching *), struct searching s, size_t count, const uint32_t *ids, const float *dists) {
    struct searching before = s;
    fjalgrout_answer a = call(&s);
    check_at(at, "done", a.number == 0 && a.id == 0 && a.draw == 0 && a.distance == 0);
    check_at(at, "count", a.count == count);
    check_at(at, "bounds of the counts", a.expanded <= a.measured && a.measured <= s.n && a.measured <= 1 + s.degree * a.expanded);
    check_at(at, "ids", memcmp(s.ids, ids, count * 4) == 0);
    check_at(at, "distances", memcmp(s.dists, dists, count * sizeof(float)) == 0);
    check_at(at, "ids beyond the answers", memcmp(s.ids + count, before.ids + count, sizeof s.ids - count * 4) == 0);
    check_at(at, "distances beyond the answers", memcmp(s.dists + count, before.dists + count, sizeof s.dists - count * sizeof(float)) == 0);
    int zero = 1;
    for (size_t i = 0; i < WORDS; i++) zero = zero && s.words[i] == 0;
    for (size_t i = 0; i < FLOATS; i++) zero = zero && s.floats[i] == 0 && !signbit(s.floats[i]);
    check_at(at, "room left zero", zero);
    check_at(at, "words beyond the room", memcmp(s.words + WORDS, before.words + WORDS, 16) == 0);
    check_at(at, "floats beyond the room", memcmp(s.floats + FLOATS, before.floats + FLOATS, 16) == 0);
    check_at(at, "the table", memcmp(s.table, before.table, sizeof s.table) == 0);
}

/* By the search, and by the lookup. */
static void answers_at(int at, struct searching s, size_t count, const uint32_t *ids, const float *dists) {
    answers_by(at, search, s, count, ids, dists);
    answers_by(at, lookup, s, count, ids, dists);
}
#define ANSWERS(s, count, ids, dists) answers_at(__LINE__, s, count, ids, dists)

static fjalgrout_answer run_records(struct searching *s, fjalgrout_candidate *run, size_t run_count) {
    return fjalgrout_records(s->n, s->dim, s->vectors, s->vectors_count, s->degree, s->beam, s->k, s->start, s->table, s->table_count, &s->query,
                             s->query_count, s->words, s->words_count, s->floats, s->floats_count, s->ids, s->ids_count, s->dists, s->dists_count,
                             run, run_count);
}

/* By the search, by the lookup, unless it is a word of the table that is refused, and by the search with a run of records. */
static void refuses_at(int at, struct searching s, uint32_t number) {
    struct searching before = s;
    fjalgrout_candidate run[4], kept[4];
    fill_floats(run, sizeof run), memcpy(kept, run, sizeof run);
    int stray = 0;
    for (size_t i = 0; i < 8; i++) stray = stray || (s.table[i] != PAD && s.table[i] >= 4);
    check_at(at, "refused by its number", only(search(&s), number));
    check_at(at, "lookup refused by that number", stray || only(lookup(&s), number));
    check_at(at, "nothing changed", memcmp(&s, &before, sizeof s) == 0);
    check_at(at, "records refused by that number", only(run_records(&s, run, 4), number));
    check_at(at, "nothing changed beside records", memcmp(&s, &before, sizeof s) == 0 && memcmp(run, kept, sizeof run) == 0);
}

static void test_search(void) {
    ANSWERS(the_line(38, 2, 2), 2, ((uint32_t[]){3, 2}), ((float[]){4, 64}));
    ANSWERS(the_line(38, 1, 2), 1, ((uint32_t[]){0}), ((float[]){784}));
    ANSWERS(the_line(38, 0, 2), 1, ((uint32_t[]){0}), ((float[]){784}));
    ANSWERS(the_line(38, 8, 8), 4, ((uint32_t[]){3, 2, 1, 0}), ((float[]){4, 64, 324, 784}));
    ANSWERS(the_line(25, 4, 4), 4, ((uint32_t[]){2, 1, 3, 0}), ((float[]){25, 25, 225, 225}));
    ANSWERS(the_line(38, 2, 0), 0, ((uint32_t[]){0}), ((float[]){0}));
    struct searching s = the_line(25, 2, 2);
    s.vectors = bent;
    ANSWERS(s, 2, ((uint32_t[]){2, 1}), ((float[]){25, 25}));
    /* a k above the beam brings no more than the beam, though the rows lead to four */
    s = the_line(25, 1, 8), s.vectors = bent;
    ANSWERS(s, 1, ((uint32_t[]){0}), ((float[]){225}));
    s = the_line(25, 8, 8), s.vectors = bent;
    ANSWERS(s, 4, ((uint32_t[]){3, 2, 1, 0}), ((float[]){0, 25, 25, 225}));
}

/* ---- equal distances: the higher id first, also at the cut; a full beam keeps the lower id */

/* Entry 0 leads to 1 and 2, which lead nowhere. */
static struct searching from_the_first(size_t beam, size_t k) {
    struct searching s = the_line(25, beam, k);
    s.vectors = besides;
    memcpy(s.table, (uint32_t[]){1, 2, PAD, PAD, PAD, PAD, PAD, PAD}, sizeof s.table);
    return s;
}

static void test_equals(void) {
    /* cut within the first run, behind it, within the second, and above the beam; the same as records */
    static const uint32_t ids[4] = {2, 1, 3, 0};
    static const float dists[4] = {25, 25, 225, 225};
    for (size_t k = 0; k <= 5; k++) {
        size_t count = k < 4 ? k : 4;
        ANSWERS(the_line(25, 4, k), count, ids, dists);
        struct searching s = the_line(25, 4, k), plain = s;
        fjalgrout_candidate run[4];
        CHECK(run_records(&s, run, 4).count == count && search(&plain).count == count && memcmp(&s, &plain, sizeof s) == 0);
        for (size_t i = 0; i < count; i++) CHECK(run[i].id == ids[i] && run[i].distance == dists[i]);
    }
    /* one run of all; a beam of 2 is full with entries 0 and 1, and an equal does not come in */
    struct searching s = the_line(20, 4, 4);
    s.vectors = alike;
    ANSWERS(s, 4, ((uint32_t[]){3, 2, 1, 0}), ((float[]){0, 0, 0, 0}));
    s = the_line(20, 4, 2), s.vectors = alike;
    ANSWERS(s, 2, ((uint32_t[]){3, 2}), ((float[]){0, 0}));
    s = the_line(20, 2, 2), s.vectors = alike;
    ANSWERS(s, 2, ((uint32_t[]){1, 0}), ((float[]){0, 0}));
    /* entry 2 enters a beam of 2 that is full with the equals 0 and 1, and 1 leaves */
    ANSWERS(from_the_first(2, 2), 2, ((uint32_t[]){2, 0}), ((float[]){0, 25}));
    ANSWERS(from_the_first(3, 3), 3, ((uint32_t[]){2, 1, 0}), ((float[]){0, 25, 25}));
    ANSWERS(from_the_first(3, 2), 2, ((uint32_t[]){2, 1}), ((float[]){0, 25}));
}

/* ---- entries expanded and distances worked out; the room, of which every other test lends just as much, and the refusals one fewer */

static void takes_at(int at, struct searching s, size_t expanded, size_t measured) {
    fjalgrout_candidate run[4];
    fjalgrout_answer a = search(&s), b = lookup(&s), c = run_records(&s, run, 4);
    check_at(at, "the search's counts", a.number == 0 && a.expanded == expanded && a.measured == measured);
    check_at(at, "the lookup's counts", b.number == 0 && b.expanded == expanded && b.measured == measured);
    check_at(at, "the counts with records", c.number == 0 && c.expanded == expanded && c.measured == measured);
}
#define TAKES(s, expanded, measured) takes_at(__LINE__, s, expanded, measured)

static void test_counts(void) {
    TAKES(the_line(38, 2, 2), 4, 4);
    TAKES(the_line(38, 2, 0), 4, 4);
    TAKES(the_line(38, 1, 2), 0, 1);
    TAKES(the_line(38, 0, 2), 0, 1);
    /* entry 3 fills the beam as its worst: it is not expanded */
    TAKES(the_line(25, 4, 4), 3, 4);
    /* entry 2 is measured and not expanded, entry 3 neither */
    struct searching s = the_line(25, 2, 2);
    s.vectors = bent;
    TAKES(s, 2, 3);
}

static void test_room(void) {
    CHECK(fjalgrout_search_words(4) == WORDS && fjalgrout_search_floats(4) == FLOATS);
    /* what is lent beyond it stays as it was */
    struct searching s = the_line(38, 2, 2);
    s.words_count += 4, s.floats_count += 4;
    ANSWERS(s, 2, ((uint32_t[]){3, 2}), ((float[]){4, 64}));
}

#define REFUSES(number, change) \
    do { \
        struct searching s = the_line(38, 2, 2); \
        change; \
        refuses_at(__LINE__, s, number); \
    } while (0)

static void test_search_refusals(void) {
    REFUSES(1, s.dim = 0);
    REFUSES(1, s.dim = 257);
    REFUSES(2, s.n = 0);
    REFUSES(2, s.n = 65537);
    REFUSES(2, s.vectors_count = 3);
    REFUSES(2, (s.n = (size_t)1 << 63, s.dim = 2, s.vectors_count = 0));
    REFUSES(3, s.degree = 0);
    REFUSES(3, s.degree = 65);
    REFUSES(4, s.beam = 257);
    REFUSES(6, s.start = 4);
    REFUSES(8, s.table_count = 7);
    REFUSES(8, s.table[5] = 4);
    REFUSES(8, s.table[7] = PAD - 1);
    REFUSES(10, s.words_count--);
    REFUSES(10, s.floats_count--);
    REFUSES(10, s.ids_count--);
    REFUSES(10, s.dists_count--);
    REFUSES(11, s.query_count = 0);
    /* two faults: the lower number */
    REFUSES(1, (s.dim = 0, s.start = 9));
    REFUSES(4, (s.beam = 257, s.query_count = 0));
    REFUSES(8, (s.table_count = 7, s.words_count = 0));
    REFUSES(10, (s.words_count = 0, s.query_count = 0));
}

/* ---- lookup and fit: a word that is no id below n */

static void test_lookup(void) {
    /* entry 1 no longer leads to 2, so 3 is out of reach */
    struct searching s = the_line(38, 8, 8);
    s.table[3] = 4;
    answers_by(__LINE__, lookup, s, 2, (uint32_t[]){1, 0}, (float[]){324, 784});
    fjalgrout_answer a = lookup(&s);
    CHECK(a.expanded == 2 && a.measured == 2);
    /* a row goes on behind such a word */
    s = the_line(38, 8, 8), s.table[2] = PAD - 1;
    answers_by(__LINE__, lookup, s, 4, (uint32_t[]){3, 2, 1, 0}, (float[]){4, 64, 324, 784});
    s = the_line(38, 8, 8);
    for (size_t i = 0; i < 8; i++) s.table[i] = 4 + (uint32_t)i;
    answers_by(__LINE__, lookup, s, 1, (uint32_t[]){0}, (float[]){784});
}

static void test_fit(void) {
    uint32_t table[8];
    memcpy(table, line_rows, sizeof table);
    CHECK(only(fjalgrout_fit(4, 2, table, 8), 0));
    CHECK(only(fjalgrout_fit(0, 2, table, 8), 2));
    CHECK(only(fjalgrout_fit(65537, 2, table, 8), 2));
    CHECK(only(fjalgrout_fit(4, 0, table, 8), 3));
    CHECK(only(fjalgrout_fit(4, 65, table, 8), 3));
    CHECK(only(fjalgrout_fit(4, 2, table, 7), 8));
    CHECK(only(fjalgrout_fit(0, 65, table, 7), 2));
    CHECK(only(fjalgrout_fit((size_t)1 << 63, 2, table, 0), 2));
    table[5] = 4;
    CHECK(only(fjalgrout_fit(4, 2, table, 8), 8));
    table[5] = PAD - 1;
    CHECK(only(fjalgrout_fit(4, 2, table, 8), 8));
    table[5] = PAD, table[6] = 3;
    CHECK(only(fjalgrout_fit(4, 2, table, 8), 0));
}

/* ---- exhaustive search: no table, and every output lent with guards behind it */

struct exhausting {
    size_t n, dim, vectors_count, k, query_count, ids_count, dists_count;
    const uint8_t *vectors;
    uint8_t query;
    uint32_t ids[8];
    float dists[8];
};

static struct exhausting all_of_the_line(uint8_t query, size_t k) {
    struct exhausting e;
    memset(&e, 0x5A, sizeof e), fill_floats(e.dists, sizeof e.dists);
    e.n = 4, e.dim = 1, e.vectors_count = 4, e.k = k, e.query_count = 1, e.vectors = line, e.query = query;
    e.ids_count = e.dists_count = fjalgrout_most_nearest(4, k);
    return e;
}

static fjalgrout_answer exhaustive(struct exhausting *e) {
    return fjalgrout_exhaustive(e->n, e->dim, e->vectors, e->vectors_count, e->k, &e->query, e->query_count, e->ids, e->ids_count, e->dists, e->dists_count);
}

static void nearest_at(int at, struct exhausting e, size_t count, const uint32_t *ids, const float *dists) {
    struct exhausting want = e;
    memcpy(want.ids, ids, count * 4), memcpy(want.dists, dists, count * sizeof(float));
    fjalgrout_answer a = exhaustive(&e);
    check_at(at, "count", a.count == count);
    a.count = 0;
    check_at(at, "done", only(a, 0));
    check_at(at, "the nearest, and nothing beyond them", memcmp(&e, &want, sizeof e) == 0);
}
#define NEAREST(e, count, ids, dists) nearest_at(__LINE__, e, count, ids, dists)

#define EXHAUSTIVE_REFUSES(number, change) \
    do { \
        struct exhausting e = all_of_the_line(25, 2); \
        change; \
        struct exhausting before = e; \
        CHECK(only(exhaustive(&e), number)); \
        CHECK(memcmp(&e, &before, sizeof e) == 0); \
    } while (0)

static void test_exhaustive(void) {
    NEAREST(all_of_the_line(25, 2), 2, ((uint32_t[]){2, 1}), ((float[]){25, 25}));
    NEAREST(all_of_the_line(38, 2), 2, ((uint32_t[]){3, 2}), ((float[]){4, 64}));
    /* of two that are equally near the higher id, also at the cut; k as n and above it */
    NEAREST(all_of_the_line(25, 1), 1, ((uint32_t[]){2}), ((float[]){25}));
    NEAREST(all_of_the_line(25, 3), 3, ((uint32_t[]){2, 1, 3}), ((float[]){25, 25, 225}));
    NEAREST(all_of_the_line(25, 4), 4, ((uint32_t[]){2, 1, 3, 0}), ((float[]){25, 25, 225, 225}));
    NEAREST(all_of_the_line(25, 256), 4, ((uint32_t[]){2, 1, 3, 0}), ((float[]){25, 25, 225, 225}));
    /* the entry that a search with beam 2 misses; and outputs longer than the nearest */
    struct exhausting e = all_of_the_line(25, 2);
    e.vectors = bent, e.ids_count = e.dists_count = 8;
    NEAREST(e, 2, ((uint32_t[]){3, 2}), ((float[]){0, 25}));
    e = all_of_the_line(25, 2), e.vectors = besides;
    NEAREST(e, 2, ((uint32_t[]){2, 1}), ((float[]){0, 25}));
    e = all_of_the_line(20, 2), e.vectors = alike;
    NEAREST(e, 2, ((uint32_t[]){3, 2}), ((float[]){0, 0}));

    EXHAUSTIVE_REFUSES(1, e.dim = 0);
    EXHAUSTIVE_REFUSES(1, e.dim = 257);
    EXHAUSTIVE_REFUSES(2, e.n = 0);
    EXHAUSTIVE_REFUSES(2, e.n = 65537);
    EXHAUSTIVE_REFUSES(2, e.vectors_count = 3);
    EXHAUSTIVE_REFUSES(2, (e.n = (size_t)1 << 63, e.dim = 2, e.vectors_count = 0));
    EXHAUSTIVE_REFUSES(10, e.ids_count = 1);
    EXHAUSTIVE_REFUSES(10, e.dists_count = 1);
    EXHAUSTIVE_REFUSES(10, (e.k = 5, e.ids_count = e.dists_count = 3));
    EXHAUSTIVE_REFUSES(11, e.query_count = 0);
    EXHAUSTIVE_REFUSES(14, e.k = 0);
    EXHAUSTIVE_REFUSES(14, (e.k = 257, e.ids_count = e.dists_count = 4));
    EXHAUSTIVE_REFUSES(14, (e.k = SIZE_MAX, e.ids_count = e.dists_count = 4));
    /* two faults: the lower number. k 0 asks for no room, k 257 for n */
    EXHAUSTIVE_REFUSES(1, (e.dim = 0, e.k = 0));
    EXHAUSTIVE_REFUSES(2, (e.n = 0, e.query_count = 0));
    EXHAUSTIVE_REFUSES(10, (e.k = 257, e.ids_count = 3));
    EXHAUSTIVE_REFUSES(11, (e.k = 0, e.query_count = 0));
    EXHAUSTIVE_REFUSES(14, (e.k = 0, e.ids_count = e.dists_count = 0));
}

/* ---- report */

struct reporting {
    size_t n, dim, vectors_count, degree, beam, k, table_count, queries_count, words_count, floats_count;
    uint32_t start, table[8];
    const uint8_t *vectors, *queries;
    uint32_t words[4 + 1024 + 4];
    float floats[1024 + 4];
};

static const uint8_t line_queries[2] = {25, 38}, many_queries[65536];

static struct reporting report_of_the_line(size_t beam, size_t k) {
    struct reporting r;
    memset(&r, 0x5A, sizeof r), fill_floats(r.floats, sizeof r.floats);
    r.n = 4, r.dim = 1, r.vectors_count = 4, r.degree = 2, r.beam = beam, r.k = k, r.start = 0;
    r.vectors = line, r.queries = line_queries, r.queries_count = 2, r.table_count = 8;
    memcpy(r.table, line_rows, sizeof line_rows);
    r.words_count = fjalgrout_report_words(4), r.floats_count = fjalgrout_report_floats(4);
    return r;
}

static struct fjalgrout_report report(struct reporting *r) {
    return fjalgrout_report(r->n, r->dim, r->vectors, r->vectors_count, r->degree, r->beam, r->k, r->start, r->table, r->table_count, r->queries,
                            r->queries_count, r->words, r->words_count, r->floats, r->floats_count);
}

/* The four numbers, and the stated room left zero; nothing else differs. */
static void reports_at(int at, struct reporting r, size_t queries, size_t asked, size_t found, size_t whole) {
    struct reporting want = r;
    memset(want.words, 0, 4 * fjalgrout_report_words(4)), memset(want.floats, 0, 4 * fjalgrout_report_floats(4));
    struct fjalgrout_report a = report(&r);
    check_at(at, "the four numbers", a.number == 0 && a.queries == queries && a.asked == asked && a.found == found && a.whole == whole);
    check_at(at, "room left zero, and nothing else", memcmp(&r, &want, sizeof r) == 0);
}
#define REPORTS(r, queries, asked, found, whole) reports_at(__LINE__, r, queries, asked, found, whole)

#define REPORT_REFUSES(by, change) \
    do { \
        struct reporting r = report_of_the_line(4, 2); \
        change; \
        struct reporting before = r; \
        struct fjalgrout_report a = report(&r); \
        CHECK(a.number == by && a.queries == 0 && a.asked == 0 && a.found == 0 && a.whole == 0); \
        CHECK(memcmp(&r, &before, sizeof r) == 0); \
    } while (0)

static void test_report(void) {
    /* with beam 1 only the start is found, which is not asked for; with beam 4 all */
    REPORTS(report_of_the_line(1, 2), 2, 4, 0, 0);
    REPORTS(report_of_the_line(0, 2), 2, 4, 0, 0);
    REPORTS(report_of_the_line(4, 2), 2, 4, 4, 2);
    /* k above n asks for n; a beam below k */
    REPORTS(report_of_the_line(8, 9), 2, 8, 8, 2);
    REPORTS(report_of_the_line(256, 256), 2, 8, 8, 2);
    REPORTS(report_of_the_line(2, 4), 2, 8, 4, 0);
    /* no queries; one; as many as there may be; room beyond what is asked for */
    struct reporting r = report_of_the_line(4, 2);
    r.queries_count = 0;
    REPORTS(r, 0, 0, 0, 0);
    r.queries_count = 1;
    REPORTS(r, 1, 2, 2, 1);
    r.queries = many_queries, r.queries_count = 65535, r.words_count += 4, r.floats_count += 4;
    REPORTS(r, 65535, 131070, 131070, 65535);
    /* entry 3, the nearest, is missed */
    r = report_of_the_line(2, 2), r.vectors = bent, r.queries_count = 1;
    REPORTS(r, 1, 2, 1, 0);
    /* entry 0 is brought, is as near as 1, and is not among the nearest; with beam 3 both are in the beam */
    r = report_of_the_line(2, 2), r.vectors = besides, r.queries_count = 1;
    memcpy(r.table, (uint32_t[]){1, 2, PAD, PAD, PAD, PAD, PAD, PAD}, sizeof r.table);
    REPORTS(r, 1, 2, 1, 0);
    r.beam = 3;
    REPORTS(r, 1, 2, 2, 1);

    REPORT_REFUSES(1, r.dim = 0);
    REPORT_REFUSES(1, r.dim = 257);
    REPORT_REFUSES(2, r.n = 65537);
    REPORT_REFUSES(2, r.vectors_count = 3);
    REPORT_REFUSES(3, r.degree = 0);
    REPORT_REFUSES(3, r.degree = 65);
    REPORT_REFUSES(4, r.beam = 257);
    REPORT_REFUSES(6, r.start = 4);
    REPORT_REFUSES(8, r.table_count = 7);
    REPORT_REFUSES(8, r.table[5] = 4);
    REPORT_REFUSES(8, r.table[7] = PAD - 1);
    REPORT_REFUSES(10, r.words_count--);
    REPORT_REFUSES(10, r.floats_count--);
    REPORT_REFUSES(10, (r.words_count = fjalgrout_search_words(4), r.floats_count = fjalgrout_search_floats(4)));
    REPORT_REFUSES(11, (r.queries = many_queries, r.queries_count = 65536));
    REPORT_REFUSES(11, (r.n = 2, r.dim = 2, r.table_count = 4, r.table[2] = r.table[3] = PAD, r.queries_count = 1));
    REPORT_REFUSES(14, r.k = 0);
    REPORT_REFUSES(14, r.k = 257);
    REPORT_REFUSES(14, (r.k = SIZE_MAX, r.queries_count = 0));
    /* two faults: the lower number */
    REPORT_REFUSES(1, (r.dim = 0, r.k = 0));
    REPORT_REFUSES(4, (r.beam = 257, r.start = 4));
    REPORT_REFUSES(8, (r.table[0] = 4, r.words_count = 0));
    REPORT_REFUSES(10, (r.words_count = 0, r.queries = many_queries, r.queries_count = 65536));
    REPORT_REFUSES(11, (r.queries = many_queries, r.queries_count = 65536, r.k = 0));
}

/* ---- the run of records: as the search, and the run beside it */

static void test_records(void) {
    fjalgrout_candidate run[4], kept[4];
    fill_floats(run, sizeof run), memcpy(kept, run, sizeof run);
    struct searching s = the_line(38, 2, 2), before = s, plain = s;
    CHECK(only(run_records(&s, run, 1), 10));
    CHECK(memcmp(&s, &before, sizeof s) == 0 && memcmp(run, kept, sizeof run) == 0);
    s.start = before.start = 4;
    CHECK(only(run_records(&s, run, 0), 6));
    CHECK(memcmp(&s, &before, sizeof s) == 0 && memcmp(run, kept, sizeof run) == 0);
    s.start = 0;
    fjalgrout_answer a = run_records(&s, run, 4), b = search(&plain);
    CHECK(a.number == 0 && a.count == 2 && b.count == 2 && memcmp(&s, &plain, sizeof s) == 0);
    CHECK(run[0].id == 3 && run[0].distance == 4 && run[1].id == 2 && run[1].distance == 64);
    CHECK(memcmp(run + 2, kept + 2, 16) == 0);
}

/* ---- medoid */

static void test_medoid(void) {
    uint32_t pivots[9] = {0, 3, 0, 0, 0, 0, 0, 0, 0}, far[1] = {4};
    fjalgrout_answer a = fjalgrout_medoid(4, 1, line, 4, pivots, 2);
    CHECK(a.id == 1);
    a.id = 0;
    CHECK(only(a, 0));
    CHECK(only(fjalgrout_medoid(4, 0, line, 4, pivots, 2), 1));
    CHECK(only(fjalgrout_medoid(4, 1, line, 3, pivots, 2), 2));
    CHECK(only(fjalgrout_medoid(4, 1, line, 4, pivots, 0), 12));
    CHECK(only(fjalgrout_medoid(4, 1, line, 4, pivots, 9), 12));
    CHECK(only(fjalgrout_medoid(4, 1, line, 4, far, 1), 12));
}

/* ---- draws */

static void test_draws(void) {
    fjalgrout_stepped s = fjalgrout_draw(0, 100);
    CHECK(s.answer.number == 0 && s.answer.draw == 7 && s.state == UINT64_C(1442695040888963407));
    CHECK(fjalgrout_draw(5, 0).answer.draw == 0);
    uint32_t out[8], kept[8];
    memset(out, 0x5A, sizeof out), memset(kept, 0x5A, sizeof kept);
    s = fjalgrout_order(9, 0, out, 8);
    CHECK(only(s.answer, 2) && s.state == 9);
    s = fjalgrout_order(9, 8, out, 7);
    CHECK(only(s.answer, 10) && s.state == 9);
    s = fjalgrout_pivots(9, 65537, out, 8);
    CHECK(only(s.answer, 2) && s.state == 9);
    s = fjalgrout_pivots(9, 5, out, 4);
    CHECK(only(s.answer, 10) && s.state == 9);
    s = fjalgrout_seeds(9, 4, 4, 1, out, 8);
    CHECK(only(s.answer, 6) && s.state == 9);
    s = fjalgrout_seeds(9, 4, 0, 4, out, 8);
    CHECK(only(s.answer, 7) && s.state == 9);
    s = fjalgrout_seeds(9, 65536, 0, 17, out, 8);
    CHECK(only(s.answer, 7) && s.state == 9);
    s = fjalgrout_seeds(9, 4, 0, 3, out, 2);
    CHECK(only(s.answer, 10) && s.state == 9);
    s = fjalgrout_rows(9, 4, 65, out, 8);
    CHECK(only(s.answer, 3) && s.state == 9);
    s = fjalgrout_rows(9, 4, 2, out, 7);
    CHECK(only(s.answer, 8) && s.state == 9);
    CHECK(memcmp(out, kept, sizeof out) == 0);
    s = fjalgrout_order(9, 6, out, 8);
    uint32_t seen = 0;
    for (int i = 0; i < 6; i++) seen |= UINT32_C(1) << (out[i] & 31);
    CHECK(only(s.answer, 0) && s.state != 9 && seen == 63);
    CHECK(memcmp(out + 6, kept + 6, 8) == 0);
    s = fjalgrout_seeds(9, 4, 2, 3, out, 3);
    CHECK(only(s.answer, 0) && (1u << out[0] | 1u << out[1] | 1u << out[2]) == 11);
    s = fjalgrout_rows(9, 1, 2, out, 2);
    CHECK(only(s.answer, 0) && s.state == 9 && out[0] == PAD && out[1] == PAD);
    s = fjalgrout_rows(9, 4, 2, out, 8);
    CHECK(only(s.answer, 0) && s.state != 9);
    for (uint32_t i = 0; i < 4; i++) CHECK(out[2 * i] < 4 && out[2 * i + 1] < 4 && out[2 * i] != out[2 * i + 1] && out[2 * i] != i && out[2 * i + 1] != i);
}

/* ---- build, batch, open, close */

static uint32_t words[6 * 4 + 32768 + 1];
static float floats[4 * 4 + 1024 + 1];

/* A batch of node 0 alone, at the origin, whose row names every other entry, with degree 4. The merge sorts the pruned row by id, so that it is what
 * pruning took that is seen here, and not in which order. */
static void pruned_at(int at, size_t n, const uint8_t *vectors, float alpha, const uint32_t *row) {
    const size_t slack = fjalgrout_slack(4);
    uint32_t wide[4 * 6], node = 0;
    fjalgrout_params params = {4, 0, alpha, 0};
    for (size_t i = 0; i < n * slack; i++) wide[i] = PAD;
    for (uint32_t i = 1; i < n; i++) wide[i - 1] = i;
    fjalgrout_answer a = fjalgrout_batch(n, 2, vectors, 2 * n, params, 0, &node, 1, &node, 0, wide, n * slack, words, fjalgrout_build_words(n), floats,
                                         fjalgrout_build_floats(n));
    check_at(at, "batch done", only(a, 0));
    check_at(at, "the pruned row", memcmp(wide, row, 16) == 0);
}

static void test_pruning(void) {
    static const uint8_t four[8] = {0, 0, 20, 0, 11, 18, 0, 30}, three[6] = {0, 0, 10, 0, 5, 9};
    pruned_at(__LINE__, 4, four, 1.0f, (uint32_t[]){1, 3, PAD, PAD});
    pruned_at(__LINE__, 4, four, 1.2f, (uint32_t[]){1, 2, 3, PAD});
    pruned_at(__LINE__, 4, four, NAN, (uint32_t[]){1, 3, PAD, PAD});
    pruned_at(__LINE__, 3, three, 1.0f, (uint32_t[]){1, 2, PAD, PAD});
}

struct building {
    size_t n, dim, vectors_count, order_count, seeds_count, opening_count, wide_count, closed_count, words_count, floats_count;
    fjalgrout_params params;
    uint32_t start, order[4], seeds[4], opening[8], wide[12], closed[8];
};

static struct building the_build(void) {
    struct building b;
    memset(&b, 0x5A, sizeof b);
    b.n = 4, b.dim = 1, b.vectors_count = 4, b.order_count = 4, b.seeds_count = 4, b.opening_count = 8, b.wide_count = 12, b.closed_count = 8;
    b.params = (fjalgrout_params){2, 8, 1.2f, 1};
    b.start = 0;
    memcpy(b.order, (uint32_t[]){3, 1, 0, 2}, 16), memcpy(b.seeds, (uint32_t[]){1, 2, 3, 1}, 16), memcpy(b.opening, line_rows, 32);
    b.words_count = fjalgrout_build_words(4), b.floats_count = fjalgrout_build_floats(4);
    return b;
}

static fjalgrout_answer build(struct building *b) {
    return fjalgrout_build(b->n, b->dim, line, b->vectors_count, b->params, b->start, b->order, b->order_count, b->seeds, b->seeds_count, b->opening,
                           b->opening_count, b->wide, b->wide_count, b->closed, b->closed_count, words, b->words_count, floats, b->floats_count);
}

/* Of the order as the nodes, and of the wide table, which open_wide fills. */
static fjalgrout_answer batch(struct building *b) {
    return fjalgrout_batch(b->n, b->dim, line, b->vectors_count, b->params, b->start, b->order, b->order_count, b->seeds, b->seeds_count, b->wide,
                           b->wide_count, words, b->words_count, floats, b->floats_count);
}

static fjalgrout_answer close_wide(struct building *b) {
    return fjalgrout_close(b->n, b->dim, line, b->vectors_count, b->params, b->wide, b->wide_count, b->closed, b->closed_count, words, b->words_count,
                           floats, b->floats_count);
}

static void open_wide(struct building *b) { CHECK(only(fjalgrout_open(4, 2, line_rows, 8, b->wide, 12), 0)); }

static void build_refuses_at(int at, fjalgrout_answer (*call)(struct building *), struct building b, uint32_t number) {
    static uint32_t words_before[sizeof words / 4];
    static float floats_before[sizeof floats / 4];
    struct building before = b;
    memset(words, 0x5A, sizeof words), fill_floats(floats, sizeof floats);
    memcpy(words_before, words, sizeof words), memcpy(floats_before, floats, sizeof floats);
    fjalgrout_answer a = call(&b);
    check_at(at, "refused by its number", only(a, number));
    check_at(at, "nothing changed", memcmp(&b, &before, sizeof b) == 0);
    check_at(at, "no scratch changed", memcmp(words, words_before, sizeof words) == 0 && memcmp(floats, floats_before, sizeof floats) == 0);
}
#define CALL_REFUSES(call, number, change) \
    do { \
        struct building b = the_build(); \
        if (call != build) open_wide(&b); \
        change; \
        build_refuses_at(__LINE__, call, b, number); \
    } while (0)
#define BUILD_REFUSES(number, change) CALL_REFUSES(build, number, change)

/* What batch and close refuse as a whole build does. */
#define BOTH_REFUSE(number, change) \
    do { \
        CALL_REFUSES(batch, number, change); \
        CALL_REFUSES(close_wide, number, change); \
    } while (0)

static void test_batch_and_close_refusals(void) {
    BOTH_REFUSE(1, b.dim = 257);
    BOTH_REFUSE(1, b.dim = 0);
    BOTH_REFUSE(2, b.vectors_count = 3);
    BOTH_REFUSE(2, b.n = 65537);
    BOTH_REFUSE(3, b.params.degree = 65);
    BOTH_REFUSE(3, b.params.degree = 0);
    CALL_REFUSES(batch, 4, b.params.beam = 257);
    BOTH_REFUSE(5, b.params.alpha = nextafterf(4.0f, 5.0f));
    BOTH_REFUSE(5, b.params.alpha = INFINITY);
    CALL_REFUSES(batch, 6, b.start = 4);
    CALL_REFUSES(batch, 7, b.params.extra = 4);
    CALL_REFUSES(batch, 7, b.seeds[2] = 0);
    CALL_REFUSES(batch, 7, b.seeds_count = 3);
    BOTH_REFUSE(8, b.wide_count = 11);
    BOTH_REFUSE(8, b.wide[0] = 0);
    BOTH_REFUSE(8, b.wide[1] = 1);
    CALL_REFUSES(close_wide, 8, b.closed_count = 7);
    CALL_REFUSES(batch, 9, b.order[0] = 1);
    CALL_REFUSES(batch, 9, b.order[0] = 4);
    BOTH_REFUSE(10, b.words_count--);
    BOTH_REFUSE(10, b.floats_count--);
}

static void test_build(void) {
    struct building b = the_build();
    float beyond;
    memset(words, 0x5A, sizeof words), fill_floats(floats, sizeof floats), memcpy(&beyond, floats + b.floats_count, 4);
    CHECK(only(build(&b), 0));
    int lawful = 1, zero = 1;
    for (uint32_t i = 0; i < 4; i++)
        for (int j = 0; j < 2; j++) lawful = lawful && b.closed[2 * i + j] != i && (b.closed[2 * i + j] < 4 || b.closed[2 * i + j] == PAD);
    for (size_t i = 0; i < b.words_count; i++) zero = zero && words[i] == 0;
    for (size_t i = 0; i < b.floats_count; i++) zero = zero && floats[i] == 0 && !signbit(floats[i]);
    CHECK(lawful && zero);
    CHECK(words[b.words_count] == 0x5A5A5A5A && memcmp(&beyond, floats + b.floats_count, 4) == 0);
    struct searching s = the_line(38, 4, 4);
    memcpy(s.table, b.closed, sizeof b.closed);
    ANSWERS(s, 4, ((uint32_t[]){3, 2, 1, 0}), ((float[]){4, 64, 324, 784}));

    BUILD_REFUSES(1, b.dim = 257);
    BUILD_REFUSES(2, b.vectors_count = 3);
    BUILD_REFUSES(3, b.params.degree = 65);
    BUILD_REFUSES(4, b.params.beam = 257);
    BUILD_REFUSES(5, b.params.alpha = nextafterf(4.0f, 5.0f));
    BUILD_REFUSES(5, b.params.alpha = INFINITY);
    BUILD_REFUSES(6, b.start = 4);
    BUILD_REFUSES(7, b.params.extra = 4);
    BUILD_REFUSES(7, b.seeds[2] = 0);
    BUILD_REFUSES(7, b.seeds_count = 3);
    BUILD_REFUSES(8, b.opening[0] = 0);
    BUILD_REFUSES(8, b.wide_count = 11);
    BUILD_REFUSES(8, b.closed_count = 7);
    BUILD_REFUSES(9, b.order[0] = 1);
    BUILD_REFUSES(10, b.words_count--);
    BUILD_REFUSES(10, b.floats_count--);
    b = the_build(), b.params.alpha = 4.0f;
    CHECK(only(build(&b), 0));
}

static void test_one_entry(void) {
    fjalgrout_params params = {2, 4, 1.2f, 1};
    uint32_t opening[2] = {PAD, PAD}, wide[3], closed[2], order = 0, seed = 0;
    uint8_t vector = 9;
    fjalgrout_answer a = fjalgrout_build(1, 1, &vector, 1, params, 0, &order, 1, &seed, 1, opening, 2, wide, 3, closed, 2, words,
                                         fjalgrout_build_words(1), floats, fjalgrout_build_floats(1));
    CHECK(only(a, 7));
    params.extra = 0;
    a = fjalgrout_build(1, 1, &vector, 1, params, 0, &order, 1, &seed, 0, opening, 2, wide, 3, closed, 2, words, fjalgrout_build_words(1), floats,
                        fjalgrout_build_floats(1));
    CHECK(only(a, 0) && closed[0] == PAD && closed[1] == PAD);
}

static void test_open_close(void) {
    fjalgrout_params params = {2, 999, 1.2f, 999};
    uint32_t wide[12], closed[8], kept[12];
    memset(kept, 0x5A, sizeof kept), memcpy(wide, kept, sizeof wide), memcpy(closed, kept, sizeof closed);
    CHECK(only(fjalgrout_open(0, 2, line_rows, 8, wide, 12), 2));
    CHECK(only(fjalgrout_open(4, 0, line_rows, 8, wide, 12), 3));
    CHECK(only(fjalgrout_open(4, 2, line_rows, 7, wide, 12), 8));
    CHECK(only(fjalgrout_open(4, 2, line_rows, 8, wide, 11), 8));
    CHECK(memcmp(wide, kept, sizeof wide) == 0);
    CHECK(only(fjalgrout_open(4, 2, line_rows, 8, wide, 12), 0));
    CHECK(memcmp(wide, (uint32_t[]){1, PAD, PAD, 0, 2, PAD, 1, 3, PAD, 2, PAD, PAD}, sizeof wide) == 0);
    size_t words_count = fjalgrout_build_words(4), floats_count = fjalgrout_build_floats(4);
    CHECK(only(fjalgrout_close(4, 1, line, 4, params, wide, 12, closed, 7, words, words_count, floats, floats_count), 8));
    CHECK(only(fjalgrout_close(4, 1, line, 4, params, wide, 12, closed, 8, words, words_count - 1, floats, floats_count), 10));
    CHECK(memcmp(closed, kept, sizeof closed) == 0);
    CHECK(only(fjalgrout_close(4, 1, line, 4, params, wide, 12, closed, 8, words, words_count, floats, floats_count), 0));
    CHECK(memcmp(closed, line_rows, sizeof closed) == 0);
}

static void test_defaults(void) {
    fjalgrout_params p = fjalgrout_defaults();
    CHECK(p.degree == 64 && p.beam == 128 && p.alpha == 1.2f && p.extra == 1);
}

/* Every size is right where it is one, and SIZE_MAX where it is none. */
static void test_sizes(void) {
    for (size_t degree = 0; degree <= 65; degree++) CHECK(fjalgrout_slack(degree) == (13 * degree + 9) / 10);
    CHECK(fjalgrout_build_words(65536) == 425984 && fjalgrout_build_floats(65536) == 263168);
    CHECK(fjalgrout_search_words(65536) == 66048 && fjalgrout_search_floats(65536) == 512);
    CHECK(fjalgrout_closed_words(65536, 64) == 4194304 && fjalgrout_wide_words(65536, 64) == 5505024 && fjalgrout_closed_words(9, 0) == 0);
    const size_t largest = (SIZE_MAX - 32768) / 6;
    CHECK(fjalgrout_build_words(largest) == 6 * largest + 32768 && fjalgrout_build_words(largest + 1) == SIZE_MAX);
    CHECK(fjalgrout_slack(SIZE_MAX) == SIZE_MAX && fjalgrout_build_words(SIZE_MAX) == SIZE_MAX && fjalgrout_build_floats(SIZE_MAX) == SIZE_MAX);
    CHECK(fjalgrout_search_words(SIZE_MAX - 513) == SIZE_MAX - 1 && fjalgrout_search_words(SIZE_MAX) == SIZE_MAX && fjalgrout_search_floats(SIZE_MAX) == 512);
    CHECK(fjalgrout_report_words(65536) == 66560 && fjalgrout_report_floats(65536) == 1024);
    CHECK(fjalgrout_report_words(SIZE_MAX - 1023) == SIZE_MAX && fjalgrout_report_floats(SIZE_MAX) == 1024);
    CHECK(fjalgrout_most_nearest(4, 3) == 3 && fjalgrout_most_nearest(4, 256) == 4 && fjalgrout_most_nearest(SIZE_MAX, SIZE_MAX) == SIZE_MAX);
    CHECK(fjalgrout_closed_words(SIZE_MAX, 2) == SIZE_MAX && fjalgrout_wide_words(2, SIZE_MAX) == SIZE_MAX);
    CHECK(fjalgrout_most_answers(SIZE_MAX, SIZE_MAX) == SIZE_MAX && fjalgrout_most_answers(0, SIZE_MAX) == 1 && fjalgrout_most_pivots(SIZE_MAX) == 8);
}

int main(void) {
    test_defaults();
    test_sizes();
    test_distance();
    test_search();
    test_equals();
    test_counts();
    test_room();
    test_search_refusals();
    test_lookup();
    test_fit();
    test_exhaustive();
    test_report();
    test_records();
    test_medoid();
    test_draws();
    test_pruning();
    test_build();
    test_batch_and_close_refusals();
    test_one_entry();
    test_open_close();
    printf("%d checks, %d failed\n", checks, failures);
    return failures != 0;
}
