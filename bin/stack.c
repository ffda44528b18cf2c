/* How much stack each call of the library needs. A call is run on a stretch of memory that is filled with a pattern; the lowest place where the pattern is
 * gone tells how deep the call went. An empty call is taken off. Each call has several cases: short input, input that takes it deep (a build of 1,200 entries
 * with beam 256), 65,536 entries, and refusals. Prints a line of call and bytes for each, and exits with 1 if one is above its limit, or if a case
 * ended with another number than it should. */
#define _GNU_SOURCE
#include <fjalgrout.h>
#include <stdio.h>
#include <stdlib.h>
#include <string.h>
#include <sys/mman.h>
#include <ucontext.h>

#define LIMIT 32768
#define LIMIT_SEARCH 4095
#define LIMIT_RECORDS 4159
#define ROOM (1024 * 1024)
#define PATTERN 0xA5

/* ---- one call on memory of its own */

static unsigned char *room;
static ucontext_t outside, inside;
static void (*called)(void);

static void enter(void) {
    called();
    swapcontext(&inside, &outside);
}

static size_t touched(void (*call)(void)) {
    memset(room, PATTERN, ROOM);
    getcontext(&inside);
    inside.uc_stack.ss_sp = room;
    inside.uc_stack.ss_size = ROOM;
    inside.uc_link = NULL;
    called = call;
    makecontext(&inside, enter, 0);
    swapcontext(&outside, &inside);
    size_t low = 0;
    while (low < ROOM && room[low] == PATTERN) low++;
    return ROOM - low;
}

/* ---- what is handed over */

struct world {
    size_t n, dim;
    fjalgrout_params params;
    uint32_t start;
    uint8_t *vectors;
    uint32_t *order, *seeds, *opening, *wide, *closed, *words, *ids;
    float *floats, *dists;
    fjalgrout_candidate *run;
    size_t words_count;
    uint64_t state;
};

static void *make(size_t count, size_t size) {
    void *p = calloc(count ? count : 1, size);
    if (p == NULL) exit(2);
    return p;
}

static struct world world(size_t n, size_t dim, size_t degree, size_t extra) {
    struct world w = {.n = n, .dim = dim, .params = {degree, FJALGROUT_MOST_BEAM, 1.2f, extra}, .state = n};
    w.vectors = make(n * dim, 1);
    for (size_t i = 0; i < n * dim; i++) {
        fjalgrout_stepped s = fjalgrout_draw(w.state, 256);
        w.state = s.state;
        w.vectors[i] = (uint8_t)s.answer.draw;
    }
    w.order = make(n, sizeof *w.order);
    w.seeds = make(n * extra, sizeof *w.seeds);
    w.opening = make(fjalgrout_closed_words(n, degree), sizeof *w.opening);
    w.wide = make(fjalgrout_wide_words(n, degree), sizeof *w.wide);
    w.closed = make(fjalgrout_closed_words(n, degree), sizeof *w.closed);
    w.words_count = fjalgrout_build_words(n);
    w.words = make(w.words_count, sizeof *w.words);
    w.floats = make(fjalgrout_build_floats(n), sizeof *w.floats);
    w.ids = make(FJALGROUT_MOST_BEAM, sizeof *w.ids);
    w.dists = make(FJALGROUT_MOST_BEAM, sizeof *w.dists);
    w.run = make(FJALGROUT_MOST_BEAM, sizeof *w.run);
    return w;
}

static struct world w; /* the one of the case at hand */
static uint32_t number; /* what the case's call returned */

/* ---- the calls, each over the world at hand */

static void nothing(void) { number = 0; }
static void defaults(void) { number = fjalgrout_defaults().degree == 64 ? 0 : 99; }
static void distance(void) { number = fjalgrout_distance(w.vectors, w.dim, w.vectors, w.dim).number; }

static void medoid(void) {
    static const uint32_t pivots[8] = {0, 1, 2, 3, 3, 2, 1, 0};
    number = fjalgrout_medoid(w.n, w.dim, w.vectors, w.n * w.dim, pivots, 8).number;
}

static void batch_of(size_t nodes) {
    number = fjalgrout_batch(w.n, w.dim, w.vectors, w.n * w.dim, w.params, w.start, w.order, nodes, w.seeds, nodes * w.params.extra, w.wide,
                             fjalgrout_wide_words(w.n, w.params.degree), w.words, w.words_count, w.floats, fjalgrout_build_floats(w.n))
                 .number;
}
static void batch(void) { batch_of(w.n < FJALGROUT_MOST_NODES ? w.n : FJALGROUT_MOST_NODES); }
static void batch_empty(void) { batch_of(0); }

static void open_rows(void) {
    number = fjalgrout_open(w.n, w.params.degree, w.opening, fjalgrout_closed_words(w.n, w.params.degree), w.wide,
                            fjalgrout_wide_words(w.n, w.params.degree))
                 .number;
}

static void close_rows(void) {
    number = fjalgrout_close(w.n, w.dim, w.vectors, w.n * w.dim, w.params, w.wide, fjalgrout_wide_words(w.n, w.params.degree), w.closed,
                             fjalgrout_closed_words(w.n, w.params.degree), w.words, w.words_count, w.floats, fjalgrout_build_floats(w.n))
                 .number;
}

static void build(void) {
    number = fjalgrout_build(w.n, w.dim, w.vectors, w.n * w.dim, w.params, w.start, w.order, w.n, w.seeds, w.n * w.params.extra, w.opening,
                             fjalgrout_closed_words(w.n, w.params.degree), w.wide, fjalgrout_wide_words(w.n, w.params.degree), w.closed,
                             fjalgrout_closed_words(w.n, w.params.degree), w.words, w.words_count, w.floats, fjalgrout_build_floats(w.n))
                 .number;
}

static void search(void) {
    number = fjalgrout_search(w.n, w.dim, w.vectors, w.n * w.dim, w.params.degree, w.params.beam, FJALGROUT_MOST_BEAM, w.start, w.opening,
                              fjalgrout_closed_words(w.n, w.params.degree), w.vectors, w.dim, w.words, fjalgrout_search_words(w.n), w.floats,
                              fjalgrout_search_floats(w.n), w.ids, FJALGROUT_MOST_BEAM, w.dists, FJALGROUT_MOST_BEAM)
                 .number;
}

static void lookup(void) {
    number = fjalgrout_lookup(w.n, w.dim, w.vectors, w.n * w.dim, w.params.degree, w.params.beam, FJALGROUT_MOST_BEAM, w.start, w.opening,
                              fjalgrout_closed_words(w.n, w.params.degree), w.vectors, w.dim, w.words, fjalgrout_search_words(w.n), w.floats,
                              fjalgrout_search_floats(w.n), w.ids, FJALGROUT_MOST_BEAM, w.dists, FJALGROUT_MOST_BEAM)
                 .number;
}

static void fit(void) { number = fjalgrout_fit(w.n, w.params.degree, w.opening, fjalgrout_closed_words(w.n, w.params.degree)).number; }

static void exhaustive(void) {
    number = fjalgrout_exhaustive(w.n, w.dim, w.vectors, w.n * w.dim, FJALGROUT_MOST_K, w.vectors, w.dim, w.ids, FJALGROUT_MOST_K, w.dists, FJALGROUT_MOST_K)
                 .number;
}

/* Of four queries, the first four entries. */
static void report(void) {
    number = fjalgrout_report(w.n, w.dim, w.vectors, w.n * w.dim, w.params.degree, w.params.beam, FJALGROUT_MOST_K, w.start, w.opening,
                              fjalgrout_closed_words(w.n, w.params.degree), w.vectors, 4 * w.dim, w.words, fjalgrout_report_words(w.n), w.floats,
                              fjalgrout_report_floats(w.n))
                 .number;
}

static void records(void) {
    number = fjalgrout_records(w.n, w.dim, w.vectors, w.n * w.dim, w.params.degree, w.params.beam, FJALGROUT_MOST_BEAM, w.start, w.opening,
                               fjalgrout_closed_words(w.n, w.params.degree), w.vectors, w.dim, w.words, fjalgrout_search_words(w.n), w.floats,
                               fjalgrout_search_floats(w.n), w.ids, FJALGROUT_MOST_BEAM, w.dists, FJALGROUT_MOST_BEAM, w.run, FJALGROUT_MOST_BEAM)
                 .number;
}

static void draw(void) { number = fjalgrout_draw(w.state, (uint32_t)w.n).answer.number; }
static void rows(void) { number = fjalgrout_rows(w.state, w.n, w.params.degree, w.opening, fjalgrout_closed_words(w.n, w.params.degree)).answer.number; }
static void seeds(void) { number = fjalgrout_seeds(w.state, w.n, w.start, w.params.extra, w.seeds, w.params.extra).answer.number; }
static void order(void) { number = fjalgrout_order(w.state, w.n, w.order, w.n).answer.number; }
static void pivots(void) { number = fjalgrout_pivots(w.state, w.n, w.ids, FJALGROUT_MOST_PIVOTS).answer.number; }

/* ---- the cases */

struct line {
    const char *name;
    void (*call)(void);
    size_t limit, most;
};

static struct line lines[] = {
    {"distance", distance, LIMIT, 0},      {"medoid", medoid, LIMIT, 0}, {"batch", batch, LIMIT, 0},          {"open", open_rows, LIMIT, 0},
    {"close", close_rows, LIMIT, 0},       {"build", build, LIMIT, 0},   {"search", search, LIMIT_SEARCH, 0}, {"records", records, LIMIT_RECORDS, 0},
    {"draw", draw, LIMIT, 0},              {"rows", rows, LIMIT, 0},     {"seeds", seeds, LIMIT, 0},          {"order", order, LIMIT, 0},
    {"pivots", pivots, LIMIT, 0},          {"defaults", defaults, LIMIT, 0}, {"lookup", lookup, LIMIT_SEARCH, 0}, {"fit", fit, LIMIT, 0},
    {"exhaustive", exhaustive, LIMIT, 0},  {"report", report, LIMIT, 0},
};
enum { LINES = sizeof lines / sizeof lines[0] };

static size_t empty;
static int failures;

/* One case of a call, of any function that makes it: it must end with the number that is expected. */
static void by(const char *name, void (*call)(void), uint32_t expected) {
    size_t bytes = touched(call) - empty;
    if (number != expected) {
        printf("%s: number %u where %u was expected\n", name, (unsigned)number, (unsigned)expected);
        failures++;
    }
    for (size_t i = 0; i < LINES; i++)
        if (strcmp(lines[i].name, name) == 0 && lines[i].most < bytes) lines[i].most = bytes;
}

static void one(const char *name, uint32_t expected) {
    for (size_t i = 0; i < LINES; i++)
        if (strcmp(lines[i].name, name) == 0) by(name, lines[i].call, expected);
}

/* Everything that is drawn for a build; every node's group of seeds is the same. */
static void draws(void) {
    one("draw", 0), one("rows", 0), one("order", 0), one("pivots", 0), one("seeds", 0);
    for (size_t i = w.params.extra; i < w.n * w.params.extra; i++) w.seeds[i] = w.seeds[i - w.params.extra];
}

/* Whole calls on a small world. */
static void whole(void) {
    draws();
    one("defaults", 0), one("distance", 0), one("medoid", 0), one("search", 0), one("lookup", 0), one("fit", 0), one("records", 0);
    one("exhaustive", 0), one("report", 0);
    one("open", 0), one("batch", 0), one("close", 0), one("build", 0);
    one("close", 0), one("batch", 0);
}

/* As many entries as there can be: all but what takes minutes. Too little room is found after every other check of a build. */
static void full(void) {
    draws();
    one("medoid", 0), one("search", 0), one("lookup", 0), one("fit", 0), one("records", 0), one("open", 0), one("close", 0);
    one("exhaustive", 0), one("report", 0);
    by("batch", batch_empty, 0);
    w.words_count--;
    one("batch", 10), one("build", 10), one("close", 10);
    w.order[w.n - 1] = w.order[0];
    one("build", 9);
    w.opening[w.n * w.params.degree - 1] = (uint32_t)w.n;
    one("build", 8), one("open", 8), one("search", 8), one("fit", 8), one("records", 8), one("lookup", 0), one("report", 8);
}

static void refused(void) {
    w.n = 0;
    one("medoid", 2), one("batch", 2), one("open", 2), one("close", 2), one("build", 2), one("search", 2), one("lookup", 2), one("fit", 2), one("records", 2);
    one("exhaustive", 2), one("report", 2);
    one("rows", 2), one("seeds", 2), one("order", 2), one("pivots", 2);
    w.dim = 0;
    one("distance", 1);
}

int main(void) {
    room = mmap(NULL, ROOM, PROT_READ | PROT_WRITE, MAP_PRIVATE | MAP_ANONYMOUS, -1, 0);
    if (room == MAP_FAILED) return 2;
    empty = touched(nothing);
    w = world(4, 1, 2, 1);
    whole();
    w = world(1200, 256, 64, 2);
    whole();
    w = world(FJALGROUT_MOST_ENTRIES, 1, 64, 1);
    full();
    refused();
    for (size_t i = 0; i < LINES; i++) {
        int over = lines[i].limit < lines[i].most;
        printf("%-10s %6zu%s\n", lines[i].name, lines[i].most, over ? "  above its limit" : "");
        failures += over;
    }
    return failures != 0;
}
