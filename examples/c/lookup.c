/* A whole lookup in C: draws pivots, order, seeds and opening rows from one generator, builds the table, checks it, looks a crossing up in it, and prints the answers. */
#include <fjalgrout.h>
#include <stdio.h>
#include <stdlib.h>

enum { N = 1000, DIM = 64, K = 5, BEAM = 128, LABELS = 10 };

static uint8_t vectors[N * DIM];
static uint64_t state = 2024;

/* Ends the program where a call was refused. */
static void need(const char *call, fjalgrout_answer answer) {
    if (answer.number != 0) {
        fprintf(stderr, "%s: refused %u\n", call, answer.number);
        exit(1);
    }
}

/* Takes over the state that a draw returned. */
static fjalgrout_answer step(fjalgrout_stepped stepped) {
    state = stepped.state;
    return stepped.answer;
}

static uint32_t draw(uint32_t m) { return step(fjalgrout_draw(state, m)).draw; }

/* Crossings in clusters: entry i is label i mod LABELS, whose bytes are drawn once, with a little noise. */
static void draw_vectors(void) {
    uint8_t centre[LABELS][DIM];
    for (int c = 0; c < LABELS; c++)
        for (int j = 0; j < DIM; j++) centre[c][j] = (uint8_t)draw(236);
    for (int i = 0; i < N; i++)
        for (int j = 0; j < DIM; j++) vectors[i * DIM + j] = (uint8_t)(centre[i % LABELS][j] + draw(20));
}

static void *room(size_t count, size_t size) {
    void *p = calloc(count ? count : 1, size);
    if (!p) exit(1);
    return p;
}

int main(void) {
    draw_vectors();
    fjalgrout_params params = fjalgrout_defaults();
    params.degree = 16;

    uint32_t pivots[FJALGROUT_MOST_PIVOTS];
    need("pivots", step(fjalgrout_pivots(state, N, pivots, FJALGROUT_MOST_PIVOTS)));
    fjalgrout_answer middle = fjalgrout_medoid(N, DIM, vectors, sizeof vectors, pivots, fjalgrout_most_pivots(N));
    need("medoid", middle);
    uint32_t start = middle.id;

    size_t closed_words = fjalgrout_closed_words(N, params.degree), wide_words = fjalgrout_wide_words(N, params.degree);
    uint32_t *opening = room(closed_words, 4), *closed = room(closed_words, 4), *wide = room(wide_words, 4);
    uint32_t *order = room(N, 4), *seeds = room(N * params.extra, 4);
    need("rows", step(fjalgrout_rows(state, N, params.degree, opening, closed_words)));
    need("order", step(fjalgrout_order(state, N, order, N)));
    for (size_t i = 0; i < N; i++) need("seeds", step(fjalgrout_seeds(state, N, start, params.extra, seeds + i * params.extra, params.extra)));

    size_t words_count = fjalgrout_build_words(N), floats_count = fjalgrout_build_floats(N);
    uint32_t *words = room(words_count, 4);
    float *floats = room(floats_count, sizeof(float));
    need("build", fjalgrout_build(N, DIM, vectors, sizeof vectors, params, start, order, N, seeds, N * params.extra, opening, closed_words, wide,
                                  wide_words, closed, closed_words, words, words_count, floats, floats_count));

    /* A table is checked once, when it is loaded; the room of a build is more than that of a lookup. */
    need("fit", fjalgrout_fit(N, params.degree, closed, closed_words));
    uint32_t ids[K];
    float dists[K];
    uint8_t query[DIM];
    for (int j = 0; j < DIM; j++) query[j] = vectors[3 * DIM + j];
    query[0] ^= 1;
    fjalgrout_answer found = fjalgrout_lookup(N, DIM, vectors, sizeof vectors, params.degree, BEAM, K, start, closed, closed_words, query, DIM, words,
                                              words_count, floats, floats_count, ids, K, dists, K);
    need("lookup", found);
    printf("start %u, %zu answers, %zu rows walked, %zu distances worked out\n", start, found.count, found.expanded, found.measured);
    for (size_t i = 0; i < found.count; i++) printf("id %u label %u distance %.0f\n", ids[i], ids[i] % LABELS, dists[i]);

    free(opening), free(closed), free(wide), free(order), free(seeds), free(words), free(floats);
    return 0;
}
