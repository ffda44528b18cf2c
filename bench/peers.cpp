// The proved library beside hnswlib, in one binary on one thread, over the same entries: recall@10 against the time of a query.
//
//     peers N QUERIES REPEATS
//
// Entries are 64 bytes in clusters, as in bench.rs; none has a sample of 255, so that hnswlib's plain squared distance is ours. Ours: degree 64, build beam
// 128, alpha 1.2, one extra seed; lookups with beams 8 to 256. hnswlib: M 32, so 64 links on its lowest level, ef_construction 128; ef 16 to 512. Both are
// asked for 10. Recall is counted by distance: an answer as near as the tenth of the true ones is a true one.
#include <fjalgrout.h>
#include <hnswlib/hnswlib.h>

#include <algorithm>
#include <cstdio>
#include <cstdlib>
#include <ctime>
#include <vector>

namespace {

constexpr size_t DIM = 64, K = 10;

uint64_t state;

uint32_t below(uint32_t m) {
    fjalgrout_stepped s = fjalgrout_draw(state, m);
    state = s.state;
    return s.answer.draw;
}

void need(const char *call, fjalgrout_answer a) {
    if (a.number == 0) return;
    std::fprintf(stderr, "%s: refused %u\n", call, a.number);
    std::exit(1);
}

fjalgrout_answer step(fjalgrout_stepped s) {
    state = s.state;
    return s.answer;
}

// This thread's processor time in seconds.
double now() {
    timespec t;
    clock_gettime(CLOCK_THREAD_CPUTIME_ID, &t);
    return double(t.tv_sec) + 1e-9 * double(t.tv_nsec);
}

// Cluster centres; an entry or a query is a centre with each sample moved by -12 to 12.
struct Clusters {
    std::vector<uint8_t> centres;

    explicit Clusters(size_t count) : centres(count * DIM) {
        for (auto &x : centres) x = uint8_t(16 + below(224));
    }

    void entry(uint8_t *to) const {
        const uint8_t *from = &centres[below(uint32_t(centres.size() / DIM)) * DIM];
        for (size_t j = 0; j < DIM; j++) to[j] = uint8_t(from[j] - 12 + below(25));
    }
};

struct Input {
    size_t n;
    std::vector<uint8_t> vectors, queries;
    std::vector<float> tenth; // the distance of each query's tenth nearest
};

float apart(const uint8_t *a, const uint8_t *b) {
    int sum = 0;
    for (size_t j = 0; j < DIM; j++) sum += (a[j] - b[j]) * (a[j] - b[j]);
    return float(sum);
}

Input input(size_t n, size_t queries) {
    Input i{n, std::vector<uint8_t>(n * DIM), std::vector<uint8_t>(queries * DIM), {}};
    state = n;
    Clusters clusters(std::max<size_t>(n / 100, 8));
    for (size_t k = 0; k < n; k++) clusters.entry(&i.vectors[k * DIM]);
    for (size_t q = 0; q < queries; q++) clusters.entry(&i.queries[q * DIM]);
    std::vector<float> all(n);
    for (size_t q = 0; q < queries; q++) {
        for (size_t k = 0; k < n; k++) all[k] = apart(&i.queries[q * DIM], &i.vectors[k * DIM]);
        std::nth_element(all.begin(), all.begin() + K - 1, all.end());
        i.tenth.push_back(all[K - 1]);
    }
    return i;
}

struct Point {
    size_t width;
    double recall, us;
};

// `ask` writes the distances of its answers and returns how many there are.
template <typename Ask> Point measure(const Input &i, size_t width, size_t repeats, Ask ask) {
    size_t queries = i.tenth.size(), found = 0;
    float dists[K];
    double best = 1e9;
    for (size_t q = 0; q < queries; q++) {
        size_t count = ask(&i.queries[q * DIM], dists);
        found += size_t(std::count_if(dists, dists + count, [&](float d) { return d <= i.tenth[q]; }));
    }
    for (size_t r = 0; r < repeats; r++) {
        double began = now();
        for (size_t q = 0; q < queries; q++) ask(&i.queries[q * DIM], dists);
        best = std::min(best, now() - began);
    }
    return {width, double(found) / double(queries * K), best * 1e6 / double(queries)};
}

std::vector<Point> ours(const Input &i, size_t repeats) {
    size_t n = i.n;
    fjalgrout_params p = fjalgrout_defaults();
    size_t closed_words = fjalgrout_closed_words(n, p.degree), wide_words = fjalgrout_wide_words(n, p.degree);
    size_t words_count = fjalgrout_build_words(n), floats_count = fjalgrout_build_floats(n);
    std::vector<uint32_t> opening(closed_words), closed(closed_words), wide(wide_words), order(n), seeds(n * p.extra), words(words_count);
    std::vector<float> floats(floats_count);
    uint32_t pivots[FJALGROUT_MOST_PIVOTS];
    need("pivots", step(fjalgrout_pivots(state, n, pivots, FJALGROUT_MOST_PIVOTS)));
    fjalgrout_answer middle = fjalgrout_medoid(n, DIM, i.vectors.data(), n * DIM, pivots, fjalgrout_most_pivots(n));
    need("medoid", middle);
    need("rows", step(fjalgrout_rows(state, n, p.degree, opening.data(), closed_words)));
    need("order", step(fjalgrout_order(state, n, order.data(), n)));
    for (size_t k = 0; k < n; k++) need("seeds", step(fjalgrout_seeds(state, n, middle.id, p.extra, &seeds[k * p.extra], p.extra)));
    double began = now();
    need("build", fjalgrout_build(n, DIM, i.vectors.data(), n * DIM, p, middle.id, order.data(), n, seeds.data(), seeds.size(), opening.data(), closed_words,
                                  wide.data(), wide_words, closed.data(), closed_words, words.data(), words_count, floats.data(), floats_count));
    std::printf("ours: built in %.2f s\n", now() - began);
    need("fit", fjalgrout_fit(n, p.degree, closed.data(), closed_words));
    std::vector<Point> points;
    for (size_t beam : {8, 10, 12, 16, 24, 32, 48, 64, 96, 128, 192, 256}) {
        uint32_t ids[K];
        points.push_back(measure(i, beam, repeats, [&](const uint8_t *query, float *dists) {
            fjalgrout_answer a =
                fjalgrout_lookup(n, DIM, i.vectors.data(), n * DIM, p.degree, beam, K, middle.id, closed.data(), closed_words, query, DIM, words.data(),
                                 fjalgrout_search_words(n), floats.data(), fjalgrout_search_floats(n), ids, K, dists, K);
            need("lookup", a);
            return a.count;
        }));
    }
    return points;
}

std::vector<Point> theirs(const Input &i, size_t repeats) {
    hnswlib::L2SpaceI space(DIM);
    hnswlib::HierarchicalNSW<int> index(&space, i.n, 32, 128);
    double began = now();
    for (size_t k = 0; k < i.n; k++) index.addPoint(&i.vectors[k * DIM], k);
    std::printf("hnswlib: built in %.2f s\n", now() - began);
    std::vector<Point> points;
    for (size_t ef : {16, 24, 32, 48, 64, 96, 128, 192, 256, 384, 512}) {
        index.setEf(ef);
        points.push_back(measure(i, ef, repeats, [&](const uint8_t *query, float *dists) {
            auto found = index.searchKnn(query, K);
            size_t count = found.size();
            for (size_t k = count; k-- > 0; found.pop()) dists[k] = float(found.top().first);
            return count;
        }));
    }
    return points;
}

void print(const char *what, const std::vector<Point> &points) {
    for (const Point &p : points) std::printf("%-10s %4zu   recall@10 %.4f   %8.2f us\n", what, p.width, p.recall, p.us);
}

// The least time with which a recall was had.
double least(const std::vector<Point> &points, double recall) {
    double us = 0;
    for (const Point &p : points)
        if (p.recall >= recall && (us == 0 || p.us < us)) us = p.us;
    return us;
}

} // namespace

int main(int argc, char **argv) {
    if (argc != 4) return 2;
    size_t n = std::strtoul(argv[1], nullptr, 10), queries = std::strtoul(argv[2], nullptr, 10), repeats = std::strtoul(argv[3], nullptr, 10);
    std::printf("n %zu, dim %zu, %zu queries, best of %zu\n", n, DIM, queries, repeats);
    Input i = input(n, queries);
    std::vector<Point> us = ours(i, repeats), them = theirs(i, repeats);
    print("beam", us);
    print("ef", them);
    for (double recall : {0.8, 0.9, 0.95, 0.98, 0.99, 0.995, 0.999, 1.0}) {
        double a = least(us, recall), b = least(them, recall);
        std::printf("recall %.3f: lookup %.2f us, hnswlib %.2f us%s\n", recall, a, b, a == 0 || b == 0 ? " (0: not reached)" : "");
    }
}
