// Times the library beside the second implementation, a plain C scan and the makers' libraries, all in one run on the same sets.
// Each figure is the median of the rounds; the spread, (largest - smallest) / median, shows the machine's noise. A ratio is ours to theirs.
#include "../include/magpiehinge.h"
#include <algorithm>
#include <chrono>
#include <cstdio>
#include <functional>
#include <random>
#include <vector>
#include <hnswlib/hnswlib.h>
#include <nanoflann.hpp>
#include <faiss/IndexFlat.h>
#include <faiss/IndexHNSW.h>
#include <omp.h>

extern "C" {
uint8_t second_build(size_t n, size_t d, const int8_t *vectors, uint16_t *table);
uint8_t second_search(size_t n, size_t d, const int8_t *vectors, const uint16_t *table, const int8_t *query, uint16_t width, uint16_t k,
                      uint16_t *ids, uint32_t *distances, uint16_t *trail);
uint8_t second_read(const uint8_t *sheet, size_t length, int8_t *vectors, int8_t *query);
size_t second_write(size_t n, size_t d, size_t c, size_t asks, const int8_t *vectors, const uint16_t *numbers, const int8_t *queries,
                    uint8_t *output);
}

static volatile uint64_t sink;

struct Timed {
  double median, spread;
};

// microseconds for one call
static Timed timed(const std::function<void()> &call) {
  using clock = std::chrono::steady_clock;
  auto once = [&](int times) {
    auto from = clock::now();
    for (int i = 0; i < times; i++) call();
    return std::chrono::duration<double, std::micro>(clock::now() - from).count() / times;
  };
  int times = std::max(1, (int)(3000 / std::max(once(3), 0.01)));
  std::vector<double> rounds;
  for (int i = 0; i < 9; i++) rounds.push_back(once(times));
  std::sort(rounds.begin(), rounds.end());
  return {rounds[4], (rounds[8] - rounds[0]) / rounds[4]};
}

static Timed ours;
static void row(const char *what, const char *who, Timed t) {
  printf("%-34s %-22s %10.2f us  spread %3.0f%%  ours/theirs %.2f\n", what, who, t.median, 100 * t.spread, ours.median / t.median);
}
static void own(const char *what, Timed t) {
  ours = t;
  printf("%-34s %-22s %10.2f us  spread %3.0f%%\n", what, "magpiehinge", t.median, 100 * t.spread);
}

struct Cloud {
  size_t n, d;
  const std::vector<float> &points;
  size_t kdtree_get_point_count() const { return n; }
  float kdtree_get_pt(size_t i, size_t j) const { return points[i * d + j]; }
  template <class B> bool kdtree_get_bbox(B &) const { return false; }
};

static uint32_t plain_scan(const int8_t *vectors, const int8_t *query, size_t n, size_t d, size_t k) {
  uint32_t keys[128];
  for (size_t i = 0; i < n; i++) {
    int32_t sum = 0;
    for (size_t j = 0; j < d; j++) {
      int32_t x = vectors[i * d + j] - query[j];
      sum += x * x;
    }
    keys[i] = (uint32_t)sum * 128 + (uint32_t)i;
  }
  std::partial_sort(keys, keys + k, keys + n);
  return keys[0];
}

int main() {
  omp_set_num_threads(1);
  const size_t n = 128, k = 10;
  for (size_t d : {64, 8, 2}) {
    std::mt19937 random(7);
    std::uniform_int_distribution<int> value(-128, 127);
    std::vector<int8_t> vectors(n * d), queries(64 * d);
    for (auto &x : vectors) x = value(random);
    for (auto &x : queries) x = value(random);
    std::vector<float> floats(vectors.begin(), vectors.end()), asked(queries.begin(), queries.end());
    std::vector<uint16_t> table(n * n), ids(128), trail(128);
    std::vector<uint32_t> distances(128);
    size_t found, seen, walked;
    char name[64];

    snprintf(name, sizeof name, "build 128 x %zu", d);
    own(name, timed([&] { sink = magpiehinge_build(n, d, vectors.data(), vectors.size(), table.data(), table.size()); }));
    row(name, "second", timed([&] { sink = second_build(n, d, vectors.data(), table.data()); }));
    hnswlib::L2Space space(d);
    row(name, "hnswlib", timed([&] {
          hnswlib::HierarchicalNSW<float> index(&space, n);
          for (size_t i = 0; i < n; i++) index.addPoint(&floats[i * d], i);
          sink = index.cur_element_count;
        }));

    hnswlib::HierarchicalNSW<float> graph(&space, n);
    for (size_t i = 0; i < n; i++) graph.addPoint(&floats[i * d], i);
    faiss::IndexFlatL2 flat(d);
    flat.add(n, floats.data());
    faiss::IndexHNSWFlat navigable(d, 16);
    navigable.add(n, floats.data());
    Cloud cloud{n, d, floats};
    using Tree = nanoflann::KDTreeSingleIndexAdaptor<nanoflann::L2_Adaptor<float, Cloud>, Cloud, -1, size_t>;
    Tree tree(d, cloud, {10});
    tree.buildIndex();

    for (uint16_t width : {128, 16}) {
      size_t at = 0;
      auto next = [&] { return at = (at + 1) % 64; };
      snprintf(name, sizeof name, "search 128 x %zu, width %u, k 10", d, width);
      own(name, timed([&] {
            const int8_t *q = &queries[next() * d];
            sink = magpiehinge_search(n, d, vectors.data(), vectors.size(), table.data(), table.size(), q, d, 0, 0, width, k, ids.data(), 128,
                                      distances.data(), 128, trail.data(), 128, &found, &seen, &walked);
          }));
      row(name, "second", timed([&] {
            sink = second_search(n, d, vectors.data(), table.data(), &queries[next() * d], width, k, ids.data(), distances.data(), trail.data());
          }));
      graph.setEf(width);
      row(name, "hnswlib, ef = width", timed([&] { sink = graph.searchKnn(&asked[next() * d], k).size(); }));
      navigable.hnsw.efSearch = width;
      std::vector<float> far(k);
      std::vector<faiss::Index::idx_t> who(k);
      row(name, "faiss HNSW, ef = width", timed([&] { navigable.search(1, &asked[next() * d], k, far.data(), who.data()); }));
      if (width == 128) {
        row(name, "plain C scan", timed([&] { sink = plain_scan(vectors.data(), &queries[next() * d], n, d, k); }));
        row(name, "faiss flat", timed([&] { flat.search(1, &asked[next() * d], k, far.data(), who.data()); }));
        row(name, "nanoflann", timed([&] {
              std::vector<size_t> nearest(k);
              nanoflann::KNNResultSet<float, size_t> set(k);
              set.init(nearest.data(), far.data());
              tree.findNeighbors(set, &asked[next() * d], nanoflann::SearchParams());
              sink = nearest[0];
            }));
      }
    }
  }

  // the largest sheet: 128 points of 64 coordinates of 8 bits, 127 asks
  const size_t d = 64, asks = 127;
  std::mt19937 random(9);
  std::uniform_int_distribution<int> value(-128, 127);
  std::vector<int8_t> vectors(n * d), queries(asks * d), query(d);
  for (auto &x : vectors) x = value(random);
  for (auto &x : queries) x = value(random);
  std::vector<uint16_t> numbers;
  for (size_t i = 0; i < asks; i++) numbers.insert(numbers.end(), {(uint16_t)i, 128, 10, 0});
  std::vector<uint8_t> sheet(16895);
  size_t length = 0;
  own("write the largest sheet", timed([&] {
        sink = magpiehinge_write(n, d, 8, asks, vectors.data(), vectors.size(), numbers.data(), numbers.size(), queries.data(), queries.size(),
                                 sheet.data(), sheet.size(), &length);
      }));
  row("write the largest sheet", "second",
      timed([&] { sink = second_write(n, d, 8, asks, vectors.data(), numbers.data(), queries.data(), sheet.data()); }));
  own("read the largest sheet", timed([&] {
        size_t a, b, c, e;
        uint16_t s, w, q, t;
        sink = magpiehinge_header(sheet.data(), sheet.size(), &a, &b, &c, &e);
        sink = magpiehinge_vectors(sheet.data(), sheet.size(), vectors.data(), vectors.size());
        for (size_t i = 0; i < asks; i++) sink = magpiehinge_ask(sheet.data(), sheet.size(), i, query.data(), d, &s, &w, &q, &t);
      }));
  row("read the largest sheet", "second", timed([&] { sink = second_read(sheet.data(), sheet.size(), vectors.data(), query.data()); }));
  return 0;
}
