// The cut of a matrix into groups of columns (`cut.hpp`), measured. The input and what is printed are those of
// crates/cla_grouping_bench: DRAWN ROWS COLUMNS ROUNDS. With 0 rounds it writes the matrix as a Matrix Market file, which
// has no zeros where most entries are.
#include <chrono>
#include <cstdio>
#include <cstdlib>
#include <string>

#include "cut.hpp"

namespace {

using Clock = std::chrono::steady_clock;

u32 mixed(u32 place) {
    u32 first = (place ^ place >> 16) * 0x7feb352d, second = (first ^ first >> 15) * 0x846ca68b;
    return second ^ second >> 16;
}

u32 drawn_at(u32 i, u32 draw) { return mixed(mixed(i) + draw * 0x9e3779b9); }

u32 catalogue_entry(u32 i, u32 j) {
    u32 code = i / 1000 % 500, maker = drawn_at(i, 6) % 60;
    switch (j % 12) {
    case 0: return code + 1;
    case 1: return mixed(code) % 40;
    case 2: return drawn_at(i, 2) % 2;
    case 3: return drawn_at(i, 3) % 100 == 0;
    case 4: return drawn_at(i, 4) % 100000 + 1;
    case 5: return mixed(code + 1000) % 7 * 5;
    case 6: return maker;
    case 7: return mixed(maker) % 10;
    case 8: return drawn_at(i, 8) % 1000;
    case 9: return drawn_at(i, 9) % 3 == 0;
    case 10: return mixed(code) % 4 * 5;
    default: return mixed(code + 2000) % 100;
    }
}

u32 entry_of(const std::string &drawn, u32 i, u32 j) {
    if (drawn == "correlated") return (drawn_at(i, j / 4) % 10 * (j % 4 * 2 + 3)) % 10 + j % 3;
    if (drawn == "catalogue") return catalogue_entry(i, j);
    if (drawn == "random") return drawn_at(i, j) % 1000;
    u32 draw = drawn_at(i, j) % 1000;
    return draw < 20 ? draw % 9 + 1 : 0;
}

u64 sum_of(const vector<Group> &groups) {
    u64 sum = 0xcbf29ce484222325;
    auto add = [&](u32 word) { sum = (sum ^ word) * 0x100000001b3; };
    for (const Group &g : groups) {
        add(g.best.kind);
        for (u32 c : g.columns) add(c);
        add(u32(g.best.bytes));
    }
    return sum;
}

void write(const vector<i64> &cells, u32 rows, u32 cols) {
    u64 entries = 0;
    for (i64 value : cells) entries += value != 0;
    bool sparse = 2 * entries < cells.size();
    std::printf("%%%%MatrixMarket matrix %s integer general\n%u %u", sparse ? "coordinate" : "array", rows, cols);
    if (sparse) std::printf(" %llu", (unsigned long long)entries);
    std::printf("\n");
    for (u32 j = 0; j < cols; ++j)
        for (u32 i = 0; i < rows; ++i) {
            long long value = cells[u64(i) * cols + j];
            if (!sparse) std::printf("%lld\n", value);
            else if (value) std::printf("%u %u %lld\n", i + 1, j + 1, value);
        }
}

}  // namespace

int main(int argc, char **argv) {
    if (argc != 5) return 2;
    std::string drawn = argv[1];
    u32 rows = std::strtoul(argv[2], nullptr, 10), cols = std::strtoul(argv[3], nullptr, 10);
    u32 rounds = std::strtoul(argv[4], nullptr, 10);
    vector<i64> cells(u64(rows) * cols);
    for (u32 i = 0; i < rows; ++i)
        for (u32 j = 0; j < cols; ++j) cells[u64(i) * cols + j] = entry_of(drawn, i, j);
    if (rounds == 0) return write(cells, rows, cols), 0;
    u64 best = UINT64_MAX, sum = 0;
    size_t count_of = 0;
    for (u32 round = 0; round < rounds; ++round) {
        auto start = Clock::now();
        vector<Group> groups = cut_of(cells.data(), rows, cols);
        u64 spent = std::chrono::duration_cast<std::chrono::nanoseconds>(Clock::now() - start).count();
        best = std::min(best, spent), count_of = groups.size(), sum = sum_of(groups);
    }
    std::printf("%zu groups, sum %llu\n", count_of, (unsigned long long)sum);
    std::fprintf(stderr, "%llu\n", (unsigned long long)best);
}
