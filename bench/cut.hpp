// The cut of a matrix into groups of columns by the rule of `cla`, written by hand: columns are numbered eight at a time,
// as many as stand in a cache line; what the union of two groups takes is weighed through a table with a place for each
// pair of codes, or a map where there would be more than four places a row; and the weighing is given up once the union
// has too many tuples to win.
#pragma once

#include <algorithm>
#include <cstdint>
#include <utility>
#include <vector>

namespace {

using std::vector;
using u32 = std::uint32_t;
using u64 = std::uint64_t;
using i64 = std::int64_t;

constexpr u32 none = UINT32_MAX;
constexpr u32 columns_at_once = 8;
constexpr u32 small_values = 1 << 16;
constexpr size_t window = 16;

struct Figures {
    u32 width, rows, distinct, listed, listed_rows, listed_runs;
};

struct Best {
    u32 kind;
    u64 bytes;
};

Best best_of(const Figures &f) {
    u64 head = 5 + 4 * u64(f.width), code_bytes = f.distinct <= 1 << 8 ? 1 : f.distinct <= 1 << 16 ? 2 : 4;
    u64 values = 8 * u64(f.listed) * f.width, segments = (f.rows + u64(32767)) / 32768;
    u64 sizes[] = {head + 8 * u64(f.rows) * f.width, head + 4 + 8 * u64(f.distinct) * f.width + f.rows * code_bytes,
                   head + 5 + values + 2 * (segments * f.listed) + 2 * u64(f.listed_rows),
                   head + 5 + values + 4 * u64(f.listed) + 8 * u64(f.listed_runs)};
    Best best{1, sizes[0]};
    for (u32 k = 1; k < 4; ++k)
        if (sizes[k] < best.bytes) best = {k + 1, sizes[k]};
    return best;
}

struct Group {
    vector<u32> columns, codes;
    u32 zero;
    Figures figures;
    Best best;
};

// Numbers places by their first row, through a table where they are few.
class Numbers {
    vector<u32> table, keys_next;
    vector<u64> keys;
    bool direct;
    u64 mask = 0;

  public:
    u32 next = 0;

    Numbers(u64 places, u64 rows) : direct(places <= 4 * rows) {
        if (direct) table.assign(places, none);
        else grow(1024);
    }

    u32 of(u64 place) {
        if (direct) {
            u32 &number = table[place];
            return number == none ? number = next++ : number;
        }
        u64 at = place * 0x9E3779B97F4A7C15 >> 20 & mask;
        for (; keys_next[at] != none; at = (at + 1) & mask)
            if (keys[at] == place) return keys_next[at];
        keys[at] = place, keys_next[at] = next++;
        if (2 * u64(next) > mask) grow(2 * (mask + 1));
        return next - 1;
    }

  private:
    void grow(u64 size) {
        vector<u64> old = std::move(keys);
        vector<u32> old_next = std::move(keys_next);
        keys.assign(size, 0), keys_next.assign(size, none), mask = size - 1;
        for (size_t k = 0; k < old.size(); ++k) {
            if (old_next[k] == none) continue;
            u64 at = old[k] * 0x9E3779B97F4A7C15 >> 20 & mask;
            while (keys_next[at] != none) at = (at + 1) & mask;
            keys[at] = old[k], keys_next[at] = old_next[k];
        }
    }
};

void count(Group &g) {
    Figures &f = g.figures;
    f.listed = g.zero == none ? f.distinct : f.distinct - 1;
    f.listed_rows = f.listed_runs = 0;
    u32 before = none;
    for (u32 code : g.codes) {
        bool listed = code != g.zero;
        f.listed_rows += listed, f.listed_runs += listed && code != before;
        before = code;
    }
    g.best = best_of(f);
}

// The columns from `first` on, as groups of their own.
vector<Group> columns_of(const i64 *cells, u32 rows, u32 cols, u32 first) {
    u32 count_of = std::min(columns_at_once, cols - first);
    vector<Group> groups(count_of);
    vector<vector<u32>> tables(count_of, vector<u32>(small_values, none));
    vector<Numbers> others(count_of, Numbers(UINT64_MAX, 0));
    vector<u32> next(count_of);
    for (u32 c = 0; c < count_of; ++c) groups[c].columns = {first + c}, groups[c].codes.resize(rows), groups[c].zero = none;
    for (u32 i = 0; i < rows; ++i) {
        const i64 *row = &cells[u64(i) * cols + first];
        for (u32 c = 0; c < count_of; ++c) {
            u64 value = row[c];
            u32 code;
            if (value < small_values) {
                u32 &number = tables[c][value];
                if (number == none) number = next[c]++;
                code = number;
            } else {
                // (a number of the map is a place in a list of all numbers behind the small ones)
                u32 before = others[c].next;
                u32 at = others[c].of(value);
                if (at == before) tables[c].push_back(next[c]++);
                code = tables[c][small_values + at];
            }
            groups[c].codes[i] = code;
        }
    }
    for (u32 c = 0; c < count_of; ++c) {
        groups[c].zero = tables[c][0];
        groups[c].figures = {1, rows, next[c], 0, 0, 0};
        count(groups[c]);
    }
    return groups;
}

// With more tuples than this no group is smaller than the target.
u32 most_tuples(Figures f, u64 target) {
    u32 low = 0, high = f.rows;
    while (low < high) {
        u32 middle = low + (high - low) / 2;
        Figures g = f;
        g.distinct = std::max(f.distinct, middle + 1), g.listed = std::max(f.listed, middle);
        if (target <= best_of(g).bytes) high = middle;
        else low = middle + 1;
    }
    return high;
}

// What a group saves by taking in a column; 0 where it is no more than `least`.
u64 saving_of(const Group &g, const Group &c, u64 least) {
    u64 apart = g.best.bytes + c.best.bytes;
    if (apart <= least) return 0;
    Figures f{g.figures.width + 1, g.figures.rows, 0, 0, std::max(g.figures.listed_rows, c.figures.listed_rows),
              std::max(g.figures.listed_runs, c.figures.listed_runs)};
    u32 most = most_tuples(f, apart - least);
    if (most < std::max(g.figures.distinct, c.figures.distinct)) return 0;
    u64 wide = c.figures.distinct;
    Numbers numbers(g.figures.distinct * wide, f.rows);
    u64 zero = g.zero == none || c.zero == none ? UINT64_MAX : g.zero * wide + c.zero, before = UINT64_MAX;
    f.listed_rows = f.listed_runs = 0;
    for (u32 i = 0; i < f.rows; ++i) {
        u64 place = g.codes[i] * wide + c.codes[i];
        numbers.of(place);
        if (numbers.next > most) return 0;
        bool listed = place != zero;
        f.listed_rows += listed, f.listed_runs += listed && place != before;
        before = place;
    }
    f.distinct = numbers.next, f.listed = f.listed_rows < f.rows ? f.distinct - 1 : f.distinct;
    u64 bytes = best_of(f).bytes;
    return bytes < apart && apart - bytes > least ? apart - bytes : 0;
}

void join(Group &g, const Group &c) {
    u64 wide = c.figures.distinct;
    Numbers numbers(g.figures.distinct * wide, g.codes.size());
    u32 zero = none;
    for (u32 i = 0; i < g.codes.size(); ++i) {
        u32 code = numbers.of(g.codes[i] * wide + c.codes[i]);
        if (g.codes[i] == g.zero && c.codes[i] == c.zero) zero = code;
        g.codes[i] = code;
    }
    g.columns.push_back(c.columns[0]), g.zero = zero, ++g.figures.width, g.figures.distinct = numbers.next;
    count(g);
}

vector<Group> cut_of(const i64 *cells, u32 rows, u32 cols) {
    vector<Group> groups;
    for (u32 first = 0; first < cols; first += columns_at_once) {
        for (Group &c : columns_of(cells, rows, cols, first)) {
            u64 best = 0;
            size_t place = 0;
            for (size_t k = groups.size() > window ? groups.size() - window : 0; k < groups.size(); ++k)
                if (u64 saving = saving_of(groups[k], c, best)) best = saving, place = k;
            if (best) join(groups[place], c);
            else groups.push_back(std::move(c));
        }
    }
    u64 bytes = 0, plain = 5 + 4 * u64(cols) + 8 * u64(rows) * cols;
    for (const Group &g : groups) bytes += g.best.bytes;
    if (plain > bytes) return groups;
    groups.assign(1, Group{});
    for (u32 c = 0; c < cols; ++c) groups[0].columns.push_back(c);
    groups[0].best = {1, plain};
    return groups;
}

}  // namespace
