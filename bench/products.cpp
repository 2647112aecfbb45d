// Products of tables of 20 columns in groups, in the layouts of `cla`, written by hand with sums of 128 bits; and products of
// the same cells in a dense matrix, row by row. The input and what is printed are those of crates/cla_prod_bench: KIND ROWS
// GROUPS TUPLES LISTED_PER_MILLE ROUNDS.
#include "groups.hpp"

namespace {

constexpr u32 columns = 20;
constexpr i64 limit = i64{1} << 47;
constexpr u64 enough = 200'000'000;  // nanoseconds for all rounds of a call

struct Task {
    std::string kind;
    u32 rows, groups, tuples, listed, rounds;
};

i64 narrow(i128 exact) {
    if (exact >= limit || exact <= -limit) std::exit(3);
    return static_cast<i64>(exact);
}

vector<i64> narrowed(const vector<i128> &exact) {
    vector<i64> numbers;
    numbers.reserve(exact.size());
    for (const i128 it : exact) numbers.push_back(narrow(it));
    return numbers;
}

template <class Rows>
struct Group {
    Rows rows;
    u32 first, width;
    vector<i64> values;

    u32 tuples() const { return values.size() / width; }
    const i64 *tuple(u32 k) const { return &values[static_cast<size_t>(k) * width]; }
};

template <class Rows>
using Table = vector<Group<Rows>>;

// Each tuple is multiplied once, and what it gives is added to the rows that have it.
template <class Rows>
vector<i64> right(const Table<Rows> &a, const vector<i64> &b) {
    vector<i128> sums(a[0].rows.size()), parts;
    for (const auto &g : a) {
        parts.resize(g.tuples());
        for (u32 k = 0; k < g.tuples(); ++k) {
            i128 part = 0;
            for (u32 c = 0; c < g.width; ++c) part += static_cast<i128>(g.tuple(k)[c]) * b[g.first + c];
            parts[k] = part;
        }
        g.rows.scatter(parts, sums);
    }
    return narrowed(sums);
}

// A vector times the columns of a table from column `from` on: gathered over the rows of each tuple, and multiplied after.
template <class Rows>
void gather_times(const vector<i64> &items, const Table<Rows> &b, u32 from, vector<i128> &gathered, i128 *sums) {
    for (const auto &g : b) {
        if (g.first + g.width <= from) continue;
        const u32 begin = from > g.first ? from - g.first : 0;
        gathered.assign(g.tuples(), 0);
        g.rows.gather(items, gathered);
        for (u32 k = 0; k < g.tuples(); ++k)
            for (u32 c = begin; c < g.width; ++c) sums[g.first + c] += g.tuple(k)[c] * gathered[k];
    }
}

template <class Rows>
vector<i64> left(const vector<i64> &a, const Table<Rows> &b) {
    vector<i128> sums(columns), gathered;
    gather_times(a, b, 0, gathered, sums.data());
    return narrowed(sums);
}

// Goes over the columns of a table, each of which is taken into one buffer.
template <class Rows, class Use>
void for_each_column(const Table<Rows> &m, Use use) {
    vector<u32> codes(m[0].rows.size());
    vector<i64> items(codes.size());
    for (const auto &g : m) {
        g.rows.read_codes(codes);
        for (u32 c = 0; c < g.width; ++c) {
            for (u32 i = 0; i < codes.size(); ++i) items[i] = g.tuple(codes[i])[c];
            use(g.first + c, items);
        }
    }
}

// The transpose of a table, times a table of as many rows.
template <class Rows>
vector<i64> product(const Table<Rows> &turned, const Table<Rows> &m) {
    vector<i128> sums(columns), gathered;
    vector<i64> made(columns * columns);
    for_each_column(m, [&](u32 j, const vector<i64> &items) {
        std::fill(sums.begin(), sums.end(), 0);
        gather_times(items, turned, 0, gathered, sums.data());
        for (u32 i = 0; i < columns; ++i) made[i * columns + j] = narrow(sums[i]);
    });
    return made;
}

template <class Rows>
vector<i64> self_product(const Table<Rows> &m) {
    vector<i128> sums(columns), gathered;
    vector<i64> made(columns * columns);
    for_each_column(m, [&](u32 j, const vector<i64> &items) {
        std::fill(sums.begin(), sums.end(), 0);
        gather_times(items, m, j, gathered, sums.data());
        for (u32 i = j; i < columns; ++i) made[i * columns + j] = made[j * columns + i] = narrow(sums[i]);
    });
    return made;
}

// The same products of dense cells, row by row.

template <class Rows>
vector<i64> dense_of(const Table<Rows> &m) {
    const u32 rows = m[0].rows.size();
    vector<i64> cells(static_cast<size_t>(rows) * columns);
    for_each_column(m, [&](u32 j, const vector<i64> &items) {
        for (u32 i = 0; i < rows; ++i) cells[static_cast<size_t>(i) * columns + j] = items[i];
    });
    return cells;
}

vector<i64> dense_right(const vector<i64> &a, const vector<i64> &b) {
    vector<i64> made;
    made.reserve(a.size() / columns);
    for (const i64 *row = a.data(), *end = row + a.size(); row != end; row += columns) {
        i128 sum = 0;
        for (u32 j = 0; j < columns; ++j) sum += static_cast<i128>(row[j]) * b[j];
        made.push_back(narrow(sum));
    }
    return made;
}

vector<i64> dense_left(const vector<i64> &a, const vector<i64> &b) {
    i128 sums[columns] = {};
    for (size_t i = 0; i < a.size(); ++i)
        for (u32 j = 0; j < columns; ++j) sums[j] += static_cast<i128>(a[i]) * b[i * columns + j];
    return narrowed(vector<i128>(sums, sums + columns));
}

vector<i64> dense_product(const vector<i64> &a, const vector<i64> &b, bool upper_alone) {
    vector<i128> sums(columns * columns);
    for (size_t at = 0; at < a.size(); at += columns)
        for (u32 i = 0; i < columns; ++i)
            for (u32 j = upper_alone ? i : 0; j < columns; ++j)
                sums[i * columns + j] += static_cast<i128>(a[at + i]) * b[at + j];
    if (upper_alone)
        for (u32 i = 0; i < columns; ++i)
            for (u32 j = 0; j < i; ++j) sums[i * columns + j] = sums[j * columns + i];
    return narrowed(sums);
}

// Measuring.

// The check sum of what a call makes.
template <class Call>
u64 measure(const char *name, const Task &task, bool is_dense, Call call) {
    u64 best = ~u64{0}, spent = 0, sum = 0;
    for (u32 round = 0; round < task.rounds && spent < enough; ++round) {
        const auto start = Clock::now();
        const vector<i64> made = call();
        const u64 nanoseconds = since(start);
        best = std::min(best, nanoseconds), spent += nanoseconds;
        if (round == 0) sum = sum_of(made);
    }
    if (!is_dense) std::printf("%s %llu\n", name, static_cast<unsigned long long>(sum));
    std::fprintf(stderr, "%s%s %llu %.3f\n", is_dense ? "dense_" : "", name, static_cast<unsigned long long>(best),
                 static_cast<double>(best) / task.rows);
    return sum;
}

vector<i64> small_numbers(u32 count) {
    vector<i64> numbers;
    numbers.reserve(count);
    for (u32 n = 0; n < count; ++n) numbers.push_back(static_cast<i64>(n % 19) - 9);
    return numbers;
}

// The values of the tuple of zeros and of so many others, which differ.
vector<i64> values_of(u32 tuples, u32 width) {
    vector<i64> values(width);
    for (i64 k = 1; k <= tuples; ++k)
        for (u32 c = 0; c < width; ++c) values.push_back(c % 2 == 1 ? -k : k);
    return values;
}

template <class Rows>
Table<Rows> table_of(const Task &task, u32 salt) {
    Table<Rows> table;
    const u32 width = columns / task.groups;
    for (u32 q = 0; q < task.groups; ++q) {
        const u32 step = task.kind == "runs" ? run_rows : 1;
        const vector<u32> codes = codes_of_rows(task.rows, step, task.tuples, task.listed, salt + (q << 22));
        vector<i64> values = values_of(task.tuples, width);
        if (std::is_same<Rows, PlainRows>::value) {
            vector<i64> all;
            all.reserve(static_cast<size_t>(task.rows) * width);
            for (const u32 code : codes)
                for (u32 c = 0; c < width; ++c) all.push_back(values[code * width + c]);
            values = std::move(all);
        }
        table.push_back({Rows(codes, task.tuples + 1), q * width, width, std::move(values)});
    }
    return table;
}

template <class Rows>
int run(const Task &task) {
    const Table<Rows> m = table_of<Rows>(task, 0), turned = table_of<Rows>(task, 1U << 30);
    const vector<i64> column = small_numbers(columns), row = small_numbers(task.rows);
    const auto group = [&](const char *name, auto call) { return measure(name, task, false, call); };
    const u64 made[] = {group("right", [&] { return right(m, column); }), group("left", [&] { return left(row, m); }),
                        group("product", [&] { return product(turned, m); }),
                        group("self_product", [&] { return self_product(m); })};
    const vector<i64> dense = dense_of(m), other = dense_of(turned);
    const auto cells = [&](const char *name, auto call) { return measure(name, task, true, call); };
    const u64 again[] = {cells("right", [&] { return dense_right(dense, column); }),
                         cells("left", [&] { return dense_left(row, dense); }),
                         cells("product", [&] { return dense_product(other, dense, false); }),
                         cells("self_product", [&] { return dense_product(dense, dense, true); })};
    return std::equal(made, made + 4, again) && std::fflush(stdout) == 0 ? 0 : 1;
}

}  // namespace

int main(int count, char **words) {
    if (count != 7) return 2;
    const Task task = {words[1], number(words[2]), number(words[3]), number(words[4]), number(words[5]), number(words[6])};
    if (task.kind == "plain") return run<PlainRows>(task);
    if (task.kind == "offsets") return run<OffsetRows>(task);
    if (task.kind == "runs") return run<RunRows>(task);
    if (task.tuples < 1U << 8) return run<CodeRows<u8>>(task);
    if (task.tuples < 1U << 16) return run<CodeRows<u16>>(task);
    return run<CodeRows<u32>>(task);
}
