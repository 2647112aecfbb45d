// Operators on tables of 20 columns in groups, in the layouts of `cla`, written by hand with sums of 128 bits. The input and
// what is printed are those of crates/cla_kernel_bench: KIND ROWS GROUPS TUPLES LISTED_PER_MILLE ROUNDS.
#include "groups.hpp"

namespace {

constexpr u32 columns = 20;
constexpr i64 limit = i64{1} << 47;
constexpr u64 enough = 200'000'000;  // nanoseconds for all rounds of a call

struct Task {
    std::string kind;
    u32 rows, groups, tuples, listed, rounds;
};

i64 narrow(i128 exact) {
    if (exact >= limit || exact <= -limit) std::exit(3);
    return static_cast<i64>(exact);
}

vector<i64> narrowed(const vector<i128> &exact) {
    vector<i64> numbers;
    numbers.reserve(exact.size());
    for (const i128 it : exact) numbers.push_back(narrow(it));
    return numbers;
}

template <class Rows>
struct Group {
    std::shared_ptr<const Rows> rows;
    u32 first, width;
    vector<i64> values;

    u32 tuples() const { return values.size() / width; }
    const i64 *tuple(u32 k) const { return &values[static_cast<size_t>(k) * width]; }
};

template <class Rows>
using Table = vector<Group<Rows>>;

// Sums and extremes.

template <class Rows>
i64 sum(const Table<Rows> &m) {
    i128 sum = 0;
    for (const auto &g : m)
        for (u32 k = 0; k < g.tuples(); ++k)
            for (u32 c = 0; c < g.width; ++c) sum += static_cast<i128>(g.tuple(k)[c]) * g.rows->count(k);
    return narrow(sum);
}

template <class Rows>
vector<i64> col_sums(const Table<Rows> &m) {
    vector<i128> sums(columns);
    for (const auto &g : m)
        for (u32 k = 0; k < g.tuples(); ++k)
            for (u32 c = 0; c < g.width; ++c) sums[g.first + c] += static_cast<i128>(g.tuple(k)[c]) * g.rows->count(k);
    return narrowed(sums);
}

template <class Rows>
vector<i64> row_sums(const Table<Rows> &m) {
    vector<i128> sums(m[0].rows->size()), parts;
    for (const auto &g : m) {
        parts.resize(g.tuples());
        for (u32 k = 0; k < g.tuples(); ++k) {
            parts[k] = 0;
            for (u32 c = 0; c < g.width; ++c) parts[k] += g.tuple(k)[c];
        }
        g.rows->scatter(parts, sums);
    }
    return narrowed(sums);
}

struct Least {
    i64 operator()(i64 a, i64 b) const { return b < a ? b : a; }
};

struct Greatest {
    i64 operator()(i64 a, i64 b) const { return b < a ? a : b; }
};

template <class Chosen, class Rows>
i64 first(const Table<Rows> &m, Chosen chosen) {
    i64 first = m[0].values[0];
    for (const auto &g : m)
        for (const i64 value : g.values) first = chosen(first, value);
    return first;
}

template <class Chosen, class Rows>
vector<i64> col_first(const Table<Rows> &m, Chosen chosen) {
    vector<i64> firsts(columns);
    for (const auto &g : m) {
        i64 *const into = &firsts[g.first];
        std::copy(g.tuple(0), g.tuple(1), into);
        for (u32 k = 1; k < g.tuples(); ++k)
            for (u32 c = 0; c < g.width; ++c) into[c] = chosen(into[c], g.tuple(k)[c]);
    }
    return firsts;
}

template <class Chosen, class Rows>
vector<i64> row_first(const Table<Rows> &m, Chosen chosen) {
    vector<i64> firsts(m[0].rows->size()), parts;
    for (const auto &g : m) {
        parts.resize(g.tuples());
        for (u32 k = 0; k < g.tuples(); ++k) {
            parts[k] = g.tuple(k)[0];
            for (u32 c = 1; c < g.width; ++c) parts[k] = chosen(parts[k], g.tuple(k)[c]);
        }
        if (&g == &m[0])
            g.rows->join(parts, firsts, [](i64, i64 part) { return part; });
        else
            g.rows->join(parts, firsts, chosen);
    }
    return firsts;
}

// Maps.

enum class Op { add, mul };

struct Step {
    Op op;
    i64 scalar;
};

i128 applied(Op op, i64 a, i64 b) {
    switch (op) {
        case Op::add: return static_cast<i128>(a) + b;
        case Op::mul: return static_cast<i128>(a) * b;
    }
    return 0;
}

// Where the first value out of range is: the step, and the place of the cell.
struct Misfit {
    u32 op, place;

    void meet(u32 other_op, u32 other_place) {
        if (other_op < op || (other_op == op && other_place < place)) op = other_op, place = other_place;
    }
};

// Each value of a group's dictionary through the steps of its column.
template <class Rows, class Steps>
Group<Rows> mapped(const Group<Rows> &g, Misfit &misfit, Steps steps_of) {
    Group<Rows> made{g.rows, g.first, g.width, {}};
    made.values.reserve(g.values.size());
    for (u32 k = 0; k < g.tuples(); ++k)
        for (u32 c = 0; c < g.width; ++c) {
            i64 value = g.tuple(k)[c];
            const auto [steps, count] = steps_of(g.first + c);
            for (u32 s = 0; s < count; ++s) {
                const i128 next = applied(steps[s].op, value, steps[s].scalar);
                if (next >= limit || next <= -limit) {
                    misfit.meet(s, g.rows->first_row(k) * columns + g.first + c);
                    break;
                }
                value = static_cast<i64>(next);
            }
            made.values.push_back(value);
        }
    return made;
}

template <class Rows, class Steps>
Table<Rows> mapped(const Table<Rows> &m, Steps steps_of) {
    Misfit misfit = {~u32{0}, ~u32{0}};
    Table<Rows> made;
    for (const auto &g : m) made.push_back(mapped(g, misfit, steps_of));
    if (misfit.op != ~u32{0}) std::exit(3);
    return made;
}

template <class Rows>
Table<Rows> map_chain(const Table<Rows> &m, const vector<Step> &steps) {
    return mapped(m, [&](u32) { return std::pair<const Step *, u32>(steps.data(), steps.size()); });
}

template <class Rows>
Table<Rows> broadcast_row(const Table<Rows> &m, const vector<i64> &row) {
    Step step = {Op::add, 0};
    return mapped(m, [&](u32 j) {
        step.scalar = row[j];
        return std::pair<const Step *, u32>(&step, 1);
    });
}

// Measuring.

u64 sum_made(i64 made) { return sum_of(vector<i64>{made}); }

u64 sum_made(const vector<i64> &made) { return sum_of(made); }

template <class Rows>
u64 sum_made(const Table<Rows> &made) {
    CheckSum sum;
    for (const auto &g : made)
        for (const i64 value : g.values) sum.add(value);
    return sum.value;
}

template <class Call>
void measure(const char *name, const Task &task, Call call) {
    u64 best = ~u64{0}, spent = 0, sum = 0;
    for (u32 round = 0; round < task.rounds && spent < enough; ++round) {
        const auto start = Clock::now();
        const auto made = call();
        const u64 nanoseconds = since(start);
        best = std::min(best, nanoseconds), spent += nanoseconds;
        if (round == 0) sum = sum_made(made);
    }
    std::printf("%s %llu\n", name, static_cast<unsigned long long>(sum));
    std::fprintf(stderr, "%s %llu %.3f\n", name, static_cast<unsigned long long>(best), static_cast<double>(best) / task.rows);
}

vector<i64> small_numbers(u32 count) {
    vector<i64> numbers;
    numbers.reserve(count);
    for (u32 n = 0; n < count; ++n) numbers.push_back(static_cast<i64>(n % 19) - 9);
    return numbers;
}

// The values of the tuple of zeros and of so many others, which differ.
vector<i64> values_of(u32 tuples, u32 width) {
    vector<i64> values(width);
    for (i64 k = 1; k <= tuples; ++k)
        for (u32 c = 0; c < width; ++c) values.push_back(c % 2 == 1 ? -k : k);
    return values;
}

template <class Rows>
Table<Rows> table_of(const Task &task) {
    Table<Rows> table;
    const u32 width = columns / task.groups;
    for (u32 q = 0; q < task.groups; ++q) {
        const u32 step = task.kind == "runs" ? run_rows : 1;
        const vector<u32> codes = codes_of_rows(task.rows, step, task.tuples, task.listed, q << 22);
        vector<i64> values = values_of(task.tuples, width);
        if (std::is_same<Rows, PlainRows>::value) {
            vector<i64> all;
            all.reserve(static_cast<size_t>(task.rows) * width);
            for (const u32 code : codes)
                for (u32 c = 0; c < width; ++c) all.push_back(values[code * width + c]);
            values = std::move(all);
        }
        table.push_back({std::make_shared<Rows>(codes, task.tuples + 1), q * width, width, std::move(values)});
    }
    return table;
}

template <class Rows>
int run(const Task &task) {
    const Table<Rows> m = table_of<Rows>(task);
    const vector<i64> row = small_numbers(columns);
    const vector<Step> steps = {{Op::mul, 3}, {Op::add, 3}};
    const auto group = [&](const char *name, auto call) { return measure(name, task, call); };
    group("sum", [&] { return sum(m); });
    group("row_sums", [&] { return row_sums(m); });
    group("col_sums", [&] { return col_sums(m); });
    group("least", [&] { return first(m, Least{}); });
    group("greatest", [&] { return first(m, Greatest{}); });
    group("row_least", [&] { return row_first(m, Least{}); });
    group("row_greatest", [&] { return row_first(m, Greatest{}); });
    group("col_least", [&] { return col_first(m, Least{}); });
    group("col_greatest", [&] { return col_first(m, Greatest{}); });
    group("map_chain", [&] { return map_chain(m, steps); });
    group("broadcast_row", [&] { return broadcast_row(m, row); });
    return std::fflush(stdout) == 0 ? 0 : 1;
}

}  // namespace

int main(int count, char **words) {
    if (count != 7) return 2;
    const Task task = {words[1], number(words[2]), number(words[3]), number(words[4]), number(words[5]), number(words[6])};
    if (task.kind == "plain") return run<PlainRows>(task);
    if (task.kind == "offsets") return run<OffsetRows>(task);
    if (task.kind == "runs") return run<RunRows>(task);
    if (task.tuples < 1U << 8) return run<CodeRows<u8>>(task);
    if (task.tuples < 1U << 16) return run<CodeRows<u16>>(task);
    return run<CodeRows<u32>>(task);
}
