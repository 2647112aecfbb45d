// Groups of one column in the layouts of `cla`, and their calls written by hand. The input and what is printed are those of
// crates/cla_group_bench: KIND ROWS TUPLES LISTED_PER_MILLE ROUNDS COPIES.
#include "groups.hpp"

namespace {

constexpr u32 made_in_a_round = 16;

template <class Rows>
struct Group {
    std::shared_ptr<const Rows> rows;
    vector<i64> values;

    Group with_values(vector<i64> other) const { return {rows, std::move(other)}; }
};

vector<i64> multiples(u32 count, u32 factor) {
    vector<i64> numbers;
    numbers.reserve(count);
    for (u32 n = 0; n < count; ++n) numbers.push_back(n * factor);
    return numbers;
}

struct Task {
    std::string kind;
    u32 rows, tuples, listed, rounds, copies;
};

void print(const char *name, u64 best, u64 sum, u32 rows) {
    std::printf("%s %llu\n", name, static_cast<unsigned long long>(sum));
    std::fprintf(stderr, "%s %llu %.3f\n", name, static_cast<unsigned long long>(best), static_cast<double>(best) / rows);
}

// Runs a call some times, with something new to write to each time.
template <class Start, class Call, class Sum>
void measure(const char *name, const Task &task, u32 calls, Start begin, Call call, Sum sum_made) {
    u64 best = ~u64{0}, sum = 0;
    for (u32 round = 0; round < task.rounds; ++round) {
        auto into = begin();
        const auto start = Clock::now();
        call(into);
        best = std::min(best, since(start));
        sum = sum_made(into);
    }
    print(name, best / calls, sum, task.rows);
}

template <class Rows>
void measure_all(const Task &task, const Group<Rows> &group) {
    const u32 rows = task.rows, tuples = group.values.size();
    const vector<i64> items = multiples(rows, 3);
    vector<i128> parts;
    for (u32 k = 0; k < tuples; ++k) parts.push_back(k);
    const auto sum = [](const auto &made) { return sum_of(made); };
    measure("scatter", task, 1, [&] { return vector<i128>(rows); },
            [&](vector<i128> &into) { group.rows->scatter(parts, into); }, sum);
    measure("gather", task, 1, [&] { return vector<i128>(tuples); },
            [&](vector<i128> &into) {
                std::fill(into.begin(), into.end(), 0);
                group.rows->gather(items, into);
            }, sum);
    measure("with_values", task, made_in_a_round, [&] { return group; },
            [&](Group<Rows> &made) {
                for (u32 n = 0; n < made_in_a_round; ++n) made = group.with_values(multiples(tuples, n));
            }, [&](const Group<Rows> &made) { return sum_of(made.values); });
    measure("skeleton", task, 1, [&] { return vector<u32>(); },
            [&](vector<u32> &into) {
                into = vector<u32>(rows);
                group.rows->read_codes(into);
            }, sum);
}

template <class Rows>
int run(const Task &task, const vector<u32> &codes) {
    const bool is_plain = std::is_same<Rows, PlainRows>::value;
    const auto make = [&] {
        vector<i64> values = multiples(task.tuples + 1, 1);
        if (is_plain) {
            values.resize(task.rows);
            for (u32 i = 0; i < task.rows; ++i) values[i] = codes[i];
        }
        return Group<Rows>{std::make_shared<Rows>(codes, task.tuples + 1), std::move(values)};
    };
    vector<Group<Rows>> groups;
    for (u32 n = 0; n < task.copies; ++n) groups.push_back(make());
    if (task.rounds > 0) measure_all(task, make());
    std::printf("%zu\n", groups.size());
    return std::fflush(stdout) == 0 ? 0 : 1;
}

}  // namespace

int main(int count, char **words) {
    if (count != 7) return 2;
    const Task task = {words[1], number(words[2]), number(words[3]), number(words[4]), number(words[5]), number(words[6])};
    const vector<u32> codes = codes_of_rows(task.rows, task.kind == "runs" ? run_rows : 1, task.tuples, task.listed);
    if (task.kind == "plain") return run<PlainRows>(task, codes);
    if (task.kind == "offsets") return run<OffsetRows>(task, codes);
    if (task.kind == "runs") return run<RunRows>(task, codes);
    if (task.tuples < 1U << 8) return run<CodeRows<u8>>(task, codes);
    if (task.tuples < 1U << 16) return run<CodeRows<u16>>(task, codes);
    return run<CodeRows<u32>>(task, codes);
}
