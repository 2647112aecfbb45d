// Writes a table of integers as a Matrix Market file, the same each time:
//     tables array ROWS COLUMNS VALUES          each cell, column by column
//     tables coordinate ROWS COLUMNS VALUES PER_MILLE
//                                               so many of a thousand cells, column by column
// VALUES are `digit`, from 1 to 9; `short`, of one to six digits, each number of digits as often; or `mixed`: of a thousand
// some 700 are from 0 to 999, 200 are up to 100,000 in size, 99 up to 10^9 and one up to 10^11, half of the latter three
// negative.
#include <cstdint>
#include <cstdio>
#include <cstdlib>
#include <cstring>
#include <string>

namespace {

// xorshift64* of Vigna
class Draws {
public:
    // a number below `limit`
    uint64_t below(uint64_t limit) {
        state ^= state >> 12;
        state ^= state << 25;
        state ^= state >> 27;
        return (state * 0x2545F4914F6CDD1Dull >> 16) % limit;
    }

private:
    uint64_t state = 20;
};

enum class Values { digit, up_to_six_digits, mixed };

int64_t mixed_value(Draws &draws) {
    const uint64_t kind = draws.below(1000);
    if (kind < 700) return static_cast<int64_t>(draws.below(1000));
    const int64_t limit = kind < 900 ? 100'000 : kind < 999 ? 1'000'000'000 : 100'000'000'000;
    return static_cast<int64_t>(draws.below(static_cast<uint64_t>(2 * limit + 1))) - limit;
}

int64_t value(Draws &draws, Values values) {
    if (values == Values::digit) return static_cast<int64_t>(1 + draws.below(9));
    if (values == Values::mixed) return mixed_value(draws);
    static const uint64_t tens[] = {1, 10, 100, 1'000, 10'000, 100'000};
    const uint64_t least = tens[draws.below(6)];
    return static_cast<int64_t>(least + draws.below(9 * least));
}

void write_array(uint64_t rows, uint64_t columns, Values values) {
    Draws draws;
    std::printf("%%%%MatrixMarket matrix array integer general\n%lu %lu\n", rows, columns);
    for (uint64_t cell = 0; cell < rows * columns; ++cell) std::printf("%ld\n", value(draws, values));
}

// Which cells are there is drawn twice, first to count them: the count stands in the size line.
void write_coordinate(uint64_t rows, uint64_t columns, Values values, uint64_t per_mille) {
    Draws counted, places, draws;
    uint64_t count = 0;
    for (uint64_t cell = 0; cell < rows * columns; ++cell) count += counted.below(1000) < per_mille;
    std::printf("%%%%MatrixMarket matrix coordinate integer general\n%lu %lu %lu\n", rows, columns, count);
    for (uint64_t column = 1; column <= columns; ++column)
        for (uint64_t row = 1; row <= rows; ++row)
            if (places.below(1000) < per_mille) std::printf("%lu %lu %ld\n", row, column, value(draws, values));
}

}  // namespace

int main(int count, char **words) {
    if (count < 5) return 2;
    const uint64_t rows = std::strtoull(words[2], nullptr, 10);
    const uint64_t columns = std::strtoull(words[3], nullptr, 10);
    const std::string name = words[4];
    const Values values = name == "digit" ? Values::digit : name == "short" ? Values::up_to_six_digits : Values::mixed;
    if (std::string(words[1]) == "array" && count == 5)
        write_array(rows, columns, values);
    else if (std::string(words[1]) == "coordinate" && count == 6)
        write_coordinate(rows, columns, values, std::strtoull(words[5], nullptr, 10));
    else
        return 2;
    return std::fflush(stdout) != 0 ? 5 : 0;
}
