// The sum of a general Matrix Market file's entries, which are added in 128 bits.
#include "text_table.hpp"

int main(int count, char **words) {
    if (count != 2) return 2;
    Input input(words[1]);
    if (!input.is_open()) return 3;
    const auto table = read_table(input);
    if (!table) return 7;
    return std::puts(decimal_of(table->sum()).c_str()) < 0 || std::fflush(stdout) != 0 ? 5 : 0;
}
