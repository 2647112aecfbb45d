// A reader of general Matrix Market files, as fast as one thread may read a table itself: it keeps all cells as 64-bit
// numbers row by row, in huge pages where there are some. It reads by blocks, finds the ends of numbers in 64 bytes at
// once, and takes eight digits by three multiplications. It looks for no fault but a cell outside of the table and a table
// that is cut short. Between numbers stands one byte, and numbers have up to 16 digits. It wants an x86-64 processor.
#pragma once

#include <algorithm>
#include <cstdint>
#include <cstdio>
#include <cstring>
#include <memory>
#include <new>
#include <string>
#include <vector>

#include <emmintrin.h>
#include <fcntl.h>
#include <sys/mman.h>
#include <unistd.h>

namespace {

class Input {
public:
    explicit Input(const char *name) : file(open(name, O_RDONLY)) { refill(); }

    bool is_open() const { return file >= 0; }

    bool is_at_end() {
        if (at >= end && !has_ended) refill();
        return at >= end;
    }

    std::string line() {
        const char *const lf = static_cast<const char *>(std::memchr(bytes + at, '\n', end - at));
        const std::string text(bytes + at, lf ? static_cast<size_t>(lf - bytes) - at : end - at);
        start_at(at + text.size() + 1);
        return text;
    }

    // a number, and the one byte behind it
    inline int64_t number() {
        size_t stop = next_stop();
        const bool is_negative = bytes[at] == '-';
        if (is_negative) {
            at = stop + 1;
            stop = next_stop();
        }
        const uint64_t size = digits_to(stop, stop - at);
        at = stop + 1;
        return is_negative ? -static_cast<int64_t>(size) : static_cast<int64_t>(size);
    }

private:
    static constexpr size_t block = 1 << 16;
    static constexpr size_t marked = 64;

    static uint64_t marks_of(const char *from) {
        uint64_t marks = 0;
        for (unsigned part = 0; part < 4; ++part) {
            const __m128i held = _mm_loadu_si128(reinterpret_cast<const __m128i *>(from + 16 * part));
            const __m128i digit = _mm_sub_epi8(held, _mm_set1_epi8('0'));
            const __m128i is_other = _mm_cmpeq_epi8(_mm_max_epu8(digit, _mm_set1_epi8(10)), digit);
            marks |= static_cast<uint64_t>(static_cast<unsigned>(_mm_movemask_epi8(is_other))) << (16 * part);
        }
        return marks;
    }

    // up to eight digits that end at `stop`
    uint64_t eight_to(size_t stop, size_t count) const {
        if (count == 0) return 0;
        uint64_t word;
        std::memcpy(&word, bytes + stop - 8, sizeof word);
        const size_t others = 8 * (8 - count);
        const uint64_t digits = (word ^ 0x3030303030303030ull) >> others << others;
        const uint64_t pairs = digits * 10 + (digits >> 8);
        const uint64_t first = (pairs & 0x000000FF000000FFull) * (100 + (1'000'000ull << 32));
        const uint64_t second = (pairs >> 16 & 0x000000FF000000FFull) * (1 + (10'000ull << 32));
        return (first + second) >> 32;
    }

    inline uint64_t digits_to(size_t stop, size_t count) const {
        if (count <= 8) return eight_to(stop, count);
        return eight_to(stop - 8, std::min<size_t>(count - 8, 8)) * 100'000'000 + eight_to(stop, 8);
    }

    // where the next byte stands that is no digit
    inline size_t next_stop() {
        while (marks == 0) {
            base += marked;
            mark();
        }
        const size_t stop = base + static_cast<size_t>(__builtin_ctzll(marks));
        marks &= marks - 1;
        return stop;
    }

    void start_at(size_t place) {
        at = base = place;
        mark();
    }

    void mark() {
        if (base + marked > end && !has_ended) refill();
        marks = marks_of(bytes + base);
    }

    // Moves what was not taken to the front, and reads on. Behind the file's end stand bytes that are no digits.
    void refill() {
        const size_t kept = end - std::min(at, end);
        std::memmove(bytes + marked, bytes + at, kept);
        base = marked + (base - at);
        at = marked;
        end = at + kept;
        for (const size_t full = end + block; end < full && !has_ended;) {
            const ssize_t count = read(file, bytes + end, full - end);
            has_ended = count <= 0;
            end += static_cast<size_t>(std::max<ssize_t>(count, 0));
        }
        std::memset(bytes + end, 0, 2 * marked);
        marks = 0;
    }

    int file;
    bool has_ended = false;
    // the next number, the bytes whose ends of numbers are marked, and the end of what is held
    size_t at = marked, base = marked, end = marked;
    uint64_t marks = 0;
    char bytes[block + 5 * marked] = {};
};

// All cells, 0 at first. Files go by columns, and to write these into rows would touch a cache line for each cell: so rows
// stand in panels, each column by column, until all is read.
class Table {
public:
    Table(uint64_t rows, uint64_t columns) : rows(rows), columns(columns) {
        void *const memory = mmap(nullptr, size(), PROT_READ | PROT_WRITE, MAP_PRIVATE | MAP_ANONYMOUS, -1, 0);
        if (memory == MAP_FAILED) throw std::bad_alloc();
        madvise(memory, size(), MADV_HUGEPAGE);
        cells = static_cast<int64_t *>(memory);
    }

    inline int64_t &at(uint64_t row, uint64_t column) {
        const uint64_t first = row & ~(panel - 1);
        return cells[first * columns + column * height(first) + (row - first)];
    }

    void turn_to_rows() {
        std::vector<int64_t> copy;
        for (uint64_t first = 0; first < rows; first += panel) {
            int64_t *const into = cells + first * columns;
            const uint64_t tall = height(first);
            copy.assign(into, into + tall * columns);
            for (uint64_t row = 0; row < tall; ++row)
                for (uint64_t column = 0; column < columns; ++column)
                    into[row * columns + column] = copy[column * tall + row];
        }
    }

    __int128 sum() const {
        __int128 all = 0;
        for (uint64_t cell = 0; cell < rows * columns; ++cell) all += cells[cell];
        return all;
    }

    const int64_t *row_by_row() const { return cells; }

    const uint64_t rows, columns;

private:
    static constexpr uint64_t panel = 256;

    size_t size() const { return rows * columns * sizeof(int64_t); }

    uint64_t height(uint64_t first) const { return std::min(panel, rows - first); }

    int64_t *cells;
};

std::string decimal_of(__int128 value) {
    const bool is_negative = value < 0;
    unsigned __int128 size = static_cast<unsigned __int128>(value);
    if (is_negative) size = -size;
    std::string text;
    do {
        text.insert(text.begin(), static_cast<char>('0' + static_cast<int>(size % 10)));
        size /= 10;
    } while (size != 0);
    return is_negative ? "-" + text : text;
}

bool read_array(Input &input, Table &table) {
    for (uint64_t column = 0; column < table.columns; ++column)
        for (uint64_t row = 0; row < table.rows; ++row) {
            if (input.is_at_end()) return false;
            table.at(row, column) = input.number();
        }
    return true;
}

bool read_coordinate(Input &input, Table &table, int64_t count) {
    for (; count > 0; --count) {
        if (input.is_at_end()) return false;
        const uint64_t row = static_cast<uint64_t>(input.number()) - 1;
        const uint64_t column = static_cast<uint64_t>(input.number()) - 1;
        if (row >= table.rows || column >= table.columns) return false;
        table.at(row, column) += input.number();
    }
    return true;
}

// The table of a file, its cells row by row; none where it is bad.
std::unique_ptr<Table> read_table(Input &input) {
    const bool is_array = input.line().find(" array ") != std::string::npos;
    const int64_t rows = input.number();
    const int64_t columns = input.number();
    if (rows < 1 || columns < 1) return nullptr;
    auto table = std::make_unique<Table>(static_cast<uint64_t>(rows), static_cast<uint64_t>(columns));
    if (!(is_array ? read_array(input, *table) : read_coordinate(input, *table, input.number()))) return nullptr;
    table->turn_to_rows();
    return table;
}

}  // namespace
