// The sum of an array file's entries, as fast as one thread may plainly find it: the file is mapped, and each number
// is read by hand where it lies. It stops at a table that is cut short, and looks for no other fault.
#include <cstdio>
#include <string>

#include <fcntl.h>
#include <sys/mman.h>
#include <sys/stat.h>
#include <unistd.h>

namespace {

const char *after_line(const char *at, const char *end) {
    while (at < end && *at != '\n') ++at;
    return at < end ? at + 1 : end;
}

// a number, and the one byte behind it
const char *read_number(const char *at, const char *end, long long &value) {
    const bool is_negative = at < end && *at == '-';
    if (is_negative) ++at;
    unsigned long long size = 0;
    for (; at < end && static_cast<unsigned char>(*at - '0') < 10; ++at)
        size = size * 10 + static_cast<unsigned char>(*at - '0');
    value = is_negative ? -static_cast<long long>(size) : static_cast<long long>(size);
    return at < end ? at + 1 : end;
}

std::string decimal_of(__int128 value) {
    const bool is_negative = value < 0;
    unsigned __int128 size = static_cast<unsigned __int128>(value);
    if (is_negative) size = -size;
    std::string text;
    do {
        text.insert(text.begin(), static_cast<char>('0' + static_cast<int>(size % 10)));
        size /= 10;
    } while (size != 0);
    return is_negative ? "-" + text : text;
}

}  // namespace

int main(int count, char **words) {
    if (count != 2) return 2;
    const int file = open(words[1], O_RDONLY);
    struct stat about;
    if (file < 0 || fstat(file, &about) != 0 || about.st_size == 0) return 3;
    const size_t length = static_cast<size_t>(about.st_size);
    void *const mapped = mmap(nullptr, length, PROT_READ, MAP_PRIVATE, file, 0);
    if (mapped == MAP_FAILED) return 4;
    madvise(mapped, length, MADV_SEQUENTIAL);

    const char *at = static_cast<const char *>(mapped);
    const char *const end = at + length;
    long long rows, cols, value;
    at = read_number(read_number(after_line(at, end), end, rows), end, cols);
    __int128 sum = 0;
    for (long long left = rows * cols; left > 0; --left) {
        if (at == end) return 7;
        at = read_number(at, end, value);
        sum += value;
    }
    return std::puts(decimal_of(sum).c_str()) < 0 || std::fflush(stdout) != 0 ? 5 : 0;
}
