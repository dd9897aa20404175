// A plain loader of integer CSV, to compare the program's loading with: the whole file, one pass, by column.
// It knows no quotes and tells no place of a fault. It prints the sum of the first column.
#include <charconv>
#include <cstdint>
#include <cstdio>
#include <string>
#include <string_view>
#include <vector>

static bool read_file(const char *name, std::string &bytes) {
    std::FILE *file = std::fopen(name, "rb");
    if (!file) return false;
    char piece[65536];
    for (std::size_t count; (count = std::fread(piece, 1, sizeof piece, file)) > 0;) bytes.append(piece, count);
    return std::fclose(file) == 0;
}

int main(int count, char **words) {
    std::string bytes;
    if (count != 2 || !read_file(words[1], bytes)) return 3;
    const char *at = bytes.data(), *end = at + bytes.size();

    std::size_t columns = 1;
    while (at != end && *at != '\n') columns += *at++ == ',';
    if (at != end) ++at;

    std::vector<std::vector<std::int64_t>> table(columns);
    while (at != end) {
        for (std::size_t column = 0; column < columns; ++column) {
            std::int64_t value;
            auto [rest, fault] = std::from_chars(at, end, value);
            if (fault != std::errc()) return 6;
            table[column].push_back(value);
            const char after = column + 1 < columns ? ',' : '\n';
            if (rest == end ? column + 1 < columns : *rest != after) return 6;
            at = rest == end ? rest : rest + 1;
        }
    }

    __int128 total = 0;
    for (std::int64_t value : table[0]) total += value;
    std::printf("%lld\n", static_cast<long long>(total));
}
