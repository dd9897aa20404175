// A plain program that draws and prints the table `t` of `sched_tool make NUMBER t`, to compare that command with:
// one buffer, the same bytes.
#include "draws.hpp"
#include <charconv>
#include <cstdio>
#include <cstdlib>
#include <string>

static char *put(char *at, int value, char after) {
    at = std::to_chars(at, at + 11, value).ptr;
    *at++ = after;
    return at;
}

int main(int count, char **words) {
    if (count != 2) return 2;
    Draws draws(std::strtoul(words[1], nullptr, 10));
    std::string text = "k,g,v\n";
    text.reserve(200000 * 13 + 6);
    for (int row = 0; row < 200000; ++row) {
        char line[36];
        char *at = put(line, draws.below(1000), ',');
        at = put(at, draws.below(16), ',');
        at = put(at, draws.signed_value(), '\n');
        text.append(line, at);
    }
    return std::fwrite(text.data(), 1, text.size(), stdout) == text.size() ? 0 : 4;
}
