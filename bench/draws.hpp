// The draws of `sched_tool make`, for the plain programs that it and its queries are compared with.
#include <cstdint>

class Draws {
    std::uint64_t state;

  public:
    explicit Draws(std::uint64_t number) : state(1 + number % 2147483646) {}

    int below(std::uint64_t bound) {
        state = state * 48271 % 2147483647;
        return static_cast<int>(state % bound);
    }

    int signed_value() { return below(2001) - 1000; }
};
