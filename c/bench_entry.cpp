// What an entry and its leave cost from C++ beside C: by an operation that was looked up, by its name, and by wanzoche_monitor.h, in turn.
// The least and the median of the rounds; their number may be given.
#include "wanzoche.hpp"

#include <cstdio>
#include <cstdlib>

static constexpr char BOOK[] = "resource book cell operation read, write path { read } , write end end";
static constexpr int EACH = 20000, MOST_ROUNDS = 1001;

static wanzoche_monitor in_c;

static double nanoseconds(std::chrono::steady_clock::time_point begun) {
    return std::chrono::duration<double, std::nano>(std::chrono::steady_clock::now() - begun).count() / EACH;
}

static double from_c() {
    const auto begun = std::chrono::steady_clock::now();
    for (int n = 0; n < EACH; n++) {
        const wanzoche_answer a = wanzoche_enter(&in_c, 1, 1, -1);
        if (a.code != WANZOCHE_STARTED) std::abort();
        wanzoche_leave(&in_c, 1, a.number);
    }
    return nanoseconds(begun);
}

template <typename What> static double from_cpp(wanzoche::paths &paths, What what) {
    const auto begun = std::chrono::steady_clock::now();
    for (int n = 0; n < EACH; n++) {
        const wanzoche::entry now = paths.enter(what);
        if (!now) std::abort();
    }
    return nanoseconds(begun);
}

static void tell(const char *what, std::vector<double> times, const std::vector<double> &beside) {
    std::vector<double> ratios;
    for (std::size_t n = 0; n < times.size(); n++) ratios.push_back(times[n] / beside[n]);
    std::sort(times.begin(), times.end());
    std::sort(ratios.begin(), ratios.end());
    const std::size_t middle = times.size() / 2;
    std::printf("%s: %.1f ns at least, %.1f by the median, in turn %.3f of C\n", what, times[0], times[middle], ratios[middle]);
}

int main(int arguments, char **argument) {
    const int rounds = arguments > 1 ? std::atoi(argument[1]) : 201;
    if (rounds < 1 || rounds > MOST_ROUNDS) return 2;
    if (wanzoche_monitor_open(&in_c, BOOK, sizeof BOOK - 1, 65536, nullptr, 0).code != WANZOCHE_OPENED) return 1;
    wanzoche::paths paths(BOOK);
    const wanzoche::operation write = paths.op("write");
    std::vector<double> c, looked_up, named;
    for (int n = 0; n < rounds; n++) {
        c.push_back(from_c());
        looked_up.push_back(from_cpp(paths, write));
        named.push_back(from_cpp(paths, "write"));
    }
    tell("in C", c, c);
    tell("in C++", looked_up, c);
    tell("in C++ by its name", named, c);
    wanzoche_monitor_close(&in_c);
    return 0;
}
