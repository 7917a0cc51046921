/// What the tests in C++ share: a check that counts, and declarations.
#ifndef CHECKS_HPP
#define CHECKS_HPP

#include "wanzoche.hpp"

#include <cstdio>
#include <thread>

inline std::atomic<int> failures{0};

#define CHECK(that)                                                            \
    do {                                                                       \
        if (!(that)) {                                                         \
            std::printf("%s:%d: not so: %s\n", __FILE__, __LINE__, #that);     \
            failures++;                                                        \
        }                                                                      \
    } while (0)

inline constexpr char SLOT[] = "resource slot cell operation deposit, remove path deposit ; remove end end";
inline constexpr char BOOK[] = "resource book cell operation read, write path { read } , write end end";

/// Returns when so many threads sleep until they may begin an operation.
inline void until_waiting(const wanzoche::paths &paths, const char *name, unsigned number) {
    std::error_code code;
    while (paths.waiting(name, code) != number) std::this_thread::sleep_for(std::chrono::microseconds(200));
}

#endif
