// wanzoche.hpp: who comes next. The clock of the monitor stands still, so nothing depends on how long a step takes.
#include <ctime>
#include <pthread.h>

static int stands_still(clockid_t clock, timespec *now) {
    static const timespec begun = [clock] {
        timespec read{};
        clock_gettime(clock, &read);
        return read;
    }();
    *now = begun;
    return 0;
}

#include <chrono>
#include <thread>
#define clock_gettime stands_still
#include "checks.hpp"
#undef clock_gettime

using namespace std::chrono_literals;

static wanzoche::options with_patience(std::chrono::milliseconds patience) {
    wanzoche::options settings;
    settings.patience = patience;
    return settings;
}

/// Whether another thread comes in at once.
static bool comes_in(wanzoche::paths &paths, const wanzoche::wanted &what) {
    bool is_in = false;
    std::thread([&] { is_in = bool(paths.try_enter(what)); }).join();
    return is_in;
}

/// A reader, behind which a thread waits to write.
struct scene {
    explicit scene(std::chrono::milliseconds patience) : book(BOOK, with_patience(patience)) {
        reading = book.enter("read");
        writer = std::thread([this] {
            number = wanzoche::thread_number();
            (void)book.enter("write");
        });
        until_waiting(book, "write", 1);
    }
    ~scene() {
        reading.leave();
        writer.join();
    }
    scene(const scene &) = delete;
    scene &operator=(const scene &) = delete;

    wanzoche::paths book;
    wanzoche::entry reading;
    std::thread writer;
    std::atomic<std::uint32_t> number{0};
};

static void patience() {
    {
        scene strict(0ms);
        CHECK(!comes_in(strict.book, "read") && comes_in(strict.book, wanzoche::with_priority("read", 1)));
        CHECK(strict.book.try_enter("read")); // who reads already may read once more
    }
    scene usual(5ms);
    CHECK(comes_in(usual.book, "read"));
    scene never(std::chrono::milliseconds::max());
    CHECK(comes_in(never.book, "read"));
    scene below(-1ms);
    CHECK(!comes_in(below.book, "read"));
}

/// What a thread is told that comes behind the writer.
static void words() {
    scene strict(0ms);
    const std::string behind = "behind write by thread " + std::to_string(strict.number) + ", which has waited 0 s";
    std::thread([&] {
        std::error_code code;
        CHECK(!strict.book.enter_for("read", 20ms, code) && code == wanzoche::errc::withheld && code == std::errc::timed_out);
        CHECK(code.message() == "withheld");
        CHECK(!strict.book.enter_until("read", std::chrono::steady_clock::now(), code) && code == wanzoche::errc::withheld);
        CHECK(!strict.book.try_enter_for("read", 1us, code) && !code);
        try {
            (void)strict.book.enter_for("read", 20ms);
            CHECK(false);
        } catch (const wanzoche::blocked_error &error) {
            CHECK(error.what() == "read is withheld for 0.02 seconds: " + behind);
            CHECK(error.code() == wanzoche::errc::withheld && error.why().ahead && error.why().ahead->operation == "write");
        }
        const auto why = strict.book.why("read");
        CHECK(why && why->words() == "read is withheld: " + behind && why->ahead->waited == 0ms && why->text.empty());
        CHECK(!strict.book.why(wanzoche::with_priority("read", 1)));
        const auto refused = strict.book.why("write");
        CHECK(refused && !refused->ahead && refused->text == "{ read } , write");
    }).join();
    const std::vector<wanzoche::waiter> waiting = strict.book.waiting();
    CHECK(waiting.size() == 1 && waiting[0].operation == "write" && waiting[0].thread == strict.number && waiting[0].priority == 0);
}

/// Those who wait come in by their priority, and then as they came.
static void priorities() {
    constexpr std::uint32_t priority[] = {0, 2, 1, 2}, comes[] = {3, 0, 2, 1};
    wanzoche::paths book(BOOK, with_patience(0ms));
    wanzoche::entry writing = book.enter("write");
    std::vector<std::thread> threads;
    std::vector<std::uint32_t> came;
    for (std::uint32_t n = 0; n < 4; n++) {
        threads.emplace_back([&, n] {
            const wanzoche::entry now = book.enter(wanzoche::with_priority("write", priority[n]));
            came.push_back(n);
        });
        until_waiting(book, "write", n + 1);
    }
    const std::vector<wanzoche::waiter> waiting = book.waiting();
    CHECK(waiting.size() == 4 && waiting[0].priority == 2 && waiting[1].priority == 2 && waiting[2].priority == 1);
    writing.leave();
    for (std::thread &each : threads) each.join();
    for (std::uint32_t n = 0; n < 4; n++) CHECK(came[comes[n]] == n);
    std::error_code code;
    CHECK(book.waiting(code).empty() && !code);
    CHECK(wanzoche::paths().waiting(code).empty() && code == wanzoche::errc::closed);
}

int main() {
    patience();
    words();
    priorities();
    std::printf("order: %d failures\n", failures.load());
    return failures != 0;
}
