// wanzoche.hpp: threads that enter, try, give up, throw, and hand entries to each other at random, seen by counters that the paths know
// nothing of. The log is audited afterwards. An argument says how many turns each thread takes.
#include "checks.hpp"

#include <cstdlib>
#include <mutex>
#include <random>
#include <vector>

static constexpr char POOL[] = "resource pool cell operation query, maintain path { query : 3 } , maintain end end";

/// What runs, as it sees itself.
struct witness {
    std::atomic<int> queries{0}, maintained{0};

    void query() {
        const int now = ++queries;
        CHECK(now >= 1 && now <= 3 && maintained == 0);
        std::this_thread::yield();
        queries--;
    }
    void maintain() {
        CHECK(++maintained == 1 && queries == 0);
        std::this_thread::yield();
        maintained--;
    }
};

/// Entries on their way to the thread that ends them.
class shelf {
public:
    void put(wanzoche::entry given) {
        const std::lock_guard<std::mutex> here(lock_);
        entries_.push_back(std::move(given));
    }
    wanzoche::entry take() {
        const std::lock_guard<std::mutex> here(lock_);
        if (entries_.empty()) return {};
        wanzoche::entry taken = std::move(entries_.back());
        entries_.pop_back();
        return taken;
    }

private:
    std::mutex lock_;
    std::vector<wanzoche::entry> entries_;
};

struct worker {
    wanzoche::paths &pool;
    wanzoche::operation query, maintain;
    witness &seen;
    shelf &handed;
    std::minstd_rand random;

    wanzoche::entry enters(wanzoche::operation what) {
        switch (random() % 4) {
        case 0: return pool.try_enter(what);
        case 1: return pool.try_enter_for(what, std::chrono::microseconds(random() % 2000));
        default: return pool.enter(what);
        }
    }

    void turn() {
        const bool maintains = random() % 5 == 0;
        wanzoche::entry now = enters(maintains ? maintain : query);
        if (!now) return;
        if (maintains) seen.maintain();
        else seen.query();
        const auto end = random() % 8;
        if (end == 0) throw std::runtime_error("thrown in a body");
        if (end == 1 && !maintains) handed.put(std::move(now));
        if (end == 2) now.leave();
    }

    void works(int turns) {
        for (int n = 0; n < turns; n++) {
            try {
                turn();
            } catch (const std::runtime_error &) {
            }
        }
    }
};

int main(int arguments, char **argument) {
    const int turns = arguments > 1 ? std::atoi(argument[1]) : 2000;
    std::string log;
    wanzoche::options small;
    small.room = 64;
    small.log = [&](std::string_view lines) { log += lines; };
    wanzoche::paths pool(POOL, small);
    witness seen;
    shelf handed;
    std::atomic<bool> is_over{false};
    std::thread ends_them([&] {
        for (bool is_last = false; !is_last; std::this_thread::yield()) {
            is_last = is_over;
            while (handed.take()) {
            }
        }
    });
    std::vector<std::thread> threads;
    for (unsigned n = 0; n < 8; n++)
        threads.emplace_back([&, n] {
            worker{pool, pool.op("query"), pool.op("maintain"), seen, handed, std::minstd_rand(n + 1)}.works(turns);
        });
    for (std::thread &each : threads) each.join();
    is_over = true;
    ends_them.join();
    pool.rotate();
    CHECK(pool.audit(log) && pool.report() == "startable query maintain\nfrozen no\n");
    std::printf("together: %d failures\n", failures.load());
    return failures != 0;
}
