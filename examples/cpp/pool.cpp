// A pool with three connections, in which up to three threads query at once, or one maintains. The pool has no lock and no condition of its
// own: the rule is the text POOL.
#include <wanzoche.hpp>

#include <iostream>
#include <thread>
#include <vector>

constexpr char POOL[] = "resource pool cell\n"
                        "operation query, maintain\n"
                        "path { query : 3 } , maintain end\n"
                        "end\n";

class Pool {
public:
    // Begins and ends a query. The entry is the query in progress: it ends where `connection` goes out of scope, also by an exception.
    void query() {
        const wanzoche::entry connection = paths_.enter(query_);
        answers_++;
    }

    // Maintains the pool, alone. Says why a query can't come in meanwhile.
    void maintain() {
        const wanzoche::entry alone = paths_.enter(maintain_);
        try {
            const wanzoche::entry connection = paths_.enter_for(query_, std::chrono::milliseconds(10));
        } catch (const wanzoche::blocked_error &error) {
            std::cout << error.what() << '\n';
        }
    }

    int answers() const { return answers_; }
    bool is_sound() const { return bool(paths_.audit(paths_.journal())); }

private:
    wanzoche::paths paths_{POOL};
    wanzoche::operation query_ = paths_.op("query"), maintain_ = paths_.op("maintain");
    std::atomic<int> answers_{0};
};

int main() {
    Pool pool;
    std::vector<std::thread> threads;
    for (int n = 0; n < 8; n++)
        threads.emplace_back([&pool] {
            for (int turn = 0; turn < 5; turn++) pool.query();
        });
    for (std::thread &each : threads) each.join();
    pool.maintain();
    std::cout << pool.answers() << " answers, journal " << (pool.is_sound() ? "sound" : "wrong") << '\n';
    return 0;
}
