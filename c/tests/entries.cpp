// wanzoche.hpp: entries, limits, closing, and what is thrown.
#include "checks.hpp"

#include <vector>

using namespace std::chrono_literals;

static_assert(!std::is_copy_constructible_v<wanzoche::entry> && !std::is_copy_assignable_v<wanzoche::entry>);
static_assert(!std::is_copy_constructible_v<wanzoche::paths> && !std::is_copy_assignable_v<wanzoche::paths>);
static_assert(std::is_nothrow_move_constructible_v<wanzoche::entry> && std::is_nothrow_move_assignable_v<wanzoche::entry>);
static_assert(std::is_nothrow_move_constructible_v<wanzoche::paths> && std::is_nothrow_move_assignable_v<wanzoche::paths>);
static_assert(std::is_trivially_copyable_v<wanzoche::operation>);

/// What a call throws, by its words, after a look at its type.
template <typename Thrown, typename Call> static std::string words_of(Call call) {
    try {
        call();
    } catch (const Thrown &thrown) {
        return thrown.what();
    } catch (const std::exception &other) {
        return std::string("another exception: ") + other.what();
    }
    return "nothing is thrown";
}

static bool is_free(wanzoche::paths &paths, const char *name) { return bool(paths.try_enter(name)); }

static void an_entry_ends_with_its_block() {
    wanzoche::paths book(BOOK);
    {
        wanzoche::entry writing = book.enter("write");
        CHECK(writing && writing.token() == 0 && !is_free(book, "read"));
    }
    CHECK(is_free(book, "read"));
    try {
        const wanzoche::entry writing = book.enter("write");
        throw 7;
    } catch (int) {
        CHECK(is_free(book, "write"));
    }
    wanzoche::entry reading = book.enter("read");
    reading.leave();
    CHECK(!reading && reading.token() == 0 && is_free(book, "write"));
    reading.leave();
    CHECK(book.audit(book.journal()));
}

static void entries_move() {
    wanzoche::paths book(BOOK);
    wanzoche::entry one = book.enter("read");
    wanzoche::entry other = std::move(one);
    CHECK(!one && other && !is_free(book, "write")); // NOLINT(bugprone-use-after-move): it is empty
    one = book.enter("read");
    one = std::move(other); // ends what `one` had
    CHECK(one && !other && one.token() == 0); // NOLINT(bugprone-use-after-move)
    wanzoche::entry &itself = one;
    one = std::move(itself);
    CHECK(one && !is_free(book, "write"));
    std::vector<wanzoche::entry> many;
    for (int n = 0; n < 5; n++) many.push_back(book.enter("read"));
    many.erase(many.begin() + 1);
    one = wanzoche::entry();
    CHECK(!is_free(book, "write"));
    many.clear();
    CHECK(is_free(book, "write") && book.audit(book.journal()));
    one = book.enter("write");
    std::thread([moved = std::move(one)]() mutable { moved.leave(); }).join();
    CHECK(is_free(book, "write"));
}

static void paths_move() {
    wanzoche::paths one(BOOK);
    const wanzoche::operation read = one.op("read");
    wanzoche::entry reading = one.enter(read);
    wanzoche::paths other = std::move(one);
    CHECK(other.try_enter(read));
    std::error_code code;
    CHECK(!one.enter(read, code) && code == wanzoche::errc::closed); // NOLINT(bugprone-use-after-move): they are closed
    reading.leave();
    CHECK(is_free(other, "write"));
    other = wanzoche::paths(SLOT);
    CHECK(is_free(other, "deposit"));
}

static void names() {
    wanzoche::paths slot(SLOT), same(SLOT);
    const wanzoche::operation deposit = slot.op("deposit");
    CHECK(deposit == slot.op(std::string("deposit")) && deposit != slot.op("remove") && deposit != same.op("deposit"));
    CHECK(words_of<wanzoche::unknown_operation_error>([&] { (void)slot.op("remoove"); }) ==
          "no operation 'remoove' is declared; there are deposit, remove");
    CHECK(words_of<wanzoche::unknown_operation_error>([&] { (void)slot.enter("Deposit"); }).rfind("no operation 'Deposit'", 0) == 0);
    CHECK(words_of<wanzoche::error>([&] { (void)same.enter(deposit); }) == "an operation of other paths");
    std::error_code code;
    CHECK(!slot.enter("remoove", code) && code == wanzoche::errc::unknown_operation && code.message() == "unknown operation");
    CHECK(!same.enter(deposit, code) && code == wanzoche::errc::foreign_operation);
    CHECK(!slot.enter(wanzoche::operation(), code) && code == wanzoche::errc::foreign_operation);
    CHECK(slot.enter(deposit, code) && !code);
    CHECK(same.journal().empty());
}

static void what_is_not_blocked_does_not_wait() {
    wanzoche::paths slot(SLOT);
    std::error_code code;
    CHECK(slot.enter_for("deposit", -1h));
    CHECK(slot.enter_for("remove", 0s, code));
    CHECK(slot.try_enter("deposit", code));
    CHECK(slot.try_enter_for("remove", std::chrono::hours::max()));
    CHECK(slot.enter_for("deposit", std::chrono::hours::max()));
    CHECK(slot.enter_until("remove", std::chrono::system_clock::time_point::min()));
    CHECK(slot.try_enter_until("deposit", std::chrono::steady_clock::now() + 1h));
    CHECK(slot.audit(slot.journal()));
}

static void limits() {
    wanzoche::paths slot(SLOT);
    const wanzoche::operation remove = slot.op("remove");
    std::error_code code;
    const auto begun = std::chrono::steady_clock::now();
    CHECK(!slot.enter_for(remove, 30ms, code) && code == wanzoche::errc::blocked && code == std::errc::timed_out);
    CHECK(std::chrono::steady_clock::now() - begun >= 30ms);
    CHECK(!slot.enter_until(remove, begun + 60ms, code) && code == wanzoche::errc::blocked);
    CHECK(std::chrono::steady_clock::now() - begun >= 60ms);
    CHECK(!slot.try_enter_for(remove, 1us, code) && !code);
    CHECK(!slot.try_enter_until(remove, std::chrono::system_clock::now() + 1ms, code) && !code);
    CHECK(!slot.try_enter(remove) && !slot.try_enter_for(remove, 1ns) && !slot.try_enter_until(remove, begun));
    CHECK(words_of<wanzoche::blocked_error>([&] { (void)slot.enter_for(remove, 20ms); }) ==
          "remove is blocked for 0.02 seconds: path 0 of slot: deposit ; remove; in progress: nothing of it; may begin next: deposit");
    CHECK(words_of<wanzoche::blocked_error>([&] { (void)slot.enter_until(remove, begun); }).rfind("remove is blocked: path 0", 0) == 0);
    std::thread later([&] {
        until_waiting(slot, "remove", 1);
        (void)slot.enter("deposit");
    });
    CHECK(slot.enter_for(remove, 10min));
    later.join();
}

/// Threads wait in each form, with a limit and without. All are released, and none has begun anything.
static void closing() {
    wanzoche::paths slot(SLOT);
    wanzoche::entry inside = slot.enter("deposit");
    std::atomic<int> released{0};
    std::vector<std::thread> threads;
    const auto waits = [&](auto call) {
        threads.emplace_back([&released, call] {
            std::error_code code;
            try {
                CHECK(!call(code));
            } catch (const wanzoche::closed_error &thrown) {
                code = thrown.code();
            }
            released += code == wanzoche::errc::closed;
        });
    };
    waits([&](std::error_code &code) { return slot.enter("remove", code); });
    waits([&](std::error_code &) { return slot.enter("remove"); });
    waits([&](std::error_code &) { return slot.enter_for("remove", 1h); });
    waits([&](std::error_code &) { return slot.try_enter_until("remove", std::chrono::system_clock::now() + 1h); });
    until_waiting(slot, "remove", 4);
    slot.close();
    for (std::thread &each : threads) each.join();
    CHECK(released == 4);
    inside.leave();
    slot.close();
    CHECK(words_of<wanzoche::closed_error>([&] { (void)slot.enter("deposit"); }) == "the paths are closed");
    CHECK(words_of<wanzoche::closed_error>([&] { (void)slot.report(); }) == "the paths are closed");
    CHECK(words_of<wanzoche::closed_error>([&] { (void)slot.why("deposit"); }) == "the paths are closed");
}

static void closed_ones() {
    wanzoche::paths none;
    std::error_code code;
    const auto is_closed = [&] { return std::exchange(code, {}) == wanzoche::errc::closed; };
    none.close();
    CHECK(none.op("a", code) == wanzoche::operation() && is_closed());
    CHECK(!none.enter("a", code) && is_closed());
    CHECK(!none.enter(wanzoche::operation(), code) && is_closed());
    CHECK(!none.try_enter("a", code) && is_closed());
    CHECK(!none.why("a", code) && is_closed());
    CHECK(none.waiting("a", code) == 0 && is_closed());
    CHECK(none.report(code).empty() && is_closed());
    CHECK(none.journal(code).empty() && is_closed());
    none.rotate(code);
    CHECK(is_closed());
    CHECK(none.audit("", code) && is_closed());
    CHECK(none.declaration().empty());
    CHECK(words_of<wanzoche::closed_error>([&] { (void)none.audit(""); }) == "the paths are closed");
    wanzoche::entry nothing;
    CHECK(!nothing && nothing.look(code) == 0 && code == wanzoche::errc::not_in_progress);
}

int main() {
    an_entry_ends_with_its_block();
    entries_move();
    paths_move();
    names();
    what_is_not_blocked_does_not_wait();
    limits();
    closing();
    closed_ones();
    std::printf("entries: %d failures\n", failures.load());
    return failures != 0;
}
