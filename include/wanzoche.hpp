/// Wanzoche for C++17: threads wait until path expressions admit what they are about to do. Header only, over wanzoche_monitor.h.
///
///     wanzoche::paths slot("resource slot cell operation deposit, remove path deposit ; remove end end");
///     const wanzoche::operation deposit = slot.op("deposit");
///     ..
///     {
///         wanzoche::entry now = slot.enter(deposit);
///         .. the operation, which is over at the end of the block, also on an exception ..
///     }
///
/// CODES OR EXCEPTIONS. Each call that can fail throws an `error` or std::bad_alloc; with a std::error_code as its last argument it sets
/// that, to an errc or to nothing, and throws only std::bad_alloc where it makes strings. Under -fno-exceptions the second form is all
/// there is. After a fault nothing was started, and no device has changed.
///
/// THREADS. Paths are for all threads at once, but for moving and destroying them. Threads have numbers from 1, as they come. An entry is
/// one thread's at a time, and may be moved to another.
///
/// WAITING. Who waits gives way for a while and then sleeps. Those who wait stand in one order: a higher priority first, then as they came.
/// Once one has waited for the patience of the paths, what would stand in its way waits behind it. wanzoche_monitor.h says more. Limits
/// count from the call, and are rounded up to milliseconds.
///
/// LIFETIMES. Paths outlive their entries, and the calls of all threads. `close` releases who waits, from any thread.
#ifndef WANZOCHE_HPP
#define WANZOCHE_HPP

#include "wanzoche/declared.hpp"
#include "wanzoche/errors.hpp"
#include "wanzoche/texts.hpp"

#include <atomic>
#include <chrono>
#include <cmath>
#include <functional>
#include <memory>
#include <sstream>
#include <type_traits>
#include <utility>

namespace wanzoche {

class paths;

/// How paths are opened.
struct options {
    /// How many lines the journal takes before a new one is begun, 1 to 1,048,576, each of 144 bytes. Without a journal: one more than may
    /// be in progress at once, each of 32 bytes.
    std::uint32_t room = 65536;
    /// Whether lines are kept, for `journal`, `audit` and the log.
    bool journal = true;
    /// Gets the lines of a journal when a new one is begun. It is called under the lock: it is quick, calls nothing of these paths, and
    /// doesn't throw, which would end the program.
    std::function<void(std::string_view lines)> log = nullptr;
    /// How long one waits before starts are withheld for it. 0 or less keeps the order strictly. With milliseconds::max() nothing is
    /// withheld ever, and anybody who may begin goes past those who wait.
    std::chrono::milliseconds patience{5};
};

/// The number of the calling thread, from 1: threads are counted as they ask first.
inline std::uint32_t thread_number() noexcept {
    static std::atomic<std::uint32_t> last{0};
    thread_local std::uint32_t mine = 0;
    if (mine == 0) mine = ++last;
    return mine;
}

/// An operation of some paths, looked up once by `paths::op`. A value to be copied.
class operation {
public:
    /// One of no paths: each call refuses it with foreign_operation.
    constexpr operation() noexcept = default;
    friend constexpr bool operator==(operation one, operation other) noexcept {
        return one.number_ == other.number_ && one.owner_ == other.owner_;
    }
    friend constexpr bool operator!=(operation one, operation other) noexcept { return !(one == other); }

private:
    friend class paths;
    friend class entry;
    constexpr operation(std::uint64_t owner, std::uint32_t number) noexcept : owner_(owner), number_(number) {}
    std::uint64_t owner_ = 0;
    std::uint32_t number_ = 0;
};

/// An operation in progress, or nothing. It is over when this is left, destroyed, or assigned another. It can be moved, and not copied.
class [[nodiscard]] entry {
public:
    entry() noexcept = default;
    entry(entry &&other) noexcept
        : monitor_(std::exchange(other.monitor_, nullptr)), token_(other.token_), thread_(other.thread_) {}
    entry &operator=(entry &&other) noexcept {
        entry had(std::move(other));
        std::swap(monitor_, had.monitor_);
        std::swap(token_, had.token_);
        std::swap(thread_, had.thread_);
        return *this;
    }
    entry(const entry &) = delete;
    entry &operator=(const entry &) = delete;
    ~entry() { leave(); }

    /// Whether an operation is in progress here.
    explicit operator bool() const noexcept { return monitor_ != nullptr; }

    /// Ends the operation now, and lets in whoever may begin then. Does nothing the second time. Any thread may call it.
    void leave() noexcept {
        if (monitor_ != nullptr) (void)wanzoche_leave(std::exchange(monitor_, nullptr), thread_, token_);
    }

    /// The number of this activation, which rises with every start: for what refuses late writers. 0 if nothing is in progress.
    std::uint64_t token() const noexcept { return monitor_ == nullptr ? 0 : token_; }

    /// The number, queue or total that the resource declares. A cell has put, which returns the number before, and look; a tally has add
    /// and look, which return the total; a queue put, which returns how many it has then, take and look. Codes are not_offered, empty,
    /// full, overflow, not_in_progress, no_room, out_of_memory and closed.
    std::uint64_t put(std::uint64_t number, std::error_code &code) { return use(WANZOCHE_PUT, number, code); }
    std::uint64_t take(std::error_code &code) { return use(WANZOCHE_TAKE, 0, code); }
    std::uint64_t look(std::error_code &code) { return use(WANZOCHE_LOOK, 0, code); }
    std::uint64_t add(std::uint64_t number, std::error_code &code) { return use(WANZOCHE_ADD, number, code); }
#if WANZOCHE_THROWS
    std::uint64_t put(std::uint64_t number) { return use(WANZOCHE_PUT, number); }
    std::uint64_t take() { return use(WANZOCHE_TAKE, 0); }
    std::uint64_t look() { return use(WANZOCHE_LOOK, 0); }
    std::uint64_t add(std::uint64_t number) { return use(WANZOCHE_ADD, number); }
#endif

private:
    friend class paths;
    entry(wanzoche_monitor *monitor, std::uint32_t thread, std::uint64_t token) noexcept
        : monitor_(monitor), token_(token), thread_(thread) {}

    std::uint64_t use(std::uint32_t verb, std::uint64_t number, std::error_code &code) {
        code.clear();
        if (monitor_ == nullptr) return code = make_error_code(errc::not_in_progress), 0;
        const wanzoche_answer answer = wanzoche_monitor_use(monitor_, thread_, token_, verb, number);
        if (answer.code == WANZOCHE_USED) return answer.number;
        code = detail::code_of(answer.code);
        return 0;
    }

#if WANZOCHE_THROWS
    std::uint64_t use(std::uint32_t verb, std::uint64_t number) {
        std::error_code code;
        const std::uint64_t answer = use(verb, number, code);
        if (code) detail::throw_code(code);
        return answer;
    }
#endif

    wanzoche_monitor *monitor_ = nullptr;
    std::uint64_t token_ = 0;
    std::uint32_t thread_ = 0;
};

namespace detail {

/// What paths own. It stays where it is when they are moved.
struct state {
    state() : serial(next_serial()) {}
    state(const state &) = delete;
    state &operator=(const state &) = delete;
    ~state() { wanzoche_monitor_close(&monitor); }

    /// A number that no other paths of the program have.
    static std::uint64_t next_serial() noexcept {
        static std::atomic<std::uint64_t> last{0};
        return ++last;
    }

    wanzoche_monitor monitor{};
    declared declaration;
    std::function<void(std::string_view)> log;
    const std::uint64_t serial;
};

/// The monitor's lock, for calls that it has none for.
class locked {
public:
    explicit locked(wanzoche_monitor &monitor) : lock_(monitor.lock) { pthread_mutex_lock(&lock_); }
    locked(const locked &) = delete;
    locked &operator=(const locked &) = delete;
    ~locked() { pthread_mutex_unlock(&lock_); }

private:
    pthread_mutex_t &lock_;
};

/// A limit in milliseconds, rounded up: 0 if it isn't above 0, and at most what the monitor counts.
template <typename Number, typename Period> std::int64_t milliseconds_of(std::chrono::duration<Number, Period> limit) {
    constexpr double most = 1e12;
    const double milliseconds = std::ceil(std::chrono::duration<double, std::milli>(limit).count());
    if (!(milliseconds > 0)) return 0;
    return static_cast<std::int64_t>(milliseconds < most ? milliseconds : most);
}

/// The same from now until a time of a clock.
template <typename Clock, typename Duration> std::int64_t milliseconds_until(std::chrono::time_point<Clock, Duration> until) {
    const auto now = Clock::now();
    return until <= now ? 0 : milliseconds_of(until - now);
}

/// A limit in words, as ` for 2 seconds`; nothing if nobody waited.
inline std::string waited(std::int64_t milliseconds) {
    if (milliseconds <= 0) return {};
    std::ostringstream said;
    said << " for " << static_cast<double>(milliseconds) / 1000 << " seconds";
    return said.str();
}

} // namespace detail

} // namespace wanzoche

#include "wanzoche/paths.hpp"

#endif
