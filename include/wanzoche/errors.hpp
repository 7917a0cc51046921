/// What can be wrong: codes, and exceptions that say it in words. For wanzoche.hpp.
#ifndef WANZOCHE_ERRORS_HPP
#define WANZOCHE_ERRORS_HPP

#include "library.hpp"

#include <chrono>
#include <cstdint>
#include <new>
#include <optional>
#include <sstream>
#include <stdexcept>
#include <string>
#include <system_error>
#include <utility>
#include <vector>

namespace wanzoche {

/// Why a call wasn't served. Then nothing was started and no device has changed. The numbers are those of wanzoche.h, where it has one;
/// they never change.
enum class errc : int {
    blocked = WANZOCHE_BLOCKED,                     ///< a path forbids the operation, and the time is over
    unknown_operation = WANZOCHE_UNKNOWN_OPERATION, ///< no operation has this name
    not_offered = WANZOCHE_NOT_OFFERED,             ///< the device doesn't offer this verb
    empty = WANZOCHE_EMPTY,                         ///< the queue is empty
    full = WANZOCHE_FULL,                           ///< the queue is full
    overflow = WANZOCHE_OVERFLOW,                   ///< the total would be above 2^64 - 1
    not_in_progress = WANZOCHE_STALE,               ///< the entry is over, or is empty
    no_room = WANZOCHE_NO_ROOM,                     ///< as much is in progress as there is room for, or 4,294,967,295 were started
    bad_room = WANZOCHE_BAD_ROOM,                   ///< the room isn't 1 to 1,048,576
    out_of_memory = WANZOCHE_OUT_OF_MEMORY,         ///< an allocation failed
    no_journal = WANZOCHE_NO_JOURNAL,               ///< the paths keep no lines
    // Why a text isn't a journal.
    journal_too_long = WANZOCHE_JOURNAL_TOO_LONG,
    bad_line = WANZOCHE_BAD_LINE,
    undeclared_line = WANZOCHE_UNDECLARED_LINE,
    // Why a text isn't a declaration.
    too_long = WANZOCHE_TOO_LONG,
    bad_byte = WANZOCHE_BAD_BYTE,
    word_too_long = WANZOCHE_WORD_TOO_LONG,
    number_too_long = WANZOCHE_NUMBER_TOO_LONG,
    unexpected = WANZOCHE_UNEXPECTED,
    too_deep = WANZOCHE_TOO_DEEP,
    duplicate_resource = WANZOCHE_DUPLICATE_RESOURCE,
    duplicate_operation = WANZOCHE_DUPLICATE_OPERATION,
    undeclared = WANZOCHE_UNDECLARED,
    repeated_name = WANZOCHE_REPEATED_NAME,
    nested_braces = WANZOCHE_NESTED_BRACES,
    bad_capacity = WANZOCHE_BAD_CAPACITY,
    bad_count = WANZOCHE_BAD_COUNT,
    too_many = WANZOCHE_TOO_MANY,
    // Why a text isn't a script.
    script_too_long = WANZOCHE_SCRIPT_TOO_LONG,
    script_bad_line = WANZOCHE_SCRIPT_BAD_LINE,
    script_undeclared = WANZOCHE_SCRIPT_UNDECLARED,
    script_unbalanced = WANZOCHE_SCRIPT_UNBALANCED,
    script_too_deep = WANZOCHE_SCRIPT_TOO_DEEP,
    script_too_many = WANZOCHE_SCRIPT_TOO_MANY,
    withheld = WANZOCHE_WITHHELD, ///< one that waits comes before, and the time is over; no path forbids the operation
    // What the library has no number for.
    closed = 256,            ///< the paths are closed, or were closed while the call waited
    foreign_operation = 257, ///< the operation was looked up in other paths
};

} // namespace wanzoche

template <> struct std::is_error_code_enum<wanzoche::errc> : std::true_type {};

namespace wanzoche {

/// What is in progress: an operation, the number of the thread that began it, and its token.
struct activity {
    std::string operation;
    std::uint32_t thread;
    std::uint64_t token;
};

/// A thread that waits: what for, the thread's number, with which priority, and for how long up to now.
struct waiter {
    std::string operation;
    std::uint32_t thread;
    std::uint32_t priority;
    std::chrono::milliseconds waited;

    /// In words: `backup by thread 3, which has waited 2.1 s`.
    std::string words() const {
        std::ostringstream said;
        said << operation << " by thread " << thread << ", which has waited " << std::chrono::duration<double>(waited).count() << " s";
        return said.str();
    }
};

/// What forbids an operation: the first path that does, of the declaration. Or no path does, and it is withheld for one that waits and
/// comes before: then `ahead` is there, and what speaks of a path is empty.
struct blockage {
    std::string operation;              ///< what can't begin
    std::uint32_t path;                 ///< the path's number, from 0 in the order of the text
    std::string resource;               ///< whose path it is
    std::string text;                   ///< what stands in the path, as `deposit ; remove`
    std::vector<activity> in_progress;  ///< what of the path is in progress, in the order of the starts
    std::vector<std::string> may_begin; ///< which operations of the path no path forbids now
    std::optional<waiter> ahead;        ///< for whom it is withheld

    /// In words: `remove is blocked: path 0 of slot: deposit ; remove; in progress: deposit by thread 3`, or `read is withheld: behind
    /// backup by thread 3, which has waited 2.1 s`. A time that was waited stands before the colon.
    std::string words(const std::string &waited = {}) const {
        if (ahead) return operation + " is withheld" + waited + ": behind " + ahead->words();
        std::string said = operation + " is blocked" + waited + ": path " + std::to_string(path) + " of " + resource + ": " + text;
        said += "; in progress: ";
        if (in_progress.empty()) return said + "nothing of it; may begin next: " + list_of_names();
        for (const activity &each : in_progress)
            said += (&each == in_progress.data() ? "" : ", ") + each.operation + " by thread " + std::to_string(each.thread);
        return said;
    }

private:
    std::string list_of_names() const {
        std::string names;
        for (const std::string &each : may_begin) names += (names.empty() ? "" : ", ") + each;
        return names.empty() ? "nothing" : names;
    }
};

namespace detail {

class category final : public std::error_category {
public:
    const char *name() const noexcept override { return "wanzoche"; }
    std::string message(int value) const override {
        if (value == static_cast<int>(errc::closed)) return "closed";
        if (value == static_cast<int>(errc::foreign_operation)) return "an operation of other paths";
        return wanzoche_words(static_cast<std::uint32_t>(value));
    }
    std::error_condition default_error_condition(int value) const noexcept override {
        if (value == static_cast<int>(errc::out_of_memory)) return std::errc::not_enough_memory;
        if (value == static_cast<int>(errc::blocked) || value == static_cast<int>(errc::withheld)) return std::errc::timed_out;
        return {value, *this};
    }
};

} // namespace detail

/// The category of these codes. `code == std::errc::timed_out` holds for errc::blocked and errc::withheld, and not_enough_memory for
/// errc::out_of_memory.
inline const std::error_category &category() noexcept {
    static const detail::category the_one;
    return the_one;
}

inline std::error_code make_error_code(errc code) noexcept { return {static_cast<int>(code), category()}; }

namespace detail {

/// An answer of the library as a fault. WANZOCHE_CLOSED is 0 there, which is no fault for std::error_code.
inline errc fault_of(std::uint32_t answer) noexcept { return answer == WANZOCHE_CLOSED ? errc::closed : static_cast<errc>(answer); }

inline std::error_code code_of(std::uint32_t answer) noexcept { return make_error_code(fault_of(answer)); }

} // namespace detail

#if WANZOCHE_THROWS
/// What all exceptions of this header are. `what()` says it in words, and `code()` is an errc. Want of memory is std::bad_alloc.
class error : public std::runtime_error {
public:
    error(std::error_code code, const std::string &words) : std::runtime_error(words), code_(code) {}
    const std::error_code &code() const noexcept { return code_; }

private:
    std::error_code code_;
};

/// The paths are closed, or were closed while the call waited.
class closed_error : public error {
public:
    closed_error() : error(make_error_code(errc::closed), "the paths are closed") {}
};

/// The time is over. A path forbids the operation still, or it is withheld for one that waits: the code is errc::blocked or errc::withheld.
class blocked_error : public error {
public:
    blocked_error(blockage why, const std::string &waited)
        : error(make_error_code(why.ahead ? errc::withheld : errc::blocked), why.words(waited)), why_(std::move(why)) {}
    const blockage &why() const noexcept { return why_; }

private:
    blockage why_;
};

/// No operation has this name. The words list those that are declared.
class unknown_operation_error : public error {
public:
    explicit unknown_operation_error(const std::string &words) : error(make_error_code(errc::unknown_operation), words) {}
};

/// A text isn't a declaration. The words show the line with a mark below the place, and what could stand there.
class declaration_error : public error {
public:
    declaration_error(std::error_code code, const std::string &words, std::size_t line, std::size_t column)
        : error(code, words), line_(line), column_(column) {}
    /// The line and the column of the fault, in bytes, both from 1.
    std::size_t line() const noexcept { return line_; }
    std::size_t column() const noexcept { return column_; }

private:
    std::size_t line_, column_;
};

namespace detail {

/// Throws what a code says that needs no more words.
[[noreturn]] inline void throw_code(std::error_code code) {
    if (code == errc::closed) throw closed_error();
    if (code == errc::out_of_memory) throw std::bad_alloc();
    throw error(code, code.message());
}

} // namespace detail
#endif

} // namespace wanzoche

#endif
