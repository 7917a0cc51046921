/// What needs no paths: why a text isn't a declaration, whether a journal is right, every schedule of a script. For wanzoche.hpp.
#ifndef WANZOCHE_TEXTS_HPP
#define WANZOCHE_TEXTS_HPP

#include "errors.hpp"

#include <algorithm>
#include <cstdint>
#include <new>
#include <optional>
#include <string>
#include <string_view>

namespace wanzoche {

/// What an audit says of a journal: true if each reply in it was right when it was given.
struct verdict {
    std::optional<std::uint64_t> wrong_line; ///< the first line whose reply wasn't, from 0, without a first line that names the room
    explicit operator bool() const noexcept { return !wrong_line; }
};

/// What all schedules of a script come to.
enum class outcome : std::uint32_t {
    all_done = WANZOCHE_ALL_DONE,    ///< every schedule ends done
    stalls = WANZOCHE_STALLS,        ///< one comes to where somebody waits and nobody can go on
    refused = WANZOCHE_REFUSED,      ///< in one a step is refused, as a `take` from an empty queue
    undecided = WANZOCHE_UNDECIDED,  ///< there are more states than were to be looked at
};

/// What explore found: true if every schedule ends done.
struct exploration {
    outcome found = outcome::undecided;
    std::uint64_t states = 0; ///< how many states were looked at, if all end done or it is undecided
    std::string journal;      ///< of a shortest schedule that goes wrong: its journal, as `pathsys explore` writes it
    std::string processes;    ///< and a line for each process: done, under way, or for what it waits
    explicit operator bool() const noexcept { return found == outcome::all_done; }
};

namespace detail {

/// A text of the library whose length isn't known before: `write(buffer, size)` says WANZOCHE_TOO_SMALL with its length, or
/// WANZOCHE_WRITTEN.
template <typename Write> std::string text_of(Write write, std::error_code &code) {
    std::string text;
    wanzoche_answer answer = write(nullptr, std::size_t{0});
    while (answer.code == WANZOCHE_TOO_SMALL) {
        text.resize(static_cast<std::size_t>(answer.number) + 1);
        answer = write(text.data(), text.size());
    }
    if (answer.code != WANZOCHE_WRITTEN) code = code_of(answer.code);
    text.resize(answer.code == WANZOCHE_WRITTEN ? static_cast<std::size_t>(answer.number) : 0);
    return text;
}

/// A text that may be no declaration, journal or script: its code, and the words that the library has for it.
struct refusal {
    std::error_code code;
    std::uint64_t at = 0;
    std::string words;
};

inline bool is_of_declaration(std::uint32_t code) { return code >= WANZOCHE_TOO_LONG && code <= WANZOCHE_TOO_MANY; }

inline refusal refusal_of(wanzoche_answer answer, const char *words) { return {code_of(answer.code), answer.number, words}; }

inline verdict audited(std::string_view text, std::string_view journal, std::uint32_t room, refusal &why) {
    char words[WANZOCHE_MESSAGE];
    const wanzoche_answer answer = wanzoche_audit(text.data(), text.size(), room, journal.data(), journal.size(), words, sizeof words);
    if (answer.code == WANZOCHE_SOUND) return {};
    if (answer.code == WANZOCHE_WRONG_LINE) return {answer.number};
    why = refusal_of(answer, words);
    return {};
}

inline exploration explored(std::string_view text, std::string_view script, std::uint32_t most, refusal &why) {
    exploration found;
    char words[WANZOCHE_STANDINGS] = "";
    const auto search = [&](char *buffer, std::size_t size) {
        return wanzoche_explore(text.data(), text.size(), script.data(), script.size(), most, buffer, size, words, sizeof words);
    };
    wanzoche_answer answer = search(nullptr, 0);
    if (answer.code == WANZOCHE_TOO_SMALL) {
        found.journal.resize(static_cast<std::size_t>(answer.number) + 1);
        answer = search(found.journal.data(), found.journal.size());
    }
    const bool goes_wrong = answer.code == WANZOCHE_STALLS || answer.code == WANZOCHE_REFUSED;
    found.journal.resize(goes_wrong ? static_cast<std::size_t>(answer.number) : 0);
    if (!goes_wrong && answer.code != WANZOCHE_ALL_DONE && answer.code != WANZOCHE_UNDECIDED) {
        why = refusal_of(answer, words);
        return found;
    }
    found.found = static_cast<outcome>(answer.code);
    if (goes_wrong) found.processes = words;
    else found.states = answer.number;
    return found;
}

} // namespace detail

/// What `pathsys check` says of a text that isn't a declaration: the place, the line with a mark, what could stand there, the nearest name.
/// Empty for a declaration, or where there is no memory. For people: the words may change.
inline std::string explain(std::string_view text) {
    std::error_code code;
    return detail::text_of(
        [&](char *buffer, std::size_t size) { return wanzoche_explain(text.data(), text.size(), buffer, size); }, code);
}

/// Audits a journal, whoever wrote it, under a declaration. The room is that of a journal which names none. In the time of its lines.
/// Codes are those of texts that are no declaration or no journal, bad_room and out_of_memory.
inline verdict audit(std::string_view declaration, std::string_view journal, std::uint32_t room, std::error_code &code) {
    detail::refusal why;
    const verdict said = detail::audited(declaration, journal, room, why);
    code = why.code;
    return said;
}

/// Looks at every schedule of a script under a declaration, up to so many states. Nothing else stops the search. Codes are those of texts
/// that are no declaration or no script, and out_of_memory.
inline exploration explore(std::string_view declaration, std::string_view script, std::uint32_t most, std::error_code &code) {
    detail::refusal why;
    exploration found = detail::explored(declaration, script, most, why);
    code = why.code;
    return found;
}

#if WANZOCHE_THROWS
namespace detail {

/// Throws why a text isn't a declaration, with its line, its column, and what explain says.
[[noreturn]] inline void throw_declaration(std::string_view text, std::error_code code, std::uint64_t at) {
    const std::string_view before = text.substr(0, static_cast<std::size_t>(at));
    const auto line = static_cast<std::size_t>(std::count(before.begin(), before.end(), '\n')) + 1;
    const std::size_t column = before.size() - (before.rfind('\n') + 1) + 1;
    std::string words = code.message() + " in line " + std::to_string(line) + ", column " + std::to_string(column);
    const std::string shown = explain(text); // `declaration:3:16: this isn't ..`
    const std::size_t begin = std::min(shown.find(": "), shown.size());
    words += shown.substr(begin, shown.find_last_not_of('\n') + 1 - begin);
    throw declaration_error(code, words, line, column);
}

/// Throws why a text was refused.
[[noreturn]] inline void throw_refusal(std::string_view declaration, const refusal &why) {
    if (why.code == errc::out_of_memory) throw std::bad_alloc();
    if (is_of_declaration(static_cast<std::uint32_t>(why.code.value()))) throw_declaration(declaration, why.code, why.at);
    throw error(why.code, why.words.empty() ? why.code.message() : why.words);
}

} // namespace detail

/// The same. Throws declaration_error, and error for a journal that isn't one or a bad room.
inline verdict audit(std::string_view declaration, std::string_view journal, std::uint32_t room = WANZOCHE_MOST_LINES) {
    detail::refusal why;
    const verdict said = detail::audited(declaration, journal, room, why);
    if (why.code) detail::throw_refusal(declaration, why);
    return said;
}

/// The same. Throws declaration_error, and error for a script that isn't one.
inline exploration explore(std::string_view declaration, std::string_view script, std::uint32_t most = 1000000) {
    detail::refusal why;
    exploration found = detail::explored(declaration, script, most, why);
    if (why.code) detail::throw_refusal(declaration, why);
    return found;
}
#endif

} // namespace wanzoche

#endif
