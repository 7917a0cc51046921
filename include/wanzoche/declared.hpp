/// What a declaration declares: its operations and paths, read from the text that the library prints of it. For wanzoche.hpp.
#ifndef WANZOCHE_DECLARED_HPP
#define WANZOCHE_DECLARED_HPP

#include "library.hpp"

#include <algorithm>
#include <cctype>
#include <cstdint>
#include <optional>
#include <string>
#include <string_view>
#include <vector>

namespace wanzoche::detail {

/// One path: whose it is, what stands in it, and the numbers of the operations that it names.
struct declared_path {
    std::string resource;
    std::string text;
    std::vector<std::uint32_t> operations;
};

inline bool is_letter(char sign) { return std::isalpha(static_cast<unsigned char>(sign)) != 0; }
inline bool is_in_word(char sign) { return std::isalnum(static_cast<unsigned char>(sign)) != 0 || sign == '_'; }

/// The words, numbers and signs of a declaration, in order.
inline std::vector<std::string_view> tokens_of(std::string_view text) {
    std::vector<std::string_view> tokens;
    while (!text.empty()) {
        const auto word = std::find_if_not(text.begin(), text.end(), is_in_word) - text.begin();
        const std::size_t length = word == 0 ? 1 : static_cast<std::size_t>(word);
        if (std::isspace(static_cast<unsigned char>(text.front())) == 0) tokens.push_back(text.substr(0, length));
        text.remove_prefix(length);
    }
    return tokens;
}

/// The operations and paths of a declaration, both by their numbers.
class declared {
public:
    declared() = default;

    /// Reads them from a text that the library has printed, and so is right.
    explicit declared(std::string text) : text_(std::move(text)) {
        const std::vector<std::string_view> tokens = tokens_of(text_);
        std::string_view resource;
        for (std::size_t at = 0; at < tokens.size(); at++) {
            if (tokens[at] == "resource") resource = tokens[++at];
            else if (tokens[at] == "operation") at = read_names(tokens, at + 1);
            else if (tokens[at] == "path") at = read_path(tokens, at + 1, resource);
        }
    }

    const std::string &text() const { return text_; }
    const std::string &name(std::uint32_t operation) const { return names_[operation]; }
    const declared_path &path(std::uint64_t number) const { return paths_[number]; }
    const std::vector<std::string> &names() const { return names_; }

    /// The number of the operation with this name.
    std::optional<std::uint32_t> number(std::string_view name) const {
        const auto found = std::find(names_.begin(), names_.end(), name);
        if (found == names_.end()) return std::nullopt;
        return static_cast<std::uint32_t>(found - names_.begin());
    }

private:
    /// The names behind `operation`: words with commas between them. Returns where the last one stands.
    std::size_t read_names(const std::vector<std::string_view> &tokens, std::size_t at) {
        for (;; at += 2) {
            names_.emplace_back(tokens[at]);
            if (tokens[at + 1] != ",") return at;
        }
    }

    /// What stands between `path` and `end`. Returns where `end` stands.
    std::size_t read_path(const std::vector<std::string_view> &tokens, std::size_t at, std::string_view resource) {
        declared_path path{std::string(resource), {}, {}};
        for (; tokens[at] != "end"; at++) {
            path.text.append(path.text.empty() ? "" : " ").append(tokens[at]);
            if (is_letter(tokens[at].front())) path.operations.push_back(*number(tokens[at]));
        }
        paths_.push_back(std::move(path));
        return at;
    }

    std::string text_;
    std::vector<std::string> names_;
    std::vector<declared_path> paths_;
};

} // namespace wanzoche::detail

#endif
