// SPDX-License-Identifier: Apache-2.0
// The tokens of a line of a script, the grids that they name, and the text of an answer.
#pragma once

#include "shared.h"

#include <openvdb/openvdb.h>

#include <array>
#include <charconv>
#include <cstdint>
#include <limits>
#include <map>
#include <memory>
#include <string>
#include <string_view>
#include <type_traits>
#include <variant>
#include <vector>

using openvdb::BoolGrid, openvdb::Int32Grid, openvdb::Int64Grid;
using openvdb::Coord, openvdb::CoordBBox;
using std::string_view;

/// A line that can't be carried out: the word that is answered behind `error`.
struct Refused { const char* word; };

/// A token of a line, and its number where it has the form of one.
struct Token {
    string_view text;
    int64_t number = 0;
    bool has_64_bits = true;
};

inline bool is_separator(char byte) { return byte == ' ' || byte == '\t' || byte == '\r'; }
inline bool is_digit(char byte) { return '0' <= byte && byte <= '9'; }
inline bool is_letter(char byte) { return 'a' <= byte && byte <= 'z'; }

/// Splits a line into its tokens.
inline void split(string_view line, std::vector<Token>& tokens) {
    tokens.clear();
    for (size_t at = 0, end = 0; at < line.size(); at = ++end) {
        while (end < line.size() && !is_separator(line[end])) ++end;
        if (end > at) tokens.push_back({line.substr(at, end - at)});
    }
}

inline bool is_name(string_view text) {
    if (text.size() > 16 || !is_letter(text[0])) return false;
    for (char byte : text)
        if (!is_letter(byte) && !is_digit(byte) && byte != '_') return false;
    return true;
}

/// Reads a decimal number into its token: `0`, or digits that don't begin with 0, with or without `-` before them.
inline bool read_number(Token& token) {
    string_view digits = token.text;
    if (digits[0] == '-') digits.remove_prefix(1);
    if (digits.empty() || !is_digit(digits[0]) || (digits[0] == '0' && token.text.size() > 1)) return false;
    const char* end = token.text.data() + token.text.size();
    auto [stop, error] = std::from_chars(token.text.data(), end, token.number);
    token.has_64_bits = error == std::errc();
    return stop == end;
}

/// Whether a token has a form: `n` a name, `k` a kind, `i` a number, `v` a value, `a` an accessor, `s` a state, `*` the word `all`.
inline bool has_form(char form, Token& token) {
    string_view text = token.text;
    switch (form) {
        case 'n': return is_name(text);
        case 'k': return text == "bool" || text == "i32" || text == "i64";
        case 'i': return read_number(token);
        case 'v': return text == "true" || text == "false" || read_number(token);
        case 'a': return text == "-" || read_number(token);
        case 's': return text == "on" || text == "off";
        default: return text == "all";
    }
}

inline int64_t number_in(const Token& token, int64_t least, int64_t greatest) {
    if (!token.has_64_bits || token.number < least || token.number > greatest) throw Refused{"value-range"};
    return token.number;
}

inline int32_t component(const Token& token) { return int32_t(number_in(token, INT32_MIN, INT32_MAX)); }
inline Coord coord(const Token* t) { return Coord{component(t[0]), component(t[1]), component(t[2])}; }
inline bool is_on(const Token& token) { return token.text == "on"; }

/// A box with these corners, which is refused where a minimum is greater than its maximum.
inline CoordBBox ordered(const Coord& min, const Coord& max) {
    for (int axis = 0; axis < 3; ++axis)
        if (min[axis] > max[axis]) throw Refused{"box"};
    return {min, max};
}

/// The box of six tokens.
inline CoordBBox box(const Token* t) {
    Coord min = coord(t), max = coord(t + 3);
    return ordered(min, max);
}

/// How many coordinates a box has along an axis.
inline int64_t extent(const CoordBBox& box, int axis) { return int64_t(box.max()[axis]) - box.min()[axis] + 1; }

/// The value of a token, of the kind of a grid.
template <class V>
V value(const Token& token) {
    bool is_truth = token.text == "true" || token.text == "false";
    if (is_truth != std::is_same_v<V, bool>) throw Refused{"kind"};
    if constexpr (std::is_same_v<V, bool>) return token.text == "true";
    else return V(number_in(token, std::numeric_limits<V>::min(), std::numeric_limits<V>::max()));
}

/// A grid with eight accessors, each of which is made when a line names it first.
template <class G>
struct Held {
    using Value = typename G::ValueType;
    typename G::Ptr grid;
    std::array<std::unique_ptr<typename G::Accessor>, 8> accessors;

    explicit Held(typename G::Ptr held) : grid(std::move(held)) {}
    auto& tree() { return grid->tree(); }

    /// Calls `act` with the accessor that a token names, or with the tree where the token is `-`.
    template <class Act>
    void through(const Token& token, Act act) {
        if (token.text == "-") return act(tree());
        if (!token.has_64_bits || token.number < 0 || token.number > 7) throw Refused{"no-accessor"};
        auto& accessor = accessors[token.number];
        if (!accessor) accessor = std::make_unique<typename G::Accessor>(tree());
        act(*accessor);
    }
};

template <class H> using ValueOf = typename std::decay_t<H>::Value;

/// The grids by their names, and the answer to the line that is carried out.
struct Session {
    std::map<std::string, std::variant<Held<BoolGrid>, Held<Int32Grid>, Held<Int64Grid>>, std::less<>> grids;
    std::string answer;

    auto& find(const Token& name) {
        auto found = grids.find(name.text);
        if (found == grids.end()) throw Refused{"no-grid"};
        return found->second;
    }

    /// Calls `act` with the grid that a token names.
    template <class Act>
    void with(const Token& name, Act act) { std::visit(act, find(name)); }

    /// Refuses a name that can't be given to a further grid.
    void check_new(const Token& name) {
        if (grids.count(name.text)) throw Refused{"name-taken"};
        if (grids.size() == 64) throw Refused{"grid-limit"};
    }

    template <class G>
    void insert(string_view name, std::shared_ptr<G> grid) { grids.emplace(std::string(name), Held<G>(std::move(grid))); }

    void print(string_view text) { answer += text; }
    void print(bool truth) { answer += truth ? "true" : "false"; }
    void print(int32_t number) { print(int64_t(number)); }
    void print(int64_t number) {
        char digits[24];
        answer.append(digits, std::to_chars(digits, digits + sizeof digits, number).ptr);
    }
    void print(const Coord& at) { print(at.x()), print(string_view(" ")), print(at.y()), print(string_view(" ")), print(at.z()); }

    /// Prints one part after another, texts and numbers.
    template <class... Parts>
    void add(const Parts&... parts) { (print(parts), ...); }
    void done() { answer += "ok\n"; }
};

constexpr string_view space = " ", line_end = "\n";
