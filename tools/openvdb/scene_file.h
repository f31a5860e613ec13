// SPDX-License-Identifier: Apache-2.0
// The scene file of docs/FORMAT.md: its limits, its faults, and the reading of its fields.
#pragma once

#include "program.h"

#include <cstdint>
#include <map>
#include <string>
#include <string_view>
#include <vector>

namespace scene {

constexpr uint64_t most_bytes = 268'435'456;
constexpr uint16_t most_grids = 64;
constexpr uint8_t most_pairs = 16;
constexpr uint8_t most_name = 16;
constexpr uint8_t most_text = 64;
constexpr uint32_t most_roots = 65'536;
constexpr uint32_t usual_limit = 4'096;
constexpr int32_t root_extent = 4'096;
constexpr int32_t least_key = -524'288, greatest_key = 524'287;

/// The type of a grid's values, by its number in a file.
enum class Kind : uint8_t { boolean, i32, i64 };

using Pairs = std::map<std::string, std::string>;

/// What a file says of a grid before its root blocks.
struct Header {
    std::string name;
    Kind kind = Kind::boolean;
    int64_t background = 0;
    uint32_t limit = usual_limit;
    Pairs pairs;
};

/// A value with its state: what each voxel of a block holds, if all are equal.
template <class Value>
struct Cell {
    Value value;
    bool active;

    bool operator==(const Cell& other) const { return value == other.value && active == other.active; }
    bool operator!=(const Cell& other) const { return !(*this == other); }
};

/// Tells whether a text can be a grid's name or a metadata key.
bool is_name(std::string_view text);

/// Tells whether a text can be the text of a metadata pair.
bool is_text(std::string_view text);

/// A fault of a scene file: the offset of the field at fault, the word of docs/FORMAT.md, and what is wrong.
struct Fault : Error {
    Fault(uint64_t byte, std::string_view word, std::string_view what);
};

/// Reads a scene file field by field. A fault of a field names the offset of its first byte.
class FieldReader {
public:
    explicit FieldReader(const std::string& path);
    ~FieldReader();
    FieldReader(const FieldReader&) = delete;
    FieldReader& operator=(const FieldReader&) = delete;

    /// Reads a field of at most 64 bytes. The view holds until the next call.
    std::string_view bytes(size_t size) {
        field_at = passed + at;
        if (end - at < size) refill(size);
        if (field_at + size > most_bytes) fail("too-long", "this field ends past byte 268,435,456");
        at += size;
        return {buffer.data() + at - size, size};
    }

    /// Reads an integer, its most significant byte first.
    template <class Integer>
    Integer number() {
        uint64_t made = 0;
        for (char byte : bytes(sizeof(Integer))) made = made << 8 | uint8_t(byte);
        return Integer(made);
    }

    /// The offset of the field read last.
    uint64_t field() const { return field_at; }

    [[noreturn]] void fail(std::string_view word, std::string_view what) const { throw Fault(field_at, word, what); }

    /// Fails for the field read last, unless `holds`.
    void need(bool holds, const char* word, const char* what) const {
        if (!holds) fail(word, what);
    }

    /// Fails if the file has a byte after the field read last.
    void need_end();

private:
    void refill(size_t size);
    size_t read_some();

    int descriptor;
    std::vector<char> buffer;
    size_t at = 0, end = 0;
    uint64_t passed = 0, field_at = 0;
};

/// Reads the head of a file: its version, and how many grids it has.
struct Head {
    uint16_t version, grids;
};
Head read_head(FieldReader& reader);

/// Reads what precedes the root blocks of a grid. `before` is the name of the grid before, or empty.
Header read_header(FieldReader& reader, uint16_t version, const std::string& before);

/// Reads a value of a body or a background.
template <class Value>
Value read_value(FieldReader& reader) {
    if constexpr (std::is_same_v<Value, bool>) {
        const auto byte = reader.number<uint8_t>();
        reader.need(byte <= 1, "value", "a boolean is 0 or 1");
        return byte == 1;
    } else {
        return reader.number<Value>();
    }
}

/// Appends an integer, its most significant byte first.
template <class Integer>
void append_number(std::string& bytes, Integer number) {
    char digits[sizeof(Integer)];
    for (size_t place = 0; place < sizeof(Integer); ++place)
        digits[place] = char(uint64_t(number) >> 8 * (sizeof(Integer) - 1 - place));
    bytes.append(digits, sizeof digits);
}

/// Appends a text with its length in one byte before it.
void append_text(std::string& bytes, std::string_view text);

/// Appends what precedes the number of root blocks.
void append_header(std::string& bytes, const Header& header);

/// How many bytes of a header follow its limit: those of its pairs.
size_t bytes_of_pairs(const Pairs& pairs);

}  // namespace scene
