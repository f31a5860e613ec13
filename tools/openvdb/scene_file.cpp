// SPDX-License-Identifier: Apache-2.0
#include "scene_file.h"

#include <cerrno>
#include <cstring>
#include <fcntl.h>
#include <unistd.h>

namespace scene {

namespace {

constexpr size_t buffer_bytes = 65'536;

bool is_letter(char byte) { return byte >= 'a' && byte <= 'z'; }

bool is_later(char byte) { return is_letter(byte) || (byte >= '0' && byte <= '9') || byte == '_'; }

/// Reads a name or a key, which must be greater than the one before. `word` is the fault.
std::string read_name(FieldReader& reader, const std::string& before, const char* word) {
    const auto length = reader.number<uint8_t>();
    reader.need(length >= 1 && length <= most_name, word, "a name has 1 to 16 bytes");
    std::string name(reader.bytes(length));
    reader.need(is_name(name), word, "a name is a letter a to z, then a to z, 0 to 9 and _");
    reader.need(before < name, word, "names must rise");
    return name;
}

Pairs read_pairs(FieldReader& reader) {
    const auto count = reader.number<uint8_t>();
    reader.need(count <= most_pairs, "meta", "a grid has at most 16 metadata pairs");
    Pairs pairs;
    for (int pair = 0; pair < count; ++pair) {
        const std::string key = read_name(reader, pairs.empty() ? "" : pairs.rbegin()->first, "meta");
        const auto length = reader.number<uint8_t>();
        reader.need(length >= 1 && length <= most_text, "meta", "a metadata text has 1 to 64 bytes");
        pairs[key] = reader.bytes(length);
        reader.need(is_text(pairs[key]), "meta", "a metadata text has bytes from hexadecimal 21 to 7E");
    }
    return pairs;
}

int64_t read_background(FieldReader& reader, Kind kind) {
    switch (kind) {
    case Kind::boolean: return read_value<bool>(reader);
    case Kind::i32: return read_value<int32_t>(reader);
    case Kind::i64: break;
    }
    return read_value<int64_t>(reader);
}

}  // namespace

bool is_name(std::string_view text) {
    if (text.empty() || text.size() > most_name || !is_letter(text[0])) return false;
    for (char byte : text)
        if (!is_later(byte)) return false;
    return true;
}

bool is_text(std::string_view text) {
    if (text.empty() || text.size() > most_text) return false;
    for (char byte : text)
        if (byte < 0x21 || byte > 0x7E) return false;
    return true;
}

Fault::Fault(uint64_t byte, std::string_view word, std::string_view what)
    : Error("byte " + std::to_string(byte) + ": " + std::string(word) + ": " + std::string(what)) {}

FieldReader::FieldReader(const std::string& path) : descriptor(open(path.c_str(), O_RDONLY | O_CLOEXEC)), buffer(buffer_bytes) {
    if (descriptor < 0) throw Error(std::strerror(errno));
}

FieldReader::~FieldReader() { close(descriptor); }

/// Reads some bytes behind those in the buffer. Returns how many, 0 at the end of the file.
size_t FieldReader::read_some() {
    ssize_t got;
    do got = read(descriptor, buffer.data() + end, buffer.size() - end);
    while (got < 0 && errno == EINTR);
    if (got < 0) fail("read", std::strerror(errno));
    end += size_t(got);
    return size_t(got);
}

void FieldReader::refill(size_t size) {
    if (field_at + size > most_bytes) return;
    std::memmove(buffer.data(), buffer.data() + at, end - at);
    passed += at;
    end -= at;
    at = 0;
    while (end < size)
        if (read_some() == 0) fail("truncated", end == 0 ? "the file ends before this field" : "the file ends inside this field");
}

void FieldReader::need_end() {
    field_at = passed + at;
    if (at < end) fail("trailing", "the file has bytes after its last field");
    passed += at;
    at = end = 0;
    if (read_some() > 0) fail("trailing", "the file has bytes after its last field");
}

Head read_head(FieldReader& reader) {
    reader.need(reader.bytes(4) == "VDBS", "magic", "a scene file begins with VDBS");
    Head head{};
    head.version = reader.number<uint16_t>();
    reader.need(head.version == 1 || head.version == 2, "version", "the version is neither 1 nor 2");
    head.grids = reader.number<uint16_t>();
    reader.need(head.grids <= most_grids, "name", "a scene has at most 64 grids");
    return head;
}

Header read_header(FieldReader& reader, uint16_t version, const std::string& before) {
    Header header;
    header.name = read_name(reader, before, "name");
    const auto kind = reader.number<uint8_t>();
    reader.need(kind <= 2, "kind", "the number of the kind is above 2");
    header.kind = Kind(kind);
    header.background = read_background(reader, header.kind);
    if (version == 1) return header;
    header.limit = reader.number<uint32_t>();
    reader.need(header.limit >= 1 && header.limit <= most_roots, "limit", "a root limit is 1 to 65,536");
    header.pairs = read_pairs(reader);
    return header;
}

void append_text(std::string& bytes, std::string_view text) {
    append_number(bytes, uint8_t(text.size()));
    bytes += text;
}

void append_header(std::string& bytes, const Header& header) {
    append_text(bytes, header.name);
    append_number(bytes, uint8_t(header.kind));
    if (header.kind == Kind::boolean) append_number(bytes, uint8_t(header.background));
    if (header.kind == Kind::i32) append_number(bytes, int32_t(header.background));
    if (header.kind == Kind::i64) append_number(bytes, header.background);
    append_number(bytes, header.limit);
    append_number(bytes, uint8_t(header.pairs.size()));
    for (const auto& [key, text] : header.pairs) {
        append_text(bytes, key);
        append_text(bytes, text);
    }
}

size_t bytes_of_pairs(const Pairs& pairs) {
    size_t sum = 1;
    for (const auto& [key, text] : pairs) sum += 2 + key.size() + text.size();
    return sum;
}

}  // namespace scene
