// SPDX-License-Identifier: Apache-2.0
// A file that is written under a temporary name, and takes its own name only when it is whole.
#pragma once

#include "../../include/vdb_files.hpp"
#include "program.h"

#include <string>
#include <string_view>

/// A temporary file beside its target. It replaces the target in `commit`, else it is removed. Permissions stay, and a link is
/// followed. For a target that is no regular file, such as a pipe, the temporary file is in the system's folder for these, and its
/// bytes are copied.
class OutputFile {
public:
    explicit OutputFile(const std::string& path);
    ~OutputFile();
    OutputFile(const OutputFile&) = delete;
    OutputFile& operator=(const OutputFile&) = delete;

    /// Appends bytes.
    void write(std::string_view bytes) { write_at(size(), bytes); }

    /// Writes bytes from an offset on, over those that are there.
    void write_at(uint64_t offset, std::string_view bytes);

    /// How many bytes it has.
    uint64_t size() const { return written; }

    /// Makes the file durable and gives it the target's name.
    void commit();

    /// Throws an error that names the file as it was given.
    [[noreturn]] void fail(const std::string& what) const { throw FileError(given, what); }

private:
    void open(const struct stat* old);
    void close_all();
    void copy();

    std::string given, target, temporary;
    int descriptor = -1, special = -1;
    uint64_t written = 0;
};
