// SPDX-License-Identifier: Apache-2.0
// What both programs share: their words, their notices on standard error, and their exit status.
#pragma once

#include <cstdint>
#include <optional>
#include <stdexcept>
#include <string>
#include <string_view>
#include <vector>

/// A reason for which the input file isn't converted.
struct Error : std::runtime_error {
    using std::runtime_error::runtime_error;
};

/// A reason of another file than the input, which it names first.
struct FileError : std::runtime_error {
    FileError(const std::string& path, const std::string& reason) : runtime_error(path + ": " + reason) {}
};

/// What a command line asks for.
struct CommandLine {
    std::string input, output;
    std::vector<std::string> grids;
    bool strict = false;
    std::optional<uint32_t> limit;
    std::string compression = "zip";
};

/// Reports, a line each on standard error, what of a file doesn't cross. With `--strict` the first of it is an error.
class Notices {
public:
    Notices(std::string program, std::string input, bool strict)
        : begin(std::move(program) + ": " + std::move(input) + ": "), strict(strict) {}

    void report(const std::string& what) const;

    /// Prints a line that is never an error.
    void note(const std::string& what) const;

    /// Prints a grid's size, if it is large and standard error is a terminal.
    void progress(const std::string& grid, uint64_t active, uint64_t leaves) const;

private:
    std::string begin;
    bool strict;
};

/// A program: its name, the options that it has besides `--grid`, `--strict` and `--help`, and what it does.
struct Program {
    const char* name;
    const char* help;
    bool has_limit, has_compress;
    void (*convert)(const CommandLine&, const Notices&);
};

/// Runs a program. Returns its exit status: 0, 1 for a file that can't be converted, 2 for a wrong command line.
int run(const Program& program, int count, char** words);

/// A text in quotes, with bytes that aren't printable in hexadecimal.
std::string in_quotes(std::string_view text);
