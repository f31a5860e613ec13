// SPDX-License-Identifier: Apache-2.0
#include "program.h"

#include <algorithm>
#include <cstdio>
#include <fcntl.h>
#include <iostream>
#include <new>
#include <unistd.h>

namespace {

constexpr uint64_t large_grid = 10'000;  // leaves
constexpr uint32_t greatest_limit = 65'536;

/// What is wrong with a command line.
struct WrongWords : std::runtime_error {
    using std::runtime_error::runtime_error;
};

uint32_t read_limit(const std::string& text) {
    const bool digits = !text.empty() && text.size() <= 5 && text.find_first_not_of("0123456789") == std::string::npos;
    const unsigned long limit = digits ? std::stoul(text) : 0;
    if (limit < 1 || limit > greatest_limit) throw WrongWords("--limit is a number from 1 to 65536, not " + in_quotes(text));
    return uint32_t(limit);
}

std::string read_compression(const std::string& text) {
    if (text != "zip" && text != "blosc" && text != "none") throw WrongWords("--compress is zip, blosc or none, not " + in_quotes(text));
    return text;
}

/// Reads the words of a command line.
class Words {
public:
    Words(const Program& program, int count, char** words) : program(program), words(words + 1, words + count) {}

    CommandLine read() {
        while (next < words.size()) read_word(words[next++]);
        if (files != 2) throw WrongWords(files < 2 ? "IN and OUT are needed" : "a third file is too many");
        return line;
    }

    bool asks_help() const {
        const auto end = std::find(words.begin(), words.end(), "--");
        return std::any_of(words.begin(), end, [](const std::string& word) { return word == "--help" || word == "-h"; });
    }

private:
    void read_word(const std::string& word) {
        if (!options || word.size() < 2 || word[0] != '-') return read_file(word);
        if (word == "--") {
            options = false;
            return;
        }
        const size_t equals = word.find('=');
        const std::string option = word.substr(0, equals);
        std::optional<std::string> given;
        if (equals != std::string::npos) given = word.substr(equals + 1);
        if (option == "--grid") read_grids(given);
        else if (option == "--strict" && !given) line.strict = true;
        else if (option == "--limit" && program.has_limit) line.limit = read_limit(value(option, given));
        else if (option == "--compress" && program.has_compress) line.compression = read_compression(value(option, given));
        else throw WrongWords("unknown option " + in_quotes(word));
    }

    void read_file(const std::string& word) {
        if (++files == 1) line.input = word;
        if (files == 2) line.output = word;
    }

    std::string value(const std::string& option, const std::optional<std::string>& given) {
        if (given) return *given;
        if (next == words.size()) throw WrongWords(option + " needs a value");
        return words[next++];
    }

    /// Reads the name behind `--grid=`, or all words behind `--grid` up to the next option.
    void read_grids(const std::optional<std::string>& given) {
        line.grids.push_back(value("--grid", given));
        while (!given && next < words.size() && words[next].substr(0, 1) != "-") line.grids.push_back(words[next++]);
    }

    const Program& program;
    std::vector<std::string> words;
    CommandLine line;
    size_t next = 0;
    int files = 0;
    bool options = true;
};

/// Opens the standard streams that are closed, so that no file becomes one of them. To write standard output then fails.
void open_streams() {
    for (int number : {STDIN_FILENO, STDOUT_FILENO, STDERR_FILENO})
        if (fcntl(number, F_GETFD) < 0) open("/dev/null", number == STDOUT_FILENO ? O_RDONLY : O_WRONLY);
}

/// The first line of a text.
std::string first_line(const std::string& text) { return text.substr(0, text.find('\n')); }

}  // namespace

void Notices::report(const std::string& what) const {
    if (strict) throw Error(what);
    note(what);
}

void Notices::note(const std::string& what) const { std::cerr << begin + what + "\n"; }

void Notices::progress(const std::string& grid, uint64_t active, uint64_t leaves) const {
    if (leaves < large_grid || !isatty(STDERR_FILENO)) return;
    note("grid " + in_quotes(grid) + ": " + std::to_string(active) + " active voxels, " + std::to_string(leaves) + " leaves");
}

std::string in_quotes(std::string_view text) {
    std::string made = "\"";
    for (char byte : text) {
        char hexadecimal[8];
        std::snprintf(hexadecimal, sizeof hexadecimal, "\\x%02x", uint8_t(byte));
        const bool plain = byte >= 0x20 && byte <= 0x7E && byte != '"' && byte != '\\';
        made += plain ? std::string(1, byte) : hexadecimal;
    }
    return made + "\"";
}

int run(const Program& program, int count, char** words) {
    const std::string name = program.name;
    std::string input;
    open_streams();
    try {
        Words reader(program, count, words);
        if (reader.asks_help()) {
            std::cout << program.help << std::flush;
            return std::cout ? 0 : 1;
        }
        const CommandLine line = reader.read();
        input = line.input;
        program.convert(line, Notices(name, input, line.strict));
        return 0;
    } catch (const WrongWords& wrong) {
        std::cerr << name + ": " + wrong.what() + " (" + name + " --help says more)\n";
        return 2;
    } catch (const FileError& error) {
        std::cerr << name + ": " + error.what() + "\n";
    } catch (const std::bad_alloc&) {
        std::cerr << name + ": " + input + ": not enough memory\n";
    } catch (const std::exception& error) {
        std::cerr << name + ": " + input + ": " + first_line(error.what()) + "\n";
    }
    return 1;
}
