// SPDX-License-Identifier: Apache-2.0
#include "output_file.h"

#include <algorithm>
#include <cerrno>
#include <csignal>
#include <cstdio>
#include <cstring>
#include <filesystem>
#include <fstream>
#include <sys/stat.h>
#include <unistd.h>
#include <utility>

using namespace vdb::detail;

namespace {

// what a signal removes: the temporary file's path, or an empty one
char removed_by_signal[4096] = "";

void remove_and_end(int number) {
    if (removed_by_signal[0] != '\0') unlink(removed_by_signal);
    std::signal(number, SIG_DFL);
    raise(number);
}

void watch_signals(const std::string& path) {
    if (path.size() >= sizeof removed_by_signal) return;
    std::memcpy(removed_by_signal, path.c_str(), path.size() + 1);
    for (int number : {SIGINT, SIGTERM, SIGHUP}) std::signal(number, remove_and_end);
    std::signal(SIGXFSZ, SIG_IGN);  // a file past its limit is a write error
}

}  // namespace

OutputFile::OutputFile(const std::string& path) : given(path), target(path) {
    struct stat old {};
    bool exists = false;
    if (const int error = look_at(path, exists, old)) fail(std::strerror(error));
    try {
        open(exists ? &old : nullptr);
    } catch (...) {
        close_all();
        throw;
    }
    watch_signals(temporary);
}

/// Opens the temporary file, with the permissions of an old one, and the target if it is no regular file.
void OutputFile::open(const struct stat* old) {
    if (old != nullptr && !S_ISREG(old->st_mode)) {
        special = ::open(given.c_str(), O_WRONLY | O_CLOEXEC);
        if (special < 0) fail(std::strerror(errno));
        descriptor = open_beside((std::filesystem::temp_directory_path() / "").string(), 0600, temporary);
    } else {
        target = followed(given);
        descriptor = open_beside(target, old != nullptr ? 0600 : 0666, temporary);
    }
    if (descriptor < 0 || (old != nullptr && special < 0 && !resemble(descriptor, *old))) fail(std::strerror(errno));
}

OutputFile::~OutputFile() {
    close_all();
    removed_by_signal[0] = '\0';
}

void OutputFile::close_all() {
    if (special >= 0) close(special);
    if (descriptor < 0) return;
    unlink(temporary.c_str());
    close(descriptor);
}

void OutputFile::write_at(uint64_t offset, std::string_view bytes) {
    while (!bytes.empty()) {
        const ssize_t count = pwrite(descriptor, bytes.data(), bytes.size(), off_t(offset));
        if (count < 0 && errno == EINTR) continue;
        if (count <= 0) fail(std::strerror(count < 0 ? errno : EIO));
        bytes.remove_prefix(size_t(count));
        offset += uint64_t(count);
        written = std::max(written, offset);
    }
}

void OutputFile::commit() {
    if (special >= 0) return copy();
    const bool done = fsync(descriptor) == 0;
    const int error = close_beside(std::exchange(descriptor, -1), done, temporary, target);
    if (error != 0) fail(std::strerror(error));
}

/// Writes the temporary file's bytes to what is no regular file.
void OutputFile::copy() {
    std::ifstream stream(temporary, std::ios::binary);
    if (!stream) fail(std::strerror(errno));
    std::vector<uint8_t> part;
    do {
        part.resize(1 << 20);
        stream.read(reinterpret_cast<char*>(part.data()), std::streamsize(part.size()));
        part.resize(size_t(stream.gcount()));
        if (stream.bad() || !vdb::detail::write(special, part)) fail(std::strerror(errno));
    } while (!part.empty());
    const int error = closed(std::exchange(special, -1), true);
    if (error != 0) fail(std::strerror(error));
}
