// SPDX-License-Identifier: Apache-2.0
// How vdb.hpp reads and replaces files. A program includes vdb.hpp.
#ifndef VDB_FILES_HPP
#define VDB_FILES_HPP

#include <algorithm>
#include <atomic>
#include <cerrno>
#include <climits>
#include <cstddef>
#include <cstdint>
#include <string>
#include <system_error>
#include <vector>

#include <fcntl.h>
#include <sys/stat.h>
#include <unistd.h>

namespace vdb {
namespace detail {

[[noreturn]] inline void fail(int error, const std::string &path) { throw std::system_error(error, std::generic_category(), path); }

// Owns a descriptor and closes it.
struct Descriptor {
    int number;
    ~Descriptor() { ::close(number); }
};

// Returns the first `most` bytes of a file, or all if it has fewer.
inline std::vector<uint8_t> read(const std::string &path, std::size_t most)
{
    const int number = ::open(path.c_str(), O_RDONLY | O_CLOEXEC);
    if (number < 0)
        fail(errno, path);
    const Descriptor file{number};
    std::vector<uint8_t> bytes;
    std::size_t done = 0;
    for (ssize_t count = 1; count != 0 && done < most;) {
        if (done == bytes.size())
            bytes.resize(done + std::min<std::size_t>(std::max<std::size_t>(done, 65536), most - done));
        count = ::read(file.number, bytes.data() + done, bytes.size() - done);
        if (count < 0 && errno != EINTR)
            fail(errno, path);
        done += static_cast<std::size_t>(std::max<ssize_t>(count, 0));
    }
    bytes.resize(done);
    return bytes;
}

// Returns the path to which the links from `path` lead, even if no file is there yet.
inline std::string followed(const std::string &path)
{
    std::string place = path;
    char next[PATH_MAX];
    for (int links = 0; links < 40; links++) {
        const ssize_t length = ::readlink(place.c_str(), next, sizeof next);
        if (length < 0 && errno != EINVAL && errno != ENOENT)
            fail(errno, path);
        if (length < 0)
            return place;
        const std::string folder = next[0] == '/' ? "" : place.substr(0, place.rfind('/') + 1);
        place = folder + std::string(next, static_cast<std::size_t>(length));
    }
    fail(ELOOP, path);
}

// Creates a file in the folder of `place` that nobody else has, and sets `beside` to its path. Returns -1 if that fails.
inline int open_beside(const std::string &place, mode_t mode, std::string &beside)
{
    static std::atomic<unsigned> number{0};
    int file = -1;
    do {
        beside = place.substr(0, place.rfind('/') + 1) + ".vdb-" + std::to_string(::getpid()) + "-" + std::to_string(number++) + ".tmp";
        file = ::open(beside.c_str(), O_WRONLY | O_CREAT | O_EXCL | O_CLOEXEC, mode);
    } while (file < 0 && errno == EEXIST);
    return file;
}

inline bool write(int file, const std::vector<uint8_t> &bytes)
{
    for (std::size_t done = 0; done < bytes.size();) {
        const ssize_t count = ::write(file, bytes.data() + done, bytes.size() - done);
        if (count < 0 && errno == EINTR)
            continue;
        if (count == 0)
            errno = EIO;
        if (count <= 0)
            return false;
        done += static_cast<std::size_t>(count);
    }
    return true;
}

// Gives a file the permissions of another one and, if that is allowed, its owner.
inline bool resemble(int file, const struct stat &old)
{
    const bool owned = ::fchown(file, old.st_uid, old.st_gid) == 0;
    return (owned || errno == EPERM) && ::fchmod(file, old.st_mode & 0777) == 0;
}

// Closes a file. Returns the error of the previous step unless that is `done`, or of the closing, or 0.
inline int closed(int file, bool done)
{
    const int error = done ? 0 : errno;
    return ::close(file) != 0 && error == 0 ? errno : error;
}

// Puts the names in the folder of `place` on the disk, where its file system can.
inline void synchronise(const std::string &place)
{
    const std::string folder = place.substr(0, place.rfind('/') + 1);
    const int file = ::open(folder.empty() ? "." : folder.c_str(), O_RDONLY | O_DIRECTORY | O_CLOEXEC);
    if (file < 0)
        return;
    ::fsync(file);
    ::close(file);
}

// Closes a file beside `place`. If the previous step is `done`, the file replaces `place`; otherwise it is removed. Returns the error
// or 0.
inline int close_beside(int file, bool done, const std::string &beside, const std::string &place)
{
    int error = closed(file, done);
    if (error == 0 && ::rename(beside.c_str(), place.c_str()) != 0)
        error = errno;
    if (error != 0)
        ::unlink(beside.c_str());
    else
        synchronise(place);
    return error;
}

// Writes a file beside `place`, which replaces it when its bytes are on the disk. Returns the error or 0.
inline int write_beside(const std::string &place, const struct stat *old, const std::vector<uint8_t> &bytes)
{
    std::string beside;
    const int file = open_beside(place, old ? 0600 : 0666, beside);
    if (file < 0)
        return errno;
    const bool done = write(file, bytes) && (!old || resemble(file, *old)) && ::fsync(file) == 0;
    return close_beside(file, done, beside, place);
}

// Writes a pipe or a device in place. Returns the error or 0.
inline int write_itself(const std::string &path, const std::vector<uint8_t> &bytes)
{
    const int file = ::open(path.c_str(), O_WRONLY | O_CLOEXEC);
    return file < 0 ? errno : closed(file, write(file, bytes));
}

// Looks behind the links at `path`, and sets `exists` and `old`. Returns 0 if a file may be written there, or the error.
inline int look_at(const std::string &path, bool &exists, struct stat &old)
{
    exists = ::stat(path.c_str(), &old) == 0;
    if (!exists)
        return errno == ENOENT ? 0 : errno;
    return ::access(path.c_str(), W_OK) == 0 ? 0 : errno;
}

// Writes a new file, or replaces one that may be written, whose permissions stay. A link is followed.
inline void replace(const std::string &path, const std::vector<uint8_t> &bytes)
{
    struct stat old = {};
    bool exists = false;
    int error = look_at(path, exists, old);
    const bool special = exists && !S_ISREG(old.st_mode);
    if (error == 0)
        error = special ? write_itself(path, bytes) : write_beside(followed(path), exists ? &old : nullptr, bytes);
    if (error != 0)
        fail(error, path);
}

} // namespace detail
} // namespace vdb

#endif
