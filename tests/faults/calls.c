/* SPDX-License-Identifier: Apache-2.0 */
// Makes a call on the program's own files fail, move one byte or none, or be the last one: the program is killed there, alone or
// with the power. The variables:
//   CALLS_BELOW=FOLDER    the files below FOLDER are the program's own; reads and writes of the standard streams count, too
//   CALL_AT=N             call N on own files has the fault in CALL_FAULT: the number of an error, one-byte, no-byte, killed or power
//   CALL_ALL_AFTER=1      all calls after N fail too
//   CALL_LOG=FILE         the shim writes the name of each call to FILE
#define _GNU_SOURCE
#include "faults.h"
#include <dlfcn.h>
#include <errno.h>
#include <fcntl.h>
#include <limits.h>
#include <signal.h>
#include <stdarg.h>
#include <stdio.h>
#include <stdlib.h>
#include <string.h>
#include <sys/stat.h>
#include <sys/syscall.h>
#include <sys/uio.h>
#include <unistd.h>

// What happens at the call, apart from an error, whose number is above 0.
enum { ONE_BYTE = -1, NO_BYTE = -2, KILLED = -3, POWER = -4 };
static const char *const words[] = {"one-byte", "no-byte", "killed", "power"};

// A file that was opened to be written. With the power it loses the bytes behind `synced`.
struct file {
    dev_t device;
    ino_t number;
    off_t synced;
    int renamed;  // whether it was renamed since its folder was put on the disk
    char path[PATH_MAX];
};

static const char *below, *call_log, *call_name;
static long call_at, fault, calls, named, faults;
static int all_after, process, dying;
enum { READ = 1, WRITTEN };
static char own[1024];  // whether each descriptor is of an own file, and how that was opened
static struct file files[16];
static int file_count;

void begin_calls(void)
{
    const char *text = getenv("CALL_FAULT");
    fault = number("CALL_FAULT", 0);
    for (int at = 0; text && at < 4; at++)
        if (strcmp(text, words[at]) == 0)
            fault = ONE_BYTE - at;
    below = getenv("CALLS_BELOW");
    call_log = getenv("CALL_LOG");
    call_name = getenv("CALL_NAME");
    call_at = number("CALL_AT", 0);
    all_after = number("CALL_ALL_AFTER", 0) != 0;
    process = getpid();
}

void end_calls(const char *report)
{
    long open = 0, renamed = 0;
    for (int file = 3; file < (int)sizeof own; file++)
        open += own[file] != 0;
    for (int at = 0; at < file_count; at++)
        renamed += files[at].renamed;
    append_to(report, "calls", calls);
    append_to(report, "faults", faults);
    append_to(report, "left-open", open);
    append_to(report, "renamed", renamed);
}

// Returns whether a path is below the folder. A process that this one has started has no faults.
static int is_below(const char *path)
{
    return below && getpid() == process && strncmp(path, below, strlen(below)) == 0;
}

static int is_own(int file)
{
    return below && file >= 0 && file < (int)sizeof own && own[file] && getpid() == process;
}

static struct file *file_of(const struct stat *found)
{
    for (int at = 0; at < file_count; at++)
        if (files[at].device == found->st_dev && files[at].number == found->st_ino)
            return &files[at];
    return NULL;
}

// Remembers a descriptor, and its file if that was opened to be written.
static void hold(int descriptor, const char *path, int flags)
{
    struct stat found;
    if (descriptor < 0 || descriptor >= (int)sizeof own)
        return;
    own[descriptor] = (flags & O_ACCMODE) == O_RDONLY ? READ : WRITTEN;
    if (own[descriptor] == READ || syscall(SYS_fstat, descriptor, &found) != 0 || !S_ISREG(found.st_mode))
        return;
    struct file *file = file_of(&found);
    if (file) {
        file->synced = found.st_size < file->synced ? found.st_size : file->synced;
        return;
    }
    if (file_count == sizeof files / sizeof files[0])
        abort();
    file = &files[file_count++];
    *file = (struct file){.device = found.st_dev, .number = found.st_ino, .synced = found.st_size};
    strncpy(file->path, path, sizeof file->path - 1);
}

// Notes that a file or a folder is on the disk. With a folder the new names in it are.
static void note_synced(int descriptor)
{
    struct stat found, folder;
    char path[PATH_MAX];
    if (syscall(SYS_fstat, descriptor, &found) != 0)
        return;
    for (int at = 0; at < file_count; at++) {
        strcpy(path, files[at].path);
        strrchr(path, '/')[1] = 0;
        if (syscall(SYS_stat, path, &folder) == 0 && folder.st_dev == found.st_dev && folder.st_ino == found.st_ino)
            files[at].renamed = 0;
    }
    struct file *file = file_of(&found);
    if (file)
        file->synced = found.st_size;
}

static void note_renamed(const char *path)
{
    struct stat found;
    struct file *file = syscall(SYS_stat, path, &found) == 0 ? file_of(&found) : NULL;
    if (!file)
        return;
    file->renamed = 1;
    strncpy(file->path, path, sizeof file->path - 1);
}

// Ends the program. With the power the bytes are lost that aren't on the disk.
static void die(void)
{
    for (int at = 0; at < file_count && fault == POWER; at++)
        syscall(SYS_truncate, files[at].path, files[at].synced);
    kill(process, SIGKILL);
}

// Counts a call on an own file. Returns its fault, or 0 if it has none.
static long fault_of(const char *name)
{
    calls++;
    append_to(call_log, name, calls);
    int is_named = !call_name || strcmp(name, call_name) == 0;
    named += is_named;
    if (call_at == 0 || !(faults == 0 ? is_named && named == call_at : all_after))
        return 0;
    faults++;
    if (fault <= KILLED && strcmp(name, "write") != 0)
        die();
    return fault;
}

// Returns whether a call on an own file has an error, and sets errno then.
static int has_error(const char *name)
{
    long found = fault_of(name);
    if (found > 0)
        errno = found;
    return found > 0;
}

int is_failing(const char *name, int file)
{
    return is_own(file) && has_error(name);
}

ssize_t moved(const char *name, int file, size_t size)
{
    if (!is_own(file) && !(below && file >= 0 && file < 3 && getpid() == process))
        return size;
    long found = fault_of(name);
    if (found > 0) {
        errno = found;
        return -1;
    }
    if (found <= KILLED) {
        dying = 1;
        return size / 2;
    }
    if (found == NO_BYTE)
        return 0;
    return found == ONE_BYTE && size > 1 ? 1 : size;
}

void end_write(void)
{
    if (dying)
        die();
}

static int open_at(int folder, const char *path, int flags, mode_t mode)
{
    if (is_below(path) && has_error("open"))
        return -1;
    int file = syscall(SYS_openat, folder, path, flags, mode);
    if (is_below(path))
        hold(file, path, flags);
    return file;
}

// Defines a call that opens a file, whose mode is the last argument.
#define OPEN(function, parameters, folder) \
    int function parameters \
    { \
        va_list rest; \
        va_start(rest, flags); \
        mode_t mode = flags & (O_CREAT | __O_TMPFILE) ? va_arg(rest, mode_t) : 0; \
        va_end(rest); \
        return open_at(folder, path, flags, mode); \
    }

OPEN(open, (const char *path, int flags, ...), AT_FDCWD)
OPEN(open64, (const char *path, int flags, ...), AT_FDCWD)
OPEN(openat, (int folder, const char *path, int flags, ...), folder)
OPEN(openat64, (int folder, const char *path, int flags, ...), folder)

static FILE *open_stream(const char *function, const char *path, const char *mode)
{
    FILE *(*real)(const char *, const char *) = (FILE * (*)(const char *, const char *)) dlsym(RTLD_NEXT, function);
    if (is_below(path) && has_error("open"))
        return NULL;
    FILE *stream = real(path, mode);
    if (stream && is_below(path))
        hold(fileno(stream), path, mode[0] == 'r' ? O_RDONLY : O_WRONLY);
    return stream;
}

FILE *fopen(const char *path, const char *mode)
{
    return open_stream("fopen", path, mode);
}

FILE *fopen64(const char *path, const char *mode)
{
    return open_stream("fopen64", path, mode);
}

// Returns whether the closing of this descriptor has an error. It is closed all the same, as Linux does.
static int close_fails(int file)
{
    if (!is_own(file))
        return 0;
    struct stat found;
    int is_kept = own[file] == WRITTEN && syscall(SYS_fstat, file, &found) == 0 && found.st_nlink > 0;
    int fails = has_error(is_kept ? "close-written" : "close");
    own[file] = 0;
    return fails;
}

int close(int file)
{
    int fails = close_fails(file), error = errno;
    int result = syscall(SYS_close, file);
    if (fails)
        errno = error;
    return fails ? -1 : result;
}

int fclose(FILE *stream)
{
    int (*real)(FILE *) = (int (*)(FILE *))dlsym(RTLD_NEXT, "fclose");
    int fails = close_fails(fileno(stream)), error = errno;
    int result = real(stream);
    if (fails)
        errno = error;
    return fails ? EOF : result;
}

ssize_t writev(int file, const struct iovec *parts, int count)
{
    size_t size = 0;
    for (int at = 0; at < count; at++)
        size += parts[at].iov_len;
    ssize_t left = moved("write", file, size), done = 0;
    if (left < 0 || left == (ssize_t)size)
        return left < 0 ? -1 : syscall(SYS_writev, file, parts, count);
    for (int at = 0; at < count && left > 0; at++) {
        size = (size_t)left < parts[at].iov_len ? (size_t)left : parts[at].iov_len;
        done += syscall(SYS_write, file, parts[at].iov_base, size);
        left -= size;
    }
    end_write();
    return done;
}

static ssize_t write_at(int file, const void *place, size_t size, off_t offset)
{
    ssize_t count = moved("write", file, size);
    if (count > 0)
        count = syscall(SYS_pwrite64, file, place, count, offset);
    end_write();
    return count;
}

ssize_t pwrite(int file, const void *place, size_t size, off_t offset)
{
    return write_at(file, place, size, offset);
}

ssize_t pwrite64(int file, const void *place, size_t size, off_t offset)
{
    return write_at(file, place, size, offset);
}

static int put_on_disk(long call, int file)
{
    if (is_failing("fsync", file))
        return -1;
    int result = syscall(call, file);
    if (is_own(file) && result == 0)
        note_synced(file);
    return result;
}

int fsync(int file)
{
    return put_on_disk(SYS_fsync, file);
}

int fdatasync(int file)
{
    return put_on_disk(SYS_fdatasync, file);
}

int renameat(int from_folder, const char *from, int to_folder, const char *to)
{
    if (is_below(from) && has_error("rename"))
        return -1;
    int result = syscall(SYS_renameat, from_folder, from, to_folder, to);
    if (is_below(to) && result == 0)
        note_renamed(to);
    return result;
}

int rename(const char *from, const char *to)
{
    return renameat(AT_FDCWD, from, AT_FDCWD, to);
}

// Defines a call that has an error or does what it does: its name in the table, result, function, parameters, arguments, and
// whether it is on an own file.
#define CALL(name, result, function, parameters, arguments, is_own) \
    result function parameters \
    { \
        static result(*real) parameters; \
        if (!real) \
            real = (result(*) parameters)dlsym(RTLD_NEXT, #function); \
        return is_own && has_error(name) ? -1 : real arguments; \
    }

CALL("ftruncate", int, ftruncate, (int file, off_t size), (file, size), is_own(file))
CALL("ftruncate", int, ftruncate64, (int file, off_t size), (file, size), is_own(file))
CALL("lseek", off_t, lseek, (int file, off_t offset, int from), (file, offset, from), is_own(file))
CALL("lseek", off_t, lseek64, (int file, off_t offset, int from), (file, offset, from), is_own(file))
CALL("stat", int, fstat, (int file, struct stat *found), (file, found), is_own(file))
CALL("stat", int, fstat64, (int file, struct stat64 *found), (file, found), is_own(file))
CALL("stat", int, stat, (const char *path, struct stat *found), (path, found), is_below(path))
CALL("stat", int, stat64, (const char *path, struct stat64 *found), (path, found), is_below(path))
CALL("stat", int, lstat, (const char *path, struct stat *found), (path, found), is_below(path))
CALL("stat", int, lstat64, (const char *path, struct stat64 *found), (path, found), is_below(path))
CALL("readlink", ssize_t, readlink, (const char *path, char *place, size_t size), (path, place, size), is_below(path))
CALL("access", int, access, (const char *path, int mode), (path, mode), is_below(path))
CALL("chmod", int, chmod, (const char *path, mode_t mode), (path, mode), is_below(path))
CALL("chmod", int, fchmod, (int file, mode_t mode), (file, mode), is_own(file))
CALL("chown", int, chown, (const char *path, uid_t user, gid_t group), (path, user, group), is_below(path))
CALL("chown", int, fchown, (int file, uid_t user, gid_t group), (file, user, group), is_own(file))
CALL("unlink", int, unlink, (const char *path), (path), is_below(path))
