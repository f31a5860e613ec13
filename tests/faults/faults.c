/* SPDX-License-Identifier: Apache-2.0 */
// Injects faults into calls of the C library. It is preloaded into the program (LD_PRELOAD) and makes an allocation fail,
// or a read or write fail, move no byte or move few; calls.c makes any call on the program's own files fail, and branches.c each
// allocation of one run. The variables:
//   FAIL_ALLOCATION=N     allocation N fails: a call of malloc, realloc, aligned_alloc, posix_memalign or mmap
//   FAIL_ALL_AFTER=1      all allocations after N fail too
//   COUNT_FROM_START=1    allocations count from the start of the program, otherwise from its first read on
//   READ_OF_FILE=1        the next ones concern opened files, otherwise standard input
//   READ_AT=N             read N fails; with READ_KIND=nothing it returns no byte, which is the end
//   READ_MOST=N           a read returns at most N bytes
//   READ_AFTER=N          every read after N bytes fails
//   WRITE_OF_FILE, WRITE_AT, WRITE_KIND, WRITE_MOST, WRITE_AFTER   the same for writes, to opened files or standard output
//   REPORT=FILE           the shim writes its counts to FILE, and how many bytes of answers came before the first failed allocation
#define _GNU_SOURCE
#include "faults.h"
#include <dlfcn.h>
#include <errno.h>
#include <fcntl.h>
#include <stdlib.h>
#include <string.h>
#include <sys/mman.h>
#include <sys/syscall.h>
#include <unistd.h>

enum kind { FAIL, NOTHING };

// The reads or the writes with a fault: those of standard input or output, or those of an opened file.
struct fault {
    int file;        // whether the fault concerns opened files
    long at;         // the number of the call with the fault, from 1; 0: none
    enum kind kind;  // whether that call fails or moves no byte
    long most;       // the most bytes that a call moves; 0: no limit
    long after;      // after this many bytes every call fails; below 0: never
};

// The calls of one side so far: their number, the bytes moved, the end of the furthest byte asked for, and the calls after
// the end of the file.
struct traffic {
    long calls, bytes, furthest, ended, after_end;
};

static long fail_at, allocations, failed;
static int fail_all_after, counting;
static struct fault reading, writing;
static struct traffic script, answers, loaded, saved;
static const char *report;

long number(const char *name, long otherwise)
{
    const char *text = getenv(name);
    return text ? atol(text) : otherwise;
}

static enum kind kind_of(const char *name)
{
    const char *text = getenv(name);
    return text && strcmp(text, "nothing") == 0 ? NOTHING : FAIL;
}

// Reads the variables: at the start of the program, and in a copy of it that has set others. The programs that it starts go without
// the shim.
__attribute__((constructor)) void faults_begin(void)
{
    unsetenv("LD_PRELOAD");
    begin_calls();
    begin_branches();
    fail_at = number("FAIL_ALLOCATION", 0);
    fail_all_after = number("FAIL_ALL_AFTER", 0) != 0;
    counting = number("COUNT_FROM_START", 0) != 0;
    report = getenv("REPORT");
    reading = (struct fault){number("READ_OF_FILE", 0), number("READ_AT", 0), kind_of("READ_KIND"), number("READ_MOST", 0),
                             number("READ_AFTER", -1)};
    writing = (struct fault){number("WRITE_OF_FILE", 0), number("WRITE_AT", 0), kind_of("WRITE_KIND"), number("WRITE_MOST", 0),
                             number("WRITE_AFTER", -1)};
}

static int write_number(char *text, long value)
{
    char digits[24];
    int count = 0, length = 0;
    do {
        digits[count++] = '0' + value % 10;
        value /= 10;
    } while (value > 0);
    while (count > 0)
        text[length++] = digits[--count];
    return length;
}

void append_to(const char *path, const char *word, long value)
{
    char text[64];
    int length = strlen(word);
    if (!path)
        return;
    memcpy(text, word, length);
    text[length++] = ' ';
    length += write_number(text + length, value);
    text[length++] = '\n';
    int file = syscall(SYS_openat, AT_FDCWD, path, O_WRONLY | O_CREAT | O_APPEND, 0600);
    if (file < 0)
        return;
    syscall(SYS_write, file, text, length);
    syscall(SYS_close, file);
}

static void append(const char *word, long value)
{
    append_to(report, word, value);
}

// Writes the report: at the end of the program, and of a copy of it.
__attribute__((destructor)) void faults_end(void)
{
    end_calls(report);
    append("allocations", allocations);
    append("script-reads", script.calls);
    append("script-furthest", script.furthest);
    append("script-read-after-end", script.after_end);
    append("answer-writes", answers.calls);
    append("load-reads", loaded.calls);
    append("load-furthest", loaded.furthest);
    append("load-read-after-end", loaded.after_end);
    append("save-writes", saved.calls);
}

// Counts an allocation and returns whether it fails. The first failure reports at once how many bytes of answers were
// written before it.
static int fails(void)
{
    if (!counting)
        return 0;
    allocations++;
    if (branches(allocations)) {
        fail_at = allocations;
        report = "report";
    }
    if (fail_at == 0 || allocations < fail_at || (allocations > fail_at && !fail_all_after))
        return 0;
    if (failed++ == 0)
        append("failed-after", answers.bytes);
    errno = ENOMEM;
    return 1;
}

// The calls of the C library, looked up at the first allocation: dlsym itself reallocates to tell of an error.
static void *(*real_malloc)(size_t);
static void *(*real_realloc)(void *, size_t);
static void *(*real_aligned_alloc)(size_t, size_t);
static int (*real_posix_memalign)(void **, size_t, size_t);
static void *(*real_mmap)(void *, size_t, int, int, int, off_t);

static void look_up(void)
{
    if (real_mmap)
        return;
    real_malloc = dlsym(RTLD_NEXT, "malloc");
    real_realloc = dlsym(RTLD_NEXT, "realloc");
    real_aligned_alloc = dlsym(RTLD_NEXT, "aligned_alloc");
    real_posix_memalign = dlsym(RTLD_NEXT, "posix_memalign");
    real_mmap = dlsym(RTLD_NEXT, "mmap");
}

void *malloc(size_t size)
{
    look_up();
    return fails() ? NULL : real_malloc(size);
}

void *realloc(void *old, size_t size)
{
    look_up();
    return fails() ? NULL : real_realloc(old, size);
}

void *aligned_alloc(size_t alignment, size_t size)
{
    look_up();
    return fails() ? NULL : real_aligned_alloc(alignment, size);
}

int posix_memalign(void **place, size_t alignment, size_t size)
{
    look_up();
    return fails() ? ENOMEM : real_posix_memalign(place, alignment, size);
}

void *mmap(void *place, size_t size, int allowed, int flags, int file, off_t offset)
{
    look_up();
    return fails() || is_failing("mmap", file) ? MAP_FAILED : real_mmap(place, size, allowed, flags, file, offset);
}

void *mmap64(void *place, size_t size, int allowed, int flags, int file, off_t offset)
{
    return mmap(place, size, allowed, flags, file, offset);
}

// Returns whether the fault concerns this file descriptor.
static int concerns(const struct fault *fault, int file)
{
    return fault->file ? file > 2 : file < 2;
}

// Returns how many of `size` bytes this call may move, or -1 if it fails.
static ssize_t allowed(const struct fault *fault, const struct traffic *traffic, size_t size)
{
    if (traffic->calls == fault->at)
        return fault->kind == FAIL ? -1 : 0;
    if (fault->after >= 0) {
        if (traffic->bytes >= fault->after)
            return -1;
        if (size > (size_t)(fault->after - traffic->bytes))
            size = fault->after - traffic->bytes;
    }
    if (fault->most > 0 && size > (size_t)fault->most)
        size = fault->most;
    return size;
}

ssize_t read(int file, void *place, size_t size)
{
    struct traffic *traffic = file > 2 ? &loaded : &script;
    ssize_t count = moved("read", file, size);
    if (count < 0)
        return -1;
    size = count;
    counting = 1;
    traffic->calls++;
    traffic->after_end += traffic->ended;
    if (traffic->furthest < traffic->bytes + (long)size)
        traffic->furthest = traffic->bytes + size;
    if (concerns(&reading, file))
        count = allowed(&reading, traffic, size);
    if (count < 0) {
        errno = EIO;
        return -1;
    }
    if (count > 0)
        count = read_script(file, place, count);
    if (count > 0)
        traffic->bytes += count;
    if (count == 0 && size > 0)
        traffic->ended = 1;
    return count;
}

ssize_t write(int file, const void *place, size_t size)
{
    struct traffic *traffic = file > 2 ? &saved : &answers;
    ssize_t count = moved("write", file, size);
    if (count < 0)
        return -1;
    size = count;
    if (file == 2)
        return syscall(SYS_write, file, place, size);
    traffic->calls++;
    if (concerns(&writing, file))
        count = allowed(&writing, traffic, size);
    if (count < 0) {
        errno = EIO;
        return -1;
    }
    if (count > 0)
        count = syscall(SYS_write, file, place, count);
    end_write();
    if (count > 0)
        traffic->bytes += count;
    return count;
}

ssize_t __write(int file, const void *place, size_t size)
{
    return write(file, place, size);
}
