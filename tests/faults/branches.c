/* SPDX-License-Identifier: Apache-2.0 */
// Makes each allocation of one run fail without a run from the start for each: at an allocation the program is copied, and the copy goes
// on with this allocation failing. allocations.py says what a copy shows. The variables:
//   BRANCHES=FOLDER    the copies read FOLDER/LINE.rest, whose empty line is behind the probes, and write to FOLDER/ALLOCATION
//   BRANCH_STRIDE=N    every N-th copy, and the first of each line, plays the rest of the script; the others end behind the probes
#define _GNU_SOURCE
#include "faults.h"
#include <errno.h>
#include <fcntl.h>
#include <stdio.h>
#include <stdlib.h>
#include <string.h>
#include <sys/stat.h>
#include <sys/syscall.h>
#include <sys/wait.h>
#include <unistd.h>

// The program itself, a copy in which an allocation failed, and a copy of that one, whose script ends behind the probes.
enum { NONE, TRUNK, BRANCH, TWIG };

static int what;
static long stride;
static int replaying;      // whether the copy plays the rest of the script
static long copied;        // the lines of the script at the last copy
static int script;         // what is read in place of standard input
static off_t read_to;
static long lines;         // the lines of the script that were read

void begin_branches(void)
{
    const char *folder = getenv("BRANCHES");
    stride = number("BRANCH_STRIDE", 1);
    if (folder && chdir(folder) != 0)
        abort();
    what = folder ? TRUNK : NONE;
}

// Copies the program. Returns whether this is the copy; otherwise the copy has ended, and the report at `path` has its status.
static int is_copy(const char *path, const char *word)
{
    int status;
    pid_t copy = fork();
    if (copy == 0) {
        alarm(60);
        return 1;
    }
    while (copy > 0 && waitpid(copy, &status, 0) < 0 && errno == EINTR)
        continue;
    append_to(path, word, copy > 0 && WIFEXITED(status) ? WEXITSTATUS(status) : 255);
    return 0;
}

// Returns whether two files have the same bytes.
static int are_alike(const char *path, const char *other)
{
    static char bytes[2][65536];
    int files[2] = {syscall(SYS_openat, AT_FDCWD, path, O_RDONLY), syscall(SYS_openat, AT_FDCWD, other, O_RDONLY)};
    ssize_t count;
    int same;
    do {
        count = syscall(SYS_read, files[0], bytes[0], sizeof bytes[0]);
        same = count == syscall(SYS_read, files[1], bytes[1], sizeof bytes[1]) && (count < 0 || memcmp(bytes[0], bytes[1], count) == 0);
    } while (same && count > 0);
    syscall(SYS_close, files[0]);
    syscall(SYS_close, files[1]);
    return same && count == 0;
}

// Keeps one of many files with the same bytes: the first is `kept`, and others become links to it.
static void share(const char *folder, const char *name, const char *kept)
{
    char path[64];
    sprintf(path, "%s/%s", folder, name);
    if (link(path, kept) != 0 && errno == EEXIST && are_alike(path, kept) && unlink(path) == 0 && link(kept, path) != 0)
        abort();
}

int branches(long allocation)
{
    char folder[32], report[48], rest[32], before[32];
    if (what != TRUNK)
        return 0;
    replaying = allocation % stride == 0 || lines != copied;
    copied = lines;
    sprintf(folder, "%ld", allocation);
    sprintf(report, "%s/report", folder);
    sprintf(rest, "%ld.rest", lines);
    if (mkdir(folder, 0700) != 0)
        abort();
    if (!is_copy(report, "status")) {
        sprintf(before, "%ld.before", lines);
        share(folder, replaying ? "before" : "saved", before);
        if (replaying)
            share(folder, "saved", "last");
        append_to(report, "replayed", replaying);
        return 0;
    }
    what = BRANCH;
    script = syscall(SYS_openat, AT_FDCWD, rest, O_RDONLY);
    read_to = 0;
    int answers = chdir(folder) == 0 ? syscall(SYS_openat, AT_FDCWD, "answers", O_WRONLY | O_CREAT | O_APPEND, 0600) : -1;
    if (script < 0 || answers < 0 || dup2(answers, 1) < 0)
        abort();
    return 1;
}

ssize_t read_script(int file, void *place, size_t size)
{
    if (what == NONE || file != 0)
        return syscall(SYS_read, file, place, size);
    ssize_t count = what == TWIG ? 0 : syscall(SYS_pread64, script, place, size, read_to);
    const char *end = count > 0 ? memchr(place, '\n', count) : NULL;
    if (end)
        count = end + 1 - (const char *)place;
    read_to += count;
    lines += end != NULL;
    if (what != BRANCH || end != place)
        return count;
    // the empty line behind the probes
    if (!replaying || is_copy("report", "status-before")) {
        what = TWIG;
        return 0;
    }
    rename("saved", "before");
    return read_script(file, place, size);
}
