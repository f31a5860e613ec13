/* SPDX-License-Identifier: Apache-2.0 */
/* Writes the names of the calls fsync, and rename to a file below ORDER_BELOW, in their order to the file that the variable ORDER names, and
 * "open" for each write to a file below ORDER_BELOW that others may read. Preloaded. */
#define _GNU_SOURCE
#include <dlfcn.h>
#include <fcntl.h>
#include <stdio.h>
#include <stdlib.h>
#include <string.h>
#include <sys/stat.h>
#include <unistd.h>

/* The call of the C library. */
#define CALL(name) ((__typeof__(&name))dlsym(RTLD_NEXT, #name))

static void note(const char *line)
{
    const char *path = getenv("ORDER");
    int file = path ? open(path, O_WRONLY | O_CREAT | O_APPEND, 0600) : -1;
    if (file < 0 || CALL(write)(file, line, strlen(line)) < 0)
        abort();
    close(file);
}

static int is_below(const char *path)
{
    const char *below = getenv("ORDER_BELOW");
    return below && !strncmp(path, below, strlen(below));
}

static void look(int file)
{
    char link[32], path[4096] = "";
    struct stat found;
    snprintf(link, sizeof link, "/proc/self/fd/%d", file);
    if (readlink(link, path, sizeof path - 1) > 0 && is_below(path) && !fstat(file, &found) && found.st_mode & 077)
        note("open\n");
}

ssize_t write(int file, const void *bytes, size_t size)
{
    look(file);
    return CALL(write)(file, bytes, size);
}

ssize_t pwrite(int file, const void *bytes, size_t size, off_t offset)
{
    look(file);
    return CALL(pwrite)(file, bytes, size, offset);
}

int fsync(int file)
{
    note("fsync\n");
    return CALL(fsync)(file);
}

int rename(const char *from, const char *to)
{
    if (is_below(to))
        note("rename\n");
    return CALL(rename)(from, to);
}
