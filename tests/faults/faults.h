/* SPDX-License-Identifier: Apache-2.0 */
// What the parts of the shim share: faults.c has the allocations, and the reads and writes by their bytes; calls.c has the calls on the
// program's own files; branches.c has the copies of a program.
#ifndef FAULTS_H
#define FAULTS_H

#include <sys/types.h>

// Returns the number of an environment variable, or another one if it isn't set.
long number(const char *name, long otherwise);

// Appends the line 'WORD NUMBER' to a file, if one is named. Allocates nothing.
void append_to(const char *path, const char *word, long value);

// Reads the variables of calls.c, and reports its counts.
void begin_calls(void);
void end_calls(const char *report);

// Returns how many of `size` bytes a read or write on this descriptor moves, or -1 if it fails.
ssize_t moved(const char *name, int file, size_t size);

// Ends the program if it dies in the middle of this write.
void end_write(void);

// Returns whether another call on this descriptor fails, and sets errno then.
int is_failing(const char *name, int file);

// Reads the variables of branches.c.
void begin_branches(void);

// Copies the program if BRANCHES is set, so that this allocation fails in the copy. Returns whether this is the copy.
int branches(long allocation);

// Reads as `read` does, but one line of the script if the program is copied.
ssize_t read_script(int file, void *place, size_t size);

#endif
