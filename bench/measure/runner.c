/* SPDX-License-Identifier: Apache-2.0 */
// Runs a command, and writes its wall-clock nanoseconds, its peak memory in KiB and its wait status to file descriptor 3.
// A process begins with the peak memory of the one that forked it. So the command is forked here, and not by a large Python.
#include <signal.h>
#include <stdio.h>
#include <sys/prctl.h>
#include <sys/resource.h>
#include <sys/wait.h>
#include <time.h>
#include <unistd.h>

static long long now(void)
{
    struct timespec time;
    clock_gettime(CLOCK_MONOTONIC, &time);
    return time.tv_sec * 1000000000LL + time.tv_nsec;
}

int main(int count, char **words)
{
    struct rusage usage;
    int status;
    long long begun = now();
    pid_t child = count > 1 ? fork() : -1;
    if (child < 0)
        return 127;
    if (child == 0) {
        prctl(PR_SET_PDEATHSIG, SIGKILL);
        close(3);
        execvp(words[1], words + 1);
        _exit(127);
    }
    if (wait4(child, &status, 0, &usage) < 0)
        return 127;
    dprintf(3, "%lld %ld %d\n", now() - begun, usage.ru_maxrss, status);
    return 0;
}
