/* What calls of the program cost.
 *
 *   clock run PROGRAM WORDS..           its status, the seconds of a processor and of the clock on the wall, and its
 *                                       greatest resident size in MB
 *   clock marks PERIOD PROGRAM WORDS..  the microseconds of a processor between each two writes of 4096 bytes to the
 *                                       console: for each place in a period the least, the middle and the greatest
 *   clock end PROGRAM WORDS..           as `run`, but the seconds only from the moment on when it makes memory.bin
 *
 * It prints to file 3. Marks and the end are seen by the system's calls, as a debugger sees them (ptrace). */
#define _GNU_SOURCE
#include <fcntl.h>
#include <stdint.h>
#include <stdio.h>
#include <stdlib.h>
#include <string.h>
#include <sys/ptrace.h>
#include <sys/resource.h>
#include <sys/syscall.h>
#include <sys/wait.h>
#include <time.h>
#include <unistd.h>

#include <linux/ptrace.h>

enum { MOST = 1 << 20, PIECE = 4096 };

static double marks[MOST];
static int marked;

static double seconds(struct timespec at) { return (double)at.tv_sec + (double)at.tv_nsec / 1e9; }

static double wall(void) {
    struct timespec at;
    clock_gettime(CLOCK_MONOTONIC, &at);
    return seconds(at);
}

/* The processor time of a process so far. */
static double processor(pid_t child) {
    clockid_t clock;
    struct timespec at;
    if (clock_getcpuclockid(child, &clock) || clock_gettime(clock, &at)) exit(1);
    return seconds(at);
}

static pid_t begun(char **words, int is_traced) {
    int status;
    pid_t child = fork();
    if (child < 0) exit(1);
    if (child == 0) {
        if (is_traced) ptrace(PTRACE_TRACEME, 0, 0, 0);
        execv(words[0], words);
        _exit(127);
    }
    if (is_traced && waitpid(child, &status, 0) == child) ptrace(PTRACE_SETOPTIONS, child, 0, PTRACE_O_TRACESYSGOOD);
    return child;
}

/* Goes on to the next call of the system; whether there is one before the end. */
static int next_call(pid_t child, int *status, struct rusage *usage, struct ptrace_syscall_info *call) {
    do {
        ptrace(PTRACE_SYSCALL, child, 0, 0);
        if (wait4(child, status, 0, usage) != child || !WIFSTOPPED(*status)) return 0;
        memset(call, 0, sizeof *call);
        ptrace(PTRACE_GET_SYSCALL_INFO, child, sizeof *call, call);
    } while (call->op != PTRACE_SYSCALL_INFO_ENTRY);
    return 1;
}

static int code(int status) { return WIFEXITED(status) ? WEXITSTATUS(status) : -1; }

static double used(struct rusage *usage) {
    return (double)(usage->ru_utime.tv_sec + usage->ru_stime.tv_sec) +
           (double)(usage->ru_utime.tv_usec + usage->ru_stime.tv_usec) / 1e6;
}

static void tell(int status, double used, double lasted, struct rusage *usage) {
    dprintf(3, "%d %.4f %.4f %.0f\n", code(status), used, lasted, (double)usage->ru_maxrss / 1000);
}

static int run(char **words) {
    struct rusage usage;
    int status;
    double at = wall();
    if (wait4(begun(words, 0), &status, 0, &usage) < 0) return 1;
    tell(status, used(&usage), wall() - at, &usage);
    return 0;
}

static int by_size(const void *one, const void *other) {
    double x = *(const double *)one, y = *(const double *)other;
    return (x > y) - (x < y);
}

/* The least, the middle and the greatest of each so many times between two marks. */
static void show(int period) {
    static double times[MOST];
    for (int place = 0; place < period; place++) {
        int count = 0;
        for (int i = place; i + 1 < marked; i += period) times[count++] = 1e6 * (marks[i + 1] - marks[i]);
        qsort(times, (size_t)count, sizeof *times, by_size);
        if (count) dprintf(3, "%.1f %.1f %.1f\n", times[0], times[count / 2], times[count - 1]);
    }
}

static int mark(int period, char **words) {
    struct ptrace_syscall_info call;
    struct rusage usage;
    int status;
    pid_t child = begun(words, 1);
    while (next_call(child, &status, &usage, &call))
        if (call.entry.nr == SYS_write && call.entry.args[0] == 1 && call.entry.args[2] == PIECE && marked < MOST)
            marks[marked++] = processor(child);
    show(period);
    return code(status) != 0;
}

static int end(char **words) {
    struct ptrace_syscall_info call;
    struct rusage usage;
    int status;
    pid_t child = begun(words, 1);
    do
        if (!next_call(child, &status, &usage, &call)) return 1;
    while (call.entry.nr != SYS_openat || !(call.entry.args[2] & O_CREAT));
    double before = processor(child), at = wall();
    ptrace(PTRACE_DETACH, child, 0, 0);
    if (wait4(child, &status, 0, &usage) != child) return 1;
    tell(status, used(&usage) - before, wall() - at, &usage);
    return 0;
}

int main(int many, char **words) {
    if (many >= 3 && strcmp(words[1], "run") == 0) return run(words + 2);
    if (many >= 4 && strcmp(words[1], "marks") == 0) return mark(atoi(words[2]), words + 3);
    if (many >= 3 && strcmp(words[1], "end") == 0) return end(words + 2);
    return 2;
}
