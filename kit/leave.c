/* How a hart leaves: by exit, which a return from main makes too, and so by the machine's exit; or by abort (so also by
 * assert, and where the compiler's guard finds an overflow), which is fault 3. A module's own function of one of these
 * names takes its place. */
#include "mondrix.h"

#include <errno.h>
#include <signal.h>
#include <stdlib.h>
#include <unistd.h>

#define OURS __attribute__((weak))

void (*mondrix_flush_last)(void);

void mondrix_leave(int code) {
    if (mondrix_flush_last) mondrix_flush_last();
    mondrix_exit(code);
    mondrix_break(); /* exit is refused inside a call through a gate */
}

/* What atexit was given is there where atexit is. */
extern void __call_exitprocs(int code, void *none) __attribute__((weak));
void __libc_fini_array(void);

OURS void exit(int code) {
    if (__call_exitprocs) __call_exitprocs(code, 0);
    __libc_fini_array();
    _exit(code);
}

OURS void _exit(int code) { mondrix_leave(code); }

OURS void abort(void) {
    if (mondrix_flush_last) mondrix_flush_last();
    mondrix_break();
}

/* What the library's raise stands on. A process is a module, and nothing is sent to another. */
OURS int getpid(void) { return (int)mondrix_module(); }

OURS int kill(pid_t process, int signal) {
    if (process == getpid()) {
        if (signal == 0) return 0;
        abort();
    }
    errno = ESRCH;
    return -1;
}

/* The guard of -fstack-protector: a text ends at its zero and its line feed. It is there before any constructor, since
 * a gate may be entered earlier. */
OURS uintptr_t __stack_chk_guard = 0xff0a0000u;

OURS __attribute__((noreturn)) void __stack_chk_fail(void) {
    static const char said[] = "a buffer on the stack overflowed\n";
    if (mondrix_flush_last) mondrix_flush_last();
    (void)!mondrix_write(said, sizeof said - 1);
    mondrix_break();
}
