/* Preloaded into a program. The program sends itself the signal SIGNAL right before its first call of fork if SIGNAL_BEFORE is set,
   otherwise right after it. */
#define _GNU_SOURCE
#include <dlfcn.h>
#include <signal.h>
#include <stdlib.h>
#include <unistd.h>

pid_t fork(void) {
    static int count;
    pid_t (*real)(void) = (__typeof__(real))dlsym(RTLD_NEXT, "fork");
    const char *kind = getenv("SIGNAL");
    int is_first = count++ == 0 && kind != NULL, is_before = getenv("SIGNAL_BEFORE") != NULL;
    if (is_first && is_before) {
        raise(atoi(kind));
    }
    pid_t child = real();
    if (is_first && !is_before && child > 0) {
        raise(atoi(kind));
    }
    return child;
}
