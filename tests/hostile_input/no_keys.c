/* Preloaded into a program: the system gives it no random bytes. */
#include <errno.h>
#include <stddef.h>

int getentropy(void *bytes, size_t count) {
    (void)bytes, (void)count;
    errno = ENOSYS;
    return -1;
}
