/* Preloaded into a program: makes calls to the system fail, stops the process before them, or shortens reads and writes.
   Environment variables say how:
     FAIL_CALL    open, read, write, lseek, statx or pthread_create
     FAIL_FIRST   the number of the first such call that fails, counted from 1 over all threads
     FAIL_LAST    the number of the last such call that fails
     FAIL_ERROR   the error number; if it is 0, the call doesn't fail, but the process stops itself before it
     FAIL_MOST    the maximum number of bytes that a read or write takes
   A call that fails writes one byte to file descriptor 9. This write isn't counted. */
#define _GNU_SOURCE
#include <dlfcn.h>
#include <errno.h>
#include <fcntl.h>
#include <pthread.h>
#include <signal.h>
#include <stdarg.h>
#include <stdlib.h>
#include <string.h>
#include <sys/stat.h>
#include <sys/syscall.h>
#include <unistd.h>

static long calls;

static long number_of(const char *name, long otherwise) {
    const char *value = getenv(name);
    return value == NULL ? otherwise : atol(value);
}

/* Returns the error with which this call fails, or 0. */
static int error_of(const char *call) {
    const char *failing = getenv("FAIL_CALL");
    if (failing == NULL || strcmp(failing, call) != 0) {
        return 0;
    }
    long number = __atomic_add_fetch(&calls, 1, __ATOMIC_SEQ_CST);
    if (number < number_of("FAIL_FIRST", 1) || number > number_of("FAIL_LAST", 1)) {
        return 0;
    }
    (void)!syscall(SYS_write, 9, "f", 1);
    long error = number_of("FAIL_ERROR", EIO);
    if (error == 0) {
        raise(SIGSTOP);
    }
    return (int)error;
}

static size_t at_most(size_t count) {
    size_t most = (size_t)number_of("FAIL_MOST", 1L << 62);
    return count < most ? count : most;
}

int open(const char *path, int flags, ...) {
    va_list arguments;
    va_start(arguments, flags);
    int mode = va_arg(arguments, int);
    va_end(arguments);
    int error = error_of("open");
    if (error != 0) {
        errno = error;
        return -1;
    }
    return (int)syscall(SYS_openat, AT_FDCWD, path, flags, mode);
}

ssize_t read(int file, void *bytes, size_t count) {
    int error = error_of("read");
    if (error != 0) {
        errno = error;
        return -1;
    }
    return syscall(SYS_read, file, bytes, at_most(count));
}

off_t lseek(int file, off_t offset, int whence) {
    int error = error_of("lseek");
    if (error != 0) {
        errno = error;
        return -1;
    }
    return syscall(SYS_lseek, file, offset, whence);
}

int statx(int directory, const char *restrict path, int flags, unsigned mask, struct statx *restrict found) {
    int error = error_of("statx");
    if (error != 0) {
        errno = error;
        return -1;
    }
    return (int)syscall(SYS_statx, directory, path, flags, mask, found);
}

ssize_t write(int file, const void *bytes, size_t count) {
    int error = error_of("write");
    if (error != 0) {
        errno = error;
        return -1;
    }
    return syscall(SYS_write, file, bytes, at_most(count));
}

ssize_t __write(int file, const void *bytes, size_t count) {
    return write(file, bytes, count);
}

typedef int start_thread(pthread_t *, const pthread_attr_t *, void *(*)(void *), void *);

int pthread_create(pthread_t *thread, const pthread_attr_t *how, void *(*body)(void *), void *given) {
    int error = error_of("pthread_create");
    return error != 0 ? error : ((start_thread *)dlsym(RTLD_NEXT, "pthread_create"))(thread, how, body, given);
}
