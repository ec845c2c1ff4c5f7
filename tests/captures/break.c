/* Preloaded into a build. Before redo-log-capture changes a file for the n-th time, this library kills the whole process group, or
   makes every later write fail as if no space were left, or only the second half of this one, or removes a directory. The environment
   has n in BREAK_AT, a file that counts in BREAK_COUNT, whether no space is left in BREAK_FULL, whether that holds for one write
   in BREAK_TORN, and the directory in BREAK_REMOVE. */
#define _GNU_SOURCE
#include <dlfcn.h>
#include <errno.h>
#include <fcntl.h>
#include <ftw.h>
#include <signal.h>
#include <stdio.h>
#include <stdlib.h>
#include <string.h>
#include <sys/stat.h>
#include <unistd.h>

static ssize_t (*real_write)(int, const void *, size_t);
static int is_capture;

__attribute__((constructor)) static void begin(void) {
    char program[4096];
    ssize_t size = readlink("/proc/self/exe", program, sizeof program - 1);
    program[size > 0 ? size : 0] = 0;
    is_capture = strstr(program, "/redo-log-capture") != NULL && getenv("BREAK_COUNT") != NULL;
    real_write = (__typeof__(real_write))dlsym(RTLD_NEXT, "write");
}

static int remove_one(const char *path, const struct stat *found, int kind, struct FTW *place) {
    (void)found, (void)kind, (void)place;
    return remove(path);
}

/* Whether it is the n-th time, or a later one. */
static int is_over(void) {
    struct stat counted;
    int error = errno, count = open(getenv("BREAK_COUNT"), O_WRONLY | O_CREAT | O_APPEND | O_CLOEXEC, 0666);
    if (count < 0 || real_write(count, "x", 1) != 1 || fstat(count, &counted) < 0) abort();
    close(count);
    errno = error;
    if (counted.st_size < atoi(getenv("BREAK_AT"))) return 0;
    if (getenv("BREAK_REMOVE") != NULL) {
        if (counted.st_size == atoi(getenv("BREAK_AT"))) {
            is_capture = 0;
            nftw(getenv("BREAK_REMOVE"), remove_one, 16, FTW_DEPTH | FTW_PHYS);
            is_capture = 1;
        }
        errno = error;
        return 0;
    }
    if (getenv("BREAK_FULL") == NULL) kill(0, SIGKILL);
    return 1;
}

static int is_file(int file) {
    struct stat found;
    return fstat(file, &found) == 0 && S_ISREG(found.st_mode);
}

ssize_t write(int file, const void *bytes, size_t size) {
    static int parts; /* of the write that is torn */
    if (!is_capture || !is_file(file) || !is_over()) return real_write(file, bytes, size);
    if (getenv("BREAK_TORN") != NULL && ++parts != 2) return real_write(file, bytes, parts == 1 ? size / 2 : size);
    errno = ENOSPC;
    return -1;
}

static int (*real_renameat(void))(int, const char *, int, const char *) {
    return (int (*)(int, const char *, int, const char *))dlsym(RTLD_NEXT, "renameat");
}

int renameat(int from_directory, const char *from, int to_directory, const char *to) {
    if (is_capture && getenv("BREAK_FULL") == NULL) is_over();
    return real_renameat()(from_directory, from, to_directory, to);
}

int unlinkat(int directory, const char *path, int flags) {
    int (*real)(int, const char *, int) = (int (*)(int, const char *, int))dlsym(RTLD_NEXT, "unlinkat");
    if (is_capture && getenv("BREAK_FULL") == NULL) is_over();
    return real(directory, path, flags);
}

int ftruncate(int file, off_t size) {
    int (*real)(int, off_t) = (int (*)(int, off_t))dlsym(RTLD_NEXT, "ftruncate");
    if (is_capture && getenv("BREAK_FULL") == NULL) is_over();
    return real(file, size);
}
