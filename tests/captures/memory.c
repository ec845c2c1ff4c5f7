/* Preloaded into a build. Makes the n-th allocation of the process redo-log-capture fail, or this one and all later ones, and then
   writes one byte to a file. The environment has n in REFUSE_AT, the file in REFUSE_TOLD, and in REFUSE_ALL whether later ones fail
   too. */
#define _GNU_SOURCE
#include <errno.h>
#include <fcntl.h>
#include <stddef.h>
#include <stdlib.h>
#include <string.h>
#include <unistd.h>

void *__libc_malloc(size_t size);
void *__libc_calloc(size_t count, size_t size);
void *__libc_realloc(void *block, size_t size);

static int is_capture, refuses_all;
static long requests, refused;
static const char *told;

__attribute__((constructor)) static void begin(void) {
    char program[4096];
    ssize_t size = readlink("/proc/self/exe", program, sizeof program - 1);
    program[size > 0 ? size : 0] = 0;
    told = getenv("REFUSE_TOLD");
    refused = told && getenv("REFUSE_AT") ? atol(getenv("REFUSE_AT")) : 0;
    refuses_all = getenv("REFUSE_ALL") != NULL;
    is_capture = refused > 0 && strstr(program, "/redo-log-capture") != NULL;
}

static int is_refused(void) {
    if (!is_capture || ++requests < refused || (requests > refused && !refuses_all)) return 0;
    int file = requests == refused ? open(told, O_WRONLY | O_CREAT | O_APPEND | O_CLOEXEC, 0666) : -1;
    if (file >= 0 && write(file, "x", 1) != 1) abort();
    if (file >= 0) close(file);
    errno = ENOMEM;
    return 1;
}

void *malloc(size_t size) { return is_refused() ? NULL : __libc_malloc(size); }

void *calloc(size_t count, size_t size) { return is_refused() ? NULL : __libc_calloc(count, size); }

void *realloc(void *block, size_t size) { return is_refused() ? NULL : __libc_realloc(block, size); }
