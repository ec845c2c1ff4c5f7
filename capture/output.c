/* The files of --summary, --html and --json. */
#define _GNU_SOURCE
#include "capture.h"
#include <errno.h>
#include <fcntl.h>
#include <stdlib.h>
#include <string.h>
#include <sys/stat.h>
#include <unistd.h>

enum { MAX_TEMPORARY_NAMES = 1000 };

/* Opening these paths would truncate the file that the descriptor has. */
int named_descriptor(const char *path) {
  if (strcmp(path, "/dev/stdout") == 0) return 1;
  if (strcmp(path, "/dev/stderr") == 0) return 2;
  const char *digits = strncmp(path, "/dev/fd/", 8) == 0 ? path + 8 : "";
  size_t size = strspn(digits, "0123456789");
  return size > 0 && size < 10 && !digits[size] ? atoi(digits) : -1;
}

/* Whether a file is replaced. Otherwise it is written, such as a pipe, a device, or what a link leads to. */
static int is_replaced(const char *path) {
  struct stat found;
  return lstat(path, &found) < 0 || S_ISREG(found.st_mode);
}

static int check_descriptor(int descriptor) {
  int flags = fcntl(descriptor, F_GETFL);
  return flags < 0 || (flags & O_ACCMODE) == O_RDONLY ? EBADF : 0;
}

static int check_path(const char *path) {
  struct stat found;
  int replaces = is_replaced(path);
  char *checked = replaces ? xasprintf("%.*s.", (int)(base_name(path) - path), path) : xasprintf("%s", path);
  int error = faccessat(AT_FDCWD, checked, replaces ? W_OK | X_OK : W_OK, AT_EACCESS) < 0 ? errno : 0;
  if (!replaces && error == ENOENT) error = 0; /* a link to a file that doesn't exist yet */
  if (!replaces && stat(path, &found) == 0 && S_ISDIR(found.st_mode)) error = EISDIR;
  free(checked);
  return error;
}

void check_output(const char *path) {
  int descriptor = named_descriptor(path), error = descriptor >= 0 ? check_descriptor(descriptor) : check_path(path);
  if (error) die(1, "cannot write %s: %s", path, strerror(error));
}

/* A link may lead to the other file. Descriptors that have one file write one after the other. */
int is_same_output(const char *path, const char *other) {
  struct stat found, other_found;
  if (is_same_path(path, other)) return 1;
  if (is_replaced(path) && is_replaced(other)) return 0;
  if (named_descriptor(path) >= 0 && named_descriptor(other) >= 0) return 0;
  return stat(path, &found) == 0 && stat(other, &other_found) == 0 && S_ISREG(found.st_mode) &&
         found.st_dev == other_found.st_dev && found.st_ino == other_found.st_ino;
}

/* Creates a new file beside a path, and sets its name, as --output of the other programs does. Returns -1 on failure. */
static int create_temporary(const char *path, char **name) {
  for (int number = 0; number < MAX_TEMPORARY_NAMES; number++) {
    *name = xasprintf("%s.tmp%d", path, number);
    int file = open(*name, O_WRONLY | O_CREAT | O_EXCL | O_NOFOLLOW | O_CLOEXEC, 0666);
    if (file >= 0 || errno != EEXIST) return file;
    free(*name);
  }
  errno = EEXIST;
  return -1;
}

/* Writes a file and closes it. Returns -1 on failure. */
static int write_and_close(int file, const char *bytes, size_t size) {
  if (file < 0) return -1;
  int error = write_all(file, bytes, size) < 0 ? errno : 0;
  if (close(file) < 0 && !error) error = errno;
  errno = error;
  return error ? -1 : 0;
}

static int replace_output(const char *path, const char *bytes, size_t size) {
  char *temporary;
  int file = create_temporary(path, &temporary);
  if (file < 0) return -1;
  if (write_and_close(file, bytes, size) == 0 && rename(temporary, path) == 0) return 0;
  int error = errno;
  unlink(temporary);
  errno = error;
  return -1;
}

int write_output(const char *path, const char *bytes, size_t size) {
  int descriptor = named_descriptor(path);
  if (descriptor >= 0) return write_all(descriptor, bytes, size);
  if (is_replaced(path)) return replace_output(path, bytes, size);
  return write_and_close(open(path, O_WRONLY | O_CREAT | O_TRUNC | O_CLOEXEC, 0666), bytes, size);
}
