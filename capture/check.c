/* Checks of the capture directory before the build starts. */
#define _GNU_SOURCE
#include "capture.h"
#include <dirent.h>
#include <errno.h>
#include <fcntl.h>
#include <stdlib.h>
#include <string.h>
#include <sys/stat.h>
#include <unistd.h>

/* If the path doesn't exist, its nearest existing ancestor must be a directory that can be written. */
const char *why_not_writable(const char *path) {
  char *ancestor = xasprintf("%s", path);
  struct stat found;
  for (char *slash; access(ancestor, F_OK) < 0; slash[slash == ancestor] = 0) {
    if (errno != ENOENT) return strerror(errno);
    slash = strrchr(ancestor, '/');
  }
  int error = stat(ancestor, &found) < 0 ? errno : !S_ISDIR(found.st_mode) ? ENOTDIR : 0;
  if (!error && faccessat(AT_FDCWD, ancestor, W_OK | X_OK, AT_EACCESS) < 0) error = errno;
  free(ancestor);
  return error ? strerror(error) : NULL;
}

/* Exits if the path is a symbolic link: the files of another user's directory could lead to files that this user may write. */
static void check_link(const char *path) {
  struct stat found;
  if (lstat(path, &found) == 0 && S_ISLNK(found.st_mode)) die(1, "%s is a symbolic link", path);
}

/* Exits if the file exists and isn't a regular file that this process can access. */
static void check_file(const char *name, int mode) {
  struct stat found = {.st_mode = 0};
  char *path = xasprintf("%s/%s", directory_name, name);
  check_link(path);
  if (lstat(path, &found) < 0 && (errno == ENOENT || errno == ENOTDIR)) return;
  if ((mode & R_OK) && faccessat(AT_FDCWD, path, R_OK, AT_EACCESS) < 0) die(1, "cannot read %s: %s", path, strerror(errno));
  if ((mode & W_OK) && faccessat(AT_FDCWD, path, W_OK, AT_EACCESS) < 0) die(1, "cannot write %s: %s", path, strerror(errno));
  if (!S_ISREG(found.st_mode)) die(1, "%s is not a regular file", path);
  free(path);
}

static void check_state_link(void) {
  char *path = xasprintf("%s/.capture", directory_name);
  check_link(path);
  free(path);
}

void check_files(void) {
  check_state_link();
  check_file("names", R_OK | W_OK);
  check_file(".capture/lock", R_OK | W_OK);
  check_file(".capture/run", R_OK);
  check_file(".capture/closed", R_OK);
  check_file(".capture/new", W_OK);
}

/* Reads the first bytes of a file in a directory: none if it is empty or can't be read. */
static void read_start(const char *directory, const char *name, char *start, size_t size) {
  char *path = xasprintf("%s/%s", directory, name);
  int file = open(path, O_RDONLY | O_NONBLOCK | O_CLOEXEC);
  ssize_t length = file < 0 ? 0 : read(file, start, size - 1);
  start[length > 0 ? length : 0] = 0;
  if (file >= 0) close(file);
  free(path);
}

/* Whether a file is empty, can't be read, or begins like a line of an index. */
static int may_be_index(const char *directory, const char *name) {
  char start[sizeof "!999999999 "];
  read_start(directory, name, start, sizeof start);
  const char *number = start + (*start == '!');
  size_t digits = strspn(number, "0123456789");
  return !*start || (digits > 0 && number[digits] == ' ');
}

/* Whether a file is empty, can't be read, or begins with a record, as the logs of recipes do. Other programs write log.1, too. */
static int may_be_log(const char *directory, const char *name) {
  char start[sizeof "@@REDO:"];
  read_start(directory, name, start, sizeof start);
  return !*start || strcmp(start, "@@REDO:") == 0;
}

/* Whether a directory has a file that no capture writes. The files of a capture may be left without `.capture` if a recipe removes the
   directory while logs are created. */
static int has_foreign_files(const char *path) {
  static const char *const own[] = {".", "..", ".gitignore", "facts", "names"};
  DIR *files = opendir(path);
  int found = !may_be_index(path, "names");
  for (struct dirent *file; files && (file = readdir(files));) {
    int is_own = parse_log_name(file->d_name) > 0 && may_be_log(path, file->d_name);
    for (size_t i = 0; i < sizeof own / sizeof *own; i++) is_own |= strcmp(file->d_name, own[i]) == 0;
    found |= !is_own;
  }
  if (files) closedir(files);
  return found;
}

void check_directory(void) {
  struct stat found;
  const char *reason = why_not_writable(directory_path);
  if (!reason && lstat(directory_path, &found) == 0 && stat(directory_path, &found) < 0) reason = strerror(errno);
  if (reason) die(1, "cannot write %s: %s", directory_name, reason);
  check_state_link();
  char *state_directory = xasprintf("%s/.capture", directory_path);
  if (access(state_directory, F_OK) < 0 && has_foreign_files(directory_path))
    die(1, "%s is not a capture directory, and not empty; name another one with --dir", directory_name);
  if (access(state_directory, F_OK) == 0 && (reason = why_not_writable(state_directory)))
    die(1, "cannot write %s/.capture: %s", directory_name, reason);
  free(state_directory);
  check_files();
}
