/* The capture directory. */
#define _GNU_SOURCE
#include "capture.h"
#include <errno.h>
#include <fcntl.h>
#include <limits.h>
#include <signal.h>
#include <stdlib.h>
#include <string.h>
#include <sys/file.h>
#include <sys/stat.h>
#include <unistd.h>

const char *directory_name;
char *directory_path;
int directory_fd = -1, failed_writes;

/* DROPPED: another run has locked the directory, or it can't be written. */
static enum { CLOSED, OPEN, DROPPED } state;
static int state_fd = -1; /* of `.capture` */
static int lock_fd = -1, lock_error, last_error;
static char last_name[64]; /* of the file that couldn't be written last */
static struct stat lock_file;
static int64_t checked_at; /* the time of the last check_removal */

void set_directory(const char *name) {
  directory_name = name;
  directory_path = absolute_path(name);
}

int is_capturing(void) { return state == OPEN; }
int is_dropped(void) { return state == DROPPED; }

/* Returns the descriptor of the directory that has this file. Sets the file's name there. */
static int locate(const char *path, const char **name) {
  int is_state = strncmp(path, ".capture/", 9) == 0;
  *name = is_state ? path + 9 : path;
  return is_state ? state_fd : directory_fd;
}

/* Follows no link, which could lead to a file that somebody else wants to have written. */
static int open_file(const char *path, int flags) {
  const char *name;
  int directory = locate(path, &name);
  return openat(directory, name, flags | O_CLOEXEC | O_NOFOLLOW, 0666);
}

/* Opening fails with EWOULDBLOCK if another process, such as a file server, has a lease on the file. The second call waits until
   the lease ends. */
int open_in_directory(const char *name, int flags) {
  int file = open_file(name, flags | O_NONBLOCK);
  if (file < 0 && errno == EWOULDBLOCK) return open_file(name, flags);
  if (file >= 0 || (errno != EMFILE && errno != ENFILE)) return file;
  close_all_logs();
  return open_file(name, flags | O_NONBLOCK);
}

int open_to_append(const char *name) {
  struct stat found;
  size_t size;
  int file = open_in_directory(name, O_RDWR | O_APPEND | O_CREAT);
  if (file < 0 || fstat(file, &found) < 0 || found.st_nlink < 2) return file;
  char *bytes = read_all(file, &size);
  int error = bytes ? replace_file(name, bytes, size) : -1;
  free(bytes);
  close(file);
  return error ? -1 : open_in_directory(name, O_RDWR | O_APPEND);
}

char *read_file(const char *name, size_t *size) {
  int file = open_in_directory(name, O_RDONLY);
  char *bytes = file < 0 ? NULL : read_all(file, size);
  if (file >= 0) close(file);
  return bytes;
}

/* Whether somebody has removed the directory, or its lock. If it was only moved, its files are still found by its descriptor. */
static int is_removed(void) {
  struct stat found;
  if (fstatat(state_fd, "lock", &found, AT_SYMLINK_NOFOLLOW) < 0) return errno == ENOENT || errno == ESTALE;
  return found.st_dev != lock_file.st_dev || found.st_ino != lock_file.st_ino;
}

/* Prints one line for consecutive failures of a full device, and none for a directory that is gone, which check_removal reports.
   If somebody has replaced the file by something else, this doesn't count as a failed write. */
void report_write_error(const char *name) {
  int error = errno, is_general = error == ENOSPC || error == EDQUOT || error == EFBIG || error == EIO || error == EROFS;
  if (state == OPEN && (error == ENOENT || is_removed())) { /* somebody is removing the directory */
    last_error = ENOENT;
    return;
  }
  failed_writes += error != EISDIR && error != ELOOP && error != ENXIO;
  const char *cause = error == ELOOP ? "it is a symbolic link" : strerror(error);
  int is_repeated = error == last_error && (is_general || strcmp(name, last_name) == 0);
  if (!is_repeated) warn("cannot write %s/%s: %s", directory_path, name, cause);
  snprintf(last_name, sizeof last_name, "%s", name);
  last_error = error;
}

/* Creates `.capture/new`. An existing one isn't written, because it may have another link. */
static int create_new_file(void) {
  int file = open_in_directory(".capture/new", O_WRONLY | O_CREAT | O_EXCL);
  if (file >= 0 || errno != EEXIST || unlinkat(state_fd, "new", 0) < 0) return file;
  return open_in_directory(".capture/new", O_WRONLY | O_CREAT | O_EXCL);
}

int replace_file(const char *path, const char *bytes, size_t size) {
  const char *name;
  int file = create_new_file(), directory = locate(path, &name);
  int is_written = file >= 0 && write_all(file, bytes, size) == 0;
  if (file >= 0 && close(file) < 0) is_written = 0;
  if (is_written && renameat(state_fd, "new", directory, name) == 0) return 0;
  report_write_error(path);
  return -1;
}

/* Creates the directory and its ancestors. Returns 0 or the error, which is EEXIST if the directory exists. Its name is relative to
   the directory in which the run began, even if that was renamed. */
static int make_directories(void) {
  char *path = xasprintf("%s/", directory_name);
  int error = EEXIST;
  for (char *slash = path + 1; (slash = strchr(slash, '/')); *slash++ = '/') {
    *slash = 0;
    error = mkdir(path, 0777) < 0 ? errno : 0;
  }
  free(path);
  return error;
}

/* Opens the directory and `.capture`. Returns 0 or the error. */
static int open_directories(void) {
  directory_fd = open(directory_name, O_RDONLY | O_DIRECTORY | O_CLOEXEC);
  if (directory_fd < 0 || (mkdirat(directory_fd, ".capture", 0777) < 0 && errno != EEXIST)) return errno;
  state_fd = openat(directory_fd, ".capture", O_RDONLY | O_NOFOLLOW | O_NONBLOCK | O_CLOEXEC);
  return state_fd < 0 ? errno : 0;
}

/* Opens the lock and locks it. Returns 0; 1 if another process has locked it; -1 on failure. A lock with another link is replaced,
   so that the file elsewhere stays unchanged. Another run may do the same: once locked, the lock must still be in its place. */
static int lock_directory(void) {
  struct stat found;
  for (int tries = 0; tries < 100; tries++) {
    lock_fd = open_in_directory(".capture/lock", O_RDWR | O_CREAT);
    if (lock_fd < 0) return -1;
    if (flock(lock_fd, LOCK_EX | LOCK_NB) < 0 && errno == EWOULDBLOCK) return 1;
    int is_in_place = fstat(lock_fd, &lock_file) == 0 && fstatat(state_fd, "lock", &found, AT_SYMLINK_NOFOLLOW) == 0 &&
                      found.st_dev == lock_file.st_dev && found.st_ino == lock_file.st_ino;
    if (is_in_place && lock_file.st_nlink < 2) return 0;
    if (is_in_place) unlinkat(state_fd, "lock", 0);
    close(lock_fd);
  }
  lock_fd = -1, errno = EMLINK;
  return -1;
}

/* Returns whether another process has the lock, and sets its number; 0 if it hasn't written that yet. The file may still have the number of
   an earlier process. Other runs aren't noticed if the file system has no locks. */
static int acquire_lock(int *owner) {
  char number[32] = "", *line = xasprintf("%d\n", (int)getpid());
  int is_locked = lock_directory();
  lock_error = errno;
  if (is_locked == 1) {
    ssize_t size = pread(lock_fd, number, sizeof number - 1, 0);
    number[size > 0 ? size : 0] = 0;
  } else if (is_locked == 0 && (ftruncate(lock_fd, 0) < 0 || write_all(lock_fd, line, strlen(line)) < 0)) {
    failed_writes++; /* another run can't report which process has the lock */
  }
  free(line);
  *owner = atoi(number);
  if (*owner > 0 && kill(*owner, 0) < 0 && errno == ESRCH) *owner = 0;
  return is_locked == 1;
}

void close_directory(void) {
  close_facts();
  close_index();
  close_journal();
  if (lock_fd >= 0) close(lock_fd);
  if (state_fd >= 0) close(state_fd);
  if (directory_fd >= 0) close(directory_fd);
  lock_fd = state_fd = directory_fd = -1;
}

static int give_up_directory(void) {
  close_directory();
  state = DROPPED;
  return -1;
}

/* Changes no log of an earlier run unless the index, the list of closed logs and the journal can be written. */
static int begin_run(void) {
  run_target = add_target("all");
  if (read_index() < 0) return -1;
  read_closed();
  run_target->is_closed = 0;
  if (write_index(0) < 0 || write_closed() < 0 || begin_journal() < 0) return -1;
  open_facts();
  if (unlinkat(directory_fd, "log.1", 0) < 0 && errno != ENOENT) report_write_error("log.1"), run_target->log.is_unwritable = 1;
  return 0;
}

/* A new directory gets a .gitignore, so that git ignores it. */
static void ignore_directory(void) {
  int ignored = open_in_directory(".gitignore", O_WRONLY | O_CREAT | O_EXCL);
  if (ignored >= 0) write_all(ignored, "*\n", 2), close(ignored);
}

int open_directory(void) {
  struct stat found;
  if (state != CLOSED) return state == OPEN ? 0 : -1;
  int is_new = stat(directory_name, &found) < 0;
  int error = make_directories(), owner, is_locked = 0;
  if (!error || error == EEXIST) error = open_directories();
  if (!error && is_new) ignore_directory();
  if (!error) is_locked = acquire_lock(&owner), error = lock_fd < 0 ? lock_error : 0;
  if (error == ENOENT) { /* somebody is removing the directory: the next line tries again */
    close_directory();
    return -1;
  }
  if (error && directory_fd < 0) warn("cannot write %s: %s", directory_path, strerror(error)), failed_writes++;
  if (error && directory_fd >= 0) errno = error, report_write_error(state_fd < 0 ? ".capture" : ".capture/lock");
  if (is_locked && owner > 0) warn("%s is in use by another build, process %d: this build is not captured", directory_name, owner);
  if (is_locked && owner <= 0) warn("%s is in use by another build: this build is not captured", directory_name);
  if (is_locked || error) return give_up_directory();
  state = OPEN;
  if (begin_run() == 0) return 0;
  check_removal();
  if (state == OPEN && last_error != ENOENT) return give_up_directory();
  close_directory(); /* the next line tries again */
  state = CLOSED;
  return -1;
}

void open_interrupted_run(void) {
  struct stat found;
  char *state_directory = xasprintf("%s/.capture", directory_name);
  check_files();
  if (stat(state_directory, &found) < 0 || open_directories() || read_journal_state() == NO_JOURNAL)
    die(1, "%s: nothing was captured there", directory_name);
  free(state_directory);
  int owner, is_locked = acquire_lock(&owner);
  if (is_locked && owner > 0) die(1, "%s is in use by another build, process %d", directory_name, owner);
  if (is_locked) die(1, "%s is in use by another build", directory_name);
  if (lock_fd < 0) die(1, "cannot write %s/%s: %s", directory_name, ".capture/lock", strerror(lock_error));
  state = OPEN;
  run_target = add_target("all");
  if (read_index() < 0) exit(1);
  read_closed();
}

void check_removal(void) {
  checked_at = wall_clock_ms();
  if (state != OPEN || !is_removed()) return;
  warn("%s was removed; its captures are lost", directory_path);
  clear_targets();
  close_directory();
  state = CLOSED;
}

void check_removal_since(int64_t time) {
  if (time >= checked_at || checked_at > wall_clock_ms()) check_removal(); /* somebody may have set the clock back */
}

void find_moved_directory(void) {
  struct stat opened, found;
  if (state != OPEN || fstat(directory_fd, &opened) < 0) return;
  if (stat(directory_name, &found) == 0 && found.st_dev == opened.st_dev && found.st_ino == opened.st_ino) return;
  char path[PATH_MAX], *descriptor = xasprintf("/proc/self/fd/%d", directory_fd);
  ssize_t size = readlink(descriptor, path, sizeof path);
  if (size > 0 && size < PATH_MAX) directory_name = directory_path = xasprintf("%.*s", (int)size, path);
  free(descriptor);
}
