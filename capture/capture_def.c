/* The path of capture.def, which each make of the build reads first, and loads capture.so. MAKEFILES can't have a path with spaces,
   and some other bytes have a meaning for make. For such a path, a link in a temporary directory is used. If root runs the build,
   recipes may run makes as other users. If these can't read the two files, copies in a temporary directory are used. */
#define _GNU_SOURCE
#include "capture.h"
#include <dirent.h>
#include <errno.h>
#include <fcntl.h>
#include <limits.h>
#include <stdlib.h>
#include <string.h>
#include <sys/auxv.h>
#include <sys/file.h>
#include <sys/stat.h>
#include <sys/statvfs.h>
#include <unistd.h>

static const char directory_prefix[] = "redo-log-capture-";
static const char *const file_names[] = {"capture.def", "capture.so"};
static char *temporary_directory;

static int is_safe_for_make(const char *path) {
  for (; *path; path++)
    if ((unsigned char)*path <= ' ' || strchr("\"#$%&'()*:;<=>?[\\]`{|}~", *path) || *path == 127) return 0;
  return 1;
}

/* Works without /proc too. */
char *program_path(void) {
  char path[PATH_MAX];
  ssize_t size = readlink("/proc/self/exe", path, sizeof path - 1);
  if (size > 0) path[size] = 0;
  else if (!realpath((const char *)getauxval(AT_EXECFN), path)) die(1, "cannot find this program: %s", strerror(errno));
  return xasprintf("%s", path);
}

static void remove_directory(const char *path) {
  const char *const names[] = {"link", file_names[0], file_names[1]};
  for (int i = 0; i < 3; i++) {
    char *file = xasprintf("%s/%s", path, names[i]);
    unlink(file);
    free(file);
  }
  rmdir(path);
}

/* Removes the temporary directories of runs that were killed, which nobody has locked. */
static void remove_stale_directories(const char *parent) {
  DIR *files = opendir(parent);
  struct stat found;
  for (struct dirent *file; files && (file = readdir(files));) {
    if (strncmp(file->d_name, directory_prefix, strlen(directory_prefix)) != 0) continue;
    char *path = xasprintf("%s/%s", parent, file->d_name);
    int lock_fd = open(path, O_RDONLY | O_DIRECTORY | O_NOFOLLOW | O_CLOEXEC);
    if (lock_fd >= 0 && fstat(lock_fd, &found) == 0 && found.st_uid == geteuid() && flock(lock_fd, LOCK_EX | LOCK_NB) == 0)
      remove_directory(path);
    if (lock_fd >= 0) close(lock_fd);
    free(path);
  }
  if (files) closedir(files);
}

/* Returns a new directory, locked while this process runs; NULL on failure, or if another run removed it before it was locked. */
static char *make_locked_directory(const char *parent) {
  struct stat locked, found;
  char *path = xasprintf("%s/%sXXXXXX", parent, directory_prefix);
  int lock_fd = mkdtemp(path) ? open(path, O_RDONLY | O_DIRECTORY | O_CLOEXEC) : -1;
  if (lock_fd >= 0 && flock(lock_fd, LOCK_EX | LOCK_NB) == 0 && fstat(lock_fd, &locked) == 0 && stat(path, &found) == 0 &&
      locked.st_ino == found.st_ino && chmod(path, 0755) == 0)
    return path; /* sub-makes may run as another user */
  if (lock_fd >= 0) close(lock_fd);
  free(path);
  return NULL;
}

/* Whether other users can search a directory. The path is absolute. */
static int is_searchable(const char *path) {
  struct stat found;
  char *directory = xasprintf("%s", path);
  int is_allowed = 1, is_root = 0;
  while (is_allowed && !is_root) {
    is_root = !*directory;
    is_allowed = stat(is_root ? "/" : directory, &found) == 0 && (found.st_mode & S_IXOTH);
    if (!is_root) *strrchr(directory, '/') = 0;
  }
  free(directory);
  return is_allowed;
}

/* Programs can't load capture.so from a file system that is mounted with `noexec`. */
static int can_have_copies(const char *directory) {
  struct statvfs found;
  return statvfs(directory, &found) == 0 && !(found.f_flag & ST_NOEXEC) && is_searchable(directory);
}

static void make_temporary_directory(int is_for_copies) {
  const char *const parents[] = {getenv("TMPDIR"), "/tmp", "/var/tmp", "/dev/shm"};
  for (int i = 0; i < 4 && !temporary_directory; i++) {
    if (!parents[i] || parents[i][0] != '/' || !is_safe_for_make(parents[i])) continue;
    if (is_for_copies && !can_have_copies(parents[i])) continue;
    remove_stale_directories(parents[i]);
    for (int left = 100; left > 0 && !temporary_directory; left--) temporary_directory = make_locked_directory(parents[i]);
  }
  if (temporary_directory) atexit(remove_temporary_directory);
}

void remove_temporary_directory(void) {
  if (temporary_directory) remove_directory(temporary_directory);
  temporary_directory = NULL;
}

static int copy_file(const char *from, const char *to) {
  int source = open(from, O_RDONLY | O_CLOEXEC), copy = open(to, O_WRONLY | O_CREAT | O_EXCL | O_CLOEXEC, 0600);
  size_t size;
  char *bytes = source >= 0 && copy >= 0 ? read_all(source, &size) : NULL;
  int error = !bytes || write_all(copy, bytes, size) < 0 || fchmod(copy, 0644) < 0;
  if (source >= 0) close(source);
  if (copy >= 0) close(copy);
  free(bytes);
  return error ? -1 : 0;
}

/* Copies both files to a temporary directory. Returns -1 if that isn't possible. */
static int copy_files(const char *directory) {
  make_temporary_directory(1);
  for (int i = 0; i < 2 && temporary_directory; i++) {
    char *file = xasprintf("%s/%s", directory, file_names[i]), *copy = xasprintf("%s/%s", temporary_directory, file_names[i]);
    if (copy_file(file, copy) < 0) remove_temporary_directory();
    free(file);
    free(copy);
  }
  return temporary_directory ? 0 : -1;
}

char *find_capture_def(void) {
  char *program = program_path(), *directories = xasprintf("%.*s", (int)(base_name(program) - program) - 1, program);
  char *directory = xasprintf("%.*slibexec/redo-log", (int)(base_name(directories) - directories), directories);
  int must_be_public = geteuid() == 0, are_public = !must_be_public || is_searchable(directory);
  for (int i = 0; i < 2; i++) {
    struct stat found;
    char *file = xasprintf("%s/%s", directory, file_names[i]);
    if (access(file, R_OK) < 0) die(1, "cannot read %s: %s", file, strerror(errno));
    if (must_be_public) are_public = are_public && stat(file, &found) == 0 && (found.st_mode & S_IROTH);
    free(file);
  }
  if (!are_public && copy_files(directory) == 0) return xasprintf("%s/%s", temporary_directory, file_names[0]);
  if (is_safe_for_make(directory)) return xasprintf("%s/%s", directory, file_names[0]);
  make_temporary_directory(0);
  char *link = temporary_directory ? xasprintf("%s/link", temporary_directory) : NULL;
  if (!link || symlink(directory, link) < 0)
    die(1, "cannot make a temporary directory, needed for %s/%s: %s", directory, file_names[0], strerror(errno));
  return xasprintf("%s/%s", link, file_names[0]);
}
