/* Names of targets. */
#define _GNU_SOURCE
#include "capture.h"
#include <errno.h>
#include <stdlib.h>
#include <string.h>
#include <sys/stat.h>
#include <unistd.h>

char *base_dir;

void set_base_dir(void) {
  base_dir = getcwd(NULL, 0);
  if (!base_dir || base_dir[0] != '/') die(1, "cannot find the current directory: %s", base_dir ? base_dir : strerror(errno));
}

/* Appends the segments of `from` to a path in normal form, and returns the new end. */
static char *append_segments(char *path, char *end, const char *from, size_t size) {
  for (const char *from_end = from + size; from < from_end;) {
    size_t length = 0;
    while (from < from_end && *from == '/') from++;
    while (from + length < from_end && from[length] != '/') length++;
    if (length == 2 && from[0] == '.' && from[1] == '.') {
      while (end > path && *--end != '/') continue;
    } else if (length > 0 && !(length == 1 && from[0] == '.')) {
      *end++ = '/';
      end = mempcpy(end, from, length);
    }
    from += length;
  }
  return end;
}

/* Returns an absolute path in normal form. */
static const char *normalize_path(const char *directory, const char *name, size_t size) {
  static char *path;
  static size_t capacity;
  size_t max_size = strlen(directory) + size + 3;
  if (max_size > capacity) path = xrealloc(path, capacity = 2 * max_size);
  char *end = path;
  if (size == 0 || name[0] != '/') end = append_segments(path, end, directory, strlen(directory));
  end = append_segments(path, end, name, size);
  if (end == path) *end++ = '/';
  *end = 0;
  return path;
}

char *absolute_path(const char *name) {
  return name[0] == '/' ? xasprintf("%s", name) : xasprintf("%s/%s", strcmp(base_dir, "/") == 0 ? "" : base_dir, name);
}

/* Returns a path without symbolic links, in normal form. The part of it that doesn't exist has no links. */
static char *resolve_path(const char *path) {
  char *existing = NULL;
  size_t size = strlen(path);
  while (size > 0 && !existing) {
    char *prefix = xasprintf("%.*s", (int)size, path);
    existing = realpath(prefix, NULL);
    free(prefix);
    if (!existing)
      while (--size > 0 && path[size] != '/') continue;
  }
  const char *rest = path + size + strspn(path + size, "/");
  char *resolved = xasprintf("%s", normalize_path(existing ? existing : "", rest, strlen(rest)));
  free(existing);
  return resolved;
}

int is_same_directory(const char *path, const char *other) {
  struct stat found, other_found;
  if (stat(path, &found) == 0 && stat(other, &other_found) == 0)
    return found.st_dev == other_found.st_dev && found.st_ino == other_found.st_ino;
  char *resolved = resolve_path(path), *other_resolved = resolve_path(other);
  int is_same = strcmp(resolved, other_resolved) == 0;
  free(resolved);
  free(other_resolved);
  return is_same;
}

/* Returns the path of the directory that has a file. */
static char *parent_path(const char *name) {
  char *path = absolute_path(name);
  path[base_name(path) - path] = 0;
  return path;
}

int is_same_path(const char *name, const char *other) {
  if (strcmp(base_name(name), base_name(other)) != 0) return 0;
  char *parent = parent_path(name), *other_parent = parent_path(other);
  int is_same = is_same_directory(parent, other_parent);
  free(parent);
  free(other_parent);
  return is_same;
}

const char *normalize_listed_name(const char *name) {
  return name[0] == '/' ? normalize_path("", name, strlen(name)) : normalize_name(base_dir, name, strlen(name));
}

const char *relative_to_base(const char *path) {
  size_t base_size = strcmp(base_dir, "/") == 0 ? 0 : strlen(base_dir);
  if (strncmp(path, base_dir, base_size) != 0 || (path[base_size] != '/' && path[base_size] != 0)) return path;
  return path[base_size] ? path + base_size + 1 : "";
}

static const char *relative_name(const char *path) {
  const char *relative = relative_to_base(path);
  return *relative ? relative : ".";
}

/* Whether a name has no segment that its normal form lacks, and isn't absolute. */
static int is_normal(const char *name, size_t size) {
  if (size == 0 || name[0] == '/' || name[size - 1] == '/') return 0;
  for (size_t i = 0; i < size; i++)
    if (name[i] == '.' && (i == 0 || name[i - 1] == '/') &&
        (i + 1 == size || name[i + 1] == '/' || (name[i + 1] == '.' && (i + 2 == size || name[i + 2] == '/'))))
      return 0;
  return !memmem(name, size, "//", 2);
}

/* A recipe with many prerequisites has many names in one directory, so the directory's normal form is kept. */
const char *normalize_name(const char *directory, const char *name, size_t size) {
  static struct text last_directory, result;
  static size_t prefix_size;
  int is_same = last_directory.size > 0 && strcmp(directory, last_directory.bytes) == 0;
  if (!is_normal(name, size)) return relative_name(normalize_path(directory, name, size));
  if (!is_same) {
    last_directory.size = result.size = 0;
    const char *path = relative_name(normalize_path(directory, "", 0));
    if (strcmp(path, ".") != 0) add_string(&result, path);
    if (result.size > 0 && result.bytes[result.size - 1] != '/') add_string(&result, "/");
    prefix_size = result.size;
    add_text(&last_directory, directory, strlen(directory) + 1);
  }
  result.size = prefix_size;
  add_text(&result, name, size);
  add_text(&result, "", 1);
  return result.bytes[0] == '/' ? relative_name(result.bytes) : result.bytes;
}

void add_name_in_log(struct text *text, const char *name, const char *log_owner) {
  size_t common = 0;
  if (name[0] != '/') {
    for (size_t i = 0; name[i] && name[i] == log_owner[i]; i++)
      if (name[i] == '/') common = i + 1;
    for (const char *rest = log_owner + common; (rest = strchr(rest, '/')); rest++) add_string(text, "../");
  }
  add_string(text, name + common);
}

int can_mention(const char *log_owner, const char *name) { return name[0] == '/' || log_owner[0] != '/'; }

const char *name_in_own_log(const char *name) { return name[0] == '/' ? name : base_name(name); }

const char *base_name(const char *path) {
  const char *slash = strrchr(path, '/');
  return slash ? slash + 1 : path;
}
