/* Messages on standard error. */
#define _GNU_SOURCE
#include "capture.h"
#include <stdarg.h>
#include <stdlib.h>
#include <string.h>

/* Prints a line in one write. A line that is too long ends with ` ..`. Doesn't allocate. */
static void print_message(const char *format, va_list values) {
  char line[8192];
  int size = snprintf(line, sizeof line, "redo-log-capture: ");
  size += vsnprintf(line + size, sizeof line - size - 1, format, values);
  if (size > (int)sizeof line - 2) size = sizeof line - 2, memcpy(line + size - 3, " ..", 3);
  line[size++] = '\n';
  write_all(2, line, size);
}

void warn(const char *format, ...) {
  va_list values;
  va_start(values, format);
  print_message(format, values);
  va_end(values);
}

void warn_once(const char *message) {
  static const char *last;
  if (!last || strcmp(last, message) != 0) warn("%s", message);
  last = message;
}

void die(int status, const char *format, ...) {
  va_list values;
  va_start(values, format);
  print_message(format, values);
  va_end(values);
  exit(status);
}

/* Whether a shell would take the word for something else without quotes. */
static int needs_quotes(const char *word, size_t size) {
  static const char plain[] = "abcdefghijklmnopqrstuvwxyzABCDEFGHIJKLMNOPQRSTUVWXYZ0123456789_./+-=:@%,";
  for (size_t i = 0; i < size; i++)
    if (!word[i] || !strchr(plain, word[i])) return 1;
  return size == 0;
}

static void add_quoted(const char *word, size_t size, text_sink *add, void *to) {
  if (!needs_quotes(word, size)) return add(word, size, to);
  add("'", 1, to);
  for (size_t i = 0; i < size; i++) {
    if (word[i] == '\'') add("'\\''", 4, to);
    else add(&word[i], 1, to);
  }
  add("'", 1, to);
}

static void add_to_stream(const char *bytes, size_t size, void *to) { fwrite(bytes, 1, size, to); }

char *shell_quote(const char *word) {
  char *quoted;
  size_t size;
  FILE *stream = xopen_memstream(&quoted, &size);
  add_quoted(word, strlen(word), add_to_stream, stream);
  xclose_memstream(stream);
  return quoted;
}

static int is_shell(const char *word, size_t size) {
  static const char *const shells[] = {"sh", "bash", "dash", "ash", "ksh", "mksh", "zsh", "busybox", NULL};
  const char *slash = memrchr(word, '/', size), *name = slash ? slash + 1 : word;
  size -= name - word;
  for (int i = 0; shells[i]; i++)
    if (strlen(shells[i]) == size && memcmp(name, shells[i], size) == 0) return 1;
  return 0;
}

int format_command(const struct command *command, text_sink *add, void *to) {
  const char *end = command->bytes + command->size, *last = NULL, *flags = NULL, *next;
  size_t last_size = 0, flags_size = 0;
  int is_truncated = command->size == 0 || end[-1] != 0, has_shell = 0, count = 0;
  for (const char *word = command->bytes; word < end; word = next) {
    flags = last, flags_size = last_size;
    last = word, last_size = strnlen(word, end - word), next = word + last_size + 1;
    if (count++ < 2) has_shell |= is_shell(word, last_size);
  }
  if (has_shell && flags && flags_size > 1 && flags[0] == '-' && flags[flags_size - 1] == 'c') {
    add(last, last_size, to);
    return is_truncated;
  }
  for (const char *word = command->bytes; word < end; word = next) {
    size_t size = strnlen(word, end - word);
    if (word > command->bytes) add(" ", 1, to);
    add_quoted(word, size, add, to);
    next = word + size + 1;
  }
  return is_truncated;
}
