/* The facts of recipes, the file `facts`: directories, commands, processor time and memory. docs/format.md has the format. If facts
   can't be written, nothing else is lost. */
#define _GNU_SOURCE
#include "capture.h"
#include <errno.h>
#include <fcntl.h>
#include <stdlib.h>
#include <string.h>
#include <sys/stat.h>
#include <unistd.h>

/* In bytes: MAX_FILE, the file; MAX_VALUE, the value of a line; a command that was sent has less, even if each byte is quoted. In
   digits: MAX_NUMBER, the number of a log; MAX_AMOUNT, an amount. */
enum { MAX_FILE = 1 << 30, MAX_VALUE = 1 << 18, MAX_LINE = MAX_VALUE + 64, MAX_NUMBER = 9, MAX_AMOUNT = 15 };

int records_all_commands;

/* Facts are buffered: that a log begins, until it is emptied; all others until it is written. The file then has no facts of an earlier
   log, nor of a later one, if this process is killed. The buffers are static, so that facts take no memory from the logs. */
struct facts {
  char bytes[2 * MAX_LINE];
  size_t size;
};
static struct facts begun, stated;
static int facts_fd = -1;
static off_t file_size;

struct command_text {
  char bytes[MAX_VALUE];
  size_t size;
};

static void add_to_text(const char *bytes, size_t size, void *to) {
  struct command_text *text = to;
  if (size > sizeof text->bytes - text->size) size = sizeof text->bytes - text->size;
  memcpy(text->bytes + text->size, bytes, size);
  text->size += size;
}

/* Without the facts of this run, facts of earlier logs would count for the new ones, so the file is removed. */
static void abandon_facts(void) {
  int error = errno;
  if (facts_fd >= 0) close(facts_fd);
  facts_fd = -1, begun.size = stated.size = 0;
  unlinkat(directory_fd, "facts", 0);
  errno = error;
  if (!is_out_of_memory) report_write_error("facts");
}

static void write_facts(const char *bytes, size_t size) {
  if (facts_fd < 0 || size == 0) return;
  file_size += size;
  errno = EFBIG;
  if (file_size > MAX_FILE || write_all(facts_fd, bytes, size) < 0) abandon_facts();
}

void flush_begun_facts(void) {
  size_t size = begun.size;
  begun.size = 0;
  write_facts(begun.bytes, size);
}

void flush_facts(void) {
  flush_begun_facts();
  size_t size = stated.size;
  stated.size = 0;
  write_facts(stated.bytes, size);
}

/* Appends a line. The value has no line feed. */
static void append_fact(struct facts *facts, const struct target *target, const char *kind, const char *value, size_t size) {
  if (facts_fd < 0 || size > MAX_VALUE) return;
  if (facts->size + MAX_LINE > sizeof facts->bytes) facts == &begun ? flush_begun_facts() : flush_facts();
  char *to = facts->bytes + facts->size;
  to = write_number(to, target->number);
  *to++ = ' ';
  to = stpcpy(to, kind);
  *to++ = ' ';
  to = mempcpy(to, value, size);
  *to++ = '\n';
  facts->size = to - facts->bytes;
}

void begin_facts(const struct target *target) {
  append_fact(&begun, target, "log", target->name, strlen(target->name));
  record_directory(target);
}

void record_directory(const struct target *target) {
  const char *path = target->run.directory ? normalize_name(target->run.directory, "", 0) : "\n";
  if (strcmp(path, ".") == 0) path = base_dir;
  if (!strchr(path, '\n')) append_fact(&begun, target, "directory", path, strlen(path));
}

void record_command(const struct target *target, const struct command *command) {
  static struct command_text text;
  if (facts_fd < 0 || !target->run.has_begun || command->size == 0) return;
  text.size = 0;
  const char *kind = format_command(command, add_to_text, &text) ? "truncated" : "command", *end = text.bytes + text.size;
  for (const char *line = text.bytes, *line_end; line; line = line_end < end ? line_end + 1 : NULL, kind = "more") {
    line_end = memchr(line, '\n', end - line);
    if (!line_end) line_end = end;
    append_fact(&stated, target, kind, line, line_end - line);
  }
}

/* Each process has memory, so that no process has ended if the peak is 0. */
int64_t processor_time_ms(const struct target *target) {
  const struct usage *usage = &target->run.usage;
  return usage->peak_kb > 0 ? usage->user_us / 1000 + usage->system_us / 1000 : -1;
}

/* The server checks amounts, so that only a sum can have too many digits. */
void record_usage(const struct target *target) {
  static const int64_t max = 999999999999999;
  const struct usage *usage = &target->run.usage;
  char value[3 * MAX_DIGITS + 2], *end = value;
  if (!target->run.has_begun || usage->peak_kb == 0 || usage->user_us / 1000 > max || usage->system_us / 1000 > max) return;
  end = write_number(end, usage->user_us / 1000);
  *end++ = ' ';
  end = write_number(end, usage->system_us / 1000);
  *end++ = ' ';
  end = write_number(end, usage->peak_kb);
  append_fact(&stated, target, "usage", value, end - value);
}

/* Truncates an unended line, which a killed run may have left. Otherwise the next line would continue it. */
static int truncate_to_lines(off_t size) {
  char part[4096];
  for (file_size = size; file_size > 0;) {
    size_t count = file_size < (off_t)sizeof part ? file_size : (off_t)sizeof part;
    if (pread(facts_fd, part, count, file_size - count) != (ssize_t)count) return -1;
    const char *newline = memrchr(part, '\n', count);
    if (newline) file_size -= part + count - (newline + 1);
    if (newline) break;
    file_size -= count;
  }
  return file_size == size ? 0 : ftruncate(facts_fd, file_size);
}

/* Reads the file. Returns NULL if it isn't a regular file, can't be read, or takes too much memory. */
static char *read_facts(size_t *size) {
  struct stat found;
  int file = open_in_directory("facts", O_RDONLY | O_NOFOLLOW);
  char *bytes = NULL;
  if (file >= 0 && fstat(file, &found) == 0 && S_ISREG(found.st_mode)) bytes = malloc(found.st_size + 1);
  if (bytes && pread(file, bytes, found.st_size, 0) != found.st_size) free(bytes), bytes = NULL;
  if (bytes) *size = found.st_size;
  if (file >= 0) close(file);
  return bytes;
}

/* Opens the file to append lines. Returns -1 if it isn't a regular file, or has another link, by which somebody keeps a copy. */
static int open_file(void) {
  struct stat found;
  facts_fd = open_in_directory("facts", O_RDWR | O_APPEND | O_CREAT | O_NOFOLLOW);
  if (facts_fd >= 0 && fstat(facts_fd, &found) == 0 && S_ISREG(found.st_mode) && found.st_nlink == 1)
    return truncate_to_lines(found.st_size);
  return -1;
}

/* Replaces a file that has another link by its copy. Removes anything else. */
static void replace_unusable(void) {
  size_t size;
  char *bytes = facts_fd < 0 ? NULL : read_facts(&size);
  if (facts_fd >= 0) close(facts_fd);
  facts_fd = -1;
  if (!bytes || replace_file("facts", bytes, size) < 0) unlinkat(directory_fd, "facts", 0);
  free(bytes);
}

/* The run has a new log, which has no facts unless a recipe makes `all`. */
void open_facts(void) {
  if (open_file() < 0) {
    replace_unusable();
    if (open_file() < 0) return abandon_facts();
  }
  begin_facts(run_target);
  flush_facts();
}

void close_facts(void) {
  flush_facts();
  if (facts_fd >= 0) close(facts_fd);
  facts_fd = -1;
}

enum fact_kind { LOG, DIRECTORY, COMMAND, TRUNCATED, MORE, USAGE, INVALID };
struct fact {
  enum fact_kind kind;
  unsigned long number;
  const char *value;
  size_t size;
};

static size_t count_digits(const char *bytes, const char *end) {
  const char *next = bytes;
  while (next < end && *next >= '0' && *next <= '9') next++;
  return next - bytes;
}

static int is_valid_usage(const char *value, const char *end) {
  for (int i = 0; i < 3; i++) {
    size_t digits = count_digits(value, end);
    if (digits == 0 || digits > MAX_AMOUNT) return 0;
    value += digits;
    if (i < 2 && (value == end || *value++ != ' ')) return 0;
  }
  return value == end;
}

static struct fact parse_line(const char *line, const char *end) {
  static const char *const kinds[] = {"log ", "directory ", "command ", "truncated ", "more ", "usage "};
  struct fact fact = {.kind = INVALID};
  size_t digits = count_digits(line, end);
  if (digits == 0 || digits > MAX_NUMBER || *line == '0' || line + digits == end || line[digits] != ' ') return fact;
  for (size_t i = 0; i < digits; i++) fact.number = 10 * fact.number + (line[i] - '0');
  line += digits + 1;
  for (enum fact_kind kind = LOG; kind < INVALID; kind++) {
    if (line == end || *line != *kinds[kind]) continue;
    size_t size = strlen(kinds[kind]);
    if ((size_t)(end - line) < size || memcmp(line, kinds[kind], size) != 0) continue;
    fact.value = line + size, fact.size = end - fact.value, fact.kind = kind;
    if ((kind == LOG || kind == DIRECTORY) && fact.size == 0) fact.kind = INVALID;
    if (kind == USAGE && !is_valid_usage(fact.value, end)) fact.kind = INVALID;
  }
  return fact;
}

/* The lines of a number that count, of the kinds whose last line counts. If `log` is NULL, no line of the number counts. */
struct latest {
  const char *log, *directory, *usage;
};

/* Finds the lines that count. */
static void find_latest(struct latest *all, const char *bytes, const char *end) {
  for (const char *line = bytes, *line_end; (line_end = memchr(line, '\n', end - line)); line = line_end + 1) {
    struct fact fact = parse_line(line, line_end);
    struct target *target = fact.kind == INVALID ? NULL : find_listed_target(fact.number);
    if (!target) continue;
    struct latest *latest = &all[fact.number];
    if (fact.kind == LOG) {
      int is_same = strlen(target->name) == fact.size && memcmp(target->name, fact.value, fact.size) == 0;
      *latest = (struct latest){is_same ? line : NULL, NULL, NULL};
    }
    if (fact.kind == DIRECTORY) latest->directory = line;
    if (fact.kind == USAGE) latest->usage = line;
  }
}

/* Moves the lines that count to the start. Returns their size. */
static size_t drop_superseded(const struct latest *all, char *bytes, const char *end) {
  char *to = bytes;
  for (const char *line = bytes, *line_end; (line_end = memchr(line, '\n', end - line)); line = line_end + 1) {
    struct fact fact = parse_line(line, line_end);
    if (fact.kind == INVALID || !find_listed_target(fact.number)) continue;
    const struct latest *latest = &all[fact.number];
    if (!latest->log || line < latest->log || (fact.kind == DIRECTORY && line != latest->directory) ||
        (fact.kind == USAGE && line != latest->usage))
      continue;
    size_t size = line_end + 1 - line;
    to = (char *)memmove(to, line, size) + size;
  }
  return to - bytes;
}

/* Drops superseded lines. If this fails, the file stays as it is. */
void compact_facts(void) {
  struct stat found;
  size_t size = 0, max = 0;
  flush_facts();
  if (facts_fd >= 0 && fstat(facts_fd, &found) == 0 && found.st_nlink == 0)
    unlinkat(directory_fd, "facts", 0); /* somebody has replaced the file, which lacks facts of this run now */
  close_facts();
  char *bytes = read_facts(&size);
  for (size_t i = 0; i < target_count; i++)
    if (targets[i]->number > max) max = targets[i]->number;
  struct latest *all = bytes ? calloc(max + 1, sizeof *all) : NULL;
  if (all) {
    find_latest(all, bytes, bytes + size);
    size_t left = drop_superseded(all, bytes, bytes + size);
    if (left < size / 2) replace_file("facts", bytes, left);
  }
  free(all);
  free(bytes);
}
