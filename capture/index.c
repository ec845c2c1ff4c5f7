/* The index, `names`. Users may change it between two runs and during one; its current contents count. */
#define _GNU_SOURCE
#include "capture.h"
#include <dirent.h>
#include <errno.h>
#include <fcntl.h>
#include <stdlib.h>
#include <string.h>
#include <sys/stat.h>
#include <unistd.h>

/* The listed targets in order, and the target of each number. */
static struct target **listed, **targets_by_number;
static size_t listed_count, listed_capacity, number_capacity;
static unsigned last_number; /* 0: find_last_number finds it */

/* The contents of `names`, and a descriptor for appending lines. */
static char *index_text;
static size_t index_size;
static int index_fd = -1;
static struct write_buffer new_lines; /* not written yet */

static struct target **target_slot(unsigned number) {
  if (number >= number_capacity) {
    size_t capacity = 2 * (size_t)number + 16;
    targets_by_number = xrealloc(targets_by_number, capacity * sizeof *targets_by_number);
    memset(targets_by_number + number_capacity, 0, (capacity - number_capacity) * sizeof *targets_by_number);
    number_capacity = capacity;
  }
  return &targets_by_number[number];
}

static void add_line(struct target *target, unsigned number) {
  listed = grow_array(listed, listed_count, &listed_capacity, sizeof *listed);
  listed[listed_count++] = target;
  *target_slot(number) = target;
  target->number = number;
}

/* Returns the number of a line, and its name; 0 if the line is bad. */
static unsigned parse_line(const char *line, const char **name) {
  char *end;
  line += *line == '!';
  if (*line < '1' || *line > '9') return 0;
  unsigned long number = strtoul(line, &end, 10);
  *name = end + 1;
  return end - line <= 9 && number <= MAX_LOGS && *end == ' ' && end[1] ? number : 0;
}

/* Returns 0 if the line is bad, or an earlier line has its number or its name. */
static int accept_line(const char *line, size_t size) {
  const char *name;
  unsigned number = strlen(line) == size ? parse_line(line, &name) : 0;
  if (number == 0 || *target_slot(number)) return 0;
  struct target *target = add_target(normalize_listed_name(name));
  if (target->number) return 0;
  add_line(target, number);
  return 1;
}

static void clear_list(void) {
  for (size_t i = 0; i < target_count; i++) targets[i]->number = 0;
  if (targets_by_number) memset(targets_by_number, 0, number_capacity * sizeof *targets_by_number);
  listed_count = 0;
}

static void parse_lines(void) {
  size_t line_number = 0, bad_count = 0, first_bad = 0;
  char *names = xasprintf("%s", index_text ? index_text : "");
  if (index_text) names = memcpy(xrealloc(names, index_size + 1), index_text, index_size + 1);
  for (char *line = names, *end; line < names + index_size; line = end + 1) {
    end = memchr(line, '\n', names + index_size - line);
    if (!end) end = names + index_size;
    *end = 0;
    line_number++;
    if (!accept_line(line, end - line) && bad_count++ == 0) first_bad = line_number;
  }
  free(names);
  if (bad_count == 1) warn("%s/names: line %zu: bad line, left out", directory_path, first_bad);
  if (bad_count > 1) warn("%s/names: line %zu: bad line, left out, and %zu more", directory_path, first_bad, bad_count - 1);
}

unsigned parse_log_name(const char *name) {
  char *end;
  if (strncmp(name, "log.", 4) != 0 || name[4] < '1' || name[4] > '9') return 0;
  unsigned long number = strtoul(name + 4, &end, 10);
  return *end || number > MAX_LOGS ? 0 : number;
}

/* Finds the highest number of all lines and logs, so that no new log gets the number of an existing one whose line was removed. */
static void find_last_number(void) {
  last_number = 1;
  for (size_t i = 0; i < listed_count; i++)
    if (listed[i]->number > last_number) last_number = listed[i]->number;
  int dir_fd = open_in_directory(".", O_RDONLY | O_DIRECTORY);
  DIR *files = dir_fd < 0 ? NULL : fdopendir(dir_fd);
  for (struct dirent *file; files && (file = readdir(files));) {
    unsigned number = parse_log_name(file->d_name);
    if (number > last_number) last_number = number;
  }
  if (files) closedir(files);
}

static void move_run_target_first(void) {
  if (run_target->number == 1 && *target_slot(1) == run_target) return;
  size_t remaining = 0;
  for (size_t i = 0; i < listed_count; i++) {
    if (listed[i] == run_target || listed[i]->number == 1) listed[i]->number = 0;
    else listed[remaining++] = listed[i];
  }
  listed_count = remaining;
  add_line(run_target, 1);
  memmove(listed + 1, listed, (listed_count - 1) * sizeof *listed);
  listed[0] = run_target;
}

int read_index(void) {
  free(index_text);
  index_text = read_file("names", &index_size);
  if (!index_text && errno != ENOENT) return report_write_error("names"), -1;
  if (!index_text) index_size = 0;
  clear_list();
  parse_lines();
  last_number = listed_count > 0 ? 0 : 1;
  move_run_target_first();
  return 0;
}

/* A target that began keeps the number of its log. Other lines with that number or its name are dropped. */
int relist_targets(void) {
  struct target **targets_in_run = xrealloc(NULL, (target_count + 1) * sizeof *targets_in_run);
  unsigned *numbers = xrealloc(NULL, (target_count + 1) * sizeof *numbers);
  size_t count = 0;
  for (size_t i = 0; i < target_count; i++)
    if (targets[i]->run.has_begun && targets[i] != run_target)
      targets_in_run[count] = targets[i], numbers[count++] = targets[i]->number;
  if (read_index() < 0) return -1;
  for (size_t i = 0; i < count; i++) {
    struct target **slot = target_slot(numbers[i]);
    if (*slot == targets_in_run[i]) continue;
    if (*slot) (*slot)->number = 0;
    targets_in_run[i]->number = 0;
  }
  size_t remaining = 0;
  for (size_t i = 0; i < listed_count; i++)
    if (listed[i]->number) listed[remaining++] = listed[i];
  listed_count = remaining;
  for (size_t i = 0; i < count; i++)
    if (!targets_in_run[i]->number) add_line(targets_in_run[i], numbers[i]);
  free(targets_in_run);
  free(numbers);
  return 0;
}

static void close_index_fd(void) {
  if (index_fd >= 0) close(index_fd);
  index_fd = -1;
}

void add_index_line(struct text *text, unsigned number, const char *name) {
  add_number(text, number);
  add_string(text, " ");
  add_string(text, name);
  add_string(text, "\n");
}

int write_index(int with_flags) {
  int error = 0;
  struct text names = {NULL, 0, 0};
  for (size_t i = 0; i < listed_count; i++) {
    if (with_flags && listed[i]->is_closed) add_string(&names, "!");
    add_index_line(&names, listed[i]->number, listed[i]->name);
  }
  if (!index_text || names.size != index_size || memcmp(index_text, names.bytes, index_size) != 0) {
    close_index_fd();
    error = replace_file("names", names.bytes, names.size);
  }
  free(index_text);
  index_text = names.bytes, index_size = names.size;
  return error;
}

/* A target that got another number may still have its old slot. */
struct target *find_listed_target(unsigned long number) {
  struct target *target = number < number_capacity ? targets_by_number[number] : NULL;
  return target && target->number == number ? target : NULL;
}

void close_index(void) {
  close_index_fd();
  clear_buffer(&new_lines);
}

/* Returns the lowest number that no line and no log has; 0 if there is none. */
static unsigned find_unused_number(void) {
  for (unsigned number = 2; number <= MAX_LOGS; number++)
    if (!*target_slot(number) && faccessat(directory_fd, log_file_name(number), F_OK, 0) < 0) return number;
  return 0;
}

/* Whether somebody else has written to `names` and left an unended line. */
static int ends_mid_line(const struct stat *found) {
  char last = '\n';
  if (found->st_size == 0 || (size_t)found->st_size == index_size) return 0;
  return pread(index_fd, &last, 1, found->st_size - 1) == 1 && last != '\n';
}

/* Writes all lines or none. */
static int append_lines(const char *lines, size_t size) {
  struct stat found;
  if (index_fd >= 0 && (fstat(index_fd, &found) < 0 || found.st_nlink != 1)) close_index_fd();
  int is_opened = index_fd < 0;
  if (is_opened) index_fd = open_to_append("names");
  if (index_fd < 0 || (is_opened && fstat(index_fd, &found) < 0)) return -1;
  int is_mid_line = ends_mid_line(&found), error = 0;
  if (is_mid_line) error = write_all(index_fd, "\n", 1);
  if (!error) error = write_all(index_fd, lines, size);
  if (error && ftruncate(index_fd, found.st_size) < 0) close_index_fd();
  index_size = found.st_size + (error ? 0 : size + is_mid_line);
  return error;
}

/* Lines that can't be written now are written when the run ends. */
void flush_index(void) {
  size_t size = new_lines.size;
  new_lines.size = 0;
  if (size > 0 && append_lines(new_lines.bytes, size) < 0) report_write_error("names");
}

int add_to_index(struct target *target) {
  if (last_number == 0) find_last_number();
  unsigned number = last_number < MAX_LOGS ? last_number + 1 : find_unused_number();
  if (number == 0) return -1;
  static struct text line;
  int error = 0;
  line.size = 0;
  add_index_line(&line, number, target->name);
  if (add_to_buffer(&new_lines, line.bytes, line.size) < 0) flush_index(), error = append_lines(line.bytes, line.size);
  if (error) return report_write_error("names"), -1;
  if (number > last_number) last_number = number;
  add_line(target, number);
  return 0;
}
