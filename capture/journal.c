/* The run journal, `.capture/run`. Once the run is finished, it is one line, `ended PROCESS TARGETS`, with the number of targets that
   began. Before, its first line is `running PROCESS`, and it has a line for each event. PARENT is the number of the target whose recipe
   runs the make, or 0. Below the first kind, it is also 0 if that is `all`, or if its log can't mention the target:
     target NUMBER TIME PARENT NAME                a target began
     start NUMBER PROCESS HEAD                     its first line started; the first HEAD bytes of its log are records
     needed NUMBER PARENT                          a log mentions it as a prerequisite, as PARENT had it made
     made NUMBER PARENT TIME                       another recipe, the one of PARENT, began to have it made
     line NUMBER PROCESS PARENT                    a line began, after its first
     ended NUMBER PROCESS TIME STATUS              a line ended; the target's end so far has this PROCESS and TIME
     did NUMBER PARENT TIME STATUS                 the same, for what PARENT had made
     mention NUMBER START END                      these bytes of its log are a provisional record
   `.capture/closed` has a line for each closed log: its number and its name.

   The journal names a target before its log is truncated, and has other events once the logs have them. Even
   if a build is killed or the disk is full, a log that is listed as closed is closed. `closed` lists logs by number and name,
   not by their last bytes, so a log that has lost its end is flagged, and `redo-log` rejects it. Flags are optional, because
   a flagged log can't just be deleted. */
#define _GNU_SOURCE
#include "capture.h"
#include <fcntl.h>
#include <inttypes.h>
#include <stdlib.h>
#include <string.h>
#include <sys/stat.h>
#include <unistd.h>

static int journal_fd = -1;
/* Targets that began are written before their logs are emptied, and all other events after what they say of the logs is written there.
   So --finish finds no log of an earlier run where the journal says that the log has ended. */
static struct write_buffer begun, events;

static int replace_journal(char *line) {
  int error = replace_file(".capture/run", line, strlen(line));
  free(line);
  return error;
}

int begin_journal(void) {
  if (replace_journal(xasprintf("running %d\n", (int)getpid())) < 0) return -1;
  journal_fd = open_in_directory(".capture/run", O_WRONLY | O_APPEND);
  if (journal_fd < 0) report_write_error(".capture/run");
  return journal_fd < 0 ? -1 : 0;
}

int end_journal(void) {
  size_t count = 0;
  for (size_t i = 0; i < target_count; i++) count += targets[i]->run.has_begun;
  return replace_journal(xasprintf("ended %d %zu\n", (int)getpid(), count));
}

void close_journal(void) {
  if (journal_fd >= 0) close(journal_fd);
  journal_fd = -1;
  clear_buffer(&begun);
  clear_buffer(&events);
}

/* Writes all lines or none, because the next line would continue a part of one. */
static int append_events(const char *lines, size_t size) {
  struct stat found;
  if (size == 0 || journal_fd < 0) return 0;
  int is_known = fstat(journal_fd, &found) == 0;
  if (write_all(journal_fd, lines, size) == 0) return 0;
  report_write_error(".capture/run");
  if (is_known && ftruncate(journal_fd, found.st_size) < 0) report_write_error(".capture/run");
  return -1;
}

static int flush_events(struct write_buffer *buffer) {
  size_t size = buffer->size;
  buffer->size = 0;
  return append_events(buffer->bytes, size);
}

int flush_begun_targets(void) { return flush_events(&begun); }

void flush_journal(void) { flush_events(&events); }

static void add_event(struct text *line, const char *kind, size_t count, const int64_t *numbers) {
  add_string(line, kind);
  for (size_t i = 0; i < count; i++) {
    add_string(line, " ");
    add_number(line, numbers[i]);
  }
}

void begin_in_journal(const struct target *target) {
  int64_t numbers[] = {target->number, target->run.start_time, target->run.parent ? target->run.parent->number : 0};
  static struct text line;
  line.size = 0;
  add_event(&line, "target", 3, numbers);
  add_string(&line, " ");
  add_string(&line, target->name);
  add_string(&line, "\n");
  if (add_to_buffer(&begun, line.bytes, line.size) < 0 && flush_begun_targets() == 0) append_events(line.bytes, line.size);
}

void add_to_journal(const char *lines, size_t size) {
  if (add_to_buffer(&events, lines, size) == 0) return;
  flush_captures();
  append_events(lines, size);
}

void write_journal(const char *kind, size_t count, const int64_t *numbers) {
  static struct text line;
  line.size = 0;
  add_event(&line, kind, count, numbers);
  add_string(&line, "\n");
  add_to_journal(line.bytes, line.size);
}

enum journal_state read_journal_state(void) {
  char line[16] = "";
  int file = open_in_directory(".capture/run", O_RDONLY);
  ssize_t size = file < 0 ? 0 : pread(file, line, sizeof line - 1, 0);
  if (file >= 0) close(file);
  line[size > 0 ? size : 0] = 0;
  return strncmp(line, "running ", 8) == 0 ? RUNNING : strncmp(line, "ended ", 6) == 0 ? FINISHED : NO_JOURNAL;
}

/* The targets that began, by number. */
static struct target **journal_targets;
static unsigned journal_target_capacity;

static struct target *journal_target(unsigned number) { return number < journal_target_capacity ? journal_targets[number] : NULL; }

static void parse_target_event(const char *line) {
  unsigned number, parent;
  int name = 0;
  int64_t time;
  if (sscanf(line, "target %u %" SCNd64 " %u%n", &number, &time, &parent, &name) != 3 || line[name] != ' ' || !line[++name]) return;
  const char *listed_name = normalize_listed_name(line + name);
  if (number == 0 || number > MAX_LOGS || (number == 1) != (strcmp(listed_name, run_target->name) == 0)) return;
  if (journal_target(number) && strcmp(listed_name, journal_target(number)->name) != 0) return;
  if (number >= journal_target_capacity) {
    unsigned capacity = 2 * number + 16;
    journal_targets = xrealloc(journal_targets, capacity * sizeof *journal_targets);
    memset(journal_targets + journal_target_capacity, 0, (capacity - journal_target_capacity) * sizeof *journal_targets);
    journal_target_capacity = capacity;
  }
  struct target *target = journal_targets[number] = add_target(listed_name);
  target->number = number, target->is_closed = 0;
  target->run = (struct target_run){.has_begun = 1, .parent = journal_target(parent), .start_time = time, .status = -1};
  add_making(target, log_parent(target, target->run.parent), NULL, time);
  target->log.header_size = target->log.mention_count = 0;
}

/* Returns what sub-makes of the recipe of this target did, `all` if it has no number. Adds it if it wasn't there. */
static struct making *journal_making(struct target *target, unsigned parent, int64_t time) {
  struct target *found = log_parent(target, journal_target(parent));
  struct making *making = making_for(target, found);
  return making ? making : add_making(target, found, NULL, time);
}

static int is_status(int number) { return number >= 0 && number <= 255; }

static void parse_event(const char *line) {
  unsigned number, parent;
  int process, status;
  long long start, end;
  int64_t time;
  if (strncmp(line, "target ", 7) == 0) parse_target_event(line);
  if (sscanf(line, "%*s %u", &number) != 1) return;
  struct target *target = number == 1 && !journal_target(1) ? run_target : journal_target(number);
  if (!target) return;
  if (sscanf(line, "start %u %d %lld", &number, &process, &end) == 3 && process >= 0 && end >= 0)
    target->run.process = process, target->log.header_size = end;
  if (sscanf(line, "made %u %u %" SCNd64, &number, &parent, &time) == 3) journal_making(target, parent, time);
  if (sscanf(line, "needed %u %u", &number, &parent) == 2) journal_making(target, parent, target->run.start_time)->is_mentioned = 1;
  if (sscanf(line, "line %u %d %u", &number, &process, &parent) == 3 && process >= 0) {
    target->run.process = process, target->run.status = -1;
    journal_making(target, parent, target->run.start_time)->status = -1;
  }
  if (sscanf(line, "ended %u %d %" SCNd64 " %d", &number, &process, &time, &status) == 4 && process >= 0 && is_status(status))
    target->run.process = target->run.end_process = process, target->run.end_time = time, target->run.status = status;
  if (sscanf(line, "did %u %u %" SCNd64 " %d", &number, &parent, &time, &status) == 4 && is_status(status))
    end_making(journal_making(target, parent, time), time, status);
  if (sscanf(line, "mention %u %lld %lld", &number, &start, &end) == 3 && start >= 0 && end > start)
    add_mention(&target->log, start, end);
}

static void for_each_line(char *lines, void (*visit)(const char *line)) {
  char *left;
  for (char *line = strtok_r(lines, "\n", &left); line; line = strtok_r(NULL, "\n", &left)) visit(line);
}

void read_journal(void) {
  char *lines = read_file(".capture/run", NULL);
  if (lines) for_each_line(lines, parse_event);
  free(lines);
}

static void mark_closed(const char *line) {
  unsigned number;
  int name = 0;
  if (sscanf(line, "%u%n", &number, &name) != 1 || line[name++] != ' ') return;
  struct target *target = find_target(line + name);
  if (target && target->number == number) target->is_closed = 1;
}

static void mark_reopened(const char *line) {
  unsigned number;
  int name = 0;
  if (sscanf(line, "target %u %*d %*u%n", &number, &name) != 1 || !name || line[name++] != ' ') return;
  struct target *target = find_target(line + name);
  if (target) target->is_closed = 0;
}

void read_closed(void) {
  if (read_journal_state() == NO_JOURNAL) return;
  char *closed = read_file(".capture/closed", NULL), *run = read_file(".capture/run", NULL);
  if (closed) for_each_line(closed, mark_closed);
  if (run) for_each_line(run, mark_reopened);
  free(closed);
  free(run);
}

int write_closed(void) {
  struct text lines = {NULL, 0, 0};
  for (size_t i = 0; i < target_count; i++)
    if (targets[i]->is_closed && targets[i]->number) add_index_line(&lines, targets[i]->number, targets[i]->name);
  int error = replace_file(".capture/closed", lines.bytes, lines.size);
  free(lines.bytes);
  return error;
}
