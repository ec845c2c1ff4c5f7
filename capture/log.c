/* The logs. A log has records at its start, then text, then its closing record. While the run goes on, it also has provisional
   records: each mentions a target that a sub-make of the recipe makes, at the time of the event. `finish` replaces them.

   Output of a log is buffered until flush_logs, which the server calls some milliseconds later. A short recipe costs one write
   therefore.

   A log is truncated, not replaced: on ext4 a new file costs more, the more files were removed shortly before. */
#define _GNU_SOURCE
#include "capture.h"
#include <errno.h>
#include <fcntl.h>
#include <stdlib.h>
#include <string.h>
#include <sys/stat.h>
#include <unistd.h>

/* In bytes: MAX_TEXT, the size from which a log gets no more text. redo-log rejects a log of more than 2^30 bytes, and `finish` adds
   records. */
enum { RESERVED = 1 << 24 };
#ifndef MAX_TEXT
#define MAX_TEXT ((1 << 30) - RESERVED)
#endif
#define RECORD_PREFIX "@@REDO:"
enum { PREFIX_SIZE = sizeof RECORD_PREFIX - 1 };

static size_t open_count; /* of logs that are open. They stay open until the run ends, if there are few, because opening costs most. */
/* Targets whose logs have something to be flushed, in the order in which they got it. */
static struct target *dirty_targets, **dirty_end = &dirty_targets;

const char *log_file_name(unsigned number) {
  static char name[sizeof "log." + MAX_DIGITS] = "log.";
  *write_number(name + 4, number) = 0;
  return name;
}

const char *format_time(int64_t time) {
  static char digits[40];
  if (time < 0) time = 0;
  snprintf(digits, sizeof digits, "%lld.%03d", (long long)(time / 1000), (int)(time % 1000));
  return digits;
}

int is_record(const char *line, size_t size) { return size >= PREFIX_SIZE && memcmp(line, RECORD_PREFIX, PREFIX_SIZE) == 0; }

void add_record(struct text *text, const char *kind, pid_t process, int64_t time) {
  add_string(text, RECORD_PREFIX);
  add_string(text, kind);
  add_string(text, ":");
  add_number(text, process);
  add_string(text, ":");
  add_time(text, time);
  add_string(text, "@@ ");
}

void add_status(struct text *text, int status) {
  add_number(text, status);
  add_string(text, " ");
}

static void mark_unwritable(struct target *target) {
  report_write_error(log_file_name(target->number));
  target->log.is_unwritable = 1;
}

/* Truncates an existing log, which costs less than creating a file. Replaces it if it isn't a regular file or has another link. */
static int open_emptied(const char *name, int is_new) {
  struct stat found;
  int file = is_new ? open_in_directory(name, O_RDWR | O_APPEND | O_CREAT | O_EXCL) : -1;
  if (file >= 0 || (is_new && errno != EEXIST)) return file;
  file = open_in_directory(name, O_RDWR | O_APPEND | O_CREAT);
  if (file < 0 && errno != ELOOP) return -1;
  int is_own = file >= 0 && fstat(file, &found) == 0 && S_ISREG(found.st_mode) && found.st_nlink == 1;
  if (is_own && (found.st_size == 0 || ftruncate(file, 0) == 0)) return file;
  if (file >= 0) close(file);
  return unlinkat(directory_fd, name, 0) == 0 ? open_in_directory(name, O_RDWR | O_APPEND | O_CREAT | O_EXCL) : -1;
}

/* Whether an open log is the only link of the file of its name: nobody has removed, moved or linked it. */
static int is_in_place(const struct target *target) {
  struct stat opened, named;
  return fstat(target->log.fd, &opened) == 0 && S_ISREG(opened.st_mode) && opened.st_nlink == 1 &&
         fstatat(directory_fd, log_file_name(target->number), &named, AT_SYMLINK_NOFOLLOW) == 0 && opened.st_dev == named.st_dev &&
         opened.st_ino == named.st_ino;
}

static int ensure_open(struct target *target) {
  struct log_file *log = &target->log;
  if (log->fd >= 0 && !log->must_be_emptied) return log->fd;
  if (log->is_unwritable || !is_capturing() || !target->number) return -1;
  if (log->fd >= 0 && (!is_in_place(target) || ftruncate(log->fd, 0) < 0)) close_log(target);
  if (log->fd < 0) {
    const char *name = log_file_name(target->number);
    log->fd = log->must_be_emptied ? open_emptied(name, log->is_new) : open_to_append(name);
    open_count += log->fd >= 0;
  }
  if (log->fd < 0) mark_unwritable(target);
  else log->must_be_emptied = log->is_new = log->is_prepared = 0;
  return log->fd;
}

/* Writes the lines of a log that aren't records to standard error, because they can't be written to the log. A recipe's line is never
   taken for a record, because append_text has changed it. */
static void forward_lines(const char *bytes, size_t size) {
  for (const char *line = bytes, *end = bytes + size, *next; line < end; line = next) {
    const char *newline = memchr(line, '\n', end - line);
    next = newline ? newline + 1 : end;
    if (!is_record(line, next - line)) write_all(2, line, next - line);
  }
}

/* Writes all bytes or none. */
static int write_to_log(struct target *target, const char *bytes, size_t size) {
  struct log_file *log = &target->log;
  if (ensure_open(target) < 0) return -1;
  if (write_all(log->fd, bytes, size) == 0) {
    log->written_size += size;
    return 0;
  }
  int error = errno;
  if (ftruncate(log->fd, log->written_size) < 0) error = errno;
  errno = error;
  mark_unwritable(target);
  return -1;
}

/* Drops the end of the log, which isn't written. */
static void truncate_log(struct log_file *log) {
  log->size = log->written_size;
  while (log->mention_count > 0 && log->mentions[log->mention_count - 1].end > log->size) log->mention_count--;
}

int flush_log(struct target *target) {
  struct write_buffer *buffer = &target->log.buffer;
  size_t size = buffer->size;
  if (size == 0 && !target->log.must_be_emptied) return 0;
  buffer->size = 0;
  if (size > 0 ? write_to_log(target, buffer->bytes, size) == 0 : ensure_open(target) >= 0) return 0;
  forward_lines(buffer->bytes, size);
  truncate_log(&target->log);
  return -1;
}

static void mark_dirty(struct target *target) {
  if (target->log.is_dirty) return;
  target->log.is_dirty = 1, target->log.next_dirty = NULL;
  *dirty_end = target, dirty_end = &target->log.next_dirty;
}

void detect_lost_log(struct target *target) {
  struct log_file *log = &target->log;
  struct stat found;
  if (log->fd < 0 || log->must_be_emptied || fstat(log->fd, &found) < 0 || found.st_nlink > 0) return;
  close_log(target);
  log->is_lost = 1, log->is_mid_line = 0;
  log->written_size = log->shown_size = log->header_size = log->mention_count = 0;
  log->size = log->buffer.size;
}

/* Whether somebody, probably the line that runs, has removed or moved the log before it was emptied. It is created when the line has
   ended, because the line may be removing the directory. */
static int is_held(const struct target *target) {
  return target->log.is_prepared && target->log.must_be_emptied && !is_in_place(target);
}

void forward_held_log(struct target *target) {
  struct write_buffer *buffer = &target->log.buffer;
  if (is_held(target)) forward_lines(buffer->bytes, buffer->size);
}

/* Existing logs are emptied only if the journal says that they were begun again. */
static void flush_dirty_log(struct target *target, int can_begin) {
  if (target->log.must_be_emptied && !can_begin) target->log.is_unwritable = 1;
  if (target->running_lines > 0 && is_held(target)) return;
  flush_log(target);
  if (target->running_lines > 0 || target == run_target) return;
  clear_buffer(&target->log.buffer);
  if (open_count > max_open_logs()) close_log(target);
}

void flush_logs(int can_begin) {
  while (dirty_targets) {
    struct target *target = dirty_targets;
    dirty_targets = target->log.next_dirty, target->log.is_dirty = 0;
    if (!dirty_targets) dirty_end = &dirty_targets;
    flush_dirty_log(target, can_begin);
  }
}

void forget_logs(void) {
  for (; dirty_targets; dirty_targets = dirty_targets->log.next_dirty) dirty_targets->log.is_dirty = 0;
  dirty_end = &dirty_targets;
}

/* Before a log is emptied, the index, the journal and the facts must say that it begins again. */
static int flush_now(struct target *target) {
  if (target->log.must_be_emptied) flush_captures();
  return flush_log(target);
}

int open_log(struct target *target) {
  flush_now(target);
  return ensure_open(target);
}

void prepare_log(struct target *target) {
  struct log_file *log = &target->log;
  if (target->run.has_begun || target == run_target) open_log(target);
  else if (log->fd < 0) {
    log->fd = open_to_append(log_file_name(target->number));
    open_count += log->fd >= 0;
  }
  log->is_prepared = log->fd >= 0 && !target->run.has_begun;
}

void close_log(struct target *target) {
  if (target->log.fd >= 0) close(target->log.fd), open_count--;
  target->log.fd = -1, target->log.is_prepared = 0;
}

void close_log_soon(struct target *target) {
  if (target->log.fd >= 0) mark_dirty(target);
}

void close_all_logs(void) {
  for (size_t i = 0; i < target_count; i++) close_log(targets[i]);
}

/* Appends all or nothing. On failure the caller has the bytes still. */
static int append(struct target *target, const char *bytes, size_t size) {
  if (target->log.is_unwritable || !is_capturing() || !target->number) return -1;
  if (add_to_buffer(&target->log.buffer, bytes, size) < 0 && (flush_now(target) < 0 || write_to_log(target, bytes, size) < 0)) return -1;
  target->log.size += size;
  mark_dirty(target);
  return 0;
}

void begin_log(struct target *target, int is_new) {
  struct log_file *log = &target->log;
  if (!log->is_prepared) close_log(target);
  log->must_be_emptied = 1, log->is_new = is_new;
  log->is_lost = log->is_unwritable = log->is_full = log->has_text = log->has_unshown_text = log->is_mid_line = 0;
  log->header_size = log->size = log->written_size = log->shown_size = 0;
  log->buffer.size = log->mention_count = 0;
  mark_dirty(target);
}

void append_header(struct target *target, const char *records, size_t size) {
  if (append(target, records, size) == 0) target->log.header_size = target->log.shown_size = size;
}

/* Appends text that fits, or writes it to standard error. */
static void append_bytes(struct target *target, const char *bytes, size_t size) {
  if (size == 0) return;
  if (append(target, bytes, size) < 0) write_all(2, bytes, size);
  else target->log.has_text = target->log.has_unshown_text = 1, target->log.is_mid_line = bytes[size - 1] != '\n';
}

/* Whether these bytes at the start of a line are, or may become, the start of a record. */
static int may_be_record(const char *bytes, size_t size) {
  return size > 0 && memcmp(bytes, RECORD_PREFIX, size < PREFIX_SIZE ? size : PREFIX_SIZE) == 0;
}

/* Whether the log ends with a provisional record. Then the next record needs no line feed before it, even within a line. */
static int ends_with_mention(const struct log_file *log) {
  return log->mention_count > 0 && log->mentions[log->mention_count - 1].end == log->size;
}

/* Puts a space before each line that would be a record: all output of a recipe is text. */
static void append_as_text(struct target *target, const char *bytes, size_t size) {
  const char *end = bytes + size, *from = bytes;
  if ((!target->log.is_mid_line || ends_with_mention(&target->log)) && may_be_record(bytes, size)) append_bytes(target, " ", 1);
  for (const char *found = bytes; (found = memmem(found, end - found, "\n@", 2)); found++) {
    if (!may_be_record(found + 1, end - found - 1)) continue;
    append_bytes(target, from, found + 1 - from);
    append_bytes(target, " ", 1);
    from = found + 1;
  }
  append_bytes(target, from, end - from);
}

/* Ends the text of a log that is as large as it may be. */
static void append_last(struct target *target, const char *bytes, size_t size) {
  char line[200];
  off_t left = MAX_TEXT - target->log.size;
  const char *newline = left > 0 ? memrchr(bytes, '\n', (off_t)size < left ? size : (size_t)left) : NULL;
  size_t first = newline ? newline + 1 - bytes : 0;
  append_as_text(target, bytes, first);
  complete_line(target);
  snprintf(line, sizeof line, "redo-log-capture: the log ends here, because it has %lld bytes; the rest is on standard error\n",
           (long long)target->log.size);
  append_bytes(target, line, strlen(line));
  target->log.is_full = 1;
  write_all(2, bytes + first, size - first);
}

void append_text(struct target *target, const char *bytes, size_t size, const struct pipe *from) {
  if (size == 0) return;
  if (!target->run.has_begun || target->log.is_full) {
    write_all(2, bytes, size);
    return;
  }
  if (from != target->log.mid_line_pipe) complete_line(target);
  target->log.mid_line_pipe = from;
  if (target->log.size + (off_t)size > MAX_TEXT) append_last(target, bytes, size);
  else append_as_text(target, bytes, size);
}

void complete_line(struct target *target) {
  if (target->log.is_mid_line && target->run.has_begun) append_bytes(target, "\n", 1);
}

void add_mention(struct log_file *log, off_t start, off_t end) {
  log->mentions = grow_array(log->mentions, log->mention_count, &log->mention_capacity, sizeof *log->mentions);
  log->mentions[log->mention_count++] = (struct range){start, end};
}

void mention_in_parent(struct target *parent, const struct target *target, pid_t process, int64_t time, int status) {
  static struct text record;
  if (parent == target || (parent != run_target && !parent->run.has_begun) ||
      !can_mention(parent->name, target->name))
    return;
  record.size = 0;
  if (parent->log.is_mid_line && !ends_with_mention(&parent->log)) add_string(&record, "\n");
  add_record(&record, status < 0 ? "do" : "done", process, time);
  if (status >= 0) add_status(&record, status);
  add_name_in_log(&record, target->name, parent->name);
  add_string(&record, "\n");
  off_t start = parent->log.size;
  if (append(parent, record.bytes, record.size) < 0) return;
  add_mention(&parent->log, start, parent->log.size);
  write_journal("mention", 3, (int64_t[]){parent->number, start, parent->log.size});
}
