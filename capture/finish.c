/* Records that are written when the run has ended: its own log, the targets that the sub-makes of recipes made, and the closing
   records.

   Closing records and some mentions are written after the build: make doesn't say which line is the last, and the text must
   not depend on timing.

   The log of a recipe mentions what its sub-makes made, unless the log of another target of the same sub-make does. The log of the run
   mentions what no other log does. If a target fails, make never begins its dependents, and doesn't say which they are. */
#define _GNU_SOURCE
#include "capture.h"
#include <errno.h>
#include <fcntl.h>
#include <stdlib.h>
#include <string.h>
#include <sys/stat.h>
#include <unistd.h>

/* The lowest number of a log that is gone although its recipe has ended, and the number of such logs. */
static unsigned first_lost, lost_count;

static void count_lost(const struct target *target) {
  if (lost_count++ == 0 || target->number < first_lost) first_lost = target->number;
}

static void report_lost(void) {
  if (lost_count == 1) warn("%s/log.%u was removed; its captures are lost", directory_path, first_lost);
  if (lost_count > 1) warn("%s/log.%u and %u more were removed; their captures are lost", directory_path, first_lost, lost_count - 1);
}

/* Adds the start of the record that a target ended. The name follows, as it is written in the log that gets the record. */
static void add_done_record(struct text *text, pid_t process, int64_t time, int status) {
  add_record(text, "done", process, time);
  add_status(text, status);
}

/* Adds records of a target to the log of the recipe that had it made. */
static void add_making_records(const struct target *target, const struct making *making) {
  struct target *parent = making->parent;
  if (parent == target || !can_mention(parent->name, target->name)) return;
  struct text *records = &parent->log.child_records;
  add_record(records, "do", parent->run.process, making->start_time);
  add_name_in_log(records, target->name, parent->name);
  add_string(records, "\n");
  if (making->status < 0) return;
  add_done_record(records, parent->run.process, making->end_time, making->status);
  add_name_in_log(records, target->name, parent->name);
  add_string(records, "\n");
}

/* Whether the log of a recipe must mention a target that it had made: no other log does that is enough, or says how it ended. The log of
   the run need not, if a recipe had the target made before. */
static int needs_records(const struct target *target, const struct making *making) {
  if (making->parent == run_target && making != target->run.makings) return making->status > 0;
  return !making->is_mentioned || making->failed_after_mention;
}

static void add_child_records(const struct target *target) {
  for (const struct making *making = target->run.makings; making; making = making->next)
    if (needs_records(target, making)) add_making_records(target, making);
}

/* Whether these bytes of a log are still a provisional record. Somebody may have changed the log. */
static int is_mention_record(const char *log, size_t size, const struct range *range) {
  if (range->end > (off_t)size || log[range->end - 1] != '\n') return 0;
  const char *start = log + range->start;
  start += *start == '\n';
  return is_record(start, log + range->end - start);
}

/* Returns the size of the records at the start of a log; 0 if no line ends there, because the log or the journal was changed. */
static size_t valid_header_size(const struct target *target, const char *log, size_t size) {
  off_t header_size = target->log.header_size;
  return header_size > 0 && header_size <= (off_t)size && log[header_size - 1] == '\n' ? header_size : 0;
}

/* Rewrites a log: the records at its start, the records of the targets that sub-makes of its recipe made, and the text. Drops the
   provisional records. Returns -1 on failure. */
static int rewrite_log(struct target *target, const char *log, size_t size) {
  char *rewritten;
  size_t rewritten_size, from = valid_header_size(target, log, size);
  FILE *stream = xopen_memstream(&rewritten, &rewritten_size);
  fwrite(log, 1, from, stream);
  if (target->log.child_records.size > 0) fwrite(target->log.child_records.bytes, 1, target->log.child_records.size, stream);
  for (size_t i = 0; i < target->log.mention_count; i++) {
    const struct range *range = &target->log.mentions[i];
    if (range->start < (off_t)from || !is_mention_record(log, size, range)) continue;
    fwrite(log + from, 1, range->start - from, stream);
    from = range->end;
  }
  fwrite(log + from, 1, size - from, stream);
  xclose_memstream(stream);
  close_log(target);
  int error = replace_file(log_file_name(target->number), rewritten, rewritten_size);
  free(rewritten);
  return error;
}

static int run_status; /* of the command; -1 if it isn't known */

/* The log of the run ends with the status of the run, even if a recipe makes `all` and succeeded. */
static int ends_with_run(const struct target *target) { return target == run_target && target->run.status == 0 && run_status != 0; }

static int closing_status(const struct target *target) { return ends_with_run(target) ? run_status : target->run.status; }

/* `size` is the size of the log if it is open, and otherwise -1. */
static void add_closing_record(struct target *target, off_t size) {
  static struct text record;
  struct stat found;
  char last = '\n';
  if (open_log(target) < 0) return;
  if (size < 0) size = fstat(target->log.fd, &found) == 0 ? found.st_size : 0;
  int is_known = size == target->log.written_size && !target->log.is_mid_line;
  if (!is_known && size > 0 && pread(target->log.fd, &last, 1, size - 1) < 1) last = '\n';
  record.size = 0;
  if (last != '\n') add_string(&record, "\n");
  int64_t end_time = ends_with_run(target) ? wall_clock_ms() : target->run.end_time;
  add_done_record(&record, target->run.end_process, end_time, closing_status(target));
  add_string(&record, name_in_own_log(target->name));
  add_string(&record, "\n");
  target->is_closed = write_all(target->log.fd, record.bytes, record.size) == 0;
  if (!target->is_closed) report_write_error(log_file_name(target->number));
  if (!target->is_closed && ftruncate(target->log.fd, size) < 0) target->log.is_unwritable = 1;
  close_log(target);
}

/* Puts a log in order and closes it. A log that was removed is created again, unless something else is in its place. */
static void finish_log(struct target *target) {
  struct stat found;
  int has_ended = target->run.has_begun && target->run.status >= 0;
  if (target->log.is_unwritable) return;
  if (target->log.fd >= 0 && (fstat(target->log.fd, &found) < 0 || found.st_nlink == 0)) close_log(target);
  int error = 0;
  if (target->log.fd < 0 && fstatat(directory_fd, log_file_name(target->number), &found, AT_SYMLINK_NOFOLLOW) < 0) error = errno;
  int is_file = !error && S_ISREG(found.st_mode);
  if (has_ended && (!is_file || target->log.is_lost)) count_lost(target);
  if (!is_file && error != ENOENT) return;
  if (error || target->log.is_lost) target->log.header_size = target->log.mention_count = 0;
  if (target->log.child_records.size > 0 || target->log.mention_count > 0) {
    size_t size = 0;
    char *log = error ? xasprintf("%s", "") : read_file(log_file_name(target->number), &size);
    if (!log) return report_write_error(log_file_name(target->number));
    error = rewrite_log(target, log, size);
    free(log);
    if (error) return;
  }
  if (closing_status(target) >= 0) add_closing_record(target, target->log.fd >= 0 ? found.st_size : -1);
  else close_log(target);
}

/* Gives the log of the run the status of the run, unless a recipe makes `all`. */
static void end_run_log(void) {
  if (run_target->run.has_begun) return;
  run_target->run.process = run_target->run.end_process = getpid();
  run_target->run.end_time = wall_clock_ms(), run_target->run.status = run_status;
}

/* The run began with its first recipe. Its log says so, because logs of earlier runs may say when a recipe for `all` began. */
static void begin_run_log(struct target **begun, size_t count) {
  struct text *records = &run_target->log.child_records;
  if (run_target->run.has_begun || count == 0) return;
  int64_t start_time = begun[0]->run.start_time;
  for (size_t i = 1; i < count; i++)
    if (begun[i]->run.start_time < start_time) start_time = begun[i]->run.start_time;
  add_record(records, "do", getpid(), start_time);
  add_string(records, run_target->name);
  add_string(records, "\n");
}

static void finish_run(int status) {
  size_t count;
  if (relist_targets() < 0) return;
  /* Before the journal ends, the list of closed logs must lose those that were begun again, because the journal no longer names
     them afterwards. Before any log is closed, the journal must end, so that no log is closed twice. */
  if (write_index(0) < 0 || write_closed() < 0 || end_journal() < 0) return;
  run_status = status;
  end_run_log();
  struct target **sorted = sorted_targets(&count);
  begin_run_log(sorted, count);
  for (size_t i = 0; i < count; i++) add_child_records(sorted[i]);
  for (size_t i = 0; i < target_count; i++)
    if (targets[i]->run.has_begun) finish_log(targets[i]);
  if (!run_target->run.has_begun) finish_log(run_target);
  write_closed();
  report_lost();
  free(sorted);
  compact_facts();
}

/* If the run was finished before, only the must-close flags are left to write. */
void finish(int status, int must_close) {
  if (read_journal_state() != FINISHED || status >= 0) finish_run(status);
  if (must_close) write_index(1);
}
