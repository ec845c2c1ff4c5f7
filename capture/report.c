/* The last lines that are printed, and the summary file. */
#define _GNU_SOURCE
#include "capture.h"
#include "protocol.h"
#include <errno.h>
#include <signal.h>
#include <stdlib.h>
#include <string.h>
#include <unistd.h>

/* The maximum number of targets that a line names. */
enum { MAX_NAMED = 10 };

/* The targets that a line is about. */
struct target_group {
  struct target *targets[MAX_NAMED];
  size_t count;
};

static void add_to_group(struct target_group *group, struct target *target) {
  if (group->count < MAX_NAMED) group->targets[group->count] = target;
  group->count++;
}

static size_t named_count(const struct target_group *group) { return group->count < MAX_NAMED ? group->count : MAX_NAMED; }

/* Returns the command that shows these logs. redo-log needs no --dir for the default directory if there is no `names` here. */
static char *show_command(const char *options, const struct target_group *group) {
  int is_found = strcmp(directory_name, DEFAULT_DIRECTORY) == 0 && access("names", F_OK) < 0, has_dash = 0;
  char *command, *directory_word = shell_quote(directory_name);
  size_t size;
  FILE *stream = xopen_memstream(&command, &size);
  fprintf(stream, "redo-log%s", options);
  if (!is_found) fprintf(stream, " --dir %s", directory_word);
  for (size_t i = 0; i < named_count(group); i++) has_dash |= group->targets[i]->name[0] == '-';
  if (has_dash) fprintf(stream, " --");
  for (size_t i = 0; i < named_count(group); i++) {
    char *name = shell_quote(group->targets[i]->name);
    fprintf(stream, " %s", name);
    free(name);
  }
  xclose_memstream(stream);
  free(directory_word);
  return command;
}

/* Returns the first MAX_NAMED targets of a group, each with the seconds for which it has been running. */
static char *format_running(const struct target_group *group) {
  char *list;
  size_t size;
  FILE *stream = xopen_memstream(&list, &size);
  for (size_t i = 0; i < named_count(group); i++) {
    const struct target *target = group->targets[i];
    int64_t end = stop_time ? stop_time : wall_clock_ms(), start = running_since(target), duration = end > start ? end - start : 0;
    fprintf(stream, "%s%s (%lld.%d s)", i ? ", " : "", target->name, (long long)(duration / 1000), (int)(duration % 1000 / 100));
  }
  if (group->count > MAX_NAMED) fprintf(stream, " and %zu more", group->count - MAX_NAMED);
  xclose_memstream(stream);
  return list;
}

static char *show_all_command(void) {
  struct target_group all = {{run_target}, 1};
  return show_command(" -r", &all);
}

/* Whether the targets that are named printed nothing on standard error, as far as that was captured. */
static int are_logs_empty(const struct target_group *group) {
  for (size_t i = 0; i < named_count(group); i++)
    if (group->targets[i]->log.has_text || is_redirected(group->targets[i]->run.first_make)) return 0;
  return 1;
}

static void report_failed(const struct target_group *failed, int has_unstarted) {
  char *command = show_command("", failed);
  int is_one = failed->count == 1;
  if (failed->count > MAX_NAMED) warn("%zu targets failed, %d of them: %s", failed->count, MAX_NAMED, command);
  else warn("%zu %s failed: %s", failed->count, is_one ? "target" : "targets", command);
  if (has_unstarted)
    warn("make could not start %s", is_one ? "its command; see make's own message" : "some of their commands; see make's own messages");
  else if (!captures_output && are_logs_empty(failed))
    warn("%s empty; --both also captures standard output", is_one ? "its log is" : "their logs are");
}

/* Prints what ended the build early, and what ran at that time. */
static void report_interruption(const char *command, const struct target_group *running) {
  int is_killed = !stop_signal || command_signal == SIGKILL;
  int kind = is_killed ? command_signal : stop_signal;
  const char *what = is_killed ? xasprintf("%s was ended by %s", base_name(command), signal_name(kind))
                               : xasprintf("interrupted by %s", signal_name(kind));
  if (running->count == 0) warn("%s", what);
  else warn("%s; running: %s", what, format_running(running));
}

static void report_printed(const struct target_group *texts) {
  const char *what = texts->count == 1 ? "target that did not fail" : "targets that did not fail";
  char *command = texts->count > MAX_NAMED ? show_all_command() : show_command("", texts);
  if (texts->count > 0) warn("%zu %s printed something: %s", texts->count, what, command);
}

static void report_uncaptured(void) {
  char *names = xasprintf("%s/names", directory_path);
  if (access(names, F_OK) < 0) warn("no recipe was captured");
  else if (command_status != 0) warn("no recipe was captured; %s has another build", directory_name);
  free(names);
}

/* A sub-make may be killed, and the build go on. Then what it interrupted has failed. */
static void end_interruptions(void) {
  if (stop_signal || command_signal) return;
  for (size_t i = 0; i < target_count; i++) {
    targets[i]->run.is_interrupted = 0;
    for (struct failure *failure = targets[i]->run.failures; failure; failure = failure->next) failure->is_interrupted = 0;
  }
}

static int has_failed(const struct target *target) { return target->run.status > 0 && !target->run.is_interrupted; }

static struct failure *failure_of(const struct target *target, unsigned line) {
  struct failure *failure = target->run.failures;
  while (failure && failure->line != line) failure = failure->next;
  return failure;
}

/* Whether the make ignored a failure of the target, or nobody need care about the make, or the target succeeded later in another sub-make
   of the same recipe. */
static int is_settled(const struct target *target, const struct failure *failure) {
  const struct making *making = making_for(target, log_parent(target, failure->caller.target));
  return failure->is_ignored || is_in_shell_function(failure->make) || (making && making->status == 0);
}

/* Whether nobody ignored a failure of the target: not the make, nor the recipe that ran it, nor one above. A recipe whose line still ran
   ignored none. */
static int is_final(const struct target *target, const struct failure *failure) {
  while (failure && !is_settled(target, failure)) {
    struct caller caller = failure->caller;
    if (!caller.target) return 1;
    if (caller.target->run.status < 0 && caller.target->run.last_line == caller.line) return 1;
    target = caller.target, failure = failure_of(caller.target, caller.line);
  }
  return 0;
}

/* Returns the last failure of a line of the target that nobody ignored, and for which no line of a sub-make was the cause; or NULL. */
static const struct failure *cause_of(const struct target *target) {
  const struct failure *failure = target->run.failures;
  while (failure && (failure->is_interrupted || failure->has_cause || !is_final(target, failure))) failure = failure->next;
  return failure;
}

/* Whether make could not start the last line of a target that is named. */
static int has_unstarted(const struct target_group *failed) {
  for (size_t i = 0; i < named_count(failed); i++)
    if (cause_of(failed->targets[i])->is_unstarted) return 1;
  return 0;
}

static int has_final_failure(const struct target *target) {
  const struct failure *failure = target->run.failures;
  while (failure && (failure->is_interrupted || !is_final(target, failure))) failure = failure->next;
  return failure != NULL;
}

static void find_causes(const struct target *target) {
  for (const struct failure *failure = target->run.failures; failure; failure = failure->next) {
    struct failure *outer = failure->caller.target ? failure_of(failure->caller.target, failure->caller.line) : NULL;
    if (outer && !is_settled(target, failure) && !failure->is_interrupted) outer->has_cause = 1;
  }
}

struct groups {
  struct target_group failed, running, ignored, texts;
};

/* Finds the targets that failed, except those whose failure was ignored, and those in whose line a sub-make's failed; the targets that
   ran when a signal stopped the build; and the targets that did not fail, and printed something that wasn't shown. */
static void group_targets(struct groups *groups) {
  size_t count;
  struct target **sorted = sorted_targets(&count);
  for (size_t i = 0; i < count; i++) find_causes(sorted[i]);
  for (size_t i = 0; i < count; i++) {
    struct target *target = sorted[i];
    if (target->run.is_interrupted || target->run.status < 0 || target->running_lines > 0) add_to_group(&groups->running, target);
    else if (cause_of(target)) add_to_group(&groups->failed, target);
    else if (has_final_failure(target)) continue;
    else {
      if (target->run.failures) add_to_group(&groups->ignored, target);
      if (!has_failed(target) && target->log.has_unshown_text) add_to_group(&groups->texts, target);
    }
  }
  free(sorted);
}

void report(const char *command, int is_quiet) {
  static struct groups groups;
  if (!is_capturing()) return report_uncaptured();
  end_interruptions();
  group_targets(&groups);
  /* The build may have ignored the signal. */
  int is_stopped = command_status != 0 && (command_signal || (stop_signal && (was_stopped || groups.failed.count == 0)));
  if (is_stopped) report_interruption(command, &groups.running);
  if (command_status != 0 && groups.failed.count > 0) report_failed(&groups.failed, has_unstarted(&groups.failed));
  if (show_mode == SHOW_FAILED && !is_quiet && !captures_output) report_printed(&groups.texts);
  if (command_status != 0 && groups.failed.count == 0 && !is_stopped) {
    if (groups.ignored.count == 0) warn("no recipe failed; see %s's own message", base_name(command));
    else warn("only failures that seem to be ignored: %s; see %s's own message", show_command("", &groups.ignored), base_name(command));
  }
  if (command_status != 0) warn("show all logs: %s", show_all_command());
}

static void write_summary_line(FILE *stream, const struct target *target) {
  int64_t end = target->run.status >= 0 && target->run.end_time ? target->run.end_time : wall_clock_ms(),
          duration = end > target->run.start_time ? end - target->run.start_time : 0;
  if (target->run.status >= 0) fprintf(stream, "%d", target->run.status);
  else fprintf(stream, "-");
  fprintf(stream, " %lld.%03d %u %s", (long long)(duration / 1000), (int)(duration % 1000), target->number, target->name);
  int64_t processor_time = processor_time_ms(target);
  if (processor_time < 0) fprintf(stream, " - -\n");
  else fprintf(stream, " %s %lld\n", format_time(processor_time), (long long)target->run.usage.peak_kb);
}

void write_summary(const char *path) {
  char *rows;
  size_t size, count = 0;
  FILE *stream = xopen_memstream(&rows, &size);
  struct target **sorted = is_capturing() ? sorted_targets(&count) : NULL;
  for (size_t i = 0; i < count; i++) write_summary_line(stream, sorted[i]);
  xclose_memstream(stream);
  if (write_output(path, rows, size) == 0) return;
  warn("cannot write %s: %s", path, strerror(errno));
  failed_writes++;
}
