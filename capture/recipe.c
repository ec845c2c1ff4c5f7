/* Recipes and their lines. Writes to the logs when they begin and end. */
#define _GNU_SOURCE
#include "make.h"
#include <stdlib.h>
#include <string.h>
#include <sys/stat.h>
#include <unistd.h>

struct line *lines;
int was_stopped;

/* The records at the start of a log, and the journal's lines for the targets that they mention. A recipe may have thousands of
   prerequisites, so each of them must cost little. */
struct header {
  struct target *target;
  struct text records, mentioned;
  pid_t process;
  int64_t time;
};

/* Returns the line that runs this make, or NULL. Every make is connected before its sub-makes. */
static struct line *parent_line(const struct make *make) {
  struct line *line = make->parent_make < make->number ? lines : NULL;
  while (line && (line->make->number != make->parent_make || line->recipe != make->parent_recipe)) line = line->next;
  return line;
}

/* Returns the line of the target that runs this make, directly or through others, or NULL. */
static struct line *enclosing_line(const struct make *make, const struct target *target) {
  struct line *line = parent_line(make);
  while (line && line->target != target) line = parent_line(line->make);
  return line;
}

/* In the journal, `all` has no number. */
static unsigned journal_number(const struct target *parent) { return parent == run_target ? 0 : parent->number; }

/* The log of a target mentions a prerequisite. That is enough if the same recipe had both made, or if no recipe had the prerequisite made.
   Otherwise the log of that recipe must mention it, too, to show what the recipe did. It isn't enough either if the recipe of the
   prerequisite runs the make of the target: then only the log of the prerequisite leads to the log of the target. */
static void set_mentioned(struct header *header, struct target *prerequisite) {
  if (enclosing_line(header->target->run.first_make, prerequisite)) return;
  struct target *parent = log_parent(header->target, header->target->run.parent);
  struct making *making = prerequisite->run.makings;
  if (making && making->parent != run_target) making = making_for(prerequisite, parent);
  if (!making) return;
  making->is_mentioned = 1;
  add_string(&header->mentioned, "needed ");
  add_number(&header->mentioned, prerequisite->number);
  add_string(&header->mentioned, " ");
  add_number(&header->mentioned, journal_number(making->parent));
  add_string(&header->mentioned, "\n");
}

static void mention_prerequisite(struct header *header, struct target *prerequisite) {
  struct target *target = header->target;
  if (!prerequisite || prerequisite->number == 0 || prerequisite == target ||
      (prerequisite == run_target && !prerequisite->run.has_begun))
    return;
  if (!can_mention(target->name, prerequisite->name)) return;
  struct target_run *run = &prerequisite->run;
  struct text *records = &header->records;
  const struct making *making = making_for(prerequisite, log_parent(target, target->run.parent));
  if (!making) making = run->makings;
  add_record(records, making ? "do" : "unchanged", header->process, making ? making->start_time : header->time);
  size_t name_start = records->size;
  add_name_in_log(records, prerequisite->name, target->name);
  size_t name_size = records->size - name_start;
  add_string(records, "\n");
  if (!making) return;
  set_mentioned(header, prerequisite);
  if (making->status < 0) return;
  add_record(records, "done", header->process, making->end_time);
  add_status(records, making->status);
  reserve_text(records, name_size + 1);
  add_text(records, records->bytes + name_start, name_size);
  add_string(records, "\n");
}

/* A name with spaces arrives as several words. Each word is looked up alone, and then joined with the words after it as long as a
   known name may begin that way. All known names that are found are mentioned. */
static void mention_prerequisites(struct header *header, const char *directory, const char *prerequisites) {
  for (const char *word = prerequisites; *(word += strspn(word, " "));) {
    const char *end = word;
    struct target *prerequisite = NULL;
    int continues = 1;
    while (continues && *end) {
      end += strspn(end, " ");
      end += strcspn(end, " ");
      const char *name = normalize_name(directory, word, end - word);
      prerequisite = find_target(name);
      mention_prerequisite(header, prerequisite);
      continues = *end && is_known_prefix(name);
    }
    word += strcspn(word, " ");
  }
}

static void write_header(struct target *target, const char *directory, const char *prerequisites, pid_t process) {
  struct header header = {.target = target, .process = process, .time = target->run.start_time};
  add_record(&header.records, "do", process, target->run.start_time);
  add_string(&header.records, name_in_own_log(target->name));
  add_string(&header.records, "\n");
  mention_prerequisites(&header, directory, prerequisites);
  append_header(target, header.records.bytes, header.records.size);
  write_journal("start", 3, (int64_t[]){target->number, process, header.records.size});
  add_to_journal(header.mentioned.bytes, header.mentioned.size);
  mention_in_parent(target->run.makings->parent, target, process, target->run.start_time, -1);
  free(header.records.bytes);
  free(header.mentioned.bytes);
}

void begin_target(struct target *target, struct make *make, struct target *parent, const char *prerequisites, int64_t time,
                  pid_t process) {
  int is_new = target->number == 0;
  if (is_new && add_to_index(target) < 0) return;
  target->is_closed = 0;
  target->run = (struct target_run){.has_begun = 1, .parent = parent, .directory = make->directory, .first_make = make,
                                    .start_time = time, .status = -1};
  add_making(target, log_parent(target, parent), make, time);
  begin_in_journal(target);
  begin_facts(target);
  begin_log(target, is_new);
  write_header(target, make->directory, prerequisites, process);
}

static void set_target_directory(struct target *target, const char *directory) {
  if (strcmp(target->run.directory, directory) == 0) return;
  target->run.directory = directory;
  record_directory(target);
}

/* A recipe such as `sub/x: ; $(MAKE) -C sub x` only runs a sub-make, in whose directory the compiler then runs. */
static void change_directory(struct line *line) {
  struct target_run *run = &line->target->run;
  line->directory_before = run->directory;
  if (line->make != run->first_make) set_target_directory(line->target, line->make->directory);
}

/* A line that runs a sub-make and prints nothing may only have asked whether the target must be made. If the sub-make ran no line for the
   target, the directory says nothing about the text of the log. */
static void restore_directory(const struct line *line) {
  const struct target_run *run = &line->target->run;
  int is_own = line->directory_before && run->has_begun && line->make != run->first_make && run->directory == line->make->directory;
  if (is_own && line->has_sub_make && !line->has_printed) set_target_directory(line->target, line->directory_before);
}

int64_t running_since(const struct target *target) {
  const struct making *making = target->run.last_making;
  int64_t time = making ? making->start_time : target->run.start_time;
  for (const struct line *line = lines; line; line = line->next)
    if (line->target == target && line->making && line->making->start_time < time) time = line->making->start_time;
  return time;
}

/* Returns what the line belongs to. A line that a recipe of the same target runs belongs to what that recipe does. */
static struct making *making_of(const struct line *line, const struct line *enclosing) {
  struct target *target = line->target, *parent = log_parent(target, line->caller.target);
  struct making *making = enclosing && enclosing->making ? enclosing->making : making_for(target, parent);
  if (making) return making;
  write_journal("made", 3, (int64_t[]){target->number, journal_number(parent), line->start_time});
  mention_in_parent(parent, target, line->process, line->start_time, -1);
  return add_making(target, parent, line->make, line->start_time);
}

/* Returns the line with this number, or NULL if it has ended. */
static struct line *running_line(unsigned number) {
  struct line *line = lines;
  while (line && line->number != number) line = line->next;
  return line;
}

static void count_failure(const struct failure *failure, int change) {
  int counts = !failure->is_ignored && !failure->is_interrupted && !is_in_shell_function(failure->make);
  struct line *outer = counts ? running_line(failure->caller.line) : NULL;
  if (outer) outer->failed_children += change;
}

static void ignore_failure(struct failure *failure) {
  count_failure(failure, -1);
  failure->is_ignored = 1;
}

/* If make goes on with the recipe, it ignores what failed before, and the recipe has not failed. */
static void forget_earlier_lines(const struct line *line) {
  for (struct failure **link = &line->target->run.failures, *failure; (failure = *link);) {
    int is_earlier = failure->make == line->make && failure->recipe == line->recipe;
    if (is_earlier) ignore_failure(failure), *link = failure->next;
    else link = &failure->next;
  }
}

void ignore_failures(struct make *make) {
  for (; make->failures; make->failures = make->failures->next_in_make) ignore_failure(make->failures);
}

/* Fills in what a line has besides the values that it was announced with. */
static void set_up_line(struct line *line) {
  static unsigned last_number;
  struct target *target = line->target;
  struct target_run *run = &target->run;
  const struct line *outer = parent_line(line->make), *enclosing = run->has_begun ? enclosing_line(line->make, target) : NULL;
  line->number = run->last_line = ++last_number;
  line->caller.target = outer && outer->target->run.has_begun ? outer->target : parent_target(line->make);
  line->caller.line = outer ? outer->number : 0;
  line->is_nested = enclosing != NULL;
  line->making = run->last_making = run->has_begun ? making_of(line, enclosing) : NULL;
  forget_earlier_lines(line);
}

void begin_line(struct make *make, uint32_t recipe, struct target *target, struct command command, int64_t time, pid_t process,
                struct pipe *pipe) {
  struct line *line = xrealloc(NULL, sizeof *line);
  struct target_run *run = &target->run;
  *line = (struct line){.make = make, .recipe = recipe, .process = process, .target = target, .pipe = pipe, .command = command,
                        .start_time = time};
  set_up_line(line);
  line->next = lines, lines = line;
  target->running_lines++;
  if (run->has_begun) change_directory(line);
  if (run->has_begun && (run->status >= 0 || line->making->status >= 0))
    write_journal("line", 3, (int64_t[]){target->number, process, journal_number(line->making->parent)});
  if (line->making) line->making->status = -1, line->making->last_failure = NULL;
  run->process = process, run->status = -1, run->last_failure = NULL;
  if (records_all_commands) record_command(target, &line->command);
  if (pipe) start_pipe(pipe, target);
}

void add_sub_make(const struct make *make) {
  struct line *line = parent_line(make);
  if (line) line->has_sub_make = 1;
}

static void add_failure(const struct line *line) {
  struct target_run *run = &line->target->run;
  struct failure *failure = xrealloc(NULL, sizeof *failure);
  *failure = (struct failure){.target = line->target, .making = line->making, .make = line->make, .recipe = line->recipe,
                              .line = line->number, .status = run->status, .caller = line->caller,
                              .is_interrupted = run->is_interrupted, .next = run->failures, .next_in_make = line->make->failures};
  run->failures = line->make->failures = line->make->last_failure = failure;
  run->last_failure = failure;
  if (line->making) line->making->last_failure = failure;
  count_failure(failure, 1);
}

/* A double-colon rule that failed still has failed if its make then runs the recipe of the next one. Returns the status of the last one
   that failed in this make, or 0. */
static int failed_status(const struct target *target, const struct make *make) {
  const struct failure *failure = target->run.failures;
  while (failure && (failure->make != make || failure->is_ignored)) failure = failure->next;
  return failure ? failure->status : 0;
}

static void write_end(const struct target *target) {
  const struct target_run *run = &target->run;
  write_journal("ended", 4, (int64_t[]){target->number, run->end_process, run->end_time, run->status});
}

static void set_making_end(const struct target *target, struct making *making, int64_t time, int status) {
  end_making(making, time, status);
  making->last_failure = NULL;
  write_journal("did", 4, (int64_t[]){target->number, journal_number(making->parent), time, status});
}

/* Only lines of the make that began the making change its end. */
static void end_line_of_making(const struct line *line, int64_t time) {
  struct making *making = line->making;
  int is_end = line->make == making->make || making->end_time == 0;
  set_making_end(line->target, making, is_end ? time : making->end_time, line->target->run.status);
}

/* If several makes run one target, only the first make changes its end, because other logs have its start by this make. */
static void end_target_line(const struct line *line, int status, int64_t time) {
  struct target *target = line->target;
  struct target_run *run = &target->run;
  int has_failed = status != 0;
  run->status = has_failed ? status : failed_status(target, line->make);
  run->last_failure = NULL;
  if (line->make == run->first_make || run->end_process == 0) run->end_process = line->process, run->end_time = time;
  if (!run->has_begun) return;
  write_end(target);
  if (line->making) end_line_of_making(line, time);
  if (!has_failed) return;
  add_failure(line);
  mention_in_parent(line->making ? line->making->parent : run_target, target, line->process, time, status);
}

/* Whether no line of the recipe has begun since the failure, nor the log of the target. */
static int is_latest(const struct failure *failure) {
  const struct failure *found = failure->target->run.failures;
  while (found && found != failure) found = found->next;
  return found != NULL;
}

/* An interrupted recipe didn't succeed, whatever make ignores. */
void ignore_last_failure(struct make *make) {
  struct failure *failure = make->last_failure;
  make->last_failure = NULL;
  if (!failure || failure->is_interrupted) return;
  ignore_failure(failure);
  if (!is_latest(failure)) return;
  struct target *target = failure->target;
  struct making *making = failure->making;
  int status = failed_status(target, make);
  if (target->run.last_failure == failure) {
    target->run.status = status, target->run.last_failure = NULL;
    write_end(target);
  }
  if (making && making->last_failure == failure) set_making_end(target, making, making->end_time, status);
}

static void add_usage(struct usage *sum, struct usage usage) {
  sum->user_us += usage.user_us, sum->system_us += usage.system_us;
  if (usage.peak_kb > sum->peak_kb) sum->peak_kb = usage.peak_kb;
}

/* A process that the line left behind may be in the middle of a line of text. It gets the time to end it, unless the text is shown now:
   then all of it is. */
static void end_output(struct line *line, int has_failed, int is_shown) {
  struct target *target = line->target;
  int shows_all = has_failed || (is_shown && show_mode == SHOW_ALL);
  if (line->pipe && !drain_pipe(line->pipe, has_failed && is_shown) && shows_all) flush_pipe(line->pipe);
  if (shows_all || !target->log.mid_line_pipe) complete_line(target);
}

struct line *find_line(const struct make *make, pid_t process) {
  struct line *line = lines;
  while (line && (line->process != process || line->make != make)) line = line->next;
  return line;
}

static void remove_line(struct line *line) {
  struct line **link = &lines;
  while (*link != line) link = &(*link)->next;
  *link = line->next;
  free(line->command.bytes);
  free(line);
}

void end_line(struct line *line, struct line_end end, int is_shown) {
  struct target *target = line->target;
  int status = shell_status(end.wait_status);
  was_stopped |= end.is_stopping;
  end_output(line, status != 0, is_shown);
  restore_directory(line);
  if (!line->is_nested) add_usage(&target->run.usage, end.usage);
  record_usage(target);
  if (status != 0 && !records_all_commands) record_command(target, &line->command);
  target->run.is_interrupted = status != 0 && end.is_stopping;
  if (target->run.is_interrupted) target->run.last_making = line->making;
  end_target_line(line, status, end.time);
  if (is_shown && !target->run.is_interrupted) show_output(line, status);
  target->running_lines--;
  detect_lost_log(target);
  if (target->running_lines == 0) close_log_soon(target);
  remove_line(line);
}

/* make itself prints the cause. */
void fail_line(struct make *make, uint32_t recipe, struct target *target, pid_t process, int64_t time) {
  struct line line = {.make = make, .recipe = recipe, .process = process, .target = target, .start_time = time};
  if (!target->run.has_begun) return;
  set_up_line(&line);
  target->run.process = process, target->run.is_interrupted = 0;
  end_target_line(&line, 127, time);
  target->run.failures->is_unstarted = 1;
  close_log_soon(target);
}
