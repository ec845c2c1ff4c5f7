/* The lines of --progress, so that a build is not silent for long. */
#define _GNU_SOURCE
#include "capture.h"
#include <fcntl.h>
#include <stdlib.h>
#include <string.h>
#include <sys/stat.h>
#include <unistd.h>

static int64_t interval_ms, due; /* 0: no lines */
static size_t last_run_count;    /* the number of targets of the last run; 0 if it isn't known */

/* Returns how many targets the last run had. Its journal, which this run replaces, has the number, or all targets if it was killed. */
static size_t count_last_run(void) {
  char *path = xasprintf("%s/.capture/run", directory_path), *journal = NULL;
  struct stat found;
  size_t count = 0;
  int file = open(path, O_RDONLY | O_NOFOLLOW | O_NONBLOCK | O_CLOEXEC);
  if (file >= 0 && fstat(file, &found) == 0 && S_ISREG(found.st_mode)) journal = read_all(file, NULL);
  if (journal && sscanf(journal, "ended %*d %zu", &count) != 1)
    for (char *line = journal; line; line = strchr(line, '\n'), line = line ? line + 1 : NULL)
      count += strncmp(line, "target ", 7) == 0;
  if (file >= 0) close(file);
  free(journal);
  free(path);
  return count;
}

void start_progress(int seconds) {
  interval_ms = seconds * INT64_C(1000), due = monotonic_ms() + interval_ms;
  last_run_count = count_last_run();
}

int progress_wait_ms(void) {
  if (!interval_ms) return -1;
  int64_t left = due - monotonic_ms();
  return left > 0 ? left : 0;
}

static int is_running(const struct target *target) { return target->run.has_begun && target->running_lines > 0; }

/* A target counts as running unless a sub-make of its recipe runs a line. */
static void print_counts(void) {
  size_t made = 0, failed = 0, running = 0;
  const struct target *longest = NULL;
  char last_run[48] = "";
  for (size_t i = 0; i < target_count; i++) targets[i]->run.has_running_child = 0;
  for (const struct line *line = lines; line; line = line->next)
    if (line->caller.target && line->caller.target != line->target) line->caller.target->run.has_running_child = 1;
  for (size_t i = 0; i < target_count; i++) {
    const struct target_run *run = &targets[i]->run;
    made += run->has_begun && run->status == 0, failed += run->has_begun && run->status > 0;
    if (!is_running(targets[i]) || run->has_running_child) continue;
    running++;
    if (!longest || running_since(targets[i]) < running_since(longest)) longest = targets[i];
  }
  if (last_run_count) snprintf(last_run, sizeof last_run, "; last run: %zu", last_run_count);
  if (!longest) return warn("%zu made, %zu failed, %zu running%s", made, failed, running, last_run);
  int64_t duration = wall_clock_ms() - running_since(longest);
  warn("%zu made, %zu failed, %zu running, %s for %lld s%s", made, failed, running, longest->name,
       (long long)(duration > 0 ? duration / 1000 : 0), last_run);
}

void print_progress(void) {
  if (progress_wait_ms() != 0) return;
  due = monotonic_ms() + interval_ms;
  if (is_out_of_memory || !is_capturing()) warn("no recipe is captured at present");
  else print_counts();
}
