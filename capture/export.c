/* The files of --html and --json. Each is written by another program when the build has ended. */
#define _GNU_SOURCE
#include "capture.h"
#include <errno.h>
#include <stdlib.h>
#include <string.h>
#include <sys/wait.h>

struct export exports[EXPORT_COUNT] = {
    {.option = "--html", .kind = "page", .program = "redo-log-html"},
    {.option = "--json", .kind = "JSON", .program = "redo-log-json"},
};

/* The signal that asked this process to end while a program ran; 0 if there was none. */
static int end_signal;

/* The program that is installed beside this one fits captures of this version. */
static char *find_program(const char *name) {
  char *own_path = program_path();
  char *beside = xasprintf("%.*s%s", (int)(base_name(own_path) - own_path), own_path, name);
  free(own_path);
  return is_program(beside) ? beside : find_in_path(name);
}

/* Once the build has ended, there may be no memory for the words. */
void prepare_export(struct export *export) {
  export->words[0] = find_program(export->program);
  if (!export->words[0]) die(1, "%s needs %s, which isn't found", export->option, export->program);
  export->words[1] = xasprintf("--dir=%s", directory_name);
  export->output = named_descriptor(export->path);
  if (export->output < 0) export->output = 1, export->words[2] = xasprintf("--output=%s", export->path);
}

void write_export(struct export *export) {
  char cause[64];
  if (is_out_of_memory) {
    snprintf(cause, sizeof cause, "out of memory");
  } else if (!is_capturing()) {
    return warn("no recipe was captured: %s is not written", export->path);
  } else if (end_signal) {
    snprintf(cause, sizeof cause, "interrupted by %s", signal_name(end_signal));
  } else {
    int wait_status = run_program(export->words, export->output, &end_signal);
    if (wait_status == 0) return;
    if (wait_status < 0) snprintf(cause, sizeof cause, "%s: %s", export->program, strerror(errno));
    else if (WIFSIGNALED(wait_status))
      snprintf(cause, sizeof cause, "%s was ended by %s", export->program, signal_name(WTERMSIG(wait_status)));
    else snprintf(cause, sizeof cause, "%s exited with status %d", export->program, WEXITSTATUS(wait_status));
  }
  warn("cannot write the %s %s: %s", export->kind, export->path, cause);
  failed_writes++;
}
