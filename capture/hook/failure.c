/* Failures that make ignores: because of `-`, .IGNORE or -i, or when it remakes a makefile that it can do without. What make prints about
   a failed child says so: `make: *** [Makefile:2: x] Error 1` if the failure counts, `make: [Makefile:2: x] Error 1 (ignored)` if it
   doesn't. `*** ` isn't translated. With -s, make prints nothing about a failure that it ignores, and something about each other one. It
   never prints anything about a makefile that it can do without. Then only its success says that it ignored failures. Such a makefile still
   counts if a goal needs it.

   make prints this before it blocks signals to remove the child from its list. Later messages are about other things, even if they look
   alike. After a child that it couldn't start, make first unblocks signals. */
#define _GNU_SOURCE
#include "hook.h"
#include "syscalls.h"

typedef void exit_function(int);
typedef int fputs_function(const char *, void *);
typedef ssize_t write_function(int, const void *, size_t);
typedef int sigprocmask_function(int, const void *, void *);

/* make's own variables; NULL if make doesn't export them. The first two begin its messages. */
static char *const *program;
static const unsigned *make_level;
static const int *run_silent, *rebuilding_makefiles;

static int has_failed; /* a child has failed since make went on */
/* How often make changes its signal mask until it no longer prints whether it ignores the last failure; 0 if it has printed that. It
   prints this before the last change. What it prints earlier says why it couldn't start a child. */
static int mask_changes;
static int is_silent; /* make has printed nothing since a child that it had started failed */
static int has_remade; /* a line began while make remade makefiles; it may end later */

void find_message_variables(void) {
  program = find_function("program"), make_level = find_function("makelevel");
  run_silent = find_function("run_silent"), rebuilding_makefiles = find_function("rebuilding_makefiles");
}

void note_failure(int is_started) { has_failed = 1, mask_changes = is_started ? 1 : 2, is_silent = is_started; }

void note_line(void) { has_remade |= rebuilding_makefiles && *rebuilding_makefiles; }

static void report_ignored(void) {
  struct ignored ignored = {IGNORED};
  if (is_connected()) send_note(&ignored, sizeof ignored, NULL, 0, -1);
}

/* Whether make would have printed something if the failure counted. */
static int is_silence_known(void) {
  return run_silent && *run_silent && rebuilding_makefiles && !has_remade && is_imported(FPUTS) && is_imported(WRITE);
}

int hooked_sigprocmask(int how, const void *mask, void *former) {
  if (mask_changes > 0 && --mask_changes == 0 && is_silent && is_silence_known()) report_ignored();
  return ((sigprocmask_function *)imports[SIGPROCMASK].original)(how, mask, former);
}

/* Moves past a string at the start of a text. Returns whether it was there. */
static int skip_string(const char **text, const char *end, const char *string) {
  const char *from = *text;
  while (from < end && *string && *from == *string) from++, string++;
  if (*string) return 0;
  *text = from;
  return 1;
}

/* Moves past `PROGRAM: ` or `PROGRAM[LEVEL]: `. */
static int skip_prefix(const char **text, const char *end) {
  char level[sizeof "[18446744073709551615]"] = "";
  if (*make_level > 0) append_number(append_string(level, "["), *make_level, ']');
  return skip_string(text, end, *program) && skip_string(text, end, level) && skip_string(text, end, ": ");
}

/* Whether a message goes on as `[PLACE: TARGET] ` does. */
static int has_brackets(const char *text, const char *end) {
  if (!skip_string(&text, end, "[")) return 0;
  for (; text < end; text++)
    if (skip_string(&text, end, "] ")) return 1;
  return 0;
}

/* Reads what make prints. Other messages may precede the one about the child. */
static void read_message(const char *text, size_t size) {
  const char *end = text + size;
  is_silent = 0;
  if (!program || !make_level || !is_imported(SIGPROCMASK) || !skip_prefix(&text, end)) return;
  int counts = skip_string(&text, end, "*** ");
  if (!has_brackets(text, end)) return;
  mask_changes = 0;
  if (!counts) report_ignored();
}

int hooked_fputs(const char *text, void *stream) {
  if (mask_changes == 1) read_message(text, string_length(text));
  return ((fputs_function *)imports[FPUTS].original)(text, stream);
}

/* With -O, make writes its messages to the file that collects the output of the recipe. */
ssize_t hooked_write(int descriptor, const void *bytes, size_t size) {
  if (mask_changes == 1) read_message(bytes, size);
  return ((write_function *)imports[WRITE].original)(descriptor, bytes, size);
}

void report_going_on(void) {
  struct went_on went_on = {WENT_ON};
  if (has_failed && is_connected()) send_note(&went_on, sizeof went_on, NULL, 0, -1);
  has_failed = 0;
}

void hooked_exit(int status) {
  if (status == 0 && current_pid() == make_pid) report_going_on();
  ((exit_function *)imports[EXIT].original)(status);
}
