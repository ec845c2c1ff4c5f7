/* The function that make calls when it has loaded the hook. */
#include "hook.h"

EXPORTED int plugin_is_GPL_compatible;

/* Declarations of gnumake.h. */
struct location {
  const char *file; /* as MAKEFILES names it; valid until make exits */
  unsigned long line;
};
extern void gmk_eval(const char *buffer, const struct location *location) __attribute__((weak));
extern char *gmk_expand(const char *string) __attribute__((weak));
extern void gmk_free(char *string) __attribute__((weak));
extern char *gmk_alloc(unsigned size) __attribute__((weak));
extern void gmk_add_function(const char *name, char *(*function)(const char *, unsigned, char **), unsigned min_arguments,
                             unsigned max_arguments, unsigned flags) __attribute__((weak));

const char *capture_def_path;

/* Whether make has the functions that are needed: posix_spawn, as since 4.3, or vfork. With fork nothing could be captured,
   because the child would get make's replies and doesn't share its memory. */
static int can_hook(void) {
  int spawns = is_imported(POSIX_SPAWN) && is_imported(ACTIONS_INIT) && is_imported(ACTIONS_ADDDUP2) && is_imported(ACTIONS_DESTROY);
  int forks = is_imported(VFORK) && is_imported(EXECVP);
  int waits = is_imported(WAIT) || is_imported(WAITPID) || is_imported(WAIT3) || is_imported(WAIT4);
  return (spawns || forks) && waits && gmk_eval && gmk_expand && gmk_free && gmk_alloc && gmk_add_function;
}

/* With -n, -q or -t, make runs few recipes, and the captures stay as they were. */
static int is_dry_run(void) {
  char *flags = gmk_expand("$(MAKEFLAGS)");
  int found = 0;
  for (const char *flag = flags; flag && *flags != '-' && *flag && *flag != ' '; flag++)
    found |= *flag == 'n' || *flag == 'q' || *flag == 't';
  gmk_free(flags);
  return found;
}

static char *copy_string(struct buffer *buffer, const char *string) {
  char *copy = grow_buffer(buffer, string_length(string) + 1);
  if (copy) append_string(copy, string);
  return copy;
}

/* Connects to the run that the environment names. Returns -1 if nothing is to be captured, or another capture.def of MAKEFILES has
   connected this make. */
static int connect_make(const struct location *location) {
  static struct buffer path, variable;
  char *(*getenv_function)(const char *) = find_function("getenv");
  const char *run_variable = getenv_function ? getenv_function(RUN_VARIABLE) : NULL;
  if (!run_variable || is_connected() || is_dry_run()) return -1;
  make_pid = current_pid();
  capture_def_path = copy_string(&path, location->file);
  run_variable = copy_string(&variable, run_variable);
  return capture_def_path && run_variable ? connect_to_run(run_variable) : -1;
}

/* Called by make, for the line of capture.def that loads the hook. Returns -1, so that make doesn't try to remake the shared object.
   Sets redo-log-loaded to `yes`, or to `no` if nothing is to be captured; leaves it undefined if this make can't be captured. */
EXPORTED int redo_log_capture(const struct location *location) {
  if (find_imports() < 0 || !can_hook()) return -1;
  if (connect_make(location) < 0) {
    gmk_eval("redo-log-loaded := no", location);
    return -1;
  }
  if (replace_imports() < 0) return -1;
  set_own_variable(1);
  gmk_add_function("redo-log-recipe", announce_recipe, 2, 2, 0);
  gmk_eval("redo-log-loaded := yes", location);
  return -1;
}
