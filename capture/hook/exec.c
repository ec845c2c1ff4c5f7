/* Before version 4.3, or if it was built so, make starts a child by vfork and execvp. The code below runs in the child,
   which shares make's memory until it executes another program. */
#define _GNU_SOURCE
#include "hook.h"
#include "syscalls.h"
#include <sys/stat.h>

typedef int execvp_function(const char *, char *const *);

pid_t make_pid;

pid_t current_pid(void) { return SYSCALL(getpid, 0, 0, 0, 0); }

static void redirect_outputs(int pipe) {
  if (!run.is_redirected[2]) SYSCALL(dup3, pipe, 2, 0, 0);
  if (run.captures_output && !run.is_redirected[1]) SYSCALL(dup3, pipe, 1, 0, 0);
}

/* Whether this is the child of $(shell ..): its standard output is a pipe, and not make's own standard output. */
static int is_shell_function(void) {
  struct stat found;
  if (SYSCALL(fstat, 1, &found, 0, 0) < 0 || !S_ISFIFO(found.st_mode)) return 0;
  return found.st_dev != run.own_output.device || found.st_ino != run.own_output.inode;
}

int hooked_execvp(const char *file, char *const *command) {
  execvp_function *original = (execvp_function *)imports[EXECVP].original;
  char ***environment = find_function("environ");
  int is_own = current_pid() == make_pid, is_child = environment && !is_own;
  long recipe = is_child ? recipe_number_of(*environment) : -1;
  if (is_own) report_going_on(), set_own_variable(0); /* make executes itself again because it has remade a makefile */
  int is_function = is_child && is_shell_function();
  if (recipe > 0 && is_function) recipe = 0;
  if (!is_child || (recipe < 0 && (!is_connected() || has_variable(*environment, RUN_VARIABLE "=")))) return original(file, command);
  int pipe = recipe > 0 && is_connected() ? announce_line(recipe, command) : -1;
  char **child_environment = build_environment(*environment, recipe, is_function, pipe);
  if (child_environment) *environment = child_environment;
  if (recipe > 0 && is_connected()) report_start(current_pid());
  if (pipe >= 0) redirect_outputs(pipe);
  return original(file, command);
}
