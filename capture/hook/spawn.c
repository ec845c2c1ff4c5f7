/* Since version 4.3, make starts a child by posix_spawn. The first call for a child initializes its file actions, and the
   last one destroys them. */
#define _GNU_SOURCE
#include "hook.h"
#include "syscalls.h"
#include <spawn.h>
#include <sys/stat.h>

typedef int spawn_function(pid_t *, const char *, const posix_spawn_file_actions_t *, const posix_spawnattr_t *, char *const *,
                           char *const *);
typedef int actions_function(posix_spawn_file_actions_t *);
typedef int adddup2_function(posix_spawn_file_actions_t *, int, int);
#define ORIGINAL(number, type) ((type *)imports[number].original)

/* State of the child that is about to be started. Unlike a recipe, the child of $(shell ..) writes to a pipe of make. */
static int is_started, is_shell_function, is_announced, pipe_end = -1;

int hooked_actions_init(posix_spawn_file_actions_t *actions) {
  is_started = is_shell_function = is_announced = 0;
  close_descriptor(&pipe_end);
  return ORIGINAL(ACTIONS_INIT, actions_function)(actions);
}

int hooked_actions_adddup2(posix_spawn_file_actions_t *actions, int from, int to) {
  struct stat found;
  if (to == 1 && SYSCALL(fstat, from, &found, 0, 0) == 0 && S_ISFIFO(found.st_mode)) is_shell_function = 1;
  return ORIGINAL(ACTIONS_ADDDUP2, adddup2_function)(actions, from, to);
}

/* If make doesn't find a command or may not run it, no child was started. make itself prints the cause. */
int hooked_actions_destroy(posix_spawn_file_actions_t *actions) {
  if (!is_started && !is_shell_function && is_connected()) report_failure();
  is_started = 1;
  close_descriptor(&pipe_end);
  return ORIGINAL(ACTIONS_DESTROY, actions_function)(actions);
}

/* Announces the line once. For a script without an interpreter, make fails to spawn it and then spawns a shell. */
static void announce_once(uint32_t recipe, char *const *command, const posix_spawn_file_actions_t *actions) {
  if (is_announced) return;
  is_announced = 1;
  pipe_end = announce_line(recipe, command);
  posix_spawn_file_actions_t *mutable_actions = (posix_spawn_file_actions_t *)actions;
  int error = 0;
  if (pipe_end < 0) return;
  if (!run.is_redirected[2]) error = ORIGINAL(ACTIONS_ADDDUP2, adddup2_function)(mutable_actions, pipe_end, 2);
  if (!error && run.captures_output && !run.is_redirected[1])
    error = ORIGINAL(ACTIONS_ADDDUP2, adddup2_function)(mutable_actions, pipe_end, 1);
  if (error) close_descriptor(&pipe_end);
}

int hooked_spawn(pid_t *process, const char *path, const posix_spawn_file_actions_t *actions, const posix_spawnattr_t *attributes,
                 char *const *command, char *const *environment) {
  long recipe = recipe_number_of(environment);
  int has_recipe = recipe >= 0;
  char **child_environment = NULL;
  if (recipe > 0 && is_connected() && actions && !is_shell_function) announce_once(recipe, command, actions);
  /* Since 4.4, make builds the environment of $(shell ..) from its variables. In a recipe, it expands the function for it, too. Elsewhere,
     capture.def has removed what its makes need. */
  if (recipe > 0 && is_shell_function) forget_recipe(), recipe = -1;
  int is_bare = !has_recipe && is_connected() && !has_variable(environment, RUN_VARIABLE "=");
  if (has_recipe || is_bare) child_environment = build_environment(environment, recipe, is_shell_function, pipe_end);
  pid_t child;
  int error = ORIGINAL(POSIX_SPAWN, spawn_function)(&child, path, actions, attributes, command,
                                                    child_environment ? child_environment : environment);
  if (error) return error;
  *process = child, is_started = 1;
  if (is_announced) report_start(child);
  close_descriptor(&pipe_end);
  return 0;
}
