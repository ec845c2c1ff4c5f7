/* A line of a recipe, up to its start.

   The pipe is passed before a line starts, and the process number afterwards, so a recipe that kills make loses no line. */
#define _GNU_SOURCE
#include "hook.h"
#include "../terminal.h"
#include <sys/stat.h>

/* The maximum number of bytes of a command that is sent. A longer command is truncated. */
enum { MAX_COMMAND = 16000 };

int has_variable(char *const *environment, const char *prefix) {
  for (; *environment; environment++)
    if (has_prefix(*environment, prefix)) return 1;
  return 0;
}

long recipe_number_of(char *const *environment) {
  for (; environment && *environment; environment++) {
    if (!has_prefix(*environment, RECIPE_VARIABLE "=")) continue;
    const char *value = *environment + sizeof RECIPE_VARIABLE;
    unsigned long number;
    parse_number(&value, &number, 0);
    return number;
  }
  return -1;
}

/* Opens a pipe, or a terminal if lines get terminals. Sets both ends to -1 on failure. */
static void open_pipe(int ends[2]) {
  if (run.uses_terminals && open_terminal(ends) == 0) return;
  if (SYSCALL(pipe2, ends, O_CLOEXEC, 0, 0) < 0) ends[0] = ends[1] = -1;
}

/* Joins the arguments of a command, each followed by a NUL. The last NUL is missing if the command was truncated. */
static size_t join_words(char *const *command, char words[MAX_COMMAND]) {
  size_t size = 0;
  for (; *command && size < MAX_COMMAND; command++)
    for (const char *byte = *command; size < MAX_COMMAND; byte++)
      if (!(words[size++] = *byte)) break;
  return *command && !words[size - 1] ? size - 1 : size;
}

static int is_letter(char byte) { return (byte >= 'a' && byte <= 'z') || (byte >= 'A' && byte <= 'Z'); }

/* Whether a command contains a word that names a removal. */
static int may_remove(const char *words, size_t size) {
  static const char *const verbs[] = {"clean", "delet", "remov", "unlink", "rmdir", "rmtree"};
  for (const char *byte = words, *end = words + size; byte < end; byte++) {
    int is_word = byte == words || !is_letter(byte[-1]);
    if (is_word && end - byte > 2 && (byte[0] == 'r' || byte[0] == 'm') && !is_letter(byte[2]) &&
        byte[1] == (byte[0] == 'r' ? 'm' : 'v'))
      return 1; /* rm, mv */
    for (size_t i = 0; i < sizeof verbs / sizeof *verbs; i++)
      if (*byte == *verbs[i] && (size_t)(end - byte) >= string_length(verbs[i]) && has_prefix(byte, verbs[i])) return 1;
  }
  return 0;
}

int announce_line(uint32_t recipe, char *const *command) {
  static char body[MAX_KEPT + MAX_COMMAND];
  struct line_message line = {LINE, recipe, wall_clock_ms(), server_asks() || !run.is_captured, take_names(body)};
  int pair[2] = {-1, -1}, reply = -1;
  char *words = body + line.names_size;
  note_line();
  size_t size = join_words(command, words);
  line.wants_reply |= may_remove(words, size);
  size += line.names_size;
  int writes = !run.is_redirected[2] || (run.captures_output && !run.is_redirected[1]);
  if (writes) open_pipe(pair);
  if (!line.wants_reply) {
    if (send_note(&line, sizeof line, body, size, pair[0]) == 0) reply = CAPTURED;
  } else {
    uint64_t former = block_signals();
    if (send_request(&line, sizeof line, body, size, pair[0]) == 0) reply = receive_reply();
    restore_signals(former);
    run.is_captured |= reply == CAPTURED;
    if (reply == NEVER_CAPTURED) disconnect();
  }
  close_descriptor(&pair[0]);
  if (reply != CAPTURED) close_descriptor(&pair[1]);
  return pair[1];
}

void report_start(pid_t process) {
  struct started started = {STARTED, process};
  send_note(&started, sizeof started, NULL, 0, -1);
}

void report_failure(void) {
  char names[MAX_KEPT];
  struct failed failed = {FAILED, take_names(names), wall_clock_ms()};
  note_failure(0);
  send_note(&failed, sizeof failed, names, failed.names_size, -1);
}

/* Writes CAPTURE_RUN for the sub-makes of a recipe. A child that is no recipe gets the value of make itself. An output that is redirected
   counts as redirected in sub-makes too. */
static char *append_child_variable(char *to, long recipe, int is_shell_function, int pipe) {
  struct run_variable child = run.variable;
  struct stat found = {0};
  if (pipe >= 0) SYSCALL(fstat, pipe, &found, 0, 0);
  if (recipe >= 0) child.make = run.make, child.recipe = recipe, child.is_in_shell_function = 0;
  child.is_in_shell_function |= is_shell_function;
  for (int output = 1; recipe >= 0 && output <= 2; output++) {
    int is_piped = pipe >= 0 && !run.is_redirected[output] && (output == 2 || run.captures_output);
    if (is_piped) child.outputs[output] = (struct file_identity){found.st_dev, found.st_ino};
    else if (run.is_redirected[output]) child.outputs[output] = (struct file_identity){0, 1}; /* which no file has */
  }
  return append_run_variable(append_string(to, RUN_VARIABLE "="), &child) + 1;
}

static int is_capture_variable(const char *variable) {
  return has_prefix(variable, RECIPE_VARIABLE "=") || has_prefix(variable, RUN_VARIABLE "=");
}

/* Writes MAKEFILES for the sub-makes of a recipe: capture.def, and the value that it would have otherwise. */
static void append_makefiles(char *to, const char *other_makefiles) {
  const char *rest = other_makefiles + (has_prefix(other_makefiles, capture_def_path) ? string_length(capture_def_path) : 0);
  int has_capture_def = rest > other_makefiles && (!*rest || *rest == ' ');
  to = append_string(append_string(to, "MAKEFILES="), capture_def_path);
  if (*other_makefiles && !has_capture_def) append_string(append_string(to, " "), other_makefiles);
}

char **build_environment(char *const *environment, long recipe, int is_shell_function, int pipe) {
  static struct buffer list, values;
  size_t count = 0, variable_count = 0,
         size = sizeof RUN_VARIABLE "=MAKEFILES= " + max_run_variable_size(&run.variable) + string_length(capture_def_path);
  const char *other_makefiles = "";
  while (environment[count]) count++;
  char **variables = (char **)grow_buffer(&list, (count + 3) * sizeof *variables);
  for (size_t i = 0; variables && i < count; i++) {
    if (has_prefix(environment[i], "MAKEFILES=")) other_makefiles = environment[i] + sizeof "MAKEFILES";
    else if (!is_capture_variable(environment[i])) variables[variable_count++] = environment[i];
  }
  char *to = grow_buffer(&values, size + string_length(other_makefiles));
  if (!variables || !to) return NULL;
  variables[variable_count++] = to;
  to = append_child_variable(to, recipe, is_shell_function, pipe);
  variables[variable_count++] = to;
  append_makefiles(to, other_makefiles);
  variables[variable_count] = NULL;
  return variables;
}

void set_own_variable(int is_shell_function) {
  static struct buffer variable;
  int (*setenv_function)(const char *, const char *, int) = find_function("setenv");
  char *to = grow_buffer(&variable, sizeof RUN_VARIABLE "=" + max_run_variable_size(&run.variable));
  if (!setenv_function || !to) return;
  append_child_variable(to, -1, is_shell_function, -1);
  setenv_function(RUN_VARIABLE, to + sizeof RUN_VARIABLE, 1);
}
