/* redo-log-capture: captures a build by GNU make for redo-log. README.md describes which output is captured, and how. */
#define _GNU_SOURCE
#include "capture.h"
#include "protocol.h"
#include <stdlib.h>
#include <string.h>
#include <sys/stat.h>
#include <unistd.h>

enum { PROGRESS_SECONDS = 60, MAX_PROGRESS_SECONDS = 86400 };

static const char help[] =
    "Runs a build by GNU make, and captures what each recipe prints on standard error as a log for redo-log.\n"
    "\n"
    "Usage: redo-log-capture [OPTIONS] [--] <COMMAND>...\n"
    "       redo-log-capture [--dir <DIR>] [--must-close] --finish\n"
    "\n"
    "Arguments:\n"
    "  <COMMAND>...  A make command, or a command that runs make\n"
    "\n"
    "Options:\n"
    "      --dir <DIR>        The capture directory [default: .redo-log]\n"
    "      --both             Capture standard output too\n"
    "      --colour[=<WHEN>]  Let recipes print colours: auto, if standard error is a terminal; always; or never [default: never]\n"
    "      --commands         Record the command of every line; by default, those of lines that failed are recorded\n"
    "      --live             Print the output of every recipe, whenever a line of it ends\n"
    "      --quiet            Print no output of recipes; by default, the output of failed recipes is printed\n"
    "      --summary <FILE>   Write a line per target to FILE: status, seconds, log number, name, processor time, memory\n"
    "      --html <FILE>      Write a page of the build to FILE with redo-log-html\n"
    "      --json <FILE>      Write the build as JSON to FILE with redo-log-json\n"
    "      --progress[=<S>]   Print a line about the build every S seconds [default: 60]\n"
    "      --must-close       Set the must-close flag of closed logs: redo-log then rejects truncated copies of them\n"
    "      --finish           Finish the logs of a build that was killed\n"
    "  -h, --help             Print help\n"
    "  -V, --version          Print version\n"
    "\n"
    "Example:\n"
    "  redo-log-capture make -j8 all      captures a build\n"
    "  redo-log -r all                    shows it\n"
    "\n"
    "Exit status: the command's; otherwise\n"
    "    1  the captures, the summary, the page or the JSON can't be written\n"
    "    2  the command line is invalid\n"
    "  126  the command can't be run\n"
    "  127  the command isn't found\n";

static const char *directory = DEFAULT_DIRECTORY, *summary;
static int must_close, is_quiet, progress_seconds, only_finishes;

static _Noreturn void print_and_exit(const char *message) { exit(fputs(message, stdout) < 0 || fflush(stdout) != 0); }

static _Noreturn void finish_interrupted(void) {
  open_interrupted_run();
  if (read_journal_state() == RUNNING) read_journal();
  finish(-1, must_close);
  exit(failed_writes ? 1 : 0);
}

/* bash sets the variable `_` to the path of the command that it runs. If it is the path of this program, the command gets its own. */
static void set_last_argument(const char *command) {
  struct stat named, own;
  const char *value = getenv("_");
  if (!value || stat(value, &named) < 0 || stat(program_path(), &own) < 0) return;
  if (named.st_dev != own.st_dev || named.st_ino != own.st_ino) return;
  const char *path = strchr(command, '/') ? command : find_in_path(command);
  if (path) setenv("_", path, 1);
}

/* Listens for the makes of the build, and sets the variables that they need. */
static void prepare_environment(const char *command) {
  char *capture_def = find_capture_def();
  const char *other_makefiles = getenv("MAKEFILES");
  size_t size = strlen(capture_def);
  if (other_makefiles && strncmp(other_makefiles, capture_def, size) == 0 && (!other_makefiles[size] || other_makefiles[size] == ' '))
    other_makefiles += size + strspn(other_makefiles + size, " ");
  listen_for_makes();
  setenv("MAKEFILES", other_makefiles && *other_makefiles ? xasprintf("%s %s", capture_def, other_makefiles) : capture_def, 1);
  export_run();
  set_last_argument(command);
}

static const char *command_name;

static void finish_capture(void) {
  check_removal();
  if (is_capturing()) finish(command_status, must_close);
  check_removal();
  find_moved_directory();
  report(command_name, is_quiet);
  if (summary) write_summary(summary);
}

/* Returns whether recipes get terminals. */
static int parse_colour(const char *when) {
  const char *no_colour = getenv("NO_COLOR");
  if (strcmp(when, "auto") == 0) return isatty(2) && (!no_colour || !*no_colour);
  if (strcmp(when, "always") != 0 && strcmp(when, "never") != 0) die(2, "--colour: not auto, always or never: %s", when);
  return strcmp(when, "always") == 0;
}

static int parse_seconds(const char *text) {
  size_t digits = strspn(text, "0123456789");
  int seconds = digits > 0 && digits < 6 && !text[digits] ? atoi(text) : 0;
  if (seconds < 1 || seconds > MAX_PROGRESS_SECONDS) die(2, "--progress: not a number of seconds from 1 to 86400: %s", text);
  return seconds;
}

static _Noreturn void capture_build(char **command) {
  if (is_within_run()) exec_command(command);
  check_directory();
  if (summary) check_output(summary);
  for (int i = 0; i < EXPORT_COUNT; i++)
    if (exports[i].path) check_output(exports[i].path), prepare_export(&exports[i]);
  if (progress_seconds) start_progress(progress_seconds);
  block_signals();
  prepare_environment(command[0]);
  start_command(command);
  serve_command();
  remove_temporary_directory();
  command_name = command[0];
  if (is_out_of_memory || try_step(finish_capture) < 0)
    warn("out of memory: finish the captures with redo-log-capture --dir %s --finish", directory_name);
  drain_in_background();
  for (int i = 0; i < EXPORT_COUNT; i++)
    if (exports[i].path) write_export(&exports[i]);
  close_directory();
  exit_like_command();
}

/* Whether an argument is this option. If so, sets its value, which follows `=` or is the next argument; "" if there is none. */
static int parse_value(char ***arguments, const char *option, const char **value) {
  const char *argument = **arguments;
  size_t size = strlen(option);
  if (strncmp(argument, option, size) != 0 || (argument[size] && argument[size] != '=')) return 0;
  if (argument[size]) *value = argument + size + 1;
  else *value = (*arguments)[1] ? *++*arguments : "";
  return 1;
}

static int parse_export(char ***arguments) {
  for (int i = 0; i < EXPORT_COUNT; i++)
    if (parse_value(arguments, exports[i].option, &exports[i].path)) return 1;
  return 0;
}

/* Parses the arguments up to the command, which it returns. */
static char **parse_options(char **arguments) {
  for (; *arguments && **arguments == '-'; arguments++) {
    char *argument = *arguments;
    if (strcmp(argument, "-h") == 0 || strcmp(argument, "--help") == 0) print_and_exit(help);
    if (strcmp(argument, "-V") == 0 || strcmp(argument, "--version") == 0) print_and_exit("redo-log-capture " VERSION "\n");
    if (strcmp(argument, "--both") == 0) captures_output = 1;
    else if (strcmp(argument, "--commands") == 0) records_all_commands = 1;
    else if (strcmp(argument, "--colour") == 0 || strcmp(argument, "--color") == 0) uses_terminals = parse_colour("auto");
    else if (strncmp(argument, "--colour=", 9) == 0) uses_terminals = parse_colour(argument + 9);
    else if (strncmp(argument, "--color=", 8) == 0) uses_terminals = parse_colour(argument + 8);
    else if (strcmp(argument, "--live") == 0) show_mode = SHOW_ALL;
    else if (strcmp(argument, "--quiet") == 0) show_mode = SHOW_NOTHING, is_quiet = 1;
    else if (strcmp(argument, "--must-close") == 0) must_close = 1;
    else if (strcmp(argument, "--finish") == 0) only_finishes = 1;
    else if (strcmp(argument, "--progress") == 0) progress_seconds = PROGRESS_SECONDS;
    else if (strncmp(argument, "--progress=", 11) == 0) progress_seconds = parse_seconds(argument + 11);
    else if (parse_value(&arguments, "--dir", &directory)) continue;
    else if (parse_value(&arguments, "--summary", &summary)) continue;
    else if (parse_export(&arguments)) continue;
    else if (strcmp(argument, "--") == 0) return arguments + 1;
    else die(2, "%s: unknown option; try --help", argument);
  }
  return arguments;
}

static void check_is_other(const struct export *export, const char *option, const char *path) {
  if (path && is_same_output(path, export->path)) die(2, "%s: %s writes this file, too: %s", export->option, option, export->path);
}

static void check_exports(void) {
  for (int i = 0; i < EXPORT_COUNT; i++) {
    if (exports[i].path && !*exports[i].path) die(2, "%s: no file given", exports[i].option);
    if (exports[i].path && only_finishes) die(2, "--finish: writes no %s", exports[i].kind);
    if (!exports[i].path) continue;
    /* The programs reject other arguments, which would be too late once the build has ended. */
    if (!is_utf8(exports[i].path)) die(2, "%s: not UTF-8: %s", exports[i].option, exports[i].path);
    if (!is_utf8(directory)) die(2, "%s: --dir is not UTF-8: %s", exports[i].option, directory);
    check_is_other(&exports[i], "--summary", summary);
    for (int j = 0; j < i; j++) check_is_other(&exports[i], exports[j].option, exports[j].path);
  }
}

int main(int count, char **arguments) {
  reserve_standard_fds();
  if (count > 1 && strcmp(arguments[1], "--recipe") == 0) {
    if (count == 2) die(2, "--recipe: no command given");
    launch(arguments + 2);
  }
  set_base_dir();
  char **command = parse_options(arguments + 1);
  if (!*directory) die(2, "--dir: no directory given");
  if (summary && !*summary) die(2, "--summary: no file given");
  if (only_finishes && *command) die(2, "--finish: takes no command: %s", *command);
  if (only_finishes && summary) die(2, "--finish: writes no summary");
  check_exports();
  if (!only_finishes && !*command) die(2, "no command given; try --help");
  set_directory(directory);
  if (only_finishes) finish_interrupted();
  capture_build(command);
}
