/* The hook: a shared object that each make of a captured build loads. It reports each line of a recipe to the server, and gives
   the line a pipe to the server as standard error, or, with --colour, a terminal. Below, a pipe may be a terminal.

   It replaces the functions of the C library by which make starts and reaps children, prints and exits. Its own functions call the
   originals. It runs inside make, partly in a signal handler, so it doesn't call malloc and leaves errno alone. It imports only what make
   itself has or imports (gmk_*, dlsym), so that one file works with every glibc and musl. If anything fails here, the build goes on
   without being captured.

   An earlier design ran a shell and a helper process around each line of a recipe. It cost 2 to 4 ms of processor time per line,
   and builds could notice it in many ways. */
#include "../run_variable.h"
#include <stddef.h>
#include <stdint.h>
#include <sys/types.h>

#define EXPORTED __attribute__((visibility("default")))

/* memory.c: replacements for the C library */

size_t string_length(const char *string);
int strings_equal(const char *left, const char *right);
/* Whether a string begins with a prefix. */
static inline int has_prefix(const char *string, const char *prefix) {
  while (*prefix && *string == *prefix) string++, prefix++;
  return !*prefix;
}
/* A buffer that grow_buffer enlarges, which loses its content. grow_buffer returns NULL if memory can't be allocated. */
struct buffer {
  char *bytes;
  size_t size;
};
char *grow_buffer(struct buffer *buffer, size_t size);
/* Milliseconds since 1970. */
int64_t wall_clock_ms(void);

/* connection.c: the sockets to the server */

/* The run to which this make belongs. */
struct run {
  struct run_variable variable;
  int is_redirected[3];            /* by descriptor */
  struct file_identity own_output; /* make's own standard output */
  uint32_t make;                   /* as the server numbers it */
  int show_mode, captures_output, uses_terminals;
  int asks, is_captured; /* whether lines need a reply: always, or because none was captured yet */
};
extern struct run run;
/* Connects to the server that this value of CAPTURE_RUN names. The value must stay valid. Returns -1 on failure. */
int connect_to_run(const char *value);
int is_connected(void);
/* send_request sends a message that gets a reply, and send_note one that gets none. Both may pass a descriptor, if it isn't -1. The
   body may be empty. On failure they disconnect and return -1. */
int send_request(const void *head, size_t head_size, const void *body, size_t body_size, int descriptor);
int send_note(const void *head, size_t head_size, const void *body, size_t body_size, int descriptor);
/* Like send_note, with a body of two parts and no descriptor. */
int send_note2(const void *head, size_t head_size, const void *body, size_t body_size, const void *more, size_t more_size);
/* Waits for the reply to a message other than HELLO, and returns its value. On failure disconnects and returns -1. */
int receive_reply(void);
/* Whether the server needs a reply to be awaited for each line. */
int server_asks(void);
void disconnect(void);
/* Signals are blocked from a message to its reply, because make's signal handlers may send messages too. */
uint64_t block_signals(void);
void restore_signals(uint64_t former);
void close_descriptor(int *descriptor);

/* recipe.c: $(redo-log-recipe TARGET,PREREQUISITES), which make expands once for each recipe */
char *announce_recipe(const char *function, unsigned count, char **arguments);
enum { MAX_KEPT = 4096 };
/* Moves the names of a recipe that are kept for the next message, and returns their size, which is at most MAX_KEPT. */
size_t take_names(char *to);
/* Forgets the last recipe if its names are kept: make has expanded the function for another child. */
void forget_recipe(void);

/* line.c: a line of a recipe, up to its start */

/* Returns the number of the recipe if this is the environment of a line of a recipe; otherwise 0 or -1. */
long recipe_number_of(char *const *environment);
/* Announces a line and passes the read end of its pipe. Returns the write end, or -1 if the line keeps its own outputs. */
int announce_line(uint32_t recipe, char *const *command);
void report_start(pid_t process);
void report_failure(void);
/* Whether a variable of the environment begins with `prefix`. */
int has_variable(char *const *environment, const char *prefix);
/* Returns the environment of a recipe: without the variables of the capture, and with those that its sub-makes need. If `recipe`
   is -1, it is the environment of another child. Returns NULL if memory can't be allocated. */
char **build_environment(char *const *environment, long recipe, int is_shell_function, int pipe);
/* Sets CAPTURE_RUN in make's own environment: for $(shell ..), whose children inherit it before 4.4, or for make itself. */
void set_own_variable(int is_shell_function);

/* failure.c: failures that make ignores */

void find_message_variables(void);
/* A line of a recipe is about to begin. */
void note_line(void);
/* A child has failed, or could not be started. */
void note_failure(int is_started);
/* Tells the server that make ignores all failures so far, unless there is none since the last call. */
void report_going_on(void);

/* spawn.c, exec.c, wait.c, failure.c: what make calls instead of the C library */
struct import {
  const char *name;
  void *replacement, *original;
};
extern struct import imports[];
enum import_number {
  POSIX_SPAWN, ACTIONS_INIT, ACTIONS_ADDDUP2, ACTIONS_DESTROY, VFORK, EXECVP, WAIT, WAITPID, WAIT3, WAIT4, EXIT, FPUTS, WRITE,
  SIGPROCMASK, IMPORT_COUNT
};
int hooked_spawn();
int hooked_actions_init();
int hooked_actions_adddup2();
int hooked_actions_destroy();
int hooked_execvp(const char *file, char *const *command);
pid_t hooked_wait(int *wait_status);
pid_t hooked_waitpid(pid_t process, int *wait_status, int options);
pid_t hooked_wait3(int *wait_status, int options, void *usage);
pid_t hooked_wait4(pid_t process, int *wait_status, int options, void *usage);
void hooked_exit(int status);
int hooked_fputs(const char *text, void *stream);
ssize_t hooked_write(int descriptor, const void *bytes, size_t size);
int hooked_sigprocmask(int how, const void *mask, void *former);
/* make's own variable: whether it has got a signal that ends it. NULL if make doesn't export it. */
extern volatile int *handling_fatal_signal;
/* The process that loaded the hook. A child of vfork has another number. */
extern pid_t make_pid;
pid_t current_pid(void);

/* imports.c: the import slots of make's own program */

/* Whether make imports this function. */
int is_imported(enum import_number number);
/* find_imports finds which functions make imports, and replace_imports replaces them. They return -1 if that isn't possible. */
int find_imports(void);
int replace_imports(void);
/* Returns a function of the C library by its name, or NULL. */
void *find_function(const char *name);

/* load.c */
extern const char *capture_def_path;
