/* The messages of makes. They aren't trusted: an invalid one ends the connection.

   A sub-make's messages may arrive before the messages of the make that started it, so the server reads the parent's messages
   before a line of a sub-make begins, and the sub-make's before the parent's line ends. */
#define _GNU_SOURCE
#include "make.h"
#include <errno.h>
#include <fcntl.h>
#include <limits.h>
#include <stdlib.h>
#include <string.h>
#include <sys/socket.h>
#include <unistd.h>

/* In bytes: MAX_NAMES, the names of one recipe, and MAX_NAME, the name of one target. */
enum { MAX_NAMES = 256 << 20, MAX_NAME = 4096 };
/* How often it is tried to receive a message. */
enum { MAX_TRIES = 20 };
/* In milliseconds since 1970: the year 5138. */
#define MAX_TIME ((int64_t)100000000000000)

/* Replaces an invalid time by the current time, and an invalid process or amount by 0. */
static int64_t valid_time(int64_t time) { return time >= 0 && time < MAX_TIME ? time : wall_clock_ms(); }
static pid_t valid_process(pid_t process) { return process > 0 ? process : 0; }
static int64_t valid_amount(int64_t amount) { return amount >= 0 && amount < MAX_TIME ? amount : 0; }

static int handle_hello(struct make *make, const char *message, size_t size, int *notes) {
  struct hello hello;
  if (make->directory || *notes < 0 || size <= sizeof hello || message[size - 1] != 0) return -1;
  memcpy(&hello, message, sizeof hello);
  if (!is_run_token(hello.token)) return -1;
  make->parent_make = hello.parent_make, make->parent_recipe = hello.parent_recipe, make->process = valid_process(hello.pid);
  make->is_redirected = hello.is_redirected, make->is_in_shell_function = hello.is_in_shell_function;
  make->notes.fd = *notes, *notes = -1;
  if (watch_source(&make->notes) < 0) return -1;
  make->directory = xasprintf("%s", message + sizeof hello);
  receive_from_parent(make);
  add_sub_make(make);
  struct welcome welcome = {make->number, show_mode, captures_output, makes_are_asked(), uses_terminals};
  make->is_waiting = 0;
  return send_to_make(make, &welcome, sizeof welcome);
}

static int handle_names(struct make *make, const char *bytes, size_t size) {
  if (make->names_size + size > MAX_NAMES) return -1;
  make->names = xrealloc(make->names, make->names_size + size + 1);
  memcpy(make->names + make->names_size, bytes, size);
  make->names_size += size;
  make->names[make->names_size] = 0;
  return 0;
}

/* Adds the next recipe. These names follow those that NAMES has sent. */
static int add_recipe(struct make *make, const char *names, size_t size) {
  if (handle_names(make, names, size) < 0) return -1;
  make->recipes = grow_array(make->recipes, make->recipe_count, &make->recipe_capacity, sizeof *make->recipes);
  make->recipes[make->recipe_count++] = (struct recipe_entry){make->names, make->names_size, NULL, 0};
  make->names = NULL, make->names_size = 0;
  return 0;
}

static int handle_recipe(struct make *make, const char *message, size_t size) {
  struct recipe recipe;
  if (size < sizeof recipe) return -1;
  memcpy(&recipe, message, sizeof recipe);
  return recipe.number == make->recipe_count ? add_recipe(make, message + sizeof recipe, size - sizeof recipe) : -1;
}

/* Whether names of this size can follow the head of a message, if `left` bytes of it are left. */
static int are_valid_names(const struct make *make, size_t size, size_t left) { return size == 0 || (size <= left && !make->names); }

/* Whether this is the read end of a pipe, or of a terminal. */
static int is_pipe_reader(int descriptor) {
  if (descriptor >= 0 && fcntl(descriptor, F_GETPIPE_SZ) >= 0) return (fcntl(descriptor, F_GETFL) & O_ACCMODE) == O_RDONLY;
  return descriptor >= 0 && is_terminal(descriptor);
}

static void warn_no_terminal(void) {
  static int has_warned;
  if (!has_warned) warn("--colour: no terminal is left: some recipes get a pipe, and may print without colours");
  has_warned = 1;
}

/* Takes the read end of a pipe or terminal. Its output goes to standard error until a line starts. */
static struct pipe *take_pipe(int *descriptor) {
  if (uses_terminals && !is_terminal(*descriptor)) warn_no_terminal();
  struct pipe *pipe = new_pipe(*descriptor, &no_target);
  *descriptor = -1;
  return pipe;
}

/* Whether the recipe is captured. No record can mention a target whose name has a line feed. */
static int can_capture(struct make *make, struct recipe_entry *recipe, int is_lost) {
  if (!recipe || open_directory() < 0) return 0;
  if (is_lost) warn_too_many_files();
  const char *name = recipe->names ? normalize_name(make->directory, recipe->names, strlen(recipe->names)) : "";
  if (strlen(name) <= MAX_NAME && !strchr(name, '\n')) return 1;
  warn_once("a target whose name is longer than 4096 bytes, or has a line feed, is not captured");
  return 0;
}

/* Writes all buffers, and opens the logs that the recipe will need, because it may remove the directory. */
static void prepare_logs(struct make *make, uint32_t number) {
  struct recipe_entry *recipe = find_recipe(make, number);
  struct target *target = recipe ? recipe->target : NULL;
  if (recipe && recipe->names) target = add_target(normalize_name(make->directory, recipe->names, strlen(recipe->names)));
  int is_listed = target && (target->number > 0 || add_to_index(target) == 0);
  flush_captures();
  if (!is_listed) return;
  open_log(run_target);
  prepare_log(target);
}

static int handle_line(struct make *make, const char *message, size_t size, int *descriptor, int is_lost) {
  struct line_message line;
  if (size < sizeof line || make->announced.is_set) return -1;
  memcpy(&line, message, sizeof line);
  const char *names = message + sizeof line, *command = names + line.names_size;
  if (!are_valid_names(make, line.names_size, size - sizeof line)) return -1;
  if (is_short_of_descriptors(*descriptor) || is_lost) ask_makes();
  if (line.wants_reply && *descriptor >= 0 && is_among_last_descriptors(*descriptor)) close(*descriptor), *descriptor = -1, is_lost = 1;
  int is_pipe = is_pipe_reader(*descriptor);
  if (is_pipe && !line.wants_reply) make->announced.pipe = take_pipe(descriptor);
  if (line.names_size > 0) add_recipe(make, names, line.names_size);
  line.time = valid_time(line.time);
  check_removal_since(line.time);
  int is_captured = can_capture(make, find_recipe(make, line.recipe), is_lost);
  if (!is_captured && line.wants_reply) return reply(make, is_dropped() ? NEVER_CAPTURED : NOT_CAPTURED);
  if (is_pipe && line.wants_reply) make->announced.pipe = take_pipe(descriptor);
  make->announced.is_captured = is_captured, make->announced.recipe = line.recipe, make->announced.time = line.time;
  size -= sizeof line + line.names_size;
  make->announced.command = (struct command){memcpy(xrealloc(NULL, size), command, size), size};
  make->announced.is_set = 1;
  defer_reading();
  if (line.wants_reply) prepare_logs(make, line.recipe);
  return line.wants_reply ? reply(make, is_lost ? NOT_CAPTURED : CAPTURED) : 0;
}

static int handle_started(struct make *make, const char *message, size_t size) {
  struct started started;
  if (size < sizeof started) return -1;
  memcpy(&started, message, sizeof started);
  start_line(make, valid_process(started.pid));
  return 0;
}

/* Returns the recipe whose line make could not start. make starts the next line of a recipe when its last line has ended or could
   not be started, and the first line when it has announced the recipe. */
static uint32_t unstarted_recipe(struct make *make) {
  uint32_t latest = make->recipe_count - 1;
  if (make->announced.is_set) return make->announced.recipe;
  if (latest > 0 && !make->recipes[latest].has_begun) return latest;
  return make->ended_recipe ? make->ended_recipe : make->failed_recipe;
}

static int handle_failed(struct make *make, const char *message, size_t size) {
  struct failed failed;
  if (size < sizeof failed) return -1;
  memcpy(&failed, message, sizeof failed);
  if (!are_valid_names(make, failed.names_size, size - sizeof failed)) return -1;
  if (failed.names_size > 0) add_recipe(make, message + sizeof failed, failed.names_size);
  failed.time = valid_time(failed.time);
  uint32_t recipe = unstarted_recipe(make);
  struct command command = make->announced.command;
  if (make->announced.pipe) close_pipe(make->announced.pipe);
  clear_announcement(make);
  make->ended_recipe = 0, make->last_failure = NULL;
  if (recipe > make->failed_recipe) make->failed_recipe = recipe;
  check_removal();
  if (can_capture(make, find_recipe(make, recipe), 0)) {
    struct target *target = begin_recipe(make, recipe, failed.time, make->process);
    record_command(target, &command);
    fail_line(make, recipe, target, make->process, failed.time);
  }
  free(command.bytes);
  return 0;
}

static int handle_ended(struct make *make, const char *message, size_t size) {
  struct ended ended;
  if (size < sizeof ended) return -1;
  memcpy(&ended, message, sizeof ended);
  if (ended.stopping == MAYBE_STOPPING) handle_signals();
  int is_stopping = ended.stopping == STOPPING || (ended.stopping == MAYBE_STOPPING && stop_signal);
  struct usage usage = {valid_amount(ended.user_us), valid_amount(ended.system_us), valid_amount(ended.peak_kb)};
  struct line_end end = {ended.wait_status, is_stopping, valid_time(ended.time), usage};
  struct line *line = find_line(make, ended.pid);
  make->failed_recipe = 0, make->last_failure = NULL;
  if (line) {
    uint32_t recipe = make->ended_recipe = line->recipe;
    receive_from_sub_makes(make, recipe);
    end_line(line, end, ended.wants_reply && !make->is_redirected);
    if (ended.wait_status != 0) check_removal(); /* otherwise the next line does so */
  }
  return ended.wants_reply ? reply(make, CAPTURED) : 0;
}

static int handle_ignored(struct make *make, size_t size) {
  if (size < sizeof(struct ignored)) return -1;
  ignore_last_failure(make);
  return 0;
}

static int handle_went_on(struct make *make, size_t size) {
  if (size < sizeof(struct went_on)) return -1;
  ignore_failures(make);
  return 0;
}

static int handle_note(struct make *make, const char *note, size_t size, int *descriptor, int is_lost) {
  uint32_t kind;
  if (size < sizeof kind) return -1;
  memcpy(&kind, note, sizeof kind);
  switch (kind) {
    case NAMES: return handle_names(make, note + sizeof(struct names), size - sizeof(struct names));
    case RECIPE: return handle_recipe(make, note, size);
    case LINE: return handle_line(make, note, size, descriptor, is_lost);
    case STARTED: return handle_started(make, note, size);
    case FAILED: return handle_failed(make, note, size);
    case ENDED: return handle_ended(make, note, size);
    case IGNORED: return handle_ignored(make, size);
    case WENT_ON: return handle_went_on(make, size);
    default: return -1;
  }
}

/* Handles a message that needs a reply. */
static int handle_request(struct make *make, const char *message, size_t size, int *descriptor, int is_lost) {
  uint32_t kind;
  if (size < sizeof kind) return -1;
  memcpy(&kind, message, sizeof kind);
  make->is_waiting = 1;
  if (kind == HELLO) return handle_hello(make, message, size, descriptor);
  if (!make->directory || (kind != LINE && kind != ENDED)) return -1;
  return handle_note(make, message, size, descriptor, is_lost);
}

/* When memory has run out, nothing more is captured, but all makes that wait for a reply get one, and what recipes print is passed
   on. */
static int reject_request(struct make *make) {
  if (!make->directory) return -1;
  forward_pipes();
  return reply(make, NOT_CAPTURED);
}

static void forward_note(int *descriptor) {
  if (is_pipe_reader(*descriptor)) take_pipe(descriptor);
}

/* Returns the size of a message; 0 if there is none now; -1 if the sender is gone or the message is too long. An error doesn't mean
   that no message is left: if a make dies without reading a reply, the kernel reports ECONNRESET first. */
static ssize_t receive(int socket, struct msghdr *message) {
  ssize_t size = -1;
  size_t control_size = message->msg_controllen;
  for (int tries = 0; tries < MAX_TRIES && size < 0; tries++) {
    message->msg_controllen = control_size;
    size = recvmsg(socket, message, MSG_DONTWAIT | MSG_CMSG_CLOEXEC);
    if (size < 0 && errno == EAGAIN) return 0;
  }
  return size <= 0 || (message->msg_flags & MSG_TRUNC) ? -1 : size;
}

static char bytes[sizeof(struct hello) + PATH_MAX + MAX_BODY];

/* Returns the descriptor that a message passes, or -1. Closes a second one. */
static int received_descriptor(struct msghdr *message) {
  int descriptors[2], received = -1;
  struct cmsghdr *head = CMSG_FIRSTHDR(message);
  if (!head || head->cmsg_level != SOL_SOCKET || head->cmsg_type != SCM_RIGHTS) return -1;
  size_t count = (head->cmsg_len - CMSG_LEN(0)) / sizeof(int);
  memcpy(descriptors, CMSG_DATA(head), count < 2 ? count * sizeof(int) : sizeof descriptors);
  if (count > 0) received = descriptors[0];
  if (count > 1) close(descriptors[1]);
  return received;
}

enum receive_result { NONE, HANDLED, GONE, INVALID }; /* GONE: the sender */

static enum receive_result receive_one(struct make *make, int socket, int is_request) {
  union {
    struct cmsghdr head;
    char room[CMSG_SPACE(sizeof(int))];
  } control;
  struct iovec part = {bytes, sizeof bytes};
  struct msghdr message = {.msg_iov = &part, .msg_iovlen = 1, .msg_control = &control, .msg_controllen = sizeof control};
  ssize_t size = receive(socket, &message);
  if (size <= 0) return size == 0 ? NONE : GONE;
  int descriptor = received_descriptor(&message), is_lost = message.msg_flags & MSG_CTRUNC, error = 0;
  if (is_out_of_memory && is_request) error = reject_request(make);
  else if (is_out_of_memory) forward_note(&descriptor);
  else if (is_request) error = handle_request(make, bytes, size, &descriptor, is_lost);
  else error = handle_note(make, bytes, size, &descriptor, is_lost);
  if (descriptor >= 0) close(descriptor);
  return error ? INVALID : HANDLED;
}

int receive_note(struct make *make) {
  enum receive_result result = make->notes.fd >= 0 ? receive_one(make, make->notes.fd, 0) : NONE;
  if (result == GONE) close_source(&make->notes); /* a request may be left */
  if (result == INVALID) disconnect_make(make);
  return result == HANDLED;
}

void receive_notes(struct make *make) {
  while (receive_note(make)) continue;
}

void receive_from_make(struct make *make) {
  receive_notes(make);
  if (make->source.fd >= 0 && receive_one(make, make->source.fd, 1) > HANDLED) disconnect_make(make);
}
