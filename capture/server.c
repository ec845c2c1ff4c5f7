/* The loop that serves the build: signals, makes, and the pipes of recipes. */
#define _GNU_SOURCE
#include "capture.h"
#include "run_variable.h"
#include <errno.h>
#include <setjmp.h>
#include <stdlib.h>
#include <string.h>
#include <sys/epoll.h>
#include <sys/resource.h>
#include <sys/socket.h>
#include <sys/stat.h>
#include <sys/un.h>
#include <fcntl.h>
#include <unistd.h>

/* Once a line was announced, or fewer than SMALL_READ bytes were read, messages that need no reply, and pipes, are read DEFER_MS
   milliseconds later. Short lines, and recipes that print a little at a time, then wake the server less often. */
enum { SMALL_READ = 16384, DEFER_MS = 2, MAX_EVENTS = 64 };
/* While lines are announced, buffers are written when reading has been deferred FLUSH_ROUNDS times. Most short recipes have ended
   by then, and cost one write. */
enum { FLUSH_ROUNDS = 4 };
/* If fewer descriptors than this are left, or fewer than a quarter of them, makes wait for a reply to each line. */
enum { MIN_LEFT = 1024, MAX_OPEN_LOGS = 16384, RESERVED_FOR_FILES = 4 };

int is_out_of_memory;

/* Sources that may be read later belong to deferred_poller. The other poller polls it, except while reading is deferred. */
static int poller = -1, deferred_poller = -1, spare_fd = -1, accepted_fd = -1;
static struct source signals = {SIGNALS, -1}, listener = {LISTENER, -1}, deferred = {DEFERRED, -1};
static int64_t defer_until;
static char token[TOKEN_SIZE + 1], socket_name[MAX_SOCKET_NAME];
static jmp_buf oom_jump;
static rlim_t descriptor_limit;

int watch_source(struct source *source) {
  struct epoll_event event = {.events = EPOLLIN, .data.ptr = source};
  return epoll_ctl(source->kind > DEFERRED ? deferred_poller : poller, EPOLL_CTL_ADD, source->fd, &event);
}

void close_unwatched(struct source *source) {
  if (source->fd >= 0) close(source->fd);
  source->fd = -1;
}

/* Closing a descriptor doesn't end its events if its sender has passed it twice. */
void close_source(struct source *source) {
  if (source->fd < 0) return;
  epoll_ctl(source->kind > DEFERRED ? deferred_poller : poller, EPOLL_CTL_DEL, source->fd, NULL);
  close_unwatched(source);
}

size_t max_open_logs(void) {
  if (descriptor_limit < 4 * MIN_LEFT) return 0;
  return descriptor_limit / 4 < MAX_OPEN_LOGS ? descriptor_limit / 4 : MAX_OPEN_LOGS;
}

/* Descriptors get the lowest unused numbers. */
int is_short_of_descriptors(int latest) {
  return (rlim_t)latest + (descriptor_limit / 4 < MIN_LEFT ? descriptor_limit / 4 : MIN_LEFT) >= descriptor_limit && latest >= 0;
}

int is_among_last_descriptors(int latest) { return (rlim_t)latest + RESERVED_FOR_FILES >= descriptor_limit; }

int is_run_token(const char *bytes) { return memcmp(bytes, token, TOKEN_SIZE) == 0; }

void listen_for_makes(void) {
  struct sockaddr_un address = {.sun_family = AF_UNIX};
  char suffix[17];
  random_hex(token, TOKEN_SIZE);
  random_hex(suffix, 16);
  snprintf(socket_name, sizeof socket_name, "redo-log-capture.%d.%s", (int)getpid(), suffix);
  strcpy(address.sun_path + 1, socket_name);
  socklen_t size = offsetof(struct sockaddr_un, sun_path) + 1 + strlen(socket_name);
  poller = epoll_create1(EPOLL_CLOEXEC), deferred.fd = deferred_poller = epoll_create1(EPOLL_CLOEXEC);
  listener.fd = socket(AF_UNIX, SOCK_SEQPACKET | SOCK_CLOEXEC | SOCK_NONBLOCK, 0);
  signals.fd = open_signal_fd(), spare_fd = open("/", O_RDONLY | O_CLOEXEC);
  if (bind(listener.fd, (struct sockaddr *)&address, size) < 0 || listen(listener.fd, 1024) < 0 || watch_source(&signals) < 0 ||
      watch_source(&listener) < 0 || watch_source(&deferred) < 0)
    die(1, "cannot listen for makes: %s", strerror(errno));
  struct rlimit limit;
  descriptor_limit = getrlimit(RLIMIT_NOFILE, &limit) == 0 ? limit.rlim_cur : 0;
  if (descriptor_limit < MIN_LEFT) ask_makes();
}

/* Returns 0.0 if the output was closed when this program began. */
static struct file_identity identify_output(int descriptor) {
  struct stat found;
  if ((fcntl(descriptor, F_GETFD) & FD_CLOEXEC) || fstat(descriptor, &found) < 0) return (struct file_identity){0, 0};
  return (struct file_identity){found.st_dev, found.st_ino};
}

void set_run_variable(const struct run_variable *run) {
  char value[max_run_variable_size(run)];
  append_run_variable(value, run);
  setenv(RUN_VARIABLE, value, 1);
}

void export_run(void) {
  struct run_variable run = {.socket_name = socket_name, .socket_name_size = strlen(socket_name), .token = token, .user = geteuid(),
                             .outputs = {[1] = identify_output(1), [2] = identify_output(2)}, .directory = directory_path};
  set_run_variable(&run);
}

static void set_defer_until(int64_t end) {
  struct epoll_event event = {.events = end ? 0 : EPOLLIN, .data.ptr = &deferred};
  if (!defer_until != !end) epoll_ctl(poller, EPOLL_CTL_MOD, deferred_poller, &event);
  defer_until = end;
}

void defer_reading(void) {
  if (!defer_until) set_defer_until(monotonic_ms() + DEFER_MS);
}

static void serve_deferred(void) {
  struct epoll_event events[MAX_EVENTS];
  int count = epoll_wait(deferred_poller, events, MAX_EVENTS, 0);
  size_t size = 0;
  if (is_out_of_memory) forward_pipes();
  for (int i = 0; i < count; i++) {
    struct source *source = events[i].data.ptr;
    if (source->kind == PIPE) size += read_pipe((struct pipe *)source);
    else if (source->fd >= 0) receive_notes(make_from_notes(source));
  }
  if (size > 0 && size < SMALL_READ) defer_reading();
}

void warn_too_many_files(void) { warn_once("too many open files: what some recipes print is not captured"); }

/* If there are too many open files, closes a spare one, and uses its descriptor to accept a connection and close it, so that
   no make waits for a connection. */
static void reject_make(void) {
  close(spare_fd);
  int file = accept4(listener.fd, NULL, NULL, SOCK_CLOEXEC);
  if (file >= 0) close(file);
  spare_fd = open("/", O_RDONLY | O_CLOEXEC);
  warn_too_many_files();
}

static void accept_makes(void) {
  size_t max_pending = descriptor_limit / 8;
  for (;;) {
    int file = accept4(listener.fd, NULL, NULL, SOCK_CLOEXEC);
    if (file < 0 && (errno == EMFILE || errno == ENFILE) && drop_pending_make()) continue;
    if (file < 0) break;
    if (is_among_last_descriptors(file + 1) && !drop_pending_make()) { /* the make would pass another one */
      close(file);
      warn_too_many_files();
      continue;
    }
    accepted_fd = file;
    if (is_out_of_memory || !accept_make(file)) close(file);
    accepted_fd = -1;
    if (file > (int)max_pending && count_pending_makes() > max_pending) drop_pending_make();
  }
  if (errno == EMFILE || errno == ENFILE) reject_make();
}

static void serve_source(struct source *source) {
  if (source->kind == SIGNALS) handle_signals();
  if (source->kind == LISTENER) accept_makes();
  if (source->kind == DEFERRED) serve_deferred();
  if (source->kind == MAKE && source->fd >= 0) receive_from_make((struct make *)source);
}

void flush_captures(void) {
  flush_index();
  int can_begin = flush_begun_targets() == 0;
  flush_begun_facts();
  flush_logs(can_begin);
  flush_journal();
  flush_facts();
}

/* Waits for events, at most `max_wait` milliseconds or forever if that is -1, and handles them. Returns their number. */
static int serve(int max_wait) {
  static int rounds; /* how often a deferral has ended since the last flush */
  struct epoll_event events[MAX_EVENTS];
  int flush_wait = is_out_of_memory ? -1 : flush_idle_pipes(), timeout = max_wait, has_deferral_ended = 0;
  if (!defer_until) watch_pipes(0);
  if (!defer_until || rounds >= FLUSH_ROUNDS) flush_captures(), rounds = 0;
  if (flush_wait >= 0 && (timeout < 0 || flush_wait < timeout)) timeout = flush_wait;
  print_progress();
  int progress_wait = progress_wait_ms();
  if (progress_wait >= 0 && (timeout < 0 || progress_wait < timeout)) timeout = progress_wait;
  if (defer_until) {
    int64_t left = defer_until - monotonic_ms();
    if (left <= 0) set_defer_until(0), timeout = 0, has_deferral_ended = 1;
    else if (timeout < 0 || left < timeout) timeout = left;
  }
  if (has_command_ended()) timeout = 0; /* its signal has been read, perhaps just now */
  int count = epoll_wait(poller, events, MAX_EVENTS, timeout);
  for (int i = 0; i < count; i++) serve_source(events[i].data.ptr);
  if (has_deferral_ended) watch_pipes(1), rounds++;
  free_closed_pipes();
  return count;
}

static void abandon_step(void) {
  oom_handler = NULL;
  is_out_of_memory = 1;
  longjmp(oom_jump, 1);
}

int try_step(void (*step)(void)) {
  oom_handler = abandon_step;
  if (setjmp(oom_jump)) return -1;
  step();
  oom_handler = NULL;
  return 0;
}

static void serve_until_end(void) {
  while (!has_command_ended()) serve(-1);
}

/* Handles the messages that makes sent before they ended. Doesn't read pipes, because a background process may write forever. */
static void serve_what_is_left(void) {
  set_defer_until(INT64_MAX);
  while (serve(0) > 0) continue;
  receive_last_notes();
}

/* Performs a step. If memory runs out, performs it again without captures: what recipes print is then passed on. */
static void serve_step(void (*step)(void)) {
  if (!is_out_of_memory) {
    if (try_step(step) == 0) return;
    warn("out of memory: the rest of this build is not captured");
    if (accepted_fd >= 0) close(accepted_fd);
    accepted_fd = -1;
    flush_captures();
    reply_to_all();
  }
  step();
}

void serve_command(void) {
  serve_step(serve_until_end);
  serve_step(serve_what_is_left);
  if (is_out_of_memory || try_step(flush_pipes) < 0) forward_pipes();
  flush_captures();
  close(listener.fd);
  listener.fd = -1;
}
