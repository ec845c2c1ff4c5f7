/* The output of recipes. It arrives through pipes, and is written to the logs in whole lines, so that processes that write at the
   same time don't mix their lines.

   Recipes write into a pipe, because a recipe that reopens a log (`>/dev/stderr`) would truncate it. Redirected output is not
   captured: somebody waits for it elsewhere, and writing it twice would change its order. */
#define _GNU_SOURCE
#include "capture.h"
#include "terminal.h"
#include <poll.h>
#include <signal.h>
#include <stdlib.h>
#include <string.h>
#include <unistd.h>

/* In bytes: CHUNK, the maximum of one read, and more than a terminal contains; and MAX_HELD, the longest unended line that is held
   back. In milliseconds: FLUSH_MS, how long an unended line is held back if nothing follows; and how long to wait for more output of a
   failed recipe: POLL_MS, if nothing arrives, and DRAIN_MS, in all. */
enum { CHUNK = 65536, MAX_HELD = 64 << 20, FLUSH_MS = 200, POLL_MS = 20, DRAIN_MS = 100 };

struct pipe {
  struct source source;
  int is_terminal;
  int is_started, is_watched, is_old, is_spare; /* is_old: watch_pipes has seen it; is_spare: it is one of spare_pipes */
  struct target *target;
  char *held; /* the unended line */
  size_t held_size, held_capacity;
  int64_t last_read;
  struct pipe *next, **link;
};

/* Used once memory has run out: makes may have passed pipes already. */
enum { SPARE_PIPES = 256 };
static struct pipe spare_pipes[SPARE_PIPES];
static int spare_count;

static struct pipe *pipes, *closed_pipes;
static int has_unwatched; /* whether a pipe was started that the loop doesn't wait for yet */

int uses_terminals;
static int is_resized; /* whether the size of the window has changed */

int is_terminal(int descriptor) {
  unsigned number;
  return uses_terminals && ioctl(descriptor, TIOCGPTN, &number) == 0;
}

static void resize_terminal(const struct pipe *pipe) {
  struct winsize size;
  if (pipe->is_terminal && pipe->source.fd >= 0 && find_window_size(&size) == 0) ioctl(pipe->source.fd, TIOCSWINSZ, &size);
}

void resize_terminals(void) {
  is_resized = 1;
  for (struct pipe *pipe = pipes; pipe; pipe = pipe->next) resize_terminal(pipe);
}

/* Copies to standard error what a pipe contains until nobody can write to it. */
static void copy_until_end(int descriptor) {
  static char bytes[CHUNK];
  ssize_t size;
  while ((size = read(descriptor, bytes, sizeof bytes)) > 0 || (size < 0 && errno == EINTR))
    if (size > 0) write_all(2, bytes, size);
  close(descriptor);
}

struct pipe *new_pipe(int descriptor, struct target *target) {
  struct pipe *pipe = malloc(sizeof *pipe);
  int is_spare = !pipe;
  if (is_spare && spare_count == SPARE_PIPES) return copy_until_end(descriptor), NULL;
  if (is_spare) pipe = &spare_pipes[spare_count++];
  *pipe = (struct pipe){.source = {PIPE, descriptor}, .is_terminal = is_terminal(descriptor), .is_spare = is_spare, .target = target,
                        .next = pipes, .link = &pipes};
  fcntl(descriptor, F_SETFL, O_NONBLOCK);
  if (is_resized) resize_terminal(pipe);
  if (pipes) pipes->link = &pipe->next;
  pipes = pipe;
  return pipe;
}

void start_pipe(struct pipe *pipe, struct target *target) {
  pipe->target = target;
  pipe->is_started = has_unwatched = 1;
}

/* A pipe of a short recipe has ended when only old pipes are watched. */
void watch_pipes(int only_old) {
  if (!has_unwatched) return;
  has_unwatched = 0;
  for (struct pipe *pipe = pipes; pipe; pipe = pipe->next) {
    if (!pipe->is_started || pipe->is_watched) continue;
    if (only_old && !pipe->is_old) pipe->is_old = has_unwatched = 1;
    else pipe->is_watched = watch_source(&pipe->source) == 0;
  }
}

/* The pipe is freed later, because the loop may still have an event for it. */
void close_pipe(struct pipe *pipe) {
  for (struct line *line = lines; line; line = line->next)
    if (line->pipe == pipe) line->pipe = NULL;
  if (pipe->target->log.mid_line_pipe == pipe) pipe->target->log.mid_line_pipe = NULL;
  if (pipe->is_watched) close_source(&pipe->source);
  else close_unwatched(&pipe->source);
  *pipe->link = pipe->next;
  if (pipe->next) pipe->next->link = pipe->link;
  pipe->next = closed_pipes;
  closed_pipes = pipe;
}

void free_closed_pipes(void) {
  for (struct pipe *next; closed_pipes; closed_pipes = next) {
    next = closed_pipes->next;
    free(closed_pipes->held);
    if (!closed_pipes->is_spare) free(closed_pipes);
  }
}

void flush_pipe(struct pipe *pipe) {
  append_text(pipe->target, pipe->held, pipe->held_size, pipe);
  pipe->held_size = 0;
}

static void hold_back(struct pipe *pipe, const char *bytes, size_t size) {
  if (pipe->held_size + size > pipe->held_capacity) {
    size_t capacity = 2 * (pipe->held_size + size);
    char *larger = realloc(pipe->held, capacity);
    if (!larger) { /* out of memory: write the unended line */
      flush_pipe(pipe);
      return append_text(pipe->target, bytes, size, pipe);
    }
    pipe->held = larger, pipe->held_capacity = capacity;
  }
  memcpy(pipe->held + pipe->held_size, bytes, size);
  pipe->held_size += size;
  if (pipe->held_size >= MAX_HELD) flush_pipe(pipe);
}

static void add_output(struct pipe *pipe, const char *bytes, size_t size) {
  const char *newline = memrchr(bytes, '\n', size);
  size_t complete = newline ? newline + 1 - bytes : 0;
  pipe->last_read = monotonic_ms();
  for (struct line *line = lines; line; line = line->next) line->has_printed |= line->pipe == pipe;
  if (complete > 0 && pipe->held_size > 0) {
    hold_back(pipe, bytes, complete);
    flush_pipe(pipe);
  } else {
    append_text(pipe->target, bytes, complete, pipe);
  }
  if (complete < size) hold_back(pipe, bytes + complete, size - complete);
}

/* Reads at most CHUNK bytes. Returns their number; 0 at the end of input; -1 if there is nothing now. A terminal passes on at most 4 KiB
   at once, and reports an error at the end of input, after all that was written. */
static ssize_t read_bytes(const struct pipe *pipe, char *bytes) {
  ssize_t size, total = 0;
  do {
    while ((size = read(pipe->source.fd, bytes + total, CHUNK - total)) < 0 && errno == EINTR) continue;
    if (size > 0) total += size;
  } while (pipe->is_terminal && size > 0 && total < CHUNK);
  if (total > 0) return total;
  return size < 0 && errno != EAGAIN ? 0 : size;
}

/* Reads once, as read_bytes does. */
static ssize_t read_once(struct pipe *pipe) {
  static char bytes[CHUNK];
  ssize_t size = read_bytes(pipe, bytes);
  if (size > 0) add_output(pipe, bytes, size);
  return size;
}

static void end_pipe(struct pipe *pipe) {
  flush_pipe(pipe);
  close_pipe(pipe);
}

size_t read_pipe(struct pipe *pipe) {
  ssize_t size = pipe->source.fd < 0 ? -1 : read_once(pipe);
  if (size == 0) end_pipe(pipe);
  return size > 0 ? size : 0;
}

/* Returns the number of bytes that a pipe contains now, or more for a terminal, which doesn't count what it will pass on next. */
static int waiting_bytes(const struct pipe *pipe) {
  int size = 0;
  if (pipe->is_terminal) return CHUNK;
  return ioctl(pipe->source.fd, FIONREAD, &size) < 0 ? 0 : size;
}

/* Reads no more than the pipe contains now, because a background process may write forever. With `waits_for_more`, a background
   process that is about to end, such as a filter of standard error, gets the time to do so. */
int drain_pipe(struct pipe *pipe, int waits_for_more) {
  ssize_t size = 1;
  for (int left = waiting_bytes(pipe); left >= 0 && size > 0; left -= size) size = read_once(pipe);
  for (int64_t end = monotonic_ms() + DRAIN_MS; waits_for_more && size != 0 && monotonic_ms() < end;) {
    struct pollfd more = {pipe->source.fd, POLLIN, 0};
    if (poll(&more, 1, POLL_MS) <= 0) break;
    size = read_once(pipe);
  }
  if (size == 0) end_pipe(pipe);
  return size == 0;
}

int flush_idle_pipes(void) {
  int64_t time = 0, earliest = -1;
  for (struct pipe *pipe = pipes; pipe; pipe = pipe->next) {
    if (pipe->held_size == 0) continue;
    if (!time) time = monotonic_ms();
    int64_t left = pipe->last_read + FLUSH_MS - time;
    if (left <= 0) flush_pipe(pipe);
    else if (earliest < 0 || left < earliest) earliest = left;
  }
  return earliest;
}

void flush_pipes(void) {
  for (struct pipe *pipe = pipes, *next; pipe; pipe = next) {
    next = pipe->next;
    if (drain_pipe(pipe, 0)) continue;
    flush_pipe(pipe);
  }
}

void forward_pipes(void) {
  static char bytes[CHUNK];
  for (struct pipe *pipe = pipes; pipe; pipe = pipe->next) {
    ssize_t size = 1;
    if (!pipe->is_watched) pipe->is_watched = watch_source(&pipe->source) == 0;
    if (pipe->held_size > 0) write_all(2, pipe->held, pipe->held_size);
    pipe->held_size = 0;
    for (int left = waiting_bytes(pipe); left >= 0 && size > 0; left -= size) {
      size = read_bytes(pipe, bytes);
      if (size > 0) write_all(2, bytes, size);
    }
    if (size == 0) close_source(&pipe->source);
  }
}

/* Whether a process may still write, as the last read found. */
static int may_continue(ssize_t size) { return size > 0 || (size < 0 && (errno == EAGAIN || errno == EINTR)); }

/* Reads and discards until no process can write any more. */
static void discard_until_closed(struct pollfd *files, size_t count) {
  static char bytes[CHUNK];
  for (size_t open = count; open > 0;) {
    poll(files, count, -1);
    for (size_t i = 0; i < count; i++) {
      if (files[i].fd < 0 || !files[i].revents || may_continue(read(files[i].fd, bytes, sizeof bytes))) continue;
      close(files[i].fd);
      files[i].fd = -1, open--;
    }
  }
}

static int compare_descriptors(const void *left, const void *right) {
  return ((const struct pollfd *)left)->fd - ((const struct pollfd *)right)->fd;
}

/* Closes all descriptors except these. Others were inherited too: somebody may wait until nobody has them. */
static void close_others(struct pollfd *files, size_t count) {
  unsigned first = 0;
  qsort(files, count, sizeof *files, compare_descriptors);
  for (size_t i = 0; i < count; first = files[i++].fd + 1)
    if ((unsigned)files[i].fd > first) close_range_of_descriptors(first, files[i].fd - 1);
  close_range_of_descriptors(first, ~0u);
}

/* Starts a process that reads what background processes print until they end, so that they get no SIGPIPE after the build. Returns when
   that process has left the current directory, and has closed all other descriptors. */
void drain_in_background(void) {
  size_t count = 0;
  int ready[2];
  char byte;
  for (struct pipe *pipe = pipes; pipe; pipe = pipe->next) count += pipe->source.fd >= 0;
  struct pollfd *files = count ? calloc(count, sizeof *files) : NULL, *file = files;
  if (!files || pipe2(ready, O_CLOEXEC) < 0) return;
  pid_t process = fork();
  if (process != 0) {
    close(ready[1]);
    while (process > 0 && read(ready[0], &byte, 1) < 0 && errno == EINTR) continue;
    return;
  }
  sigset_t all;
  sigfillset(&all);
  sigprocmask(SIG_BLOCK, &all, NULL);
  setsid();
  if (chdir("/") < 0) _exit(0);
  for (struct pipe *pipe = pipes; pipe; pipe = pipe->next)
    if (pipe->source.fd >= 0) *file++ = (struct pollfd){pipe->source.fd, POLLIN, 0};
  close_others(files, count);
  discard_until_closed(files, count);
  _exit(0);
}
