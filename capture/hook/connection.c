/* The sockets to the server. */
#define _GNU_SOURCE
#include "hook.h"
#include "syscalls.h"
#include <errno.h>
#include <fcntl.h>
#include <linux/limits.h> /* with -ffreestanding, clang's limits.h has no PATH_MAX */
#include <signal.h>
#include <sys/socket.h>
#include <sys/stat.h>
#include <sys/un.h>
#include <time.h>

/* The hook's descriptors are not lower than this, so that make's own get the numbers that they would have without the hook. */
enum { MIN_DESCRIPTOR = 60 };
/* If too many descriptors are on their way to the server, how often it is tried again to pass one, after a millisecond each. */
enum { MAX_TRIES = 1000 };

struct run run;
static int connection = -1, notes = -1;

int is_connected(void) { return connection >= 0; }

void close_descriptor(int *descriptor) {
  if (*descriptor >= 0) SYSCALL(close, *descriptor, 0, 0, 0);
  *descriptor = -1;
}

uint64_t block_signals(void) {
  uint64_t all = ~0ul, former = 0;
  SYSCALL(rt_sigprocmask, SIG_SETMASK, &all, &former, sizeof all);
  return former;
}

void restore_signals(uint64_t former) { SYSCALL(rt_sigprocmask, SIG_SETMASK, &former, 0, sizeof former); }

void disconnect(void) {
  close_descriptor(&connection);
  close_descriptor(&notes);
}

/* Whether the message was not sent because too many descriptors are on their way. The server soon receives some. */
static int must_wait(long sent, int *tries_left) {
  struct timespec moment = {0, 1000000};
  if (sent != -ETOOMANYREFS || (*tries_left)-- == 0) return 0;
  SYSCALL(nanosleep, &moment, 0, 0, 0);
  return 1;
}

static int send_parts(int socket, struct iovec *parts, size_t count, int descriptor) {
  union {
    struct cmsghdr head;
    char room[CMSG_SPACE(sizeof(int))];
  } control;
  struct msghdr message = {.msg_iov = parts, .msg_iovlen = count};
  if (descriptor >= 0) {
    memset(&control, 0, sizeof control);
    control.head.cmsg_len = CMSG_LEN(sizeof(int)), control.head.cmsg_level = SOL_SOCKET, control.head.cmsg_type = SCM_RIGHTS;
    *(int *)CMSG_DATA(&control.head) = descriptor;
    message.msg_control = &control, message.msg_controllen = sizeof control;
  }
  int tries_left = MAX_TRIES;
  long sent;
  do sent = socket < 0 ? -EPIPE : SYSCALL(sendmsg, socket, &message, MSG_NOSIGNAL, 0);
  while (sent == -EINTR || must_wait(sent, &tries_left));
  if (sent < 0) disconnect();
  return sent < 0 ? -1 : 0;
}

static int send_message(int socket, const void *head, size_t head_size, const void *body, size_t body_size, int descriptor) {
  struct iovec parts[] = {{(void *)head, head_size}, {(void *)body, body_size}};
  return send_parts(socket, parts, 2, descriptor);
}

int send_request(const void *head, size_t head_size, const void *body, size_t body_size, int descriptor) {
  return send_message(connection, head, head_size, body, body_size, descriptor);
}

int send_note(const void *head, size_t head_size, const void *body, size_t body_size, int descriptor) {
  return send_message(notes, head, head_size, body, body_size, descriptor);
}

int send_note2(const void *head, size_t head_size, const void *body, size_t body_size, const void *more, size_t more_size) {
  struct iovec parts[] = {{(void *)head, head_size}, {(void *)body, body_size}, {(void *)more, more_size}};
  return send_parts(notes, parts, 3, -1);
}

/* Waits for what the server sends, and returns its size. On failure disconnects and returns -1. */
static long receive(void *bytes, size_t size) {
  long received;
  do received = connection < 0 ? 0 : syscall6(__NR_recvfrom, connection, (long)bytes, size, 0, 0, 0);
  while (received == -EINTR);
  if (received <= 0) disconnect();
  return received <= 0 ? -1 : received;
}

int receive_reply(void) {
  struct reply reply;
  for (;;) {
    if (receive(&reply, sizeof reply) != sizeof reply) return disconnect(), -1;
    if (reply.kind != ASK) return reply.value;
    run.asks = 1;
  }
}

int server_asks(void) {
  struct reply reply;
  if (!run.asks && connection >= 0 &&
      syscall6(__NR_recvfrom, connection, (long)&reply, sizeof reply, MSG_DONTWAIT, 0, 0) == sizeof reply)
    run.asks = reply.kind == ASK;
  return run.asks;
}

/* Whether an output of this make is redirected: it is not the output of the run, or of the recipe that runs this make. An output that
   is closed stays closed. */
static int is_redirected(int descriptor) {
  struct stat found;
  struct file_identity expected = run.variable.outputs[descriptor];
  if (SYSCALL(fstat, descriptor, &found, 0, 0) < 0) return 1;
  if (descriptor == 1) run.own_output = (struct file_identity){found.st_dev, found.st_ino};
  return found.st_dev != expected.device || found.st_ino != expected.inode;
}

static int move_descriptor(int descriptor) {
  int higher = SYSCALL(fcntl, descriptor, F_DUPFD_CLOEXEC, MIN_DESCRIPTOR, 0);
  if (higher < 0) return descriptor;
  close_descriptor(&descriptor);
  return higher;
}

static int open_socket(void) {
  struct sockaddr_un address = {.sun_family = AF_UNIX};
  size_t size = offsetof(struct sockaddr_un, sun_path) + 1 + run.variable.socket_name_size;
  memcpy(address.sun_path + 1, run.variable.socket_name, run.variable.socket_name_size);
  int opened = SYSCALL(socket, AF_UNIX, SOCK_SEQPACKET | SOCK_CLOEXEC, 0, 0);
  if (opened < 0) return -1;
  connection = move_descriptor(opened);
  struct ucred listener = {0};
  unsigned listener_size = sizeof listener;
  long error = SYSCALL(connect, connection, &address, size, 0);
  if (!error) error = syscall6(__NR_getsockopt, connection, SOL_SOCKET, SO_PEERCRED, (long)&listener, (long)&listener_size, 0);
  if (error || listener.uid != run.variable.user) disconnect();
  return connection < 0 ? -1 : 0;
}

/* Sends HELLO, and stores the server's reply. */
static int send_hello(void) {
  struct hello hello = {.kind = HELLO, .parent_make = run.variable.make, .parent_recipe = run.variable.recipe, .pid = make_pid,
                        .is_redirected = run.is_redirected[2], .is_in_shell_function = run.variable.is_in_shell_function};
  char directory[PATH_MAX];
  struct welcome welcome;
  long size = SYSCALL(getcwd, directory, sizeof directory, 0, 0);
  if (size <= 0 || directory[0] != '/') size = 1, directory[0] = 0;
  int pair[2];
  if (SYSCALL(socketpair, AF_UNIX, SOCK_SEQPACKET | SOCK_CLOEXEC, 0, pair) < 0) return disconnect(), -1;
  notes = move_descriptor(pair[0]);
  memcpy(hello.token, run.variable.token, TOKEN_SIZE);
  int error = send_request(&hello, sizeof hello, directory, size, pair[1]);
  close_descriptor(&pair[1]);
  if (error || receive(&welcome, sizeof welcome) != sizeof welcome) return disconnect(), -1;
  run.make = welcome.make, run.show_mode = welcome.show_mode, run.captures_output = welcome.captures_output, run.asks = welcome.asks;
  run.uses_terminals = welcome.uses_terminals;
  return 0;
}

int connect_to_run(const char *value) {
  if (parse_run_variable(value, &run.variable) < 0) return -1;
  for (int output = 1; output <= 2; output++) run.is_redirected[output] = is_redirected(output);
  return open_socket() < 0 ? -1 : send_hello();
}
