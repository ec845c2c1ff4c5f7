/* redo-log-capture --recipe: captures one command of a tool that can't load the hook, such as ninja. It reports to the server what
   the hook would report, and waits for the command. CAPTURE has the target, a colon between two spaces, and the prerequisites. */
#define _GNU_SOURCE
#include "capture.h"
#include "run_variable.h"
#include "terminal.h"
#include <signal.h>
#include <stdlib.h>
#include <string.h>
#include <sys/resource.h>
#include <sys/socket.h>
#include <sys/stat.h>
#include <sys/un.h>
#include <sys/wait.h>
#include <unistd.h>

static int run_socket = -1, notes_socket = -1;
static struct welcome welcome;
static struct run_variable run;

static int send_message(int socket, const void *head, size_t head_size, const void *body, size_t body_size, int descriptor) {
  struct iovec parts[] = {{(void *)head, head_size}, {(void *)body, body_size}};
  union {
    struct cmsghdr head;
    char room[CMSG_SPACE(sizeof(int))];
  } control = {{.cmsg_len = CMSG_LEN(sizeof(int)), .cmsg_level = SOL_SOCKET, .cmsg_type = SCM_RIGHTS}};
  struct msghdr message = {.msg_iov = parts, .msg_iovlen = 2};
  if (descriptor >= 0) {
    memcpy(CMSG_DATA(&control.head), &descriptor, sizeof descriptor);
    message.msg_control = &control, message.msg_controllen = sizeof control;
  }
  ssize_t sent;
  while ((sent = sendmsg(socket, &message, MSG_NOSIGNAL)) < 0 && errno == EINTR) continue;
  return sent < 0 ? -1 : 0;
}

static ssize_t receive(void *bytes, size_t size) {
  ssize_t received;
  while ((received = recv(run_socket, bytes, size, 0)) < 0 && errno == EINTR) continue;
  return received;
}

/* Waits for the reply to a message. Returns -1 on failure. */
static int receive_reply(void) {
  struct reply reply;
  do
    if (receive(&reply, sizeof reply) != sizeof reply) return -1;
  while (reply.kind == ASK);
  return reply.value;
}

/* Parses CAPTURE_RUN. Returns -1 if it is not set, or invalid. */
static int find_run(void) {
  const char *value = getenv(RUN_VARIABLE);
  return value ? parse_run_variable(value, &run) : -1;
}

/* Returns a socket that is connected to the server. Returns -1 and sets errno on failure. */
static int connect_to_server(void) {
  struct sockaddr_un listener = {.sun_family = AF_UNIX};
  memcpy(listener.sun_path + 1, run.socket_name, run.socket_name_size);
  socklen_t size = offsetof(struct sockaddr_un, sun_path) + 1 + run.socket_name_size;
  int file = socket(AF_UNIX, SOCK_SEQPACKET | SOCK_CLOEXEC, 0);
  if (file < 0 || connect(file, (struct sockaddr *)&listener, size) == 0) return file;
  int error = errno;
  close(file);
  errno = error;
  return -1;
}

int is_within_run(void) {
  if (find_run() < 0 || !is_same_directory(run.directory, directory_path)) return 0;
  int file = connect_to_server();
  if (file >= 0) close(file);
  return file >= 0 || errno != ECONNREFUSED;
}

static int connect_to_run(void) {
  const char *working_directory = getcwd(NULL, 0);
  struct ucred other = {0};
  socklen_t other_size = sizeof other;
  if (find_run() < 0 || !working_directory) return -1;
  struct hello hello = {.kind = HELLO, .parent_make = run.make, .parent_recipe = run.recipe, .pid = getpid(),
                        .is_in_shell_function = run.is_in_shell_function};
  memcpy(hello.token, run.token, TOKEN_SIZE);
  run_socket = connect_to_server();
  if (run_socket < 0) return -1;
  if (getsockopt(run_socket, SOL_SOCKET, SO_PEERCRED, &other, &other_size) < 0 || other.uid != run.user) return -1;
  int pair[2];
  if (socketpair(AF_UNIX, SOCK_SEQPACKET | SOCK_CLOEXEC, 0, pair) < 0) return -1;
  notes_socket = pair[0];
  if (send_message(run_socket, &hello, sizeof hello, working_directory, strlen(working_directory) + 1, pair[1]) < 0) return -1;
  close(pair[1]);
  return receive(&welcome, sizeof welcome) == sizeof welcome ? 0 : -1;
}

/* Announces the target and the command. Returns the write end of the pipe or terminal, or -1 if nothing is captured. */
static int announce_command(const char *target, const char *prerequisites, char **command) {
  struct names names = {NAMES};
  struct recipe recipe = {RECIPE, 1};
  struct line_message line = {LINE, 1, wall_clock_ms(), 1, 0};
  char *words;
  size_t size, left = strlen(prerequisites);
  int pair[2];
  if (strlen(target) >= MAX_BODY) return -1;
  if ((!welcome.uses_terminals || open_terminal(pair) < 0) && pipe2(pair, O_CLOEXEC) < 0) return -1;
  FILE *stream = xopen_memstream(&words, &size);
  for (char **word = command; *word; word++) fwrite(*word, 1, strlen(*word) + 1, stream);
  xclose_memstream(stream);
  int error = send_message(notes_socket, &names, sizeof names, target, strlen(target) + 1, -1);
  for (; !error && left > MAX_BODY; prerequisites += MAX_BODY, left -= MAX_BODY)
    error = send_message(notes_socket, &names, sizeof names, prerequisites, MAX_BODY, -1);
  if (!error) error = send_message(notes_socket, &recipe, sizeof recipe, prerequisites, left, -1);
  if (size > MAX_BODY) size = words[MAX_BODY - 1] ? MAX_BODY : MAX_BODY - 1; /* without the last NUL */
  if (!error) error = send_message(run_socket, &line, sizeof line, words, size, pair[0]);
  int reply = error ? -1 : receive_reply();
  close(pair[0]);
  if (reply == CAPTURED) return pair[1];
  close(pair[1]);
  return -1;
}

/* Sets CAPTURE_RUN for makes that the command runs. */
static void export_command_run(int pipe) {
  struct stat found;
  fstat(pipe, &found);
  run.make = welcome.make, run.recipe = 1, run.is_in_shell_function = 0;
  run.outputs[2] = (struct file_identity){found.st_dev, found.st_ino};
  if (welcome.captures_output) run.outputs[1] = run.outputs[2];
  set_run_variable(&run);
}

/* Starts the command. A message that it can't be run is output of the recipe. If no process can be created, this one becomes the command,
   and nobody reports its end. */
static pid_t fork_command(char **command, int pipe, const sigset_t *former_mask, void (*former_handler)(int)) {
  pid_t process = fork();
  if (process > 0) return process;
  dup2(pipe, 2);
  if (welcome.captures_output) dup2(pipe, 1);
  signal(SIGCHLD, former_handler);
  sigprocmask(SIG_SETMASK, former_mask, NULL);
  exec_command(command);
}

/* Waits for the command. Forwards signals, except signals from a terminal, which reach the command too. Sets `is_stopping` if a signal
   that wasn't ignored before has arrived. */
static int wait_for_command(pid_t process, const sigset_t *blocked, struct rusage *usage, int *is_stopping) {
  siginfo_t info;
  int wait_status;
  for (;;) {
    int kind = sigwaitinfo(blocked, &info);
    if (kind == SIGCHLD && wait4(process, &wait_status, WNOHANG, usage) == process) return wait_status;
    struct sigaction former;
    if (kind > 0 && kind != SIGCHLD && sigaction(kind, NULL, &former) == 0 && former.sa_handler != SIG_IGN) *is_stopping = 1;
    if (kind > 0 && kind != SIGCHLD && info.si_code != SI_KERNEL) kill(process, kind);
  }
}

static int64_t microseconds(struct timeval time) { return (int64_t)time.tv_sec * 1000000 + time.tv_usec; }

static void report_end(pid_t process, int wait_status, const struct rusage *usage, int is_stopping) {
  struct ended ended = {.kind = ENDED, .pid = process, .wait_status = wait_status, .time = wall_clock_ms()};
  ended.user_us = microseconds(usage->ru_utime), ended.system_us = microseconds(usage->ru_stime), ended.peak_kb = usage->ru_maxrss;
  ended.wants_reply = welcome.show_mode == SHOW_ALL || (welcome.show_mode == SHOW_FAILED && wait_status != 0);
  ended.stopping = is_stopping ? STOPPING : NOT_STOPPING;
  int error = send_message(ended.wants_reply ? run_socket : notes_socket, &ended, sizeof ended, NULL, 0, -1);
  if (!error && ended.wants_reply) receive_reply();
}

/* Starts the command, waits for it, and ends as it did. */
static _Noreturn void run_command(char **command, int pipe) {
  sigset_t blocked, former_mask;
  sigemptyset(&blocked);
  for (int i = 0; i < 5; i++) sigaddset(&blocked, (int[]){SIGHUP, SIGINT, SIGQUIT, SIGTERM, SIGCHLD}[i]);
  sigprocmask(SIG_BLOCK, &blocked, &former_mask);
  void (*former_handler)(int) = signal(SIGCHLD, SIG_DFL);
  struct started started = {STARTED, fork_command(command, pipe, &former_mask, former_handler)};
  send_message(notes_socket, &started, sizeof started, NULL, 0, -1);
  close(pipe);
  struct rusage usage;
  int is_stopping = 0, wait_status = wait_for_command(started.pid, &blocked, &usage, &is_stopping);
  report_end(started.pid, wait_status, &usage, is_stopping);
  if (WIFSIGNALED(wait_status)) end_by_signal(WTERMSIG(wait_status));
  exit(WEXITSTATUS(wait_status));
}

void launch(char **command) {
  char *target = getenv("CAPTURE"), *colon = target ? strstr(target, " : ") : NULL;
  if (colon == target) colon = NULL;
  if (!colon || connect_to_run() < 0) exec_command(command);
  target = xasprintf("%.*s", (int)(colon - target), target);
  int pipe = announce_command(target, colon + 3, command);
  unsetenv("CAPTURE");
  if (pipe < 0) exec_command(command);
  export_command_run(pipe);
  run_command(command, pipe);
}
