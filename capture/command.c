/* Starting the command, and forwarding signals to it.

   Without the helper process that recognizes signals to the group, make would get SIGTERM twice, which interrupts its removal
   of intermediate files. */
#define _GNU_SOURCE
#include "capture.h"
#include <errno.h>
#include <fcntl.h>
#include <poll.h>
#include <signal.h>
#include <stdlib.h>
#include <string.h>
#include <sys/prctl.h>
#include <sys/resource.h>
#include <sys/signalfd.h>
#include <sys/socket.h>
#include <sys/stat.h>
#include <sys/wait.h>
#include <unistd.h>

/* DELAY_MS: how much later a signal to a group may reach another process of it. REPLY_MS: how long the witness may take to reply. If
   `ulimit -u` is below MIN_PROCESSES, no witness is started, so that the build can use the whole limit. */
enum { DELAY_MS = 2, REPLY_MS = 2000, MIN_PROCESSES = 64 };

int command_status, command_signal, stop_signal;
int64_t stop_time;

static const int forwarded_signals[] = {SIGHUP, SIGINT, SIGQUIT, SIGTERM, SIGUSR1, SIGUSR2, SIGALRM, SIGVTALRM, SIGPROF};
enum { FORWARDED_COUNT = sizeof forwarded_signals / sizeof *forwarded_signals };

static pid_t command_pid, witness_pid;
static int has_ended, signal_fd = -1, witness_socket = -1;
static sigset_t blocked, former_mask;
static struct rlimit former_files, former_file_size;
static struct sigaction former_pipe, former_size;
static sigset_t ignored; /* signals that were ignored when this program began, as under nohup: the build ignores them too */

static int is_stop_request(int kind) {
  return (kind == SIGHUP || kind == SIGINT || kind == SIGQUIT || kind == SIGTERM) && !sigismember(&ignored, kind);
}

static void raise_limit(int resource, struct rlimit *former_limit) {
  getrlimit(resource, former_limit);
  struct rlimit limit = {former_limit->rlim_max, former_limit->rlim_max};
  setrlimit(resource, &limit);
}

/* Raises the limits on open files and on the size of files to their maximum. Ignores SIGPIPE and SIGXFSZ, so that a write fails
   instead. */
static void raise_limits(void) {
  raise_limit(RLIMIT_NOFILE, &former_files);
  raise_limit(RLIMIT_FSIZE, &former_file_size);
  struct sigaction ignore = {.sa_handler = SIG_IGN};
  sigaction(SIGPIPE, &ignore, &former_pipe);
  sigaction(SIGXFSZ, &ignore, &former_size);
}

void block_signals(void) {
  struct sigaction by_default = {.sa_handler = SIG_DFL};
  sigemptyset(&blocked);
  sigaddset(&blocked, SIGCHLD);
  sigemptyset(&ignored);
  for (int i = 0; i < FORWARDED_COUNT; i++) {
    struct sigaction former;
    sigaddset(&blocked, forwarded_signals[i]);
    if (sigaction(forwarded_signals[i], NULL, &former) == 0 && former.sa_handler == SIG_IGN) sigaddset(&ignored, forwarded_signals[i]);
  }
  if (uses_terminals) sigaddset(&blocked, SIGWINCH);
  sigprocmask(SIG_BLOCK, &blocked, &former_mask);
  sigaction(SIGCHLD, &by_default, NULL);
  raise_limits();
}

int open_signal_fd(void) {
  signal_fd = signalfd(-1, &blocked, SFD_CLOEXEC | SFD_NONBLOCK);
  return signal_fd;
}

int get_signal_fd(void) { return signal_fd; }

void die_cannot_run(const char *name, int error) {
  die(error == ENOENT ? 127 : 126, "%s: %s", name, error == ENOENT ? "not found" : strerror(error));
}

int is_program(const char *path) {
  struct stat found;
  return stat(path, &found) == 0 && S_ISREG(found.st_mode) && access(path, X_OK) == 0;
}

/* An empty part of PATH is the current directory. */
char *find_in_path(const char *name) {
  const char *part = getenv("PATH");
  while (part) {
    size_t size = strcspn(part, ":");
    char *candidate = xasprintf("%.*s/%s", size ? (int)size : 1, size ? part : ".", name);
    if (is_program(candidate)) return candidate;
    free(candidate);
    part = part[size] ? part + size + 1 : NULL;
  }
  return NULL;
}

void exec_command(char **words) {
  execvp(words[0], words);
  die_cannot_run(words[0], errno);
}

/* Runs in the child. If the server is killed, the system kills the command too. */
static _Noreturn void exec_child(char **words, int output, pid_t parent, int failure) {
  prctl(PR_SET_PDEATHSIG, SIGKILL);
  if (getppid() != parent) _exit(1);
  if (output != 1) dup2(output, 1);
  setrlimit(RLIMIT_NOFILE, &former_files);
  setrlimit(RLIMIT_FSIZE, &former_file_size);
  sigaction(SIGPIPE, &former_pipe, NULL);
  sigaction(SIGXFSZ, &former_size, NULL);
  sigprocmask(SIG_SETMASK, &former_mask, NULL);
  execvp(words[0], words);
  int error = errno;
  if (write(failure, &error, sizeof error) < 0) _exit(1);
  _exit(127);
}

/* What the witness is asked. It replies with the same structure. If it replies too late, the next reply is recognized by its number. */
struct query {
  unsigned number;
  int kind, is_pending; /* is_pending: set by the witness */
};

/* Runs in the witness, a helper process of the same process group. A signal that it gets too was sent to the whole group. A signal
   to the server alone must be forwarded. The witness blocks all signals, and replies whether a given one is pending. */
static _Noreturn void run_witness(pid_t parent, int socket) {
  sigset_t all, one;
  struct timespec moment = {0, 1000000 * DELAY_MS};
  sigfillset(&all);
  sigprocmask(SIG_BLOCK, &all, NULL);
  prctl(PR_SET_NAME, "capture-group");
  prctl(PR_SET_PDEATHSIG, SIGKILL);
  if (getppid() != parent) _exit(0);
  for (int file = 0; file < 64; file++)
    if (file != socket) close(file);
  for (struct query query; read(socket, &query, sizeof query) == sizeof query;) {
    sigemptyset(&one);
    sigaddset(&one, query.kind);
    query.is_pending = sigtimedwait(&one, NULL, &moment) > 0;
    if (write(socket, &query, sizeof query) < 0) break;
  }
  _exit(0);
}

static void start_witness(void) {
  struct rlimit processes;
  int sockets[2];
  pid_t parent = getpid();
  if (getrlimit(RLIMIT_NPROC, &processes) == 0 && processes.rlim_cur < MIN_PROCESSES) return;
  if (socketpair(AF_UNIX, SOCK_SEQPACKET | SOCK_CLOEXEC, 0, sockets) < 0) return;
  witness_pid = fork();
  if (witness_pid == 0) run_witness(parent, sockets[1]);
  close(sockets[1]);
  witness_socket = sockets[0];
}

static void kill_witness(void) {
  if (witness_pid > 0) kill(witness_pid, SIGKILL), waitpid(witness_pid, NULL, 0);
  witness_pid = 0;
}

/* Starts a process that runs these words with this standard output. Returns -1 if none can be created. Sets `*exec_error` if it can't run
   them. */
static pid_t start_child(char **words, int output, int *exec_error) {
  int failure[2], error;
  *exec_error = 0;
  if (pipe2(failure, O_CLOEXEC) < 0) return -1;
  pid_t parent = getpid(), child = fork();
  if (child == 0) exec_child(words, output, parent, failure[1]);
  error = errno;
  close(failure[1]);
  ssize_t size;
  while (child > 0 && (size = read(failure[0], exec_error, sizeof *exec_error)) < 0 && errno == EINTR) continue;
  close(failure[0]);
  if (child > 0 && *exec_error) waitpid(child, NULL, 0);
  errno = error;
  return child;
}

void start_command(char **words) {
  int exec_error;
  command_pid = start_child(words, 1, &exec_error);
  if (command_pid < 0) die(126, "cannot start %s: %s", words[0], strerror(errno));
  if (exec_error) die_cannot_run(words[0], exec_error);
  start_witness();
}

/* Once the process was waited for, its number may be another one's, so it gets no signal. */
int run_program(char **words, int output, int *end_signal) {
  struct pollfd ready = {signal_fd, POLLIN, 0};
  struct signalfd_siginfo info;
  int exec_error, wait_status = -1, is_running = 1;
  pid_t process = start_child(words, output, &exec_error);
  if (process >= 0 && exec_error) errno = exec_error;
  if (process < 0 || exec_error) return -1;
  while (is_running) {
    is_running = waitpid(process, &wait_status, WNOHANG) == 0;
    if (is_running) poll(&ready, 1, -1);
    while (read(signal_fd, &info, sizeof info) == sizeof info) {
      if (!is_stop_request(info.ssi_signo)) continue;
      *end_signal = info.ssi_signo;
      if (is_running) kill(process, info.ssi_signo);
    }
  }
  return wait_status;
}

/* Whether the whole group got this signal, including the command. */
static int is_group_signal(const struct signalfd_siginfo *info) {
  static unsigned count;
  struct query query = {++count, info->ssi_signo, 0}, reply = {0, 0, 0};
  struct pollfd ready = {witness_socket, POLLIN, 0};
  int waits = witness_pid > 0 && send(witness_socket, &query, sizeof query, MSG_NOSIGNAL | MSG_DONTWAIT) == sizeof query;
  while (waits && reply.number != count)
    waits = poll(&ready, 1, REPLY_MS) > 0 && read(witness_socket, &reply, sizeof reply) == sizeof reply;
  return (waits && reply.is_pending) || info->ssi_code == SI_KERNEL; /* sent by a terminal */
}

static void handle_signal(const struct signalfd_siginfo *info) {
  int kind = info->ssi_signo;
  if (is_stop_request(kind) && !stop_signal) stop_signal = kind, stop_time = wall_clock_ms();
  if (!is_group_signal(info)) kill(command_pid, kind);
}

int shell_status(int wait_status) { return WIFSIGNALED(wait_status) ? 128 + WTERMSIG(wait_status) : WEXITSTATUS(wait_status); }

static void end_command(int wait_status) {
  has_ended = 1;
  command_signal = WIFSIGNALED(wait_status) ? WTERMSIG(wait_status) : 0;
  command_status = shell_status(wait_status);
  kill_witness();
}

/* Processes whose parents have ended become children of the first process of a container, which may be this one. */
static void reap_children(void) {
  int wait_status;
  for (pid_t process; !has_ended && (process = waitpid(-1, &wait_status, WNOHANG)) > 0;) {
    if (process == witness_pid) witness_pid = 0;
    if (process == command_pid) end_command(wait_status);
  }
}

int has_command_ended(void) { return has_ended; }

int handle_signals(void) {
  struct signalfd_siginfo info;
  while (signal_fd >= 0 && read(signal_fd, &info, sizeof info) == sizeof info) {
    if (info.ssi_signo == SIGCHLD) reap_children();
    else if (info.ssi_signo == SIGWINCH) resize_terminals();
    else if (!has_ended) handle_signal(&info);
  }
  return has_ended;
}

/* Writes no core dump: the command has written one if it was meant to. */
void end_by_signal(int kind) {
  struct rlimit none = {0, 0};
  sigset_t one;
  setrlimit(RLIMIT_CORE, &none);
  prctl(PR_SET_DUMPABLE, 0);
  signal(kind, SIG_DFL);
  sigemptyset(&one);
  sigaddset(&one, kind);
  sigprocmask(SIG_UNBLOCK, &one, NULL);
  kill(getpid(), kind);
}

void exit_like_command(void) {
  if (command_signal) end_by_signal(command_signal);
  exit(command_status ? command_status : failed_writes || is_out_of_memory ? 1 : 0);
}

const char *signal_name(int kind) {
  static const struct {
    int kind;
    const char *name;
  } names[] = {{SIGHUP, "SIGHUP"}, {SIGINT, "SIGINT"}, {SIGQUIT, "SIGQUIT"}, {SIGTERM, "SIGTERM"}, {SIGKILL, "SIGKILL"}};
  static char number[32];
  for (size_t i = 0; i < sizeof names / sizeof *names; i++)
    if (names[i].kind == kind) return names[i].name;
  snprintf(number, sizeof number, "signal %d", kind);
  return number;
}
