/* Reaping. The server learns that a child has ended before make does, and has printed the output of a failed one before make
   reports it.

   A child is reported while it is a zombie. Otherwise a signal between the reaping and the report could find make waiting for
   a child that is gone, and make would stop with an error. */
#define _GNU_SOURCE
#include "hook.h"
#include "syscalls.h"
#include <errno.h>
#include <signal.h>
#include <sys/resource.h>
#include <sys/wait.h>

typedef pid_t wait4_function(pid_t, int *, int, void *);

volatile int *handling_fatal_signal;

static int64_t microseconds(struct timeval time) { return (int64_t)time.tv_sec * 1000000 + time.tv_usec; }

static void report_end(pid_t process, int wait_status, const struct rusage *usage) {
  struct ended ended = {.kind = ENDED, .pid = process, .wait_status = wait_status, .time = wall_clock_ms()};
  ended.user_us = microseconds(usage->ru_utime), ended.system_us = microseconds(usage->ru_stime), ended.peak_kb = usage->ru_maxrss;
  ended.wants_reply = run.show_mode == SHOW_ALL || (run.show_mode == SHOW_FAILED && wait_status != 0);
  ended.stopping = !handling_fatal_signal ? MAYBE_STOPPING : *handling_fatal_signal ? STOPPING : NOT_STOPPING;
  if (wait_status != 0) note_failure(1);
  if (!ended.wants_reply) {
    send_note(&ended, sizeof ended, NULL, 0, -1);
    return;
  }
  uint64_t former = block_signals();
  if (send_request(&ended, sizeof ended, NULL, 0, -1) == 0) receive_reply();
  restore_signals(former);
}

/* Returns the wait status that waitpid would set. */
static int to_wait_status(const siginfo_t *ended) {
  if (ended->si_code == CLD_EXITED) return (ended->si_status & 255) << 8;
  return ended->si_status | (ended->si_code == CLD_DUMPED ? 128 : 0);
}

/* Reports a child before it is reaped, so that a signal that arrives in between finds make in the state that it would have without
   the hook. Returns the child, 0 if none has ended, or -1 if there is none. */
static pid_t report_next_child(pid_t process, int options) {
  siginfo_t ended;
  struct rusage usage = {0};
  long error;
  int kind = process > 0 ? P_PID : P_ALL;
  ended.si_pid = 0;
  do error = syscall6(__NR_waitid, kind, process, (long)&ended, WEXITED | WNOWAIT | (options & WNOHANG), (long)&usage, 0);
  while (error == -EINTR);
  if (error) return -1;
  if (ended.si_pid > 0) report_end(ended.si_pid, to_wait_status(&ended), &usage);
  return ended.si_pid;
}

pid_t hooked_wait4(pid_t process, int *wait_status, int options, void *usage) {
  wait4_function *original = (wait4_function *)imports[WAIT4].original;
  pid_t ended = is_connected() && (process == -1 || process > 0) ? report_next_child(process, options) : -1;
  return ended == 0 ? 0 : original(ended > 0 ? ended : process, wait_status, options, usage);
}

pid_t hooked_waitpid(pid_t process, int *wait_status, int options) { return hooked_wait4(process, wait_status, options, NULL); }

pid_t hooked_wait(int *wait_status) { return hooked_wait4(-1, wait_status, 0, NULL); }

pid_t hooked_wait3(int *wait_status, int options, void *usage) { return hooked_wait4(-1, wait_status, options, usage); }
