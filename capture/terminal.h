/* The terminals that recipes get with --colour. The hook uses these functions too, so they need no C library.

   The hook opens a terminal where it would create the pipe, and passes its other end to the server. Recipes can only write to
   it: no process gets a controlling terminal that it can't read. The server reads up to an error, which comes after the last
   byte. */
#include "hook/syscalls.h"
#include <asm/termbits.h>
#include <errno.h>
#include <fcntl.h>
#include <sys/ioctl.h>

/* Finds the size of the window in which the outputs of this process are shown. Returns -1 if no output leads to a terminal. */
static inline int find_window_size(struct winsize *size) {
  for (int output = 2; output >= 1; output--)
    if (SYSCALL(ioctl, output, TIOCGWINSZ, size, 0) == 0) return 0;
  return -1;
}

/* In raw mode, bytes pass a terminal unchanged. */
static inline int set_raw_mode(int terminal) {
  struct termios mode;
  if (SYSCALL(ioctl, terminal, TCGETS, &mode, 0) < 0) return -1;
  mode.c_iflag = mode.c_oflag = mode.c_lflag = 0;
  return SYSCALL(ioctl, terminal, TCSETS, &mode, 0) < 0 ? -1 : 0;
}

/* Opens a pseudo-terminal of this window's size: bytes written to ends[1] are read from ends[0]. As ends[1] can't be read, it never
   becomes a controlling terminal, and nobody waits for input there. Returns -1 if no terminal is left. */
static inline int open_terminal(int ends[2]) {
  static const int is_locked = 0;
  struct winsize size;
  do ends[0] = SYSCALL(openat, AT_FDCWD, "/dev/ptmx", O_RDWR | O_NOCTTY | O_CLOEXEC, 0);
  while (ends[0] == -EINTR);
  if (ends[0] < 0) return -1;
  ends[1] = SYSCALL(ioctl, ends[0], TIOCSPTLCK, &is_locked, 0);
  while (ends[1] == 0 && (ends[1] = SYSCALL(ioctl, ends[0], TIOCGPTPEER, O_WRONLY | O_NOCTTY | O_CLOEXEC, 0)) == -EINTR) ends[1] = 0;
  if (ends[1] < 0 || set_raw_mode(ends[1]) < 0) {
    if (ends[1] >= 0) SYSCALL(close, ends[1], 0, 0, 0);
    SYSCALL(close, ends[0], 0, 0, 0);
    return -1;
  }
  if (find_window_size(&size) == 0) SYSCALL(ioctl, ends[1], TIOCSWINSZ, &size, 0);
  return 0;
}
