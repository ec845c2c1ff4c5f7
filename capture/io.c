/* Descriptors: reading and writing everything, the standard descriptors, random digits. */
#define _GNU_SOURCE
#include "capture.h"
#include <dirent.h>
#include <errno.h>
#include <fcntl.h>
#include <poll.h>
#include <stdlib.h>
#include <string.h>
#include <sys/random.h>
#include <sys/stat.h>
#include <unistd.h>

/* In bytes, how much a pipe that can be written takes at once; and how long to wait for a reader once a signal has asked the build to
   stop, in milliseconds. */
enum { PIPE_PART = 4096, STUCK_MS = 1000 };

/* Waits until standard error can be written, and forwards signals meanwhile. Otherwise make, which may wait for this process, and this
   process would wait for the reader forever. Returns -1 once the build was to stop and nobody reads. */
static int wait_for_stderr(void) {
  static int is_stuck; /* then it isn't waited for again until somebody reads */
  for (;;) {
    struct pollfd files[] = {{2, POLLOUT, 0}, {get_signal_fd(), POLLIN, 0}};
    int ready = poll(files, 2, !stop_signal ? -1 : is_stuck ? 0 : STUCK_MS);
    if (ready == 0) return is_stuck = 1, errno = EAGAIN, -1;
    if (files[1].revents) handle_signals();
    if (ready > 0 && files[0].revents) return is_stuck = 0;
  }
}

/* The size of the part that a pipe takes in one piece. It ends with a line if possible, because make writes to the same pipe. */
static size_t part_size(const char *bytes, size_t size) {
  if (size <= PIPE_PART) return size;
  const char *newline = memrchr(bytes, '\n', PIPE_PART);
  return newline ? (size_t)(newline + 1 - bytes) : PIPE_PART;
}

int write_all(int file, const char *bytes, size_t size) {
  struct stat found;
  int may_block = file == 2 && get_signal_fd() >= 0 && fstat(file, &found) == 0 && !S_ISREG(found.st_mode);
  while (size > 0) {
    if (may_block && wait_for_stderr() < 0) return -1;
    ssize_t written = write(file, bytes, may_block ? part_size(bytes, size) : size);
    struct pollfd writable = {file, POLLOUT, 0};
    if (written < 0 && errno == EAGAIN && !may_block) poll(&writable, 1, -1);
    else if (written < 0 && errno != EINTR && errno != EAGAIN) return -1;
    if (written > 0) bytes += written, size -= written;
  }
  return 0;
}

char *read_all(int file, size_t *size) {
  size_t capacity = 0, used = 0;
  ssize_t count = 1;
  char *bytes = NULL;
  while (count > 0) {
    if (used + 1 >= capacity) bytes = xrealloc(bytes, capacity = 2 * capacity + 4096);
    count = read(file, bytes + used, capacity - used - 1);
    if (count < 0 && errno == EINTR) count = 1;
    else if (count > 0) used += count;
  }
  bytes[used] = 0;
  if (size) *size = used;
  if (count == 0) return bytes;
  int error = errno;
  free(bytes);
  errno = error;
  return NULL;
}

void reserve_standard_fds(void) {
  for (int file = 0; file <= 2; file++)
    if (fcntl(file, F_GETFD) < 0) open("/dev/null", O_RDWR | O_CLOEXEC);
}

void close_range_of_descriptors(unsigned first, unsigned last) {
  if (close_range(first, last, 0) == 0) return;
  DIR *files = opendir("/proc/self/fd"); /* before Linux 5.9 */
  unsigned max = 65536;
  for (struct dirent *file; files && (file = readdir(files));)
    if (strtoul(file->d_name, NULL, 10) > max) max = strtoul(file->d_name, NULL, 10);
  if (files) closedir(files);
  for (unsigned file = first; file <= last && file <= max; file++) close(file);
}

void random_hex(char *digits, size_t count) {
  unsigned char bytes[64];
  if (getrandom(bytes, sizeof bytes, 0) != sizeof bytes) die(1, "no random numbers: %s", strerror(errno));
  for (size_t i = 0; i < count; i++) digits[i] = "0123456789abcdef"[bytes[i % sizeof bytes] & 15];
  digits[count] = 0;
}
