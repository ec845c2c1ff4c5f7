/* Replacements for the C library: strings, memory and the time. */
#include "hook.h"
#include "syscalls.h"
#include <sys/mman.h>
#include <time.h>

/* The compiler may call these to copy and clear memory. */
void *memcpy(void *to, const void *from, size_t size) {
  char *bytes = to;
  for (size_t i = 0; i < size; i++) bytes[i] = ((const char *)from)[i];
  return to;
}

void *memset(void *to, int byte, size_t size) {
  char *bytes = to;
  for (size_t i = 0; i < size; i++) bytes[i] = byte;
  return to;
}

size_t string_length(const char *string) {
  size_t length = 0;
  while (string[length]) length++;
  return length;
}

int strings_equal(const char *left, const char *right) { return has_prefix(left, right) && !left[string_length(right)]; }

char *grow_buffer(struct buffer *buffer, size_t size) {
  if (size <= buffer->size) return buffer->bytes;
  size_t larger = (size + size / 2 + 65535) & ~(size_t)65535;
  long mapped = syscall6(__NR_mmap, 0, larger, PROT_READ | PROT_WRITE, MAP_PRIVATE | MAP_ANONYMOUS, -1, 0);
  if (mapped < 0 && mapped > -4096) return NULL;
  if (buffer->bytes) SYSCALL(munmap, buffer->bytes, buffer->size, 0, 0);
  buffer->bytes = (char *)mapped, buffer->size = larger;
  return buffer->bytes;
}

int64_t wall_clock_ms(void) {
  struct timespec time = {0, 0};
  SYSCALL(clock_gettime, CLOCK_REALTIME, &time, 0, 0);
  return (int64_t)time.tv_sec * 1000 + time.tv_nsec / 1000000;
}
