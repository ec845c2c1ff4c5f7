/* Memory. If an allocation fails, these functions don't return. */
#define _GNU_SOURCE
#include "capture.h"
#include <stdarg.h>
#include <stdlib.h>

void (*oom_handler)(void);

static _Noreturn void out_of_memory(void) {
  if (oom_handler) oom_handler();
  die(1, "out of memory");
}

void *xrealloc(void *memory, size_t size) {
  void *resized = realloc(memory, size ? size : 1);
  if (!resized) out_of_memory();
  return resized;
}

char *xasprintf(const char *format, ...) {
  char *result;
  va_list values;
  va_start(values, format);
  if (vasprintf(&result, format, values) < 0) result = NULL;
  va_end(values);
  if (!result) out_of_memory();
  return result;
}

void *grow_array(void *array, size_t count, size_t *capacity, size_t element_size) {
  if (count < *capacity) return array;
  size_t larger = 2 * *capacity + 16;
  array = xrealloc(array, larger * element_size);
  *capacity = larger;
  return array;
}

FILE *xopen_memstream(char **bytes, size_t *size) {
  FILE *stream = open_memstream(bytes, size);
  if (!stream) out_of_memory();
  return stream;
}

void xclose_memstream(FILE *stream) {
  if (fclose(stream) != 0) out_of_memory();
}
