/* Buffers of writes, so that many short ones become one. */
#define _GNU_SOURCE
#include "capture.h"
#include <stdlib.h>
#include <string.h>

int add_to_buffer(struct write_buffer *buffer, const char *bytes, size_t size) {
  if (size == 0) return 0;
  if (buffer->size + size > buffer->capacity) {
    if (buffer->size + size > MAX_BUFFERED) return -1;
    size_t capacity = 2 * (buffer->size + size);
    char *larger = realloc(buffer->bytes, capacity);
    if (!larger) return -1;
    buffer->bytes = larger, buffer->capacity = capacity;
  }
  memcpy(buffer->bytes + buffer->size, bytes, size);
  buffer->size += size;
  return 0;
}

void clear_buffer(struct write_buffer *buffer) {
  free(buffer->bytes);
  *buffer = (struct write_buffer){.bytes = NULL};
}
