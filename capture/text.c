/* Text that grows. */
#include "capture.h"
#include <stdlib.h>

void reserve_text(struct text *text, size_t size) {
  if (text->size + size <= text->capacity) return;
  size_t capacity = 2 * (text->size + size) + 64;
  text->bytes = xrealloc(text->bytes, capacity);
  text->capacity = capacity;
}

void add_text(struct text *text, const char *bytes, size_t size) {
  if (size == 0) return;
  reserve_text(text, size);
  memcpy(text->bytes + text->size, bytes, size);
  text->size += size;
}

char *write_number(char *to, int64_t number) {
  char digits[MAX_DIGITS], *start = digits + sizeof digits;
  uint64_t left = number < 0 ? -(uint64_t)number : (uint64_t)number;
  do *--start = '0' + left % 10;
  while (left /= 10);
  if (number < 0) *--start = '-';
  size_t size = digits + sizeof digits - start;
  memcpy(to, start, size);
  return to + size;
}

void add_number(struct text *text, int64_t number) {
  reserve_text(text, MAX_DIGITS);
  text->size = write_number(text->bytes + text->size, number) - text->bytes;
}

void add_time(struct text *text, int64_t time) {
  if (time < 0) time = 0;
  int part = time % 1000;
  char decimals[] = {'.', '0' + part / 100, '0' + part / 10 % 10, '0' + part % 10};
  add_number(text, time / 1000);
  add_text(text, decimals, sizeof decimals);
}

int is_utf8(const char *string) {
  static const unsigned least[] = {0, 0x80, 0x800, 0x10000};
  for (const unsigned char *byte = (const unsigned char *)string; *byte;) {
    unsigned code = *byte++;
    int more = code < 0xc0 ? 0 : code < 0xe0 ? 1 : code < 0xf0 ? 2 : 3;
    if ((code >= 0x80 && code < 0xc0) || code > 0xf7) return 0;
    if (more > 0) code &= 0x3f >> more;
    for (int left = more; left > 0; left--) {
      if ((*byte & 0xc0) != 0x80) return 0;
      code = code << 6 | (*byte++ & 0x3f);
    }
    if (code < least[more] || (code >= 0xd800 && code < 0xe000) || code > 0x10ffff) return 0;
  }
  return 1;
}
