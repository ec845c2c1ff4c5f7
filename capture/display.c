/* The lines on standard error while the build runs: the output of a failed recipe, as soon as it has failed. Nothing here
   allocates memory, so that a block is whole even if there is little. */
#define _GNU_SOURCE
#include "capture.h"
#include "protocol.h"
#include <stdlib.h>
#include <string.h>
#include <unistd.h>

int show_mode = SHOW_FAILED, captures_output;

/* The most of a command that a block shows: three lines of a terminal. */
enum { MAX_COMMAND_LINES = 3, MAX_COMMAND_BYTES = 240 };

static struct target *last_shown;

/* The part of a block that isn't written yet. A block that fits is written at once. */
static char unwritten[1 << 16];
static size_t unwritten_size;

static void write_unwritten(void) {
  write_all(2, unwritten, unwritten_size);
  unwritten_size = 0;
}

/* Adds a line, or a part of one, to the block. A longer block is written in pieces that end with a line if possible. */
static void add_to_block(const char *bytes, size_t size) {
  if (size > sizeof unwritten - unwritten_size) write_unwritten();
  while (size > 0) {
    size_t part = size < sizeof unwritten - unwritten_size ? size : sizeof unwritten - unwritten_size;
    memcpy(unwritten + unwritten_size, bytes, part);
    bytes += part, size -= part, unwritten_size += part;
    if (size > 0) write_unwritten();
  }
}

static void add_text_to_block(const char *text) { add_to_block(text, strlen(text)); }

/* Visits each text line of a log from a position on. A line that is longer than the buffer is visited in parts; `is_start` is set
   for the first one. */
typedef void line_visitor(const char *bytes, size_t size, int is_start, void *to);

static void for_each_line(const char *from, const char *end, int *is_start, line_visitor *visit, void *to) {
  for (const char *next; from < end; from = next) {
    const char *newline = memchr(from, '\n', end - from);
    next = newline ? newline + 1 : end;
    if (!*is_start || !is_record(from, end - from)) visit(from, next - from, *is_start, to);
    *is_start = newline != NULL;
  }
}

static void for_each_line_in(struct target *target, off_t from, off_t end, int *is_start, line_visitor *visit, void *to) {
  static char bytes[1 << 16];
  size_t buffered = 0;
  while (from + (off_t)buffered < end) {
    size_t left = end - from - buffered, space = sizeof bytes - buffered, wanted = left < space ? left : space;
    ssize_t size = pread(target->log.fd, bytes + buffered, wanted, from + buffered);
    if (size <= 0) return;
    size_t total = buffered + size;
    const char *newline = memrchr(bytes, '\n', total);
    size_t complete = newline && from + (off_t)total < end ? (size_t)(newline + 1 - bytes) : total;
    for_each_line(bytes, bytes + complete, is_start, visit, to);
    memmove(bytes, bytes + complete, total - complete);
    from += complete, buffered = total - complete;
  }
}

static void for_each_text_line(struct target *target, off_t from, line_visitor *visit, void *to) {
  int is_start = 1;
  if (open_log(target) < 0) return;
  for (size_t i = 0; i < target->log.mention_count; i++) {
    struct range *mention = &target->log.mentions[i];
    if (mention->start > from) for_each_line_in(target, from, mention->start, &is_start, visit, to);
    if (mention->end > from) from = mention->end;
  }
  for_each_line_in(target, from, target->log.size, &is_start, visit, to);
}

/* Whether make itself prints this line when a target fails: `make[1]: *** [..] Error 1`, `make: Target 'x' not remade ..`. */
static int is_make_message(const char *line, size_t size) {
  const char *colon = memmem(line, size, ": ", 2);
  size_t left = colon ? line + size - colon : 0;
  if (!colon || memchr(line, ' ', colon - line)) return 0;
  return (left > 6 && memcmp(colon, ": *** ", 6) == 0) || (left > 10 && memcmp(colon, ": Target '", 10) == 0);
}

struct content {
  int has_text, has_other; /* has_other: a line that make itself doesn't print */
};

static void classify_line(const char *bytes, size_t size, int is_start, void *to) {
  struct content *content = to;
  content->has_text = 1;
  if (!is_start || !is_make_message(bytes, size)) content->has_other = 1;
}

static void add_line(const char *bytes, size_t size, int is_start, void *to) {
  (void)is_start, (void)to;
  add_to_block(bytes, size);
}

/* The first bytes of a command. */
struct excerpt {
  char bytes[MAX_COMMAND_BYTES];
  size_t size;
  int line_feeds, is_cut;
};

static void add_to_excerpt(const char *bytes, size_t size, void *to) {
  struct excerpt *excerpt = to;
  for (size_t i = 0; i < size && !excerpt->is_cut; i++) {
    if (excerpt->size == MAX_COMMAND_BYTES || excerpt->line_feeds == MAX_COMMAND_LINES) excerpt->is_cut = 1;
    else if (bytes[i] != '\n' || ++excerpt->line_feeds < MAX_COMMAND_LINES) excerpt->bytes[excerpt->size++] = bytes[i];
  }
}

/* Returns the size without a UTF-8 character whose end is missing. */
static size_t complete_size(const char *bytes, size_t size) {
  size_t end = size;
  while (end > 0 && size - end < 3 && (bytes[end - 1] & 0xC0) == 0x80) end--;
  unsigned char lead = end > 0 ? bytes[end - 1] : 0;
  size_t length = lead >= 0xF0 ? 4 : lead >= 0xE0 ? 3 : lead >= 0xC0 ? 2 : 1;
  return end > 0 && end - 1 + length > size ? end - 1 : size;
}

static void add_command(const struct command *command) {
  struct excerpt excerpt = {.size = 0};
  int is_truncated = format_command(command, add_to_excerpt, &excerpt);
  if (excerpt.is_cut) excerpt.size = complete_size(excerpt.bytes, excerpt.size);
  add_to_block(excerpt.bytes, excerpt.size);
  add_text_to_block(is_truncated || excerpt.is_cut ? " ..\n" : "\n");
}

/* Relative paths in the output can't be followed without the directory of the make, if that isn't the base directory. */
static void add_target_line(const struct target *target, const char *directory, int status) {
  directory = relative_to_base(directory);
  char words[32] = "";
  if (status != 0) snprintf(words, sizeof words, " (exit %d)", status);
  add_text_to_block("redo-log-capture: ");
  add_text_to_block(target->name);
  add_text_to_block(words);
  if (*directory) add_text_to_block(", in "), add_text_to_block(directory);
  add_text_to_block("\n");
}

/* A recipe that failed only because a sub-make did has no head, because the sub-make's line in the output states the failure. */
static void add_head(const struct line *line, int status, const struct content *content) {
  struct target *target = line->target;
  if (status != 0 && line->failed_children > 0 && content->has_text && !content->has_other) return;
  if (status != 0 || target != last_shown) add_target_line(target, make_directory(line->make), status);
  if (status != 0) add_command(&line->command);
}

/* Prints a block in one piece. It has no text if the log can't be read or written any more. */
void show_output(const struct line *line, int status) {
  struct target *target = line->target;
  struct content content = {0, 0};
  if (!target->run.has_begun || (status == 0 && show_mode != SHOW_ALL)) return;
  if (target->log.fd >= 0 || target->log.size > target->log.shown_size)
    for_each_text_line(target, target->log.shown_size, classify_line, &content);
  if (status == 0 && !content.has_text) return;
  add_head(line, status, &content);
  if (content.has_text) for_each_text_line(target, target->log.shown_size, add_line, NULL);
  write_unwritten();
  target->log.shown_size = target->log.size, target->log.has_unshown_text = 0;
  last_shown = target;
}
