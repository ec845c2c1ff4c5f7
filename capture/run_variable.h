/* The environment variable CAPTURE_RUN, which identifies the run of each make. The hook uses these functions too, so they need no C
   library. */
#include "protocol.h"
#include <stddef.h>

#define RUN_VARIABLE "CAPTURE_RUN"

struct file_identity {
  unsigned long device, inode;
};

/* CAPTURE_RUN=SOCKET:TOKEN:USER:MAKE.RECIPE:SHELL:DEVICE.INODE:DEVICE.INODE:DIRECTORY. The strings have no NUL, except the last one. */
struct run_variable {
  const char *socket_name; /* the abstract name of the server's socket */
  size_t socket_name_size;
  const char *token;          /* a secret that proves that the sender belongs to the run: TOKEN_SIZE bytes */
  unsigned long user;         /* of the server */
  unsigned long make, recipe; /* the recipe that runs this make, or 0.0 */
  unsigned long is_in_shell_function; /* whether `$(shell ..)` runs this make */
  /* By descriptor: the files to which standard output and standard error go if nobody redirects them, or 0.0. */
  struct file_identity outputs[3];
  const char *directory; /* the capture directory */
};

/* Moves past a string and the colon after it. Returns its size, or 0 if it is empty or has no colon after it. */
static inline size_t parse_string(const char **from) {
  size_t size = 0;
  while ((*from)[size] && (*from)[size] != ':') size++;
  if ((*from)[size] != ':') return 0;
  *from += size + 1;
  return size;
}

/* Moves past a number and the byte `end`. Returns -1 if there is no number, or another byte follows it. */
static inline int parse_number(const char **from, unsigned long *number, char end) {
  const char *start = *from;
  for (*number = 0; **from >= '0' && **from <= '9'; ++*from) *number = *number * 10 + (**from - '0');
  return *from > start && *(*from)++ == end ? 0 : -1;
}

/* Parses the value of the variable, and returns -1 if it is invalid. The strings stay where they are. */
static inline int parse_run_variable(const char *value, struct run_variable *run) {
  const char *from = run->socket_name = value;
  run->socket_name_size = parse_string(&from);
  if (run->socket_name_size == 0 || run->socket_name_size > MAX_SOCKET_NAME) return -1;
  run->token = from;
  if (parse_string(&from) != TOKEN_SIZE || parse_number(&from, &run->user, ':') < 0) return -1;
  if (parse_number(&from, &run->make, '.') < 0 || parse_number(&from, &run->recipe, ':') < 0) return -1;
  if (parse_number(&from, &run->is_in_shell_function, ':') < 0) return -1;
  for (int output = 1; output <= 2; output++) {
    struct file_identity *file = &run->outputs[output];
    if (parse_number(&from, &file->device, '.') < 0 || parse_number(&from, &file->inode, ':') < 0) return -1;
  }
  run->directory = from;
  return 0;
}

/* These write a string, or a number and the byte `end`, and a NUL. They return the position of the NUL. */
static inline char *append_string(char *to, const char *string) {
  while (*string) *to++ = *string++;
  *to = 0;
  return to;
}

static inline char *append_number(char *to, unsigned long number, char end) {
  char digits[24];
  int count = 0;
  do digits[count++] = '0' + number % 10;
  while (number /= 10);
  while (count > 0) *to++ = digits[--count];
  *to++ = end;
  *to = 0;
  return to;
}

/* Writes the value of the variable, and returns the position of the NUL. max_run_variable_size returns how much memory is enough. */
static inline char *append_run_variable(char *to, const struct run_variable *run) {
  for (size_t i = 0; i < run->socket_name_size; i++) *to++ = run->socket_name[i];
  *to++ = ':';
  for (size_t i = 0; i < TOKEN_SIZE; i++) *to++ = run->token[i];
  *to++ = ':';
  to = append_number(to, run->user, ':');
  to = append_number(to, run->make, '.'), to = append_number(to, run->recipe, ':');
  to = append_number(to, run->is_in_shell_function, ':');
  for (int output = 1; output <= 2; output++)
    to = append_number(to, run->outputs[output].device, '.'), to = append_number(to, run->outputs[output].inode, ':');
  return append_string(to, run->directory);
}

static inline size_t max_run_variable_size(const struct run_variable *run) {
  size_t directory_size = 0;
  while (run->directory[directory_size]) directory_size++;
  return run->socket_name_size + TOKEN_SIZE + 2 + 8 * sizeof "18446744073709551615" + directory_size + 1;
}
