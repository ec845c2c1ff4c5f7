/* The announcement of a recipe before it runs. */
#include "hook.h"
#include <string.h>

extern char *gmk_alloc(unsigned size) __attribute__((weak));

static uint32_t recipe_count;
/* The names of the last recipe, until its first line is announced: make announces it at once. */
static char kept[MAX_KEPT];
static size_t kept_size;

size_t take_names(char *to) {
  size_t size = kept_size;
  memcpy(to, kept, size);
  kept_size = 0;
  return size;
}

/* Sends the names that are kept for a line that make has not started. */
static int send_kept(void) {
  struct recipe recipe = {RECIPE, recipe_count};
  size_t size = kept_size;
  kept_size = 0;
  return size == 0 ? 0 : send_note(&recipe, sizeof recipe, kept, size, -1);
}

/* Keeps the target and its prerequisites for the next line. Sends them if they are long, in several messages if necessary. */
static int add_names(const char *target, const char *prerequisites) {
  struct names names = {NAMES};
  struct recipe recipe = {RECIPE, recipe_count + 1};
  size_t size = string_length(target) + 1, left = string_length(prerequisites);
  if (send_kept() < 0) return -1;
  if (size + left <= MAX_KEPT) {
    memcpy(kept, target, size);
    memcpy(kept + size, prerequisites, left);
    kept_size = size + left;
    return 0;
  }
  if (size + left <= MAX_BODY) return send_note2(&recipe, sizeof recipe, target, size, prerequisites, left);
  for (; size > 0; target += size < MAX_BODY ? size : MAX_BODY, size -= size < MAX_BODY ? size : MAX_BODY)
    if (send_note(&names, sizeof names, target, size < MAX_BODY ? size : MAX_BODY, -1) < 0) return -1;
  for (; left > MAX_BODY; prerequisites += MAX_BODY, left -= MAX_BODY)
    if (send_note(&names, sizeof names, prerequisites, MAX_BODY, -1) < 0) return -1;
  return send_note(&recipe, sizeof recipe, prerequisites, left, -1);
}

/* make expands this when it builds the environment of the recipe's lines, in which a variable gets the number as its value. */
char *announce_recipe(const char *function, unsigned argument_count, char **arguments) {
  (void)function;
  char *number = gmk_alloc(24);
  if (!number) return NULL;
  *number = 0;
  if (argument_count < 2 || !*arguments[0]) return number;
  if (is_connected() && add_names(arguments[0], arguments[1]) == 0) append_number(number, ++recipe_count, 0);
  return number;
}

void forget_recipe(void) {
  if (kept_size > 0) kept_size = 0, recipe_count--;
}
