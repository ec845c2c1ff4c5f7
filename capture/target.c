/* The table of targets. */
#include "capture.h"
#include <stdlib.h>
#include <string.h>

struct target **targets, *run_target;
size_t target_count;

/* The maximum number of prefixes that are added for one name. */
enum { MAX_PREFIXES = 32 };

static size_t target_capacity, bucket_count;
static int has_prefixes; /* whether a name has a space */
static struct target **buckets;

static size_t hash_name(const char *name) {
  uint64_t hash = 14695981039346656037u;
  for (; *name; name++) hash = (hash ^ (unsigned char)*name) * 1099511628211u;
  return hash;
}

static struct target **find_bucket(const char *name) { return &buckets[hash_name(name) & (bucket_count - 1)]; }

struct target *find_target(const char *name) {
  struct target *target = bucket_count ? *find_bucket(name) : NULL;
  while (target && strcmp(target->name, name) != 0) target = target->next;
  return target;
}

static void grow_buckets(void) {
  size_t count = bucket_count ? 4 * bucket_count : 1024;
  struct target **larger = calloc(count, sizeof *larger);
  if (!larger) larger = memset(xrealloc(NULL, count * sizeof *larger), 0, count * sizeof *larger);
  free(buckets);
  buckets = larger, bucket_count = count;
  for (size_t i = 0; i < target_count; i++) {
    struct target **bucket = find_bucket(targets[i]->name);
    targets[i]->next = *bucket, *bucket = targets[i];
  }
}

/* Adds each prefix of a name that ends with a space as a target without a log; is_known_prefix looks for it. */
static void add_prefixes(const char *name) {
  int count = 0;
  for (const char *space = name; (space = strchr(space, ' ')) && count < MAX_PREFIXES; space++, count++) {
    if (!space[1]) continue;
    has_prefixes = 1;
    char *prefix = xasprintf("%.*s", (int)(space - name) + 1, name);
    add_target(prefix);
    free(prefix);
  }
}

struct target *add_target(const char *name) {
  struct target *target = find_target(name);
  if (target) return target;
  if (target_count >= bucket_count) grow_buckets();
  targets = grow_array(targets, target_count, &target_capacity, sizeof *targets);
  target = xrealloc(NULL, sizeof *target);
  size_t size = strlen(name) + 1;
  *target = (struct target){.name = memcpy(xrealloc(NULL, size), name, size), .run.status = -1, .log.fd = -1};
  struct target **bucket = find_bucket(name);
  target->next = *bucket, *bucket = target;
  targets[target_count++] = target;
  add_prefixes(target->name);
  return target;
}

int is_known_prefix(const char *name) {
  if (!has_prefixes) return 0;
  char *prefix = xasprintf("%s ", name);
  int is_known = find_target(prefix) != NULL;
  free(prefix);
  return is_known;
}

/* Lines that run may still refer to its makings, which stay in memory therefore. */
static void clear_target(struct target *target) {
  forward_held_log(target);
  close_log(target);
  clear_buffer(&target->log.buffer);
  free(target->log.mentions);
  *target = (struct target){
      .name = target->name, .next = target->next, .running_lines = target->running_lines, .run.status = -1, .log.fd = -1};
}

void clear_targets(void) {
  forget_logs();
  for (size_t i = 0; i < target_count; i++) clear_target(targets[i]);
}

struct making *making_for(const struct target *target, const struct target *parent) {
  struct making *making = target->run.makings;
  while (making && making->parent != parent) making = making->next;
  return making;
}

struct making *add_making(struct target *target, struct target *parent, const struct make *make, int64_t time) {
  struct making *making = xrealloc(NULL, sizeof *making), **end = &target->run.makings;
  *making = (struct making){.parent = parent, .make = make, .start_time = time, .status = -1};
  while (*end) end = &(*end)->next;
  return *end = making;
}

void end_making(struct making *making, int64_t time, int status) {
  making->end_time = time, making->status = status;
  making->failed_after_mention = making->is_mentioned && status > 0;
}

struct target *log_parent(const struct target *target, struct target *parent) {
  return parent && can_mention(parent->name, target->name) ? parent : run_target;
}

static int compare_names(const void *left, const void *right) {
  return strcmp((*(struct target *const *)left)->name, (*(struct target *const *)right)->name);
}

struct target **sorted_targets(size_t *count) {
  struct target **sorted = xrealloc(NULL, (target_count + 1) * sizeof *sorted);
  *count = 0;
  for (size_t i = 0; i < target_count; i++)
    if (targets[i]->run.has_begun) sorted[(*count)++] = targets[i];
  qsort(sorted, *count, sizeof *sorted, compare_names);
  return sorted;
}
