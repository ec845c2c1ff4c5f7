/* The makes of a build: their connections and recipes. */
#define _GNU_SOURCE
#include "make.h"
#include <poll.h>
#include <stdlib.h>
#include <string.h>
#include <sys/socket.h>
#include <unistd.h>

/* In milliseconds: the time from the announcement of a line to its start, if other makes wait for that. */
enum { MAX_START_MS = 2000 };

static struct make **makes, *open_makes; /* all makes by number; the connected ones */
static size_t make_count, make_capacity;
static int asks; /* whether makes wait for a reply to each line */

struct make *accept_make(int descriptor) {
  makes = grow_array(makes, make_count, &make_capacity, sizeof *makes);
  struct make *make = xrealloc(NULL, sizeof *make);
  *make = (struct make){.source = {MAKE, descriptor}, .notes = {NOTES, -1}, .next_open = open_makes, .number = make_count + 1,
                        .recipe_count = 1};
  if (watch_source(&make->source) < 0) return free(make), NULL;
  if (open_makes) open_makes->previous_open = make;
  open_makes = make;
  makes[make_count++] = make;
  return make;
}

static void close_make(struct make *make) {
  if (make->source.fd < 0) return;
  close_source(&make->source);
  close_source(&make->notes);
  if (make->next_open) make->next_open->previous_open = make->previous_open;
  if (make->previous_open) make->previous_open->next_open = make->next_open;
  else open_makes = make->next_open;
}

int is_redirected(const struct make *make) { return make->is_redirected; }

int is_in_shell_function(const struct make *make) { return make->is_in_shell_function; }

const char *make_directory(const struct make *make) { return make->directory; }

struct recipe_entry *find_recipe(struct make *make, uint32_t number) {
  return number > 0 && number < make->recipe_count ? &make->recipes[number] : NULL;
}

int send_to_make(struct make *make, const void *bytes, size_t size) {
  return send(make->source.fd, bytes, size, MSG_NOSIGNAL | MSG_DONTWAIT) < 0 ? -1 : 0;
}

int reply(struct make *make, uint32_t value) {
  struct reply reply = {REPLY, value};
  make->is_waiting = 0;
  return send_to_make(make, &reply, sizeof reply);
}

void ask_makes(void) {
  struct reply ask = {ASK, 0};
  if (asks) return;
  asks = 1;
  for (struct make *make = open_makes; make; make = make->next_open)
    if (make->directory) send_to_make(make, &ask, sizeof ask);
}

int makes_are_asked(void) { return asks; }

/* Returns the make that runs this one, or NULL. */
static struct make *parent_make(const struct make *make) {
  struct make *parent = make->parent_make > 0 && make->parent_make <= make_count ? makes[make->parent_make - 1] : NULL;
  return parent == make ? NULL : parent;
}

/* What the recipe's make sent before it started the line may not have been read yet. It may not even have reported the process of the
   line: then it is about to do so. If that takes too long, the records get the process of the make itself. */
void receive_from_parent(struct make *make) {
  struct make *parent = parent_make(make);
  if (!parent) return;
  receive_notes(parent);
  while (parent->announced.is_set && parent->announced.recipe == make->parent_recipe) {
    struct pollfd note = {parent->notes.fd, POLLIN, 0};
    if (note.fd < 0 || poll(&note, 1, MAX_START_MS) <= 0 || !receive_note(parent)) start_line(parent, parent->process);
  }
}

struct target *parent_target(struct make *make) {
  struct make *parent = parent_make(make);
  struct recipe_entry *recipe = parent ? find_recipe(parent, make->parent_recipe) : NULL;
  return recipe && recipe->target && recipe->target->run.has_begun ? recipe->target : NULL;
}

void receive_from_sub_makes(struct make *make, uint32_t recipe) {
  for (struct make *child = open_makes, *next; child; child = next) {
    next = child->next_open;
    if (child != make && child->parent_make == make->number && child->parent_recipe == recipe) receive_notes(child);
  }
}

struct target no_target = {.name = "", .run.status = -1, .log.fd = -1};

struct target *begin_recipe(struct make *make, uint32_t number, int64_t time, pid_t process) {
  struct recipe_entry *recipe = find_recipe(make, number);
  if (!recipe) return &no_target;
  char *names = recipe->names;
  size_t name_size = names ? strlen(names) : 0, size = recipe->size;
  struct target *target = recipe->target;
  recipe->names = NULL, recipe->has_begun = 1;
  if (!target && names) target = recipe->target = add_target(normalize_name(make->directory, names, name_size));
  if (target && !target->run.has_begun) {
    struct target *parent = parent_target(make);
    if (!target->run.has_begun) begin_target(target, make, parent, name_size < size && names ? names + name_size + 1 : "", time, process);
  }
  free(names);
  return target ? target : &no_target;
}

void clear_announcement(struct make *make) {
  make->announced = (struct announcement){.is_set = 0};
}

void start_line(struct make *make, pid_t process) {
  struct announcement announced = make->announced;
  if (!announced.is_set) return;
  clear_announcement(make);
  make->ended_recipe = 0;
  struct target *target = announced.is_captured ? begin_recipe(make, announced.recipe, announced.time, process) : &no_target;
  begin_line(make, announced.recipe, target, announced.command, announced.time, process, announced.pipe);
}

void disconnect_make(struct make *make) {
  close_make(make);
  if (is_out_of_memory) return;
  start_line(make, make->process);
  for (size_t i = 1; i < make->recipe_count; i++) free(make->recipes[i].names), make->recipes[i].names = NULL;
  free(make->names);
  make->names = NULL;
}

void receive_last_notes(void) {
  for (struct make *make = open_makes, *next; make; make = next) {
    next = make->next_open;
    receive_notes(make);
    if (!is_out_of_memory) start_line(make, make->process);
  }
}

struct make *make_from_notes(struct source *notes) { return (struct make *)((char *)notes - offsetof(struct make, notes)); }

int drop_pending_make(void) {
  struct make *oldest = NULL;
  for (struct make *make = open_makes; make; make = make->next_open)
    if (!make->directory) oldest = make;
  if (!oldest) return 0;
  receive_from_make(oldest); /* HELLO may be there */
  if (!oldest->directory) close_make(oldest);
  return 1;
}

size_t count_pending_makes(void) {
  size_t count = 0;
  for (struct make *make = open_makes; make; make = make->next_open) count += !make->directory;
  return count;
}

void reply_to_all(void) {
  forward_pipes();
  ask_makes();
  for (struct make *make = open_makes, *next; make; make = next) {
    next = make->next_open;
    if (make->is_waiting && (!make->directory || reply(make, NOT_CAPTURED) < 0)) close_make(make);
  }
}
