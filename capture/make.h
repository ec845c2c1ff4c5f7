/* What make.c and make_messages.c share. */
#include "capture.h"
#include "protocol.h"

/* A recipe. Until its first line begins, it has its names as they were sent. */
struct recipe_entry {
  char *names;
  size_t size;
  struct target *target;
  int has_begun; /* a line of it has begun, or could not be started */
};

/* A line that make is about to start. */
struct announcement {
  int is_set, is_captured;
  struct pipe *pipe;
  uint32_t recipe;
  int64_t time;
  struct command command;
};

struct make {
  struct source source, notes; /* its sockets */
  struct make *next_open, *previous_open; /* in the list of connected makes */
  uint32_t number, parent_make, parent_recipe;
  pid_t process;
  char *directory; /* NULL until HELLO has arrived */
  int is_redirected, is_in_shell_function, is_waiting; /* is_waiting: for a reply */
  struct recipe_entry *recipes; /* the first one is never used, and counts */
  size_t recipe_count, recipe_capacity;
  char *names; /* of the recipe that is being sent */
  size_t names_size;
  /* Recipes whose next line make may start: the one whose line has just ended, and the one whose line make could not
     start the last line; otherwise 0. */
  uint32_t ended_recipe, failed_recipe;
  struct announcement announced;
  struct failure *failures; /* of its lines, since it last went on */
  struct failure *last_failure; /* of the child that ended last, or could not be started; NULL if it isn't known to have failed */
};

/* The target of a line that isn't captured although its pipe was accepted. Its output goes to standard error. */
extern struct target no_target;

/* Returns NULL if there is no such recipe. */
struct recipe_entry *find_recipe(struct make *make, uint32_t number);
/* Sends the reply to a message other than HELLO. Returns -1 on failure. */
int reply(struct make *make, uint32_t value);
int send_to_make(struct make *make, const void *bytes, size_t size);
/* Begins the log of a recipe's target if that hasn't begun. Returns the target, or no_target. */
struct target *begin_recipe(struct make *make, uint32_t number, int64_t time, pid_t process);
int makes_are_asked(void);
void clear_announcement(struct make *make);
/* Starts the announced line with its process, which is make's own if no other one was reported. */
void start_line(struct make *make, pid_t process);
/* Handles what the make that runs this one has sent, at least up to the start of the line that does so. */
void receive_from_parent(struct make *make);
/* Handles one message that needs no reply. Returns 0 if there is none now. */
int receive_note(struct make *make);
/* Handles what the sub-makes of a recipe sent before they ended. */
void receive_from_sub_makes(struct make *make, uint32_t recipe);
