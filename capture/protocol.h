/* The messages between the hook and the server: one SOCK_SEQPACKET packet per message, in the machine's own byte order, because
   both are built together. `redo-log-capture --recipe` sends the same messages.

   Each make has two sockets. Messages that need a reply go through the first one. All others go through the second one, which
   the first message passes. The server may read it some milliseconds later, and always reads it before it reads a message
   from the first one. A short line of a recipe wakes the server once, and make waits for it only if a message needs a
   reply. Waiting at each line doubled the time of builds with short recipes. The server buffers what it writes for up to four
   reads of messages. A message, and the descriptor that it passes, stay in the socket's queue if make dies. If a queue is
   full, make waits until it isn't.

   A recipe's first LINE, or FAILED, announces the recipe too. RECIPE announces one that has many names.

   A line needs a reply if it is the first one of its make, because the build may be uncaptured; after the server has sent ASK,
   because it runs out of descriptors or memory; and if it may remove the capture directory, because `rm` fails if files appear
   meanwhile: the server creates the log first. Otherwise the server takes each pipe: if a recipe can't be captured, its output goes to
   the server's standard error. With --colour, a terminal takes the place of a pipe. */
#include <stdint.h>

/* make exports this variable to each recipe, with the number of the recipe as its value. The hook removes it again. */
#define RECIPE_VARIABLE "redo-log-recipe-number"

enum {
  TOKEN_SIZE = 32,
  MAX_SOCKET_NAME = 80,
  MAX_BODY = 60000, /* of a message, in bytes */
};

enum message_kind {
  HELLO = 'H',   /* struct hello, and the directory of the make; passes the second socket; reply: struct welcome */
  NAMES = 'N',   /* struct names, and a part of the names of the next RECIPE */
  RECIPE = 'R',  /* struct recipe, and the rest of the names: target, NUL, prerequisites with spaces between them */
  LINE = 'L',    /* struct line_message, names, and the command; passes the read end of a pipe; reply, if it is asked for: struct reply */
  STARTED = 'S', /* struct started: the line that was announced last has started */
  FAILED = 'F',  /* struct failed, and names: make could not start a line, and has not announced it */
  ENDED = 'E',   /* struct ended: a child of make ended; reply, if it is asked for: struct reply */
  IGNORED = 'I', /* struct ignored: make ignores the failure of the child that it has reported last, by ENDED or FAILED */
  WENT_ON = 'W', /* struct went_on: make has ignored each failure of a line so far: it succeeds, or executes itself again */
};

/* What the server sends through the first socket. */
enum reply_kind {
  REPLY = 'r', /* struct reply */
  ASK = 'a',   /* struct reply: each further line needs a reply */
};
enum { NOT_CAPTURED, CAPTURED, NEVER_CAPTURED }; /* a line: NEVER_CAPTURED if no further line of this make will be captured */

enum { SHOW_NOTHING, SHOW_FAILED, SHOW_ALL };

/* Whether make has got a signal that ends it. */
enum { NOT_STOPPING, STOPPING, MAYBE_STOPPING };

/* Each member is aligned without padding, so that no byte of a message is undefined. */
struct hello {
  uint32_t kind, parent_make, parent_recipe;
  int32_t pid;
  uint32_t is_redirected; /* standard error of this make is redirected, so its recipes have no text */
  uint32_t is_in_shell_function; /* `$(shell ..)` runs this make */
  char token[TOKEN_SIZE];
};
struct welcome {
  uint32_t make; /* the number of this make in the run */
  uint32_t show_mode, captures_output, asks; /* asks: as after ASK */
  uint32_t uses_terminals; /* lines get terminals instead of pipes, as long as there are any */
};
struct reply {
  uint32_t kind, value;
};
struct names {
  uint32_t kind;
};
struct recipe {
  uint32_t kind;
  uint32_t number; /* counts the recipes of each make, from 1 */
};
struct line_message {
  uint32_t kind, recipe;
  int64_t time; /* in milliseconds since 1970 */
  uint32_t wants_reply, names_size; /* names_size: of the next recipe's names, unless RECIPE has sent them; otherwise 0 */
};
struct started {
  uint32_t kind;
  int32_t pid;
};
struct failed {
  uint32_t kind, names_size; /* as in LINE */
  int64_t time;
};
struct ended {
  uint32_t kind, wants_reply;
  int32_t pid, wait_status; /* as waitpid returns it */
  uint32_t stopping, reserved;
  int64_t time, user_us, system_us, peak_kb; /* the last three as in struct usage */
};
struct ignored {
  uint32_t kind;
};
struct went_on {
  uint32_t kind;
};
