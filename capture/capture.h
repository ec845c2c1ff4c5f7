/* Declarations that the parts of redo-log-capture share.

   A capture directory has the files that redo-log reads, `names` and a `log.NUMBER` for each of its lines, and `.capture`:
     lock      locked (flock) by the run that writes the directory; contains the number of its process
     run       the run journal of the last run: what began and ended, for --finish and for the next run
     closed    the numbers and names of the closed logs, except logs that the journal's run has begun again
   One process, the server, writes all of it. */
#include <stddef.h>
#include <stdint.h>
#include <stdio.h>
#include <string.h>
#include <sys/types.h>

/* message.c: messages on standard error */

/* Prints a line on standard error, after the program's name. */
void warn(const char *format, ...) __attribute__((format(printf, 1, 2)));
/* Like warn, unless the last call had the same message. */
void warn_once(const char *message);
/* Prints a line and exits. */
_Noreturn void die(int status, const char *format, ...) __attribute__((format(printf, 2, 3)));
/* Returns a word, quoted for a shell if necessary. */
char *shell_quote(const char *word);
struct command {
  char *bytes; /* the arguments, each followed by a NUL; the last NUL is missing if the command was truncated */
  size_t size;
};
/* Gets a text piece by piece. */
typedef void text_sink(const char *bytes, size_t size, void *to);
/* Passes on a command as a user would type it: what a shell runs, or the arguments. Returns whether the command was truncated.
   Doesn't allocate. */
int format_command(const struct command *command, text_sink *add, void *to);

/* memory.c: memory */

/* Called if memory can't be allocated; doesn't return. If it is NULL, die is called. */
extern void (*oom_handler)(void);
/* Like realloc and asprintf, but don't return if memory can't be allocated. */
void *xrealloc(void *memory, size_t size);
char *xasprintf(const char *format, ...) __attribute__((format(printf, 1, 2)));
/* Returns the array with room for at least one more element of this size. */
void *grow_array(void *array, size_t count, size_t *capacity, size_t element_size);
/* A stream that writes to memory. Neither returns if memory can't be allocated. */
FILE *xopen_memstream(char **bytes, size_t *size);
void xclose_memstream(FILE *stream);

/* text.c: text that grows */

/* All bytes are 0 at first. None of these functions returns if memory can't be allocated. */
struct text {
  char *bytes;
  size_t size, capacity;
};
/* Makes room for at least this many more bytes. */
void reserve_text(struct text *text, size_t size);
void add_text(struct text *text, const char *bytes, size_t size);
static inline void add_string(struct text *text, const char *string) { add_text(text, string, strlen(string)); }
void add_number(struct text *text, int64_t number);
/* Adds a time in the form that records use. */
void add_time(struct text *text, int64_t time);
/* Writes a number of up to MAX_DIGITS bytes, and returns its end. */
enum { MAX_DIGITS = 20 };
char *write_number(char *to, int64_t number);
int is_utf8(const char *string);

/* buffer.c: buffers of writes */

enum { MAX_BUFFERED = 65536 }; /* in bytes */
struct write_buffer {
  char *bytes;
  size_t size, capacity;
};
/* Returns -1, and adds nothing, if the buffer would get too large or memory can't be allocated. */
int add_to_buffer(struct write_buffer *buffer, const char *bytes, size_t size);
/* Empties a buffer and frees its memory. */
void clear_buffer(struct write_buffer *buffer);

/* io.c: descriptors */

/* Writes all bytes, even to a nonblocking pipe. Returns -1 and sets errno on failure. Signals are forwarded while nobody reads standard
   error; if one of them stops the build, the rest isn't written. */
int write_all(int file, const char *bytes, size_t size);
/* Reads a file to its end and appends a NUL. Returns NULL and sets errno on failure. */
char *read_all(int file, size_t *size);
/* Opens /dev/null for each closed standard descriptor, so that no other file gets its number. */
void reserve_standard_fds(void);
/* Closes all descriptors in this range. */
void close_range_of_descriptors(unsigned first, unsigned last);
/* Writes `count` random hexadecimal digits and a NUL. */
void random_hex(char *digits, size_t count);

/* clock.c: clocks */

/* Milliseconds since 1970, and milliseconds of a monotonic clock. */
int64_t wall_clock_ms(void);
int64_t monotonic_ms(void);

/* path.c: names of targets */

/* Returns the last component of a path. */
const char *base_name(const char *path);
/* The directory in which the run began. Names inside it are relative to it; other names are absolute. */
extern char *base_dir;
void set_base_dir(void);
/* Returns the path of a file whose name may be relative to the base directory. */
char *absolute_path(const char *name);
/* Whether two absolute paths name one directory, which need not exist yet. */
int is_same_directory(const char *path, const char *other);
/* Whether two files have the same name in the same directory. Follows links to directories only. */
int is_same_path(const char *name, const char *other);
/* Returns the normal form of a name relative to `directory`; follows no link. The result is valid until the next call. */
const char *normalize_name(const char *directory, const char *name, size_t size);
/* Like normalize_name, for a name in `names`: an absolute name stays absolute. */
const char *normalize_listed_name(const char *name);
/* Whether the log of `log_owner` can mention a name. It can't if it is outside of the base directory and the name isn't. */
int can_mention(const char *log_owner, const char *name);
/* Adds a name as it is written in the log of `log_owner`, which can mention it. */
void add_name_in_log(struct text *text, const char *name, const char *log_owner);
/* Returns a target's name as it is written in its own log. */
const char *name_in_own_log(const char *name);
/* Returns an absolute path in normal form relative to the base directory, which itself is "". Outside, the path stays absolute. */
const char *relative_to_base(const char *path);

/* target.c: the table of targets */

struct range {
  off_t start, end;
};
/* What processes that have ended took, with the children that they waited for: processor time in microseconds, and the most memory
   of any one of them in kilobytes. */
struct usage {
  int64_t user_us, system_us, peak_kb;
};
/* What the sub-makes of one recipe did for a target. */
struct making {
  struct target *parent;      /* the target of the recipe; `all` if no recipe runs the make, or its log can't mention the target */
  const struct make *make;    /* the first one. Lines that other makes run don't change the start and the end. */
  int is_mentioned;           /* as a prerequisite, in a log that is enough */
  int failed_after_mention;   /* it has failed since */
  int64_t start_time, end_time;
  int status;                 /* as target_run has it */
  const struct failure *last_failure; /* the last line, if it has failed */
  struct making *next;
};
/* The line of a recipe that runs a sub-make. */
struct caller {
  struct target *target; /* the target of the recipe; may be NULL */
  unsigned line;         /* the number of the line; 0 if it is not known */
};
/* That a line of a target failed, and its make did not go on with the recipe. */
struct failure {
  struct target *target;
  struct making *making; /* as in struct line */
  const struct make *make;
  uint32_t recipe;      /* the number of the line's recipe in that make */
  unsigned line;        /* the number of the line */
  int status;           /* as a shell reports it */
  struct caller caller; /* of the make */
  int is_ignored;       /* the make is known to have ignored it */
  int is_interrupted;   /* it failed after a signal had stopped the build */
  int is_unstarted;     /* make could not start the line */
  int has_cause;        /* set by report.c: a line that a sub-make ran meanwhile failed */
  struct failure *next; /* the target's failure before this one */
  struct failure *next_in_make;
};
/* What has happened to a target in this run. Reset when its first recipe begins. */
struct target_run {
  int has_begun;
  struct target *parent;      /* the target whose recipe runs first_make; may be NULL */
  struct making *makings;     /* first_make's comes first */
  struct making *last_making; /* of the last line that began, or that a signal ended; NULL before the first one */
  struct failure *failures;   /* the last one comes first */
  const char *directory; /* of first_make, or of the last other make that makes the target */
  struct usage usage;    /* of its lines that have ended */

  /* The make that began its log. Lines that other makes run don't change its start and its end. */
  const struct make *first_make;
  int64_t start_time, end_time;
  pid_t end_process; /* of the line of the first make that was the last to end so far; 0 before */

  /* The last line. */
  pid_t process;
  int status;         /* as a shell reports it; if it is 0, or ignored, of an earlier double-colon rule that failed in its make; -1 while it
                         runs */
  const struct failure *last_failure; /* its failure; NULL if it hasn't failed */
  int is_interrupted; /* it failed after a signal had stopped the build */

  unsigned last_line;    /* the number of the last line that began */
  int has_running_child; /* set by progress.c: a line runs whose make a recipe of this target runs */
};
/* The log of a target, which this run writes. */
struct log_file {
  int fd;                      /* -1 while the log isn't open */
  int is_prepared;             /* prepare_log opened it, and it wasn't emptied since */
  int must_be_emptied, is_new; /* before it is written; is_new: no file has its name yet */
  int is_lost;                 /* somebody has removed it */
  int is_unwritable, is_full;  /* is_full: it gets no more text */

  int has_text, has_unshown_text, is_mid_line; /* has_unshown_text: show_output hasn't printed its last text */
  const struct pipe *mid_line_pipe; /* from which its last text came; NULL if the pipe is closed */

  struct write_buffer buffer; /* the end of the log, which isn't written yet */
  int is_dirty;               /* it is in the list of logs to be flushed */
  struct target *next_dirty;

  /* Sizes: the records at its start, all of it, the written prefix, the printed prefix. */
  off_t header_size, size, written_size, shown_size;
  struct range *mentions; /* the provisional records */
  size_t mention_count, mention_capacity;
  struct text child_records; /* set by finish.c: records of the targets that sub-makes of its recipe made */
};
struct target {
  char *name;
  struct target *next;    /* in the same hash bucket */
  unsigned number;        /* of the log; 0 if the target isn't listed */
  int is_closed;          /* the log has its closing record, and wasn't begun again */
  unsigned running_lines; /* the number of lines that run */
  struct target_run run;
  struct log_file log;
};
extern struct target **targets;
extern size_t target_count;
/* The target `all`, for the run as a whole. Its log has number 1. */
extern struct target *run_target;
/* Returns NULL if there is no such target. */
struct target *find_target(const char *name);
struct target *add_target(const char *name);
/* Whether a known name may begin with this one and a space. */
int is_known_prefix(const char *name);
/* Forgets everything about the targets except their names and the number of lines that run. */
void clear_targets(void);
/* Returns what the sub-makes of a recipe of this parent did for the target, or NULL. */
struct making *making_for(const struct target *target, const struct target *parent);
/* Adds a making at the end, which begins at this time. */
struct making *add_making(struct target *target, struct target *parent, const struct make *make, int64_t time);
/* A line of the making has ended. */
void end_making(struct making *making, int64_t time, int status);
/* Returns the target in whose log the sub-makes of a recipe of `parent`, which may be NULL, are recorded as makers of the target: `all`
   if that log can't mention the target. */
struct target *log_parent(const struct target *target, struct target *parent);
/* Returns the targets that began in this run, sorted by name. */
struct target **sorted_targets(size_t *count);

/* index.c: the index, `names` */

enum { MAX_LOGS = 1048575 };
/* Reads the index, and sets the number of each target. Leaves out lines that redo-log would reject, with a message. Targets that
   are no longer listed lose their number. Returns -1 if the file exists and can't be read. */
int read_index(void);
/* Reads the index again. Adds the targets that began in this run, if their lines are missing, and `all`. */
int relist_targets(void);
/* Writes the index if it has changed. If `with_flags` is set, each closed log gets the must-close flag. Returns -1 on failure. */
int write_index(int with_flags);
/* Adds a line of the index, without a flag. */
void add_index_line(struct text *text, unsigned number, const char *name);
/* Gives a target a number and a line in the index, which flush_index writes. Returns -1 on failure. */
int add_to_index(struct target *target);
/* Appends the lines of new targets to `names`. */
void flush_index(void);
/* Returns the number in the name of a log; 0 if it is no log. */
unsigned parse_log_name(const char *name);
/* Returns the target of a number; NULL if no line has it. */
struct target *find_listed_target(unsigned long number);
void close_index(void);

/* check.c: checks before the build starts */

/* Exits if the directory can't be written or isn't a capture directory. */
void check_directory(void);
/* Exits if a file of the directory isn't a regular file that can be written. */
void check_files(void);
/* Returns why a directory can't be created or written; NULL if it can. */
const char *why_not_writable(const char *path);

/* directory.c: the capture directory */

/* The capture directory unless --dir names another one. shell/launcher and the completions look for it too. */
#define DEFAULT_DIRECTORY ".redo-log"
/* The directory as the command line names it, its absolute path, and its descriptor while it is open. */
extern const char *directory_name;
extern char *directory_path;
extern int directory_fd;
extern int failed_writes;
void set_directory(const char *name);
/* Opens the directory at the first recipe of this run; later calls do nothing. Returns -1 if another run has locked it or it can't
   be written; then nothing is captured. */
int open_directory(void);
int is_capturing(void);
/* Whether this run captures nothing, because another run has locked the directory or it can't be written. */
int is_dropped(void);
/* Opens the directory to finish the logs of an earlier run. */
void open_interrupted_run(void);
/* If somebody has removed the directory, forgets all that was captured. The next recipe creates the directory again. */
void check_removal(void);
/* Like check_removal, but does nothing if the last check was later than `time`, the time of a message: what happened before the message
   was sent had happened by then. */
void check_removal_since(int64_t time);
/* Opens a file of the directory or of its `.capture`. Fails with ELOOP if it is a symbolic link. Doesn't block on a FIFO. */
int open_in_directory(const char *name, int flags);
/* Opens or creates a file to append to it. One that has another link is replaced by a copy, so that the other one stays unchanged. */
int open_to_append(const char *name);
/* Returns the contents of a file of the directory; NULL if it doesn't exist or can't be read. */
char *read_file(const char *name, size_t *size);
/* Replaces a file atomically. On failure, prints a message and returns -1. */
int replace_file(const char *name, const char *bytes, size_t size);
/* Prints that a file can't be written, with the cause in errno. For a full device it prints one line. */
void report_write_error(const char *name);
/* If the directory was moved while the build ran, messages name its new path from now on. */
void find_moved_directory(void);
void close_directory(void);

/* journal.c: the run journal, for --finish and for the next run */

/* These return -1 if the journal can't be written. */
int begin_journal(void);
/* Adds that a target began. It is buffered until flush_begun_targets, which is called before logs are emptied. */
void begin_in_journal(const struct target *target);
int flush_begun_targets(void);
/* Adds another event, once the log has what the event says: its kind and its numbers. It is buffered until flush_journal, which is
   called when logs are written. */
void write_journal(const char *kind, size_t count, const int64_t *numbers);
void add_to_journal(const char *lines, size_t size);
void flush_journal(void);
int end_journal(void);
void close_journal(void);
/* Whether there is a journal, and whether its run was finished. */
enum journal_state { NO_JOURNAL, RUNNING, FINISHED };
enum journal_state read_journal_state(void);
/* Restores the state of an unfinished run from its journal. */
void read_journal(void);
/* Reads which logs are closed. Does nothing without a journal, which lists the logs that were begun again. */
void read_closed(void);
int write_closed(void);

/* log.c: the logs */

/* Begins an empty log. An existing one is emptied or replaced. `is_new`: there is none. */
void begin_log(struct target *target, int is_new);
void append_header(struct target *target, const char *records, size_t size);
/* Appends output of a recipe. A line that would be a record gets a space before it. If another pipe left an unended line, that line is
   ended. Output that can't be written, or for which the log has no space, goes to standard error. */
void append_text(struct target *target, const char *bytes, size_t size, const struct pipe *from);
void complete_line(struct target *target);
/* Records that these bytes of a log are a provisional record. */
void add_mention(struct log_file *log, off_t start, off_t end);
/* Appends a provisional record to the log of a parent: that the target began, or, unless `status` is -1, that it ended. */
void mention_in_parent(struct target *parent, const struct target *target, pid_t process, int64_t time, int status);
/* Writes the buffer of one log, or of all logs. If `can_begin` isn't set, the journal can't be written, and no log may be
   begun. */
int flush_log(struct target *target);
void flush_logs(int can_begin);
void forget_logs(void);
/* If somebody has removed the log, closes it. The next write creates it again. */
void detect_lost_log(struct target *target);
/* Writes the buffer, and returns a descriptor of the log, or -1. */
int open_log(struct target *target);
/* Opens the log of a target whose line may start next and remove the directory, so that no file is created meanwhile. */
void prepare_log(struct target *target);
/* Writes the text of a log to standard error if the log was to be created when a line has ended. */
void forward_held_log(struct target *target);
void close_log(struct target *target);
/* Closes a log when logs are flushed next, if too many are open. */
void close_log_soon(struct target *target);
/* Closes the descriptors of all logs, so that other files can be opened. A log is opened again when it is written. */
void close_all_logs(void);
const char *log_file_name(unsigned number);
/* Whether a line of a log is a record. */
int is_record(const char *line, size_t size);
/* Adds the start of a record, `@@REDO:KIND:PROCESS:TIME@@ `. */
void add_record(struct text *text, const char *kind, pid_t process, int64_t time);
/* Adds a status and a space, which follow the start of a `done` record. */
void add_status(struct text *text, int status);
/* Returns a time in the form that records use. */
const char *format_time(int64_t time);

/* The kinds of descriptors that the server's loop waits for. */
enum source_kind { SIGNALS, LISTENER, MAKE, DEFERRED, NOTES, PIPE };
struct source {
  enum source_kind kind;
  int fd;
};

/* pipe.c: the output of recipes */

/* Whether recipes get terminals instead of pipes, as long as there are any (--colour). Below, a pipe may be a terminal. */
extern int uses_terminals;
/* Whether this is the end of a terminal that the server reads. */
int is_terminal(int descriptor);
/* Gives all terminals the size of the window, which has changed. */
void resize_terminals(void);
struct pipe;
/* Takes ownership of the descriptor. Nothing is read before start_pipe. If memory can't be allocated, takes one of some pipes that are
   kept for this; if there is none left, copies the output to standard error, and returns NULL. */
struct pipe *new_pipe(int descriptor, struct target *target);
void start_pipe(struct pipe *pipe, struct target *target);
/* Lets the loop wait for started pipes that are still open. With `only_old`, it waits for those alone that an earlier
   call has seen; the next call follows soon. */
void watch_pipes(int only_old);
void close_pipe(struct pipe *pipe);
/* Reads the contents of the pipe; if `waits_for_more` is set, also bytes that arrive shortly. At the end of input, when no process can
   write to it any more, closes the pipe and returns 1. */
int drain_pipe(struct pipe *pipe, int waits_for_more);
/* Reads once. Returns the number of bytes. */
size_t read_pipe(struct pipe *pipe);
/* Writes unended lines to which nothing was added for a while. Returns in how many milliseconds the next one may be due; -1 if
   there is none. */
int flush_idle_pipes(void);
void flush_pipe(struct pipe *pipe);
/* Reads all pipes at the end of the run, while background processes may still write. */
void flush_pipes(void);
void drain_in_background(void);
/* Copies the contents of all pipes to standard error. Doesn't allocate. */
void forward_pipes(void);
void free_closed_pipes(void);

/* recipe.c: recipes and their lines */

struct make;
struct line {
  struct make *make;
  uint32_t recipe; /* its number in this make */
  pid_t process;
  struct target *target;
  struct pipe *pipe;
  struct command command;
  int64_t start_time;
  unsigned number;       /* among all lines, in the order in which they began */
  struct making *making; /* NULL if the log of its target hasn't begun */
  struct caller caller;  /* of the make; its target may be the same one */
  int is_nested;         /* a recipe of the same target runs its make, and the usage of that recipe has that of this line */
  int failed_children;   /* how many lines of its sub-makes failed, without those whose make is known to ignore that */
  int has_sub_make;      /* it runs a make */
  int has_printed;       /* text has arrived in its pipe */
  const char *directory_before; /* run.directory before the line; NULL if the log of its target hadn't begun */
  struct line *next;
};
extern struct line *lines; /* the lines that run now */
/* Returns when the first one of the makes that run the target began to do so. */
int64_t running_since(const struct target *target);
/* Takes ownership of the command and of its pipe, which may be NULL. */
void begin_line(struct make *make, uint32_t recipe, struct target *target, struct command command, int64_t time, pid_t process,
                struct pipe *pipe);
/* How a line ended. `is_stopping`: a signal stops its make. */
struct line_end {
  int wait_status; /* as waitpid returns it */
  int is_stopping;
  int64_t time;
  struct usage usage;
};
/* Returns the line, or NULL if the process is no line. */
struct line *find_line(const struct make *make, pid_t process);
void end_line(struct line *line, struct line_end end, int is_shown);
/* Records that the make ignores the failure of the line that ended last. If it is the last line, the recipe has succeeded. */
void ignore_last_failure(struct make *make);
/* Records that the make ignores all failures of its lines so far. */
void ignore_failures(struct make *make);
/* Records that a line runs this make. */
void add_sub_make(const struct make *make);
/* Ends a line that make couldn't start. */
void fail_line(struct make *make, uint32_t recipe, struct target *target, pid_t process, int64_t time);
/* Begins the log of a target, whose first line has a process now, with the records at its start. Mentions the target in the log of its
   parent. */
void begin_target(struct target *target, struct make *make, struct target *parent, const char *prerequisites, int64_t time,
                  pid_t process);
/* Whether a signal stopped make while one of its lines ran. */
extern int was_stopped;

/* facts.c: the facts of recipes, the file `facts` */

/* Whether the commands of all lines are recorded, and not only the commands of lines that failed. */
extern int records_all_commands;
/* Opens the file before the logs of the run begin. If this or a write fails, prints a message, and nothing is recorded. */
void open_facts(void);
/* Begins the facts of a target again. */
void begin_facts(const struct target *target);
/* Records the directory of a target that another make makes, too. */
void record_directory(const struct target *target);
void record_command(const struct target *target, const struct command *command);
/* Records what the lines of the target that have ended took. */
void record_usage(const struct target *target);
/* Returns milliseconds of processor time; -1 if no line has ended. */
int64_t processor_time_ms(const struct target *target);
/* Writes which targets have begun. Called before logs are emptied. */
void flush_begun_facts(void);
/* Writes all facts. Called when logs are written. */
void flush_facts(void);
/* Drops superseded facts at the end of the run, if they are more than half of the file. */
void compact_facts(void);
void close_facts(void);

/* make.c: the makes of a build */

/* Returns NULL if the socket can't be added to the loop. */
struct make *accept_make(int descriptor);
/* Whether standard error of this make is redirected, so that its recipes have no text. */
int is_redirected(const struct make *make);
/* Whether `$(shell ..)` runs this make, so that nobody need care whether it fails. */
int is_in_shell_function(const struct make *make);
const char *make_directory(const struct make *make);
/* Returns the target whose recipe runs this make, or NULL. */
struct target *parent_target(struct make *make);
struct make *make_from_notes(struct source *notes);
void disconnect_make(struct make *make);
/* Handles the notes of makes that are still connected when the command has ended. A child has the sockets of its make until it has
   executed its program, so that the end of a make that was killed may go unnoticed. */
void receive_last_notes(void);
/* The number of connections that have not sent HELLO. Any user can connect. drop_pending_make closes the oldest one, unless HELLO is there
   now; it returns 0 if there is none. */
size_t count_pending_makes(void);
int drop_pending_make(void);
/* When memory has run out, sends a reply to all makes that wait for one. */
void reply_to_all(void);
/* Lets makes wait for a reply to each line from now on, because descriptors or memory run out. */
void ask_makes(void);

/* make_messages.c: the messages of makes */

/* receive_from_make handles the messages that have arrived: all that need no reply, then at most one that does. receive_notes
   handles only those that need no reply. */
void receive_from_make(struct make *make);
void receive_notes(struct make *make);

/* display.c: the lines on standard error while the build runs */

extern int show_mode, captures_output; /* as in protocol.h */
void show_output(const struct line *line, int status);

/* server.c: the loop that serves the build */

/* Adds a source to the loop. Returns -1 if it can't be polled, or memory can't be allocated. */
int watch_source(struct source *source);
void close_source(struct source *source);
void close_unwatched(struct source *source);
void listen_for_makes(void);
/* Sets CAPTURE_RUN for the makes of this run, or to other parts. */
void export_run(void);
struct run_variable;
void set_run_variable(const struct run_variable *run);
int is_run_token(const char *bytes);
/* Lets the loop read messages that need no reply, and pipes, a little later. */
void defer_reading(void);
/* Whether this is one of the last descriptors, which are needed to open logs and other files. */
int is_among_last_descriptors(int latest);
/* How many logs may stay open although no line of their recipes runs. */
size_t max_open_logs(void);
/* Whether the process has so few descriptors left that makes should wait for a reply to each line. */
int is_short_of_descriptors(int latest);
void warn_too_many_files(void);
/* Writes all buffers to the capture directory. */
void flush_captures(void);
/* Serves the build until the command has ended. */
void serve_command(void);
/* If set, nothing more is captured, and the build goes on. */
extern int is_out_of_memory;
/* Calls `step`. Returns -1 if memory runs out. */
int try_step(void (*step)(void));

/* progress.c: the lines of --progress */

/* From now on, a line is due every `seconds` seconds. */
void start_progress(int seconds);
/* Returns in how many milliseconds the next line is due; -1 if there are no lines. */
int progress_wait_ms(void);
/* Prints a line if it is due. Doesn't allocate. */
void print_progress(void);

/* command.c: the command, and signals */

extern int command_status, command_signal; /* the status as a shell reports it; the signal that ended the command, or 0 */
/* The signal to this process that asked the build to stop, or 0, and its time. The build may go on. */
extern int stop_signal;
extern int64_t stop_time;
void block_signals(void);
int open_signal_fd(void);
int get_signal_fd(void);
void start_command(char **command);
/* Handles the signals that have arrived. Returns 1 once the command has ended. */
int handle_signals(void);
/* Whether a call of handle_signals has found that the command has ended. Writing to standard error may call it. */
int has_command_ended(void);
/* Returns a wait status as a shell reports it. */
int shell_status(int wait_status);
_Noreturn void exec_command(char **command);
/* Once the command has ended, runs a program with these words and this standard output, and waits for it. A signal that asks this process
   to end is passed on, and stored in `*end_signal`. Returns the wait status, or -1 with errno if the program can't be run. */
int run_program(char **words, int output, int *end_signal);
/* Whether a path is a file that can be executed. */
int is_program(const char *path);
/* Returns the path of a program in one of the directories of PATH, or NULL. */
char *find_in_path(const char *name);
_Noreturn void die_cannot_run(const char *command, int error);
/* Ends this process by a signal. Returns if that isn't possible, because it is the first process of a container. */
void end_by_signal(int signal);
_Noreturn void exit_like_command(void);
const char *signal_name(int signal);

/* finish.c: records that are written when the run has ended */

/* `status` is the exit status of the run, or -1 if it isn't known. */
void finish(int status, int must_close);

/* report.c: the last lines, and the summary */

void report(const char *command, int is_quiet);
void write_summary(const char *path);

/* output.c: the files of --summary, --html and --json */

/* Returns the descriptor that a path such as /dev/stdout or /dev/fd/3 names, or -1. */
int named_descriptor(const char *path);
/* Exits if the file can't be written when the build has ended. */
void check_output(const char *path);
/* Whether one of two files would overwrite the other. */
int is_same_output(const char *path, const char *other);
/* Replaces a regular file as a whole; writes to anything else, such as a pipe or a descriptor. Returns -1 and sets errno on failure. */
int write_output(const char *path, const char *bytes, size_t size);

/* export.c: the files that other programs write when the build has ended */

enum { EXPORT_COUNT = 2 };
struct export {
  const char *option, *kind; /* the kind of the file, for messages */
  const char *program;
  const char *path; /* of the file; NULL if the option isn't given */
  char *words[4];   /* the command line of the program */
  int output;       /* the standard output of the program */
};
extern struct export exports[EXPORT_COUNT];
/* Exits if there is no such program. */
void prepare_export(struct export *export);
/* Prints a message if the file can't be written. Doesn't allocate. */
void write_export(struct export *export);

/* capture_def.c: the path of capture.def, and the temporary directory that it may need */

/* Returns the path of this program. */
char *program_path(void);
/* Returns the path of capture.def as makes shall read it. Exits if it or capture.so can't be read. */
char *find_capture_def(void);
void remove_temporary_directory(void);

/* launcher.c: redo-log-capture --recipe */

_Noreturn void launch(char **command);
/* Whether this process belongs to a build that is captured to the same directory. A shell or server that was started in a build may have
   the variable of a build that has ended. */
int is_within_run(void);
