// A command that was run, and what it gave.
#include <stddef.h>

struct text {
    char *bytes;
    size_t length, room;
};

struct ended {
    int status;          // the exit status, or 256 and the signal that ended it, or OVERDUE
    struct text out, err;
    long kilobytes;      // the most memory that it had
};

enum { OVERDUE = -1 };

// Runs a command with these settings beside the environment's, for so many seconds of processor time at most, and twelve times as many
// by the clock. The texts of an earlier run are used again.
void run(char *const words[], char *const settings[], int seconds, struct ended *ended);

// Puts the text of a file in place of what `text` has.
void load(const char *path, struct text *text);

// Whether the text has these bytes.
int is_text(const struct text *text, const char *bytes, size_t length);

// Ends the program, which can't go on.
void stop(const char *why);
