// Files changed at random.
#include "child.h"
#include <stdint.h>

// The kinds of files.
enum form { PROGRAM, PROBES, TRACE, SCRIPT, IMAGE, FORMS };

extern const char *const form_names[FORMS];

// Changes the text of one file, of which `other` is another, in a way that the seed, the form and the number determine.
void mutate(struct text *text, const struct text *other, enum form form, uint64_t seed, uint64_t number);
