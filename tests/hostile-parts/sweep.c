// Disturbs each call of one kind that a program makes, one in each run:
//   sweep LIBRARY KIND FIRST EACH STATUS OUTPUT REASON PROGRAM WORD..
// KIND is a kind of refuse.c, which LIBRARY is. The first FIRST calls are refused in turn, and of the others each EACH-th. Undisturbed,
// the program must end with STATUS and write what the file OUTPUT holds, and on standard error REASON, if that isn't empty.
// A run with a refused allocation must end so too, or with NoMemory and a beginning of that output; with a refused open or read it must
// end with FileFault and no output, and with a refused write with SinkFault and one line for each write before. Any other run must end
// as the undisturbed one. It prints a line for each that doesn't, then one that counts the answers. The exit status is 1 where one was
// wrong.
#include "child.h"
#include <stdio.h>
#include <stdlib.h>
#include <string.h>

enum { SECONDS = 10, NO_MEMORY = 9, FILE_FAULT = 6, SINK_FAULT = 7 };

static const char *const kinds[] = {"alloc", "open", "read", "write", "error"};
static char refuse[32], at[32], counts[4200], preload[4200];
static char *settings[] = {preload, refuse, at, counts, NULL};
static struct ended whole, ended;
static struct text wanted;

static int is_kind(const char *kind) { return !strcmp(refuse + strlen("REFUSE="), kind); }

static int is_alloc(void) { return is_kind("alloc") || is_kind("scarce"); }

static int is_write(void) { return is_kind("write") || is_kind("nothing"); }

static int is_input(void) { return is_kind("open") || is_kind("read"); }

// Whether standard error has a status's line, or nothing of it where there is no memory to write it.
static int says(const char *name) {
    const char *text = ended.err.bytes;
    size_t length = ended.err.length, word = strlen(name);
    if (!length) return is_alloc();
    return length > word + 6 && !memcmp(text, "stab: ", 6) && !memcmp(text + 6, name, word) &&
           memchr(text, '\n', length) == text + length - 1;
}

static int is_beginning(const struct text *text, const struct text *of) {
    return text->length <= of->length && !memcmp(text->bytes, of->bytes, text->length);
}

// Where there is no memory for the line on standard error it is left out, and a write of it may be refused.
static int is_as_undisturbed(void) {
    int is_said = is_text(&ended.err, whole.err.bytes, whole.err.length);
    if (is_kind("error") || is_alloc()) is_said = is_beginning(&ended.err, &whole.err);
    return is_said && ended.status == whole.status && is_text(&ended.out, whole.out.bytes, whole.out.length);
}

// Whether the output is so many whole lines.
static int has_lines(long count) {
    for (size_t k = 0; k < ended.out.length; k++) count -= ended.out.bytes[k] == '\n';
    return !count && (!ended.out.length || ended.out.bytes[ended.out.length - 1] == '\n');
}

// Whether a call that was refused may have been answered in this way.
static int is_due(long number) {
    if (is_input()) return ended.status == FILE_FAULT && !ended.out.length && says("FileFault");
    int is_begun = is_beginning(&ended.out, &whole.out);
    if (is_write()) return ended.status == SINK_FAULT && is_begun && has_lines(number - 1) && says("SinkFault");
    return is_as_undisturbed() || (is_alloc() && ended.status == NO_MEMORY && is_begun && says("NoMemory"));
}

static long count_of(const char *path) {
    long count[5] = {0};
    FILE *file = fopen(path, "r");
    if (!file) stop(path);
    for (int k = 0; k < 5; k++)
        if (fscanf(file, "%ld", &count[k]) != 1) stop("counts");
    fclose(file);
    for (int k = 0; k < 5; k++)
        if (is_kind(kinds[k])) return count[k];
    return is_kind("scarce") ? count[0] : is_kind("nothing") ? count[3] : 1;
}

static int refuse_one(char **words, long number) {
    snprintf(at, sizeof at, "AT=%ld", number);
    run(words, settings, SECONDS, &ended);
    if (is_due(number)) return 0;
    printf("%s %ld: status %d, %zu bytes of output, %.*s\n", refuse + strlen("REFUSE="), number, ended.status, ended.out.length,
           (int)(ended.err.length < 200 ? ended.err.length : 200), ended.err.bytes ? ended.err.bytes : "");
    return 1;
}

// Disturbs one call after the other, and counts what came.
static long refuse_all(char **words, long all, long first, long each) {
    long runs = 0, wrong = 0, same = 0, answers[NO_MEMORY + 1] = {0};
    for (long number = 1; number <= all; number += number < first ? 1 : each) {
        runs++;
        wrong += refuse_one(words, number);
        if (is_as_undisturbed()) same++;
        else if (ended.status >= 0 && ended.status <= NO_MEMORY) answers[ended.status]++;
    }
    printf("%s: %ld of %ld, %ld as undisturbed, %ld FileFault, %ld SinkFault, %ld NoMemory, %ld wrong\n", refuse + strlen("REFUSE="),
           runs, all, same, answers[FILE_FAULT], answers[SINK_FAULT], answers[NO_MEMORY], wrong);
    return wrong;
}

// Whether the undisturbed run is as it should be. It takes memory, and an output is written.
static int is_whole(int status, const char *output, const char *reason, long all) {
    char line[512];
    int length = *reason ? snprintf(line, sizeof line, "stab: %s\n", reason) : 0;
    load(output, &wanted);
    int is_it = whole.status == status && is_text(&whole.out, wanted.bytes, wanted.length) && is_text(&whole.err, line, length);
    int has_calls = is_alloc() || (is_write() && wanted.length);
    if (is_it && (all > 0 || !has_calls)) return 1;
    printf("undisturbed: status %d, %zu bytes of output, %ld calls, %.*s\n", whole.status, whole.out.length, all,
           (int)(whole.err.length < 200 ? whole.err.length : 200), whole.err.bytes ? whole.err.bytes : "");
    return 0;
}

int main(int count, char **words) {
    if (count < 9) {
        fprintf(stderr, "sweep LIBRARY KIND FIRST EACH STATUS OUTPUT REASON PROGRAM WORD..\n");
        return 2;
    }
    snprintf(preload, sizeof preload, "LD_PRELOAD=%s", words[1]);
    snprintf(refuse, sizeof refuse, "REFUSE=none");
    snprintf(counts, sizeof counts, "COUNTS=%s.counts", words[1]);
    remove(counts + strlen("COUNTS="));
    run(words + 8, settings, SECONDS, &whole);
    snprintf(refuse, sizeof refuse, "REFUSE=%s", words[2]);
    long all = count_of(counts + strlen("COUNTS="));
    snprintf(counts, sizeof counts, "COUNTS=");
    if (!is_whole(atoi(words[5]), words[6], words[7], all)) return 1;
    return refuse_all(words + 8, all, atol(words[3]), atol(words[4])) > 0;
}
