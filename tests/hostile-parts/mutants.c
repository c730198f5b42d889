// Gives a program files that were changed at random:
//   mutants KIND SEED FIRST LAST PROGRAM BASE..
// KIND is program, probes, trace, script or image. Of the files BASE.KIND (BASE.stab for a program) the FIRST-th to the LAST-th
// change is made, and the program runs on each, beside BASE.stab and BASE.probes. Each run must end within ten seconds of processor
// time with a status that may come, with the line on standard error that goes with it, and with a place in the file where it names
// one. It prints a line for each that doesn't and keeps the file as wrong.KIND.NUMBER, and then how often each answer came. Before that
// it runs on each file as it is, which isn't refused.
#include "mutate.h"
#include <ctype.h>
#include <stdio.h>
#include <stdlib.h>
#include <string.h>

enum { SECONDS = 10, ANSWERS = 64 };

static const char *const names[] = {
    "Done", "Held", "BadWords", "BadText", "NoFile", "TooBig", "FileFault", "SinkFault", "Spent", "NoMemory",
    "BadProbes", "BadTrace", "BadScript", "No", "", "Untyped", "NoCut", "BadImage"};

// The refusals that have no place.
static const char *const of_all[] = {"stab: BadText EarlyEnd", "stab: BadText NoMain", "stab: BadText MainTakes",
    "stab: BadTrace NoEnd", "stab: BadImage NoEnd", "stab: BadImage BadProgram"};

static struct { char name[64]; long count; } answers[ANSWERS];
static char program_file[4096], probes_file[4096], mutant_file[64];
static struct text mutant, other;
static struct ended ended;

// Counts the answer, which is the line on standard error without its numbers.
static void count_answer(const char *line) {
    char name[64];
    size_t length = 0;
    while (*line && length < sizeof name - 1) {
        name[length++] = *line++;
        while (*line == ' ' && isdigit((unsigned char)line[1])) line += 1 + strspn(line + 1, "0123456789");
    }
    name[length] = 0;
    for (int k = 0; k < ANSWERS; k++) {
        if (!answers[k].count) strcpy(answers[k].name, name);
        if (strcmp(answers[k].name, name)) continue;
        answers[k].count++;
        return;
    }
}

// How many lines the file has.
static size_t lines(void) {
    size_t count = 0;
    for (size_t k = 0; k < mutant.length; k++) count += mutant.bytes[k] == '\n';
    return count;
}

// Whether a refusal names no place, as where something is missing in the whole text.
static int is_of_all(const char *line) {
    for (int k = 0; k < 6; k++)
        if (!strcmp(line, of_all[k])) return 1;
    return 0;
}

// Whether the numbers of the line are a place in the file and a length there, for probes, a trace or a script the first byte of a line,
// and for a verdict the number of an event.
static int is_within(const char *line, int status) {
    size_t numbers[2] = {0, 0};
    int count = 0;
    if (is_of_all(line)) return 1;
    while ((line = strchr(line, ' ')) != NULL)
        if (isdigit((unsigned char)*++line) && count < 2) numbers[count++] = strtoull(line, NULL, 10);
    if (status == 13) return count == 1 && numbers[0] >= 1 && numbers[0] < lines();
    if (!count || (count == 2 && status != 3) || numbers[0] >= mutant.length) return 0;
    if (status >= 10 && status <= 12) return !numbers[0] || mutant.bytes[numbers[0] - 1] == '\n';
    return numbers[1] <= mutant.length - numbers[0];
}

// Whether with this status the program refuses a file as none of its kind.
static int is_refused(int status) { return status == 3 || (status >= 10 && status <= 12) || status == 15 || status == 17; }

// What is wrong with how the program ended, or nothing.
static const char *fault_of(const char *may_come) {
    static char line[512];
    char asked[16];
    size_t length = ended.err.length < sizeof line - 1 ? ended.err.length : sizeof line - 1;
    if (ended.status == OVERDUE) return "it didn't end";
    if (ended.status >= 256) return "a signal";
    snprintf(asked, sizeof asked, " %d ", ended.status);
    if (!strstr(may_come, asked)) return "a status that can't come";
    memcpy(line, ended.err.bytes, length);
    line[length] = 0;
    if (!ended.status) return count_answer("Done"), length ? "a line on standard error without a fault" : NULL;
    if (length < 7 || line[length - 1] != '\n' || strchr(line, '\n') != line + length - 1) return "no line on standard error, or several";
    line[length - 1] = 0;
    size_t named = strlen(names[ended.status]);
    if (memcmp(line, "stab: ", 6) || memcmp(line + 6, names[ended.status], named) || (line[6 + named] && line[6 + named] != ' '))
        return "another name on standard error";
    count_answer(line + 6);
    if (is_refused(ended.status) && ended.out.length) return "an output in spite of a refusal";
    return (is_refused(ended.status) || ended.status == 13) && !is_within(line, ended.status) ? "a place that isn't in the file" : NULL;
}

// Runs the program on the words, and says what is wrong.
static const char *call(const char *may_come, const char *program, const char *const words[]) {
    static char *const settings[] = {NULL};
    char *all[16] = {(char *)program};
    for (int k = 0; words[k]; k++) all[k + 1] = (char *)words[k];
    run(all, settings, SECONDS, &ended);
    return fault_of(may_come);
}

// The program's trace of a mutant that runs must pass its own verdict.
static const char *judge_own(const char *program) {
    const char *const words[] = {"verify", mutant_file, "own.trace", "--probes", probes_file, NULL};
    FILE *file = fopen("own.trace", "wb");
    if (!file || fwrite(ended.out.bytes, 1, ended.out.length, file) != ended.out.length || fclose(file)) stop("own.trace");
    return call(" 0 ", program, words);
}

static const char *try_program(const char *program, long number) {
    const char *const running[] = {"run", mutant_file, "--fuel", "20000", "--probes", probes_file, NULL};
    const char *const checking[] = {"check", mutant_file, NULL};
    const char *const tracing[] = {"trace", mutant_file, "--fuel", "20000", "--probes", probes_file, NULL};
    const char *wrong = call(" 0 1 3 8 ", program, running);
    int is_text = ended.status != 3;
    if (!wrong) wrong = call(is_text ? " 0 " : " 3 ", program, checking);
    if (wrong || !is_text || number % 10) return wrong;
    wrong = call(" 0 1 8 ", program, tracing);
    return wrong ? wrong : judge_own(program);
}

static const char *try_file(const char *program, enum form form, long number) {
    const char *const calls[][8] = {
        [PROBES] = {"run", program_file, "--fuel", "20000", "--probes", mutant_file, NULL},
        [TRACE] = {"verify", program_file, mutant_file, "--probes", probes_file, NULL},
        [SCRIPT] = {"drill", program_file, mutant_file, "--probes", probes_file, NULL},
        [IMAGE] = {"resume", mutant_file, "--fuel", "20000", NULL},
    };
    const char *const may_come[] = {[PROBES] = " 0 1 8 10 ", [TRACE] = " 0 11 13 ", [SCRIPT] = " 0 12 ", [IMAGE] = " 0 1 8 17 "};
    return form == PROGRAM ? try_program(program, number) : call(may_come[form], program, calls[form]);
}

static void write_file(const char *path) {
    FILE *file = fopen(path, "wb");
    if (!file || fwrite(mutant.bytes, 1, mutant.length, file) != mutant.length || fclose(file)) stop(path);
}

static void path_of(const char *base, enum form form, char *path) {
    snprintf(path, 4096, "%s.%s", base, form == PROGRAM ? "stab" : form_names[form]);
}

static void load_base(const char *base, enum form form, struct text *text) {
    char path[4096];
    path_of(base, form, path);
    load(path, text);
}

// Tries the file that comes of this base, and prints what is wrong with it.
static long try_of(const char *program, enum form form, long number, const char *base) {
    char kept[64];
    path_of(base, PROGRAM, program_file);
    path_of(base, PROBES, probes_file);
    snprintf(mutant_file, sizeof mutant_file, "mutant.%s", form_names[form]);
    write_file(mutant_file);
    const char *wrong = try_file(program, form, number);
    int is_no = is_refused(ended.status) || (form == TRACE && ended.status);
    if (!wrong && !number && is_no) wrong = "a file as it is was refused";
    if (!wrong) return 0;
    snprintf(kept, sizeof kept, "wrong.%s.%ld", form_names[form], number);
    write_file(kept);
    printf("%s %ld of %s: %s, status %d, %.*s\n", form_names[form], number, base, wrong, ended.status,
           (int)(ended.err.length < 200 ? ended.err.length : 200), ended.err.bytes ? ended.err.bytes : "");
    return 1;
}

static long try_base(const char *program, enum form form, const char *base) {
    load_base(base, form, &mutant);
    return try_of(program, form, 0, base);
}

static long try_one(const char *program, enum form form, uint64_t seed, long number, char **bases, long count) {
    load_base(bases[(number / count + 1) % count], form, &other);
    load_base(bases[number % count], form, &mutant);
    mutate(&mutant, &other, form, seed, number);
    return try_of(program, form, number, bases[number % count]);
}

int main(int count, char **words) {
    enum form form = 0;
    long wrong = 0;
    while (count > 6 && form < FORMS && strcmp(words[1], form_names[form])) form++;
    if (count < 7 || form == FORMS) {
        fprintf(stderr, "mutants KIND SEED FIRST LAST PROGRAM BASE..\n");
        return 2;
    }
    long first = atol(words[3]), last = atol(words[4]);
    uint64_t seed = strtoull(words[2], NULL, 10);
    setvbuf(stdout, NULL, _IOLBF, 0);
    for (int k = 6; k < count; k++) wrong += try_base(words[5], form, words[k]);
    memset(answers, 0, sizeof answers);
    for (long number = first; number <= last; number++) wrong += try_one(words[5], form, seed, number, words + 6, count - 6);
    printf("%s: %ld files, %ld wrong\n", words[1], last - first + 1, wrong);
    for (int k = 0; k < ANSWERS && answers[k].count; k++) printf("  %ld %s\n", answers[k].count, answers[k].name);
    return wrong > 0;
}
