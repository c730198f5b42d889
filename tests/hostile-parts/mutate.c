// How a file is changed: by one change, or one to six, each of a kind and at a place that a generator of random numbers chooses
// (SplitMix64, begun with the seed, the form and the number of the file). A kind that finds no place leaves the text as it is.
#include "mutate.h"
#include <ctype.h>
#include <stdio.h>
#include <stdlib.h>
#include <string.h>

const char *const form_names[FORMS] = {"program", "probes", "trace", "script", "image"};

// What is put into a text of each form.
static const char *const words[FORMS][33] = {
    {"fn ", "let ", "if ", "else ", "true", "false", "unit", "int", "chan[", "ref(", "get(", "set(", "send(", "recv(", "pick(",
     "spawn ", "stable ", "stabilize()", "cut()", "print(", "probe()", "fst(", "snd(", "pin()", "attempt()", "(", ")", "{", "}",
     ";", "//", "\""},
    {"-", "\n", "\r\n", " ", "\t", "0", "-1", "+", "x", "\r", "--", "- 1", "00", "-0"},
    {"+ ", "- ", "! ", "= ", "w1 ", "w64 ", "local ", "spawn ", "newchan ", "comm ", "newref ", "get ", "set ", "enter ", "cut ",
     "print ", "probe ", "refuse ", "undo ", "pin ", "attempt ", "release ", "end ", "\n", "  ", "-", "stab trace 1\n", "stab trace 2\n"},
    {"lease ", "step ", "commit ", "lease 1\n", "lease 2\n", "commit 1\n", "commit 2\n", "step 1\n", "64", "65", "\r\n", "\n\n", " ", "\t"},
    {"thread ", "chan ", "ref ", "out ", "probes ", "next ", "end\n", "sect ", "fault ", "b ", "l ", "e ", "v ", "u ", "t ", "f ", "i ",
     "s ", "c ", "r ", "p ", "? ", "call ", "spawn ", "stable ", "~ ", ", ", "\n", " ", "-"},
};

static const char *const numbers[] = {
    "0", "1", "2", "3", "63", "64", "65", "999", "1000", "1001", "10000", "2147483648", "4000000000", "4000000001", "4294967295",
    "4294967296", "9223372036854775807", "9223372036854775808", "18446744073709551615", "18446744073709551616",
    "999999999999999999999999999999", "007", "-0", "-1"};

static uint64_t state;

static uint64_t next(void) {
    uint64_t mixed = state += 0x9e3779b97f4a7c15;
    mixed = (mixed ^ mixed >> 30) * 0xbf58476d1ce4e5b9;
    mixed = (mixed ^ mixed >> 27) * 0x94d049bb133111eb;
    return mixed ^ mixed >> 31;
}

// A number below the bound, or 0.
static size_t below(size_t bound) { return bound ? next() % bound : 0; }

// Puts other bytes in place of a part of the text.
static void put(struct text *text, size_t at, size_t removed, const char *bytes, size_t length) {
    char *copy = malloc(length + 1);
    if (!copy) stop("memory");
    memcpy(copy, bytes, length);
    if (text->length + length > text->room) {
        text->room = 2 * (text->length + length);
        text->bytes = realloc(text->bytes, text->room);
        if (!text->bytes) stop("memory");
    }
    memmove(text->bytes + at + length, text->bytes + at + removed, text->length - at - removed);
    memcpy(text->bytes + at, copy, length);
    text->length += length - removed;
    free(copy);
}

static int is_break(char byte) { return byte == '\n'; }

static int is_space(char byte) { return isspace((unsigned char)byte); }

static int is_no_digit(char byte) { return !isdigit((unsigned char)byte); }

static int is_no_name(char byte) { return !isalnum((unsigned char)byte) && byte != '_'; }

// A part of the text between two bytes of which `is_end` holds: the one that a place chosen at random lies in, or the next one.
// A line has its end with it.
static size_t some_part(const struct text *text, int (*is_end)(char), size_t *from) {
    size_t place = below(text->length), end;
    while (place < text->length && is_end(text->bytes[place])) place++;
    for (end = place; end < text->length && !is_end(text->bytes[end]);) end++;
    while (place > 0 && !is_end(text->bytes[place - 1])) place--;
    *from = place;
    return end - place + (is_end == is_break && end < text->length);
}

// Writes one part of the text in place of another, or before it.
static void copy_part(struct text *text, int (*is_end)(char), int keeps) {
    size_t from, to, length = some_part(text, is_end, &from), removed = some_part(text, is_end, &to);
    put(text, to, keeps ? 0 : removed, text->bytes + from, length);
}

static void change_number(struct text *text) {
    size_t from, length = some_part(text, is_no_digit, &from);
    const char *number = numbers[below(sizeof numbers / sizeof *numbers)];
    if (length) put(text, from, length, number, strlen(number));
}

static void put_word(struct text *text, enum form form) {
    size_t count = 0;
    while (count < 33 && words[form][count]) count++;
    const char *word = words[form][below(count)];
    put(text, below(text->length + 1), 0, word, strlen(word));
}

static void repeat_run(struct text *text) {
    size_t from = below(text->length), length = below(32) + 1;
    if (length > text->length - from) length = text->length - from;
    put(text, below(text->length + 1), 0, text->bytes + from, length);
}

static void remove_line(struct text *text) {
    size_t from, length = some_part(text, is_break, &from);
    put(text, from, length, "", 0);
}

static void remove_run(struct text *text, size_t most) {
    size_t from = below(text->length), length = below(most) + 1;
    if (length > text->length - from) length = text->length - from;
    put(text, from, length, "", 0);
}

static void change_byte(struct text *text, size_t removed) {
    char byte = next();
    if (text->length) put(text, below(text->length), removed, &byte, 1);
}

// A change that mostly leaves lines and words in their forms.
static void exchange(struct text *text) {
    switch (below(6)) {
    case 0: copy_part(text, is_break, 0); break;
    case 1: copy_part(text, is_break, 1); break;
    case 2: remove_line(text); break;
    case 3: case 4: copy_part(text, is_no_digit, 0); break;
    case 5: copy_part(text, is_no_name, 0);
    }
}

static void change(struct text *text, const struct text *other, enum form form) {
    size_t from;
    switch (below(20)) {
    case 0: if (text->length) text->bytes[below(text->length)] ^= 1 << below(8); break;
    case 1: change_byte(text, 1); break;
    case 2: change_byte(text, 0); break;
    case 3: remove_run(text, 4); break;
    case 4: remove_run(text, 16); break;
    case 5: repeat_run(text); break;
    case 6: case 7: case 8: exchange(text); break;
    case 9: case 10: copy_part(text, is_space, 0); break;
    case 11: case 12: case 13: copy_part(text, is_no_name, 0); break;
    case 14: put_word(text, form); break;
    case 15: case 16: case 17: change_number(text); break;
    case 18: if (!below(8)) text->length = below(text->length + 1); break;
    case 19:
        from = below(other->length);
        put(text, below(text->length + 1), 0, other->bytes + from, below(other->length - from + 1));
    }
}

// Writes the numbers of a trace's events and the number at its end anew.
static void renumber(struct text *text) {
    char number[32];
    size_t line = 0, count = 0, end, at;
    for (; line < text->length; line = end + 1) {
        char *stop = memchr(text->bytes + line, '\n', text->length - line);
        end = stop ? (size_t)(stop - text->bytes) : text->length;
        int is_event = end - line > 2 && strchr("+-!=", text->bytes[line]) && text->bytes[line + 1] == ' ';
        int is_end = end - line > 4 && !memcmp(text->bytes + line, "end ", 4);
        if (!is_event && !is_end) continue;
        at = line + (is_event ? 2 : 4);
        size_t length = 0;
        while (at + length < end && !is_no_digit(text->bytes[at + length])) length++;
        size_t digits = snprintf(number, sizeof number, "%zu", is_event ? ++count : count);
        put(text, at, length, number, digits);
        end += digits - length;
    }
}

void mutate(struct text *text, const struct text *other, enum form form, uint64_t seed, uint64_t number) {
    state = (seed * FORMS + form) * 1000003 + number;
    int is_gentle = below(2);
    for (size_t left = below(2) ? 1 : below(6) + 1; left > 0; left--) {
        if (is_gentle) exchange(text);
        else change(text, other, form);
    }
    if (form == TRACE && below(8)) renumber(text);
}
