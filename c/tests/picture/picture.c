/* wallthyme_picture.c in this program: pictures of fixed reports, texts that are no report, reports that change at
 * random places, and memory that runs out anywhere.
 *
 *     picture FOLDER     FOLDER has each NAME.json of REPORTS, and the NAME.svg that scripts/picture draws of it */
#include <errno.h>
#include <inttypes.h>
#include <setjmp.h>
#include <stdarg.h>
#include <stdbool.h>
#include <stdio.h>
#include <stdlib.h>
#include <string.h>

/* What the program prints. */
static struct {
    char *text;
    size_t length, room;
} printed;

static jmp_buf ended;
static int end_status; /* with which the program ended last */
static void *taken[64]; /* the memory that the program holds */
static long grants;     /* how many requests for memory are granted; less than 0: all */

static void fail(const char *name, const char *what)
{
    fprintf(stderr, "FAILED: %s: %s\n%.*s\n", name, what, (int)printed.length, printed.text);
    exit(1);
}

static void vcaptured(const char *format, va_list values)
{
    va_list again;
    va_copy(again, values);
    size_t length = (size_t)vsnprintf(NULL, 0, format, again);
    va_end(again);
    if (printed.length + length >= printed.room) {
        printed.room = 2 * (printed.length + length) + 1024;
        printed.text = realloc(printed.text, printed.room);
        if (printed.text == NULL)
            fail("the test", "no memory");
    }
    vsnprintf(printed.text + printed.length, length + 1, format, values);
    printed.length += length;
}

static void captured(const char *format, ...)
{
    va_list values;
    va_start(values, format);
    vcaptured(format, values);
    va_end(values);
}

/* (no name has a byte of 0 where this is asked for: it is U+FFFD in the picture) */
static void captured_byte(char byte)
{
    captured("%c", byte);
}

static void *taken_again(void *old, size_t size)
{
    size_t i = 0;
    if (grants == 0)
        return NULL;
    grants -= grants > 0;
    while (old == NULL ? taken[i] != NULL : taken[i] != old)
        i++;
    taken[i] = realloc(old, size);
    return taken[i];
}

#define printf captured
#define vprintf vcaptured
#define putchar captured_byte
#define realloc taken_again
#define exit(status) (end_status = (status), longjmp(ended, 1))
#define main picture_main
#include "../../wallthyme_picture.c"
#undef printf
#undef realloc
#undef exit
#undef main

/* Draws a copy of a text. Returns the program's status. */
static int draw(const char *text, size_t length)
{
    char *copy = malloc(length > 0 ? length : 1); /* (sanitizers and valgrind see what is read behind it) */
    if (copy == NULL)
        fail("the test", "no memory");
    memcpy(copy, text, length);
    printed.length = 0;
    if (setjmp(ended) == 0)
        draw_text(reader_of(copy, length));
    for (size_t i = 0; i < LENGTH(taken); i++) {
        free(taken[i]);
        taken[i] = NULL;
    }
    free(copy);
    return end_status;
}

/* ---- Fixed reports ---- */

/* Of the README's script and triangle, of drawn runs with names, and one with sums and sizes of all lengths. */
static const char *const REPORTS[] = {"memory", "triangle", "drawn", "drawn_names", "extremes", "empty"};

/* A file of the folder. The caller frees the text. */
static char *file_of(const char *folder, const char *name, const char *kind, size_t *length)
{
    char path[1024];
    snprintf(path, sizeof path, "%s/%s.%s", folder, name, kind);
    FILE *file = fopen(path, "rb");
    char *text = malloc(1 << 20);
    if (file == NULL || text == NULL)
        fail(path, "it cannot be read");
    *length = fread(text, 1, 1 << 20, file);
    fclose(file);
    return text;
}

static void test_reports(const char *folder)
{
    for (size_t i = 0; i < LENGTH(REPORTS); i++) {
        size_t length, due_length;
        char *text = file_of(folder, REPORTS[i], "json", &length);
        char *due = file_of(folder, REPORTS[i], "svg", &due_length);
        if (draw(text, length) != DRAWN)
            fail(REPORTS[i], "it is refused");
        if (printed.length != due_length || memcmp(printed.text, due, due_length) != 0)
            fail(REPORTS[i], "it is drawn otherwise");
        free(text);
        free(due);
    }
    fprintf(stdout, "picture: %u reports are drawn as by scripts/picture\n", (unsigned)LENGTH(REPORTS));
}

/* ---- Texts that are no report ---- */

static const char REPORT[] =
    "{\"heaps\":[\n"
    "{\"size\":4096,\"limit\":2048,\"used\":64,\"budget\":1984}\n"
    "],\"types\":[\n"
    "{\"heap\":0,\"properties\":1}\n"
    "],\"kinds\":[\n"
    "{\"memory_type\":0,\"kind\":\"FitChunk\",\"objects\":1,\"live_blocks\":1,\"live_bytes\":64,\"asked_bytes\":60,"
    "\"free_bytes\":64,\"largest_free\":64,\"scattered\":0}\n"
    "],\"objects\":[\n"
    "{\"object\":1,\"memory_type\":0,\"kind\":\"FitChunk\",\"size\":128,\"places\":[\n"
    "{\"key\":4294967296,\"user\":7,\"name\":\"a\",\"asked\":60,\"offset\":0,\"size\":64},\n"
    "{\"key\":null,\"user\":null,\"asked\":null,\"offset\":64,\"size\":64}\n"
    "]}\n"
    "]}\n";

/* Changes of the report, with the line and the column of the refusal and its cause. */
static const struct {
    const char *old, *new;
    unsigned line, column;
    const char *cause;
} REFUSALS[] = {
    /* not JSON */
    {REPORT, "", 1, 0, "EOF while parsing"},
    {REPORT, " \n ", 2, 1, "EOF while parsing"},
    {REPORT, "heap 4096\n", 1, 1, "invalid JSON"},
    {REPORT, "{\"heaps\"", 1, 2, "EOF while parsing"},
    {REPORT, "{\"heaps\" []", 1, 2, "invalid JSON"},
    {REPORT, "{\"heaps\":[}", 1, 11, "invalid JSON"},
    {REPORT, "}", 1, 1, "invalid JSON"},
    {"]}\n]}\n", "]}\n", 12, 0, "EOF while parsing"},
    {"]}\n]}\n", "]}\n]}\n]\n", 13, 1, "invalid JSON"},
    {"]}\n]}\n", "]}\n]},\n", 13, 0, "invalid JSON"},
    {"1984}", "1984},", 3, 1, "invalid JSON"},
    {"1984}", "1984,}", 2, 51, "invalid JSON"},
    {"1984", "01984", 2, 46, "invalid JSON"},
    {"1984", "1984.", 2, 46, "invalid JSON"},
    {"1984", "nul", 2, 46, "invalid JSON"},
    {"\"a\"", "\"\n\"", 9, 35, "invalid JSON"},
    {"\"a\"", "\"\\x\"", 9, 35, "invalid JSON"},
    {"\"a\"", "\"\\ud800\"", 9, 35, "invalid JSON"},
    {"\"a\"", "\"\\ud800\\u0041\"", 9, 35, "invalid JSON"},
    {"\"a\"", "\"\\udc00\"", 9, 35, "invalid JSON"},
    {"\"a\"", "\"\xc3\"", 9, 36, "invalid UTF-8"},
    {"\"a\"", "\"\xed\xa0\x80\"", 9, 36, "invalid UTF-8"},
    {"\"a\"", "\"\xc0\x80\"", 9, 36, "invalid UTF-8"},
    /* not of these members */
    {REPORT, "[]", 1, 1, "invalid type"},
    {"\"types\":[\n{\"heap\":0,\"properties\":1}\n],", "", 10, 2, "missing field `types`"},
    {"\"limit\":2048,", "", 2, 37, "missing field `limit`"},
    {"\"asked_bytes\":60,", "", 6, 127, "missing field `asked_bytes`"},
    {"\"asked\":60,", "", 9, 59, "missing field `asked`"},
    {"\"offset\":0,", "", 9, 59, "missing field `offset`"},
    {"\"places\"", "\"blocks\"", 8, 58, "unknown field"},
    {"\"key\":4", "\"block\":4", 9, 2, "unknown field"},
    {"\"budget\":1984", "\"budget\":1984,\"size\":1", 2, 51, "duplicate field `size`"},
    {"\"name\":\"a\"", "\"name\":\"a\",\"name\":1", 9, 39, "duplicate field `name`"},
    {"\"size\":128", "\"size\":128,\"places\":[]", 8, 70, "duplicate field `places`"},
    /* not of these values */
    {"1984", "-1", 2, 46, "invalid value"},
    {"1984", "1e3", 2, 46, "invalid value"},
    {"1984", "null", 2, 50, "invalid value"},
    {"1984", "18446744073709551616", 2, 66, "invalid value"},
    {"\"used\":64", "\"used\":340282366920938463463374607431768211456", 2, 34, "invalid value"},
    {"\"properties\":1", "\"properties\":256", 4, 27, "invalid value"},
    {"\"heap\":0", "\"heap\":4294967296", 4, 34, "invalid value"},
    {"\"FitChunk\",\"objects\"", "\"Kept\",\"objects\"", 6, 140, "unknown variant"},
    {"\"user\":7", "\"user\":null", 9, 73, "invalid value"},
    {"\"asked\":60", "\"asked\":null", 9, 72, "invalid value"},
    {"\"name\":\"a\"", "\"name\":7", 9, 35, "invalid type"},
    {"\"key\":null", "\"name\":\"b\",\"key\":null", 10, 70, "invalid value"},
};

/* The report with a part in place of another. The caller frees it. */
static char *changed(const char *old, const char *new)
{
    const char *at = strstr(REPORT, old);
    char *text = malloc(sizeof REPORT + strlen(new));
    if (at == NULL || text == NULL)
        fail(old, "it is not in the report");
    sprintf(text, "%.*s%s%s", (int)(at - REPORT), REPORT, new, at + strlen(old));
    return text;
}

static void test_refusals(void)
{
    if (draw(REPORT, strlen(REPORT)) != DRAWN)
        fail("the report", "it is refused");
    for (size_t i = 0; i < LENGTH(REFUSALS); i++) {
        char due[256], *text = changed(REFUSALS[i].old, REFUSALS[i].new);
        snprintf(due, sizeof due, "no report: %s at line %u column %u\n", REFUSALS[i].cause, REFUSALS[i].line,
                 REFUSALS[i].column);
        if (draw(text, strlen(text)) != NO_REPORT || strcmp(printed.text, due) != 0)
            fail(text, due);
        free(text);
    }
    fprintf(stdout, "picture: %u texts that are no report are refused where they are wrong\n",
            (unsigned)LENGTH(REFUSALS));
}

/* ---- Reports that change at random places ---- */

static uint64_t state = 1;

static size_t drawn_below(size_t bound)
{
    state ^= state << 13;
    state ^= state >> 7;
    state ^= state << 17;
    return (size_t)(state >> 16) % bound;
}

/* Takes some bytes out of a text and puts others in, at random places. Returns the new length. */
static size_t mutate(char *text, size_t length)
{
    static const char *const parts[] = {"null", "-1", "0", "1e9", "18446744073709551615", "18446744073709551616",
                                        "340282366920938463463374607431768211455", "\"", "\\", "\\u0000",
                                        "\\ud83d\\ude00",
                                        "[", "]", "{", "}", ",", ":", "\n", "\"name\":\"<\",", "\"places\":[],", "\xff",
                                        "\xef\xbf\xbf", "true", "\"Imported\"", "{},"};
    for (size_t changes = 1 + drawn_below(3); changes > 0; changes--) {
        size_t at = drawn_below(length + 1), out = drawn_below(4) == 0 ? drawn_below(length - at + 1) % 30 : 0;
        const char *part = drawn_below(2) == 0 ? "" : parts[drawn_below(LENGTH(parts))];
        memmove(text + at + strlen(part), text + at + out, length - at - out);
        memcpy(text + at, part, strlen(part));
        length += strlen(part) - out;
        if (length > 0 && drawn_below(3) == 0)
            text[drawn_below(length)] = (char)(unsigned char)drawn_below(256);
    }
    return length;
}

static bool begins_and_ends(const char *begin, const char *end_with)
{
    size_t begins = strlen(begin), ends = strlen(end_with);
    return printed.length >= begins + ends && memcmp(printed.text, begin, begins) == 0
           && memcmp(printed.text + printed.length - ends, end_with, ends) == 0;
}

/* A mutated report is drawn, or is refused by one line that names a place in it. */
static void check_mutated(const char *text, size_t length, unsigned *drawn_count)
{
    unsigned lines = 1, line = 0, column = 0;
    draw(text, length);
    for (size_t i = 0; i < length; i++)
        lines += text[i] == '\n';
    if (end_status == DRAWN) {
        ++*drawn_count;
        if (!begins_and_ends("<svg ", "</svg>\n"))
            fail("a mutated report", "the picture is not whole");
        return;
    }
    const char *place = strstr(printed.text, " at line ");
    if (end_status != NO_REPORT || !begins_and_ends("no report: ", "\n") || strchr(printed.text, '\n')[1] != '\0'
        || place == NULL || sscanf(place, " at line %u column %u", &line, &column) != 2 || line == 0 || line > lines
        || column > length)
        fail("a mutated report", "it is refused otherwise");
}

static void test_mutated(void)
{
    enum { RUNS = 20000 };
    char text[sizeof REPORT + 256];
    unsigned drawn_count = 0;
    for (int i = 0; i < RUNS; i++) {
        memcpy(text, REPORT, sizeof REPORT);
        check_mutated(text, mutate(text, strlen(REPORT)), &drawn_count);
    }
    if (drawn_count == 0 || drawn_count == RUNS)
        fail("mutated reports", "all end alike");
    fprintf(stdout, "picture: of %d mutated reports %u are drawn, and the others refused\n", RUNS, drawn_count);
}

/* ---- Memory that runs out ---- */

static void test_memory(void)
{
    long count = 0;
    do {
        grants = count++;
        draw(REPORT, strlen(REPORT));
        if (end_status == NO_MEMORY && !begins_and_ends("out of memory\n", ""))
            fail("memory", "its lack is not reported");
    } while (end_status == NO_MEMORY);
    grants = -1;
    if (end_status != DRAWN || count < 6)
        fail("memory", "its lack is not found");
    fprintf(stdout, "picture: memory that runs out at any of %ld places is reported\n", count - 1);
}

int main(int count, char **words)
{
    if (count != 2) {
        fprintf(stderr, "usage: picture FOLDER\n");
        return 64;
    }
    grants = -1;
    test_reports(words[1]);
    test_refusals();
    test_mutated();
    test_memory();
    free(printed.text);
    return 0;
}
