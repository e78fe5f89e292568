/* Draws a report of a program's memory, as wtv_report_text and wt_report write it, as an SVG.
 *
 *     wallthyme-picture REPORT.json > picture.svg      (- or no argument reads standard input)
 *
 * The picture is that of scripts/picture in Wallthyme's repository, byte for byte. The status is
 *
 *     0   the picture is on standard output
 *     1   a read or a write failed
 *     2   the text is no report: standard output has the cause, the line and the column, from 1 on, in bytes
 *     3   out of memory
 *     64  wrong arguments
 *     66  the file cannot be opened
 *
 * One file of C99, which needs no other: cc -O2 wallthyme_picture.c -o wallthyme-picture. */
#include <errno.h>
#include <inttypes.h>
#include <stdarg.h>
#include <stdbool.h>
#include <stdio.h>
#include <stdlib.h>
#include <string.h>
#ifdef _WIN32
#include <fcntl.h>
#include <io.h>
#endif

#if defined(__GNUC__)
#define NEVER_RETURNS __attribute__((noreturn))
#elif defined(_MSC_VER)
#define NEVER_RETURNS __declspec(noreturn)
#else
#define NEVER_RETURNS
#endif

#define U64 "%" PRIu64
#define LENGTH(array) (sizeof(array) / sizeof((array)[0]))

enum { DRAWN, READ_OR_WRITE_FAILED, NO_REPORT, NO_MEMORY, USAGE = 64, NO_INPUT = 66 };

/* Ends the program, once standard output is written. */
NEVER_RETURNS static void end_program(int status)
{
    exit(fflush(stdout) == 0 && !ferror(stdout) ? status : READ_OR_WRITE_FAILED);
}

/* Memory that may be missing. */
static void *want(void *memory)
{
    if (memory == NULL) {
        printf("out of memory\n");
        end_program(NO_MEMORY);
    }
    return memory;
}

/* Room for one more item behind count others, in a list that doubles. */
static void *with_room(void *items, size_t count, size_t *capacity, size_t size)
{
    if (count < *capacity)
        return items;
    *capacity = *capacity == 0 ? 16 : 2 * *capacity;
    return want(*capacity > SIZE_MAX / size ? NULL : realloc(items, *capacity * size));
}

/* ---- Numbers of 128 bits ---- */

typedef struct wide {
    uint64_t high, low;
} wide;

static const wide GREATEST = {UINT64_MAX, UINT64_MAX};

static wide wide_of(uint64_t number)
{
    return (wide){0, number};
}

static bool is_less(wide a, wide b)
{
    return a.high != b.high ? a.high < b.high : a.low < b.low;
}

static bool is_zero(wide a)
{
    return a.high == 0 && a.low == 0;
}

/* A sum, at most the greatest number. */
static wide add(wide a, wide b)
{
    wide sum = {a.high + b.high, a.low + b.low};
    sum.high += sum.low < a.low;
    return is_less(sum, a) ? GREATEST : sum;
}

static wide product(uint64_t a, uint64_t b)
{
    uint64_t a_low = a & UINT32_MAX, a_high = a >> 32, b_low = b & UINT32_MAX, b_high = b >> 32;
    uint64_t low = a_low * b_low;
    uint64_t middle = a_high * b_low + (low >> 32); /* at most 2^64 - 2^32 */
    uint64_t other = a_low * b_high + (middle & UINT32_MAX);
    return (wide){a_high * b_high + (middle >> 32) + (other >> 32), (other << 32) | (low & UINT32_MAX)};
}

/* The quotient by a number that is not 0, rounded down, and what is left. */
static wide divide(wide number, uint64_t by, uint64_t *left)
{
    wide quotient = {number.high / by, 0};
    uint64_t rest = number.high % by;
    if (rest == 0) {
        quotient.low = number.low / by;
        *left = number.low % by;
        return quotient;
    }
    for (int bit = 63; bit >= 0; bit--) {
        bool passes = rest >> 63 == 1;
        rest = rest << 1 | (number.low >> bit & 1);
        if (passes || rest >= by) {
            rest -= by;
            quotient.low |= UINT64_C(1) << bit;
        }
    }
    *left = rest;
    return quotient;
}

/* A number, at most the greatest of 64 bits. */
static uint64_t as_u64(wide number)
{
    return number.high > 0 ? UINT64_MAX : number.low;
}

static uint64_t least(uint64_t a, uint64_t b)
{
    return a < b ? a : b;
}

static uint64_t most(uint64_t a, uint64_t b)
{
    return a > b ? a : b;
}

/* ---- The text, token by token. Strings are decoded where they stand. ---- */

typedef enum token_kind { KEY, STRING, NUMBER, WORD, BEGIN_OBJECT, END_OBJECT, BEGIN_ARRAY, END_ARRAY } token_kind;

typedef struct token {
    token_kind kind;
    const char *text; /* of keys, strings and numbers; without a terminating 0 */
    size_t length;
} token;

typedef struct place_in_text {
    size_t line, column;
} place_in_text;

typedef struct reader {
    char *text;
    size_t length;
    size_t at;          /* where the next token begins, or the length */
    size_t line;        /* of that, from 1 on */
    size_t line_start;  /* where that line begins */
    enum { FRESH, AFTER_COMMA, AFTER_VALUE } state;
    place_in_text last; /* where the last token began: refusals name it */
} reader;

/* Ends the program, since the text is no report. */
NEVER_RETURNS static void refuse(const reader *r, const char *cause, const char *name)
{
    bool is_named = name[0] != '\0';
    printf("no report: %s%s%s%s at line " U64 " column " U64 "\n", cause, is_named ? " `" : "", name,
           is_named ? "`" : "", (uint64_t)r->last.line, (uint64_t)r->last.column);
    end_program(NO_REPORT);
}

/* Ends the program, since the text is no JSON, as is seen at an index. */
NEVER_RETURNS static void refuse_json(const reader *r, size_t seen)
{
    refuse(r, seen >= r->length ? "EOF while parsing" : "invalid JSON", "");
}

/* Where the next token begins. At the end of the text the column is that of the last byte. */
static place_in_text place_of(const reader *r)
{
    return (place_in_text){r->line, r->at - r->line_start + (r->at < r->length)};
}

/* Whether one of these bytes stands at an index. */
static bool has_at(const reader *r, size_t at, const char *bytes)
{
    return at < r->length && r->text[at] != '\0' && strchr(bytes, r->text[at]) != NULL;
}

static void skip_spaces(reader *r)
{
    for (; has_at(r, r->at, " \t\r\n"); r->at++) {
        if (r->text[r->at] == '\n') {
            r->line++;
            r->line_start = r->at + 1;
        }
    }
}

/* The next byte, or 0 at the end: no token begins with 0. */
static char peek(const reader *r)
{
    return r->at < r->length ? r->text[r->at] : '\0';
}

static void step(reader *r, size_t length)
{
    r->at += length;
    skip_spaces(r);
}

/* Passes the comma that may follow a value. */
static void end_value(reader *r)
{
    r->state = AFTER_VALUE;
    if (peek(r) == ',') {
        step(r, 1);
        r->state = AFTER_COMMA;
    }
}

static bool is_digit(char c)
{
    return c >= '0' && c <= '9';
}

/* The value of four hexadecimal digits. */
static uint32_t code_unit(const reader *r, size_t at)
{
    uint32_t unit = 0;
    for (size_t i = at; i < at + 4; i++) {
        char c = i < r->length ? r->text[i] : '\0';
        const char *digits = "0123456789abcdefABCDEF";
        const char *found = c == '\0' ? NULL : strchr(digits, c);
        if (found == NULL)
            refuse_json(r, i);
        unit = unit << 4 | (uint32_t)(found - digits < 16 ? found - digits : found - digits - 6);
    }
    return unit;
}

/* Writes a character as UTF-8, and returns how many bytes it has. */
static size_t encode(uint32_t character, char *to)
{
    static const uint32_t lead[] = {0, 0, 0xc0, 0xe0, 0xf0};
    size_t length = character < 0x80 ? 1 : character < 0x800 ? 2 : character < 0x10000 ? 3 : 4;
    for (size_t i = length; i-- > 1; character >>= 6)
        to[i] = (char)(unsigned char)(0x80 | (character & 0x3f));
    to[0] = (char)(unsigned char)(lead[length == 1 ? 0 : length] | character);
    return length;
}

/* Decodes `\u` at an index, with its second half. Moves the index behind it, and returns how many bytes are written. */
static size_t decode_unit(reader *r, size_t *at, char *to)
{
    uint32_t unit = code_unit(r, *at + 2);
    *at += 6;
    if (unit >= 0xd800 && unit < 0xdc00) {
        if (*at + 1 >= r->length || r->text[*at] != '\\' || r->text[*at + 1] != 'u')
            refuse_json(r, *at);
        uint32_t low = code_unit(r, *at + 2);
        if (low < 0xdc00 || low >= 0xe000)
            refuse_json(r, *at);
        unit = 0x10000 + ((unit - 0xd800) << 10) + (low - 0xdc00);
        *at += 6;
    } else if (unit >= 0xdc00 && unit < 0xe000) {
        refuse_json(r, *at - 6);
    }
    return encode(unit, to);
}

/* Decodes the escape at an index in the same way. What it stands for is shorter. */
static size_t decode_escape(reader *r, size_t *at, char *to)
{
    static const char letters[] = "\"\\/bfnrt", meant[] = "\"\\/\b\f\n\r\t";
    char c = *at + 1 < r->length ? r->text[*at + 1] : '\0';
    const char *found = c == '\0' ? NULL : strchr(letters, c);
    if (c == 'u')
        return decode_unit(r, at, to);
    if (found == NULL)
        refuse_json(r, *at + 1);
    *to = meant[found - letters];
    *at += 2;
    return 1;
}

/* A string, or a key with the colon behind it. */
static token take_string(reader *r)
{
    size_t at = r->at + 1;
    token t = {STRING, r->text + at, 0};
    char *to = r->text + at;
    while (at < r->length && r->text[at] != '"' && (unsigned char)r->text[at] >= 0x20) {
        if (r->text[at] == '\\')
            to += decode_escape(r, &at, to);
        else
            *to++ = r->text[at++];
    }
    if (at >= r->length || r->text[at] != '"')
        refuse_json(r, at);
    t.length = (size_t)(to - t.text);
    step(r, at + 1 - r->at);
    if (peek(r) == ':') {
        step(r, 1);
        t.kind = KEY;
        r->state = FRESH;
    } else {
        end_value(r);
    }
    return t;
}

/* Where digits end that begin at an index: at least one. */
static size_t digits_end(const reader *r, size_t at)
{
    size_t end = at;
    while (end < r->length && is_digit(r->text[end]))
        end++;
    if (end == at)
        refuse_json(r, at);
    return end;
}

/* Where a number ends that begins at an index, by the grammar of JSON. */
static size_t number_end(const reader *r, size_t at)
{
    at += has_at(r, at, "-");
    at = has_at(r, at, "0") ? at + 1 : digits_end(r, at);
    if (has_at(r, at, "."))
        at = digits_end(r, at + 1);
    if (has_at(r, at, "eE"))
        at = digits_end(r, at + 1 + has_at(r, at + 1, "+-"));
    return at;
}

/* Where `null`, `true` or `false` ends. */
static size_t word_end(const reader *r, const char *word)
{
    size_t count = strlen(word), i = 0;
    while (i < count && r->at + i < r->length && r->text[r->at + i] == word[i])
        i++;
    if (i < count)
        refuse_json(r, r->at + i);
    return r->at + count;
}

/* A number or a word, which ends at a space, a bracket, a comma, a colon or the end of the text. */
static token take_scalar(reader *r)
{
    char c = peek(r);
    token t = {is_digit(c) || c == '-' ? NUMBER : WORD, r->text + r->at, 0};
    size_t end = c == 'n' ? word_end(r, "null") : c == 't' ? word_end(r, "true") : c == 'f' ? word_end(r, "false")
               : number_end(r, r->at);
    if (end < r->length && !has_at(r, end, "{}[]:, \t\r\n"))
        refuse_json(r, end);
    t.length = end - r->at;
    step(r, t.length);
    end_value(r);
    return t;
}

/* The next token. Whether brackets match is for the caller. */
static token take(reader *r)
{
    char c = peek(r);
    r->last = place_of(r);
    if (r->at == r->length || r->state == (c == '}' || c == ']' ? AFTER_COMMA : AFTER_VALUE))
        refuse_json(r, r->at);
    switch (c) {
    case '"':
        return take_string(r);
    case '{':
    case '[':
        step(r, 1);
        r->state = FRESH;
        return (token){c == '{' ? BEGIN_OBJECT : BEGIN_ARRAY, NULL, 0};
    case '}':
    case ']':
        step(r, 1);
        end_value(r);
        return (token){c == '}' ? END_OBJECT : END_ARRAY, NULL, 0};
    default:
        return take_scalar(r);
    }
}

/* The next token where one of this kind is due. */
static token take_one(reader *r, token_kind kind)
{
    token t = take(r);
    if (t.kind == KEY || t.kind == END_OBJECT || t.kind == END_ARRAY)
        refuse(r, "invalid JSON", "");
    if (t.kind != kind)
        refuse(r, "invalid type", "");
    return t;
}

/* Whether a list goes on. Its end is passed. */
static bool next_item(reader *r)
{
    return peek(r) != ']' || take(r).kind != END_ARRAY;
}

static bool is_word(token t, const char *word)
{
    return t.length == strlen(word) && memcmp(t.text, word, t.length) == 0;
}

/* The place of a text among these names, or their count. */
static size_t place_among(token t, const char *const *names, size_t count)
{
    size_t place = 0;
    while (place < count && !is_word(t, names[place]))
        place++;
    return place;
}

/* The member whose key is next, or the count where the object ends. Each may come once; `seen` has a bit for each. */
static size_t next_member(reader *r, const char *const *names, size_t count, uint32_t *seen)
{
    token t = take(r);
    if (t.kind == END_OBJECT)
        return count;
    if (t.kind == STRING && r->state == AFTER_VALUE) /* the colon is not there */
        refuse_json(r, r->at);
    if (t.kind != KEY)
        refuse(r, "invalid JSON", "");
    size_t place = place_among(t, names, count);
    if (place == count)
        refuse(r, "unknown field", "");
    if (*seen >> place & 1)
        refuse(r, "duplicate field", names[place]);
    *seen |= UINT32_C(1) << place;
    return place;
}

/* The number in these digits, below 2^128. */
static wide number_of(const reader *r, token t)
{
    static const wide tenth = {UINT64_C(0x1999999999999999), UINT64_C(0x9999999999999999)}; /* GREATEST / 10, 5 left */
    wide number = {0, 0};
    for (size_t i = 0; i < t.length; i++) {
        char c = t.text[i];
        if (!is_digit(c) || is_less(tenth, number) || (!is_less(number, tenth) && c > '5'))
            refuse(r, "invalid value", "");
        wide low = product(number.low, 10);
        number = add((wide){number.high * 10 + low.high, low.low}, wide_of((uint64_t)(c - '0')));
    }
    return number;
}

/* ---- The report ---- */

typedef struct heap_row {
    uint64_t size, limit, budget;
    wide used;
} heap_row;

typedef struct type_row {
    uint32_t heap;
    uint8_t properties;
} type_row;

/* Objects of one memory type and kind. */
typedef struct kind_row {
    size_t kind;
    uint32_t memory_type;
    uint64_t objects, live_blocks, largest_free, scattered;
    wide live_bytes, asked_bytes, free_bytes;
} kind_row;

typedef struct object_row {
    size_t kind;
    uint32_t memory_type;
    uint64_t object, size;
    size_t first, count; /* its places */
} object_row;

/* A live block, or free bytes, whose `asked` is 0. */
typedef struct place_row {
    bool is_block;
    uint64_t key, asked, offset, size;
} place_row;

/* The name of the block of a key. */
typedef struct name_row {
    uint64_t key;
    size_t order; /* in the text */
    const char *text;
    size_t length;
} name_row;

#define LIST(row) \
    struct { \
        row *rows; \
        size_t count, capacity; \
    }

typedef struct report {
    LIST(heap_row) heaps;
    LIST(type_row) types;
    LIST(kind_row) kinds;
    LIST(object_row) objects;
    LIST(place_row) places;
    LIST(name_row) names; /* by key */
} report;

/* A new last row. */
#define ADDED(list) \
    (list.rows = with_room(list.rows, list.count, &list.capacity, sizeof list.rows[0]), &list.rows[list.count++])

static const char *const KINDS[] = {"Dedicated", "Imported", "BuddyChunk", "FreeListChunk", "FitChunk"};

/* A member of a row: a number, or for a kind its place among the kinds. */
typedef struct member {
    enum { MISSING, IS_NULL, IS_NUMBER } state;
    wide number;
} member;

enum { MOST_MEMBERS = 9 };

/* The members of a row, in the order of its names. */
typedef struct members {
    const reader *r;
    const char *const *names;
    member all[MOST_MEMBERS];
} members;

static members no_members(const reader *r, const char *const *names)
{
    return (members){r, names, {{MISSING, {0, 0}}}};
}

/* Reads a member: a number, a kind or null. */
static member read_member(reader *r, const char *name)
{
    if (peek(r) == 'n') {
        take(r);
        return (member){IS_NULL, {0, 0}};
    }
    if (strcmp(name, "kind") == 0)
        return (member){IS_NUMBER, wide_of(place_among(take_one(r, STRING), KINDS, LENGTH(KINDS)))};
    token t = take_one(r, NUMBER);
    return (member){IS_NUMBER, number_of(r, t)};
}

/* Reads a row that has only numbers and kinds. */
static members read_members(reader *r, const char *const *names, size_t count)
{
    members row = no_members(r, names);
    uint32_t seen = 0;
    take_one(r, BEGIN_OBJECT);
    for (size_t at; (at = next_member(r, names, count, &seen)) < count;)
        row.all[at] = read_member(r, names[at]);
    return row;
}

/* Whether a member that must be there is a number, and not null. */
static bool is_number(const members *row, size_t at)
{
    if (row->all[at].state == MISSING)
        refuse(row->r, "missing field", row->names[at]);
    return row->all[at].state == IS_NUMBER;
}

/* A number that must be there, at most the given one. */
static wide at_most(const members *row, size_t at, wide greatest)
{
    if (!is_number(row, at) || is_less(greatest, row->all[at].number))
        refuse(row->r, "invalid value", "");
    return row->all[at].number;
}

static wide wide_at(const members *row, size_t at)
{
    return at_most(row, at, GREATEST);
}

static uint64_t word_at(const members *row, size_t at)
{
    return at_most(row, at, wide_of(UINT64_MAX)).low;
}

static uint32_t index_at(const members *row, size_t at)
{
    return (uint32_t)at_most(row, at, wide_of(UINT32_MAX)).low;
}

/* The kind, the first member of its row. */
static size_t kind_of(const members *row)
{
    size_t kind = (size_t)wide_at(row, 0).low;
    if (kind == LENGTH(KINDS))
        refuse(row->r, "unknown variant", "");
    return kind;
}

static void read_heap(reader *r, report *of)
{
    static const char *const names[] = {"size", "limit", "used", "budget"};
    members row = read_members(r, names, LENGTH(names));
    heap_row *heap = ADDED(of->heaps);
    heap->size = word_at(&row, 0);
    heap->limit = word_at(&row, 1);
    heap->used = wide_at(&row, 2);
    heap->budget = word_at(&row, 3);
}

static void read_type(reader *r, report *of)
{
    static const char *const names[] = {"heap", "properties"};
    members row = read_members(r, names, LENGTH(names));
    type_row *type = ADDED(of->types);
    type->heap = index_at(&row, 0);
    type->properties = (uint8_t)at_most(&row, 1, wide_of(UINT8_MAX)).low;
}

static void read_kind(reader *r, report *of)
{
    static const char *const names[] = {"kind", "memory_type", "objects", "live_blocks", "live_bytes", "asked_bytes",
                                        "free_bytes", "largest_free", "scattered"};
    members row = read_members(r, names, LENGTH(names));
    kind_row *kind = ADDED(of->kinds);
    kind->kind = kind_of(&row);
    kind->memory_type = index_at(&row, 1);
    kind->objects = word_at(&row, 2);
    kind->live_blocks = word_at(&row, 3);
    kind->live_bytes = wide_at(&row, 4);
    kind->asked_bytes = wide_at(&row, 5);
    kind->free_bytes = wide_at(&row, 6);
    kind->largest_free = word_at(&row, 7);
    kind->scattered = word_at(&row, 8);
}

/* A live block with its key, the program's value, the bytes asked for and perhaps a name; or free bytes, which have
   none of these. */
static void read_place(reader *r, report *of)
{
    enum { OFFSET, SIZE, BLOCK, USER, ASKED, NAME, MEMBERS };
    static const char *const names[] = {"offset", "size", "key", "user", "asked", "name"};
    members row = no_members(r, names);
    token name = {WORD, NULL, 0};
    uint32_t seen = 0;
    take_one(r, BEGIN_OBJECT);
    for (size_t at; (at = next_member(r, names, MEMBERS, &seen)) < MEMBERS;) {
        if (at == NAME)
            name = peek(r) == 'n' ? take(r) : take_one(r, STRING);
        else
            row.all[at] = read_member(r, names[at]);
    }
    place_row *place = ADDED(of->places);
    place->is_block = is_number(&row, BLOCK);
    place->key = place->is_block ? word_at(&row, BLOCK) : 0;
    if (is_number(&row, USER))
        word_at(&row, USER); /* (no picture shows it) */
    place->asked = is_number(&row, ASKED) ? word_at(&row, ASKED) : 0;
    bool is_named = name.kind == STRING;
    if (is_number(&row, USER) != place->is_block || is_number(&row, ASKED) != place->is_block
        || (is_named && !place->is_block))
        refuse(r, "invalid value", "");
    if (is_named) {
        name_row *added = ADDED(of->names);
        *added = (name_row){place->key, of->names.count, name.text, name.length};
    }
    place->offset = word_at(&row, OFFSET);
    place->size = word_at(&row, SIZE);
}

/* Reads a list, row by row. */
static void read_list(reader *r, void read_row(reader *, report *), report *of)
{
    take_one(r, BEGIN_ARRAY);
    while (next_item(r))
        read_row(r, of);
}

static void read_object(reader *r, report *of)
{
    enum { PLACES = 4, MEMBERS };
    static const char *const names[] = {"kind", "memory_type", "object", "size", "places"};
    members row = no_members(r, names);
    uint32_t seen = 0;
    size_t first = of->places.count;
    take_one(r, BEGIN_OBJECT);
    for (size_t at; (at = next_member(r, names, MEMBERS, &seen)) < MEMBERS;) {
        if (at == PLACES)
            read_list(r, read_place, of);
        else
            row.all[at] = read_member(r, names[at]);
    }
    object_row *object = ADDED(of->objects);
    object->kind = kind_of(&row);
    object->memory_type = index_at(&row, 1);
    object->object = word_at(&row, 2);
    object->size = word_at(&row, 3);
    if (!(seen >> PLACES & 1))
        refuse(r, "missing field", names[PLACES]);
    object->first = first;
    object->count = of->places.count - first;
}

static int compare_names(const void *one, const void *other)
{
    const name_row *a = one, *b = other;
    return a->key != b->key ? (a->key < b->key ? -1 : 1) : a->order < b->order ? -1 : 1;
}

/* Reads the whole text. */
static void read_report(reader *r, report *of)
{
    static const char *const names[] = {"heaps", "types", "kinds", "objects"};
    static void (*const rows[])(reader *, report *) = {read_heap, read_type, read_kind, read_object};
    static const size_t order[] = {0, 2, 3, 1}; /* in which a missing one is named */
    uint32_t seen = 0;
    skip_spaces(r);
    take_one(r, BEGIN_OBJECT);
    for (size_t at; (at = next_member(r, names, LENGTH(names), &seen)) < LENGTH(names);)
        read_list(r, rows[at], of);
    for (size_t i = 0; i < LENGTH(order); i++)
        if (!(seen >> order[i] & 1))
            refuse(r, "missing field", names[order[i]]);
    r->last = place_of(r);
    if (r->at < r->length || r->state == AFTER_COMMA)
        refuse(r, "invalid JSON", "");
    if (of->names.count > 0)
        qsort(of->names.rows, of->names.count, sizeof(name_row), compare_names);
}

/* The last name that was given to the block of a key, or null. */
static const name_row *name_of(const report *of, uint64_t key)
{
    size_t from = 0, to = of->names.count; /* names before `from` are of keys up to this one, those from `to` on not */
    while (from < to) {
        size_t middle = from + (to - from) / 2;
        if (of->names.rows[middle].key <= key)
            from = middle + 1;
        else
            to = middle;
    }
    return from > 0 && of->names.rows[from - 1].key == key ? &of->names.rows[from - 1] : NULL;
}

/* ---- Where ranges lie ----

   Objects are strips in rows of equal length, one below another. A strip that passes the end of its row goes on in the
   next one. No sum here overflows: a strip is at most as long as a row, or as EACH of its ranges takes. */

enum {
    ROW = 790, /* how long a row is */
    LEAST = 3, /* the least length of a range on its strip */
    EACH = 5,  /* the least length of a strip for each of its ranges */
    GAP = 6    /* how far two strips lie apart */
};

typedef struct strip {
    uint64_t size, count, length; /* the bytes that it stands for, its ranges, how long it is */
} strip;

typedef struct span {
    uint64_t start, end;
} span;

/* How far into a line a point lies that is `part` into `whole`, rounded down. */
static uint64_t on_line(uint64_t part, uint64_t whole, uint64_t length)
{
    uint64_t left;
    return whole == 0 ? 0 : divide(product(least(part, whole), length), whole, &left).low;
}

/* The strip of an object of `size` bytes in `count` ranges, where a row stands for `full` bytes. */
static strip strip_of(uint64_t size, uint64_t count, uint64_t full)
{
    return (strip){size, count, most(on_line(size, full, ROW), count * EACH)};
}

/* Where the range at an index starts that lies `offset` bytes into the object, or where the one before it ends. Each
   range has its least length, and the rest of the strip is to scale. */
static uint64_t edge(strip s, uint64_t index, uint64_t offset)
{
    return index * LEAST + on_line(offset, s.size, s.length - s.count * LEAST);
}

static span span_of(strip s, uint64_t index, uint64_t offset, uint64_t size)
{
    uint64_t end = as_u64(add(wide_of(offset), wide_of(size)));
    return (span){edge(s, index, offset), edge(s, index + 1, end)};
}

/* Where a strip starts, if the one before it ends at `at`: after it, or in the next row if it would pass the end of
   this one. */
static uint64_t start_of(uint64_t at, uint64_t length)
{
    uint64_t left = ROW - at % ROW;
    if (left == ROW)
        return at;
    return left >= GAP && length <= left - GAP ? at + GAP : at + left;
}

/* ---- An SVG that is drawn from the top down ---- */

enum {
    MARGIN = 20, /* where the left column starts */
    LEFT = 150,  /* where the rows start */
    WIDTH = LEFT + ROW + MARGIN,
    LINE = 22, /* how high a row is, and a bar in it */
    BAR = 16
};

static const char HEADING[] = " font-size=\"16\" font-weight=\"bold\"";
static const char NAME[] = " font-weight=\"bold\"";
static const char PLAIN[] = "";
static const char BEFORE[] = " text-anchor=\"end\" fill=\"#555\" font-size=\"11\""; /* it ends where it is put */
static const char FREE[] = "#e6e6e6";

#define OUTLINED "fill=\"#000\" stroke=\"#fff\" stroke-width=\"3\" paint-order=\"stroke\""

/* How the objects of a kind are called and drawn. The patterns lie over colours that the colour-blind can tell apart; a
   block's name can be read on them too. */
static const struct {
    const char *name, *fill, *ink;
} LOOKS[] = {
    {"dedicated", "#0072b2", "fill=\"#fff\""},
    {"imported", "url(#imported)", OUTLINED},
    {"buddy chunks", "#e69f00", "fill=\"#000\""},
    {"free-list chunks", "url(#listed)", OUTLINED},
    {"fit chunks", "url(#fitted)", OUTLINED},
};

static const char PATTERNS[] =
    "<defs>"
    "<pattern id=\"imported\" width=\"6\" height=\"6\" patternUnits=\"userSpaceOnUse\" patternTransform=\"rotate(45)\">"
    "<rect width=\"6\" height=\"6\" fill=\"#cc79a7\"/><rect width=\"2\" height=\"6\" fill=\"#f6e4ee\"/></pattern>"
    "<pattern id=\"listed\" width=\"5\" height=\"5\" patternUnits=\"userSpaceOnUse\">"
    "<rect width=\"5\" height=\"5\" fill=\"#009e73\"/>"
    "<circle cx=\"2.5\" cy=\"2.5\" r=\"1\" fill=\"#d5f2e8\"/></pattern>"
    "<pattern id=\"fitted\" width=\"4\" height=\"4\" patternUnits=\"userSpaceOnUse\">"
    "<rect width=\"4\" height=\"4\" fill=\"#56b4e9\"/><rect width=\"4\" height=\"1\" fill=\"#e3f3fc\"/></pattern>"
    "</defs>\n";

static const char NOTE[] = "Rows are to scale, but each range is long enough to be seen. "
                           "On hovering a block tells its name, offset, size, bytes asked for and type.";

typedef struct drawing {
    bool is_drawn;   /* or only measured, since the height comes first in an SVG */
    uint64_t bottom; /* how far down it comes */
} drawing;

static void put(const drawing *d, const char *format, ...)
{
    va_list values;
    va_start(values, format);
    if (d->is_drawn)
        vprintf(format, values);
    va_end(values);
}

static void put_wide(const drawing *d, wide number)
{
    char digits[40]; /* (2^128 has 39) */
    size_t at = sizeof digits - 1;
    uint64_t digit;
    digits[at] = '\0';
    do {
        number = divide(number, 10, &digit);
        digits[--at] = (char)('0' + digit);
    } while (!is_zero(number));
    put(d, "%s", &digits[at]);
}

/* A number of bytes, in the largest unit that fits, with one decimal where it isn't whole. */
static void put_amount(const drawing *d, wide bytes)
{
    static const char *const units[] = {"B", "KiB", "MiB", "GiB", "TiB", "PiB", "EiB"};
    size_t unit = 0;
    uint64_t left = 0;
    bool is_whole = true;
    for (; unit + 1 < LENGTH(units) && !is_less(bytes, wide_of(1024)); unit++) {
        bytes = divide(bytes, 1024, &left);
        is_whole = is_whole && left == 0;
    }
    put_wide(d, bytes);
    if (!is_whole)
        put(d, "." U64, left * 10 / 1024);
    put(d, " %s", units[unit]);
}

static void put_count(const drawing *d, uint64_t count, const char *what)
{
    put(d, U64 " %s%s", count, what, count == 1 ? "" : "s");
}

/* Whether one of the two characters from U+FFFE on begins here, which XML has not. */
static bool is_no_character(const char *text, size_t left)
{
    return left >= 3 && (memcmp(text, "\xef\xbf\xbe", 3) == 0 || memcmp(text, "\xef\xbf\xbf", 3) == 0);
}

/* A name as XML. A character that XML has not becomes U+FFFD. */
static void put_escaped(const drawing *d, const name_row *name)
{
    static const char marks[] = "&<>\"'";
    static const char *const escapes[] = {"&amp;", "&lt;", "&gt;", "&quot;", "&apos;"};
    for (size_t i = 0; d->is_drawn && i < name->length; i++) {
        char c = name->text[i];
        const char *mark = c == '\0' ? NULL : strchr(marks, c);
        bool is_wrong = is_no_character(name->text + i, name->length - i);
        if (mark != NULL)
            put(d, "%s", escapes[mark - marks]);
        else if (is_wrong || ((unsigned char)c < 0x20 && c != '\t' && c != '\n' && c != '\r'))
            put(d, "\xef\xbf\xbd");
        else
            putchar(c);
        i += is_wrong ? 2 : 0;
    }
}

/* Begins a text from `x` on, on the line at the bottom. */
static void begin_text(const drawing *d, uint64_t x, const char *style)
{
    put(d, "<text x=\"" U64 "\" y=\"" U64 "\"%s>", x, d->bottom, style);
}

static void end_text(const drawing *d)
{
    put(d, "</text>\n");
}

static void write_text(const drawing *d, uint64_t x, const char *style, const char *text)
{
    begin_text(d, x, style);
    put(d, "%s", text);
    end_text(d);
}

/* A small square of a colour from `x` on, on the line at the bottom. */
static void sample(const drawing *d, uint64_t x, const char *colour)
{
    put(d, "<rect x=\"" U64 "\" y=\"" U64 "\" width=\"11\" height=\"11\" fill=\"%s\"/>\n", x, d->bottom - 10,
        colour);
}

/* The heading, and below it the legend. */
static void draw_head(drawing *d)
{
    uint64_t x = MARGIN;
    d->bottom += 32;
    write_text(d, MARGIN, HEADING, "GPU memory of a program");
    d->bottom += 26;
    for (size_t kind = 0; kind < LENGTH(LOOKS); kind++, x += 140) {
        sample(d, x, LOOKS[kind].fill);
        write_text(d, x + 16, PLAIN, LOOKS[kind].name);
    }
    sample(d, x, FREE);
    write_text(d, x + 16, PLAIN, "free");
    d->bottom += 12;
}

/* How far down the row is in which a range starts, of rows that begin at the bottom. */
static uint64_t row_at(const drawing *d, uint64_t from)
{
    return d->bottom + from / ROW * LINE;
}

/* What shows on hovering over a range. */
typedef struct title {
    enum { PLACE, HELD, BUDGET } of;
    uint32_t memory_type;
    const place_row *place; /* of PLACE, with the name of its block or null */
    const name_row *name;
    size_t kind; /* of HELD */
    wide bytes;  /* of HELD and BUDGET */
} title;

static void put_place(const drawing *d, const title *t)
{
    put(d, t->place->is_block ? "block " U64 : "free", t->place->key);
    if (t->name != NULL) {
        put(d, " \"");
        put_escaped(d, t->name);
        put(d, "\"");
    }
    put(d, ": offset " U64 ", size " U64, t->place->offset, t->place->size);
    if (t->place->is_block)
        put(d, ", asked " U64, t->place->asked);
    put(d, ", type %" PRIu32, t->memory_type);
}

static void put_title(const drawing *d, const title *t)
{
    if (t->of == PLACE) {
        put_place(d, t);
        return;
    }
    if (t->of == HELD)
        put(d, "%s, type %" PRIu32 ": ", LOOKS[t->kind].name, t->memory_type);
    else
        put(d, "budget left: ");
    put_wide(d, t->bytes);
    put(d, " bytes");
}

/* Draws a range of rows that begin at the bottom, in as many pieces as it has rows. */
static void draw_range(const drawing *d, span s, const char *colour, const title *t)
{
    for (uint64_t start = s.start, width; start < s.end; start += width) {
        uint64_t into_row = start % ROW;
        width = least(s.end - start, ROW - into_row);
        /* The last unit is left out, so that the next range stands apart. */
        put(d, "<rect x=\"" U64 "\" y=\"" U64 "\" width=\"" U64 "\" height=\"%d\" fill=\"%s\"><title>",
            LEFT + into_row, row_at(d, start), most(width - 1, 1), BAR, colour);
        put_title(d, t);
        put(d, "</title></rect>\n");
    }
}

/* How wide a name is drawn at most. */
static uint64_t width_of(const name_row *name)
{
    uint64_t width = 0;
    for (size_t i = 0; i < name->length; i++) {
        unsigned char c = (unsigned char)name->text[i];
        width += c < 0x80 ? 7 : c >= 0xc0 ? 12 : 0; /* (other bytes go on with a character) */
    }
    return width;
}

/* Writes a name in the middle of a block's range, and returns whether there is room for it in one row. */
static bool write_within(const drawing *d, span s, const char *ink, const name_row *name)
{
    uint64_t width = s.end - s.start, into_row = s.start % ROW;
    if (into_row + width > ROW || width < width_of(name) + 6)
        return false;
    put(d, "<text x=\"" U64 "\" y=\"" U64 "\" font-size=\"11\" text-anchor=\"middle\" %s pointer-events=\"none\">",
        LEFT + into_row + width / 2, row_at(d, s.start) + 12, ink);
    put_escaped(d, name);
    end_text(d);
    return true;
}

/* ---- The picture: the heaps one below another, with their memory types, and what each type holds ---- */

/* Whether an object is one of those of a kind and type. */
static bool is_of(const object_row *object, const kind_row *kind)
{
    return object->memory_type == kind->memory_type && object->kind == kind->kind;
}

/* Whether a kind's objects are of a heap. */
static bool lies_in(const report *of, const kind_row *kind, size_t heap)
{
    return kind->memory_type < of->types.count && of->types.rows[kind->memory_type].heap == heap;
}

/* A heap's bar: what the objects of each type and kind count, and what is left. */
static void draw_ledger(const drawing *d, const report *of, size_t index)
{
    const heap_row *heap = &of->heaps.rows[index];
    uint64_t ranges = heap->budget > 0, whole = most(as_u64(heap->used), heap->size), count = 0;
    wide at = {0, 0};
    for (size_t i = 0; i < of->kinds.count; i++)
        ranges += lies_in(of, &of->kinds.rows[i], index);
    strip s = strip_of(whole, ranges, whole);
    for (size_t i = 0; i < of->kinds.count; i++) {
        const kind_row *kind = &of->kinds.rows[i];
        if (lies_in(of, kind, index)) {
            wide bytes = add(kind->live_bytes, kind->free_bytes);
            title t = {HELD, kind->memory_type, NULL, NULL, kind->kind, bytes};
            draw_range(d, span_of(s, count++, as_u64(at), as_u64(bytes)), LOOKS[kind->kind].fill, &t);
            at = add(at, bytes);
        }
    }
    uint64_t start = edge(s, count, as_u64(at));
    title t = {BUDGET, 0, NULL, NULL, 0, wide_of(heap->budget)};
    draw_range(d, (span){start, heap->budget > 0 ? s.length : start}, FREE, &t);
}

/* How many bytes a row stands for where the objects of a kind and type are drawn: as many as the largest of them has,
   or more, where they would take more than six rows to scale. */
static uint64_t full_row(const report *of, const kind_row *kind)
{
    uint64_t largest = 1, left;
    wide total = {0, 0};
    for (size_t i = 0; i < of->objects.count; i++) {
        const object_row *object = &of->objects.rows[i];
        if (is_of(object, kind)) {
            largest = most(largest, object->size);
            total = add(total, wide_of(object->size));
        }
    }
    return most(largest, as_u64(divide(total, 6, &left)));
}

/* The name of a block on its range, or its key where it has no name or there is no room for that. */
static void draw_name(const drawing *d, span s, const char *ink, uint64_t key, const name_row *name)
{
    char digits[21];
    if (name != NULL && write_within(d, s, ink, name))
        return;
    name_row number = {key, 0, digits, (size_t)snprintf(digits, sizeof digits, U64, key)};
    write_within(d, s, ink, &number);
}

/* The blocks and free ranges of an object, on its strip. */
static void draw_places(const drawing *d, const report *of, const object_row *object, strip s, uint64_t start)
{
    const place_row *places = object->count == 0 ? NULL : &of->places.rows[object->first];
    for (size_t i = 0; i < object->count; i++) {
        const place_row *place = &places[i];
        /* An import counts from its block on. */
        uint64_t offset = place->offset - least(place->offset, places[0].offset);
        span drawn = span_of(s, i, offset, place->size);
        const name_row *name = place->is_block ? name_of(of, place->key) : NULL;
        title t = {PLACE, object->memory_type, place, name, 0, {0, 0}};
        drawn = (span){start + drawn.start, start + drawn.end};
        draw_range(d, drawn, place->is_block ? LOOKS[object->kind].fill : FREE, &t);
        if (place->is_block)
            draw_name(d, drawn, LOOKS[object->kind].ink, place->key, name);
    }
}

/* The objects that start in a row. */
typedef struct label {
    uint64_t row;
    const object_row *first, *last; /* null where there is none */
} label;

/* The text next to a row. */
static void draw_label(const drawing *d, label l)
{
    if (l.first == NULL)
        return;
    put(d, "<text x=\"%d\" y=\"" U64 "\" font-size=\"11\" text-anchor=\"end\">", LEFT - 10,
        row_at(d, l.row * ROW) + 12);
    if (l.last != l.first) {
        put(d, "objects " U64 " to " U64, l.first->object, l.last->object);
    } else {
        put(d, "object " U64 ", ", l.first->object);
        put_amount(d, wide_of(l.first->size));
    }
    end_text(d);
}

/* The objects of a kind and type, as strips in rows. */
static void draw_objects(drawing *d, const report *of, const kind_row *kind, uint64_t full)
{
    uint64_t at = 0;
    label l = {0, NULL, NULL};
    for (size_t i = 0; i < of->objects.count; i++) {
        const object_row *object = &of->objects.rows[i];
        if (!is_of(object, kind))
            continue;
        strip s = strip_of(object->size, object->count, full);
        uint64_t start = start_of(at, s.length);
        if (start / ROW != l.row) {
            draw_label(d, l);
            l = (label){start / ROW, NULL, NULL};
        }
        l.last = object;
        l.first = l.first == NULL ? object : l.first;
        draw_places(d, of, object, s, start);
        at = start + s.length;
    }
    draw_label(d, l);
    d->bottom += (at + ROW - 1) / ROW * LINE;
}

/* The sums of a kind's objects of a type. */
static void write_sums(const drawing *d, const kind_row *kind)
{
    begin_text(d, LEFT + 16, PLAIN);
    put(d, "%s: ", LOOKS[kind->kind].name);
    put_count(d, kind->objects, "object");
    put(d, ", ");
    put_count(d, kind->live_blocks, "block");
    put(d, ", ");
    put_amount(d, kind->live_bytes);
    put(d, " live");
    if (is_less(kind->asked_bytes, kind->live_bytes) || is_less(kind->live_bytes, kind->asked_bytes)) {
        put(d, " (");
        put_amount(d, kind->asked_bytes);
        put(d, " asked)");
    }
    if (!is_zero(kind->free_bytes)) {
        put(d, ", ");
        put_amount(d, kind->free_bytes);
        put(d, " free (largest ");
        put_amount(d, wide_of(kind->largest_free));
        put(d, ", scattered " U64 "." U64 " %%)", kind->scattered / 10, kind->scattered % 10);
    }
    end_text(d);
}

/* The sums of a kind's objects of a type, and the objects. */
static void draw_kind(drawing *d, const report *of, const kind_row *kind)
{
    uint64_t full = full_row(of, kind);
    d->bottom += 20;
    sample(d, LEFT, LOOKS[kind->kind].fill);
    write_sums(d, kind);
    begin_text(d, LEFT + ROW, BEFORE);
    put(d, "a row is ");
    put_amount(d, wide_of(full));
    end_text(d);
    d->bottom += 7;
    draw_objects(d, of, kind, full);
}

/* A memory type, with what it holds. */
static void draw_type(drawing *d, const report *of, size_t number)
{
    static const char *const properties[] = {"device-local", "host-visible", "coherent", "cached", "lazily allocated",
                                             "protected"};
    const char *between = "";
    d->bottom += 24;
    begin_text(d, MARGIN, NAME);
    put(d, "Type " U64, (uint64_t)number);
    end_text(d);
    begin_text(d, LEFT, PLAIN);
    for (size_t bit = 0; bit < LENGTH(properties); bit++) {
        if (of->types.rows[number].properties >> bit & 1) {
            put(d, "%s%s", between, properties[bit]);
            between = ", ";
        }
    }
    end_text(d);
    for (size_t i = 0; i < of->kinds.count; i++)
        if (of->kinds.rows[i].memory_type == number)
            draw_kind(d, of, &of->kinds.rows[i]);
}

/* A heap, with its memory types. */
static void draw_heap(drawing *d, const report *of, size_t index)
{
    const heap_row *heap = &of->heaps.rows[index];
    d->bottom += 14;
    put(d, "<rect x=\"%d\" y=\"" U64 "\" width=\"%d\" height=\"1\" fill=\"#bbb\"/>\n", MARGIN, d->bottom,
        WIDTH - 2 * MARGIN);
    d->bottom += 26;
    begin_text(d, MARGIN, HEADING);
    put(d, "Heap " U64, (uint64_t)index);
    end_text(d);
    begin_text(d, LEFT, PLAIN);
    put_amount(d, heap->used);
    put(d, " of ");
    put_amount(d, wide_of(heap->size));
    put(d, " held, budget left ");
    put_amount(d, wide_of(heap->budget));
    if (heap->limit < heap->size) {
        put(d, ", limit ");
        put_amount(d, wide_of(heap->limit));
    }
    end_text(d);
    d->bottom += 8;
    draw_ledger(d, of, index);
    d->bottom += LINE;
    for (size_t number = 0; number < of->types.count; number++)
        if (of->types.rows[number].heap == index)
            draw_type(d, of, number);
}

/* Draws all within the frame, or measures it. Returns how high the picture is. */
static uint64_t draw_body(const report *of, bool is_drawn)
{
    drawing d = {is_drawn, 0};
    draw_head(&d);
    for (size_t index = 0; index < of->heaps.count; index++)
        draw_heap(&d, of, index);
    d.bottom += 26;
    write_text(&d, LEFT + ROW, BEFORE, NOTE);
    return d.bottom + MARGIN;
}

static void draw_picture(const report *of)
{
    uint64_t height = draw_body(of, false);
    printf("<svg xmlns=\"http://www.w3.org/2000/svg\" width=\"%d\" height=\"" U64 "\" viewBox=\"0 0 %d " U64 "\""
           " font-family=\"sans-serif\" font-size=\"12\" fill=\"#222\">\n", WIDTH, height, WIDTH, height);
    printf("%s<rect width=\"%d\" height=\"" U64 "\" fill=\"#fff\"/>\n", PATTERNS, WIDTH, height);
    draw_body(of, true);
    printf("</svg>\n");
}

/* ---- The program ---- */

/* How many bytes a character of UTF-8 has that begins here, or 0 where none does. */
static size_t character_at(const unsigned char *text, size_t left)
{
    unsigned char c = text[0];
    size_t length = c < 0x80 ? 1 : c < 0xc2 ? 0 : c < 0xe0 ? 2 : c < 0xf0 ? 3 : c < 0xf5 ? 4 : 0;
    if (length > left)
        return 0;
    for (size_t i = 1; i < length; i++)
        if ((text[i] & 0xc0) != 0x80)
            return 0;
    /* no longer than it has to be, no surrogate, none above U+10FFFF */
    bool is_wrong = (c == 0xe0 && text[1] < 0xa0) || (c == 0xed && text[1] >= 0xa0) || (c == 0xf0 && text[1] < 0x90)
                    || (c == 0xf4 && text[1] >= 0x90);
    return is_wrong ? 0 : length;
}

/* Refuses a text that is not UTF-8. */
static void check_characters(const reader *r)
{
    reader seen = *r;
    for (size_t length; seen.at < seen.length; seen.at += length) {
        length = character_at((const unsigned char *)seen.text + seen.at, seen.length - seen.at);
        seen.last = place_of(&seen);
        if (length == 0)
            refuse(&seen, "invalid UTF-8", "");
        if (seen.text[seen.at] == '\n') {
            seen.line++;
            seen.line_start = seen.at + 1;
        }
    }
}

/* Draws the report in a text, and ends the program. */
NEVER_RETURNS static void draw_text(reader r)
{
    report of = {{NULL, 0, 0}, {NULL, 0, 0}, {NULL, 0, 0}, {NULL, 0, 0}, {NULL, 0, 0}, {NULL, 0, 0}};
    check_characters(&r);
    read_report(&r, &of);
    draw_picture(&of);
    end_program(DRAWN);
}

static reader reader_of(char *text, size_t length)
{
    return (reader){text, length, 0, 1, 0, FRESH, {1, 0}};
}

/* All bytes of a file. */
static reader read_all(FILE *file)
{
    LIST(char) text = {NULL, 0, 0};
    do {
        text.rows = with_room(text.rows, text.count, &text.capacity, 1);
        text.count += fread(text.rows + text.count, 1, text.capacity - text.count, file);
    } while (text.count == text.capacity);
    if (ferror(file))
        exit(READ_OR_WRITE_FAILED);
    return reader_of(text.rows, text.count);
}

/* The file of this name, or standard input. Each is read and written byte for byte, on Windows too. */
static FILE *opened(const char *name)
{
#ifdef _WIN32
    _setmode(_fileno(stdin), _O_BINARY);
    _setmode(_fileno(stdout), _O_BINARY);
#endif
    FILE *file = strcmp(name, "-") == 0 ? stdin : fopen(name, "rb");
    if (file == NULL) {
        fprintf(stderr, "wallthyme-picture: %s cannot be read: %s\n", name, strerror(errno));
        exit(NO_INPUT);
    }
    return file;
}

int main(int count, char **words)
{
    const char *name = count > 1 ? words[1] : "-";
    if (count > 2 || (name[0] == '-' && name[1] != '\0')) {
        fprintf(stderr, "usage: wallthyme-picture [REPORT.json] > picture.svg  (- or no word reads standard input)\n");
        return USAGE;
    }
    draw_text(read_all(opened(name)));
}
