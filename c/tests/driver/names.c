#include "names.h"

#include "random.h"
#include <inttypes.h>
#include <stdio.h>
#include <string.h>

/* Each word as it is, and as JSON has it (RFC 8259). */
static const struct word {
    const char *text, *json;
} WORDS[] = {
    {"vertices", "vertices"},
    {"Thymian für alle", "Thymian für alle"},
    {"\xf0\x9f\x8c\xbf{leaf}", "\xf0\x9f\x8c\xbf{leaf}"},
    {"the \"sky\"", "the \\\"sky\\\""},
    {"maps\\stone", "maps\\\\stone"},
    {"two\nlines\x7f", "two\\u000alines\x7f"},
};
enum { WORDS_COUNT = sizeof WORDS / sizeof *WORDS };

/* A byte that continues nothing, a character that is cut, 0xff, an overlong one, half of a surrogate pair, and one past
   the last. */
static const char *const MALFORMED[] = {
    "\x80", "leaf \xf0\x9f\x8c", "\xff", "\xc0\xaf", "\xed\xa0\x80", "\xf4\x90\x80\x80",
};
enum { MALFORMED_COUNT = sizeof MALFORMED / sizeof *MALFORMED };

name name_drawn(uint64_t *random, uint64_t number)
{
    const struct word *word = &WORDS[random_below(random, WORDS_COUNT)];
    name drawn;
    snprintf(drawn.text, sizeof drawn.text, "%s %" PRIu64, word->text, number);
    snprintf(drawn.json, sizeof drawn.json, "%s %" PRIu64, word->json, number);
    return drawn;
}

const char *name_malformed(uint64_t *random)
{
    return MALFORMED[random_below(random, MALFORMED_COUNT)];
}

bool name_is(const name *n, const char *text)
{
    return text == NULL ? n->text[0] == '\0' : n->text[0] != '\0' && strcmp(n->text, text) == 0;
}
