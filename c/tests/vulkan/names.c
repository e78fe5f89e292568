/* Names of blocks over the stub: which texts are names, how they come and go, and where they are written. Then the
 * texts of what is held.
 *
 *     names [FOLDER/]
 *
 * FOLDER: where a report with all kinds of names is written. */
#include "stub.h"

#include <string.h>

enum { SIZE = 1000, SIDE = 16, ALIGNMENT = 64, OBJECT_SIZE = 4096 };
#define INVALID VK_ERROR_VALIDATION_FAILED_EXT

typedef struct world {
    stub *driver;
    wtv_allocator *allocator;
} world;

static void begin(world *w)
{
    stub_plan plan = stub_usual_plan();
    w->driver = stub_open(&plan);
    const wtv_create_info info = stub_info(w->driver);
    must(wtv_create(&info, &w->allocator) == VK_SUCCESS, "no allocator is created");
}

static void end(world *w)
{
    must(wtv_destroy(w->allocator, NULL, 0, NULL) == VK_SUCCESS, "an allocator is not destroyed");
    must(stub_close(w->driver) == 0, "the stub found failures");
}

static wtv_allocation allocated(world *w, const wtv_request *request)
{
    const VkMemoryRequirements needs = {SIZE, ALIGNMENT, STUB_ALL_TYPES};
    wtv_allocation allocation;
    must(wtv_allocate(w->allocator, &needs, request, &allocation, NULL) == VK_SUCCESS, "no block");
    return allocation;
}

static wtv_allocation imported(world *w)
{
    wtv_allocation allocation;
    VkDeviceMemory memory = stub_make_object(w->driver, STUB_CACHED, OBJECT_SIZE);
    must(wtv_import(w->allocator, memory, STUB_CACHED, OBJECT_SIZE, 0, OBJECT_SIZE, &allocation, NULL) == VK_SUCCESS,
         "no import");
    return allocation;
}

static void freed(world *w, wtv_allocation allocation)
{
    must(wtv_free(w->allocator, allocation) == VK_SUCCESS, "a block is not taken back");
}

static wtv_block now(world *w, wtv_allocation allocation)
{
    wtv_block block;
    must(wtv_block_of(w->allocator, allocation, &block) == VK_SUCCESS, "a live block is unknown");
    return block;
}

/* ---- How names come and go. ---- */

static wtv_allocation named(world *w, const char *name, uint64_t user)
{
    const wtv_request request = {.usage = WT_USAGE_UPLOAD, .user = user};
    wtv_allocation allocation = allocated(w, &request);
    must(now(w, allocation).name == NULL, "a new block has a name");
    must(wtv_set_name(w->allocator, allocation, name) == VK_SUCCESS, "a block is not named");
    return allocation;
}

static void expect_name(world *w, wtv_allocation allocation, const char *wanted)
{
    const char *name = now(w, allocation).name;
    must((name == NULL) == (wanted == NULL), "a block has a name, or has none");
    must(wanted == NULL || strcmp(name, wanted) == 0, "a block has another name");
}

/* One name takes the place of another; null and an empty one take it away. It is a copy. */
static void run_replaced(void)
{
    char text[] = "the first";
    world w;
    begin(&w);
    wtv_allocation first = named(&w, text, 1), second = named(&w, NULL, 2);
    must(now(&w, first).name != text, "a name is not copied");
    memset(text, 'x', sizeof text - 1);
    expect_name(&w, first, "the first");
    expect_name(&w, second, NULL);
    must(wtv_set_name(w.allocator, second, "") == VK_SUCCESS, "no name is not taken away");
    expect_name(&w, second, NULL);
    must(wtv_set_name(w.allocator, second, "the second") == VK_SUCCESS, "a block is not named");
    must(wtv_set_name(w.allocator, first, "another name that is longer") == VK_SUCCESS, "a name is not replaced");
    expect_name(&w, first, "another name that is longer");
    must(wtv_set_name(w.allocator, first, now(&w, first).name) == VK_SUCCESS, "a name is not replaced by itself");
    expect_name(&w, first, "another name that is longer");
    expect_name(&w, second, "the second");
    must(wtv_set_name(w.allocator, first, "") == VK_SUCCESS, "a name is not taken away");
    expect_name(&w, first, NULL);
    expect_name(&w, second, "the second");
    must(wtv_set_name(w.allocator, second, NULL) == VK_SUCCESS, "a name is not taken away");
    expect_name(&w, second, NULL);
    must(wtv_set_name(w.allocator, second, "freed with its block") == VK_SUCCESS, "a block is not named");
    freed(&w, first);
    freed(&w, second);
    wtv_allocation third = named(&w, NULL, 3);
    expect_name(&w, third, NULL);
    must(wtv_set_name(w.allocator, second, "a freed one") == INVALID, "a freed block is named");
    must(wtv_set_name(w.allocator, 0, "none") == INVALID && wtv_set_name(w.allocator, 0, NULL) == INVALID,
         "no block is named");
    freed(&w, third);
    end(&w);
}

/* Many names, which come and go with their blocks. */
static void run_many(void)
{
    enum { MANY = 500, ROUNDS = 4000 };
    static wtv_allocation live[MANY];
    static unsigned numbers[MANY];
    char name[32];
    uint64_t random = 5;
    world w;
    begin(&w);
    for (unsigned i = 0; i < ROUNDS; i++) {
        size_t at = (size_t)draw(&random, MANY);
        if (live[at] != 0) {
            sprintf(name, "block %u", numbers[at]);
            expect_name(&w, live[at], numbers[at] % 3 == 0 ? NULL : name);
            freed(&w, live[at]);
        }
        numbers[at] = i;
        sprintf(name, "block %u", i);
        live[at] = named(&w, i % 3 == 0 ? NULL : name, i);
    }
    for (size_t i = 0; i < MANY; i++)
        freed(&w, live[i]);
    end(&w);
}

/* A name ends with its resource, and an import has one as others have. */
static void run_resources(void)
{
    const VkBufferCreateInfo buffer_info = stub_buffer_info(SIZE);
    const VkImageCreateInfo image_info = stub_image_info(SIDE, SIDE, true);
    const wtv_request request = {.usage = WTV_USAGE_AUTO, .flags = WTV_MAPPED, .dedicated = WT_REQUIRED};
    VkBuffer buffer;
    VkImage image;
    wtv_allocation of_buffer, of_image;
    world w;
    begin(&w);
    wtv_allocator *a = w.allocator;
    must(wtv_create_buffer(a, &buffer_info, &request, &buffer, &of_buffer, NULL) == VK_SUCCESS, "no buffer");
    must(wtv_create_image(a, &image_info, &request, &image, &of_image, NULL) == VK_SUCCESS, "no image");
    wtv_allocation of_program = imported(&w);
    must(wtv_set_name(a, of_buffer, "buffer") == VK_SUCCESS && wtv_set_name(a, of_image, "image") == VK_SUCCESS
             && wtv_set_name(a, of_program, "import") == VK_SUCCESS, "a block is not named");
    expect_name(&w, of_buffer, "buffer");
    expect_name(&w, of_image, "image");
    expect_name(&w, of_program, "import");
    must(wtv_destroy_buffer(a, buffer, of_buffer) == VK_SUCCESS, "a buffer is not destroyed");
    must(wtv_destroy_image(a, image, of_image) == VK_SUCCESS, "an image is not destroyed");
    freed(&w, of_program);
    end(&w);
}

/* ---- Which texts are names. ---- */

/* Whether a text is UTF-8, by what its characters would be, written out again in their shortest form. */
static bool is_text(const unsigned char *text)
{
    while (*text != 0) {
        uint32_t more = *text >= 0xf0 ? 3 : *text >= 0xe0 ? 2 : *text >= 0xc0 ? 1 : 0;
        uint32_t character = more == 0 ? *text : *text & (0x3fu >> more);
        static const uint32_t least[] = {0, 0x80, 0x800, 0x10000};
        if (*text >= 0xf8 || (more == 0 && *text >= 0x80))
            return false;
        for (uint32_t i = 1; i <= more; i++) {
            if (text[i] < 0x80 || text[i] > 0xbf)
                return false;
            character = character << 6 | (text[i] & 0x3f);
        }
        if (character < least[more] || character > 0x10ffff || (character >= 0xd800 && character <= 0xdfff))
            return false;
        text += more + 1;
    }
    return true;
}

/* Each text of up to four bytes that lie at bounds of UTF-8, alone and behind another character. */
static void run_texts_of_names(void)
{
    static const unsigned char bytes[] = {0,    0x01, 0x22, 0x41, 0x7f, 0x80, 0x8f, 0x90, 0x9f, 0xa0, 0xbf, 0xc0, 0xc1,
                                          0xc2, 0xdf, 0xe0, 0xe1, 0xec, 0xed, 0xee, 0xef, 0xf0, 0xf1, 0xf4, 0xf5, 0xff};
    unsigned good = 0, bad = 0;
    world w;
    begin(&w);
    wtv_allocation block = named(&w, "as before", 1);
    for (size_t i = 0; i < LENGTH(bytes) * LENGTH(bytes) * LENGTH(bytes) * LENGTH(bytes); i++) {
        const unsigned char text[] = {bytes[i % LENGTH(bytes)], bytes[i / LENGTH(bytes) % LENGTH(bytes)],
                                      bytes[i / LENGTH(bytes) / LENGTH(bytes) % LENGTH(bytes)],
                                      bytes[i / LENGTH(bytes) / LENGTH(bytes) / LENGTH(bytes)], 0};
        bool is_good = is_text(text);
        if (is_good ? i % 97 != 0 : false)
            continue; /* the good ones are many alike */
        const char *wanted = is_good ? (const char *)text : "as before";
        must(wtv_set_name(w.allocator, block, (const char *)text) == (is_good ? VK_SUCCESS : INVALID),
             "a text is taken as a name, or refused, that should not be");
        expect_name(&w, block, wanted[0] != 0 ? wanted : NULL);
        must(!is_good || wtv_set_name(w.allocator, block, "as before") == VK_SUCCESS, "a name is not replaced");
        good += is_good;
        bad += !is_good;
    }
    must(good > 100 && bad > 1000, "too few texts");
    freed(&w, block);
    end(&w);
}

/* ---- Names in what is written. ---- */

enum { LONG = 100000 };

static char long_name[LONG + 1];
static char control_characters[0x21];

static const char *const odd_names[] = {
    "mesh",
    "\"quoted\" and \\ and / and \\u0041",
    "{\"key\":4294967296,\"user\":0,\"name\":\"not this one\"",
    ",\"name\":\"",
    "W\xc3\xbcrfel \xe5\x90\x8d\xe5\x89\x8d \xf0\x9f\x8e\xa8",
    "\xc2\x80 \xdf\xbf \xe0\xa0\x80 \xed\x9f\xbf \xee\x80\x80 \xef\xbf\xbf \xf0\x90\x80\x80 \xf4\x8f\xbf\xbf",
    "\x7f%s%n%d",
    " ",
    control_characters,
    long_name,
};
enum { NAMES = LENGTH(odd_names) };

static void fill_names(void)
{
    memset(long_name, 'n', LONG);
    for (int i = 0; i < 0x20; i++)
        control_characters[i] = (char)(i + 1);
}

static unsigned digit_of(char c)
{
    must((c >= '0' && c <= '9') || (c >= 'a' && c <= 'f'), "no digit");
    return (unsigned)(c <= '9' ? c - '0' : c - 'a' + 10);
}

/* Reads a string of JSON up to its quote, and returns what is behind it. */
static const char *read_string(const char *from, char *text, size_t room)
{
    size_t length = 0;
    for (; *from != '"'; from++) {
        unsigned char byte = (unsigned char)*from;
        must(byte >= 0x20 && length + 1 < room, "a string has a control character, or does not end");
        if (byte == '\\' && from[1] == 'u') {
            must(from[2] == '0' && from[3] == '0', "a character is written as a number that need not be");
            byte = (unsigned char)(16 * digit_of(from[4]) + digit_of(from[5]));
            from += 5;
        } else if (byte == '\\') {
            byte = (unsigned char)*++from;
            must(byte == '"' || byte == '\\' || byte == '/', "another escape");
        }
        text[length++] = (char)byte;
    }
    text[length] = '\0';
    return from + 1;
}

/* The name of a block in a report, whether it has one. */
static bool read_name(const char *report, wtv_allocation allocation, uint64_t user, char *name, size_t room)
{
    static const char member[] = ",\"name\":\"";
    char begin_of_place[80];
    sprintf(begin_of_place, "\n{\"key\":%llu,\"user\":%llu", (unsigned long long)allocation, (unsigned long long)user);
    const char *at = strstr(report, begin_of_place);
    must(at != NULL, "a report lacks a block");
    at += strlen(begin_of_place);
    bool has_name = strncmp(at, member, sizeof member - 1) == 0;
    if (has_name)
        at = read_string(at + sizeof member - 1, name, room);
    must(strncmp(at, ",\"asked\":", 9) == 0, "a name does not stand behind its user, or something else does");
    return has_name;
}

static void write_file(const char *folder, const char *text)
{
    char path[512];
    must(snprintf(path, sizeof path, "%snames.json", folder) < (int)sizeof path, "a long path");
    FILE *file = fopen(path, "w");
    must(file != NULL && fputs(text, file) >= 0 && fclose(file) == 0, "a text is not written");
}

/* A report is as without names, but for these. */
static void check_report(world *w, const wtv_allocation *blocks, const char *folder)
{
    static char name[LONG + 1];
    char *before, *after, *again;
    must(wtv_report_text(w->allocator, &before) == VK_SUCCESS, "no report");
    for (size_t i = 0; i < NAMES; i++)
        must(wtv_set_name(w->allocator, blocks[i], odd_names[i]) == VK_SUCCESS, "a block is not named");
    must(wtv_report_text(w->allocator, &after) == VK_SUCCESS, "no report");
    size_t added = 0;
    for (size_t i = 0; i < NAMES; i++) {
        must(read_name(after, blocks[i], i, name, sizeof name), "a report lacks a name");
        must(strcmp(name, odd_names[i]) == 0, "a report has another name");
        added += strlen(odd_names[i]);
    }
    must(!read_name(after, blocks[NAMES], NAMES, name, sizeof name), "a block without a name has one");
    must(strlen(after) > strlen(before) + added, "a name is cut");
    if (folder != NULL)
        write_file(folder, after);
    for (size_t i = 0; i < NAMES; i++)
        must(wtv_set_name(w->allocator, blocks[i], NULL) == VK_SUCCESS, "a name is not taken away");
    must(wtv_report_text(w->allocator, &again) == VK_SUCCESS && strcmp(before, again) == 0, "a report is changed");
    wtv_free_text(before);
    wtv_free_text(after);
    wtv_free_text(again);
}

/* A walk, and the list of an allocator that is not destroyed, have names and mappings. */
static void check_lists(world *w, const wtv_allocation *blocks)
{
    wtv_block walked[NAMES + 1], listed[NAMES + 1];
    size_t walked_len, listed_len;
    for (size_t i = 0; i < NAMES; i++)
        must(wtv_set_name(w->allocator, blocks[i], odd_names[i]) == VK_SUCCESS, "a block is not named");
    must(wtv_blocks(w->allocator, 0, walked, NAMES + 1, &walked_len) == VK_SUCCESS, "no walk");
    must(wtv_destroy(w->allocator, listed, NAMES + 1, &listed_len) == INVALID, "an allocator is destroyed");
    must(walked_len == NAMES + 1 && listed_len == NAMES + 1, "a list lacks a block");
    for (size_t i = 0; i <= NAMES; i++) {
        const wtv_block known = now(w, walked[i].allocation);
        const char *wanted = walked[i].user < NAMES ? odd_names[walked[i].user] : NULL;
        must(walked[i].name == known.name && listed[i].name == known.name, "a list has another name");
        must(walked[i].mapped == known.mapped && listed[i].mapped == known.mapped && known.mapped != NULL,
             "a list has another mapping");
        expect_name(w, walked[i].allocation, wanted);
    }
}

static void run_reports(const char *folder)
{
    wtv_allocation blocks[NAMES + 1];
    world w;
    fill_names();
    begin(&w);
    for (size_t i = 0; i <= NAMES; i++)
        blocks[i] = named(&w, NULL, i);
    check_report(&w, blocks, folder);
    check_lists(&w, blocks);
    for (size_t i = 0; i <= NAMES; i++)
        freed(&w, blocks[i]);
    end(&w);
}

/* ---- The text of the sums. ---- */

/* It is the report up to its objects. */
static void expect_report_without_objects(world *w)
{
    static const char end_of_sums[] = "\n]}\n", objects[] = "\n],\"objects\":[";
    char *sums, *report;
    must(wtv_statistics_text(w->allocator, &sums) == VK_SUCCESS, "no text");
    must(wtv_report_text(w->allocator, &report) == VK_SUCCESS, "no report");
    size_t length = strlen(sums) - (sizeof end_of_sums - 1);
    must(strcmp(sums + length, end_of_sums) == 0, "a text ends otherwise");
    must(strncmp(sums, report, length) == 0, "sums are other ones than the report's");
    must(strncmp(report + length, objects, sizeof objects - 1) == 0, "sums are fewer than the report's");
    wtv_free_text(sums);
    wtv_free_text(report);
}

static void run_sums(void)
{
    static const wtv_request requests[] = {
        {.usage = WT_USAGE_UPLOAD},
        {.usage = WT_USAGE_DOWNLOAD | WT_USAGE_TRANSIENT},
        {.dedicated = WT_REQUIRED},
        {.usage = WT_USAGE_UPLOAD, .dedicated = WT_REQUIRED, .flags = WTV_MAPPED},
    };
    wtv_allocation blocks[LENGTH(requests) + 1];
    world w;
    begin(&w);
    expect_report_without_objects(&w);
    for (size_t i = 0; i < LENGTH(requests); i++) {
        blocks[i] = allocated(&w, &requests[i]);
        must(wtv_set_name(w.allocator, blocks[i], "named") == VK_SUCCESS, "a block is not named");
        expect_report_without_objects(&w);
    }
    blocks[LENGTH(requests)] = imported(&w);
    must(wtv_set_heap_limit(w.allocator, STUB_HOST_HEAP, 123456) == VK_SUCCESS, "no limit is set");
    expect_report_without_objects(&w);
    for (size_t i = 0; i < LENGTH(blocks); i++)
        freed(&w, blocks[i]);
    expect_report_without_objects(&w);
    end(&w);
}

int main(int argc, char **argv)
{
    run_replaced();
    run_many();
    run_resources();
    run_texts_of_names();
    run_reports(argc > 1 ? argv[1] : NULL);
    run_sums();
    printf("names: set, replaced, taken away and freed, %d kinds in reports and lists, and the texts of sums\n",
           (int)NAMES);
    return 0;
}
