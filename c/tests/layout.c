/* The library sees the structs and the constants as the header tells them to C. (The test of rust/src/ffi.rs compares
 * the same rows. That the library's own fields have the places that it tells is for fields.c to see.) */
#include "common.h"

#include "layout.h"

typedef struct {
    uint32_t number, value;
    const char *text;
} row;

#define AS_ROW(number, value) { number, (uint32_t)(value), #value },
static const row rows[] = { WT_LAYOUT(AS_ROW) };

int main(void) {
    unsigned wrong = 0;
    expect(wt_version() == WT_VERSION, "the library has another version than the header");
    for (uint32_t i = 0; i < LENGTH(rows); i++) {
        current_case = rows[i].text;
        expect(rows[i].number == i, "the rows are not numbered in order");
        if (wt_layout(i) == rows[i].value) continue;
        fprintf(stderr, "layout: row %u, %s, is %u here and %u in the library\n", (unsigned)i, rows[i].text,
                (unsigned)rows[i].value, (unsigned)wt_layout(i));
        wrong++;
    }
    current_case = "";
    expect(wrong == 0, "rows are wrong");
    expect(wt_layout((uint32_t)LENGTH(rows)) == WT_LAYOUT_END, "the library has a row more");
    printf("layout: %u rows\n", (unsigned)LENGTH(rows));
    return 0;
}
