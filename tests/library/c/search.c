/* Reads a chart from standard input and searches it with each bound from -1 to 9, with just the bytes that the text takes and with one
   fewer, and once with words that are no chart. Prints every field of each reply, the text, and whether the bytes past it are untouched.
   C and C++. */
#include <stdio.h>
#include <string.h>

#include "layout.h"

enum { UNTOUCHED = 0xA5, MORE = 16 };

static uint8_t text[40000], space[TARKNOTTER_LISTING_BYTES + MORE];
static int32_t chart[TARKNOTTER_CHART_WORDS];

static size_t search(size_t chart_length, int32_t k, size_t space_length) {
    memset(space, UNTOUCHED, sizeof space);
    struct tarknotter_reply reply = tarknotter_search(chart, chart_length, k, space, space_length);
    size_t touched = 0;
    for (size_t place = reply.length; place < sizeof space; place++) {
        touched += space[place] != UNTOUCHED;
    }
    printf("search %d: %u %zu %zu, %zu touched\n", (int)k, (unsigned)reply.number, reply.line, reply.length, touched);
    fwrite(space, 1, reply.length, stdout);
    return reply.length;
}

int main(void) {
    size_t length = fread(text, 1, sizeof text, stdin);
    struct tarknotter_reply reply = tarknotter_read(text, length, chart, TARKNOTTER_CHART_WORDS);
    printf("read: %u %zu %zu\n", (unsigned)reply.number, reply.line, reply.length);
    for (int32_t k = -1; k <= 9; k++) {
        size_t written = search(TARKNOTTER_CHART_WORDS, k, TARKNOTTER_LISTING_BYTES);
        if (written > 0) {
            search(TARKNOTTER_CHART_WORDS, k, written);
            search(TARKNOTTER_CHART_WORDS, k, written - 1);
        }
    }
    search(3, 8, TARKNOTTER_LISTING_BYTES);
    return 0;
}
