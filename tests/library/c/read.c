/* Reads a chart from standard input; prints the number, the line, and whether the words lent then hold a chart. */
#include <stdio.h>

#include "tarknotter.h"

int main(void) {
    static uint8_t text[40000];
    static int32_t words[TARKNOTTER_CHART_WORDS];
    size_t length = fread(text, 1, sizeof text, stdin);
    struct tarknotter_reply reply = tarknotter_read(text, length, words, TARKNOTTER_CHART_WORDS);
    bool held = tarknotter_well_formed(words, TARKNOTTER_CHART_WORDS);
    printf("%u\t%zu\t%zu\t%d\n", (unsigned)reply.number, reply.line, reply.length, held);
    return 0;
}
