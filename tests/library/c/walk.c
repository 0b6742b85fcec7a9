/* Reads a chart of three variables from standard input and walks it with room 6 under each of the settings. After each call it
   prints every field of the reply and the record and every word lent, and after a listing or path its text. C and C++. */
#include <stdio.h>

#include "layout.h"

enum { ROOM = 6, TABLE = ROOM * (3 + 3), NO_MERGE = 7 };

static uint8_t text[40000], space[TARKNOTTER_LISTING_BYTES];
static int32_t chart[TARKNOTTER_CHART_WORDS], table[TABLE], list[ROOM];
static struct tarknotter_record record;

static void print_words(const char *name, const int32_t *words, size_t length) {
    printf(", %s", name);
    for (size_t place = 0; place < length; place++) {
        printf(" %d", (int)words[place]);
    }
}

static void print_call(const char *name, struct tarknotter_reply reply) {
    printf("%s: %u %zu %zu", name, (unsigned)reply.number, reply.line, reply.length);
    printf(", record %u %u %u", (unsigned)record.merge, (unsigned)record.stop, (unsigned)record.order);
    printf(" %u %u", (unsigned)record.capacity, (unsigned)record.iterations);
    printf(" %zu %zu %u %zu", record.used, record.waiting, (unsigned)record.verdict, record.edge);
    print_words("table", table, TABLE);
    print_words("list", list, ROOM);
    printf("\n");
}

static void begin(uint32_t merge, uint32_t stop, uint32_t order, int32_t budget, size_t table_length) {
    struct tarknotter_called called = tarknotter_begin(chart, TARKNOTTER_CHART_WORDS, merge, stop, order, ROOM, budget,
                                                       record, table, table_length, list, ROOM);
    record = called.record;
    print_call("begin", called.reply);
}

static void run(int32_t budget) {
    struct tarknotter_called called =
        tarknotter_run(chart, TARKNOTTER_CHART_WORDS, budget, record, table, TABLE, list, ROOM);
    record = called.record;
    print_call("run", called.reply);
}

static size_t listing(size_t space_length) {
    struct tarknotter_reply reply = tarknotter_listing(chart, TARKNOTTER_CHART_WORDS, record, table, TABLE, list, ROOM,
                                                       space, space_length);
    print_call("listing", reply);
    fwrite(space, 1, reply.length, stdout);
    return reply.length;
}

static size_t path(size_t space_length) {
    struct tarknotter_reply reply =
        tarknotter_path(chart, TARKNOTTER_CHART_WORDS, record, table, TABLE, list, ROOM, space, space_length);
    print_call("path", reply);
    fwrite(space, 1, reply.length, stdout);
    return reply.length;
}

/* In small budgets and then to the verdict, with a refusal of each call; then anew, a part and the whole at once. */
static void walk(uint32_t merge, uint32_t stop, uint32_t order) {
    begin(merge, stop, order, 100, TABLE - 1);
    begin(merge, stop, order, 0, TABLE);
    run(0);
    run(1);
    run(2);
    path(sizeof space);
    run(100);
    run(100);
    size_t length = listing(sizeof space);
    listing(length - 1);
    length = path(sizeof space);
    if (length > 0) path(length - 1);
    begin(merge, stop, order, -1, TABLE - 1);
    begin(merge, stop, order, 3, TABLE);
    begin(merge, stop, order, 100, TABLE);
    listing(sizeof space);
    begin(NO_MERGE, stop, order, -1, TABLE - 1);
}

int main(void) {
    printf("%d %d %d %d\n", TARKNOTTER_CHART_WORDS, TARKNOTTER_TABLE_WORDS, TARKNOTTER_LIST_WORDS,
           TARKNOTTER_LISTING_BYTES);
    size_t length = fread(text, 1, sizeof text, stdin);
    print_call("read", tarknotter_read(text, length, chart, TARKNOTTER_CHART_WORDS));
    walk(TARKNOTTER_SEP, TARKNOTTER_SEP, TARKNOTTER_OLD);
    walk(TARKNOTTER_SEP, TARKNOTTER_SEP, TARKNOTTER_NEW);
    walk(TARKNOTTER_JOIN, TARKNOTTER_SEP, TARKNOTTER_OLD);
    walk(TARKNOTTER_JOIN, TARKNOTTER_SEP, TARKNOTTER_NEW);
    walk(TARKNOTTER_JOIN, TARKNOTTER_JOIN, TARKNOTTER_OLD);
    walk(TARKNOTTER_JOIN, TARKNOTTER_JOIN, TARKNOTTER_NEW);
    return 0;
}
