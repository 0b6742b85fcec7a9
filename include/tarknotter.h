/* The calls of target/staticlib/libtarknotter.a, which `tools/archive` writes, for x86-64 Linux, from C11 or C++11 on.
   A buffer is lent by a pointer and a length that counts its elements: words for int32_t, bytes for uint8_t. The
   pointer is aligned for its elements, words to 4 bytes, and never NULL, even with length 0. What a call is lent must
   not overlap. A buffer, but for a file's text, may be longer than needed: what stands past that is neither looked at nor
   written. Calls keep nothing. Capacity, budget and iterations are the room, allowance and rounds of `walk` (README.md,
   which has the numbers of refusals too). */
#ifndef TARKNOTTER_H
#define TARKNOTTER_H

#include <stdbool.h>
#include <stddef.h>
#include <stdint.h>

#ifdef __cplusplus
extern "C" {
#endif

/* The words that the largest chart takes. */
#define TARKNOTTER_CHART_WORDS 3163

/* The words that the largest capacity takes: 256 slots of 11 words, and 256 waiting slots. A slot's words are its
   location, a value for each variable, and at the end the slot and the edge that first brought it, 65,535 and 0 in slot 0. */
#define TARKNOTTER_TABLE_WORDS 2816
#define TARKNOTTER_LIST_WORDS 256

/* Bytes that hold the listing of every analysis in form, the path of every alarm, and every run. */
#define TARKNOTTER_LISTING_BYTES 24576

/* Ways to merge and to stop, and the order in which waiting slots are taken. */
#define TARKNOTTER_SEP 0
#define TARKNOTTER_JOIN 1
#define TARKNOTTER_OLD 0
#define TARKNOTTER_NEW 1

/* Verdicts: unfinished, safe, alarm, out of room. */
#define TARKNOTTER_OPEN 0
#define TARKNOTTER_SAFE 1
#define TARKNOTTER_ALARM 2
#define TARKNOTTER_FULL 3

/* 0 and line 0 from a call that goes through, with the length in bytes of a listing, path or run; else the
   refusal's number and line, which is 0 unless it is a line of a file. The length is 0 where none is written. A
   refused call has written nothing. */
struct tarknotter_reply {
    uint32_t number;
    size_t line;
    size_t length;
};

/* What goes with an analysis from call to call, beside the table and the waitlist. It passes by value: keep
   the one that a call answers, and hand it to the next. */
struct tarknotter_record {
    uint32_t merge;
    uint32_t stop;
    uint32_t order;
    uint32_t capacity;
    uint32_t iterations;
    size_t used;    /* slots in use */
    size_t waiting; /* slots in the waitlist */
    uint32_t verdict;
    size_t edge; /* the edge that raised the alarm, from 1 on; 0 for none */
};

/* The reply, and the record as the call leaves it: as it was handed in where the call is refused. */
struct tarknotter_called {
    struct tarknotter_reply reply;
    struct tarknotter_record record;
};

/* A chart file's bytes into the words of the encoded chart (docs/memory.md). Refused with 1, 2, 3, then line by line 4
   to 10 (README.md has their meaning, and says what document 01 is, which has their order), then 14. */
struct tarknotter_reply tarknotter_read(const uint8_t *text, size_t text_length,
                                        int32_t *words, size_t words_length);

/* Whether the words begin with the encoding of a chart that reading can produce. */
bool tarknotter_well_formed(const int32_t *words, size_t words_length);

/* Begins an analysis anew, the initial state in slot 0, waiting, and plays iterations until a verdict or until the
   budget is spent; a budget of 0 is the plain start, which plays none. An initial state at an error location is an alarm
   at once, with 0 iterations and edge 0, whatever the budget. What table, list and record hold is not looked at: the
   record may be any, all 0 before the first call. A capacity of r takes r * (variables + 3) table words and r list words,
   and all of them are written, those not in use with 0. A merge, stop or order other than those above is refused with 6,
   before all else; then 11 (capacity not 1 to 256), 12 (sep with stop join), 13 (budget not 0 to 60,000), 20, 14, in
   this order. */
struct tarknotter_called tarknotter_begin(const int32_t *chart, size_t chart_length,
                                          uint32_t merge, uint32_t stop, uint32_t order, int32_t capacity, int32_t budget,
                                          struct tarknotter_record record,
                                          int32_t *table, size_t table_length,
                                          int32_t *list, size_t list_length);

/* Plays iterations until a verdict, until the budget is spent, or until the analysis has played 60,000. Refused with
   13, 20, 14, 21, 22, 23, in this order; a code in the record other than those above is 21. */
struct tarknotter_called tarknotter_run(const int32_t *chart, size_t chart_length,
                                        int32_t budget, struct tarknotter_record record,
                                        int32_t *table, size_t table_length,
                                        int32_t *list, size_t list_length);

/* The listing of an analysis into the bytes lent, and its length. Refused with 20, 14, 21, 15, in this order; a code in
   the record other than those above is 21. */
struct tarknotter_reply tarknotter_listing(const int32_t *chart, size_t chart_length,
                                           struct tarknotter_record record,
                                           const int32_t *table, size_t table_length,
                                           const int32_t *list, size_t list_length,
                                           uint8_t *space, size_t space_length);

/* The path to an alarm into the bytes lent, and its length: a line `path`, merge, alarm edge, then from slot 0 to the slot
   that is taken next (list[0] with order old, list[waiting - 1] with new), which is the one that the alarm was raised
   from, a line each: the edge that first brought it, and its line of the listing.
   Refused with 20, 14, 21, 24 (the verdict is not alarm), 15, in this order; a code in the record other than those above
   is 21. */
struct tarknotter_reply tarknotter_path(const int32_t *chart, size_t chart_length,
                                        struct tarknotter_record record,
                                        const int32_t *table, size_t table_length,
                                        const int32_t *list, size_t list_length,
                                        uint8_t *space, size_t space_length);

/* A shortest real run, of at most k moves, to an error location or an overrun, into the bytes lent, and its length: a line
   `run` and its count of moves, an overrunning one counted, then from the start on a line for each state: the edge that
   brought it (0 at the start), its location's name and its values; an overrunning move is a line of its edge alone. Of the
   shortest it is the first by starting values ascending, variable 0 first, then move by move by edge and input value. Where
   there is none, a line `none` and k. It needs no analysis. The time can grow exponentially with k.
   Refused with 30 (k not 0 to 8), 20, 31 (an `in` of more than 16 values anywhere in the chart, or more than 4,096
   starting states), 15, in this order. */
struct tarknotter_reply tarknotter_search(const int32_t *chart, size_t chart_length,
                                          int32_t k,
                                          uint8_t *space, size_t space_length);

#ifdef __cplusplus
}
#endif

#endif
