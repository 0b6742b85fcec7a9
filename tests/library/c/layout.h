/* The layout of the header's structs, held when a test is compiled; tests/library/src/lib.rs holds its own to the same numbers. */
#ifndef LAYOUT_H
#define LAYOUT_H

#include <assert.h>
#include <stddef.h>

#include "tarknotter.h"

#ifdef __cplusplus
#define ALIGNMENT alignof
#else
#define ALIGNMENT _Alignof
#endif

#define SIZE(type, size, alignment) \
    static_assert(sizeof(struct type) == (size) && ALIGNMENT(struct type) == (alignment), #type)
#define FIELD(type, field, kind, offset) \
    static_assert(offsetof(struct type, field) == (offset) && sizeof(((struct type *)0)->field) == sizeof(kind), \
                  #type "." #field)

SIZE(tarknotter_reply, 24, 8);
FIELD(tarknotter_reply, number, uint32_t, 0);
FIELD(tarknotter_reply, line, size_t, 8);
FIELD(tarknotter_reply, length, size_t, 16);

SIZE(tarknotter_record, 56, 8);
FIELD(tarknotter_record, merge, uint32_t, 0);
FIELD(tarknotter_record, stop, uint32_t, 4);
FIELD(tarknotter_record, order, uint32_t, 8);
FIELD(tarknotter_record, capacity, uint32_t, 12);
FIELD(tarknotter_record, iterations, uint32_t, 16);
FIELD(tarknotter_record, used, size_t, 24);
FIELD(tarknotter_record, waiting, size_t, 32);
FIELD(tarknotter_record, verdict, uint32_t, 40);
FIELD(tarknotter_record, edge, size_t, 48);

SIZE(tarknotter_called, 80, 8);
FIELD(tarknotter_called, reply, struct tarknotter_reply, 0);
FIELD(tarknotter_called, record, struct tarknotter_record, 24);

static_assert(sizeof(size_t) == 8 && sizeof(bool) == 1, "x86-64");

#endif
