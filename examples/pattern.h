/* A pattern as the hosts here keep it: its sizes, and its list of nonzeros in the function's layout. */
#ifndef PATTERN_H
#define PATTERN_H

#include "gulzoreno.h"

#include <stdlib.h>

struct pattern {
    uint64_t m, n, nonzeros;
    uint8_t list[GULZORENO_ENTRY * GULZORENO_MOST_NONZEROS];
};

/* A row or column number of two bytes, lowest first. */
static inline unsigned number(const uint8_t *bytes)
{
    return bytes[0] + 256u * bytes[1];
}

static inline void put_number(uint8_t *bytes, unsigned x)
{
    bytes[0] = (uint8_t)(x % 256);
    bytes[1] = (uint8_t)(x / 256);
}

static inline unsigned row_of(const uint8_t *entry)
{
    return number(entry + GULZORENO_AT_ROW);
}

static inline unsigned column_of(const uint8_t *entry)
{
    return number(entry + GULZORENO_AT_COLUMN);
}

/* Adds a nonzero at the end, its row and column counted from 0. Answers 0 if it lies in the matrix and there is room. */
static inline int add_nonzero(struct pattern *p, unsigned row, unsigned column)
{
    if (row >= p->m || column >= p->n || p->nonzeros == GULZORENO_MOST_NONZEROS)
        return 1;
    uint8_t *entry = p->list + GULZORENO_ENTRY * p->nonzeros++;
    put_number(entry + GULZORENO_AT_ROW, row);
    put_number(entry + GULZORENO_AT_COLUMN, column);
    return 0;
}

/* By row, and then by column. The bytes of a number come lowest first, so that entries cannot be compared byte by byte. */
static inline int by_place(const void *a, const void *b)
{
    int rows = (int)row_of(a) - (int)row_of(b);
    return rows != 0 ? rows : (int)column_of(a) - (int)column_of(b);
}

static inline void sort(struct pattern *p)
{
    qsort(p->list, p->nonzeros, GULZORENO_ENTRY, by_place);
}

/* No nonzeros yet, and as many lines as there may be. */
static inline void clear(struct pattern *p)
{
    p->m = p->n = GULZORENO_MOST_LINES;
    p->nonzeros = 0;
}

/* As many lines and nonzeros as there may be: in each row a nonzero every 23 columns, from a column of its own on. */
static inline void scatter(struct pattern *p)
{
    const unsigned lines = GULZORENO_MOST_LINES;
    clear(p);
    for (unsigned t = 0; t < GULZORENO_MOST_NONZEROS; t++)
        add_nonzero(p, t % lines, (7 * (t % lines) + 23 * (t / lines)) % lines);
    sort(p);
}

/* The cap of both parts from a percentage: the whole part of (100 + percent) * ceiling(nonzeros / 2) / 100. It is never too low
 * for a split. */
static inline uint64_t cap_from_percent(uint64_t nonzeros, uint64_t percent)
{
    return (100 + percent) * ((nonzeros + 1) / 2) / 100;
}

#endif
