/* Exact bipartitioning of a sparse pattern: the function for a host in C.
 *
 * It divides the nonzeros of a matrix over two parts, 0 and 1. No part gets more nonzeros than its cap; the two caps may differ.
 * A line, which is a row or a column, is cut if it has nonzeros in both parts, and the volume of a split is its number of cut
 * lines. A complete search gives a split of the least volume under the caps.
 *
 * Build the archive with `rt lib` in crates/gulzoreno_c and link its out/libgulzoreno_c.a, or a copy under the name libgulzoreno.a
 * as examples/run makes it. It needs memcpy and memset of the C library and nothing else. */
#ifndef GULZORENO_H
#define GULZORENO_H

#include <stddef.h>
#include <stdint.h>

#ifdef __cplusplus
extern "C" {
#endif

/* The limits. */
#define GULZORENO_MOST_LINES 300      /* rows, and columns; at least 1 of each */
#define GULZORENO_MOST_NONZEROS 4000  /* and at most rows times columns */
#define GULZORENO_MOST_CAP 4000       /* nonzeros of one part */
#define GULZORENO_MOST_BUDGET 1000000 /* tries of one call */

/* An entry of the list: its row in two bytes, lowest first, then its column likewise, both counted from 0. */
#define GULZORENO_ENTRY 4
#define GULZORENO_AT_ROW 0
#define GULZORENO_AT_COLUMN 2

/* The bytes of its stack that a call takes at most. A thread that makes calls should have a stack of these and a fifth more. It
 * is where a bound's matching is searched that the most is taken: from a row to a column and on to the next row, one call within
 * another, through 299 rows at most. */
#define GULZORENO_STACK 147456

/* The answers other than a refusal. */
#define GULZORENO_SPLIT 0      /* parts and figures are written */
#define GULZORENO_NONE_YET 255 /* the budget ended before a split was found; nothing is written */

/* A refusal is number + 256 * place, and then nothing is written. The place is the number of the offending nonzero for 17, 5
 * and 10, and 0 for the others. The checks are made in this order, and the first that fails is answered; 17, 5 and 10 are
 * checked for nonzero 0, then for nonzero 1, and so on.
 *
 *    4  too big       m, n or nonzeros outside its range
 *    9  short buffer  list has fewer than 4 * nonzeros bytes
 *   17  split number  the high byte of a row or of a column is over 1
 *    5  off matrix    row not below m, or column not below n
 *   10  order         a nonzero does not come after the one before it, by row and then by column
 *   11  cap           cap0 or cap1 outside its range
 *   12  no split      nonzeros above cap0 + cap1: no split meets both caps
 *   13  budget        budget outside its range
 *    9  short buffer  parts has fewer than `nonzeros` bytes, or figures fewer than 32 */
#define GULZORENO_REFUSAL(answer) ((answer) % 256)
#define GULZORENO_PLACE(answer) ((answer) / 256)

#define GULZORENO_TOO_BIG 4
#define GULZORENO_OFF_MATRIX 5
#define GULZORENO_SHORT_BUFFER 9
#define GULZORENO_ORDER 10
#define GULZORENO_CAP 11
#define GULZORENO_NO_SPLIT 12
#define GULZORENO_BUDGET 13
#define GULZORENO_SPLIT_NUMBER 17

/* The figures: four numbers of eight bytes each, lowest byte first, at these offsets. */
#define GULZORENO_FIGURES 32
#define GULZORENO_AT_VOLUME 0
#define GULZORENO_AT_TRIES 8
#define GULZORENO_AT_FLOOR 16
#define GULZORENO_AT_COMPLETE 24

/* Searches for a split of least volume, for at most `budget` tries.
 *
 *   m, n                  rows and columns, 1 to 300 each
 *   nonzeros              0 to 4000, and at most m * n
 *   list, list_len        the nonzeros: four bytes for each, row low, row high, column low and column high, counted from 0,
 *                         strictly rising by row and then column. Bytes past the first 4 * nonzeros are not looked at
 *   cap0, cap1            most nonzeros of part 0 and of part 1, 0 to 4000 each
 *   budget                most tries, 0 to 1000000. A search makes all of them unless it is complete before
 *   parts, parts_len      out: the part, 0 or 1, of each nonzero in the list's order. Bytes past the first `nonzeros` stay
 *   figures, figures_len  out: 32 bytes. Bytes past them stay
 *       volume            cut lines of the split written
 *       tries             tries made
 *       floor             no split that meets both caps has a lower volume
 *       complete          1 if the search is complete, and then the volume is the least and equals the floor; 0 otherwise
 *
 * Answers 0 with parts and figures written, or 255, or a refusal; with the last two no byte of parts or figures is changed.
 *
 * The three slices stay the caller's. Each pointer must not be null, even where its length is 0, and must point to as many bytes
 * as its length says; parts and figures must overlap neither each other nor list, and nothing else may write any of the three
 * during the call. There is no other demand on the arguments: any numbers and any bytes are answered.
 *
 * The function allocates nothing, keeps nothing between calls and has no state of its own, so that equal arguments give equal
 * answers, every call starts its search anew, and threads may call it at once, with one list for all of them if they like, but
 * each with parts and figures of its own. A call takes at most GULZORENO_STACK bytes of its stack; a thread should have these
 * and a fifth more. */
uint64_t gulzoreno_bipartition(uint64_t m, uint64_t n, uint64_t nonzeros,
                               const uint8_t *list, size_t list_len,
                               uint64_t cap0, uint64_t cap1, uint64_t budget,
                               uint8_t *parts, size_t parts_len,
                               uint8_t *figures, size_t figures_len);

#ifdef __cplusplus
}
#endif

#endif
