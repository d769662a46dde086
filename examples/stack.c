/* A host in C that measures how much of its stack a call takes. It makes the largest calls, each in a thread of its own whose
 * stack has GULZORENO_STACK bytes and a fifth more. Below that lies a page that nobody may touch, so that a call which needed
 * more would end the process. The stack is filled before the thread starts; afterwards the lowest byte that has changed tells
 * how much was taken. Ends with status 1 if a call took more than GULZORENO_STACK bytes or did not answer as expected. */
#define _DEFAULT_SOURCE
#include "pattern.h"

#include <pthread.h>
#include <stdio.h>
#include <string.h>
#include <sys/mman.h>
#include <unistd.h>

enum { FILL = 0xa5, LINES = GULZORENO_MOST_LINES, NONZEROS = GULZORENO_MOST_NONZEROS };

static const size_t stack_size = (GULZORENO_STACK + GULZORENO_STACK / 5) / 16 * 16;
static uint8_t *stack; /* its lowest byte; the page below may not be touched */

/* A call with its arguments and its outcome. */
struct call {
    struct pattern p;
    size_t list_len, parts_len, figures_len;
    uint64_t cap0, cap1, budget, answer;
    uint8_t parts[NONZEROS], figures[GULZORENO_FIGURES];
    size_t taken;
};

/* The bytes of the stack from the lowest that has changed up to a frame. What the deepest call had for itself below that, and did
 * not write, is not seen. */
static size_t taken_below(const uint8_t *frame)
{
    const uint8_t *lowest = stack;
    while (lowest < frame && *lowest == FILL)
        lowest++;
    return (size_t)(frame - lowest);
}

/* What a thread does. Its own frame, some tens of bytes, is counted with the call. */
static void *make(void *argument)
{
    struct call *c = argument;
    c->answer = gulzoreno_bipartition(c->p.m, c->p.n, c->p.nonzeros, c->p.list, c->list_len, c->cap0, c->cap1, c->budget,
                                      c->parts, c->parts_len, c->figures, c->figures_len);
    c->taken = taken_below(__builtin_frame_address(0));
    return NULL;
}

static void give_up(const char *what)
{
    perror(what);
    exit(2);
}

/* Memory for the stack, above a page that may not be touched. */
static void make_stack(void)
{
    size_t page = (size_t)sysconf(_SC_PAGESIZE), size = page + (stack_size + page - 1) / page * page;
    uint8_t *memory = mmap(NULL, size, PROT_READ | PROT_WRITE, MAP_PRIVATE | MAP_ANONYMOUS, -1, 0);
    if (memory == MAP_FAILED || mprotect(memory, page, PROT_NONE) != 0)
        give_up("stack");
    stack = memory + page;
}

static size_t most_taken = 0;

/* Makes a call in a thread with that stack, which is filled before. */
static void make_in_thread(struct call *c)
{
    pthread_t thread;
    pthread_attr_t attributes;
    memset(stack, FILL, stack_size);
    if (pthread_attr_init(&attributes) != 0 || pthread_attr_setstack(&attributes, stack, stack_size) != 0 ||
        pthread_create(&thread, &attributes, make, c) != 0 || pthread_join(thread, NULL) != 0)
        give_up("thread");
    pthread_attr_destroy(&attributes);
}

/* Prints a call and what it took. Answers 0 if that is allowed and the answer is the one expected. */
static int measure(const char *name, struct call *c, uint64_t expected)
{
    printf("%s, %u nonzeros, caps %u and %u, budget %u: ", name, (unsigned)c->p.nonzeros, (unsigned)c->cap0, (unsigned)c->cap1,
           (unsigned)c->budget);
    fflush(stdout);
    make_in_thread(c);
    printf("answer %u at %u, %u bytes\n", (unsigned)GULZORENO_REFUSAL(c->answer), (unsigned)GULZORENO_PLACE(c->answer),
           (unsigned)c->taken);
    if (c->taken > most_taken)
        most_taken = c->taken;
    return c->taken > GULZORENO_STACK || c->answer != expected;
}

/* ---- patterns in which the last row crosses all other columns and the last column all other rows: once the one is marked 0 and
 * the other 1, every nonzero in neither of them is a conflict of its row with its column. */

static void add_row(struct pattern *p, unsigned row, unsigned first, unsigned end)
{
    for (unsigned column = first; column < end; column++)
        add_nonzero(p, row, column);
    if (row < LINES - 1)
        add_nonzero(p, row, LINES - 1);
}

/* Row i has `width` columns from column i on, as far as there are `columns`, and the last but one has column 0 alone. So each row
 * is matched with the column of its number, until that one leads by column 0 to row 0, by column 1 to row 1 and so on, through all
 * of them. With LINES - 1 columns it ends at the last, which is free; with one less there is none, and it ends nowhere. */
static void make_path(struct pattern *p, unsigned columns, unsigned width)
{
    clear(p);
    for (unsigned row = 0; row < LINES - 2; row++)
        add_row(p, row, row, row + width < columns ? row + width : columns);
    add_row(p, LINES - 2, 0, 1);
    add_row(p, LINES - 1, 0, LINES - 1);
}

/* As many rows as there are nonzeros for have as many columns. */
static void make_block(struct pattern *p)
{
    unsigned side = 0;
    while ((side + 1) * (side + 1) + 2 * (LINES - 1) <= NONZEROS)
        side++;
    clear(p);
    for (unsigned row = 0; row < LINES - 1; row++)
        add_row(p, row, 0, row < side ? side : 0);
    add_row(p, LINES - 1, 0, LINES - 1);
}

/* Cap 0 admits the last row, which comes first, but not the last column with it, so that the third try marks the one 0 and the
 * other 1. After one try or two this marking is open, and the showing finds its bound; after three or four the run has found it
 * too, and it is what comes before the trail's last mark, which the showing checks. */
static int measure_conflicts(const char *name, struct call *c)
{
    int wrong = 0;
    c->cap0 = LINES;
    c->cap1 = GULZORENO_MOST_CAP;
    for (c->budget = 0; c->budget <= 4; c->budget++)
        wrong |= measure(name, c, GULZORENO_NONE_YET);
    c->budget = 20000;
    return wrong | measure(name, c, GULZORENO_SPLIT);
}

static int measure_all_conflicts(struct call *c)
{
    make_path(&c->p, LINES - 1, 2);
    int wrong = measure_conflicts("the longest path", c);
    make_path(&c->p, LINES - 1, 11);
    wrong |= measure_conflicts("the longest path, more conflicts", c);
    make_path(&c->p, LINES - 2, 11);
    wrong |= measure_conflicts("a path that ends nowhere", c);
    make_block(&c->p);
    return wrong | measure_conflicts("all rows with all columns", c);
}

/* ---- other patterns */

/* As many nonzeros as there may be, row by row. */
static void make_rows(struct pattern *p)
{
    clear(p);
    for (unsigned t = 0; t < NONZEROS; t++)
        add_nonzero(p, t / LINES, t % LINES);
}

/* Under the least caps that are equal, under the greatest, and with nearly all nonzeros in one part. */
static int measure_caps(const char *name, struct call *c)
{
    const uint64_t most = GULZORENO_MOST_CAP, half = c->p.nonzeros / 2, few = c->p.nonzeros / 100;
    const uint64_t caps[][2] = {{half, half}, {most, most}, {few, c->p.nonzeros - few}, {c->p.nonzeros - few, few}};
    int wrong = 0;
    c->budget = 20000;
    for (size_t k = 0; k < sizeof caps / sizeof caps[0]; k++) {
        c->cap0 = caps[k][0];
        c->cap1 = caps[k][1];
        wrong |= measure(name, c, GULZORENO_SPLIT);
    }
    return wrong;
}

static int measure_refused(struct call *c)
{
    const struct call before = *c;
    int wrong = 0;
    c->list_len = GULZORENO_ENTRY * c->p.nonzeros - 1;
    wrong |= measure("a short list", c, GULZORENO_SHORT_BUFFER);
    *c = before;
    c->p.m = LINES + 1;
    wrong |= measure("a row too many", c, GULZORENO_TOO_BIG);
    *c = before;
    c->p.list[GULZORENO_ENTRY * (NONZEROS - 1) + 1] = 2;
    wrong |= measure("a split number", c, GULZORENO_SPLIT_NUMBER + 256 * (NONZEROS - 1));
    *c = before;
    c->cap0 = c->cap1 = 0;
    wrong |= measure("no split", c, GULZORENO_NO_SPLIT);
    *c = before;
    c->budget = GULZORENO_MOST_BUDGET + 1;
    wrong |= measure("a budget too high", c, GULZORENO_BUDGET);
    *c = before;
    c->figures_len = GULZORENO_FIGURES - 1;
    return wrong | measure("short figures", c, GULZORENO_SHORT_BUFFER);
}

int main(void)
{
    static struct call c = {.list_len = sizeof c.p.list, .parts_len = sizeof c.parts, .figures_len = sizeof c.figures};
    make_stack();
    int wrong = measure_all_conflicts(&c);
    scatter(&c.p);
    wrong |= measure_caps("scattered nonzeros", &c);
    make_rows(&c.p);
    wrong |= measure_caps("full rows", &c);
    wrong |= measure_refused(&c);
    printf("%u bytes of the stack at most, of %u\n", (unsigned)most_taken, (unsigned)GULZORENO_STACK);
    return wrong;
}
