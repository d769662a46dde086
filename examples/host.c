/* A host in C: splits the 2 by 2 diagonal, a row of three with one nonzero apart, under equal and unequal caps, a pattern of the
 * largest size within few tries, and each Matrix Market pattern that is named, at 3 percent, and prints parts, loads and volume.
 * It counts the cut lines itself, and ends with status 1 if they are not the volume that the function wrote, or if a part has
 * more nonzeros than its cap. */
#include "pattern.h"

#include <ctype.h>
#include <stdio.h>
#include <string.h>

/* A figure of eight bytes, lowest first. */
static uint64_t figure(const uint8_t *figures, size_t at)
{
    uint64_t x = 0;
    for (size_t i = 8; i-- > 0;)
        x = 256 * x + figures[at + i];
    return x;
}

/* The lines with nonzeros in both parts. */
static unsigned cut_lines(const struct pattern *p, const uint8_t *parts)
{
    unsigned char held[2 * GULZORENO_MOST_LINES] = {0}; /* bit 0: nonzeros in part 0; bit 1: in part 1 */
    unsigned cut = 0;
    for (uint64_t t = 0; t < p->nonzeros; t++) {
        const uint8_t *entry = p->list + GULZORENO_ENTRY * t;
        held[row_of(entry)] |= 1 << parts[t];
        held[p->m + column_of(entry)] |= 1 << parts[t];
    }
    for (uint64_t l = 0; l < p->m + p->n; l++)
        cut += held[l] == 3;
    return cut;
}

/* Prints the parts of the first nonzeros, and how many nonzeros each part has. */
static void print_parts(const uint8_t *parts, uint64_t nonzeros, const unsigned *load)
{
    const uint64_t most = 300;
    printf("  parts ");
    for (uint64_t t = 0; t < nonzeros && t < most; t++)
        printf("%u", parts[t]);
    printf("%s\n  loads %u and %u\n", nonzeros > most ? "..." : "", load[0], load[1]);
}

/* Splits a pattern and prints what comes of it. Answers 0 if the function's volume is the number of cut lines and both caps are
 * met. */
static int split(const char *name, const struct pattern *p, uint64_t cap0, uint64_t cap1, uint64_t budget)
{
    uint8_t parts[GULZORENO_MOST_NONZEROS];
    uint8_t figures[GULZORENO_FIGURES];
    unsigned load[2] = {0, 0};
    uint64_t answer = gulzoreno_bipartition(p->m, p->n, p->nonzeros, p->list, sizeof p->list, cap0, cap1, budget,
                                            parts, sizeof parts, figures, sizeof figures);

    printf("%s: %u by %u, %u nonzeros, caps %u and %u, budget %u\n", name, (unsigned)p->m, (unsigned)p->n,
           (unsigned)p->nonzeros, (unsigned)cap0, (unsigned)cap1, (unsigned)budget);
    if (answer == GULZORENO_NONE_YET) {
        printf("  none yet\n");
        return 0;
    }
    if (answer != GULZORENO_SPLIT) {
        printf("  refused %u at %u\n", (unsigned)GULZORENO_REFUSAL(answer), (unsigned)GULZORENO_PLACE(answer));
        return 0;
    }
    for (uint64_t t = 0; t < p->nonzeros; t++)
        load[parts[t]]++;
    print_parts(parts, p->nonzeros, load);
    uint64_t volume = figure(figures, GULZORENO_AT_VOLUME);
    printf("  volume %u, tries %u, floor %u, %s\n", (unsigned)volume, (unsigned)figure(figures, GULZORENO_AT_TRIES),
           (unsigned)figure(figures, GULZORENO_AT_FLOOR),
           figure(figures, GULZORENO_AT_COMPLETE) ? "complete" : "stopped");
    unsigned cut = cut_lines(p, parts);
    printf("  cut lines counted here: %u\n", cut);
    return cut != volume || load[0] > cap0 || load[1] > cap1;
}

/* The same at 3 percent. */
static int split_at_3_percent(const char *name, const struct pattern *p, uint64_t budget)
{
    uint64_t cap = cap_from_percent(p->nonzeros, 3);
    return split(name, p, cap, cap, budget);
}

/* Whether the last word of a text's first line is symmetric, in any letter case. Changes the line. */
static int is_symmetric(char *banner)
{
    const char *last = "";
    for (char *c = banner; *c != 0; c++)
        *c = (char)tolower((unsigned char)*c);
    for (char *word = strtok(banner, " \t\r\n"); word != NULL; word = strtok(NULL, " \t\r\n"))
        last = word;
    return strcmp(last, "symmetric") == 0;
}

/* Adds the nonzero of an entry, whose row and column are counted from 1, and of a symmetric text the one across the diagonal.
 * Answers 0 if they lie in the matrix and there is room. */
static int add_entry(struct pattern *p, unsigned i, unsigned j, int symmetric)
{
    if (i < 1 || j < 1 || add_nonzero(p, i - 1, j - 1) != 0)
        return 1;
    return symmetric && i != j ? add_nonzero(p, j - 1, i - 1) : 0;
}

/* Reads a Matrix Market pattern from an open file; values are skipped, and a symmetric one is opened out. Answers 0 if it fits. */
static int read_lines(FILE *f, struct pattern *p)
{
    char line[1024];
    unsigned m, n, entries, i, j;
    if (fgets(line, sizeof line, f) == NULL)
        return 1;
    int symmetric = is_symmetric(line);
    do {
        if (fgets(line, sizeof line, f) == NULL)
            return 1;
    } while (line[0] == '%');
    if (sscanf(line, "%u %u %u", &m, &n, &entries) != 3 || m > GULZORENO_MOST_LINES || n > GULZORENO_MOST_LINES)
        return 1;
    p->m = m;
    p->n = n;
    p->nonzeros = 0;
    for (unsigned t = 0; t < entries; t++)
        if (fgets(line, sizeof line, f) == NULL || sscanf(line, "%u %u", &i, &j) != 2 || add_entry(p, i, j, symmetric) != 0)
            return 1;
    sort(p);
    return 0;
}

/* Reads a Matrix Market pattern that fits the limits. Answers 0 if it could. */
static int read_pattern(const char *path, struct pattern *p)
{
    FILE *f = fopen(path, "r");
    if (f == NULL)
        return 1;
    int bad = read_lines(f, p);
    fclose(f);
    return bad;
}

int main(int argc, char **argv)
{
    static const struct pattern diagonal = {2, 2, 2, {0, 0, 0, 0, 1, 0, 1, 0}};
    static const struct pattern split_row = {2, 2, 2, {0, 0, 0, 0, 1, 2, 1, 0}}; /* of nonzero 1: 1 + 256 * 2 */
    static const struct pattern apart = {2, 4, 4, {0, 0, 0, 0, 0, 0, 1, 0, 0, 0, 2, 0, 1, 0, 3, 0}};
    static struct pattern p;
    int wrong = split("the 2 by 2 diagonal", &diagonal, 1, 1, 100);

    wrong |= split("the 2 by 2 diagonal", &diagonal, 1, 1, 3);
    wrong |= split("the 2 by 2 diagonal", &diagonal, 0, 0, 100);
    wrong |= split("a row number with high byte 2", &split_row, 1, 1, 100);
    wrong |= split("three in a row, one apart", &apart, 2, 2, 100);
    wrong |= split("three in a row, one apart", &apart, 1, 3, 100);
    scatter(&p);
    wrong |= split_at_3_percent("a pattern of the largest size", &p, 10000);
    for (int k = 1; k < argc; k++) {
        if (read_pattern(argv[k], &p) != 0) {
            fprintf(stderr, "%s: no pattern that fits\n", argv[k]);
            return 1;
        }
        const char *name = strrchr(argv[k], '/');
        wrong |= split_at_3_percent(name == NULL ? argv[k] : name + 1, &p, GULZORENO_MOST_BUDGET);
    }
    return wrong;
}
