/* Keeps the rows and prints them as docs/BENCH.md has them: those that linebox loses first, the worst above, then the others, what there is of each
 * length, then the stack. */
#include "measure.h"
#include "row.h"
#include <stdio.h>
#include <stdlib.h>
#include <string.h>

struct row { const char *name, *work, *way; double bytes, wire; struct measured ours, theirs[COMPILERS]; };
enum { ROWS = 400 };
static struct row rows[ROWS];
static int count;

/* The two compilers of a way come one after the other; zlib has one. */
void keep(const char *name, const char *work, double bytes, double wire, int place, const char *way, struct measured ours, struct measured theirs) {
    if (count == 0 || place % COMPILERS == 0 || strcmp(rows[count - 1].way, way) || strcmp(rows[count - 1].name, name))
        rows[count++] = (struct row){.name = name, .work = work, .way = way, .bytes = bytes, .wire = wire, .ours = ours};
    rows[count - 1].theirs[place % COMPILERS] = theirs;
}

static double worst(const struct row *r) {
    double least = 1e9;
    for (int c = 0; c < COMPILERS; c++) if (r->theirs[c].time > 0 && r->theirs[c].ratio.middle < least) least = r->theirs[c].ratio.middle;
    return least;
}

static int loses(const struct row *r) { return worst(r) < BEHIND; }

static int by_loss(const void *a, const void *b) {
    double x = worst(*(struct row *const *)a), y = worst(*(struct row *const *)b);
    return (x > y) - (x < y);
}

static void print_time(double ns) { printf(ns > 0 ? ns < 99.95 ? " %.1f |" : " %.0f |" : " |", ns); }

static void print_ratio(struct measured m) {
    int digits = m.ratio.middle < 0.1 ? 3 : 2;
    if (m.time > 0) printf(" %.*f (%.*f to %.*f) |", digits, m.ratio.middle, digits, m.ratio.low, digits, m.ratio.high);
    else printf(" |");
}

static void print_count(struct measured m) { printf(m.time > 0 && m.steps.instructions ? " %ld |" : " |", m.steps.instructions); }

static void print_row(const struct row *r) {
    printf("| %s | %.0f | %s |", r->name, r->bytes, r->way);
    for (int c = 0; c < COMPILERS; c++) print_ratio(r->theirs[c]);
    print_time(r->ours.time);
    for (int c = 0; c < COMPILERS; c++) print_time(r->theirs[c].time);
    print_count(r->ours);
    for (int c = 0; c < COMPILERS; c++) print_count(r->theirs[c]);
    printf(" %.0f |\n", r->wire / 11520 * 1e9 / r->ours.time);
}

static void print_heading(const char *title) {
    printf("## %s\n\n| Call | Bytes | Against | clang's ratio | gcc's ratio | linebox, ns | clang, ns | gcc, ns "
           "| linebox, instr. | clang, instr. | gcc, instr. | wire |\n|---|--:|---|--:|--:|--:|--:|--:|--:|--:|--:|--:|\n", title);
}

static void print_rows(void) {
    static struct row *lost[ROWS];
    int n = 0;
    for (int i = 0; i < count; i++) if (loses(&rows[i])) lost[n++] = &rows[i];
    qsort(lost, (size_t)n, sizeof *lost, by_loss);
    print_heading("Rows that linebox loses");
    for (int i = 0; i < n; i++) print_row(lost[i]);
    puts("");
    print_heading("Rows that it does not lose");
    for (int i = 0; i < count; i++) if (!loses(&rows[i])) print_row(&rows[i]);
    puts("");
}

static void print_depths(const struct row *r, const long *depth) {
    printf("| %s | %ld | %s |", r->work, depth[0], r->way);
    for (int c = 0; c < COMPILERS; c++) printf(r->theirs[c].time > 0 ? " %ld |" : " |", depth[c + 1]);
    puts("");
}

/* The deepest stack of each call and way over all rows; rows of one call and way are found by the first of them. */
static void print_stack(void) {
    puts("## Stack\n\n| Call | linebox | Against | clang | gcc |\n|---|--:|---|--:|--:|");
    for (int i = 0; i < count; i++) {
        long most[1 + COMPILERS] = {0};
        int first = i;
        for (int k = 0; k < count; k++) {
            if (strcmp(rows[k].work, rows[i].work) || strcmp(rows[k].way, rows[i].way)) continue;
            if (k < first) first = k;
            for (int c = 0; c <= COMPILERS; c++) {
                long s = (c ? rows[k].theirs[c - 1] : rows[k].ours).steps.stack;
                if (s > most[c]) most[c] = s;
            }
        }
        if (first == i) print_depths(&rows[i], most);
    }
    puts("");
}

void print_tables(void) {
    print_rows();
    print_each_length();
    print_stack();
}
